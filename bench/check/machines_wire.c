/* A network cable with a delay, for machines.py: two TUN devices, of which each gets the packets of the other one so many
   microseconds later, in their order. Kernels without netem have no other way.

       machines_wire DEVICE OTHER MICROSECONDS

   It says "ready" once both exist, and ends when its standard input does. */

#define _GNU_SOURCE
#include <errno.h>
#include <fcntl.h>
#include <linux/if.h>
#include <linux/if_tun.h>
#include <poll.h>
#include <stdio.h>
#include <stdlib.h>
#include <string.h>
#include <sys/ioctl.h>
#include <time.h>
#include <unistd.h>

#define PLACES 16384 /* packets under way, each way; further ones are lost, as on a real one */
#define LONGEST 1600

struct packet {
    long long due;
    int length;
    char bytes[LONGEST];
};

struct way {
    int from, to;
    unsigned first, next;
    struct packet *packets;
};

static long long now(void)
{
    struct timespec its;
    clock_gettime(CLOCK_MONOTONIC, &its);
    return its.tv_sec * 1000000000LL + its.tv_nsec;
}

static int device(const char *name)
{
    struct ifreq its;
    int file = open("/dev/net/tun", O_RDWR | O_NONBLOCK | O_CLOEXEC);
    memset(&its, 0, sizeof its);
    its.ifr_flags = IFF_TUN | IFF_NO_PI;
    strncpy(its.ifr_name, name, IFNAMSIZ - 1);
    if (file < 0 || ioctl(file, TUNSETIFF, &its) < 0) {
        perror(name);
        exit(1);
    }
    return file;
}

/* Takes what has arrived. */
static void take(struct way *way, long long delay)
{
    static char lost[LONGEST];
    for (int i = 0; i < 256; i++) {
        int is_full = way->next - way->first == PLACES;
        struct packet *place = &way->packets[way->next % PLACES];
        int length = read(way->from, is_full ? lost : place->bytes, LONGEST);
        if (length <= 0)
            return;
        if (!is_full) {
            place->length = length;
            place->due = now() + delay;
            way->next++;
        }
    }
}

/* Hands on what is due, and returns when the next one is, or -1. */
static long long hand_on(struct way *way)
{
    while (way->first != way->next) {
        struct packet *its = &way->packets[way->first % PLACES];
        if (its->due > now())
            return its->due;
        if (write(way->to, its->bytes, its->length) < 0 && errno == ENOMEM)
            return its->due;
        way->first++;
    }
    return -1;
}

int main(int count, char **words)
{
    struct way ways[2];
    if (count != 4) {
        fprintf(stderr, "usage: machines_wire DEVICE OTHER MICROSECONDS\n");
        return 2;
    }
    long long delay = atoll(words[3]) * 1000;
    for (int i = 0; i < 2; i++) {
        ways[i].from = device(words[1 + i]);
        ways[i].first = ways[i].next = 0;
        ways[i].packets = calloc(PLACES, sizeof *ways[i].packets);
        if (!ways[i].packets)
            return 1;
    }
    ways[0].to = ways[1].from;
    ways[1].to = ways[0].from;
    puts("ready");
    fflush(stdout);
    for (;;) {
        struct pollfd files[3] = {{ways[0].from, POLLIN, 0}, {ways[1].from, POLLIN, 0}, {0, POLLIN, 0}};
        long long due = -1;
        for (int i = 0; i < 2; i++) {
            long long its = hand_on(&ways[i]);
            if (its >= 0 && (due < 0 || its < due))
                due = its;
        }
        long long wait = due < 0 ? 1000000000LL : due - now();
        struct timespec until = {wait > 0 ? wait / 1000000000 : 0, wait > 0 ? wait % 1000000000 : 0};
        ppoll(files, 3, &until, NULL);
        if (files[2].revents)
            return 0;
        for (int i = 0; i < 2; i++)
            if (files[i].revents & POLLIN)
                take(&ways[i], delay);
    }
}
