#!/usr/bin/env python3
"""Refuses each allocation and each thread of the programs in turn, with a C library.

Run it at the top of the repository, after `rt run < /dev/null` has built each program in its crate,
or with COBRA_AUDIT, COBRA_CHECK and COBRA_DEMO naming them, and after `rt test` in
crates/library_tests and crates/search_tests. What isn't built is left out. It needs cc:

    python3 bench/check/refused_memory.py [--every N] [--only WORD] [--lasting]

For each run in its table, and each n up to the run's number of allocations, the program is run with
its nth allocation refused; with --lasting all are refused from the nth on, until it has answered a
line. Then one of the following has to happen; it prints a line per run with how often each did:

- given again: the auditor has answered a line NoMemory. Then the state is the one before the line,
  a round is open exactly if one was open before, and when the line is given again it is answered as
  usual, a collect after its search.
- ended: with status 1 and `out of memory`, after whole lines that are a prefix of the right output.
- nothing seen: the library goes on without the memory that was refused.
- passed: a test that calls again what was refused memory, and checks what it answers then.

If workers share a round's search, its report only has to be one that the plain model (`judge.py`)
finds right.

The runs are the worked scripts of crates/cobra_examples/data, as a whole; four of them step by
step, with workers, and handed over to another run; their stored replies for cobra_check; the
demonstration; and the tests in which memory may be refused, but not those with --lasting. --every
takes only each Nth allocation, --only the runs whose name contains WORD. At the end it prints which
commands of the auditor were answered NoMemory, and how often while a round was open. The status is
1 if anything else happened.
"""
import argparse
import json
import mmap
import os
import shutil
import struct
import subprocess
import sys
import tempfile
from collections import Counter

HERE = os.path.dirname(os.path.abspath(__file__))
sys.path[:0] = [HERE, os.path.join(HERE, "../../python")]
sys.path[:0] = [os.path.join(os.path.dirname(os.path.abspath(__file__)), "../model")]
from judge import Model, command_of, first_difference, told_txn  # noqa: E402
from plain_verdicts import Wrong  # noqa: E402

SHIM = r"""
#define _GNU_SOURCE
#include <dlfcn.h>
#include <errno.h>
#include <fcntl.h>
#include <pthread.h>
#include <stdlib.h>
#include <sys/mman.h>
#include <unistd.h>
extern void *__libc_malloc(size_t);
extern void *__libc_calloc(size_t, size_t);
extern void *__libc_realloc(void *, size_t);
extern void *__libc_memalign(size_t, size_t);
static int (*create)(pthread_t *, const pthread_attr_t *, void *(*)(void *), void *);
/* allocations so far; the first and the last that is refused; threads so far; the refused one; the
   most bytes that one allocation asked for */
static unsigned long unused[6], *page = unused;
static int is_refused(size_t size) {
    unsigned long call = __atomic_add_fetch(&page[0], 1, __ATOMIC_SEQ_CST), most = page[5];
    while (most < size && !__atomic_compare_exchange_n(&page[5], &most, size, 0, __ATOMIC_SEQ_CST,
                                                       __ATOMIC_SEQ_CST)) {}
    unsigned long first = __atomic_load_n(&page[1], __ATOMIC_SEQ_CST);
    if (!first || call < first || page[2] < call) return 0;
    errno = ENOMEM;
    return 1;
}
void *malloc(size_t size) { return is_refused(size) ? 0 : __libc_malloc(size); }
void *calloc(size_t count, size_t size) {
    return is_refused(count * size) ? 0 : __libc_calloc(count, size);
}
void *realloc(void *block, size_t size) {
    return is_refused(size) ? 0 : __libc_realloc(block, size);
}
void *aligned_alloc(size_t align, size_t size) {
    return is_refused(size) ? 0 : __libc_memalign(align, size);
}
int posix_memalign(void **block, size_t align, size_t size) {
    void *found = is_refused(size) ? 0 : __libc_memalign(align, size);
    if (found) *block = found;
    return found ? 0 : ENOMEM;
}
int pthread_create(pthread_t *thread, const pthread_attr_t *how, void *(*run)(void *),
                   void *with) {
    unsigned long call = __atomic_add_fetch(&page[3], 1, __ATOMIC_SEQ_CST);
    return call == page[4] ? EAGAIN : create(thread, how, run, with);
}
__attribute__((constructor)) static void start(void) {
    create = dlsym(RTLD_NEXT, "pthread_create");
    int file = open(getenv("PAGE"), O_RDWR);
    if (file < 0 || !create) abort();
    void *shared = mmap(0, 4096, PROT_READ | PROT_WRITE, MAP_SHARED, file, 0);
    if (shared == MAP_FAILED) abort();
    close(file);
    page = shared;
}
"""
NO_MEMORY, ROUND_OPEN = b'["no",16,"NoMemory"]\n', b'["no",10,"RoundOpen"]\n'
OK = b'["ok"]\n'
SHOW = b'["show"]\n'
# No session joins by it, for lack of an anchor; but if a round is open the reply says so.
PROBE = b'["join",63,[[[],[5]]]]\n'
ENDED = (1, b"out of memory\n")
FOR_EVER = 2**63
SECONDS = 300.0  # within which a program has to end
STEPS = ("real_split", "first_cut", "gone_read", "unordered_writers")
# Tests that pass whichever allocation is refused. They call the store, and the solver of one
# thread, once more where memory was refused.
TESTS = (("library_tests", "stores::a_fault_acts_once_where_it_applies"),
         ("library_tests", "stores::an_honest_store_answers_the_last_writer"),
         ("search_tests", "orders::refused_memory_changes_no_answer"),
         ("search_tests", "searches::refused_memory_changes_no_answer_of_a_search"))
DEMONSTRATION = b"lost-update 1\n"
PROGRAMS = {}  # paths by program name, set by a caller


def has_compiler():
    return shutil.which("cc") is not None


def path_of(name):
    return PROGRAMS.get(name) or os.environ.get(name.upper()) or f"crates/{name}/out/{name}"


def tests_of(crate):
    return os.path.join(HERE, "../../crates", crate, "out", f"{crate}_tests")


class Shim:
    """The library, in a folder, with what it counts and refuses."""

    def __init__(self, folder):
        self.library, self.counted = f"{folder}/refuse.so", f"{folder}/counted"
        with open(f"{folder}/refuse.c", "w", encoding="ascii") as file:
            file.write(SHIM)
        subprocess.run(["cc", "-O1", "-shared", "-fPIC", "-o", self.library, f"{folder}/refuse.c",
                        "-ldl"], check=True)
        with open(self.counted, "wb") as file:
            file.truncate(4096)
        with open(self.counted, "r+b") as file:
            self.page = mmap.mmap(file.fileno(), 4096)

    def start(self, program, *words, refused=0, is_lasting=False, thread=0):
        """Starts the program over pipes, with these arguments. `refused` is the number of an
        allocation, or of a thread, or 0."""
        last = FOR_EVER if is_lasting else refused
        struct.pack_into("6Q", self.page, 0, 0, refused, last, 0, thread, 0)
        pipes = {"stdin": subprocess.PIPE, "stdout": subprocess.PIPE, "stderr": subprocess.PIPE}
        return subprocess.Popen([program, *words], bufsize=0, **pipes,
                                env={"LD_PRELOAD": self.library, "PAGE": self.counted})

    def lift(self):
        """Refuses nothing more."""
        struct.pack_into("Q", self.page, 8, 0)

    def counts(self):
        """How many allocations, and how many threads, the last program has requested."""
        return struct.unpack_from("Q", self.page)[0], struct.unpack_from("Q", self.page, 24)[0]

    def largest(self):
        """The most bytes that the last program has requested at once."""
        return struct.unpack_from("Q", self.page, 40)[0]

    def run(self, program, given, *words, **refused):
        """The output for a whole input, the status and the messages."""
        with self.start(program, *words, **refused) as running:
            told, said = running.communicate(given, timeout=SECONDS)
        return told, (running.returncode, said)


class Audit:
    """A script for an auditor, which is the first word of the name, given line by line. With
    `is_judged`, when workers share a search, a report may differ from that of the run in which
    nothing was refused."""
    lasts = True  # whether all allocations may be refused from one on

    def __init__(self, name, lines, owed=None, is_judged=False):
        self.name, self.lines = name, [line + b"\n" for line in lines]
        self.path = path_of(name.split(",")[0])
        self.owed, self.shows, self.is_judged = owed, None, is_judged
        self.refused, self.in_rounds = Counter(), 0  # commands; those while a round was open

    def prepare(self, shim):
        """Runs it with nothing refused; returns how many allocations and threads there were."""
        _, self.shows, _, ended = self.run(shim, shows=True)
        replies, _, _, also = self.run(shim)
        if (ended, also) != ((0, b""),) * 2 or self.owed not in (None, replies):
            raise Wrong(f"{self.name}: with nothing refused it ends with {also}: {replies}")
        found = first_difference(b"".join(self.lines), b"".join(replies))
        if found:
            raise Wrong(f"{self.name}: with nothing refused: {found}")
        self.owed = replies
        return shim.counts()

    def run(self, shim, shows=False, **refused):
        """The replies, the states before each line, where memory ran out, and the end."""
        with shim.start(self.path, **refused) as running:
            replies, states, again, search = [], [], [], b""
            for line in self.lines:
                if shows:
                    states.append(state_of(running))
                reply = ask(running, line)
                if reply == NO_MEMORY:
                    shim.lift()
                    self.look(running, len(replies), line)
                    again.append(len(replies))
                    if is_word(line, "collect") and ask(running, search) != OK:
                        raise Wrong(f"behind {line!r} {search!r} can't be given again")
                    reply = ask(running, line)
                if is_word(line, "search"):
                    search = line
                if not reply.endswith(b"\n"):
                    break
                replies.append(reply)
            rest, said = running.communicate(timeout=SECONDS)
        if rest:
            raise Wrong(f"behind all replies it writes {rest!r}")
        return replies, states, again, (running.returncode, said)

    def look(self, running, place, line):
        """Checks that the line that was answered NoMemory has changed nothing."""
        state = state_of(running)
        if state != self.shows[place]:
            raise Wrong(f"behind {line!r} the state is {state!r}, before it {self.shows[place]!r}")
        self.refused[command_of(line[:-1])[0]] += 1
        self.in_rounds += state[1] == ROUND_OPEN

    def way(self, shim, **refused):
        """What happened. Raises Wrong if that isn't allowed."""
        replies, _, again, ended = self.run(shim, **refused)
        if ended not in ((0, b""), ENDED) or len(again) > 1:
            raise Wrong(f"it ends with {ended}, {again}")
        if ended == (0, b"") and len(replies) != len(self.owed):
            raise Wrong(f"it ends behind {len(replies)} replies of {len(self.owed)}")
        if self.is_judged:
            script = b"".join(self.lines[:len(replies)])
            found = first_difference(script, b"".join(replies))
        else:
            found = None if replies == self.owed[:len(replies)] else "other replies"
        if found:
            raise Wrong(f"{found}: {replies}")
        return "ended" if ended == ENDED else "given again" if again else "nothing seen"


def is_word(line, word):
    """Whether the line is a command of this name."""
    command = command_of(line[:-1])
    return command is not None and command[0] == word


def state_of(running):
    """What is kept, and whether a round is open."""
    return ask(running, SHOW), ask(running, PROBE)


def ask(running, line):
    """The reply to a line; empty if the program has ended."""
    try:
        running.stdin.write(line)
    except OSError:
        pass
    reply = b""
    while not reply.endswith(b"\n"):
        piece = running.stdout.readline()
        if not piece:
            break
        reply += piece
    return reply


class Whole:
    """A program that is given its whole input at once."""
    lasts = True

    def __init__(self, name, given):
        self.name, self.path, self.given, self.owed = name, path_of(name.split(",")[0]), given, None

    def prepare(self, shim):
        self.owed, ended = shim.run(self.path, self.given)
        if ended != (0, b""):
            raise Wrong(f"{self.name}: with nothing refused it ends with {ended}")
        return shim.counts()

    def way(self, shim, **refused):
        told, ended = shim.run(self.path, self.given, **refused)
        if (told, ended) == (self.owed, (0, b"")):
            return "nothing seen"
        if ended == ENDED and self.owed.startswith(told) and (not told or told.endswith(b"\n")):
            return "ended"
        raise Wrong(f"it ends with {ended}, and has written {told!r}")


class Tested:
    """A test of a crate, which has to pass. It calls again what was refused memory, so memory may
    not be refused for ever."""
    lasts = False

    def __init__(self, crate, test):
        self.name, self.path, self.test = f"{crate}, {test}", tests_of(crate), test

    def prepare(self, shim):
        self.way(shim)
        return shim.counts()

    def way(self, shim, **refused):
        told, (status, said) = shim.run(self.path, b"", self.test, **refused)
        if status or not told.endswith(b"test result: ok\n"):
            raise Wrong(f"it ends with {status}, and has written {told!r}, {said!r}")
        return "passed"


def lines_of(path):
    with open(path, "rb") as file:
        text = file.read()
    return text.removesuffix(b"\n").split(b"\n") if text else []


def compact(told):
    return json.dumps(told, separators=(",", ":")).encode()


def by_steps(lines):
    """A script whose rounds are begun and finished separately, followed by everything else that
    takes memory."""
    found, counts = [], Counter()
    for line in lines:
        command = command_of(line)
        if command[0] == "offer":
            counts[command[1]] += len(command[3])
        found += ([b'["begin"]', compact(["finish", *command[1:]])] if command[0] == "round"
                  else [line])
    return [*found, b'["rebuild"]', b'["begin"]', b'["finish",64,0,1]', b'["truncate"]',
            b'["save","marks"]', b'["save","last",0]', b'["save","remain",0,0]', b'["rebuild"]',
            b'["round",64,0,1]', b'["begin"]', compact(["offer", 1, counts[1], [[[], [9]]]]),
            b'["close",0]', b'["finish",64,0,1]', b'["show"]']


def with_workers(lines):
    """A script whose rounds are shared by four workers."""
    return [b'["round",2048,6,4]' if command_of(line)[0] == "round" else line for line in lines]


def handed_over(lines):
    """What the script's run keeps, handed over to another one, which runs a round and a cut."""
    model = Model()
    for line in lines:
        command = command_of(line)
        if command[0] != "round":
            getattr(model, command[0])(*command[1:])
    parts = model.parts
    found = [["resume", len(parts.gone), 16], ["marks", parts.gone, parts.closed],
             ["last", [[key, *parts.base[key]] for key in sorted(parts.base)]]]
    found += [["offer", session, parts.gone[session], list(map(told_txn, txns))]
              for session, txns in enumerate(parts.remaining)]
    return [*map(compact, found), b'["resumed"]', b'["round",64,0,1]', b'["truncate"]', b'["show"]']


def runs(data):
    """The table."""
    for name in sorted(os.listdir(data)):
        if not name.endswith(".jsonl"):
            continue
        name = name[:-len(".jsonl")]
        lines, replies = (lines_of(f"{data}/{name}.{end}") for end in ("jsonl", "replies"))
        yield Audit(f"cobra_audit, {name}", lines, [reply + b"\n" for reply in replies])
        if name in STEPS:
            yield Audit(f"cobra_audit, {name} by steps", by_steps(lines))
            yield Audit(f"cobra_audit, {name} with workers", with_workers(lines), is_judged=True)
            yield Audit(f"cobra_audit, {name} handed over", handed_over(lines))
            turns = b"".join(line + b"\n" + reply + b"\n" for line, reply in zip(lines, replies))
            yield Whole(f"cobra_check, {name}", turns)
    yield Whole("cobra_demo, lost-update 1", DEMONSTRATION)
    yield from (Tested(*each) for each in TESTS)


def is_built(run):
    return os.access(run.path, os.X_OK)


def ways_of(shim, run, numbers, **how):
    """How many runs had which result, and what was wrong with the others."""
    ways, wrong = Counter(), []
    for what, number in numbers:
        try:
            ways[run.way(shim, **{what: number}, **how)] += 1
        except (Wrong, subprocess.TimeoutExpired, ValueError) as why:
            ways["WRONG"] += 1
            wrong.append(f"{run.name}, {what} {number}: {why}")
    return ways, wrong


def main():
    asked = argparse.ArgumentParser(description=__doc__.split("\n\n")[0])
    asked.add_argument("--every", type=int, default=1, help="only each Nth allocation (1)")
    asked.add_argument("--only", default="", help="only runs with this in their name")
    asked.add_argument("--lasting", action="store_true", help="refuse all from the nth on")
    asked = asked.parse_args()
    how = {"is_lasting": True} if asked.lasting else {}
    ways, words, in_rounds = Counter(), Counter(), 0
    with tempfile.TemporaryDirectory() as folder:
        shim = Shim(folder)
        for run in runs(os.path.join(HERE, "../../crates/cobra_examples/data")):
            if asked.only not in run.name or asked.lasting and not run.lasts:
                continue
            if not is_built(run):
                print(f"{run.name}: not built")
                continue
            made, threads = run.prepare(shim)
            numbers = [("refused", each) for each in range(1, made + 1, asked.every)]
            numbers += [("thread", each) for each in range(1, threads + 1)]
            found, wrong = ways_of(shim, run, numbers, **how)
            ways += found
            told = ", ".join(f"{count} {it}" for it, count in sorted(found.items()))
            print(f"{run.name}: {made} allocations, {threads} threads; {told}", *wrong[:5],
                  sep="\n  ", flush=True)
            if isinstance(run, Audit):
                words, in_rounds = words + run.refused, in_rounds + run.in_rounds
    told = ", ".join(f"{count} {word}" for word, count in sorted(words.items()))
    print(f"answered NoMemory: {told or 'none'}; {in_rounds} of them in an open round")
    print(f"{sum(ways.values())} refused, {ways['WRONG']} of them with a wrong end")
    sys.exit(1 if ways["WRONG"] else 0)


if __name__ == "__main__":
    main()
