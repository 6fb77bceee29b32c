"""Kills `zanteyard watch` again and again, while clients come and go, and counts what they notice.

    python3 bench/check/watch_killed.py [--minutes 60] [--clients 200] [--every 60] [--rate 100]

Each client connects through the proxy, makes some transactions, leaves, and comes again. All
together they begin --rate transactions a second. Each transaction writes a row of its client's own
and reads another one's. Every --every seconds `watch` is killed by SIGKILL, and the next one is
started at once with the same arguments; it takes the proxy over. At the end the last one is told to
end by SIGINT.

A client counts each transaction that it was told is committed, and each error of any kind. A line a
minute, and one at the end, has these sums, and where the transactions are: in the audit that runs,
by reason (`/status.json`), in earlier ones whose `watch` was killed, or while there was none. Before
each kill the clients pause until each transaction is in one of these places, and then go on for two
seconds, so that it is killed with everybody at work. The exit status is 1 if a client saw an error,
if the rows aren't what was committed, if the proxy was ever another process, or if more or fewer
transactions are counted than were committed.

It needs PostgreSQL, psycopg2, a built proxy (ZANTEYARD_PROXY, or Go) and the auditor.
"""

import argparse
import collections
import json
import multiprocessing
import os
import random
import shutil
import signal
import socket
import subprocess
import sys
import tempfile
import threading
import time
import urllib.request

TOP = os.path.join(os.path.dirname(os.path.abspath(__file__)), "../..")
sys.path[:0] = [os.path.join(TOP, "python"), os.path.join(TOP, "python/tests")]

import psycopg2
from proxy_pair import Server, hears_interrupts, postgres_program, proxy_program

PROCESSES = 4  # that the clients are spread over
LIMIT = 120.0  # seconds for whatever has to happen
PAUSE = 8.0  # seconds before a kill at which the clients pause
SETTLED = 30.0  # seconds for which an audit's sums stay the same, if it hasn't counted everything


def free_port():
    with socket.socket() as its:
        its.bind(("127.0.0.1", 0))
        return its.getsockname()[1]


class Clients:
    """Some of the clients, in a process of their own. Sums go through a pipe, one line a second."""

    def __init__(self, first, count, port, rate):
        self.first, self.count, self.port, self.rate = first, count, port, rate
        self.lock = threading.Lock()
        self.sums = collections.Counter()
        self.errors = []

    def run(self, pipe, is_over, rests):
        self.is_over, self.rests = is_over, rests
        threads = [threading.Thread(target=self.client, args=(self.first + i,)) for i in range(self.count)]
        for each in threads:
            each.start()
        while any(each.is_alive() for each in threads):
            is_over.wait(0.5)
            self.send(pipe)
            if is_over.is_set():
                for each in threads:
                    each.join()
        self.send(pipe)
        pipe.close()

    def send(self, pipe):
        with self.lock:
            pipe.send((dict(self.sums), list(self.errors)))

    def client(self, row):
        chance = random.Random(row)
        while not self.is_over.is_set():
            if self.rests.is_set():
                self.is_over.wait(0.05)
                continue
            try:
                self.stay(row, chance)
            except psycopg2.Error as error:
                with self.lock:
                    self.sums["errors"] += 1
                    self.errors.append(f"{time.time():.3f} {type(error).__name__}: {error}"[:300])
                self.is_over.wait(1)

    def stay(self, row, chance):
        where = f"host=127.0.0.1 port={self.port} user=postgres dbname=postgres application_name=c{row}"
        connection = psycopg2.connect(where)
        with self.lock:
            self.sums["connections"] += 1
        try:
            for _ in range(chance.randint(1, 30)):
                cursor = connection.cursor()
                cursor.execute("SELECT n FROM own WHERE id = %s", (row,))
                n = cursor.fetchone()[0]
                cursor.execute("SELECT n FROM own WHERE id = %s", (chance.randrange(self.count),))
                cursor.fetchall()
                cursor.execute("UPDATE own SET n = %s WHERE id = %s", (n + 1, row))
                connection.commit()
                with self.lock:
                    self.sums["committed"] += 1
                if self.is_over.wait(chance.expovariate(self.rate / self.count)) or self.rests.is_set():
                    break
        finally:
            connection.close()


class Watch:
    """One `zanteyard watch`."""

    def __init__(self, call, environment, page):
        self.page, self.status, self.began = page, None, time.time()
        self.process = subprocess.Popen(
            call, env=environment, stdin=subprocess.DEVNULL, stdout=subprocess.PIPE,
            stderr=subprocess.PIPE, text=True, start_new_session=True,
        )
        self.log, self.out = [], []
        self.readers = [
            threading.Thread(target=lambda: self.log.extend(iter(self.process.stderr.readline, ""))),
            threading.Thread(target=lambda: self.out.extend(iter(self.process.stdout.readline, ""))),
        ]
        for each in self.readers:
            each.start()

    def audits(self):
        """Waits until it audits."""
        ends = time.monotonic() + LIMIT
        while not any("auditing for" in line for line in self.log):
            if self.process.poll() is not None or time.monotonic() > ends:
                raise SystemExit("watch doesn't audit:\n" + "".join(self.log))
            time.sleep(0.05)

    def look(self):
        try:
            with urllib.request.urlopen(f"http://{self.page}/status.json", timeout=5) as its:
                self.status = json.load(its)
        except (OSError, ValueError):
            pass
        return self.status

    def ended(self):
        self.process.wait(LIMIT)
        for each in self.readers:
            each.join()
        return self.process.returncode


def counted(status):
    """How many transactions an outcome accounts for, and in which places."""
    if not status:
        return 0, {}
    its, before = status["seen"]["transactions"], status["before"]
    places = {"checked": its["checked"], **its["in_part"], **its["not_checked"], "waiting": its["waiting"],
              "rolled back": its["rolled_back"], "in earlier audits": before["untold"],
              "while there was none": before["unaudited"]}
    return sum(places.values()), {place: n for place, n in places.items() if n}


def settle(watch, committed):
    """Waits until as many transactions are counted as were committed, or the sums don't change any more."""
    ends, before, since = time.monotonic() + LIMIT, None, time.monotonic()
    while time.monotonic() < min(ends, since + SETTLED):
        time.sleep(0.5)
        now = counted(watch.look())[0], committed()
        if now != before:
            before, since = now, time.monotonic()
        elif now[0] == now[1] and time.monotonic() > since + 2:
            break


def proxy_of(folder):
    """The process number of the proxy behind the control socket."""
    for name in os.listdir(folder):
        if name.endswith(".sock"):
            with socket.socket(socket.AF_UNIX) as its:
                its.settimeout(10)
                its.connect(os.path.join(folder, name))
                its.sendall(b'{"command":"who"}\n')
                return json.loads(its.makefile().readline())["process"]
    return None


def main():
    hears_interrupts()
    signal.signal(signal.SIGINT, signal.default_int_handler)  # a shell's & ignores it, which `watch` would inherit
    parser = argparse.ArgumentParser(description=__doc__, formatter_class=argparse.RawDescriptionHelpFormatter)
    parser.add_argument("--minutes", type=float, default=60)
    parser.add_argument("--clients", type=int, default=200)
    parser.add_argument("--every", type=float, default=60, metavar="SECONDS")
    parser.add_argument("--rate", type=float, default=100, metavar="A_SECOND")
    options = parser.parse_args()
    if not postgres_program("initdb"):
        raise SystemExit("PostgreSQL isn't installed")
    folder = tempfile.mkdtemp()
    os.chmod(folder, 0o755)
    try:
        return run(options, folder)
    finally:
        shutil.rmtree(folder, ignore_errors=True)


def run(options, folder):
    program = proxy_program(folder)
    server = Server(os.path.join(folder, "server"))
    server.initialize()
    with open(os.path.join(server.data, "postgresql.conf"), "a", encoding="ascii") as settings:
        settings.write(f"max_connections = {2 * options.clients + 50}\n")
    server.start()
    where = f"postgresql://postgres@127.0.0.1:{server.port}/postgres"
    listen, page = free_port(), f"127.0.0.1:{free_port()}"
    control = os.path.join(folder, "control")
    os.mkdir(control, 0o700)
    environment = {**os.environ, "ZANTEYARD_PROXY": program, "RUNTIME_DIRECTORY": control,
                   "PYTHONPATH": os.path.join(TOP, "python")}
    call = [sys.executable, "-m", "zanteyard", "watch", where, "--trust-clients", "--json",
            "--listen", f"127.0.0.1:{listen}", "--page", page]
    direct = psycopg2.connect(where)
    direct.autocommit = True
    direct.cursor().execute("CREATE TABLE own (id int PRIMARY KEY, n int NOT NULL)")
    direct.cursor().execute("INSERT INTO own SELECT i, 0 FROM generate_series(0, %s) i", (options.clients,))
    watch = Watch(call, environment, page)
    watch.audits()
    proxies = {proxy_of(control)}
    is_over, rests = multiprocessing.Event(), multiprocessing.Event()
    parts, pipes = [], []
    for i in range(PROCESSES):
        first, beyond = (options.clients * each // PROCESSES for each in (i, i + 1))
        mine, theirs = multiprocessing.Pipe(duplex=False)
        clients = Clients(first, beyond - first, listen, options.rate / PROCESSES)
        part = multiprocessing.Process(target=clients.run, args=(theirs, is_over, rests))
        part.start()
        theirs.close()
        parts.append(part)
        pipes.append(mine)
    sums, errors = [{} for _ in parts], [[] for _ in parts]

    def read():
        for i, pipe in enumerate(pipes):
            try:
                while pipe.poll():
                    sums[i], errors[i] = pipe.recv()
            except EOFError:
                pass
        return sum((collections.Counter(each) for each in sums), collections.Counter())

    failed, kills, log = False, 0, []
    began = time.monotonic()
    while time.monotonic() - began < 60 * options.minutes:
        until = time.monotonic() + options.every
        while time.monotonic() < until - PAUSE:
            time.sleep(0.5)
            read()
            watch.look()
        rests.set()  # nothing is committed for a while, so that sums can be compared
        settle(watch, lambda: read()["committed"])
        now, (all_, by) = read(), counted(watch.status)
        print(f"{(time.monotonic() - began) / 60:5.1f} min: {now['connections']:,} connections, "
              f"{now['committed']:,} committed, {now['errors']} errors, {kills} kills; {all_:,} counted: {by}", flush=True)
        if all_ != now["committed"]:
            failed = True
            print("      what is counted isn't what was committed", flush=True)
        if now["errors"] and not log:
            log = [line.rstrip() for line in watch.log[-50:]]
            print(*log, sep="\n", flush=True)
        last = time.monotonic() - began >= 60 * options.minutes - 1
        if last:
            break
        rests.clear()
        time.sleep(2)  # killed with everybody at work
        watch.process.send_signal(signal.SIGKILL)
        watch.ended()
        kills += 1
        watch = Watch(call, environment, page)
        watch.audits()
        proxies.add(proxy_of(control))
    is_over.set()
    for part in parts:
        part.join(LIMIT)
    now = read()
    cursor = direct.cursor()
    cursor.execute("SELECT sum(n) FROM own")
    rows = cursor.fetchone()[0]
    watch.process.send_signal(signal.SIGINT)
    status = watch.ended()
    outcome = json.loads(watch.out[-1]) if watch.out else {}
    all_, by = counted(outcome)
    print(f"{kills} kills of watch; {now['connections']:,} connections; {now['committed']:,} committed, as clients "
          f"were told, {rows:,} in the rows, {all_:,} counted in the last outcome: {by}; {now['errors']} errors; "
          f"{len(proxies)} proxy; the last outcome: {outcome.get('verdict')}, status {status}", flush=True)
    for each in errors:
        for line in each[:20]:
            print("   ", line)
    server.stop()
    failed = failed or now["errors"] > 0 or not rows == all_ == now["committed"] or len(proxies) != 1 or status != 0
    return 1 if failed else 0


if __name__ == "__main__":
    sys.exit(main())
