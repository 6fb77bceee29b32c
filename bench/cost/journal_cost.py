#!/usr/bin/env python3
"""What a journal costs: auditors with and without a journal are given the same log, in turn.

    python3 bench/cost/journal_cost.py [--transactions 20000] [--keys 400] [--runs 5] [PROGRAM]
    python3 bench/cost/journal_cost.py --live [--postgres] [--seconds 5] [--kills] [--runs 5] [PROGRAM]

Eight sessions, in which each transaction reads a key and writes it, meet after every 2,560
transactions, as with a LiveAuditor, followed by a round and a cut. There is a row for each way of
giving the log: one transaction per line, or as many as a LiveAuditor gives at a time. The figures
are minimums over all runs, for each transaction: the time from the first line to the last answer,
in which this program makes the lines and cobra_audit answers them, and this program's own processor
time in it. A last row has the time that a new program took to reach a killed one's state. The
program has to know ["save",..].

With --live eight clients run with a LiveAuditor instead: threads over a store in memory, or
processes over PostgreSQL. The figures are the collector's processor time per transaction, as
medians of all runs: of the clients and of the process that they hand over to, without cobra_audit
and the server. With --kills cobra_audit is killed in the middle of each run that has a journal;
then the longest time that a client waited for a transaction is printed, with and without a kill.
"""
import argparse
import contextlib
import os
import signal
import statistics
import sys
import tempfile
import threading
import time

sys.path.insert(0, os.path.join(os.path.dirname(os.path.abspath(__file__)), "../../python"))
sys.path[:0] = [os.path.join(os.path.dirname(os.path.abspath(__file__)), "../model")]
from histories import Store  # noqa: E402
from zanteyard import FENCE, RATHER_WAIT, Auditor, AuditServer, LiveAuditor, Logged  # noqa: E402
from zanteyard.stores.memory import MemoryStore  # noqa: E402
from zanteyard.program._binaries import PROGRAM  # noqa: E402
from zanteyard.trial.workloads import EVERY_WORKLOAD, ClientProcesses, Clients  # noqa: E402

SESSIONS, EVERY, MOST = 8, 2560, 128


def history(transactions, keys):
    """Each session's log, and how many transactions of each were done at each meeting's end."""
    store, ends = Store(SESSIONS, 1, 0), []
    for number in range(1, transactions + 1):
        key = store.random.randint(1, keys)
        store.execute(store.random.randrange(SESSIONS), [key], [key])
        if number % EVERY == 0:
            for session in [*range(SESSIONS)] * 2:
                store.execute(session, [0], [0])
            ends.append([len(log) for log in store.logs])
    ends.append([len(log) for log in store.logs])
    return [[logged(*txn) for txn in log] for log in store.logs], ends


def logged(reads, writes):
    return Logged(
        [(name(key), it[0] if it == ["init"] else tuple(it)) for key, *it in reads],
        [name(key) for key in writes],
    )


def name(key):
    return f"account {key}" if key else FENCE


def fed(auditor, logs, ends, size):
    """Seconds, and seconds of this program's processor time."""
    given, began, busy = [0] * SESSIONS, time.monotonic(), time.process_time()
    for end in ends:
        while given != end:
            for session, log in enumerate(logs):
                txns = log[given[session] : min(given[session] + size, end[session])]
                if txns:
                    auditor.offer(session, given[session], *txns)
                    given[session] += len(txns)
        assert auditor.last_round().kind == "serial"
        if end is not ends[-1]:
            auditor.truncate()
    return time.monotonic() - began, time.process_time() - busy


def run(program, logs, ends, size, path):
    """The same; with a journal also how long a new program took, and the file's size."""
    with Auditor(SESSIONS, program=program, journal=path) as auditor:
        took = fed(auditor, logs, ends, size)
        if path is None:
            return took, None
        os.kill(auditor.program.process.pid, signal.SIGKILL)
        began = time.monotonic()
        auditor.ask(["show"])
        again = time.monotonic() - began, os.path.getsize(path)
    os.unlink(path)
    return took, again


def kill_later(auditor, seconds, kills):
    """Kills it once, after this many seconds."""
    time.sleep(seconds)
    with contextlib.suppress(ProcessLookupError):
        os.kill(auditor.program.process.pid, signal.SIGKILL)
        kills.append(auditor.program.process.pid)


def live_run(asked, folder, make_store, is_kept):
    """Microseconds per transaction, the longest one, how many programs were killed, and the
    outcome."""
    journal = f"{folder}/journal" if is_kept else None
    own, kills = time.process_time(), []
    with Auditor(SESSIONS, program=asked.program, journal=journal) as auditor:
        live = LiveAuditor(auditor, policy=RATHER_WAIT)
        killing = threading.Thread(target=kill_later, args=(auditor, asked.seconds / 2, kills))
        if is_kept and asked.kills:
            killing.start()
        if asked.postgres:
            with AuditServer(live, f"{folder}/audit") as server:
                clients = ClientProcesses(server.path, make_store, SESSIONS, "counter", asked.seconds, asked.rate)
            theirs = clients.whole
        else:
            store = MemoryStore()
            sessions = [live.session(store.connect()) for _ in range(SESSIONS)]
            clients = Clients(sessions, EVERY_WORKLOAD["counter"], asked.seconds, lambda: live.is_over, asked.rate)
            theirs = 0.0
        clients.rate()
        outcome = live.stop()
        used = theirs + time.process_time() - own
    if journal:
        os.unlink(journal)
    count = clients.committed + clients.aborted
    return 1e6 * used / count, clients.longest, len(kills), outcome, clients.rate()


def live(asked):
    with contextlib.ExitStack() as stack:
        folder, make_store = stack.enter_context(tempfile.TemporaryDirectory(prefix="zanteyard-")), None
        if asked.postgres:
            from zanteyard.trial.postgres_server import PostgresServer
            from zanteyard.stores.postgres import prepare
            from zanteyard.trial.store_kinds import MakeStore

            dsn = stack.enter_context(PostgresServer()).dsn
            prepare(dsn)
            make_store = MakeStore("postgres", dsn, "serializable")
        runs = {False: [], True: []}
        for _ in range(asked.runs):
            for is_kept, its in runs.items():
                its.append(live_run(asked, folder, make_store, is_kept))
                print(f"{'with' if is_kept else 'without'} a journal: {its[-1][3]}", flush=True)
        plain, kept = (statistics.median(it[0] for it in its) for its in runs.values())
        longest = [max(it[1] for it in its) for its in runs.values()]
        rates = [statistics.median(it[4] for it in its) for its in runs.values()]
        kills = sum(it[2] for it in runs[True])
        print(
            f"{plain:.0f} us of the collector's a transaction without a journal, {kept:.0f} with one ({100 * (kept / plain - 1):+.1f}%), "
            f"at {rates[0]:.0f} and {rates[1]:.0f} transactions a second; one took {longest[0]:.2f} s at most without, and "
            f"{longest[1]:.2f} s with one, while cobra_audit was killed {kills} times"
        )


def main():
    asked = argparse.ArgumentParser(description=__doc__.split("\n")[0])
    asked.add_argument("program", nargs="?", default=PROGRAM)
    asked.add_argument("--transactions", type=int, default=20000, help="the length of the log (20,000)")
    asked.add_argument("--keys", type=int, default=400, help="how many keys it has (400)")
    asked.add_argument("--runs", type=int, default=5, help="how many runs of each kind (5)")
    asked.add_argument("--live", action="store_true", help="run clients and a LiveAuditor instead")
    asked.add_argument("--postgres", action="store_true", help="with --live: over a PostgreSQL")
    asked.add_argument("--seconds", type=float, default=5.0, help="with --live: the length of a run (5)")
    asked.add_argument("--rate", type=float, help="with --live: transactions a second (no limit)")
    asked.add_argument("--kills", action="store_true", help="with --live: kill cobra_audit in each run")
    asked = asked.parse_args()
    if asked.live:
        live(asked)
        return
    logs, ends = history(asked.transactions, asked.keys)
    count = sum(ends[-1])
    with tempfile.TemporaryDirectory() as folder:
        for size in (1, MOST):
            found = {None: [], f"{folder}/journal": []}
            for _ in range(asked.runs):
                for path, its in found.items():
                    took, again = run(asked.program, logs, ends, size, path)
                    its.append([1e6 * each / count for each in took])
            (plain, busy), (kept, busier) = ([*map(min, zip(*its))] for its in found.values())
            print(
                f"{size} a line: {plain:.1f} us a transaction without a journal, {kept:.1f} with one ({100 * (kept / plain - 1):+.1f}%); "
                f"processor time {busy:.1f} and {busier:.1f} us"
            )
    print(f"a program was brought where the last one stood in {again[0]:.3f} s, by {again[1]} bytes")


if __name__ == "__main__":
    main()
