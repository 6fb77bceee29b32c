"""What an audit costs the clients of a PostgreSQL, in transactions per second.

    python3 bench/cost/postgres_cost.py [--seconds N] [--times N] [--clients N] [--every N] [--delay N]
        [--workload NAME ..] [--processes]

Rates are means, and the loss has its standard error: runs differ by a fifth and more when
processors are idle now and then, so many short runs say more than a few long ones. The table also
has, as medians: processor time per transaction begun, of the clients and what hands their log over,
and of the auditing; how much of their time clients waited for meetings, and the longest wait; and
the auditor's longest delay. The clients are threads of one process, or processes of their own. For
comparison, the same sessions run over the same store without the auditor, and nobody takes their
log. With --delay, in milliseconds, each statement takes that much longer, as over a network. With
TMPDIR=/dev/shm the server's folder is in memory; otherwise the disk would be measured.
"""
import argparse
import os
import random
import resource
import statistics
import sys
import tempfile
import time

import psycopg2

TOP = os.path.join(os.path.dirname(os.path.abspath(__file__)), "../..")
sys.path[:0] = [os.path.join(TOP, "examples"), os.path.join(TOP, "python")]
from postgres_live import WORKLOADS, ClientProcesses, Clients, Nothing
from zanteyard import Auditor, AuditServer, LiveAuditor, Session
from zanteyard.trial.postgres_server import PostgresServer, ended_by_signals
from zanteyard.stores.postgres import PostgresStore, prepare


class FarStore(PostgresStore):
    """A store whose statements take this many more seconds each."""

    def __init__(self, dsn, delay):
        super().__init__(dsn, "serializable")
        self.delay = delay

    def send(self, text, values=()):
        if self.delay:
            time.sleep(self.delay)
        return super().send(text, values)


class MakeStore:
    def __init__(self, dsn, delay):
        self.arguments = dsn, delay

    def __call__(self):
        return FarStore(*self.arguments)


def empty(dsn):
    """Empties the table; otherwise old versions of few rows pile up, and each run is slower than
    the previous one."""
    connection = psycopg2.connect(dsn)
    with connection:
        connection.cursor().execute("TRUNCATE zanteyard")
    connection.close()


def of_children():
    """Processor time of the child processes that have ended."""
    used = resource.getrusage(resource.RUSAGE_CHILDREN)
    return used.ru_utime + used.ru_stime


class Run:
    def __init__(self, cluster, asked, workload, is_audited):
        self.asked, self.workload = asked, workload
        self.make_store = MakeStore(cluster.dsn, asked.delay / 1000)
        empty(cluster.dsn)
        children, own = of_children(), time.process_time()
        clients = self.audited() if is_audited else self.clients(None)
        children, own = of_children() - children, time.process_time() - own
        used, beside = (children, own)[::-1]
        if asked.processes:
            used, beside = clients.used, own + children - clients.whole
        begun = clients.committed + clients.aborted
        self.rate, self.waited, self.longest = clients.rate(), 100 * clients.waited, clients.longest
        self.each, self.beside = 1e6 * used / begun, 1e6 * beside / begun

    def clients(self, live):
        """Runs the clients with this audit; None for none."""
        if self.asked.processes:
            return self.processes(live)
        stores = [self.make_store() for _ in range(self.asked.clients)]
        sessions = [
            live.session(store) if live else Session(Nothing(), number, store, "unaudited")
            for number, store in enumerate(stores)
        ]
        is_over = lambda: live is not None and live.is_over
        clients = Clients(sessions, WORKLOADS[self.workload], self.asked.seconds, is_over)
        for store in stores:
            store.close()
        return clients

    def processes(self, live):
        more = (self.asked.clients, self.workload, self.asked.seconds)
        if not live:
            return ClientProcesses(None, self.make_store, *more)
        with tempfile.TemporaryDirectory(prefix="zanteyard-") as folder:
            with AuditServer(live, f"{folder}/audit") as server:
                return ClientProcesses(server.path, self.make_store, *more)

    def audited(self):
        with Auditor(self.asked.clients) as auditor:
            with LiveAuditor(auditor, every=self.asked.every, tell=lambda line: None) as live:
                clients = self.clients(live)
                outcome = live.stop()
            self.kind, self.lag, self.meetings = outcome.kind, live.lag, live.meetings
            self.rounds, self.cuts = live.rounds, live.cuts
            return clients


def arguments():
    asked = argparse.ArgumentParser(description=__doc__.splitlines()[0])
    asked.add_argument("--seconds", type=float, default=3.0, help="the length of a run (3)")
    asked.add_argument("--times", type=int, default=12, help="how many runs of each kind (12)")
    asked.add_argument("--clients", type=int, default=8, help="how many clients (8)")
    asked.add_argument("--every", type=int, default=LiveAuditor.EVERY, help="transactions between two meetings")
    asked.add_argument("--delay", type=float, default=0.0, help="milliseconds by which each statement takes longer (0)")
    asked.add_argument("--workload", nargs="+", choices=WORKLOADS, default=[*WORKLOADS])
    asked.add_argument("--processes", action="store_true", help="clients in processes, not threads")
    return asked.parse_args()


def main():
    asked = arguments()
    print(
        "workload, without and with a second, less and its error, us each without and with, "
        "beside, waited, longest without and with, behind at most, verdicts, cuts of rounds",
        flush=True,
    )
    with ended_by_signals(), PostgresServer() as cluster:
        prepare(cluster.dsn)
        for workload in asked.workload:
            runs = {False: [], True: []}
            for _ in range(asked.times):
                for is_audited in random.sample((False, True), 2):
                    runs[is_audited].append(Run(cluster, asked, workload, is_audited))
            tell(workload, runs[False], runs[True])


def mean_with_error(rates):
    """The mean, and its standard error."""
    error = statistics.stdev(rates) / len(rates) ** 0.5 if len(rates) > 1 else 0.0
    return statistics.mean(rates), error


def tell(workload, alone, audited):
    median = lambda runs, name: statistics.median(getattr(run, name) for run in runs)
    longest = [max(run.longest for run in runs) for runs in (alone, audited)]
    rate_alone, error_alone = mean_with_error([run.rate for run in alone])
    rate, error = mean_with_error([run.rate for run in audited])
    less = 1 - rate / rate_alone
    less_error = (error**2 + (rate / rate_alone * error_alone) ** 2) ** 0.5 / rate_alone
    each = [median(runs, "each") for runs in (alone, audited)]
    beside = median(audited, "beside") - median(alone, "beside")
    kinds = ", ".join(sorted({run.kind for run in audited}))
    cuts = f"{sum(run.cuts for run in audited)} of {sum(run.rounds for run in audited)}"
    print(
        f"{workload:8} {rate_alone:6.0f} {rate:6.0f} {100 * less:5.1f}% +- "
        f"{100 * less_error:3.1f}  {each[0]:5.0f} {each[1]:5.0f} {beside:5.0f}  "
        f"{median(audited, 'waited'):4.1f}%  "
        f"{longest[0]:4.2f} {longest[1]:4.2f} s  {max(run.lag for run in audited):5.2f} s  "
        f"{kinds}  {cuts}",
        flush=True,
    )


if __name__ == "__main__":
    main()
