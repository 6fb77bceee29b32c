"""What logging and auditing cost an application, in transactions per second.

    python3 bench/cost/postgres_plain.py [--seconds N] [--times N] [--clients N] [--workload NAME ..]

Three ways alternate. "plain" is the application without the package: the same keys read and written
over a table of two columns, with the same driver, with no names and no log. "named" are the
package's sessions, which write a name next to each value, and nobody takes their log. "audited" is
the same with the auditor. Rates are means, with the loss compared with plain. The clients are
threads of one process, which wait for each other's interpreter: that is where logging costs most.
With TMPDIR=/dev/shm the server's folder is in memory. `bench/cost/postgres_cost.py` compares named and
audited more closely.
"""
import argparse
import os
import random
import statistics
import sys

import psycopg2
from psycopg2 import errors

TOP = os.path.join(os.path.dirname(os.path.abspath(__file__)), "../..")
sys.path[:0] = [os.path.join(TOP, "examples"), os.path.join(TOP, "python")]
from postgres_live import WORKLOADS, Clients, Nothing
from zanteyard import AbortedError, Auditor, LiveAuditor, Session
from zanteyard.trial.postgres_server import PostgresServer
from zanteyard.stores.postgres import PostgresStore, prepare

READ = "SELECT value FROM plain WHERE key = %s"
WRITE = """INSERT INTO plain VALUES (%s, %s)
    ON CONFLICT (key) DO UPDATE SET value = excluded.value"""


class Plain:
    """The application without the package, with the two calls that a workload makes."""

    longest, waited = 0.0, 0.0

    def __init__(self, dsn):
        self.connection = psycopg2.connect(dsn)
        self.connection.set_session(isolation_level="serializable")
        self.cursor = self.connection.cursor()

    def get(self, key):
        self.cursor.execute(READ, (key,))
        row = self.cursor.fetchone()
        return row and row[0]

    def put(self, key, value):
        self.cursor.execute(WRITE, (key, value))

    def run(self, body, attempts=1):
        try:
            body(self)
            self.connection.commit()
        except (errors.SerializationFailure, errors.DeadlockDetected) as error:
            self.connection.rollback()
            raise AbortedError(str(error)) from error


def run(way, cluster, asked, workload):
    """Committed transactions per second."""
    with psycopg2.connect(cluster.dsn) as connection:
        connection.cursor().execute("TRUNCATE zanteyard, plain")
    connection.close()
    stores = [PostgresStore(cluster.dsn, "serializable") for _ in range(asked.clients)]
    body, count = WORKLOADS[workload], range(asked.clients)
    if way == "plain":
        clients = Clients([Plain(cluster.dsn) for _ in count], body, asked.seconds, lambda: False)
    elif way == "named":
        sessions = [Session(Nothing(), number, stores[number], "named") for number in count]
        clients = Clients(sessions, body, asked.seconds, lambda: False)
    else:
        with Auditor(asked.clients) as auditor:
            live = LiveAuditor(auditor, tell=lambda line: None)
            sessions = [live.session(store) for store in stores]
            clients = Clients(sessions, body, asked.seconds, lambda: live.is_over)
            live.stop()
    return clients.rate()


def main():
    asked = argparse.ArgumentParser(description=__doc__.splitlines()[0])
    asked.add_argument("--seconds", type=float, default=2.0, help="the length of a run (2)")
    asked.add_argument("--times", type=int, default=8, help="how many runs of each kind (8)")
    asked.add_argument("--clients", type=int, default=8, help="how many clients (8)")
    asked.add_argument("--workload", nargs="+", choices=WORKLOADS, default=[*WORKLOADS])
    asked = asked.parse_args()
    print("workload, plain a second, named and how much less, audited and how much less")
    with PostgresServer() as cluster:
        prepare(cluster.dsn)
        with psycopg2.connect(cluster.dsn) as connection:
            connection.cursor().execute("CREATE TABLE plain (key text PRIMARY KEY, value text)")
        connection.close()
        for workload in asked.workload:
            rates = {"plain": [], "named": [], "audited": []}
            for _ in range(asked.times):
                for way in random.sample(list(rates), 3):
                    rates[way].append(run(way, cluster, asked, workload))
            plain, named, audited = (statistics.mean(rates[way]) for way in rates)
            less = [f"{it:6.0f} {100 * (1 - it / plain):3.0f}%" for it in (named, audited)]
            print(f"{workload:8} {plain:6.0f}  {'  '.join(less)}", flush=True)


if __name__ == "__main__":
    main()
