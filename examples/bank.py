#!/usr/bin/python3
"""A bank on PostgreSQL, in plain SQL, with four workers, audited by `zanteyard watch`.

    /usr/bin/python3 examples/bank.py --level repeatable     finds its bug: customers overdraw
    /usr/bin/python3 examples/bank.py --level serializable   has none
    /usr/bin/python3 examples/bank.py --driver psycopg       the same with psycopg 3

Its rule: a customer's two accounts may not be below 0 together. Each withdrawal looks at both, and
takes from one. It starts a server of its own, and ends with the audit's status: 0 if everything is
serial, 1 if it was violated.
"""

import argparse
import importlib
import os
import random
import signal
import socket
import subprocess
import sys
import threading
import time

HERE = os.path.dirname(os.path.abspath(__file__))
PACKAGE = os.path.join(os.path.dirname(HERE), "python")
sys.path.insert(0, PACKAGE)

import psycopg2

from zanteyard import comments
from zanteyard.trial.postgres_server import PostgresServer, ended_by_signals

CUSTOMERS, WORKERS = 20, 4
PORT = 6432  # of the proxy's socket
LISTENING, ENDING = 300.0, 600.0  # seconds for the audit to begin, and to end
AGAIN = ("SerializationFailure", "DeadlockDetected", "UniqueViolation")  # of either driver
SCHEMA = """
CREATE TABLE accounts (customer int, kind text, balance int NOT NULL, PRIMARY KEY (customer, kind));
CREATE TABLE transfers (id bigserial PRIMARY KEY, customer int NOT NULL, kind text NOT NULL,
    amount int NOT NULL, made timestamptz NOT NULL DEFAULT now());
CREATE TABLE reports (month int PRIMARY KEY, customers int NOT NULL, total bigint NOT NULL);
"""


class Overdrawn(Exception):
    """The rule forbids it."""


# The application. It knows nothing about the audit.


def balances(cursor, customer):
    cursor.execute("SELECT kind, balance FROM accounts WHERE customer = %s", (customer,))
    return dict(cursor.fetchall())


def move(cursor, customer, kind, amount):
    cursor.execute(
        "UPDATE accounts SET balance = balance + %s WHERE customer = %s AND kind = %s",
        (amount, customer, kind),
    )
    cursor.execute(
        "INSERT INTO transfers (customer, kind, amount) VALUES (%s, %s, %s) RETURNING id",
        (customer, kind, amount),
    )
    return cursor.fetchone()[0]


def deposit(cursor, customer):
    return move(cursor, customer, random.choice(("checking", "savings")), random.randint(1, 60))


def withdraw(cursor, customer):
    amount = random.randint(1, 60)
    if sum(balances(cursor, customer).values()) < amount:
        raise Overdrawn(customer)
    return move(cursor, customer, random.choice(("checking", "savings")), -amount)


def report(cursor, month):
    cursor.execute("SELECT customer, kind, balance FROM accounts")
    total = sum(balance for _, _, balance in cursor.fetchall())
    cursor.execute(
        "INSERT INTO reports VALUES (%s, %s, %s) "
        "ON CONFLICT (month) DO UPDATE SET total = excluded.total",
        (month, CUSTOMERS, total),
    )


def in_transaction(connection, work, *values):
    """Runs the transaction, again if the server asks for that."""
    while True:
        try:
            with whole(connection), connection.cursor() as cursor:
                return work(cursor, *values)
        except Overdrawn:
            return None
        except Exception as error:
            if type(error).__name__ not in AGAIN:
                raise
            time.sleep(random.uniform(0.0, 0.01))


def whole(connection):
    """A transaction's block, for either driver: `with connection` closes one of psycopg 3's."""
    return connection.transaction() if hasattr(connection, "transaction") else connection


def worker(connection, ends):
    while not ends():
        chance = random.random()
        customer = random.randrange(CUSTOMERS)
        if chance < 0.02:
            in_transaction(connection, report, random.randint(1, 12))
        else:
            in_transaction(connection, deposit if chance < 0.4 else withdraw, customer)


def open_bank(dsn):
    connection = psycopg2.connect(dsn)
    with connection, connection.cursor() as cursor:
        cursor.execute(SCHEMA)
        for customer in range(CUSTOMERS):
            cursor.execute(
                "INSERT INTO accounts VALUES (%s, 'checking', 30), (%s, 'savings', 30)",
                (customer, customer),
            )
    connection.close()


# Around the application: a server, and the audit.


def begin_server(cluster):
    """With the settings for a replication slot."""
    connection = psycopg2.connect(cluster.dsn)
    connection.autocommit = True
    connection.cursor().execute("ALTER SYSTEM SET wal_level = 'logical'")
    connection.close()
    cluster.stop()
    cluster.start()


class Watch:
    """`zanteyard watch`, from `with` to `end`. Its output is printed, without its log; `has_found`
    says whether a violation was found."""

    def __init__(self, cluster):
        url = f"postgresql://postgres@/postgres?host={cluster.folder}"
        self.socket = f"{cluster.folder}/.s.PGSQL.{PORT}"
        words = ["watch", url, "--listen", self.socket, "--log", "CRITICAL", "--trust-clients"]
        self.process = subprocess.Popen(
            [sys.executable, "-m", "zanteyard", *words],
            env={**os.environ, "PYTHONPATH": PACKAGE, "RUNTIME_DIRECTORY": cluster.folder},
            stdout=subprocess.PIPE,
            text=True,
        )
        self.has_found = threading.Event()
        self.printing = threading.Thread(target=self.print_all)
        self.printing.start()

    def __enter__(self):
        return self

    def print_all(self):
        for line in self.process.stdout:
            print(line, end="", flush=True)
            if line.startswith("violated"):
                self.has_found.set()

    def wait(self):
        """Waits until it listens. Ends the program if it can't begin, after it has said why."""
        ends = time.monotonic() + LISTENING
        while not self.listens():
            if self.process.poll() is not None or time.monotonic() > ends:
                sys.exit("the audit didn't begin")
            time.sleep(0.05)

    def listens(self):
        """Whether it accepts connections; its socket is there a moment earlier."""
        with socket.socket(socket.AF_UNIX) as probe:
            return probe.connect_ex(self.socket) == 0

    def end(self):
        """Ends it after a last round, and the proxy, too: after SIGTERM that would go on. Returns
        its status."""
        self.process.send_signal(signal.SIGINT)
        status = self.process.wait(ENDING)
        self.printing.join()
        return status

    def __exit__(self, *_):
        if self.process.poll() is None:
            self.end()


def connected(dsn, asked):
    """A connection through the proxy. The cursors add comments that say from which line a statement
    came."""
    if asked.driver == "psycopg":
        psycopg = importlib.import_module("psycopg")
        connection = psycopg.connect(dsn, cursor_factory=comments.psycopg_cursor())
        connection.isolation_level = psycopg.IsolationLevel[asked.level.upper().replace(" ", "_")]
        return connection
    connection = psycopg2.connect(dsn, cursor_factory=comments.psycopg2_cursor())
    connection.set_session(isolation_level=asked.level)
    return connection


def run(cluster, asked):
    """Runs the four workers until the time is up or a violation is found. Returns the audit's
    status."""
    with Watch(cluster) as watch:
        watch.wait()
        dsn = f"{cluster.dsn} port={PORT} application_name=bank"
        connections = [connected(dsn, asked) for _ in range(WORKERS)]
        ends_at = time.monotonic() + asked.seconds

        def ends():
            return time.monotonic() > ends_at or watch.has_found.is_set()

        threads = [threading.Thread(target=worker, args=(one, ends)) for one in connections]
        for thread in threads:
            thread.start()
        for thread in threads:
            thread.join()
        for connection in connections:
            connection.close()
        return watch.end()


def main():
    asked = argparse.ArgumentParser(description=__doc__.splitlines()[0])
    levels = {"repeatable": "repeatable read", "serializable": "serializable"}
    asked.add_argument("--level", choices=levels, default="repeatable")
    asked.add_argument("--driver", choices=("psycopg2", "psycopg"), default="psycopg2")
    asked.add_argument("--seconds", type=float, default=10.0)
    asked = asked.parse_args()
    asked.level = levels[asked.level]
    with ended_by_signals(), PostgresServer() as cluster:
        begin_server(cluster)
        open_bank(cluster.dsn)
        return run(cluster, asked)


if __name__ == "__main__":
    sys.exit(main())
