"""New runs of PostgreSQL at repeatable read: they keep snapshot isolation, and those that aren't
serializable are reported."""
import os
import random
import tempfile
import threading
import unittest

from zanteyard import RATHER_WAIT, Auditor, LiveAuditor, Session
from zanteyard.explain._audited import from_start
from zanteyard.explain._shrinking import smaller
from zanteyard.explain._standing import standing
from zanteyard.program._auditor import PROGRAM
from zanteyard.promises._kinds import SERIALIZABLE, SNAPSHOT
from zanteyard.trial.postgres_server import PostgresServer, program
from zanteyard.trial.workloads import EVERY_WORKLOAD, Clients

from .overlapping import overlapping
from .waiting import SOON

try:
    import psycopg2

    from zanteyard.stores.postgres import READ, PostgresStore, prepare
except ImportError:
    psycopg2 = None

RUNS, CLIENTS, SECONDS = 20, 4, 0.4
RATE = 300.0  # transactions per second beside an audit
MOST = 400  # transactions of a run
EXPLAINED = 2  # of the runs that aren't serializable


class Recorder:
    """Takes what sessions did, in place of an auditor."""

    is_named = True

    def __init__(self, name):
        self.run_name, self.token = name, name
        self.entries, self.lock = [], threading.Lock()

    def take(self, *entry):
        with self.lock:
            self.entries.append(entry)

    def take_close(self, *_):
        pass


if psycopg2:

    class Stale(PostgresStore):
        """The fault: some transactions use a snapshot that is older than they are."""

        old, dice, reads_old = None, None, False

        def begin(self, seconds=None):
            super().begin(seconds)
            self.reads_old = self.old is not None and self.dice.random() < 0.2
            if self.old is None or self.dice.random() < 0.1:
                self.old = self.old or psycopg2.connect(self.dsn)
                self.old.rollback()
                self.old.set_session(isolation_level="REPEATABLE READ")
                self.old.cursor().execute("SELECT 1")
                self.dice = self.dice or random.Random(1)

        def read(self, key):
            if self.is_alone or not self.reads_old:
                return super().read(key)
            cursor = self.old.cursor()
            cursor.execute(READ.format(table=self.table), (key,))
            row = cursor.fetchone()
            return None if row is None else (row[0], row[1:])


@unittest.skipUnless(psycopg2 and program("initdb"), "PostgreSQL or psycopg2 is not installed")
@unittest.skipUnless(os.path.isfile(PROGRAM), f"{PROGRAM} is not built")
class OfRepeatableRead(unittest.TestCase):
    @classmethod
    def setUpClass(cls):
        cls.server = PostgresServer()
        cls.server.__enter__()
        cls.addClassCleanup(cls.server.__exit__)
        prepare(cls.server.dsn)

    def record(self, number, workload):
        recorder = Recorder(f"run {number}")
        stores = [PostgresStore(self.server.dsn, "repeatable read") for _ in range(CLIENTS)]
        sessions = [Session(recorder, at, store, recorder.run_name) for at, store in enumerate(stores)]
        is_over = lambda: len(recorder.entries) >= MOST
        with tempfile.TemporaryDirectory() as folder, overlapping(CLIENTS, folder):
            clients = Clients(sessions, EVERY_WORKLOAD[workload], SECONDS, is_over)
        self.assertEqual(clients.failures, [])
        for store in stores:
            store.close()
        return recorder.entries

    def verdict(self, entries, promise):
        with Auditor(CLIENTS, 2048, PROGRAM, promise=promise.name) as auditor:
            for entry in entries:
                auditor.offer(*entry)
            return auditor.round().kind, from_start(auditor)[0]

    def test_what_they_keep(self):
        violated = []
        for number in range(RUNS):
            entries = self.record(number, ("skew", "mixed", "counter", "blind")[number % 4])
            with self.subTest(run=number):
                self.assertEqual(self.verdict(entries, SNAPSHOT)[0], "serial")
                kind, history = self.verdict(entries, SERIALIZABLE)
                self.assertIn(kind, ("serial", "violated"))
                if kind == "violated":
                    violated.append(history)
        self.assertGreaterEqual(len(violated), EXPLAINED)
        for history in violated[:EXPLAINED]:
            found = standing(smaller(history, PROGRAM, SOON), PROGRAM, seconds=SOON)
            self.assertIn(SNAPSHOT, found.kept)
            self.assertIn(SERIALIZABLE, found.broken)

    def live(self, kinds, cuts, every=100):
        """The outcome of clients of these stores with a live audit for snapshot isolation, which
        ends after so many cuts."""
        with Auditor(len(kinds), program=PROGRAM, promise="snapshot") as auditor:
            live = LiveAuditor(auditor, every=every, policy=RATHER_WAIT, patience=SOON)
            stores = [kind(self.server.dsn, "repeatable read") for kind in kinds]
            sessions = [live.session(store) for store in stores]
            is_over = lambda: live.is_over or live.cuts >= cuts
            clients = Clients(sessions, EVERY_WORKLOAD["skew"], SOON, is_over, RATE)
            self.assertEqual(clients.failures, [])
            outcome = live.stop()
            for store in stores:
                store.close()
                if getattr(store, "old", None) is not None:
                    store.old.close()
            return outcome, live

    def test_clients_that_run(self):
        outcome, live = self.live([PostgresStore] * 3, 3)
        self.assertEqual(outcome.whole.kind, "serial", outcome)
        self.assertGreaterEqual(live.cuts, 3)

    def test_a_stale_snapshot_is_found(self):
        outcome, _ = self.live([PostgresStore, PostgresStore, Stale], float("inf"))
        self.assertTrue(outcome.is_violated, outcome)


if __name__ == "__main__":
    unittest.main()
