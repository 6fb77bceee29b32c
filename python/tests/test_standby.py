"""A PostgreSQL with a standby that lags: whoever asks the standby about a commit gets no answer,
whatever led there."""
import logging
import os
import tempfile
import unittest

from zanteyard import Auditor, Session
from zanteyard.stores._commit_status import UNKNOWN, find_out
from zanteyard.core._own_keys import FLAG
from zanteyard.trial.postgres_server import PostgresServer, program

try:
    import psycopg2

    from zanteyard.stores.postgres import PostgresStore, prepare
except ImportError:
    psycopg2 = None

from .store_client import count
from .waiting import SOON, wait_until

PLAIN = os.path.join(os.path.dirname(os.path.abspath(__file__)), "plain_auditor.py")


class Standby(PostgresServer):
    """A standby of this server."""

    def __init__(self, primary):
        super().__init__()
        self.primary = primary

    def run(self, name, *arguments, **more):
        if name == "initdb":
            name, arguments = "pg_basebackup", ("-D", self.data, "-h", self.primary.folder, "-U", "postgres", "-R", "-c", "fast")
        super().run(name, *arguments, **more)


@unittest.skipUnless(psycopg2 and program("pg_basebackup"), "PostgreSQL or psycopg2 isn't installed (no standby was asked)")
class Lagging(unittest.TestCase):
    def setUp(self):
        logging.getLogger("zanteyard").setLevel(logging.CRITICAL)
        self.addCleanup(logging.getLogger("zanteyard").setLevel, logging.NOTSET)
        self.primary = self.begun(PostgresServer())
        prepare(self.primary.dsn)
        self.standby = self.begun(Standby(self.primary))
        self.assertTrue(wait_until(lambda: self.asked(self.standby.dsn, "SELECT to_regclass('zanteyard')") is not None))
        self.asked(self.standby.dsn, "SELECT pg_wal_replay_pause()::text")
        self.assertTrue(wait_until(lambda: self.asked(self.standby.dsn, "SELECT pg_get_wal_replay_pause_state()") == "paused"))

    def begun(self, server):
        server.__enter__()
        self.addCleanup(server.__exit__)
        return server

    def asked(self, dsn, text):
        connection = psycopg2.connect(dsn)
        try:
            connection.autocommit = True
            cursor = connection.cursor()
            cursor.execute(text)
            return cursor.fetchone()[0]
        finally:
            connection.close()

    def store(self, dsn, **more):
        store = PostgresStore(dsn, patience=SOON, **more)
        self.addCleanup(store.close)
        return store

    def words(self, dsn):
        return psycopg2.extensions.parse_dsn(dsn)

    def test_a_commit_is_not_asked_about_at_a_standby(self):
        store = self.store(self.primary.dsn)
        store.begin()
        store.write("x", "1", ("run", 0, 0))
        store.commit()
        ticket = store.ticket(("x", "run", 0, 0))
        table = ("zanteyard",)
        self.assertEqual(store.outcome(), "committed")
        self.assertEqual(find_out(("postgres", self.words(self.primary.dsn), {}, *table), ticket, SOON)[0], "committed")
        store._its_dsn = self.standby.dsn
        self.assertEqual(store.outcome(), "unknown")
        asks = ("postgres", self.words(self.standby.dsn), {}, *table)
        self.assertEqual(find_out(asks, ticket, SOON), UNKNOWN)

    def test_nor_is_a_flag_of_the_collectors_own(self):
        """The standby has no process of the client, and no row yet: that says nothing."""
        key = f"{FLAG}1"
        store = self.store(self.primary.dsn)
        store.begin_alone(SOON)
        store.exchange(key, "", ("run", 1, 0))
        ticket = store.ticket((key, "run", 1, 0))
        self.assertEqual(find_out(("postgres", self.words(self.primary.dsn), {}, "zanteyard"), ticket, SOON), ("committed", ()))
        self.assertEqual(find_out(("postgres", self.words(self.standby.dsn), {}, "zanteyard"), ticket, SOON), UNKNOWN)

    def test_whichever_host_of_a_dsn_is_there(self):
        """The client came through the first of two hosts, which is gone when it is asked about."""
        with tempfile.TemporaryDirectory() as folder:
            here = f"{folder}/primary"
            os.symlink(self.primary.folder, here)
            store = self.store(f"host={here},{self.standby.folder} user=postgres dbname=postgres")
            store.begin()
            store.write("x", "1", ("run", 0, 0))
            store.commit()
            asks, ticket = store.asks(), store.ticket(("x", "run", 0, 0))
            os.unlink(here)
            self.assertEqual(find_out(asks, ticket, SOON), UNKNOWN)
            self.assertEqual(store.outcome_within(SOON), "unknown")

    def test_one_that_took_the_primarys_place(self):
        """It counts as the same store to go on with. About what was done on the other one it knows
        nothing, whatever its transaction numbers."""
        store = self.store(self.primary.dsn)
        auditor = Auditor(2, program=PLAIN)
        self.addCleanup(auditor.end)
        Session(auditor, 0, store).run(count)
        ticket = store.ticket(("x", *store.written[1:]))
        self.asked(self.standby.dsn, "SELECT pg_wal_replay_resume()::text")
        last = self.asked(self.primary.dsn, "SELECT pg_current_wal_lsn()::text")
        caught_up = f"SELECT pg_last_wal_replay_lsn() >= '{last}'"
        self.assertTrue(wait_until(lambda: self.asked(self.standby.dsn, caught_up)))
        self.assertTrue(self.asked(self.standby.dsn, "SELECT pg_promote()"))
        asks = ("postgres", self.words(self.standby.dsn), {}, "zanteyard")
        self.assertEqual(find_out(asks, ticket, SOON), UNKNOWN)
        store._its_dsn = self.standby.dsn
        self.assertEqual(store.outcome(), "unknown")
        Session(auditor, 1, self.store(self.standby.dsn)).run(count)
        outcome = auditor.outcome()
        self.assertEqual((outcome.kind, outcome.audited), ("serial", 2), outcome)


if __name__ == "__main__":
    unittest.main()
