"""The outcome of a commit is asked of exactly the server that the client was connected to."""
import os
import tempfile
import time
import unittest

from zanteyard.trial.postgres_server import PostgresServer, program

try:
    import psycopg2

    from zanteyard.stores._postgres_connection import first_row
    from zanteyard.stores.postgres import STATUS, PostgresStore, prepare, with_table
except ImportError:
    psycopg2 = None

from .waiting import SOON


@unittest.skipUnless(psycopg2 and program("initdb"), "PostgreSQL or psycopg2 isn't installed (no server was asked)")
class Hosts(unittest.TestCase):
    def test_another_host_of_the_same_name_is_not_asked(self):
        """The first of two hosts can't be reached when the client connects, but a moment later it
        can: its transaction numbers are different."""
        with tempfile.TemporaryDirectory() as folder, PostgresServer() as first, PostgresServer() as second:
            prepare(first.dsn)
            prepare(second.dsn)
            away = f"{folder}/away"
            store = PostgresStore(f"host={away},{second.folder} user=postgres dbname=postgres", patience=SOON)
            store.begin()
            store.write("x", "1", ("run", 0, 0))
            store.commit()
            os.symlink(first.folder, away)
            self.assertEqual(store.outcome_within(SOON), "committed")
            store.begin()
            store.write("x", "2", ("run", 0, 1))
            self.assertEqual(store.outcome_within(1.0), "unknown")
            store.rollback()
            store.close()

    def test_a_server_in_recovery_says_nothing(self):
        self.assertIn("pg_is_in_recovery()", STATUS)
        with PostgresServer() as server:
            prepare(server.dsn)
            text = with_table(STATUS, "zanteyard").replace("pg_catalog.pg_is_in_recovery()", "true")
            row = first_row(server.dsn, text, ("1", "x", "run", 0, 0), time.monotonic() + SOON)
            self.assertEqual(row[:2], (None, False))
            self.assertEqual(len(row[2].split()), 3)  # and no timeline


if __name__ == "__main__":
    unittest.main()
