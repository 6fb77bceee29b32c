"""A PostgreSQL server with its log decoded, over which tests watch an application through a real proxy."""
import os
import unittest

from zanteyard.program._auditor import PROGRAM
from zanteyard.trial.postgres_server import PostgresServer, program
from zanteyard.watch.postgres._database import Database
from zanteyard.program._proxy_program import proxy_path

try:
    import psycopg2
except ImportError:
    psycopg2 = None


def needs_all(tests):
    """Skips these tests if the server, its driver, the proxy or the auditor is missing."""
    for is_there, why in (
        (psycopg2 and program("initdb"), "PostgreSQL or psycopg2 is not installed"),
        (os.path.isfile(proxy_path()), "the proxy is not built"),
        (os.path.isfile(PROGRAM), f"{PROGRAM} is not built"),
    ):
        tests = unittest.skipUnless(is_there, why)(tests)
    return tests


class OverPostgres(unittest.TestCase):
    """Each class has a server of its own, `cluster` at `url`, with these `tables`."""

    user, tables = "postgres", ("CREATE TABLE stock (id int PRIMARY KEY, qty int NOT NULL)",)

    @classmethod
    def setUpClass(cls):
        cls.cluster = PostgresServer()
        cls.cluster.__enter__()
        cls.addClassCleanup(cls.cluster.__exit__)
        cls.url = f"postgresql://{cls.user}@/postgres?host={cls.cluster.folder}"
        with Database(cls.url) as database:
            database.run("ALTER SYSTEM SET wal_level = 'logical'")
        cls.cluster.stop()
        cls.cluster.start()
        with Database(cls.url, options="-c search_path=public") as database:
            for statement in cls.tables:
                database.run(statement)
