"""`zanteyard watch` with a real server, the real proxy and the real auditor."""
import os
import random
import shutil
import subprocess
import sys
import tempfile
import threading
import time
import unittest

from tests import watch_feed as feed
from zanteyard import comments
from zanteyard.program._binaries import PROGRAM
from zanteyard.trial.postgres_server import PostgresServer, program
from zanteyard.watch.postgres._database import Database
from zanteyard.program._proxy_program import proxy_path
from zanteyard.watch._run import Plan, Run

from .over_postgres import OverPostgres, needs_all

try:
    import psycopg2
except ImportError:
    psycopg2 = None
HERE = os.path.basename(__file__)
LIMIT = 300.0  # seconds within which the result has to be found
ROWS = (100, 108)  # of the clients that are disturbed
# A client that reconnects after a lost connection, and reports how many commits were answered.
DISTURBED = f"""
import random, sys
import psycopg2
from psycopg2 import errors

while True:
    try:
        connection = psycopg2.connect(sys.argv[1])
        connection.set_session(isolation_level="SERIALIZABLE")
        while True:
            one, other = random.sample(range{ROWS}, 2)
            try:
                cursor = connection.cursor()
                cursor.execute("SELECT qty FROM stock WHERE id IN (%s, %s)", (one, other))
                cursor.execute("SAVEPOINT undone")
                cursor.execute("UPDATE stock SET qty = 0 WHERE id = %s", (one,))
                cursor.execute("ROLLBACK TO undone")
                cursor.execute("SAVEPOINT kept")
                cursor.execute("UPDATE stock SET qty = qty - 1 WHERE id = %s", (other,))
                cursor.execute("RELEASE kept")
                connection.commit()
                print("committed", flush=True)
            except (errors.SerializationFailure, errors.DeadlockDetected):
                connection.rollback()
    except (psycopg2.OperationalError, psycopg2.InterfaceError):
        pass
"""
DEFINITIONS = (
    "ALTER TABLE stock ADD COLUMN note text",
    "VACUUM (FULL, FREEZE) stock",
    "CREATE INDEX by_qty ON stock (qty)",
    "ALTER TABLE stock DROP COLUMN note",
    "DROP INDEX by_qty",
    "TRUNCATE beside",
)


@needs_all
class Whole(OverPostgres):
    tables = (*OverPostgres.tables, "CREATE TABLE beside (id int PRIMARY KEY)", "INSERT INTO stock VALUES (7, 1000000), (8, 1000000)")

    def setUp(self):
        self.folder = tempfile.mkdtemp()
        self.addCleanup(shutil.rmtree, self.folder, ignore_errors=True)
        self.told = []
        socket = f"{self.folder}/.s.PGSQL.6432"
        call = [proxy_path(), "--server", self.url, "--listen", socket, "--parameters=true"]
        call.append("--trust-clients")
        self.watch = Run(Plan(call, PROGRAM, "shop"), self.told.append)
        self.status = None
        running = threading.Thread(target=self.run_it)
        running.start()
        self.addCleanup(self.end, running)

    def run_it(self):
        self.status = self.watch.run()

    def end(self, running):
        self.watch.stop.set()
        running.join()

    def connect(self, level=None):
        """Connects through the proxy, as soon as it listens."""
        ends = time.monotonic() + LIMIT
        its = {"cursor_factory": comments.psycopg2_cursor(), "application_name": "shop"}
        while True:
            try:
                connection = psycopg2.connect(
                    f"host={self.folder} port=6432 user=postgres dbname=postgres", **its
                )
                break
            except psycopg2.OperationalError:
                if time.monotonic() > ends:
                    raise
                time.sleep(0.05)
        self.addCleanup(connection.close)
        if level is not None:
            connection.set_session(isolation_level=level)
        return connection

    @staticmethod
    def read(connection, item):
        with connection.cursor() as cursor:
            cursor.execute("SELECT qty FROM stock WHERE id = %s", (item,))
            return cursor.fetchone()[0]

    @staticmethod
    def write(connection, item, qty):
        with connection.cursor() as cursor:
            cursor.execute("UPDATE stock SET qty = %s WHERE id = %s", (qty, item))

    def until(self, go_on, is_done):
        ends = time.monotonic() + LIMIT
        while not is_done(self.watch.board.status()):
            self.assertLess(time.monotonic(), ends, "it hasn't come to that in time")
            go_on()

    def finish(self):
        """Stops it, and returns its output."""
        self.watch.stop.set()
        ends = time.monotonic() + LIMIT
        while self.status is None and time.monotonic() < ends:
            time.sleep(0.05)
        return "\n".join(self.told)

    def test_a_lost_update(self):
        """Both read, and then both write, repeatedly, since statements are seen only after the
        proxy has tried them on their connection."""
        one, other = self.connect(), self.connect()

        def lose_one():
            left, also = self.read(one, 7), self.read(other, 7)
            self.write(one, 7, left - 1)
            one.commit()
            self.write(other, 7, also - 1)
            other.commit()
            time.sleep(0.05)

        self.until(lose_one, lambda status: status.violations)
        told = self.finish()
        self.assertEqual(self.status, 1, told)
        self.assertIn("lost update", told)
        self.assertIn("stock(id=7)", told)
        self.assertIn("shop from ", told)
        self.assertIn(f"{HERE}:", told)
        self.assertIn("UPDATE stock SET qty = ", told)
        self.assertRegex(told, feed.READ_BELOW)

    def test_nothing_is_made_up(self):
        """Serializable, with a writer that bypasses the proxy, and statements that aren't seen."""
        one, other = self.connect("SERIALIZABLE"), self.connect("SERIALIZABLE")
        beside = psycopg2.connect(self.cluster.dsn)
        self.addCleanup(beside.close)

        def take(connection, item):
            with connection.cursor() as cursor:
                cursor.execute("SELECT count(*) FROM stock")
                cursor.execute("SELECT DISTINCT qty FROM stock")
            self.write(connection, item, self.read(connection, item) - 1)

        def at_once():
            calls = [(take, one, 7), (take, other, 8), (commit, one, 7), (commit, other, 8)]
            for call, connection, item in calls:
                try:
                    call(connection, item)
                except psycopg2.errors.SerializationFailure:
                    connection.rollback()
            with beside, beside.cursor() as cursor:
                cursor.execute("UPDATE stock SET qty = qty + 1")
            time.sleep(0.02)

        def commit(connection, _):
            connection.commit()

        def is_done(status):
            seen = status.seen
            return status.rounds_count >= 3 and seen.reads >= 20 and seen.totals.others

        self.until(at_once, is_done)
        told = self.finish()
        self.assertEqual(self.status, 0, told)
        self.assertTrue(told.startswith("serial: "), told)
        self.assertIn("DISTINCT", told)

    def test_what_disturbs_it_makes_nothing_up(self):
        """Clients that are killed at any point, connections that the server ends, statements that a
        savepoint undoes, and schema changes meanwhile. What was answered is there."""
        admin = psycopg2.connect(self.cluster.dsn)
        self.addCleanup(admin.close)
        admin.autocommit = True
        cursor = admin.cursor()
        cursor.execute("INSERT INTO stock SELECT i, 0 FROM generate_series(%s, %s) i", (ROWS[0], ROWS[1] - 1))
        self.connect()  # it listens
        dsn = f"host={self.folder} port=6432 user=postgres dbname=postgres application_name=disturbed"
        answers, errors = (open(f"{self.folder}/{name}", "a+b") for name in ("answers", "errors"))
        self.addCleanup(answers.close)
        self.addCleanup(errors.close)
        clients, disturbed = [], []

        def begin():
            call = [sys.executable, "-c", DISTURBED, dsn]
            clients.append(subprocess.Popen(call, stdout=answers, stderr=errors))

        def end(client):
            client.kill()
            client.wait()

        self.addCleanup(lambda: [end(client) for client in clients])
        for _ in range(4):
            begin()

        def disturb():
            time.sleep(random.uniform(0.05, 0.4))
            end(clients.pop(0))
            begin()
            cursor.execute("""SELECT pg_terminate_backend(pid) FROM pg_stat_activity
                WHERE application_name = 'disturbed' ORDER BY random() LIMIT 1""")
            cursor.execute(DEFINITIONS[len(disturbed) % len(DEFINITIONS)])
            disturbed.append(True)

        def answered():
            with open(f"{self.folder}/answers", "rb") as lines:
                return len(lines.readlines())

        def is_done(status):
            is_seen = status.rounds_count >= 3 and status.seen.reads >= 50
            return len(disturbed) >= 12 and is_seen and answered() > 50

        self.until(disturb, is_done)
        while clients:
            end(clients.pop())
        told = self.finish()
        self.assertEqual(self.status, 0, told)
        self.assertTrue(told.startswith("serial: "), told)
        errors.seek(0)
        self.assertNotIn(b"Traceback", errors.read())
        cursor.execute("SELECT -sum(qty) FROM stock WHERE id >= %s", (ROWS[0],))
        ((done,),) = cursor.fetchall()
        self.assertLessEqual(answered(), done)
        self.assertLessEqual(done, answered() + 2 * len(disturbed) + 4)  # one of each that was lost


NO_DRIVER = "raise ImportError('no driver here')\n"


@unittest.skipUnless(psycopg2 and program("initdb"), "PostgreSQL or psycopg2 is not installed")
@unittest.skipUnless(os.path.isfile(proxy_path()), "the proxy is not built")
@unittest.skipUnless(os.path.isfile(PROGRAM), f"{PROGRAM} is not built")
class WithoutDriver(unittest.TestCase):
    """The command without a PostgreSQL driver for Python: then only the proxy asks the server."""

    def setUp(self):
        self.folder = tempfile.mkdtemp()
        self.addCleanup(shutil.rmtree, self.folder, ignore_errors=True)
        for name in ("psycopg2", "psycopg"):
            with open(f"{self.folder}/{name}.py", "w", encoding="utf-8") as file:
                file.write(NO_DRIVER)

    def watch(self, url, *words):
        its = {
            **os.environ,
            "PYTHONPATH": f"{self.folder}{os.pathsep}{os.getcwd()}",
            "COBRA_AUDIT": os.path.abspath(PROGRAM),
            "ZANTEYARD_PROXY": os.path.abspath(proxy_path()),
            "RUNTIME_DIRECTORY": self.folder,
        }
        call = [sys.executable, "-m", "zanteyard", "watch", url, *words]
        ended = subprocess.run(call, env=its, capture_output=True, text=True, timeout=LIMIT)
        return ended.returncode, ended.stdout, ended.stderr.splitlines()

    def test_a_server_that_isnt_there(self):
        words = ("--listen", f"{self.folder}/socket", "--seconds", "1")
        status, out, errors = self.watch("postgresql://nobody@127.0.0.1:1/nothing", *words)
        self.assertEqual((status, out), (2, ""), errors)
        self.assertRegex(errors[-1], "^mistake: the audit can't begin: .*connect")
        self.assertIn("no driver for PostgreSQL", errors[0])

    def test_a_server_that_lacks_something_and_one_that_doesnt(self):
        with PostgresServer() as cluster:
            url = f"postgresql://postgres@/postgres?host={cluster.folder}"
            words = ("--listen", f"{self.folder}/socket", "--seconds", "1")
            status, out, errors = self.watch(url, *words)
            self.assertEqual((status, out), (2, ""), errors)
            self.assertRegex(errors[-1], "^mistake: the audit can't begin: .*wal_level")
            with Database(url) as database:
                database.run("ALTER SYSTEM SET wal_level = 'logical'")
            cluster.stop()
            cluster.start()
            status, out, errors = self.watch(url, *words)
            self.assertEqual(status, 4, errors)
            self.assertTrue(out.startswith("nothing was checked"), out)
            self.assertTrue(any("applications can connect to" in line for line in errors), errors)

    def test_an_address_that_is_taken(self):
        with open(f"{self.folder}/socket", "w", encoding="utf-8"):
            pass
        url = "postgresql://nobody@127.0.0.1:1/nothing"
        status, out, errors = self.watch(url, "--listen", f"{self.folder}/socket")
        self.assertEqual((status, out), (2, ""), errors)
        self.assertFalse(any("applications can connect to" in line for line in errors), errors)
        wanted = f"mistake: the proxy ended with status 2: --listen: listen unix {self.folder}/socket: "
        self.assertTrue(errors[-1].startswith(wanted), errors)
        self.assertTrue(errors[-1].endswith("address already in use"), errors)


if __name__ == "__main__":
    sys.exit(unittest.main())
