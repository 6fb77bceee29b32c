"""The examples at the top print what docs/COLLECTORS.md and this README.md say, and end well."""
import glob
import os
import re
import signal
import subprocess
import sys
import tempfile
import time
import unittest
from unittest import mock

from zanteyard import Session
from zanteyard.program._auditor import PROGRAM
from zanteyard.trial._throwaway_folder import ThrowawayFolder
from zanteyard.trial.postgres_server import PostgresServer, program
from zanteyard.trial.redis_server import RedisServer
from zanteyard.stores.memory import MemoryStore

TOP = os.path.normpath(os.path.join(os.path.dirname(os.path.abspath(__file__)), "../.."))
EXAMPLES = os.path.join(TOP, "examples")
FAULTS = ("stale", "lost-update", "dirty-read", "lost-write")
ENDING = 150.0  # seconds for a program to end


@unittest.skipUnless(os.path.isfile(PROGRAM), f"{PROGRAM} is not built")
class Examples(unittest.TestCase):
    def setUp(self):
        folder = tempfile.TemporaryDirectory()
        self.addCleanup(folder.cleanup)
        self.folder = folder.name
        os.chmod(self.folder, 0o711)  # if this runs as root, servers in it run as another user
        os.makedirs(f"{self.folder}/work")
        os.makedirs(f"{self.folder}/tmp", mode=0o711)

    def begin(self, name, *arguments, by=(), **more):
        """Starts it in a folder of its own, with servers in another one."""
        return subprocess.Popen(
            [sys.executable, *by, f"{EXAMPLES}/{name}", *arguments],
            cwd=f"{self.folder}/work",
            env={**os.environ, "TMPDIR": f"{self.folder}/tmp", "COBRA_AUDIT": PROGRAM, **more},
            stdout=subprocess.PIPE,
            stderr=subprocess.STDOUT,
            text=True,
        )

    def told(self, name, *arguments, **more):
        """The status, the lines, and what is left in the folder that it ran in."""
        running = self.begin(name, *arguments, **more)
        text = running.communicate(timeout=900)[0]
        self.assertNotIn("Traceback", text)
        self.assertEqual(os.listdir(f"{self.folder}/tmp"), [])
        return running.returncode, text.splitlines(), sorted(os.listdir(f"{self.folder}/work"))

    def postgres_is_there(self):
        try:
            import psycopg2  # noqa: F401
        except ImportError:
            self.skipTest("psycopg2 is not installed")
        if not program("initdb"):
            self.skipTest("PostgreSQL is not installed")

    def test_sqlite_collector(self):
        for fault in FAULTS:
            with self.subTest(fault=fault):
                status, lines, _ = self.told("sqlite_collector.py", fault, PROGRAM)
                self.assertEqual((status, lines[-1].split(":")[:2]), (0, [fault, " violated"]))

    def test_collectors_shows_what_it_prints(self):
        with open(f"{TOP}/docs/COLLECTORS.md", encoding="utf-8") as file:
            shown = re.search(r"```\n\$ python3 examples/sqlite_collector.py honest\n(.*?)```", file.read(), re.DOTALL)
        status, lines, _ = self.told("sqlite_collector.py", "honest", PROGRAM)
        self.assertEqual((status, lines), (0, shown.group(1).splitlines()))

    def test_what_is_no_fault_is_told(self):
        status, lines, _ = self.told("sqlite_collector.py", "foo", PROGRAM)
        self.assertEqual((status, len(lines)), (2, 1))
        self.assertIn("unknown fault foo", lines[0])
        for fault in FAULTS:
            self.assertIn(fault, lines[0])

    def test_arguments(self):
        for count, wanted in (("1", 2), ("65", 2), ("two", 2)):
            status, lines, _ = self.told("postgres_live.py", "--clients", count)
            self.assertEqual(status, wanted)
            self.assertIn("--clients", lines[-1])
        status, lines, _ = self.told("postgres_live.py", "--help")
        self.assertEqual(status, 0)
        about = " ".join(" ".join(lines).split("options:")[0].split("\n")).strip()
        self.assertTrue(about.endswith("."), about)  # a whole sentence

    def test_clients_keep_to_their_rate(self):
        sys.path.insert(0, EXAMPLES)
        self.addCleanup(sys.path.remove, EXAMPLES)
        from postgres_live import Clients, Nothing

        store = MemoryStore()
        sessions = [Session(Nothing(), number, store.connect()) for number in range(4)]
        body = lambda transaction, client: transaction.put("x", client)
        clients = Clients(sessions, body, 0.5, lambda: False, rate=100)
        self.assertLessEqual(1, clients.committed)
        # 0.5 s of 25 a second each, the first at once and one more at the end
        self.assertLessEqual(clients.committed, 4 * 14)

    def test_a_violation_is_told_where_the_disk_is_full(self):
        self.postgres_is_there()
        os.symlink("/dev/full", f"{self.folder}/work/violation.jsonl")
        status, lines, _ = self.told(
            *("postgres_live.py", "--level", "committed", "--workload", "counter", "--clients", "4"),
            *("--seconds", "120", "--unaudited", "0", "--rather-wait"),
            by=("-m", "tests.overlapping", "4"),
            PYTHONPATH=f"{TOP}/python",
        )
        text = "\n".join(lines)
        self.assertEqual(status, 1, text)
        self.assertIn(" can come first", text)
        self.assertIn("No space left on device", text)

    def test_a_signal_ends_it_with_a_last_round(self):
        """Nothing is left behind, and the status is that of the verdict."""
        self.postgres_is_there()
        for number, more in (
            (signal.SIGTERM, ()), (signal.SIGINT, ("--processes",)), (signal.SIGHUP, ("--churn",))
        ):
            with self.subTest(more=more):
                few = ("--unaudited", "0", "--rate", "40", "--every", "64", "--clients", "4")
                running = self.begin("postgres_live.py", "--seconds", "1000", "--rather-wait", *few, *more)
                self.addCleanup(running.kill)
                while "round 1:" not in running.stdout.readline():
                    self.assertIsNone(running.poll())
                running.send_signal(number)
                text = running.communicate(timeout=4 * ENDING)[0]
                self.assertEqual(running.returncode, 0, text)
                self.assertIn("ending after a last round", text)
                self.assertRegex(text, "(?m)^mixed at serializable: serial: ([0-9]+) of \\1 ")
                self.assertNotIn("Traceback", text)
                self.assertEqual(os.listdir(f"{self.folder}/tmp"), [])
                self.assertEqual(self.of_folder(), [])

    def test_a_bench_that_is_ended_leaves_no_server_behind(self):
        """At any moment, even while a server is being made."""
        self.postgres_is_there()
        for is_made in (False, True):
            with self.subTest(is_made=is_made):
                running = self.begin("../bench/check/kills.py", "tests.test_killed.KilledOverPostgres")
                self.addCleanup(running.kill)
                while not (self.is_served() if is_made else self.of_folder()):
                    self.assertIsNone(running.poll())
                    time.sleep(0.02)
                running.send_signal(signal.SIGTERM)
                text = running.communicate(timeout=4 * ENDING)[0]
                self.assertEqual(running.returncode, 1, text)
                self.assertEqual((os.listdir(f"{self.folder}/tmp"), self.of_folder()), ([], []), text)

    def test_an_interrupt_as_a_folder_is_made_leaves_none(self):
        mkdir, made = os.mkdir, []

        def interrupted(path, mode):
            mkdir(path, mode)
            made.append(path)
            raise KeyboardInterrupt

        for make in (PostgresServer().__enter__, RedisServer().__enter__, ThrowawayFolder().make):
            with mock.patch("os.mkdir", interrupted), self.assertRaises(KeyboardInterrupt):
                make()
        self.assertEqual((len(made), [*filter(os.path.exists, made)]), (3, []))

    def is_served(self):
        """Whether a server accepts connections at a socket in the folder."""
        return bool(glob.glob(f"{self.folder}/tmp/*/.s.PGSQL.*"))

    def of_folder(self):
        """Processes that name the folder."""
        found = []
        for process in filter(str.isdigit, os.listdir("/proc")):
            try:
                with open(f"/proc/{process}/cmdline", "rb") as file:
                    if self.folder.encode() in file.read():
                        found.append(process)
            except OSError:
                pass
        return found

    def test_a_server_of_ones_own(self):
        """Its user may create tables, and nothing else."""
        self.postgres_is_there()
        import psycopg2

        with PostgresServer() as cluster:
            admin = psycopg2.connect(cluster.dsn)
            self.addCleanup(admin.close)
            admin.autocommit = True
            cursor = admin.cursor()
            cursor.execute("CREATE ROLE modest LOGIN; CREATE SCHEMA modest; GRANT ALL ON SCHEMA modest TO modest")
            cursor.execute("ALTER ROLE modest SET search_path = modest")
            cursor.execute("CREATE TABLE zanteyard (mine int)")  # somebody else's
            few = ("--seconds", "2", "--unaudited", "0.5", "--clients", "4", "--rather-wait")
            for user, made in (("postgres", "the schema zanteyard_"), ("modest", "the table zanteyard_")):
                for more in ((), ("--processes",)):
                    with self.subTest(user=user, more=more):
                        dsn = f"host={cluster.folder} user={user} dbname=postgres"
                        status, lines, _ = self.told("postgres_live.py", "--dsn", dsn, *few, *more)
                        self.assertEqual(status, 0, lines)
                        self.assertIn("drops", lines[0])
                        self.assertIn(made, " ".join(lines[:2]))
            names = {"PGHOST": cluster.folder, "PGUSER": "postgres", "PGDATABASE": "postgres"}
            status, lines, _ = self.told("postgres_live.py", *few, "--dsn", **names)
            self.assertEqual(status, 0, lines)
            cursor.execute(
                "SELECT relname::text FROM pg_class WHERE relname LIKE 'zanteyard%' AND relkind = 'r'"
                " UNION SELECT nspname::text FROM pg_namespace WHERE nspname LIKE 'zanteyard%'"
            )
            self.assertEqual(cursor.fetchall(), [("zanteyard",)])


if __name__ == "__main__":
    unittest.main()
