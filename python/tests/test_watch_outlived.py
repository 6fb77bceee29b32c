"""The application doesn't notice the end of `zanteyard watch`, however it comes; the next one audits the connections
that are open. With a real server, the real proxy and the real auditor."""

import os
import re
import shutil
import signal
import subprocess
import sys
import tempfile
import threading
import time
import unittest

from zanteyard.program._binaries import PROGRAM
from zanteyard.watch.proxy._attached import _is_like
from zanteyard.watch.proxy._control import ControlError, Who, control_path, who
from zanteyard.program._proxy_program import proxy_path

from .over_postgres import OverPostgres, needs_all

try:
    import psycopg2
except ImportError:
    psycopg2 = None
LIMIT = 300.0  # seconds within which something has to happen
PATIENT = threading.Event()  # never set: its `wait` is a pause


class Place(unittest.TestCase):
    """Where the control socket is."""

    def setUp(self):
        self.folder = tempfile.mkdtemp()
        self.addCleanup(shutil.rmtree, self.folder, ignore_errors=True)

    def test_the_first_of_three_folders(self):
        service, user = os.path.join(self.folder, "service"), os.path.join(self.folder, "user")
        os.makedirs(user)
        both = {"RUNTIME_DIRECTORY": f"{service}:/other", "XDG_RUNTIME_DIR": user}
        self.assertEqual(control_path("127.0.0.1:6432", both), f"{service}/127.0.0.1_6432.sock")
        self.assertEqual(os.stat(service).st_mode & 0o777, 0o700)
        del both["RUNTIME_DIRECTORY"]
        self.assertEqual(control_path("/a/socket", both), f"{user}/zanteyard/a_socket.sock")
        self.assertTrue(control_path("x:1", {}).endswith(f"/zanteyard-{os.getuid()}/x_1.sock"))

    def test_a_long_name(self):
        path = control_path("/" + "x" * 200, {"RUNTIME_DIRECTORY": self.folder})
        self.assertLess(len(path), 100)
        self.assertNotEqual(path, control_path("/" + "x" * 201, {"RUNTIME_DIRECTORY": self.folder}))

    def test_a_folder_in_which_others_could_put_a_socket(self):
        os.chmod(self.folder, 0o777)
        with self.assertRaisesRegex(ControlError, "only this user can write to"):
            control_path("x:1", {"RUNTIME_DIRECTORY": self.folder})
        os.symlink(self.folder, f"{self.folder}/link")
        with self.assertRaisesRegex(ControlError, "only this user can write to"):
            control_path("x:1", {"RUNTIME_DIRECTORY": f"{self.folder}/link"})

    def test_a_proxy_goes_on_unless_another_one_would_be_started(self):
        said = os.path.join(self.folder, "proxy")
        for prints, mark, is_like in (
            ("zanteyard-proxy 1", "a", True),
            ("zanteyard-proxy 2", "a", False),
            ("zanteyard-proxy 1", "b", False),
            ("", "a", True),  # it says nothing, as on a machine that is too busy
        ):
            with self.subTest(prints=prints, mark=mark):
                with open(said, "w", encoding="ascii") as file:
                    file.write(f"#!/bin/sh\necho {prints}\n" if prints else "#!/bin/sh\nexit 1\n")
                os.chmod(said, 0o755)
                self.assertEqual(_is_like(Who(1, "1", mark, 0), "a", said), is_like)

    def test_nobody_there(self):
        self.assertIsNone(who(os.path.join(self.folder, "socket")))


@needs_all
class Outlived(OverPostgres):
    tables = (*OverPostgres.tables, "INSERT INTO stock VALUES (7, 1000000)")

    def setUp(self):
        self.folder = tempfile.mkdtemp()
        self.addCleanup(shutil.rmtree, self.folder, ignore_errors=True)
        self.addCleanup(self.end_proxies)
        self.proxies = set()

    def end_proxies(self):
        for number in self.proxies:
            try:
                os.kill(number, signal.SIGKILL)
            except ProcessLookupError:
                pass

    def watch(self, *words):
        """Starts a `zanteyard watch`; its log comes to a list."""
        its = {
            **os.environ,
            "COBRA_AUDIT": os.path.abspath(PROGRAM),
            "ZANTEYARD_PROXY": os.path.abspath(proxy_path()),
            "RUNTIME_DIRECTORY": self.folder,
        }
        call = [sys.executable, "-m", "zanteyard", "watch", "--trust-clients", self.url]
        run = subprocess.Popen(
            [*call, "--listen", f"{self.folder}/.s.PGSQL.6432", *words],
            env=its, stdin=subprocess.DEVNULL, stdout=subprocess.PIPE, stderr=subprocess.PIPE, text=True,
        )
        run.lines = []
        run.reader = threading.Thread(target=lambda: run.lines.extend(iter(run.stderr.readline, "")))
        run.reader.start()

        def end():
            run.kill()
            self.ended(run)
            run.stdout.close()
            run.stderr.close()

        self.addCleanup(end)
        return run

    @staticmethod
    def ended(run):
        """Waits for its end, and returns its output."""
        out = run.stdout.read()
        run.wait(LIMIT)
        run.reader.join()
        return out

    def until(self, what, is_so):
        ends = time.monotonic() + LIMIT
        while not is_so():
            self.assertLess(time.monotonic(), ends, f"it hasn't come to that in time: {what}")
            PATIENT.wait(0.02)

    def says(self, run, text):
        self.until(text, lambda: any(text in line for line in run.lines) or run.poll() is not None)
        self.assertTrue(any(text in line for line in run.lines), "".join(run.lines))

    def proxy_of(self, run):
        """The process of its proxy, once it audits through it."""
        self.says(run, "auditing for")
        sockets = [name for name in os.listdir(self.folder) if name.endswith(".sock")]
        self.assertEqual(len(sockets), 1)
        found = who(os.path.join(self.folder, sockets[0]))
        self.proxies.add(found.process)
        return found.process

    def connect(self):
        its = {}

        def is_there():
            try:
                its["connection"] = psycopg2.connect(
                    f"host={self.folder} port=6432 user=postgres dbname=postgres"
                )
            except psycopg2.OperationalError:
                return False
            return True

        self.until("it can connect", is_there)
        self.addCleanup(its["connection"].close)
        return its["connection"]

    @staticmethod
    def read(connection):
        with connection.cursor() as cursor:
            cursor.execute("SELECT qty FROM stock WHERE id = 7")
            return cursor.fetchone()[0]

    @staticmethod
    def write(connection, qty):
        with connection.cursor() as cursor:
            cursor.execute("UPDATE stock SET qty = %s WHERE id = 7", (qty,))

    def lose_updates(self, one, other, run):
        """Both read, then both write, until that was found."""

        def is_found():
            left, also = self.read(one), self.read(other)
            self.write(one, left - 1)
            one.commit()
            self.write(other, also - 1)
            other.commit()
            return any("VIOLATED" in line for line in run.lines)

        self.until("it found a lost update", is_found)

    def test_killed_by_9_and_taken_over(self):
        run = self.watch()
        proxy = self.proxy_of(run)
        before = self.connect()
        self.assertGreater(self.read(before), 0)
        run.kill()
        run.wait()
        self.assertGreater(self.read(before), 0)  # in the transaction that was open then
        before.commit()
        meanwhile = self.connect()
        self.assertGreater(self.read(meanwhile), 0)
        meanwhile.commit()
        after = self.watch()
        self.assertEqual(self.proxy_of(after), proxy)
        self.says(after, f"the proxy that runs already (process {proxy}) goes on with its connections")
        self.lose_updates(before, meanwhile, after)
        after.send_signal(signal.SIGINT)
        out = self.ended(after)
        self.assertEqual(after.returncode, 1, out)
        self.assertIn("lost update", out)
        told = re.findall(r"before this run's first audit (\d+) transactions? ended", out)
        self.assertEqual(sum(map(int, told)), 2, out)  # of both connections
        with self.assertRaises(psycopg2.OperationalError):  # Ctrl-C ends the proxy, too
            psycopg2.connect(f"host={self.folder} port=6432 user=postgres dbname=postgres")

    def test_two_at_once(self):
        first = self.watch()
        self.proxy_of(first)
        second = self.watch()
        out = self.ended(second)
        self.assertEqual((second.returncode, out), (2, ""), "".join(second.lines))
        self.says(second, f"process {first.pid} audits through the proxy at this address")
        self.assertIsNone(first.poll())

    def test_a_signal_that_leaves_the_proxy(self):
        for number in (signal.SIGTERM, signal.SIGHUP):
            with self.subTest(signal=number):
                run = self.watch()
                proxy = self.proxy_of(run)
                client = self.connect()
                self.read(client)
                run.send_signal(number)
                self.ended(run)
                self.assertIn(run.returncode, (0, 4), "".join(run.lines))
                self.says(run, f"the proxy (process {proxy}) goes on, unaudited")
                self.read(client)
                client.commit()
        os.kill(proxy, signal.SIGTERM)
        with self.assertRaises(psycopg2.OperationalError):
            while True:
                self.read(client)
                client.commit()

    def test_other_options_without_refusing_anybody(self):
        first = self.watch()
        proxy = self.proxy_of(first)
        client = self.connect()
        self.read(client)  # a transaction is open from here on
        stop, refused = threading.Event(), []

        def connect_again_and_again():
            while not stop.is_set():
                try:
                    psycopg2.connect(f"host={self.folder} port=6432 user=postgres dbname=postgres").close()
                except psycopg2.OperationalError as error:
                    refused.append(str(error))

        others = threading.Thread(target=connect_again_and_again)
        others.start()
        try:
            second = self.watch("--sample", "0.9", "--take-over")
            self.says(second, f"another proxy takes over from process {proxy}")
            self.ended(first)
            self.says(first, "another proxy has taken this one's place")
            self.assertNotEqual(self.proxy_of(second), proxy)
            self.read(client)
            client.commit()  # it ends only then
        finally:
            stop.set()
            others.join()
        told_to_go = [text for text in refused if "administrator command" in text]
        self.assertEqual(len(refused), len(told_to_go), refused)
        second.send_signal(signal.SIGINT)
        self.ended(second)


if __name__ == "__main__":
    unittest.main()
