"""Signals that reach every program of a running `zanteyard watch`, as a terminal, `timeout` or a
service manager sends them: its last round is made all the same, with a real server and proxy."""
import contextlib
import os
import signal
import subprocess
import sys
import tempfile
import threading
import unittest

from tests.waiting import wait_until
from zanteyard.program._binaries import PROGRAM

from .over_postgres import OverPostgres, needs_all

try:
    import psycopg2
except ImportError:
    psycopg2 = None
TOP = os.path.normpath(os.path.join(os.path.dirname(os.path.abspath(__file__)), ".."))
SECONDS = 300.0
TRIES = 3


def children(process):
    """Each process that this one has started, and theirs."""
    parents = {}
    for number in filter(str.isdigit, os.listdir("/proc")):
        with contextlib.suppress(OSError):
            with open(f"/proc/{number}/stat", encoding="utf-8", errors="replace") as file:
                parents[int(number)] = int(file.read().rsplit(")", 1)[1].split()[1])
    found = [process]
    for one in found:
        found += [number for number, parent in parents.items() if parent == one]
    return found[1:]


def name_of(process):
    with contextlib.suppress(OSError):
        return os.path.basename(os.readlink(f"/proc/{process}/exe"))
    return ""


@needs_all
class Stopped(OverPostgres):
    user = "postgres:secret"
    tables = (*OverPostgres.tables, "INSERT INTO stock VALUES (7, 1000)")

    def setUp(self):
        folder = tempfile.TemporaryDirectory()
        self.addCleanup(folder.cleanup)
        self.folder = folder.name
        its = {**os.environ, "COBRA_AUDIT": os.path.abspath(PROGRAM)}
        self.watch = subprocess.Popen(
            [sys.executable, "-m", "zanteyard", "watch", self.url]
            + ["--trust-clients", "--listen", f"{self.folder}/.s.PGSQL.6432"],
            cwd=TOP,
            env=its,
            stdin=subprocess.DEVNULL,
            stdout=subprocess.PIPE,
            stderr=subprocess.PIPE,
            text=True,
            start_new_session=True,  # as a shell's job has a group of its own
        )
        self.proxies = []  # which go on after SIGTERM
        self.addCleanup(self.end)
        self.log = []
        self.hearing = threading.Thread(target=self.hear)
        self.hearing.start()

    def hear(self):
        self.log += self.watch.stderr

    def end(self):
        for process in {self.watch.pid, *children(self.watch.pid), *self.proxies}:
            with contextlib.suppress(ProcessLookupError):
                os.kill(process, signal.SIGKILL)
        self.hearing.join()
        self.watch.stdout.close()
        self.watch.stderr.close()
        self.watch.wait()

    def use(self):
        """An application's connection, with its first transactions; returns once they are in a
        round."""

        def connected():
            with contextlib.suppress(psycopg2.OperationalError):
                return psycopg2.connect(f"host={self.folder} port=6432 user=postgres dbname=postgres")

        connection = wait_until(connected)
        self.addCleanup(connection.close)

        def is_in_a_round():
            with connection.cursor() as cursor:
                cursor.execute("SELECT qty FROM stock WHERE id = 7")
                cursor.execute("UPDATE stock SET qty = qty - 1 WHERE id = 7")
            connection.commit()
            return any("serial; " in line for line in self.log)

        self.assertTrue(wait_until(is_in_a_round, pause=0.1), "".join(self.log))
        return connection

    def stop_by(self, number, is_for_each):
        """Sends a signal, and returns what was printed."""
        each = [self.watch.pid, *children(self.watch.pid)]
        names = {*map(name_of, each)}
        self.proxies = [one for one in each if name_of(one) == "zanteyard-proxy"]
        self.assertLessEqual({os.path.basename(PROGRAM), "zanteyard-proxy"}, names)
        if is_for_each:
            for process in each:
                os.kill(process, number)
        else:
            os.killpg(self.watch.pid, number)
        printed = self.watch.stdout.read()
        self.watch.wait(SECONDS)
        return printed

    def test_a_signal_to_all(self):
        """To its process group, as `timeout` or Ctrl-C in a terminal; or to each process, as
        systemd does by default."""
        cases = [(signal.SIGTERM, True), (signal.SIGTERM, False), (signal.SIGINT, False)]
        for number, is_for_each in cases * TRIES:
            if signal.getsignal(number) == signal.SIG_IGN:
                continue  # so these tests were started, and what they start ignores it, too
            with self.subTest(signal=number.name, to="each" if is_for_each else "group"):
                self.use()
                printed = self.stop_by(number, is_for_each)
                log = "".join(self.log)
                self.assertEqual(self.watch.returncode, 0, printed + log)
                self.assertRegex(printed, r"^serial: [\d,]+ of [\d,]+ transactions\b.* were checked")
                self.assertIn("ending after a last round", log)
                self.assertNotIn("the audit ended", log)
            self.doCleanups()
            self.setUp()


if __name__ == "__main__":
    sys.exit(unittest.main())
