"""`zanteyard watch` in front of the applications of examples/rules.py: what they break, by name."""
import importlib.util
import re
import shutil
import tempfile
import threading
import time
import unittest

from zanteyard.program._binaries import PROGRAM
from zanteyard.program._proxy_program import proxy_path
from zanteyard.watch._run import Plan, Run

from .test_package import TOP
from .over_postgres import OverPostgres, needs_all

try:
    import psycopg2
except ImportError:
    psycopg2 = None
FOUND = 300.0  # seconds, on however busy a machine, within which each application's violation has to be found
ASKED = {
    "bookings": r"asked for booking WHERE room = \d+ AND during && '\[2026-12-01 10:[03]0",
    "on_call": r"asked for doctor WHERE shift = \d+ AND NOT on_call",
    "budget": r"asked for expense WHERE project = \d+",
}


def rules():
    spec = importlib.util.spec_from_file_location("rules", f"{TOP}/examples/rules.py")
    module = importlib.util.module_from_spec(spec)
    spec.loader.exec_module(module)
    return module


@needs_all
class Rules(OverPostgres):
    @classmethod
    def setUpClass(cls):
        cls.rules = rules()
        cls.tables = [its.tables for its in cls.rules.APPLICATIONS.values()]
        super().setUpClass()

    def watch(self):
        """Begins to watch, and returns the URL for applications."""
        folder = tempfile.mkdtemp()
        self.addCleanup(shutil.rmtree, folder, ignore_errors=True)
        self.told, self.status = [], None
        call = [proxy_path(), "--server", self.url, "--listen", f"{folder}/.s.PGSQL.6432"]
        call += ["--parameters=true", "--trust-clients"]
        self.run = Run(Plan(call, PROGRAM, "rules", round_seconds=1.0), self.told.append)
        self.running = threading.Thread(target=self.run_it)
        self.running.start()
        self.addCleanup(self.finish)
        return f"host={folder} port=6432 user=postgres dbname=postgres"

    def run_it(self):
        self.status = self.run.run()

    def finish(self):
        """Stops it, and returns what it has told."""
        self.run.stop.set()
        self.running.join()
        return "\n".join(self.told)

    def clients(self, name, url, level):
        ends = time.monotonic() + 300
        while True:
            try:
                found = self.rules.Clients(self.rules.APPLICATIONS[name], url, level)
                self.addCleanup(found.close)
                return found
            except psycopg2.OperationalError:  # it doesn't listen yet
                if time.monotonic() > ends:
                    raise
                time.sleep(0.05)

    def is_found(self, asked):
        return any(
            one.title in ("write skew over a condition", "phantom")
            and re.search(asked, "\n".join(one.lines()))
            for one in self.run.board.status().violations
        )

    def broken_at(self, level):
        for name, asked in ASKED.items():
            with self.subTest(name):
                clients = self.clients(name, self.watch(), level)
                before, place, ends = clients.broken(), int(time.time() * 20) % 2**31, time.monotonic() + FOUND
                while not self.is_found(asked):
                    self.assertLess(time.monotonic(), ends, "it isn't found in time")
                    if not self.run.board.status().violations_count:  # else it is explained
                        clients.at(place)
                        place += 1
                    time.sleep(0.05)
                self.assertGreater(clients.broken(), before)
                told = self.finish()
                self.assertEqual(self.status, 1, told)
                self.assertIn("write skew over a condition", told)
                self.assertRegex(told, asked)

    def test_broken_at_read_committed(self):
        self.broken_at("read committed")

    def test_broken_at_repeatable_read(self):
        self.broken_at("repeatable read")

    def test_kept_at_serializable(self):
        url = self.watch()
        everybody = [self.clients(name, url, "serializable") for name in ASKED]
        before = [each.broken() for each in everybody]
        place, ends = int(time.time() * 20) % 2**31, time.monotonic() + 300

        def is_enough():
            seen = self.run.board.status()
            return seen.rounds_count >= 5 and seen.seen.conditions.followed >= 50

        while not is_enough():
            self.assertLess(time.monotonic(), ends, "it hasn't come to that in time")
            for each in everybody:
                each.at(place)
            place += 1
            time.sleep(0.05)
        self.assertEqual([each.broken() for each in everybody], before)
        told = self.finish()
        self.assertEqual((self.status, self.run.board.status().violations_count), (0, 0), told)


if __name__ == "__main__":
    unittest.main()
