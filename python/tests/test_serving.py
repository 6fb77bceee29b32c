"""`zanteyard serve` on one machine: its exit statuses and its metrics."""
import os
import re
import shutil
import signal
import socket
import subprocess
import sys
import tempfile
import time
import unittest
import urllib.error
import urllib.request
from unittest import mock

from zanteyard import AuditClient
from zanteyard.watch.pages._prometheus import Metrics
from zanteyard.watch.pages._web import WebServer
from zanteyard.program._auditor import PROGRAM
from zanteyard.core.errors import OtherVersionError
from zanteyard.stores.memory import MemoryStore
from zanteyard.core._version import VERSION

from .test_live import add_one
from .waiting import SOON

PLACE = os.path.abspath(os.path.join(os.path.dirname(os.path.abspath(__file__)), ".."))


@unittest.skipUnless(os.path.isfile(PROGRAM), "no auditor is built (nothing was served)")
class Serving(unittest.TestCase):
    def setUp(self):
        folder = tempfile.TemporaryDirectory()
        self.addCleanup(folder.cleanup)
        self.folder = folder.name
        self.socket = f"{self.folder}/audit/audit.socket"

    def serve(self, *more):
        call = [sys.executable, "-m", "zanteyard", "serve", "--folder", f"{self.folder}/audit", "--sessions", "4", "--every", "20", *more]
        log = open(f"{self.folder}/log", "wb")
        self.addCleanup(log.close)
        path = os.pathsep.join([*filter(None, [os.environ.get("FAILING")]), PLACE])
        daemon = subprocess.Popen(call, stderr=log, env={**os.environ, "PYTHONPATH": path})
        self.addCleanup(daemon.wait)
        self.addCleanup(daemon.kill)
        return daemon

    def said(self):
        with open(f"{self.folder}/log", encoding="utf-8") as log:
            return log.read()

    def wait_for(self, condition):
        until = time.monotonic() + SOON
        while not condition() and time.monotonic() < until:
            time.sleep(0.02)
        self.assertTrue(condition(), self.said())

    def begun(self, *more):
        daemon = self.serve(*more)
        self.wait_for(lambda: "its folder is" in self.said() or daemon.poll() is not None)
        self.assertIsNone(daemon.poll(), self.said())
        return daemon

    def ended(self, daemon, status):
        daemon.send_signal(signal.SIGTERM)
        self.wait_for(lambda: daemon.poll() is not None)
        self.assertEqual(daemon.returncode, status, self.said())

    def figures(self, port, path="/metrics"):
        with urllib.request.urlopen(f"http://127.0.0.1:{port}{path}", timeout=SOON) as found:
            self.assertTrue(found.headers["Content-Type"].startswith("text/plain; version=0.0.4"))
            text = found.read().decode()
        its, told = {}, set()
        for line in text.splitlines():
            if line.startswith("# "):
                self.assertRegex(line, r"^# (HELP|TYPE) zanteyard_\w+ \S")
                told.add(line.split()[2])
            else:
                name, labels, value = re.fullmatch(r'(zanteyard_\w+)(\{(?:\w+="[^"]*",?)+\})? (\S+)', line).groups()
                self.assertIn(name, told)
                its[name + (labels or "")] = float(value)
        return its

    def test_a_daemon_of_one_machine_and_its_figures(self):
        daemon = self.begun("--metrics", "127.0.0.1:0", "--rather-wait")
        port = re.search(r"serving metrics on port (\d+)", self.said()).group(1)
        store = MemoryStore()
        with AuditClient(self.socket) as client:
            session = client.session(store.connect())
            for _ in range(60):
                session.run(add_one("x"))

            def is_cut():
                session.run(add_one("x"))
                return self.figures(port)["zanteyard_cuts_total"] > 0

            self.wait_for(is_cut)
            found = self.figures(port)
        self.assertGreaterEqual(found["zanteyard_transactions_taken_total"], 60)
        self.assertGreaterEqual(found['zanteyard_rounds_total{kind="serial"}'], 1)
        self.assertEqual(found['zanteyard_rounds_total{kind="violated"}'], 0)
        self.assertGreater(found["zanteyard_last_writers"], 0)
        self.assertEqual((found["zanteyard_clients"], found["zanteyard_violated"]), (1, 0))
        with self.assertRaises(urllib.error.HTTPError):
            self.figures(port, "/")
        self.ended(daemon, 0)
        self.assertRegex(self.said(), r"serial: \d+ of \d+ transactions were audited")

    def test_who_asks_for_figures_and_is_slow_is_hung_up_on(self):
        for address in ("127.0.0.1:0", "[::1]:0"):
            try:
                with mock.patch("zanteyard.watch.pages._web.SLOWEST", 0.2):
                    server = WebServer(address, Metrics(tuple), any_name=True)
            except OSError:
                self.assertEqual(address, "[::1]:0")  # which a machine may not have
                continue
            with socket.create_connection((address[:-2].strip("[]"), server.port), SOON) as slow:
                slow.sendall(b"GET /metr")
                self.assertEqual(slow.recv(1), b"")
            server.close()

    def test_what_a_daemon_before_was_given_stays(self):
        for _ in range(3):
            self.ended(self.begun("--script", f"{self.folder}/script"), 4)
            self.assertIn("nothing was handed in", self.said())
        there = sorted(it for it in os.listdir(self.folder) if it.startswith("script"))
        self.assertEqual(there, ["script", "script.resumed", "script.resumed1"])

    def test_a_client_of_another_version_is_told(self):
        daemon = self.begun()
        with mock.patch("zanteyard.remote._connecting.FORM", 0), mock.patch("zanteyard.remote._connecting.VERSION", "9"):
            with self.assertRaisesRegex(OtherVersionError, f"from zanteyard {VERSION}, and this one from 9"):
                AuditClient(self.socket)
        self.ended(daemon, 4)

    def test_another_one_on_the_same_folder_can_not_begin(self):
        daemon = self.begun()
        log, there = self.said(), sorted(os.listdir(f"{self.folder}/audit"))
        another = self.serve()
        self.wait_for(lambda: another.poll() is not None)
        self.assertEqual(another.returncode, 2, self.said())
        self.assertIsNone(daemon.poll(), log)
        self.assertEqual(sorted(os.listdir(f"{self.folder}/audit")), there)

    def test_a_violation_ends_it(self, is_explained=True):
        daemon, store = self.begun(), MemoryStore("stale-read")
        with AuditClient(self.socket) as client:
            sessions = [client.session(store.connect()) for _ in range(2)]
            until = time.monotonic() + SOON
            while not client.is_over and time.monotonic() < until:
                for session in sessions:
                    session.run(add_one("x"))
                time.sleep(0.02)
        self.wait_for(lambda: daemon.poll() is not None)
        self.assertEqual(daemon.returncode, 1, self.said())
        self.assertIn("violated: ", self.said())
        if is_explained:
            self.assertIn("violated: no serial order that keeps each session's order explains these reads", self.said())
            self.assertTrue(os.path.exists(f"{self.folder}/audit/violation.jsonl"))

    def test_a_violation_that_can_not_be_written_ends_it_with_its_status(self):
        for place in ("violation.txt", "violation.jsonl"):
            with self.subTest(place):
                shutil.rmtree(f"{self.folder}/audit", ignore_errors=True)
                os.mkdir(f"{self.folder}/audit", 0o700)
                os.mkdir(f"{self.folder}/audit/{place}")
                self.test_a_violation_ends_it()
                self.assertNotIn("Traceback", self.said())
                self.assertIn(f"{place}", self.said())

    def test_a_violation_that_can_not_be_explained_ends_it_with_its_status(self):
        """For example if there is no memory for another program."""
        failing = f"{self.folder}/failing"
        os.makedirs(failing)
        with open(f"{failing}/sitecustomize.py", "w", encoding="utf-8") as file:
            file.write("import zanteyard.cli._serve as it\ndef fail(*_): raise MemoryError\nit.tell_violation = fail\n")
        with mock.patch.dict(os.environ, {"FAILING": failing}):
            self.test_a_violation_ends_it(is_explained=False)

    def test_what_can_not_begin(self):
        for more in (("--sessions", "65"), ("--metrics", "127.0.0.1:none"), ("--metrics", "127.0.0.1:65536"),
                     ("--metrics", "::1:9464"), ("--log", "LOUD"), ("--every", "0"), ("--round-seconds", "-1")):
            with self.subTest(more=more):
                daemon = self.serve(*more)
                self.wait_for(lambda: daemon.poll() is not None)
                self.assertEqual(daemon.returncode, 2, self.said())


if __name__ == "__main__":
    unittest.main()
