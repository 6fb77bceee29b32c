"""The proxy's program as a child process: read, given commands, ended, replaced."""
import json
import os
import shutil
import sys
import tempfile
import threading
import unittest
from unittest import mock

from tests import watch_feed as feed
from zanteyard.core.errors import ProgramEndedError, ProgramMissingError
from zanteyard.watch.proxy import _supervising as supervising
from zanteyard.watch.outcome._feed import Split, command
from zanteyard.watch.proxy._intake import Intake
from zanteyard.watch.proxy._proxy import Proxy
from zanteyard.program._proxy_program import build_of
from zanteyard.watch.proxy._supervising import CantBeginError, Supervisor


class InAFolder(unittest.TestCase):
    def setUp(self):
        self.folder = tempfile.mkdtemp()
        self.addCleanup(shutil.rmtree, self.folder, ignore_errors=True)

    def shell(self, text):
        """A program as a shell script."""
        path = os.path.join(self.folder, "program")
        with open(path, "w", encoding="utf-8") as file:
            file.write(f"#!/bin/sh\n{text}\n")
        os.chmod(path, 0o755)
        return path

    def proxy(self, text):
        self.items, self.is_over = [], threading.Event()

        def take(items):
            self.items += items
            if not items:
                self.is_over.set()

        proxy = Proxy([self.shell(text)], take)
        self.addCleanup(proxy.end)
        return proxy


class Lines(unittest.TestCase):
    def test_pieces(self):
        split = Split()
        found = []
        for piece in (b'["ope', b'n",1]\n{"ev', b'ent":"x"}\nnonsense\n{"event":5}\n[', b"]\n{}\n"):
            found += split.items(piece)
        self.assertEqual(found, [b'["open",1]', {"event": "x"}, b"[]"])
        self.assertEqual(split.wrong, 3)

    def test_bytes_that_are_no_text(self):
        split = Split()
        self.assertEqual(split.items(b'{"event":"\xff"}\n'), [])
        self.assertEqual(split.wrong, 1)

    def test_a_command(self):
        self.assertEqual(
            command("cut", marks=[1, 2]), b'{"command":"cut","marks":[1,2]}\n'
        )


class OneRun(InAFolder):
    def test_what_it_writes_and_is_told(self):
        proxy = self.proxy("""echo '["open",1,2]'; echo listening >&2; read -r line
            echo "{\\"event\\":\\"told\\",\\"line\\":$line}"; while read -r _; do :; done; exit 0""")
        self.assertTrue(proxy.tell(command("stop")))
        while len(self.items) < 2:
            self.assertFalse(self.is_over.wait(0.01))
        self.assertEqual(
            self.items, [b'["open",1,2]', {"event": "told", "line": {"command": "stop"}}]
        )
        self.assertIn(proxy.end(), (0, -15))  # by the end of its input, or by the signal after it
        self.assertTrue(self.is_over.is_set())
        self.assertEqual(proxy.last_words, ["listening"])
        self.assertFalse(proxy.tell(command("stop")))

    def test_it_is_out_of_reach_of_a_terminals_signals(self):
        proxy = self.proxy("exec cat > /dev/null")
        self.assertNotEqual(os.getpgid(proxy.process.pid), os.getpgid(0))
        self.assertNotEqual(os.getsid(proxy.process.pid), os.getsid(0))

    def test_one_that_doesnt_end_is_killed(self):
        proxy = self.proxy("trap '' TERM; echo '[]'; while :; do sleep 0.05; done")
        while not self.items:  # so that the trap is set
            self.assertFalse(self.is_over.wait(0.01))
        with self.assertLogs("zanteyard", "WARNING"):
            self.assertEqual(proxy.end(0.2), -9)

    def test_one_that_isnt_there(self):
        with self.assertRaises(ProgramMissingError):
            Proxy(["/not/there"], print)

    def test_its_build(self):
        path = self.shell("echo zanteyard-proxy 0.1 $1")
        self.assertIn(f"{path}: zanteyard-proxy 0.1 --version", build_of({"ZANTEYARD_PROXY": path}))


class Supervised(InAFolder):
    def supervisor(self, *runs):
        self.intake, self.gone = Intake(), []
        path = feed.program(self.folder, *runs)
        found = Supervisor([path], None, self.intake, self.gone.append)
        self.addCleanup(found.end)
        self.addCleanup(self.intake.close)
        return found

    def look(self, found, is_done):
        """Looks until it is done, two minutes at most."""
        pause = threading.Event()
        for _ in range(12000):
            found.look()
            if is_done():
                return
            pause.wait(0.01)
        self.fail("it hasn't come to that in two minutes")

    def test_one_that_never_began(self):
        found = self.supervisor([("exit", 3)])
        found.begin()
        with self.assertRaisesRegex(CantBeginError, "status 3"):
            self.look(found, lambda: False)
        self.assertEqual(self.gone, [])

    def test_why_it_ended(self):
        for status, words, wanted in (
            (-9, ["listening"], "the proxy was killed by signal 9"),
            (1, ["a", "b", "c"], "the proxy ended with status 1: b; c"),
            (0, [], "the proxy ended with status 0"),
        ):
            self.assertEqual(supervising._why(status, words), wanted)

    @mock.patch.object(supervising, "PAUSES", (0.0,))
    def test_one_after_another(self):
        found = self.supervisor([feed.started(), feed.OPEN, ("exit", 3)])
        found.begin()
        self.assertTrue(found.has_started.wait(300))
        with self.assertRaisesRegex(ProgramEndedError, "10 proxies ended in quick succession"):
            self.look(found, lambda: False)
        self.assertEqual(len(self.gone), supervising.MOST)
        self.assertEqual(found.ended, supervising.MOST)
        with open(os.path.join(self.folder, "zanteyard-proxy.starts"), encoding="utf-8") as file:
            self.assertEqual(len(file.readlines()), supervising.MOST)

    @mock.patch.object(supervising, "PAUSES", (0.0,))
    def test_the_next_one_is_told(self):
        runs = [feed.started(), ("exit", 3)], [feed.started(), feed.OPEN]
        found = self.supervisor(*runs)
        found.begin()
        self.assertTrue(found.has_started.wait(300))
        self.look(found, lambda: found.ended == 1)
        self.look(found, lambda: found.has_started.is_set())
        self.assertTrue(found.tell(command("stop")))
        items = []
        while not any(isinstance(it, dict) and it["event"] == "stopped" for it in items):
            items += self.intake.take(300)
        self.assertEqual([json.loads(it) for it in items if isinstance(it, bytes)][0], feed.OPEN)


if __name__ == "__main__":
    sys.exit(unittest.main())
