"""Checks and benchmarks that a shell starts in the background, as `nohup check &` does: programs
that they start end at SIGINT all the same."""

import glob
import os
import signal
import subprocess
import sys
import unittest

TOP = os.path.normpath(os.path.join(os.path.dirname(os.path.abspath(__file__)), "../.."))
STARTS = """
import signal, subprocess, sys
from tests.proxy_pair import hears_interrupts
if sys.argv[1] == "hears":
    hears_interrupts()
handler = "import signal; print(signal.getsignal(signal.SIGINT) == signal.SIG_IGN)"
sys.stdout.write(subprocess.run([sys.executable, "-c", handler], capture_output=True, text=True).stdout)
"""
NOT_OF_WATCH = {"bench/check/matrix/clients.py"}  # interrupts a client, which it runs in a terminal


class InTheBackground(unittest.TestCase):
    def ignores(self, word: str) -> str:
        def as_a_shell_does() -> None:
            signal.signal(signal.SIGINT, signal.SIG_IGN)

        environment = dict(os.environ, PYTHONPATH=os.path.join(TOP, "python"))
        done = subprocess.run(
            [sys.executable, "-c", STARTS, word],
            capture_output=True, text=True, env=environment, preexec_fn=as_a_shell_does,
        )
        return done.stdout.strip() or done.stderr

    def test_what_it_starts_hears_interrupts(self) -> None:
        self.assertEqual(self.ignores("doesn't"), "True")
        self.assertEqual(self.ignores("hears"), "False")

    def test_all_that_end_programs_by_interrupts_do_so(self) -> None:
        found = 0
        for path in glob.glob(os.path.join(TOP, "bench/**/*.py"), recursive=True):
            name = os.path.relpath(path, TOP)
            with open(path, encoding="utf-8") as file:
                text = file.read()
            if "send_signal(signal.SIGINT)" in text and name not in NOT_OF_WATCH:
                found += 1
                self.assertIn("    hears_interrupts()\n", text, name)
        self.assertGreater(found, 10)


if __name__ == "__main__":
    unittest.main()
