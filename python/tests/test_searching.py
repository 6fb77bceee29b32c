"""A search during a script of `cobra_audit`: lines are answered while it goes on, and it ends when
it is told to. No proof says how long anything takes (docs/PROVED.md)."""
import json
import subprocess
import threading
import time
import unittest

from .built import path_of

import hard
from judge import Model

# Each search here takes hours, so these limits distinguish it from a delay, even on a busy machine.
SOON = 60.0  # seconds for a search to end when it is given up: it checks at each node
AT_ONCE = 20.0  # seconds for a line that waits for no search
LIMIT = 300.0  # seconds after which a script is killed
EFFORTS = ([1 << 32, 0, 1], [1 << 32, 6, 4])  # in one thread and in four


class Script:
    """A running script; each of its replies is compared with the plain model."""

    def __init__(self):
        self.model = Model()
        pipes = {"stdin": subprocess.PIPE, "stdout": subprocess.PIPE, "stderr": subprocess.PIPE}
        self.running = subprocess.Popen([path_of("cobra_audit")], **pipes)
        self.limit = threading.Timer(LIMIT, self.running.kill)
        self.limit.daemon = True
        self.limit.start()

    def close(self):
        self.limit.cancel()
        self.running.kill()
        self.running.wait()
        for end in (self.running.stdin, self.running.stdout, self.running.stderr):
            end.close()

    def ask(self, *command):
        """The reply, and how many seconds it took."""
        line = json.dumps(command).encode()
        begin = time.monotonic()
        self.running.stdin.write(line + b"\n")
        self.running.stdin.flush()
        reply = self.running.stdout.readline().rstrip(b"\n")
        took = time.monotonic() - begin
        self.model.judge(line, reply)
        return json.loads(reply), took

    def end(self):
        """The status, further output, and how many seconds the end took."""
        begin = time.monotonic()
        told, error = self.running.communicate(timeout=LIMIT)
        return (self.running.returncode, told, error), time.monotonic() - begin


@unittest.skipUnless(path_of("cobra_audit"), "cobra_audit is not built")
class Searches(unittest.TestCase):
    def begun(self, effort):
        """A script that searches for hours, and the number of its last session."""
        log = hard.contradiction(2, hard.all_ways(2), 40)
        *offers, _ = [json.loads(line) for line in log.lines(*effort)]
        script = Script()
        self.addCleanup(script.close)
        for line in offers:
            self.assertEqual(script.ask(*line)[0], ["ok"])
        self.assertEqual(script.ask("begin")[0], ["ok"])
        reply, took = script.ask("search", *effort)
        self.assertEqual(reply, ["ok"])
        self.assertLess(took, AT_ONCE)
        return script, offers[0][1] - 1

    def test_lines_are_answered_meanwhile(self):
        """Offers, closes and looks at the state wait for no search; nor does a collect."""
        for effort in EFFORTS:
            with self.subTest(effort=effort):
                script, session = self.begun(effort)
                for number in range(1, 20):
                    for line in (["offer", session, number, [[[], [7]]]], ["collect"], ["show"],
                                 ["finish", *effort], ["truncate"]):
                        self.assertLess(script.ask(*line)[1], AT_ONCE, line)
                self.assertEqual(script.ask("collect")[0], ["searching"])
                reply, took = script.ask("skip")
                self.assertEqual(reply, ["ok"])
                self.assertLess(took, SOON)
                ended, took = script.end()
                self.assertEqual(ended, (0, b"", b""))
                self.assertLess(took, SOON)

    def test_a_skipped_round_is_made_again(self):
        """Everything that was accepted is still there, and the next report has the first number."""
        script, _ = self.begun(EFFORTS[0])
        script.ask("skip")
        self.assertEqual(script.ask("round", 1, 0, 1)[0][:3], ["report", 1, "spent"])
        self.assertEqual(script.end()[0], (0, b"", b""))

    def test_an_answer_from_elsewhere_ends_it(self):
        """A wrong answer doesn't end it; a right one does."""
        script, session = self.begun(EFFORTS[0])
        self.assertEqual(script.ask("answer", "order", [])[0][2], "BadCertificate")
        self.assertEqual(script.ask("collect")[0], ["searching"])
        self.assertEqual(script.ask("skip")[0], ["ok"])
        self.assertEqual(script.ask("collect")[0][2], "NoRound")
        self.assertEqual(script.end()[0], (0, b"", b""))

    def test_the_end_of_the_input_gives_it_up(self):
        for effort in EFFORTS:
            with self.subTest(effort=effort):
                script, _ = self.begun(effort)
                ended, took = script.end()
                self.assertEqual(ended, (0, b"", b""))
                self.assertLess(took, SOON)

    def test_a_reader_that_is_gone_ends_it(self):
        """A failed write ends the script, and its search is given up."""
        script, _ = self.begun(EFFORTS[0])
        script.running.stdout.close()
        script.running.stdin.write(b'["show"]\n')
        script.running.stdin.flush()
        begin = time.monotonic()
        self.assertEqual(script.running.wait(LIMIT), 1)
        self.assertLess(time.monotonic() - begin, SOON)
        self.assertEqual(script.running.stderr.read(), b"device failed\n")

    def test_collect_tells_it_once_it_has_ended(self):
        """A search that uses up its budget is reported as spent, by a collect that doesn't wait."""
        script, session = self.begun([200, 0, 1])
        told, until = ["searching"], time.monotonic() + LIMIT
        while told == ["searching"]:
            self.assertLess(time.monotonic(), until)
            time.sleep(0.05)
            told, took = script.ask("collect")
            self.assertLess(took, AT_ONCE)
        self.assertEqual(told[:3], ["report", 1, "spent"])
        self.assertEqual(script.end()[0], (0, b"", b""))


if __name__ == "__main__":
    unittest.main()
