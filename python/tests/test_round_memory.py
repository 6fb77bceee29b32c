"""What a round takes of memory: the known relation is there once, and once more for each worker."""
import json
import os
import re
import subprocess
import unittest

from zanteyard.program._auditor import PROGRAM

SESSIONS, EACH = 256, 64
# For each transaction and session two numbers of eight bytes.
RELATION = SESSIONS * EACH * SESSIONS * 16
EFFORT = [1, 0, 1]


@unittest.skipUnless(os.path.isfile(PROGRAM), f"{PROGRAM} is not built: see README.md")
class RoundMemory(unittest.TestCase):
    def peak_of(self, *lines):
        """The most that was held of memory, in bytes, and the last reply. Each session writes its
        own key alone, so there is little but the relation."""
        with subprocess.Popen([PROGRAM], stdin=subprocess.PIPE, stdout=subprocess.PIPE) as process:
            self.addCleanup(process.kill)
            ask = [["open", SESSIONS, SESSIONS * EACH, 3]]
            ask += [["offer", session, 0, [[[], [session]]] * EACH] for session in range(SESSIONS)]
            for line in [*ask, *lines]:
                process.stdin.write(json.dumps(line).encode() + b"\n")
                process.stdin.flush()
                reply = json.loads(process.stdout.readline())
            with open(f"/proc/{process.pid}/status", encoding="ascii") as status:
                peak = int(re.search(r"VmHWM:\s*(\d+) kB", status.read())[1]) * 1024
        return peak, reply

    def test_a_begin_copies_no_relation(self):
        peak, reply = self.peak_of(["begin"])
        self.assertEqual(reply, ["ok"])
        self.assertLess(peak, 1.5 * RELATION)

    def test_a_round_copies_the_relation_for_its_worker_alone(self):
        peak, reply = self.peak_of(["round", *EFFORT])
        self.assertEqual(reply[:3], ["report", 1, "serial"])
        self.assertLess(peak, 2.5 * RELATION)

    def test_a_search_in_a_thread_copies_the_relation_for_its_worker_alone(self):
        peak, reply = self.peak_of(["begin"], ["search", *EFFORT], ["collect", "wait"])
        self.assertEqual(reply[:3], ["report", 1, "serial"])
        self.assertLess(peak, 2.5 * RELATION)


if __name__ == "__main__":
    unittest.main()
