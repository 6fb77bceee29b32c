"""Calls that may wait do end: runs in threads over queues of every size, each within a time limit.
No proof says this (docs/PROVED.md); searches are in test_searching.py."""
import subprocess
import unittest

from .built import path_of

SECONDS = 300.0  # for something that takes a few milliseconds
FAULTS = ("none", "stale-read", "lost-update", "split-read", "session-back", "dirty-read")
PLACES = (1, 2, 3, 16, 1024)  # of the desk, which four collectors fill


def shown(fault):
    """What the demonstration has to print: everything submitted is taken, and the fault is
    found."""
    collectors = "".join(f"collector {at} submitted 11 taken 11\n" for at in range(4))
    kind = "serial" if fault == "none" else "violated"
    return f"fault {fault}\n{collectors}last {kind}\nlatest {kind}\n".encode()


@unittest.skipUnless(path_of("cobra_demo"), "cobra_demo is not built")
class Demonstrations(unittest.TestCase):
    def test_each_fault_over_a_desk_of_each_size(self):
        """Collectors find the desk full, the auditor finds it empty, and in the end all go on."""
        for fault in FAULTS:
            for places in PLACES:
                with self.subTest(fault=fault, places=places):
                    line = f"{fault} {places}\n".encode()
                    ended = subprocess.run([path_of("cobra_demo")], input=line, timeout=SECONDS,
                                           stdout=subprocess.PIPE, stderr=subprocess.PIPE)
                    self.assertEqual((ended.returncode, ended.stdout, ended.stderr),
                                     (0, shown(fault), b""))


if __name__ == "__main__":
    unittest.main()
