"""What the programs request of memory, which the C library of bench/check/refused_memory.py counts:
the relation is kept from round to round, and a desk has the places that its line asks for. Needs a
C compiler."""
import tempfile
import unittest

from .built import path_of

import refused_memory

SESSIONS, EACH = 4, 250


def offer(session, number):
    """A transaction that writes a key of its session."""
    return b'["offer",%d,%d,[[[],[%d]]]]\n' % (session, number, session + 1)


@unittest.skipUnless(refused_memory.has_compiler(), "no cc is installed (nothing was counted)")
class Allocations(unittest.TestCase):
    def setUp(self):
        folder = tempfile.TemporaryDirectory()
        self.addCleanup(folder.cleanup)
        self.shim = refused_memory.Shim(folder.name)

    def start(self, name):
        path = path_of(name)
        if path is None:
            self.skipTest(f"{name} is not built")
        running = self.shim.start(path)
        self.addCleanup(running.communicate)
        self.addCleanup(running.kill)
        return running

    def taken_by(self, running, *lines):
        """How many allocations the lines take, none of which is refused."""
        before = self.shim.counts()[0]
        for line in lines:
            reply = refused_memory.ask(running, line)
            self.assertFalse(reply.startswith(b'["no"'), f"{line!r}: {reply!r}")
        return self.shim.counts()[0] - before

    def test_a_begin_adds_what_has_come_and_makes_no_relation_anew(self):
        running = self.start("cobra_audit")
        self.taken_by(running, b'["open",%d,%d]\n' % (SESSIONS, 2 * SESSIONS * EACH))
        for session in range(SESSIONS):
            for number in range(EACH):
                self.taken_by(running, offer(session, number))
        anew = self.taken_by(running, b'["begin"]\n')
        self.taken_by(running, b'["finish",4096,0,1]\n')
        for number in range(EACH, EACH + 3):
            kept = self.taken_by(running, offer(0, number), b'["begin"]\n')
            self.assertLess(10 * kept, anew)
            self.taken_by(running, b'["finish",4096,0,1]\n')
        self.taken_by(running, b'["rebuild"]\n')
        self.assertLess(10 * kept, self.taken_by(running, b'["begin"]\n'))

    def test_a_desk_has_as_many_places_as_its_line_asks_for(self):
        path = path_of("cobra_demo")
        if path is None:
            self.skipTest("cobra_demo is not built")
        largest = {}
        # So many that nothing else that a run allocates is as large.
        for places in (768, 1024):
            _, ended = self.shim.run(path, b"none %d\n" % places)
            self.assertEqual(ended, (0, b""))
            largest[places] = self.shim.largest()
        self.assertEqual(largest[768] * 1024, largest[1024] * 768)


if __name__ == "__main__":
    unittest.main()
