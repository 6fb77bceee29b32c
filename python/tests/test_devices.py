"""The programs from outside with failing devices and refused memory: the bounded part of what
bench/check/failing_devices.py and bench/check/refused_memory.py try. Needs a C compiler."""
import os
import tempfile
import unittest

from .built import WORKED, path_of


import failing_devices
import refused_memory

refused_memory.PROGRAMS.update((name, path_of(name)) for name in failing_devices.NAMES)

# How many allocations of each run are refused, spread over all of them; and how many from which on
# all are.
REFUSALS, LASTING = 12, 3
# In this run each allocation is refused in turn. Each of these commands is then answered NoMemory,
# some of them while a round is open, before it is answered as usual.
WHOLE = "cobra_audit, first_cut by steps"
COMMANDS = {"open", "offer", "begin", "finish", "round", "truncate", "rebuild"}


def worked(name):
    with open(os.path.join(WORKED, name), "rb") as file:
        return file.read()


@unittest.skipUnless(failing_devices.has_compiler(), "no cc is installed (no device failed)")
class Devices(unittest.TestCase):
    def setUp(self):
        folder = tempfile.TemporaryDirectory()
        self.addCleanup(folder.cleanup)
        self.folder = folder.name

    def test_each_read_and_each_write_fails_in_turn(self):
        script, replies = (worked(f"first_cut.{end}") for end in ("jsonl", "replies"))
        for name in failing_devices.NAMES:
            if path_of(name) is None:
                continue
            for what, runs in failing_devices.all_runs(name, path_of(name), self.folder, script,
                                                       replies):
                with self.subTest(program=name, what=what):
                    self.assertGreater(len(runs), 0)
                    self.assertEqual(list(filter(None, runs)), [])

    def test_allocations_and_threads_are_refused(self):
        shim, tried = refused_memory.Shim(self.folder), 0
        for run in refused_memory.runs(WORKED):
            if not refused_memory.is_built(run):
                continue
            made, threads = run.prepare(shim)
            every = 1 if run.name == WHOLE else max(made // REFUSALS, 1)
            numbers = [("refused", each) for each in range(1, made + 1, every)]
            numbers += [("thread", each) for each in range(1, threads + 1)]
            lasting = numbers[:len(numbers) - threads]
            lasting = lasting[::max(len(lasting) // LASTING, 1)] if run.lasts else []
            for asked, how in ((numbers, {}), (lasting, {"is_lasting": True})):
                with self.subTest(run=run.name, **how):
                    ways, wrong = refused_memory.ways_of(shim, run, asked, **how)
                    self.assertEqual(wrong, [])
                    tried += sum(ways.values())
            if run.name == WHOLE:
                self.assertLessEqual(COMMANDS, set(run.refused))
                self.assertGreater(run.in_rounds, 0)
        if not tried:
            self.skipTest("no program is built that takes its memory from the C library")


if __name__ == "__main__":
    unittest.main()
