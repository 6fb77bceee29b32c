"""Runs the tests in which processes are killed, and counts the kills by kind.

    /usr/bin/python3 bench/check/kills.py [--seed 1] [--times 1] [--kills 300] [TEST..]

Each of these tests compares its verdicts with those of a program that nobody kills on the same
whole log; with a fault switched on, each has to find the violation. Moments are drawn with the
seed; the journal's tests run --times as long. It prints a line per test and a table of the kills by
kind, and ends with status 1 if a test fails, or if there were fewer kills than --kills.
"""
import argparse
import collections
import os
import signal
import subprocess
import sys
import time
import unittest

PLACE = os.path.join(os.path.normpath(os.path.join(os.path.dirname(os.path.abspath(__file__)), "../..")), "python")
TESTS = (
    "tests.test_restarting.Killed.test_a_hundred_kills",
    "tests.test_journal_kills",
    "tests.test_killed.Killed",
    "tests.test_killed.KilledOverPostgres",
    "tests.test_machines.Kills",
    "tests.test_machines.LostSeconds",
    "tests.test_machines.Faults",
)
KINDS = (  # a word of its command line, and what it is
    ("cobra_audit", "the auditor"),
    ("journal_feeder", "a process with the journal"),
    ("journal_live", "a process with the journal, and its clients"),
    ("killed_client", "a client"),
    ("redis-server", "the Redis"),
    ("serve", "the daemon"),
)


class Counting(unittest.TextTestResult):
    """Counts child processes that SIGKILL ended before their test was over."""

    kills, ended, is_over, last = collections.Counter(), [], False, None

    def startTest(self, test):
        Counting.last = test
        self.began, self.before = time.monotonic(), sum(self.kills.values())
        super().startTest(test)

    def stopTest(self, test):
        count = sum(self.kills.values()) - self.before
        self.stream.writeln(f"    {count} kills, {time.monotonic() - self.began:.0f} s")
        super().stopTest(test)


def count(process):
    if process.returncode != -9 or Counting.is_over or any(it is process for it in Counting.ended):
        return
    Counting.ended.append(process)
    words = [str(it) for it in process.args]
    kind = next((kind for word, kind in KINDS if any(word in it for it in words)), " ".join(words)[:60])
    if kind == "a client":
        kind = f"a client, {'at any time' if words[9] == '-' else words[9]}"
    Counting.kills[kind] += 1


def cleaning_up(deed):
    """A kill there, or before a subtest begins, isn't in the middle of anything."""

    def done(*its):
        Counting.is_over, before = True, Counting.is_over
        try:
            return deed(*its)
        finally:
            Counting.is_over = before

    return done


def classes_of(tests):
    if isinstance(tests, unittest.TestSuite):
        return {each for its in tests if its is not None for each in classes_of(its)}
    return {type(tests)}


def main():
    parser = argparse.ArgumentParser(description=__doc__.splitlines()[0])
    parser.add_argument("--seed", default="1", help="the seed of the moments (1)")
    parser.add_argument("--times", default="1", help="how many times as long the journal's tests run (1)")
    parser.add_argument("--kills", type=int, default=300, help="fail if there were fewer (300)")
    parser.add_argument("tests", nargs="*", default=TESTS, metavar="TEST")
    asked = parser.parse_args()
    os.environ.update(ZANTEYARD_SEED=asked.seed, ZANTEYARD_KILLS=asked.times)
    sys.path.insert(0, PLACE)
    handle = subprocess.Popen._handle_exitstatus

    def handled(process, *its):
        handle(process, *its)
        count(process)

    subprocess.Popen._handle_exitstatus = handled
    unittest.TestCase.doCleanups = cleaning_up(unittest.TestCase.doCleanups)
    os.chdir(PLACE)
    signal.signal(signal.SIGTERM, signal.default_int_handler)
    tests = unittest.defaultTestLoader.loadTestsFromNames(asked.tests)
    try:
        found = unittest.TextTestRunner(verbosity=2, resultclass=Counting).run(tests)
    except KeyboardInterrupt:  # unittest leaves servers and clients running
        signal.signal(signal.SIGTERM, signal.SIG_IGN)  # once is enough
        if Counting.last is not None:
            Counting.last.doCleanups()
        for each in classes_of(tests):
            each.doClassCleanups()
        sys.exit(1)
    print("| Killed | times |")
    print("|---|---|")
    for kind, times in Counting.kills.most_common():
        print(f"| {kind} | {times} |")
    total = sum(Counting.kills.values())
    print(f"| in all | {total} |")
    sys.exit(0 if found.wasSuccessful() and total >= asked.kills else 1)


if __name__ == "__main__":
    main()
