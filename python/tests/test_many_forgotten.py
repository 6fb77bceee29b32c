"""Explanations after a cut at which more keys are forgotten than a line may list."""
import json
import unittest

from zanteyard import Logged
from zanteyard.core._records import MOST
from zanteyard.explain._audited import START, audited_apart
from zanteyard.explain._shrinking import smaller
from zanteyard.promises._kinds import PREFIX, SERIALIZABLE, SNAPSHOT

from .test_many_transactions import AUDITOR, ROUND, WithFolder, run

KEYS = 600
FORGOTTEN = Logged((), (START, *(f"k{at:03}" for at in range(KEYS))), "forgotten")
AFTER = Logged(((START, (0, 0)),), (), "forgotten")


def reader(first, count, *more, writes=()):
    """Reads keys of what is forgotten."""
    read = ((f"k{at:03}", (0, 0)) for at in range(first, first + count))
    return Logged((*read, *more), writes)


class Forgotten(WithFolder):
    def test_a_violation_after_a_cut_is_told(self):
        """It names the cut, and not the keys that don't matter."""
        third = KEYS // 3
        writers = [[[], [*range(at * third + 1, (at + 1) * third + 1)]] for at in range(3)]
        lost = [[[[7, 0, 0]], [7]]]
        self.written(
            ["open", 2, 64], ["offer", 0, 0, [*writers, [[[0, "init"]], [0]]]],
            ["offer", 1, 0, [[[[0, 0, 3]], [0]]]], ROUND, ["truncate"],
            ["offer", 0, 4, lost], ["offer", 1, 1, lost], ROUND,
        )
        for promise in ("serializable", "snapshot"):
            with self.subTest(promise=promise):
                status, out, err = run("check", self.script, "--promise", promise, "--seconds", "60")
                self.assertEqual((status, err), (1, ""), out)
                self.assertIn("0.4 and 1.1 both read key 7 from the cut", out)
                self.assertNotIn("key 8", out)

    def test_what_is_forgotten_is_checked_in_pieces(self):
        """Verdicts are as if a line could list so many keys, and ids those of the history."""
        half = KEYS // 2
        kept = [[FORGOTTEN, reader(0, MOST)], [AFTER, reader(half, MOST)]]
        lost = Logged((("k001", (0, 0)),), ("k001",))
        # One writer of two keys, of which another one reads one as it was before and one after.
        torn = Logged((), ("k000", f"k{KEYS - 1}"))
        sees = Logged((("k000", (1, 2)), (f"k{KEYS - 1}", (0, 0))), ())
        for promise in (SERIALIZABLE, SNAPSHOT, PREFIX):
            for name, more, is_kept in (
                ("nothing", ((), ()), True), ("a lost update", ((lost,), (lost,)), promise == PREFIX),
                ("a torn read", ((sees,), (torn,)), False),
            ):
                with self.subTest(promise=promise.name, more=name):
                    history = [[*its, *also] for its, also in zip(kept, more)]
                    its = audited_apart(history, AUDITOR, promise)
                    self.assertEqual(its.report.kind, "serial" if is_kept else "violated")
                    lists = [
                        its for line in its.script.splitlines() if '"offer"' in line
                        for its in json.loads(line)[3]
                    ]
                    self.assertLessEqual(max(len(part) for txn in lists for part in txn[:2]), MOST)
        small = smaller([[*kept[0], lost], [*kept[1], lost]], AUDITOR, 60.0, [(0, 2), (1, 2)])
        self.assertEqual([[*it.writes] for it in small[1] if it.writes], [["k001"]])

    def test_what_others_dont_access_is_left_out(self):
        its = audited_apart([[FORGOTTEN], [AFTER, reader(5, 2)]], AUDITOR)
        self.assertEqual(its.report.kind, "serial")
        (writer,) = json.loads(its.script.splitlines()[1])[3]
        self.assertEqual(len(writer[1]), 3)  # and the key that says where all begin


if __name__ == "__main__":
    unittest.main()
