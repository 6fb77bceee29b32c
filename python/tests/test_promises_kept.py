"""Audits for snapshot isolation with a journal: the history is kept as it was offered, with the
promise."""
import os
import random
import unittest

from zanteyard import Auditor, Logged, NoCutError
from zanteyard.core._own_keys import FENCE
from zanteyard.core.errors import JournalError
from zanteyard.journal import _entries
from zanteyard.journal._file import Journal
from .killing import MOMENTS, PLAIN, Killer, Log, once
from .test_restarting import PROGRAM, WithJournal, kinds, steps

SKEW = "write-skew"  # the fault of a store in memory that is allowed by snapshot isolation


def log_of(fault, seed, rounds=3):
    log = Log(random.Random(seed), fault)
    for _ in range(rounds):
        log.run(8)
        log.meet()
    return log.entries


def plain(auditor):
    """What remains, in the form of lines."""
    return [[*map(auditor.txn, txns)] for txns in auditor.history]


class OfSnapshots(WithJournal):
    def auditor(self, sessions=3, limit=512, **more):
        return super().auditor(sessions, limit, **{"promise": "snapshot", **more})


class Killed(OfSnapshots):
    def test_each_line_at_each_moment(self):
        """Everything is reported as without a journal, and the journal leads to the same state."""
        entries = log_of(SKEW, 4, 2)
        with Auditor(3, 512, PROGRAM, promise="snapshot") as whole:
            wanted = [*steps(whole, entries, 12)]
        self.assertTrue(any(hasattr(each, "fence") for each in wanted))
        self.assertEqual({*kinds(wanted)}, {"serial"})
        at, kills, step = 0, 1, 1 if PROGRAM != PLAIN else 9
        while kills:
            moment = MOMENTS[at % 4]
            kills, self.path = 0, os.path.join(self.folder, f"{at}")
            with self.subTest(line=at, moment=moment):
                with Killer(once(at, moment)) as killer, self.auditor() as auditor:
                    found = [*steps(auditor, entries, 12)]
                    kills = killer.kills
                self.assertEqual(found, wanted)
                with self.resumed(promise="snapshot") as auditor:
                    self.assertEqual(auditor.ask(["show"]), wanted[-1])
                    self.assertEqual([auditor.marks, auditor.received, auditor.closed], wanted[-1][1:4])
                    self.assertEqual(plain(auditor), plain(whole))
                    self.assertEqual(auditor.outcome().kind, "serial")
            at += step
        self.assertGreater(at, len(entries))

    def test_verdicts(self):
        """They are those of the same whole log, in a program without a journal that nobody
        kills."""
        dice = random.Random(7)
        told = []
        for seed in range(12):
            fault = ("lost-update", SKEW, None)[seed % 3]
            entries = log_of(fault, seed)
            wanted = {}
            for promise in ("snapshot", "serializable"):
                with Auditor(3, 512, PROGRAM, promise=promise) as whole:
                    for entry in entries:
                        whole.offer(*entry)
                    wanted[promise] = whole.round().kind
            with Killer(lambda _: dice.choice(MOMENTS) if dice.random() < 0.05 else None, dice) as killer:
                with self.auditor() as auditor:
                    found = kinds([*steps(auditor, entries)])[-1]
            self.assertEqual(found, wanted["snapshot"], (seed, fault))
            with self.resumed() as auditor:
                self.assertEqual(auditor.outcome().kind, found)
            told.append((fault, wanted["snapshot"], wanted["serializable"], killer.kills > 0))
            os.unlink(self.path)
        self.assertIn(("lost-update", "violated", "violated", True), told)
        self.assertIn((SKEW, "serial", "violated", True), told)
        self.assertNotIn((SKEW, "violated"), [each[:2] for each in told])

    def test_what_has_begun(self):
        """A cut that forgets a begin and not the commit: the transaction remains, without its
        reads, also for who continues."""
        late, fence = Logged([("x", "init")], ["y"]), [Logged([(FENCE, it)], [FENCE]) for it in ("init", (0, 1))]
        with self.auditor() as auditor:
            auditor.offer(0, 0, Logged((), ["x"]), fence[0], Logged([("y", (2, 0))], ["z"]))
            auditor.offer(1, 0, fence[1], Logged([("x", (0, 0)), ("y", "init")], ()))
            auditor.offer(2, 0, late)
            self.assertEqual(auditor.round().kind, "serial")
            auditor.truncate()
            self.assertEqual(auditor.marks, [2, 1, 0])
            self.assertEqual(plain(auditor)[2], [[[], [auditor.key_number("y")]]])
            wanted = plain(auditor), auditor.marks, auditor.base
        with self.resumed() as auditor:
            self.assertEqual((plain(auditor), auditor.marks, auditor.base), wanted)
            self.assertEqual(auditor.last_round().kind, "serial")
            auditor.offer(1, 2, Logged([("x", "init")], ()))
            self.assertEqual(auditor.last_round().kind, "violated")


class Promises(OfSnapshots):
    def test_another_promise_is_refused(self):
        for ours, others in (("snapshot", "serializable"), ("serializable", "snapshot")):
            self.path = os.path.join(self.folder, ours)
            with self.auditor(promise=ours) as auditor:
                auditor.offer(0, 0, Logged((), ["x"]))
            with self.assertRaisesRegex(JournalError, "asks for .*, so it can't continue with "):
                self.resumed(promise=others)
            with self.resumed() as auditor:  # with any promise
                self.assertEqual(auditor.promise.name, ours)
                self.assertEqual(auditor.received, [1, 0, 0])

    def test_an_unknown_promise_is_refused(self):
        head = _entries.Head(2, 16, "run", promise="causal")
        lines = [b'["resume",2,16,2]', b'["marks",[0,0],[false,false]]', b'["resumed"]']
        journal = Journal(self.path)
        journal.begin_anew(_entries.checkpoint(head, _entries.keys(0, ["fence"]), (), lines))
        journal.close()
        with self.assertRaisesRegex(JournalError, "promise: causal"):
            self.resumed()


if __name__ == "__main__":
    unittest.main()
