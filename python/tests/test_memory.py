"""Each fault of a store in memory is found, and no violation is reported without one."""
import os
import tempfile
import unittest

from zanteyard import AbortedError, Auditor, ProgramEndedError, FullError, OutcomeUnknownError, RefusedError, Session, audited, smaller, words
from zanteyard.program._auditor import PROGRAM
from zanteyard.stores.memory import MemoryStore

from .waiting import SOON


class WithAuditor(unittest.TestCase):
    def setUp(self):
        if not os.path.isfile(PROGRAM):
            self.skipTest(f"{PROGRAM} is not built: see README.md")
        self.auditor = Auditor(sessions=3, limit=8)
        self.addCleanup(self.auditor.end)

    def sessions(self, fault=None, **more):
        self.store = MemoryStore(fault)
        return [Session(self.auditor, number, self.store.connect(), **more) for number in range(3)]

    def kind(self):
        return self.auditor.round().kind


def put(**values):
    def body(transaction):
        for key, value in values.items():
            transaction.put(key, value)

    return body


def read(*keys):
    return lambda transaction: [transaction.get(key) for key in keys]


def add_one(transaction):
    transaction.put("x", transaction.get("x") + 1)


def commits(transaction):
    try:
        transaction.commit()
        return True
    except AbortedError:
        return False


class Faults(WithAuditor):
    def one_after_another(self, fault):
        a, b, _ = self.sessions(fault)
        a.run(put(x=0))
        b.run(add_one)
        a.run(add_one)
        b.run(read("x"))
        return self.kind()

    def two_at_once(self, fault, bodies):
        a, b, _ = self.sessions(fault)
        a.run(put(x=1, y=1))
        open_at_once = [(a, a.begin(), bodies[0]), (b, b.begin(), bodies[1])]
        for _, transaction, body in open_at_once:
            body(transaction)
        for session, transaction, body in open_at_once:
            if not commits(transaction):
                session.run(body)  # the retry, with the next number
        b.run(read("x", "y"))
        return self.kind()

    def skew(self, fault):
        def spend(other):
            def body(transaction):
                if transaction.get("x") + transaction.get("y") > 1:
                    transaction.put(other, 0)

            return body

        return self.two_at_once(fault, [spend("x"), spend("y")])

    def dirty(self, fault):
        a, b, c = self.sessions(fault)
        a.run(put(x=1))
        late = b.begin()
        add_one(late)
        a.run(add_one)
        self.assertFalse(commits(late))
        found = c.run(read("x"))
        b.run(put(x=found[0] + 1))  # writes the same key under the next number
        return self.kind()

    def torn(self, fault):
        a, b, _ = self.sessions(fault)
        a.run(put(x=1, y=1))
        reader = b.begin()
        reader.get("x")
        a.run(put(x=2, y=2))
        reader.get("y")
        commits(reader)
        return self.kind()

    def forgotten(self, fault):
        a, _, _ = self.sessions(fault)
        a.run(put(x=1))
        a.run(read("x"))
        return self.kind()

    def deleted(self, fault):
        a, b, _ = self.sessions(fault)
        a.run(put(x=1))
        a.run(lambda transaction: transaction.delete("x"))
        a.run(read("x"))
        return self.kind()

    def test_each(self):
        add_both = [add_one, add_one]
        rows = [
            ("stale-read", self.one_after_another, ()),
            ("lost-write", self.forgotten, ()),
            ("lost-update", self.two_at_once, (add_both,)),
            ("write-skew", self.skew, ()),
            ("dirty-read", self.dirty, ()),
            ("torn-read", self.torn, ()),
            ("reappearing", self.deleted, ()),
        ]
        for fault, history, more in rows:
            for switched_on, wanted in ((None, "serial"), (fault, "violated")):
                with self.subTest(fault=fault, switched_on=switched_on):
                    self.auditor.end()
                    self.auditor = Auditor(sessions=3, limit=8)
                    self.addCleanup(self.auditor.end)
                    self.assertEqual(history(switched_on, *more), wanted)


class Recipes(WithAuditor):
    def test_own_reads_are_left_out(self):
        a, _, _ = self.sessions()
        self.assertEqual(a.run(lambda t: (t.get("x"), t.put("x", 1), t.get("x"), t.put("x", 2), t.get("x")))[4], 2)
        self.assertEqual(self.auditor.history[0][0].reads, [("x", "init")])
        self.assertEqual(self.kind(), "serial")

    def test_a_body_that_fails_is_an_aborted_attempt(self):
        a, _, _ = self.sessions()
        with self.assertRaises(ZeroDivisionError):
            a.run(lambda t: (t.put("x", 1), 1 // 0))
        a.run(put(x=1))
        self.assertEqual([it.outcome for it in self.auditor.history[0]], ["aborted", "committed"])
        self.assertEqual(self.kind(), "serial")

    def test_a_delete_is_read_by_its_name(self):
        a, _, _ = self.sessions()
        a.run(put(x=1))
        a.run(lambda t: t.delete("x"))
        self.assertEqual(a.run(read("x")), [None])
        self.assertEqual(self.auditor.history[0][2].reads, [("x", (0, 1))])
        self.assertEqual(self.kind(), "serial")

    def test_names_of_another_run_are_the_initial_state(self):
        a, b, _ = self.sessions(run_name="first")
        a.run(put(x=1))
        again = Session(self.auditor, 1, self.store.connect(), run_name="second")
        self.assertEqual(again.run(read("x")), [1])
        self.assertEqual(self.auditor.history[1][0].reads, [("x", "init")])

    def test_the_limit(self):
        a, _, _ = self.sessions()
        for _ in range(9):
            a.run(put(x=1))
        with self.assertRaises(FullError):
            self.kind()
        outcome = self.auditor.outcome()
        self.assertEqual((outcome.kind, outcome.audited, outcome.handed_in), ("incomplete", 8, 9))
        self.assertEqual(outcome.report.kind, "serial")

    def test_a_wrong_log_is_refused(self):
        with self.assertRaises(RefusedError):
            self.auditor.ask(["offer", 0, 0, [[[["x", "init"]], []]]])

    def test_a_program_that_ends_is_told(self):
        a, _, _ = self.sessions()
        self.auditor.program.kill()
        a.run(put(x=1))
        with self.assertRaises(ProgramEndedError):
            self.kind()

    def test_a_reply_that_can_not_be_written(self):
        with tempfile.TemporaryDirectory() as folder:
            full = os.path.join(folder, "full")
            with open(full, "w") as file:
                file.write(f'#!/bin/sh\nexec "{PROGRAM}" > /dev/full\n')
            os.chmod(full, 0o755)
            with self.assertRaisesRegex(ProgramEndedError, "status 1: device failed"):
                Auditor(1, program=full)

    def test_a_program_that_ends_without_a_word(self):
        with tempfile.TemporaryDirectory() as folder:
            silent = os.path.join(folder, "silent")
            with open(silent, "w") as file:
                file.write("#!/bin/sh\nread line\nexit 3\n")
            os.chmod(silent, 0o755)
            with self.assertRaisesRegex(ProgramEndedError, "ended with status 3$"):
                Auditor(1, program=silent)

    def test_a_program_that_is_not_there(self):
        with self.assertRaises(ProgramEndedError):
            Auditor(1, program="/nowhere/cobra_audit")


class UnknownOutcomes(WithAuditor):
    def lose(self, took_effect, known):
        a, b, _ = self.sessions(patience=0.1)
        a.run(put(x=1))
        a.store.lost, a.store.known = took_effect, known
        return a, b

    def test_it_was_committed(self):
        a, b = self.lose("committed", True)
        a.run(add_one)
        self.assertEqual(b.run(read("x")), [2])
        self.assertEqual(self.kind(), "serial")

    def test_it_was_aborted(self):
        a, b = self.lose("aborted", True)
        with self.assertRaises(AbortedError):
            a.run(add_one, attempts=2)
        self.assertEqual(b.run(read("x")), [1])
        self.assertEqual([it.outcome for it in self.auditor.history[0]], ["committed", "aborted", "aborted"])
        self.assertEqual(self.kind(), "serial")

    def test_nobody_can_tell(self):
        for took_effect in ("committed", "aborted"):
            with self.subTest(took_effect=took_effect):
                self.auditor.end()
                self.auditor = Auditor(sessions=3, limit=8)
                self.addCleanup(self.auditor.end)
                a, b = self.lose(took_effect, False)
                with self.assertRaises(OutcomeUnknownError):
                    a.run(add_one)
                with self.assertRaises(ValueError):  # the session has ended
                    a.begin()
                b.run(add_one)
                b.run(read("x"))
                self.assertEqual(self.kind(), "serial")


    def test_without_writes_it_makes_no_difference(self):
        a, b = self.lose("aborted", False)
        with self.assertRaises(OutcomeUnknownError):
            a.run(read("x"))
        a.store.lost = None
        self.assertEqual(a.run(read("x")), [1])
        self.assertEqual([it.outcome for it in self.auditor.history[0]], ["committed", "unknown", "committed"])
        self.assertEqual(self.kind(), "serial")


class Telling(WithAuditor):
    def test_a_violation_is_made_smaller(self):
        a, b, c = self.sessions("lost-update")
        a.run(put(x=1, y=1, z=1))
        c.run(read("z"))
        one, other = a.begin(), b.begin()
        one.get("y"), add_one(one), other.get("z"), add_one(other)
        one.commit(), other.commit()
        c.run(read("y", "x"))
        self.assertEqual(self.kind(), "violated")
        small = smaller(self.auditor.history, seconds=SOON)
        self.assertEqual(
            list(words(small)),
            ["0.0 wrote x", "0.1 read x from 0.0, wrote x", "1.0 read x from 0.0, wrote x"],
        )
        report, script = audited(small)
        self.assertEqual(report.kind, "violated")
        self.assertEqual(script.splitlines()[0], '["open",3,3]')

    def test_statements_are_kept_with_what_they_did(self):
        a, b, _ = self.sessions(patience=0.1)
        a.run(lambda t: (t.get("x", "SELECT x"), t.put("x", 1, "INSERT x"), t.put("x", 2, "UPDATE x"), t.delete("y", "DELETE y")))
        self.assertEqual(
            dict(self.auditor.history[0][0].statements),
            {("x", "init"): "SELECT x", ("x",): "UPDATE x", ("y",): "DELETE y"},
        )
        a.store.statement = "what the store has run"
        a.run(lambda t: (t.get("x"), t.get("y", "SELECT y"), t.put("x", 3)))
        self.assertEqual(
            dict(self.auditor.history[0][1].statements),
            {("x", (0, 0)): a.store.statement, ("y", (0, 0)): "SELECT y", ("x",): a.store.statement},
        )
        with self.assertRaises(ZeroDivisionError):
            a.run(lambda t: (t.get("x"), 1 // 0))
        a.store.lost, a.store.known = "committed", False
        with self.assertRaises(OutcomeUnknownError):
            a.run(add_one)
        aborted, unknown = self.auditor.history[0][2:]
        for one, deed in ((aborted, ("x", (0, 1))), (unknown, ("x",))):
            self.assertEqual(one.statements, ((deed, a.store.statement),))
        self.assertEqual(self.kind(), "serial")


if __name__ == "__main__":
    unittest.main()
