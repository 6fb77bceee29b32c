"""Transactions that are ended twice, or by a signal: nothing is written, counted or logged
twice."""
import os
import unittest

from zanteyard import AbortedError, Auditor, OutcomeUnknownError, Session
from zanteyard.program._auditor import PROGRAM
from zanteyard.stores.memory import MemoryStore


class Interrupted:
    """A connection that is interrupted, as by Ctrl-C, right after its commit."""

    def __init__(self, connection):
        self.connection = connection

    def __getattr__(self, name):
        return getattr(self.connection, name)

    def commit(self):
        self.connection.commit()
        raise KeyboardInterrupt


class Unanswered(Interrupted):
    """A connection that is lost after its commit; the store doesn't know the outcome."""

    def commit(self):
        self.connection.commit()
        raise OutcomeUnknownError("the connection was lost")

    def outcome(self):
        return "unknown"


class TwiceInterrupted(Interrupted):
    """A connection that is interrupted by a handler after the commit, and by Ctrl-C during its
    rollback."""

    rollbacks = 0

    def commit(self):
        self.connection.commit()
        raise RuntimeError("a handler's own")

    def rollback(self):
        self.rollbacks += 1
        if self.rollbacks == 1:
            raise KeyboardInterrupt
        self.connection.rollback()


@unittest.skipUnless(os.path.isfile(PROGRAM), f"{PROGRAM} is not built")
class Transactions(unittest.TestCase):
    def setUp(self):
        auditor = Auditor(2)
        self.auditor = auditor.__enter__()
        self.addCleanup(auditor.__exit__, None, None, None)
        self.store = MemoryStore()

    def session(self, connection, number=0):
        return Session(self.auditor, number, connection)

    def test_what_was_rolled_back_is_not_written(self):
        session = self.session(self.store.connect())
        with session.transaction() as transaction:
            transaction.put("x", "1")
            transaction.rollback()
            with self.assertRaises(ValueError):
                transaction.put("y", "2")
        with session.transaction() as transaction:
            self.assertIsNone(transaction.get("x"))
        self.assertEqual(self.auditor.round().kind, "serial")

    def test_what_was_committed_is_not_written_again(self):
        session = self.session(self.store.connect())
        with session.transaction() as transaction:
            transaction.put("x", "1")
            transaction.commit()
            with self.assertRaises(ValueError):
                transaction.commit()
        with session.transaction() as transaction:
            self.assertEqual(transaction.get("x"), "1")
        self.assertEqual(self.auditor.round().kind, "serial")

    def test_how_often_an_attempt_is_made(self):
        session, numbers = self.session(self.store.connect()), []

        def refused(transaction):
            numbers.append(transaction.number)
            raise AbortedError("a serialization failure")

        with self.assertRaises(AbortedError):
            session.run(refused)
        with self.assertRaises(AbortedError):
            session.run(refused, attempts=3)
        self.assertEqual(numbers, [*range(13)])

    def test_of_what_may_not_be_there_the_writes_alone_are_told(self):
        session = self.session(Unanswered(self.store.connect()))
        with self.assertRaises(OutcomeUnknownError):
            session.run(lambda transaction: (transaction.get("y"), transaction.put("x", "1")))
        (did,) = self.auditor.history[0]
        self.assertEqual((did.outcome, [*did.reads], [*did.writes]), ("unknown", [], ["x"]))
        self.assertEqual([*map(tuple, did.values)], [("wrote", "x", "'1'")])

    def test_what_is_in_doubt_as_it_is_given_up_is_told_as_unknown(self):
        session = self.session(TwiceInterrupted(self.store.connect()))
        with self.assertRaises(KeyboardInterrupt):
            session.run(lambda transaction: transaction.put("x", "1"))
        (did,) = self.auditor.history[0]
        self.assertEqual((did.outcome, [*did.reads], [*did.writes]), ("unknown", [], ["x"]))

    def test_an_interrupt_behind_the_commit_makes_nothing_up(self):
        session = self.session(Interrupted(self.store.connect()))
        other = self.session(self.store.connect(), 1)
        with self.assertRaises(KeyboardInterrupt):
            with session.transaction() as transaction:
                transaction.put("x", "1")
        with other.transaction() as transaction:
            self.assertEqual(transaction.get("x"), "1")
        self.assertEqual(self.auditor.round().kind, "serial")


if __name__ == "__main__":
    unittest.main()
