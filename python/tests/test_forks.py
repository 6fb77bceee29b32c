"""A forked child that goes on in its parent's sessions has no part in the audit."""
import os
import tempfile
import threading
import unittest

from zanteyard.program._auditor import Auditor
from zanteyard.core._forks import UNAUDITED
from zanteyard.session._session import Session
from zanteyard.stores.sqlite import SQLiteStore, prepare

from .test_live import WithProgram, add_one, set_to


class InEachProcess:
    """A store whose driver reconnects in each process."""

    def __init__(self, path):
        self.path, self.stores = path, {}

    def __getattr__(self, name):
        if os.getpid() not in self.stores:
            self.stores[os.getpid()] = SQLiteStore(self.path)
        return getattr(self.stores[os.getpid()], name)


def in_child(do):
    """The child's exit status."""
    child = os.fork()
    if not child:
        status = 1
        try:
            do()
            status = 0
        finally:
            os._exit(status)
    return os.waitstatus_to_exitcode(os.waitpid(child, 0)[1])


class Forks(WithProgram):
    def setUp(self):
        super().setUp()
        folder = tempfile.TemporaryDirectory()
        self.addCleanup(folder.cleanup)
        self.path = f"{folder.name}/store"
        prepare(self.path)
        self.audit = self.live(2)
        self.session = self.audit.session(InEachProcess(self.path))
        self.addCleanup(self.audit.stop)

    def test_what_a_child_writes_is_nothing_that_its_parent_did(self):
        self.session.run(set_to("x", 1))
        self.assertEqual(in_child(lambda: self.session.run(set_to("x", 5))), 0)
        self.session.run(set_to("y", 1))
        self.session.run(add_one("x"))
        self.assertEqual(self.session.run(lambda transaction: transaction.get("x")), 6)
        outcome = self.audit.stop()
        self.assertEqual(outcome.kind, "incomplete")
        self.assertIn("a forked child", str(outcome.failure))
        self.assertNotEqual(outcome.report and outcome.report.kind, "violated")

    def test_where_nobody_reads_from_it_the_audit_is_whole(self):
        self.session.run(set_to("x", 1))
        self.assertEqual(in_child(lambda: self.session.run(add_one("z"))), 0)
        self.session.run(add_one("x"))
        self.assertEqual(self.audit.stop().kind, "serial")

    def test_a_session_that_a_child_makes_is_none_that_its_parent_makes(self):
        def write():
            made = self.audit.session(InEachProcess(self.path))
            made.run(set_to("x", 5))
            made.close()

        self.session.run(set_to("x", 1))
        self.assertEqual(in_child(write), 0)
        other = self.audit.session(InEachProcess(self.path))
        other.run(set_to("y", 1))
        self.session.run(add_one("x"))
        self.assertEqual(self.session.run(lambda transaction: transaction.get("x")), 6)
        outcome = self.audit.stop()
        self.assertEqual(outcome.kind, "incomplete")
        self.assertIn("a forked child", str(outcome.failure))
        self.assertNotEqual(outcome.report and outcome.report.kind, "violated")

    def test_a_child_has_no_part_in_an_auditor_without_a_thread(self):
        def write():
            Session(auditor, 1, InEachProcess(self.path)).run(set_to("y", 5))

        with Auditor(2) as auditor:
            session = Session(auditor, 0, InEachProcess(self.path))
            session.run(set_to("x", 1))
            self.assertEqual(in_child(write), 0)
            Session(auditor, 1, InEachProcess(self.path)).run(set_to("z", 1))
            session.run(add_one("x"))
            self.assertEqual(auditor.outcome().kind, "serial")

    def test_a_transaction_that_is_under_way_is_the_childs_own(self):
        def go_on():
            self.assertGreaterEqual(self.session.number, UNAUDITED)
            transaction.put("x", 7)
            transaction.commit()
            self.session.run(add_one("x"))
            self.session.close()

        transaction = self.session.begin()
        self.session.store.rollback()  # else the file would be the parent's
        self.assertEqual(in_child(lambda: [self.session.store.begin(), go_on()]), 0)
        self.session.store.begin()
        self.assertEqual(transaction.get("x"), 8)
        transaction.commit()
        self.assertEqual(self.audit.stop().kind, "incomplete")

    def test_a_child_waits_for_no_thread_of_its_parent(self):
        """A thread that holds a lock at the fork doesn't run in the child."""
        has, ends = threading.Event(), threading.Event()

        def hold():
            with self.session.gate, self.session.turn:
                has.set()
                ends.wait(300)

        thread = threading.Thread(target=hold)
        thread.start()
        has.wait(300)
        try:
            self.assertEqual(in_child(lambda: self.session.run(add_one("z"))), 0)
        finally:
            ends.set()
            thread.join()
        self.session.run(add_one("x"))
        self.assertEqual(self.audit.stop().kind, "serial")


if __name__ == "__main__":
    unittest.main()
