"""Reads of versions from before the audit count as reads of the keys' first state, and the outcome
says how many there were."""
import argparse
import logging
import os
import tempfile
import unittest

from zanteyard import AbortedError, AuditClient, Auditor, AuditServer, LiveAuditor, Outcome, Policy, Session
from zanteyard.cli._metrics import families
from zanteyard.watch.pages._prometheus import text_of
from zanteyard.cli.audit import LiveRun
from zanteyard.core.errors import AuditLostError
from zanteyard.stores.memory import MemoryStore
from zanteyard.trial.store_kinds import POSTGRES

from .waiting import SOON, wait_until

PLAIN = os.path.join(os.path.dirname(os.path.abspath(__file__)), "plain_auditor.py")
PATIENT = Policy(SOON, begins_anew=False)


def read(*keys):
    return lambda transaction: [transaction.get(key) for key in keys]


def write(*keys):
    return lambda transaction: [transaction.put(key, "1") for key in keys]


class FromBefore(unittest.TestCase):
    def setUp(self):
        logging.getLogger("zanteyard").setLevel(logging.CRITICAL)
        self.addCleanup(logging.getLogger("zanteyard").setLevel, logging.NOTSET)
        folder = tempfile.TemporaryDirectory()
        self.addCleanup(folder.cleanup)
        self.folder, self.store = folder.name, MemoryStore()
        earlier = self.session(self.auditor())
        earlier.run(write("x", "y"))
        earlier.fence()

    def auditor(self, **more):
        auditor = Auditor(2, program=PLAIN, policy=PATIENT, **more)
        self.addCleanup(auditor.end)
        return auditor

    def session(self, auditor, number=0):
        return Session(auditor, number, self.store.connect())

    def live(self, **more):
        more = {"policy": PATIENT, "every": 1000, "seconds": 600.0, "patience": SOON, **more}
        live = LiveAuditor(self.auditor(), **more)
        self.addCleanup(live.stop, 0.0)
        return live

    def test_reads_of_an_earlier_runs_versions(self):
        auditor = self.auditor()
        session = self.session(auditor)
        session.run(read("x", "y", "z"))  # nobody has ever written z
        session.run(read("x"))
        session.fence()  # reads an earlier run's fence
        session.run(write("x"))
        session.run(read("x"))
        outcome = auditor.outcome()
        self.assertEqual((outcome.kind, outcome.from_before), ("serial", 3))
        self.assertIn("; 3 reads were of versions from before the audit", str(outcome))

    def test_none_of_them_is_no_word(self):
        auditor = self.auditor()
        self.session(auditor).run(read("z"))
        outcome = auditor.outcome()
        self.assertEqual((outcome.from_before, str(outcome)), (0, "serial: 1 of 1 transactions were audited"))
        self.assertIn("; 1 read was of a version from before the audit", str(Outcome("serial", from_before=1)))

    def test_what_another_program_wrote(self):
        self.store.versions["x"].append(("2", None, self.store.moment))
        auditor = self.auditor()
        self.session(auditor).run(read("x"))
        self.assertEqual(auditor.outcome().from_before, 1)

    def test_what_was_aborted_has_read_nothing(self):
        auditor = self.auditor()
        session = self.session(auditor)

        def fails(transaction):
            transaction.get("x")
            raise AbortedError("for a test")

        with self.assertRaises(AbortedError):
            session.run(fails, attempts=1)
        session.run(write("x"))
        self.assertEqual(auditor.outcome().from_before, 0)

    def test_a_later_audit_of_a_run_counts_from_its_own_beginning(self):
        live = self.live(policy=Policy(SOON, pause=0.01))
        a, b = (live.session(self.store.connect()) for _ in range(2))
        a.run(read("x"))
        a.run(write("x"))
        b.run(read("x"))
        name = live.name
        self.assertTrue(wait_until(lambda: live.taken_in == 3))
        live.lose(AuditLostError("for a test"))
        self.assertTrue(wait_until(lambda: live.name != name))
        a.run(read("x", "z"))  # versions that the previous audit saw written
        b.run(write("x"))
        a.run(read("x"))
        outcome = live.stop()
        self.assertEqual([audit.from_before for audit in live.earlier], [1])
        self.assertEqual(outcome.from_before, 2)

    def test_over_a_socket_and_in_figures(self):
        live = self.live()
        with AuditServer(live, f"{self.folder}/audit") as server, AuditClient(server.path) as client:
            client.session(self.store.connect()).run(read("x", "y"))
            self.assertTrue(wait_until(lambda: live.taken_in == 1))
        outcome = live.stop()
        self.assertEqual(outcome.from_before, 2)
        self.assertIn("\nzanteyard_reads_from_before_total 2\n", text_of(families(live)))

    def test_a_journal_keeps_it(self):
        path = f"{self.folder}/journal"
        auditor = self.auditor(journal=path)
        session = self.session(auditor)
        session.run(read("x", "y"))
        session.fence()
        session.run(read("x"))
        auditor.close(1)
        auditor.round()
        auditor.truncate()  # this also writes a checkpoint
        auditor.end()
        resumed = Auditor.resumed(path, PLAIN)
        self.addCleanup(resumed.end)
        self.assertEqual(resumed.from_before, 3)

    def test_the_page_says_so(self):
        asked = argparse.Namespace(workload="mixed", level="serializable", kind=POSTGRES)
        for count, is_told in ((7, True), (0, False)):
            run = LiveRun(asked, None, Outcome("serial", 3, 3, from_before=count), None, None, None, ())
            told = "7 reads were of versions from before the audit"
            self.assertEqual(told in run.page(""), is_told)


if __name__ == "__main__":
    unittest.main()
