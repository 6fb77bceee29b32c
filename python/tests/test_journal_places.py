"""Journals with other problems: a fork, another run's file, a full disk, and files that can't be
written."""
import os
import signal
import stat
import time
import unittest

from zanteyard import Auditor, AuditLostError, ProgramEndedError, LiveAuditor, Logged, Policy
from zanteyard.program._window import Coverage
from zanteyard.core.errors import JournalError, JournalInUseError, JournalVersionError
from zanteyard.core._own_keys import FENCE
from zanteyard.journal._file import Journal
from zanteyard.stores.memory import MemoryStore

from .owed import Heard, are_right
from .test_live import add_one
from .test_restarting import PROGRAM, WithJournal
from .waiting import SOON

ONE = Logged((), ("x",))
NOBODY = 65534


def kill(auditor):
    os.kill(auditor.program.process.pid, signal.SIGKILL)


class Forked(WithJournal):
    def test_a_child_has_no_part_in_it(self):
        """It can't ask the program or write to the journal, and when its parent ends, it doesn't
        keep others from going on."""
        auditor = self.auditor()
        auditor.offer(0, 0, ONE)
        ends, told = os.pipe()
        child = os.fork()
        if child == 0:
            try:
                os.close(told)
                auditor.offer(0, 1, ONE)
            except ProgramEndedError as error:
                os.read(ends, 1)  # until its parent is done
                os._exit(0 if "forked" in str(error) and auditor.program.keeping.journal._file is None else 1)
            except BaseException:
                pass
            os._exit(2)
        os.close(ends)
        auditor.offer(0, 1, ONE)
        self.assertEqual(auditor.round().kind, "serial")
        with self.assertRaises(JournalInUseError):
            self.resumed()
        auditor.end()
        with self.resumed() as again:
            self.assertEqual(again.received, [2, 0, 0])
        os.close(told)
        self.assertEqual(os.waitstatus_to_exitcode(os.waitpid(child, 0)[1]), 0)


class Cuts(WithJournal):
    def test_a_cut_is_the_last_round_s(self):
        """Also if another program found it, and more arrived after that round was reported."""
        for deaths in ((), (0,), (1,), (0, 1), (0, 1, 2)):
            self.fence, self.path = None, os.path.join(self.folder, f"journal {deaths}")
            with self.subTest(deaths=deaths), self.auditor() as auditor:
                heard = Heard(auditor)
                auditor.offer(0, 0, ONE)
                numbers = [1, 0, 0]
                for at in range(2):
                    for session in range(3):
                        source = self.fence if self.fence is not None else "init"
                        auditor.offer(session, numbers[session], Logged([(FENCE, source)], [FENCE]))
                        self.fence = (session, numbers[session])
                        numbers[session] += 1
                self.assertEqual(auditor.round().kind, "serial")
                if 0 in deaths:
                    kill(auditor)
                for session in range(3):  # would move the cut
                    auditor.offer(session, numbers[session], Logged([(FENCE, self.fence)], [FENCE]))
                    self.fence = (session, numbers[session])
                if 1 in deaths:
                    kill(auditor)
                cut = auditor.truncate()
                if 2 in deaths:
                    kill(auditor)
                self.assertEqual(auditor.round().kind, "serial")
                self.assertTrue(are_right(heard.lines, heard.replies))
                found = (cut, auditor.ask(["show"]))
                self.wanted = found if not deaths else self.wanted
                self.assertEqual(found, self.wanted)


class Places(WithJournal):
    def test_another_run_s(self):
        """An audit of a run that begins again replaces only that run's own journal."""
        with self.auditor() as auditor:
            auditor.offer(0, 0, ONE)
        with Auditor(3, 512, PROGRAM, "other", journal=f"{self.path}.other") as other:
            os.rename(self.path, f"{self.path}.other")
            with self.assertRaisesRegex(JournalError, "belongs to another run, run"):
                other.start_anew()
        with self.resumed_at(f"{self.path}.other") as auditor:
            self.assertEqual((auditor.run_name, auditor.received), ("run", [1, 0, 0]))

    def resumed_at(self, path):
        self.path = path
        return self.resumed()

    def test_a_damaged_one_is_set_aside(self):
        for name in ("journal.damaged", "journal.damaged.2"):
            if os.path.exists(self.path):
                os.unlink(self.path)
            with self.auditor() as auditor:
                auditor.offer(0, 0, ONE)
                found = self.bytes()[:-3] + b"???"
                self.overwrite(found)
                auditor.start_anew()
                auditor.offer(1, 0, ONE)
            with open(os.path.join(self.folder, name), "rb") as file:
                self.assertEqual(file.read(), found)
            with self.resumed() as auditor:
                self.assertEqual((auditor.audits, auditor.received), (2, [0, 1, 0]))
        with self.auditor_at_version_2() as auditor, self.assertRaises(JournalVersionError):
            auditor.start_anew()
        self.assertEqual(self.bytes(), b"zanteyard journal 3\n")

    def auditor_at_version_2(self):
        os.unlink(self.path)
        auditor = self.auditor()
        self.overwrite(b"zanteyard journal 3\n")
        return auditor

    def test_links_lead_to_one_lock(self):
        link = os.path.join(self.folder, "link")
        os.symlink(self.path, link)
        with Auditor(3, 512, PROGRAM, "run", journal=link) as auditor:
            auditor.offer(0, 0, ONE)
            self.assertTrue(os.path.islink(link))
            with self.assertRaises(JournalInUseError):
                self.resumed()
        with self.resumed() as auditor:
            self.assertEqual(auditor.received, [1, 0, 0])

    def test_not_allowed(self):
        """A file that may only be read, and one that may not be read at all."""
        with self.auditor() as auditor:
            auditor.offer(0, 0, ONE)
        for mode, told in ((0o400, "can't be read"), (0o000, "can't be read")):
            os.chmod(self.path, mode)
            self.assertEqual(self.as_nobody(told), 0)
        os.chmod(f"{self.path}.lock", 0o000)
        self.assertEqual(self.as_nobody("can't be locked"), 0)

    def as_nobody(self, told):
        """The status of a child that runs this as another user."""
        child = os.fork()
        if child == 0:
            try:
                if os.getuid() == 0:
                    for path in (self.path, f"{self.path}.lock", self.folder):
                        os.chown(path, NOBODY, NOBODY)
                    os.setuid(NOBODY)
                Journal(self.path).read()
            except JournalError as error:
                os._exit(0 if told in str(error) else 3)
            except BaseException:
                pass
            os._exit(4)
        return os.waitstatus_to_exitcode(os.waitpid(child, 0)[1])

    def test_who_can_read_it(self):
        with self.auditor() as auditor:
            auditor.offer(0, 0, ONE)
            self.assertEqual(stat.S_IMODE(os.stat(self.path).st_mode), 0o600)

    def test_removed_while_it_runs(self):
        with self.auditor() as auditor:
            auditor.offer(0, 0, ONE)
            os.unlink(self.path)
            kill(auditor)
            with self.assertRaisesRegex(JournalError, "can't be read"):
                auditor.offer(0, 1, ONE)


class Sessions(WithJournal):
    def test_of_a_live_audit(self):
        """Its process is gone: its clients' last transactions are unknown, so the outcome can't be
        serial."""
        store = MemoryStore()
        with Auditor(3, 512, PROGRAM) as auditor, LiveAuditor(auditor, journal=self.path) as live:
            session = live.session(store.connect())
            for _ in range(5):
                session.run(add_one("x"))
            self.assertEqual(live.stop().kind, "serial")
        with self.resumed() as auditor:
            self.assertEqual(sum(auditor.received), 5)
            self.assertEqual(auditor.last_round().kind, "serial")
            outcome = auditor.outcome()
            self.assertEqual(outcome.kind, "incomplete")
            self.assertIn("are unknown", str(outcome))
            with self.assertRaises(AuditLostError):
                auditor.round()

    def test_begun_later(self):
        with Auditor(3, 512, PROGRAM) as auditor:
            with self.assertRaises(JournalError):
                auditor.keep_journal(os.path.join(self.path, "nowhere"))
            with self.assertRaises(ProgramEndedError):
                auditor.keep_journal(self.path)
        with Auditor(3, 512, PROGRAM) as auditor:
            auditor.keep_journal(self.path)
            auditor.offer(0, 0, ONE)
            with self.assertRaises(ValueError):
                auditor.keep_journal(self.path)
        with Auditor(3, 512, PROGRAM) as auditor:
            auditor.offer(0, 0, ONE)
            with self.assertRaises(ValueError):
                auditor.keep_journal(f"{self.path}.other")
        with self.resumed() as auditor:
            self.assertEqual(auditor.received, [1, 0, 0])

    def test_left_out_reads(self):
        """Reads that a killed process left out are counted, too."""
        read = Logged([("x", (0, 0))], ["x"])  # it is unknown whether 0.0 was there when the audit began
        with Auditor(3, 512, PROGRAM, "run", journal=self.path) as auditor:
            auditor.start_anew(Coverage([0, 0, 0], [1, 0, 0]))
            auditor.offer(1, 0, read)
            auditor.offer(2, 0, ONE)
            self.assertEqual(auditor.left_out, 1)
        with self.resumed() as auditor:
            self.assertEqual(auditor.left_out, 1)
            self.assertEqual(auditor.coverage.first, [1, 0, 0])

    def test_full_disk(self):
        """Clients go on; the audit ends with its reason, and another one begins when there is
        room."""
        self.addCleanup(self.room, None)
        auditor, store = self.auditor(), MemoryStore()
        with LiveAuditor(auditor, seconds=0.1, policy=Policy(pause=0.1)) as live:
            session = live.session(store.connect())
            session.run(add_one("x"))
            self.wait(lambda: live.taken_in == 1)
            self.room(50)  # bytes of any file
            session.run(add_one("x"))
            self.wait(lambda: any("can't begin another audit" in it for it in self.told))
            session.run(add_one("x"))
            self.room(None)
            self.wait(lambda: live.earlier)
            session.run(add_one("x"))
            outcome = live.stop()
        self.assertEqual(store.versions["x"][-1][0], 4)
        self.assertEqual(outcome.kind, "incomplete")
        first, last = outcome.earlier[0], auditor.received
        self.assertIsInstance(first.failure, JournalError)
        self.assertIn("can't be written", str(first))
        self.assertEqual(sum(last), 1)
        auditor.end()
        with self.resumed() as again:
            self.assertEqual((again.audits, sum(again.received)), (auditor.audits, 1))

    def wait(self, condition):
        until = time.monotonic() + SOON
        while not condition() and time.monotonic() < until:
            time.sleep(0.01)
        self.assertTrue(condition(), self.told[-3:])


if __name__ == "__main__":
    unittest.main()
