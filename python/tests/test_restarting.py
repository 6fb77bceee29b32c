"""Auditors with a journal whose programs are killed: others notice only a pause."""
import logging
import os
import random
import signal
import subprocess
import sys
import unittest

from zanteyard import RATHER_WAIT, Auditor, ProgramEndedError, LiveAuditor, Logged, NoCutError, Session
from zanteyard.core.errors import JournalDamagedError, JournalError, JournalInUseError
from zanteyard.core.errors import JournalVersionError
from zanteyard.journal import _writer as journal_writer
from zanteyard.journal._file import Journal
from zanteyard.program import _supervised as supervised
from zanteyard.stores.memory import FAULTS, MemoryStore

from . import test_documents, test_interrupts
from .killing import BEFORE, BETWEEN, LATER, MOMENTS, PLAIN, STOPPED, Killer, Log
from .killing import auditor_that_saves, once
from .test_journal_file import WithFolder
from .test_live import add_one

PROGRAM = auditor_that_saves()
ONE = Logged((), ("x",))


class WithJournal(WithFolder):
    def setUp(self):
        super().setUp()
        logger, self.told = logging.getLogger("zanteyard"), []
        logger.addFilter(self.note)
        self.addCleanup(logger.removeFilter, self.note)

    def note(self, record):
        self.told.append(record.getMessage())
        return False

    def auditor(self, sessions=3, limit=512, **more):
        auditor = Auditor(sessions, limit, PROGRAM, "run", journal=self.path, **more)
        self.addCleanup(auditor.end)
        return auditor

    def resumed(self, **more):
        auditor = Auditor.resumed(self.path, PROGRAM, **more)
        self.addCleanup(auditor.end)
        return auditor


def steps(auditor, entries, every=20):
    """Hands in the log, with rounds and cuts; returns what each of these and the end report."""
    for count, entry in enumerate(entries, 1):
        auditor.offer(*entry)
        if count % every == 0:
            yield auditor.round()
            try:
                yield auditor.truncate()
            except NoCutError:
                yield None
    auditor.close(0)
    yield auditor.round()
    yield auditor.ask(["show"])


def kinds(told):
    """The verdicts of rounds."""
    return [each.kind for each in told if hasattr(each, "kind")]


def log_with(fault, seed):
    """A log in which the fault shows, and a new auditor's verdict about the whole log."""
    wanted = "violated" if fault else "serial"
    for more in range(50):
        log = Log(random.Random(f"{seed} {more}"), fault)
        for _ in range(3):
            log.run(10)
            log.meet()
        with Auditor(3, 4096, PROGRAM) as fresh:
            for entry in log.entries:
                fresh.offer(*entry)
            if fresh.round().kind == wanted:
                return log.entries, wanted
    raise AssertionError(f"the fault {fault} never shows")


class Killed(WithJournal):
    def test_each_line_at_each_moment(self):
        """Everything is reported as if nothing had been killed, and the journal leads to the same
        state."""
        log = Log(random.Random(3), None, 2, 2)
        log.run(2)
        log.meet()
        with Auditor(2, 64, PROGRAM) as whole:
            wanted = [*steps(whole, log.entries, 8)]
        self.assertTrue(any(hasattr(each, "fence") for each in wanted))
        at, kills = 0, 1
        while kills:
            for moment in MOMENTS if PROGRAM != PLAIN else MOMENTS[at % 4 :][:1]:
                kills, self.path = 0, os.path.join(self.folder, f"{at} {moment}")
                with self.subTest(line=at, moment=moment):
                    with Killer(once(at, moment)) as killer, self.auditor(2, 64) as auditor:
                        found = [*steps(auditor, log.entries, 8)]
                        kills = killer.kills
                        restarts = auditor.program.restarts
                        # a kill after the last line isn't noticed
                        self.assertIn(restarts, (kills,) if moment == BEFORE else (kills - 1, kills))
                    self.assertEqual(found, wanted)
                    with self.resumed() as auditor:
                        self.assertEqual(auditor.ask(["show"]), wanted[-1])
                        shown = [auditor.marks, auditor.received, auditor.closed]
                        self.assertEqual(shown, wanted[-1][1:4])
                        self.assertEqual(auditor.base, whole.base)
            at += 1
        self.assertGreater(at, len(log.entries))

    def test_a_hundred_kills(self):
        """With and without a fault the verdict is that of a new auditor about the same whole log,
        and each fault is found."""
        dice, kills, seed = random.Random(20), 0, 0
        faults = [None, *FAULTS]
        while kills < 100 or seed < len(faults):
            fault = faults[seed % len(faults)]
            entries, wanted = log_with(fault, seed)

            def plan(lines):
                chance = 0.01 if lines[0].startswith(b'["save"') else 0.1
                return dice.choice(MOMENTS) if dice.random() < chance else None

            with self.subTest(seed=seed, fault=fault):
                with Killer(plan, dice) as killer, self.auditor() as auditor:
                    told = [*steps(auditor, entries)]
                kills += killer.kills
                self.assertEqual(kinds(told)[-1], wanted)
                with self.resumed() as auditor:
                    self.assertEqual(auditor.ask(["show"]), told[-1])
                    self.assertEqual(auditor.outcome().kind, wanted)
            os.unlink(self.path)
            seed += 1

    def test_over_and_over(self):
        """If each program dies over a line, that is reported; the journal's state stays the
        same."""
        with self.auditor() as auditor:
            auditor.offer(0, 0, ONE)
            with Killer(lambda _: BEFORE) as killer:
                with self.assertRaisesRegex(ProgramEndedError, "status -9"):
                    auditor.offer(0, 1, ONE)
            self.assertGreaterEqual(killer.kills, 3)
            with self.assertRaises(ProgramEndedError):
                auditor.offer(0, 1, ONE)
            self.assertEqual(auditor.outcome().kind, "incomplete")
        with self.resumed() as auditor:
            self.assertEqual(auditor.received, [1, 0, 0])
            auditor.offer(0, 1, ONE)
            self.assertEqual(str(auditor.outcome()), "serial: 2 of 2 transactions were audited")

    def test_several_fragments(self):
        """Some of the lines were answered when it died."""
        with self.auditor() as auditor, Killer(once(1, LATER)):
            sent = [(session, 0, [ONE] * 20) for session in range(3)]
            self.assertEqual(auditor.offer_all(sent), [])
            self.assertEqual(auditor.received, [20, 20, 20])
            self.assertEqual(auditor.ask(["show"])[2], [20, 20, 20])

    def test_written_anew(self):
        """While lines are on their way, some of them answered, and whichever program is killed
        then."""
        self.addCleanup(setattr, journal_writer, "GROWS", journal_writer.GROWS)
        self.addCleanup(setattr, os, "read", read := os.read)
        os.read = lambda file, most: read(file, min(most, 100))
        journal_writer.GROWS = 150
        dice = random.Random(9)

        def plan(_):
            return dice.choice(MOMENTS) if dice.random() < 0.05 else None

        for seconds in (None, plan):
            self.path = os.path.join(self.folder, f"journal {seconds}")
            with self.auditor() as auditor, Killer(seconds or (lambda _: None)):
                sizes = []
                for at in range(0, 120, 40):
                    numbers = range(at, at + 40)
                    sent = [(session, number, [ONE]) for number in numbers for session in range(3)]
                    self.assertEqual(auditor.offer_all(sent), [])
                    sizes.append(os.path.getsize(self.path))
                self.assertEqual(auditor.ask(["show"])[2], [120] * 3)
                self.assertLess(max(sizes), 20000)
            with self.resumed() as auditor:
                self.assertEqual(auditor.received, [120] * 3)

    def test_sessions(self):
        """They hand in what they did, and don't notice that programs are killed."""
        with self.auditor(policy=RATHER_WAIT) as auditor:
            store = MemoryStore()
            sessions = [Session(auditor, at, store.connect()) for at in range(3)]
            with Killer(lambda _, dice=random.Random(4): BETWEEN if dice.random() < 0.1 else None):
                for at in range(30):
                    sessions[at % 3].run(lambda t: t.put("x", (t.get("x") or 0) + 1))
            sessions[2].close()
            self.assertGreater(auditor.program.restarts, 0)
            self.assertEqual(str(auditor.outcome()), "serial: 30 of 30 transactions were audited")
            self.assertEqual(auditor.history[0][1].values[0], ("read", "x", "3"))
        with self.resumed() as auditor:
            self.assertEqual((auditor.received, auditor.closed), ([10] * 3, [False, False, True]))
            self.assertEqual(auditor.history[0][1], Logged([("x", (2, 0))], ["x"]))
            for made in (lambda: Session(auditor, 0, store.connect()), lambda: LiveAuditor(auditor)):
                with self.assertRaisesRegex(ValueError, "begin another run"):
                    made()

    def test_programs_that_answer_nothing(self):
        """They are replaced, whatever they were asked, and every round takes place."""
        self.addCleanup(setattr, supervised, "SILENT", supervised.SILENT)
        supervised.SILENT = 3.0
        for at in range(5):
            self.path = os.path.join(self.folder, f"journal {at}")
            with self.subTest(at=at), self.auditor() as auditor:
                auditor.offer(0, 0, ONE)
                with Killer(once(at, STOPPED)):
                    self.assertEqual(auditor.round()[:3], (1, "serial", [1, 0, 0]))
                    auditor.offer(0, 1, ONE)
                    self.assertEqual(auditor.round()[:3], (2, "serial", [2, 0, 0]))
                # more of them if the machine stands still for as long
                self.assertGreaterEqual(auditor.program.restarts, 1)


class Interrupted(WithJournal):
    def test_at_each_place(self):
        """No answer is taken for another line's, and the journal can be continued."""
        paths = iter(range(10000))

        def auditor(sessions):
            self.path = os.path.join(self.folder, f"journal {next(paths)}")
            return self.auditor(sessions, policy=RATHER_WAIT)

        def see(auditor, is_interrupted):
            before(auditor, is_interrupted)
            auditor.end()
            if os.path.exists(self.path):
                with self.resumed() as again:
                    received = again.ask(["show"])[2]
                    self.assertEqual(received, again.received)
                    self.assertGreaterEqual(sum(received), auditor.taken_in)
                    self.assertIn(again.last_round().kind, ("serial", "pending"))

        case, step = test_interrupts.Interrupts("test_a_round"), 5 if PROGRAM != PLAIN else 37
        before, case.see = case.see, see
        case.each(lambda auditor, session: session.run(add_one("x")), step, of=auditor)
        case.each(lambda auditor, _: auditor.round(), step, of=auditor)


class Shown(WithJournal):
    def test_what_the_page_shows(self):
        package = os.path.join(test_documents.TOP, "python")
        environment = {**os.environ, "COBRA_AUDIT": os.path.abspath(PROGRAM), "PYTHONPATH": package}
        shown = [*test_documents.sessions("docs/OPERATION.md")]
        self.assertEqual(len(shown), 2)

        def printed_by(*words):
            ended = subprocess.run(
                [sys.executable, *words],
                cwd=self.folder,
                env=environment,
                stdout=subprocess.PIPE,
                stderr=subprocess.STDOUT,
                text=True,
                timeout=600,
            )
            return ended.stdout.splitlines()

        for command, printed in shown:
            _, example, *words = command.split()
            self.assertEqual(printed_by(os.path.join(test_documents.TOP, example), *words), printed)
        told = printed_by("-m", "zanteyard", "check", "bank.journal")
        self.assertEqual(told[0], "bank: 4 transactions from 2 sessions were accepted")
        self.assertIn("    0.1 read rent from 0.0, wrote rent", told)


class Resumed(WithJournal):
    def test_a_violation_stays_told(self):
        """Even if a round can't report it any more, and in the journal of the run's next audit."""
        entries, _ = log_with("lost-update", 1)
        with self.auditor() as auditor:
            *_, report, _ = steps(auditor, entries)
            first = auditor.violation
            self.assertEqual((first.kind, report.kind), ("violated", "violated"))
        with self.resumed() as auditor:
            self.assertEqual(auditor.violation, first)
            with Killer(lambda _: BEFORE):
                found = auditor.outcome()
            self.assertEqual((found.kind, found.report), ("violated", first))
        with self.resumed() as auditor:
            again = auditor.round()
            self.assertEqual((again.kind, again.number), ("violated", report.number + 1))
            auditor.start_anew()
            self.assertIsNone(auditor.violation)
            self.assertEqual((auditor.received, auditor.audits), ([0] * 3, 2))
            auditor.offer(1, 0, ONE)
        with self.resumed() as auditor:
            self.assertEqual((auditor.received, auditor.audits), ([0, 1, 0], 2))
            self.assertIsNone(auditor.violation)
            self.assertEqual([it.audit for it in auditor.program.keeping.violations], [1])

    def test_half_written(self):
        """An incomplete last record is dropped with a message; a damaged record makes the whole
        journal unusable."""
        with self.auditor() as auditor:
            for at in range(3):
                auditor.offer(0, at, Logged((), (f"key {at}",)))
        whole = self.bytes()
        self.overwrite(whole[:-1])
        with self.resumed() as auditor:
            self.assertEqual(auditor.received, [2, 0, 0])
            self.assertIn("an incomplete record", "\n".join(self.told))
            auditor.offer(0, 2, Logged((), ("key 2",)))
        with self.resumed() as auditor:
            self.assertEqual(auditor.received, [3, 0, 0])
            self.assertEqual(auditor.numbers, {"zanteyard fence": 0, "key 0": 1, "key 1": 2, "key 2": 3})
        middle = len(whole) - 100
        for found, error in (
            (whole[:middle] + b"?" + whole[middle + 1 :], JournalDamagedError),
            (whole[: len(whole) // 3], JournalDamagedError),  # in its checkpoint
            (whole.replace(b"journal 2", b"journal 3", 1), JournalVersionError),
            (b"", JournalVersionError),
        ):
            self.overwrite(found)
            with self.assertRaises(error):
                self.resumed()
            self.assertEqual(self.bytes(), found)
        os.unlink(self.path)
        with self.assertRaisesRegex(JournalError, "no such journal"):
            self.resumed()

    def test_damaged_while_it_runs(self):
        with self.auditor() as auditor:
            auditor.offer(0, 0, ONE)
            self.overwrite(self.bytes()[:-3] + b"???")
            os.kill(auditor.program.process.pid, signal.SIGKILL)
            with self.assertRaises(JournalDamagedError):
                auditor.offer(0, 1, ONE)
            with self.assertRaisesRegex(ProgramEndedError, "is damaged"):
                auditor.round()
            self.assertEqual(auditor.outcome().kind, "incomplete")

    def test_lines_that_lead_elsewhere(self):
        """Records that are complete, and yet not what was written."""
        with self.auditor() as auditor:
            auditor.offer(0, 0, ONE)
        journal = Journal(self.path)
        texts = journal.read()
        for wrong in (texts[:-1] + texts[-1:] * 2, texts[:2] + texts[3:], texts[1:],
                      [*texts, b"L[7]"], [*texts, b"?"], [*texts, b'L["offer",9,0,[]]']):
            journal.begin_anew(wrong)
            journal.close()
            with self.assertRaises(JournalError):
                self.resumed()
            journal = Journal(self.path)
        journal.close()

    def test_places(self):
        with self.auditor() as auditor:
            with self.assertRaises(JournalInUseError):
                self.auditor()
            with self.assertRaises(JournalInUseError):
                self.resumed()
            auditor.offer(0, 0, ONE)
        with self.assertRaisesRegex(JournalError, "exists: continue it"):
            self.auditor()
        self.path = os.path.join(self.path, "journal")
        with self.assertRaisesRegex(JournalError, "isn't a folder"):
            self.auditor()
        self.path = os.path.join(self.folder, "nowhere", "journal")
        with self.assertRaisesRegex(JournalError, "can't be locked: No such file"):
            self.auditor()
        self.path = os.path.join(self.folder, "another")
        with self.assertRaises(ProgramEndedError):
            Auditor(1, 1, "/nowhere", journal=self.path)
        with self.assertRaisesRegex(JournalError, "can't save its state"):
            Auditor(1, 1, self.old_program(), journal=self.path)
        self.assertFalse(os.path.exists(self.path))
        self.auditor()

    def old_program(self):
        """It answers ok, and doesn't know the lines."""
        path = os.path.join(self.folder, "old")
        with open(path, "w") as file:
            file.write("#!/bin/sh\nread line; echo '[\"ok\"]'; read line; echo '[\"no\",1,\"BadLine\"]'\n")
            file.write("cat > /dev/null\n")
        os.chmod(path, 0o700)
        return path

    def test_full_disk(self):
        """What isn't noted isn't reported; what is noted can be continued when there is room. A
        violation is reported in any case."""
        self.addCleanup(self.room, None)
        with self.auditor() as auditor:
            auditor.offer(0, 0, ONE)
            self.room(len(self.bytes()) + 10)
            with self.assertRaisesRegex(JournalError, "can't be written"):
                auditor.offer(0, 1, ONE)
            with self.assertRaisesRegex(ProgramEndedError, "can't be written"):
                auditor.round()
            self.assertEqual(auditor.outcome().kind, "incomplete")
            self.room(None)
        with self.resumed() as auditor:
            self.assertEqual(auditor.received, [1, 0, 0])
            auditor.offer(0, 1, Logged([("x", "init")], ()))
            self.room(len(self.bytes()))
            self.assertEqual(auditor.round().kind, "violated")
            with self.assertRaisesRegex(ProgramEndedError, "can't be written"):
                auditor.round()
            self.assertEqual(auditor.outcome().kind, "violated")
            self.room(None)
        with self.resumed() as auditor:
            self.assertEqual(auditor.outcome().kind, "violated")


if __name__ == "__main__":
    unittest.main()
