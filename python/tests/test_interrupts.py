"""Ctrl-C and similar interrupts before any line that the collector runs: no answer is taken for
that of another line, no turn is lost, and an interrupted client can go on."""
import linecache
import logging
import os
import sys
import unittest
from unittest import mock

from zanteyard import AuditLostError, Auditor, LiveAuditor, Policy, Report, Session
from zanteyard.program._auditor import PROGRAM
from zanteyard.core.errors import ProgramEndedError
from zanteyard.stores.memory import MemoryStore
from zanteyard.remote._session_requests import SessionRequests

from .test_live import add_one, set_to

FOLDER = os.path.dirname(os.path.abspath(sys.modules["zanteyard"].__file__))
SHARE = int(os.environ.get("ZANTEYARD_INTERRUPTS", "7"))  # every n-th place is tried
KINDS = (KeyboardInterrupt, SystemExit, TimeoutError)  # the last is what handlers of SIGALRM raise

TURN_IS_GIVEN_BACK = ("session.running = None", "if self.holds and session.current is self:", "session.current = None", "session.has_turn = []", "session.turn.release()")


class Interrupted:
    """Runs a call of the collector, and raises an exception before its n-th line."""

    def __init__(self, at):
        self.at, self.kind, self.count = at, KINDS[at % len(KINDS)], 0

    def trace(self, frame, event, _):
        if not frame.f_code.co_filename.startswith(FOLDER):
            return None
        if event == "line" and not self.is_safe(frame):
            self.count += 1
            if self.count == self.at:
                sys.settrace(None)
                raise self.kind(f"at line {frame.f_lineno} of {frame.f_code.co_filename}")
        return self.trace

    @staticmethod
    def is_safe(frame):
        """Whether an interrupt can't come here: between two assignments, when a `with` releases its
        lock and its line is repeated, or at a `try`, which runs nothing and isn't covered even by a
        `with` around it."""
        line = linecache.getline(frame.f_code.co_filename, frame.f_lineno).strip()
        return line.startswith(("with ", "try:")) or (frame.f_code.co_name == "log" and line in TURN_IS_GIVEN_BACK)

    def run(self, call):
        """Runs the call, and returns whether it was interrupted."""
        sys.settrace(self.trace)
        try:
            call()
        except BaseException as error:
            sys.settrace(None)
            if type(error) not in (self.kind, ProgramEndedError, AuditLostError):
                raise
        finally:
            sys.settrace(None)
        return self.count >= self.at


@unittest.skipUnless(os.path.isfile(PROGRAM), f"{PROGRAM} is not built")
class Interrupts(unittest.TestCase):
    def setUp(self):
        logging.getLogger("zanteyard").setLevel(logging.CRITICAL)
        self.addCleanup(logging.getLogger("zanteyard").setLevel, logging.NOTSET)

    def each(self, deed, step, first=1, of=Auditor):
        """Interrupts the deed at one place after another, each time with an auditor of its own."""
        for at in range(first, 4000, step):
            with of(3) as auditor, self.subTest(at=at):
                killed = self.have_kills_come_late(auditor)
                store = MemoryStore()
                a, b = (Session(auditor, number, store.connect()) for number in range(2))
                a.run(set_to("x", 1))
                b.run(add_one("x"))
                interrupt = Interrupted(at)
                is_interrupted = interrupt.run(lambda: deed(auditor, a))
                if a.current is not None:  # it had reached the caller by then
                    a.current.rollback()
                self.assertFalse(a.turn.locked())
                for session in (a, b) if a.is_open else (b,):
                    session.run(add_one("x"))
                with killed:
                    self.see(auditor, is_interrupted)
            if not is_interrupted:
                return at
        self.fail("it has no end")

    def have_kills_come_late(self, auditor):
        """As on a busy machine, a killed program still answers for a while."""
        process = auditor.program.process
        late, process.kill = [], lambda: late.append(True)

        class Killed:
            def __enter__(self):
                pass

            def __exit__(self, *_):
                del process.kill
                if late:
                    process.kill()

        return Killed()

    def see(self, auditor, is_interrupted):
        outcome = auditor.outcome()
        self.assertIn(outcome.kind, ("serial", "incomplete"), outcome)
        self.assertTrue(outcome.report is None or isinstance(outcome.report, Report), outcome)
        if outcome.report is not None:
            self.assertIn(outcome.report.kind, ("serial", "pending"))
            self.assertLessEqual(outcome.audited, 6)
        if outcome.kind == "serial":
            self.assertEqual(outcome.audited, outcome.handed_in)
            self.assertEqual(sum(outcome.report.counts), outcome.handed_in)
        if not is_interrupted:
            self.assertEqual(outcome.kind, "serial")

    def test_a_transaction_from_its_begin_to_its_end(self):
        deed = lambda auditor, session: session.run(add_one("x"), attempts=1)
        self.assertGreater(self.each(deed, 1 + SHARE // 3), 100)

    def test_a_round(self):
        self.each(lambda auditor, _: auditor.round(), 1 + SHARE // 3)

    def test_an_offer_of_ones_own(self):
        from zanteyard import Logged

        def offer(auditor, _):
            auditor.offer(2, 0, Logged((), ("y",)), Logged((("y", (2, 0)),), ()))

        for at in range(1, 1000, 1 + SHARE // 3):
            with Auditor(3) as auditor, self.subTest(at=at):
                killed = self.have_kills_come_late(auditor)
                is_interrupted = Interrupted(at).run(lambda: offer(auditor, None))
                with killed:
                    try:
                        report = auditor.round()
                        self.assertEqual(report.kind, "serial")
                        self.assertIn(sum(report.counts), (0, 2))
                        self.assertEqual(sum(report.counts), sum(map(len, auditor.history)))
                    except ProgramEndedError:
                        self.assertTrue(is_interrupted)
            if not is_interrupted:
                return
        self.fail("it has no end")

    def test_no_two_keys_have_one_number(self):
        for at in range(1, 20):
            with Auditor(1) as auditor, self.subTest(at=at):
                is_interrupted = Interrupted(at).run(lambda: auditor.key_number("x"))
                numbers = {auditor.key_number(key) for key in "xyz"}
                self.assertEqual(len(numbers), 3)
                self.assertEqual({auditor.names[it] for it in numbers}, {*"xyz"})
            if not is_interrupted:
                return
        self.fail("it has no end")

    def interrupted_as_a_lock_is_taken(self, call):
        """Interrupts as soon as any code can be interrupted after taking the lock."""

        def profile(frame, event, called):
            if event == "c_return" and getattr(called, "__name__", "") in ("acquire", "extend"):
                sys.setprofile(None)
                raise KeyboardInterrupt

        with self.assertRaises(KeyboardInterrupt):
            sys.setprofile(profile)
            try:
                call()
            finally:
                sys.setprofile(None)

    def test_who_is_interrupted_as_the_turn_is_taken(self):
        with Auditor(1) as auditor:
            session = Session(auditor, 0, MemoryStore().connect())
            self.interrupted_as_a_lock_is_taken(session.begin)
            self.assertFalse(session.turn.locked())
            session.run(add_one("x"))
            self.assertEqual(auditor.round().kind, "serial")

    def test_who_is_interrupted_as_it_leaves(self):
        """No meeting waits for its turn forever, and it can leave again."""
        with Auditor(1) as auditor:
            live = LiveAuditor(auditor, policy=Policy(60.0, False))
            session = live.session(MemoryStore().connect())
            self.interrupted_as_a_lock_is_taken(session.close)
            self.assertFalse(session.turn.locked())
            self.assertEqual(live._group.numbers(), [0])  # meetings still have it
            session.run(add_one("x"))
            session.close()
            self.assertEqual((live._pool.taken, live._group.numbers()), (0, []))
            self.assertEqual(live.stop().kind, "serial")

    def test_who_is_interrupted_as_it_is_to_join(self):
        """The client gets the interrupt, and another client gets its place."""
        with Auditor(1) as auditor:
            live, store = LiveAuditor(auditor, policy=Policy(2.0, False)), MemoryStore()
            stays = live.session(store.connect())
            stays.run(add_one("x"))
            self.assertIsNone(live._coordinator.meet(60.0, 60.0).failure)
            self.interrupted_as_a_lock_is_taken(lambda: live.session(store.connect()))
            self.assertEqual((live._pool.taken, live._group.numbers()), (1, [0]))
            with mock.patch("zanteyard.session._session.give_back", side_effect=KeyboardInterrupt):
                with self.assertRaises(KeyboardInterrupt):  # just before it is given back
                    live.session(store.connect())
            self.assertEqual((live._pool.taken, live._group.numbers()), (1, [0]))
            other = live.session(store.connect())
            other.run(add_one("x"))
            self.assertEqual(other.number, 2)  # the second one's fence was written
            self.assertEqual(live.stop().kind, "serial")

    def test_who_is_interrupted_wherever_a_session_is_made(self):
        """Another client gets its place, and no meeting waits for a client that isn't there: in an
        existing session, and in a new one."""
        for joins in (False, True):
            for at in range(1, 1000, 3 * SHARE):
                with Auditor(1 if joins else 2) as auditor, self.subTest(at=at, joins=joins):
                    is_interrupted = self.made_and_interrupted(auditor, Interrupted(at), joins)
                if not is_interrupted:
                    break
            self.assertGreater(at, 20)

    def made_and_interrupted(self, auditor, interrupt, joins):
        live, store = LiveAuditor(auditor, policy=Policy(2.0, False)), MemoryStore()
        stays = live.session(store.connect())
        stays.run(add_one("x"))
        if joins:
            self.assertIsNone(live._coordinator.meet(60.0, 60.0).failure)
        made = []
        is_interrupted = interrupt.run(lambda: made.append(live.session(store.connect())))
        for session in made:
            session.close()
        self.assertEqual((live._pool.taken, live._group.numbers()), (1, [0]))
        other = live.session(store.connect())
        other.run(add_one("x"))
        # If a fence was interrupted while it was handed in, its outcome is unknown: the audit has
        # ended, and there are no more meetings.
        may_end = joins and is_interrupted
        if not may_end:
            self.assertIsNone(live._coordinator.meet(60.0, 60.0).failure)
        self.assertIn(live.stop().kind, ("serial", "incomplete") if may_end else ("serial",))
        return is_interrupted

    def test_who_is_interrupted_as_it_asks_for_a_session(self):
        """Nobody else of its process waits for it."""
        requests = SessionRequests(None)
        self.interrupted_as_a_lock_is_taken(lambda: requests.ask("join", True, seconds=60.0))
        self.assertFalse(requests._asking.locked())


if __name__ == "__main__":
    unittest.main()
