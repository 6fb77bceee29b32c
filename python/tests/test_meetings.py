"""What a meeting makes the sessions of one process do, at moments that a run seldom reaches."""
import logging
import os
import threading
import time
import unittest

from zanteyard import AbortedError, Auditor, OutcomeUnknownError, Session, StoreLateError
from zanteyard.core._own_keys import FLAG
from zanteyard.program._auditor import PROGRAM
from zanteyard.session._quiesce import SessionGroup, QuiesceMissed
from zanteyard.stores.memory import MemoryStore
from zanteyard.session._place import Place

SECONDS = 60.0
SLOW = 20.0  # seconds for anything that isn't waited for, on a busy machine


@unittest.skipUnless(os.path.isfile(PROGRAM), f"{PROGRAM} is not built")
class Meetings(unittest.TestCase):
    def setUp(self):
        self.auditor = Auditor(3)
        self.addCleanup(self.auditor.end)
        self.group, self.store = SessionGroup(), MemoryStore()
        self.addCleanup(self.group.end)

    def session(self, number, store=None):
        session = Session(self.auditor, number, store or self.store.connect())
        self.group.add(session)
        return session

    def test_each_place_is_lent_to_a_session_in_turns(self):
        sessions, seen = [self.session(number) for number in range(2)], []
        self.group.held = dict.fromkeys(sessions)
        self.group.begin = lambda meeting, session, deed, place, what: seen.append((deed, session.number, place.number, what))
        self.group.end_all = lambda: seen.append("all of them")
        self.group.share(1, [Place(number) for number in range(5, 10)], "flag")
        lent = [("lend", number % 2, 5 + number, "flag") for number in range(5)]
        self.assertEqual(seen, [*lent[:2], "all of them", *lent[2:4], "all of them", *lent[4:], "all of them"])
        del seen[:]
        self.group.share(1, [], "flag")
        self.group.held = {}
        self.group.share(1, [Place(5)], "flag")
        self.assertEqual(seen, [])

    def test_who_is_let_go_as_its_time_is_up_keeps_its_place(self):
        """The timer fires after the flags, and the client begins a transaction at once."""
        session, begun = self.session(0), []
        share = self.group.share

        def shared_late(*arguments):
            share(*arguments)
            self.group.release(1)
            begun.append(session.begin())

        self.group.share = shared_late
        with self.assertRaisesRegex(QuiesceMissed, "took too long"):
            self.group.gather(1, SECONDS, False, (), -1.0)  # all count as idle
        begun[0].put("x", 1)
        begun[0].commit()
        self.assertEqual((session.number, session.is_open), (0, True))
        self.assertEqual(self.auditor.round().kind, "serial")

    def stuck(self, **more):
        """A session for which a meeting runs a flag that its store doesn't answer."""
        store, self.answers = self.store.connect(), threading.Event()
        self.addCleanup(self.answers.set)
        logging.getLogger("zanteyard").setLevel(logging.CRITICAL)
        self.addCleanup(logging.getLogger("zanteyard").setLevel, logging.NOTSET)
        plain = store.write

        def write(key, value, name):
            if key.startswith(FLAG):
                self.answers.wait(SECONDS)
                raise OutcomeUnknownError("no answer")
            plain(key, value, name)

        store.write, store.known = write, False
        vars(store).update(more)
        session = self.session(0, store)
        session.run(lambda t: t.put("x", 1))
        with self.assertRaises(QuiesceMissed):
            self.group.gather(1, 0.1, False, (), SECONDS)
        self.group.release()
        return session

    def test_who_waits_for_the_store_in_the_audits_place_waits_no_longer_than_a_bound(self):
        session = self.stuck()
        began = time.monotonic()
        with self.assertRaises(StoreLateError):
            session.begin()
        self.assertGreater(time.monotonic() - began, 2 * session.wait - 0.01)
        self.assertLess(time.monotonic() - began, SLOW)
        self.assertGreaterEqual(session.longest, 2 * session.wait - 0.01)
        self.answers.set()
        with session.turn:
            self.assertFalse(session.is_open)  # since its flag may or may not exist

    def test_what_the_store_does_not_answer_is_given_up_where_it_can_be(self):
        session = self.stuck(hang_up=lambda: self.answers.set())
        session.renew = lambda it: Place(1)
        began = time.monotonic()
        session.run(lambda t: t.put("x", 2))
        self.assertLess(time.monotonic() - began, SLOW)
        self.assertEqual(self.auditor.round().kind, "serial")

    def test_nothing_is_waited_for_behind_the_end(self):
        self.stuck(hang_up=lambda: self.answers.set())
        self.group.end()
        self.assertTrue(self.answers.is_set())

    def test_nothing_is_run_again_once_the_meetings_time_is_up(self):
        store, attempts = self.store.connect(), []

        def commit():
            attempts.append(time.monotonic())
            time.sleep(0.02)
            raise AbortedError("for what another did")

        store.commit = commit
        session = self.session(0, store)
        for seconds, count in ((0.01, 1), (SECONDS, 3)):
            attempts.clear()
            with self.subTest(seconds=seconds), self.assertRaises(AbortedError):
                session.flag(seconds)
            self.assertEqual(len(attempts), count)

    def test_each_attempt_has_what_is_left_of_the_time(self):
        store, seconds = self.store.connect(), []

        def begin_alone(given):
            store.begin()
            seconds.append(given)
            time.sleep(0.02)
            if len(seconds) < 3:
                raise AbortedError("for what another did")

        store.begin_alone = begin_alone
        self.session(0, store).flag(SECONDS)
        self.assertEqual(len(seconds), 3)
        self.assertLess(seconds[1], seconds[0] - 0.01)
        self.assertLess(seconds[2], seconds[1] - 0.01)

    def test_who_is_idle_goes_without_a_place(self):
        session = self.session(0)
        flags, places = self.group.gather(1, SECONDS, False, (), -1.0)
        self.assertEqual((flags, [place.number for place in places]), ([], [0]))
        self.assertEqual((session.number, session.is_open), (None, False))
        self.group.release()


if __name__ == "__main__":
    unittest.main()
