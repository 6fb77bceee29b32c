"""Rare problems when clients join and return."""
import logging
import os
import tempfile
import time
import unittest
from unittest import mock

from zanteyard import FENCE, AuditClient, AuditServer, Logged, OutcomeUnknownError, Policy
from zanteyard.live._backlog import Backlog
from zanteyard.core.errors import AuditLostError
from zanteyard.remote._crash_recovery import CrashedProcess
from zanteyard.stores.memory import MemoryStore
from zanteyard.session._crash_notes import CrashNote
from zanteyard.live._session_pool import SessionPool
from zanteyard.core._records import as_bytes
from zanteyard.session._place import Place
from zanteyard.session._session import Session

from .test_live import WithProgram, add_one
from .waiting import SOON


class Alone:
    """A connection with exchanges that are transactions by themselves. The chosen ones are
    committed, and then `raises` is raised in place of their answer. Whether the store `knows` the
    outcome can be chosen."""

    knows = True

    def __init__(self, connection, *raises):
        self._connection, self._raises = connection, [*raises]

    def __getattr__(self, name):
        return getattr(self._connection, name)

    def begin_alone(self, seconds):
        self._connection.begin()

    def exchange(self, key, value, name):
        found = self._connection.read(key)
        self._connection.write(key, value, name)
        self._connection.commit()
        there = self._connection.last_outcome
        self.outcome = lambda: there if self.knows else "unknown"
        self._connection.begin()
        if key == FENCE and self._raises:
            error = self._raises.pop(0)
            if error is not None:
                raise error
        return found


class Interrupted(WithProgram):
    def setUp(self):
        super().setUp()
        logging.getLogger("zanteyard").setLevel(logging.CRITICAL)
        self.addCleanup(logging.getLogger("zanteyard").setLevel, logging.NOTSET)

    def met(self):
        """A live audit whose clients have met, and its store."""
        live, store = self.live(2, every=1000), MemoryStore()
        self.stays = live.session(Alone(store.connect()))
        self.stays.run(add_one("x"))
        self.assertIsNone(live._coordinator.meet(60.0, 60.0).failure)
        return live, store

    def one_name_each(self, store):
        names = [name for _, name, _ in store.versions[FENCE]]
        self.assertEqual(len(names), len({*names}))

    def test_a_fence_that_is_there_has_its_name_for_itself(self):
        """An interrupt comes after the store's answer; the client gets it, and goes on."""
        for error in (KeyboardInterrupt(), TimeoutError("of a handler of SIGALRM"), OutcomeUnknownError("it is late")):
            for knows in (True, False):
                with self.subTest(type(error).__name__, knows=knows):
                    live, store = self.met()
                    comes = Alone(store.connect())
                    comes.errors, comes.begin_alone = (ZeroDivisionError,), lambda seconds: 1 / 0
                    session = live.session(comes)
                    self.assertIsNone(session.number)
                    del comes.begin_alone
                    comes._raises.append(error)
                    comes.knows = knows
                    if isinstance(error, OutcomeUnknownError):  # the collector's own: no concern of the client
                        session.run(add_one("x"))
                    else:
                        with self.assertRaises(type(error)):
                            session.run(add_one("x"))
                    # Nobody says what the fence has read. If it may not exist, reads from it wait.
                    is_known = knows and isinstance(error, Exception)
                    if not is_known:  # else the audit ends
                        self.assertIsNone(live._coordinator.meet(60.0, 60.0).failure)
                    session.run(add_one("x"))
                    self.stays.run(add_one("x"))
                    self.one_name_each(store)
                    self.assertEqual(live.stop().kind, "incomplete" if is_known else "pending")

    def test_who_is_interrupted_as_its_session_is_made_is_told_so(self):
        for error in (KeyboardInterrupt(), TimeoutError("of a handler of SIGALRM")):
            for when in ("begin_alone", "exchange"):
                with self.subTest(type(error).__name__, when=when):
                    live, store = self.met()
                    comes = Alone(store.connect(), error)
                    if when == "begin_alone":
                        comes.begin_alone = mock.Mock(side_effect=error)
                    with self.assertRaises(type(error)):
                        live.session(comes)
                    self.assertEqual((live._group.numbers(), live._pool.taken), ([0], 1))
                    other = live.session(Alone(store.connect()))
                    other.run(add_one("x"))
                    self.stays.run(add_one("x"))
                    self.one_name_each(store)
                    is_known = isinstance(error, Exception)
                    kind = "serial" if when == "begin_alone" else "incomplete" if is_known else "pending"
                    self.assertEqual(live.stop().kind, kind)

    def test_what_an_interrupt_leaves_of_a_fence_has_no_name_of_another(self):
        """It comes when the fence has its number, and nobody owns the fence."""
        live, store = self.met()
        start, comes = Session.start, Alone(store.connect())

        def started(session, *arguments):
            start(session, *arguments)
            raise TimeoutError("of a handler of SIGALRM")

        comes.errors, comes.begin_alone = (ZeroDivisionError,), lambda seconds: 1 / 0
        session = live.session(comes)
        del comes.begin_alone
        with mock.patch.object(Session, "start", started), self.assertRaises(TimeoutError):
            session.begin()
        self.assertEqual((session.number, session.begun), (2, 0))
        session.run(add_one("x"))
        self.assertEqual((session.number, session.begun), (2, 2))
        self.assertEqual(live.stop().kind, "serial")


class Stuck(unittest.TestCase):
    def test_where_a_new_session_never_joins_others_are_to_come_back(self):
        """It is unknown whether its fence was written, so no newer session can join."""
        places = SessionPool(2)
        places.let_join()
        new, left = places.take(0.0), places.lend()
        places.close(left), places.take_back(left)
        self.assertEqual((new.number, new.must_join, places.wants_meeting), (2, True, False))
        new.leave_open(0)
        new.begun, new.is_ended = 1, True
        for is_given_back in (False, True):
            with mock.patch("zanteyard.live._session_pool.JOINING", 0.0):
                time.sleep(0.001)
                self.assertEqual((places.free, places.wants_meeting), (0, True))
            places.give_back([new])


class Harmless(WithProgram):
    """What clients see of it."""

    def setUp(self):
        super().setUp()
        logging.getLogger("zanteyard").setLevel(logging.CRITICAL)
        self.addCleanup(logging.getLogger("zanteyard").setLevel, logging.NOTSET)

    def test_meetings_that_are_wanted_and_fail_hold_clients_up_ever_more_seldom(self):
        """One client's transaction takes long, and few sessions are left."""
        live, store = self.live(58, every=1000, policy=Policy(0.05, False)), MemoryStore()
        meet, began, ended_at = live._coordinator.meet, [], []

        def timed(*arguments):
            began.append(time.monotonic())
            try:
                return meet(*arguments)
            finally:
                ended_at.append(time.monotonic())

        live._coordinator.meet = timed
        sessions = [live.session(store.connect()) for _ in range(57)]
        sessions[0].run(add_one("x"))
        live._pool.let_join()  # as if they had met before
        ended = live._pool.lend()
        live._pool.close(ended), live._pool.take_back(ended)
        running = sessions[1].begin()
        until = time.monotonic() + SOON
        while len(began) < 6 and time.monotonic() < until:
            time.sleep(0.005)
        running.commit()
        self.assertEqual(live.stop().kind, "serial")
        self.assertGreaterEqual(len(began), 6)
        for at, (ends, begins) in enumerate(zip(ended_at[:5], began[1:6])):
            self.assertGreaterEqual(begins - ends, 0.05 * 2 ** at)

    def test_where_nothing_more_is_audited_nobody_waits_or_joins(self):
        live, store = self.live(1, policy=Policy(60.0, False)), MemoryStore()
        stays = live.session(store.connect())
        stays.run(add_one("x"))
        self.assertIsNone(live._coordinator.meet(60.0, 60.0).failure)
        live.lose(AuditLostError("for a test"))
        live._thread.join(SOON)
        fences, began = len(store.versions[FENCE]), time.monotonic()
        others = [live.session(store.connect()) for _ in range(63)]
        with self.assertRaisesRegex(ValueError, "64 clients have one each"):
            live.session(store.connect())
        for session in (stays, *others):
            session.run(add_one("x"))
        self.assertLess(time.monotonic() - began, 30.0)
        self.assertEqual(len(store.versions[FENCE]), fences)
        self.assertEqual(len({name for _, name, _ in store.versions["x"]}), 65)

    def test_what_was_held_is_kept_by_nobody_once_another_audit_begins(self):
        live, store = self.live(1, policy=Policy(60.0, True, 0.01)), MemoryStore()
        stays = live.session(store.connect())
        stays.run(add_one("x"))
        live._hand_in(0.0, 5, 0, (), Logged([(FENCE, (4, 0))], [FENCE]))  # and 4.0 never arrives
        until = time.monotonic() + SOON
        while not live._audit._held and time.monotonic() < until:
            time.sleep(0.005)
        live.lose(AuditLostError("for a test"))
        while not live.earlier and time.monotonic() < until:
            time.sleep(0.005)
        self.assertTrue(live._backlog.is_taken(5, 0))
        live.stop()

    def test_a_session_of_which_a_process_is_told_as_it_leaves_is_closed(self):
        """Otherwise it would prevent all cuts."""
        live = self.live(2, every=1000)
        with tempfile.TemporaryDirectory() as folder:
            server, store = AuditServer(live, os.path.join(folder, "audit")), MemoryStore()
            client = AuditClient(server.path)
            client.session(store.connect()).run(add_one("x"))
            client._deeds["left"] = lambda *_: None  # it arrives too late
            client._messages.tell("join", 99, True)
            until = time.monotonic() + SOON
            while live._pool.taken < 2 and time.monotonic() < until:
                time.sleep(0.005)
            client.leave()
            server.close()
        self.assertEqual(live.stop().kind, "serial")
        self.assertEqual(self.auditor.closed, [False, True])

    def test_a_session_that_ends_as_another_audit_begins_ends_that_no_more(self):
        for when, call in (("edges", 2), ("reopen", 1)):
            with self.subTest(when):
                live, store = self.live(3, policy=Policy(60.0, True, 0.01)), MemoryStore()
                stays, connection = live.session(store.connect()), store.connect()
                ends, calls = live.session(connection, patience=0.1), []
                stays.run(add_one("x")), ends.run(add_one("y"))
                whole = getattr(live._group, when)

                def ended():
                    calls.append(1)
                    if len(calls) == call:
                        connection.lost, connection.known = "committed", False
                        with self.assertRaises(OutcomeUnknownError):
                            ends.run(add_one("y"))
                        connection.lost, connection.known = None, True
                    return whole()

                with mock.patch.object(live._group, when, ended):
                    live.lose(AuditLostError("for a test"))
                    until = time.monotonic() + SOON
                    while not live.earlier and time.monotonic() < until:
                        time.sleep(0.005)
                for _ in range(3):
                    stays.run(add_one("x")), ends.run(add_one("y"))
                self.assertEqual(ends.number, 1 if when == "edges" else 2)
                self.assertEqual((len(live.stop().earlier), live.failure), (1, None))
                self.assertEqual(live.report.kind, "serial")
                self.assertEqual(self.auditor.closed, [False, when == "reopen", False])

    def test_several_sessions_of_a_process_that_end_at_once_have_others(self):
        live, store = self.live(6, every=1000), MemoryStore()
        with tempfile.TemporaryDirectory() as folder:
            server = AuditServer(live, os.path.join(folder, "audit"))
            with AuditClient(server.path) as client:
                connections = [store.connect() for _ in range(3)]
                sessions = [client.session(it, patience=0.1) for it in connections]
                for session, connection in zip(sessions, connections):
                    connection.lost, connection.known = "committed", False
                    with self.assertRaises(OutcomeUnknownError):
                        session.run(add_one(f"x{session.number}"))
                    connection.lost, connection.known = None, True
                for session in sessions:
                    session.run(add_one("y"))
                self.assertEqual(len({session.number for session in sessions}), 3)
            server.close()
        self.assertEqual(self.ended(live).kind, "serial")

    def test_who_finds_no_session_in_time_hands_in_nothing_more(self):
        live, store = self.live(1, every=1000, policy=Policy(0.5, False)), MemoryStore()
        with tempfile.TemporaryDirectory() as folder:
            server = AuditServer(live, os.path.join(folder, "audit"))
            with AuditClient(server.path) as client:
                connection = store.connect()
                session = client.session(connection, patience=0.1)
                connection.lost, connection.known = "committed", False
                with self.assertRaises(OutcomeUnknownError):
                    session.run(add_one("x"))
                connection.lost, connection.known = None, True
                with mock.patch.object(live._pool, "take", lambda *_: time.sleep(1.0)):
                    session.run(add_one("y"))
            server.close()
        self.assertRegex(str(live.stop().failure), "no session is free for a client")

    def test_a_client_elsewhere_for_whom_none_is_left_goes_on_unaudited(self):
        live, store = self.live(1, every=1000, policy=Policy(30.0, True, 0.01)), MemoryStore()
        with tempfile.TemporaryDirectory() as folder:
            server = AuditServer(live, os.path.join(folder, "audit"))
            with AuditClient(server.path) as client:
                stays = client.session(store.connect())
                stays.run(add_one("x"))
                with mock.patch.object(live._pool, "take", lambda *_: None):
                    comes = client.session(store.connect())
                self.assertFalse(comes.place.is_audited)
                running, until = stays.begin(), time.monotonic() + SOON  # no meeting is possible
                while not (live.earlier and comes.place.is_audited) and time.monotonic() < until:
                    comes.run(add_one("y"))
                running.commit()
                self.assertEqual((stays.number, comes.number), (0, 1))
            server.close()
        outcome = live.stop()
        self.assertEqual((outcome.kind, len(outcome.earlier)), ("incomplete", 1))
        self.assertRegex(str(outcome.failure), "no session is free for a client: 1 clients have one")
        self.assertEqual(live.report.kind, "serial")

    def test_the_next_audit_has_a_session_for_a_client_that_had_none_however_soon_it_begins(self):
        for new in (True, False):
            with self.subTest(new=new):
                live, store = self.live(1, every=1000, policy=Policy(30.0, True, 0.01)), MemoryStore()
                whole = live.lose

                def lose(error):
                    whole(error)
                    until = time.monotonic() + SOON
                    while not live.earlier and time.monotonic() < until:
                        time.sleep(0.001)

                if new:
                    live.session(store.connect()).run(add_one("x"))
                comes = None if new else live.session(store.connect())
                with mock.patch.object(live, "lose", lose):
                    if new:
                        with mock.patch.object(live._pool, "take", lambda *_: None):
                            comes = live.session(store.connect())
                    else:
                        comes.place = live._cant_join(comes, ValueError("for a test"))
                self.assertFalse(comes.place.is_audited)
                self.assertEqual((len(live.earlier), live._pool.sessions), (1, 2))
                self.assertEqual(len(live.stop().earlier), 1)

    def test_who_comes_before_a_cut_has_a_session(self):
        """A meeting closes sessions without clients; these return after the next cut."""
        live, store = self.live(64, every=1000), MemoryStore()
        stays = live.session(store.connect())
        stays.run(add_one("x"))
        self.assertIsNone(live._coordinator.meet(60.0, 60.0).failure)
        others = [live.session(store.connect()) for _ in range(40)]  # more than were kept
        for session in (stays, *others):
            session.run(add_one("x"))
        self.assertGreater(live.cuts, 0)
        self.assertEqual(live._pool.taken, 41)
        self.assertEqual(self.ended(live).kind, "serial")

    def test_more_who_come_before_a_cut_than_there_is_room_for_go_on_unaudited(self):
        """The application may have as many as possible at a time; the next audit has sessions for
        them."""
        live, store = self.live(64, every=1000, policy=Policy(0.05, True, 0.01)), MemoryStore()
        stays = live.session(store.connect())
        stays.run(add_one("x"))
        live._crash_searches.__enter__()  # no further meeting
        self.assertIsNone(live._coordinator.meet(60.0, 60.0).failure)
        others = [live.session(store.connect()) for _ in range(40)]
        without = [session for session in others if not session.place.is_audited]
        self.assertEqual(len(without), 8)
        for session in others:
            session.run(add_one("x"))
        live._crash_searches.__exit__()
        until = time.monotonic() + SOON
        while not live.earlier and time.monotonic() < until:
            time.sleep(0.005)
        for session in (stays, *others):
            session.run(add_one("x"))
        self.assertEqual([session for session in others if not session.place.is_audited], [])
        outcome = live.stop()
        self.assertEqual(outcome.kind, "incomplete")
        self.assertIn("no session is free for a client: 33 clients", str(outcome.failure))


class UsedAgain(WithProgram):
    """Cases that could give one name to two transactions."""

    def test_a_second_attempt_that_was_on_its_way_as_its_process_was_killed(self):
        """The store's answer may be about the first attempt, which has the same name; or others'
        fences have overwritten it."""
        logged = as_bytes(Logged([(FENCE, (0, 3))], [FENCE]))
        sent, aborted = CrashNote(4, 7, None, logged), CrashNote(4, 7, "aborted")
        for notes, begun, is_ended in (
            ((sent,), 8, True),
            ((sent, aborted), 7, False),
            ((sent, aborted, sent, aborted), 7, False),
            ((sent, aborted, sent), 8, True),
        ):
            with mock.patch("zanteyard.remote._crash_recovery.find_out", lambda *_: ("aborted", None)):
                place = Place(4, 7, must_join=True)
                killed = CrashedProcess({4: [(note, None) for note in notes]}, "run", Backlog(8).next_number)
                self.assertEqual(killed.told(place), ())
            self.assertEqual((place.begun, place.must_join, place.is_ended), (begun, True, is_ended))

    def test_a_client_that_comes_as_its_process_leaves(self):
        live, store = self.live(1, every=1000), MemoryStore()
        stays = live.session(store.connect())
        stays.run(add_one("x"))
        self.assertIsNone(live._coordinator.meet(60.0, 60.0).failure)
        with tempfile.TemporaryDirectory() as folder:
            server = AuditServer(live, os.path.join(folder, "audit"))
            for when in ("add", "take_turn"):
                client = AuditClient(server.path)
                add, take_turn = client._group.add, Session.take_turn

                def added(session):
                    if when == "add":
                        client.leave()
                    add(session)

                def taken(session):
                    if when == "take_turn" and session.auditor is client:
                        client.leave()
                    take_turn(session)

                with mock.patch.object(client._group, "add", added), mock.patch.object(Session, "take_turn", taken):
                    session = client.session(store.connect())
                with self.assertRaises(ValueError):
                    session.begin()
                client.leave()
            other = live.session(store.connect())
            other.run(add_one("x"))
            self.assertIsNone(live._coordinator.meet(60.0, 60.0).failure)
            names = [name for _, name, _ in store.versions[FENCE]]
            self.assertEqual((other.number, len(names)), (1, len({*names})))
            server.close()
        self.assertEqual(self.ended(live).kind, "serial")


del WithProgram

if __name__ == "__main__":
    unittest.main()
