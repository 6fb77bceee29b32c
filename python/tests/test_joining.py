"""Sessions that join a running audit, and sessions that return for another client."""
import json
import logging
import os
import subprocess
import sys
import tempfile
import threading
import time
import unittest
from contextlib import ExitStack, contextmanager
from unittest import mock

from zanteyard import FENCE, AbortedError, Auditor, Logged
from zanteyard import AuditClient, AuditServer, Policy, RefusedError, from_start
from zanteyard.live._audit import Audit
from zanteyard.live._figures import Figures
from zanteyard.live._told import Teller
from zanteyard.core._own_keys import FLAG
from zanteyard.live._backlog import Backlog
from zanteyard.program._window import Coverage
from zanteyard.live._audit_start import coverage_from_now
from zanteyard.core.errors import AuditLostError, JournalError, NotAnchoredError, ProgramEndedError
from zanteyard.remote._crash_recovery import NOTHING, CrashedProcess
from zanteyard.stores.memory import MemoryStore
from zanteyard.session._crash_notes import CrashNote
from zanteyard.live._session_pool import SessionPool
from zanteyard.core._records import as_bytes
from zanteyard.session._place import Place
from zanteyard.session._session import Session
from zanteyard.program._tenancy import Tenancy

from .test_live import WithProgram, add_one
from .waiting import SOON

PLACE = os.path.join(os.path.dirname(os.path.abspath(__file__)), "..")


def fence(source):
    return Logged([(FENCE, source)], [FENCE])


def wrote(key):
    return Logged([], [key])


def read(key, source):
    return Logged([(key, source)], [])


class Calls(WithProgram):
    """What an auditor is asked."""

    def auditor(self, sessions=2, **more):
        auditor = Auditor(sessions, 16, **more)
        self.addCleanup(auditor.end)
        return auditor

    def cut(self, auditor):
        """Session 0 makes a fence, and everything up to it is forgotten."""
        auditor.offer(0, 0, fence("init"), wrote("x"), fence((0, 0)))
        auditor.close(1)
        self.assertEqual(auditor.last_round().kind, "serial")
        self.assertEqual(auditor.truncate().fence, (0, 2))

    def test_a_new_one(self):
        auditor = self.auditor()
        auditor.offer(0, 0, fence("init"))
        auditor.join(2, 0, fence((0, 0)), wrote("x"))
        auditor.offer(2, 2, wrote("y"))
        self.assertEqual((auditor.sessions, list(auditor.received)), (3, [1, 0, 3]))
        self.assertEqual(auditor.last_round().counts, [1, 0, 3])

    def test_one_that_comes_back(self):
        auditor = self.auditor()
        self.cut(auditor)
        self.assertEqual(auditor.vacant, [1])
        auditor.offer(0, 3, fence((0, 2)))
        auditor.join(1, 0, fence((0, 3)), read("x", (0, 1)), fence((1, 0)))
        self.assertEqual((auditor.vacant, list(auditor.closed)), ([], [False, False]))
        self.assertEqual(auditor.last_round().kind, "serial")
        auditor.close(1)
        auditor.offer(0, 4, fence((1, 2)))
        auditor.last_round()
        auditor.truncate()
        auditor.join(1, 3, fence((0, 4)), read("x", "init"))
        self.assertEqual(list(auditor.received), [5, 5])
        report = auditor.last_round()
        self.assertEqual(report.kind, "violated")

    def test_what_is_refused_changes_nothing(self):
        auditor = self.auditor()
        self.cut(auditor)
        for session, number, logged in ((2, 0, fence("init")), (1, 0, fence((0, 0))), (1, 0, wrote("x"))):
            with self.assertRaises(NotAnchoredError):
                auditor.join(session, number, logged)
        self.assertEqual((auditor.sessions, list(auditor.closed), auditor.vacant), (2, [False, True], [1]))

    def test_several_at_once(self):
        auditor = self.auditor()
        auditor.offer(0, 0, fence("init"))
        fragments = [(2, 0, [fence((0, 0))]), (0, 1, [wrote("x")]), (3, 0, [fence((2, 0))])]
        self.assertEqual(auditor.offer_all(fragments, (2, 3)), [])
        self.assertEqual(list(auditor.received), [2, 0, 1, 1])


class Journals(Calls):
    """The same with a journal, and a program that is killed now and then."""

    def auditor(self, sessions=2, **more):
        folder = tempfile.TemporaryDirectory()
        self.addCleanup(folder.cleanup)
        self.journal = os.path.join(folder.name, "journal")
        auditor = super().auditor(sessions, journal=self.journal, **more)
        for name in ("join", "close", "truncate"):
            setattr(auditor, name, self.killing(auditor, getattr(auditor, name)))
        logging.getLogger("zanteyard").setLevel(logging.CRITICAL)
        self.addCleanup(logging.getLogger("zanteyard").setLevel, logging.NOTSET)
        return auditor

    @staticmethod
    def killing(auditor, call):
        def killed(*arguments):
            auditor.program.process.kill()
            return call(*arguments)

        return killed

    def test_it_is_gone_on_with(self):
        for is_cut in (False, True):
            with self.subTest(is_cut=is_cut):
                auditor = self.auditor()
                self.cut(auditor)
                auditor.offer(0, 3, wrote("x"), fence((0, 2)))
                auditor.join(1, 0, fence((0, 4)), read("x", (0, 3)), fence((1, 0)))
                auditor.join(2, 0, fence((1, 2)))
                auditor.close(1)
                if is_cut:
                    auditor.offer(0, 5, fence((2, 0)))
                    auditor.offer(2, 1, fence((0, 5)))
                    auditor.last_round()
                    auditor.truncate()
                    auditor.join(1, 3, fence((2, 1)), read("x", (0, 3)))
                whole = (list(auditor.received), list(auditor.closed), auditor.history, auditor.marks)
                auditor.program.kill()
                auditor.end()
                with Auditor.resumed(self.journal) as resumed:
                    self.assertEqual((resumed.received, resumed.closed, resumed.history, resumed.marks), whole)
                    self.assertEqual((resumed.sessions, resumed.last_round().kind), (3, "serial"))
                    if is_cut:
                        self.assertEqual(resumed.called((1, 4)), "1.4 (client from 1.3)")
                        self.assertEqual(resumed.called((1, 1)), "1.1 (client from 1.0)")
                    self.assertEqual(resumed.called((2, 0)), "2.0")


class TakenIn(WithProgram):
    """An audit that is handed what clients did in an order in which it can't be taken in."""

    def setUp(self):
        super().setUp()
        self.auditor, self.backlog = Auditor(2, 64), Backlog(8)
        self.addCleanup(self.auditor.end)
        its = (self.backlog, Figures(), Teller(self.told.append), "run", Coverage.of_all(2))
        self.tenancy = Tenancy()
        self.audit = Audit(self.auditor, *its, tenancy=self.tenancy)

    def hand_in(self, *entries):
        for session, number, logged in entries:
            self.backlog.put((0.0, session, number, logged))
        while self.audit.take_in():
            pass

    def received(self):
        return list(self.auditor.received)

    def test_who_joins_waits_for_the_fence_before_its_own(self):
        self.tenancy.begin(2, 0)
        self.hand_in((0, 0, fence("init")), (2, 0, fence((1, 0))), (2, 1, wrote("x")))
        self.assertEqual(self.received(), [1, 0])
        self.assertFalse(self.backlog.is_taken(2, 0))
        self.hand_in((2, 2, wrote("y")), (0, 1, read("x", (2, 1))))
        self.assertEqual(self.received(), [2, 0])
        with self.assertLogs("zanteyard", logging.INFO) as log:
            self.hand_in((1, 0, fence((0, 0))))
        self.assertEqual(log.output, ["INFO:zanteyard:client 1 joins as session 2, first with 2.0"])
        self.assertEqual(self.received(), [2, 1, 3])
        self.assertTrue(self.backlog.is_taken(2, 2))
        self.audit.run_round()
        self.assertEqual((self.audit.report.kind, self.audit.taken_in), ("serial", 6))
        self.audit.find_held()

    def test_what_fails_while_a_round_is_searched_is_the_reason(self):
        """Not what the auditor says after that to who waits for the report."""
        full = JournalError("the disk is full")

        self.hand_in((0, 0, fence("init")))
        self.backlog.put((0.0, 0, 1, wrote("x")))
        steps = iter((False,))  # at first the search goes on

        def ended(_):
            if next(steps, None) is None:
                raise ProgramEndedError("its process was given up")
            return False

        with mock.patch.object(self.auditor, "offer_all", side_effect=full), mock.patch.object(self.auditor, "has_round", ended):
            with self.assertRaises(JournalError):
                self.audit.run_round(goes_on=True)

    def test_one_waits_for_another(self):
        """For its fence, and for its number."""
        self.hand_in((0, 0, fence("init")), (3, 0, fence((2, 0))), (4, 0, fence((0, 0))))
        self.assertEqual(self.received(), [1, 0])
        self.hand_in((2, 0, fence((4, 0))))
        self.assertEqual(self.received(), [1, 0])
        self.hand_in((0, 1, wrote("x")))
        self.assertEqual(self.received(), [2, 0])
        with self.assertRaisesRegex(AuditLostError, "session 2 was to join after the fence 4.0, which never arrived"):
            self.audit.find_held()

    def test_what_is_closed_waits_too(self):
        self.hand_in((0, 0, fence("init")), (2, 0, fence((1, 0))), (2, None, None))
        self.assertEqual(self.auditor.closed, [False, False])
        self.hand_in((1, 0, fence((0, 0))))
        self.assertEqual(self.auditor.closed, [False, False, True])

    def test_a_fence_that_is_no_anchor_ends_the_audit(self):
        self.hand_in((0, 0, fence("init")), (0, 1, fence((0, 0))), (0, 2, fence((0, 1))), (1, None, None))
        self.audit.run_round()
        self.assertEqual(self.audit.vacant(), {1: 0})
        with self.assertRaisesRegex(AuditLostError, "session 1 can't join: .* from 0.1, not from the last"):
            self.hand_in((1, 0, fence((0, 1))))

    def test_what_follows_a_missing_one_is_not_told_in_its_place(self):
        """Otherwise 1.0 would have read what 0.1 didn't write: a false violation."""
        with self.assertRaisesRegex(RefusedError, "Gap"):
            self.hand_in((0, 0, wrote("w")), (0, 2, wrote("y")), (1, 0, read("x", (0, 1))))
        self.audit.run_round()
        self.assertEqual((self.audit.report.kind, self.received()), ("pending", [1, 1]))

    def test_more_than_may_wait(self):
        self.hand_in((2, 0, fence((1, 0))), *((2, number, wrote("x")) for number in range(1, 8)))
        with self.assertRaisesRegex(AuditLostError, "after the fence 1.0, which never arrived"):
            self.hand_in((2, 8, wrote("x")))

    def test_there_is_room_behind_a_cut(self):
        self.auditor.limit = 8  # for what is waited for; the program has room for 64
        self.hand_in((0, 0, fence("init")), (1, 0, fence((0, 0))), (1, None, None), (0, 1, fence((1, 0))))
        self.audit.run_round()
        self.assertEqual(self.audit.vacant(), {1: 1})
        many = [wrote("x")] * 70
        self.hand_in((1, 1, fence((0, 1))), *((0, 2 + at, one) for at, one in enumerate(many[:50])))
        self.assertEqual(self.received(), [52, 2])
        self.hand_in((1, 2, fence((1, 1))))
        self.assertEqual(self.audit.vacant(), {})


class GivenOut(unittest.TestCase):
    """How the pool gives out places."""

    def test_a_new_one_is_the_next_number_and_the_only_one_until_it_has_joined(self):
        places = SessionPool(1)
        first = places.take(0.0)
        self.assertEqual((first.number, first.must_join, places.take(0.0)), (0, False, None))
        places.let_join()
        new = places.take(0.0)
        self.assertEqual((new.number, new.must_join, new.client, places.new), (1, True, 2, 1))
        self.assertIsNone(places.take(0.0))
        places.give_back([new])  # it has done nothing
        new = places.take(0.0)
        self.assertEqual((new.number, new.client, places.sessions), (1, 3, 2))
        places.note_joined(1)
        self.assertEqual((places.take(0.0).number, places.sessions), (2, 3))

    def test_sixty_four_at_a_time(self):
        places = SessionPool(60)
        places.let_join()
        for _ in range(64):
            place = places.take(0.0)
            places.note_joined(place.number)
        self.assertIsNone(places.take(0.01))
        self.assertEqual((places.taken, places.take_unaudited().number), (64, 64))

    def test_one_comes_back_when_nothing_of_it_is_left(self):
        places = SessionPool(2)
        place = places.take(0.0)
        place.begun = 5
        places.give_back([place])
        lent = places.lend()
        self.assertEqual(places.close(lent), [1, 0])
        places.take_back(lent)
        self.assertIsNone(places.take(0.0))
        places.let_join()
        places.come_back({0: 4, 1: 0})  # another one is still to be forgotten
        self.assertEqual(places.numbers(), [1])
        places.come_back({0: 5})
        found = [places.take(0.0) for _ in range(2)]
        self.assertEqual([(it.number, it.begun, it.must_join) for it in found], [(1, 0, True), (0, 5, True)])

    def test_where_more_may_have_been_done_it_stays_ended(self):
        for is_open in (False, True):
            places = SessionPool(1)
            place = places.take(0.0)
            place.begun, place.is_ended = 3, True
            place.leave_open(3 if is_open else 2)
            places.give_back([place])
            places.let_join()
            places.come_back({0: 3})
            self.assertEqual(places.numbers(), [] if is_open else [0])

    def test_what_is_due_or_lent_is_not_closed(self):
        places = SessionPool(3)
        lent = places.lend()
        lent[0].is_due, lent[1].is_lent = True, True
        self.assertEqual(places.close(lent), [2])

    def test_what_is_left_while_a_meeting_goes_on_is_left_for_it(self):
        places = SessionPool(2)
        place = places.take(0.0)
        lent = places.lend()
        places.give_back([place])
        self.assertIsNone(places.take(0.0))
        self.assertEqual(places.lend(), [place])
        places.take_back([*lent, place])
        self.assertEqual([places.take(0.0).number for _ in range(2)], [1, 0])

    def test_half_of_what_clients_do_not_have_can_be_had_at_any_time(self):
        places = SessionPool(64)
        for _ in range(5):
            places.take(0.0)
        places.let_join()
        for closed in (29, 0, 0):  # no more, as long as these aren't forgotten
            lent = places.lend()
            kept = places.spare(lent)
            self.assertEqual(len(places.close([it for it in lent if it not in kept])), closed)
            places.take_back(lent)
            self.assertEqual(places.free, 30)
        self.assertEqual([places.take(0.0).must_join for _ in range(30)], [False] * 30)
        self.assertIsNone(places.take(0.0))
        self.assertFalse(places.are_all_taken)

    def test_half_is_rounded_up(self):
        for taken, kept in ((5, 30), (6, 29), (7, 29), (8, 28)):
            places = SessionPool(64)
            for _ in range(taken):
                places.take(0.0)
            self.assertEqual(len(places.spare(places.lend())), kept)

    def test_a_few_can_be_had_where_few_are_left(self):
        places = SessionPool(64)
        for _ in range(52):
            places.take(0.0)
        places.let_join()
        self.assertEqual(len(places.spare(places.lend())), 8)

    def test_another_audit_has_sessions_for_who_went_without_one(self):
        places = SessionPool(62)
        for _ in range(62):
            places.take(0.0)
        for _ in range(4):
            self.assertFalse(places.take_unaudited().is_audited)
        places.grow()
        self.assertEqual((places.sessions, places.numbers()), (64, [62, 63]))
        coverage = coverage_from_now(64, [], places, Backlog(8))
        self.assertEqual(coverage.first[62:], [0, 0])
        self.assertEqual([places.take(0.0).number for _ in range(2)], [62, 63])

    def test_who_has_one_and_is_not_there_yet(self):
        places = SessionPool(3)
        taken = [places.take(0.0).number for _ in range(2)]
        self.assertEqual((places.coming(()), places.coming([1]), places.coming(taken)), ({0, 1}, {0}, set()))

    def test_another_audit_has_all_of_them_open(self):
        places = SessionPool(3)
        ended, kept = places.take(0.0), places.take(0.0)
        ended.is_ended, ended.begun = True, 4
        places.give_back([ended])
        lent = places.lend()
        places.close(lent), places.take_back(lent)
        places.let_join()
        places.come_back({2: 0})
        new = places.take(0.0)
        self.assertEqual((new.number, new.must_join), (2, True))
        coverage = coverage_from_now(3, [], places, Backlog(8))
        self.assertEqual(coverage.first[0], 4)
        self.assertEqual((coverage.first[1], kept.number), (None, 1))  # no group reported it here
        again = places.take(0.0)
        self.assertEqual((again.number, again.must_join, again.is_ended), (0, False, False))
        self.assertIsNone(places.take(0.0))  # none joins before there is a fence

    def test_who_waits_wants_a_meeting(self):
        places = SessionPool(1)
        self.assertFalse(places.wants_meeting)
        places.take(0.0)
        waits = threading.Thread(target=places.take, args=(60.0,))
        waits.start()
        until = time.monotonic() + SOON
        while not places.wants_meeting and time.monotonic() < until:
            time.sleep(0.001)
        places.let_join()
        waits.join(SOON)
        self.assertEqual((places.sessions, places.wants_meeting), (2, False))

    def test_clients_by_what_they_did(self):
        tenancy = Tenancy()
        self.assertEqual([tenancy.begin(0, 0), tenancy.begin(1, 0), tenancy.begin(0, 0), tenancy.begin(0, 4)], [1, 2, 3, 4])
        self.assertEqual([tenancy.client(0, number) for number in (0, 3, 4, 9)], [3, 3, 4, 4])
        self.assertEqual([tenancy.first_of(0, 3), tenancy.first_of(0, 4), tenancy.first_of(0, 4)], [None, 4, None])
        self.assertEqual([tenancy.called((0, 1), 1), tenancy.called((0, 2), 5), tenancy.called((1, 0), 0)],
                         ["0.1 (client 3)", "0.2 (client 4)", "1.0"])
        tenancy.forget([4, 9])
        self.assertEqual((tenancy.client(0, 3), tenancy.client(0, 4), tenancy.client(1, 9)), (None, 4, 2))
        self.assertEqual(tenancy.joined(), [[0, 4]])


class Joins(WithProgram):
    """Clients of a live audit."""

    def wait_for(self, condition):
        until = time.monotonic() + SOON
        while not condition() and time.monotonic() < until:
            time.sleep(0.005)
        self.assertTrue(condition(), self.told[-3:])

    def test_more_than_open_named(self):
        live, store = self.live(1), MemoryStore()
        sessions = [live.session(store.connect()) for _ in range(4)]
        self.assertEqual([session.number for session in sessions], [0, 1, 2, 3])
        for session in sessions * 2:
            session.run(add_one("x"))
        self.assertEqual([session.begun for session in sessions][1:], [3, 3, 3])
        outcome = self.ended(live)
        self.assertEqual((outcome.kind, outcome.audited, self.auditor.sessions), ("serial", live.handed_in, 4))

    def until(self, condition, session):
        """Until a condition holds; what a client does meanwhile leads to meetings."""

        def has_come():
            session.run(add_one("x"))
            return condition()

        self.wait_for(has_come)

    def test_one_client_behind_another(self):
        """Each has its session to itself; the first thing it does is the fence."""
        live, store = self.live(2, every=6), MemoryStore()
        stays, seen = live.session(store.connect()), []
        for _ in range(40):
            with live.session(store.connect()) as session:
                session.run(add_one("x"))
                seen.append((session.number, session.begun))
                stays.run(add_one("x"))
                stays.run(add_one("x"))
            if len(seen) % 8 == 0:
                cuts = live.cuts
                self.until(lambda: live.cuts > cuts, stays)
                self.wait_for(lambda: live._pool._back)
        self.assertGreater(len(seen), len({number for number, _ in seen}))
        self.assertGreater(live.cuts, 2)
        self.assertEqual(self.ended(live).kind, "serial")

    def test_who_leaves_as_a_meeting_begins_keeps_no_cut_away(self):
        live, store = self.live(2, every=1000), MemoryStore()
        stays, leaves = (live.session(store.connect()) for _ in range(2))
        stays.run(add_one("x")), leaves.run(add_one("y"))
        gather = live._group.begin_gather

        def left_before(*arguments):
            leaves.close()  # what is lent to the meeting is fixed by now
            return gather(*arguments)

        with mock.patch.object(live._group, "begin_gather", left_before):
            self.assertIsNone(live._coordinator.meet(60.0, 60.0).failure)
        self.assertEqual((self.ended(live).kind, live.cuts), ("serial", 1))
        self.assertEqual((self.auditor.closed, self.auditor.vacant), ([False, True], [1]))

    def test_who_has_left_a_meeting_s_group_has_given_its_session_back(self):
        live, store = self.live(2, every=1000), MemoryStore()
        stays, leaves = (live.session(store.connect()) for _ in range(2))
        stays.run(add_one("x")), leaves.run(add_one("y"))
        give_back, leaving = live._give_back, threading.Event()

        def later(place):
            leaving.set()
            time.sleep(0.2)
            give_back(place)

        with mock.patch.object(live, "_give_back", later):
            thread = threading.Thread(target=leaves.close)
            thread.start()
            leaving.wait(SOON)
            self.assertIsNone(live._coordinator.meet(60.0, 60.0).failure)
            thread.join(SOON)
        self.assertEqual((self.ended(live).kind, live.cuts), ("serial", 1))
        self.assertEqual((self.auditor.closed, self.auditor.vacant), ([False, True], [1]))

    def test_who_comes_as_a_meeting_begins_is_waited_for(self):
        """When another client has left."""
        live, store = self.live(2, every=1000), MemoryStore()
        stays, leaves = (live.session(store.connect()) for _ in range(2))
        stays.run(add_one("x")), leaves.run(add_one("y"))
        leaves.close()
        with comes_later(live, live._group, "zanteyard.live._quiesce_coordinator") as coming:
            thread = threading.Thread(target=live.session, args=(store.connect(),))
            thread.start()
            self.assertTrue(coming.wait(SOON))
            self.assertIsNone(live._coordinator.meet(60.0, 60.0).failure)
            thread.join(SOON)
        self.assertEqual((self.ended(live).kind, live.cuts), ("serial", 1))

    def test_who_was_to_lead_a_meeting_may_leave(self):
        live, store = self.live(2, every=1000), MemoryStore()
        stays, leads = (live.session(store.connect()) for _ in range(2))
        stays.run(add_one("x")), leads.run(add_one("y"))
        hold = live._group.hold

        def left_before(session, *more):
            if session is leads:
                leads.close()
            return hold(session, *more)

        with mock.patch.object(live._group, "hold", left_before):
            self.assertIsNone(live._coordinator.meet(60.0, 60.0).failure)
        self.assertEqual((self.ended(live).kind, live.cuts), ("serial", 1))

    def test_a_violation_names_the_client(self):
        live, store = self.live(2, every=4), MemoryStore()
        stays, leaves = (live.session(store.connect()) for _ in range(2))
        leaves.run(add_one("x"))
        leaves.close()
        self.until(lambda: live._pool._back, stays)
        session = live.session(store.connect())
        session.run(add_one("x"))
        self.assertEqual((session.number, session.place.client), (1, 3))
        store.fault = "lost-update"
        one, other = stays.begin(), session.begin()
        add_one("x")(one), add_one("x")(other)
        one.commit(), other.commit()
        self.assertEqual(live.stop().kind, "violated")
        _, called = from_start(self.auditor)
        marks = self.auditor.marks
        self.assertTrue(any(marks))  # so each session begins with one that stands for what is forgotten
        self.assertEqual(called((1, other.number - marks[1] + 1)), f"1.{other.number} (client 3)")
        self.assertEqual(called((0, one.number - marks[0] + 1)), f"0.{one.number}")

    def test_another_audit_begins(self):
        live, store = self.live(1, every=4, policy=Policy(60.0, True, 0.01)), MemoryStore()
        logging.getLogger("zanteyard").setLevel(logging.CRITICAL)
        self.addCleanup(logging.getLogger("zanteyard").setLevel, logging.NOTSET)
        stays = live.session(store.connect())
        others = [live.session(store.connect()) for _ in range(2)]
        others[0].run(add_one("x"))
        live.lose(AuditLostError("for a test"))
        self.wait_for(lambda: live.earlier)
        for session in (stays, *others):
            session.run(add_one("x"))
        again = live.session(store.connect())
        again.run(add_one("x"))
        outcome = live.stop()
        self.assertEqual((outcome.kind, len(outcome.earlier)), ("incomplete", 1))
        self.assertEqual(live._audit.outcome(True, None).kind, "serial")


@contextmanager
def comes_later(live, group, *waiting):
    """A client whose session is added only once a meeting waits for it; returns an event for the
    moment just before."""
    add, coming, is_waited_for = group.add, threading.Event(), threading.Event()
    all_there = live._pool.coming

    def later(session):
        coming.set()
        is_waited_for.wait(SOON)
        add(session)

    def looked(there):
        is_waited_for.set()
        return all_there(there)

    with ExitStack() as patched:
        for module in waiting:
            patched.enter_context(mock.patch(f"{module}.COMING", 60.0))
        patched.enter_context(mock.patch.object(group, "add", later))
        patched.enter_context(mock.patch.object(live._pool, "coming", looked))
        yield coming


class Behaves:
    """A connection on which fences, or other writes to such a key, may fail."""

    def __init__(self, connection, *outcomes, key=FENCE):
        self._connection, self._outcomes, self._key = connection, [*outcomes], key

    def __getattr__(self, name):
        return getattr(self._connection, name)

    def write(self, key, value, name):
        self._connection.write(key, value, name)
        if key.startswith(self._key) and self._outcomes:
            failure, is_there = self._outcomes.pop(0)
            if is_there is None:
                raise failure
            self._connection.known, self._connection.lost = False, is_there

    def commit(self):
        try:
            self._connection.commit()
        finally:
            self._connection.lost = None


class Fences(WithProgram):
    """Outcomes of the fence with which a client joins."""

    def setUp(self):
        super().setUp()
        logging.getLogger("zanteyard").setLevel(logging.CRITICAL)
        self.addCleanup(logging.getLogger("zanteyard").setLevel, logging.NOTSET)

    def joining(self, *outcomes, **more):
        """A live audit, and a session that is to join with these outcomes."""
        self.one, self.store = self.live(1, every=1000, **more), MemoryStore()
        self.stays = self.one.session(self.store.connect())
        self.stays.run(add_one("x"))
        self.assertIsNone(self.one._coordinator.meet(60.0, 60.0).failure)
        return self.one.session(Behaves(self.store.connect(), *outcomes))

    def done(self, session):
        return [sorted(one.writes) for one in self.auditor.history[session]]

    def test_an_attempt_that_aborts_leaves_its_number_to_the_next(self):
        session = self.joining(*[(AbortedError("again"), None)] * 63)  # as if so many joined at once
        session.run(add_one("x"))
        self.assertEqual((session.number, session.begun), (1, 2))
        self.assertEqual(self.ended(self.one).kind, "serial")
        self.assertEqual(self.done(1), [[FENCE], ["x"]])

    def test_where_it_always_aborts_the_client_goes_on_unaudited(self):
        session = self.joining(*[(AbortedError("again"), None)] * 200)
        session.run(add_one("x"))
        self.assertEqual((session.number, session.begun), (64, 1))
        outcome = self.one.stop()
        self.assertEqual(outcome.kind, "incomplete")
        self.assertRegex(str(outcome.failure), "a client couldn't join: again")
        self.assertIsNone(self.one._pool.new)

    def test_where_the_store_can_not_be_reached_the_client_is_told_so(self):
        self.joining().close()
        store = Behaves(self.store.connect())
        store.errors, store.begin = (ZeroDivisionError,), lambda: 1 / 0
        session = self.one.session(store)
        self.assertIsNone(session.number)
        with self.assertRaises(ZeroDivisionError):
            session.begin()
        del store.begin
        session.run(add_one("x"))
        self.assertEqual((session.number, session.begun), (2, 2))
        self.assertEqual(self.ended(self.one).kind, "serial")

    def test_where_nobody_knows_whether_it_is_there_another_place_is_taken(self):
        for is_there in ("aborted", "committed"):
            with self.subTest(is_there):
                leaves, session = self.joining(), None
                session = self.one.session(Behaves(self.store.connect(), (None, is_there)))
                self.assertEqual((session.number, self.one._pool.new), (None, 2))
                leaves.close()
                session.run(add_one("x"))
                self.assertEqual((session.number, session.begun), (1, 2))
                self.assertIn(2, self.one._pool._ended)
                self.assertIsNone(self.one._coordinator.meet(60.0, 60.0).failure)
                outcome = self.one.stop()
                # A read from a fence that nobody reported waits for it.
                self.assertEqual(outcome.kind, "serial" if is_there == "aborted" else "pending")

    def test_a_flag_that_may_not_be_there_keeps_no_cut_away(self):
        """Once others' reads show what its session did."""
        for is_there in ("aborted", "committed"):
            with self.subTest(is_there):
                live, store = self.live(2, every=1000), MemoryStore()
                flags = Behaves(store.connect(), (None, is_there), key=FLAG)
                leads, other = live.session(store.connect()), live.session(flags)
                for session in (other, leads):
                    session.run(add_one("x"))
                self.assertIsNotNone(live._coordinator.meet(60.0, 60.0).failure)
                self.assertIsNone(live._coordinator.meet(60.0, 60.0).failure)
                self.assertEqual((self.ended(live).kind, live.cuts), ("serial", 1))

    def test_what_an_ended_session_did_last_keeps_no_cut_away(self):
        """Nobody else reads or overwrites it: the next meeting does, also after a meeting that
        failed."""
        for is_there in ("aborted", "committed"):
            with self.subTest(is_there):
                live, store = self.live(2, every=1000), MemoryStore()
                flags = Behaves(store.connect(), (None, is_there), key=FLAG)
                leads, other = live.session(store.connect()), live.session(flags)
                other.run(add_one("y")), leads.run(add_one("x"))
                self.assertIsNotNone(live._coordinator.meet(60.0, 60.0).failure)
                self.assertTrue(other.place.is_ended)
                self.wait_until_closed(other.number)
                with mock.patch.object(Session, "read_all", side_effect=ZeroDivisionError):
                    self.assertIsNotNone(live._coordinator.meet(60.0, 60.0).failure)
                self.assertIsNone(live._coordinator.meet(60.0, 60.0).failure)
                self.assertEqual((self.ended(live).kind, live.cuts), ("serial", 1))

    def test_a_flag_of_a_meeting_that_failed_keeps_no_cut_away(self):
        """Its session ends before the next meeting."""
        live, store = self.live(2, every=1000), MemoryStore()
        leads, other = (live.session(store.connect()) for _ in range(2))
        other.run(add_one("y")), leads.run(add_one("x"))
        with mock.patch.object(Session, "read_all", side_effect=ZeroDivisionError):
            self.assertIsNotNone(live._coordinator.meet(60.0, 60.0).failure)
        self.assertTrue(other.place.has_flag)
        other.end()  # as for a process that can't be heard any more
        self.wait_until_closed(other.number)
        self.assertIsNone(live._coordinator.meet(60.0, 60.0).failure)
        self.assertEqual((self.ended(live).kind, live.cuts), ("serial", 1))

    def wait_until_closed(self, session):
        until = time.monotonic() + SOON
        while not self.auditor.closed[session] and time.monotonic() < until:
            time.sleep(0.005)
        self.assertTrue(self.auditor.closed[session])

    def test_it_is_a_killed_process_s(self):
        logged = as_bytes(fence((0, 3)))
        told = lambda *notes: CrashedProcess({4: [(CrashNote(4, *it), None) for it in notes]}, "run", Backlog(8).next_number)
        for notes, found, begun, must_join in (
            ((), (), 7, True),
            (((7, None, logged), (7, "aborted")), (), 7, True),
            (((7, None, logged), (7, "aborted"), (7, None, logged), (7, "committed")),
             ((7, fence((0, 3))), (8, NOTHING)), 9, False),
        ):
            place = Place(4, 7, must_join=True)
            its = told(*notes).told(place)
            self.assertEqual([(number, it.outcome) for number, it in its], [(number, it.outcome) for number, it in found])
            self.assertEqual((place.begun, place.must_join, place.is_ended), (begun, must_join, False))


class Elsewhere(WithProgram):
    """Clients of other processes."""

    def live(self, sessions, **more):
        live = super().live(sessions, **more)
        folder = tempfile.TemporaryDirectory()
        self.addCleanup(folder.cleanup)
        self.server = AuditServer(live, os.path.join(folder.name, "audit"))
        self.addCleanup(self.server.close, 1.0)
        return live

    def client(self):
        client = AuditClient(self.server.path)
        self.addCleanup(client.leave)
        return client

    def test_they_join_and_leave(self):
        live, store = self.live(1, every=10), MemoryStore()
        stays = self.client()
        first = stays.session(store.connect())
        for turn in range(6):
            comes = self.client()
            others = [comes.session(store.connect()) for _ in range(3)]
            for session in (first, *others) * 2:
                session.run(add_one("x"))
            if turn % 2:
                others[0].close()
            comes.leave()
        first.run(add_one("x"))
        stays.leave()
        self.server.close()
        outcome = self.ended(live)
        self.assertEqual((outcome.kind, outcome.audited), ("serial", live.handed_in))
        self.assertEqual(live._pool.taken, 0)
        self.assertGreater(self.auditor.sessions, 3)

    def test_who_comes_as_a_meeting_begins_is_waited_for(self):
        """When another client has left."""
        live, store = self.live(2, every=1000), MemoryStore()
        stays, comes = self.client(), self.client()
        first, leaves = stays.session(store.connect()), comes.session(store.connect())
        first.run(add_one("x")), leaves.run(add_one("y"))
        left = [leaves.number]
        leaves.close()
        until = time.monotonic() + SOON
        while live._pool.numbers() != left and time.monotonic() < until:
            time.sleep(0.005)
        with comes_later(live, comes._group, "zanteyard.live._quiesce_coordinator", "zanteyard.remote._quiesce_calls") as coming:
            thread = threading.Thread(target=comes.session, args=(store.connect(),))
            thread.start()
            self.assertTrue(coming.wait(SOON))
            self.assertIsNone(live._coordinator.meet(60.0, 60.0).failure)
            thread.join(SOON)
        stays.leave(), comes.leave()
        self.server.close()
        self.assertEqual((self.ended(live).kind, live.cuts), ("serial", 1))


class Explained(WithProgram):
    def test_by_the_first_of_the_client(self):
        lines = [
            ["open", 2, 16],
            ["offer", 0, 0, [[[[0, "init"]], [0]], [[], [5]], [[[0, 0, 0]], [0]]]],
            ["offer", 1, 0, [[[[0, 0, 2]], [0]]]],
            ["close", 1],
            ["offer", 0, 3, [[[[0, 1, 0]], [0]]]],
            ["round", 4096, 0, 1],
            ["truncate"],
            ["join", 1, 1, [[[[0, 0, 3]], [0]], [[[5, 0, 1]], [5]]]],
            ["join", 2, [[[[0, 1, 1]], [0]], [[[5, 0, 1]], [5]]]],
        ]
        with tempfile.NamedTemporaryFile("w", suffix=".jsonl") as file:
            file.writelines(json.dumps(line) + "\n" for line in lines)
            file.flush()
            call = [sys.executable, "-m", "zanteyard", "explain", file.name]
            ran = subprocess.run(call, cwd=PLACE, stdout=subprocess.PIPE, text=True, check=False)
        self.assertEqual(ran.returncode, 1)
        self.assertIn("1.2 (client from 1.1) and 2.1 both read key 5 from the cut", ran.stdout)


del WithProgram

if __name__ == "__main__":
    unittest.main()
