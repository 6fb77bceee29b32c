"""No session is ever given to two clients, in whatever order it is given back."""
import os
import threading
import time
import unittest
from contextlib import suppress
from dataclasses import fields
from unittest import mock

from zanteyard import AbortedError, Auditor, LiveAuditor
from zanteyard.program._auditor import PROGRAM
from zanteyard.live._backlog import Backlog
from zanteyard.live._audit_start import coverage_from_now
from zanteyard.live._quiesce_coordinator import Met
from zanteyard.stores.memory import MemoryStore
from zanteyard.live._session_pool import SessionPool
from zanteyard.remote._remote_sessions import RemoteGroup
from zanteyard.session._place import Place
from zanteyard.core._version import FORM

from .test_live import add_one

SECONDS = 300.0


class Nowhere:
    """In place of the messages to a process, which answers when the test says so."""

    def tell(self, *_, **__):
        return True


class Told(unittest.TestCase):
    def test_what_processes_tell_of_a_place(self):
        """Whoever changes a place's fields must change FORM, too: an older process wouldn't
        understand them."""
        names = "number begun is_due has_flag is_audited is_ended is_lent unknown must_join client"
        self.assertEqual((FORM, [field.name for field in fields(Place)]), (5, names.split()))


@unittest.skipUnless(os.path.isfile(PROGRAM), f"{PROGRAM} is not built")
class Meetings(unittest.TestCase):
    def test_a_meeting_after_which_nothing_could_be_forgotten_says_so(self):
        """Unless the meeting itself failed: then the next one comes sooner for that reason."""
        with Auditor(2) as auditor:
            live = LiveAuditor(auditor, seconds=3600.0)
            live.stop()  # its thread holds no further meetings
            for failure, is_cut, why in (
                *((None, False, "no fence was settled"), (None, True, None)),
                *(("a client hung", False, "a client hung"), ("a client hung", True, "a client hung")),
            ):
                def run_round(goes_on):
                    live._figures.cuts += is_cut

                with mock.patch.object(live._coordinator, "meet", return_value=Met(failure, 0)):
                    with mock.patch.object(live._audit, "run_round", run_round):
                        live._meet()
                self.assertEqual(live._audit.why_no_cut, why)
                self.assertEqual(live._in_vain == 0, is_cut)


    def test_audits_are_numbered(self):
        with Auditor(1) as auditor, self.assertLogs("zanteyard"):
            live = LiveAuditor(auditor, seconds=3600.0)
            for count in range(1, 3):
                live.lose(RuntimeError("for the sake of it"))
                ends = time.monotonic() + SECONDS
                while len(live.outcome.earlier) < count and time.monotonic() < ends:
                    time.sleep(0.01)
            name, outcome = auditor.run_name, live.stop()
            names = [one.name for one in (*outcome.earlier, outcome)]
            self.assertEqual(names, [name, f"{name}, audit 2", f"{name}, audit 3"])

    def test_room_is_kept_for_the_meetings_of_open_sessions(self):
        """Four transactions for each open session, and for one if all are closed, since another one
        may come."""
        with Auditor(3) as auditor:
            live = LiveAuditor(auditor, seconds=3600.0)
            live.stop()
            for closed, room in ((set(), 12), ({1}, 8), ({0, 1}, 4), ({0, 1, 2}, 4)):
                with mock.patch.object(live._audit, "_closed", closed):
                    self.assertEqual(live._audit.reserve, room)


@unittest.skipUnless(os.path.isfile(PROGRAM), f"{PROGRAM} is not built")
class Added(unittest.TestCase):
    def test_the_place_of_a_session_that_could_not_be_made_is_free_again(self):
        with Auditor(1) as auditor:
            live = LiveAuditor(auditor, seconds=3600.0)
            with mock.patch.object(live, "_notes_of", side_effect=MemoryError):
                with self.assertRaises(MemoryError):
                    live.session(MemoryStore().connect())
            self.assertEqual((live._pool.taken, live._pool.numbers()), (0, [0]))
            self.assertEqual(live.session(MemoryStore().connect()).number, 0)
            live.stop()

    def test_a_session_that_comes_as_its_process_leaves_hands_nothing_in(self):
        class Leaving(LiveAuditor):
            _leaves = property(lambda self: True)

        with Auditor(2) as auditor:
            live = Leaving(auditor, seconds=3600.0)
            session = live.session(MemoryStore().connect())
            self.assertEqual((session.is_open, session.renew), (False, None))
            with self.assertRaisesRegex(ValueError, "has ended"):
                session.run(add_one("x"))
            outcome = live.stop()
            self.assertEqual((outcome.handed_in, [*map(list, auditor.history)]), (0, [[], []]))


class LentPlaces(unittest.TestCase):
    """A place that was lent to a process for a meeting, and the answer arrives after the meeting is
    over."""

    def setUp(self):
        self.places = SessionPool(2)
        self.lent = self.places.lend()
        self.group = RemoteGroup(Nowhere(), 0.0, lambda lent: self.places.take_back(lent, is_over=False))
        self.group.patience = 0.0
        self.wait = self.group.begin_pass_on(1, self.lent[:1])

    def answer(self):
        place = self.lent[0]
        now = (place.number, place.begun + 1, False, True, True, False, False, ())
        self.group.take_answer(1, None, None, False, [now])

    def taken(self):
        found = [self.places.take(0.0) for _ in range(4)]
        return [place.number for place in found if place is not None]

    def late(self):
        with self.assertRaises(Exception):
            self.wait(0.0)

    def test_the_answer_comes_before_the_meeting_takes_its_places_back(self):
        self.late()
        self.answer()
        self.places.take_back(self.lent)
        self.assertEqual(sorted(self.taken()), [0, 1])

    def test_the_answer_comes_behind_it(self):
        self.late()
        self.places.take_back(self.lent)
        self.assertEqual(self.taken(), [1])
        self.answer()
        self.assertEqual(self.taken(), [0])

    def test_the_answer_comes_while_the_meeting_takes_its_places_back(self):
        """The answer is already in the place, but the late call hasn't given it back yet."""
        self.late()
        give_back, taken = self.group._give_back, []

        def later(lent):
            self.places.take_back(self.lent)  # by the meeting's thread
            taken.extend(self.taken())
            give_back(lent)
            taken.extend(self.taken())

        self.group._give_back = later
        self.answer()
        self.assertEqual(sorted(taken), [0, 1])

    def test_the_answer_comes_when_another_audit_has_begun(self):
        self.late()
        self.places.take_back(self.lent)
        coverage = coverage_from_now(2, [], self.places, Backlog(8))
        first = self.places.take(0.0), self.places.take(0.0)
        self.assertEqual(sorted(place.number for place in first), [0, 1])
        self.answer()
        self.assertEqual(self.taken(), [])
        (new,) = [place for place in first if place.number == 0]
        self.assertEqual(coverage.number(0, new.begun), 0)

    def test_the_answer_comes_and_nobody_looks_at_it(self):
        """Another process has left, which ends the meeting."""
        self.answer()
        self.group.release()
        self.places.take_back(self.lent)
        self.assertEqual(sorted(self.taken()), [0, 1])

    def test_the_answer_comes_behind_a_meeting_in_which_nobody_waited_for_it(self):
        self.group.release()
        self.places.take_back(self.lent)
        self.assertEqual(self.taken(), [1])
        self.answer()
        self.assertEqual(self.taken(), [0])

    def test_who_was_idle_is_left_whether_or_not_the_answer_is_looked_at(self):
        for is_first in (True, False):
            with self.subTest(is_first=is_first):
                places = SessionPool(1)
                place = places.take(0.0)
                group = RemoteGroup(Nowhere(), 0.0, lambda lent: None, places.give_back)
                group.add(place)
                group.begin_gather(1, 0.0, False, [], 0.0)
                result = ([], [(0, 5, True, False, True, False, False, ())])
                if is_first:
                    group.take_answer(1, result, None, False, [])
                group.release()
                if not is_first:
                    group.take_answer(1, result, None, False, [])
                self.assertEqual((group.numbers(), places.take(0.0).begun), ([], 5))


class Leaving(unittest.TestCase):
    def test_a_client_leaves_while_it_is_asked_who_has_what(self):
        """After the free places were asked, and before the sessions of its process."""
        places = SessionPool(2)
        place = places.take(0.0)

        class Leaves:
            given, asked_at = False, 0.0

            def edges(self):
                if not self.given:
                    self.given = True
                    places.give_back([place])
                return []

            def reopen(self):
                pass

            def numbers(self):
                return []

        coverage_from_now(2, [Leaves()], places, Backlog(8))
        found = [places.take(0.0) for _ in range(4)]
        self.assertEqual(sorted(one.number for one in found if one), [0, 1])

    def test_who_is_just_being_given_one_has_it_alone(self):
        """Taken, and not in any process's list yet."""
        places = SessionPool(2)
        taken = places.take(0.0)
        coverage_from_now(2, [], places, Backlog(8))
        found = [places.take(0.0) for _ in range(4)]
        self.assertNotIn(taken.number, [one.number for one in found if one])

    def test_who_gives_a_place_back_twice_gives_it_once(self):
        places = SessionPool(1)
        place = places.take(0.0)
        places.give_back([place])
        places.give_back([Place(place.number)])
        self.assertEqual([places.take(0.0) is None for _ in range(2)], [False, True])

    def test_what_is_lost_is_left_in_another_audit_alone(self):
        places = SessionPool(1)
        places.drop([places.take(0.0).number])
        self.assertIsNone(places.take(0.0))
        coverage_from_now(1, [], places, Backlog(8))
        self.assertEqual(places.take(0.0).number, 0)


@unittest.skipUnless(os.path.isfile(PROGRAM), f"{PROGRAM} is not built")
class Clients(unittest.TestCase):
    def test_clients_that_come_and_go_while_audits_begin_anew(self):
        """No two of them have the same session at a time."""
        store, held, errors, ended = MemoryStore(), {}, [], threading.Event()
        with Auditor(4) as auditor:
            live = LiveAuditor(auditor, every=20, seconds=0.05)

            def client():
                while not ended.is_set():
                    try:
                        session = live.session(store.connect())
                    except ValueError:
                        continue
                    if held.setdefault(session.number, session) is not session:
                        errors.append(session.number)
                    with suppress(AbortedError):
                        session.run(add_one("x"))
                    del held[session.number]
                    session.close()

            threads = [threading.Thread(target=client) for _ in range(3)]
            for thread in threads:
                thread.start()
            for _ in range(10):
                ended.wait(0.1)
                live.lose(RuntimeError("for the sake of it"))
            ended.set()
            for thread in threads:
                thread.join(SECONDS)
            self.assertNotEqual(live.stop().kind, "violated")
        self.assertEqual(errors, [])


if __name__ == "__main__":
    unittest.main()
