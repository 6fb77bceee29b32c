"""What a collector must never do: report a false violation, lose one silently, or change what
clients see."""
import json
import logging
import os
import signal
import subprocess
import sys
import tempfile
import threading
import time
import unittest

import zanteyard
from zanteyard import AbortedError, AuditClient, Auditor, AuditServer, LiveAuditor, Session
from zanteyard.core._own_keys import FENCE, FLAG, MARK
from zanteyard.program._auditor import PROGRAM
from zanteyard.live._backlog import Backlog
from zanteyard.live._audit_start import coverage_from_now
from zanteyard.stores.memory import MemoryStore
from zanteyard.live._session_pool import SessionPool
from zanteyard.session._attempts import whole
from zanteyard.session._place import Place

from .lateness import BOUND, Lateness
from .test_live import add_one, set_to

SOON = 300.0  # seconds, on a busy machine


@unittest.skipUnless(os.path.isfile(PROGRAM), f"{PROGRAM} is not built")
class NoHarm(unittest.TestCase):
    def setUp(self):
        logging.getLogger("zanteyard").setLevel(logging.CRITICAL)
        self.addCleanup(logging.getLogger("zanteyard").setLevel, logging.NOTSET)
        self.told = []

    def auditor(self, sessions=3, limit=4096, **more):
        made = Auditor(sessions, limit, **more)
        self.addCleanup(made.end)
        return made

    def live(self, auditor, **more):
        return LiveAuditor(auditor, **{"seconds": 0.2, "tell": self.told.append, **more})

    def wait_for(self, condition):
        until = time.monotonic() + SOON
        while not condition() and time.monotonic() < until:
            time.sleep(0.01)
        self.assertTrue(condition(), self.told[-3:])

    def bounded(self, session, seconds, least=0):
        """Checks that no call takes longer than a client may wait, plus the delays of threads that
        only sleep meanwhile. It begins at least this many transactions."""
        with Lateness() as lateness:
            began, longest, least = time.monotonic(), 0.0, session.begun + least
            while time.monotonic() < began + (SOON if session.begun < least else seconds):
                came = time.monotonic()
                transaction = session.begin()
                begun = time.monotonic()
                add_one("x")(transaction)
                done = time.monotonic()
                transaction.commit()
                longest = max(longest, begun - came, time.monotonic() - done)
        self.assertLess(longest, lateness.allowed)


class Unreachable:
    """Stands in for a store that is down."""

    def begin(self):
        raise ConnectionError("the store is down")


class Beginning(NoHarm):
    def test_the_stores_error_is_told_and_the_turn_is_given_back_once(self):
        session = Session(self.auditor(), 0, Unreachable())
        with self.assertRaisesRegex(ConnectionError, "the store is down"):
            session.begin()
        self.assertFalse(session.turn.locked())

    def test_a_meeting_keeps_the_turn_that_it_took_meanwhile(self):
        """Whoever takes the turn when the store raises its error keeps it."""
        session = Session(self.auditor(), 0, Unreachable())
        taken = []

        class Turn:
            """A lock that a meeting takes as soon as it is released."""

            def __init__(self, lock):
                self.lock = lock

            def acquire(self, *arguments, **more):
                return self.lock.acquire(*arguments, **more)

            def release(self):
                self.lock.release()
                if not taken:
                    taken.append(self.lock.acquire(blocking=False))

        session.turn = Turn(threading.Lock())
        with self.assertRaises(ConnectionError):
            session.begin()
        self.assertEqual((taken, session.turn.lock.locked()), ([True], True))

    def test_attempts_that_never_reached_the_store_take_no_room(self):
        auditor = self.auditor()
        session = Session(auditor, 0, Unreachable())
        for _ in range(5000):
            with self.assertRaises(ConnectionError):
                session.run(add_one("x"))
        self.assertEqual((session.begun, auditor.remaining), (0, 0))
        session.store = MemoryStore().connect()
        session.run(add_one("x"))
        self.assertEqual(auditor.round().kind, "serial")


class AfterTheCommit(NoHarm):
    def debit(self, auditor, break_it):
        """An application that tries again when it is told that something went wrong."""
        store = MemoryStore()
        session = Session(auditor, 0, store.connect())
        session.run(set_to("balance", 100))
        break_it()
        for _ in range(3):
            try:
                session.run(lambda t: t.put("balance", t.get("balance") - 10))
                break
            except AbortedError:
                raise
            except Exception:
                continue
        return session, store.versions["balance"][-1][0]

    def breaking(self):
        """Several ways in which the auditor ends."""

        def kill(auditor):
            auditor.program.kill()

        def refuse(auditor):
            auditor.ask(["close", 0])

        def fill(auditor):
            auditor.offer(1, 0, *[zanteyard.Logged((), ())] * (auditor.limit - 1))

        return kill, refuse, fill

    def test_a_client_debits_once_whatever_becomes_of_the_auditor(self):
        for break_it in self.breaking():
            with self.subTest(break_it=break_it.__name__):
                auditor = self.auditor(3, 200)
                session, balance = self.debit(auditor, lambda: break_it(auditor))
                self.assertEqual(balance, 90)
                outcome = auditor.outcome()
                self.assertEqual((outcome.kind, outcome.handed_in), ("incomplete", 2))
                self.assertIsNotNone(outcome.failure)
                self.assertIs(auditor.failure, outcome.failure)
                with self.assertRaises(type(outcome.failure)):
                    auditor.round()

    def test_it_is_told_to_the_log(self):
        logging.getLogger("zanteyard").setLevel(logging.NOTSET)
        auditor = self.auditor()
        with self.assertLogs("zanteyard", "ERROR") as log:
            self.debit(auditor, auditor.program.kill)
        self.assertIn("auditing has stopped", log.output[0])

    def test_an_auditor_of_somebody_elses_that_fails(self):
        class Fails:
            def take(self, *_):
                raise RuntimeError("no such luck")

        store = MemoryStore()
        session = Session(Fails(), 0, store.connect())
        session.run(add_one("x"))
        self.assertEqual(str(session.failure), "no such luck")

    def test_a_client_waits_no_longer_than_the_bound_for_one_that_stands_still(self):
        auditor = self.auditor()
        session = Session(auditor, 0, MemoryStore().connect())
        os.kill(auditor.program.process.pid, signal.SIGSTOP)
        self.bounded(session, 1.0, 11)
        self.assertGreater(session.begun, 10)  # a client that comes next doesn't wait
        self.assertLess(session.waited, 10 * session.longest)
        os.kill(auditor.program.process.pid, signal.SIGCONT)
        outcome = auditor.outcome()
        self.assertEqual((outcome.kind, outcome.audited), ("serial", session.begun))

    def test_more_than_one_that_stands_still_has_room_for(self):
        """The transaction's statement alone is larger than the pipe."""
        auditor = self.auditor()
        session = Session(auditor, 0, MemoryStore().connect())
        os.kill(auditor.program.process.pid, signal.SIGSTOP)
        self.addCleanup(auditor.program.process.kill)
        with Lateness() as lateness:
            session.run(lambda t: t.put("x", 1, "x" * 10_000_000))
        self.assertLess(session.longest, lateness.allowed)
        self.assertEqual(auditor.outcome().kind, "incomplete")

    def test_one_that_stands_still_for_long_is_given_up(self):
        self.addCleanup(setattr, zanteyard.program._intake, "LATEST", zanteyard.program._intake.LATEST)
        zanteyard.program._intake.LATEST = 0.5
        auditor = self.auditor()
        session = Session(auditor, 0, MemoryStore().connect())
        stands = auditor.program.process
        os.kill(stands.pid, signal.SIGSTOP)
        self.bounded(session, 1.0)
        self.wait_for(lambda: session.run(add_one("x")) or auditor.failure)
        os.kill(stands.pid, signal.SIGCONT)
        self.assertEqual(auditor.outcome().kind, "incomplete")

    def test_a_client_waits_no_longer_than_the_bound_for_a_round(self):
        auditor = self.auditor()
        session = Session(auditor, 0, MemoryStore().connect())
        with auditor.lock, Lateness() as lateness:
            others = threading.Thread(target=session.run, args=(add_one("x"),))
            others.start()
            others.join(SOON)
        self.assertLess(session.longest, lateness.allowed)
        self.assertEqual((auditor.round().kind, auditor.taken_in), ("serial", 1))  # it wasn't lost


class Unspeakable:
    """A value of the application whose text can't be shown."""

    def __repr__(self):
        raise RuntimeError("no word for it")


FOLDER = os.path.dirname(os.path.abspath(zanteyard.__file__))


class Interrupts(NoHarm):
    """Ctrl-C and similar, wherever it comes while a transaction is committed and handed in: at the
    entry of a function, or after a call."""

    KINDS = (KeyboardInterrupt, SystemExit, GeneratorExit)
    PLACES = {
        os.path.join(FOLDER, f"{name}.py")
        for name in (
            *("session/_session", "session/_transaction", "session/_attempts", "session/_store_calls"),
            *("program/_auditor", "program/_lines", "program/_intake", "program/_offers", "program/_pipes"),
            *("live/_live_auditor", "live/_live_figures", "live/_for_processes", "live/_backlog"),
            *("remote/_client", "remote/_outbox"),
        )
    }

    def test_the_places_are_there(self):
        self.assertEqual([path for path in self.PLACES if not os.path.isfile(path)], [])

    def interrupted(self, transaction, at):
        """Whether the commit was interrupted at the n-th place."""
        places, kind = [], self.KINDS[at % len(self.KINDS)]

        def profile(frame, event, _):
            if event in ("call", "c_return") and frame.f_code.co_filename in self.PLACES:
                places.append(frame.f_lineno)
                if len(places) == at:
                    sys.setprofile(None)
                    raise kind

        try:
            with whole(transaction):
                sys.setprofile(profile)
                try:
                    transaction.commit()
                finally:
                    sys.setprofile(None)
            return False
        except kind:
            return True

    def each_place(self, begin, step=1):
        """`begin` returns two sessions, and a function that returns the outcome."""
        for at in range(1, 1000, step):
            store = MemoryStore()
            a, b, end = begin(store)
            a.run(set_to("x", 1))
            transaction = a.begin()
            add_one("x")(transaction)
            with self.subTest(at=at):
                is_interrupted = self.interrupted(transaction, at)
                self.assertFalse(a.turn.locked())
                b.run(lambda t: t.get("x"))
                outcome = end()
                self.assertNotEqual(outcome.kind, "violated")
                self.assertEqual(outcome.handed_in, 3)
                if outcome.kind == "serial":  # then the interrupt came before the store's answer
                    self.assertEqual(outcome.audited, 3)
                else:
                    self.assertEqual(outcome.kind, "incomplete")
                    self.assertIn("was interrupted", str(outcome))
            if not is_interrupted:
                self.assertEqual(outcome.kind, "serial")
                self.assertGreater(at, 20)  # else its functions have moved
                return
        self.fail("it has no end")

    def test_over_an_auditor(self):
        def begin(store):
            auditor = Auditor(3)
            a, b = (Session(auditor, number, store.connect()) for number in range(2))

            def end():
                with auditor:
                    return auditor.outcome()

            return a, b, end

        self.each_place(begin)

    def test_while_it_is_audited(self):
        def begin(store):
            auditor = Auditor(3)
            live = self.live(auditor, policy=zanteyard.Policy(BOUND, begins_anew=False))

            def end():
                with auditor:
                    return live.stop()

            return *(live.session(store.connect()) for _ in range(2)), end

        self.each_place(begin)

    def test_what_can_not_be_told_is_missed_and_no_client_knows(self):
        auditor = Auditor(3)
        live = self.live(auditor, policy=zanteyard.Policy(BOUND, begins_anew=False))
        with auditor:
            session = live.session(MemoryStore().connect())
            session.run(set_to("x", Unspeakable()))
            outcome = live.stop()
        self.assertEqual((outcome.kind, outcome.handed_in), ("incomplete", 1))
        self.assertIn("no word for it", str(outcome))

    def test_in_a_process_of_clients(self):
        folder = tempfile.TemporaryDirectory()
        self.addCleanup(folder.cleanup)

        def begin(store):
            auditor = Auditor(3)
            live = self.live(auditor, policy=zanteyard.Policy(BOUND, begins_anew=False))
            server = AuditServer(live, f"{folder.name}/audit")
            client = AuditClient(server.path)

            def end():
                with auditor:
                    with server, client:
                        pass
                    return live.stop()

            return *(client.session(store.connect()) for _ in range(2)), end

        self.each_place(begin)


class Names(NoHarm):
    def test_each_run_has_a_name_of_its_own(self):
        store = MemoryStore()
        for _ in range(2):
            auditor = self.auditor()
            a, b = (Session(auditor, number, store.connect()) for number in range(2))
            a.run(add_one("x"))
            b.run(add_one("x"))
            a.run(add_one("x"))
            self.assertEqual(auditor.round().kind, "serial")

    def test_a_name_that_the_store_knows_is_refused_at_the_start(self):
        store = MemoryStore()
        for wanted in ("serial", None):
            auditor = self.auditor()
            a, b = (Session(auditor, number, store.connect(), "monday") for number in range(2))
            if wanted is None:
                with self.assertRaisesRegex(zanteyard.NameTakenError, "monday"):
                    a.run(add_one("x"))
                self.assertEqual((store.versions["x"][-1][0], auditor.remaining), (2, 0))
            else:
                a.run(add_one("x"))
                b.run(add_one("x"))
                self.assertEqual(auditor.round().kind, wanted)


class Outcomes(NoHarm):
    def test_not_serial_where_the_auditor_was_killed(self):
        auditor = self.auditor()
        live = self.live(auditor)
        session = live.session(MemoryStore().connect())
        for _ in range(10):
            session.run(add_one("x"))
        self.wait_for(lambda: live.rounds > 0)
        auditor.program.kill()
        for _ in range(10):
            session.run(add_one("x"))
        outcome = live.stop()
        self.assertNotEqual(outcome.kind, "serial")
        whole = (outcome, *outcome.earlier)
        self.assertTrue(any(one.failure for one in whole))
        self.assertLess(outcome.audited, outcome.handed_in)

    def test_what_is_still_pending_and_for_whom(self):
        auditor = self.auditor()
        live = self.live(auditor)
        store = MemoryStore()
        session = live.session(store.connect())
        ghost = (live.run_name, 2, 7)  # of a client whose log was lost
        store.versions["x"] = [(1, ghost, 0)]
        session.run(lambda t: t.get("x"))
        outcome = live.stop()
        self.assertEqual(outcome.kind, "pending")
        self.assertEqual(outcome.pending, (((0, 0), "x", (2, 7)),))
        self.assertIn("0.0 read x from 2.7, which never arrived", str(outcome))

    def test_serial_alone_where_all_was_audited(self):
        live = self.live(self.auditor())
        session = live.session(MemoryStore().connect())
        for _ in range(10):
            session.run(add_one("x"))
        outcome = live.stop()
        self.assertEqual((outcome.kind, outcome.audited, outcome.handed_in), ("serial", 10, 10))

    def test_fences_that_the_store_mixes_up_are_the_collectors_own(self):
        class Mixing:
            """A store whose exchange isn't atomic for fences, and is for everything else."""

            def __init__(self, shared):
                self.plain = shared.connect()
                for name in ("begin", "write", "commit", "rollback", "outcome"):
                    setattr(self, name, getattr(self.plain, name))

            def read(self, key):
                found = self.plain.read(key)
                return None if key == FENCE else found

        live, store = self.live(self.auditor(), every=4), MemoryStore()
        session = live.session(Mixing(store))
        ends = time.monotonic() + SOON
        while not live.is_over and time.monotonic() < ends:
            session.run(add_one("x"))
        outcome = live.stop()
        self.assertEqual(outcome.kind, "the collector's own violation")
        self.assertTrue(outcome.is_violated)


class Standing(NoHarm):
    """Clients go on, whatever stands still."""

    def test_one_client_that_hangs_in_a_transaction(self):
        auditor = self.auditor(3, 400)
        live, store = self.live(auditor, every=50), MemoryStore()
        a, b = (live.session(store.connect()) for _ in range(2))
        hung = b.begin()
        hung.get("y")

        def has_failed():  # the first meeting, so that the cause is known
            a.run(add_one("x"))
            return live._audit.why_no_cut

        self.wait_for(has_failed)
        self.bounded(a, 3.0)
        self.wait_for(lambda: live.outcome.earlier)  # the audit ended because it was full, and another one began
        hung.put("y", 1)
        hung.commit()
        b.run(add_one("y"))
        outcome = live.stop()
        self.assertEqual(outcome.kind, "incomplete")
        self.assertIn("took longer", str(outcome.earlier[0].failure))
        self.assertTrue(all(one.kind == "incomplete" for one in outcome.earlier))

    def test_an_auditor_that_stands_still(self):
        auditor = self.auditor()
        live, store = self.live(auditor, most=100), MemoryStore()
        session = live.session(store.connect())
        os.kill(auditor.program.process.pid, signal.SIGSTOP)
        try:
            self.bounded(session, 2.0)
        finally:
            os.kill(auditor.program.process.pid, signal.SIGCONT)
        self.wait_for(lambda: live.outcome.earlier)
        self.assertIn("can't keep up", str(live.outcome.earlier[0].failure))
        self.assertNotEqual(live.outcome.earlier[0].name, live.name)
        live.stop()

    def test_why_there_is_no_room(self):
        """A client that waits because the auditor is full isn't told that it is slow."""
        auditor = self.auditor()
        live = self.live(auditor, most=100)
        live.stop()
        backlog, audit = live._backlog, live._audit
        for number in range(40):
            backlog.put((0.0, 0, number, None))
        for room, why, wanted in (
            (100, None, "the auditor can't keep up: 40 transactions are waiting"),
            (100, "no fence was settled", "the auditor can't keep up: 40 transactions are waiting"),
            (7, None, "the auditor has room for 7 more transactions, but 40 transactions are waiting: "
             "the next cut hasn't been made"),
            (0, "no fence was settled", "the auditor has room for 0 more transactions, "
             "but 40 transactions are waiting: no fence was settled"),
        ):
            backlog.room, audit.why_no_cut = room, why
            self.assertEqual(live._no_room(), wanted)

    def test_a_tell_that_raises_ends_nothing_and_is_told_once(self):
        logging.getLogger("zanteyard").setLevel(logging.NOTSET)
        for error in (BrokenPipeError("nobody reads it"), SystemExit(1)):
            with self.subTest(error=error), self.assertLogs("zanteyard", "ERROR") as log:

                def tell(line, error=error):
                    self.told.append(line)
                    raise error

                self.told = []
                live = self.live(self.auditor(), tell=tell)
                session = live.session(MemoryStore().connect())
                for count in range(3):
                    session.run(add_one("x"))
                    self.wait_for(lambda: len(self.told) > count)
                outcome = live.stop()
                self.assertEqual((outcome.kind, outcome.audited, outcome.earlier), ("serial", 3, ()))
                self.assertEqual(len(log.output), 1)
                self.assertIn("can't report a round", log.output[0])

    def test_who_rather_waits_waits_and_nothing_is_lost(self):
        auditor = self.auditor()
        live = self.live(auditor, most=10, policy=zanteyard.Policy(SOON, begins_anew=False))
        session = live.session(MemoryStore().connect())
        os.kill(auditor.program.process.pid, signal.SIGSTOP)
        client = threading.Thread(target=lambda: [session.run(add_one("x")) for _ in range(100)])
        client.start()
        self.wait_for(lambda: live._backlog.is_over_full)  # from here on it waits
        time.sleep(1.0)
        self.assertTrue(client.is_alive())
        self.assertLess(session.begun, 50)
        os.kill(auditor.program.process.pid, signal.SIGCONT)
        client.join(SOON)
        self.assertGreater(session.waited, 0.5)
        self.assertEqual((live.stop().kind, live.taken_in), ("serial", 100))

    def test_a_violation_is_found_by_the_audit_that_began_anew(self):
        auditor = self.auditor()
        live, store = self.live(auditor), MemoryStore()
        a, b = (live.session(store.connect()) for _ in range(2))
        for _ in range(5):
            a.run(add_one("x")), b.run(add_one("x"))
        auditor.program.kill()

        def has_begun():
            a.run(add_one("x")), b.run(add_one("x"))
            return live.outcome.earlier and live.report is not None

        self.wait_for(has_begun)
        self.assertEqual(live.report.kind, "serial")
        store.fault = "lost-update"
        one, other = a.begin(), b.begin()
        add_one("x")(one), add_one("x")(other)
        one.commit(), other.commit()
        self.wait_for(lambda: live.is_over)
        outcome = live.stop()
        self.assertEqual((outcome.kind, len(outcome.earlier)), ("violated", 1))

    def test_audits_that_begin_while_clients_run_make_nothing_up(self):
        """Audits are ended as often as possible, at any moment."""
        for takes in (0.0, 0.004):
            with self.subTest(takes=takes):
                self.begin_again_and_again(MemoryStore(takes=takes))

    def begin_again_and_again(self, store):
        policy = zanteyard.Policy(BOUND, True, 0.02)
        live = self.live(self.auditor(5), every=100, policy=policy)
        ended, errors = threading.Event(), []

        def client(session):
            try:
                while not (ended.is_set() or live.is_over):
                    try:
                        session.run(add_one("x"), attempts=1)
                        session.run(lambda t: (t.get("x"), t.put("y", t.get("y"))), attempts=1)
                        session.run(set_to("z", session.number), attempts=1)
                    except AbortedError:
                        pass
            except Exception as error:
                errors.append(error)

        sessions = [live.session(store.connect()) for _ in range(4)]
        threads = [threading.Thread(target=client, args=(session,)) for session in sessions]
        for thread in threads:
            thread.start()
        self.wait_for(lambda: live.report is not None)  # later ones may end before their first round
        began, latest = time.monotonic(), time.monotonic() + SOON
        while time.monotonic() < (began + 6.0 if len(live.earlier) > 5 else latest):
            time.sleep(0.15)
            live.lose(RuntimeError("for the sake of it"))
        ended.set()
        for thread in threads:
            thread.join()
        outcome = live.stop()
        self.assertEqual(errors, [])
        self.assertEqual(outcome.kind, "incomplete", outcome)
        self.assertGreater(len(outcome.earlier), 5)
        self.assertGreater(outcome.audited, 0)


    def test_who_waits_for_another_place_is_seen_to_wait(self):
        def renew(session):
            time.sleep(0.5)
            return Place(1)

        session = Session(self.auditor(), 0, MemoryStore().connect(), renew=renew)
        session.run(add_one("x"))
        before = session.waited
        session.end()
        session.run(add_one("x"))
        self.assertGreater(session.longest, 0.49)
        self.assertGreater(session.waited - before, 0.49)


class Late(NoHarm):
    """What was in flight, and may or may not have been written, is written during the next
    audit."""

    def setUp(self):
        super().setUp()
        self.auditor_of_all, self.store = self.auditor(3), MemoryStore()
        self.running = self.live(self.auditor_of_all, seconds=0.05)

    def lost(self, deed, key):
        """Returns a function that writes it after all."""
        a = self.running.session(self.store.connect())
        number = a.number

        def commit():
            raise zanteyard.OutcomeUnknownError("no answer")

        a.store.commit, a.store.known, a.patience = commit, False, 0.0
        begun = a.begun
        with self.assertRaises(zanteyard.OutcomeUnknownError):
            deed(a)
        self.running.lose(RuntimeError("for the sake of it"))
        self.wait_for(lambda: self.running.earlier)
        name = (self.running.run_name, number, begun)

        def write():
            self.store.moment += 1
            self.store.versions.setdefault(key, []).append(("late", name, self.store.moment))

        return write

    def test_it_is_neither_taken_as_written_before_nor_as_unwritten(self):
        rows = (
            ("x", lambda a: a.run(set_to("x", "1")), lambda b: b.run(add_none("x"))),
            (MARK, lambda a: a.write_mark(), lambda b: b.write_mark()),
            (f"{FLAG}1", lambda a: a.flag(), lambda b: b.run(add_none(f"{FLAG}1"))),
            (FENCE, lambda a: a.fence(), lambda b: b.fence()),
        )
        for key, deed, again in rows:
            with self.subTest(key=key):
                self.setUp()
                b = self.running.session(self.store.connect())
                write_late = self.lost(deed, key)
                again(b)
                write_late()
                again(b)
                if key == FENCE:  # a fence has to have read another one: the audit ends again
                    self.wait_for(lambda: len(self.running.earlier) == 2)
                else:
                    self.wait_for(lambda: sum(self.running.outcome.counts or ()) >= 2)
                    self.assertEqual(self.running.report.kind, "serial")
                    self.assertEqual(self.running.left_out, 1)
                self.assertEqual(self.running.stop().kind, "incomplete")

    def test_what_a_process_did_that_is_lost(self):
        """Nothing is known about its last transactions."""
        places, backlog = SessionPool(2), Backlog(8)
        left, lost = places.take(0.0), places.take(0.0)
        places.give_back([left])
        places.drop([lost.number])
        backlog.count(1, 6)
        coverage = coverage_from_now(2, [], places, backlog)
        self.assertEqual((coverage.early, coverage.first[0]), ([0, 7], 0))
        self.assertIsNone(coverage.source(1, 6))
        self.assertIsNone(coverage.source(1, 7))
        self.assertEqual(coverage.source(1, coverage.first[1]), (1, 0))
        self.assertEqual([place.unknown for place in places.lend()], coverage.unknown)


def add_none(key):
    return lambda transaction: transaction.put(key, transaction.get(key))


class Lifetimes(NoHarm):
    def test_a_session_that_is_left_is_given_back(self):
        policy = zanteyard.RATHER_WAIT
        live, store = self.live(self.auditor(8), every=20, policy=policy), MemoryStore()
        for _ in range(9):
            sessions = [live.session(store.connect()) for _ in range(8)]
            for session in sessions:
                session.run(add_one("x"))
            for session in sessions:
                session.close()
        with live.session(store.connect()) as session:
            session.run(add_one("x"))
        outcome = live.stop()
        self.assertEqual((outcome.kind, outcome.audited), ("serial", outcome.handed_in))

    def test_not_in_the_middle_of_a_transaction(self):
        live = self.live(self.auditor(1))
        session = live.session(MemoryStore().connect())
        transaction = session.begin()
        with self.assertRaisesRegex(ValueError, "in a transaction"):
            session.close()
        transaction.commit()
        session.close()
        self.assertEqual(live.stop().kind, "serial")


class Scripts(NoHarm):
    def given_again(self, path):
        with open(path) as script:
            more = {"stdout": subprocess.PIPE, "timeout": SOON, "check": True}
            ended = subprocess.run([PROGRAM], stdin=script, **more)
        return [json.loads(line) for line in ended.stdout.splitlines()]

    def test_each_line_is_kept(self):
        with tempfile.TemporaryDirectory() as folder:
            path = os.path.join(folder, "script.jsonl")
            auditor = self.auditor(script=path)
            policy = zanteyard.RATHER_WAIT
            live, store = self.live(auditor, every=10, policy=policy), MemoryStore()
            session = live.session(store.connect())
            for _ in range(40):
                session.run(add_one("x"))
            self.wait_for(lambda: live.cuts or session.run(add_one("x")))
            outcome = live.stop()
            replies = self.given_again(path)
            # the last round may come after the last meeting
            self.assertEqual([it for it in replies if it[0] == "no" and it[2] != "NoCut"], [])
            last = [it for it in replies if it[0] == "report"][-1]
            self.assertEqual(last, ["report", *outcome.report])

    def test_a_disk_that_is_full_harms_nobody(self):
        auditor = self.auditor(script="/dev/full")
        session = Session(auditor, 0, MemoryStore().connect())
        session.run(add_one("x"))
        self.assertEqual(auditor.round().kind, "serial")
        self.assertIsInstance(auditor.script_failure, OSError)


if __name__ == "__main__":
    unittest.main()
