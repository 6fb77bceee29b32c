"""What a client's process notes, and how its notes are read after it was killed."""
import errno
import logging
import math
import os
import signal
import subprocess
import sys
import tempfile
import time
import unittest
from unittest import mock

from zanteyard import AuditClient, Auditor, AuditServer, LiveAuditor, Logged, Policy, Session
from zanteyard.core._forks import UNAUDITED
from zanteyard.core._own_keys import FENCE
from zanteyard.program._auditor import PROGRAM
from zanteyard.live._backlog import Backlog
from zanteyard.core.errors import AuditLostError
from zanteyard.remote._outbox import Outbox
from zanteyard.remote._crash_recovery import NOTHING, CrashedProcess, LostError, in_files
from zanteyard.stores.memory import MemoryStore
from zanteyard.session._crash_notes import FORKED, HEAD, ROOM, CrashNotes, notes_of
from zanteyard.core._records import as_bytes, unpacked
from zanteyard.core.errors import OutcomeUnknownError
from zanteyard.session._place import Place

from .test_live import add_one

PLACE = os.path.join(os.path.dirname(os.path.abspath(__file__)), "..")
DID = Logged([("x", "init")], ["x"])


class Noted(unittest.TestCase):
    def setUp(self):
        logging.getLogger("zanteyard").setLevel(logging.CRITICAL)
        self.addCleanup(logging.getLogger("zanteyard").setLevel, logging.NOTSET)
        folder = tempfile.TemporaryDirectory()
        self.addCleanup(folder.cleanup)
        self.path, self.sent, self.failures = f"{folder.name}/notes", {}, []
        self.notes = CrashNotes(self.path, self.sent, lambda: self.failures.append(True))
        self.addCleanup(self.notes.close)

    def numbers(self):
        return [(note.number, note.outcome) for note in notes_of(self.path)]

    def test_they_are_read_in_their_order(self):
        self.notes.write(3, 0, None, b"packed", ("ticket",), True)
        self.notes.write(3, 0, "committed", None)
        first, second = notes_of(self.path)
        self.assertEqual((first.session, first.number, first.packed, first.ticket), (3, 0, b"packed", ("ticket",)))
        self.assertEqual((second.outcome, second.is_last), ("committed", False))

    def test_each_tear_of_the_last_leaves_those_before(self):
        self.notes.write(0, 0, "aborted", None)
        begins = self.notes.half.at
        self.notes.write(0, 1, "aborted", None)
        with open(f"{self.path}.0", "rb") as file:
            whole = file.read()
        for at in range(begins, self.notes.halves[0].at):
            for rest in (b"", b"\0" * 64, b"\xff" * 64):
                with open(f"{self.path}.0", "wb") as file:
                    file.write(whole[:at] + rest)
                self.assertEqual(self.numbers()[:1], [(0, "aborted")])
                self.assertLessEqual(len(self.numbers()), 1, at)

    def test_what_is_older_is_not_read(self):
        """A file that is used again has older records after the new ones."""
        packed = b"x" * 4000
        for number in range(500):
            self.notes.write(0, number, None, packed, None, True)
            self.notes.write(0, number, "committed", None)
            if number >= 3:
                self.sent[0] = number - 2
        numbers = [number for number, _ in self.numbers()]
        self.assertEqual(numbers, sorted(numbers))
        self.assertEqual(numbers[-8:], [it for it in range(496, 500) for _ in range(2)])
        self.assertLess(os.path.getsize(f"{self.path}.0"), 2 * ROOM)
        self.assertFalse(self.failures)

    def test_what_was_not_handed_over_is_kept(self):
        for number in range(200):
            self.notes.write(0, number, None, b"x" * 4000, None, True)
        self.assertEqual([number for number, _ in self.numbers()], [*range(200)])

    def test_on_a_full_disk_they_are_removed_and_nobody_is_harmed(self):
        for wrong in (OSError(errno.ENOSPC, "full"), 5):
            with self.subTest(wrong=wrong), mock.patch("os.pwrite") as write:
                self.setUp()
                write.side_effect, write.return_value = (wrong, 0) if isinstance(wrong, OSError) else (None, wrong)
                self.notes.write(0, 0, "aborted", None)
                self.assertTrue(self.failures)
                self.assertIsNone(notes_of(self.path))
                self.notes.write(0, 1, "aborted", None)  # and so on
                self.assertEqual(len(self.failures), 1)

    def test_another_version_is_not_guessed_at(self):
        with mock.patch("zanteyard.session._crash_notes.VERSION", 9):
            self.notes.write(0, 0, "aborted", None)
        self.assertIsNone(notes_of(self.path))

    # what a killed process did

    def told(self, place=None, come=0):
        backlog = Backlog(8)
        if come:
            backlog.count(0, come - 1)
        place = place or Place(0)
        return [*CrashedProcess(in_files({self.path: None}), "run", backlog.next_number).told(place)], place

    def before(self, number, logged=DID, **more):
        self.notes.write(0, number, None, as_bytes(logged), None, True)

    def test_what_was_answered_is_logged_as_it_would_have_been(self):
        self.before(0)
        self.notes.write(0, 0, "committed", None)
        self.notes.write(0, 1, "aborted", None)
        found, place = self.told()
        self.assertEqual(found, [(0, DID), (1, NOTHING), (2, NOTHING)])
        self.assertEqual((place.begun, place.is_due, place.is_ended), (3, True, False))

    def test_what_has_come_is_not_handed_in_again(self):
        for number in range(3):
            self.before(number)
            self.notes.write(0, number, "committed", None)
        found, _ = self.told(come=2)
        self.assertEqual([number for number, _ in found], [2, 3])
        found, _ = self.told(come=3)
        self.assertEqual(found, [(3, NOTHING)])

    def test_what_can_not_be_found_out_is_the_last_and_has_no_reads(self):
        self.before(0)
        found, place = self.told()
        self.assertEqual([(number, logged.reads, logged.writes, logged.outcome) for number, logged in found], [(0, (), ["x"], "unknown")])
        self.assertEqual((place.is_ended, place.unknown), (True, ((0, 1),)))

    def test_behind_what_could_not_be_found_out_nobody_goes_on(self):
        """It was handed over, but not that it was the last of its session."""
        self.before(0)
        self.notes.write(0, 0, "unknown", None, None, True, True)
        found, place = self.told(come=1)
        self.assertEqual((found, place.is_ended, place.unknown), ([], True, ((0, 1),)))
        self.notes.write(0, 1, "aborted", None)  # in another audit
        found, place = self.told(come=1)
        self.assertEqual((found, place.is_ended), ([(1, NOTHING), (2, NOTHING)], False))

    def test_a_fence_that_can_not_be_found_out_is_not_handed_in(self):
        self.before(0, Logged((), [FENCE]))
        found, place = self.told()
        self.assertEqual((found, place.is_ended), ([], True))

    def test_reads_alone_that_were_not_answered(self):
        self.before(0, Logged([("x", "init")], ()))
        self.assertEqual(self.told()[0], [(0, NOTHING), (1, NOTHING)])

    def test_what_is_missing_is_not_guessed_at(self):
        self.notes.write(0, 0, "committed", None)  # and what it did is missing
        with self.assertRaises(LostError):
            self.told()
        self.notes.remove()
        with self.assertRaises(LostError):
            in_files({self.path: None})

    UNCLEAR = "it read what a forked child wrote"

    def unclear(self, outcome, is_last=False):
        """A transaction whose client itself didn't know what it had done."""
        self.notes.write(0, 0, None, as_bytes(DID), ("x",), True, False, self.UNCLEAR)
        if outcome is not None:
            self.notes.write(0, 0, outcome, None, None, True, is_last, self.UNCLEAR)

    def test_who_was_to_join_and_was_not_answered_has_its_number_for_good(self):
        """The store's answer may be about an earlier attempt; one that was answered left
        nothing."""
        self.before(0, Logged([("x", "init")], ()))
        found, place = self.told(Place(0, must_join=True))
        self.assertEqual((found, place.begun, place.is_ended, place.unknown), ([], 1, True, ((0, 1),)))
        self.notes.write(0, 0, "aborted", None)
        found, place = self.told(Place(0, must_join=True))
        self.assertEqual((found, place.begun, place.is_ended, place.unknown), ([], 0, False, ()))

    def test_of_what_can_not_be_found_out_the_writes_alone_are_told(self):
        read, wrote = (("x", "init"), "SELECT x"), (("y",), "UPDATE y")
        did = Logged([("x", "init")], ["y"], statements=[read, wrote], values=[("read", "x", "1"), ("wrote", "y", "2")])
        self.before(0, did)
        (_, told), = self.told()[0]
        self.assertEqual((told.reads, told.writes, told.from_before), ((), ["y"], 0))
        self.assertEqual((told.statements, told.values), ((wrote,), (("wrote", "y", "2"),)))

    def test_where_the_second_file_can_not_be_made_the_first_one_goes(self):
        path = f"{os.path.dirname(self.path)}/more"
        os.mkdir(f"{path}.1")
        opened = len(os.listdir("/proc/self/fd"))
        with self.assertRaises(OSError):
            CrashNotes(path, {}, lambda: None)
        self.assertEqual((os.path.exists(f"{path}.0"), len(os.listdir("/proc/self/fd"))), (False, opened))

    def test_what_its_client_did_not_know_is_lost(self):
        for outcome, is_last in (("committed", False), ("unknown", True), ("unknown", False)):
            with self.subTest(outcome=outcome, is_last=is_last):
                self.setUp()
                self.unclear(outcome, is_last=is_last)
                with self.assertRaisesRegex(LostError, self.UNCLEAR):
                    self.told()

    def test_where_it_was_not_answered_the_store_is_asked(self):
        for became in ("committed", "unknown", "aborted"):
            with self.subTest(became=became):
                self.setUp()
                self.unclear(None)
                with mock.patch("zanteyard.remote._crash_recovery.find_out", return_value=(became, None)):
                    if became == "aborted":
                        (first, told), rest = self.told()[0]
                        self.assertEqual((first, rest), (0, (1, NOTHING)))
                        self.assertEqual((told.outcome, told.reads, told.writes), ("aborted", (), ()))
                        self.assertEqual([*map(list, told.did)], [[*DID.reads], [*DID.writes]])
                        continue
                    with self.assertRaisesRegex(LostError, self.UNCLEAR):
                        self.told()

    def test_where_nothing_of_it_was_committed_nothing_is_unclear(self):
        self.unclear("aborted")
        self.assertEqual(self.told()[0], [(0, NOTHING), (1, NOTHING)])

    def test_what_an_aborted_attempt_had_written_is_told(self):
        """As it was noted when that became known; but not if the name is to be used again."""
        self.before(0)
        undone = Logged((), (), "aborted", tried_reads=[("x", (3, 4))], tried_writes=["x", "y"])
        self.notes.write(0, 0, "aborted", as_bytes(undone))
        self.assertEqual(self.told()[0], [(0, undone), (1, NOTHING)])
        self.assertEqual([*self.told(Place(0, must_join=True))[0]], [])

    def test_what_was_told_already_is_not_unclear_once_more(self):
        self.unclear("committed")
        self.assertEqual(self.told(come=1)[0], [(1, NOTHING)])

    def test_nothing_at_all(self):
        place = Place(0, 7)
        self.assertEqual(self.told(place), ([(7, NOTHING)], place))
        self.assertEqual(place.begun, 8)

    def test_the_head_is_plain(self):
        self.notes.write(0, 0, "aborted", None)
        with open(f"{self.path}.0", "rb") as file:
            length, _ = HEAD.unpack(file.read(HEAD.size))
        self.assertEqual(self.notes.half.at, HEAD.size + length)


def written_by_a_child(run_name):
    """A store with a value that a client's forked child wrote."""
    store = MemoryStore()
    child = store.connect()
    child.begin()
    child.write("x", 1, (run_name, UNAUDITED, 0))
    child.commit()
    return store


class WhatIsNoted(unittest.TestCase):
    """Notes of a session that may have read something unaudited."""

    setUp, UNCLEAR = Noted.setUp, Noted.UNCLEAR

    def run_one(self, store, unclaimed=None):
        told = []
        auditor = mock.Mock(run_name="run", is_named=False, policy=Policy(30.0))
        auditor.miss = lambda *missed: told.append(missed)
        session = Session(auditor, 2, store.connect(), "run")
        session.notes = self.notes
        if unclaimed:
            session.unclaimed, session.claim_at = AuditLostError(unclaimed), math.inf
        session.run(add_one("x"))
        return notes_of(self.path), told

    def test_what_was_read_is_noted_and_handed_in(self):
        (before, answered), told = self.run_one(MemoryStore())
        self.assertIn(("x", "init"), unpacked(before.packed).reads)
        self.assertEqual((before.unclear, answered.unclear, told), (None, None, []))
        self.assertEqual([(note.session, note.number) for note in (before, answered)], [(2, 0), (2, 0)])

    def test_that_it_is_unclear_is_noted_before_and_behind(self):
        (before, answered), told = self.run_one(written_by_a_child("run"))
        for why in (before.unclear, answered.unclear, *(str(error) for _, _, error in told)):
            self.assertIn(self.UNCLEAR, why)
        self.assertEqual((before.outcome, answered.outcome), (None, "committed"))
        self.assertEqual(len(told), 1)

    def test_so_is_that_its_names_may_be_anothers(self):
        (before, answered), told = self.run_one(MemoryStore(), self.UNCLEAR)
        self.assertEqual((before.unclear, answered.unclear), (self.UNCLEAR, self.UNCLEAR))
        self.assertEqual([str(error) for _, _, error in told], [self.UNCLEAR])


class Lost(unittest.TestCase):
    def test_why_is_sent_before_what_was_missed(self):
        """Otherwise a process killed in between would seem to have reported everything."""
        messages, sent = mock.Mock(), []
        messages.send = lambda kind, *_: sent.append(kind)
        outbox = Outbox(messages, 8)
        outbox.put_behind("missed", 0, 1)
        outbox.lose("why")
        outbox.send_all()
        self.assertEqual(sent, ["lost", "missed"])


@unittest.skipUnless(os.path.isfile(PROGRAM), f"{PROGRAM} is not built")
class Forked(unittest.TestCase):
    PROGRAM = """
import os, signal, sys, time
sys.path.insert(0, sys.argv[1])
import logging; logging.getLogger("zanteyard").setLevel(logging.CRITICAL)
from zanteyard import AuditClient
from zanteyard.stores.sqlite import SQLiteStore
client = AuditClient(sys.argv[2])
session = client.session(SQLiteStore(sys.argv[3]))
add = lambda t: t.put("x", str(int(t.get("x") or 0) + 1))
for _ in range(5): session.run(add)
parent = os.getpid()
child = os.fork()
if child == 0:
    assert client.is_over
    while os.getppid() == parent: time.sleep(0.01)
    for _ in range(3): session.run(add)
    time.sleep(1.0)
    os._exit(0)
print(child, flush=True)
for _ in range(5): session.run(add)
os.kill(os.getpid(), signal.SIGKILL)
"""

    def test_a_child_keeps_nothing_of_its_parents(self):
        """The end of the parent is noticed although a forked child lives. Nobody else gets its
        sessions, since the child may go on in them unseen."""
        logging.getLogger("zanteyard").setLevel(logging.CRITICAL)
        self.addCleanup(logging.getLogger("zanteyard").setLevel, logging.NOTSET)
        from zanteyard.stores.sqlite import prepare

        with tempfile.TemporaryDirectory() as folder, Auditor(2) as auditor:
            prepare(f"{folder}/store")
            live = LiveAuditor(auditor, policy=Policy(30.0, begins_anew=False))
            with AuditServer(live, f"{folder}/audit") as server:
                call = [sys.executable, "-c", self.PROGRAM, PLACE, server.path, f"{folder}/store"]
                ended = subprocess.run(call, stdout=subprocess.PIPE, timeout=600.0)
                self.assertEqual(ended.returncode, -signal.SIGKILL)
                until = time.monotonic() + 300.0
                # its files are removed last
                while not live.is_over or os.listdir(server.notes):
                    self.assertLess(time.monotonic(), until)
                    time.sleep(0.01)
                self.assertEqual(live._pool.numbers(), [1])
                self.assertEqual(os.listdir(server.notes), [])
            outcome = live.stop()
            self.assertEqual(outcome.kind, "incomplete", outcome)
            self.assertIn("it forked", str(outcome.failure))

    def test_they_are_found_from_any_folder(self):
        self.addCleanup(os.chdir, os.getcwd())
        with tempfile.TemporaryDirectory() as folder, Auditor(2) as auditor:
            live = LiveAuditor(auditor, policy=Policy(30.0, begins_anew=False))
            os.chdir(folder)
            with AuditServer(live, "audit") as server:
                os.chdir("/")
                with AuditClient(f"{folder}/audit") as client:
                    session = client.session(MemoryStore().connect())
                    session.run(add_one("x"))
                    self.assertIsNotNone(session.notes)
                    self.assertEqual(len(os.listdir(f"{folder}/audit.notes")), 2)
                os.chdir(folder)
            self.assertEqual(live.stop().kind, "serial")

    def audited(self):
        """A server, and a client in this process."""
        logging.getLogger("zanteyard").setLevel(logging.CRITICAL)
        self.addCleanup(logging.getLogger("zanteyard").setLevel, logging.NOTSET)
        folder, auditor = tempfile.TemporaryDirectory(), Auditor(2)
        self.addCleanup(folder.cleanup)
        self.addCleanup(auditor.end)
        live = LiveAuditor(auditor, policy=Policy(30.0, begins_anew=False))
        self.addCleanup(live.stop)
        server = AuditServer(live, f"{folder.name}/audit")
        self.addCleanup(server.close, 0.1)
        return live, server, AuditClient(server.path)

    def wait_for(self, condition):
        until = time.monotonic() + 300.0
        while not condition() and time.monotonic() < until:
            time.sleep(0.01)
        self.assertTrue(condition())

    def test_who_forks_is_marked_and_who_starts_a_program_is_not(self):
        _, _, client = self.audited()
        mark = f"{client._door._notes_path}{FORKED}"
        subprocess.run([sys.executable, "-c", ""], check=True)
        self.assertFalse(os.path.exists(mark))
        child = os.fork()
        if not child:
            os._exit(0 if os.path.exists(mark) else 1)
        self.assertEqual(os.waitpid(child, 0)[1], 0)
        client.leave()

    def test_a_closed_session_keeps_no_files(self):
        live, server, client = self.audited()
        store = MemoryStore()
        for count in range(20):
            session = client.session(store.connect())
            session.run(add_one("x"))
            if not count:
                open_files = len(os.listdir("/proc/self/fd"))
            session.close()
            self.assertIsNone(session.notes)
            self.wait_for(lambda: len(live._pool.numbers()) == 2)
            self.wait_for(lambda: not os.listdir(server.notes))
        self.assertLess(len(os.listdir("/proc/self/fd")), open_files)
        self.assertEqual(server._processes[0]._asks, {})
        client.leave()
        server.close()
        self.assertEqual((live.stop().kind, live.stop().audited), ("serial", 20))

    def test_nothing_is_noted_any_more_where_nobody_reads_it(self):
        """They take no space either."""
        live, server, client = self.audited()
        session, idle = (client.session(MemoryStore().connect()) for _ in range(2))
        session.run(add_one("x"))
        notes = session.notes
        with mock.patch("zanteyard.remote._socket_process.ENDING", 0.1):
            server._processes[0].messages._hang_up()
            self.wait_for(lambda: client.is_over and not os.listdir(server.notes))
            self.wait_for(lambda: not any(os.fstat(half.file).st_blocks for half in idle.notes.halves))
            self.assertTrue(idle.notes.halves)
            session.run(add_one("x"))
            self.assertEqual((notes.halves, session.notes.halves), ([], []))
            self.wait_for(lambda: live.is_over)
        client.leave()
        self.assertEqual(idle.notes.halves, [])
        self.assertEqual(live.stop().kind, "incomplete")

    def test_who_is_in_a_transaction_as_its_process_leaves_keeps_its_descriptors(self):
        """Otherwise it might write to a file that another thread has opened since."""
        _, server, client = self.audited()
        session, other = (client.session(MemoryStore().connect()) for _ in range(2))
        notes, others = session.notes, other.notes
        transaction = session.begin()
        transaction.put("x", "1")
        client.leave(0.1)
        self.assertEqual((len(notes.halves), others.halves), (2, []))
        self.wait_for(lambda: not os.listdir(server.notes))
        transaction.commit()
        self.assertEqual(notes.halves, [])

    def test_a_session_that_ends_unclear_is_not_closed(self):
        """Others may have read what nobody hands in."""
        live, _, client = self.audited()
        store = written_by_a_child(client.run_name)
        one, other = client.session(store.connect(), 0.1), live.session(store.connect())
        commit = one.store.commit

        def unanswered():
            commit()
            self.assertEqual(other.run(lambda transaction: transaction.get("x")), 2)
            raise OutcomeUnknownError("no answer came")

        one.store.commit, one.store.outcome = unanswered, lambda: "unknown"
        with self.assertRaises(OutcomeUnknownError), client._outbox._sending:
            one.run(add_one("x"))
        client.leave()
        outcome = live.stop()
        self.assertEqual(outcome.kind, "incomplete", str(outcome))
        self.assertIn("a forked child", str(outcome))

    def test_where_nothing_can_be_noted_clients_go_on(self):
        logging.getLogger("zanteyard").setLevel(logging.CRITICAL)
        self.addCleanup(logging.getLogger("zanteyard").setLevel, logging.NOTSET)
        with tempfile.TemporaryDirectory() as folder, Auditor(2) as auditor:
            live = LiveAuditor(auditor, policy=Policy(30.0, begins_anew=False))
            with AuditServer(live, f"{folder}/audit") as server:
                os.rmdir(server.notes)
                with AuditClient(server.path) as client:
                    session = client.session(MemoryStore().connect())
                    self.assertIsNone(session.notes)
                    for _ in range(3):
                        session.run(add_one("x"))
            self.assertEqual(live.stop().kind, "serial")


if __name__ == "__main__":
    unittest.main()
