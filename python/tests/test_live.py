"""An auditor next to running clients: meetings, rounds and cuts, over the store in memory and with
a made-up program."""
import json
import os
import sys
import tempfile
import threading
import time
import unittest

from zanteyard import FENCE, AbortedError, Auditor, FullError, LiveAuditor, Logged, NoCutError
from zanteyard import NoMemoryError, Policy, audited
from zanteyard import from_start, reasons, smaller, words
from zanteyard.core._own_keys import FLAG, MARK
from zanteyard.program._auditor import PROGRAM
from zanteyard.live._fragments import fragments
from zanteyard.stores.memory import MemoryStore

from .waiting import SOON


def add_one(key):
    def body(transaction):
        transaction.put(key, (transaction.get(key) or 0) + 1)

    return body


def set_to(key, value):
    return lambda transaction: transaction.put(key, value)


def no_cut():
    raise NoCutError("no fence was settled")


class WithProgram(unittest.TestCase):
    def setUp(self):
        if not os.path.isfile(PROGRAM):
            self.skipTest(f"{PROGRAM} is not built: see README.md")
        self.told = []

    def live(self, sessions, limit=4096, **more):
        self.auditor = Auditor(sessions, limit)
        self.addCleanup(self.auditor.end)
        wait = {"policy": Policy(60.0, begins_anew=False), "patience": 60.0}  # a busy machine
        more = {"every": 20, "seconds": 600.0, "tell": self.told.append, **wait, **more}
        return LiveAuditor(self.auditor, **more)

    def ended(self, live):
        outcome = live.stop()
        if outcome.failure:
            raise outcome.failure
        return outcome


def run_clients(live, stores, count, body):
    def client(session):
        for _ in range(count):
            if live.is_over:
                break
            try:
                session.run(body, attempts=1)
            except AbortedError:
                pass

    sessions = [live.session(store) for store in stores]
    threads = [threading.Thread(target=client, args=(session,)) for session in sessions]
    for thread in threads:
        thread.start()
    for thread in threads:
        thread.join()
    return sessions


class Meetings(WithProgram):
    def test_threads_are_serial_and_all_is_taken_in(self):
        live, store = self.live(4), MemoryStore()
        run_clients(live, [store.connect() for _ in range(4)], 60, add_one("x"))
        self.assertEqual(self.ended(live).kind, "serial")
        self.assertEqual((live.taken_in, len(live._backlog)), (live.handed_in, 0))
        self.assertGreater(live.rounds, 0)
        self.assertEqual(len(self.told), live.rounds)
        self.assertRegex(self.told[0], r"^round 1: (serial|pending); \d+ transactions, \d+ a second, \d+\.\d\d s behind; \d+ remain; (no )?cut")

    def test_a_store_whose_commits_take_a_while(self):
        """So one client's begin comes between another one's commit and its answer."""
        live, store = self.live(4), MemoryStore(takes=0.004)
        sessions = run_clients(live, [store.connect() for _ in range(4)], 60, lambda t: (add_one("x")(t), set_to("y", 1)(t)))
        # else they may all have finished before the auditor's thread runs
        self.wait_for(lambda: live.cuts or sessions[0].run(add_one("x")))
        self.assertEqual(self.ended(live).kind, "serial")
        self.assertEqual((live.taken_in, len(live._backlog)), (live.handed_in, 0))
        self.assertGreater(live.cuts, 0)

    def test_what_is_settled_is_forgotten_so_that_a_run_has_no_end(self):
        live, store = self.live(2, limit=32, every=10), MemoryStore()
        a, b = (live.session(store.connect()) for _ in range(2))
        for turn in range(8):
            for _ in range(5):
                a.run(add_one("x")), b.run(add_one("x"))
            self.wait_for(lambda: live.cuts > turn)
        self.assertEqual(live.cuts, 8)
        self.assertEqual(self.ended(live).kind, "serial")
        self.assertEqual(sum(self.auditor.marks) + sum(map(len, self.auditor.history)), live.taken_in)

    def test_clients_that_wait_for_the_auditor_come_to_meetings(self):
        live, store = self.live(2, every=8, most=1), MemoryStore()
        run_clients(live, [store.connect() for _ in range(2)], 60, add_one("x"))
        self.assertEqual(self.ended(live).kind, "serial")
        self.assertEqual([line for line in self.told if "took longer" in line], [])

    def test_each_session_has_a_fence_and_comes_behind_the_last(self):
        live, store = self.live(3, every=2), MemoryStore()
        self.auditor.truncate = no_cut  # so that everything stays to be examined
        a, b = (live.session(store.connect()) for _ in range(2))
        a.run(set_to("x", 1))
        b.run(set_to("x", 2))
        self.wait_for(lambda: live.rounds)
        history = [[*txns] for txns in self.auditor.history]
        self.ended(live)
        done = [[(one.reads, one.writes) for one in txns] for txns in history]
        read = lambda key, source: ([(key, source)], [])
        exchange = lambda key, source: ([(key, source)], [key])
        flag = f"{FLAG}0"  # the other one, which was used last, leads
        self.assertEqual(done[0], [([], ["x"]), exchange(flag, "init"), read(MARK, (1, 4))])
        self.assertEqual(done[1][:2], [([], ["x"]), exchange(MARK, "init")])
        self.assertEqual(done[1][2], ([("x", (1, 0)), (flag, (0, 1))], []))
        self.assertEqual(done[1][3:], [exchange(FENCE, "init"), exchange(MARK, (1, 1))])
        self.assertEqual((done[2], self.auditor.closed), ([], [False, False, True]))  # it has no client
        self.assertEqual(live.report.kind, "serial")

    def test_no_client_goes_on_before_all_are_behind(self):
        live, store = self.live(3, every=3), MemoryStore()
        a, b, c = (live.session(store.connect()) for _ in range(3))
        could_go_on = []

        def later(deed):
            def looks_first(*arguments):
                could_go_on.append(a.turn.acquire(blocking=False))
                return deed(*arguments)

            return looks_first

        c.fence, b.read_mark, c.read_all = later(c.fence), later(b.read_mark), later(c.read_all)
        for session in (a, b, c):
            session.run(add_one("x"))
        self.wait_for(lambda: live.cuts)
        self.assertEqual(could_go_on, [False, False, False])
        self.assertEqual(self.ended(live).kind, "serial")

    def test_an_idle_session_has_its_fence_at_each_meeting(self):
        live, store = self.live(2, every=4), MemoryStore()
        a, b = (live.session(store.connect()) for _ in range(2))
        b.run(add_one("x"))
        for turn in range(4):
            for _ in range(6):
                a.run(add_one("x"))
            self.wait_for(lambda: live.cuts > turn)
        self.assertEqual(self.ended(live).kind, "serial")
        self.assertEqual(live.cuts, live.meetings)

    def wait_for(self, condition):
        until = time.monotonic() + SOON
        while not condition() and time.monotonic() < until:
            time.sleep(0.01)
        self.assertTrue(condition())

    def test_a_transaction_that_goes_on_prevents_the_meeting(self):
        live, store = self.live(2, every=1, patience=0.05), MemoryStore()
        a, b = (live.session(store.connect()) for _ in range(2))
        long = b.begin()

        def is_told():  # a, too, may take longer on a busy machine
            a.run(add_one("x"))
            return any("no cut: a transaction of session 1 took longer than 0.05 s" in line for line in self.told)

        self.wait_for(is_told)
        long.commit()
        self.assertEqual(self.ended(live).kind, "serial")

    def test_an_idle_session_is_left_and_its_client_takes_one_when_it_comes_back(self):
        live, store = self.live(3, every=1, idle=600.0), MemoryStore()
        a, b = (live.session(store.connect()) for _ in range(2))
        b.run(add_one("x"))
        b.used_at -= 700
        a.run(add_one("x"))
        self.wait_for(lambda: not b.is_open)
        self.wait_for(lambda: sorted(live._pool.numbers()) == [1, 2])
        b.run(add_one("x"))
        self.assertEqual((b.number in (1, 2), b.is_open, len(live._pool.numbers())), (True, True, 1))
        self.assertEqual(self.ended(live).kind, "serial")

    def with_write(self, live, store, write):
        """A session whose store calls this before each write."""
        session = live.session(store.connect())
        plain = session.store.write

        def both(key, value, name):
            write(name[1])
            plain(key, value, name)

        session.store.write = both
        return session

    def test_a_flag_that_the_store_aborts_is_run_again(self):
        aborts = []

        def abort(session):
            if aborts:
                raise AbortedError(aborts.pop())

        live, store = self.live(2, every=2), MemoryStore()
        a, b = self.with_write(live, store, abort), live.session(store.connect())
        a.run(add_one("x"))
        aborts += ["for what another did", "once more"]
        b.run(add_one("x"))
        self.wait_for(lambda: live.cuts)
        self.assertEqual(aborts, [])
        self.assertEqual(self.ended(live).kind, "serial")

    def test_clients_leave_room_for_the_next_meeting(self):
        live, store = self.live(1, limit=40, every=1000, most=30), MemoryStore()
        a = live.session(store.connect())
        rooms = []
        for _ in range(24):
            a.run(add_one("x"))
            self.wait_for(lambda: live.taken_in == a.begun)
            rooms.append(live._backlog.room)
        reserve = live._audit.reserve
        self.assertEqual(self.ended(live).kind, "serial")
        self.assertLessEqual(rooms[0], min(30, 40 - reserve))
        self.assertLess(rooms[-1], rooms[0])

    def with_read(self, live, store, read):
        """A session whose store calls this before each read of the mark."""
        session = live.session(store.connect())
        plain = session.store.read

        def both(key):
            if key == MARK:
                read()
            return plain(key)

        session.store.read = both
        return session

    def test_no_session_is_lost_where_what_is_run_for_one_that_is_left_fails(self):
        failures = []

        def fail_once():
            if len(failures) < 2:
                failures.append(RuntimeError("not now"))
                raise failures[-1]

        live, store = self.live(3, every=1), MemoryStore()
        a = self.with_read(live, store, lambda: None)
        a.run(add_one("x"))
        self.wait_for(lambda: live.cuts)
        a.store.read, plain = self.failing(a.store.read, fail_once), a.store.read
        a.run(add_one("x"))
        self.wait_for(lambda: any("no cut: the meeting failed (not now)" in line for line in self.told))
        a.store.read = plain
        cuts = live.cuts

        def is_cut():
            a.run(add_one("x"))
            return live.cuts > cuts

        self.wait_for(is_cut)
        self.wait_for(lambda: len(live._pool.numbers()) == 2)
        self.assertEqual(sorted(live.session(store.connect()).number for _ in range(2)), [1, 2])
        self.assertEqual(self.ended(live).kind, "serial")

    def failing(self, read, fail):
        def both(key):
            if key == MARK:
                fail()
            return read(key)

        return both

    def test_a_client_that_comes_in_a_meeting_waits_for_its_session(self):
        is_there, may_go_on, came, reads = threading.Event(), threading.Event(), [], []

        def wait_once():
            reads.append(1)
            if len(reads) == 2:  # by the leader, which overwrites the mark twice
                is_there.set()
                may_go_on.wait(SOON)

        live, store = self.live(2, every=1), MemoryStore()
        a = self.with_read(live, store, wait_once)
        a.run(add_one("x"))
        self.assertTrue(is_there.wait(SOON))
        comes = threading.Thread(target=lambda: came.append(live.session(store.connect())))
        comes.start()
        comes.join(0.1)
        self.assertEqual(came, [])
        may_go_on.set()
        comes.join()
        came[0].run(add_one("x"))
        self.assertIn(came[0].number, (1, 2))  # the one without a client is closed, and returns after the cut
        self.assertEqual(self.ended(live).kind, "serial")

    def test_as_many_are_taken_in_as_there_is_room_for(self):
        live, store = self.live(2, limit=7, every=1000), MemoryStore()
        a, b = (live.session(store.connect()) for _ in range(2))
        for _ in range(5):
            a.run(add_one("x")), b.run(add_one("x"))
        live.stop()
        self.assertIsInstance(live.failure, FullError)
        self.assertEqual((live.taken_in, sum(map(len, self.auditor.history))), (7, 7))

    def test_whether_another_meeting_comes_in_time(self):
        live, store = self.live(1, limit=8, every=1000), MemoryStore()
        a = live.session(store.connect())
        for _ in range(3):
            a.run(add_one("x"))
        self.wait_for(lambda: live.taken_in == 3)
        for every, has_room in ((19, True), (20, False)):  # after a failed meeting, a quarter of it comes before the next one
            live._pace.every = every
            self.assertEqual(live._has_room(), has_room)
        self.assertEqual(self.ended(live).kind, "serial")

    def test_one_transaction_at_a_time(self):
        live, store = self.live(1), MemoryStore()
        a = live.session(store.connect())
        open_one = a.begin()
        with self.assertRaises(ValueError):
            a.begin()
        open_one.commit()
        self.assertEqual(live.session(store.connect()).number, 1)  # it has joined
        self.assertEqual(self.ended(live).kind, "serial")

    def test_a_violation_ends_the_run(self):
        live, store = self.live(2, every=10, most=20), MemoryStore("stale-read")
        run_clients(live, [store.connect() for _ in range(2)], 400, add_one("x"))
        self.assertEqual(self.ended(live).kind, "violated")
        self.assertLess(live.taken_in, 800)
        history, called = from_start(self.auditor)
        small = smaller(history, seconds=SOON)
        self.assertEqual(audited(small)[0].kind, "violated")
        self.assertIn(" can come first", reasons(small, called)[-1])

    def test_a_program_that_is_killed(self):
        live, store = self.live(1, every=1), MemoryStore()
        a = live.session(store.connect())
        self.auditor.program.kill()
        a.run(add_one("x"))  # the client goes on
        self.wait_for(lambda: live.failure)
        self.assertIn("cobra_audit", str(live.failure))
        a.run(add_one("x"))

SCRIPTED = """#!{python}
import json, sys
replies = {replies}
for line in sys.stdin:
    name = json.loads(line)[0]
    print(json.dumps(replies[name].pop(0) if len(replies.get(name, [])) > 0 else ["ok"]), flush=True)
"""


class Fragments(unittest.TestCase):
    def test_of_each_session(self):
        a, b, c = (Logged((), (key,)) for key in "abc")
        self.assertEqual(fragments([(1, 3, a), (0, 0, b), (1, 4, c)]), [(1, 3, [a, c]), (0, 0, [b])])

    def test_what_follows_a_missing_one_keeps_its_number(self):
        a, b, c = (Logged((), (key,)) for key in "abc")
        found = fragments([(1, 3, a), (1, 5, b), (0, None, a), (1, 6, c), (1, 4, a)])
        self.assertEqual(found, [(1, 3, [a]), (1, 5, [b, c]), (1, 4, [a])])


class MadeUp(unittest.TestCase):
    """With a program that gives these replies."""

    def auditor(self, sessions, replies):
        folder = tempfile.TemporaryDirectory()
        self.addCleanup(folder.cleanup)
        path = os.path.join(folder.name, "program")
        with open(path, "w") as file:
            file.write(SCRIPTED.format(python=sys.executable, replies=json.dumps(replies)))
        os.chmod(path, 0o755)
        auditor = Auditor(sessions, program=path)
        self.addCleanup(auditor.end)
        return auditor

    def cut_auditor(self):
        auditor = self.auditor(2, {"truncate": [["cut", [0, 1], [[0, 0], [0, 1], [1, 0]], [[0, 0, 1], [1, 1, 0]]]]})
        fence = Logged((((FENCE), "init"),), (FENCE,))
        for session, number, logged in (
            (0, 0, Logged((), ("x",))),
            (1, 0, Logged((("x", (0, 0)),), ("x",))),
            (0, 1, fence),
            (1, 1, Logged(((FENCE, (0, 1)),), (FENCE,))),
            (1, 2, Logged((("x", (0, 0)),), ("y",))),
        ):
            auditor.offer(session, number, logged)
        self.assertEqual(auditor.truncate(), ((0, 1), 3))
        return auditor

    def test_what_is_gone_is_forgotten(self):
        auditor = self.cut_auditor()
        self.assertEqual((auditor.marks, [len(txns) for txns in auditor.history]), ([2, 1], [0, 2]))
        self.assertEqual(auditor.base, {FENCE: (0, 1), "x": (1, 0)})

    def test_what_remains_is_told_without_the_cut(self):
        history, called = from_start(self.cut_auditor())
        self.assertEqual(
            list(words(history, called))[2:],
            ["1.1 read zanteyard's fence from the cut, wrote zanteyard's fence", "1.2 read x in a version older than that at the cut, wrote y"],
        )

    @unittest.skipUnless(os.path.isfile(PROGRAM), f"{PROGRAM} is not built")
    def test_what_remains_is_violated_without_the_cut(self):
        history, called = from_start(self.cut_auditor())
        small = smaller(history, seconds=SOON)
        self.assertEqual(audited(small)[0].kind, "violated")
        self.assertTrue(reasons(small, called)[-1].endswith(" can come first"))

    def test_statements_are_told_of_what_remains(self):
        auditor = self.cut_auditor()
        read = ("x", (0, 0))
        auditor.history[1][1] = Logged((read,), ("y",), "committed", ((read, "SELECT x"), (("y",), "UPDATE y")))
        self.assertEqual(list(words(*from_start(auditor)))[4:], ["    read x: SELECT x", "    wrote y: UPDATE y"])

    def test_a_line_is_given_again_where_memory_was_refused(self):
        refused, report = ["no", 16, "NoMemory"], ["report", 1, "serial", [0], []]
        auditor = self.auditor(1, {"collect": [refused, report, *3 * [refused], report]})
        self.assertEqual(auditor.round().kind, "serial")
        with self.assertRaises(NoMemoryError):
            auditor.round()
        self.assertEqual(auditor.round().kind, "serial")

    def test_a_search_that_is_spent_is_given_again_with_more(self):
        spent = ["report", 1, "spent", [0]]
        serial = ["report", 2, "serial", [0], []]
        auditor = self.auditor(1, {"collect": [spent, ["searching"], serial, *2 * [spent]]})
        self.assertEqual(auditor.round(((1, 0, 1), (8, 2, 4))).number, 2)
        self.assertEqual(auditor.effort, (8, 2, 4))
        self.assertEqual(auditor.round().kind, "spent")


if __name__ == "__main__":
    unittest.main()
