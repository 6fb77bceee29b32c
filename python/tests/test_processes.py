"""A live audit whose clients are behind a socket, in this process or in others."""
import os
import socket
import subprocess
import sys
import tempfile
import time

from zanteyard import AuditClient, AuditServer, ProgramEndedError
from zanteyard.stores.memory import MemoryStore
from zanteyard.remote._remote_sessions import RemoteGroup

from . import test_live
from .test_live import add_one

PLACE = os.path.join(os.path.dirname(os.path.abspath(__file__)), "..")


class TwoProcesses:
    """What two processes of clients do, whatever connects them to the auditor's process."""

    def test_two_processes_meet(self):
        live, store, other = self.live(4), MemoryStore(), self.another()
        a, b, c, d = (each.session(store.connect()) for each in (self.client, self.client, other, other))
        for turn in range(4):
            for _ in range(5):
                for session in (a, b, c, d):
                    session.run(add_one("x"))
            self.wait_for(lambda: live.cuts > turn)
        other.leave()
        self.assertEqual(self.ended(live).kind, "serial")
        self.assertEqual(live.taken_in, sum(session.begun for session in (a, b, c, d)))

    def test_who_leaves_leaves_its_sessions_to_others(self):
        live, store, other = self.live(2, every=4), MemoryStore(), self.another()
        a, b = self.client.session(store.connect()), other.session(store.connect())
        for session in (a, b):
            session.run(add_one("x"))
        other.leave()
        self.wait_for(live._pool.numbers)
        again = self.client.session(store.connect())
        self.assertEqual((again.number, again.begun), (b.number, b.begun))
        for session in (a, again, a, again):
            session.run(add_one("x"))
        self.wait_for(lambda: live.cuts)
        self.assertEqual(self.ended(live).kind, "serial")


class Elsewhere(TwoProcesses, test_live.Meetings):
    """Everything that meetings do with sessions of this process, with sessions behind a socket."""

    def live(self, sessions, *arguments, **more):
        live = super().live(sessions, *arguments, **more)
        self.server = self.serving(live)
        self.addCleanup(self.server.close)
        self.client = self.another()
        live.session, stop = self.client.session, live.stop

        def leave_and_stop():
            self.client.leave(120.0)  # a meeting may hold its sessions for 60
            self.server.close()
            return stop()

        live.stop = leave_and_stop
        return live

    def serving(self, live):
        folder = tempfile.TemporaryDirectory()
        self.addCleanup(folder.cleanup)
        self.path = os.path.join(folder.name, "audit")
        return AuditServer(live, self.path)

    def another(self):
        client = AuditClient(self.path)
        self.addCleanup(client.leave)
        return client

    def cut_off(self, client):
        """As if its process were killed."""
        with socket.socket(fileno=os.dup(client._messages._connection.fileno())) as same:
            same.shutdown(socket.SHUT_RDWR)

    def test_who_asks_for_a_place_waits_for_others_no_longer_than_was_said(self):
        self.live(2)
        with self.another() as client, client._requests._asking:
            began = time.monotonic()
            self.assertIsNone(client._requests.ask("join", False, seconds=0.1))
            self.assertLess(time.monotonic() - began, 10)

    def test_a_process_that_is_lost_ends_the_audit_of_all_that_came(self):
        live, store, other = self.live(2, every=1000), MemoryStore(), self.another()
        a, b = self.client.session(store.connect()), other.session(store.connect())
        for session in (a, b):
            session.run(add_one("x"))
        self.wait_for(lambda: live.taken_in == 2)
        self.cut_off(other)
        self.wait_for(lambda: live.is_over and self.client.is_over and other.is_over)
        self.assertIsInstance(live.failure, ProgramEndedError)
        self.assertIn(f"the client process with sessions {b.number} was lost", str(live.failure))
        self.assertEqual((live.report.kind, live.taken_in), ("serial", 2))
        a.run(add_one("x"))  # the client goes on

    def test_clients_go_on_where_the_audit_is_gone(self):
        live, store, other = self.live(3, every=1, idle=600.0), MemoryStore(), self.another()
        a, b = self.client.session(store.connect()), other.session(store.connect())
        b.run(add_one("x"))
        b.used_at -= 700
        self.wait_for(lambda: self.is_cut(live, a) and not b.is_open)
        b.run(add_one("x"))
        self.cut_off(other)
        self.wait_for(lambda: other._is_gone)
        b.run(add_one("x"))
        self.wait_for(lambda: live.is_over)
        self.assertIn("was lost", str(live.failure))

    def test_no_more_idle_sessions_are_closed_than_others_are_left(self):
        live, store = self.live(4, every=1, idle=600.0), MemoryStore()
        a, b, c = (live.session(store.connect()) for _ in range(3))
        for session in (b, c):
            session.run(add_one("x"))
            session.used_at -= 700
        self.wait_for(lambda: self.is_cut(live, a) and not (b.is_open and c.is_open))
        for session in (b, c):
            session.run(add_one("x"))
        self.assertEqual(self.ended(live).kind, "serial")

    def test_who_comes_after_the_end_is_told(self):
        live, store = self.live(2, every=1), MemoryStore()
        self.auditor.program.kill()
        self.client.session(store.connect()).run(add_one("x"))
        self.wait_for(lambda: live.is_over)
        other = self.another()
        self.wait_for(lambda: other.is_over)
        session = other.session(store.connect())
        for _ in range(50):
            session.run(add_one("x"))
        other.leave()
        self.wait_for(lambda: len(live._backlog) < 10)

    def test_what_is_run_for_a_session_that_is_left_comes_late(self):
        self.addCleanup(setattr, RemoteGroup, "patience", RemoteGroup.patience)
        live, store = self.live(2, every=1, patience=0.2), MemoryStore()
        a, pass_on, late = self.client.session(store.connect()), self.client._group.pass_on, []

        def later(*arguments):
            if not late:
                late.append(time.sleep(1.0))
            return pass_on(*arguments)

        self.client._group.pass_on, RemoteGroup.patience = later, 0.2

        def is_late():  # after a meeting that fails only because everything is slow, there is another one
            a.run(add_one("x"))
            return any("didn't answer" in line for line in self.told)

        self.wait_for(is_late)
        RemoteGroup.patience = live._pace.patience = 60.0
        self.wait_for(live._pool.numbers)
        self.wait_for(lambda: self.is_cut(live, a))
        self.wait_for(live._pool.numbers)
        self.assertEqual(self.client.session(store.connect()).number, 1)
        self.assertEqual(self.ended(live).kind, "serial")

    def test_a_socket_that_is_left_of_a_killed_server_is_in_nobodys_way(self):
        with tempfile.TemporaryDirectory() as folder:
            path = os.path.join(folder, "audit")
            with socket.socket(socket.AF_UNIX) as killed:
                killed.bind(path)
            live = self.live(1)
            with AuditServer(live, path), AuditClient(path) as client:
                client.session(MemoryStore().connect()).run(add_one("x"))
            self.assertEqual((self.ended(live).kind, live.taken_in), ("serial", 1))

    def test_a_session_in_a_transaction_can_not_be_left(self):
        live, store, other = self.live(2), MemoryStore(), self.another()
        self.client.session(store.connect()).run(add_one("x"))
        begun = other.session(store.connect())
        begun.begin()
        other.leave(0.05)
        self.wait_for(lambda: live.is_over)
        self.assertIn("in a transaction", str(live.failure))

    def test_a_process_without_sessions_may_go(self):
        live, store, other = self.live(1), MemoryStore(), self.another()
        self.cut_off(other)
        a = self.client.session(store.connect())
        a.run(add_one("x"))
        self.assertEqual((self.ended(live).kind, live.failure), ("serial", None))

    def test_clients_are_told_of_a_violation(self):
        live, store, other = self.live(2, every=10), MemoryStore("stale-read"), self.another()
        sessions = [each.session(store.connect()) for each in (self.client, other)]

        def is_told():
            for session in sessions:
                session.run(add_one("x"))
            return self.client.is_over and other.is_over

        self.wait_for(is_told)
        other.leave()
        self.assertEqual(self.ended(live).kind, "violated")

    def test_a_process_that_does_not_answer_prevents_the_meeting(self):
        self.addCleanup(setattr, RemoteGroup, "patience", RemoteGroup.patience)
        RemoteGroup.patience = 0.1
        live, store, other = self.live(2, every=1, patience=0.05), MemoryStore(), self.another()
        a, b = self.client.session(store.connect()), other.session(store.connect())
        (stuck,) = [it.messages for it in self.server._processes if b.number in it.group.numbers()]
        plain, stuck.tell = stuck.tell, lambda *_, **__: True  # calls don't arrive

        def is_missed():  # a's process may be late, too
            a.run(add_one("x"))
            return any(f"sessions {b.number} didn't answer" in line for line in self.told)

        self.wait_for(is_missed)
        RemoteGroup.patience, live._pace.patience, stuck.tell = 60.0, 60.0, plain  # on a busy machine
        self.wait_for(lambda: self.is_cut(live, a))
        other.leave()
        self.assertEqual(self.ended(live).kind, "serial")

    def test_what_could_not_be_lent_is_left(self):
        live, store = self.live(2, every=1000), MemoryStore()
        a, b = (self.client.session(store.connect()) for _ in range(2))
        b.run(add_one("x"))
        b.close()
        self.wait_for(live._pool.numbers)
        (stuck,) = [it.messages for it in self.server._processes if a.number in it.group.numbers()]
        plain, stuck.tell = stuck.tell, lambda *_, **__: False  # nothing can be sent
        live._pace.every = 1
        self.wait_for(lambda: any("a process has left" in line for line in self.told))
        stuck.tell = plain
        self.wait_for(lambda: self.is_cut(live, a))
        self.wait_for(live._pool.numbers)
        self.assertEqual(self.ended(live).kind, "serial")

    def is_cut(self, live, session):
        session.run(add_one("x"))
        return live.cuts > 0

    def test_a_key_that_can_not_be_handed_over_ends_the_audit_and_no_client(self):
        class Key(str):
            """Can't be packed."""

        live, store = self.live(1), MemoryStore()
        a = live.session(store.connect())
        a.run(add_one(Key("x")))
        self.assertEqual(a.run(lambda transaction: transaction.get("x")), 1)
        self.wait_for(lambda: live.is_over)
        self.assertIn("can't hand over transaction 0 of session 0", str(live.failure))

    def test_another_program_is_let_in(self):
        live = self.live(1)
        program = (
            "import sys; sys.path.insert(0, sys.argv[1]); from zanteyard import AuditClient; from zanteyard.stores.memory import MemoryStore\n"
            "with AuditClient(sys.argv[2]) as client:\n"
            "    session = client.session(MemoryStore().connect())\n"
            "    for _ in range(50): session.run(lambda t: t.put('x', (t.get('x') or 0) + 1))\n"
        )
        subprocess.run([sys.executable, "-I", "-c", program, PLACE, self.path], check=True, timeout=600)
        self.assertEqual(self.ended(live).kind, "serial")
        self.assertGreaterEqual(live.taken_in, 50)
