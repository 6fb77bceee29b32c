"""Collectors on other machines, over a Redis: each test of two processes over a socket, and what a
Redis or somebody with access to it may do to messages."""
import json
import os
import signal
import subprocess
import sys
import tempfile
import threading
import unittest
from unittest import mock

from zanteyard import AuditClient, KeyFileError, Logged, NameTakenError
from zanteyard.program._auditor import PROGRAM
from zanteyard.remote._message_text import LARGEST, NoMessageError, logged_of, logged_text, message_of, text_of
from zanteyard.stores.memory import MemoryStore
from zanteyard.stores.sqlite import prepare
from zanteyard.trial.redis_server import redis_server

from . import test_processes
from .test_live import add_one
from .waiting import SOON, wait_until

try:
    import redis

    from zanteyard.remote import _redis_messages
    from zanteyard.remote._redis_server import RedisServer as Server
    from zanteyard.trial.redis_server import RedisServer
except ImportError:
    redis = None

PLACE = os.path.abspath(os.path.join(os.path.dirname(os.path.abspath(__file__)), ".."))
HAS_ALL = bool(redis and redis_server() and os.path.isfile(PROGRAM))
MISSING = "Redis, redis-py or an auditor isn't there (no other machine was audited)"
COUNTS = """
import sys, time
sys.path.insert(0, sys.argv[1])
from zanteyard import AuditClient
from zanteyard.stores.sqlite import SQLiteStore
client = AuditClient(sys.argv[2], audit="bank", key=sys.argv[3])
session = client.session(SQLiteStore(sys.argv[4]))
print("has begun", flush=True)
def add_one(transaction):
    transaction.put("x", (transaction.get("x") or 0) + 1)
for line in sys.stdin:
    for _ in range(int(line)):
        session.run(add_one)
    print(int(client.is_over), flush=True)
client.leave()
"""


class WithRedis:
    @classmethod
    def setUpClass(cls):
        super().setUpClass()
        cls.folder = tempfile.TemporaryDirectory()
        cls.addClassCleanup(cls.folder.cleanup)
        cls.server_of_all = RedisServer()
        cls.server_of_all.__enter__()
        cls.addClassCleanup(cls.server_of_all.__exit__)
        cls.dsn, cls.key = cls.server_of_all.dsn, os.path.join(cls.folder.name, "key")
        with open(os.open(cls.key, os.O_WRONLY | os.O_CREAT, 0o600), "w", encoding="ascii") as file:
            file.write("a key of all that take part")

    def setUp(self):
        super().setUp()
        self.redis = redis.Redis.from_url(self.dsn)
        self.addCleanup(self.redis.close)
        self.redis.flushall()


@unittest.skipUnless(HAS_ALL, MISSING)
class OverRedis(WithRedis, test_processes.Elsewhere):
    """Everything that is tested of processes behind a socket, over a Redis."""

    test_a_socket_that_is_left_of_a_killed_server_is_in_nobodys_way = None
    test_another_program_is_let_in = None  # Daemon has such programs

    def serving(self, live):
        return Server(live, self.dsn, "bank", self.key)

    def another(self, audit="bank", key=None):
        client = AuditClient(self.dsn, audit=audit, key=key or self.key)
        self.addCleanup(client.leave)
        return client

    def cut_off(self, client):
        client._messages.close()

    # signed

    def test_what_is_not_signed_with_the_key_changes_nothing(self):
        live, store = self.live(2), MemoryStore()
        session = self.client.session(store.connect())
        session.run(add_one("x"))
        its, stream = self.client._messages, self.server._shared.clients
        wrote = '["logged", [[0, 1, {"writes": ["x"]}]], 0]'
        text = text_of(self.server.run, its.client, its._number, wrote.encode())
        shared = self.server._shared
        for signature in (b"", b"s" * 32, shared.downwards.sign(text), shared.upwards.sign(text[:-1])):
            self.redis.xadd(stream, {"m": text, "s": signature})
        self.redis.xadd(stream, {"m": text})
        self.redis.xadd(stream, {"something": "else"})
        self.redis.xadd(its._reader._stream, {"m": text, "s": shared.upwards.sign(text)})
        self.wait_for(lambda: self.server.refused >= 6)
        session.run(add_one("x"))
        self.assertEqual((self.ended(live).kind, live.taken_in), ("serial", 2))
        self.assertEqual(self.server.refused, 6)

    def test_a_message_of_another_audit_is_not_signed_for_this_one(self):
        live = self.live(2)
        other = _redis_messages.SharedRedis(self.dsn, "shop", b"a key of all that take part")
        text = text_of(self.server.run, "f" * 32, 0, b'["hello", 5, "0.1.0"]')
        self.redis.xadd(self.server._shared.clients, {"m": text, "s": other.upwards.sign(text)})
        self.wait_for(lambda: self.server.refused == 1)
        self.client.session(MemoryStore().connect()).run(add_one("x"))
        self.assertEqual((self.server.clients, self.ended(live).kind), (1, "serial"))

    def test_who_has_another_key_is_not_answered(self):
        live, key = self.live(2), os.path.join(self.folder.name, "another")
        with open(os.open(key, os.O_WRONLY | os.O_CREAT, 0o600), "w", encoding="ascii") as file:
            file.write("a key that nobody else has")
        with mock.patch("zanteyard.remote._connecting.ANSWERING", 0.5):
            with self.assertRaisesRegex(Exception, "didn't answer"):
                self.another(key=key)
        with self.assertRaises(KeyFileError):
            self.another(key=f"{key} that isn't there")
        with self.assertRaisesRegex(OSError, "no `zanteyard serve` has the audit shop"):
            self.another(audit="shop")
        self.client.session(MemoryStore().connect()).run(add_one("x"))
        self.assertEqual(self.ended(live).kind, "serial")

    # lost, and played again

    def test_a_message_that_is_lost_ends_the_audit(self):
        live, store, other = self.live(2), MemoryStore(), self.another()
        a, b = self.client.session(store.connect()), other.session(store.connect())
        b.run(add_one("x"))
        self.wait_for(lambda: live.taken_in == 1)
        other._messages._number += 1  # one that never arrives
        b.run(add_one("x"))
        self.wait_for(lambda: live.is_over and self.client.is_over and other.is_over)
        self.assertIn("a message from it was lost", str(live.failure))
        self.assertEqual((live.report.kind, live.taken_in), ("serial", 1))
        a.run(add_one("x")), b.run(add_one("x"))  # both go on

    def test_messages_that_are_played_again_change_nothing(self):
        with mock.patch.object(Server, "_drop", lambda *_: None):  # so that it can be read here
            live, store = self.live(2), MemoryStore()
            other, stream = self.another(), self.server._shared.clients
            a, b = self.client.session(store.connect()), other.session(store.connect())
            for _ in range(5):
                a.run(add_one("x")), b.run(add_one("x"))
            self.wait_for(lambda: live.taken_in == 10)
            sent = [fields for _, fields in self.redis.xrange(stream)]
            self.assertGreater(len(sent), 4)
            for fields in sent:
                self.redis.xadd(stream, fields)
            down = other._messages._reader._stream
            for _, fields in self.redis.xrange(down):
                self.redis.xadd(down, fields)
            a.run(add_one("x")), b.run(add_one("x"))
            self.wait_for(lambda: live.taken_in == 12)
            other.leave()
            self.wait_for(lambda: self.server.clients == 1)
            for fields in sent:  # also of who has left
                self.redis.xadd(stream, fields)
            a.run(add_one("x"))
            self.wait_for(lambda: live.taken_in == 13)
            self.assertEqual((self.server.clients, self.server.refused), (1, 0))
            self.assertEqual((self.ended(live).kind, live.taken_in), ("serial", 13))
        again = self.live(2)  # and to another daemon
        for fields in sent:
            self.redis.xadd(self.server._shared.clients, fields)
        self.client.session(MemoryStore().connect()).run(add_one("x"))
        self.assertEqual((self.ended(again).kind, again.taken_in), ("serial", 1))

    def test_a_message_that_may_not_have_arrived_is_sent_again(self):
        live, store = self.live(2), MemoryStore()
        session, its = self.client.session(store.connect()), self.client._messages._shared.redis
        plain, failed = its.xadd, []

        def twice(*arguments, **more):
            plain(*arguments, **more)  # it has arrived, and its answer is lost
            if len(failed) < 5:
                failed.append(arguments)
                raise redis.TimeoutError("no answer")

        with mock.patch.object(its, "xadd", twice):
            for _ in range(10):
                session.run(add_one("x"))
            self.wait_for(lambda: live.taken_in == 10)
        self.assertEqual(len(failed), 5)
        self.assertEqual((self.ended(live).kind, live.taken_in), ("serial", 10))

    # late

    def test_a_redis_that_is_away_for_long_ends_the_audit_and_no_client(self):
        live, store = self.live(2), MemoryStore()
        session = self.client.session(store.connect())
        session.run(add_one("x"))
        self.wait_for(lambda: live.taken_in == 1)
        for its in (self.client._messages._shared, self.server._shared):
            for name in ("xadd", "xread", "set"):
                mock.patch.object(its.redis, name, side_effect=redis.ConnectionError("away")).start()
        self.addCleanup(mock.patch.stopall)
        self.wait_for(lambda: live.is_over and self.client.is_over)
        self.assertIn("the Redis can't be reached: away", str(live.failure))
        session.run(add_one("x"))

    # bounded

    def test_what_is_too_much_is_not_sent(self):
        live, store = self.live(2), MemoryStore()
        session = self.client.session(store.connect())
        long = "k" * LARGEST
        session.run(lambda transaction: transaction.put(long, 1))
        self.wait_for(lambda: live.is_over)
        self.assertIn("the limit is 2097152", str(live.failure))

    def test_who_sends_more_than_can_be_taken_in_is_lost(self):
        live, store, other = self.live(2), MemoryStore(), self.another()
        b = other.session(store.connect())
        b.run(add_one("x"))
        self.wait_for(lambda: live.taken_in == 1)
        (process,) = [it for it in self.server._processes if b.number in it.group.numbers()]
        waits, held = threading.Event(), threading.Event()
        self.addCleanup(held.set)
        process._wait_for_room = lambda: (waits.set(), held.wait(SOON))
        with mock.patch.object(_redis_messages, "MOST_WAITING", 4000):
            b.run(add_one("x"))
            self.assertTrue(waits.wait(SOON))
            for _ in range(10):
                other._messages.tell("beat", "b" * 1000)
            self.wait_for(lambda: process.messages._why)
            held.set()
        self.wait_for(lambda: live.is_over)
        self.assertIn("it sent more than could be taken in", str(live.failure))

    def test_many_large_transactions_are_sent_in_parts(self):
        live, store = self.live(2), MemoryStore()
        session = self.client.session(store.connect())
        for number in range(6):
            session.run(lambda transaction, number=number: transaction.put(f"{number}{'k' * 400_000}", 1))
        self.assertEqual((self.ended(live).kind, live.taken_in), ("serial", 6))

    # one daemon

    def test_an_audit_has_one_daemon(self):
        live = self.live(2)
        with self.assertRaisesRegex(NameTakenError, "another daemon has the audit bank"):
            Server(live, self.dsn, "bank", self.key)
        self.client.leave()
        self.server.close()
        Server(live, self.dsn, "bank", self.key).close()
        self.assertEqual(self.redis.keys("*owner"), [])


class Texts(unittest.TestCase):
    """What another machine sends is checked before it is used."""

    def test_what_was_logged_stays_the_same(self):
        whole = Logged(
            [("x", (0, 1)), ("y", "init")], ["x"], "committed", [(("x", (0, 1)), "GET x"), (("x",), "SET x")],
            [("read", "x", "1")], 1.5, "shop.py:3", [("z", (1, 2))], ["z"], (1, None, "ns"), 1,
        )
        for logged in (whole, Logged([], []), Logged([], [], "aborted"), Logged((), ("\ud800",))):
            same = logged_of(json.loads(logged_text(logged)))
            self.assertEqual(tuples(same), tuples(logged))
            hash(tuples(same))

    def test_what_has_another_form_is_refused(self):
        for fields in (
            None, [], {"read": []}, {"reads": "x"}, {"reads": [["x"]]}, {"reads": [[1, "init"]]}, {"reads": [["x", "first"]]},
            {"reads": [["x", [0, -1]]]}, {"reads": [["x", [0, 1.5]]]}, {"reads": [["x", [True, 1]]]}, {"writes": [1]},
            {"outcome": "perhaps"}, {"statements": [["x", "SET"]]}, {"statements": [[["x"], 1]]}, {"statements": [1]},
            {"values": [["x"]]}, {"began": "now"}, {"span": [1]}, {"caller": 1}, {"from_before": -1}, {"reads": 1},
        ):
            with self.subTest(fields=fields), self.assertRaises(NoMessageError):
                logged_of(fields)
        for logged in (Logged([], [1]), Logged([], [b"x"]), Logged([(1, "init")], []), Logged([], ["k" * LARGEST])):
            with self.subTest(logged=str(logged)[:50]), self.assertRaises(ValueError):
                logged_text(logged)

    def test_a_text_that_is_no_message_is_refused(self):
        right = text_of("r", "c", 7, b'["beat"]')
        self.assertEqual(message_of(right), ("r", "c", 7, ("beat",)))
        deep = b"[" * 100_000
        for text in (
            b"", b"[]", b"{}", b"\xff", deep, b'{"run":"r","client":"c","number":%s,"did":["beat"]}' % deep,
            right.replace(b"7", b"-7"), right.replace(b"7", b"7.5"), right.replace(b"7", b"NaN"), right.replace(b"7", b"9" * 5000),
            right.replace(b'"beat"', b""), right.replace(b'"beat"', b"1"), right.replace(b'"beat"', b'"beat",' + b"[" * 20 + b"]" * 20),
            right.replace(b'"r"', b"1"), right.replace(b'"c"', b"[]"),
        ):
            with self.subTest(text=text[:60]), self.assertRaises(NoMessageError):
                message_of(text)


def tuples(logged):
    return tuple(tuple(field) if isinstance(field, list) else field for field in logged)


@unittest.skipUnless(HAS_ALL, MISSING)
class Daemon(WithRedis, unittest.TestCase):
    """`zanteyard serve`, and programs that share only a Redis and a store with it."""

    def daemon(self, *more):
        folder = tempfile.TemporaryDirectory()
        self.addCleanup(folder.cleanup)
        self.path, self.store = folder.name, f"{folder.name}/store.db"
        prepare(self.store)
        call = [sys.executable, "-m", "zanteyard", "serve", "--folder", f"{self.path}/audit", "--every", "20", "--redis", self.dsn]
        call += ["--audit", "bank", "--key", self.key, "--rather-wait", *more]
        with open(f"{self.path}/log", "wb") as log:
            daemon = subprocess.Popen(call, stderr=log, env={**os.environ, "PYTHONPATH": PLACE})
        self.addCleanup(daemon.wait)
        self.addCleanup(daemon.kill)
        self.wait_for(lambda: "join by the audit bank" in self.said())
        return daemon

    def said(self):
        with open(f"{self.path}/log", encoding="utf-8") as log:
            return log.read()

    def wait_for(self, condition):
        self.assertTrue(wait_until(condition), self.said())

    def program(self):
        call = [sys.executable, "-I", "-c", COUNTS, PLACE, self.dsn, self.key, self.store]
        its = subprocess.Popen(call, stdin=subprocess.PIPE, stdout=subprocess.PIPE, text=True)
        self.addCleanup(end, its)
        self.assertEqual(its.stdout.readline(), "has begun\n")
        return its

    def runs(self, program, count):
        """Whether the audit was over for it after so many transactions."""
        program.stdin.write(f"{count}\n")
        program.stdin.flush()
        return program.stdout.readline() == "1\n"

    def ended(self, daemon, status):
        daemon.send_signal(signal.SIGTERM)
        self.wait_for(lambda: daemon.poll() is not None)
        self.assertEqual(daemon.returncode, status, self.said())

    def test_two_programs_are_audited(self):
        daemon = self.daemon()
        programs = [self.program() for _ in range(2)]
        for _ in range(3):
            self.assertEqual([self.runs(each, 40) for each in programs], [False, False])
        for each in programs:
            each.communicate(timeout=SOON)
            self.assertEqual(each.returncode, 0)
        self.ended(daemon, 0)
        self.assertRegex(self.said(), r"serial: (\d+) of \1 transactions were audited")

    def test_a_program_that_is_killed_ends_the_audit(self):
        daemon = self.daemon()
        first, second = self.program(), self.program()
        self.runs(first, 5), self.runs(second, 5)
        second.kill()
        self.wait_for(lambda: daemon.poll() is not None)
        self.assertEqual(daemon.returncode, 4)
        self.assertIn("it was silent for 3 s: what it did last on its machine is unknown", self.said())
        self.assertTrue(wait_until(lambda: self.runs(first, 1)))

    def test_a_program_that_is_stopped_and_comes_back_late_is_not_audited_again(self):
        """What it then sends isn't taken in, and it learns that the audit is over for it."""
        daemon = self.daemon()
        first, late = self.program(), self.program()
        self.runs(first, 5), self.runs(late, 5)
        late.send_signal(signal.SIGSTOP)
        self.wait_for(lambda: "it was silent for 3 s" in self.said())
        late.send_signal(signal.SIGCONT)
        self.assertTrue(wait_until(lambda: self.runs(late, 1)))
        self.wait_for(lambda: daemon.poll() is not None)
        self.assertEqual(daemon.returncode, 4)
        self.assertNotIn("violated", self.said())

    def test_a_mistake_in_the_call_is_told(self):
        for more, told in (
            (("--audit", "bank"), "--redis is missing"),
            (("--audit", "bank", "--redis", self.dsn), "--key is missing"),
            (("--audit", "bank", "--redis", self.dsn, "--key", "/none"), "can't read the key /none"),
            (("--audit", "bank", "--redis", "unix:///none", "--key", self.key), "can't reach the Redis"),
        ):
            with tempfile.TemporaryDirectory() as folder:
                call = [sys.executable, "-m", "zanteyard", "serve", "--folder", f"{folder}/audit", *more]
                done = subprocess.run(call, capture_output=True, text=True, env={**os.environ, "PYTHONPATH": PLACE}, timeout=SOON)
                self.assertEqual(done.returncode, 2, done.stderr)
                self.assertIn(told, done.stderr)


def end(process):
    process.kill()
    process.communicate()
