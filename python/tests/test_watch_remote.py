"""Two proxies feed one audit over a Redis: that of `zanteyard watch`, and `zanteyard proxy`. With a
real PostgreSQL and a real Redis."""
import contextlib
import io
import os
import shutil
import subprocess
import sys
import tempfile
import threading
import time
import unittest
from unittest import mock

from zanteyard.cli._main import main
from zanteyard.program._binaries import PROGRAM
from zanteyard.trial.postgres_server import PostgresServer, program
from zanteyard.trial.redis_server import RedisServer, redis_server
from zanteyard.watch.pages import _figures as figures
from zanteyard.watch.pages import _live_page as live_page
from zanteyard.watch.pages import _prometheus as prometheus
from zanteyard.watch.postgres._database import Database
from zanteyard.watch.outcome._feed import command, seen_of
from zanteyard.program._proxy_program import proxy_path
from zanteyard.watch._run import Plan, Run

from tests import watch_feed as feed
from tests.test_watch_page import EVIL, SHOWN_EVIL, status

try:
    import psycopg2
except ImportError:
    psycopg2 = None
LIMIT = 240.0  # seconds within which the result has to be found
REMOTE = {
    "proxies": [{"name": "web-2", "feeds": False, "transactions": 7, "connections": 0, "silent": 9}],
    "refused": 3,
    "down": "connection refused",
}


class Words(unittest.TestCase):
    """Mistakes in a call are reported before anything begins."""

    def setUp(self):
        self.folder = tempfile.mkdtemp()
        self.addCleanup(shutil.rmtree, self.folder)
        # Other tests of this process may have set what is missing here.
        its = {name: it for name, it in os.environ.items() if not name.startswith("ZANTEYARD_")}
        its["ZANTEYARD_PROXY"] = os.path.abspath(proxy_path())
        run = mock.patch("os.execve", side_effect=AssertionError("it isn't a mistake, and would run"))
        for each in (mock.patch.dict(os.environ, its, clear=True), run):
            each.start()
            self.addCleanup(each.stop)

    def key(self, mode, text="0123456789abcdef"):
        path = os.path.join(self.folder, f"key{mode:o}{len(text)}")
        with open(path, "w", encoding="utf-8") as file:
            file.write(text)
        os.chmod(path, mode)
        return path

    def test_mistakes(self):
        shared = ["--redis", "redis://127.0.0.1:1", "--audit", "shop"]
        for command, words, wanted in (
            ("proxy", ["postgresql://x/y"], "--redis is missing"),
            ("proxy", [*shared, "--key", "k"], "no server was given"),
            ("proxy", ["postgresql://x/y", *shared], "--key is missing"),
            ("watch", ["postgresql://x/y", *shared], "--key is missing"),
            ("watch", ["postgresql://x/y", *shared, "--key", "/nowhere/k"], "can't read the key"),
            ("watch", ["postgresql://x/y", *shared, "--key", self.key(0o640)], "chmod 600"),
            ("proxy", ["postgresql://x/y", *shared, "--key", self.key(0o600, "x")], "fewer than 16"),
        ):
            told = io.StringIO()
            with self.subTest(command=command, words=words), contextlib.redirect_stderr(told):
                self.assertEqual(main([command, *words]), 2)
                self.assertIn(wanted, told.getvalue())

    def test_what_is_said_of_others(self):
        seen = seen_of(feed.coverage(remote=REMOTE))
        (one,) = seen.others.proxies
        self.assertEqual((one.name, one.feeds, one.transactions, one.silent), ("web-2", False, 7, 9))
        self.assertEqual((seen.others.refused, seen.others.down), (3, "connection refused"))
        self.assertIsNone(seen_of(feed.coverage()).others)
        page = live_page.whole_page(status(seen=seen))
        for wanted in ("Other proxies", "web-2", "silent for 9.0 s", "3 messages refused", "refused."):
            self.assertIn(wanted, page)
        told = prometheus.text_of(figures.families(status(seen=seen)))
        for wanted in ("other_proxies 0", "messages_refused_total 3", "redis_up 0"):
            self.assertIn(f"zanteyard_{wanted}\n", told)
        evil = {"proxies": [{"name": EVIL}], "down": EVIL}
        page = live_page.whole_page(status(seen=seen_of(feed.coverage(remote=evil))))
        self.assertEqual((page.count(SHOWN_EVIL), EVIL in page), (2, False))
        self.assertNotIn("Other proxies", live_page.whole_page(status()))
        self.assertNotIn("redis_up", prometheus.text_of(figures.families(status())))
        self.assertIsNone(seen_of(feed.coverage(remote=5)).others)
        for wrong, count in (({"proxies": 7}, 0), ({"proxies": [3]}, 1), ({}, 0)):
            self.assertEqual(len(seen_of(feed.coverage(remote=wrong)).others.proxies), count)


@unittest.skipUnless(psycopg2 and program("initdb"), "PostgreSQL or psycopg2 is not installed")
@unittest.skipUnless(redis_server(), "Redis is not installed")
@unittest.skipUnless(os.path.isfile(proxy_path()), "the proxy is not built")
@unittest.skipUnless(os.path.isfile(PROGRAM), f"{PROGRAM} is not built")
class OneAudit(unittest.TestCase):
    @classmethod
    def setUpClass(cls):
        cls.cluster, cls.redis = PostgresServer(), RedisServer()
        for server in (cls.cluster, cls.redis):
            server.__enter__()
            cls.addClassCleanup(server.__exit__)
        cls.url = f"postgresql://postgres@/postgres?host={cls.cluster.folder}"
        with Database(cls.url) as database:
            database.run("ALTER SYSTEM SET wal_level = 'logical'")
        cls.cluster.stop()
        cls.cluster.start()
        with Database(cls.url, options="-c search_path=public") as database:
            database.run("CREATE TABLE stock (id int PRIMARY KEY, qty int NOT NULL)")
            database.run("INSERT INTO stock VALUES (7, 1000000), (8, 1000000)")

    def setUp(self):
        self.folder = tempfile.mkdtemp()
        self.addCleanup(shutil.rmtree, self.folder, ignore_errors=True)
        made = "(umask 077; head -c 32 /dev/urandom | base64 > audit.key)"  # as in docs/WATCH.md
        subprocess.run(made, shell=True, check=True, cwd=self.folder)
        self.key = os.path.join(self.folder, "audit.key")
        self.environment = {**os.environ, "ZANTEYARD_REDIS": self.redis.dsn, "RUNTIME_DIRECTORY": self.folder}
        call = [proxy_path(), "--trust-clients", "--server", self.url, "--listen", self.socket(6432)]
        call += ["--audit", "shop", "--key", self.key]
        self.told, self.status = [], None
        self.watch = Run(
            Plan(call, PROGRAM, "shop", environment=self.environment), self.told.append
        )
        running = threading.Thread(target=self.run_it)
        running.start()
        self.addCleanup(self.end, running)
        self.other = self.begin_other()

    def socket(self, port):
        return f"{self.folder}/.s.PGSQL.{port}"

    def run_it(self):
        self.status = self.watch.run()

    def end(self, running):
        self.watch.stop.set()
        running.join()

    def begin_other(self):
        words = ["-m", "zanteyard", "proxy", "--trust-clients", self.url, "--listen", self.socket(6433)]
        words += ["--audit", "shop", "--key", self.key, "--name", "web-2"]
        log = open(f"{self.folder}/log", "a", encoding="utf-8")
        self.addCleanup(log.close)
        other = subprocess.Popen(
            [sys.executable, *words], env=self.environment, stderr=log, start_new_session=True
        )
        self.addCleanup(other.wait)
        self.addCleanup(other.kill)
        return other

    def connect(self, port, level=None):
        """Connects through a proxy, as soon as it listens."""
        ends = time.monotonic() + LIMIT
        while True:
            try:
                connection = psycopg2.connect(
                    f"host={self.folder} port={port} user=postgres dbname=postgres "
                    f"application_name=shop-{port}"
                )
                break
            except psycopg2.OperationalError:
                self.assertLess(time.monotonic(), ends)
                time.sleep(0.05)
        self.addCleanup(connection.close)
        if level is not None:
            connection.set_session(isolation_level=level)
        return connection

    @staticmethod
    def take(connection, item):
        """Reads a row, and returns a function that writes one less."""
        with connection.cursor() as cursor:
            cursor.execute("SELECT qty FROM stock WHERE id = %s", (item,))
            left = cursor.fetchone()[0] - 1

        def write():
            with connection.cursor() as cursor:
                cursor.execute("UPDATE stock SET qty = %s WHERE id = %s", (left, item))
            connection.commit()

        return write

    def until(self, go_on, is_done):
        ends = time.monotonic() + LIMIT
        while not is_done(self.watch.board.status()):
            self.assertLess(time.monotonic(), ends, "it hasn't come to that in time")
            go_on()

    def feeds(self, status):
        others = status.seen.others
        return others is not None and any(it.feeds and it.connections for it in others.proxies)

    def finish(self):
        self.watch.stop.set()
        ends = time.monotonic() + LIMIT
        while self.status is None and time.monotonic() < ends:
            time.sleep(0.05)
        return "\n".join(self.told)

    def test_a_lost_update_between_clients_of_two_proxies(self):
        """Someone who can write to the Redis adds messages of their own; these are refused."""
        here, there = self.connect(6432), self.connect(6433)
        self.until(lambda: time.sleep(0.1), self.feeds)
        for field in ("m", "x"):
            self.redis_call("XADD", "zanteyard watch shop:proxies", "*", field, "forged")
        self.until(lambda: time.sleep(0.1), lambda status: status.seen.others.refused == 2)

        def lose_one():
            writes = [self.take(here, 7), self.take(there, 7)]
            for write in writes:
                write()
            time.sleep(0.05)

        self.until(lose_one, lambda status: status.violations)
        told = self.finish()
        self.assertEqual(self.status, 1, told)
        for wanted in ("lost update", "stock(id=7)", "shop-6432", "through the proxy web-2"):
            self.assertIn(wanted, told)
        self.assertRegex(told, feed.READ_BELOW)

    def redis_call(self, *words):
        subprocess.run(
            [shutil.which("redis-cli") or "redis-cli", "-s", self.redis.socket, *words],
            check=True, stdout=subprocess.DEVNULL,
        )

    def test_serializable_stays_serial(self):
        """While the Redis is killed and loses everything, and a proxy is killed and replaced."""
        here, there = self.connect(6432, "SERIALIZABLE"), self.connect(6433, "SERIALIZABLE")
        self.until(lambda: time.sleep(0.1), self.feeds)

        def both():
            try:
                writes = [self.take(here, 7), self.take(there, 8), self.take(there, 7)]
                for write in writes:
                    write()
            except psycopg2.errors.SerializationFailure:
                here.rollback()
                there.rollback()
            time.sleep(0.01)

        def checked(more):
            before = self.watch.board.status()

            self.until(both, lambda it: self.feeds(it) and it.seen.reads >= before.seen.reads + more)
            rounds = self.watch.board.status().rounds_count
            self.watch._to_proxy(command("round"))
            self.until(both, lambda it: it.rounds_count > rounds)

        checked(20)
        self.redis.stop()
        self.until(both, lambda status: status.seen.others.down)
        self.redis.start()
        self.until(both, lambda status: not status.seen.others.down)
        checked(20)
        self.other.kill()
        self.other.wait()
        self.until(lambda: time.sleep(0.1), lambda status: not self.feeds(status))
        os.unlink(self.socket(6433))
        self.begin_other()
        there = self.connect(6433, "SERIALIZABLE")
        self.until(lambda: time.sleep(0.1), self.feeds)
        checked(20)
        told = self.finish()
        self.assertEqual(self.status, 0, told)
        self.assertTrue(told.startswith("serial: "), told)


if __name__ == "__main__":
    sys.exit(unittest.main())
