"""Two stores with one auditor would look like one faulty store: the second store is refused,
wherever its client is, and one store that is reached in two ways is accepted."""
import json
import logging
import os
import subprocess
import sys
import tempfile
import threading
import unittest
from unittest import mock

from zanteyard import AbortedError, AuditClient, Auditor, AuditServer, LiveAuditor, Policy, Session
from zanteyard import StoreUnfitError
from zanteyard.core._store_identity import LONGEST, UNSURE, UNTOLD, AuditedStore, StoreIdentity
from zanteyard.core._store_identity import checked, identity_of
from zanteyard.core.errors import AuditLostError
from zanteyard.stores import sqlite
from zanteyard.stores.memory import MemoryStore
from zanteyard.trial.mariadb_server import MariaDBServer, mariadbd
from zanteyard.trial.postgres_server import STARTING, PostgresServer, program
from zanteyard.trial.redis_server import RedisServer, redis_server

from .store_client import count, store_of
from .waiting import SOON, at_a_free_port, wait_until

try:
    import psycopg2

    from zanteyard.stores import postgres
except ImportError:
    psycopg2 = None
try:
    import redis
except ImportError:
    redis = None
try:
    import pymysql

    from zanteyard.stores import mariadb
except ImportError:
    pymysql = None

HERE = os.path.dirname(os.path.abspath(__file__))
PLAIN = os.path.join(HERE, "plain_auditor.py")  # it answers as cobra_audit does
PATIENT = Policy(SOON, begins_anew=False)


class Quiet(unittest.TestCase):
    def setUp(self):
        super().setUp()
        logging.getLogger("zanteyard").setLevel(logging.CRITICAL)
        self.addCleanup(logging.getLogger("zanteyard").setLevel, logging.NOTSET)
        folder = tempfile.TemporaryDirectory()
        self.addCleanup(folder.cleanup)
        self.folder = folder.name

    def auditor(self, sessions=2, **more):
        auditor = Auditor(sessions, program=PLAIN, policy=PATIENT, **more)
        self.addCleanup(auditor.end)
        return auditor

    def live(self, auditor=None, **more):
        more = {"policy": PATIENT, "every": 1000, "seconds": 600.0, "patience": SOON, **more}
        live = LiveAuditor(auditor or self.auditor(), **more)
        self.addCleanup(live.stop, 0.0)
        return live


class Pairs:
    """`pairs` has, by name, two stores each, as arguments of `store_of`; `same` has two ways to one
    store."""

    def opened(self, words):
        store = store_of(*words)
        self.addCleanup(store.close)
        return store

    def test_a_second_one_is_refused_in_one_process(self):
        for name, (first, second) in self.pairs().items():
            with self.subTest(pair=name):
                auditor = self.auditor()
                alice = Session(auditor, 0, self.opened(first))
                bob = Session(auditor, 1, self.opened(second))
                alice.run(count)
                for _ in range(2):
                    with self.assertRaisesRegex(StoreUnfitError, self.shown):
                        bob.run(count)
                self.assertEqual(bob.begun, 0)
                bob.store = self.opened(first)
                bob.run(count)
                outcome = auditor.outcome()
                self.assertEqual((outcome.kind, outcome.audited), ("serial", 2), outcome)

    def test_a_second_one_is_refused_in_another_process(self):
        for name, (first, second) in self.pairs().items():
            with self.subTest(pair=name):
                live = self.live()
                address = f"{self.folder}/audit {name}"
                with AuditServer(live, address):
                    self.see_two(live, address, first, second)

    def see_two(self, live, address, first, second):
        with AuditClient(address) as client:
            client.session(self.opened(first)).run(count)
            self.assertRegex(self.told_by(address, second), f"refused: .*{self.shown}")
            self.assertEqual(self.told_by(address, first), "done\n")
            with self.assertRaisesRegex(StoreUnfitError, self.shown):
                client.session(self.opened(second)).run(count)
            self.assertTrue(wait_until(lambda: live.taken_in == 2))
        outcome = live.stop()
        self.assertEqual((outcome.kind, outcome.audited), ("serial", 2), outcome)

    def told_by(self, address, words):
        arguments = [words[0], *map(json.dumps, words[1:])]
        call = [sys.executable, "-m", "tests.store_client", address, *arguments]
        place = {"cwd": os.path.join(HERE, ".."), "timeout": SOON}
        return subprocess.run(call, stdout=subprocess.PIPE, text=True, check=True, **place).stdout

    def test_one_by_two_ways_is_one(self):
        for name, ways in self.same().items():
            with self.subTest(ways=name):
                auditor = self.auditor(len(ways))
                for number, words in enumerate(ways):
                    Session(auditor, number, self.opened(words)).run(count)
                outcome = auditor.outcome()
                self.assertEqual((outcome.kind, outcome.audited), ("serial", len(ways)), outcome)


class SQLite(Pairs, Quiet):
    shown = r"table \S+ of the SQLite file .* \(inode \d+\).*table \S+ of the SQLite file .* \(inode \d+\)"

    def path(self, name):
        path = f"{self.folder}/{name}"
        sqlite.prepare(path)
        sqlite.prepare(path, table="other")
        return path

    def pairs(self):
        one, other = self.path("one"), self.path("other")
        return {
            "files": (("sqlite", one), ("sqlite", other)),
            "tables": (("sqlite", one), ("sqlite", one, "immediate", "other")),
        }

    def same(self):
        path = self.path("one")
        os.symlink(path, f"{self.folder}/another")
        return {"paths": (("sqlite", path), ("sqlite", f"{self.folder}/another", "deferred"), ("sqlite", os.path.relpath(path)))}

    def test_another_file_in_its_place_knows_nothing_of_a_commit(self):
        path = self.path("one")
        store = self.opened(("sqlite", path))
        store.begin()
        store.write("x", "1", ("run", 0, 0))
        store.commit()
        asked, ticket = store.asks(), store.ticket(("x", "run", 0, 0))
        self.assertEqual((store.outcome(), sqlite.asked(*asked[1:], ticket=ticket, seconds=SOON)[0]), ("committed",) * 2)
        os.replace(self.path("new"), path)
        self.assertEqual((store.outcome(), sqlite.asked(*asked[1:], ticket=ticket, seconds=SOON)[0]), ("unknown",) * 2)

    def test_databases_in_memory_are_none_that_can_be_told(self):
        self.assertIsNone(self.opened(("sqlite", ":memory:")).identity())


@unittest.skipUnless(psycopg2 and program("initdb"), "PostgreSQL or psycopg2 isn't installed (no two databases were told apart)")
class Postgres(Pairs, Quiet):
    shown = r"table \S+ of database \w+ of the PostgreSQL at .* \(\d+ \d+ \d+\).*table \S+ of database \w+ of the PostgreSQL at"

    class Server(PostgresServer):
        """At localhost, too."""

        def start(self):
            at_a_free_port(self.start_at)

        def start_at(self, port):
            options = f"-c listen_addresses=localhost -c port={port} -c unix_socket_directories={self.folder} -c fsync=off"
            waits = ("-w", "-t", str(STARTING))
            self.run("pg_ctl", "-D", self.data, "-l", f"{self.folder}/log", "-o", options, *waits, "start")
            self.port, self.dsn = port, f"host={self.folder} port={port} user=postgres dbname=postgres"

    @classmethod
    def setUpClass(cls):
        cls.server = cls.Server()
        cls.server.__enter__()
        cls.addClassCleanup(cls.server.__exit__)
        postgres.prepare(cls.server.dsn)
        with cls.admin() as cursor:
            cursor.execute("CREATE DATABASE other")
            cursor.execute("CREATE SCHEMA theirs")
            cursor.execute("CREATE ROLE weak LOGIN")
            cursor.execute("GRANT ALL ON zanteyard TO weak")
        cls.other = cls.server.dsn.replace("dbname=postgres", "dbname=other")
        postgres.prepare(cls.other)
        cls.theirs = f"{cls.server.dsn} options='-c search_path=theirs'"
        postgres.prepare(cls.theirs)

    @classmethod
    def admin(cls):
        connection = psycopg2.connect(cls.server.dsn)
        connection.autocommit = True
        cls.addClassCleanup(connection.close)
        return connection.cursor()

    def setUp(self):
        super().setUp()
        for dsn in (self.server.dsn, self.other, self.theirs):
            connection = psycopg2.connect(dsn)
            with connection, connection.cursor() as cursor:
                cursor.execute("DELETE FROM zanteyard")
            connection.close()

    def pairs(self):
        dsn = self.server.dsn
        return {
            "databases": (("postgres", dsn), ("postgres", self.other)),
            "search paths": (("postgres", dsn), ("postgres", self.theirs)),
            "schemas": (("postgres", dsn), ("postgres", dsn, "serializable", "theirs.zanteyard")),
        }

    def same(self):
        more = f"port={self.server.port} user=postgres dbname=postgres"
        ways = [f"host={host} {more}" for host in (self.server.folder, "localhost", "127.0.0.1")]
        ways.append(f"hostaddr=127.0.0.1 {more}")
        named = ("postgres", self.server.dsn, "read committed", "public.zanteyard")
        return {"addresses": (*(("postgres", dsn) for dsn in ways), named)}

    def test_two_servers(self):
        with PostgresServer() as server:
            postgres.prepare(server.dsn)
            auditor = self.auditor()
            Session(auditor, 0, self.opened(("postgres", self.server.dsn))).run(count)
            with self.assertRaisesRegex(StoreUnfitError, self.shown):
                Session(auditor, 1, self.opened(("postgres", server.dsn))).run(count)

    def test_no_round_trip_more_a_transaction(self):
        sent = []

        class Counting(postgres.PostgresStore):
            def send(self, text, values=()):
                sent.append(text)
                return super().send(text, values)

        store = Counting(self.server.dsn)
        self.addCleanup(store.close)
        session = Session(self.auditor(), 0, store)
        for _ in range(3):
            session.run(count)
        self.assertEqual(len(sent), 3 * 3, sent)  # a read, a write and a commit

    def test_a_table_that_is_not_there_yet_is_none(self):
        """Its first identity would become the audit's."""
        session = Session(self.auditor(), 0, store_of("postgres", self.server.dsn, "serializable", "late"))
        self.addCleanup(session.store.close)
        with self.assertRaises(psycopg2.errors.UndefinedTable):
            session.run(count)
        postgres.prepare(self.server.dsn, "late")
        session.run(count)
        self.assertIn("table late of database postgres", session.met.shown)

    def test_a_role_that_may_not_know_which_server_it_is(self):
        """It is admitted alone, but not next to one that may."""
        with self.admin() as cursor:
            cursor.execute("REVOKE EXECUTE ON FUNCTION pg_control_system() FROM PUBLIC")
            try:
                weak = self.opened(("postgres", self.server.dsn.replace("user=postgres", "user=weak")))
                auditor = self.auditor()
                with self.assertLogs("zanteyard", logging.WARNING) as told:
                    Session(auditor, 0, weak).run(count)
                self.assertIn("permission denied for function pg_control_system", told.output[0])
                self.assertIn("doesn't identify itself", told.output[1])
                with self.assertRaisesRegex(StoreUnfitError, "a store that doesn't identify itself"):
                    Session(auditor, 1, self.opened(("postgres", self.server.dsn))).run(count)
            finally:
                cursor.execute("GRANT EXECUTE ON FUNCTION pg_control_system() TO PUBLIC")


@unittest.skipUnless(redis and redis_server(), "Redis or redis-py isn't installed (no two of them were told apart)")
class Redis(Pairs, Quiet):
    shown = r"database \d of the Redis at .*, prefix '.*' \(store [0-9a-f]+\).*database \d of the Redis at .*"

    def setUp(self):
        super().setUp()
        self.one, self.port = at_a_free_port(self.begun)
        self.other = RedisServer()
        self.other.__enter__()
        self.addCleanup(self.other.__exit__)

    def begun(self, port):
        server = RedisServer("--port", str(port), keeps=True)
        server.__enter__()
        self.addCleanup(server.__exit__)
        return server, port

    def pairs(self):
        one = self.one.dsn
        return {
            "numbers": (("redis", one), ("redis", one.replace("db=0", "db=1"))),
            "prefixes": (("redis", one), ("redis", one, "watched", "other:")),
            "servers": (("redis", one), ("redis", self.other.dsn)),
        }

    def same(self):
        ways = (self.one.dsn, f"redis://localhost:{self.port}/0", f"redis://127.0.0.1:{self.port}")
        return {"addresses": [("redis", url) for url in ways]}

    def test_it_stays_one_where_its_server_is_started_again(self):
        auditor = self.auditor(3)
        alice = Session(auditor, 0, self.opened(("redis", self.one.dsn)))
        alice.run(count)
        self.one.stop()
        self.one.start()
        alice.run(count)
        Session(auditor, 1, self.opened(("redis", self.one.dsn))).run(count)
        outcome = auditor.outcome()
        self.assertEqual((outcome.kind, outcome.audited), ("serial", 3), outcome)

    def test_what_it_lost_as_it_was_started_again_is_told(self):
        """For a client that knows it, it isn't another store."""
        auditor = self.auditor(2)
        store = self.opened(("redis", self.other.dsn))
        alice = Session(auditor, 0, store)
        alice.run(count)
        self.other.stop()
        self.other.start()
        alice.run(count)
        Session(auditor, 1, self.opened(("redis", self.other.dsn))).run(count)
        self.assertEqual(auditor.outcome().kind, "violated")

    def test_who_comes_while_it_is_away_goes_on_when_it_is_there(self):
        live = self.live()
        self.one.stop()
        session = live.session(self.opened(("redis", self.one.dsn)))
        for _ in range(2):
            with self.assertRaises(redis.ConnectionError):
                session.run(count)
        self.assertEqual((session.begun, live.counted), (0, 0))
        self.one.start()
        session.run(count)
        outcome = live.stop()
        self.assertEqual((outcome.kind, outcome.audited), ("serial", 1), outcome)

    def test_one_that_may_not_be_asked_tells_nothing(self):
        admin = redis.Redis.from_url(self.one.dsn)
        self.addCleanup(admin.close)
        admin.execute_command("ACL", "SETUSER", "weak", "on", "nopass", "+@all", "~zanteyard:x", "~zanteyard:zanteyard?last?*")
        store = self.opened(("redis", self.one.dsn.replace("unix://", "unix://weak:@")))
        self.assertIsNone(store.identity())
        session = Session(self.auditor(), 0, store)
        session.run(count)
        self.assertEqual(session.met, UNTOLD)

    def test_one_that_takes_no_writes_can_not_tell_it_yet(self):
        admin = redis.Redis.from_url(self.one.dsn)
        self.addCleanup(admin.close)
        admin.config_set("maxmemory", "1")
        store = self.opened(("redis", self.one.dsn))
        self.assertEqual(store.identity(), UNSURE)
        admin.config_set("maxmemory", "0")
        self.assertEqual(store.identity(), UNSURE)  # of the connection that still exists
        store.hang_up()
        self.assertRegex(store.identity().known, "^redis [0-9a-f]{16} 0 zanteyard:$")

    def test_another_one_knows_nothing_of_a_commit(self):
        from zanteyard.stores.redis import asked

        store = self.opened(("redis", self.one.dsn))
        self.opened(("redis", self.other.dsn)).connect()
        store.begin()
        store.write("x", "1", ("run", 0, 0))
        store.commit()
        asks, ticket = store.asks(), store.ticket(())
        self.assertEqual((store.outcome(), asked(*asks[1:], ticket=ticket, seconds=SOON)[0]), ("committed",) * 2)
        store.url = self.other.dsn
        self.assertEqual((store.outcome(), asked(self.other.dsn, *asks[2:], ticket=ticket, seconds=SOON)[0]), ("unknown",) * 2)


@unittest.skipUnless(pymysql and mariadbd(), "MariaDB or pymysql isn't installed (no two schemas were told apart)")
class MariaDB(Pairs, Quiet):
    shown = r"table \w+\.\w+ of the MariaDB at .* \(store [0-9a-f]+\).*table \w+\.\w+ of the MariaDB at"

    class Server(MariaDBServer):
        """At localhost, too."""

        def __init__(self, port):
            super().__init__()
            self.port = port

        def call(self):
            return [*super().call(), "--skip-networking=0", "--bind-address=127.0.0.1", f"--port={self.port}"]

    @classmethod
    def setUpClass(cls):
        cls.server = at_a_free_port(lambda port: cls.Server(port).__enter__())
        cls.addClassCleanup(cls.server.__exit__)
        cls.other = {**cls.server.dsn, "database": "other"}
        connection = pymysql.connect(**cls.server.dsn)
        connection.cursor().execute("CREATE DATABASE other")
        connection.close()

    def setUp(self):
        super().setUp()
        connection = pymysql.connect(**self.server.dsn)
        self.addCleanup(connection.close)
        self.admin = connection.cursor()
        self.admin.execute("DROP TABLE IF EXISTS zanteyard, second, other.zanteyard")
        mariadb.prepare(self.server.dsn)
        mariadb.prepare(self.other)
        mariadb.prepare(self.server.dsn, "second")

    def pairs(self):
        dsn = self.server.dsn
        return {
            "schemas": (("mariadb", dsn), ("mariadb", self.other)),
            "tables": (("mariadb", dsn), ("mariadb", dsn, "serializable", "second")),
            "schemas by name": (("mariadb", dsn), ("mariadb", dsn, "serializable", "other.zanteyard")),
        }

    def same(self):
        dsn, port = self.server.dsn, self.server.port
        by_name = {"host": "localhost", "port": port, "user": "root", "database": dsn["database"]}
        named = ("mariadb", self.other, "serializable", f"{dsn['database']}.zanteyard")
        ways = (dsn, by_name, {**by_name, "host": "127.0.0.1"})
        return {"addresses": (*(("mariadb", way) for way in ways), named)}

    def test_two_servers_and_one_that_was_prepared_by_an_earlier_version(self):
        self.admin.execute("DELETE FROM zanteyard")
        self.admin.connection.commit()
        with MariaDBServer() as server:
            mariadb.prepare(server.dsn)
            auditor = self.auditor(3)
            for number in range(2):
                Session(auditor, number, self.opened(("mariadb", self.server.dsn))).run(count)
            with self.assertRaisesRegex(StoreUnfitError, self.shown):
                Session(auditor, 2, self.opened(("mariadb", server.dsn))).run(count)

    def test_a_copy_that_was_made_later(self):
        """For example by loading a dump into another server, with the same names."""
        store = self.opened(("mariadb", self.server.dsn))
        before = store.identity()
        store.close()
        made = "SELECT create_time FROM information_schema.tables WHERE table_schema = DATABASE() AND table_name = 'zanteyard'"

        def copy():
            self.admin.execute("CREATE OR REPLACE TABLE copy LIKE zanteyard")
            self.admin.execute("INSERT INTO copy SELECT * FROM zanteyard")
            self.admin.execute("DROP TABLE zanteyard")
            self.admin.execute("RENAME TABLE copy TO zanteyard")
            self.admin.execute(made)
            return self.admin.fetchone()

        self.admin.execute(made)
        first = self.admin.fetchone()
        self.assertTrue(wait_until(lambda: copy() != first))
        self.assertNotEqual(store.identity().known, before.known)
        self.assertEqual(store.identity().shown, before.shown)

    def test_another_one_knows_nothing_of_a_commit(self):
        store = self.opened(("mariadb", self.server.dsn))
        store.begin()
        store.write("x", "1", ("run", 0, 0))
        store.commit()
        asks, ticket = store.asks(), store.ticket(("x", "run", 0, 0))
        self.assertEqual((store.outcome(), mariadb.asked(*asks[1:], ticket=ticket, seconds=SOON)[0]), ("committed",) * 2)
        store.dsn = self.other
        self.assertEqual((store.outcome(), mariadb.asked(self.other, *asks[2:], ticket=ticket, seconds=SOON)[0]), ("unknown",) * 2)


class NoWord:
    """A store of the user's own that doesn't identify itself."""

    def __init__(self, connection):
        for name in ("begin", "read", "write", "commit", "rollback", "outcome"):
            setattr(self, name, getattr(connection, name))


class Told(NoWord):
    def __init__(self, connection, told):
        super().__init__(connection)
        self.told = told

    def identity(self):
        return self.told


class InMemory(Quiet):
    """What is the same for all stores."""

    def stores(self):
        return MemoryStore().connect(), MemoryStore().connect()

    def test_two_in_one_process(self):
        first, second = self.stores()
        auditor = self.auditor()
        Session(auditor, 0, first).run(count)
        with self.assertRaisesRegex(StoreUnfitError, "the in-memory store .*, but this client uses the in-memory store"):
            Session(auditor, 1, second).run(count)
        self.assertEqual(auditor.outcome().kind, "serial")

    def test_two_behind_a_live_auditor(self):
        first, second = self.stores()
        live = self.live()
        a, b = live.session(first), live.session(second)
        a.run(count)
        with self.assertRaises(StoreUnfitError):
            b.run(count)
        outcome = live.stop()
        self.assertEqual((outcome.kind, outcome.audited), ("serial", 1), outcome)

    def test_whoever_comes_first_is_the_only_one(self):
        """Of many that come at once."""
        auditor, came, start = self.auditor(8), [], threading.Barrier(8)

        def client(number, store):
            session = Session(auditor, number, store)
            start.wait(SOON)
            try:
                session.run(count)
                came.append(number)
            except StoreUnfitError:
                pass

        stores = [MemoryStore() for _ in range(8)]
        threads = [threading.Thread(target=client, args=(at, store.connect())) for at, store in enumerate(stores)]
        for thread in threads:
            thread.start()
        for thread in threads:
            thread.join()
        self.assertEqual((len(came), auditor.outcome().kind), (1, "serial"))

    def test_a_client_that_is_led_elsewhere_as_it_runs_goes_on_unaudited(self):
        """After a lost connection, for example: that is the application's choice, and its audit has
        ended."""
        first, second = self.stores()
        auditor = self.auditor()
        session, other = Session(auditor, 0, first), Session(auditor, 1, first.shared.connect())
        session.run(count)
        other.run(count)
        session.store = second
        session.run(count)
        session.run(count)
        self.assertEqual(second.shared.versions["x"][-1][0], "2")
        with self.assertRaises(StoreUnfitError):
            session.fence()
        self.assertNotIn("zanteyard fence", second.shared.versions)
        outcome = auditor.outcome()
        self.assertEqual(outcome.kind, "incomplete")
        self.assertIsInstance(outcome.failure, StoreUnfitError)

    def test_a_meeting_writes_nothing_elsewhere(self):
        first, second = self.stores()
        live = self.live()
        session = live.session(first)
        session.run(count)
        session.store = second
        met = live._coordinator.meet(SOON, 600.0)
        self.assertIn("one auditor would take two stores", str(met.failure))
        self.assertEqual([*second.shared.versions], [])
        session.store = first
        session.run(count)
        self.assertIsNone(live._coordinator.meet(SOON, 600.0).failure)
        outcome = live.stop()
        self.assertEqual(outcome.kind, "serial", outcome)

    def test_one_that_tells_nothing_is_let_in_and_not_beside_one_that_tells(self):
        first, second = self.stores()
        for stores in ((NoWord(first), second), (first, NoWord(second)), (Told(first, None), second)):
            auditor = self.auditor()
            Session(auditor, 0, stores[0]).run(count)
            with self.assertRaisesRegex(StoreUnfitError, "a store class of your own identifies its store by `identity`"):
                Session(auditor, 1, stores[1]).run(count)
        auditor = self.auditor()
        with self.assertLogs("zanteyard", logging.WARNING) as told:
            for number in range(2):
                Session(auditor, number, NoWord(first.shared.connect())).run(count)
        self.assertEqual(len(told.output), 1)
        self.assertIn("nobody notices", told.output[0])

    def test_one_of_the_users_own_tells_a_text(self):
        first, second = self.stores()
        auditor = self.auditor(3)
        Session(auditor, 0, Told(first, "bank at rack 3")).run(count)
        Session(auditor, 1, Told(first.shared.connect(), "bank at rack 3")).run(count)
        with self.assertRaisesRegex(StoreUnfitError, "of bank at rack 3, but this client uses bank at rack 4"):
            Session(auditor, 2, Told(second, "bank at rack 4")).run(count)
        self.assertEqual(auditor.outcome().kind, "serial")

    def test_what_is_no_identity(self):
        for told in (3, ("a",), ("a", 3), (3, "a"), b"ab"):
            with self.subTest(told=told), self.assertRaises((ValueError, TypeError)):
                identity_of(told)
        self.assertEqual(identity_of(["a", "b"]), StoreIdentity("a", "b"))
        for one in (("a" * LONGEST, "a" * (LONGEST + 1)), (None, "a"), ("a", None)):
            with self.assertRaises(ValueError):
                checked(*one)

    def test_what_is_too_long_to_be_sent(self):
        one, other = (identity_of(StoreIdentity(f"{'a' * LONGEST}{last}", f"{'b' * LONGEST}{last}")) for last in "cd")
        self.assertNotEqual(one.known, other.known)
        self.assertEqual((one.shown, identity_of(f"{'a' * LONGEST}c").known), ("b" * LONGEST, one.known))
        checked(*one)

    def test_what_a_name_has_of_control_characters_is_shown(self):
        audited = AuditedStore()
        audited.meet(StoreIdentity("a", "one\x1b[2J"))
        with self.assertRaises(StoreUnfitError) as raised:
            audited.meet(StoreIdentity("b", "other\nserial"))
        self.assertNotIn("\x1b", str(raised.exception))
        self.assertNotIn("\n", str(raised.exception))

    def test_nobody_is_refused_where_nothing_is_audited_any_more(self):
        first, second = self.stores()
        live = self.live(policy=Policy(SOON, begins_anew=False))
        a = live.session(first)
        a.run(count)
        live.lose(AuditLostError("for a test"))
        self.assertTrue(wait_until(lambda: live.is_over))
        live.session(second).run(count)
        self.assertEqual(live.stop().kind, "incomplete")

    def test_a_new_audit_of_a_run_is_about_the_same(self):
        first, second = self.stores()
        live = self.live(self.auditor(), policy=Policy(SOON, pause=0.01))
        a, b = live.session(first.shared.connect()), live.session(second)
        a.run(count)
        name = live.name
        live.lose(AuditLostError("for a test"))
        self.assertTrue(wait_until(lambda: live.name != name))
        with self.assertRaises(StoreUnfitError):
            b.run(count)
        live.stop()

    def test_one_that_can_not_tell_it_now_is_asked_again(self):
        """For example a Redis whose memory is full. Nothing is audited until then, and the
        application goes on."""
        first, _ = self.stores()
        store = Told(first, UNSURE)
        asked = []
        store.hang_up = lambda: asked.append(store.told)
        auditor = self.auditor()
        session = Session(auditor, 0, store)
        session.run(count)
        self.assertEqual((asked, auditor.audited_store.identity), ([], None))
        store.told = "bank"
        session.run(count)
        self.assertEqual((asked, session.met, session.unmet), (["bank"], StoreIdentity("bank", "bank"), None))
        outcome = auditor.outcome()
        self.assertEqual(outcome.kind, "incomplete")
        self.assertIn("it can't identify itself now", str(outcome.failure))

    def test_what_was_aborted_before_it_could_tell_is_no_loss(self):
        first, _ = self.stores()
        store = Told(first, UNSURE)
        auditor = self.auditor()
        session = Session(auditor, 0, store)
        with self.assertRaises(AbortedError), session.transaction() as transaction:
            transaction.get("x")
            transaction.put("x", "1")
            raise AbortedError("for a test")
        store.told = "bank"
        session.run(count)
        outcome = auditor.outcome()
        self.assertEqual((outcome.kind, outcome.audited), ("serial", 2), outcome)
        nothing = auditor.history[0][0]
        self.assertEqual((nothing.outcome, *map(list, nothing.did), nothing.is_undone), ("aborted", [], [], False))

    def test_one_that_was_never_reached_is_nobodys(self):
        class Away(NoWord):
            def __init__(self):
                pass

            def begin(self):
                raise ConnectionError("for a test")

        first, _ = self.stores()
        auditor = self.auditor()
        session = Session(auditor, 0, Away())
        with self.assertRaises(ConnectionError):
            session.run(count)
        session.store = first
        session.run(count)
        self.assertEqual((auditor.outcome().kind, session.met), ("serial", first.shared.identity))

    # the auditor's process doesn't answer

    def late(self, second):
        """The result with two clients, of which the second uses a store before it is told whether
        it may."""
        first = MemoryStore()
        live = self.live(self.auditor(3), policy=Policy(0.05, pause=0.01))
        with AuditServer(live, f"{self.folder}/audit") as server:
            with AuditClient(server.path) as one, AuditClient(server.path) as other:
                one.session(first.connect()).run(count)
                self.assertTrue(wait_until(lambda: live.taken_in == 1))
                session, never = other.session(second or first.connect()), {"store": lambda *_: None}
                with mock.patch.dict(server._processes[1]._deeds, never):
                    for _ in range(3):
                        session.run(count)
        return live.stop()

    def test_a_client_goes_on_and_nothing_of_it_is_lost(self):
        outcome = self.late(None)
        self.assertEqual((outcome.kind, outcome.audited), ("serial", 4), outcome)

    def test_nothing_is_taken_of_another_store(self):
        second = MemoryStore().connect()
        outcome = self.late(second)
        self.assertEqual(second.shared.versions["x"][-1][0], "3")  # the application's
        self.assertEqual(outcome.kind, "incomplete", outcome)
        self.assertIn("one auditor would take two stores", str(outcome))
        self.assertEqual(outcome.audited, 1, outcome)


class OverJournals(Quiet):
    def with_one(self):
        """An auditor that has taken in one transaction of a store, its journal, and the store."""
        path, store = f"{self.folder}/journal", MemoryStore()
        auditor = self.auditor(journal=path)
        Session(auditor, 0, store.connect()).run(count)
        self.assertTrue(wait_until(lambda: auditor.received[0] == 1))
        return auditor, path, store

    def test_a_journal_knows_which_store_it_is(self):
        auditor, path, store = self.with_one()
        auditor.end()
        resumed = Auditor.resumed(path, PLAIN)
        self.addCleanup(resumed.end)
        self.assertEqual(resumed.audited_store.identity, store.identity)
        with self.assertRaises(StoreUnfitError):
            resumed.meet_store(MemoryStore().identity)

    def test_one_that_was_written_anew_knows_it(self):
        path = f"{self.folder}/journal"
        store = MemoryStore()
        auditor = self.auditor(1, journal=path)
        session = Session(auditor, 0, store.connect())
        session.run(count)
        session.fence()
        session.run(count)
        auditor.round()
        auditor.truncate()
        auditor.end()
        resumed = Auditor.resumed(path, PLAIN)
        self.addCleanup(resumed.end)
        self.assertEqual(resumed.audited_store.identity, store.identity)

    def test_that_of_a_runs_next_audit_knows_it(self):
        auditor, path, store = self.with_one()
        auditor.start_anew()
        auditor.end()
        resumed = Auditor.resumed(path, PLAIN)
        self.addCleanup(resumed.end)
        self.assertEqual((resumed.audits, resumed.audited_store.identity), (2, store.identity))

    def test_one_of_before_any_client_came_knows_none(self):
        path = f"{self.folder}/journal"
        self.auditor(journal=path).end()
        resumed = Auditor.resumed(path, PLAIN)
        self.addCleanup(resumed.end)
        self.assertIsNone(resumed.audited_store.identity)

if __name__ == "__main__":
    unittest.main()
