"""Sessions over MariaDB, Redis and SQLite, if they are installed: which level has which fault, and
what becomes of a transaction when something goes wrong."""
import argparse
import contextlib
import glob
import io
import logging
import os
import shutil
import signal
import sqlite3
import subprocess
import sys
import tempfile
import threading
import time
import unittest

from zanteyard import AbortedError, Auditor, LiveAuditor, NameTakenError, OutcomeUnknownError, Session
from zanteyard.trial.under_load import CLIENTS, run_at_once
from zanteyard.core._own_keys import FENCE
from zanteyard.program._auditor import PROGRAM
from zanteyard.core.errors import StoreUnfitError
from zanteyard.trial.lockstep import promise_lines, run_lockstep, table_lines, table_of
from zanteyard.trial.mariadb_server import MariaDBServer, mariadbd
from zanteyard.core._outcome import RATHER_WAIT
from zanteyard.trial.redis_server import RedisServer, redis_server
from zanteyard.stores.levels import LEVELS
from zanteyard.stores.sqlite import SQLiteStore
from zanteyard.stores.sqlite import prepare as prepare_sqlite
from zanteyard.trial.store_kinds import kind_named
from zanteyard.trial.workloads import Clients

from .test_faults import Application

try:
    import pymysql

    from zanteyard.stores import mariadb as mariadb_store
except ImportError:
    pymysql = None
try:
    import redis

    from zanteyard.stores import redis as redis_store
except ImportError:
    redis = None

PLACE = os.path.join(os.path.dirname(os.path.abspath(__file__)), "..")
NAME = ("run", 0, 0)
LONG, SOON = 300.0, 120.0  # seconds that a wait would take, and within which it has to end, on a busy machine


def lacking(**wanted):
    missing = [name for name, there in {**wanted, PROGRAM: os.path.isfile(PROGRAM)}.items() if not there]
    return missing and f"not installed or not built: {', '.join(missing)}"


def eventually(condition, seconds=120.0):
    until = time.monotonic() + seconds
    while not condition() and time.monotonic() < until:
        time.sleep(0.01)
    return condition()


class Each:
    """Tests for each store: `store(level, **more)` makes one that doesn't wait for locks by
    default, and `levels` are all levels, the strictest first."""

    faults = {}  # by name of those that show, the levels at which they do
    by_load = ()  # a workload, the levels at which it is serial, and those at which it is violated

    def setUp(self):
        logging.getLogger("zanteyard").setLevel(logging.CRITICAL)
        self.addCleanup(logging.getLogger("zanteyard").setLevel, logging.NOTSET)

    def auditor(self, sessions=3, limit=64, **more):
        auditor = Auditor(sessions, limit, policy=RATHER_WAIT, **more)
        self.addCleanup(auditor.end)
        return auditor

    def sessions(self, *stores, patience=20):
        auditor = self.auditor(len(stores))
        return auditor, [Session(auditor, number, store, patience=patience) for number, store in enumerate(stores)]

    def made(self, level=None, **more):
        store = self.store(level or self.levels[0], **more)
        self.addCleanup(store.close)
        return store

    def value(self, key):
        """The committed value."""
        store = self.made()
        store.begin()
        found = store.read(key)
        store.rollback()
        return found and found[0]

    def test_which_level_has_which_fault(self):
        make_stores = lambda level: [self.store(level) for _ in range(3)]
        found = table_of(make_stores, self.levels, asks_promises=True)
        for fault, seen in found.items():
            name, allowed = self.faults[fault]
            for level, one in zip(self.levels, seen):
                with self.subTest(fault=fault, level=level):
                    self.assertEqual(str(one), name if level in allowed else "serial")
        with open(os.path.join(PLACE, "../docs/STORES.md"), encoding="utf-8") as file:
            text = file.read()
        self.assertIn("\n".join(table_lines(found, self.levels)), text)
        self.assertIn("\n".join(promise_lines(found, self.levels)), text)

    def test_clients_at_once(self):
        for workload, serial, violated in self.by_load:
            for level in (*serial, *violated):
                with self.subTest(workload=workload, level=level):
                    # a violation ends it
                    kind = self.load(workload, level, 0.5 if level in serial else 300.0)
                    self.assertEqual(kind, "serial" if level in serial else "violated")

    def load(self, workload, level, seconds):
        stores = [self.made(level, **self.waiting) for _ in range(CLIENTS)]
        return run_at_once(workload, stores, seconds, names_it=False).kind

    def test_what_is_written_is_read_with_its_name(self):
        for level in self.levels:
            with self.subTest(level=level):
                auditor, (a, b) = self.sessions(self.made(level), self.made(level))
                p = f"{level} "
                a.run(lambda t: (t.put(p + "x", "1"), t.put(p + "ü'\"\\%", "é\n\\'%s")))
                a.run(lambda t: t.delete(p + "x"))
                keys = [p + it for it in ("w", "x", "ü'\"\\%")]
                self.assertEqual(b.run(lambda t: t.get_all(keys)), dict(zip(keys, (None, None, "é\n\\'%s"))))
                b.run(lambda t: t.exchange(p + "x", "3"))
                self.assertEqual(a.run(lambda t: t.get(p + "x")), "3")
                reads = [dict(one.reads) for txns in auditor.history for one in txns if one.reads]
                wanted = {p + "w": "init", p + "x": (0, 1), p + "ü'\"\\%": (0, 0)}
                self.assertEqual(reads, [{p + "x": (1, 1)}, wanted, {p + "x": (0, 1)}])
                self.assertEqual(auditor.round().kind, "serial")

    def test_keys_that_look_alike_are_apart(self):
        _, (a,) = self.sessions(self.made())
        alike = ("alike", "Alike", "alike ", "álike", "alike\0")
        a.run(lambda t: [t.put(key, str(number)) for number, key in enumerate(alike)])
        self.assertEqual([self.value(key) for key in alike], ["0", "1", "2", "3", "4"])

    def test_a_name_that_the_store_knows_is_refused(self):
        for token, wanted in (("one", None), ("one", None), ("other", NameTakenError)):
            store = self.made()
            with self.assertRaises(wanted) if wanted else contextlib.nullcontext():
                store.claim("monday", token, 20)
            store.begin()
            store.rollback()

    def test_fences_at_once_are_in_one_row(self):
        for level in self.levels:
            with self.subTest(level=level):
                auditor = self.auditor(4, 256)
                sessions = [Session(auditor, it, self.made(level, **self.waiting), patience=60) for it in range(4)]
                failures = []

                def client(session):
                    try:
                        for _ in range(8):
                            session.run_alone(lambda t: t.exchange(FENCE, ""), 60.0, attempts=1000)
                    except Exception as error:
                        failures.append(error)

                threads = [threading.Thread(target=client, args=(it,)) for it in sessions]
                [it.start() for it in threads], [it.join() for it in threads]
                self.assertEqual(failures, [])
                done = [it for txns in auditor.history for it in txns if it.outcome == "committed"]
                sources = [source for one in done for _, source in one.reads]
                self.assertEqual((len(sources), len(set(sources))), (32, 32))
                self.assertEqual(auditor.round().kind, "serial")

    def test_a_run_without_an_end(self):
        """At the strictest and at the weakest level: meetings succeed, and what is settled is
        forgotten. Each client increments a row of its own, and writes a common one without reading
        it."""
        for level in (self.levels[0], self.levels[-1]):
            with self.subTest(level=level):
                told = []
                with Auditor(4) as auditor:
                    more = {"tell": told.append, "policy": RATHER_WAIT, "patience": 10.0}
                    live = LiveAuditor(auditor, every=12, seconds=0.5, **more)
                    sessions = [live.session(self.made(level, **self.waiting)) for _ in range(3)]

                    def body(transaction, client):
                        transaction.put(f"own {client}", str(int(transaction.get(f"own {client}") or 0) + 1))
                        transaction.put("blind", str(client))

                    wanted = 2 if level == self.levels[0] else 1
                    until = lambda: live.is_over or live.cuts >= wanted
                    clients = Clients(sessions, body, 120.0, until, 30)
                    outcome = live.stop()
                self.assertEqual(clients.failures, [])
                self.assertEqual((outcome.kind, live.cuts >= wanted), ("serial", True), (str(outcome), told[-3:]))

    def command(self, *words):
        """Its status and its output; in a folder of its own, since it writes files."""
        folder = tempfile.mkdtemp()
        self.addCleanup(shutil.rmtree, folder, ignore_errors=True)
        environment = {**os.environ, "PYTHONPATH": PLACE, "COBRA_AUDIT": os.path.abspath(PROGRAM)}
        more = {"cwd": folder, "env": environment, "stdout": subprocess.PIPE, "stderr": subprocess.STDOUT}
        ended = subprocess.run([sys.executable, *words], text=True, timeout=900, **more)
        return ended.returncode, ended.stdout

    def audit(self, *words, by=("zanteyard",)):
        few = ("--unaudited", "0", "--clients", "3", "--rate", "150", "--rather-wait")
        return self.command("-m", *by, "audit", *self.command_words, *few, *words)

    def test_the_command(self):
        """As with PostgreSQL: a violation ends it, and otherwise it goes on."""
        level, workload = self.audited
        words = ("--level", level, "--workload", workload, "--seconds", "120", "--html", "page.html")
        status, told = self.audit(*words, by=("tests.overlapping", "3", "zanteyard"))
        self.assertEqual(status, 1, told)
        self.assertIn(f"{workload} at ", told)
        self.assertIn(" can come first", told)
        self.assertIn("(page: page.html)", told)
        status, told = self.audit("--workload", workload, "--seconds", "3", "--processes")
        self.assertEqual(status, 0, told)

    def test_nothing_is_left_where_it_is_killed(self):
        """Neither a server nor a folder; SIGHUP comes when a terminal is closed."""
        environment = {**os.environ, "PYTHONPATH": PLACE, "COBRA_AUDIT": os.path.abspath(PROGRAM)}
        words = ["--workload", "counter", "--clients", "2", "--rate", "50", "--seconds", "100", "--unaudited", "0", "--rather-wait"]
        call = [sys.executable, "-m", "zanteyard", "audit", *self.command_words, *words]
        for number, *words in ((signal.SIGHUP,), (signal.SIGKILL,), (signal.SIGKILL, "--processes")):
            with self.subTest(signal=number, words=words):
                folder = tempfile.mkdtemp()
                self.addCleanup(shutil.rmtree, folder, ignore_errors=True)
                os.chmod(folder, 0o711)  # a server in it runs as another user
                more = {"cwd": folder, "env": {**environment, "TMPDIR": folder}, "stderr": subprocess.DEVNULL}
                with subprocess.Popen([*call, *words], stdout=subprocess.PIPE, **more) as running:
                    self.assertTrue(running.stdout.readline().startswith(b"round"))
                    own = f"{folder}/zanteyard-"
                    self.assertTrue(self.left_in(own))
                    running.send_signal(number)
                    told = running.stdout.read()
                if number == signal.SIGHUP:  # the audit ends with what it has seen
                    self.assertEqual(running.returncode, 0, told)
                    self.assertIn(b": serial: ", told)
                else:
                    self.assertEqual(running.returncode, -number)
                self.assertTrue(eventually(lambda: not self.left_in(own)), self.left_in(own))

    def left_in(self, own):
        """The folders whose path begins like this, and the processes that work in them."""
        found = glob.glob(f"{own}*")
        for each in glob.glob("/proc/[0-9]*/cwd"):
            with contextlib.suppress(OSError):
                if os.readlink(each).startswith(own):
                    found.append(each)
        return found

    def test_what_the_example_tells(self):
        level = self.audited[0]
        example = os.path.join(PLACE, "../examples/store_faults.py")
        status, told = self.command(example, *self.command_words, "--level", level, "--fault", "lost update")
        self.assertEqual(status, 0, told)
        self.assertIn("Two clients increment the same number.\n", told)
        self.assertIn("0.1 and 1.0 both read x from 0.0 and both overwrote it", told)

    def test_a_store_that_is_there(self):
        """Nothing that an audit created is left in it."""
        before = self.everything()
        words = ["--dsn", self.dsn_words()]
        asked = argparse.ArgumentParser()
        kind = kind_named(self.command_words[0])
        kind.add_arguments(asked)
        asked = asked.parse_args(words)
        asked.level = kind.default_level
        with contextlib.redirect_stdout(io.StringIO()) as told, kind.server(asked) as used:
            store = kind.maker(asked, used)()
            store.begin(), store.write("x", "1", NAME), store.commit()
            store.claim("monday", "token", 20)
            store.close()
            self.assertGreater(len(self.everything()), len(before))
        self.assertEqual(self.everything(), before)
        self.assertRegex(told.getvalue(), "zanteyard_[0-9a-f]+")

    def killed_under_load(self, server, make_store):
        """Clients increment counters while their server is killed and started again. What they were
        told is committed is there, what they were told is aborted isn't, and one order explains
        everything."""
        stores = [make_store() for _ in range(3)]
        auditor = self.auditor(3, 4000)
        sessions = [Session(auditor, number, store, patience=60) for number, store in enumerate(stores)]
        sessions[0].run(lambda t: t.put("x", "0"))
        application = Application(sessions, pace=0.03)
        for _ in range(2):
            before = application.done
            self.assertTrue(eventually(lambda: application.done > before + 10), application.seen)
            server.stop()
            server.start()
        before = application.done
        self.assertTrue(eventually(lambda: application.done > before + 5), application.seen)
        application.end()
        counted = int(sessions[0].run(lambda t: t.get("x")))
        self.assertEqual((counted, application.unknown), (application.done, 0))
        outcome = auditor.outcome()
        self.assertEqual(outcome.kind, "serial", str(outcome))
        [store.close() for store in stores]

    def lost(self, loses, outcome):
        """A client's commit is sent, or not, and not answered."""
        auditor, (a, b) = self.sessions(loses, self.made())
        try:
            a.run(lambda t: (t.get("lost"), t.put("lost", "1")), attempts=1)
        except AbortedError:
            self.assertEqual(outcome, "aborted")
        wanted = "1" if outcome == "committed" else None
        self.assertEqual(b.run(lambda t: t.get("lost")), wanted)
        self.assertEqual(auditor.history[0][0].outcome, outcome)
        self.assertEqual(auditor.round().kind, "serial")


@unittest.skipIf(lacking(pymysql=pymysql, mariadbd=mariadbd()), lacking(pymysql=pymysql, mariadbd=mariadbd()))
class MariaDB(Each, unittest.TestCase):
    levels = tuple(LEVELS["mariadb"].values()) if pymysql else ()
    faults = {
        "dirty read": ("dirty read", levels[4:]),
        "half written": ("fractured read", levels[4:]),
        "torn read": ("fractured read", levels[3:]),
        "newer write": ("fractured read", levels[2:]),
        "lost update": ("lost update", levels[2:]),
        "write skew": ("write skew", levels[1:]),
        "absent keys": ("write skew", levels[1:]),
    }
    by_load = (
        ("undone", levels[3:4], levels[4:]),
        ("pairs", levels[2:3], levels[3:4]),
        ("counter", levels[1:2], levels[2:3]),
        ("skew", levels[:1], levels[1:2]),
    )
    waiting = {"lock_wait": 20}
    command_words, audited = ("mariadb",), ("repeatable", "counter")

    @classmethod
    def setUpClass(cls):
        cls.server = MariaDBServer()
        cls.server.__enter__()
        cls.addClassCleanup(cls.server.__exit__)

    def setUp(self):
        super().setUp()
        admin = pymysql.connect(**self.server.dsn)
        self.addCleanup(admin.close)
        self.admin = admin.cursor()
        self.admin.execute("DROP TABLE IF EXISTS zanteyard, other")
        mariadb_store.prepare(self.server.dsn)

    def dsn_words(self):
        return " ".join(f"{name}={value}" for name, value in self.server.dsn.items())

    def everything(self):
        self.admin.execute("SHOW TABLES")
        return self.admin.fetchall()

    def store(self, level, of=None, **more):
        return (of or mariadb_store.MariaDBStore)(self.server.dsn, level, **{"lock_wait": 0, **more})

    def test_a_lock_wait_that_is_too_long_ends_the_transaction(self):
        """MariaDB rolls back only the statement: what was written before it must not be
        committed."""
        self.admin.execute("SELECT @@innodb_rollback_on_timeout")
        self.assertEqual(self.admin.fetchone(), (0,))
        for level in self.levels:
            one, other = self.made(level), self.made(level)
            one.begin(), one.write("x", "1", NAME)
            other.begin(), other.write("a", "2", NAME)
            with self.assertRaisesRegex(AbortedError, "1205"):
                other.write("x", "2", NAME)
            for more in (lambda: other.read("x"), lambda: other.write("b", "2", NAME), other.commit):
                self.assertRaises(AbortedError, more)
            other.rollback(), one.rollback()
            self.assertEqual([self.value(key) for key in "abx"], [None] * 3)

    def test_reads_that_lock(self):
        """Existing rows are locked at every level; missing keys only at levels that lock the gaps
        between keys."""
        levels = ("repeatable read", "read committed")
        wanted = {
            "torn read": "serial, serial",
            "newer write": "serial, serial",
            "lost update": "serial, serial",
            "write skew": "serial, serial",
            "absent keys": "serial, write skew",
        }
        for fault, told in wanted.items():
            seen = []
            for level in levels:
                stores = [self.made(level, for_update=True) for _ in range(3)]
                seen.append(str(run_lockstep(fault, stores, f"{level}/{fault}/")))
            self.assertEqual(", ".join(seen), told, fault)

    def test_after_a_deadlock_nothing_is_done_by_itself(self):
        one, other = self.made(**self.waiting), self.made(**self.waiting)
        for store, key in ((one, "x"), (other, "y")):
            store.begin(), store.write(key, "1", NAME)
        ended = []

        def waits():
            try:
                one.write("y", "1", NAME)
            except AbortedError:
                ended.append(one)

        thread = threading.Thread(target=waits)
        thread.start()
        time.sleep(0.2)
        try:
            other.write("x", "1", NAME)
        except AbortedError:
            ended.append(other)
        thread.join()
        (victim,) = ended
        with contextlib.closing(victim.connection.cursor()) as cursor:
            cursor.execute("SELECT @@in_transaction")
            self.assertEqual(cursor.fetchone(), (0,))  # else this would be another test
        self.assertRaises(AbortedError, victim.write, "z", "1", NAME)
        self.assertRaises(AbortedError, victim.commit)
        victim.rollback()
        (other if victim is one else one).commit()
        self.assertEqual([self.value(key) for key in "xyz"], ["1", "1", None])

    def test_statements_that_commit_by_themselves(self):
        make = "CREATE TABLE IF NOT EXISTS other (a int)"
        auditor, (a, b) = self.sessions(self.made(), self.made())
        a.run(lambda t: t.put("x", "1"))
        transaction = a.begin()
        transaction.get("x")
        a.store.connection.cursor().execute(make)
        b.run(lambda t: t.put("x", "2"))
        transaction.put("x", "3")
        with self.assertRaisesRegex(AbortedError, "CREATE TABLE"):
            transaction.commit()
        self.assertEqual(self.value("x"), "2")
        transaction = a.begin()
        transaction.get("x")
        a.store.connection.cursor().execute(make)
        transaction.commit()  # it was a transaction, and is done
        self.assertEqual(auditor.round().kind, "serial")

    def test_a_commit_in_the_middle_of_what_is_written(self):
        class Tears(mariadb_store.MariaDBStore):
            def write(self, key, value, name):
                super().write(key, value, name)
                self.connection.cursor().execute("CREATE TABLE IF NOT EXISTS other (a int)")

        auditor, (a, b) = self.sessions(self.made(of=Tears), self.made(), patience=0.5)
        with self.assertRaises(OutcomeUnknownError):
            a.run(lambda t: (t.get("z"), t.put("x", "1"), t.put("y", "1")))
        self.assertEqual(b.run(lambda t: (t.get("x"), t.get("y"))), ("1", None))
        self.assertEqual((auditor.history[0][0].outcome, a.is_open), ("unknown", False))
        self.assertEqual(auditor.history[0][0].reads, [])

    def test_nothing_is_cut_off(self):
        self.admin.execute("SET GLOBAL sql_mode = ''")
        self.addCleanup(self.admin.execute, "SET GLOBAL sql_mode = DEFAULT")
        auditor, (a,) = self.sessions(self.made())
        with self.assertRaises(pymysql.DataError):
            a.run(lambda t: (t.put("a", "1"), t.put("x" * 513, "1")))
        self.assertEqual((self.value("a"), self.value("x" * 512)), (None, None))
        self.assertEqual(auditor.history[0][0].outcome, "aborted")

    def test_what_a_meeting_reads_was_committed(self):
        level = "read uncommitted"
        one, other = self.made(level, lock_wait=int(LONG)), self.made(level, lock_wait=int(LONG))
        one.begin(), one.exchange("x", "1", NAME)
        other.begin()
        self.assertEqual(other.read("x")[0], "1")
        other.rollback()
        for read in (lambda: other.read("x"), lambda: other.read_all(["w", "x"]), lambda: other.exchange("x", "", NAME)):
            other.begin_alone(0.2)
            began = time.monotonic()
            self.assertRaises(AbortedError, read)
            self.assertLess(time.monotonic() - began, SOON)
        one.rollback()
        other.begin_alone(SOON)
        self.assertIsNone(other.read("x"))

    def test_who_hangs_up_waits_no_longer(self):
        one, other = self.made(), self.made(lock_wait=int(LONG))
        one.begin(), one.write("x", "1", NAME)
        other.begin_alone(LONG)
        hangs_up = threading.Thread(target=lambda: self.begin_to_wait() and other.hang_up())
        hangs_up.start()
        began = time.monotonic()
        self.assertRaises(OutcomeUnknownError, other.exchange, "x", "2", NAME)
        self.assertLess(time.monotonic() - began, SOON)
        hangs_up.join()
        one.rollback()  # now the server may go on with it, or notice that nobody waits
        outcome = other.outcome_within(60.0)
        self.assertEqual(self.value("x"), {"committed": "2", "aborted": None}[outcome])
        other.begin(), other.rollback()  # over another connection

    def begin_to_wait(self):
        """Waits until somebody waits for another one's lock."""

        def is_waiting():
            time.sleep(0.2)  # if asked more than ten times a second, the server repeats its last answer
            self.admin.execute("SELECT count(*) FROM information_schema.innodb_trx WHERE trx_state = 'LOCK WAIT'")
            return self.admin.fetchone()[0] > 0

        return eventually(is_waiting)

    def end_connection(self, store):
        """Waits until the connection has ended, for which the server takes its time."""
        its = store.connection.thread_id()
        self.admin.execute(f"KILL {its}")

        def has_ended():
            self.admin.execute(f"SELECT count(*) FROM information_schema.processlist WHERE id = {its}")
            return self.admin.fetchone()[0] == 0

        self.assertTrue(eventually(has_ended))

    @contextlib.contextmanager
    def commits_that_wait(self):
        """Makes commits wait, as mariabackup does."""
        for stage in ("START", "FLUSH", "BLOCK_DDL", "BLOCK_COMMIT"):
            self.admin.execute(f"BACKUP STAGE {stage}")
        try:
            yield
        finally:
            self.admin.execute("BACKUP STAGE END")

    def test_a_statement_that_waits_at_its_own_commit(self):
        """The server doesn't end it. The client stops waiting for it, and finds out later."""
        store = mariadb_store.MariaDBStore({**self.server.dsn, "read_timeout": 70})
        self.addCleanup(store.close)
        store.begin_alone(SOON), store.exchange("x", "1", NAME)
        asked = (lambda: store.claim("monday", "token", 0.5), lambda: store.exchange("x", "2", NAME))
        for number, call in enumerate(asked):
            store.begin_alone(0.5)
            ended = []

            def run():
                with self.assertRaises(OutcomeUnknownError):
                    call()
                ended.append(store.outcome_within(0.5))

            thread = threading.Thread(target=run, daemon=True)
            with self.commits_that_wait():
                thread.start()
                thread.join(60.0)
                self.assertEqual(ended, ["unknown"], number)
        outcome = store.outcome_within(60.0)
        self.assertEqual(self.value("x"), {"committed": "2", "aborted": "1"}[outcome])
        store.begin(), store.write("x", "3", NAME), store.commit()  # over another connection
        self.assertEqual((self.value("x"), store.connection._read_timeout), ("3", 70))

    def test_answers_to_commits_that_are_lost(self):
        class Lossy(mariadb_store.MariaDBStore):
            def send_commit(self):
                if self.sends:
                    super().send_commit()
                self.connection._force_close()
                raise pymysql.OperationalError(2013, "the answer is lost")

        for sends, outcome in ((False, "aborted"), (True, "committed")):
            with self.subTest(outcome=outcome):
                store = self.made(of=Lossy)
                store.sends = sends
                self.lost(store, outcome)

    def test_who_asks_early_decides(self):
        """While a transaction is open there is no answer; and what was called aborted stays
        aborted."""
        store = self.made()
        store.begin(), store.write("x", "1", NAME)
        self.assertEqual(store.outcome_within(0.3), "unknown")
        store.commit()
        self.assertEqual(store.outcome_within(10.0), "committed")
        store.begin()
        self.assertEqual([store.outcome_within(10.0) for _ in range(2)], ["aborted"] * 2)
        self.assertRaises(pymysql.IntegrityError, store.write, "x", "2", NAME)
        self.assertRaises(AbortedError, store.commit)
        store.rollback()
        self.assertEqual(self.value("x"), "1")
        store.begin(), store.write("x", "3", NAME), store.commit()
        self.assertEqual((store.outcome(), self.value("x")), ("committed", "3"))

    def test_a_connection_that_was_idle_for_too_long(self):
        auditor, (a,) = self.sessions(self.made())
        a.run(lambda t: t.put("x", "1"))
        self.end_connection(a.store)
        a.run(lambda t: t.put("x", "2"))
        transaction = a.begin()
        transaction.get("x")
        self.end_connection(a.store)
        transaction.put("x", "3")
        self.assertRaises((pymysql.MySQLError, AbortedError), transaction.commit)
        a.run(lambda t: t.get("x"))
        self.assertEqual([it.outcome for it in auditor.history[0]], ["committed"] * 2 + ["aborted", "committed"])
        self.assertEqual(auditor.round().kind, "serial")

    def test_a_server_that_is_killed_in_the_commit(self):
        class Killing(mariadb_store.MariaDBStore):
            def send_commit(self):
                server.stop()
                starting.start()
                super().send_commit()

        with MariaDBServer() as server:
            server.restart()
            mariadb_store.prepare(server.dsn)
            starting = threading.Timer(0.5, server.start)
            stores = (Killing(server.dsn), mariadb_store.MariaDBStore(server.dsn))
            auditor, (a, b) = self.sessions(*stores, patience=120)
            b.run(lambda t: t.put("y", "1"))
            with contextlib.suppress(AbortedError):
                a.run(lambda t: (t.get("y"), t.put("x", "1")), attempts=1)
            starting.join()
            with contextlib.suppress(pymysql.MySQLError):
                b.run(lambda t: t.get("x"))
            found = b.run(lambda t: (t.get("x"), t.get("y")))
            outcome = auditor.history[0][0].outcome
            self.assertIn((outcome, found), (("committed", ("1", "1")), ("aborted", (None, "1"))))
            self.assertEqual(auditor.round().kind, "serial")
            for store in stores:
                store.close()

    def test_a_server_that_is_killed_under_load(self):
        with MariaDBServer() as server:
            server.restart()
            mariadb_store.prepare(server.dsn)
            self.killed_under_load(server, lambda: mariadb_store.MariaDBStore(server.dsn))


@unittest.skipIf(lacking(redis=redis, redis_server=redis_server()), lacking(redis=redis, redis_server=redis_server()))
class Redis(Each, unittest.TestCase):
    levels = tuple(LEVELS["redis"].values()) if redis else ()
    faults = {
        "dirty read": ("dirty read", levels[3:]),
        "half written": ("fractured read", levels[3:]),
        "torn read": ("fractured read", levels[1:]),
        "newer write": ("fractured read", levels[1:]),
        "lost update": ("lost update", levels[2:]),
        "write skew": ("write skew", levels[1:]),
        "absent keys": ("write skew", levels[1:]),
    }
    by_load = (
        ("undone", levels[2:3], levels[3:]),
        ("counter", levels[1:2], levels[2:3]),
        ("skew", levels[:1], levels[1:2]),
        ("pairs", levels[:1], levels[1:2]),
    )
    waiting = {}
    command_words, audited = ("redis",), ("unwatched", "counter")

    @classmethod
    def setUpClass(cls):
        cls.server = RedisServer()
        cls.server.__enter__()
        cls.addClassCleanup(cls.server.__exit__)

    def setUp(self):
        super().setUp()
        self.admin = redis.Redis.from_url(self.server.dsn)
        self.addCleanup(self.admin.close)
        self.admin.flushall()

    def dsn_words(self):
        return self.server.dsn

    def everything(self):
        return self.admin.keys("*")

    def store(self, level, of=None, **more):
        return (of or redis_store.RedisStore)(self.server.dsn, level, **more)

    def test_a_key_that_is_watched_after_it_was_read_is_read_too_early(self):
        class Late(redis_store.RedisStore):
            def read(self, key):
                (text,) = self.send(("GET", self.prefix + key))
                self.meanwhile()
                self.send(("WATCH", self.prefix + key))
                return redis_store.found_in(text)

        auditor, (a, b) = self.sessions(self.made(of=Late), self.made())
        b.run(lambda t: t.put("x", "1"))
        a.store.meanwhile = lambda: b.run(lambda t: t.exchange("x", "2"))
        a.run(lambda t: t.put("x", str(int(t.get("x")) + 1)))
        self.assertEqual(auditor.round().kind, "violated")

    def test_whatever_changes_a_key_that_was_read_aborts(self):
        its = "zanteyard:x"
        changes = (
            lambda: self.admin.set(its, "a value with no name"),
            lambda: self.admin.eval("return redis.call('SET', KEYS[1], 'by a script')", 1, its),
            lambda: self.admin.delete(its),
            lambda: self.admin.pexpire(its, 1) and time.sleep(0.05),
            lambda: self.admin.flushdb(),
            lambda: self.admin.copy(its, its + "2") and self.admin.rename(its + "2", its),
        )
        for number, change in enumerate(changes):
            for writes in (True, False):
                with self.subTest(change=number, writes=writes):
                    auditor, (a, b) = self.sessions(self.made(), self.made())
                    b.run(lambda t: t.put("x", "1"))
                    transaction = a.begin()
                    transaction.get("x")
                    change()
                    if writes:
                        transaction.put("y", "1")
                    self.assertRaises(AbortedError, transaction.commit)
                    self.assertIsNone(self.value("y"))

    def test_a_value_that_no_store_has_written_was_there_before(self):
        texts = (
            *("plain", '["too", "short"]', "7", "[1, 2, 3, 4]", '"abcd"', '{"a": 1, "b": 2, "c": 3, "d": 4}'),
            *('["v", "run", 0, 1]', "zanteyard", "zanteyard [", 'zanteyard "abcd"', 'zanteyard ["v", 1, "run", true]'),
        )
        for text in (*texts, b"\xff\xfe"):
            with self.subTest(text=text):
                self.admin.set("zanteyard:x", text)
                auditor, (a,) = self.sessions(self.made())
                wanted = text if isinstance(text, str) else text.decode("utf-8", "surrogateescape")
                self.assertEqual(a.run(lambda t: t.get("x")), wanted)
                self.assertEqual(auditor.history[0][0].reads, [("x", "init")])
                a.run(lambda t: t.put("y", wanted))
                self.assertEqual(self.value("y"), wanted)
        a.run(lambda t: t.put("é", "1"))
        for call in (lambda t: t.get("\udcc3\udca9"), lambda t: t.put("\udcc3\udca9", "2")):
            self.assertRaises(UnicodeEncodeError, a.run, call)  # else it would be é

    def test_values_that_json_would_change_are_refused(self):
        for level in self.levels:
            auditor, (a,) = self.sessions(self.made(level))
            for value in ("1", 1, 1.5, True, ["a", {"b": None}], ""):
                a.run(lambda t: t.put("x", value))
                self.assertEqual(self.value("x"), value)
            for value in ((1, 2), {1: "x"}, float("nan"), b"bytes"):
                with self.subTest(level=level, value=value), self.assertRaises((ValueError, TypeError)):
                    a.run(lambda t: t.put("x", value))
                self.assertEqual(self.value("x"), "")

    def test_what_is_no_text_isnt_read_as_absent(self):
        self.admin.rpush("zanteyard:list", "x")
        for level in self.levels:
            auditor, (a,) = self.sessions(self.made(level))
            a.run(lambda t: t.put("x", "1"))
            for read in (lambda t: t.get("list"), lambda t: t.get_all(["x", "list"])):
                with self.subTest(level=level), self.assertRaises(redis.ResponseError):
                    a.run(read)
                with self.subTest(level=level, alone=True), self.assertRaises(redis.ResponseError):
                    a.run_alone(read, 5.0)
            self.assertEqual(a.run(lambda t: t.get_all(["x", "absent"])), {"x": "1", "absent": None})
            self.assertEqual([it.reads for it in auditor.history[0] if it.reads], [[("absent", "init"), ("x", (0, 0))]])

    def test_databases_are_apart(self):
        one, other = self.made(), redis_store.RedisStore(self.server.dsn.replace("db=0", "db=1"))
        self.addCleanup(other.close)
        one.begin(), one.write("x", "1", NAME), one.commit()
        other.begin()
        self.assertIsNone(other.read("x"))

    def test_a_connection_that_is_lost_forgets_what_it_has_watched(self):
        auditor, (a, b) = self.sessions(self.made(), self.made())
        a.run(lambda t: t.put("x", "1"))
        transaction = a.begin()
        transaction.get("x")
        self.admin.client_kill_filter(_type="normal", skipme=True)
        with contextlib.suppress(redis.ConnectionError):
            b.run(lambda t: t.exchange("x", "2"))
        b.run(lambda t: t.exchange("x", "2"))
        transaction.put("x", "3")
        with self.assertRaises((AbortedError, redis.ConnectionError, OutcomeUnknownError)):
            transaction.commit()
        self.assertEqual(self.value("x"), "2")
        a.run(lambda t: t.put("x", "4"))
        self.assertEqual(auditor.history[0][1].outcome, "aborted")
        self.assertEqual(auditor.round().kind, "serial")

    def test_answers_to_exec_that_are_lost(self):
        class Lossy(redis_store.RedisStore):
            def send_exec(self, commands):
                if self.sends:
                    super().send_exec(commands)
                self.kept, self.connection, self.commands = self.connection, None, commands
                raise redis.ConnectionError("the answer is lost")

        for sends, outcome in ((False, "aborted"), (True, "committed")):
            with self.subTest(outcome=outcome):
                self.admin.flushall()
                store = self.made(of=Lossy)
                store.sends = sends
                self.lost(store, outcome)
                if not sends:  # it had been in flight, and arrives now
                    late = redis_store.replies(store.kept, store.commands)
                    self.assertIsNone(late[-1])
                store.kept.disconnect()
                self.assertEqual(self.value("lost"), "1" if sends else None)

    def test_answers_to_single_commands_that_are_lost(self):
        """Nobody can say whether it was done, so nobody says that it was aborted."""

        class Lossy(redis_store.RedisStore):
            def send(self, *commands):
                answers = super().send(*commands)
                if commands[0][0] == "SET":
                    self.close()
                    raise redis.ConnectionError("the answer is lost")
                return answers

        auditor, (a, b) = self.sessions(self.made("single commands", of=Lossy), self.made(), patience=0.5)
        with self.assertRaises(OutcomeUnknownError):
            a.run(lambda t: (t.put("x", "1"), t.put("y", "1")))
        self.assertEqual(b.run(lambda t: (t.get("x"), t.get("y"))), ("1", None))
        self.assertEqual((auditor.history[0][0].outcome, a.is_open), ("unknown", False))

    def test_what_fails_within_exec_isnt_taken_back(self):
        class Fails(redis_store.RedisStore):
            def send_exec(self, commands):
                return super().send_exec([*commands[:-1], ("INCR", self.prefix + "x"), commands[-1]])

        auditor, (a, b) = self.sessions(self.made(of=Fails), self.made(), patience=0.5)
        with self.assertRaises(OutcomeUnknownError):
            a.run(lambda t: (t.get("z"), t.put("x", "1")))
        self.assertEqual(b.run(lambda t: t.get("x")), "1")
        self.assertEqual((auditor.history[0][0].outcome, auditor.history[0][0].reads, a.is_open), ("unknown", [], False))
        self.assertEqual(auditor.round().kind, "serial")

    def test_what_is_refused_before_exec_is_aborted(self):
        with RedisServer() as server:
            stores = [redis_store.RedisStore(server.dsn) for _ in range(2)]
            auditor, (a, b) = self.sessions(*stores)
            [store.connect() for store in stores]  # before that it would be asked again which store it is
            redis.Redis.from_url(server.dsn).config_set("maxmemory", 1)
            with self.assertRaisesRegex(AbortedError, "OOM|discarded"):
                a.run(lambda t: (t.put("x", "1"), t.put("y", "1")), attempts=1)
            self.assertEqual(b.run(lambda t: (t.get("x"), t.get("y"))), (None, None))
            self.assertEqual(auditor.round().kind, "serial")
            [store.close() for store in stores]

    def test_a_server_that_drops_keys_is_refused(self):
        with RedisServer("--maxmemory", "100mb", "--maxmemory-policy", "allkeys-lru") as server:
            store = redis_store.RedisStore(server.dsn)
            auditor, (a,) = self.sessions(store)
            with self.assertRaisesRegex(StoreUnfitError, "allkeys-lru"):
                a.run(lambda t: t.put("x", "1"))
            self.assertEqual((a.begun, auditor.handed_in), (0, 0))

    def test_a_server_that_stands_still(self):
        """The collector's own statements have their time limits, and their outcomes are found out
        later."""
        with RedisServer() as server:
            stores = [redis_store.RedisStore(server.dsn) for _ in range(2)]
            auditor, (a, b) = self.sessions(*stores)
            a.run(lambda t: t.put("x", "1")), b.run(lambda t: t.get("x"))
            os.kill(server.process.pid, signal.SIGSTOP)
            try:
                began = time.monotonic()
                with self.assertRaises((AbortedError, OutcomeUnknownError)):
                    a.run_alone(lambda t: t.get("x"), 0.3)
                with self.assertRaises((AbortedError, OutcomeUnknownError, redis.RedisError)):
                    b.run_alone(lambda t: t.exchange("x", "2"), 0.3)
                self.assertLess(time.monotonic() - began, SOON)
            finally:
                os.kill(server.process.pid, signal.SIGCONT)
            self.assertEqual(auditor.round().kind, "serial")
            [store.close() for store in stores]

    def test_how_long_the_application_waits_is_its_own(self):
        """Its own limit, from its URL, applies again after the collector's statements; without one
        there is none."""
        for url, wanted in ((f"{self.server.dsn}&socket_timeout=7.5", 7.5), (self.server.dsn, None)):
            store = redis_store.RedisStore(url)
            self.addCleanup(store.close)
            alone = (
                lambda: store.claim("monday", "token", 3.0),
                lambda: store.read("x"),
                lambda: store.read_all(["x", "y"]),
                lambda: store.exchange("x", "1", NAME),
            )
            for call in (store.begin, *alone):
                store.begin_alone(3.0)
                call()
                self.assertEqual(store.connection._sock.gettimeout(), wanted)

    def test_a_server_that_stands_still_as_one_connects(self):
        with RedisServer() as server:
            os.kill(server.process.pid, signal.SIGSTOP)
            try:
                patient, other = redis_store.RedisStore(server.dsn, patience=0.4), redis_store.RedisStore(server.dsn)
                for connects in (patient.begin, lambda: other.begin_alone(0.4)):
                    ended = []

                    def run():
                        with self.assertRaises(redis.TimeoutError):
                            connects()
                        ended.append(True)

                    thread = threading.Thread(target=run, daemon=True)
                    thread.start()
                    thread.join(60.0)  # else it waits forever
                    self.assertEqual(ended, [True])
            finally:
                os.kill(server.process.pid, signal.SIGCONT)

    def test_a_server_that_is_killed_in_the_commit(self):
        class Killing(redis_store.RedisStore):
            def send_exec(self, commands):
                server.stop()
                starting.start()
                return super().send_exec(commands)

        with RedisServer(keeps=True) as server:
            starting = threading.Timer(0.5, server.start)
            stores = (Killing(server.dsn), redis_store.RedisStore(server.dsn))
            auditor, (a, b) = self.sessions(*stores, patience=120)
            b.run(lambda t: t.put("y", "1"))
            with self.assertRaises(AbortedError):
                a.run(lambda t: (t.get("y"), t.put("x", "1")), attempts=1)
            starting.join()
            self.assertEqual(b.run(lambda t: (t.get("x"), t.get("y"))), (None, "1"))
            self.assertEqual(auditor.round().kind, "serial")
            [store.close() for store in stores]

    def test_a_server_that_is_killed_under_load(self):
        with RedisServer(keeps=True) as server:
            self.killed_under_load(server, lambda: redis_store.RedisStore(server.dsn))


@unittest.skipIf(lacking(), lacking())
class SQLite(Each, unittest.TestCase):
    journal = "wal"
    levels = ("immediate", "deferred", "read uncommitted", "autocommit")
    faults = {
        "dirty read": ("dirty read", levels[2:]),
        "half written": ("fractured read", levels[2:]),
        "torn read": ("fractured read", levels[2:]),
        "newer write": ("fractured read", levels[2:]),
        "lost update": ("lost update", levels[2:]),
        "write skew": ("write skew", levels[2:]),
        "absent keys": ("write skew", levels[2:]),
    }
    by_load = (("undone", levels[1:2], levels[2:3]), ("counter", levels[:2], levels[3:]))
    waiting = {"patience": 20.0}
    command_words, audited = ("sqlite",), ("autocommit", "counter")

    def setUp(self):
        super().setUp()
        in_memory = "/dev/shm"  # shared disks would make waits long
        self.folder = tempfile.mkdtemp(dir=in_memory if os.path.isdir(in_memory) else None)
        self.addCleanup(shutil.rmtree, self.folder, ignore_errors=True)
        self.path = f"{self.folder}/a store?"
        prepare_sqlite(self.path, self.journal)

    def dsn_words(self):
        return self.path

    def everything(self):
        with contextlib.closing(sqlite3.connect(self.path)) as connection:
            return connection.execute("SELECT name FROM sqlite_master").fetchall()

    def store(self, level, of=SQLiteStore, **more):
        return of(self.path, level, **{"patience": 0.0, **more})

    def test_a_file_that_isnt_there_isnt_made(self):
        status, told = self.audit("--dsn", f"{self.folder}/typo.db", "--seconds", "1")
        self.assertEqual(status, 2, told)
        self.assertIn("typo.db doesn't exist", told)
        self.assertNotIn("typo.db", os.listdir(self.folder))

    def test_the_journal_is_as_was_asked_for(self):
        with contextlib.closing(sqlite3.connect(self.path)) as connection:
            self.assertEqual(connection.execute("PRAGMA journal_mode").fetchone(), (self.journal,))

    def test_what_a_meeting_asks_ends_in_time(self):
        for level in self.levels[:3]:
            with self.subTest(level=level):
                one, other = self.made(level), self.made(level, patience=LONG)
                one.begin(), one.exchange("x", "1", NAME)
                other.begin_alone(0.2)
                began = time.monotonic()
                self.assertRaises(AbortedError, other.exchange, "y", "1", NAME)
                if level == "read uncommitted":
                    self.assertRaises(AbortedError, other.read, "x")  # it wasn't committed
                self.assertLess(time.monotonic() - began, SOON)
                one.rollback()
                other.begin_alone(SOON)
                self.assertIsNone(other.read("x"))

    def test_who_cant_begin_takes_no_number(self):
        auditor, (a, b) = self.sessions(self.made(), self.made())
        transaction = a.begin()
        self.assertRaises(AbortedError, b.begin)
        self.assertEqual(b.begun, 0)
        transaction.put("x", "1")
        transaction.commit()
        self.assertEqual(b.run(lambda t: t.get("x")), "1")
        self.assertEqual(auditor.round().kind, "serial")

    def test_what_has_changed_since_it_was_read_cant_be_overwritten(self):
        """In WAL mode (BUSY_SNAPSHOT) waiting is useless, so nobody waits. With a rollback journal
        the other one can't commit."""
        auditor, (a, b) = self.sessions(self.made("deferred", patience=LONG), self.made("deferred"))
        transaction = a.begin()
        transaction.get("x")
        with contextlib.suppress(AbortedError):
            b.run(lambda t: t.put("x", "2"), attempts=1)
        transaction.put("x", "1")
        began = time.monotonic()
        if self.journal == "wal":
            self.assertRaises(AbortedError, transaction.commit)
            self.assertLess(time.monotonic() - began, SOON)
        else:
            transaction.commit()
        self.assertEqual(self.value("x"), "2" if self.journal == "wal" else "1")
        self.assertEqual(auditor.round().kind, "serial")

    def test_two_that_both_want_to_write_dont_wait_for_each_other(self):
        one, other = (self.made("deferred", patience=LONG) for _ in range(2))
        for store in (one, other):
            store.begin(), store.read("x")
        one.write("x", "1", NAME)
        began = time.monotonic()
        ending = threading.Thread(target=self.end, args=(one,))
        if self.journal == "delete":
            ending.start()
            self.addCleanup(ending.join)  # a connection that is closed while it is used crashes
            self.assertTrue(eventually(lambda: self.is_pending()))
        self.assertRaises(AbortedError, other.write, "x", "2", NAME)
        self.assertLess(time.monotonic() - began, SOON)
        other.rollback()
        if self.journal == "delete":
            ending.join()

    def end(self, store):
        with contextlib.suppress(AbortedError):
            store.commit()

    def is_pending(self):
        """Whether somebody waits for readers to end, so that no other one may begin to read."""
        try:
            with contextlib.closing(sqlite3.connect(self.path, timeout=0)) as connection:
                connection.execute("SELECT count(*) FROM zanteyard").fetchone()
            return False
        except sqlite3.OperationalError:
            return True

    def test_readers_in_the_way_of_a_commit(self):
        if self.journal == "wal":
            self.skipTest("no reader stands in the way of WAL")
        auditor, (a, b) = self.sessions(self.made("deferred"), self.made("deferred"))
        reader = a.begin()
        reader.get("x")
        writer = b.begin()
        writer.put("x", "1")
        self.assertRaises(AbortedError, writer.commit)
        self.assertFalse(b.store.connection.in_transaction)
        reader.commit()
        b.store.patience = 20.0
        reader = a.begin()
        reader.get("x")
        threading.Timer(0.3, reader.commit).start()
        b.run(lambda t: t.put("x", "2"), attempts=1)  # waits for the reader
        self.assertEqual(self.value("x"), "2")
        self.assertEqual([it.outcome for it in auditor.history[1]], ["aborted", "committed"])
        self.assertEqual(auditor.round().kind, "serial")

    def test_commits_that_fail_otherwise(self):
        class Fails(SQLiteStore):
            def send_commit(self):
                if self.sends:
                    super().send_commit()
                raise sqlite3.OperationalError("disk I/O error")

        for sends, outcome in ((False, "aborted"), (True, "committed")):
            with self.subTest(outcome=outcome):
                store = self.made(of=Fails, patience=5.0)
                store.sends = sends
                self.lost(store, outcome)

    def test_a_commit_that_failed_isnt_there_once_the_file_is_opened_anew(self):
        """If the log couldn't be synced, it contains the frames of the commit, but its index
        doesn't: the next one to open the file would find them."""
        if self.journal != "wal":
            self.skipTest("only WAL keeps commits in a log")
        keeps = self.made()
        keeps.begin(), keeps.read("x"), keeps.commit()
        index = open(f"{self.path}-shm", "r+b", buffering=0)  # closing it would release SQLite's locks
        self.addCleanup(index.close)

        class Fails(SQLiteStore):
            def send_commit(self):
                before = os.pread(index.fileno(), 96, 0)
                super().send_commit()
                os.pwrite(index.fileno(), before, 0)
                raise sqlite3.OperationalError("disk I/O error")

        for level in self.levels[:3]:
            for value in ("1", "1" * 20000):
                with self.subTest(level=level, length=len(value)):
                    store = self.made(level, of=Fails, patience=5.0)
                    auditor, (a, b) = self.sessions(store, self.made())
                    b.run(lambda t: t.put("x", "0"))
                    self.assertRaises(AbortedError, a.run, lambda t: t.put("x", value), attempts=1)
                    self.assertEqual([store.outcome_within(5.0) for _ in range(2)], ["aborted"] * 2)
                    anew = f"{self.folder}/anew {level} {len(value)}"
                    for end in ("", "-wal"):
                        shutil.copy(self.path + end, anew + end)
                    with contextlib.closing(SQLiteStore(anew)) as other:
                        other.begin()
                        self.assertEqual(other.read("x")[0], "0")
                    self.assertEqual(b.run(lambda t: t.get("x")), "0")
                    self.assertEqual(auditor.round().kind, "serial")

    def test_a_transaction_that_something_else_ends(self):
        for ends in ("COMMIT", "ROLLBACK"):
            auditor, (a,) = self.sessions(self.made())
            transaction = a.begin()
            transaction.get("x")
            a.store.connection.execute(ends)
            transaction.put("x", "1")
            self.assertRaises(AbortedError, transaction.commit)
            self.assertIsNone(self.value("x"))

    def test_processes_that_are_killed(self):
        """In the middle of a transaction that has written, and while its commit waits."""
        program = (
            "import sys, time; sys.path.insert(0, sys.argv[1])\n"
            "from zanteyard.stores.sqlite import SQLiteStore\n"
            "store = SQLiteStore(sys.argv[2], 'immediate')\n"
            "store.begin(); store.write('x', '2', ('run', 1, 0)); store.write('y', '2' * 9000, ('run', 1, 0))\n"
            "store.connection.execute('PRAGMA cache_spill = 1')\n"
            "print('written', flush=True); time.sleep(60)\n"
        )
        auditor, (a,) = self.sessions(self.made())
        a.run(lambda t: (t.put("x", "1"), t.put("y", "1")))
        for _ in range(2):
            call = [sys.executable, "-c", program, PLACE, self.path]
            with subprocess.Popen(call, stdout=subprocess.PIPE) as client:
                self.assertEqual(client.stdout.readline(), b"written\n")
                client.kill()
            a.store.patience = 20.0
            self.assertEqual(a.run(lambda t: (t.get("x"), t.get("y"))), ("1", "1"))
        self.assertEqual(auditor.round().kind, "serial")


class SQLiteWithAJournal(SQLite):
    journal = "delete"
    test_the_command = test_what_the_example_tells = None  # they are the same
    test_nothing_is_left_where_it_is_killed = None


if __name__ == "__main__":
    unittest.main()
