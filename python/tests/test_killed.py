"""Client processes that are killed, over PostgreSQL and SQLite: the audit goes on, each commit is
in the log once, and the verdict is that of the log."""
import itertools
import json
import logging
import os
import random
import signal
import sqlite3
import subprocess
import sys
import tempfile
import time
import unittest
from contextlib import suppress
from unittest import mock

from zanteyard import Auditor, AuditServer, LiveAuditor, Policy, Session
from zanteyard.stores._commit_status import find_out
from zanteyard.core._own_keys import FENCE, MARK
from zanteyard.program._auditor import PROGRAM
from zanteyard.trial.postgres_server import PostgresServer, program
from zanteyard.trial.workloads import Nothing

from .overlapping import skewed
from .plain_sql import run_sql

try:
    import psycopg2

    from zanteyard.stores import _postgres_connection as postgres_connection
    from zanteyard.stores import postgres as postgres_store
    from zanteyard.stores.postgres import PostgresStore, prepare
except ImportError:
    psycopg2 = None

PLACE = os.path.join(os.path.dirname(os.path.abspath(__file__)), "..")
CLIENT = os.path.join(PLACE, "tests", "killed_client.py")
SOON = 120.0  # seconds, on a busy machine
TOGETHER = 3  # clients that are killed in one audit
SEED = int(os.environ.get("ZANTEYARD_SEED", "1"))


@unittest.skipUnless(os.path.isfile(PROGRAM), f"{PROGRAM} is not built")
class Killed(unittest.TestCase):
    level, kind = "-", "sqlite"

    def setUp(self):
        logging.getLogger("zanteyard").setLevel(logging.CRITICAL)
        self.addCleanup(logging.getLogger("zanteyard").setLevel, logging.NOTSET)
        folder = tempfile.TemporaryDirectory()
        self.addCleanup(folder.cleanup)
        self.folder, self.told, self.clients = folder.name, [], []
        self.make_store()

    def make_store(self):
        from zanteyard.stores.sqlite import prepare as prepare_file

        self.dsn = f"{self.folder}/store"
        prepare_file(self.dsn)

    def rows(self):
        connection = sqlite3.connect(self.dsn)
        try:
            return connection.execute("SELECT key, run, session, number FROM zanteyard").fetchall()
        finally:
            connection.close()

    def audit(self, sessions=16, **more):
        self.script = f"{self.folder}/script"
        self.auditor = Auditor(sessions, script=self.script)
        self.addCleanup(self.auditor.end)
        policy = Policy(30.0, begins_anew=False)
        more = {"every": 200, "seconds": 0.3, "patience": 10.0, **more}
        self.live = LiveAuditor(self.auditor, tell=self.told.append, policy=policy, **more)
        self.server = AuditServer(self.live, f"{self.folder}/audit")

    def client(self, where="-", left=0, pause=0.01, workload="counter", sessions=1):
        """Another client process, which is killed when it reaches this place again."""
        seed = f"{SEED} {len(self.clients)}"
        call = [PLACE, self.server.path, self.kind, self.dsn, self.level, str(len(self.clients))]
        call += [seed, where, str(left), str(pause), workload, str(sessions)]
        pipes = {"stdin": subprocess.PIPE, "stdout": subprocess.PIPE, "text": True}
        client = subprocess.Popen([sys.executable, CLIENT, *call], **pipes)
        self.clients.append(client)
        self.addCleanup(self.end_client, client)
        return client

    def begun(self, *clients):
        for client in clients:
            self.assertEqual(client.stdout.readline(), "begun\n")

    @staticmethod
    def end_client(client):
        client.kill()
        client.wait()
        with suppress(BrokenPipeError):
            client.stdin.close()
        client.stdout.close()

    def wait_for(self, condition):
        until = time.monotonic() + SOON
        while not condition() and time.monotonic() < until:
            time.sleep(0.01)
        self.assertTrue(condition(), self.told[-5:])

    def ended(self, kind="serial"):
        """Checks what must hold after every run."""
        for client in self.clients:
            if client.poll() is None:
                client.stdin.write("\n")
                client.stdin.flush()
        for client in self.clients:
            client.wait(SOON)
        self.server.close()
        outcome = self.live.stop()
        self.assertEqual((outcome.kind, outcome.earlier), (kind, ()), outcome)
        self.assertFalse(os.path.exists(self.server.notes))
        self.auditor.end()
        self.same_as_the_log(outcome)
        if not outcome.is_violated:
            self.assertEqual(outcome.audited, outcome.handed_in)
            self.each_commit_is_in_the_log()
        return outcome

    def same_as_the_log(self, outcome):
        with open(self.script) as script:
            more = {"stdout": subprocess.PIPE, "timeout": SOON, "check": True}
            ended = subprocess.run([PROGRAM], stdin=script, **more)
        replies = [json.loads(line) for line in ended.stdout.splitlines()]
        self.assertEqual([it for it in replies if it[0] == "no" and it[2] != "NoCut"], [])
        last = [it for it in replies if it[0] == "report"][-1]
        self.assertEqual(last, ["report", *outcome.report])

    def each_commit_is_in_the_log(self):
        log = {}
        with open(self.script) as script:
            for line in map(json.loads, script):
                if line[0] in ("offer", "join"):
                    session, first, txns = line[1], line[2] if len(line) == 4 else 0, line[-1]
                    for number, (_, writes, *aborted) in enumerate(txns, first):
                        self.assertNotIn((session, number), log)
                        its = () if aborted else writes
                        log[session, number] = {self.auditor.names[it] for it in its}
        rows = [row for row in self.rows() if row[1] == self.live.run_name and row[2] >= 0]
        self.assertGreater(len(rows), 0)
        there = {(row[2], row[3], row[0]) for row in rows}
        for session, number, key in there:
            self.assertIn(key, log.get((session, number), ()), (session, number, key))
        for id, keys in log.items():  # and the other way: rows that are written once
            for key in keys:
                if key.startswith("row ") and id not in self.unknown():
                    self.assertIn((*id, key), there)

    def unknown(self):
        """Transactions whose outcome the store couldn't say."""
        history = self.auditor.history
        return {
            (session, self.auditor.marks[session] + at)
            for session, txns in enumerate(history)
            for at, logged in enumerate(txns)
            if logged.outcome == "unknown"
        }

    PLACES = (
        *("before its write", "behind its write", "before a note", "behind a note"),
        *("before its commit", "behind its commit", "before its take", "behind its take"),
    )

    def killed_at(self, places, left, **more):
        """Clients that were killed at these places, next to two that stay, in one audit."""
        self.setUp()
        self.audit(**more)
        others = [self.client() for _ in range(2)]
        killed = [self.client(where, count, 0.0) for where, count in zip(places, left)]
        self.begun(*others, *killed)
        for client in killed:
            client.wait(SOON)
            self.assertEqual(client.returncode, -signal.SIGKILL)

    def test_at_each_place_of_a_transaction(self):
        for at in range(0, len(self.PLACES), TOGETHER):
            places = self.PLACES[at : at + TOGETHER]
            with self.subTest(where=places):
                self.killed_at(places, itertools.count(5 + 3 * at, 3))
                done = self.live.handed_in
                self.wait_for(lambda: self.live.handed_in > done + 20)
                self.ended()

    MEETING = ("behind a flag", "before a write_mark", "behind a write_mark", "before its exchange", "behind its exchange", "behind a read_mark")

    def test_in_meetings(self):
        for at, where in enumerate(self.MEETING):
            with self.subTest(where=where):
                self.killed_at([where], [at % 4], every=60)
                cuts, meetings = self.live.cuts, self.live.meetings
                self.wait_for(lambda: self.live.meetings > meetings + 2)
                self.wait_for(lambda: self.live.cuts > cuts)
                self.ended()

    def test_by_tens_at_any_time(self):
        chance = random.Random(SEED)
        self.audit(24, every=150)
        stays = [self.client(pause=0.01) for _ in range(2)]
        self.begun(*stays)
        for _ in range(3):
            doomed = [self.client(pause=0.003, workload=chance.choice(("counter", "mixed")), sessions=2) for _ in range(3)]
            self.begun(*doomed)
            time.sleep(0.3 + chance.random() * 0.3)
            for client in doomed:
                client.kill()
                time.sleep(chance.choice((0.0, 0.02)))
            for client in doomed:
                client.wait(SOON)  # else one may still seem to live
        cuts = self.live.cuts
        self.wait_for(lambda: self.live.cuts > cuts)
        self.ended()

    def test_a_process_that_leaves_without_a_word(self):
        self.audit()
        stays, leaves = self.client(), self.client("leaves without a word")
        self.begun(stays, leaves)
        self.wait_for(lambda: self.live.handed_in > 20)
        leaves.stdin.write("\n")
        leaves.stdin.flush()
        leaves.wait(SOON)
        done = self.live.handed_in
        self.wait_for(lambda: self.live.handed_in > done + 20)
        self.ended()


@unittest.skipUnless(psycopg2 and program("initdb"), "PostgreSQL or psycopg2 isn't installed (no client was killed over it)")
class KilledOverPostgres(Killed):
    level, kind = "serializable", "postgres"
    PLACES = (*Killed.PLACES, "in its commit")

    @classmethod
    def setUpClass(cls):
        cls.cluster = PostgresServer()
        cls.cluster.__enter__()
        cls.addClassCleanup(cls.cluster.__exit__)

    def make_store(self):
        self.dsn = self.cluster.dsn
        self.run_sql("DROP TABLE IF EXISTS zanteyard")
        prepare(self.dsn)

    def run_sql(self, text):
        return run_sql(self.cluster.dsn, text)

    def rows(self):
        return self.run_sql("SELECT key, run, session, number FROM zanteyard")

    def commits_take(self, seconds):
        """Makes commits slow at the server, for clients that are killed meanwhile."""
        self.run_sql(f"""
            CREATE OR REPLACE FUNCTION wait_a_while() RETURNS trigger LANGUAGE plpgsql AS
            'BEGIN IF current_setting(''zanteyard.dies'', true) = ''yes'' THEN PERFORM pg_sleep({seconds}); END IF;
            RETURN NULL; END';
            CREATE CONSTRAINT TRIGGER waits AFTER INSERT ON zanteyard DEFERRABLE INITIALLY DEFERRED
            FOR EACH ROW EXECUTE FUNCTION wait_a_while()""")

    def test_a_commit_that_goes_on_behind_its_clients_end(self):
        """It is waited for; one that takes too long is ended."""
        for seconds, is_there in ((1.0, True), (600.0, False)):
            with self.subTest(seconds=seconds):
                self.setUp()
                self.commits_take(seconds)
                self.audit()
                stays, killed = self.client(), self.client("in its commit", 4, 0.0, "alone")
                self.begun(stays, killed)
                killed.wait(SOON)
                done = self.live.handed_in
                self.wait_for(lambda: self.live.handed_in > done + 20)
                began = time.monotonic()
                self.ended()
                self.assertLess(time.monotonic() - began, 2 * SOON)
                last = [row for row in self.rows() if row[0].startswith("row 1.")]
                waits = "SELECT count(*) FROM pg_stat_activity WHERE query LIKE 'COMMIT%' AND state = 'active'"
                self.assertEqual(self.run_sql(waits), [(0,)])
                self.assertEqual(len(last), 4 + is_there, last)

    def test_a_fault_is_found(self):
        """If these clients don't run into it, two others do for certain."""
        for level, workload in (("repeatable read", "skew"), ("read committed", "counter")):
            with self.subTest(level=level):
                self.setUp()
                self.level = level
                self.audit()
                stays = [self.client(pause=0.0, workload=workload) for _ in range(2)]
                stores = [PostgresStore(self.dsn, level) for _ in range(2)]
                pair = [self.live.session(store) for store in stores]
                self.begun(*stays)
                until = time.monotonic() + SOON
                while not self.live.is_over and time.monotonic() < until:
                    doomed = self.client(pause=0.0, workload=workload)
                    self.begun(doomed)
                    time.sleep(0.3)
                    doomed.kill()
                    doomed.wait(SOON)
                    skewed(*pair)
                for store in stores:
                    store.close()
                self.ended("violated")


@unittest.skipUnless(psycopg2 and program("initdb"), "PostgreSQL or psycopg2 isn't installed (none was asked for an outcome)")
class AskedOfPostgres(unittest.TestCase):
    FLAG = "zanteyard flag 1"

    @classmethod
    def setUpClass(cls):
        cls.cluster = PostgresServer()
        cls.cluster.__enter__()
        cls.addClassCleanup(cls.cluster.__exit__)
        prepare(cls.cluster.dsn)

    def setUp(self):
        logging.getLogger("zanteyard").setLevel(logging.CRITICAL)
        self.addCleanup(logging.getLogger("zanteyard").setLevel, logging.NOTSET)
        connection = psycopg2.connect(self.cluster.dsn)
        with connection:
            connection.cursor().execute("DELETE FROM zanteyard WHERE number >= 0 AND session >= 0")
        connection.close()
        self.store = PostgresStore(self.cluster.dsn)
        self.addCleanup(self.store.close)
        _, *self.how = self.store.asks()
        self.store.connect()
        self.assertIsNotNone(self.store.life[1])

    def alone(self, key, number):
        self.store.begin_alone(SOON)
        self.store.exchange(key, "", ("run", 1, number))

    def asked(self, key, number, seconds=SOON):
        ticket = self.store.ticket((key, "run", 1, number))
        return find_out(("postgres", *self.how), ticket, seconds)

    def test_what_was_run_before_is_not_taken_for_what_is_on_its_way(self):
        """The server's process is alive, and looks idle."""
        for number in (3, 4):
            self.alone(self.FLAG, number)
            for key, other in ((self.FLAG, number + 1), (self.FLAG, 10 * number), (f"{self.FLAG}2", number), (self.FLAG[:-1], number)):
                self.assertEqual(self.asked(key, other, 0.5), ("unknown", None), (key, other))
            self.assertEqual(self.store.send("SELECT 1").fetchone(), (1,))  # nobody has ended it
        self.alone(f"{self.FLAG}2", 5)
        self.assertEqual(self.asked(self.FLAG, 5, 0.5), ("unknown", None))
        self.store.close()
        self.assertEqual(self.asked(self.FLAG, 5), ("aborted", None))

    def test_the_very_statement(self):
        self.alone(self.FLAG, 3)
        self.assertEqual(self.asked(self.FLAG, 3), ("committed", ()))
        self.alone(self.FLAG, 4)
        self.assertEqual(self.asked(self.FLAG, 4), ("committed", (("run", 1, 3),)))
        self.store.begin_alone(SOON)
        with self.assertRaises(psycopg2.Error):  # it fails after its beginning
            self.store.ask(postgres_store.OVERWRITE.replace("{value}", "(1 / (now.number - 4))::text"), ("run", 1, 5, self.FLAG))
        self.assertEqual(self.asked(self.FLAG, 5), ("aborted", None))

    def test_what_others_have_overwritten_by_then_was_there(self):
        """Otherwise it would be reported as aborted, and the next client that joins could get its
        name."""
        other = PostgresStore(self.cluster.dsn)
        self.addCleanup(other.close)
        most = postgres_store.LINES
        for key in (FENCE, MARK):
            for before, behind in ((0, 0), (1, 0), (0, 1), (1, 1), (5, 2), (1, most - 1), (1, most), (1, most + 1)):
                with self.subTest(key=key, before=before, behind=behind):
                    self.setUp()
                    names = [(key, "", ("run", 2, number)) for number in range(before + behind)]
                    for name in names[:before]:
                        other.begin_alone(SOON), other.exchange(*name)
                    self.alone(key, 3)
                    ticket = self.store.ticket((key, "run", 1, 3))
                    for name in names[before:]:
                        other.begin_alone(SOON), other.exchange(*name)
                    self.store.close()
                    last = (names[before - 1][2],) if before else None if behind else ()
                    found = ("unknown", None) if behind > most else ("committed", None if behind == most else last)
                    self.assertEqual(find_out(("postgres", *self.how), ticket, SOON), found)

    def test_a_name_of_two_lines(self):
        for number in (3, 4):
            self.store.begin_alone(SOON)
            self.store.exchange(self.FLAG, "", ("run\nof two", 1, number))
        ticket = self.store.ticket((self.FLAG, "run\nof two", 1, 4))
        self.assertEqual(find_out(("postgres", *self.how), ticket, SOON), ("unknown", None))

    def test_which_was_not_there_is_not_told_as_aborted_where_others_write_it_too(self):
        other = PostgresStore(self.cluster.dsn)
        self.addCleanup(other.close)
        for key, found in ((FENCE, "unknown"), (MARK, "unknown"), (self.FLAG, "aborted")):
            with self.subTest(key=key):
                self.setUp()
                other.begin_alone(SOON), other.exchange(key, "", ("run", 2, 0))
                self.store.begin_alone(SOON)
                ticket = self.store.ticket((key, "run", 1, 3))
                self.store.close()
                self.assertEqual(find_out(("postgres", *self.how), ticket, SOON), (found, None))

    def test_where_there_was_no_row_another_statement_may_be_on_its_way(self):
        self.store.begin_alone(SOON)
        self.store.ask(postgres_store.OVERWRITE.replace("{value}", postgres_store.KEPT), ("run", 1, 3, self.FLAG))
        self.assertEqual(self.asked(self.FLAG, 3), ("unknown", None))

    def test_what_is_around_the_auditors_process_does_not_lead_elsewhere(self):
        self.alone(self.FLAG, 3)
        around = {"PGOPTIONS": "-c search_path=nowhere", "PGTARGETSESSIONATTRS": "standby", "PGHOSTADDR": "127.0.0.9"}
        with mock.patch.dict(os.environ, around):
            self.assertEqual(self.asked(self.FLAG, 3), ("committed", ()))
        with mock.patch.dict(os.environ, {"PGSERVICE": "elsewhere"}):
            self.assertEqual(self.asked(self.FLAG, 3), ("unknown", None))

    def test_what_is_around_the_client_leads_there(self):
        with mock.patch.dict(os.environ, {"PGOPTIONS": "-c search_path=bank"}):
            self.assertEqual(self.store.asks()[2]["options"], "-c search_path=bank")
        words = postgres_connection.reached({"dbname": "of the dsn"}, {"dbname": "around", "options": "-c a=b"})
        self.assertEqual((words["dbname"], words["options"]), ("of the dsn", "-c a=b"))

    def test_a_commit_that_was_refused_is_not_asked_for(self):
        self.store.begin()
        self.store.send("""
            CREATE OR REPLACE FUNCTION refuse() RETURNS trigger LANGUAGE plpgsql AS
            'BEGIN IF NEW.value = ''bad'' THEN RAISE check_violation; END IF; RETURN NULL; END';
            CREATE CONSTRAINT TRIGGER refuses AFTER INSERT OR UPDATE ON zanteyard DEFERRABLE
            INITIALLY DEFERRED FOR EACH ROW EXECUTE FUNCTION refuse()""")
        session = Session(Nothing(), 0, self.store, "run")
        with mock.patch.object(self.store, "outcome_within", return_value="unknown") as asks:
            with self.assertRaises(psycopg2.errors.CheckViolation):
                session.run(lambda transaction: transaction.put("x", "bad"), attempts=1)
            self.assertFalse(asks.called)
            elsewhere = psycopg2.errors.CheckViolation("of another connection")
            self.assertFalse(self.store.has_answered(elsewhere))
        self.assertTrue(session.is_open)
        session.run(lambda transaction: transaction.put("x", "good"))


if __name__ == "__main__":
    unittest.main()
