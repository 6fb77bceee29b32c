"""The same with a real PostgreSQL, if it is installed."""
import logging
import os
import signal
import threading
import time
import unittest
from unittest import mock

from zanteyard import FENCE, RATHER_WAIT, AbortedError, Auditor, NameTakenError, OutcomeUnknownError, Session
from zanteyard import smaller, words
from zanteyard.program._auditor import PROGRAM
from zanteyard.trial.postgres_server import PostgresServer, program

from .waiting import SOON, wait_until

try:
    import psycopg2

    from zanteyard.stores._postgres_outcomes import asked
    from zanteyard.stores.postgres import PostgresStore, prepare
except ImportError:
    psycopg2 = None

LACKING = [
    name
    for name, there in (("psycopg2", psycopg2), ("initdb of PostgreSQL", program("initdb")), (PROGRAM, os.path.isfile(PROGRAM)))
    if not there
]


class Lossy(PostgresStore if psycopg2 else object):
    def send_commit(self):
        super().send_commit()
        self.connection.close()
        raise psycopg2.OperationalError("the answer is lost")


@unittest.skipIf(LACKING, f"not installed or not built: {', '.join(LACKING)}")
class Postgres(unittest.TestCase):
    @classmethod
    def setUpClass(cls):
        cluster = PostgresServer()
        cls.dsn = cluster.__enter__().dsn
        cls.addClassCleanup(cluster.__exit__)

    def setUp(self):
        self.auditor = Auditor(sessions=3, limit=8, policy=RATHER_WAIT)
        self.addCleanup(self.auditor.end)
        self.admin = psycopg2.connect(self.dsn)
        self.admin.autocommit = True
        self.admin.cursor().execute("DROP TABLE IF EXISTS zanteyard")
        prepare(self.dsn)
        self.addCleanup(self.admin.close)

    def sessions(self, level="serializable", store=None):
        made = [Session(self.auditor, number, (store or PostgresStore)(self.dsn, level), "run", patience=60) for number in range(3)]
        for session in made:
            self.addCleanup(lambda session=session: session.store.connection and session.store.connection.close())
        return made

    def kind(self):
        return self.auditor.round().kind

    def spend_at_once(self, level):
        """Two clients each see two coins, and each takes one that the other leaves."""
        a, b, _ = self.sessions(level)
        a.run(lambda t: (t.put("x", "1"), t.put("y", "1")))
        one, other = a.begin(), b.begin()
        for transaction, coin in ((one, "x"), (other, "y")):
            transaction.get("x"), transaction.get("y")
            transaction.put(coin, "0")
        return self.committed(one, other)

    def committed(self, one, other):
        """Commits the second one, if the store allows it."""
        one.commit()
        try:
            other.commit()
        except AbortedError:
            pass
        return self.kind()

    def count_at_once(self, level):
        a, b, _ = self.sessions(level)
        a.run(lambda t: t.put("x", "1"))
        one, other = a.begin(), b.begin()
        for transaction in (one, other):
            transaction.put("x", str(int(transaction.get("x")) + 1))
        return self.committed(one, other)

    def test_write_skew(self):
        for level, wanted in (("serializable", "serial"), ("repeatable read", "violated"), ("read committed", "violated")):
            with self.subTest(level=level):
                self.setUp()
                self.assertEqual(self.spend_at_once(level), wanted)

    def test_lost_update(self):
        for level, wanted in (("serializable", "serial"), ("repeatable read", "serial"), ("read committed", "violated")):
            with self.subTest(level=level):
                self.setUp()
                self.assertEqual(self.count_at_once(level), wanted)

    def test_what_an_interrupt_left_open_is_not_gone_on_with(self):
        """It comes before the rollback is sent. Otherwise the next statements would use the old
        snapshot, and be committed with it, or fail with it."""
        for breaks in ("", "SELECT 1 / 0"):
            with self.subTest(breaks=breaks):
                self.setUp()
                a, b, _ = self.sessions()
                a.run(lambda t: t.put("x", "1"))
                transaction = a.begin()
                self.assertEqual(transaction.get("x"), "1")
                if breaks:
                    with self.assertRaises(psycopg2.Error):
                        a.store.send(breaks)
                with mock.patch.object(a.store, "rollback", side_effect=TimeoutError("of a handler of SIGALRM")):
                    with self.assertRaises(TimeoutError):
                        transaction.rollback()
                b.run(lambda t: t.put("x", "2"))
                self.assertEqual(a.run(lambda t: t.get("x")), "2")
                a.fence()
                self.assertEqual(self.kind(), "serial")

    def test_many_keys_are_read_at_once(self):
        a, b, _ = self.sessions()
        a.run(lambda t: (t.put("x", "1"), t.put("y", "2"), t.delete("z")))
        self.assertEqual(b.run(lambda t: t.get_all(["w", "x", "y", "z"])), {"w": None, "x": "1", "y": "2", "z": None})
        source = (0, 0)
        self.assertEqual(self.auditor.history[1][0].reads, [("w", "init"), ("x", source), ("y", source), ("z", source)])
        self.assertEqual(self.kind(), "serial")

    def test_a_fence_is_read_and_written_by_one_statement(self):
        a, b, _ = self.sessions()
        for session in (a, b, a):
            session.fence()
        fence = lambda *before: ([(FENCE, *before)], [FENCE])
        done = [[(one.reads, one.writes) for one in txns] for txns in self.auditor.history]
        self.assertEqual(done, [[fence("init"), fence((1, 0))], [fence((0, 0))], []])
        run = dict(self.auditor.history[1][0].statements)
        self.assertEqual(run[(FENCE, (0, 0))], run[(FENCE,)])
        self.assertIn(f"WHERE key OPERATOR(pg_catalog.=) '{FENCE}' FOR UPDATE", run[(FENCE,)])
        self.assertEqual(self.kind(), "serial")

    def all_at_once(self, auditor, level, deed, times=25):
        """Six clients each do it this many times."""
        sessions, failures = [], []
        for number in range(6):
            sessions.append(Session(auditor, number, PostgresStore(self.dsn, level), patience=60))
            self.addCleanup(sessions[-1].store.close)

        def client(session):
            try:
                for _ in range(times):
                    deed(session)
            except Exception as error:
                failures.append(error)

        threads = [threading.Thread(target=client, args=(session,)) for session in sessions]
        for thread in threads:
            thread.start()
        for thread in threads:
            thread.join()
        self.assertEqual(failures, [])

    def test_fences_at_once_are_in_one_row(self):
        """At each level each one overwrites the version that it has read, in a statement by itself
        and in a client's transaction."""
        deeds = {
            "fence": lambda session: session.fence(),
            "exchange": lambda session: session.run(lambda t: t.exchange("x", "1"), attempts=1000),
        }
        for level in ("serializable", "repeatable read", "read committed"):
            for name, deed in deeds.items():
                with self.subTest(level=level, deed=name):
                    auditor = Auditor(6, 4096, policy=RATHER_WAIT)
                    self.addCleanup(auditor.end)
                    self.all_at_once(auditor, level, deed)
                    done = [it for txns in auditor.history for it in txns if it.outcome == "committed"]
                    sources = [source for logged in done for _, source in logged.reads]
                    self.assertEqual((len(sources), len(set(sources))), (150, 150))
                    self.assertEqual(auditor.round().kind, "serial")

    def test_what_clients_do_at_their_level_stays_at_it(self):
        auditor = Auditor(6, 4096, policy=RATHER_WAIT)
        self.addCleanup(auditor.end)
        all_have_read = threading.Barrier(6, timeout=SOON)

        def count(transaction):
            seen = int(transaction.get("x") or 0)
            if not transaction.number:  # once, so that all but one are lost
                all_have_read.wait()
            transaction.put("x", str(seen + 1))

        self.all_at_once(auditor, "read committed", lambda session: session.run(count))
        self.assertEqual(auditor.round().kind, "violated")

    def test_a_name_that_the_table_knows_is_refused_at_the_start(self):
        for attempt in range(2):
            auditor = Auditor(3, 8, policy=RATHER_WAIT)
            self.addCleanup(auditor.end)
            a, b = (Session(auditor, it, PostgresStore(self.dsn), "monday") for it in range(2))
            for session in (a, b):
                self.addCleanup(session.store.close)
            if attempt:
                with self.assertRaisesRegex(NameTakenError, "monday"):
                    a.run(lambda t: t.put("x", "1"))
            else:
                a.run(lambda t: t.put("x", "1"))
                b.run(lambda t: t.get("x"))
            self.assertEqual(auditor.round().kind, "serial")
            self.assertEqual(auditor.remaining, 0 if attempt else 2)

    def test_a_name_of_before_names_were_claimed_is_refused(self):
        self.admin.cursor().execute("DELETE FROM zanteyard")
        self.admin.cursor().execute("INSERT INTO zanteyard VALUES ('x', '1', 'run', 0, 0)")
        prepare(self.dsn)
        with self.assertRaises(NameTakenError):
            self.sessions()[0].run(lambda t: t.put("x", "1"))

    def test_a_name_is_claimed_without_a_scan(self):
        admin = self.admin.cursor()
        admin.execute("INSERT INTO zanteyard SELECT 'key ' || i, '', 'old', 0, i FROM generate_series(1, 20000) AS i")
        admin.execute("ANALYZE zanteyard")
        scans = "SELECT seq_scan, idx_scan FROM pg_stat_user_tables WHERE relname = 'zanteyard'"
        others = "SELECT count(*) FROM pg_stat_activity WHERE datname = current_database() AND pid <> pg_backend_pid()"

        def is_alone():  # by then the others have reported what they did
            admin.execute(others)
            return admin.fetchone() == (0,)

        self.assertTrue(wait_until(is_alone))
        admin.execute(scans)
        before = admin.fetchone()
        store = PostgresStore(self.dsn)
        store.claim("run", "token", 60)
        store.close()  # it reports what it did
        until = time.monotonic() + SOON
        while True:
            admin.execute(scans)
            after = admin.fetchone()
            if after != before or time.monotonic() > until:
                break
            time.sleep(0.05)
        self.assertEqual((after[0], after[1] > before[1]), (before[0], True))

    def claiming(self):
        """A session of a run with this name, over an existing connection."""
        auditor = Auditor(1)
        self.addCleanup(auditor.end)
        store = PostgresStore(self.dsn)
        store.connect()
        self.addCleanup(store.close)
        return auditor, Session(auditor, 0, store, "run")

    def claimed_late(self, stand_still, go_on):
        """In at least one of three attempts the client waits for the name no longer than the bound
        plus a small extra, which is less than its own limit. Nothing is audited until the name can
        be claimed, and then everything is."""
        logging.getLogger("zanteyard").setLevel(logging.CRITICAL)
        self.addCleanup(logging.getLogger("zanteyard").setLevel, logging.NOTSET)
        least = float("inf")
        for _ in range(3):
            auditor, session = self.claiming()
            with_it = stand_still(session.store)
            try:
                began = time.monotonic()
                session.begin().commit()
                least = min(least, time.monotonic() - began)
                self.assertFalse(session.is_claimed)
                self.assertGreater(session.longest, 0.15)
            finally:
                go_on(with_it)
            outcome = auditor.outcome()
            self.assertEqual((outcome.kind, outcome.audited, outcome.handed_in), ("incomplete", 0, 1))
            self.assertIn("can't find out in time", str(outcome))
            auditor.start_anew()  # as a LiveAuditor does
            session.claim_at, session.wait = 0.0, SOON
            session.place.begun = 0
            session.run(lambda t: t.get("x"))
            self.assertEqual((auditor.outcome().kind, session.is_claimed), ("serial", True))
            self.admin.cursor().execute("DELETE FROM zanteyard")
        self.assertLess(least, 4.0)

    def test_a_name_for_which_another_transaction_stands_in_the_way(self):
        def stand_still(store):
            other = psycopg2.connect(self.dsn)
            other.cursor().execute("INSERT INTO zanteyard VALUES ('zanteyard run run', '', 'run', -1, 0)")
            return other

        self.claimed_late(stand_still, lambda other: other.close())

    def test_a_name_of_which_a_server_says_nothing(self):
        def stand_still(store):
            pid = store.connection.info.backend_pid
            os.kill(pid, signal.SIGSTOP)
            return pid

        self.claimed_late(stand_still, lambda pid: os.kill(pid, signal.SIGCONT))

    def test_a_name_that_turns_out_to_be_anothers_stops_nobody_later(self):
        auditor, session = self.claiming()
        other = psycopg2.connect(self.dsn)
        other.cursor().execute("INSERT INTO zanteyard VALUES ('zanteyard run run', '', 'run', -1, 0)")
        logging.getLogger("zanteyard").setLevel(logging.CRITICAL)
        self.addCleanup(logging.getLogger("zanteyard").setLevel, logging.NOTSET)
        session.run(lambda t: t.get("x"))
        other.commit()
        other.close()
        session.claim_at, session.wait = 0.0, SOON
        session.run(lambda t: t.get("x"))
        self.assertIsInstance(session.unclaimed, NameTakenError)
        self.assertEqual((auditor.outcome().kind, auditor.handed_in), ("incomplete", 2))

    def test_the_answer_to_a_statement_that_is_a_transaction_is_lost(self):
        class LosesOne(PostgresStore):
            def send(self, text, values=()):
                cursor = super().send(text, values)
                if "UPDATE" in text or "INSERT" in text:
                    self.connection.close()
                    raise psycopg2.OperationalError("the answer is lost")
                return cursor

        a, b, c = (*self.sessions(store=LosesOne)[:2], self.sessions()[2])
        c.fence()
        for session, lost, found in ((a, a.flag, lambda: None), (b, b.fence, c.fence)):
            with self.assertRaises(OutcomeUnknownError):
                lost()
            found()
            self.assertFalse(session.is_open)
        self.assertEqual(self.auditor.history[0], [])  # a flag that nobody reads any more
        self.assertEqual(self.auditor.history[1], [])  # a fence whose read nobody knows
        outcome = self.auditor.outcome()
        self.assertEqual((outcome.kind, outcome.pending), ("pending", (((2, 1), FENCE, (1, 0)),)))

    def test_what_others_have_overwritten_of_a_killed_process_was_done(self):
        """In a row that everybody writes, such as a mark: its own name is no longer there."""
        a, b = PostgresStore(self.dsn), PostgresStore(self.dsn)
        _, *how = a.asks()
        for store, name in ((b, ("run", 1, 0)), (a, ("run", 0, 0)), (b, ("run", 1, 1))):
            store.begin_alone(60.0)
            store.exchange("mark", "", name)
        done, never = (a.ticket(("mark", "run", 0, number)) for number in (0, 1))
        a.close(), b.close()
        self.assertEqual(asked(*how, ticket=done, seconds=60.0), ("committed", (("run", 1, 0),)))
        # About a name that isn't among the last ones, nobody knows.
        self.assertEqual(asked(*how, ticket=never, seconds=60.0)[0], "unknown")

    def test_nothing_that_others_have_made_is_called(self):
        """Functions and operators in front of PostgreSQL's own: whoever called one would lend its
        rights to who made it. Here each call fails."""
        fails = "LANGUAGE plpgsql AS $$BEGIN RAISE EXCEPTION 'somebody else''s function is called'; END$$"
        made = ["CREATE SCHEMA m"]
        kinds = ("text", "int", "bigint", "oid", "name", "numeric")
        for symbol in ("=", ">", ">=", "||", "%"):
            for left, right in ((left, right) for left in kinds for right in kinds):
                function = f"m.f{len(made)}"
                made.append(f"CREATE FUNCTION {function}({left}, {right}) RETURNS {'text' if symbol == '||' else 'boolean'} {fails}")
                made.append(f"CREATE OPERATOR m.{symbol} (LEFTARG = {left}, RIGHTARG = {right}, FUNCTION = {function})")
        for call in (
            "concat_ws(text, bigint, oid, oid, text)", "concat_ws(text, bigint, oid, oid)", "concat_ws(text, numeric, numeric)",
            "concat_ws(text, int, bigint, text)", "concat_ws(text, text, text)", "array_to_string(text[], text)",
            "string_to_array(text, text)", "chr(int)", "left(text, int)", "strpos(text, text)", "pg_backend_pid()",
            "current_database()", "pg_is_in_recovery()", "pg_current_xact_id()", "pg_xact_status(xid8)", "pg_control_system()",
            "pg_walfile_name(pg_lsn)", "pg_current_wal_lsn()", "pg_postmaster_start_time()", "pg_terminate_backend(int)",
        ):
            made.append(f"CREATE FUNCTION m.{call} RETURNS text {fails}")
        made.append("ALTER DATABASE postgres SET search_path = m, public, pg_catalog")
        self.addCleanup(self.run_all, ("ALTER DATABASE postgres RESET search_path", "DROP SCHEMA m CASCADE"))
        self.run_all(made)
        with psycopg2.connect(self.dsn) as hostile, hostile.cursor() as cursor:
            with self.assertRaisesRegex(psycopg2.Error, "somebody else's"):
                cursor.execute("SELECT 'a'::text = 'a'::text")
        hostile.close()
        prepare(self.dsn)
        prepare(self.dsn, "public.another")
        a, b, c = self.sessions()
        a.run(lambda t: (t.put("x", "1"), t.put("y", "1")))
        b.run(lambda t: (t.get_all(["x", "y"]), t.exchange("x", "2")))
        self.assertEqual(c.run(lambda t: t.get("x")), "2")
        for session in (a, b, c):
            session.fence()
        self.assertEqual(self.kind(), "serial")
        b.run(lambda t: t.put("z", "1"))
        self.assertEqual(b.store.outcome(), "committed")
        _, *how = a.store.asks()
        one = PostgresStore(self.dsn)
        one.begin_alone(60.0)
        one.exchange("mark", "", ("run", 0, 0))
        done = one.ticket(("mark", "run", 0, 0))
        one.close()
        self.assertEqual(asked(*how, ticket=done, seconds=60.0)[0], "committed")

    def run_all(self, statements):
        with self.admin.cursor() as cursor:
            for statement in statements:
                cursor.execute(statement)

    @mock.patch("zanteyard.session._transaction.LEAST", SOON)  # a tenth of a second is too short on a busy machine
    def test_the_answer_to_a_fence_is_lost(self):
        a = self.sessions(store=Lossy)[0]
        a.fence()
        self.assertEqual((self.auditor.history[0][0].outcome, a.is_open), ("committed", True))

    def test_a_violation_names_what_was_run(self):
        self.assertEqual(self.count_at_once("read committed"), "violated")
        told = list(words(smaller(self.auditor.history, seconds=SOON)))
        self.assertEqual(told[2], "0.1 read x from 0.0, wrote x")
        self.assertEqual(told[3], "    read x: SELECT value, run, session, number FROM zanteyard WHERE key OPERATOR(pg_catalog.=) 'x'")
        self.assertTrue(told[4].startswith("    wrote x: INSERT INTO zanteyard VALUES ('x', '2', 'run', 0, 1) ON CONFLICT"), told[4])

    def test_a_connection_that_breaks_before_the_commit(self):
        admin = self.admin

        class Breaking(PostgresStore):
            def send_commit(self):
                if self.transaction_id == broken.get("id"):
                    admin.cursor().execute("SELECT pg_terminate_backend(%s)", (self.connection.info.backend_pid,))
                super().send_commit()

        broken = {}
        a, b, _ = self.sessions(store=Breaking)
        a.run(lambda t: t.put("x", "1"))
        transaction = a.begin()
        transaction.put("x", "2")
        broken["id"] = a.store.ask("SELECT pg_current_xact_id()::text").fetchone()[0]
        with self.assertRaises(AbortedError):
            transaction.commit()
        a.run(lambda t: t.put("x", "3"))  # over a new connection
        self.assertEqual(b.run(lambda t: t.get("x")), "3")
        self.assertEqual([it.outcome for it in self.auditor.history[0]], ["committed", "aborted", "committed"])
        self.assertEqual(self.kind(), "serial")

    def test_what_aborted_attempts_did_is_logged(self):
        """With the names that the store has seen. The audit stays serial, since the server shows
        nobody what it rolled back."""
        a, b, c = self.sessions()
        a.run(lambda t: (t.put("x", "1"), t.put("y", "1")))
        one, other = a.begin(), b.begin()
        for transaction, coin in ((one, "x"), (other, "y")):
            transaction.get("x"), transaction.get("y")
            transaction.put(coin, "0")
        one.commit()
        with self.assertRaises(AbortedError):
            other.commit()
        with self.assertRaises(ZeroDivisionError):
            c.run(lambda t: (t.exchange("x", "7"), 1 // 0))
        for reader in (b, c):
            self.assertEqual(reader.run(lambda t: (t.get("x"), t.get("y"))), ("0", "1"))
        skewed, undone = self.auditor.history[1][0], self.auditor.history[2][0]
        self.assertEqual((skewed.outcome, undone.outcome), ("aborted", "aborted"))
        self.assertEqual(skewed.did, ([("x", (0, 0)), ("y", (0, 0))], ["y"]))
        self.assertEqual(undone.did, ([("x", (0, 1))], ["x"]))
        self.assertEqual((skewed.writes, undone.writes), ([], []))
        self.assertEqual(self.kind(), "serial")

    def test_an_answer_that_is_lost(self):
        a = self.sessions(store=Lossy)[0]
        a.run(lambda t: t.put("x", "1"))
        b = self.sessions()[1]
        self.assertEqual(b.run(lambda t: t.get("x")), "1")
        self.assertEqual(self.auditor.history[0][0].outcome, "committed")
        self.assertEqual(self.kind(), "serial")

    def test_what_a_meeting_reads_is_read_at_the_clients_level(self):
        """A batch that is closed, a deposit into it, and a report: only the report makes this
        non-serializable (Fekete and others, 2004), so the store has to know about the report."""
        for level, wanted in (("serializable", "serial"), ("repeatable read", "violated")):
            with self.subTest(level=level):
                self.setUp()
                a, b, c = self.sessions(level)
                a.run(lambda t: (t.put("batch", "1"), t.put("deposits", "0")))
                deposit = a.begin()
                deposit.get("batch")
                b.run(lambda t: t.put("batch", str(int(t.get("batch")) + 1)))
                c.read_all(["batch", "deposits"])
                try:
                    deposit.put("deposits", "10")
                    deposit.commit()
                except AbortedError:
                    pass
                self.assertEqual(self.kind(), wanted)

    def took(self, seconds, error, call):
        """At least one of three attempts fails with this error within this many seconds, plus a
        little; on a busy machine the others may take longer."""
        least = float("inf")
        for _ in range(3):
            began = time.monotonic()
            with self.assertRaises(error):
                call()
            least = min(least, time.monotonic() - began)
        self.assertLess(least, seconds + 2.0)

    def test_a_server_that_stands_still_is_waited_for_no_longer_than_was_said(self):
        """It accepts connections but doesn't answer them; existing ones go on."""
        with PostgresServer() as cluster:
            prepare(cluster.dsn)
            auditor = Auditor(8)
            self.addCleanup(auditor.end)
            sessions = [Session(auditor, number, Lossy(cluster.dsn), patience=1.0) for number in range(3)]
            for session in sessions:
                session.store.connect()
                self.addCleanup(session.store.close)
            os.kill(cluster.runs(), signal.SIGSTOP)
            try:
                store = PostgresStore(cluster.dsn, patience=0.5)
                self.took(0.5, psycopg2.OperationalError, store.begin)
                self.took(0.2, psycopg2.OperationalError, lambda: store.begin_alone(0.2))
                self.took(1.0, OutcomeUnknownError, lambda: sessions.pop().run(lambda t: t.put("x", "1")))
            finally:
                os.kill(cluster.runs(), signal.SIGCONT)

    def test_a_server_that_is_killed_in_the_commit(self):
        with PostgresServer() as cluster:
            prepare(cluster.dsn)

            class Killing(PostgresStore):
                def send_commit(self):
                    cluster.stop()
                    super().send_commit()

            session = Session(self.auditor, 0, Killing(cluster.dsn), "run", patience=0.2)
            with self.assertRaises(OutcomeUnknownError):
                session.run(lambda t: (t.get("x"), t.put("x", "1")))
            self.assertFalse(session.is_open)
            session.store.connection.close()
        self.assertEqual(self.auditor.history[0][0][:3], ([], ["x"], "unknown"))
        self.assertEqual(self.kind(), "serial")


if __name__ == "__main__":
    unittest.main()
