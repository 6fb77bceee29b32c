"""A whole run of `zanteyard watch`, with a fake proxy and the real auditor."""
import json
import os
import re
import shutil
import signal
import socket
import subprocess
import sys
import tempfile
import threading
import time
import unittest
import urllib.request

from tests import watch_feed as feed
from zanteyard.core.errors import ProgramMissingError
from zanteyard.program._binaries import PROGRAM
from zanteyard.promises._kinds import SNAPSHOT
from zanteyard.trial.postgres_server import PostgresServer, program
from zanteyard.watch.outcome._ending import _reasons
from zanteyard.watch.outcome._totals import Total, Totals
from zanteyard.watch.postgres._database import Database, DatabaseError
from zanteyard.program._proxy_program import build_of, find_proxy, proxy_path
from zanteyard.watch._run import Plan, Run
from zanteyard.watch.proxy._supervising import CantBeginError

TOP = os.path.normpath(os.path.join(os.path.dirname(os.path.abspath(__file__)), ".."))
SERIAL = [
    feed.started(),
    feed.OPEN,
    feed.offer(0, 0, [[[5, "init"]], [5]]),
    feed.meeting(),
    *feed.ROUND,
    feed.coverage(),
]
TOLD_APART = "its writes couldn't be told apart: put BEGIN and COMMIT around the statement"
try:
    import psycopg2
except ImportError:
    psycopg2 = None


class InAFolder(unittest.TestCase):
    def setUp(self):
        self.folder = tempfile.mkdtemp()
        self.addCleanup(shutil.rmtree, self.folder, ignore_errors=True)

    def until(self, is_so):
        """Waits for it, two minutes at most."""
        pause = threading.Event()
        for _ in range(12000):
            if is_so():
                return
            pause.wait(0.01)
        self.fail("it hasn't come to that in two minutes")


@unittest.skipUnless(os.path.isfile(PROGRAM), f"{PROGRAM} is not built")
class Runs(InAFolder):
    def run_of(self, *runs, is_done=None, **more):
        """A run's output and status. It is stopped after the first round, or once `is_done` returns
        true for the board's status."""
        told = []
        plan = Plan([feed.program(self.folder, *runs)], PROGRAM, "shop", "proved", **more)
        run = Run(plan, told.append)
        self.run = run
        is_done = is_done or (lambda status: status.rounds_count >= 1 and status.seen.reads)

        late = []

        def stop():
            try:
                self.until(lambda: run.stop.is_set() or is_done(run.board.status()))
            except AssertionError as error:
                late.append(error)
            finally:
                run.stop.set()

        stopping = threading.Thread(target=stop)
        stopping.start()
        try:
            return told, run.run()
        finally:
            run.stop.set()
            stopping.join()
            self.assertEqual(late, [])

    def test_a_serial_one(self):
        told, status = self.run_of(SERIAL)
        self.assertEqual(status, 0)
        self.assertEqual(
            told,
            [
                "serial: 6 of 11 transactions, 9 of 20 SELECTs and 6 of 9 written rows were checked, "
                "in 2 rounds",
                "  10 at read committed and 1 at serializable",
                "                           all     checked     in part  not checked  rolled back",
                "  transactions              11           6           2            3            1",
                "  SELECTs                   20           9           1           10            1",
                "  writes                     9           6           0            3            0",
                "  rows read                 19          15           0            4            5",
                "  rows written               9           6           0            3            0",
                "  8 SELECTs didn't ask by one whole key: rows passed over, or not there yet (phantoms), "
                "weren't checked",
                "  3 SELECTs found no row",
                "  4 of the checked rows were in a version from before the audit",
                "  2 of the checked rows were in a version that an unchecked transaction wrote",
                "  1 of the checked rows had been written by the transaction that read them",
                "  1 of those that were rolled back had only read: --rollbacks checks such transactions",
                "  1 more statement defined something, called a procedure or the like: not looked into",
                "  3 of the rows written may be those of one of several transactions, or of a program that "
                "bypasses the proxy",
                "  at least 1 of the 4 commits with such rows bypassed the proxy: there were fewer "
                "such transactions",
                "  2 more transactions, with 5 rows written, bypassed the proxy",
                "  1 more commit had no row, such as those of the server's own ANALYZE",
                "  checked in part",
                "             2 transactions  some statements weren't seen: the statements below say why",
                "             1 SELECTs       a subquery: run it as a SELECT of its own",
                "  not checked",
                f"             3 transactions  {TOLD_APART}",
                "             7 SELECTs       an aggregate: --aggregates, or select the rows",
                "             3 SELECTs       it found no row: see the conditions not followed, or "
                "ask by a whole primary key at repeatable read or serializable",
                f"             3 writes        {TOLD_APART}",
                "             4 rows read     its version is unknown: it was written before the audit, "
                "or by what isn't audited",
                "             3 rows written  its writes couldn't be told apart: its transactions "
                "say why",
                "  statements only partly seen",
                "         times first    what wasn't seen, then the statement",
                f"             7 {told[-2].split()[1]} an aggregate",
                "                          SELECT count(*) FROM orders WHERE customer = $1",
            ],
        )

    def test_what_helps(self):
        """Only what helps here: a write that found no row isn't checked in any case, and an outcome
        isn't unknown for one reason alone."""
        found_no_row, unknown = {"it found no row": 2}, {"its outcome is unknown": 1}
        totals = Totals(
            transactions=Total(1, not_checked=unknown),
            selects=Total(2, not_checked=found_no_row),
            writes=Total(2, not_checked=found_no_row),
        )
        self.assertEqual(
            [*_reasons(totals)],
            [
                "not checked",
                "           1 transactions  its outcome is unknown: its connection was lost during "
                "COMMIT, it was prepared for COMMIT PREPARED, or a procedure committed a part of it",
                "           2 SELECTs       it found no row: see the conditions not followed, or ask "
                "by a whole primary key at repeatable read or serializable",
                "           2 writes        it found no row",
            ],
        )

    def test_a_promise_that_is_kept(self):
        """It says nothing about a serial order."""
        with self.assertLogs("zanteyard", "INFO") as logged:
            told, status = self.run_of(SERIAL, promise=SNAPSHOT)
        self.assertEqual(status, 0)
        wanted = "6 of 9 written rows were checked for snapshot isolation, in 2 rounds"
        self.assertTrue(told[0].startswith("kept: 6 of 11 transactions, "), told[0])
        self.assertTrue(told[0].endswith(wanted), told[0])
        self.assertTrue(any("round 1: kept; " in line for line in logged.output))
        self.assertFalse(any(re.search("serial(:| order)", it) for it in [*logged.output, *told]))

    def test_a_violated_one_is_kept(self):
        folder = os.path.join(self.folder, "found")
        parts = [feed.started(), feed.OPEN, *feed.LOST_UPDATE, *feed.ROUND, feed.coverage()]
        told, status = self.run_of(
            parts, is_done=lambda its: its.violations and its.seen.reads, save=folder
        )
        self.assertEqual(status, 1)
        self.assertIn("  1 violation found: lost update", told)
        self.assertIn("  read committed allows that", told)
        checked = "6 of 11 transactions, 9 of 20 SELECTs and 6 of 9 written rows were checked"
        self.assertIn(f"violated, which read committed allows: {checked}, in 3 rounds", told)
        self.assertTrue(told[0].endswith("; read committed allows that"), told[0])
        self.assertIn("what the application ran, and when the proxy received it:", told)
        (shape,) = [line for line in told if "lost update of stock" in line]
        ended = time.strftime("%H:%M:%S", time.localtime(feed.AT + 2.05))  # not when it was found
        self.assertEqual(shape.split()[1:3], [ended, ended])
        self.assertEqual(
            sorted(os.listdir(folder)), ["violation-1.html", "violation-1.jsonl", "violation-1.txt"]
        )
        with open(os.path.join(folder, "violation-1.jsonl"), encoding="utf-8") as file:
            script = file.read()
        replies = subprocess.run([PROGRAM], input=script, capture_output=True, text=True).stdout
        self.assertIn('"violated"', replies)
        self.assertEqual(len(script.splitlines()), 5)  # without what did nothing

    def test_too_little(self):
        """Less than was asked for is another status, unless something worse was found."""
        for at_least, wanted in ((45.0, 0), (45.1, 5)):
            self.assertEqual(self.run_of(SERIAL, at_least=at_least)[1], wanted)
        its = [feed.started(), feed.OPEN, *feed.LOST_UPDATE, *feed.ROUND, feed.coverage()]
        _, status = self.run_of(its, at_least=99.0, is_done=lambda its: its.violations)
        self.assertEqual(status, 1)

    def test_json(self):
        """Each line can be parsed; the last one is the outcome."""
        told, status = self.run_of(SERIAL, is_json=True)
        (outcome,) = map(json.loads, told)
        self.assertEqual((status, outcome["event"], outcome["verdict"]), (0, "outcome", "serial"))
        self.assertEqual(
            {name: outcome["seen"][name] for name in feed.TOTALS}, feed.TOTALS
        )
        told, status = self.run_of(
            [feed.started(), feed.OPEN, *feed.LOST_UPDATE, *feed.ROUND, feed.coverage()],
            is_json=True,
            is_done=lambda status: status.violations,
        )
        violation, outcome = map(json.loads, told)
        self.assertEqual((status, outcome["verdict"], outcome["violations"]), (1, "violated", 1))
        self.assertNotIn("explained", outcome)
        self.assertEqual(violation["event"], "violation")
        self.assertEqual(violation["anomaly"]["name"], "lost update")
        self.assertIn("serializable", violation["breaks"])
        texts = [each["text"] for one in violation["ran"] for each in one["statements"]]
        self.assertIn("UPDATE stock SET qty = 4 WHERE id = 7", texts)
        self.assertIn("can come first", violation["because"][-1])

    def test_a_proxy_that_cant_begin(self):
        with self.assertRaisesRegex(CantBeginError, "the proxy ended with status 3"):
            self.run_of([("exit", 3)], is_done=lambda its: False)

    def test_an_audit_that_cant_begin(self):
        """The proxy goes on, but an audit of that server won't begin by itself."""
        ended = feed.event("ended", at=feed.AT, reason="read the catalog: no password supplied")
        wanted = "^the audit can't begin: read the catalog: no password supplied$"
        with self.assertRaisesRegex(CantBeginError, wanted):
            self.run_of([ended], is_done=lambda its: False)

    def test_an_audit_that_waits_for_a_transaction_begins_later(self):
        blocked = feed.event("ended", at=feed.AT, reason="a transaction is open", blocked=True)
        told, status = self.run_of(
            [blocked, ("await", "restart"), *SERIAL],
            is_done=lambda its: its.kind == "serial" and its.seen.reads,
        )
        self.assertEqual(status, 4)
        self.assertTrue(any("a transaction is open" in line for line in told), told)

    def test_an_audit_that_had_begun_is_tried_again(self):
        ended = feed.event("ended", at=feed.AT, reason="the slot was lost")
        told, status = self.run_of(
            [feed.started(), feed.OPEN, ended, ("await", "restart"), *SERIAL],
            is_done=lambda its: its.kind == "serial" and its.seen.reads,
        )
        self.assertEqual(status, 4)

    def test_a_proxy_that_dies_is_replaced(self):
        told, status = self.run_of(
            [*SERIAL, ("await", "cut"), ("exit", 7)],
            SERIAL,
            is_done=lambda its: its.audit == 2 and its.kind == "serial" and its.seen.reads,
        )
        self.assertEqual(status, 4)
        self.assertTrue(told[0].startswith("incomplete: 12 of 22 transactions, "), told)
        self.assertIn("the proxy ended with status 7", told[2])

    def test_the_page_and_the_metrics(self):
        seen = {}

        def is_done(status):
            if status.rounds_count < 1 or not status.seen.reads:
                return False
            for name, server in zip(("page", "metrics"), self.servers):
                path = "metrics" if name == "metrics" else ""
                if name == "page":
                    with urllib.request.urlopen(f"{server.url}status.json", timeout=300) as answer:
                        self.assertEqual(answer.headers["Content-Type"], "application/json")
                        seen["json"] = json.load(answer)
                with urllib.request.urlopen(server.url + path, timeout=300) as answer:
                    seen[name] = answer.read().decode()
            return True

        self.servers = []
        from zanteyard.watch import _run

        class Noted(_run.WebServer):
            def __init__(its, *arguments):
                super().__init__(*arguments)
                self.servers.append(its)

        before, _run.WebServer = _run.WebServer, Noted
        self.addCleanup(setattr, _run, "WebServer", before)
        self.run_of(SERIAL, page="127.0.0.1:0", metrics="127.0.0.1:0", is_done=is_done)
        self.assertIn("No violation so far", seen["page"])
        self.assertEqual((seen["json"]["verdict"], seen["json"]["status"]), ("serial", 0))
        self.assertEqual(seen["json"]["seen"]["transactions"]["all"], 11)
        self.assertEqual(seen["json"]["explained"], [])
        self.assertIn("SELECT count(*) FROM orders WHERE customer = $1", seen["page"])
        names = [line.split()[2] for line in seen["metrics"].splitlines() if line.startswith("# HELP")]
        self.assertEqual(len(names), len({*names}), sorted(names))
        for line in (
            "zanteyard_transactions_taken_total 8",
            'zanteyard_rounds_total{kind="serial"} 1',
            "zanteyard_commits_without_rows_total 1",
            "zanteyard_transactions_all_total 11",
            "zanteyard_transactions_checked_total 6",
            "zanteyard_transactions_rolled_back_total 1",
            "zanteyard_transactions_waiting 2",
            "zanteyard_transactions_waiting_for_round 0",
            'zanteyard_transactions_in_part_total{reason="some statements weren\'t seen"} 2',
            'zanteyard_rows_read_not_checked_total{reason="its version is unknown"} 4',
            "zanteyard_rows_read_from_before_total 4",
            "zanteyard_rows_read_own_total 1",
            "zanteyard_rows_read_of_unchecked_total 2",
            "zanteyard_selects_by_condition_total 8",
            "zanteyard_rows_written_without_the_proxy_total 5",
            "zanteyard_commits_untold_total 4",
            "zanteyard_commits_untold_without_the_proxy_total 1",
            "zanteyard_violated 0",
            "zanteyard_auditing 1",
        ):
            with self.subTest(line=line):
                self.assertIn(line, seen["metrics"].splitlines())

    def test_the_journal_brings_another_auditor_to_where_it_stood(self):
        def is_done(status):
            if status.rounds_count == 1 and not os.path.exists(killed):
                self.run._watching.auditing._program._pipes.process.kill()
                with open(killed, "w", encoding="utf-8"):
                    pass  # the proxy goes on now
            return status.rounds_count >= 2 and status.restarts == 1

        killed = os.path.join(self.folder, "killed")
        parts = [*SERIAL, ("file", killed), feed.offer(0, 1, [[], [6]]), *feed.ROUND]
        journal = os.path.join(self.folder, "journal")
        told, status = self.run_of(parts, is_done=is_done, journal=journal)
        self.assertEqual(status, 0, told)
        self.assertEqual(self.run.board.status().restarts, 1)
        self.assertTrue(os.path.isfile(journal))


class Programs(InAFolder):
    def test_which_proxy_is_started(self):
        path = feed.program(self.folder, [])
        self.assertEqual(proxy_path({"ZANTEYARD_PROXY": "/mine"}), "/mine")
        self.assertTrue(proxy_path({}).endswith("/zanteyard-proxy"))
        self.assertEqual(find_proxy({"ZANTEYARD_PROXY": path}), path)
        os.chmod(path, 0o600)
        for wrong in (path, "/not/there"):
            with self.assertRaises(ProgramMissingError):
                find_proxy({"ZANTEYARD_PROXY": wrong})
        self.assertIn("missing", build_of({"ZANTEYARD_PROXY": "/not/there"}))


@unittest.skipUnless(psycopg2 and program("initdb"), "PostgreSQL or psycopg2 is not installed")
@unittest.skipUnless(os.path.isfile(PROGRAM), f"{PROGRAM} is not built")
class Command(InAFolder):
    """The command itself, with a real server and a fake proxy."""

    @classmethod
    def setUpClass(cls):
        cls.cluster = PostgresServer()
        cls.cluster.__enter__()
        cls.addClassCleanup(cls.cluster.__exit__)
        cls.url = f"postgresql://postgres:secret@/postgres?host={cls.cluster.folder}"

    def begin(self, *words, parts=SERIAL):
        path = feed.program(self.folder, parts)
        its = {**os.environ, "ZANTEYARD_PROXY": path, "COBRA_AUDIT": os.path.abspath(PROGRAM)}
        its["RUNTIME_DIRECTORY"] = self.folder
        pipe = subprocess.PIPE
        return subprocess.Popen(
            [sys.executable, "-m", "zanteyard", "watch", *words],
            cwd=TOP, env=its, stdout=pipe, stderr=pipe, text=True,
        )

    def test_1_a_server_that_lacks_something(self):
        ended = self.begin(self.url)
        out, errors = ended.communicate(timeout=600)
        self.assertEqual((ended.returncode, out), (2, ""))
        first, second, *_ = errors.splitlines()  # a line for each thing that is missing
        self.assertEqual(
            first, "mistake: the server isn't ready; `zanteyard prepare URL` shows everything that is missing"
        )
        self.assertEqual(
            second,
            "  wal_level is replica, but must be logical: ALTER SYSTEM SET wal_level = 'logical'; "
            "-- then restart the server",
        )
        self.assertNotIn("secret", errors)

    def test_2_from_its_begin_to_a_signal(self):
        with Database(self.url) as database:
            database.run("ALTER SYSTEM SET wal_level = 'logical'")
        self.cluster.stop()
        self.cluster.start()
        for number in (signal.SIGTERM, signal.SIGINT):
            with self.subTest(signal=number):
                run = self.begin(self.url, "--listen", "127.0.0.1:7777", "--sample", "0.5", "--tables", "public.*")
                self.wait_for_round(run)
                run.send_signal(number)
                out, errors = run.communicate(timeout=600)
                self.assertEqual(run.returncode, 0, errors)
                self.assertRegex(out, r"serial: 6 of 11 transactions\b.* were checked")
                self.assertNotIn("secret", out + errors)
        with open(os.path.join(self.folder, "zanteyard-proxy.starts"), encoding="utf-8") as file:
            (words, _) = map(json.loads, file.read().splitlines())
        wanted = ["--listen", "127.0.0.1:7777", "--parameters=true", "--drain=30s", "--sample=0.5"]
        control = os.path.join(self.folder, "127.0.0.1_7777.sock")
        self.assertEqual(words[2:], [*wanted, "--tables=public.*", "--control", control])
        self.assertEqual(words[0], "--server")
        self.assertNotIn("secret", words[1])

    def wait_for_round(self, run):
        """Reads its log up to the first round."""
        for line in run.stderr:
            if "round 1: serial" in line:
                return
        self.fail("there was no round")

    def test_3_a_server_that_isnt_there(self):
        ended = self.begin("postgresql://nobody@127.0.0.1:1/nothing")
        out, errors = ended.communicate(timeout=600)
        self.assertEqual((ended.returncode, out), (2, ""))
        self.assertIn("can't query the server", errors)

    def test_4_wrong_words(self):
        for words in (["--listen", "x"], ["--sample", "2"], ["--page", "1:2:3"], ["--tables", "a,"], []):
            ended = self.begin(*words)
            ended.communicate(timeout=600)
            self.assertEqual(ended.returncode, 2, words)

    def test_4_b_an_address_that_is_taken(self):
        with socket.socket() as taken:
            taken.bind(("127.0.0.1", 0))
            taken.listen()
            address = f"127.0.0.1:{taken.getsockname()[1]}"
            for option in ("--page", "--metrics"):
                with self.subTest(option=option):
                    ended = self.begin(self.url, option, address)
                    out, errors = ended.communicate(timeout=600)
                    self.assertEqual((ended.returncode, out), (2, ""))
                    hint, *more, last = errors.splitlines()
                    self.assertEqual(last, f"mistake: {address}: Address already in use")
                    self.assertIn("a superuser, which an audit doesn't need", hint)

    def test_5_prepare(self):
        with Database(self.url, options="-c search_path=public") as database:
            database.run("CREATE TABLE no_key (a int)")
        words = [sys.executable, "-m", "zanteyard", "prepare", self.url]
        ended = subprocess.run(words, cwd=TOP, capture_output=True, text=True, timeout=600)
        self.assertIn("public.no_key: no primary key", ended.stdout)
        self.assertIn("ready: an audit can begin", ended.stdout)
        self.assertNotIn("secret", ended.stdout + ended.stderr)
        self.assertEqual(ended.returncode, 0)

    def test_6_errors_have_their_code(self):
        with Database(self.url) as database:
            with self.assertRaises(DatabaseError) as caught:
                database.run("SELECT nothing")
        self.assertEqual(caught.exception.code, "42703")


if __name__ == "__main__":
    sys.exit(unittest.main())
