"""Audits of PostgreSQL while clients run on it: each workload at the strictest level, and the
faults of the other levels."""
import functools
import itertools
import json
import os
import re
import subprocess
import sys
import tempfile
import unittest

from zanteyard import Auditor, AuditServer, LiveAuditor, Policy
from zanteyard.program._auditor import PROGRAM
from zanteyard.trial.postgres_server import PostgresServer, program
from zanteyard.trial.workloads import EVERY_WORKLOAD, ClientProcesses, Clients

from .owed import are_right, log_in, verdicts

try:
    import psycopg2
except ImportError:
    psycopg2 = None

TOP = os.path.normpath(os.path.join(os.path.dirname(os.path.abspath(__file__)), "../.."))
WORKLOADS = ("counter", "skew", "mixed", "blind")
OVERLAPPING = (
    *((workload, "serializable", by_processes) for workload in WORKLOADS for by_processes in (False, True)),
    *(("skew", "repeatable read", by_processes) for by_processes in (False, True)),
)
OVERLAPPED, RATE = 3.0, 250.0  # seconds, and transactions per second, so that a round may cover everything
PATIENCE = 120  # seconds to find a fault, which is in its clients' first transactions: a run ends with the first one
LATE = 900.0  # seconds for a program, on a busy machine


@unittest.skipUnless(os.path.isfile(PROGRAM), f"{PROGRAM} is not built")
@unittest.skipUnless(psycopg2 and program("initdb"), "PostgreSQL or psycopg2 isn't installed (nothing was audited live)")
class PostgresLive(unittest.TestCase):
    @classmethod
    def setUpClass(cls):
        cls.cluster = PostgresServer()
        cls.cluster.__enter__()
        cls.addClassCleanup(cls.cluster.__exit__)

    def outcome(self, seconds, *words, by=()):
        """The verdict, and after how many cuts; the run has a schema of its own."""
        call = [sys.executable, *by, f"{TOP}/examples/postgres_live.py", "--dsn", self.cluster.dsn]
        environment = {**os.environ, "COBRA_AUDIT": os.path.abspath(PROGRAM)}
        if by:
            environment["PYTHONPATH"] = f"{TOP}/python"
        with tempfile.TemporaryDirectory() as folder:
            ran = subprocess.run(
                [*call, "--unaudited", "0", "--rather-wait", "--seconds", str(seconds), *words],
                cwd=folder,
                env=environment,
                stdout=subprocess.PIPE,
                stderr=subprocess.STDOUT,
                text=True,
                timeout=LATE,
            )
        found = re.search(r"^\w+ at [a-z ]+: (\w+): .*; (\d+) cuts in", ran.stdout, re.MULTILINE)
        self.assertIsNotNone(found, ran.stdout)
        self.assertEqual(ran.returncode, int(found[1] != "serial"), ran.stdout)
        return found[1], int(found[2])

    def serial_with_cuts(self, *words):
        """On a busy machine it runs longer, until there is a cut."""
        for seconds in (1.5, 6, 24, 96):
            kind, cuts = self.outcome(seconds, "--every", "128", *words)
            self.assertEqual(kind, "serial")
            if cuts:
                return
        self.fail("no cut was made")

    def test_each_workload_is_serial_at_the_strictest_level(self):
        for workload in WORKLOADS:
            with self.subTest(workload=workload):
                self.serial_with_cuts("--workload", workload)

    def test_clients_in_processes_of_their_own(self):
        self.serial_with_cuts("--workload", "blind", "--processes")

    def test_who_only_writes_is_serial_at_the_lowest_level(self):
        words = ("--level", "committed", "--workload", "blind", "--processes")
        self.assertEqual(self.outcome(6, *words)[0], "serial")

    def test_each_round_is_right_of_the_whole_history(self):
        """A round is being searched at any moment while transactions are taken in. Each report is
        that of a program that is given everything that had arrived by the round's beginning, and
        forgets nothing; and each line of the script is right."""
        from zanteyard.stores.postgres import PostgresStore, prepare

        beside = 0  # offers, in total: an audit that is soon violated may have none
        for workload, level, by_processes in OVERLAPPING:
            with self.subTest(workload=workload, level=level, by_processes=by_processes):
                table = f"{workload}_{level.replace(' ', '_')}_{by_processes}"
                prepare(self.cluster.dsn, table)
                store = functools.partial(PostgresStore, self.cluster.dsn, level, table)
                with tempfile.TemporaryDirectory() as folder:
                    kind, told = self.searched(folder, store, workload, by_processes)
                    lines, replies = self.played(f"{folder}/script")
                self.assertTrue(are_right(lines, replies))
                reports = [json.loads(it) for it in replies if it.startswith(b'["report"')]
                self.assertEqual([(tuple(it[3]), it[2]) for it in reports], told)
                self.assertEqual(told[-1][1], kind)
                self.assertEqual(verdicts(log_in(lines, replies), told, PROGRAM), told)
                beside += self.came_beside(lines)
        self.assertGreater(beside, 0)

    @staticmethod
    def searched(folder, store, workload, by_processes):
        """The outcome, and for each round how many transactions it covered, and its verdict."""
        told = []
        note = lambda it: told.append((tuple(it.report.counts), it.report.kind))
        its = {"every": 64, "seconds": 0.0, "patience": 60.0, "policy": Policy(60.0, begins_anew=False)}
        with Auditor(4, script=f"{folder}/script") as auditor:
            has_round, looks = auditor.has_round, itertools.count()
            auditor.has_round = lambda seconds: next(looks) % 2 and has_round(seconds)  # never at the first look
            live = LiveAuditor(auditor, on_round=note, **its)
            if by_processes:
                with AuditServer(live, f"{folder}/audit") as server:
                    ClientProcesses(server.path, store, 4, workload, OVERLAPPED, RATE)
            else:
                sessions = [live.session(store()) for _ in range(4)]
                Clients(sessions, EVERY_WORKLOAD[workload], OVERLAPPED, lambda: live.is_over, RATE)
            outcome = live.stop()
            assert outcome.failure is None, outcome
            assert outcome.is_violated or outcome.audited == outcome.handed_in, outcome
            return outcome.kind, told

    @staticmethod
    def played(path):
        """A script's lines, and a program's replies to them."""
        with open(path, "rb") as script:
            text = script.read()
        replies = subprocess.run([PROGRAM], input=text, stdout=subprocess.PIPE, check=True, timeout=LATE).stdout
        return text.splitlines(), replies.splitlines()

    @staticmethod
    def came_beside(lines):
        """How many offers and joins came between the beginning of a round and its end."""
        count, is_open = 0, False
        for line in lines:
            is_open = line == b'["begin"]' or is_open and not line.startswith((b'["collect"', b'["skip"'))
            count += is_open and line.startswith(b'["offer"')
        return count

    def test_faults_are_found(self):
        for level, workload, *more in (
            ("repeatable", "skew"),
            ("repeatable", "skew", "--processes"),
            ("committed", "counter"),
        ):
            with self.subTest(level=level, workload=workload, more=more):
                words = ("--level", level, "--workload", workload, "--clients", "4", *more)
                kind, _ = self.outcome(PATIENCE, *words, by=("-m", "tests.overlapping", "4"))
                self.assertEqual(kind, "violated")


if __name__ == "__main__":
    unittest.main()
