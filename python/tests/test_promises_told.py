"""What is printed about promises: by `zanteyard check`, `explain` and `levels`, and by audits of
running clients."""
import contextlib
import io
import os
import random
import subprocess
import sys
import tempfile
import threading
import unittest

from zanteyard import RATHER_WAIT, AbortedError, Auditor, LiveAuditor, Logged
from zanteyard.cli._main import main
from zanteyard.explain._anomalies import find_anomaly
from zanteyard.explain._explanation import Explanation
from zanteyard.explain._reasons import explain_history
from zanteyard.explain._report import story_lines, story_of
from zanteyard.explain._shrinking import smaller
from zanteyard.explain._standing import Apart, standing
from zanteyard.explain._words import name as plain_name
from zanteyard.program._auditor import PROGRAM
from zanteyard.promises._kinds import ALL, GENERALIZED, PREFIX, SERIALIZABLE, SESSIONLESS, SNAPSHOT
from zanteyard.promises._kinds import STRICT, STRONG_SNAPSHOT
from zanteyard.stores.memory import MemoryStore
from zanteyard.trial import postgres_server

from .killing import PLAIN
from .waiting import SOON, wait_until

TOP = os.path.normpath(os.path.join(os.path.dirname(os.path.abspath(__file__)), "../.."))
WORKED = os.path.join(TOP, "examples/promises")
ROUND = '["round",4096,0,1]'
APART = [  # a lost update, a read that misses its session's write, and one that misses another session's
    '["open",4,16]',
    '["offer",0,0,[[[[5,"init"]],[5]]]]',
    '["offer",1,0,[[[[5,"init"]],[5]]]]',
    '["offer",2,0,[[[],[7]],[[[7,"init"]],[]]]]',
    '["offer",3,0,[[[],[8]],[[[8,"init"]],[]]]]',
    ROUND,
]


def run(*words):
    out, err = io.StringIO(), io.StringIO()
    with contextlib.redirect_stdout(out), contextlib.redirect_stderr(err):
        status = main(words)
    return status, out.getvalue(), err.getvalue()


def worked(name):
    return os.path.join(WORKED, f"{name}.jsonl")


def txn(*reads, writes=""):
    return Logged(reads, tuple(writes))


def timed(logged, began, ended):
    return logged._replace(span=(began, ended, "ns"))


class Reasons(unittest.TestCase):
    """No built program is needed."""

    def test_a_small_part_among_thousands_has_its_name(self):
        """It keeps its place, and the others are in front of it as if they had done nothing."""
        idle, lost = [txn()] * 10000, txn(("x", "init"), writes="x")
        for promise in (SERIALIZABLE, SNAPSHOT):
            history = [[*idle, lost], [*idle, lost]]
            small = smaller(history, PLAIN, promise=promise)
            self.assertEqual([len(its) for its in small], [10001] * 2)
            self.assertEqual(find_anomaly(small, promise=promise, program=PLAIN).name, "lost update")

    def test_what_is_too_much_is_said(self):
        """Among many transactions no broken promises are looked for."""
        many = [[txn(("x", "init"), writes="x")] for _ in range(65)]
        told = "\n".join(story_lines(story_of(many, plain_name, Explanation("so"))))
        self.assertIn("(it wasn't made smaller than 65 transactions)", told)
        told = "\n".join(standing(many, PROGRAM).lines())
        self.assertIn("which promises it breaks wasn't asked: it has 65 transactions", told)
        told = "\n".join(standing(many[:2], "/no/program", seconds=-1.0).lines())
        self.assertIn("there was no time to ask about", told)

    def test_a_circle_of_begins_and_commits(self):
        lost = [[txn(("x", "init"), writes="x")]] * 2
        told = explain_history(lost, program=PLAIN, promise=SNAPSHOT).lines
        self.assertEqual(
            told,
            (
                "0.0 begins before 1.0 commits: 0.0 read x as it was at first, and 1.0 wrote it",
                "1.0 begins before 0.0 commits: 1.0 read x as it was at first, and 0.0 wrote it",
                "1.0 commits before 0.0 begins: both wrote x, and 1.0 begins before 0.0 commits",
                "so neither the begin of 0.0 nor the commit of 1.0 can come first",
            ),
        )

    def test_a_write_skew_has_none(self):
        skew = [[txn(("x", "init"), writes="y")], [txn(("y", "init"), writes="x")]]
        told = explain_history(skew, program=PLAIN, promise=SNAPSHOT)
        self.assertEqual(told.arcs, ())

    def test_a_circle_by_time(self):
        stale = [
            [timed(txn(writes="x"), 0, 2_000_000)],
            [timed(txn(("x", "init")), 5_000_000, 6_000_000)],
        ]
        for promise, first in (
            (STRICT, "0.0 comes before 1.0: 1.0 began 3 ms after 0.0 had ended"),
            (STRONG_SNAPSHOT, "0.0 commits before 1.0 begins: 1.0 began 3 ms after 0.0 had ended"),
        ):
            with self.subTest(promise=promise.name):
                told = explain_history(stale, program=PLAIN, promise=promise)
                self.assertIn(first, told.lines)
        self.assertEqual(explain_history(stale, program=PLAIN).arcs, ())


@unittest.skipUnless(os.path.isfile(PROGRAM), f"{PROGRAM} is not built")
class Told(unittest.TestCase):
    maxDiff = None

    def path(self, lines):
        folder = tempfile.TemporaryDirectory()
        self.addCleanup(folder.cleanup)
        path = os.path.join(folder.name, "script.jsonl")
        with open(path, "w", encoding="utf-8") as file:
            file.writelines(f"{line}\n" for line in lines)
        return path

    def test_statuses(self):
        for name, promise, status in (
            ("write_skew", "serializable", 1),
            ("write_skew", "snapshot", 0),
            ("lost_update", "snapshot", 1),
            ("stale_read", "serializable", 0),
            ("stale_read", "strict", 1),
            ("write_skew", "strict", 2),  # has no times
        ):
            with self.subTest(name=name, promise=promise):
                self.assertEqual(run("check", "--promise", promise, worked(name))[0], status)

    def test_what_is_broken_and_what_is_left_standing(self):
        skew = [[txn(("x", "init"), writes="y")], [txn(("y", "init"), writes="x")]]
        lost = [[txn(("x", "init"), writes="x")]] * 2
        missed = [[txn(writes="x"), txn(("x", "init"))]]
        stale = [[timed(txn(writes="x"), 0, 2)], [timed(txn(("x", "init")), 5, 6)]]
        for shows, history, promise, broken, kept in (
            ("write skew", skew, SERIALIZABLE, {SERIALIZABLE, SESSIONLESS}, {SNAPSHOT}),
            (
                "lost update", lost, SNAPSHOT,
                {SERIALIZABLE, SESSIONLESS, SNAPSHOT, GENERALIZED}, {PREFIX},
            ),
            (
                "a session's own commit", missed, SERIALIZABLE,
                {SERIALIZABLE, SNAPSHOT, PREFIX}, {SESSIONLESS},
            ),
            ("by time", stale, STRICT, {STRICT, STRONG_SNAPSHOT}, {SERIALIZABLE}),
        ):
            with self.subTest(shows=shows):
                found = standing(history, PROGRAM, promise, 60.0)
                self.assertTrue({*found.broken} >= broken and {*found.kept} >= kept, found)
                has_times = promise.is_timed
                asked = {each for each in ALL if has_times or not each.is_timed}
                told = {*found.broken, *found.kept}
                self.assertEqual(told - {STRICT}, asked - {STRICT})
        lines = [*standing(lost, PROGRAM, SERIALIZABLE, 60.0).lines()]
        self.assertEqual(lines, [
            "breaks serializability and snapshot isolation, also without session order",
            "leaves prefix consistency standing",
        ])

    def test_violations_that_lie_apart(self):
        told = run("check", "--seconds", "60", self.path(APART))[1]
        self.assertIn("2 more independent violations (--all explains each in full)", told)
        self.assertEqual(told.count("    stale read: "), 2)
        whole = run("check", "--all", "--seconds", "60", self.path(APART))[1]
        self.assertEqual(whole.count("  because"), 2)
        self.assertIn("violation 3:", whole)

    def test_a_violation_is_found_once(self):
        """Of three transactions that overwrote one version any two would do, and it is one
        violation."""
        history = [[txn(("x", "init"), writes="x")]] * 3
        apart = Apart(history, PROGRAM)
        self.assertEqual([*apart.others(smaller(history), 60.0)], [])
        self.assertTrue(apart.are_all_found)

    def test_levels(self):
        status, told, _ = run("levels", worked("stale_read"))
        self.assertEqual(status, 0)
        self.assertEqual(told.splitlines(), [
            "                    in order of time  in session order  in any order",
            "serializability     no                yes               yes",
            "snapshot isolation  no                yes               yes",
            "prefix consistency                    yes",
            "broken: strict serializability and strong snapshot isolation",
            "  by 0.0, 1.0",
        ])
        self.assertEqual(run("levels", self.path(['["open",1,4]', "[]"]))[0], 2)

    def test_levels_of_a_script_that_forgets(self):
        """An incomplete history isn't checked for promises that need all of it."""
        lines = [
            '["open",2,16]',
            '["offer",0,0,[[[],[5]],[[[0,"init"]],[0]]]]',
            '["offer",1,0,[[[[0,0,1]],[0]],[[[5,0,0]],[5]]]]',
            ROUND,
            '["truncate"]',
            '["offer",0,2,[[[[5,0,0]],[5]]]]',
            ROUND,
        ]
        told = run("levels", self.path(lines))[1]
        self.assertIn("serializability     no", told)
        self.assertIn("prefix consistency                    unknown", told)
        self.assertIn("the script forgets", told)

    def test_a_cut_under_snapshot_isolation(self):
        """After it, the rest is reported with its own numbers."""
        lines = [
            '["open",2,16]',
            '["offer",0,0,[[[],[5]],[[[0,"init"]],[0]]]]',
            '["offer",1,0,[[[[0,0,1]],[0]],[[[5,0,0]],[5]]]]',
            ROUND,
            '["truncate"]',
            '["show"]',
            '["offer",0,2,[[[[5,0,0]],[5]]]]',
            ROUND,
        ]
        status, told, err = run("check", "--promise", "snapshot", self.path(lines))
        self.assertEqual((status, err), (1, ""))
        self.assertIn("lost update", told)
        self.assertIn("0.2 and 1.1 both read key 5 ", told)
        self.assertNotIn("no fence was settled", told)


@unittest.skipUnless(os.path.isfile(PROGRAM), f"{PROGRAM} is not built")
class Live(unittest.TestCase):
    def audited(self, fault, promise, count=120):
        """Clients that each read two keys and write one of them, over a store in memory, until
        something is forgotten; before that, each reads three keys before any of them writes one."""
        store, have_read = MemoryStore(fault, takes=0.001), threading.Barrier(3, timeout=SOON)
        with Auditor(3, promise=promise) as auditor:
            live = LiveAuditor(auditor, every=40, seconds=0.5, policy=RATHER_WAIT, patience=SOON)
            sessions = [live.session(store.connect()) for _ in range(3)]

            def run(session, keys, wait=bool):
                def work(it):
                    for key in keys:
                        it.get(f"k{key}")
                    wait()
                    it.put(f"k{keys[0]}", "1")

                with contextlib.suppress(AbortedError):
                    session.run(work, attempts=1)

            def client(session, seed):
                rng = random.Random(seed)
                run(session, [(seed + more) % 3 for more in range(3)], have_read.wait)
                for _ in range(count):
                    run(session, rng.sample(range(5), 2))
                    if live.is_over:
                        return
                wait_until(lambda: live.is_over or live.cuts or run(session, rng.sample(range(5), 2)))

            threads = [
                threading.Thread(target=client, args=each) for each in zip(sessions, range(3))
            ]
            for each in threads:
                each.start()
            for each in threads:
                each.join()
            return live.stop(), live

    def test_a_store_of_snapshots(self):
        """It keeps snapshot isolation, forgets meanwhile, and isn't serializable."""
        outcome, live = self.audited("write-skew", "snapshot")
        self.assertEqual(outcome.whole.kind, "serial")
        self.assertGreater(live.cuts, 0)
        self.assertEqual(sum(outcome.counts), outcome.handed_in)
        outcome, _ = self.audited("write-skew", "serializable")
        self.assertTrue(outcome.is_violated)

    def test_a_stale_snapshot_is_found(self):
        outcome, _ = self.audited("stale-read", "snapshot")
        self.assertTrue(outcome.is_violated)

    def test_what_cant_be_asked_while_clients_run(self):
        with self.assertRaisesRegex(ValueError, "only finished histories"):
            Auditor(1, promise="strict")


@unittest.skipUnless(os.path.isfile(PROGRAM), f"{PROGRAM} is not built")
class OfPostgres(unittest.TestCase):
    def test_which_promise_each_level_keeps(self):
        """As in docs/STORES.md."""
        if not postgres_server.program("initdb"):
            self.skipTest("PostgreSQL isn't installed")
        example = os.path.join(TOP, "examples/store_faults.py")
        asked = [sys.executable, example, "postgres", "--promises"]
        ran = subprocess.run(asked, capture_output=True, text=True, timeout=1800)
        if "psycopg2 is missing" in ran.stderr:
            self.skipTest("psycopg2 isn't installed")
        self.assertEqual((ran.returncode, ran.stderr), (0, ""))
        with open(os.path.join(TOP, "docs/STORES.md"), encoding="utf-8") as file:
            self.assertIn(ran.stdout.split("\n", 1)[1], file.read())


if __name__ == "__main__":
    unittest.main()
