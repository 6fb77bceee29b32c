"""An explanation is the refutation that the auditor has checked. A plain checker finds each cycle
in it correct, and refuses explanations that were misread."""
import functools
import itertools
import json
import os
import random
import unittest
from unittest import mock

from zanteyard import Logged
from zanteyard.explain._arc_words import ArcWords
from zanteyard.explain._audited import audited_apart
from zanteyard.explain._explanation import Case, Explanation, laid_out
from zanteyard.explain._reasons import explanation_of
from zanteyard.explain._refutation import MANY, UnreadableError, _Reading, read_refutation
from zanteyard.explain._words import name
from zanteyard.promises._kinds import GENERALIZED, PREFIX, SERIALIZABLE, SESSIONLESS, SNAPSHOT
from zanteyard.promises._kinds import STRICT, STRONG_SNAPSHOT

from .built import TOP, path_of
from .killing import PLAIN
from .plain_explanations import Check, Wrong

import hard

PROGRAMS = [PLAIN, *filter(None, [path_of("cobra_audit")])]
SEEDS = 12
DATA = os.path.join(TOP, "crates/cobra_examples/data")
REAL_SPLIT = """\
either 1.0 comes before 0.0, or 4.0 comes before 1.0: 4.0 read key1 from 0.0, and 1.0 wrote it too
if 1.0 comes before 0.0:
    2.0 comes before 5.0: 5.0 read key5 from 2.0
    5.0 comes before 0.0: 5.0 read key1 from 1.0, and 0.0, which wrote it too, comes after 1.0
    0.0 comes before 7.0: 7.0 read key3 from 0.0
    2.0 comes before 3.0: 7.0 read key2 from 3.0, and 2.0, which wrote it too, comes before 7.0
    3.0 comes before 5.0: 5.0 read key6 from 3.0
    0.0 comes before 6.0: 6.0 read key3 from 0.0
    3.0 comes before 2.0: 6.0 read key2 from 2.0, and 3.0, which wrote it too, comes before 6.0
    so neither 2.0 nor 3.0 can come first
if 4.0 comes before 1.0:
    2.0 comes before 4.0: 4.0 read key5 from 2.0
    1.0 comes before 7.0: 7.0 read key4 from 1.0
    2.0 comes before 3.0: 7.0 read key2 from 3.0, and 2.0, which wrote it too, comes before 7.0
    3.0 comes before 4.0: 4.0 read key6 from 3.0
    1.0 comes before 6.0: 6.0 read key4 from 1.0
    3.0 comes before 2.0: 6.0 read key2 from 2.0, and 3.0, which wrote it too, comes before 6.0
    so neither 2.0 nor 3.0 can come first"""


def txn(*reads, writes="", span=()):
    return Logged(reads, tuple(writes.split()), span=span)


def of_log(log):
    """The transactions of a script as a history."""
    return [
        [
            Logged(
                [(f"key{key}", tuple(source) if source != ["init"] else "init")
                 for key, *source in reads],
                [f"key{key}" for key in writes],
            )
            for reads, writes in txns
        ]
        for txns in log
    ]


def hidden(seed):
    """Pairs of writers whose order is open, and readers that rule out all ways to order them."""
    draw = random.Random(seed)
    pairs, wrong = draw.randint(2, 4), []
    ways = [*itertools.product((0, 1), repeat=pairs)]
    for way in draw.sample(ways, len(ways)):
        if not any(all(way[pair] == first for pair, first in clause) for clause in wrong):
            some = draw.sample(range(pairs), draw.randint(2, min(pairs, 3)))
            wrong.append([(pair, way[pair]) for pair in some])
    return hiding(pairs, wrong)


def hidden_behind(clause):
    """Two pairs whose order is open, and readers that rule out all ways to order them if a third
    pair has the order that the clause leaves open."""
    ways = itertools.product((0, 1), repeat=2)
    return hiding(3, [clause, *([(0, one), (1, other), (2, 1)] for one, other in ways)])


def hiding(pairs, wrong):
    log = hard.Log()
    hard.hide(log, pairs, wrong)
    return of_log(log.sessions)


X, Y = ("x", (0, 0)), ("y", (0, 0))
LOST = [[txn(writes="x"), txn(X, writes="x")], [txn(X, writes="x")]]
FORK = [
    [txn(writes="x")], [txn(writes="y")],
    [txn(("x", (0, 0)), ("y", "init"))], [txn(("y", (1, 0)), ("x", "init"))],
]
BOTH_ORDERS = [  # of two writers of one key, each of which somebody reads as the last
    [txn(writes="x a"), txn(("x", (1, 0)), ("b", (1, 0)))],
    [txn(writes="x b"), txn(("x", (0, 0)), ("a", (0, 0)))],
]
ABORTED = Logged((), (), "aborted", tried_reads=(), tried_writes=("x",))
VIOLATED = {
    "a lost update": (LOST, SERIALIZABLE),
    "a lost update of what was there": ([[txn(("x", "init"), writes="x")]] * 2, SERIALIZABLE),
    "write skew": ([[txn(writes="x y")], [txn(X, writes="y")], [txn(Y, writes="x")]], SERIALIZABLE),
    "a stale read": ([[txn(writes="x"), txn(("x", "init"))]], SERIALIZABLE),
    "a dirty read": ([[ABORTED], [txn(("x", (0, 0)), ("y", "init"))]], SERIALIZABLE),
    "a long fork": (FORK, SERIALIZABLE),
    "a read of two versions": ([[txn(writes="x")], [txn(X, writes="x")],
                                [txn(X, ("x", (1, 0)))]], SERIALIZABLE),
    "two orders of two writers": (BOTH_ORDERS, SERIALIZABLE),
    "reads around": ([[txn(("x", (1, 0)), writes="y")], [txn(Y, writes="x")]], SERIALIZABLE),
    "a split": (of_log(hard.contradiction(2, hard.all_ways(2), 0).sessions), SERIALIZABLE),
    "a split behind what is forced": (hidden_behind([(2, 0)]), SERIALIZABLE),
    "several splits": (of_log(hard.contradiction(3, hard.all_ways(3), 0).sessions), SERIALIZABLE),
    "a lost update, without sessions": (LOST, SESSIONLESS),
    "a stale read by time": ([[txn(writes="x", span=(0, 2_000_000, "ns"))],
                              [txn(("x", "init"), span=(5_000_000, 6_000_000, "ns"))]], STRICT),
    "a stale snapshot by time": ([[txn(writes="x", span=(0, 2_000_000, "ns"))],
                                  [txn(("x", "init"), span=(5_000_000, 6_000_000, "ns"))]],
                                 STRONG_SNAPSHOT),
    "a lost update of snapshots": (LOST, SNAPSHOT),
    "a lost update of snapshots of what was there": ([[txn(("x", "init"), writes="x")]] * 2,
                                                     SNAPSHOT),
    "a lost update of snapshots, without sessions": (LOST, GENERALIZED),
    "a long fork of snapshots": (FORK, SNAPSHOT),
    "a long fork of prefixes": (FORK, PREFIX),
    "a dirty read of a snapshot": ([[ABORTED], [txn(("x", (0, 0)))]], SNAPSHOT),
    "a split of snapshots": (of_log(hard.contradiction(2, hard.all_ways(2), 0).sessions), SNAPSHOT),
}


MADE = {seed: (hidden(seed), SERIALIZABLE) for seed in range(SEEDS)}
WORKED = {**VIOLATED, **MADE}


@functools.lru_cache(maxsize=None)
def audited(case, program=PLAIN):
    history, promise = WORKED[case]
    return audited_apart(history, program, promise)


def explained(case, program=PLAIN):
    return explanation_of(audited(case, program), WORKED[case][0])


def check(history, promise, explanation):
    Check(history, promise.is_split).explanation(explanation)


class Explanations(unittest.TestCase):
    def test_each_holds(self):
        for case, program in itertools.product(WORKED, PROGRAMS):
            with self.subTest(case=case, program=os.path.basename(program)):
                history, promise = WORKED[case]
                explanation = explained(case, program)
                check(history, promise, explanation)
                self.assertEqual("split" in str(case) or case in MADE, bool(explanation.cases))

    def test_it_is_the_tree_that_was_checked(self):
        """Each end of the tree appears."""
        for case, program in itertools.product(WORKED, PROGRAMS):
            with self.subTest(case=case, program=os.path.basename(program)):
                items = [item[0] for item in audited(case, program).report.certificate]
                ends = [*explained(case, program).ends()]
                self.assertEqual(len(ends), items.count("split") + 1)
                self.assertEqual(len([it for it in ends if it.arcs]), items.count("cycle"))

    def test_each_number_stands_for_one_reason(self):
        """What a cycle follows from appears above it, or in the cases around it."""
        for case in WORKED:
            told = set()

            def look(reasons, above):
                for link in reasons.links:
                    self.assertNotIn(link.number, told)
                    told.add(link.number)
                    self.assertLessEqual({*link.follows}, above)
                    above = above | {link.number}
                self.assertLessEqual({link.number for link in reasons.drawn}, above)
                for case in reasons.cases:
                    self.assertNotIn(case.link.number, told)
                    told.add(case.link.number)
                    look(case.reasons, above | {case.link.number})

            with self.subTest(case=case):
                look(laid_out(explained(case)), set())


class Mutants(unittest.TestCase):
    """Misread refutations; the checker has to refuse each kind somewhere."""

    def refused(self):
        """How many the checker refuses; unreadable ones don't count."""
        count = 0
        for case, (history, promise) in WORKED.items():
            its = audited(case)
            try:
                told = its.report.certificate, history, its.keys, name, its.moved, its.ids is None
                check(history, promise, read_refutation(*told))
            except Wrong:
                count += 1
            except UnreadableError:
                pass
        return count

    def test_none_is_refused_as_it_is(self):
        self.assertEqual(self.refused(), 0)

    def test_what_is_read_wrongly_is(self):
        case, circle, path = _Reading._case, _Reading._circle, _Reading._path
        assumed, forced = ArcWords.assumed, ArcWords.forced

        def as_the_first(self, choice, side, facts):
            return Case(self.words.assumed(choice, 1), case(self, choice, side, facts).explanation)

        def as_the_other(self, choice, side, facts):
            its = case(self, choice, side, facts)
            return Case(self.words.assumed(choice, 3 - side), its.explanation)

        def without_one(self, arcs, facts):
            its = circle(self, arcs, facts)
            return Explanation(its.end, its.arcs[1:] or its.arcs, its.circle[1:])

        def with_a_shorter_path(self, cycle, ruled_out, facts):
            arcs = path(self, cycle, ruled_out, facts)
            return arcs[:-1] or arcs

        def of_the_other_side(self, choice, side, needs):
            its = forced(self, choice, 3 - side, needs)
            right = forced(self, choice, side, needs)
            return its._replace(start=right.start, end=right.end, told=right.told, needs=needs[:1])

        def without_its_reason(self, choice, side, needs):
            return assumed(self, choice, side)

        def turned(self, arcs, facts):
            its = circle(self, arcs, facts)
            arcs = tuple(arc._replace(start=arc.end, end=arc.start) for arc in its.arcs[::-1])
            return Explanation(its.end, arcs, its.circle)

        for where, what, mutant in (
            (_Reading, "_case", as_the_first),
            (_Reading, "_case", as_the_other),
            (_Reading, "_circle", without_one),
            (_Reading, "_circle", turned),
            (_Reading, "_path", with_a_shorter_path),
            (ArcWords, "forced", of_the_other_side),
            (ArcWords, "forced", without_its_reason),
        ):
            with self.subTest(mutant=mutant.__name__), mock.patch.object(where, what, mutant):
                self.assertGreater(self.refused(), 0)


class Words(unittest.TestCase):
    maxDiff = None

    def test_a_split(self):
        """The worked script: two writers of key 1 and two of key 2, in either order."""
        with open(os.path.join(DATA, "real_split.replies"), encoding="utf-8") as file:
            items = next(report[4] for report in map(json.loads, file) if report[0] == "report")
        with open(os.path.join(DATA, "real_split.jsonl"), encoding="utf-8") as file:
            lines = [json.loads(line) for line in file]
        history = of_log([line[3] for line in lines if line[0] == "offer"])
        told = read_refutation(items, history, [f"key{at}" for at in range(7)], name)
        check(history, SERIALIZABLE, told)
        self.assertEqual("\n".join(told.lines), REAL_SPLIT)

    def test_a_read_from_the_own_session_is_told_by_it(self):
        """The tree of a lost update in docs/FORMATS.md. With sessions, a read from the reader's own
        session is shown as session order, and without them as the read."""
        forced = [
            ["force", [0, 1, 1, 0, 0, 1, 0], 2, [["taken", 1, 0, 0, 0], ["read", 1, 0, 0, 1, 0]]],
            ["force", [1, 0, 1, 0, 0, 0, 1], 1, [["taken", 1, 0, 0, 1], ["taken", 0, 1, 1, 0]]],
        ]
        items = [*forced, ["cycle", [["read", 1, 0, 0, 0, 1], ["taken", 0, 1, 0, 0]]]]
        for keeps_sessions, why in ((True, "they are in one session"), (False, "0.1 read x from 0.0")):
            told = read_refutation(items, LOST, ["fence", "x"], name, keeps_sessions=keeps_sessions)
            check(LOST, SERIALIZABLE, told)
            self.assertEqual(
                told.lines,
                (
                    "0.0 comes before 1.0: 1.0 read x from 0.0",
                    "0.1 comes before 1.0: 0.1 read x from 0.0, and 1.0, which wrote it too, comes after 0.0",
                    f"0.0 comes before 0.1: {why}",
                    "1.0 comes before 0.1: 1.0 read x from 0.0, and 0.1, which wrote it too, comes after 0.0",
                    "so neither 0.1 nor 1.0 can come first",
                ),
            )

    def test_what_is_shared_is_told_above_the_cases(self):
        told = laid_out(explained("a split behind what is forced"))
        self.assertTrue(told.links)
        for case in told.cases:
            shared = {link.number for link in case.reasons.drawn} & {link.number for link in told.links}
            self.assertTrue(shared)

    def test_too_many_cases(self):
        items = [["split", [0, 1, 1, 0, 0, 1, 0]]] * (MANY + 1)
        told = read_refutation(items, LOST, ["fence", "x"], name)
        self.assertEqual(told.lines, (f"the auditor's refutation has {MANY + 2} cases, too many to show",))

    def test_what_is_no_refutation(self):
        for items in (
            [],
            [["cycle", []]],
            [["cycle", [["taken", 0, 0, 0, 1]]]],
            [["nowrite", 0, 1, 1]],
            [["split", [0, 1, 1, 0, 0, 1, 0]], ["nowrite", 7, 7, 7]],
            [["force", [0, 1, 1, 0, 0, 1, 0], 2, [["session", 0, 0, 0, 1]]]],
            [["cycle", [["read", 9, 0, 0, 0, 1, 5]]]],
        ):
            with self.subTest(items=items), self.assertRaises(UnreadableError):
                read_refutation(items, LOST, ["fence", "x"], name)


if __name__ == "__main__":
    unittest.main()
