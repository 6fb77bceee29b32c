"""From a round's refutation to the statements: retained lines, reduction, and names."""
import json
import os
import subprocess
import sys
import threading
import unittest
from dataclasses import replace

from tests import watch_feed as feed
from zanteyard.program._binaries import PROGRAM
from zanteyard.promises._kinds import SERIALIZABLE
from zanteyard.watch.violations._conflicts import cycles_of
from zanteyard.watch.violations._described import Described, Statement, by_time, clock, lines_of
from zanteyard.watch.outcome._feed import answered_of
from zanteyard.watch.proxy._intake import Intake
from zanteyard.watch.violations._kept import Kept
from zanteyard.watch.violations._pending import waiting_reads
from zanteyard.watch.violations._redacting import without_constants, without_values
from zanteyard.watch.violations._sql_anomalies import both_replaced
from zanteyard.watch.violations._statement_reads import as_shown, by_statement
from zanteyard.watch.pages._violation_page import violation_page
from zanteyard.watch.violations._violations import (
    NOTHING, Held, compact, explained, keys_of, key_text,
)
from zanteyard.core._records import Logged

FENCE = [[[0, "init"]], [0]]


def text(line):
    return json.dumps(line, separators=(",", ":")).encode()


def kept(*lines):
    return Kept([*map(text, lines)])


class WhatIsHeld(unittest.TestCase):
    LINES = (
        ["resume", 2, 16, 2],
        ["marks", [1, 0], [False, False]],
        ["last", [[0, 1, 7], [5, 0, 3], [55, 0, 4], [515, 5, 1]]],
        feed.offer(0, 1, [[], [6]], [[], [7]]),
        feed.offer(1, 0, [[[5, 0, 3], [6, 0, 1]], []]),
        ["resumed"],
    )

    def test_transactions(self):
        held = kept(*self.LINES)
        self.assertEqual([*held.transactions], [(0, 1), (0, 2), (1, 0)])
        self.assertEqual(held.transactions[(1, 0)], [[[5, 0, 3], [6, 0, 1]], []])
        self.assertEqual(held.marks, [1, 0])

    def test_last_writers(self):
        held = kept(*self.LINES)
        self.assertEqual(held.last({5, 0}), {5: (0, 3), 0: (1, 7)})
        self.assertEqual(held.last({7}), {})
        self.assertEqual(held.last(set()), {})

    def test_without_some_reads(self):
        found = kept(*self.LINES).without({((1, 0), (5, 0, 3)), ((0, 1), (9, "init"))})
        wanted = [*self.LINES]
        wanted[4] = feed.offer(1, 0, [[[6, 0, 1]], []])
        self.assertEqual(found, [*map(text, wanted)])


class Refutations(unittest.TestCase):
    def test_which_keys_one_names(self):
        cycle = [["taken", 1, 0, 0, 0], ["read", 5, 0, 0, 1, 0], ["base", 9, 1, 0, 0, 1]]
        for items, wanted in (
            ([["nowrite", 1, 0, 7]], {7}),
            ([["gone", 1, 0, 8]], {8}),
            ([["force", [0, 1, 6, 0, 0, 1, 0], 2, cycle], ["cycle", []]], {5, 6, 9}),
            ([["split", [0, 1, 6, 0, 0, 1, 0]], ["cycle", cycle]], {5, 6, 9}),
            ([["cycle", [["session", 0, 0, 0, 1]]]], set()),
        ):
            self.assertEqual(keys_of(items), wanted)

    def test_what_is_left_is_numbered_without_holes(self):
        idle, writes = Logged((), ()), Logged((), ("x",))
        reads = Logged((("x", (2, 1)),), ())
        history, places = compact([[idle, reads], [idle], [idle, writes]])
        self.assertEqual(history, [[Logged([("x", (1, 0))], (), tried_reads=[])],
                                   [Logged([], ("x",), tried_reads=[])]])
        self.assertEqual(places, {(0, 0): (0, 1), (1, 0): (2, 1)})

    def test_a_source_that_did_nothing_stays(self):
        history, places = compact([[Logged((), ())], [Logged((("x", (0, 0)),), ())]])
        self.assertEqual([len(each) for each in history], [1, 1])


@unittest.skipUnless(os.path.isfile(PROGRAM), f"{PROGRAM} is not built")
class Explained(unittest.TestCase):
    def told(self, *lines):
        """The replies to a round after these lines and to what asks for what is left, and the
        round's report."""
        saved = [["save", "marks"], ["save", "last", 0]]
        saved += [["save", "remain", session, 0] for session in range(3)]
        script = [["open", 3, 64, 2], *lines, ["round", 4096, 0, 1], *saved]
        told = subprocess.run(
            [PROGRAM], input=b"".join(text(line) + b"\n" for line in script), capture_output=True
        ).stdout.splitlines()
        report = json.loads(told[-6])
        self.assertEqual(report[2], "violated", told)
        return told, report

    def of(self, *lines, about=(), answered=NOTHING):
        """The violation that a round after these lines finds. The refutation is that of the lines
        `about`, if there are any: which one of several an auditor finds is its own affair."""
        told, report = self.told(*lines)
        if about:
            report[4] = self.told(*about)[1][4]
        held = Held(Kept([text(["resume", 3, 64, 2]), *told[-5:]]), report)
        self.involved = held.involved()
        found = explained(1, report, held, answered, PROGRAM, feed.AT)
        self.assertLessEqual({one.id for one in found.told}, {*self.involved})
        return found

    CUT = (  # 0.0 and 1.0 are forgotten, with the fences after them
        feed.offer(0, 0, [[], [5, 6]], FENCE),
        feed.offer(1, 0, [[[5, 0, 0]], [5]], [[[0, 0, 1]], [0]]),
        feed.offer(2, 0, [[[0, 1, 1]], [0]]),
        feed.offer(0, 2, [[[0, 2, 0]], [0]]),
        feed.offer(1, 2, [[[0, 0, 2]], [0]]),
        ["round", 4096, 0, 1],
        ["truncate"],
    )

    def test_a_read_of_what_is_forgotten(self):
        """Both have read key 5 from the last writer before the cut, and both have written it."""
        its = [feed.described(0, 3, keys=[]), feed.described(1, 3)]
        answered = answered_of(feed.event("transactions", id=1, transactions=its))
        found = self.of(
            *self.CUT,
            feed.offer(0, 3, [[[5, 1, 0]], [5]]),
            feed.offer(1, 3, [[[5, 1, 0]], [5]]),
            answered=answered,
        )
        self.assertEqual([one.id for one in found.told], [(0, 3), (1, 3)])
        whole = "\n".join(found.lines())
        self.assertIn("T1 and T2 both read stock(7) from the cut and both overwrote it", whole)
        self.assertEqual(found.title, "lost update")

    def test_which_statement_made_which_read(self):
        """0.3 selected the forgotten version; 1.3 selected it, and replaced that of 0.3. 2.1's read
        of it has no statement."""
        its = [
            feed.described(0, 3, reads=[[5, 1, 0]], read_by=[0]),
            feed.described(1, 3, reads=[[5, 0, 3], [5, 1, 0]], read_by=[None, 0]),
            feed.described(2, 1, reads=[[5, 1, 0]], read_by=[None]),
        ]
        found = self.of(
            *self.CUT,
            feed.offer(0, 3, [[[5, 1, 0]], [5]]),
            feed.offer(1, 3, [[[5, 0, 3], [5, 1, 0]], [5]]),
            answered=answered_of(feed.event("transactions", id=1, transactions=its)),
        )
        read = "read stock(7) from the cut"
        self.assertEqual([one.reads for one in found.told], [((read,), ()), ((read,), ())])
        lines = [line.strip() for line in found.lines()]
        first = next(at for at, line in enumerate(lines) if "SELECT qty FROM stock" in line)
        self.assertEqual(lines[first + 1], read)
        self.assertIn(f'<span class="read">{read}</span>', violation_page(found, "shop", "proved"))

    def test_what_a_condition_passed_over(self):
        """Each asked for who is off duty, and didn't get the row that the other one changed."""
        keys = [
            {"key": key, "table": "public.doctor", "row": row, "columns": ["id"],
             "condition": "doctor WHERE NOT on_call"}
            for key, row in ((5, "1"), (6, "2"))
        ]
        its = [
            feed.described(0, 0, keys=keys, reads=[[5, "init"], [6, "init"]], read_by=[None, 0]),
            feed.described(1, 0, keys=keys, reads=[[5, "init"], [6, "init"]], read_by=[0, None]),
        ]
        found = self.of(
            feed.offer(0, 0, [[[5, "init"], [6, "init"]], [5]]),
            feed.offer(1, 0, [[[5, "init"], [6, "init"]], [6]]),
            answered=answered_of(feed.event("transactions", id=1, transactions=its)),
        )
        passed = "asked for doctor WHERE NOT on_call, and didn't get doctor(id=%d)"
        read = [one.reads for one in found.told]
        self.assertEqual(read, [((passed % 2,), ()), ((passed % 1,), ())])
        self.assertEqual(found.title, "write skew over a condition")
        whole = "\n".join(found.lines())
        self.assertIn("Adya's G2", whole)
        self.assertIn("wrote whether doctor(id=2) satisfies NOT on_call", whole)
        self.assertIn("didn&#x27;t get doctor(id=2)", violation_page(found, "shop", "proved"))

    def test_a_feed_without_statements_of_reads(self):
        its = [feed.described(0, 0, reads=[[5, "init"]]), feed.described(1, 0)]
        found = self.of(
            *feed.LOST_UPDATE,
            answered=answered_of(feed.event("transactions", id=1, transactions=its)),
        )
        self.assertEqual({read for one in found.told for reads in one.reads for read in reads}, set())
        self.assertNotIn('class="read"', violation_page(found, "shop", "proved"))

    def test_a_read_of_an_older_version(self):
        found = self.of(*self.CUT, feed.offer(2, 1, [[[5, 0, 0]], []]))
        whole = "\n".join(found.lines())
        self.assertIn("key 5 in a version older than that at the cut", whole)
        self.assertEqual([one.id for one in found.told], [(2, 1)])

    def test_a_cycle_over_keys_and_sessions(self):
        found = self.of(
            feed.offer(0, 0, [[[5, "init"]], [6]]),
            feed.offer(1, 0, [[[6, "init"]], [5]]),
            feed.offer(2, 0, [[[9, "init"]], [9]]),
        )
        self.assertEqual(found.title, "write skew")
        self.assertEqual([one.id for one in found.told], [(0, 0), (1, 0)])

    def test_a_lost_update_where_each_write_reads_what_it_replaces(self):
        """As the proxy sees it at read committed: 1.0 selected the first version, and then replaced
        0.0's."""
        found = self.of(
            feed.offer(0, 0, [[[5, "init"]], [5]]),
            feed.offer(1, 0, [[[5, "init"], [5, 0, 0]], [5]]),
            feed.offer(2, 0, [[[5, 1, 0]], [5]]),
        )
        self.assertEqual(found.title, "lost update")
        self.assertEqual([one.id for one in found.told], [(0, 0), (1, 0)])
        self.assertEqual(
            found.sentence,
            "T1 and T2 both read key 5 as it was at first and both overwrote it: T1's update is "
            "lost unless T2's built on it",
        )

    def test_the_same_from_a_version_that_somebody_wrote(self):
        found = self.of(
            feed.offer(0, 0, [[[5, "init"]], [5]], [[[5, 0, 0]], [5]]),
            feed.offer(1, 0, [[[5, 0, 0], [5, 0, 1]], [5]]),
        )
        self.assertEqual(found.title, "lost update")
        self.assertEqual([one.id for one in found.told], [(0, 0), (0, 1), (1, 0)])
        self.assertTrue(found.sentence.endswith(": T2's update is lost unless T3's built on it"))

    def test_a_lost_update_within_a_longer_cycle(self):
        """1.1 had selected the first version, and replaced 1.0's, which 0.0 has read."""
        its = kept(
            ["resume", 2, 16, 2],
            ["marks", [0, 0], [False, False]],
            feed.offer(0, 0, [[[5, 1, 0]], []]),
            feed.offer(1, 0, [[[5, "init"]], [5]], [[[5, "init"], [5, 1, 0]], [5]]),
            ["resumed"],
        )
        cycle, _ = cycles_of(its, SERIALIZABLE).cycles
        self.assertEqual(len(cycle.ids), 3)
        report = ["report", 1, "violated", [1, 2], []]
        found = explained(1, report, Held(its, report, cycle, {}), NOTHING, PROGRAM, feed.AT)
        self.assertEqual(found.title, "lost update")
        self.assertEqual([one.id for one in found.told], [(1, 0), (1, 1)])

    def test_it_is_shown_by_reads(self):
        """Not by session order, if it is there without that, too."""
        its = kept(
            ["resume", 2, 16, 2],
            ["marks", [0, 0], [False, False]],
            feed.offer(0, 0, [[[5, "init"]], [5]], [[[5, 0, 0], [6, "init"]], [6]]),
            feed.offer(1, 0, [[[5, "init"], [6, 0, 1]], []]),
            ["resumed"],
        )
        (cycle,) = cycles_of(its, SERIALIZABLE).cycles
        report = ["report", 1, "violated", [2, 1], []]
        found = explained(1, report, Held(its, report, cycle, {}), NOTHING, PROGRAM, feed.AT)
        breaks = [*found.story.standing.lines()][0]
        self.assertTrue(breaks.endswith(", also without session order"), breaks)
        self.assertNotIn("session", " ".join(found.story.because))
        self.assertEqual(len(found.story.script.splitlines()), 4)  # it has the sessions

    def test_whether_its_levels_allow_it(self):
        """That is known if all levels are, and if the anomaly is one that PostgreSQL can have."""
        lost = self.of(
            feed.offer(0, 0, [[[5, "init"]], [5]]),
            feed.offer(1, 0, [[[5, "init"], [5, 0, 0]], [5]]),
        )
        skew = self.of(
            feed.offer(0, 0, [[[5, "init"], [6, "init"]], [5]]),
            feed.offer(1, 0, [[[5, "init"], [6, "init"]], [6]]),
        )
        for found, levels, wanted in (
            (lost, ("read committed", "read committed"), "read committed allows that"),
            (lost, ("serializable", "read committed"), "read committed allows that"),
            (lost, ("repeatable read",) * 2, "repeatable read doesn't allow that: please report it"),
            (lost, ("serializable",) * 2, "serializable doesn't allow that: please report it"),
            (lost, ("unknown", "serializable"), ""),
            (skew, ("repeatable read", "serializable"), "repeatable read allows that"),
            (skew, ("serializable",) * 2, "serializable doesn't allow that: please report it"),
        ):
            told = tuple(
                replace(one, its=Described(one.id, level=level))
                for one, level in zip(found.told, levels)
            )
            with self.subTest(title=found.title, levels=levels):
                self.assertEqual(replace(found, told=told).allowed, wanted)

    def test_the_same_from_a_version_that_is_forgotten(self):
        found = self.of(
            *self.CUT,
            feed.offer(0, 3, [[[5, 1, 0]], [5]]),
            feed.offer(1, 3, [[[5, 0, 3], [5, 1, 0]], [5]]),
        )
        self.assertEqual(found.title, "lost update")
        self.assertEqual([one.id for one in found.told], [(0, 3), (1, 3)])

    def test_a_lost_update_is_preferred(self):
        """To whatever the refutation is about: here to a read of two versions of key 6."""
        fractured = [
            feed.offer(0, 0, [[[6, "init"]], [6, 7]]),
            feed.offer(1, 0, [[[6, "init"], [7, 0, 0]], []]),
        ]
        self.assertEqual(self.of(*fractured).title, "fractured read")
        self.assertEqual(self.involved, [(0, 0), (1, 0)])
        lost = [
            feed.offer(0, 1, [[[8, "init"]], [8]]),
            feed.offer(2, 0, [[[8, "init"], [8, 0, 1]], [8]]),
        ]
        for lines in ([*fractured, *lost], [fractured[0], *lost, fractured[1]]):
            found = self.of(*lines, about=fractured)
            self.assertEqual(found.title, "lost update")
            self.assertEqual([one.id for one in found.told], [(0, 1), (2, 0)])
            self.assertEqual(self.involved, [(0, 1), (2, 0), (0, 0), (1, 0)])
            self.assertIn("both read key 8 as it was at first", found.sentence)

    def test_which_lost_update(self):
        """One in the round, on a key that its refutation names, if possible; not of fences, of
        aborted transactions, or of a transaction that only read."""
        init = "init"
        both = {(0, 0): [[[5, init]], [5]], (1, 0): [[[5, init]], [5]]}
        later = {(0, 1): [[[6, init]], [6]], (2, 0): [[[6, init]], [6]]}
        for transactions, counts, keys, wanted in (
            (both, [1, 1], (), (5, (0, 0), (1, 0))),
            ({**both, **later}, [2, 1, 1], (), (5, (0, 0), (1, 0))),
            ({**both, **later}, [2, 1, 1], {6}, (6, (0, 1), (2, 0))),
            ({**both, **later}, [2, 1], {6}, (5, (0, 0), (1, 0))),
            ({**both, **later}, [1, 1, 1], {6}, (5, (0, 0), (1, 0))),
            (both, [1, 0], (), None),
            ({(0, 0): [[[5, init]], [5]], (1, 0): [[[5, init]], []]}, [1, 1], (), None),
            ({(0, 0): [[[5, init]], [5]], (1, 0): [[[5, 0, 0]], [5]]}, [1, 1], (), None),
            ({(0, 0): [[[0, init]], [0]], (1, 0): [[[0, init]], [0]]}, [1, 1], (), None),
            ({**both, (1, 0): [[[5, init]], [5], "aborted"]}, [1, 1], (), None),
            ({(0, 0): [[[5, init], [5, init]], [5]]}, [1], (), None),
        ):
            with self.subTest(counts=counts, keys=keys, transactions=transactions):
                found = both_replaced(transactions, counts, keys)
                self.assertEqual(found and (found.key, found.one, found.other), wanted)

    def test_a_row_that_was_read_twice(self):
        found = self.of(
            feed.offer(0, 0, [[[5, "init"]], [5]]),
            feed.offer(1, 0, [[[5, "init"], [5, 0, 0]], []]),
        )
        self.assertEqual(found.title, "non-repeatable read")
        self.assertEqual(found.sentence, "T2 read key 5 from T1 and as it was at first")

    def test_many_keys_that_dont_matter(self):
        """A line has at most 256 keys of a transaction; what is forgotten has more here."""
        first = feed.offer(0, 0, *([[], [*range(at, at + 200)]] for at in range(1000, 3000, 200)))
        found = self.of(
            first,
            feed.offer(0, 10, FENCE),
            feed.offer(1, 0, [[[0, 0, 10]], [0]]),
            feed.offer(2, 0, [[[0, 1, 0]], [0]]),
            feed.offer(0, 11, [[[0, 2, 0]], [0]]),
            feed.offer(1, 1, [[[0, 0, 11]], [0]]),
            ["round", 4096, 0, 1],
            ["truncate"],
            feed.offer(1, 2, [[[1000, 0, 0]], [1000]]),
            feed.offer(2, 1, [[[1000, 0, 0]], [1000]]),
        )
        self.assertEqual([one.id for one in found.told], [(1, 2), (2, 1)])

    def test_it_is_told_without_a_proxy(self):
        found = self.of(*feed.LOST_UPDATE)
        self.assertIn("T1 (0.0): no details are known", "\n".join(found.lines()))


class Parameters(unittest.TestCase):
    def test_those_that_werent_kept_are_counted(self):
        its = {**feed.statement("SELECT $1", feed.AT, parameters=["7", None]), "more_parameters": 2998}
        answered = answered_of(feed.event("transactions", transactions=[feed.described(0, 3, statements=[its])]))
        (statement,) = answered.transactions[(0, 3)].statements
        self.assertEqual(statement.values, "$1 = '7', $2 = NULL and 2,998 more")


class ReadsByStatement(unittest.TestCase):
    def test_reads_and_their_statements(self):
        for reads, by, wanted in (
            ([[5, "init"], [6, 2, 11], [7, "init"]], [1, 0, None], [((6, (2, 11)),), ((5, "init"),)]),
            ([[5, "init"], [6, "init"]], [0], [((5, "init"),), ()]),
            ([[5, "init"]], [2], [(), ()]),
            ([[5, "init"]], [-1], [(), ()]),
            ([[5, "init"]], [True], [(), ()]),
            ([[5], 7, [], ["a", "init"], [5, 1, "x"], [5, 1, 2, 3]], [0] * 6, [(), ()]),
            (7, [0], [(), ()]),
            ([[5, "init"]], None, [(), ()]),
        ):
            with self.subTest(reads=reads, by=by):
                its = feed.described(1, 2, reads=reads, read_by=by)
                answered = answered_of(feed.event("transactions", id=1, transactions=[its]))
                statements = answered.transactions[(1, 2)].statements
                self.assertEqual([one.reads for one in statements], wanted)

    def test_what_isnt_certain_is_left_out(self):
        def made(reads, raw, *by):
            its = Described((0, 9), statements=tuple(Statement("", reads=one) for one in by))
            shown = as_shown({(2, 4): (1, 0)}, (0, 0), {"key 5": (2, 1)})
            return [[*one] for one in by_statement(its, reads, raw, shown, key_text)]

        init, gone, here = ("key 5", "init"), ("key 5", (0, 0)), ("key 5", (1, 0))
        forgotten, there, older = ("key 5", (2, 1)), ("key 5", (2, 4)), ("key 5", (2, 0))
        self.assertEqual(made([here], [there], [(5, (2, 4))], []), [[here], []])
        self.assertEqual(made([gone], [forgotten], [], [(5, (2, 1))]), [[], [gone]])
        self.assertEqual(made([init], [older], [(5, (2, 0))]), [[init]])
        self.assertEqual(made([init], [init], [(5, "init")]), [[init]])
        for reads, raw, *by in (
            ([here], [there], [(5, (2, 3))], [(6, (2, 4))]),  # nobody says who made it
            ([here], [there], [(5, (2, 4))], [(5, (2, 4))]),  # two may have made it
            ([init], [init, older], [(5, "init")], []),  # it stands for two
            ([gone], [forgotten, there], [], [(5, (2, 4))]),  # another version was selected
            ([init], [], [(5, "init")], []),
        ):
            with self.subTest(reads=reads, raw=raw, by=by):
                self.assertEqual(made(reads, raw, *by), [[], []])
        self.assertEqual(by_statement(None, [here], [there], lambda key, source: source, key_text), ())


class Described_(unittest.TestCase):
    def test_in_the_order_of_time(self):
        known = {(0, 0): Described((0, 0), began=9.0), (1, 0): Described((1, 0), began=3.0)}
        self.assertEqual(by_time([(2, 0), (0, 0), (1, 0)], known), [(1, 0), (0, 0), (2, 0)])
        self.assertEqual(clock(0), "")

    def test_its_lines(self):
        statements = (Statement("SELECT 1", ("a" * 90, None), 0.0, ("an aggregate",)),)
        its = Described((0, 1), "shop\x1b[1m", "10.0.0.7:1", level="serializable",
                        statements=statements)
        self.assertEqual(
            [*lines_of("T1", its)],
            [
                "T1: shop\\x1b[1m from 10.0.0.7:1, serializable",
                f"     SELECT 1  [$1 = '{'a' * 80} ..', $2 = NULL]",
                "        not seen: an aggregate",
            ],
        )
        self.assertEqual([*lines_of("T1", its, [("read a\x1b",)])][2], "        read a\\x1b")
        self.assertEqual([*lines_of("T2", None)], ["T2: no details are known"])
        fence = Described((0, 1), is_fence=True)
        self.assertEqual([*lines_of("T3", fence)], ["T3: a fence, which no client ran"])


class Redacted(unittest.TestCase):
    def test_constants(self):
        for statement, wanted in (
            ("SELECT a1 FROM t2 WHERE x = 5", "SELECT a1 FROM t2 WHERE x = ?"),
            ("VALUES ('it''s', E'a\\'b', $$x'y$$, $t$a$$b$t$)", "VALUES (?, ?, ?, ?)"),
            ("VALUES (B'01', x'ff', N'a', U&'b', 1.5e-3, .5, 0x1F)", "VALUES (?, ?, ?, ?, ?, ?, ?)"),
            ('SELECT "a 1" FROM "it\'s" -- 77', 'SELECT "a 1" FROM "it\'s"'),
            ("SELECT $1, %s, :name /* secret */, x::int4", "SELECT $1, %s, :name , x::int4"),
            ("SELECT 'without an end", "SELECT ?"),
            ("SELECT date '2020-01-01', date'2020-01-02'", "SELECT date ?, date?"),
            ("SELECT naïve9 FROM été", "SELECT naïve9 FROM été"),
        ):
            with self.subTest(statement=statement):
                self.assertEqual(without_constants(statement), wanted)

    def test_what_is_described(self):
        event = feed.event("transactions", id=1, transactions=[feed.described(1, 2)])
        its = without_values(answered_of(event))
        self.assertEqual(its.keys[5].named(), "stock(#5)")
        key = {"key": 5, "table": "public.stock", "row": "7", "condition": "stock WHERE qty = 4"}
        event = feed.event("transactions", id=1, transactions=[feed.described(1, 2, keys=[key])])
        words = without_values(answered_of(event)).keys[5].passed_over()
        self.assertEqual(words, "asked for stock WHERE qty = ?, and didn't get stock(#5)")
        first, second = its.transactions[(1, 2)].statements
        self.assertEqual((first.text, first.parameters), ("SELECT qty FROM stock WHERE id = $1", None))
        self.assertEqual((first.origin, first.place), ("", ""))  # a comment's
        self.assertEqual(second.text, "UPDATE stock SET qty = ? WHERE id = ?")


class Waiting(unittest.TestCase):
    def test_reads_that_wait(self):
        its = {(0, 0): [[[5, "init"], [6, 1, 0], [7, 1, 1], [8, 2, 0]], []]}
        lines, count = waiting_reads(its, [1, 1, 0])
        self.assertEqual(count, 2)
        self.assertEqual(lines[0], "0.0 read key 7 from 1.1, which hasn't arrived")

    def test_key_names(self):
        self.assertEqual([key_text(0), key_text(5)], ["zanteyard fence", "key 5"])


class Queue(unittest.TestCase):
    def test_who_puts_waits_for_room(self):
        intake = Intake(most=10)
        intake.put([b"x" * 10])
        putting = threading.Thread(target=intake.put, args=([b"y", {"event": "z"}],))
        putting.start()
        self.assertEqual(intake.take(60), [b"x" * 10])
        found = intake.take(60)
        self.assertEqual(found, [b"y", {"event": "z"}])
        putting.join()
        self.assertEqual(intake.take(0), [])

    def test_its_end(self):
        intake = Intake()
        intake.put([b"x"])
        intake.close()
        intake.put([b"y"])  # nobody waits for this
        self.assertEqual(intake.take(60), [b"x"])
        self.assertIsNone(intake.take(60))


if __name__ == "__main__":
    sys.exit(unittest.main())
