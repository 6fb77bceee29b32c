"""The first lines of an outcome, and what an outcome says of an update that was replaced."""
import sys
import unittest

from zanteyard.core._records import AuditId
from zanteyard.explain._anomalies import Anomaly
from zanteyard.explain._report import Story
from zanteyard.watch.violations._described import Described, Statement
from zanteyard.watch.outcome._ending import lines_of
from zanteyard.watch.pages._live_page import changing
from zanteyard.watch.outcome._state import Seen, Status
from zanteyard.watch.outcome._totals import Total, Totals
from zanteyard.watch.violations._updates import APART, BUILT_ON, LOST, fate_of
from zanteyard.watch.violations._violations import Told, Violation

AT = 1764220800.25
ONE, OTHER = AuditId((1, 0)), AuditId((2, 0))


def status(
    *violations, written=Total(9, 6, {}, {"in a table without a key": 3}), selects=Total(7, 7), **more
):
    totals = Totals(transactions=Total(5, 5), selects=selects, rows_written=written)
    its = {"violations": violations, "violations_count": len(violations), "rounds_count": 2, **more}
    return Status("shop", AT, AT + 9, kind="serial", seen=Seen(totals), **its)


def violation(*levels, name="lost update"):
    told = (Told("T1", ONE, Described(ONE, level=level)) for level in levels)
    return Violation(1, 1, AT, Story("violated", anomaly=Anomaly(name, "so it is", ())), (*told,))


class FirstLines(unittest.TestCase):
    def test_without_a_write_that_was_checked(self):
        unchecked = {"in a table without a key": 9}
        for written, told in (
            (Total(9, 0, {}, unchecked), "of 9 written rows none was checked, "),
            (Total(0, 0), "no row was written through the proxy, "),
        ):
            first, second, *_ = lines_of(status(written=written))
            self.assertTrue(first.startswith("serial, but too little was looked at: 5 of 5 "), first)
            self.assertTrue(second.startswith(f"  {told}and without a write there is "), second)
            self.assertIn("<p>Too little was looked at: ", changing(status(written=written)))
        for written in (Total(9, 1, {}, {"an aggregate": 8}), Total(9, 0, waiting=9)):
            self.assertNotIn("Too little", changing(status(written=written)))
        self.assertTrue(next(lines_of(status())).startswith("serial: 5 of 5 transactions, "))

    def test_without_a_select_that_was_checked(self):
        first, second, *_ = lines_of(status(selects=Total(7, 0, {}, {"an aggregate": 7})))
        self.assertTrue(first.startswith("serial, but too little was looked at: 5 of 5 "), first)
        self.assertEqual(second, "  of 7 SELECTs none was checked")
        for selects in (Total(7, 1, {}, {"an aggregate": 6}), Total(7, 0, {"x": 7}), Total()):
            self.assertNotIn("too little", next(lines_of(status(selects=selects))))

    def test_whether_the_level_allows_it(self):
        committed, serializable, unknown = "read committed", "serializable", "unknown"
        for violations, more, told in (
            ([violation(committed)], {}, ", which read committed allows"),
            ([violation(committed, serializable)] * 2, {}, ", which read committed allows"),
            ([violation(serializable)], {}, ", which serializable doesn't allow"),
            ([violation(committed), violation(serializable)], {}, ", which serializable doesn't allow"),
            ([violation(committed), violation(unknown)], {}, ""),
            ([violation(committed)], {"ungrouped": 1}, ""),
            ([violation(committed, name="dirty read")], {}, ""),
            ([], {"violations_count": 3}, ""),
        ):
            first = next(lines_of(status(*violations, **more)))
            self.assertTrue(first.startswith(f"violated{told}: 5 of 5 transactions, "), first)

    def test_the_violation_itself(self):
        first = next(violation("read committed").lines())
        self.assertTrue(first.endswith("explains these reads; read committed allows that"), first)
        self.assertTrue(next(violation("unknown").lines()).endswith("explains these reads"))


class WhatIsLost(unittest.TestCase):
    """The texts of a row's updates, the earlier one first."""

    def of(self, earlier, later, table="public.stock", **more):
        its = [
            Described(id, statements=tuple(Statement(text) for text in texts))
            for id, texts in ((ONE, earlier), (OTHER, later))
        ]
        return fate_of(its[0], Described(OTHER, statements=its[1].statements, **more), table, 5)

    def test_by_their_texts(self):
        sets, takes = "UPDATE stock SET n = 4 WHERE id = 7", "UPDATE stock SET n = n - 1 WHERE id = 7"
        for earlier, later, wanted in (
            (sets, sets, (LOST, ("n",))),
            (takes, "UPDATE stock SET n = $1, at = now() WHERE id = $2", (LOST, ("n",))),
            (sets, 'UPDATE "stock" AS s SET "n" = 4::int WHERE s.id = 7', (LOST, ("n",))),
            (sets, "UPDATE ONLY public.stock s SET n = (NULL), a = 'x = n, (' WHERE id = 7", (LOST, ("n",))),
            ("UPDATE stock SET a = 1, n = 2", "UPDATE stock SET n = n - 1, a = 3", (LOST, ("a",))),
            (sets, takes, (BUILT_ON, ("n",))),
            (sets, "update STOCK set N = stock.n - (2 * $1), a = 3", (BUILT_ON, ("n",))),
            ("DELETE FROM stock", takes, (BUILT_ON, ("n",))),
            (sets, "UPDATE stock SET a = 4 RETURNING n", (APART, ("n",))),
            ("DELETE FROM stock", sets, None),
            (sets, "DELETE FROM stock", None),
            (sets, "UPDATE stock SET n = a WHERE id = 7", None),
            (sets, "UPDATE stock SET n = (SELECT n FROM stock WHERE id = 8)", None),
            (sets, "UPDATE stock SET (n, a) = (1, 2)", None),
            (sets, "UPDATE stock SET n[1] = 4", None),
            (sets, "UPDATE stock SET n = f(n)", (BUILT_ON, ("n",))),
            (sets, "UPDATE stock SET n = f(4)", None),
            (sets, "UPDATE staff SET n = 4", None),
            (sets, "UPDATE staff SET n = 4 FROM stock", None),
            (sets, "WITH a AS (UPDATE stock SET n = 4) SELECT 1", None),
            (sets, "INSERT INTO stock VALUES (7, 4) ON CONFLICT (id) DO UPDATE SET n = 4", None),
            (sets, "BEGIN; UPDATE stock SET n = 4; COMMIT", None),
            (sets, "UPDATE stock SET n = 4;", (LOST, ("n",))),
            (sets, "", None),
        ):
            with self.subTest(earlier=earlier, later=later):
                found = self.of(["BEGIN", "SELECT n FROM stock", earlier], [later, "COMMIT"])
                self.assertEqual(found, wanted)

    def test_what_else_was_run(self):
        sets = "UPDATE stock SET n = 4"
        self.assertEqual(self.of([sets], ["INSERT INTO log VALUES (1)", sets]), (LOST, ("n",)))
        for more in ("UPDATE stock SET a = 1", "UPDATE stock SET n = n - 1", "UPDATE stock SET n = 4, a = 1",
                     "DELETE FROM stock", "EXECUTE sell(7)", "CALL sell(7)", "DO ''"):
            self.assertIsNone(self.of([sets], [sets, more]))
        other = "UPDATE stock SET n = $1 WHERE id = 8"  # whichever of the two wrote the row
        self.assertEqual(self.of([sets, other], [other, sets]), (LOST, ("n",)))
        takes = ["UPDATE stock SET n = n - 1 WHERE id = 7", "UPDATE stock SET n = n + 1 WHERE id = 8"]
        self.assertEqual(self.of(takes, takes), (BUILT_ON, ("n",)))
        self.assertIsNone(self.of([sets], [sets], statements_dropped=1))
        read = Described(OTHER, statements=(Statement("SELECT n", reads=((5, (1, 0)),)), Statement(sets)))
        self.assertIsNone(fate_of(Described(ONE, statements=(Statement(sets),)), read, "public.stock", 5))
        self.assertIsNone(fate_of(None, read, "public.stock", 5))


if __name__ == "__main__":
    sys.exit(unittest.main())
