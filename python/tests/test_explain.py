"""Explanations of violated histories, with the refutations of a plain auditor. No built program is
needed."""
import functools
import unittest

from zanteyard import Logged, explain_history, words
from zanteyard import reasons as reasons_of

from .killing import PLAIN

reasons = functools.partial(reasons_of, program=PLAIN)


def txn(*reads, writes="", outcome="committed"):
    return Logged(reads, tuple(writes), outcome)


class Explaining(unittest.TestCase):
    def test_session_order(self):
        self.assertEqual(
            reasons([[txn(writes="x"), txn(("x", "init"))]]),
            [
                "0.0 comes before 0.1: they are in one session",
                "0.1 comes before 0.0: 0.1 read x as it was at first, and 0.0 wrote it",
                "so neither 0.0 nor 0.1 can come first",
            ],
        )

    def test_lost_update(self):
        base = ("x", (0, 0))
        self.assertEqual(
            reasons([[txn(writes="x"), txn(base, writes="x")], [txn(base, writes="x")]]),
            [
                "0.0 comes before 1.0: 1.0 read x from 0.0",
                "0.1 comes before 1.0: 0.1 read x from 0.0, and 1.0, which wrote it too, comes after 0.0",
                "0.0 comes before 0.1: they are in one session",
                "1.0 comes before 0.1: 1.0 read x from 0.0, and 0.1, which wrote it too, comes after 0.0",
                "so neither 0.1 nor 1.0 can come first",
            ],
        )

    def test_aborted(self):
        history = [[txn(outcome="aborted"), txn(writes="x")], [txn(("x", (0, 0)))]]
        self.assertEqual(reasons(history), ["1.0 read x from 0.0, which aborted"])

    def test_two_sources(self):
        history = [[txn(writes="x")], [txn(writes="x")], [txn(("x", (0, 0)), ("x", (1, 0)))]]
        self.assertEqual(reasons(history)[-1], "so neither 0.0 nor 2.0 can come first")

    def test_what_has_an_order(self):
        told = explain_history([[txn(writes="x")], [txn(("x", "init"))]], program=PLAIN)
        self.assertEqual((told.arcs, told.lines), ((), ("checked by themselves, these transactions are serial",)))

    def test_statements_are_told_of_what_is_left(self):
        select, update = "SELECT v FROM t\n  WHERE k = 'x'", "UPDATE t SET v = v + 1 WHERE k = 'y' RETURNING name"
        x, y = ("x", (0, 0)), ("y", "init")
        one = Logged((x, y), ("x", "y"), "committed", ((x, select), (y, update), (("y",), update), (("z",), "no deed")))
        self.assertEqual(
            list(words([[one, one._replace(reads=(x,), writes=("x",))]])),
            [
                "0.0 read x from 0.0, read y as it was at first, wrote x, wrote y",
                "    read x: SELECT v FROM t WHERE k = 'x'",
                f"    read y, wrote y: {update}",
                "0.1 read x from 0.0, wrote x",
                "    read x: SELECT v FROM t WHERE k = 'x'",
            ],
        )

    def test_a_long_statement_is_cut(self):
        line = list(words([[Logged((), ("x",), "committed", ((("x",), "y" * 301),))]]))[1]
        self.assertEqual(line, f"    wrote x: {'y' * 150} .. {'y' * 150}")


if __name__ == "__main__":
    unittest.main()
