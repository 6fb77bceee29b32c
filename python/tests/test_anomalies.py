"""Anomalies get their names from refutations: the built auditor's, or the plain one's."""
import unittest

from zanteyard import Logged
from zanteyard.explain import _anomalies
from zanteyard.explain._anomalies import MEANINGS, name_cycle
from zanteyard.explain._arcs import Arc, ArcKind, Choice
from zanteyard.promises._kinds import GENERALIZED, PREFIX, SERIALIZABLE, SESSIONLESS, SNAPSHOT, STRICT, stronger

from .built import path_of
from .killing import PLAIN

PROGRAM = path_of("cobra_audit") or PLAIN


def txn(*reads, writes="", outcome="committed"):
    return Logged(reads, tuple(writes), outcome)


FIRST = (0, 0)


def find_anomaly(history, *more, **options):
    return _anomalies.find_anomaly(history, *more, program=PROGRAM, **options)


# Each row: what it shows, the expected name, and the history.
ROWS = (
    ("from the start", "lost update", [[txn(("x", "init"), writes="x")]] * 2),
    (
        "from a writer",
        "lost update",
        [[txn(writes="x"), txn(("x", FIRST), writes="x")], [txn(("x", FIRST), writes="x")]],
    ),
    ("of two", "write skew", [[txn(("x", "init"), writes="y")], [txn(("y", "init"), writes="x")]]),
    (
        "of three",
        "write skew",
        [
            [txn(("x", "init"), writes="z")],
            [txn(("y", "init"), writes="x")],
            [txn(("z", "init"), writes="y")],
        ],
    ),
    ("own write", "stale read", [[txn(writes="x"), txn(("x", "init"))]]),
    (
        "going back",
        "stale read",
        [[txn(writes="x")], [txn(("x", FIRST)), txn(("x", "init"))]],
    ),
    ("half", "fractured read", [[txn(writes="xy")], [txn(("x", FIRST), ("y", "init"))]]),
    ("aborted", "dirty read", [[txn(outcome="aborted")], [txn(("x", FIRST))]]),
    ("told as empty", "dirty read", [[txn()], [txn(("x", FIRST))]]),
    ("overwritten", "intermediate read", [[txn(outcome="unfinished")], [txn(("x", FIRST))]]),
    ("no write's", "impossible read", [[txn(outcome="impossible"), txn(("x", FIRST))]]),
    (
        "never written",
        "read of what was never written",
        [[txn(writes="y")], [txn(("x", FIRST))]],
    ),
    (
        "two writers seen in two orders by sessions",
        "G-nonadjacent",
        [
            [txn(writes="x")],
            [txn(writes="y")],
            [txn(("x", FIRST)), txn(("y", "init"))],
            [txn(("y", (1, 0))), txn(("x", "init"))],
        ],
    ),
    (
        "two writers seen in two orders",
        "long fork",
        [
            [txn(writes="x")],
            [txn(writes="y")],
            [txn(("x", FIRST), ("y", "init"))],
            [txn(("x", "init"), ("y", (1, 0)))],
        ],
    ),
    ("two versions", "non-repeatable read", [[txn(writes="x")], [txn(("x", FIRST), ("x", "init"))]]),
    (
        "each from the other",
        "circular information flow",
        [[txn(("y", (1, 0)), writes="x")], [txn(("x", FIRST), writes="y")]],
    ),
    (
        "from what its session does later",
        "circular information flow",
        [[txn(("x", (0, 1))), txn(writes="x")]],
    ),
    (
        "each has overwritten a part",
        "dirty write",
        [[txn(writes="xy")], [txn(writes="xy")], [txn(("x", FIRST), ("y", (1, 0)))]],
    ),
    ("nothing is wrong", None, [[txn(writes="x")], [txn(("x", FIRST), writes="x")]]),
)


# Each row: what it shows, the expected name, and the kinds of the arcs in the cycle.
CIRCLES = (
    ("reads alone", "circular information flow", [ArcKind.READ, ArcKind.IN_SESSION, ArcKind.READ]),
    ("writes alone", "dirty write", [ArcKind.WRITTEN, ArcKind.IN_SESSION, ArcKind.WRITTEN]),
    ("one anti-dependency", "G-single", [ArcKind.READ, ArcKind.READ_BEFORE, ArcKind.WRITTEN]),
    (
        "two apart",
        "G-nonadjacent",
        [ArcKind.READ_BEFORE, ArcKind.READ, ArcKind.READ_BEFORE, ArcKind.WRITTEN],
    ),
    ("two, one after another", "G2", [ArcKind.READ_BEFORE, ArcKind.READ, ArcKind.READ_BEFORE]),
)


class Anomalies(unittest.TestCase):
    def test_each(self):
        for shows, wanted, history in ROWS:
            with self.subTest(shows=shows):
                found = find_anomaly(history)
                self.assertEqual(None if found is None else found.name, wanted)

    def test_it_is_told_by_names(self):
        found = find_anomaly([[txn(("x", "init"), writes="x")]] * 2, lambda one: f"T{one[0]}")
        self.assertEqual(
            found.sentence,
            "T0 and T1 both read x as it was at first and both overwrote it: "
            "one of the two updates is lost",
        )
        self.assertEqual(found.transactions, ((0, 0), (1, 0)))

    def test_each_has_a_meaning(self):
        named = {wanted for _, wanted, _ in ROWS} - {None, "read of what was never written"}
        circles = {name for _, name, _ in CIRCLES}
        by_conditions = {"phantom", "write skew over a condition"}  # of a proxy's feed alone
        self.assertEqual(named | circles | by_conditions, {*MEANINGS})

    def test_a_circle_of_no_usual_form_is_named_by_what_leads_round(self):
        for shows, wanted, kinds in CIRCLES:
            ids = [(at, 0) for at in range(len(kinds))]
            choice = Choice(ids[0], "x", ids[-1], ids[1])  # which of the writers came later isn't known
            arcs = [
                Arc(ids[at], ids[(at + 1) % len(ids)], "", (), kind, choice=choice)
                for at, kind in enumerate(kinds)
            ]
            with self.subTest(shows=shows):
                cycle = _anomalies._Cycle(arcs, {it: txn() for it in ids}, str)
                self.assertIn(cycle.named() and cycle.named().name, (None, wanted))
                self.assertEqual(cycle.by_kind("").name, wanted)
        by_time = [Arc(ids[0], ids[1], "", (), ArcKind.READ_BEFORE, choice=choice)]
        by_time.append(Arc(ids[1], ids[0], "", (), ArcKind.IN_TIME))
        for arcs in ([], by_time):
            self.assertIsNone(name_cycle(arcs, {it: txn() for it in ids}))

    def test_what_each_excludes(self):
        """What excludes a promise excludes the stronger ones; without session order only what reads
        alone show."""
        for shows, wanted, history in ROWS:
            found = find_anomaly(history)
            with self.subTest(shows=shows):
                for each in found.excludes if found else ():
                    self.assertLessEqual({*stronger(each)}, {*found.excludes})
        its = {shows: find_anomaly(history) for shows, _, history in ROWS}
        for shows, in_it, not_in_it in (
            ("of two", (SERIALIZABLE, SESSIONLESS), (SNAPSHOT, PREFIX)),
            ("from the start", (SNAPSHOT, GENERALIZED), (PREFIX,)),
            ("half", (PREFIX, GENERALIZED), ()),
            ("own write", (PREFIX,), (SESSIONLESS, GENERALIZED)),
        ):
            with self.subTest(shows=shows):
                self.assertLessEqual({*in_it}, {*its[shows].excludes})
                self.assertFalse({*not_in_it} & {*its[shows].excludes})

    def test_snapshot_isolation_has_no_write_skew(self):
        (skew,) = [history for shows, _, history in ROWS if shows == "of two"]
        self.assertIsNone(find_anomaly(skew, promise=SNAPSHOT))

    def test_many_that_overwrite_each_other(self):
        """Each has read what all later ones overwrote: only the two last are on the cycle."""
        chain = [txn(("x", (0, at - 1) if at else "init"), writes="x") for at in range(19)]
        self.assertIsNone(find_anomaly([chain]))
        last = (0, len(chain) - 1)
        skew = [[txn(("x", last), ("y", "init"), writes=key)] for key in "xy"]
        found = find_anomaly([chain, *skew])
        self.assertEqual((found.name, found.transactions), ("write skew", ((1, 0), (2, 0))))

    def test_a_read_that_its_clock_excludes(self):
        """A read that the times exclude is reported only if the promise includes time."""
        for ended, began, told in (
            (2_000_000, 5_000_000, "1.0 began 3 ms after 0.0 had ended, and did not see it: it"),
            (None, 5_000_000, None),
            (6_000_000, 5_000_000, None),
        ):
            history = [
                [txn(writes="x")._replace(span=(1_000_000, ended, "ns"))],
                [txn(("x", "init"))._replace(span=(began, 9_000_000, "ns"))],
            ]
            with self.subTest(ended=ended):
                self.assertIsNone(find_anomaly(history))
                found = find_anomaly(history, promise=STRICT)
                self.assertEqual(found is None, told is None)
                if told:
                    self.assertEqual(found.name, "stale read")
                    self.assertTrue(found.sentence.startswith(told), found.sentence)


if __name__ == "__main__":
    unittest.main()
