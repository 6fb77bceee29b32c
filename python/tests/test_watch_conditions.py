"""What is told of SELECTs' conditions: how many were followed, and the names of what is found by them."""
import unittest
from dataclasses import dataclass

from tests import watch_feed as feed
from zanteyard.core._records import Logged
from zanteyard.explain._anomalies import Anomaly
from zanteyard.watch.violations import _sql_anomalies as sql_anomalies
from zanteyard.watch.outcome._feed import seen_of
from zanteyard.watch.outcome._state import added
from zanteyard.watch.outcome._totals import Conditions

SAID = {
    "seen": 1200, "followed": 1000, "passed_over": 4000, "left_out": {"LIMIT": 50, "an aggregate": 150},
    "rows_left_out": {"a row that the transaction itself wrote": 1}, "dropped": 2,
}


class Counts(unittest.TestCase):
    def test_in_words(self):
        seen = seen_of(feed.coverage(conditions=SAID))
        lines = [*seen.more_lines()]
        self.assertEqual(
            lines[:3],
            [
                "1,200 conditions of statements, 1,000 followed: 4,000 rows that they passed over were "
                "checked, too",
                "200 conditions not followed: an aggregate 150; LIMIT 50",
                "1 row that may have been passed over, not checked: "
                "a row that the transaction itself wrote 1",
            ],
        )
        self.assertFalse([line for line in lines if "phantoms" in line])

    def test_if_none_are_followed(self):
        lines = [*seen_of(feed.coverage()).more_lines()]
        self.assertIn("(phantoms), weren't checked", lines[0])

    def test_of_two_audits(self):
        one = seen_of(feed.coverage(conditions=SAID))
        both = added(one, one).conditions
        self.assertEqual((both.seen, both.dropped), (2400, 4))
        self.assertEqual(both.left_out, {"LIMIT": 100, "an aggregate": 300})
        self.assertEqual(both.values()["rows_left_out"], {"a row that the transaction itself wrote": 2})
        self.assertEqual([*Conditions().lines()], [])


@dataclass(frozen=True)
class _Story:
    anomaly: Anomaly


class Names(unittest.TestCase):
    def named(self, anomaly, history, conditions):
        story = _Story(Anomaly(anomaly, "", ((0, 0), (1, 0))))
        return sql_anomalies.over_conditions(story, history, conditions).anomaly.name

    def test_by_what_was_passed_over(self):
        """T1 passed row 5 over, and then got it: T2 inserted it meanwhile."""
        history = [[Logged([("5 holds", "init"), ("5", (1, 0))], [])], [Logged([], ["5", "5 holds"])]]
        for name, conditions, wanted in (
            ("fractured read", {"5 holds"}, "phantom"),
            ("write skew", {"5 holds"}, "write skew over a condition"),
            ("fractured read", {"6 holds"}, "fractured read"),
            ("lost update", {"5 holds"}, "lost update"),
        ):
            self.assertEqual(self.named(name, history, conditions), wanted)

    def test_a_condition_that_nobody_passed_over(self):
        """Whoever changes whether a condition holds has read that, too."""
        history = [[Logged([("5 holds", "init")], ["5 holds"])], [Logged([], ["5"])]]
        self.assertEqual(self.named("write skew", history, {"5 holds"}), "write skew")


if __name__ == "__main__":
    unittest.main()
