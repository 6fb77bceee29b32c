"""What the proxy is asked about the transactions of a violation, however many there are and however
late it answers."""
import json
import sys
import threading
import unittest
from dataclasses import dataclass
from unittest import mock

from tests import watch_feed as feed
from zanteyard.watch.violations._describing import AT_ONCE, Describing
from zanteyard.watch.violations._explaining import Explaining
from zanteyard.watch.outcome._feed import answered_of
from zanteyard.watch.violations._kept import Kept
from zanteyard.watch.violations._violations import Answered, Held

MANY = 3 * AT_ONCE - 10
IDS = [(at % 8, at // 8) for at in range(MANY)]
LONG = 600.0  # seconds; nothing here waits for that long


def answer_about(ids):
    its = [feed.described(*one) for one in ids]
    return answered_of(feed.event("transactions", id=1, transactions=its))


class Questions(unittest.TestCase):
    def setUp(self):
        self.asked, self.can_ask = [], True

    def ask(self, some):
        self.asked.append(some)
        return self.can_ask

    def test_all_are_asked_for_and_the_next_ones_after_an_answer(self):
        describing = Describing(IDS, self.ask)
        describing.go_on()
        for count in (1, 2, 3):
            self.assertEqual(len(self.asked), count)
            self.assertLessEqual(len(self.asked[-1]), AT_ONCE)
            self.assertTrue(describing.is_open)
            describing.put(answer_about(self.asked[-1]))
        self.assertFalse(describing.is_open)
        self.assertEqual([one for some in self.asked for one in some], IDS)
        answered = describing.take(LONG)
        self.assertEqual([*answered.transactions], IDS)
        self.assertEqual(answered.keys[5].values, "7")

    def test_it_waits_for_late_answers(self):
        describing = Describing(IDS, self.ask)
        describing.go_on()
        found = []
        taking = threading.Thread(target=lambda: found.append(describing.take(LONG)))
        taking.start()
        while describing.is_open:
            self.assertEqual(found, [])
            describing.put(answer_about(self.asked[-1]))
        taking.join()
        self.assertEqual([*found[0].transactions], IDS)

    def test_one_that_never_answers(self):
        describing = Describing(IDS, self.ask)
        describing.go_on()
        describing.put(answer_about(self.asked[0]))
        with self.assertLogs("zanteyard", "WARNING"):
            answered = describing.take(0.0)
        self.assertEqual([*answered.transactions], IDS[:AT_ONCE])
        self.assertFalse(describing.is_open)
        describing.put(answer_about(self.asked[1]))  # too late
        self.assertEqual(len(answered.transactions), AT_ONCE)
        self.assertEqual(len(self.asked), 2)

    def test_one_that_has_gone_isnt_waited_for(self):
        describing = Describing(IDS, self.ask)
        describing.go_on()
        self.can_ask = False
        describing.put(answer_about(self.asked[0]))
        self.assertEqual([*describing.take(LONG).transactions], IDS[:AT_ONCE])
        describing = Describing(IDS, self.ask)
        describing.go_on()
        self.assertEqual(describing.take(LONG), Answered({}, {}))
        self.assertFalse(describing.is_open)

    def test_nobody_to_ask_about(self):
        describing = Describing([], self.ask)
        describing.go_on()
        self.assertEqual(describing.take(LONG), Answered({}, {}))
        self.assertEqual(self.asked, [])


class OfManyTransactions:
    """A violation that involves all of IDS."""

    edges, keys, lost = (), {5}, None

    @staticmethod
    def involved():
        return IDS


@dataclass(frozen=True)
class Explained:
    transactions: object
    title: str = "lost update"
    group: str = ""


class Explanations(unittest.TestCase):
    """What reaches the explanation, in place of which the answers are noted."""

    def setUp(self):
        self.told, self.asked = [], []
        patched = mock.patch("zanteyard.watch.violations._explaining.explained", lambda *its: Explained(its[3].transactions))
        patched.start()
        self.addCleanup(patched.stop)
        self.explaining = Explaining("no program", lambda one, _: self.told.append(one))
        self.explaining.begin([], [OfManyTransactions], self.ask)

    def ask(self, number, some):
        self.asked.append((number, some))
        return True

    def test_it_has_all_descriptions(self):
        while self.explaining.is_asking:
            self.assertEqual(self.told, [])
            number, some = self.asked[-1]
            self.explaining.answered(number + 1, answer_about(some))  # of another violation
            self.explaining.answered(number, answer_about(some))
        self.explaining.wait(LONG)
        self.assertEqual([*self.told[0].transactions], IDS)

    def test_it_goes_on_without_a_proxy(self):
        number, some = self.asked[-1]
        self.explaining.answered(number, answer_about(some))
        self.explaining.expect_no_answers()
        self.assertFalse(self.explaining.is_asking)
        self.explaining.wait(LONG)
        self.assertEqual([*self.told[0].transactions], IDS[:AT_ONCE])


class Involved(unittest.TestCase):
    """All transactions that an explanation may mention, though a refutation names few."""

    def held(self, certificate, *lines, marks=(0,) * 8):
        lines = [["resume", 8, 4096, 2], ["marks", [*marks], [False] * 8], *lines]
        kept = Kept([json.dumps(line, separators=(",", ":")).encode() for line in lines])
        report = ["report", 1, "violated", [100] * 8, certificate]
        return Held(kept, report)

    def test_what_the_refutation_names_comes_first(self):
        lines = [feed.offer(at, 0, *([[[5, "init"]], []] for _ in range(100))) for at in range(8)]
        arcs = [["read", 5, 7, 99, 3, 0], ["taken", 3, 0, 7, 99]]
        its = self.held([["cycle", arcs]], *lines).involved()
        self.assertEqual(its[:2], [(3, 0), (7, 99)])
        self.assertEqual(sorted(its), [(at, number) for at in range(8) for number in range(100)])

    def test_others_that_have_to_do_with_its_keys(self):
        lines = [
            feed.offer(0, 0, [[], [5]], [[], [6]], [[[5, 0, 0], [6, 0, 1]], []]),
            feed.offer(1, 0, [[], [7]], [[[5, 2, 0]], []], [[[7, 2, 1]], []]),
            feed.offer(2, 0, [[], []], [[], []], [[[5, 4, 9]], []]),
            feed.offer(3, 0, [[[5, "init"]], [], "aborted"]),
        ]
        certificate = [["nowrite", 1, 1, 5]]
        its = self.held(certificate, *lines).involved()
        self.assertEqual(its, [(1, 1), (0, 0), (0, 2), (2, 0), (2, 2), (3, 0)])
        lines[:2] = [
            feed.offer(0, 2, [[[5, 0, 0], [6, 0, 1]], []]),
            feed.offer(1, 1, [[[5, 2, 0]], []], [[[7, 2, 1]], []]),
        ]
        its = self.held(certificate, *lines, marks=(2, 1, 0, 0, 0, 0, 0, 0)).involved()
        self.assertEqual(its, [(1, 1), (0, 2), (2, 0), (2, 2), (3, 0)])


if __name__ == "__main__":
    sys.exit(unittest.main())
