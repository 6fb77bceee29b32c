"""The sizes of the trees of twelve known histories: each is as small as a plain minimiser can make
it, and irrelevant transactions don't make it larger (bench/model/plain_trees.py)."""
import json
import os
import unittest

from .built import WORKED, path_of
from .test_hostile_rows import replies_to

import hard
from judge import Model, command_of
from plain_trees import minimised, refuted
from plain_verdicts import Wrong


def compact(told):
    return json.dumps(told, separators=(",", ":")).encode()


def worked(name):
    """The lines of a worked script up to its last rounds, without them."""
    with open(os.path.join(WORKED, f"{name}.jsonl"), "rb") as file:
        lines = file.read().splitlines()
    words = [command_of(line)[0] for line in lines]
    end = max(at for at, word in enumerate(words) if word == "round")
    while words[end - 1] == "round":
        end -= 1
    return lines[:end]


def made(log):
    return [line.encode() for line in log.lines(1)[:-1]]


def contradiction(pairs, wrong, spare=0, behind=0):
    """Pairs whose order is open, and readers that rule out each way to order them; before and after
    them, irrelevant pairs."""
    log = hard.contradiction(pairs, wrong, spare)
    hard.idle(log, behind)
    return made(log)


def settled_beside_a_lost_update(count):
    """A lost update after a chain in which each transaction overwrites what it has read: all
    choices of the chain are forced, and irrelevant."""
    log = hard.Log()
    last = log.add([], [1], 0)
    for number in range(count):
        last = log.add([(1, last)], [1], number % 3)
    first = log.add([], [5], 3)
    for session in (4, 5):
        log.add([(5, first)], [5], session)
    return made(log)


def two_lost_updates():
    """Each of two lost updates is a violation by itself."""
    log = hard.Log()
    for key in (5, 6):
        first = log.add([], [key])
        for _ in range(2):
            log.add([(key, first)], [key])
    return made(log)


TWO, THREE = hard.all_ways(2), hard.all_ways(3)
HISTORIES = {
    "write skew": worked("write_skew"),
    "a read of what is gone": worked("gone_read"),
    "a read from who never wrote": worked("not_a_writer"),
    "a lost update": worked("lost_update"),
    "two lost updates": two_lost_updates(),
    "a lost update beside what is forced": settled_beside_a_lost_update(12),
    "a split": worked("real_split"),
    "two pairs": contradiction(2, TWO),
    "two pairs behind idle ones": contradiction(2, TWO, 3),
    "two pairs between idle ones": contradiction(2, TWO, 1, 2),
    "three pairs": contradiction(3, THREE),
    "a chain of pairs behind idle ones": contradiction(4, hard.chain(4), 2),
}
# Trees of the same size: what the others have besides the contradiction is irrelevant.
ALIKE = [("a lost update", "two lost updates", "a lost update beside what is forced"),
         ("two pairs", "two pairs behind idle ones", "two pairs between idle ones")]
# Budget, depth and workers: the whole search, the trees joined from cubes, and what the second
# search finds if the first is spent.
EFFORTS = [(4096, 0, 1), (4096, 1, 1), (65536, 6, 4), (1, 0, 1), (3, 0, 1)]


def parts_of(lines):
    """What is kept after these lines, according to the plain model."""
    model = Model()
    for line, reply in zip(lines, replies_to(*lines)):
        model.judge(line, reply)
    return model.parts


@unittest.skipUnless(path_of("cobra_audit"), "cobra_audit is not built")
class Sizes(unittest.TestCase):
    def trees(self, lines):
        """The tree that each effort finds, unless it is spent."""
        asked = [compact(["round", *effort]) for effort in EFFORTS]
        told = list(map(json.loads, replies_to(*lines, *asked)[len(lines):]))
        self.assertEqual(told[0][2], "violated")
        return [(effort, report[4]) for effort, report in zip(EFFORTS, told)
                if report[2] == "violated"]

    def test_nothing_can_be_left_out(self):
        """Each tree, whichever search found it, is as small as the minimiser can make it."""
        for name, lines in HISTORIES.items():
            parts = parts_of(lines)
            for effort, tree in self.trees(lines):
                with self.subTest(history=name, effort=effort):
                    self.assertEqual(minimised(parts, tree), tree)

    def test_what_plays_no_part_makes_none_larger(self):
        for names in ALIKE:
            sizes = {name: len(self.trees(HISTORIES[name])[0][1]) for name in names}
            self.assertEqual(len(set(sizes.values())), 1, sizes)

    def test_none_is_twice_as_large_as_a_plain_search_needs(self):
        for name, lines in HISTORIES.items():
            with self.subTest(history=name):
                parts = parts_of(lines)
                plain = minimised(parts, refuted(parts))
                self.assertLessEqual(len(self.trees(lines)[0][1]), 2 * len(plain))

    def test_the_minimiser_leaves_out_what_plays_no_part(self):
        """It reduces a plain search's own trees, which contain everything that was tried, to these
        sizes."""
        for name, tried, left in (("two pairs", 11, 10), ("two pairs behind idle ones", 95, 10),
                                  ("a chain of pairs behind idle ones", 75, 18),
                                  ("a lost update beside what is forced", 3, 3)):
            with self.subTest(history=name):
                parts = parts_of(HISTORIES[name])
                found = refuted(parts)
                self.assertEqual((len(found), len(minimised(parts, found))), (tried, left))
                self.assertEqual(minimised(parts, found), minimised(parts, minimised(parts, found)))

    def test_the_minimiser_wants_a_refutation(self):
        parts = parts_of(HISTORIES["a lost update"])
        with self.assertRaises(Wrong):
            minimised(parts, refuted(parts)[1:])


if __name__ == "__main__":
    unittest.main()
