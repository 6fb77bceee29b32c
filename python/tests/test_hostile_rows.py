"""Malicious lines, bad parts, forged trees and spent budgets, row by row, for all programs."""
import json
import os
import subprocess
import unittest

from .built import TOP, by_turns, path_of

import fuzz_check
import worst
from judge import REFUSALS, Model, first_difference, txn_of
from plain_proofs import check_order
from plain_verdicts import SPENT, Parts, Relation, cubes, scan

SECONDS = 300.0
OK = b'["ok"]'
BAD_LINE, BAD_SESSION = b'["no",1,"BadLine"]', b'["no",2,"BadSession"]'
BAD_TXN, TOO_LONG, BAD_PARTS = b'["no",3,"BadTxn"]', b'["no",9,"TooLong"]', b'["no",14,"BadParts"]'
NOTHING = b'["show",[0],[0],[false],[],0]'
# Lines after ["open",1,8], and the reply to each; none of them changes anything.
LINES = [
    (b'["open",1,2,3]', BAD_LINE),
    (b'["offer",256,0,[[[],[5]]]]', BAD_LINE),
    (b'["offer",255,0,[[[],[5]]]]', BAD_SESSION),
    (b'["offer",64,0,[[[],[5]]]]', BAD_SESSION),
    (b'["offer",63,0,[[[],[5]]]]', BAD_SESSION),
    (b'["offer",0,0,[[[[5,256,0]],[]]]]', BAD_LINE),
    (b'["offer",0,0,[[[[5,255,0]],[]]]]', BAD_TXN),
    (b'["offer",0,0,[[[[5,64,0]],[]]]]', BAD_TXN),
    (b'["offer",0,0,[[[[5,0,281474976710656]],[]]]]', BAD_TXN),
    (b'["offer",0,0,[[[[5,0,0]],[]]]]', BAD_TXN),
    (b'["offer",0,0,[[[],[-1]]]]', BAD_LINE),
    (b'["offer",0,0,[[[],["5"]]]]', BAD_LINE),
    (b'["offer",0,0,[[[],[5,5]]]]', BAD_TXN),
    (b'["offer",0,0,[[[],[0]]]]', b'["no",4,"BadFence"]'),
    (b'["offer",0,0,[]]', TOO_LONG),
    (b'["offer",0,281474976710656,[[[],[5]]]]', TOO_LONG),
    (b'["offer",0,18446744073709551615,[[[],[5]]]]', TOO_LONG),
    (b'["offer",0,1,[[[],[5]]]]', b'["no",5,"Gap"]'),
    (b'["close",255]', BAD_SESSION),
    (b'["close",256]', BAD_LINE),
    (b'["join",255,[[[[0,0,0]],[0]]]]', BAD_SESSION),
    (b'["join",1,[[[[0,"init"]],[0]]]]', b'["no",17,"NotAnchored"]'),
    (b'["save","remain",255,0]', BAD_SESSION),
    (b'["resume",1,8]', BAD_LINE),
    (b'["marks",[0],[false]]', BAD_LINE),
    (b'["resumed"]', BAD_LINE),
    (b"x" * 8388609, BAD_LINE),
    (b" " * 8388609, BAD_LINE),
    (b'["show"]' + b" " * 8388601, BAD_LINE),
    (b"[" * 200, BAD_LINE),
    (b"[" * 8388608, BAD_LINE),
    (b'{"a":' * 200, BAD_LINE),
    (b"\xff", BAD_LINE),
    (b"", BAD_LINE),
    (b'["show"]', NOTHING),
    (b'["show"]' + b" " * 8388600, NOTHING),
]
# Parts of one session: the limit, the mark, the flags, the last writers, and what remains; and the
# refusal of the hand-over's last line.
ALL = 2**48
PARTS = [
    ("a flag too many", 8, 0, [False, False], [], [], BAD_PARTS),
    ("a flag too few", 8, 0, [], [], [], BAD_PARTS),
    ("limit 0", 0, 0, [False], [], [], TOO_LONG),
    ("limit 4097", 4097, 0, [False], [], [], TOO_LONG),
    ("more than the limit", 1, 0, [False], [], [[[], [5]], [[], [5]]], BAD_PARTS),
    ("a number too high", 8, ALL, [False], [], [[[], [5]]], BAD_PARTS),
    ("a mark too high", 8, ALL + 1, [False], [], [], BAD_PARTS),
    ("the greatest mark that is a number", 8, 2**64 - 1, [False], [], [], BAD_PARTS),
    ("a last writer to come", 8, 3, [False], [[5, 0, 3]], [], BAD_PARTS),
    ("a last writer of no session", 8, 0, [False], [[5, 1, 0]], [], BAD_PARTS),
    ("a key twice", 8, 3, [False], [[5, 0, 1], [5, 0, 2]], [], BAD_PARTS),
    ("a read from itself", 8, 0, [False], [], [[[[5, 0, 0]], []]], BAD_PARTS),
    ("keys that don't rise", 8, 0, [False], [], [[[], [6, 5]]], BAD_PARTS),
    ("no fence on key 0", 8, 0, [False], [], [[[], [0]]], BAD_PARTS),
    ("too many writes", 8, 0, [False], [], [[[], list(range(1, 258))]], BAD_PARTS),
    ("all numbers used up", 8, ALL, [False], [], [], None),
    ("a last writer that is gone", 8, 3, [False], [[5, 0, 2]], [], None),
    ("a closed session with a rest", 8, 3, [True], [[5, 0, 2]], [[[[5, 0, 2]], []]], None),
]
# Write skew: 0.0 reads the initial version of key 5 and writes key 6; 1.0 does the opposite.
SKEW = [["open", 2, 8], ["offer", 0, 0, [[[[5, "init"]], [6]]]],
        ["offer", 1, 0, [[[[6, "init"]], [5]]]], ["round", 32, 0, 1]]
BASE_5, BASE_6 = ["base", 5, 0, 0, 1, 0], ["base", 6, 1, 0, 0, 0]
FORGED = [
    [["cycle", []]],
    [["cycle", [BASE_5]]],
    [["cycle", [BASE_5, ["taken", 1, 0, 0, 0]]]],
    [["cycle", [BASE_5, ["session", 1, 0, 0, 0]]]],
    [["cycle", [BASE_5, ["read", 6, 1, 0, 0, 0]]]],
    [["cycle", [BASE_6, BASE_6]]],
    [["cycle", [["base", 6, 0, 0, 1, 0], ["base", 5, 1, 0, 0, 0]]]],
    [["gone", 0, 0, 5]],
    [["nowrite", 0, 0, 5]],
    [["nowrite", 0, 1, 5]],
    [["gone", 63, 281474976710655, 18446744073709551615]],
    [],
    [["cycle", [BASE_5, BASE_6]], ["cycle", [BASE_5, BASE_6]]],
    [["split", [0, 0, 5, 1, 0, 1, 0]], ["cycle", [BASE_5, BASE_6]], ["cycle", [BASE_5, BASE_6]]],
]
# A lost update: 0.0 writes key 5; 0.1 and 1.0 both read that version and write the key.
LOST = [["open", 2, 8], ["offer", 0, 0, [[[], [5]], [[[5, 0, 0]], [5]]]],
        ["offer", 1, 0, [[[[5, 0, 0]], [5]]]], ["round", 32, 0, 1]]
EARLIER, LATER = [0, 1, 5, 0, 0, 1, 0], [1, 0, 5, 0, 0, 0, 1]
DEEPEST = 4096  # levels of a tree that are examined
LEVELS = 2000  # of a search; each takes a side of a choice that no other one decides


def compact(told):
    return json.dumps(told, separators=(",", ":")).encode()


def ended(name, text):
    it = subprocess.run([path_of(name)], input=text, stdout=subprocess.PIPE,
                        stderr=subprocess.PIPE, timeout=SECONDS, check=False)
    return it.returncode, it.stdout, it.stderr


def replies_to(*lines):
    """The replies of cobra_audit, line by line."""
    status, told, said = ended("cobra_audit", b"".join(line + b"\n" for line in lines))
    assert (status, said) == (0, b""), (status, said)
    return told.split(b"\n")[:-1]


def handed_over(limit, mark, flags, last, remain):
    return [compact(line) for line in (["resume", 1, limit], ["marks", [mark], flags],
                                       ["last", last], ["offer", 0, mark, remain], ["resumed"])]


def before(choice):
    """A cycle in which the choice's other writer comes before the writer that was read from."""
    _, _, key, ws, wn, os_, on = choice
    return ["cycle", [["taken", os_, on, ws, wn], ["read", key, ws, wn, os_, on]]]


def ladder(splits):
    """A correct tree of the lost update with this many splits, two or more, nested in each
    other."""
    items = []
    for _ in range(splits - 1):
        items += [["split", EARLIER], before(EARLIER)]
    both = ["cycle", [["taken", 0, 1, 1, 0], ["taken", 1, 0, 0, 1]]]
    return [*items, ["split", LATER], before(LATER), both]


def checked(script, tree, counts):
    """The exit status of cobra_check if the script's round is answered with this tree."""
    lines = [compact(line) for line in script]
    replies = [OK] * (len(lines) - 1) + [compact(["report", 1, "violated", counts, tree])]
    return ended("cobra_check", by_turns(*(b"".join(each + b"\n" for each in its)
                                           for its in (lines, replies))))


@unittest.skipUnless(path_of("cobra_audit"), "cobra_audit is not built")
class Audited(unittest.TestCase):
    def test_malicious_lines(self):
        opened, show = b'["open",1,8]', b'["show"]'
        lines = [opened, *(line for row, _ in LINES for line in (row, show))]
        owed = [OK, *(reply for _, row in LINES for reply in (row, NOTHING))]
        for line, told, reply in zip(lines, replies_to(*lines), owed):
            self.assertEqual(told, reply, line[:60])

    def test_bad_parts(self):
        """Each is refused by name, and the script may begin again; good parts can be continued."""
        for name, limit, mark, flags, last, remain, refused in PARTS:
            with self.subTest(parts=name):
                lines = handed_over(limit, mark, flags, last, remain)
                told = replies_to(*lines, b'["show"]', b'["open",1,8]', b'["show"]')
                if refused is None:
                    self.assertEqual(told[:5], [OK] * 5)
                    state = ["show", [mark], [mark + len(remain)], flags, last, len(remain)]
                    self.assertEqual(told[5:], [compact(state), BAD_LINE, compact(state)])
                else:
                    found = next(reply for reply in told if reply != OK)
                    self.assertEqual((found, told[5:]), (refused, [BAD_LINE, OK, NOTHING]))
                self.assertIsNone(first_difference(
                    b"\n".join([*lines, b'["show"]', b""]), b"\n".join([*told[:6], b""])))

    def test_spent_budgets(self):
        """Ten choices that no other reads decide. The first search is spent as the definition says,
        the second one may decide, and neither changes the state."""
        writers = [[[], [10 + at]] for at in range(10)]
        readers = [[[[10 + at, 0, at]], []] for at in range(10)]
        lines = [compact(["open", 3, 64]), compact(["offer", 0, 0, writers]),
                 compact(["offer", 1, 0, writers]), compact(["offer", 2, 0, readers])]
        kept = b'["show",[0,0,0],[10,10,10],[false,false,false],[],30]'
        model = Model()
        for line in lines:
            model.judge(line, OK)
        relation = Relation(model.parts)
        self.assertEqual(len(relation.open_choices()), 10)
        for number, (budget, depth, is_spent) in enumerate(
                ((1, 0, True), (63, 6, True), (2048, 0, False), (2048, 6, False)), 1):
            with self.subTest(budget=budget, depth=depth):
                found = {scan(cube, False, budget >> depth)[0] for cube in cubes(relation, depth)}
                self.assertEqual(SPENT in found, is_spent)
                asked = compact(["round", budget, depth, 1])
                told = replies_to(*lines, asked, b'["show"]')
                self.assertEqual(told[5], kept)
                report = json.loads(told[4])
                self.assertEqual(report[2], "spent" if is_spent else "serial")
                *_, found = replies_to(*lines, compact(["round", budget, depth, 1, "guided"]))
                self.assertEqual(json.loads(found)[2], "serial")
                model.rounds = 0
                model.judge(asked, told[4])
        lines += [compact(["round", budget, depth, 1]) for budget, depth in ((1, 0), (63, 6))]
        self.assertIsNone(first_difference(
            b"\n".join([*lines, b""]), b"\n".join([*replies_to(*lines), b""])))

    def test_a_round_that_is_spent_changes_nothing(self):
        """On a history that needs a search, the round is spent, and a larger budget decides it."""
        with open(os.path.join(TOP, "crates/cobra_examples/data/real_split.jsonl"), "rb") as file:
            lines = [line for line in file.read().splitlines() if not line.startswith(b'["round"')]
        asked = [b'["show"]', b'["round",1,0,1]', b'["show"]', b'["round",1,6,16]', b'["show"]',
                 b'["round",32,0,1]']
        told = replies_to(*lines, *asked)[len(lines):]
        self.assertEqual(told[0], told[2])
        self.assertEqual(told[0], told[4])
        self.assertEqual([json.loads(told[at])[2] for at in (1, 3, 5)],
                         ["spent", "spent", "violated"])


class Deep(unittest.TestCase):
    """One read of a key, and 2,000 other transactions that write it, before or after: two workers
    take a side of each, nested in each other, in threads of their own."""

    def setUp(self):
        self.sessions = worst.one_reader(LEVELS + 2)
        self.counts = list(map(len, self.sessions))
        self.offers = worst.opened(self.sessions)[1:]
        self.effort = [8 * LEVELS, 1, 2]

    def check(self, report):
        """Checks that it is serial, with a correct order."""
        self.assertEqual(report[2:4], ["serial", self.counts])
        txns = [list(map(txn_of, its)) for its in self.sessions]
        check_order(Parts([0] * 64, txns, [False] * 64), report[4])

    @unittest.skipUnless(path_of("cobra_audit"), "cobra_audit is not built")
    def test_of_a_script(self):
        asked = compact(["round", *self.effort])
        *told, report = replies_to(b'["open",64,4096]', *self.offers, asked)
        self.assertEqual(set(told), {OK})
        self.check(json.loads(report))


@unittest.skipUnless(path_of("cobra_check"), "cobra_check is not built")
class Forged(unittest.TestCase):
    def test_forged_trees_refute_nothing(self):
        for tree in FORGED:
            with self.subTest(tree=tree):
                status, told, said = checked(SKEW, tree, [1, 1])
                self.assertEqual((status, said), (3, b""))
                self.assertTrue(told.startswith(b"reply 4 wrong: "), told)
        right = checked(SKEW, [["cycle", [BASE_5, BASE_6]]], [1, 1])
        self.assertEqual(right[:2], (0, b"reply 4 violated, right\nright: replies 4 reports 1 "
                                        b"spent 0 not-checked 0\n"))

    def test_mutated_bytes_of_stored_replies(self):
        """As in bench/check/fuzz_check.py: accepted exactly if the plain model accepts them."""
        fuzz_check.PROGRAM = path_of("cobra_check")
        tried = fuzz_check.fuzz("rows", 150)
        self.assertGreater(sum(count for (_, told), count in tried.items() if told == "wrong"), 50)
        self.assertGreater(sum(count for (_, told), count in tried.items() if told == "right"), 20)

    def test_want_of_memory_is_believed_of_what_may_want_memory(self):
        """NoMemory is accepted only for lines that may run out of memory, by the checker and by the
        model to which bench/check/fuzz_check.py compares it."""
        opening = b'["open",1,4]'
        rows = {
            True: (b'["offer",0,0,[[[],[5]]]]', b'["join",1,[[[[0,"init"]],[0]]]]', b'["begin"]',
                   b'["round",1,0,1]', b'["finish",1,0,1]', b'["answer","order",[]]',
                   b'["truncate"]', b'["rebuild"]'),
            False: (b'["close",0]', b'["show"]', b'["save","marks"]', b'["open",1,4]', b"none"),
        }
        for may_want, lines in rows.items():
            for line in lines:
                with self.subTest(line=line):
                    replies = [b'["ok"]', REFUSALS[16]]
                    given = by_turns(opening + b"\n" + line + b"\n", b"\n".join([*replies, b""]))
                    status, told, said = ended("cobra_check", given)
                    self.assertEqual((status, said), (4 if may_want else 3, b""))
                    self.assertEqual(may_want, b"reply 2 not checked" in told)
                    word = told.splitlines()[-1].split(b":")[0]
                    self.assertEqual(word, b"unchecked" if may_want else b"wrong")
                    found = fuzz_check.owed_by_model([opening, line], replies)
                    self.assertEqual(found, None if may_want else 1)

    def test_a_tree_is_at_most_4096_deep(self):
        for splits in (2, 3, DEEPEST - 1, DEEPEST):
            self.assertEqual(checked(LOST, ladder(splits), [2, 1])[0], 0, splits)
        for splits in (DEEPEST + 1, 4 * DEEPEST):
            status, told, said = checked(LOST, ladder(splits), [2, 1])
            self.assertEqual((status, said), (3, b""), splits)
            self.assertTrue(told.startswith(b"reply 4 wrong: "), told[:200])


if __name__ == "__main__":
    unittest.main()
