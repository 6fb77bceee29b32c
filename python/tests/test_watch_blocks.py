"""How the proxy's lines are passed on: many at a time, without being read."""
import os
import random
import sys
import unittest

from zanteyard.program._binaries import PROGRAM
from zanteyard.promises._kinds import SNAPSHOT
from zanteyard.watch._auditing import Auditing, head_of
from zanteyard.watch.outcome._feed import Split

OFFER, JOIN, OPEN = b'["offer",0,0,[[[],[5]]]]', b'["join",1,[[[[0,0,1]],[0]]]]', b'["open",1,8,3]'
ROUND, TRUNCATE, EVENT = b'["round",64,0,1]', b'["truncate"]', b'{"event":"stopped","at":1}'
KNOWN = {"event": "stopped", "at": 1}


class Pieces(unittest.TestCase):
    def test_lines_stay_together_between_those_that_are_looked_at(self):
        for given, wanted in (
            ([OFFER], [OFFER]),
            ([OFFER, JOIN, OFFER], [b"\n".join([OFFER, JOIN, OFFER])]),
            ([OPEN, OFFER], [OPEN, OFFER]),
            ([OFFER, OPEN], [OFFER, OPEN]),
            ([OFFER, ROUND, TRUNCATE, OFFER], [OFFER, ROUND, TRUNCATE, OFFER]),
            ([EVENT, EVENT, OFFER, EVENT], [KNOWN, KNOWN, OFFER, KNOWN]),
            ([OFFER, OFFER, EVENT, OFFER], [OFFER + b"\n" + OFFER, KNOWN, OFFER]),
        ):
            with self.subTest(given=given):
                self.assertEqual(Split().items(b"\n".join(given) + b"\n"), wanted)

    def test_unreadable_lines_are_left_out_and_counted(self):
        split = Split()
        given = b"\n".join([b"what", OFFER, b"", JOIN, b"{", b"{}", OFFER, b'x["offer"'])
        self.assertEqual(split.items(given + b"\n"), [OFFER + b"\n" + JOIN, OFFER])
        self.assertEqual(split.wrong, 5)

    def test_pieces_of_any_length(self):
        dice = random.Random(1)
        lines = [dice.choice((OFFER, JOIN, OPEN, ROUND, TRUNCATE, EVENT)) for _ in range(300)]
        text = b"\n".join(lines) + b"\n"
        for _ in range(200):
            split, at, found = Split(), 0, []
            while at < len(text):
                size = dice.choice((1, 7, 40, 500))
                found += split.items(text[at : at + size])
                at += size
            told = [EVENT if it == KNOWN else it for it in found]
            self.assertEqual([line for it in told for line in it.split(b"\n")], lines)
            for it in told:
                self.assertTrue(b"\n" not in it or set(it.split(b"\n")) <= {OFFER, JOIN})

    def test_the_head_of_a_report(self):
        for report, wanted in (
            (b'["report",7,"serial",[3,0,12],[[0,0],[2,1]]]', (7, "serial", [3, 0, 12])),
            (b'["report",1,"spent",[1]]', (1, "spent", [1])),
            (b'["report",1,"violated",[],[["cycle",[]]]]', (1, "violated", [])),
        ):
            self.assertEqual(head_of(report), wanted)


@unittest.skipUnless(os.path.isfile(PROGRAM), f"{PROGRAM} is not built")
class Given(unittest.TestCase):
    def auditing(self, **more):
        auditing = Auditing(PROGRAM, **more)
        self.addCleanup(auditing.end)
        return auditing

    def test_only_what_has_to_be_looked_at_is_told(self):
        lines = [b'["offer",0,%d,[[[],[5]]]]' % number for number in range(6)]
        blocks = [OPEN, b"\n".join(lines[:3]), b"\n".join(lines[3:]), ROUND, TRUNCATE]
        told = [*self.auditing().give(blocks)]
        self.assertEqual([line for line, _ in told], [OPEN, ROUND, TRUNCATE])
        self.assertEqual(told[0][1], b'["ok"]')
        self.assertEqual(head_of(told[1][1]), (1, "serial", [6]))

    def test_a_refused_line_is_told_by_itself(self):
        block = b"\n".join([OFFER, b'["offer",0,7,[[[],[5]]]]', b'["offer",0,1,[[[],[6]]]]'])
        told = [*self.auditing().give([OPEN, block, ROUND])]
        self.assertEqual(told[1], (b'["offer",0,7,[[[],[5]]]]', b'["no",5,"Gap"]'))
        self.assertEqual(head_of(told[2][1]), (1, "serial", [2]))

    def test_marks_are_those_of_the_auditor(self):
        auditing = self.auditing()
        fence = b'["offer",0,1,[[[[0,"init"]],[0]]]]'
        behind = b'["offer",0,2,[[[[0,1,0]],[0]]]]'
        told = [*auditing.give([OPEN, b"\n".join([OFFER, fence, JOIN])])]
        self.assertEqual(told, [(OPEN, b'["ok"]')])
        self.assertEqual(auditing.marks(), [0, 0])
        (_, _), (_, cut) = auditing.give([behind, ROUND, TRUNCATE])
        self.assertTrue(cut.startswith(b'["cut",'))
        self.assertEqual(auditing.marks(), [2, 1])

    def test_a_script_about_snapshots_is_passed_on_unread(self):
        """The proxy opens it as one; other lines don't have to be asked in other words."""
        opening = b'["open",1,8,3,"snapshot"]'
        skew = [b'["offer",0,0,[[[],[]]]]', b'["join",1,[[[],[5]]]]']
        auditing = self.auditing(promise=SNAPSHOT)
        told = [*auditing.give([opening, skew[0], ROUND])]
        self.assertFalse(auditing._rewrites)
        self.assertEqual(head_of(told[1][1]), (1, "serial", [1]))
        told = [*auditing.give([OPEN, skew[0], ROUND])]
        self.assertTrue(auditing._rewrites)
        self.assertIn(b'"commit"', told[1][1])


if __name__ == "__main__":
    sys.exit(unittest.main())
