"""Scripts that request snapshot isolation themselves: the program's replies are compared with the
definition, tried over all orders, and with the plain model of bench/model/judge.py."""
import json
import os
import random
import subprocess
import unittest
from collections import Counter
from concurrent.futures import ThreadPoolExecutor

from zanteyard.program._auditor import PROGRAM
from zanteyard.program._binaries import checker_path

from .plain_promises import COMMITTED, did, generated, has_events, ids_of, is_pending, script_of

import judge

HISTORIES = int(os.environ.get("ZANTEYARD_HISTORIES", "500"))
ROUND = ["round", 4096, 0, 1]
BEGIN, COMMIT = "begin", "commit"


def replies_to(lines):
    """The replies of a run of the program."""
    text = "".join(json.dumps(line) + "\n" for line in lines)
    run = subprocess.run([PROGRAM], input=text, stdout=subprocess.PIPE, text=True, check=True)
    return [*map(json.loads, run.stdout.splitlines())]


def model_says(lines, replies):
    """What is wrong with the replies; None if nothing is."""
    script, told = (b"".join(judge.text(it) + b"\n" for it in its) for its in (lines, replies))
    return judge.first_difference(script, told)


def check(lines, replies):
    """What `cobra_check` says of them in the end."""
    turns = "".join(json.dumps(each) + "\n" for both in zip(lines, replies) for each in both)
    turns = turns.replace(", ", ",")
    run = subprocess.run([checker_path()], input=turns, stdout=subprocess.PIPE, text=True)
    return run.stdout.splitlines()[-1]


class Asked:
    """A run of the program, asked line by line."""

    def __init__(self):
        pipes = {"stdin": subprocess.PIPE, "stdout": subprocess.PIPE}
        self.program = subprocess.Popen([PROGRAM], text=True, bufsize=1, **pipes)

    def __enter__(self):
        return self

    def __exit__(self, *exception):
        self.program.stdin.close()
        self.program.stdout.close()
        self.program.wait()

    def ask(self, line):
        self.program.stdin.write(json.dumps(line) + "\n")
        return json.loads(self.program.stdout.readline())

    def ask_all(self, lines):
        return [self.ask(line) for line in lines]

    def saved(self):
        """All that is given out."""
        given, key = [self.ask(["save", "marks"])], 0
        while (page := self.ask(["save", "last", key]))[1]:
            given.append(page)
            key = page[1][-1][0] + 1
        for session in range(len(given[0][1])):
            number = 0
            while (page := self.ask(["save", "remain", session, number]))[3]:
                given.append(page)
                number = page[2] + len(page[3])
        return given


def straddling(rng):
    """Lines after which a cut leaves transactions whose begin is gone and whose commit isn't, and
    lines that go on from there. Keys 1 to 3 are overwritten before the fence; who reads them as
    they were begins before it, and commits after what reads the key that it writes as it was."""
    count = rng.randrange(1, 4)
    wrote = [[10 * at + more for more in range(rng.randrange(1, 4))] for at in range(1, count + 1)]
    front = [["offer", 0, 0, [[[], [1, 2, 3]], [[[0, "init"]], [0]]]]]
    missed = sorted(key for keys in wrote for key in keys if key % 10 == 0)
    front.append(["offer", 1, 0, [[[[0, 0, 1]], [0]], [[[key, "init"] for key in missed], []]]])
    for at, keys in enumerate(wrote):
        read = [[rng.choice((1, 2, 3)), "init"]]
        front.append(["offer", 2 + at, 0, [[read, keys]]])
    rest = [["round", 4096, 0, 1]]
    for _ in range(rng.randrange(1, 4)):
        session, key = rng.randrange(2 + count), rng.choice([1, 2, *missed])
        source = rng.choice((["init"], [0, 0], [2 + key // 10 - 1, 0]))
        number = 1 + (session < 2) + sum(line[:2] == ["offer", session] for line in rest)
        rest.append(["offer", session, number, [[[[key, *source]], rng.choice(([], [key]))]]])
    ends = [["close", session] for session in range(2, 2 + count)]
    return 2 + count, front, [*rest, ["round", 4096, 0, 1], *ends, ["show"], ["round", 4096, 0, 1]]


def is_snapshot_order(history, events):
    """Whether one order of begins and commits fulfils the definition."""
    ids = ids_of(history)
    if sorted(events) != sorted((*id, event) for id in ids for event in (BEGIN, COMMIT)):
        return False
    place = {event: at for at, event in enumerate(events)}
    for session, number in ids:
        begin, commit = place[session, number, BEGIN], place[session, number, COMMIT]
        if not begin < commit or not commit < place.get((session, number + 1, BEGIN), len(events)):
            return False
        for key, source in did(history, (session, number))[0]:
            writers = [one for one in ids if key in did(history, one)[1]]
            seen = [one for one in writers if place[(*one, COMMIT)] < begin]
            if max(seen, key=lambda one: place[(*one, COMMIT)], default=None) != source:
                return False
    return all(
        place[(*one, COMMIT)] < place[(*other, BEGIN)]
        or place[(*other, COMMIT)] < place[(*one, BEGIN)]
        for one in ids
        for other in ids
        if one < other and did(history, one)[1] & did(history, other)[1]
    )


class Definition(unittest.TestCase):
    def test_orders(self):
        """A lost update has no order; a write skew has one: both begin before one commits."""
        update = [[([(1, None)], {1}, COMMITTED)], [([(1, None)], {1}, COMMITTED)]]
        skew = [[([(1, None)], {2}, COMMITTED)], [([(2, None)], {1}, COMMITTED)]]
        apart = [(0, 0, BEGIN), (0, 0, COMMIT), (1, 0, BEGIN), (1, 0, COMMIT)]
        beside = [(0, 0, BEGIN), (1, 0, BEGIN), (0, 0, COMMIT), (1, 0, COMMIT)]
        for history, order, is_right in (
            (update, apart, False), (update, beside, False),
            (skew, apart, False), (skew, beside, True), (skew, beside[:3], False),
            (skew, [beside[2], *beside[:2], beside[3]], False),
        ):
            with self.subTest(history=history, order=order):
                self.assertEqual(is_snapshot_order(history, order), is_right)


@unittest.skipUnless(os.path.isfile(PROGRAM), f"{PROGRAM} is not built")
class ByTheProgram(unittest.TestCase):
    def test_generated_histories(self):
        told = Counter()
        with ThreadPoolExecutor(3) as threads:
            for kind, has_cut in threads.map(self.judged, range(HISTORIES)):
                told[kind] += 1
                told["cut"] += has_cut
        for kind in ("serial", "pending", "violated"):
            self.assertGreater(told[kind], HISTORIES // 50, told)
        self.assertTrue(told["cut"], told)

    def judged(self, seed):
        """The kind of the report, and whether a cut was found."""
        history, _ = generated(seed)
        opening, *offers = script_of(history)
        ends = [["close", session] for session in range(len(history))]
        rest = [*offers, *ends, ROUND, ["truncate"], ["show"], ROUND]
        lines = [[*opening[:3], 2 + seed % 2, "snapshot"], *rest]  # by either version
        replies = replies_to(lines)
        with self.subTest(seed=seed):
            self.assertIsNone(model_says(lines, replies))
            self.assertEqual(check(lines, replies).split(":")[0], "right")
            report, cut = replies[-4], replies[-3]
            is_kept = has_events(history)
            owed = "violated" if not is_kept else "pending" if is_pending(history) else "serial"
            self.assertEqual(report[2], owed)
            if is_kept:
                self.assertTrue(is_snapshot_order(history, [*map(tuple, report[4])]))
        return report[2], cut[0] == "cut"

    def test_saved_and_resumed(self):
        """What goes on with all that was given out is answered as what goes on without."""
        told = Counter()
        for seed in range(HISTORIES // 10):
            sessions, front, rest = straddling(random.Random(seed))
            opening = [sessions, 64, 2 + seed % 2, "snapshot"]
            with Asked() as whole, Asked() as resumed, self.subTest(seed=seed):
                whole.ask_all([["open", *opening], *front, ROUND])
                self.assertEqual(whole.ask(["truncate"])[:2], ["cut", [0, 1]])
                given = whole.saved()
                self.assertIn(True, given[0][3])
                answers = resumed.ask_all([["resume", *opening], *given, ["resumed"]])
                self.assertEqual(answers, [["ok"]] * (len(given) + 2))
                self.assertEqual(resumed.saved(), given)
                replies = [unnumbered(reply) for reply in whole.ask_all(rest)]
                self.assertEqual([*map(unnumbered, resumed.ask_all(rest))], replies)
                self.assertEqual(resumed.saved(), whole.saved())
                told.update(reply[1] for reply in replies if reply[0] == "report")
        self.assertTrue(told["serial"] and told["violated"], told)


def unnumbered(reply):
    """Rounds count from 1 in a script that resumes another."""
    return [reply[0], *reply[2:]] if reply[0] == "report" else reply


if __name__ == "__main__":
    unittest.main()
