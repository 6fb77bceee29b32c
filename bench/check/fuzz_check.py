#!/usr/bin/env python3
"""Gives cobra_check mutated replies and scripts, and compares its verdicts with a plain model's.

Run it at the top of the repository, after `cd crates/cobra_check && rt run < /dev/null` has built
the program, or with COBRA_CHECK naming another one:

    python3 bench/check/fuzz_check.py [--runs N] [--seed S] [--minutes M] [--keep FILE]

Each run takes a worked script and its replies, mutates some bytes of either (`fuzz_lines.py`), or
exchanges, drops or doubles replies, and gives them alternately. If the plain model (`judge.py`)
finds no reply wrong, the program has to call them right, with status 0, or unchecked, with status
4, exactly if some say that memory was wanting; else wrong, with status 3, at the first reply that
the model finds wrong or before it, since it also compares texts. It prints nothing on standard
error. The script prints a table of the results. At the first difference
it stops, writes the input to FILE (fuzz-check-difference.txt), and ends with status 1.
"""
import argparse
import copy
import os
import random
import re
import subprocess
import sys
import time
from collections import Counter

HERE = os.path.dirname(os.path.abspath(__file__))
sys.path.insert(0, HERE)
from fuzz_lines import Bytes, NO_TEXT  # noqa: E402
sys.path[:0] = [os.path.join(os.path.dirname(os.path.abspath(__file__)), "../model")]
from judge import REFUSALS, Model, command_of  # noqa: E402
from plain_verdicts import Wrong  # noqa: E402

DATA = os.path.join(HERE, "../../crates/cobra_examples/data")
SECONDS = 60.0
PROGRAM = None  # its path, set by a caller


def path_of():
    return PROGRAM or os.environ.get("COBRA_CHECK") or "crates/cobra_check/out/cobra_check"


def is_checked(line):
    """Whether the program checks scripts with this line."""
    return not line.startswith(b'["resume"') and not line.endswith((b',"snapshot"]', b',"strict"]'))


def worked():
    """The worked scripts that are checked, and their replies."""
    for name in sorted(os.listdir(DATA)):
        if name.endswith(".jsonl"):
            with open(os.path.join(DATA, name), "rb") as file:
                lines = file.read().removesuffix(b"\n").split(b"\n")
            with open(os.path.join(DATA, name[:-5] + "replies"), "rb") as file:
                replies = file.read().removesuffix(b"\n").split(b"\n")
            if all(map(is_checked, lines)):
                yield lines, replies


class Mutation:
    """Scripts and replies, changed."""

    def __init__(self, scripts, dice):
        self.scripts, self.dice, self.bytes = scripts, dice, Bytes(dice)

    def changed(self):
        lines, replies = (list(its) for its in self.dice.choice(self.scripts))
        way = self.dice.choice(("nothing", "reply", "reply", "reply", "line", "exchanged",
                                "dropped", "doubled", "memory"))
        at = self.dice.randrange(len(replies))
        if way == "reply":
            replies[at] = self.mutated(replies[at])
        elif way == "line":
            lines[at] = self.mutated(lines[at])
        elif way == "exchanged":
            other = self.dice.randrange(len(replies))
            replies[at], replies[other] = replies[other], replies[at]
        elif way == "dropped":
            del replies[at]
        elif way == "doubled":
            replies.insert(at, replies[at])
        elif way == "memory":
            replies[at] = REFUSALS[16]
        return way, lines, replies[:len(lines)]

    def mutated(self, line):
        """The line with some bytes changed, and no LF in it."""
        line, dice = bytearray(line), self.dice
        for _ in range(dice.choice((1, 1, 2, 4))):
            kind = dice.choice(("flipped", "set", "taken_out", "put_in", "doubled", "cut",
                                "moved", "no_text"))
            if line:
                place = dice.randrange(len(line) + 1)
                getattr(self.bytes, f"make_{kind}")(line, min(place, len(line) - 1), place)
        return bytes(line).replace(b"\n", dice.choice(NO_TEXT).replace(b"\n", b""))


class Checked(Model):
    """The model for stored replies: cobra_check doesn't search, so it accepts that a budget was
    used up, and that an answer differs from an earlier one."""

    judges_search = False


def owed_by_model(lines, replies):
    """The place of the first wrong reply, or None. NoMemory is accepted if the command is allowed
    there and may run out of memory; then nothing has changed, except that a search that was to be
    collected is over."""
    model = Checked()
    for place, (line, reply) in enumerate(zip(lines, replies)):
        if reply == REFUSALS[16]:
            command = command_of(line, model.is_isolated)
            may_want = command is not None and command[0] in MAY_WANT
            if not may_want or is_owed(copy.deepcopy(model), line, REFUSALS[1]):
                return place
            if command[0] == "collect":
                model.search = None
        elif not is_owed(model, line, reply):
            return place
    return None


def is_owed(model, line, reply):
    try:
        model.judge(line, reply)
        return True
    except Wrong:
        return False


WORDS = {0: "right", 3: "wrong", 4: "unchecked"}  # the last line begins with this, by the status
MAY_WANT = ("open", "offer", "join", "begin", "finish", "round", "collect", "truncate", "rebuild",
            "answer")


def try_run(mutation):
    """How it was changed, and how the program ended. Raises Difference."""
    way, lines, replies = mutation.changed()
    given = b"".join(line + b"\n" + reply + b"\n" for line, reply in zip(lines, replies))
    lacks = len(replies) < len(lines)
    if lacks:
        given += lines[len(replies)] + b"\n"
    ended = subprocess.run([path_of()], input=given, stdout=subprocess.PIPE,
                           stderr=subprocess.PIPE, timeout=SECONDS, check=False)
    wrong = owed_by_model(lines[:len(replies)], replies)
    why = None
    word = WORDS.get(ended.returncode)
    owed = 3 if wrong is not None or lacks else 4 if REFUSALS[16] in replies else 0
    if ended.stderr or word is None or f"{word}: replies ".encode() not in ended.stdout:
        why = f"it ends with {ended.returncode}, {ended.stderr!r}"
    elif ended.returncode != owed:
        why = f"the model finds reply {wrong} wrong, and the status is {ended.returncode}"
    elif ended.returncode == 3:
        told = re.search(rb"^reply (\d+) wrong", ended.stdout, re.MULTILINE)
        most = len(replies) if wrong is None else wrong
        if told is None or int(told[1]) > most + 1:
            why = f"the model finds reply {most + 1} wrong"
    if why:
        raise Difference(given, f"{way}: {why}; told is {ended.stdout[-400:]!r}")
    return way, word


class Difference(Exception):
    def __init__(self, given, why):
        super().__init__(why)
        self.given = given


def fuzz(seed, runs, until=None):
    """The results by kind of change. Raises Difference."""
    scripts, table = list(worked()), Counter()
    for number in range(runs):
        if until and time.monotonic() > until:
            break
        table[try_run(Mutation(scripts, random.Random(f"check {seed} {number}")))] += 1
    return table


def main():
    asked = argparse.ArgumentParser(description=__doc__.split("\n\n")[0])
    asked.add_argument("--runs", type=int, default=10000, help="how many runs (10,000)")
    asked.add_argument("--seed", default="1", help="the seed of the dice (1)")
    asked.add_argument("--minutes", type=float, help="stop after this many minutes")
    asked.add_argument("--keep", default="fuzz-check-difference.txt", metavar="FILE", help="where a difference is written")
    asked = asked.parse_args()
    begin = time.monotonic()
    try:
        table = fuzz(asked.seed, asked.runs, begin + 60 * asked.minutes if asked.minutes else None)
    except Difference as difference:
        with open(asked.keep, "wb") as file:
            file.write(difference.given)
        sys.exit(f"DIFFERENCE, now in {asked.keep}: {difference}")
    for (way, told), count in sorted(table.items()):
        print(f"{way:10} {told:6} {count:>8,}")
    print(f"seed {asked.seed}: {sum(table.values()):,} runs, {time.monotonic() - begin:.0f} s, "
          f"no difference")


if __name__ == "__main__":
    main()
