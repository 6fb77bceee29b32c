#!/usr/bin/env python3
"""Compares cobra_audit with the plain model over generated histories of 50 to 500 transactions.

    python3 bench/check/generated.py [--histories N] [--seed N] [PROGRAM]

Each is the log of a store under load (histories.py): of any kind, with 2 to 64 sessions, or 256 by
version 3, with few or many keys, and half of them with stale reads. The model (plain_verdicts.py)
makes the known relation from its definition, and searches what that leaves open. The two verdicts
have to agree. Where the model's search takes too long, none is compared, and that is counted.
Histories with more than 6,000 pairs of a read and a writer of its key are left out: the model would
take minutes for each. A serial order is tried out, one transaction after another.
"""
import argparse
import collections
import json
import random
import subprocess

import os
import sys
sys.path[:0] = [os.path.join(os.path.dirname(os.path.abspath(__file__)), "../model")]
from histories import KINDS, Store
from judge import effect_of
from plain_verdicts import NO, SPENT, YES, Parts, Relation, scan

NODES = 40  # of the model's search
CHOICES = 6000  # pairs of a read and a writer of its key that the model may look at
PROGRAM = "crates/cobra_audit/out/cobra_audit"


def choices_of(logs):
    """How many pairs there are of a read and a writer of its key."""
    writes = collections.Counter(key for log in logs for _, keys in log for key in keys)
    return sum(writes[read[0]] for log in logs for reads, _ in log for read in reads)


def history_of(dice):
    """The lines of a script, and each session's transactions."""
    sessions = dice.choice((2, 3, 8, 20, 64, 256))
    store = Store(sessions, dice.random(), dice.choice((0, 0, 3, 30)))
    kind, keys = KINDS[dice.choice(sorted(KINDS))], dice.choice((2, 8, 40, 400))
    for _ in range(dice.randint(50, 500)):
        store.execute(store.random.randrange(sessions), *kind(store.random, keys))
    if choices_of(store.logs) > CHOICES:
        return history_of(dice)
    opening = ["open", sessions, 4096, 3] if sessions > 64 else ["open", sessions, 4096]
    offers = [["offer", session, place, log[place : place + 64]]
              for session, log in enumerate(store.logs) for place in range(0, len(log), 64)]
    dice.shuffle(offers)
    offers.sort(key=lambda offer: offer[2])  # each session's in its order
    lines = [opening, *offers, ["round", 4096, 0, 1, "guided"]]
    return [json.dumps(line).encode() for line in lines], store.logs


def verdict_of(logs):
    """The verdict by definition; None if it takes too long."""
    parts = Parts([0] * len(logs), [[*map(effect_of, log)] for log in logs], [False] * len(logs))
    found = scan(Relation(parts), parts.has_bad_read(), NODES)[0]
    return {YES: "serial", NO: "violated", SPENT: None}[found]


def explains(logs, order):
    """Whether each transaction stands once, behind the one before it, and reads what is current."""
    taken, last = [0] * len(logs), {}
    for session, number in order:
        if taken[session] != number:
            return False
        taken[session] += 1
        reads, writes = logs[session][number]
        if any(last.get(key, ["init"]) != source for key, *source in reads):
            return False
        last.update({key: [session, number] for key in writes})
    return taken == [*map(len, logs)]


def main():
    words = argparse.ArgumentParser(description=__doc__, formatter_class=argparse.RawDescriptionHelpFormatter)
    words.add_argument("--histories", type=int, default=500, help="how many (500)")
    words.add_argument("--seed", type=int, default=1, help="of the first one (1)")
    words.add_argument("program", nargs="?", default=PROGRAM)
    asked = words.parse_args()
    seen, wrong = collections.Counter(), 0
    for seed in range(asked.seed, asked.seed + asked.histories):
        lines, logs = history_of(random.Random(seed))
        told = subprocess.run([asked.program], input=b"\n".join(lines) + b"\n", stdout=subprocess.PIPE, check=True)
        report = json.loads(told.stdout.splitlines()[-1])
        kind, wanted = report[2], verdict_of(logs)
        is_right = kind == wanted or wanted is None
        if kind == "serial":
            is_right = is_right and explains(logs, report[4])
        seen[kind if wanted else f"{kind}, not compared"] += 1
        if not is_right:
            wrong += 1
            print(f"seed {seed}: {kind}, and by definition {wanted}")
    print(f"{sum(seen.values())} histories: " + ", ".join(f"{count} {kind}" for kind, count in sorted(seen.items())))
    raise SystemExit(f"{wrong} wrong" if wrong else 0)


if __name__ == "__main__":
    main()
