"""What a transaction costs the auditor, by the number of sessions.

    python3 bench/cost/session_cost.py [--sessions N ..] [--transactions N] [--rounds N] [--reads N]

A script of version 3 as the proxy writes it: so many transactions in each round, spread over all
sessions, each with so many reads of keys that nobody writes, then the fences of a meeting, a round
and a cut. Printed is the processor time of `cobra_audit` a transaction.

It needs the proved program.
"""

import argparse
import json
import os
import random
import resource
import subprocess
import sys
from typing import Any

TOP = os.path.join(os.path.dirname(os.path.abspath(__file__)), "../..")
sys.path.insert(0, os.path.join(TOP, "python"))

from zanteyard.program._binaries import PROGRAM

IN_LINE = 256  # transactions


class Script:
    """Lines for the auditor."""

    def __init__(self, sessions: int) -> None:
        self.lines: list[list[Any]] = [["open", sessions, 131072, 3]]
        self._waiting: list[list[Any]] = [[] for _ in range(sessions)]
        self._next = [0] * sessions
        self._last: list[Any] = ["init"]  # the last fence

    def add(self, session: int, reads: list[Any], keys: list[int]) -> None:
        self._waiting[session].append([reads, keys])
        if len(self._waiting[session]) == IN_LINE:
            self._write(session)

    def _write(self, session: int) -> None:
        its = self._waiting[session]
        if its:
            self.lines.append(["offer", session, self._next[session], its])
            self._next[session] += len(its)
            self._waiting[session] = []

    def _fence(self, session: int) -> None:
        number = self._next[session] + len(self._waiting[session])
        self.add(session, [[0, *self._last]], [0])
        self._last = [session, number]

    def end_round(self) -> None:
        sessions = range(len(self._next))
        for session in [*sessions, *sessions[:-1]]:
            self._fence(session)
        for session in sessions:
            self._write(session)
        self.lines += [["round", 65536, 0, 1], ["truncate"]]


def text_of(asked: Any, sessions: int) -> bytes:
    dice, script = random.Random(1), Script(sessions)
    for _ in range(asked.rounds):
        for _ in range(asked.transactions):
            keys = sorted({dice.randrange(1, 1000000) for _ in range(asked.reads)})
            script.add(dice.randrange(sessions), [[key, "init"] for key in keys], [])
        script.end_round()
    lines = (json.dumps(line, separators=(",", ":")) for line in script.lines)
    return "".join(f"{line}\n" for line in lines).encode()


def main() -> None:
    parser = argparse.ArgumentParser(description=__doc__.splitlines()[0])
    parser.add_argument("--sessions", type=int, nargs="+", default=[8, 32, 64, 128])
    parser.add_argument("--transactions", type=int, default=10000, help="in a round (10000)")
    parser.add_argument("--rounds", type=int, default=4, help="how many (4)")
    parser.add_argument("--reads", type=int, default=1, help="of a transaction (1)")
    asked = parser.parse_args()
    for sessions in asked.sessions:
        text = text_of(asked, sessions)
        before = resource.getrusage(resource.RUSAGE_CHILDREN)
        done = subprocess.run([PROGRAM], input=text, stdout=subprocess.PIPE, check=True)
        cuts = done.stdout.count(b'["cut",')
        if cuts != asked.rounds:
            raise SystemExit(f"{cuts} cuts in {asked.rounds} rounds")
        after = resource.getrusage(resource.RUSAGE_CHILDREN)
        spent = after.ru_utime + after.ru_stime - before.ru_utime - before.ru_stime
        each = spent * 1e6 / (asked.transactions * asked.rounds)
        print(f"{sessions:4} sessions: {each:6.1f} us", flush=True)


if __name__ == "__main__":
    main()
