#!/usr/bin/env python3
"""What looking for a cut costs a round, depending on the number of fences.

Run it at the top of the repository, after `cd crates/cobra_audit && rt run < /dev/null` has built
the program:

    python3 bench/cost/fences.py [PROGRAM]

4,096 transactions with that many of them on key 0 are compared, in one run, with the same
transactions with these on another key, where nothing is a fence. At a meeting every session makes a
fence, and then a second one. `silent` leaves a session out of all meetings, so that no fence is
settled, and each is tried. Each time is the minimum of seven rounds, alternating between both
kinds.
"""
import json
import sys

import os
sys.path[:0] = [os.path.join(os.path.dirname(os.path.abspath(__file__)), "../model")]
from histories import KINDS, Store
from rounds import run

REMAIN = 4096
# Sessions, meetings, and whether one session is silent.
SHAPES = [(1, 1, False), (8, 1, False), (8, 4, False), (8, 8, False), (64, 1, False), (8, 16, False), (64, 2, False), (8, 16, True), (64, 2, True)]
ROUNDS = 7


def lines_of(sessions, meetings, silent, key):
    """A script: transactions that read two keys and write one of them, in which the sessions meet
    this many times, and a round over everything."""
    store = Store(sessions, 1, 0)
    present = sessions - 1 if silent else sessions
    ordinary = REMAIN - 2 * present * meetings
    for meeting in range(max(meetings, 1)):
        for _ in range(ordinary // max(meetings, 1)):
            store.execute(store.random.randrange(sessions), *KINDS["skew"](store.random, 400))
        if meetings:
            for session in [*range(present), *range(present)]:
                store.execute(session, [key], [key])
    offers = [
        ["offer", session, first, log[first : first + 64]]
        for session, log in enumerate(store.logs)
        for first in range(0, len(log), 64)
    ]
    return [json.dumps(line, separators=(",", ":")) for line in [["open", sessions, REMAIN], *offers, ["round", 4096, 0, 1, "guided"]]]


def main():
    program = sys.argv[1] if len(sys.argv) > 1 else "crates/cobra_audit/out/cobra_audit"
    print("sessions meetings fences silent  cut      round with fences ms   without ms   difference ms")
    for sessions, meetings, silent in SHAPES:
        scripts = [lines_of(sessions, meetings, silent, key) for key in (0, 401)]
        times = [[], []]
        for _ in range(ROUNDS):
            for place, lines in enumerate(scripts):
                replies, _, alone, _ = run(program, lines)
                assert json.loads(replies[-1])[2] == "serial", replies[-1][:200]
                times[place].append(1000 * alone)
        cut = json.loads(run(program, [*scripts[0], '["truncate"]'])[0][-1])[0]
        there, gone = map(min, times)
        fences = 2 * meetings * (sessions - 1 if silent else sessions)
        print(f"{sessions:8} {meetings:8} {fences:6} {silent!s:6}  {'none' if cut == 'no' else 'found':8} {there:19.1f} {gone:12.1f} {there - gone:15.1f}", flush=True)


if __name__ == "__main__":
    main()
