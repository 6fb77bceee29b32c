#!/usr/bin/env python3
"""What it costs to save an audit's state, and to resume from it.

Run it at the top of the repository, after `cd crates/cobra_audit && rt run < /dev/null` has built
the program, or with COBRA_AUDIT naming another one:

    python3 bench/cost/resume.py [--keys N] [--txns N] [PROGRAM]

The parts have --keys last forgotten writers (1,000,000) and --txns remaining transactions (4,096),
in 64 sessions; each reads and writes four keys that no other one uses. They are handed over to a
program, which hands them out, page by page; and what it handed out is handed over to another
program, which then reports the same state. The table has seconds, processor seconds, and the
program's peak memory. A hand-over should take at most 2 seconds, by the lower of the two times, and
100 MiB; a row above that is marked.
"""
import argparse
import json
import os
import random
import subprocess
import tempfile
import time

SESSIONS, LIMIT, GONE, WRITERS, TXNS = 64, 4096, 1_000_000, 16384, 256
SECONDS, MIB = 2.0, 100.0  # limits of a hand-over


def compact(told):
    return json.dumps(told, separators=(",", ":")).encode()


def parts(keys, txns):
    """Lines that hand over parts."""
    rng = random.Random(1)
    named = [0, *sorted(rng.sample(range(1, 2**40), keys - 1))]
    last = [[key, rng.randrange(SESSIONS), rng.randrange(GONE)] for key in named]
    last[0][2] = GONE - 1  # the fence of the cut
    yield compact(["marks", [GONE] * SESSIONS, [False] * SESSIONS])
    for first in range(0, keys, WRITERS):
        yield compact(["last", last[first:first + WRITERS]])
    used = iter(last[1:])
    for session in range(SESSIONS):
        own = range(session, txns, SESSIONS)
        remain = [[next(used) for _ in range(4)] for _ in own]
        listed = [[reads, [key for key, *_ in reads]] for reads in remain]
        yield compact(["offer", session, GONE, listed])


def run(program, lines):
    """The replies to the lines, seconds, processor seconds, and the peak in MiB."""
    with tempfile.TemporaryFile() as told:
        begun = time.monotonic()
        running = subprocess.Popen([program], stdin=subprocess.PIPE, stdout=told)
        running.stdin.write(b"\n".join(lines) + b"\n")
        running.stdin.flush()
        replies, at = [], 0
        while len(replies) < len(lines):
            time.sleep(0.005)
            piece = os.pread(told.fileno(), 1 << 30, at)
            whole = piece[:piece.rfind(b"\n") + 1]
            replies += whole.splitlines()
            at += len(whole)
        took = time.monotonic() - begun
        with open(f"/proc/{running.pid}/status", encoding="ascii") as status:
            peak = next(int(line.split()[1]) / 1024 for line in status if line.startswith("VmHWM:"))
        running.stdin.close()
        _, status, used = os.wait4(running.pid, 0)
        if status:
            raise SystemExit(f"the program ended with {status}")
        return replies, took, used.ru_utime + used.ru_stime, peak


def questions(keys, sessions):
    """The questions that return everything that is kept, if the keys are known."""
    yield compact(["save", "marks"])
    for first in range(0, len(keys), WRITERS):
        yield compact(["save", "last", keys[first]])
    for session, count in enumerate(sessions):
        for place in range(0, count, TXNS):
            yield compact(["save", "remain", session, GONE + place])


def row(what, took, used, peak, wanted=True):
    mark = "  over" if wanted and (min(took, used) > SECONDS or peak > MIB) else ""
    print(f"{what:44} {took:7.2f} {used:9.2f} {peak:8.1f}{mark}", flush=True)


def main():
    parser = argparse.ArgumentParser(description=__doc__.splitlines()[0])
    parser.add_argument("--keys", type=int, default=1_000_000, help="keys whose last writer is gone (1,000,000)")
    parser.add_argument("--txns", type=int, default=4096, help="transactions that remain (4,096)")
    parser.add_argument("program", nargs="?", default=os.environ.get("COBRA_AUDIT", os.path.join(
        os.path.dirname(__file__), "../../crates/cobra_audit/out/cobra_audit")))
    asked = parser.parse_args()
    begin, end, show = compact(["resume", SESSIONS, LIMIT]), b'["resumed"]', b'["show"]'
    handed = list(parts(asked.keys, asked.txns))
    print(f"{'':44} {'seconds':>7} {'processor':>9} {'peak MiB':>8}")
    replies, *cost = run(asked.program, [begin, *handed, end])
    if set(replies) != {b'["ok"]'}:
        raise SystemExit("a line of the hand-over was refused")
    row(f"hand-over of {asked.keys} writers, {asked.txns} transactions", *cost)
    pages = [json.loads(line)[1] for line in handed if line.startswith(b'["last"')]
    keys = [entry[0] for page in pages for entry in page]
    sessions = [len(range(session, asked.txns, SESSIONS)) for session in range(SESSIONS)]
    asks = list(questions(keys, sessions))
    replies, *cost = run(asked.program, [begin, *handed, end, show, *asks])
    row("the same, and all of it given out", *cost, wanted=False)
    shown, given = replies[len(handed) + 2], replies[len(handed) + 3:]
    replies, *cost = run(asked.program, [begin, *given, end])
    row("hand-over of what was given out", *cost)
    replies, *_ = run(asked.program, [begin, *given, end, show])
    if replies[-1] != shown or set(replies[:-1]) != {b'["ok"]'}:
        raise SystemExit("what was given out isn't what was handed over")


if __name__ == "__main__":
    main()
