#!/usr/bin/env python3
"""How long rounds take: scripts with one round at the end, compared with CPython's json.loads.

Run it at the top of the repository, after `cd crates/cobra_audit && rt run < /dev/null` has built
the program:

    python3 bench/cost/rounds.py [--check] [--most N] [PROGRAM]

There is a row per history (bench/model/histories.py has the kinds): the verdict, the time of the whole
script, of its round alone (from the round's line to its report, over pipes), of json.loads on the
same lines, their ratio, and the program's peak memory. A `stale` history has older versions among
its reads, and is usually violated. With --check each report is checked by
examples/check_reports.py, which takes long. --most leaves out histories with more transactions.
"""
import argparse
import json
import os
import subprocess
import sys
import time

sys.path.insert(0, os.path.join(os.path.dirname(os.path.abspath(__file__)), "../../examples"))
from check_reports import check_run  # noqa: E402
sys.path[:0] = [os.path.join(os.path.dirname(os.path.abspath(__file__)), "../model")]
from histories import script  # noqa: E402

SIZES = (1000, 2000, 3000, 4096)


def rows(most):
    for kind in ("counter", "mixed", "skew", "blind"):
        for size in SIZES:
            if size <= most:
                yield kind, size, 8, 0
    for kind in ("mixed", "skew"):
        yield kind, min(4096, most), 64, 0
    for kind in ("counter", "mixed", "skew", "blind"):
        yield kind, min(3000, most), 8, 2


def seconds_of_python(lines):
    begin = time.perf_counter()
    for line in lines:
        json.loads(line)
    return time.perf_counter() - begin


def run(program, lines):
    """The replies, the seconds of the whole and of the round, and the peak memory in MiB."""
    process = subprocess.Popen([program], stdin=subprocess.PIPE, stdout=subprocess.PIPE)
    replies = []
    begin = time.perf_counter()
    for line in lines[:-1]:
        process.stdin.write(line.encode() + b"\n")
        process.stdin.flush()
        replies.append(process.stdout.readline())
    middle = time.perf_counter()
    process.stdin.write(lines[-1].encode() + b"\n")
    process.stdin.flush()
    replies.append(process.stdout.readline())
    end = time.perf_counter()
    with open(f"/proc/{process.pid}/status", encoding="ascii") as status:
        peak = [int(line.split()[1]) for line in status if line.startswith("VmHWM:")]
    process.stdin.close()
    process.wait()
    return replies, end - begin, end - middle, peak[0] / 1024 if peak else 0


def main():
    words = argparse.ArgumentParser(description=__doc__, formatter_class=argparse.RawDescriptionHelpFormatter)
    words.add_argument("--check", action="store_true", help="check each report by examples/check_reports.py")
    words.add_argument("--most", type=int, default=4096, help="leave out longer histories (4,096)")
    words.add_argument("program", nargs="?", default="crates/cobra_audit/out/cobra_audit")
    asked = words.parse_args()
    print("kind     transactions sessions stale  verdict    script s   round s  json s   ratio  peak MiB")
    for kind, size, sessions, stale in rows(asked.most):
        lines = script(kind, size, sessions=sessions, stale=stale)
        theirs = min(seconds_of_python(lines) for _ in range(5))
        replies, whole, alone, peak = run(asked.program, lines)
        verdict = json.loads(replies[-1])[2]
        print(
            f"{kind:8} {size:12} {sessions:8} {stale:5}  {verdict:9} {whole:9.3f} {alone:9.3f} {theirs:7.4f}"
            f" {whole / theirs:7.1f} {peak:9.1f}",
            flush=True,
        )
        if asked.check and check_run(lines, replies):
            sys.exit("a report is wrong")


if __name__ == "__main__":
    main()
