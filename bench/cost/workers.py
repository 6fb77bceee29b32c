#!/usr/bin/env python3
"""How long rounds with a long search take with 1, 2 and 4 workers.

Run it at the top of the repository, after `cd crates/cobra_audit && rt run < /dev/null` has built
the program:

    python3 bench/cost/workers.py [--free N] [--times N] [--single PROGRAM] [PROGRAM]

The history has eight transactions that no order explains, which only a search finds: each way to
order two pairs of writers contradicts one of their readers. The list of open choices begins with N
free choices, so that the search fails 2^N times. A round splits it into 64 cubes of equal size. The
table has the time from the round's line to its report, over pipes, the best of --times runs, and
the processor time of the program from its start to its end. Another program (--single), such as an
auditor with the single-threaded solver, is timed for comparison. On a busy machine times mean
little: the first line has its load.

The rows "apart" show what the machine can do: several programs at once, each with one worker and a
round of its own. They share nothing, so that many workers can hardly do better. Two processors of a
machine may be two threads of one core.
"""
import argparse
import json
import os
import subprocess
import time


def free_choices(count):
    """Three sessions: writers of the keys 101, 102 and so on, other writers of the same keys, and
    readers of the first."""
    first = [[[], [101 + i]] for i in range(count)]
    second = [[[], [101 + i]] for i in range(count)]
    readers = [[[[101 + i, 1, i]], []] for i in range(count)]
    return [readers, first, second]


def split_of(base):
    """Eight sessions from this number on: four writers, and four readers of which one is
    contradicted however the writers are ordered."""
    a, b, c, d = ([base + i, 0] for i in range(4))
    writers = [[[], [1, 3]], [[], [1, 4]], [[], [2, 5]], [[], [2, 6]]]
    readers = [
        [[[1, *a], [5, *c], [6, *d]], []],
        [[[1, *b], [5, *c], [6, *d]], []],
        [[[2, *c], [3, *a], [4, *b]], []],
        [[[2, *d], [3, *a], [4, *b]], []],
    ]
    return [[txn] for txn in writers + readers]


def history(free):
    sessions = free_choices(free)
    sessions += split_of(len(sessions))
    lines = [["open", len(sessions), 4096]]
    lines += [["offer", session, 0, txns] for session, txns in enumerate(sessions)]
    return [json.dumps(line, separators=(",", ":")) for line in lines]


def begun(program, lines):
    """The program, with all lines taken in."""
    process = subprocess.Popen([program], stdin=subprocess.PIPE, stdout=subprocess.PIPE)
    for line in lines:
        process.stdin.write(line.encode() + b"\n")
        process.stdin.flush()
        assert process.stdout.readline() == b'["ok"]\n', line
    return process


def run(program, lines, workers, copies):
    """The report, the seconds of the round, or of several rounds in as many programs at once, and
    the processor seconds of the whole."""
    before = os.times()
    processes = [begun(program, lines) for _ in range(copies)]
    begin = time.perf_counter()
    for process in processes:
        process.stdin.write(b'["round",4294967296,6,%d]\n' % workers)
        process.stdin.flush()
    reports = {process.stdout.readline() for process in processes}
    seconds = time.perf_counter() - begin
    for process in processes:
        process.stdin.close()
        process.wait()
    after = os.times()
    busy = after.children_user - before.children_user + after.children_system - before.children_system
    return reports, seconds, busy


def measured(lines, rows, times):
    """For each row the report, and the minimal seconds and processor seconds of --times runs; the
    rows alternate."""
    runs = [[] for _ in rows]
    for _ in range(times):
        for told, (_, program, workers, copies) in zip(runs, rows):
            told.append(run(program, lines, workers, copies))
    return [(set.union(*(reports for reports, _, _ in told)), min(seconds for _, seconds, _ in told), min(busy for _, _, busy in told)) for told in runs]


def main():
    words = argparse.ArgumentParser(description=__doc__, formatter_class=argparse.RawDescriptionHelpFormatter)
    words.add_argument("--free", type=int, default=14, help="N: the search fails 2^N times (14)")
    words.add_argument("--times", type=int, default=10, help="how many runs of each kind (10)")
    words.add_argument("--single", metavar="PROGRAM", help="an auditor with the single-threaded solver")
    words.add_argument("program", nargs="?", default="crates/cobra_audit/out/cobra_audit")
    asked = words.parse_args()
    rows = [("single", asked.single, 1, 1)] if asked.single else []
    rows += [("shared", asked.program, workers, 1) for workers in (1, 2, 4)]
    rows += [("apart", asked.program, 1, copies) for copies in (2, 4)]
    told = measured(history(asked.free), rows, asked.times)
    print(f"{os.cpu_count()} processors, load {os.getloadavg()[0]:.1f}, the best of {asked.times} runs each")
    print("solver  programs  workers  rounds s  times faster  processor s")
    for (name, _, workers, copies), (_, seconds, busy) in zip(rows, told):
        print(f"{name:7} {copies:8} {workers:8} {seconds:9.3f} {copies * told[0][1] / seconds:13.2f} {busy:12.2f}")
    reports = set.union(*(reports for reports, _, _ in told))
    print("each report is", json.loads(min(reports))[2], "and byte for byte the same" if len(reports) == 1 else "BUT THEY DIFFER")


if __name__ == "__main__":
    main()
