#!/usr/bin/env python3
"""How soon lines are answered while a search runs.

    python3 bench/cost/beside.py [--seconds N] [--rate N] [PROGRAM]

Run it at the top of the repository, after `rt run < /dev/null` has built the auditor in its crate,
or with COBRA_AUDIT naming the program. A search that would take hours, in a history without an
order, runs for N seconds (10), in one thread and in four, and is then skipped. Meanwhile, N times a
second (50), a transaction is offered and the program is asked whether the search has ended. The
same is done before, without a search. A row has the median, the 99th percentile and the maximum, in
milliseconds, and how long `skip` took.

The figures include the effects of other programs on the machine; the first line has its load.
"""
import argparse
import json
import os
import subprocess
import time

import hard

EFFORTS = {"without a search": None, "1 thread": [1 << 32, 0, 1], "4 threads": [1 << 32, 6, 4]}
WAYS = 40  # of the history: enough for hours


class Script:
    """The program, over a pipe."""

    def __init__(self, program):
        pipes = {"stdin": subprocess.PIPE, "stdout": subprocess.PIPE}
        self.running = subprocess.Popen([program], **pipes)

    def ask(self, *line):
        """The reply, and how many milliseconds it took."""
        began = time.perf_counter()
        self.running.stdin.write(json.dumps(line).encode() + b"\n")
        self.running.stdin.flush()
        reply = json.loads(self.running.stdout.readline())
        return reply, 1000 * (time.perf_counter() - began)

    def end(self):
        self.running.stdin.close()
        self.running.wait()
        self.running.stdout.close()


def history(effort):
    """Offers, and the number of the last session, which has one transaction."""
    log = hard.contradiction(2, hard.all_ways(2), WAYS)
    *offers, _ = [json.loads(line) for line in log.lines(*effort)]
    return offers, offers[0][1] - 1


def by_pipe(asked, effort):
    """Milliseconds of offers and of collects, and of the skip."""
    script = Script(asked.program)
    offers, session = history(effort or [1, 0, 1])
    for line in offers:
        script.ask(*line)
    if effort:
        script.ask("begin")
        script.ask("search", *effort)
    offered, collected = [], []
    until, number = time.monotonic() + asked.seconds, 1
    while time.monotonic() < until:
        reply, took = script.ask("offer", session, number, [[[], [7]]])
        assert reply == ["ok"], reply
        offered.append(took)
        collected.append(script.ask("collect")[1])
        number += 1
        time.sleep(1 / asked.rate)
    _, skipped = script.ask("skip")
    script.end()
    return offered, collected, skipped


def told(times):
    times = sorted(times)
    if not times:
        return f"{'':>26}"
    return f"{times[len(times) // 2]:8.2f} {times[len(times) * 99 // 100]:8.2f} {times[-1]:8.2f}"


def main():
    words = argparse.ArgumentParser(description=__doc__.splitlines()[0])
    words.add_argument("--seconds", type=float, default=10.0, help="how long the search runs (10)")
    words.add_argument("--rate", type=float, default=50.0, help="transactions offered a second (50)")
    default = os.environ.get("COBRA_AUDIT", "crates/cobra_audit/out/cobra_audit")
    words.add_argument("program", nargs="?", default=default)
    asked = words.parse_args()
    print(f"load {os.getloadavg()[0]:.1f}, {os.cpu_count()} processors; milliseconds")
    print(f"{'':18}{'offer':>8} {'99 %':>8} {'most':>8}{'collect':>9} {'99 %':>8} {'most':>8}{'skip':>8}")
    for name, effort in EFFORTS.items():
        offered, collected, skipped = by_pipe(asked, effort)
        print(f"{name:18}{told(offered)}{told(collected):>27}{skipped:8.2f}", flush=True)


if __name__ == "__main__":
    main()
