"""Which verdict each workload gets at each level, and how long an explanation takes.

    python3 bench/check/levels.py [--times N] [--seconds N] [--jobs N] [--workload NAME ..]
        [--level NAME ..]

Runs examples/postgres_live.py --times times for each workload and level, with clients in threads
and in processes, --jobs runs in parallel. For each it prints how many runs were violated, serial,
or incomplete (the audit ended because it couldn't keep up, and another one began); the longest time
from the violation to the end of its explanation, in seconds; the largest number of transactions in
an explanation; and how many explanations name a key of the collector's own. The status is 0 if
nothing was violated at a level that forbids it, and everything was that has to be at its level.
"""
import argparse
import os
import re
import subprocess
import sys
import tempfile
import time
from collections import Counter
from concurrent.futures import ThreadPoolExecutor

TOP = os.path.join(os.path.dirname(os.path.abspath(__file__)), "../..")
LIVE = os.path.join(TOP, "examples/postgres_live.py")
OWED = {
    "serializable": (),
    "repeatable": ("skew",),
    "committed": ("counter", "skew", "mixed"),
}
ALLOWED = {**OWED, "repeatable": ("skew", "mixed")}
WORKLOADS = ("counter", "skew", "mixed", "blind")


class Run:
    def __init__(self, asked, workload, level, ways):
        call = [sys.executable, LIVE, "--workload", workload, "--level", level, *ways]
        call += ["--seconds", str(asked.seconds), "--unaudited", "0"]
        self.key, self.took, self.named, self.own = (workload, level, *ways), 0.0, 0, False
        with tempfile.TemporaryDirectory() as folder:
            pipe = {"stdout": subprocess.PIPE, "stderr": subprocess.STDOUT}
            with subprocess.Popen(call, cwd=folder, text=True, bufsize=1, **pipe) as running:
                lines = [self.line(line) for line in running.stdout]
        found = re.search(r"^\w+ at [\w ]+: ([^:]+):", "".join(lines), re.MULTILINE)
        self.kind = found.group(1) if found else "".join(lines[-3:])

    def line(self, line):
        """Keeps what a line says about the explanation."""
        if re.match(r"round \d+: violated", line):
            self.began = time.monotonic()
        elif line.endswith(" can come first"):
            self.took = time.monotonic() - self.began
        elif re.match(r"  (\d+\.\d+|the cut.*) (read|wrote|aborted)", line):
            self.named += 1
            self.own = self.own or "zanteyard" in line
        return line


def arguments():
    asked = argparse.ArgumentParser(description=__doc__.splitlines()[0])
    asked.add_argument("--times", type=int, default=20, help="how many runs of each kind (20)")
    asked.add_argument("--seconds", type=float, default=5.0, help="the length of a run (5)")
    asked.add_argument("--jobs", type=int, default=1, help="how many runs at a time (1)")
    asked.add_argument("--workload", nargs="+", choices=WORKLOADS, default=WORKLOADS)
    asked.add_argument("--level", nargs="+", choices=OWED, default=[*OWED])
    return asked.parse_args()


def main():
    asked = arguments()
    ways = ((), ("--processes",))
    keys = [
        (workload, level, way)
        for workload in asked.workload
        for level in asked.level
        for way in ways
    ]
    is_right = True
    print("workload, level, clients: verdicts; seconds to explain, transactions named, own keys")
    with ThreadPoolExecutor(asked.jobs) as pool:
        for workload, level, way in keys:
            runs = [*pool.map(lambda _: Run(asked, workload, level, way), range(asked.times))]
            kinds = Counter(run.kind for run in runs)
            verdicts = ", ".join(f"{count} {kind}" for kind, count in sorted(kinds.items()))
            clients = "processes" if way else "threads"
            print(
                f"{workload}, {level}, {clients}: {verdicts}; "
                f"{max(run.took for run in runs):.2f} s, {max(run.named for run in runs)}, "
                f"{sum(run.own for run in runs)}",
                flush=True,
            )
            is_right &= kinds["violated"] == asked.times or workload not in OWED[level]
            is_right &= not kinds["violated"] or workload in ALLOWED[level]
    sys.exit(0 if is_right else 1)


if __name__ == "__main__":
    main()
