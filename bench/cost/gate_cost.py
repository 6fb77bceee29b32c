"""What each crate costs the gate, in processor seconds: its proof, its tests and its must-fail
edits.

    python3 bench/cost/gate_cost.py                    runs `rt ci --anew`, which proves and tests everything from nothing
    python3 bench/cost/gate_cost.py --pid PID          watches a running `rt ci` to its end
    python3 bench/cost/gate_cost.py --pid PID --seconds 60

It looks at the prover's processes twice a second, so it misses up to half a second of each.
Machines differ by half and more: the last column is in units of the proof of `txn`, if this run had
one. It prints a table, and ends with the status of the run that it began.
"""
import argparse
import collections
import glob
import os
import subprocess
import sys
import time

TICKS = os.sysconf("SC_CLK_TCK")
KINDS = ("proof", "tests", "edits")


def processes():
    """For each process its parent and its processor seconds so far."""
    found = {}
    for place in glob.glob("/proc/[0-9]*"):
        try:
            with open(f"{place}/stat", encoding="utf-8", errors="replace") as file:
                fields = file.read().rpartition(")")[2].split()
        except OSError:
            continue  # it has ended
        found[int(os.path.basename(place))] = int(fields[1]), (int(fields[11]) + int(fields[12])) / TICKS
    return found


def is_below(pid, top, found):
    while pid in found and pid != top:
        pid = found[pid][0]
    return pid == top


def work_of(pid):
    """The crate that a process of the prover checks or builds, and the kind of work; none for other
    processes."""
    try:
        with open(f"/proc/{pid}/cmdline", encoding="utf-8", errors="replace") as file:
            words = file.read().split("\0")
        folder = os.path.basename(os.readlink(f"/proc/{pid}/cwd"))
    except OSError:
        return None
    if os.path.basename(words[0]) != "rattle" or "--crate-name" not in words:
        return None
    is_edit = folder.startswith("rt-edit")  # a copy of the crate with the edit
    return words[words.index("--crate-name") + 1], "edits" if is_edit else "tests" if "--test" in words else "proof"


def watch(top, is_over):
    """The seconds that were seen, by crate and kind."""
    works, spent = {}, {}
    while not is_over():
        found = processes()
        for pid, (_, seconds) in found.items():
            work = is_below(pid, top, found) and work_of(pid)
            if work:
                works[pid, work] = seconds
        time.sleep(0.5)
    for (_, work), seconds in works.items():
        spent[work] = spent.get(work, 0) + seconds
    return spent


def table(spent):
    crates = collections.defaultdict(lambda: dict.fromkeys(KINDS, 0.0))
    for (crate, kind), seconds in spent.items():
        crates[crate][kind] = seconds
    unit = crates["txn"]["proof"] if "txn" in crates else 0
    print("| Crate | Proof | Tests | Edits | Number of edits | All | In proofs of `txn` |\n|---|---|---|---|---|---|---|")
    for crate, kinds in sorted(crates.items(), key=lambda it: -sum(it[1].values())):
        row(f"`{crate}`", kinds, len(glob.glob(f"crates/{crate}/must-fail/*.edit")), unit)
    row("all", {kind: sum(it[kind] for it in crates.values()) for kind in KINDS}, len(glob.glob("crates/*/must-fail/*.edit")), unit)


def row(name, kinds, edits, unit):
    whole = sum(kinds.values())
    cells = [*(f"{kinds[kind]:.0f}" for kind in KINDS), edits, f"{whole:.0f}", f"{whole / unit:.1f}" if unit else ""]
    print("|", name, "|", " | ".join(map(str, cells)), "|")


def main():
    parser = argparse.ArgumentParser(description=__doc__, formatter_class=argparse.RawDescriptionHelpFormatter)
    parser.add_argument("--pid", type=int, help="the process of a running rt ci to watch")
    parser.add_argument("--seconds", type=float, default=float("inf"), help="how long to watch it at most")
    asked = parser.parse_args()
    until = time.monotonic() + asked.seconds
    if asked.pid:
        table(watch(asked.pid, lambda: time.monotonic() > until or not os.path.exists(f"/proc/{asked.pid}")))
        return 0
    gate = subprocess.Popen(["rt", "ci", "--anew"], stdout=sys.stderr)
    table(watch(gate.pid, lambda: gate.poll() is not None))
    return gate.returncode


if __name__ == "__main__":
    sys.exit(main())
