"""What following conditions costs the proxy.

    python3 bench/cost/condition_cost.py [--seconds N] [--times N] [--clients N] [--rate N]
        [--work NAME ..] [--protocol NAME ..] [--scale N] [--profile FOLDER]

pgbench makes --rate transactions a second through the proxy, in turns without conditions and with
them. Each of `asks` is a read and an update; two reads in five ask by a condition, hardly ever by
the same one twice. `keys` is the same with reads by whole keys alone, `update` pgbench's -N, and
`select` its -S. A program that forgets everything that it is offered plays the auditor.

Each line of the table has, as medians of the turns: the microseconds of the proxy's processor time
a transaction, without and with conditions, and how many more hundredths these are; the memory at
the end, in MiB; how many transactions there were a second; and of the last turn, how many
conditions were followed a second, how many rows these passed over, and how many conditions were
dropped to make room.

With --profile, a proxy built with `go build -tags profile` writes where its time went there. It
needs PostgreSQL 15 and a built proxy (`proxy/build.sh`, or ZANTEYARD_PROXY). With TMPDIR=/dev/shm
the server's folder is in memory.
"""

import argparse
import os
import re
import signal
import statistics
import subprocess
import sys
import tempfile
import time
from dataclasses import dataclass
from typing import Any

from meetings import Audit
from proxy_cost import ASKS, TOP, VISIT, prepared_server, processor_time

sys.path[:0] = [os.path.join(TOP, "python/tests")]
from proxy_pair import Server, postgres_program

WORKS = {"asks": ("asks", "finds"), "keys": ("finds",), "update": (), "select": ()}
PGBENCH = {"update": ["-N"], "select": ["-S"]}
WAYS = {"without": ["--conditions=false"], "with": ["--conditions=true"]}


@dataclass
class Turn:
    """One run of pgbench through the proxy."""

    used: float  # microseconds of the proxy a transaction
    memory: float  # MiB at the end
    rate: float
    seconds: float
    coverage: dict[str, Any]


def memory(pid: int) -> float:
    with open(f"/proc/{pid}/status", encoding="utf-8") as file:
        found = re.search(r"VmRSS:\s+(\d+)", file.read())
    return int(found[1]) / 1024 if found else 0.0


def turn(asked: Any, folder: str, program: str, server: Server, work: str, protocol: str, way: str) -> Turn:
    if asked.profile:
        os.makedirs(asked.profile, exist_ok=True)
        os.environ["ZANTEYARD_PROFILE"] = os.path.join(asked.profile, f"{work}.{protocol}.{way}")
    audit = Audit(WAYS[way], program, server, os.path.join(folder, "proxy.log"))
    call = [postgres_program("pgbench") or "pgbench", "-n", "-M", protocol, "-c", str(asked.clients)]
    call += ["-j", "2", "-h", "127.0.0.1", "-p", str(audit.port), "-U", "postgres"]
    call += ["-s", str(asked.scale), "-R", str(asked.rate), *PGBENCH.get(work, [])]
    for name in WORKS[work]:
        call += ["-f", f"{os.path.join(folder, name)}.sql@{ASKS[name][1]}"]

    def run(seconds: int) -> tuple[float, int]:
        done = subprocess.run([*call, "-T", str(seconds), "postgres"], capture_output=True, text=True, check=False)
        rate = re.search(r"tps = ([0-9.]+) \(without initial", done.stdout)
        count = re.search(r"transactions actually processed: ([0-9]+)", done.stdout)
        if rate is None or count is None or not int(count[1]):
            raise SystemExit(f"{work}: {done.stdout}{done.stderr}")
        return float(rate[1]), int(count[1])

    run(asked.before)
    before = processor_time(audit.pid)
    rate, count = run(asked.seconds)
    used = (processor_time(audit.pid) - before) * 1e6 / count
    its = memory(audit.pid)
    if asked.profile:
        os.kill(audit.pid, signal.SIGUSR1)
        time.sleep(1)
    audit.stop()
    return Turn(used, its, rate, asked.before + asked.seconds, audit.coverage)


def line(work: str, protocol: str, turns: dict[str, list[Turn]]) -> str:
    used, its = ([statistics.median(getattr(one, name) for one in turns[way]) for way in WAYS] for name in ("used", "memory"))
    last = turns["with"][-1]
    conditions = last.coverage["conditions"]
    text = f"{work:8}{protocol:10}{used[0]:9.1f}{used[1]:8.1f}{100 * (used[1] / used[0] - 1):7.0f}{its[0]:9.0f}{its[1]:6.0f}"
    text += "".join(f"{statistics.median(one.rate for one in turns[way]):8.0f}" for way in WAYS)
    return text + f"{conditions['followed'] / last.seconds:10.0f}{conditions['passed_over']:10}{conditions['dropped']:9}"


def main() -> None:
    parser = argparse.ArgumentParser(description=__doc__, formatter_class=argparse.RawDescriptionHelpFormatter)
    parser.add_argument("--seconds", type=int, default=10, help="the length of a turn (10)")
    parser.add_argument("--before", type=int, default=3, help="seconds before that, which aren't measured (3)")
    parser.add_argument("--times", type=int, default=3, help="how many turns of each kind (3)")
    parser.add_argument("--clients", type=int, default=8, help="how many clients (8)")
    parser.add_argument("--rate", type=int, default=5000, help="transactions a second (5000)")
    parser.add_argument("--scale", type=int, default=10, help="pgbench's scale (10)")
    parser.add_argument("--work", nargs="+", choices=list(WORKS), default=list(WORKS))
    parser.add_argument("--protocol", nargs="+", choices=("simple", "extended", "prepared"), default=["simple", "prepared"])
    parser.add_argument("--profile", metavar="FOLDER", help="where a proxy built with the tag `profile` writes its profiles")
    asked = parser.parse_args()
    folder = tempfile.mkdtemp(prefix="condition_cost")
    os.chmod(folder, 0o777)
    for name, (condition, _) in ASKS.items():
        with open(os.path.join(folder, f"{name}.sql"), "w", encoding="utf-8") as file:
            file.write(VISIT.format(condition))
    with prepared_server(folder, asked.scale) as (server, program):
        print(f"{'':18}{'us a transaction':>17}{'':7}{'MiB':>15}{'a second':>16}{'conditions':>29}")
        print(f"{'work':8}{'protocol':10}{'without':>9}{'with':>8}{'% more':>7}{'without':>9}{'with':>6}{'without':>8}{'with':>8}"
              f"{'a second':>10}{'passed':>10}{'dropped':>9}", flush=True)
        for work in asked.work:
            for protocol in asked.protocol:
                turns: dict[str, list[Turn]] = {way: [] for way in WAYS}
                for _ in range(asked.times):
                    for way, its in turns.items():
                        its.append(turn(asked, folder, program, server, work, protocol, way))
                print(line(work, protocol, turns), flush=True)


if __name__ == "__main__":
    main()
