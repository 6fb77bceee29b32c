"""Whether everything is checked at the pace that the machine gives.

    python3 bench/cost/full_rate.py [--seconds N] [--run WORK:CLIENTS ..] [--protocol NAME] [--scale N]
        [--rate N] [--every S]

Each run is pgbench with so many clients, through `zanteyard watch` for so many seconds: `select` is
its -S, `update` its -N. The default runs are select:8, select:32 and update:32. A line per --every
seconds has, so far: transactions and the share of them that was checked, in full or in part (each
of -N writes a table without a key, which can't be checked); the age of the last verdict (the time
since the meeting up to which it goes), as looked at five times a second, at most and in 99 of 100
looks; MiB in memory of the proxy, the auditor and Python; and processor time of each, in
microseconds a transaction. At the end stands what was left out, and why.

The exit status is 1 if in some run less than 99.9 of 100 transactions were checked, or the last
verdict was more than two seconds old.

It needs PostgreSQL 15, a built proxy (`proxy/build.sh`, or ZANTEYARD_PROXY) and the proved
programs. With TMPDIR=/dev/shm the server's folder is in memory.
"""

import argparse
import json
import os
import re
import signal
import subprocess
import sys
import tempfile
import time
import urllib.request
from dataclasses import dataclass, field
from typing import Any

from proxy_cost import TOP, descendants, free_port, prepared_server, processor_time, wait_for
from proxy_cost import hears_interrupts, postgres_program, wait_for_audit

LOOKS = 0.2  # seconds between two looks at the metrics
AT_LEAST, AT_MOST = 99.9, 2.0  # percent checked, and seconds of the last verdict's age
WORKS = {"select": "-S", "update": "-N"}
NAMES = {"zanteyard-proxy": "proxy", "cobra_audit": "auditor", "python3": "Python"}
METRIC = re.compile(r"zanteyard_(\w+)(?:\{[^}]*\})? (\S+)$")


@dataclass
class Used:
    """MiB in memory, and seconds of processor time, of the audit's programs."""

    memory: dict[str, float] = field(default_factory=dict)
    time: dict[str, float] = field(default_factory=dict)


def used_by(pid: int) -> Used:
    used = Used()
    for each in descendants(pid):
        try:
            with open(f"/proc/{each}/status", encoding="utf-8") as file:
                text = file.read()
        except OSError:
            continue
        found = re.search(r"Name:\s*(\S+)", text)
        size = re.search(r"VmRSS:\s*(\d+)", text)
        if found is None or size is None:
            continue
        name = next((its for start, its in NAMES.items() if found[1].startswith(start)), found[1])
        used.memory[name] = used.memory.get(name, 0.0) + int(size[1]) / 1024
        used.time[name] = used.time.get(name, 0.0) + processor_time(each)
    return used


def figures(address: str) -> dict[str, float]:
    """All metrics; those with labels are summed."""
    with urllib.request.urlopen(f"http://{address}/metrics", timeout=30) as page:
        text = page.read().decode()
    told: dict[str, float] = {}
    for line in text.splitlines():
        found = METRIC.match(line)
        if found:
            told[found[1]] = told.get(found[1], 0.0) + float(found[2])
    return told


class Watch:
    """`zanteyard watch` of a server."""

    def __init__(self, folder: str, port: int, proxy: str) -> None:
        self.port, self.address = free_port(), f"127.0.0.1:{free_port()}"
        url = f"postgresql://postgres@127.0.0.1:{port}/postgres"
        call = [sys.executable, "-m", "zanteyard", "watch", url, "--log", "WARNING", "--json"]
        call += ["--trust-clients", "--listen", f"127.0.0.1:{self.port}", "--metrics", self.address]
        environment = dict(os.environ, ZANTEYARD_PROXY=proxy)
        environment["PYTHONPATH"] = os.path.join(TOP, "python")
        self.log = os.path.join(folder, "watch.log")
        with open(self.log, "ab") as log:
            self.process = subprocess.Popen(
                call, stdin=subprocess.DEVNULL, stdout=subprocess.PIPE, stderr=log, env=environment
            )
        wait_for("127.0.0.1", self.port)
        wait_for_audit(self.address)

    def end(self) -> dict[str, Any]:
        """Ends it, and returns the outcome."""
        self.process.send_signal(signal.SIGINT)
        told = self.process.communicate(timeout=300)[0].decode().splitlines()
        outcome: dict[str, Any] = json.loads(told[-1])
        return outcome


def ages_of(ages: list[float]) -> tuple[float, float]:
    """The largest one, and that of 99 in 100."""
    inorder = sorted(ages) or [0.0]
    return inorder[-1], inorder[len(inorder) * 99 // 100]


def line_of(
    seconds: float, told: dict[str, float], ages: list[float], start: Used, now: Used
) -> str:
    count = told.get("transactions_all_total", 0.0)
    waiting = told.get("transactions_waiting", 0.0)
    checked = told.get("transactions_checked_total", 0.0)
    checked += told.get("transactions_in_part_total", 0.0)
    share = 100 * checked / max(1.0, count - waiting)
    largest, most = ages_of(ages)
    line = f"{seconds:6.0f}{count:12,.0f}{count / max(seconds, 0.1):9,.0f}{share:9.3f}"
    line += f"{largest:8.2f}{most:7.2f}"
    line += "".join(f"{now.memory.get(name, 0.0):9.0f}" for name in NAMES.values())
    for name in NAMES.values():
        spent = now.time.get(name, 0.0) - start.time.get(name, 0.0)
        line += f"{spent * 1e6 / max(count, 1.0):9.1f}"
    return line


HEAD = f"{'s':>6}{'transactions':>12}{'a second':>9}{'checked':>9}{'oldest':>8}{'99/100':>7}"
HEAD += "".join(f"{name:>9}" for name in NAMES.values())
HEAD += "".join(f"{name:>9}" for name in NAMES.values())


def pgbench(asked: Any, work: str, clients: int, port: int) -> "subprocess.Popen[str]":
    call = [postgres_program("pgbench") or "pgbench", "-n", WORKS[work], "-M", asked.protocol]
    call += ["-c", str(clients), "-j", str(min(clients, 2)), "-T", str(asked.seconds)]
    call += ["-h", "127.0.0.1", "-p", str(port), "-U", "postgres", "-s", str(asked.scale)]
    if asked.rate:
        call += ["-R", str(asked.rate)]
    pipe = subprocess.PIPE
    return subprocess.Popen([*call, "postgres"], stdout=pipe, stderr=subprocess.STDOUT, text=True)


def run(asked: Any, folder: str, port: int, proxy: str, work: str, clients: int) -> bool:
    """One run; returns whether enough was checked in time."""
    print(f"\n{work}, {clients} clients, {asked.seconds} s; then MiB, and us a transaction\n{HEAD}")
    watch = Watch(folder, port, proxy)
    start, began = used_by(watch.process.pid), time.monotonic()
    bench = pgbench(asked, work, clients, watch.port)
    ages: list[float] = []
    shown = began
    while bench.poll() is None:
        told = figures(watch.address)
        if told.get("rounds_total") and told.get("transactions_all_total"):
            ages.append(told.get("verdict_age_seconds", 0.0))
        now = time.monotonic()
        if now >= shown + asked.every:
            shown = now
            used = used_by(watch.process.pid)
            print(line_of(now - began, told, ages, start, used), flush=True)
        time.sleep(LOOKS)
    used = used_by(watch.process.pid)
    said = bench.communicate()[0]
    done = re.search(r"transactions actually processed: (\d+)", said)
    rate = re.search(r"tps = ([0-9.]+) \(without initial", said)
    if done is None or rate is None:
        raise SystemExit(said)
    outcome = watch.end()
    totals = outcome["seen"]["transactions"]
    checked = totals["checked"] + sum(totals["in_part"].values())
    share = 100 * checked / max(1, int(done[1]))
    largest, most = ages_of(ages)
    spent = {name: used.time.get(name, 0.0) - start.time.get(name, 0.0) for name in NAMES.values()}
    each = ", ".join(f"{name} {it * 1e6 / int(done[1]):.1f}" for name, it in spent.items())
    load = ", ".join(f"{name} {it / asked.seconds:.2f}" for name, it in spent.items())
    print(
        f"pgbench: {int(done[1]):,} at {float(rate[1]):,.0f} a second; in the outcome "
        f"{totals['all']:,}, {checked:,} checked: {share:.3f}%\n"
        f"oldest verdict {largest:.2f} s, in 99 of 100 looks {most:.2f} s\n"
        f"us a transaction: {each}; processors: {load}\n"
        f"not checked: {totals['not_checked']}; in part: {totals['in_part']}; "
        f"connections: {outcome['seen']['connections']}",
        flush=True,
    )
    return share >= AT_LEAST and largest <= AT_MOST


def main() -> None:
    hears_interrupts()
    parser = argparse.ArgumentParser(description=__doc__.splitlines()[0])
    parser.add_argument("--seconds", type=int, default=60, help="the length of a run (60)")
    parser.add_argument("--run", nargs="+", default=["select:8", "select:32", "update:32"])
    protocols = ("simple", "extended", "prepared")
    parser.add_argument("--protocol", choices=protocols, default="prepared")
    parser.add_argument("--scale", type=int, default=10, help="pgbench's scale (10)")
    parser.add_argument("--rate", type=int, help="transactions a second (as many as it can)")
    parser.add_argument("--every", type=float, default=10.0, help="seconds between lines (10)")
    asked = parser.parse_args()
    runs = [each.partition(":")[::2] for each in asked.run]
    folder = tempfile.mkdtemp(prefix="full_rate")
    os.chmod(folder, 0o777)
    enough = True
    with prepared_server(folder, asked.scale) as (server, proxy):
        for work, clients in runs:
            enough = run(asked, folder, server.port, proxy, work, int(clients)) and enough
    sys.exit(not enough)


if __name__ == "__main__":
    main()
