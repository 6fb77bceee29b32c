"""Whether an audit goes on after everything has stood still.

    python3 bench/check/standstill.py [--stopped SECONDS] [--rate N] [--seconds S]

`zanteyard watch` with its proxy and auditor, and the server, are stopped by SIGSTOP for --stopped
seconds (100), as on a machine that is suspended, while pgbench's clients wait in the middle of
--rate transactions a second (300). Then they go on: in a second run in the opposite order. The exit
status is 1 if the audit has ended meanwhile, or if a transaction or a written row is in none of the
outcome's sums.

It needs PostgreSQL 15, a built proxy (ZANTEYARD_PROXY, or Go) and the auditor.
"""

import argparse
import os
import re
import signal
import subprocess
import sys
import tempfile
import time
from typing import Any

TOP = os.path.join(os.path.dirname(os.path.abspath(__file__)), "../..")
sys.path[:0] = [os.path.join(TOP, "bench/cost"), os.path.dirname(os.path.abspath(__file__))]

from pool import Watch
from proxy_cost import descendants, hears_interrupts, postgres_program, prepared_server
from proxy_pair import Server

BEFORE = 5.0  # seconds of work before everything is stopped
ROWS = "SELECT sum(n_tup_ins + n_tup_upd + n_tup_del) FROM pg_stat_user_tables"


def answer(server: Server, text: str) -> str:
    call = [postgres_program("psql") or "psql", "-XqAt", "-h", "127.0.0.1", "-p", str(server.port)]
    done = subprocess.run([*call, "-U", "postgres", "-d", "postgres", "-c", text],
                          capture_output=True, text=True, check=True)
    return done.stdout.strip()


def processes(server: Server, watch: Watch) -> list[int]:
    """Those of the audit and of the server."""
    with open(os.path.join(server.data, "postmaster.pid"), encoding="ascii") as file:
        return [*descendants(watch.process.pid), *descendants(int(file.readline()))]


def stand_still(those: list[int], seconds: float, backwards: bool) -> None:
    for each in those:
        os.kill(each, signal.SIGSTOP)
    try:
        time.sleep(seconds)
    finally:
        for each in reversed(those) if backwards else those:
            os.kill(each, signal.SIGCONT)


def run(asked: Any, folder: str, server: Server, proxy: str, backwards: bool) -> bool:
    watch = Watch(folder, server, proxy)
    before = int(answer(server, ROWS))
    call = [postgres_program("pgbench") or "pgbench", "-n", "-M", "prepared", "-c", "8", "-j", "2"]
    call += ["-R", str(asked.rate), "-T", str(asked.seconds), "-h", "127.0.0.1"]
    call += ["-p", str(watch.port), "-U", "postgres", "postgres"]
    bench = subprocess.Popen(call, stdout=subprocess.PIPE, stderr=subprocess.STDOUT, text=True)
    time.sleep(BEFORE)
    stand_still(processes(server, watch), asked.stopped, backwards)
    said = bench.communicate()[0]
    done = re.search(r"transactions actually processed: (\d+)", said)
    if done is None or "aborted" in said:
        raise SystemExit(said)
    time.sleep(1)  # the server's backends report their counts when they end
    outcome = watch.end()
    rows, seen = int(answer(server, ROWS)) - before, outcome["seen"]
    counted = {name: seen[name]["all"] for name in ("transactions", "rows_written")}
    print(f"stopped for {asked.stopped:g} s: {outcome['audits']} audits; pgbench {done[1]} "
          f"transactions, the server {rows} rows; in the outcome {counted}", flush=True)
    # pgbench looks at its tables first
    told = counted["transactions"] in (int(done[1]), int(done[1]) + 1)
    return told and counted["rows_written"] == rows and not watch.has("the audit ended")


def main() -> None:
    hears_interrupts()
    parser = argparse.ArgumentParser(description=(__doc__ or "").splitlines()[0])
    parser.add_argument("--stopped", type=float, default=100.0, help="for so many seconds (100)")
    parser.add_argument("--rate", type=int, default=300, help="transactions a second (300)")
    parser.add_argument("--seconds", type=int, default=20, help="the length of a run (20)")
    asked = parser.parse_args()
    folder = tempfile.mkdtemp(prefix="standstill")
    os.chmod(folder, 0o777)
    with prepared_server(folder, 1) as (server, proxy):
        answer(server, "ALTER TABLE pgbench_history ADD COLUMN id serial PRIMARY KEY")
        well = [run(asked, folder, server, proxy, backwards) for backwards in (False, True)]
    sys.exit(not all(well))


if __name__ == "__main__":
    main()
