"""What the proxy costs applications with several drivers, and with the server near or far.

    python3 bench/cost/driver_cost.py [--seconds N] [--times N] [--clients N] [--driver NAME ..]
        [--way NAME ..] [--delay US ..]

Each transaction is two reads and an update at serializable. It is run with psycopg2, psycopg 3,
asyncpg and JDBC, each way in turn: `direct`, `pgbouncer`, `passing`, `audited`, as in
bench/cost/proxy_cost.py. With --delay the server is that many microseconds away, one way: from the
application if it is `direct`, else from the pooler or proxy, which runs next to the application.
The table has transactions per second, as medians, and their share of the direct ones.

It needs PostgreSQL 15, pgbouncer, Go, the drivers and the proved programs. With TMPDIR=/dev/shm the
server's folder is in memory.
"""

import argparse
import os
import statistics
import subprocess
import sys
import tempfile
from typing import Any

from proxy_cost import TOP, WAYS, Started, Way, free_port, prepared_server, wait_for

HERE = os.path.join(TOP, "bench/cost/drivers")
PYTHON = ("psycopg2", "psycopg", "asyncpg")
JAR = "/usr/share/java/postgresql.jar"


def commands(folder: str, asked: Any) -> dict[str, list[str]]:
    """The command that starts each driver's program, without its port and what follows."""
    found = {}
    for driver in asked.driver:
        if driver in PYTHON:
            found[driver] = [sys.executable, os.path.join(HERE, "transfer.py"), driver]
        else:
            source = os.path.join(HERE, "Transfer.java")
            subprocess.run(["javac", "-d", folder, source], check=True)
            found[driver] = ["java", "-cp", f"{folder}:{JAR}", "Transfer"]
    return found


def run(asked: Any, call: list[str], way: Way) -> tuple[float, float, float]:
    """Transactions per second, and processor time for each, of the pooler or proxy and of the
    auditor, in microseconds."""
    before = way.used()
    call = [*call, str(way.port), str(asked.clients), str(asked.seconds), str(100_000 * asked.scale)]
    done = subprocess.run(call, capture_output=True, text=True, check=False, timeout=600)
    after = way.used()
    if done.returncode or not done.stdout.strip().isdigit():
        raise SystemExit(f"{way.name}: {done.stdout}{done.stderr}")
    count = max(1, int(done.stdout))
    return count / asked.seconds, *((b - a) * 1e6 / count for a, b in zip(before, after))


def relay(folder: str, port: int, microseconds: int) -> "tuple[int, subprocess.Popen[bytes]]":
    program = os.path.join(folder, "delay")
    if not os.path.exists(program):
        call = ["go", "build", "-o", program, os.path.join(HERE, "delay.go")]
        subprocess.run(call, check=True, cwd=folder, env=dict(os.environ, GO111MODULE="off"))
    listen = free_port()
    call = [program, f"127.0.0.1:{listen}", f"127.0.0.1:{port}", f"{microseconds}us"]
    started = subprocess.Popen(call)
    wait_for("127.0.0.1", listen)
    return listen, started


def table(asked: Any, delay: int, started: Started, calls: dict[str, list[str]]) -> None:
    for driver, call in calls.items():
        runs: dict[str, list[Any]] = {name: [] for name in asked.way}
        for _ in range(asked.times):
            for name in asked.way:
                with started.turn(name) as way:
                    runs[name].append(run(asked, call, way))
        first: float | None = None
        for name in asked.way:
            rate, between, beside = map(statistics.median, zip(*runs[name]))
            first = first or rate
            print(f"{driver:10}{delay:8}  {name:10}{rate:9.0f}{rate / first:10.2f}"
                  f"{between:9.1f}{beside:8.1f}", flush=True)


def main() -> None:
    parser = argparse.ArgumentParser(description=__doc__.splitlines()[0])
    parser.add_argument("--seconds", type=float, default=5, help="the length of a run (5)")
    parser.add_argument("--times", type=int, default=5, help="how many runs of each kind (5)")
    parser.add_argument("--scale", type=int, default=10, help="pgbench's scale (10)")
    parser.add_argument("--clients", type=int, default=8, help="how many clients (8)")
    parser.add_argument("--delay", type=int, nargs="+", default=[0], metavar="US", help="microseconds one way (0)")
    parser.add_argument(
        "--driver", nargs="+", choices=(*PYTHON, "jdbc"), default=[*PYTHON, "jdbc"]
    )
    parser.add_argument("--way", nargs="+", choices=WAYS, default=list(WAYS))
    asked = parser.parse_args()
    folder = tempfile.mkdtemp(prefix="driver_cost")
    os.chmod(folder, 0o777)
    print(f"{'driver':10}{'one way':>8}  {'way':10}{'a second':>9}{'of direct':>10}"
          f"{'between':>9}{'beside':>8}", flush=True)
    with prepared_server(folder, asked.scale) as (server, proxy):
        calls = commands(folder, asked)
        for delay in asked.delay:
            port, away = server.port, None
            if delay:
                port, away = relay(folder, server.port, delay)
            try:
                table(asked, delay, Started(folder, "127.0.0.1", port, proxy), calls)
            finally:
                if away:
                    away.kill()
                    away.wait()


if __name__ == "__main__":
    main()
