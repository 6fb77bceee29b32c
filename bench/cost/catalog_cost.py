"""What the proxy's looks for changed definitions cost, with many partitions.

    python3 bench/cost/catalog_cost.py [--tables 20] [--partitions 500] [--seconds 60]

A database has --tables partitioned tables with --partitions each, and another one has none.
`zanteyard watch` audits each, and no client comes. For --seconds it counts the processor time of the
proxy, and of all of the server's processes that have a database: those are the audit's own. Both
are shown as a share of one processor, and how long after its start the audit began. The exit status
is 1 if the sum is 1% more with the partitions. Others on the machine are in nobody's processor
time; but if a look takes long for their sake, the next one comes later.

It needs PostgreSQL, a built proxy (ZANTEYARD_PROXY, or Go) and the auditor.
"""

import argparse
import os
import shutil
import signal
import subprocess
import sys
import tempfile
import time
from typing import Any

TOP = os.path.normpath(os.path.join(os.path.dirname(os.path.abspath(__file__)), "../.."))
sys.path[:0] = [os.path.join(TOP, "python"), os.path.join(TOP, "python/tests")]

from proxy_cost import descendants, free_port, processor_time, wait_for_audit
from proxy_pair import Server, hears_interrupts, postgres_program, proxy_program

MOST = 1.0  # percent of a processor


def create(server: Server, tables: int, partitions: int) -> None:
    for table in range(tables):
        parts = "".join(
            f"CREATE TABLE t{table}_{i} PARTITION OF t{table} FOR VALUES FROM ({i}) TO ({i + 1});"
            for i in range(partitions)
        )
        server.sql("postgres", f"CREATE TABLE t{table} (id int PRIMARY KEY, v int) PARTITION BY RANGE (id);{parts}")


def named(pid: int) -> str:
    with open(f"/proc/{pid}/cmdline", encoding="utf-8", errors="replace") as file:
        return file.read().replace("\0", " ")


def times(proxy: int, server: int) -> tuple[float, float]:
    """The processor times of the proxy, and of the server's processes for connections."""
    own = [each for each in descendants(server) if "postgres postgres" in named(each)]
    return processor_time(proxy), sum(map(processor_time, own))


def postmaster(server: Server) -> int:
    with open(os.path.join(server.data, "postmaster.pid"), encoding="ascii") as file:
        return int(file.readline())


def measure(options: Any, program: str, folder: str, tables: int) -> float:
    """What an audit of a database with so many tables costs, in percent of a processor."""
    server = Server(os.path.join(folder, f"server{tables}"))
    server.initialize()
    server.start()
    watch = None
    try:
        create(server, tables, options.partitions)
        page = f"127.0.0.1:{free_port()}"
        environment = dict(os.environ, ZANTEYARD_PROXY=program, RUNTIME_DIRECTORY=folder)
        environment["PYTHONPATH"] = os.path.join(TOP, "python")
        where = f"postgresql://postgres@127.0.0.1:{server.port}/postgres"
        call = [sys.executable, "-m", "zanteyard", "watch", where, "--trust-clients", "--metrics", page]
        began = time.monotonic()
        with open(os.path.join(folder, "log"), "wb") as log:
            watch = subprocess.Popen([*call, "--listen", f"127.0.0.1:{free_port()}"], env=environment,
                                     stdin=subprocess.DEVNULL, stdout=subprocess.DEVNULL, stderr=log)
        wait_for_audit(page, 300)
        took = time.monotonic() - began
        (proxy,) = [each for each in descendants(watch.pid) if named(each).startswith(program)]
        time.sleep(15)  # what it takes to begin isn't what is measured
        before, at = times(proxy, postmaster(server)), time.monotonic()
        time.sleep(options.seconds)
        after, lasted = times(proxy, postmaster(server)), time.monotonic() - at
    finally:
        if watch:
            watch.send_signal(signal.SIGINT)
            watch.wait(600)
        server.stop()
    ours, its = (100 * (after[i] - before[i]) / lasted for i in (0, 1))
    print(f"{tables * options.partitions:,} partitions of {tables} tables, in {lasted:.0f} s: the proxy took {ours:.2f}% of a "
          f"processor, and the server {its:.2f}% for it; the audit began {took:.1f} s after its start", flush=True)
    return ours + its


def run(options: Any, folder: str) -> bool:
    program = proxy_program(folder)
    without, more = (measure(options, program, folder, tables) for tables in (0, options.tables))
    print(f"the partitions cost {more - without:.2f}% of a processor")
    return more - without < MOST


def main() -> int:
    hears_interrupts()
    signal.signal(signal.SIGINT, signal.default_int_handler)
    parser = argparse.ArgumentParser(description=__doc__, formatter_class=argparse.RawDescriptionHelpFormatter)
    parser.add_argument("--tables", type=int, default=20)
    parser.add_argument("--partitions", type=int, default=500)
    parser.add_argument("--seconds", type=float, default=60)
    options = parser.parse_args()
    if not postgres_program("initdb"):
        raise SystemExit("PostgreSQL isn't installed")
    folder = tempfile.mkdtemp()
    os.chmod(folder, 0o755)
    try:
        return 0 if run(options, folder) else 1
    finally:
        shutil.rmtree(folder, ignore_errors=True)


if __name__ == "__main__":
    sys.exit(main())
