"""Whether the connections of a pool that work get the audit's sessions.

    python3 bench/check/pool.py [--connections N] [--busy N] [--seconds S] [--pause MS] [--same]

A pool has --connections (500), of which --busy (50) work at any time: each works for about a second,
with a SELECT and an UPDATE by turns, each a transaction, and a pause of --pause milliseconds (20)
after each of them, and then rests for so long that others work. With --same it is always the same
ones that work; the others run one transaction every ten seconds, as a pool does that looks whether
its connections still live.

A line per 10 seconds has how many transactions were decided and checked, in full or in part, so far
and since the line before, and how many connections have a session. Then stand the outcome's sums,
beside the rows in the table, of which each UPDATE has changed one. The exit status is 1 if less than
95 of 100 transactions were checked, after the first ten seconds; if a row is missing in the outcome;
or if a violation was found: each transaction has one row, so none can be.

It needs PostgreSQL 15, psycopg2, a built proxy (ZANTEYARD_PROXY, or Go) and the auditor.
"""

import argparse
import json
import os
import shutil
import signal
import socket
import subprocess
import sys
import tempfile
import time
import urllib.request
from typing import Any

TOP = os.path.join(os.path.dirname(os.path.abspath(__file__)), "../..")
sys.path[:0] = [os.path.join(TOP, "python"), os.path.join(TOP, "python/tests")]

import psycopg2
from proxy_pair import Server, hears_interrupts, postgres_program, proxy_program

ROWS = 20000
AT_LEAST, BEGINNING = 95.0, 10.0  # percent, and seconds that aren't looked at
LIMIT = 120.0  # seconds for whatever has to happen
PAIR = """\\set a random(1, {rows})
SELECT n FROM pooled WHERE id = :a;
\\sleep {pause} ms
\\set a random(1, {rows})
UPDATE pooled SET n = n + 1 WHERE id = :a;
\\sleep {pause} ms
"""
LOOK = "\\set w random(5000, 15000)\n\\sleep :w ms\n\\set a random(1, {rows})\nSELECT n FROM pooled WHERE id = :a;\n"


def free_port() -> int:
    with socket.socket() as free:
        free.bind(("127.0.0.1", 0))
        return int(free.getsockname()[1])


class Watch:
    """`zanteyard watch` of a server."""

    def __init__(self, folder: str, server: Server, proxy: str) -> None:
        self.port, self.page = free_port(), f"127.0.0.1:{free_port()}"
        url = f"postgresql://postgres@127.0.0.1:{server.port}/postgres"
        call = [sys.executable, "-m", "zanteyard", "watch", url, "--trust-clients", "--json"]
        call += ["--listen", f"127.0.0.1:{self.port}", "--page", self.page]
        environment = dict(os.environ, ZANTEYARD_PROXY=proxy, PYTHONPATH=os.path.join(TOP, "python"))
        self.log = os.path.join(folder, "watch.log")
        with open(self.log, "wb") as log:
            self.process = subprocess.Popen(
                call, stdin=subprocess.DEVNULL, stdout=subprocess.PIPE, stderr=log, env=environment
            )
        until = time.monotonic() + LIMIT
        while not self.has("auditing for"):
            if time.monotonic() > until or self.process.poll() is not None:
                raise SystemExit(f"no audit has begun: see {self.log}")
            time.sleep(0.1)

    def has(self, text: str) -> bool:
        with open(self.log, encoding="utf-8") as log:
            return text in log.read()

    def seen(self) -> dict[str, Any]:
        with urllib.request.urlopen(f"http://{self.page}/status.json", timeout=60) as page:
            its: dict[str, Any] = json.load(page)["seen"]
            return its

    def end(self) -> dict[str, Any]:
        self.process.send_signal(signal.SIGINT)
        told = self.process.communicate(timeout=300)[0].decode().splitlines()
        outcome: dict[str, Any] = json.loads(told[-1])
        return outcome


def counts(seen: dict[str, Any]) -> tuple[int, int]:
    """How many transactions are decided, and how many of these were checked."""
    its = seen["transactions"]
    return its["all"] - its["waiting"], its["checked"] + sum(its["in_part"].values())


def benches(asked: Any, folder: str, port: int) -> list["subprocess.Popen[str]"]:
    pairs = max(1, round(500 / asked.pause))
    pair = PAIR.format(rows=ROWS, pause=asked.pause)
    rest = 1000 * (asked.connections - asked.busy) / asked.busy  # milliseconds, for one that works for a second
    scripts = {"busy": pair, "look": LOOK.format(rows=ROWS)}
    scripts["turns"] = f"\\set w random(0, {round(2 * rest)})\n\\sleep :w ms\n" + pairs * pair
    for name, text in scripts.items():
        with open(os.path.join(folder, f"{name}.sql"), "w", encoding="ascii") as file:
            file.write(text)
    started = []
    works = {"turns": asked.connections}
    if asked.same:
        works = {"busy": asked.busy, "look": asked.connections - asked.busy}
    for name, clients in works.items():
        call = [postgres_program("pgbench") or "pgbench", "-n", "-M", "prepared", "-c", str(clients)]
        call += ["-j", "2", "-T", str(asked.seconds), "-f", os.path.join(folder, f"{name}.sql")]
        call += ["-h", "127.0.0.1", "-p", str(port), "-U", "postgres", "postgres"]
        pipe = subprocess.PIPE
        started.append(subprocess.Popen(call, stdout=pipe, stderr=subprocess.STDOUT, text=True))
    return started


def run(asked: Any, folder: str, server: Server, proxy: str) -> bool:
    watch = Watch(folder, server, proxy)
    started = benches(asked, folder, watch.port)
    print(f"{'s':>6}{'decided':>10}{'checked':>9}{'since':>8}{'connections':>13}{'audited':>9}", flush=True)
    began, before, first = time.monotonic(), (0, 0), None
    while any(each.poll() is None for each in started):
        time.sleep(10)
        seen, passed = watch.seen(), time.monotonic() - began
        now = counts(seen)
        if first is None and passed >= BEGINNING:
            first = now
        since = 100 * (now[1] - before[1]) / max(1, now[0] - before[0])
        print(f"{passed:6.0f}{now[0]:10,}{100 * now[1] / max(1, now[0]):9.2f}{since:8.2f}"
              f"{seen['connections']['now']:13}{seen['connections']['audited']:9}", flush=True)
        before = now
    for each in started:
        said = each.communicate()[0]
        if each.returncode or "aborted" in said:
            raise SystemExit(said)
    outcome = watch.end()
    connection = psycopg2.connect(f"host=127.0.0.1 port={server.port} user=postgres dbname=postgres")
    cursor = connection.cursor()
    cursor.execute("SELECT sum(n) FROM pooled")
    rows = int(cursor.fetchone()[0])
    connection.close()
    its, written = outcome["seen"]["transactions"], outcome["seen"]["rows_written"]
    all_ = counts(outcome["seen"])
    first = first or (0, 0)
    share = 100 * (all_[1] - first[1]) / max(1, all_[0] - first[0])
    print(f"{its['all']:,} transactions, {all_[1]:,} checked; after {BEGINNING:.0f} s {share:.2f}%\n"
          f"in part {its['in_part']}, not checked {its['not_checked']}\n"
          f"rows written: {rows:,} in the table, {written['all']:,} in the outcome; "
          f"verdict {outcome['verdict']}, {outcome['violations']} violations, lost {outcome['lost']}")
    return share >= AT_LEAST and rows == written["all"] and not outcome["violations"]


def main() -> int:
    hears_interrupts()
    parser = argparse.ArgumentParser(description=__doc__.splitlines()[0])
    parser.add_argument("--connections", type=int, default=500)
    parser.add_argument("--busy", type=int, default=50, help="of them that work at any time (50)")
    parser.add_argument("--seconds", type=int, default=60)
    parser.add_argument("--pause", type=int, default=20, help="milliseconds after a transaction (20)")
    parser.add_argument("--same", action="store_true", help="it is always the same ones that work")
    asked = parser.parse_args()
    folder = tempfile.mkdtemp(prefix="pool")
    os.chmod(folder, 0o755)
    proxy = proxy_program(folder)
    if proxy is None:
        raise SystemExit("Go or its libraries are missing")
    server = Server(os.path.join(folder, "server"))
    server.initialize()
    with open(os.path.join(server.data, "postgresql.conf"), "a", encoding="ascii") as file:
        file.write(f"max_connections = {asked.connections + 50}\n")
    server.start()
    try:
        server.sql("postgres", "CREATE TABLE pooled (id int PRIMARY KEY, n int NOT NULL);"
                   f"INSERT INTO pooled SELECT i, 0 FROM generate_series(1, {ROWS}) i; ANALYZE")
        enough = run(asked, folder, server, proxy)
    finally:
        server.stop()
    if enough:
        shutil.rmtree(folder, ignore_errors=True)
    else:
        print(f"what was logged is in {folder}")
    return 0 if enough else 1


if __name__ == "__main__":
    sys.exit(main())
