"""What the audit's meetings do to an application and to its database.

    python3 bench/cost/meetings.py [--seconds N] [--connections N] [--work NAME ..] [--with NAME ..]
        [--rate N] [--between TIME] [--hold TIME] [--scale N]

pgbench runs through the proxy (`select` is its -S, `update` its -N, `tpcb` its tpcb-like), with
more connections than the audit has sessions. Beside it there is `nothing`; a `snapshot` that is
held open on another connection; or one more connection through the proxy, `idle` in a transaction.
A program that forgets everything that it is offered plays the auditor.

Each line of the table has how many meetings there were; for how many milliseconds they held
clients (the median, and the 99th percentile); how long a transaction took that was under way at a
meeting, and how long another one did (the same); of 1,000 transactions, how many weren't checked
because of a meeting; and how many transaction numbers were taken and rows written, without the
application's: pgbench's own count of what it ran, and of its rows, is subtracted. What -S leaves
there is the audit's alone, since the server's autovacuum is off.

It needs PostgreSQL 15 and a built proxy (`proxy/build.sh`, or ZANTEYARD_PROXY).
"""

import argparse
import bisect
import contextlib
import json
import os
import re
import subprocess
import sys
import tempfile
import threading
from collections.abc import Iterator
from typing import Any

from proxy_cost import TOP, free_port, prepared_server, wait_for

sys.path[:0] = [os.path.join(TOP, "python/tests")]
from proxy_pair import Server, postgres_program

WORKS = {"select": "-S", "update": "-N", "tpcb": ""}
ROWS = {"select": 0, "update": 2, "tpcb": 4}  # that a transaction of pgbench writes
BESIDE = ("nothing", "snapshot", "idle")
STATE = (
    "SELECT pg_snapshot_xmax(pg_current_snapshot()), (SELECT sum(n_tup_ins + n_tup_upd + n_tup_del)"
    " FROM pg_stat_user_tables)"
)
AFTER = "it ran during a meeting, or while sessions changed hands"


class Audit:
    """A proxy, and a parent that lets it forget everything."""

    def __init__(self, options: list[str], program: str, server: Server, log: str) -> None:
        self.port = free_port()
        call = [program, "--trust-clients", "--listen", f"127.0.0.1:{self.port}", *options, "--server"]
        call.append(f"host=127.0.0.1 port={server.port} user=postgres dbname=postgres")
        self._log = open(log, "wb")
        pipe = subprocess.PIPE
        self._proxy = subprocess.Popen(call, stdin=pipe, stdout=pipe, stderr=self._log)
        self.pid = self._proxy.pid
        self.meetings: list[tuple[float, float]] = []  # seconds since 1970, and seconds
        self.coverage: dict[str, Any] = {}
        self._marks: list[int] = []
        self._begun, self._stopped = threading.Event(), threading.Event()
        threading.Thread(target=self._read, daemon=True).start()
        wait_for("127.0.0.1", self.port)
        if not self._begun.wait(60):
            raise SystemExit(f"the audit hasn't begun: see {log}")

    def _say(self, **command: Any) -> None:
        assert self._proxy.stdin is not None
        self._proxy.stdin.write(json.dumps(command).encode() + b"\n")
        self._proxy.stdin.flush()

    def _read(self) -> None:
        assert self._proxy.stdout is not None
        for line in self._proxy.stdout:
            it = json.loads(line)
            if isinstance(it, list):
                self._line(it)
            elif it["event"] == "meeting":
                self.meetings.append((it["at"], it["milliseconds"] / 1000))
            elif it["event"] == "coverage":
                self.coverage = it
            elif it["event"] == "stopped":
                self._stopped.set()

    def _line(self, it: list[Any]) -> None:
        if it[0] == "open":
            self._marks = [0] * it[1]
            self._begun.set()
        elif it[0] == "offer":
            self._marks[it[1]] = it[2] + len(it[3])
        elif it[0] == "join":
            self._marks.append(len(it[2]))
        elif it[0] == "truncate":
            self._say(command="cut", marks=self._marks)

    def stop(self) -> None:
        """Makes a last round, and ends the proxy."""
        self._say(command="stop")
        self._stopped.wait(60)
        self._say(command="leave")
        self._proxy.terminate()
        self._proxy.wait(60)
        self._log.close()


def psql(port: int, text: str) -> list[str]:
    call = [postgres_program("psql") or "psql", "-X", "-q", "-A", "-t", "-v", "ON_ERROR_STOP=1"]
    call += ["-h", "127.0.0.1", "-p", str(port), "-U", "postgres", "-d", "postgres"]
    done = subprocess.run(call, input=text, capture_output=True, text=True, check=False)
    if done.returncode:
        raise SystemExit(done.stderr)
    return done.stdout.split()


@contextlib.contextmanager
def in_a_transaction(port: int) -> Iterator[None]:
    """A connection that has read something in a transaction, and does nothing more."""
    call = [postgres_program("psql") or "psql", "-X", "-q", "-A", "-t"]
    call += ["-h", "127.0.0.1", "-p", str(port), "-U", "postgres", "-d", "postgres"]
    with subprocess.Popen(call, stdin=subprocess.PIPE, stdout=subprocess.PIPE) as its:
        assert its.stdin is not None and its.stdout is not None
        its.stdin.write(b"BEGIN ISOLATION LEVEL REPEATABLE READ;\n")
        its.stdin.write(b"SELECT count(*) FROM pgbench_branches;\n")
        its.stdin.flush()
        its.stdout.readline()
        yield
        its.stdin.close()


def beside(name: str, server: Server, audit: Audit) -> "contextlib.AbstractContextManager[None]":
    if name == "nothing":
        return contextlib.nullcontext()
    return in_a_transaction(server.port if name == "snapshot" else audit.port)


def part(its: list[float], share: float) -> float:
    """The percentile of some seconds, in milliseconds."""
    return sorted(its)[min(len(its) - 1, int(len(its) * share))] * 1000 if its else 0.0


def taken(folder: str) -> Iterator[tuple[float, float]]:
    """When each transaction ended, and how long it took, in seconds, by pgbench's logs."""
    for name in os.listdir(folder):
        if name.startswith("pgbench_log"):
            path = os.path.join(folder, name)
            with open(path, encoding="ascii") as file:
                for line in file:
                    _, _, microseconds, _, seconds, more = line.split()[:6]
                    yield int(seconds) + int(more) / 1e6, int(microseconds) / 1e6
            os.remove(path)


def split(folder: str, meetings: list[tuple[float, float]]) -> tuple[list[float], list[float]]:
    """How long those transactions took that were under way while clients were held, and how long
    the others did."""
    ends = sorted(meetings)
    moments = [at for at, _ in ends]
    those: list[float] = []
    others: list[float] = []
    for end, took in taken(folder):
        place = bisect.bisect_left(moments, end - took)
        met = place < len(ends) and ends[place][0] - ends[place][1] <= end
        (those if met else others).append(took)
    return those, others


def run(asked: Any, folder: str, program: str, server: Server, work: str, name: str) -> str:
    options = ["--between", asked.between, *(["--hold", asked.hold] if asked.hold else [])]
    audit = Audit(options, program, server, os.path.join(folder, "proxy.log"))
    with beside(name, server, audit):
        before = [int(word) for word in "|".join(psql(server.port, STATE)).split("|")]
        call = [postgres_program("pgbench") or "pgbench", "-n", "-M", "prepared", "-l"]
        call += ["-c", str(asked.connections), "-j", "2", "-T", str(asked.seconds)]
        call += ["-h", "127.0.0.1", "-p", str(audit.port), "-U", "postgres"]
        call += ["-s", str(asked.scale), *filter(None, [WORKS[work]])]
        if asked.rate:
            call += ["-R", str(asked.rate)]
        done = subprocess.run(
            [*call, "postgres"], capture_output=True, text=True, check=False, cwd=folder
        )
        count = re.search(r"transactions actually processed: ([0-9]+)", done.stdout)
        if count is None or not int(count[1]):
            raise SystemExit(f"{work}: {done.stdout}{done.stderr}")
        after = [int(word) for word in "|".join(psql(server.port, STATE)).split("|")]
    audit.stop()
    ran = int(count[1])
    those, others = split(folder, audit.meetings)
    held = [seconds for _, seconds in audit.meetings]
    folded = audit.coverage.get("folded", {}).get(AFTER, 0)
    numbers = after[0] - before[0] - (ran if ROWS[work] else 0)
    rows = after[1] - before[1] - ran * ROWS[work]
    line = f"{work:8}{name:10}{len(held):9}{part(held, 0.5):8.1f}{part(held, 0.99):8.1f}"
    line += f"{part(those, 0.5):9.1f}{part(those, 0.99):8.1f}"
    line += f"{part(others, 0.5):9.1f}{part(others, 0.99):8.1f}{1000 * folded / ran:9.2f}"
    return line + f"{numbers:9}{rows:6}"


def main() -> None:
    parser = argparse.ArgumentParser(
        description=__doc__, formatter_class=argparse.RawDescriptionHelpFormatter
    )
    parser.add_argument("--seconds", type=int, default=60)
    parser.add_argument("--connections", type=int, default=500)
    parser.add_argument("--work", nargs="+", choices=list(WORKS), default=list(WORKS))
    parser.add_argument("--with", nargs="+", choices=BESIDE, default=list(BESIDE), dest="beside")
    parser.add_argument("--rate", type=int, help="transactions a second (as many as possible)")
    parser.add_argument("--between", default="2s", help="between two meetings")
    parser.add_argument("--hold", help="the longest time of a meeting (the proxy's own)")
    parser.add_argument("--scale", type=int, default=10)
    asked = parser.parse_args()
    folder = tempfile.mkdtemp(prefix="zanteyard-meetings-")
    os.chmod(folder, 0o711)
    with prepared_server(folder, asked.scale) as (server, program):
        server.sql("postgres", "ALTER SYSTEM SET autovacuum = off")
        server.sql("postgres", f"ALTER SYSTEM SET max_connections = {asked.connections + 20}")
        server.stop()
        server.start()
        print(f"{'':8}{'':10}{'':9}{'held':>16}{'at a meeting':>17}{'otherwise':>17}{'folded':>9}"
              f"{'numbers':>9}{'rows':>6}")
        print(f"{'work':8}{'with':10}{'meetings':>9}" + f"{'half':>8}{'99/100':>8}"
              + 2 * f"{'half':>9}{'99/100':>8}" + f"{'/1,000':>9}{'taken':>9}")
        for work in asked.work:
            for name in asked.beside:
                print(run(asked, folder, program, server, work, name), flush=True)


if __name__ == "__main__":
    main()
