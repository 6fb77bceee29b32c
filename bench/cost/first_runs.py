"""How long statements wait because they weren't tried before, and what an application loses whose
statements never repeat.

    python3 bench/cost/first_runs.py [--statements N] [--work NAME ..] [--driver psycopg2|asyncpg]

A proxy tries a statement before its first run, with the client waiting. Each work runs in turns of
50 statements on three connections: to the server itself, through a proxy that doesn't audit, and
through `zanteyard watch`. The table has each statement's time as its client sees it, in
microseconds: in the middle, the slowest of 100, and the mean; and how many of the SELECTs the
audit has seen. The works:

`constants`     one statement, each time with other constants in its text
`lists`         IN lists of constants, of other lengths
`joins`         a join of two tables that is sorted, each time with other aliases: a new statement
`new`           each statement with an alias that none has had before
`new, block`    the same in blocks of five
`new, short`    the same on connections that end after five statements
`new, late`     the same, once 1,500 such statements have run
`local`         one statement, after SET LOCAL in each block

It needs PostgreSQL 15, psycopg2 (or asyncpg), a built proxy (ZANTEYARD_PROXY, or Go) and the
auditor.
"""

import argparse
import asyncio
import itertools
import json
import os
import shutil
import signal
import statistics
import subprocess
import sys
import tempfile
import time
from collections.abc import Callable, Iterator
from typing import Any

TOP = os.path.normpath(os.path.join(os.path.dirname(os.path.abspath(__file__)), "../.."))
sys.path[:0] = [os.path.join(TOP, "python"), os.path.join(TOP, "python/tests")]

import psycopg2
from proxy_cost import free_port, prepared_server, wait_for, wait_for_audit
from proxy_pair import hears_interrupts, postgres_program

TURN = 50  # statements of one way before the next one's
WAYS = ("direct", "proxy", "audited")
NUMBER = itertools.count()  # no alias is used twice


def new() -> str:
    its = next(NUMBER)
    return f"SELECT abalance AS a{its} FROM pgbench_accounts WHERE aid = {1 + its % 1000}"


def join() -> str:
    its = next(NUMBER)
    return (
        f"SELECT a{its}.abalance, b{its}.bid FROM pgbench_accounts a{its} JOIN pgbench_branches b{its} "
        f"USING (bid) WHERE a{its}.aid < {1 + its % 20} ORDER BY a{its}.abalance"
    )


def with_constant() -> str:
    return f"SELECT abalance FROM pgbench_accounts WHERE aid = {1 + next(NUMBER) % 1000}"


def with_list() -> str:
    its = next(NUMBER)
    items = ", ".join(str(1 + (its + i) % 1000) for i in range(1 + its % 200))
    return f"SELECT abalance FROM pgbench_accounts WHERE aid IN ({items})"


class Client:
    """A connection of psycopg2, which sends texts, in autocommit."""

    def __init__(self, port: int) -> None:
        self.port = port
        self.connection: Any = None

    def run(self, text: str) -> float:
        """How long a statement took, in microseconds."""
        if self.connection is None:
            where = f"host=127.0.0.1 port={self.port} user=postgres dbname=postgres"
            self.connection = psycopg2.connect(where)
            self.connection.autocommit = True
            self.cursor = self.connection.cursor()
        began = time.perf_counter()
        self.cursor.execute(text)
        if self.cursor.description:
            self.cursor.fetchall()
        return (time.perf_counter() - began) * 1e6

    def close(self) -> None:
        if self.connection is not None:
            self.connection.close()
            self.connection = None


class Prepared(Client):
    """A connection of asyncpg, which prepares each statement under a name."""

    loop = asyncio.new_event_loop()

    def run(self, text: str) -> float:
        import asyncpg

        if self.connection is None:
            where = {"host": "127.0.0.1", "port": self.port, "user": "postgres"}
            self.connection = self.loop.run_until_complete(asyncpg.connect(database="postgres", **where))
        began = time.perf_counter()
        if text.startswith(("SELECT", "WITH")):
            self.loop.run_until_complete(self.connection.fetch(text))
        else:
            self.loop.run_until_complete(self.connection.execute(text))
        return (time.perf_counter() - began) * 1e6

    def close(self) -> None:
        if self.connection is not None:
            self.loop.run_until_complete(self.connection.close())
            self.connection = None


def single(text: Callable[[], str]) -> Callable[[Client, int], Iterator[float]]:
    def its(client: Client, count: int) -> Iterator[float]:
        for _ in range(count):
            yield client.run(text())

    return its


def in_blocks(before: str = "") -> Callable[[Client, int], Iterator[float]]:
    def its(client: Client, count: int) -> Iterator[float]:
        for _ in range(count // 5):
            client.run("BEGIN")
            if before:
                client.run(before)
            for _ in range(5):
                yield client.run(with_constant() if before else new())
            client.run("COMMIT")

    return its


def short(client: Client, count: int) -> Iterator[float]:
    for _ in range(count // 5):
        client.close()
        client.run("BEGIN")  # connects
        client.run("COMMIT")
        for _ in range(5):
            yield client.run(new())


def late(client: Client, count: int) -> Iterator[float]:
    if client.connection is None:
        for _ in range(1500):
            client.run(new())
    yield from single(new)(client, count)


WORKS: dict[str, Callable[[Client, int], Iterator[float]]] = {
    "constants": single(with_constant), "lists": single(with_list), "joins": single(join), "new": single(new),
    "new, block": in_blocks(), "new, short": short, "new, late": late, "local": in_blocks("SET LOCAL work_mem = '5MB'"),
}


def figures(times: list[float]) -> str:
    ordered = sorted(times)
    slow = ordered[min(len(ordered) - 1, len(ordered) * 99 // 100)]
    return f"{statistics.median(ordered):8.0f}{slow:8.0f}{statistics.fmean(ordered):8.0f}"


def measure(name: str, options: Any, where: str, direct: int, folder: str) -> None:
    listen, passing, page = free_port(), free_port(), f"127.0.0.1:{free_port()}"
    environment = dict(os.environ, ZANTEYARD_PROXY=options.proxy, RUNTIME_DIRECTORY=folder)
    environment["PYTHONPATH"] = os.path.join(TOP, "python")
    call = [sys.executable, "-m", "zanteyard", "watch", where, "--trust-clients", "--json", "--metrics", page]
    with open(os.path.join(folder, "log"), "ab") as log:
        watch = subprocess.Popen(
            [*call, "--listen", f"127.0.0.1:{listen}"], env=environment, stdin=subprocess.DEVNULL,
            stdout=subprocess.PIPE, stderr=log, text=True,
        )
        listens = f"127.0.0.1:{passing}"
        call = [options.proxy, "--pass", "--trust-clients", "--listen", listens, "--server", where]
        proxy = subprocess.Popen(call, stdin=subprocess.DEVNULL, stdout=log, stderr=log)
    try:
        wait_for("127.0.0.1", listen)
        wait_for("127.0.0.1", passing)
        wait_for_audit(page)
        of = Prepared if options.driver == "asyncpg" else Client
        clients = {"direct": of(direct), "proxy": of(passing), "audited": of(listen)}
        times: dict[str, list[float]] = {way: [] for way in WAYS}
        for way in WAYS:
            list(WORKS[name](clients[way], TURN if name != "new, late" else 0))  # connected, and warm
        for _ in range(options.statements // TURN):
            for way in WAYS:
                times[way] += WORKS[name](clients[way], TURN)
        for each in clients.values():
            each.close()
    finally:
        watch.send_signal(signal.SIGINT)
        out, _ = watch.communicate(timeout=600)
        proxy.terminate()
        proxy.wait(60)
    seen = json.loads(out.splitlines()[-1])["seen"]["selects"]
    print(f"{name:11}" + " |".join(figures(times[way]) for way in WAYS) + f" | {seen['checked']:,} of {seen['all']:,}",
          flush=True)
    if options.why:
        print("           ", seen)


def main() -> None:
    hears_interrupts()
    signal.signal(signal.SIGINT, signal.default_int_handler)
    parser = argparse.ArgumentParser(description=__doc__, formatter_class=argparse.RawDescriptionHelpFormatter)
    parser.add_argument("--statements", type=int, default=2000)
    parser.add_argument("--work", nargs="+", default=list(WORKS), choices=WORKS, metavar="NAME")
    parser.add_argument("--driver", default="psycopg2", choices=("psycopg2", "asyncpg"))
    parser.add_argument("--why", action="store_true", help="show the outcome's sums, too")
    options = parser.parse_args()
    if not postgres_program("initdb"):
        raise SystemExit("PostgreSQL isn't installed")
    folder = tempfile.mkdtemp()
    os.chmod(folder, 0o755)
    try:
        with prepared_server(folder, 1) as (server, options.proxy):
            where = f"postgresql://postgres@127.0.0.1:{server.port}/postgres"
            print(f"{'':11}" + "".join(f"{way:>26}" for way in WAYS))
            print(f"{'':11}" + " |".join(f"{'middle':>8}{'99%':>8}{'mean':>8}" for _ in WAYS) + " | checked")
            for name in options.work:
                its = os.path.join(folder, name.replace(", ", "-"))
                os.mkdir(its, 0o700)
                measure(name, options, where, server.port, its)
    finally:
        shutil.rmtree(folder, ignore_errors=True)


if __name__ == "__main__":
    main()
