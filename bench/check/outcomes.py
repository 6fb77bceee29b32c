"""Makes outcomes for people who read them without knowing what was run.

    python3 bench/check/outcomes.py FOLDER [--work NAME ..]

Each work runs through `zanteyard watch`, some of it beside the proxy. A folder a work: outcome.txt
is what watch printed, server.log what the server logged of clients' statements, and
what_was_run.txt says what there was, for whoever compares.

It needs PostgreSQL 15, psycopg2, a built proxy (ZANTEYARD_PROXY) and the auditor.
"""

import argparse
import contextlib
import json
import os
import random
import shutil
import signal
import subprocess
import sys
import tempfile
import threading
import time
from collections.abc import Callable, Iterator, Sequence
from dataclasses import dataclass
from typing import Any

TOP = os.path.normpath(os.path.join(os.path.dirname(os.path.abspath(__file__)), "../.."))
PYTHON = os.path.join(TOP, "python")
sys.path[:0] = [PYTHON, os.path.join(PYTHON, "tests")]
import psycopg2
sys.path[:0] = [os.path.join(os.path.dirname(os.path.abspath(__file__)), "../cost")]
from proxy_cost import free_port, hears_interrupts, wait_for, wait_for_audit
from totals_server import Oracle

TABLES = """
CREATE TABLE stock (id int PRIMARY KEY, n int); INSERT INTO stock SELECT i, 100
    FROM generate_series(1, 40) i;
CREATE TABLE staff (name text PRIMARY KEY, on_call bool); INSERT INTO staff
    SELECT 'doctor ' || i, true FROM generate_series(1, 6) i;
CREATE TABLE notes (note text);
CREATE TABLE big (id int PRIMARY KEY, v int); INSERT INTO big SELECT i, 0
    FROM generate_series(1, 600) i;
"""
LEVELS = ("READ COMMITTED", "REPEATABLE READ", "SERIALIZABLE")


class Clients:
    """Clients of the proxy, or of the server itself."""

    def __init__(self, through: int, direct: int, number: int) -> None:
        self.through, self.direct, self.chance = through, direct, random.Random(number)

    def connect(self, is_direct: bool = False) -> Any:
        port = self.direct if is_direct else self.through
        made = psycopg2.connect(host="127.0.0.1", port=port, user="postgres", dbname="app")
        made.autocommit = True
        return made

    def run(self, connection: Any, *texts: str) -> None:
        """Runs statements. A failure ends the transaction, as in applications that don't retry."""
        cursor = connection.cursor()
        try:
            for text in texts:
                cursor.execute(text)
        except psycopg2.Error:
            cursor.execute("ROLLBACK")

    def many(self, times: int, texts: Callable[[], Sequence[str]], is_direct: bool = False) -> None:
        """Four clients, each of which runs that so often."""

        def one() -> None:
            with contextlib.closing(self.connect(is_direct)) as connection:
                for _ in range(times):
                    self.run(connection, *texts())
                    time.sleep(self.chance.random() / 100)

        threads = [threading.Thread(target=one) for _ in range(4)]
        for each in threads:
            each.start()
        for each in threads:
            each.join()


def block(level: str, *texts: str, end: str = "COMMIT") -> Sequence[str]:
    return [f"BEGIN ISOLATION LEVEL {level}", *texts, end]


def buy(its: Clients, level: str, most: int = 40) -> Callable[[], Sequence[str]]:
    """Reads a quantity, and writes one that an application has computed."""

    def texts() -> Sequence[str]:
        one, n = its.chance.randint(1, most), its.chance.randint(1, 99)
        read, write = f"SELECT n FROM stock WHERE id = {one}", f"SET n = {n} WHERE id = {one}"
        return block(level, read, f"UPDATE stock {write}")

    return texts


def relative(its: Clients) -> None:
    def texts() -> Sequence[str]:
        one = its.chance.randint(1, 3)
        read = f"SELECT n FROM stock WHERE id = {one}"
        return block(LEVELS[0], read, f"UPDATE stock SET n = n - 1 WHERE id = {one}")

    its.many(30, texts)


def on_call(its: Clients) -> None:
    def texts() -> Sequence[str]:
        one, other = its.chance.sample(range(1, 7), 2)
        read = f"SELECT on_call FROM staff WHERE name = 'doctor {other}'"
        off = f"UPDATE staff SET on_call = NOT on_call WHERE name = 'doctor {one}'"
        return block(LEVELS[1], read, off)

    its.many(30, texts)


def bypass(its: Clients) -> None:
    """Statements without BEGIN through the proxy, while others bypass it."""
    beside = threading.Thread(target=its.many, args=(
        20, lambda: [f"UPDATE stock SET n = n + 1 WHERE id = {its.chance.randint(1, 40)}"], True,
    ))
    beside.start()
    its.many(20, lambda: ["UPDATE stock SET n = n + 1 WHERE id < 4"])
    beside.join()


def sets(its: Clients) -> None:
    def texts() -> Sequence[str]:
        one = its.chance.randint(1, 40)
        return block(LEVELS[0], "SET LOCAL search_path TO public",
                     f"SELECT n FROM stock WHERE id = {one}")

    its.many(30, texts)


def reports(its: Clients) -> None:
    its.many(20, lambda: ["SELECT count(*), sum(n) FROM stock", "SELECT DISTINCT n FROM stock",
                          f"SELECT n FROM stock WHERE id = {its.chance.randint(1, 40)}",
                          "INSERT INTO notes VALUES ('a')"])


def reads_only(its: Clients) -> None:
    def texts() -> Sequence[str]:
        one = its.chance.randint(1, 40)
        return block(LEVELS[0], f"SELECT n FROM stock WHERE id = {one}", end="ROLLBACK")

    its.many(30, texts)
    its.many(3, buy(its, LEVELS[2]))


def scans(its: Clients) -> None:
    one = its.chance.randint
    its.many(6, lambda: block(LEVELS[1], "SELECT id, v FROM big",
                              f"UPDATE big SET v = v + 1 WHERE id = {one(1, 600)}"))


def together(its: Clients) -> None:
    """Each transaction is one text."""
    one = its.chance.randint
    its.many(25, lambda: [
        f"BEGIN; SELECT n FROM stock WHERE id = {one(1, 40)}; "
        f"UPDATE stock SET n = n + 1 WHERE id < {one(2, 5)}; COMMIT"
    ])


@dataclass(frozen=True)
class Work:
    told: str
    run: Callable[[Clients], None]
    options: Sequence[str] = ()


WORKS = {
    "01": Work("4 clients x 30: read a stock, write it; serializable",
               lambda its: its.many(30, buy(its, LEVELS[2], 5))),
    "02": Work("4 clients x 30: read a stock, write a computed value; read committed",
               lambda its: its.many(30, buy(its, LEVELS[0], 5))),
    "03": Work("4 clients x 30: read a stock, then n = n - 1; read committed", relative),
    "04": Work("4 clients x 30: read one doctor, switch another; repeatable read", on_call),
    "05": Work("4 x 20 one-statement updates of 3 rows by the proxy; 4 x 20 updates beside it",
               bypass),
    "06": Work("4 clients x 30: SET LOCAL search_path, one read, COMMIT", sets),
    "07": Work("4 clients x 20: count, DISTINCT, a read, an insert without a key", reports),
    "08": Work("4 x 30 read-only blocks that end with ROLLBACK; 4 x 3 purchases, serializable",
               reads_only),
    "09": Work("4 clients x 6: read 600 rows, write one; repeatable read", scans),
    "10": Work("4 clients x 25: a block in one text, with COMMIT", together),
}


@contextlib.contextmanager
def watched(server: Oracle, folder: str, options: Sequence[str]) -> Iterator[int]:
    port, figures = free_port(), f"127.0.0.1:{free_port()}"
    call = [sys.executable, "-m", "zanteyard", "watch", "--listen", f"127.0.0.1:{port}", *options]
    call += ["--metrics", figures, "--trust-clients"]
    call.append(f"postgresql://postgres@127.0.0.1:{server.server.port}/app")
    with open(os.path.join(folder, "outcome.txt"), "wb") as out, \
            tempfile.TemporaryFile() as log:
        its = dict(os.environ, PYTHONPATH=PYTHON)
        running = subprocess.Popen(call, stdout=out, stderr=log, env=its, cwd=folder)
        try:
            wait_for("127.0.0.1", port, 120)
            wait_for_audit(figures, 120)
            yield port
        finally:
            running.send_signal(signal.SIGINT)
            running.wait(600)


def logged(server: Oracle, at: int, path: str) -> None:
    """What clients ran, by the server's log, from a place on."""
    with open(server.log, encoding="utf-8") as file, open(path, "w", encoding="utf-8") as out:
        file.seek(at)
        for text in file:
            its = json.loads(text)
            is_client = its.get("backend_type") == "client backend" and its.get("dbname") == "app"
            if is_client and its.get("application_name") not in ("zanteyard", "oracle"):
                print(its["timestamp"], its["pid"], its["error_severity"], its["message"], file=out)


def main() -> None:
    hears_interrupts()
    form = argparse.RawDescriptionHelpFormatter
    parser = argparse.ArgumentParser(description=__doc__, formatter_class=form)
    parser.add_argument("folder", metavar="FOLDER")
    parser.add_argument("--work", nargs="+", choices=[*WORKS], default=[*WORKS], metavar="NAME")
    asked = parser.parse_args()
    place = tempfile.mkdtemp(prefix="zanteyard-outcomes-")
    os.chmod(place, 0o711)
    server = Oracle(os.path.join(place, "server"))
    try:
        for number, name in enumerate(asked.work):
            work, folder = WORKS[name], os.path.join(asked.folder, name)
            shutil.rmtree(folder, ignore_errors=True)
            os.makedirs(folder)
            server.run("DROP DATABASE IF EXISTS app WITH (FORCE)")
            server.run("CREATE DATABASE app")
            server.run(TABLES, "app")
            with watched(server, folder, work.options) as port:
                at = os.path.getsize(server.log)
                work.run(Clients(port, server.server.port, number))
                time.sleep(1)
            logged(server, at, os.path.join(folder, "server.log"))
            with open(os.path.join(folder, "what_was_run.txt"), "w", encoding="utf-8") as file:
                print(work.told, file=file)
            print(name, work.told, flush=True)
    finally:
        server.server.stop()
        shutil.rmtree(place, ignore_errors=True)


if __name__ == "__main__":
    main()
