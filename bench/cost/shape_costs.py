"""What a statement of each shape costs: direct, through pgbouncer, and audited.

    python3 bench/cost/shape_costs.py [--times N] [--shape WORD ..] [--rows N] [--prepared]

A client of psycopg 3 at each way, in turn, runs each shape N times (300) on tables of 100,000 rows:
first 20 times that don't count. The table has the median and the 99th of 100 in milliseconds, for
each way, and how many of the audited ones reached the server with hidden columns. `--shape` takes
those whose name has one of these words. `--prepared` has statements prepared by the driver.

`audited` is `zanteyard watch` with all that it starts. With TMPDIR=/dev/shm the server's files are
in memory. It needs PostgreSQL 15 with pg_stat_statements, pgbouncer, psycopg 3 and a built proxy
(`proxy/build.sh`, or ZANTEYARD_PROXY).
"""

import argparse
import os
import random
import shutil
import sys
import tempfile
import time
from dataclasses import dataclass

import psycopg

TOP = os.path.normpath(os.path.join(os.path.dirname(os.path.abspath(__file__)), "../.."))
PYTHON = os.path.join(TOP, "python")
sys.path[:0] = [PYTHON, os.path.join(PYTHON, "tests")]
from proxy_cost import Started
from proxy_pair import Server, proxy_program

WAYS = ("direct", "pgbouncer", "audited")
NOT_COUNTED = 20
TABLES = """
CREATE EXTENSION IF NOT EXISTS pg_stat_statements;
CREATE TABLE items (id int PRIMARY KEY, room int, kind int, v int, name text);
INSERT INTO items SELECT i, i / 20, i %% 5, i %% 97, 'item ' || i FROM generate_series(1, {rows}) i;
CREATE TABLE rooms (id int PRIMARY KEY, house int, name text);
INSERT INTO rooms SELECT i, i / 10, 'room ' || i FROM generate_series(0, {rows} / 20) i;
CREATE TABLE links (item int, tag int, PRIMARY KEY (item, tag));
INSERT INTO links SELECT i / 10, i %% 10 FROM generate_series(1, {rows}) i;
CREATE TABLE counters (id int PRIMARY KEY, n int);
INSERT INTO counters SELECT i, 0 FROM generate_series(1, 1000) i;
CREATE INDEX ON items (room, kind); CREATE INDEX ON rooms (house);
"""


@dataclass(frozen=True)
class Shape:
    """Statements with {one}, a row, {room} of 20 rows and {more}, five rooms further."""

    name: str
    texts: tuple[str, ...]


def shape(name: str, *texts: str) -> Shape:
    return Shape(name, texts)


NEAR = "room BETWEEN {room} AND {more}"
SHAPES = (
    shape("a row by its key", "SELECT v FROM items WHERE id = {one}"),
    shape("20 rows", "SELECT id, v FROM items WHERE room = {room}"),
    shape("100 rows, sorted", f"SELECT id, v FROM items WHERE {NEAR} ORDER BY v, id"),
    shape("LIMIT", f"SELECT id, v FROM items WHERE {NEAR} ORDER BY id LIMIT 10"),
    shape("a join",
          "SELECT i.v, r.name FROM items i JOIN rooms r ON r.id = i.room WHERE r.id = {room}"),
    shape("an outer join",
          "SELECT i.v, r.name FROM items i LEFT JOIN rooms r ON r.id = i.v WHERE i.room = {room}"),
    shape("count and sum of 20", "SELECT count(*), sum(v) FROM items WHERE room = {room}"),
    shape("count of 100, by an index", f"SELECT count(*) FROM items WHERE {NEAR}"),
    shape("average of 100, as text",
          f"SELECT avg(v)::text, string_agg(name, ',') FROM items WHERE {NEAR}"),
    shape("GROUP BY, sorted",
          f"SELECT kind, count(*) FROM items WHERE {NEAR} GROUP BY kind ORDER BY kind"),
    shape("GROUP BY", f"SELECT kind, avg(v) FROM items WHERE {NEAR} GROUP BY kind"),
    shape("DISTINCT, sorted", f"SELECT DISTINCT kind FROM items WHERE {NEAR} ORDER BY kind"),
    shape("DISTINCT", f"SELECT DISTINCT v, kind FROM items WHERE {NEAR}"),
    shape("UNION",
          "SELECT v FROM items WHERE room = {room} UNION SELECT house FROM rooms WHERE id < 9"),
    shape("EXCEPT",
          "SELECT v FROM items WHERE room = {room} EXCEPT SELECT v FROM items WHERE room = {more}"),
    shape("UNION ALL",
          "SELECT v FROM items WHERE room = {room} UNION ALL SELECT v FROM items WHERE room = "
          "{more}"),
    shape("a subquery in FROM",
          "SELECT s.v FROM (SELECT v, id FROM items WHERE room = {room} ORDER BY id LIMIT 9) s"),
    shape("WITH",
          "WITH w AS (SELECT id, v FROM items WHERE room = {room}) SELECT v FROM w WHERE v > 3"),
    shape("IN a subquery",
          "SELECT v FROM items WHERE room IN (SELECT id FROM rooms WHERE id = {room})"),
    shape("a window", "SELECT id, rank() OVER (ORDER BY v) FROM items WHERE room = {room}"),
    shape("SELECT 1 LIMIT 1", "SELECT 1 FROM items WHERE room = {room} LIMIT 1"),
    shape("a table of links", "SELECT tag FROM links WHERE item = {one} / 10"),
    shape("a cursor",
          "BEGIN",
          f"DECLARE c CURSOR FOR SELECT id, v FROM items WHERE {NEAR}",
          "FETCH 50 FROM c",
          "FETCH ALL FROM c",
          "COMMIT"),
    shape("a cursor WITH HOLD",
          f"DECLARE c CURSOR WITH HOLD FOR SELECT id, v FROM items WHERE {NEAR}",
          "FETCH ALL FROM c",
          "CLOSE c"),
    shape("an update by its key", "UPDATE counters SET n = n + 1 WHERE id = {small}"),
    shape("an update that returns", "UPDATE counters SET n = n + 1 WHERE id = {small} RETURNING n"),
    shape("an update of 20",
          "UPDATE counters SET n = n + 1 WHERE id BETWEEN {small} AND {small} + 19"),
    shape("an upsert",
          "INSERT INTO counters VALUES ({small}, 0) ON CONFLICT (id) DO UPDATE SET n = counters.n "
          "+ 1"),
)


class Client:
    """A connection at one of the ways."""

    def __init__(self, name: str, port: int, is_prepared: bool) -> None:
        self.name, self.prepared = name, is_prepared
        self.connection = psycopg.connect(
            host="127.0.0.1", port=port, user="postgres", dbname="postgres", autocommit=True,
            prepare_threshold=5 if is_prepared else None,
        )
        self.taken: list[float] = []

    def run(self, one: Shape, values: dict[str, int]) -> None:
        texts = [text.format(**values) for text in one.texts]
        began = time.perf_counter()
        for text in texts:
            cursor = self.connection.execute(text)  # type: ignore[arg-type]
            if cursor.description:
                cursor.fetchall()
        self.taken.append(1000 * (time.perf_counter() - began))

    def figures(self) -> tuple[float, float]:
        its = sorted(self.taken[NOT_COUNTED:])
        self.taken = []
        return its[len(its) // 2], its[len(its) * 99 // 100]


class Server_(Server):
    """A server that counts statements."""

    def counting(self) -> None:
        self.initialize()
        with open(os.path.join(self.data, "postgresql.conf"), "a", encoding="utf-8") as file:
            file.write("shared_preload_libraries = 'pg_stat_statements'\n")
        self.start()


def seen(port: int) -> int:
    """How many statements on the tables had hidden columns."""
    with psycopg.connect(f"host=127.0.0.1 port={port} user=postgres dbname=postgres") as own:
        row = own.execute(
            "SELECT coalesce(sum(calls), 0) FROM pg_stat_statements WHERE query LIKE '%zanteyard%' "
            "AND query ~ 'items|rooms|links|counters' AND query !~ 'to_reg|pg_stat_statements'"
        ).fetchone()
    assert row is not None
    return int(row[0])


def measure(one: Shape, clients: list[Client], asked: argparse.Namespace, server: Server) -> str:
    chance = random.Random(one.name)
    place = f"host=127.0.0.1 port={server.port} user=postgres"
    with psycopg.connect(place, autocommit=True) as own:
        own.execute("SELECT pg_stat_statements_reset()")
    for turn in range(asked.times + NOT_COUNTED):
        room = chance.randrange(asked.rows // 20 - 6)
        values = {"one": chance.randrange(1, asked.rows), "room": room, "more": room + 4}
        values["small"] = chance.randrange(1, 980)
        order = clients[turn % 3 :] + clients[: turn % 3]
        for each in order:
            each.run(one, values)
    share = seen(server.port) / (asked.times + NOT_COUNTED)
    line = f"{one.name:28}"
    for each in clients:
        middle, late = each.figures()
        line += f"{middle:9.3f}{late:9.3f}"
    return line + f"{100 * min(1.0, share):8.0f}%"


def main() -> None:
    form = argparse.RawDescriptionHelpFormatter
    parser = argparse.ArgumentParser(description=__doc__, formatter_class=form)
    parser.add_argument("--times", type=int, default=300)
    parser.add_argument("--rows", type=int, default=100_000)
    parser.add_argument("--shape", nargs="+", default=[""], metavar="WORD")
    parser.add_argument("--prepared", action="store_true")
    asked = parser.parse_args()
    folder = tempfile.mkdtemp(prefix="zanteyard-shapes-")
    os.chmod(folder, 0o777)
    proxy = proxy_program(folder)
    if proxy is None:
        raise SystemExit("Go or its libraries are missing")
    server = Server_(os.path.join(folder, "server"))
    server.counting()
    started = Started(folder, "127.0.0.1", server.port, proxy)
    try:
        server.sql("postgres", TABLES.replace("%%", "%").format(rows=asked.rows))
        server.sql("postgres", "VACUUM ANALYZE")
        clients = [Client(name, started.way(name).port, asked.prepared) for name in WAYS]
        print(f"{'':28}" + "".join(f"{name:>18}" for name in WAYS))
        print(f"{'shape':28}" + f"{'middle':>9}{'99/100':>9}" * 3 + f"{'seen':>9}")
        for one in SHAPES:
            if any(word in one.name for word in asked.shape):
                print(measure(one, clients, asked, server), flush=True)
    finally:
        started.end()
        server.stop()
    shutil.rmtree(folder, ignore_errors=True)


if __name__ == "__main__":
    main()
