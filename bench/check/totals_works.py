"""The works of `totals.py`."""

import contextlib
import os
import random
import shutil
import subprocess
import threading
import time
from collections.abc import Callable
from dataclasses import dataclass
from typing import Any

import psycopg
import psycopg2

HERE = os.path.dirname(os.path.abspath(__file__))
APPLICATIONS = os.path.join(HERE, "applications")


class Missing(Exception):
    """A program that isn't installed."""


@dataclass(frozen=True)
class Where:
    """Where a work connects, and a folder for its files."""

    host: str
    port: int
    folder: str

    def connect(self, **more: Any) -> Any:
        its = {"host": self.host, "port": self.port, "user": "postgres", "dbname": "app", **more}
        return psycopg2.connect(**its)

    def sql(self, text: str) -> None:
        connection = self.connect()
        connection.autocommit = True
        connection.cursor().execute(text)
        connection.close()

    def call(self, *words: str, at: str = "", **more: str) -> None:
        """Runs a program, whose output is kept in the folder."""
        if not shutil.which(words[0]):
            raise Missing(f"{words[0]} isn't installed")
        place = {"PGHOST": self.host, "PGPORT": str(self.port), "PGUSER": "postgres"}
        its: dict[str, Any] = {"env": {**os.environ, **place, "PGDATABASE": "app", **more}}
        with open(os.path.join(self.folder, "work.log"), "ab") as log:
            its.update(cwd=at or self.folder, stdout=log, stderr=log, timeout=1800)
            done = subprocess.run(words, **its)
        if done.returncode:
            raise SystemExit(f"{words[0]} ended with {done.returncode}: see {self.folder}/work.log")


@dataclass(frozen=True)
class Work:
    prepare: Callable[[Where], None]
    run: Callable[[Where], None]


COUNTED = """
CREATE TABLE t (id int PRIMARY KEY, v int); INSERT INTO t SELECT i, 0 FROM generate_series(1, 5) i
"""


def known(where: Where) -> None:
    """52 transactions that are committed, 10 that aren't, and 61 rows written."""
    lines = []
    for text in ("SELECT v FROM t WHERE id = 1", "UPDATE t SET v = v + 1 WHERE id = 2"):
        lines += [text, "SELECT pg_sleep(0.3)"]
    for text in (
        "SELECT count(*) FROM t", "SELECT v FROM t WHERE id = 999", "UPDATE t SET v = v + 1",
        "UPDATE t SET v = v + 1 WHERE id = 3", "SELECT v FROM t WHERE id = 4",
        "BEGIN;SELECT v FROM t WHERE id = 5;ROLLBACK",
    ):
        lines += [*text.split(";")] * 10
    path = os.path.join(where.folder, "known.sql")
    with open(path, "w", encoding="utf-8") as file:
        file.writelines(f"{line};\n" for line in lines)
    where.call("psql", "-X", "-q", "-f", path)


def idle(where: Where) -> None:
    """80 connections with a transaction each; then the first one has 20 more."""
    connections = [where.connect() for _ in range(80)]

    def transaction(connection: Any, number: int) -> None:
        cursor = connection.cursor()
        cursor.execute("SELECT v FROM t WHERE id = 1")
        cursor.execute("UPDATE t SET v = v + 1 WHERE id = %s", (1 + number % 5,))
        connection.commit()

    for number, each in enumerate(connections):
        transaction(each, number)
        time.sleep(0.02)
    for number in range(20):
        transaction(connections[0], number)
        time.sleep(1)
    for each in connections:
        each.close()


MIXED = """
CREATE TABLE stock (id int PRIMARY KEY, n int);
INSERT INTO stock SELECT i, 9 FROM generate_series(1, 50) i;
CREATE TABLE parts (id int, stock int REFERENCES stock ON DELETE CASCADE, PRIMARY KEY (id, stock));
CREATE TABLE notes (note text);
CREATE FUNCTION bump(int) RETURNS void LANGUAGE sql AS
    'UPDATE stock SET n = n + 1 WHERE id < $1';
"""
ONE_BY_ONE = (
    "SELECT 1", "SELECT n FROM stock WHERE id = {one}", "SELECT n FROM stock WHERE id > {one}",
    "SELECT n FROM stock WHERE id = 999", "SELECT count(*) FROM stock", "TABLE stock",
    "SELECT s.n, p.id FROM stock s JOIN parts p ON p.stock = s.id", "SELECT DISTINCT n FROM stock",
    "SELECT note FROM notes LIMIT 3",
    "UPDATE stock SET n = n + 1 WHERE id = {one}", "UPDATE stock SET n = n + 1 WHERE id < {one}",
    "INSERT INTO notes VALUES ('a'), ('b')", "SELECT bump(3)", "DO $$BEGIN PERFORM bump(2); END$$",
    "INSERT INTO stock VALUES ({one}, 0) ON CONFLICT (id) DO UPDATE SET n = 0",
    "SELECT 1 / (n - n) FROM stock", "COPY stock TO STDOUT", "TABLE notes",
    "CREATE TEMP TABLE IF NOT EXISTS mine (id int)",
)
BLOCKS = (
    "SELECT n FROM stock WHERE id = {one}; UPDATE stock SET n = 5 WHERE id = {one}",
    "SELECT n FROM stock WHERE id = {one}; UPDATE stock SET n = 5 WHERE id < {one}",
    "UPDATE stock SET n = 1 WHERE id = {one}; SAVEPOINT a; "
    "UPDATE stock SET n = 2 WHERE id = 1; ROLLBACK TO a",
    "SAVEPOINT a; UPDATE stock SET n = 2 WHERE id = {one}; RELEASE a; "
    "SELECT n FROM stock",
    "DECLARE c CURSOR FOR SELECT n FROM stock; FETCH 5 FROM c; FETCH 5 FROM c; CLOSE c",
    "DELETE FROM stock WHERE id = {one}; INSERT INTO stock VALUES ({one}, 1)",
    "INSERT INTO parts VALUES ({number}, {one}) ON CONFLICT DO NOTHING",
    "PREPARE TRANSACTION '{name}'; COMMIT PREPARED '{name}'",
)


def mixed(where: Where) -> None:
    """Transactions of all kinds, by four connections."""

    def work(number: int) -> None:
        chance = random.Random(number)
        place = {"host": where.host, "port": where.port, "user": "postgres", "dbname": "app"}
        with psycopg.connect(**place, autocommit=True) as its:
            for turn in range(60):
                values = {"one": chance.randint(1, 50), "number": turn, "name": f"{number} {turn}"}
                with contextlib.suppress(psycopg.DatabaseError):
                    transaction(its, chance, values)
                if its.info.transaction_status != psycopg.pq.TransactionStatus.IDLE:
                    its.execute("ROLLBACK")
                time.sleep(0.01)

    together(work)


def together(work: Callable[[int], None]) -> None:
    """Four at the same time."""
    threads = [threading.Thread(target=work, args=(number,)) for number in range(4)]
    for each in threads:
        each.start()
    for each in threads:
        each.join()


def transaction(its: Any, chance: random.Random, values: dict[str, Any]) -> None:
    kind = chance.random()
    if kind < 0.4:
        text = chance.choice(ONE_BY_ONE).format(**values)
        if text.startswith("COPY"):
            with its.cursor().copy(text) as rows:
                for _ in rows:
                    pass
        else:
            its.execute(text, prepare=chance.random() < 0.5)
        return
    if kind < 0.5:
        with its.pipeline():
            for _ in range(3):
                its.execute("SELECT n FROM stock WHERE id = %s", (values["one"],))
                its.execute("UPDATE stock SET n = n + 1 WHERE id = %s", (values["one"],))
        return
    level = chance.choice(("READ COMMITTED", "REPEATABLE READ", "SERIALIZABLE"))
    its.execute(f"BEGIN ISOLATION LEVEL {level}")
    for text in chance.choice(BLOCKS).format(**values).split("; "):
        # pg_stat_statements doesn't count a prepared FETCH again.
        its.execute(text, prepare=False if text.startswith("FETCH") else None)
    its.execute("ROLLBACK" if kind > 0.9 else "COMMIT")


def sysbench(script: str, rate: int, *more: str) -> Work:
    base = ("sysbench", script, "--db-driver=pgsql", "--pgsql-user=postgres", "--pgsql-db=app")
    base += ("--tables=4", "--table-size=2000")
    times = ("--threads=8", "--events=400", "--time=0", f"--rate={rate}", "--report-interval=0")

    def prepare(where: Where) -> None:
        where.call(*base, f"--pgsql-host={where.host}", f"--pgsql-port={where.port}", "prepare")

    def run(where: Where) -> None:
        to = (f"--pgsql-host={where.host}", f"--pgsql-port={where.port}")
        where.call(*base, *to, *times, *more, "run")

    return Work(prepare, run)


def pgbench(*words: str) -> Work:
    def prepare(where: Where) -> None:
        where.call("pgbench", "-i", "-q", "-s", "1")

    def run(where: Where) -> None:
        where.call("pgbench", "-n", "-c", "8", "-j", "2", "-t", "40", "-R", "40", *words)

    return Work(prepare, run)


def python_application(name: str, needed: str) -> Work:
    path = os.path.join(APPLICATIONS, name)

    def prepare(where: Where) -> None:
        if not os.path.isdir(f"/usr/lib/python3/dist-packages/{needed}"):
            raise Missing(f"{needed} isn't installed")
        where.call("/usr/bin/python3", path, "prepare")

    def run(where: Where) -> None:
        where.call("/usr/bin/python3", path, "run")

    return Work(prepare, run)


def redmine() -> Work:
    folder = "/usr/share/redmine"
    script = os.path.join(APPLICATIONS, "redmine.rb")
    settings = {"RAILS_ENV": "production", "X_DEBIAN_SITEID": "default", "REDMINE_LANG": "en"}
    settings["SECRET_KEY_BASE"] = "0" * 64

    def words(where: Where, *call: str) -> tuple[list[str], dict[str, str]]:
        if not os.path.isdir(folder):
            raise Missing("redmine isn't installed")
        url = f"postgresql://postgres@{where.host}:{where.port}/app"
        schema = os.path.join(where.folder, "schema.rb")
        return ["bundle", "exec", *call], {**settings, "DATABASE_URL": url, "SCHEMA": schema}

    def prepare(where: Where) -> None:
        for call in ("rake db:migrate", "rake redmine:load_default_data", f"rails runner {script}"):
            its, more = words(where, *call.split())
            where.call(*its, at=folder, STEP="prepare", **more)

    def run(where: Where) -> None:
        its, more = words(where, "rails", "runner", script)
        together(lambda number: where.call(*its, at=folder, STEP=str(number + 1), **more))

    return Work(prepare, run)


WORKS: dict[str, Work] = {
    "known": Work(lambda where: where.sql(COUNTED), known),
    "idle": Work(lambda where: where.sql(COUNTED), idle),
    "mixed": Work(lambda where: where.sql(MIXED), mixed),
    "sysbench-read": sysbench("oltp_read_only", 20),
    "sysbench-write": sysbench("oltp_write_only", 30),
    "sysbench-both": sysbench("oltp_read_write", 20),
    "sysbench-text": sysbench("oltp_read_write", 20, "--db-ps-mode=disable"),
    "pgbench-select": pgbench("-S"),
    "pgbench-update": pgbench("-N"),
    "pgbench-tpcb": pgbench(),
    "pgbench-prepared": pgbench("-M", "prepared"),
    "django": python_application("django_admin.py", "django"),
    "keystone": python_application("keystone_api.py", "keystone"),
    "redmine": redmine(),
}
