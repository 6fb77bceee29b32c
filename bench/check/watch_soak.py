"""Watches applications of a PostgreSQL for as long as you like, while they are disturbed.

    python3 bench/check/watch_soak.py [--minutes M] [--level LEVEL] [--work NAME ..] [--clients N]
        [--pause MS] [--rate N] [--come N] [--undisturbed] [--kill-server S] [--kill-proxy S]
        [--promise NAME] [--flat]

Each work is an application with tables of its own: `skew` reads two rows and writes one, `lost`
reads a quantity and writes it one less, `bank` keeps a rule over a range, `shop` has joins,
upserts, counts, savepoints, cursors and deletes, `tpcb`, `update` and `select` are pgbench's, and
`scratch` uses temporary tables, which are dropped at the end of the transaction or left to the end
of the connection. All run at once, with --clients connections each, and a pause of up to --pause
milliseconds after each transaction; each pgbench makes --rate transactions per second, and those of
`scratch` and of `come`, which connects anew for each transaction, --come (20).

Meanwhile, without the proxy, somebody writes the same rows, columns and indexes come and go, tables
are rewritten by VACUUM FULL, and the server ends connections of the applications. With
--kill-server the server is killed and started again every S seconds, with --kill-proxy the proxy
is.

A line per minute has the audit's state: what was committed and checked so far, how long a meeting
took in that minute and at most, memory and processor time of each program. At serializable, and at
repeatable read with `--promise snapshot`, no violation may be found, and each work has to get some
transactions through: else the exit status is 1. At other levels the violations that were found are
listed by name.

With --flat it is also looked at what is left behind, which makes the exit status 1: memory of a
program that is more than a tenth (and 4 MiB) above that after the first minute; files and sockets
that are open once all clients have gone, and weren't before they came; statements that a connection
which stays has prepared without its client, beyond those after the first minute; and slots,
temporary tables and connections that the server has once the audit has ended. An hour at full rate,
for a quiet machine, is `--minutes 60 --work select come scratch skew --clients 200 --rate 10000
--flat`.

It needs PostgreSQL 15, psycopg2, a built proxy (ZANTEYARD_PROXY, or Go) and the proved programs.
"""

import argparse
import contextlib
import os
import random
import re
import shutil
import signal
import socket
import subprocess
import sys
import tempfile
import threading
import time
import urllib.request
from collections.abc import Callable, Iterator
from typing import Any

TOP = os.path.join(os.path.dirname(os.path.abspath(__file__)), "../..")
sys.path[:0] = [os.path.join(TOP, "python"), os.path.join(TOP, "python/tests")]

import psycopg2
sys.path[:0] = [os.path.join(os.path.dirname(os.path.abspath(__file__)), "../cost")]
from proxy_cost import descendants, free_port, processor_time
from proxy_pair import Server, hears_interrupts, postgres_program, proxy_program
from psycopg2 import errors

LEVELS = {
    "serializable": "SERIALIZABLE",
    "repeatable": "REPEATABLE READ",
    "committed": "READ COMMITTED",
}
ROWS = 40
SCHEMA = f"""
CREATE TABLE skew_rows (id int PRIMARY KEY, n int NOT NULL);
CREATE TABLE lost_stock (id int PRIMARY KEY, qty int NOT NULL);
CREATE TABLE bank_moves (id bigserial PRIMARY KEY, customer int NOT NULL, amount int NOT NULL);
CREATE INDEX ON bank_moves (customer);
CREATE TABLE shop_items (id int PRIMARY KEY, qty int NOT NULL, price int NOT NULL DEFAULT 1);
CREATE TABLE shop_orders (id bigserial PRIMARY KEY, item int NOT NULL REFERENCES shop_items, paid bool
    NOT NULL DEFAULT false);
CREATE TABLE shop_totals (item int PRIMARY KEY, total int NOT NULL);
INSERT INTO skew_rows SELECT i, 0 FROM generate_series(1, {ROWS}) i;
INSERT INTO lost_stock SELECT i, 1000000 FROM generate_series(1, {ROWS}) i;
INSERT INTO bank_moves (customer, amount) SELECT i, 100 FROM generate_series(1, {ROWS}) i;
INSERT INTO shop_items SELECT i, 1000000 FROM generate_series(1, {ROWS}) i;
"""
ROOM = 60  # moves of a customer above which the oldest are merged


def skew(cursor: Any, chance: random.Random) -> None:
    one, other = chance.sample(range(1, ROWS + 1), 2)
    cursor.execute("SELECT n FROM skew_rows WHERE id IN (%s, %s)", (one, other))
    total = sum(n for n, in cursor.fetchall())
    cursor.execute("UPDATE skew_rows SET n = %s WHERE id = %s", (total % 1000, one))


def lost(cursor: Any, chance: random.Random) -> None:
    item = chance.randint(1, ROWS)
    cursor.execute("SELECT qty FROM lost_stock WHERE id = %s", (item,))
    cursor.execute("UPDATE lost_stock SET qty = %s WHERE id = %s", (cursor.fetchone()[0] - 1, item))


def bank(cursor: Any, chance: random.Random) -> None:
    """A customer's moves may not add up to less than 0."""
    customer = chance.randint(1, ROWS)
    cursor.execute("SELECT id, amount FROM bank_moves WHERE customer = %s ORDER BY id", (customer,))
    moves = cursor.fetchall()
    amount = chance.randint(-40, 45)
    if sum(move for _, move in moves) + amount < 0:
        return
    cursor.execute("INSERT INTO bank_moves (customer, amount) VALUES (%s, %s)", (customer, amount))
    if len(moves) > ROOM:
        old = moves[: ROOM // 2]
        cursor.execute("DELETE FROM bank_moves WHERE id = ANY(%s)", ([number for number, _ in old],))
        cursor.execute(
            "INSERT INTO bank_moves (customer, amount) VALUES (%s, %s)",
            (customer, sum(move for _, move in old)),
        )


def shop(cursor: Any, chance: random.Random) -> None:
    item = chance.randint(1, ROWS)
    kind = chance.random()
    if kind < 0.4:
        cursor.execute("SELECT qty FROM shop_items WHERE id = %s FOR UPDATE", (item,))
        cursor.execute("UPDATE shop_items SET qty = qty - 1 WHERE id = %s RETURNING qty", (item,))
        cursor.execute("INSERT INTO shop_orders (item) VALUES (%s) RETURNING id", (item,))
        cursor.execute("SAVEPOINT note")
        cursor.execute("UPDATE shop_items SET price = price + 1 WHERE id = %s", (item,))
        cursor.execute(chance.choice(("ROLLBACK TO note", "RELEASE note")))
    elif kind < 0.6:
        cursor.execute(
            "SELECT o.id, i.price FROM shop_orders o JOIN shop_items i ON i.id = o.item "
            "WHERE NOT o.paid AND o.item = %s ORDER BY o.id LIMIT 5",
            (item,),
        )
        paid = [number for number, _ in cursor.fetchall()]
        cursor.execute("UPDATE shop_orders SET paid = true WHERE id = ANY(%s)", (paid,))
        cursor.execute(
            "INSERT INTO shop_totals VALUES (%s, %s) "
            "ON CONFLICT (item) DO UPDATE SET total = shop_totals.total + excluded.total",
            (item, len(paid)),
        )
    elif kind < 0.7:
        cursor.execute("DELETE FROM shop_orders WHERE paid AND item = %s", (item,))
    elif kind < 0.8:
        cursor.execute("SELECT count(*) FROM shop_orders WHERE item = %s", (item,))
        cursor.execute("SELECT item, count(*) FROM shop_orders GROUP BY item ORDER BY 2 DESC LIMIT 3")
        cursor.execute("SELECT total FROM shop_totals WHERE item = %s", (item,))
    else:
        cursor.execute("DECLARE few CURSOR FOR SELECT id, qty FROM shop_items WHERE id > %s", (item,))
        cursor.execute("FETCH 7 FROM few")
        total = sum(qty for _, qty in cursor.fetchall())
        cursor.execute("UPDATE shop_totals SET total = %s WHERE item = %s", (total % 1000, item))


WORKS: dict[str, Callable[[Any, random.Random], None]] = {
    "skew": skew, "lost": lost, "bank": bank, "shop": shop,
}
PGBENCH = {
    "tpcb": ("-b", "tpcb-like"),
    "update": ("-b", "simple-update"),
    "select": ("-b", "select-only"),
    "come": ("-C", "-b", "simple-update"),
    "scratch": ("-C", "-f", "scratch.sql"),
}
SCRATCH = """\\set a random(1, 1000)
BEGIN;
CREATE TEMPORARY TABLE passing_rows (id int PRIMARY KEY, n int NOT NULL) ON COMMIT DROP;
INSERT INTO passing_rows SELECT aid, abalance FROM pgbench_accounts WHERE aid BETWEEN :a AND :a + 3;
SELECT n FROM passing_rows WHERE id = :a;
UPDATE pgbench_accounts SET abalance = abalance + 1 WHERE aid = :a;
COMMIT;
CREATE TEMPORARY TABLE kept_rows (id int PRIMARY KEY, n int NOT NULL);
INSERT INTO kept_rows VALUES (:a, 1);
SELECT n FROM kept_rows WHERE id = :a;
"""
LEFT = """SELECT (SELECT count(*) FROM pg_replication_slots),
    (SELECT count(*) FROM pg_class WHERE relpersistence = 't' AND relkind = 'r'),
    (SELECT count(*) FROM pg_stat_activity WHERE backend_type = 'client backend') - 1"""
PREPARED = "SELECT count(*) FROM pg_prepared_statements WHERE name LIKE 'zanteyard%'"
MORE, MORE_MIB, MORE_FILES = 1.1, 4.0, 3  # that count as the same
TABLES = {"skew": "skew_rows", "lost": "lost_stock", "bank": "bank_moves", "shop": "shop_items"}
AGAIN = (errors.SerializationFailure, errors.DeadlockDetected, errors.UniqueViolation)


class Client:
    """Connections of one application, each in a thread. Others read its counts."""

    def __init__(self, asked: Any, work: str, dsn: str, ends: threading.Event) -> None:
        self.asked, self.work, self.dsn, self.ends = asked, work, dsn, ends
        self.committed = self.again = self.connected = 0
        self.failed: dict[str, int] = {}

    def run(self, number: int) -> None:
        chance = random.Random(f"{self.work} {number}")
        while not self.ends.is_set():
            try:
                connection = psycopg2.connect(self.dsn, application_name=f"{self.work}-{number}")
                connection.set_session(isolation_level=LEVELS[self.asked.level])
                self.connected += 1
                self.use(connection, chance)
            except (psycopg2.OperationalError, psycopg2.InterfaceError) as error:
                name = str(error).strip().split("\n")[0][:60]
                self.failed[name] = self.failed.get(name, 0) + 1
                time.sleep(0.2)

    def use(self, connection: Any, chance: random.Random) -> None:
        with contextlib.closing(connection):
            until = time.monotonic() + chance.uniform(1, 120)  # then it reconnects
            while not self.ends.is_set() and time.monotonic() < until:
                try:
                    with connection, connection.cursor() as cursor:
                        WORKS[self.work](cursor, chance)
                    self.committed += 1
                except AGAIN:
                    self.again += 1
                except psycopg2.ProgrammingError as error:  # the schema has just changed
                    name = type(error).__name__
                    self.failed[name] = self.failed.get(name, 0) + 1
                time.sleep(chance.random() * self.asked.pause / 1000)


class Disturber:
    """What happens next to the applications, without the proxy."""

    def __init__(self, server: Server, works: list[str], ends: threading.Event) -> None:
        self.server, self.works, self.ends = server, works, ends
        self.did: dict[str, int] = {}
        self.chance = random.Random(1)

    def run(self) -> None:
        while not self.ends.wait(self.chance.uniform(0.2, 1.5)):
            name, text = self.pick()
            try:
                dsn = f"host=127.0.0.1 port={self.server.port} user=postgres dbname=postgres"
                connection = psycopg2.connect(dsn, options="-c lock_timeout=2s")
                connection.autocommit = True
                with contextlib.closing(connection), connection.cursor() as cursor:
                    cursor.execute(text)
            except psycopg2.Error as error:
                name = f"{name}: {type(error).__name__}"
            self.did[name] = self.did.get(name, 0) + 1

    def pick(self) -> Any:
        table = TABLES[self.chance.choice(self.works)]
        column = {"skew_rows": "n", "lost_stock": "qty", "bank_moves": "amount", "shop_items": "qty"}
        its = column[table]
        row = self.chance.randint(1, ROWS)
        return self.chance.choice((
            ("a write beside", f"UPDATE {table} SET {its} = {its} + 1 WHERE id = {row}"),
            ("a write beside", f"UPDATE {table} SET {its} = {its} WHERE id <= {row}"),
            ("a column comes", f"ALTER TABLE {table} ADD COLUMN IF NOT EXISTS note text"),
            ("a column goes", f"ALTER TABLE {table} DROP COLUMN IF EXISTS note"),
            ("an index comes", f"CREATE INDEX IF NOT EXISTS of_{table} ON {table} ({its})"),
            ("an index goes", f"DROP INDEX IF EXISTS of_{table}"),
            ("VACUUM FULL", f"VACUUM (FULL, FREEZE) {table}"),
            ("VACUUM", f"VACUUM (FREEZE, ANALYZE) {table}"),
            ("a table comes and goes", "CREATE TABLE passing (id int PRIMARY KEY); DROP TABLE passing"),
            ("a backend is ended", "SELECT pg_terminate_backend(pid) FROM pg_stat_activity WHERE "
             f"application_name ~ '^({'|'.join(self.works)})-' ORDER BY random() LIMIT 1"),
        ))


def used(pid: int) -> dict[str, tuple[float, float]]:
    """MiB in memory and processor seconds of each of a program's processes, by name."""
    told: dict[str, tuple[float, float]] = {}
    for each in descendants(pid):
        with contextlib.suppress(OSError, AttributeError):
            with open(f"/proc/{each}/status", encoding="utf-8") as file:
                text = file.read()
            name = re.search(r"Name:\s*(\S+)", text)[1]  # type: ignore[index]
            size = int(re.search(r"VmRSS:\s*(\d+)", text)[1]) / 1024  # type: ignore[index]
            before = told.get(name, (0.0, 0.0))
            told[name] = before[0] + size, before[1] + processor_time(each)
    return told


class Watch:
    """`zanteyard watch`, with its figures."""

    def __init__(self, asked: Any, folder: str, server: Server, proxy: str) -> None:
        self.listen, self.metrics = free_port(), free_port()
        self.saved = os.path.join(folder, "violations")
        url = f"postgresql://postgres@127.0.0.1:{server.port}/postgres"
        call = [sys.executable, "-m", "zanteyard", "watch", url, "--log", "WARNING", "--trust-clients"]
        call += ["--listen", f"127.0.0.1:{self.listen}", "--metrics", f"127.0.0.1:{self.metrics}"]
        call += ["--save", self.saved]
        if asked.promise:
            call += ["--promise", asked.promise]
        environment = dict(os.environ, ZANTEYARD_PROXY=proxy)
        environment["PYTHONPATH"] = os.path.join(TOP, "python")
        self.log = os.path.join(folder, "watch.log")
        with open(self.log, "wb") as log:
            self.process = subprocess.Popen(
                call, stdin=subprocess.DEVNULL, stdout=subprocess.PIPE, stderr=log, env=environment
            )
        until = time.monotonic() + 60
        while True:
            try:
                socket.create_connection(("127.0.0.1", self.listen), 1).close()
                return
            except OSError:
                if time.monotonic() > until or self.process.poll() is not None:
                    with open(self.log, encoding="utf-8") as text:
                        raise SystemExit(f"watch doesn't listen: {text.read()}") from None
                time.sleep(0.1)

    def figures(self) -> dict[str, float]:
        told: dict[str, float] = {}
        with contextlib.suppress(OSError):
            place = f"http://127.0.0.1:{self.metrics}/metrics"
            with urllib.request.urlopen(place, timeout=10) as page:
                for line in page.read().decode().splitlines():
                    found = re.match(r"zanteyard_(\w+)(?:\{[^}]*\})? (\S+)$", line)
                    if found:
                        told[found[1]] = told.get(found[1], 0.0) + float(found[2])
        return told

    def proxies(self) -> list[int]:
        found = []
        for each in descendants(self.process.pid):
            with contextlib.suppress(OSError):
                with open(f"/proc/{each}/comm", encoding="utf-8") as file:
                    if file.read().startswith("zanteyard-proxy"):
                        found.append(each)
        return found

    def end(self) -> str:
        self.process.send_signal(signal.SIGINT)
        try:
            return self.process.communicate(timeout=180)[0].decode()
        except subprocess.TimeoutExpired:
            self.process.kill()
            raise SystemExit("watch didn't end within 180 seconds") from None


def files(pid: int) -> dict[str, int]:
    """How many files and sockets each of a program's processes has open, by name."""
    told: dict[str, int] = {}
    for each in descendants(pid):
        with contextlib.suppress(OSError):
            with open(f"/proc/{each}/comm", encoding="utf-8") as file:
                name = file.read().strip()
            told[name] = told.get(name, 0) + len(os.listdir(f"/proc/{each}/fd"))
    return told


class Flat:
    """What has to stay the same."""

    def __init__(self, server: Server, watch: "Watch") -> None:
        self.server, self.watch = server, watch
        time.sleep(2)
        self.files = files(watch.process.pid)
        self.memory: dict[str, float] = {}
        self.prepared = 0
        self.wrong: list[str] = []
        where = f"host=127.0.0.1 port={watch.listen} user=postgres dbname=postgres"
        self.stays = psycopg2.connect(where, application_name="stays")
        self.stays.autocommit = True

    def look(self, used: dict[str, tuple[float, float]], is_last: bool) -> None:
        """Called each minute, while all work."""
        with self.stays.cursor() as cursor:
            for i in range(20):
                cursor.execute("SELECT abalance FROM pgbench_accounts WHERE aid = %s", (i + 1,))
            cursor.execute(PREPARED)
            prepared = cursor.fetchone()[0]
        if not self.memory:
            self.memory, self.prepared = {name: size for name, (size, _) in used.items()}, prepared
        elif is_last:
            for name, (size, _) in used.items():
                most = self.memory.get(name, 0.0) * MORE + MORE_MIB
                if size > most:
                    self.wrong.append(f"{name} has {size:.0f} MiB, after a minute {self.memory.get(name, 0.0):.0f}")
            if prepared > self.prepared:
                self.wrong.append(f"{prepared} statements are prepared, after a minute {self.prepared}")

    def rest(self) -> None:
        """Called once all clients have gone."""
        self.stays.close()
        time.sleep(5)
        now = files(self.watch.process.pid)
        print(f"open files and sockets before the clients came: {self.files}, after they went: {now}")
        for name, count in now.items():
            if count > self.files.get(name, 0) + MORE_FILES:
                self.wrong.append(f"{name} has {count} files and sockets open")

    def ended(self) -> None:
        """Called once the audit has ended."""
        where = f"host=127.0.0.1 port={self.server.port} user=postgres dbname=postgres"
        with contextlib.closing(psycopg2.connect(where)) as connection, connection.cursor() as cursor:
            cursor.execute(LEFT)
            found = cursor.fetchone()
        print(f"left on the server: {found[0]} slots, {found[1]} temporary tables, {found[2]} connections")
        if any(found):
            self.wrong.append("something is left on the server")


def every(seconds: float | None, ends: threading.Event, action: Callable[[], None]) -> None:
    while seconds and not ends.wait(seconds):
        action()


@contextlib.contextmanager
def everything(asked: Any, folder: str) -> Iterator[Any]:
    proxy = proxy_program(folder)
    if proxy is None:
        raise SystemExit("Go or its libraries are missing")
    server = Server(os.path.join(folder, "server"))
    server.initialize()
    with open(os.path.join(server.data, "postgresql.conf"), "a", encoding="ascii") as settings:
        settings.write(f"max_connections = {asked.clients * len(asked.work) + 60}\n")
        # A serializable transaction that is stopped for seconds keeps what all others have read.
        settings.write("max_pred_locks_per_transaction = 1024\n")
    server.start()
    with open(os.path.join(folder, "scratch.sql"), "w", encoding="ascii") as script:
        script.write(SCRATCH)
    try:
        server.sql("postgres", SCHEMA)
        if asked.flat or set(asked.work) & set(PGBENCH):
            call = [postgres_program("pgbench") or "pgbench", "-i", "-q", "-s", "5"]
            call += ["-h", "127.0.0.1", "-p", str(server.port), "-U", "postgres", "postgres"]
            subprocess.run(call, check=True, capture_output=True)
        yield server, Watch(asked, folder, server, proxy)
    finally:
        server.stop()


def pgbench(asked: Any, work: str, port: int, folder: str) -> "subprocess.Popen[bytes]":
    call = [postgres_program("pgbench") or "pgbench", "-n", "-M", "prepared", "-c", str(asked.clients)]
    rate = asked.come if "-C" in PGBENCH[work] else asked.rate
    call += [*PGBENCH[work], "-T", str(int(asked.minutes * 60)), "-R", str(rate), "-j", "2"]
    call += ["-h", "127.0.0.1", "-p", str(port)]
    call += ["-U", "postgres", "--max-tries", "100", "postgres"]
    level = LEVELS[asked.level].lower().replace(" ", "\\ ")
    options = f"-c default_transaction_isolation={level}"
    return subprocess.Popen(
        call, env=dict(os.environ, PGOPTIONS=options, PGAPPNAME="pgbench"), stdout=subprocess.PIPE,
        stderr=subprocess.DEVNULL, cwd=folder,
    )


def soak(asked: Any, server: Server, watch: Watch) -> int:
    ends = threading.Event()
    dsn = f"host=127.0.0.1 port={watch.listen} user=postgres dbname=postgres"
    works = [name for name in asked.work if name in WORKS]
    clients = [Client(asked, work, dsn, ends) for work in works]
    threads = [
        threading.Thread(target=client.run, args=(number,))
        for client in clients for number in range(asked.clients)
    ]
    disturber = Disturber(server, works, ends)
    if not asked.undisturbed and works:
        threads.append(threading.Thread(target=disturber.run))

    def kill_server() -> None:
        with open(os.path.join(server.data, "postmaster.pid"), encoding="ascii") as file:
            os.kill(int(file.readline()), signal.SIGQUIT)
        time.sleep(1)
        server.start(server.port)

    def kill_proxy() -> None:
        for pid in watch.proxies():
            os.kill(pid, signal.SIGKILL)

    for seconds, action in ((asked.kill_server, kill_server), (asked.kill_proxy, kill_proxy)):
        threads.append(threading.Thread(target=every, args=(seconds, ends, action)))
    flat = Flat(server, watch) if asked.flat else None
    for thread in threads:
        thread.start()
    folder = os.path.dirname(watch.log)
    benches = [pgbench(asked, work, watch.listen, folder) for work in asked.work if work in PGBENCH]
    began = time.monotonic()
    print("minute committed    taken    reads  waiting behind  meeting  longest violations  MiB and "
          "processors", flush=True)
    before: dict[str, tuple[float, float]] = {}
    meetings = took = 0.0
    at = began
    try:
        while time.monotonic() < began + asked.minutes * 60 and watch.process.poll() is None:
            time.sleep(min(60.0, max(0.0, began + asked.minutes * 60 - time.monotonic())))
            f, its, now = watch.figures(), used(watch.process.pid), time.monotonic()
            met = f.get("meetings_total", 0) - meetings
            each = f["meeting_seconds_total"] - took if "meeting_seconds_total" in f else 0.0
            programs = [
                f"{name} {size:.0f} {(seconds - before.get(name, (0.0, 0.0))[1]) / (now - at):.2f}"
                for name, (size, seconds) in sorted(its.items())
            ]
            print(f"{(now - began) / 60:6.1f}{f.get('transactions_committed_total', 0):10.0f}"
                  f"{f.get('transactions_taken_total', 0):9.0f}{f.get('reads_taken_total', 0):9.0f}"
                  f"{f.get('transactions_waiting', 0):9.0f}{f.get('seconds_behind', 0):7.2f}"
                  f"{each / met if met else 0:9.4f}{f.get('longest_meeting_seconds', 0):9.4f}"
                  f"{f.get('violations_total', 0):11.0f}  "
                  f"{sum(size for size, _ in its.values()):.0f} ({', '.join(programs)})", flush=True)
            before, meetings, took, at = its, meetings + met, took + each, now
            if flat:
                flat.look(its, now > began + asked.minutes * 60 - 1)
    finally:
        ends.set()
        for thread in threads:
            thread.join(120)
        for bench in benches:
            try:
                bench.wait(30)
            except subprocess.TimeoutExpired:
                bench.kill()
            print((bench.communicate()[0] or b"").decode())
    found = watch.figures().get("violations_total", -1)
    if flat:
        flat.rest()
    print(watch.end())
    if flat:
        flat.ended()
        print(*(f"WRONG: {one}" for one in flat.wrong), sep="\n")
    for client in clients:
        print(f"{client.work}: {client.committed} committed, {client.again} to be run again, "
              f"{client.connected} connections; {client.failed}")
    print(f"beside: {disturber.did}")
    kept = asked.level == "serializable" or (asked.level, asked.promise) == ("repeatable", "snapshot")
    return int(bool(flat and flat.wrong) or kept and (found != 0 or not all(client.committed for client in clients)))


def main() -> int:
    hears_interrupts()
    parser = argparse.ArgumentParser(description=__doc__.splitlines()[0])
    parser.add_argument("--minutes", type=float, default=30, help="how long (30)")
    parser.add_argument("--level", choices=LEVELS, default="serializable")
    parser.add_argument("--work", nargs="+", choices=[*WORKS, *PGBENCH], default=[*WORKS, "tpcb"])
    parser.add_argument("--clients", type=int, default=4, help="connections of each application (4)")
    parser.add_argument("--pause", type=float, default=20, help="how long a client pauses at most after a transaction, in milliseconds (20)")
    parser.add_argument("--rate", type=int, default=100, help="transactions a second of each pgbench (100)")
    parser.add_argument("--come", type=int, default=20, help="transactions a second of those that connect anew for each (20)")
    parser.add_argument("--flat", action="store_true", help="look at what is left behind")
    parser.add_argument("--undisturbed", action="store_true", help="disturb nothing")
    parser.add_argument("--kill-server", type=float, metavar="S", help="kill the server every S seconds")
    parser.add_argument("--kill-proxy", type=float, metavar="S", help="kill the proxy every S seconds")
    parser.add_argument("--promise", help="as for zanteyard watch")
    asked = parser.parse_args()
    folder = tempfile.mkdtemp(prefix="watch_soak")
    os.chmod(folder, 0o755)
    with everything(asked, folder) as (server, watch):
        status = soak(asked, server, watch)
    if status:
        print(f"what was logged and saved is in {folder}")
    else:
        shutil.rmtree(folder, ignore_errors=True)
    return status


if __name__ == "__main__":
    sys.exit(main())
