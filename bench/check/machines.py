"""One audit of applications on several machines, each with a proxy, a Redis between them, and a
network with delays.

    python3 bench/check/machines.py [--delay MS ..] [--seconds N] [--clients N] [--rate N] [--rows N]
        [--look-share PERCENT] [--every S] [--kill {proxy,redis,watch} ..] [--kill-every S] [--plant]
        [--at-least PERCENT]

For each delay there is a machine: a network namespace whose only way to the server and to Redis
takes so much longer there and back (1 1 20 20). The first one has `zanteyard watch`, the others
have `zanteyard proxy`. On each pgbench runs through its proxy with --clients connections, all
together at --rate transactions a second, or as many as they can: mostly a `look`, one SELECT of two
rows, and else a `move`, which locks two rows in their order by FOR UPDATE, and adds one to each. So
whatever happens is serializable. With --plant a lost update is made on purpose four times a second,
by connections through two different machines.

With --kill a proxy of another machine, Redis, or the proxy of `watch` is killed by SIGKILL every
--kill-every seconds, each kind in turn, and is started again a second later (`watch` starts its
proxy itself). pgbench is started again with its proxy.

The sums at the end: what pgbench was told is committed, and the rows (each move added two), beside
the outcome. Nothing else writes these tables, so each written row has to be in the outcome, checked
or not. So does each transaction, but those of a proxy that was killed before it had reported them,
or before it was heard for the first time; how many these are is printed.

The exit status is 1 if a violation was reported that wasn't planted, or none was though some were
planted while all was well; if a client noticed anything but the death of its own proxy; if a row is
missing in the outcome, or one too many is there; if a transaction is, without a proxy that was
killed; or if less was checked than --at-least says, of what was committed while nothing was killed.

It needs root, `ip`, /dev/net/tun, a C compiler, PostgreSQL 15, psycopg2, Redis, a built proxy
(ZANTEYARD_PROXY, or Go) and the auditor.
"""

import argparse
import contextlib
import json
import os
import re
import shutil
import signal
import socket
import subprocess
import sys
import tempfile
import threading
import time
import urllib.request
from collections.abc import Iterator
from typing import Any

TOP = os.path.join(os.path.dirname(os.path.abspath(__file__)), "../..")
sys.path[:0] = [os.path.join(TOP, "python"), os.path.join(TOP, "python/tests")]

import psycopg2
from proxy_pair import Server, hears_interrupts, postgres_program, proxy_program

LISTEN, PAGE, METRICS = 6432, 8080, 9464  # on each machine; on the first one
LIMIT = 120.0  # seconds for whatever has to happen
PLANTS = 4000  # rows, of which each is used once
OWN_DEATH = re.compile(
    r"perhaps the backend died|server closed the connection|Connection refused|connection to server"
    r"|Run was aborted|could not create connection|Broken pipe|reset by peer|aborted while establishing"
)
OVERWRITE = "UPDATE planted SET n = %s, times = times + 1 WHERE id = %s"
LOOK = """\\set a random(1, :rows - 1)
\\set b random(:a + 1, :rows)
SELECT id, n FROM account WHERE id IN (:a, :b);
"""
MOVE = """\\set a random(1, :rows - 1)
\\set b random(:a + 1, :rows)
BEGIN;
SELECT n FROM account WHERE id = :a FOR UPDATE;
SELECT n FROM account WHERE id = :b FOR UPDATE;
UPDATE account SET n = n + 1 WHERE id = :a;
UPDATE account SET n = n + 1 WHERE id = :b;
COMMIT;
"""


def run(*call: str) -> None:
    done = subprocess.run(call, capture_output=True, text=True, check=False)
    if done.returncode:
        raise SystemExit(f"{' '.join(call)}: {done.stderr.strip()}")


def can_connect(host: str, port: int) -> bool:
    try:
        socket.create_connection((host, port), 1).close()
        return True
    except OSError:
        return False


def wait_for(what: str, holds: Any) -> None:
    until = time.monotonic() + LIMIT
    while not holds():
        if time.monotonic() > until:
            raise SystemExit(f"waited in vain: {what}")
        time.sleep(0.05)


class Machine:
    """A network namespace, its wire, its proxy, and its application."""

    def __init__(self, number: int, delay: float, folder: str, wire: str) -> None:
        self.number, self.delay = number, delay
        self.space = f"zanteyard{os.getpid()}-{number}"
        self.folder = os.path.join(folder, f"machine{number}")
        os.mkdir(self.folder, 0o700)
        net = f"10.{64 + os.getpid() % 128}.{number}"
        self.outside, self.inside = f"{net}.1", f"{net}.2"
        near, far = f"zy{os.getpid() % 100000}h{number}", f"zy{os.getpid() % 100000}m{number}"
        run("ip", "netns", "add", self.space)
        pipe = subprocess.PIPE
        call = [wire, near, far, str(int(delay * 500))]  # half of it each way
        self.wire = subprocess.Popen(call, stdin=pipe, stdout=pipe)
        assert self.wire.stdout is not None
        self.wire.stdout.readline()
        within = ("ip", "-n", self.space)
        run("ip", "link", "set", far, "netns", self.space)
        run("ip", "address", "add", self.outside, "peer", self.inside, "dev", near)
        run("ip", "link", "set", near, "up", "txqueuelen", "10000")
        run(*within, "link", "set", "lo", "up")
        run(*within, "address", "add", self.inside, "peer", self.outside, "dev", far)
        run(*within, "link", "set", far, "up", "txqueuelen", "10000")
        self.program: "subprocess.Popen[bytes] | None" = None
        self.killed: list[float] = []
        self.processed = self.runs = 0
        self.noticed: list[str] = []

    def start(self, *words: str, **more: Any) -> "subprocess.Popen[Any]":
        call = ["ip", "netns", "exec", self.space, *words]
        return subprocess.Popen(call, stdin=subprocess.DEVNULL, **more)

    def zanteyard(self, proxy: str, *words: str, **more: Any) -> None:
        environment = dict(os.environ, ZANTEYARD_PROXY=proxy, RUNTIME_DIRECTORY=self.folder)
        environment["PYTHONPATH"] = os.path.join(TOP, "python")
        with open(os.path.join(self.folder, "log"), "ab") as log:
            self.program = self.start(
                sys.executable, "-m", "zanteyard", *words, env=environment, stderr=log, **more
            )
        wait_for("a proxy listens", lambda: can_connect(self.inside, LISTEN))

    def has(self, text: str) -> bool:
        with open(os.path.join(self.folder, "log"), encoding="utf-8") as log:
            return text in log.read()

    def apply(self, asked: Any, ends: threading.Event, until: float) -> None:
        """Runs the application until the end, again and again if its proxy dies."""
        call = [postgres_program("pgbench") or "pgbench", "-n", "-M", "prepared"]
        call += ["-c", str(asked.clients), "-j", "1", "-h", self.inside, "-p", str(LISTEN)]
        call += ["-U", "postgres", "-D", f"rows={asked.rows}"]
        call += ["-f", f"{self.folder}/look.sql@{asked.look_share}"]
        call += ["-f", f"{self.folder}/move.sql@{100 - asked.look_share}"]
        if asked.rate:
            call += ["-R", f"{asked.rate / len(asked.delay):.0f}"]
        for name, text in (("look", LOOK), ("move", MOVE)):
            with open(f"{self.folder}/{name}.sql", "w", encoding="ascii") as file:
                file.write(text)
        while not ends.is_set() and time.monotonic() < until - 1:
            if not can_connect(self.inside, LISTEN):
                time.sleep(0.1)
                continue
            began, self.runs = time.monotonic(), self.runs + 1
            seconds = str(max(1, round(until - time.monotonic())))
            both: dict[str, Any] = {"stdout": subprocess.PIPE, "stderr": subprocess.STDOUT}
            bench = self.start(*call, "-T", seconds, "postgres", text=True, **both)
            said = bench.communicate()[0]
            done = re.search(r"transactions actually processed: (\d+)", said)
            self.processed += int(done[1]) if done else 0
            died = any(began - 2 <= at <= time.monotonic() for at in self.killed)
            for line in said.splitlines():
                if "error" in line.lower() and not (died and OWN_DEATH.search(line)):
                    self.noticed.append(f"machine {self.number}: {line}")

    def kill_proxy(self) -> None:
        self.killed.append(time.monotonic())
        for each in os.listdir("/proc"):
            if each.isdigit() and self._is_proxy(each):
                os.kill(int(each), signal.SIGKILL)

    def _is_proxy(self, process: str) -> bool:
        """Whether it is this machine's: what runs in its namespace has its folder in its
        environment."""
        try:
            with open(f"/proc/{process}/comm", encoding="utf-8") as file:
                name = file.read()
            with open(f"/proc/{process}/environ", "rb") as file:
                return name.startswith("zanteyard-proxy") and self.folder.encode() in file.read()
        except OSError:
            return False

    def end(self) -> None:
        if self.program and self.program.poll() is None:
            self.program.kill()
            self.program.wait()
        self.kill_proxy()
        self.wire.kill()
        self.wire.wait()
        subprocess.run(["ip", "netns", "del", self.space], check=False)


class Redis:
    def __init__(self, folder: str, addresses: list[str]) -> None:
        with socket.socket() as free:
            free.bind(("127.0.0.1", 0))
            self.port = int(free.getsockname()[1])
        self.call = ["redis-server", "--port", str(self.port), "--bind", "127.0.0.1", *addresses]
        self.call += ["--protected-mode", "no", "--save", "", "--dir", folder]
        self.start()

    def start(self) -> None:
        quiet = subprocess.DEVNULL
        self.process = subprocess.Popen(self.call, stdout=quiet, stderr=quiet, stdin=quiet)
        wait_for("Redis listens", lambda: can_connect("127.0.0.1", self.port))

    def end(self) -> None:
        self.process.kill()
        self.process.wait()


class World:
    """All machines, the server, Redis and the audit."""

    def __init__(self, asked: Any, folder: str, machines: list[Machine], server: Server, proxy: str):
        self.asked, self.folder, self.machines, self.server = asked, folder, machines, server
        self.proxy, self.lock = proxy, threading.Lock()
        self.redis = Redis(folder, [each.outside for each in machines])
        self.key = os.path.join(folder, "audit.key")
        with open(self.key, "w", encoding="ascii") as file:
            file.write("a key that only this run has 1234567")
        os.chmod(self.key, 0o600)
        self.kills: list[tuple[float, str]] = []
        self.planted: list[float] = []
        self.commits = 0  # of the planted ones
        for each in machines:
            self.begin(each)

    def begin(self, machine: Machine) -> None:
        url = f"postgresql://postgres@{machine.outside}:{self.server.port}/postgres"
        words = [url, "--trust-clients", "--listen", f"{machine.inside}:{LISTEN}", "--audit", "all"]
        words += ["--redis", f"redis://{machine.outside}:{self.redis.port}", "--key", self.key]
        if machine.number > 1:
            machine.zanteyard(self.proxy, "proxy", *words, "--name", f"machine {machine.number}")
            return
        words += ["--json", "--page", f"{machine.inside}:{PAGE}"]
        words += ["--metrics", f"{machine.inside}:{METRICS}"]
        machine.zanteyard(self.proxy, "watch", *words, stdout=subprocess.PIPE)
        wait_for("the audit begins", lambda: machine.has("auditing for"))

    def feeding(self) -> int:
        """How many proxies feed the audit."""
        address = f"http://{self.machines[0].inside}:{METRICS}/metrics"
        with contextlib.suppress(OSError):
            with urllib.request.urlopen(address, timeout=10) as page:
                found = re.search(r"zanteyard_other_proxies (\d+)", page.read().decode())
                return int(found[1]) if found else 0
        return 0

    def status(self) -> dict[str, Any] | None:
        address = f"http://{self.machines[0].inside}:{PAGE}/status.json"
        try:
            with urllib.request.urlopen(address, timeout=10) as page:
                its: dict[str, Any] = json.load(page)
                return its
        except (OSError, ValueError):
            return None

    def kill(self, kind: str, turn: int) -> None:
        self.kills.append((time.monotonic(), kind))
        if kind == "redis":
            self.redis.end()
            time.sleep(1)
            self.redis.start()
        elif kind == "watch":
            self.machines[0].kill_proxy()
        else:
            machine = self.machines[1 + turn % (len(self.machines) - 1)]
            machine.kill_proxy()
            if machine.program:
                machine.program.wait()
            time.sleep(1)
            self.begin(machine)

    def plant(self, ends: threading.Event) -> None:
        """Makes lost updates, each on a row of its own, by two machines."""
        turn = 0
        while not ends.wait(0.25) and turn < PLANTS:
            turn += 1
            pair = [self.machines[i % len(self.machines)] for i in (turn, turn + 1)]
            with contextlib.suppress(psycopg2.Error), contextlib.ExitStack() as all_:
                cursors = []
                for each in pair:
                    where = f"host={each.inside} port={LISTEN} user=postgres dbname=postgres"
                    one = all_.enter_context(contextlib.closing(psycopg2.connect(where)))
                    cursors.append(one.cursor())
                for _ in range(2):  # the first time is for the trial of the statements
                    for cursor in cursors:
                        cursor.execute("SELECT n FROM planted WHERE id = %s", (turn,))
                        cursor.fetchall()
                    for cursor in cursors:
                        cursor.execute(OVERWRITE, (turn, turn))
                        cursor.connection.commit()
                        self.commits += 1
                with self.lock:
                    self.planted.append(time.monotonic())


def share(seen: dict[str, Any]) -> tuple[int, int]:
    """How many transactions are decided, and how many of these were checked."""
    its = seen["transactions"]
    return its["all"] - its["waiting"], its["checked"] + sum(its["in_part"].values())


def show(world: World, began: float, before: tuple[float, int, int]) -> tuple[float, int, int]:
    status, now = world.status(), time.monotonic()
    if not status:
        print(f"{now - began:6.0f}  the page doesn't answer", flush=True)
        return before
    decided, checked = share(status["seen"])
    rate = (decided - before[1]) / max(now - before[0], 0.1)
    recent = 100 * (checked - before[2]) / max(1, decided - before[1])
    memory = "/".join(f"{size:.0f}" for size in sizes(world))
    print(
        f"{now - began:6.0f}{decided:12,}{rate:9,.0f}{100 * checked / max(1, decided):9.2f}{recent:9.2f}"
        f"{status['audits']:7}{status['violations']:11}{len(world.planted):8}{len(world.kills):6}"
        f"{world.feeding():8}  {memory}",
        flush=True,
    )
    return now, decided, checked


def sizes(world: World) -> list[float]:
    """MiB in memory of each proxy."""
    found = []
    for machine in world.machines:
        size = 0
        for each in os.listdir("/proc"):
            if each.isdigit() and machine._is_proxy(each):
                with contextlib.suppress(OSError, AttributeError):
                    with open(f"/proc/{each}/status", encoding="utf-8") as file:
                        size += int(re.search(r"VmRSS:\s*(\d+)", file.read())[1])  # type: ignore[index]
        found.append(size / 1024)
    return found


HEAD = f"{'s':>6}{'decided':>12}{'a second':>9}{'checked':>9}{'of late':>9}{'audits':>7}{'violations':>11}"
HEAD += f"{'planted':>8}{'kills':>6}{'feeding':>8}  MiB of each proxy"


def work(asked: Any, world: World) -> tuple[dict[str, Any], int, int]:
    """Lets all work; returns the outcome, and what clients were told is committed."""
    ends, began = threading.Event(), time.monotonic()
    until = began + asked.seconds
    threads = [
        threading.Thread(target=each.apply, args=(asked, ends, until)) for each in world.machines
    ]
    planter = threading.Thread(target=world.plant, args=(ends,))
    for thread in [*threads, *([planter] if asked.plant else [])]:
        thread.start()
    print(HEAD, flush=True)
    before, turn, killed = (began, 0, 0), 0, began
    shown = began
    while any(thread.is_alive() for thread in threads):
        time.sleep(0.2)
        now = time.monotonic()
        if now >= shown + asked.every:
            shown, before = now, show(world, began, before)
        if asked.kill and now >= killed + asked.kill_every and now < until - 2 * asked.kill_every:
            killed = now
            world.kill(asked.kill[turn % len(asked.kill)], turn // len(asked.kill))
            turn += 1
    ends.set()
    if asked.plant:
        planter.join()
    settle(world)
    show(world, began, before)
    watch = world.machines[0].program
    assert watch is not None
    watch.send_signal(signal.SIGINT)
    told = watch.communicate(timeout=300)[0].decode().splitlines()
    outcome: dict[str, Any] = json.loads(told[-1])
    return outcome, sum(each.processed for each in world.machines), turn


def settle(world: World) -> None:
    """Waits until nothing waits any more, and all proxies are heard."""
    until, last = time.monotonic() + 40, None
    since = time.monotonic()
    while time.monotonic() < min(until, since + 12):
        time.sleep(0.5)
        status = world.status()
        its = status and status["seen"]["transactions"]
        if its != last:
            last, since = its, time.monotonic()


def report(asked: Any, world: World, outcome: dict[str, Any], processed: int, rows: int) -> list[str]:
    """Prints the sums, and returns what is wrong."""
    seen, before = outcome["seen"], outcome["before"]
    its, written = seen["transactions"], seen["rows_written"]
    outside = seen.get("without_the_proxy", {})
    committed = processed + world.commits
    elsewhere = before["unaudited"] + before["untold"]
    counted = its["all"] + its["rolled_back"] + elsewhere
    in_outcome = written["all"] + outside.get("rows_written", 0)
    decided, checked = share(seen)
    print(f"\npgbench was told that {processed:,} are committed, in {sum(m.runs for m in world.machines)} runs, at "
          f"{processed / asked.seconds:,.0f} a second; {len(world.planted)} lost updates planted\n"
          f"transactions: {committed:,} committed; {counted:,} in the outcome, {its['rolled_back']} of them rolled back, "
          f"{elsewhere} before an audit; {checked:,} checked: {100 * checked / max(1, committed):.3f}%\n"
          f"  in part {its['in_part']}\n  not checked {its['not_checked']}\n"
          f"rows written: {rows:,} in the tables, {in_outcome:,} in the outcome, of which without the proxy\n"
          f"  {outside}\n"
          f"  not checked {written['not_checked']}\n"
          f"audits: {outcome['audits']}, lost: {[one['reason'] for one in outcome['lost']]}\n"
          f"verdict {outcome['verdict']}, {outcome['violations']} violations, in the tables "
          f"{sorted({table for each in outcome['groups'] for table in each['tables']})}; statements only seen in part: "
          f"{[(each['shape'], each['reason'], each['count']) for each in seen['statements'][:6]]}")
    wrong = [line for each in world.machines for line in each.noticed][:20]
    strange = [each for each in outcome["groups"] if set(each["tables"]) - {"planted"}]
    if strange or outcome["violations"] > 2 * len(world.planted) or outcome.get("ungrouped"):
        wrong.append(f"a violation was reported that wasn't made: {json.dumps(strange)[:2000]}")
    if world.planted and not outcome["violations"]:
        wrong.append("no planted violation was found")
    if outside.get("transactions"):
        wrong.append(f"nobody bypasses the proxies: {outside}")
    deaths = [kind for _, kind in world.kills if kind != "redis"]
    if in_outcome != rows and not deaths or in_outcome > rows:
        wrong.append(f"{in_outcome} rows are in the outcome, and {rows} were written")
    elif in_outcome != rows:
        print(f"rows that are in no place: {rows - in_outcome:,}")
    if counted != committed and not deaths:
        wrong.append(f"{counted} transactions are in the outcome, and {committed} were committed")
    elif counted != committed:
        print(f"transactions that are in no place, of proxies that were killed: {committed - counted:,}")
    if not world.kills and 100 * checked / max(1, committed) < asked.at_least:
        wrong.append("too little was checked")
    return wrong


@contextlib.contextmanager
def everything(asked: Any, folder: str) -> Iterator[World]:
    proxy = proxy_program(folder)
    if proxy is None:
        raise SystemExit("Go or its libraries are missing")
    wire = os.path.join(folder, "wire")
    run(shutil.which("cc") or "gcc", "-O2", "-o", wire, os.path.join(TOP, "bench/check/machines_wire.c"))
    machines: list[Machine] = []
    server = Server(os.path.join(folder, "server"))
    world: World | None = None
    try:
        for i, delay in enumerate(asked.delay):
            machines.append(Machine(i + 1, delay, folder, wire))
        server.initialize()
        with open(os.path.join(server.data, "postgresql.conf"), "a", encoding="ascii") as file:
            most = 2 * asked.clients * len(machines) + 50
            file.write(f"listen_addresses = '*'\nmax_connections = {most}\nautovacuum = off\n")
        with open(os.path.join(server.data, "pg_hba.conf"), "a", encoding="ascii") as file:
            file.writelines(f"host all all {each.inside}/32 trust\n" for each in machines)
        server.start()
        server.sql("postgres", "CREATE TABLE account (id int PRIMARY KEY, n bigint NOT NULL) WITH (fillfactor = 50);"
                   f"INSERT INTO account SELECT i, 0 FROM generate_series(1, {asked.rows}) i;"
                   "CREATE TABLE planted (id int PRIMARY KEY, n int NOT NULL, times int NOT NULL);"
                   f"INSERT INTO planted SELECT i, 0, 0 FROM generate_series(1, {PLANTS}) i; ANALYZE;")
        world = World(asked, folder, machines, server, proxy)
        yield world
    finally:
        for each in machines:
            each.end()
        if world:
            world.redis.end()
        server.stop()


def main() -> int:
    hears_interrupts()
    parser = argparse.ArgumentParser(description=__doc__.splitlines()[0])
    parser.add_argument("--delay", type=float, nargs="+", default=[1, 1, 20, 20], metavar="MS")
    parser.add_argument("--seconds", type=int, default=60, help="how long (60)")
    parser.add_argument("--clients", type=int, default=40, help="connections of each machine (40)")
    parser.add_argument("--rate", type=int, default=0, help="transactions a second of all (as many as they can)")
    parser.add_argument("--rows", type=int, default=20000, help="of the table (20000)")
    parser.add_argument("--look-share", type=int, default=95, help="of 100 transactions so many only read (95)")
    parser.add_argument("--every", type=float, default=10, help="seconds between lines (10)")
    parser.add_argument("--kill", nargs="+", choices=["proxy", "redis", "watch"], default=[])
    parser.add_argument("--kill-every", type=float, default=10, metavar="S", help="seconds between two kills (10)")
    parser.add_argument("--plant", action="store_true", help="make lost updates on purpose")
    parser.add_argument("--at-least", type=float, default=99, metavar="PERCENT", help="of 100 have to be checked (99)")
    asked = parser.parse_args()
    folder = tempfile.mkdtemp(prefix="machines")
    os.chmod(folder, 0o755)
    with everything(asked, folder) as world:
        wait_for("all proxies feed the audit", lambda: world.feeding() == len(world.machines) - 1)
        outcome, processed, _ = work(asked, world)
        connection = psycopg2.connect(f"host=127.0.0.1 port={world.server.port} user=postgres dbname=postgres")
        cursor = connection.cursor()
        cursor.execute("SELECT (SELECT sum(n) FROM account) + (SELECT sum(times) FROM planted)")
        rows = int(cursor.fetchone()[0])
        connection.close()
        wrong = report(asked, world, outcome, processed, rows)
        for line in wrong:
            print("WRONG:", line)
    if wrong:
        print(f"what was logged is in {folder}")
        return 1
    shutil.rmtree(folder, ignore_errors=True)
    return 0


if __name__ == "__main__":
    sys.exit(main())
