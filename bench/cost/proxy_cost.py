"""What the proxy costs an application, compared with a direct connection and with pgbouncer.

    python3 bench/cost/proxy_cost.py [--seconds N] [--times N] [--clients N ..] [--work NAME ..]
        [--way NAME ..] [--protocol NAME ..] [--scale N] [--latency] [--waits]

Each work of pgbench (`select` is its -S, `update` its -N, `tpcb` its tpcb-like; `transfer` is two
reads and an update at serializable; `asks` is a read and an update, where two reads in five ask by
a condition, hardly ever the same one) runs each way in turn: `direct`, `pgbouncer` (session
pooling), `slot` (a direct connection, while `pg_recvlogical` reads the writes from a slot as the audit
does), `passing` (the proxy with --pass), `audited` (`zanteyard watch --no-conditions` with everything
that it starts), `followed` (the same with conditions). The programs in between run only during their
turn. The table has, as medians: transactions per second; their share of the direct ones; the
microseconds of processor time per transaction, of pgbouncer or the proxy, and of the rest of the
audit; with --latency, the median and the 99th percentile of a transaction's time, in microseconds;
and with --waits, the slowest run's rate, the microseconds per transaction for which threads of
pgbouncer or the proxy could run but had no processor, and the share of the machine's processors that
was idle. With TMPDIR=/dev/shm the server's folder is in memory.

It needs PostgreSQL 15, pgbouncer and a built proxy (`proxy/build.sh`, or ZANTEYARD_PROXY).
"""

import argparse
import contextlib
import os
import re
import shutil
import signal
import socket
import statistics
import subprocess
import sys
import tempfile
import time
import urllib.request
from collections.abc import Iterator
from typing import Any

TOP = os.path.join(os.path.dirname(os.path.abspath(__file__)), "../..")
sys.path[:0] = [os.path.join(TOP, "python"), os.path.join(TOP, "python/tests")]
from proxy_pair import Server, hears_interrupts, postgres_program, proxy_program

WAYS = ("direct", "pgbouncer", "slot", "passing", "audited", "followed")
WORKS = ("select", "update", "tpcb", "transfer", "asks")
TICKS = os.sysconf("SC_CLK_TCK")
TRANSFER = """\\set a random(1, 100000 * :scale)
\\set b random(1, 100000 * :scale)
\\set n random(1, 100)
BEGIN ISOLATION LEVEL SERIALIZABLE;
SELECT abalance FROM pgbench_accounts WHERE aid = :a;
SELECT abalance FROM pgbench_accounts WHERE aid = :b;
UPDATE pgbench_accounts SET abalance = abalance - :n WHERE aid = :a;
COMMIT;
"""
VISITS = """CREATE TABLE visits (id int PRIMARY KEY, room int NOT NULL, state int NOT NULL);
INSERT INTO visits SELECT i, i / 3, 0 FROM generate_series(1, 300000) i;
CREATE INDEX ON visits (room); ANALYZE visits"""
VISIT = """\\set a random(1, 300000)
\\set b random(1, 300000)
\\set r random(1, 100000)
\\set n random(1, 100)
BEGIN;
SELECT id, state FROM visits WHERE {};
UPDATE visits SET state = :n, room = :b / 3 WHERE id = :b;
COMMIT;
"""
ASKS = {"asks": ("room = :r AND state >= 0", 2), "finds": ("id = :a", 3)}  # by weight
BOUNCER = """[databases]
* = host={host} port={port} user=postgres
[pgbouncer]
listen_addr = 127.0.0.1
listen_port = {listen}
auth_type = any
pool_mode = session
max_client_conn = 500
default_pool_size = 100
pidfile = {folder}/pgbouncer.pid
unix_socket_dir =
ignore_startup_parameters = extra_float_digits
"""
SLOT = "cost"  # and what the proxy asks of its own
OPTIONS = {"format-version": 2, "include-xids": 1, "include-lsn": 1, "include-pk": 1}
OPTIONS |= {"include-types": 0, "include-timestamp": 0, "include-transaction": 1}


def free_port() -> int:
    with socket.socket() as free:
        free.bind(("127.0.0.1", 0))
        return int(free.getsockname()[1])


def wait_for(host: str, port: int, seconds: float = 30) -> None:
    until = time.monotonic() + seconds
    while True:
        try:
            socket.create_connection((host, port), 1).close()
            return
        except OSError:
            if time.monotonic() > until:
                raise SystemExit(f"nothing listens on port {port}") from None
            time.sleep(0.05)


def wait_for_audit(figures: str, seconds: float = 60) -> None:
    until = time.monotonic() + seconds
    while time.monotonic() < until:
        with contextlib.suppress(OSError):
            with urllib.request.urlopen(f"http://{figures}/metrics", timeout=10) as page:
                if b"\nzanteyard_audits_total 1\n" in page.read():
                    return
        time.sleep(0.05)
    raise SystemExit("the audit hasn't begun")


def processor_time(pid: int) -> float:
    """The processor time of a process, in seconds, with all its threads; 0 if it is gone."""
    try:
        with open(f"/proc/{pid}/stat", encoding="ascii") as file:
            fields = file.read().rpartition(")")[2].split()
    except OSError:
        return 0.0
    return (int(fields[11]) + int(fields[12])) / TICKS


def queued_time(pid: int) -> float:
    """For how many seconds the threads of a process could run, but had no processor."""
    waited = 0
    with contextlib.suppress(OSError):
        for task in os.listdir(f"/proc/{pid}/task"):
            with open(f"/proc/{pid}/task/{task}/schedstat", encoding="ascii") as file:
                waited += int(file.read().split()[1])
    return waited / 1e9


def idle_time() -> float:
    """For how many seconds the machine's processors were idle, all together."""
    with open("/proc/stat", encoding="ascii") as file:
        fields = file.readline().split()
    return (int(fields[4]) + int(fields[5])) / TICKS


def descendants(pid: int) -> list[int]:
    found = [pid]
    for each in found:
        with contextlib.suppress(OSError):
            for task in os.listdir(f"/proc/{each}/task"):
                with open(f"/proc/{each}/task/{task}/children", encoding="ascii") as file:
                    found += [int(word) for word in file.read().split()]
    return found


class Way:
    """One way to the server: where clients connect, and which processes stand between."""

    def __init__(self, name: str, host: str, port: int, pid: int | None = None) -> None:
        self.name, self.host, self.port, self.pid = name, host, port, pid
        self.queued = 0.0  # for which what passes the traffic on had waited for a processor

    def used(self) -> tuple[float, float]:
        """Processor time so far: of what passes the traffic on, and of everything else that was
        started."""
        if self.pid is None:
            return 0.0, 0.0
        between = beside = self.queued = 0.0
        for each in descendants(self.pid):
            try:
                with open(f"/proc/{each}/comm", encoding="utf-8") as file:
                    command = file.read().strip()
            except OSError:
                continue
            if command.startswith(("zanteyard-proxy", "pgbouncer")):
                between += processor_time(each)
                self.queued += queued_time(each)
            else:
                beside += processor_time(each)
        return between, beside


class Started:
    """The programs in between, started one after another, and ended together."""

    def __init__(self, folder: str, host: str, port: int, proxy: str) -> None:
        self.folder, self.host, self.port, self.proxy = folder, host, port, proxy
        self.running: list["subprocess.Popen[bytes]"] = []

    def way(self, name: str) -> Way:
        if name == "direct":
            return Way(name, self.host, self.port)
        if name == "slot":
            return Way(name, self.host, self.port, self.reading())
        listen = free_port()
        url = f"postgresql://postgres@{self.host}:{self.port}/postgres"
        environment = dict(os.environ, ZANTEYARD_PROXY=self.proxy)
        environment["PYTHONPATH"] = os.path.join(TOP, "python")
        as_user: dict[str, Any] = {}
        if name == "pgbouncer":
            path = os.path.join(self.folder, "pgbouncer.ini")
            with open(path, "w", encoding="utf-8") as file:
                text = BOUNCER.format(
                    host=self.host, port=self.port, listen=listen, folder=self.folder
                )
                file.write(text)
            program = shutil.which("pgbouncer", path="/usr/sbin:" + os.environ["PATH"])
            call = [program or "pgbouncer", "-q", path]
            if os.geteuid() == 0:
                as_user = {"user": "postgres", "group": "postgres"}
        elif name == "passing":
            call = [self.proxy, "--pass", "--trust-clients", "--listen", f"127.0.0.1:{listen}", "--server", url]
        else:
            figures = f"127.0.0.1:{free_port()}"
            call = [sys.executable, "-m", "zanteyard", "watch", url, "--log", "WARNING"]
            call.append("--trust-clients")
            call += ["--listen", f"127.0.0.1:{listen}", "--metrics", figures]
            call += ["--no-conditions"] if name == "audited" else []
        log = open(os.path.join(self.folder, f"{name}.log"), "wb")
        started = subprocess.Popen(
            call, stdin=subprocess.DEVNULL, stdout=log, stderr=log, env=environment, **as_user
        )
        self.running.append(started)
        wait_for("127.0.0.1", listen)
        if name in ("audited", "followed"):
            wait_for_audit(figures)
        return Way(name, "127.0.0.1", listen, started.pid)

    def _recvlogical(self) -> list[str]:
        call = [postgres_program("pg_recvlogical") or "pg_recvlogical", "-h", self.host]
        return [*call, "-p", str(self.port), "-U", "postgres", "-d", "postgres", "-S", SLOT]

    def reading(self) -> int:
        """Starts a reader of the server's writes, and returns its process."""
        call = [*self._recvlogical(), "-P", "wal2json", "--create-slot", "--start", "-f", "/dev/null"]
        for option, value in OPTIONS.items():
            call += ["-o", f"{option}={value}"]
        log = open(os.path.join(self.folder, "slot.log"), "wb")
        started = subprocess.Popen(call, stdin=subprocess.DEVNULL, stdout=log, stderr=log)
        self.running.append(started)
        time.sleep(1)  # the slot is made, and read
        if started.poll() is not None:
            raise SystemExit("the slot can't be read")
        return started.pid

    @contextlib.contextmanager
    def turn(self, name: str) -> Iterator[Way]:
        """A context in which a way's programs run."""
        try:
            yield self.way(name)
        finally:
            self.end()
            if name == "slot":
                subprocess.run([*self._recvlogical(), "--drop-slot"], check=True)

    def end(self) -> None:
        for each in self.running:
            each.send_signal(signal.SIGINT)
        for each in self.running:
            try:
                each.wait(60)
            except subprocess.TimeoutExpired:
                each.kill()
        self.running = []


def latencies(folder: str) -> tuple[float, float]:
    """Microseconds of a transaction according to pgbench's logs: the median and the 99th
    percentile."""
    taken = []
    for name in os.listdir(folder):
        if name.startswith("latency"):
            with open(os.path.join(folder, name), encoding="ascii") as file:
                taken += [int(line.split()[2]) for line in file]
            os.remove(os.path.join(folder, name))
    taken.sort()
    if not taken:
        return 0.0, 0.0
    return float(taken[len(taken) // 2]), float(taken[len(taken) * 99 // 100])


class Figures:
    """The figures of one run."""

    def __init__(self, rate: float, used: list[float], idle: float, late: tuple[float, float]):
        self.rate, self.idle, self.late = rate, idle, late
        self.between, self.beside, self.queued = used


def run(asked: Any, folder: str, way: Way, work: str, protocol: str, clients: int) -> Figures:
    call = [postgres_program("pgbench") or "pgbench", "-n", "-M", protocol, "-c", str(clients)]
    call += ["-j", str(min(clients, 2)), "-T", str(asked.seconds), "-h", way.host]
    call += ["-p", str(way.port), "-U", "postgres", "-s", str(asked.scale)]
    if work == "select":
        call.append("-S")
    elif work == "update":
        call.append("-N")
    elif work == "transfer":
        call += ["-f", os.path.join(folder, "transfer.sql"), "--max-tries", "100"]
    elif work == "asks":
        for name, (_, weight) in ASKS.items():
            call += ["-f", os.path.join(folder, f"{name}.sql@{weight}")]
    if asked.latency:
        call += ["-l", "--log-prefix", os.path.join(folder, "latency")]
    if asked.rate:
        call += ["-R", str(asked.rate)]
    before, idle, began = (*way.used(), way.queued), idle_time(), time.monotonic()
    done = subprocess.run(call + ["postgres"], capture_output=True, text=True, check=False)
    idle = (idle_time() - idle) / (time.monotonic() - began) / (os.cpu_count() or 1)
    after = (*way.used(), way.queued)
    rate = re.search(r"tps = ([0-9.]+) \(without initial", done.stdout)
    count = re.search(r"transactions actually processed: ([0-9]+)", done.stdout)
    if rate is None or count is None or not int(count[1]):
        raise SystemExit(f"{way.name} {work} {protocol}: {done.stdout}{done.stderr}")
    used = [(b - a) * 1e6 / int(count[1]) for a, b in zip(before, after)]
    return Figures(float(rate[1]), used, idle, latencies(folder))


def middle(runs: list[Figures], name: str) -> float:
    return statistics.median(getattr(each, name) for each in runs)


def table(asked: Any, folder: str, started: Started) -> None:
    print(f"{'work':9}{'protocol':9}{'clients':>8}  {'way':10}{'a second':>9}{'of direct':>10}"
          f"{'between':>9}{'beside':>8}" + (f"{'middle':>9}{'99/100':>9}" if asked.latency else "")
          + (f"{'slowest':>9}{'queued':>8}{'idle':>6}" if asked.waits else ""))
    for work in asked.work:
        for protocol in asked.protocol:
            for clients in asked.clients:
                runs: dict[str, list[Figures]] = {name: [] for name in asked.way}
                for _ in range(asked.times):
                    for name in asked.way:
                        with started.turn(name) as way:
                            runs[name].append(run(asked, folder, way, work, protocol, clients))
                first = middle(runs[asked.way[0]], "rate")
                for name in asked.way:
                    of_way = runs[name]
                    line = f"{work:9}{protocol:9}{clients:8}  {name:10}"
                    line += f"{middle(of_way, 'rate'):9.0f}{middle(of_way, 'rate') / first:10.2f}"
                    line += f"{middle(of_way, 'between'):9.1f}{middle(of_way, 'beside'):8.1f}"
                    if asked.latency:
                        for place in (0, 1):
                            late = statistics.median(each.late[place] for each in of_way)
                            line += f"{late:9.0f}"
                    if asked.waits:
                        line += f"{min(each.rate for each in of_way):9.0f}"
                        line += f"{middle(of_way, 'queued'):8.1f}{middle(of_way, 'idle'):6.0%}"
                    print(line, flush=True)


@contextlib.contextmanager
def prepared_server(folder: str, scale: int) -> Iterator[tuple[Server, str]]:
    """A server with pgbench's tables, prepared for an audit, and the proxy's program. The folder is
    removed afterwards, unless something went wrong."""
    proxy = proxy_program(folder)
    if proxy is None:
        raise SystemExit("Go or its libraries are missing")
    server = Server(os.path.join(folder, "server"))
    server.initialize()
    server.start()
    try:
        call = [postgres_program("pgbench") or "pgbench", "-i", "-q", "-s", str(scale)]
        call += ["-h", "127.0.0.1", "-p", str(server.port), "-U", "postgres", "postgres"]
        subprocess.run(call, check=True, capture_output=True)
        call = [postgres_program("psql") or "psql", "-qX", "-h", "127.0.0.1", "-p", str(server.port)]
        subprocess.run([*call, "-U", "postgres", "-c", VISITS, "postgres"], check=True)
        yield server, proxy
    except BaseException:
        print(f"what the programs logged is in {folder}", file=sys.stderr)
        raise
    finally:
        server.stop()
    shutil.rmtree(folder, ignore_errors=True)


def main() -> None:
    hears_interrupts()
    parser = argparse.ArgumentParser(description=__doc__.splitlines()[0])
    parser.add_argument("--seconds", type=int, default=5, help="the length of a run (5)")
    parser.add_argument("--times", type=int, default=5, help="how many runs of each kind (5)")
    parser.add_argument("--scale", type=int, default=10, help="pgbench's scale (10)")
    parser.add_argument("--clients", type=int, nargs="+", default=[1, 8], help="how many clients (1 8)")
    parser.add_argument("--work", nargs="+", choices=WORKS, default=list(WORKS))
    parser.add_argument("--way", nargs="+", choices=WAYS, default=list(WAYS))
    protocols = ("simple", "extended", "prepared")
    parser.add_argument("--protocol", nargs="+", choices=protocols, default=["simple", "prepared"])
    parser.add_argument("--rate", type=int, help="transactions a second at most")
    parser.add_argument("--latency", action="store_true", help="also show how long transactions took")
    parser.add_argument("--waits", action="store_true", help="also show what waited for processors")
    asked = parser.parse_args()
    folder = tempfile.mkdtemp(prefix="proxy_cost")
    os.chmod(folder, 0o777)
    with open(os.path.join(folder, "transfer.sql"), "w", encoding="utf-8") as file:
        file.write(TRANSFER)
    for name, (condition, _) in ASKS.items():
        with open(os.path.join(folder, f"{name}.sql"), "w", encoding="utf-8") as file:
            file.write(VISIT.format(condition))
    with prepared_server(folder, asked.scale) as (server, proxy):
        table(asked, folder, Started(folder, "127.0.0.1", server.port, proxy))


if __name__ == "__main__":
    main()
