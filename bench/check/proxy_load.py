"""Clients that strain a proxy: many that come and go, one that reads nothing, one that sends a lot.

    python3 bench/check/proxy_load.py [--seconds 60] [--rate 1000] [--mebibytes 1024] [--inserts 200]
        [--patience 1] [--work NAME ..]

`churn`   --rate connections a second open, run one transaction that writes, and close
`unread`  a client asks for --mebibytes of rows, reads nothing for --seconds, and then all of them
`copy`    a client sends --mebibytes by COPY
`message` a client sends half as much in one message, as the parameter of a statement
`parameters` eight clients each make --inserts inserts of 30,000 parameters in a transaction

They run at the server and through `zanteyard watch`, in turn. Beside each works one client that
reads a row a hundred times a second: its longest wait is shown, and how much more memory the proxy
has at the end, and had at most. The exit status is 1 if a client saw an error through the proxy or
got something else than without it, if the proxy took more than 128 MiB or kept a connection, or if
the other client waited for more than --patience seconds longer than without the proxy.

It needs PostgreSQL, psycopg2, a built proxy (ZANTEYARD_PROXY, or Go) and the auditor.
"""

import argparse
import hashlib
import multiprocessing
import os
import shutil
import signal
import socket
import statistics
import struct
import subprocess
import sys
import tempfile
import threading
import time
from typing import Any

TOP = os.path.normpath(os.path.join(os.path.dirname(os.path.abspath(__file__)), "../.."))
sys.path[:0] = [os.path.join(TOP, "python"), os.path.join(TOP, "python/tests")]

sys.path[:0] = [os.path.join(os.path.dirname(os.path.abspath(__file__)), "../cost")]
from proxy_cost import descendants, free_port, wait_for, wait_for_audit
from proxy_pair import Server, hears_interrupts, postgres_program, proxy_program

MANY = 30000  # parameters of a statement
PROCESSES = 4  # that the clients of `churn` are spread over
MOST = 128 << 20  # bytes that the proxy may take for one of these
SOCKET = 5.0  # seconds within which a connection has to be closed


class Lost(Exception):
    """An error that a client saw."""


class Raw:
    """A client of the protocol, without a driver."""

    def __init__(self, port: int) -> None:
        self.socket = socket.create_connection(("127.0.0.1", port), 120)
        self.socket.setsockopt(socket.IPPROTO_TCP, socket.TCP_NODELAY, 1)
        self.stream = self.socket.makefile("rb", 1 << 16)
        words = b"user\0postgres\0database\0postgres\0\0"
        self.socket.sendall(struct.pack("!II", 8 + len(words), 196608) + words)
        self.until(b"Z")

    def message(self) -> tuple[bytes, bytes]:
        head = self.stream.read(5)
        if len(head) < 5:
            raise Lost("the connection was closed")
        body = self.stream.read(struct.unpack("!I", head[1:])[0] - 4)
        if head[:1] == b"E":
            raise Lost(body.decode("utf-8", "replace"))
        return head[:1], body

    def until(self, kind: bytes) -> list[bytes]:
        """The rows up to a message of this kind."""
        rows = []
        while (its := self.message())[0] != kind:
            if its[0] == b"D":
                rows.append(its[1])
        return rows

    def send(self, kind: bytes, *parts: bytes) -> None:
        self.socket.sendall(kind + struct.pack("!I", 4 + sum(map(len, parts))))
        for part in parts:
            self.socket.sendall(part)

    def query(self, text: str) -> list[bytes]:
        self.send(b"Q", text.encode() + b"\0")
        return self.until(b"Z")

    def close(self) -> None:
        self.send(b"X")
        self.socket.close()


def come_and_go(port: int, rate: float, seconds: float, told: Any) -> None:
    """One process's share of `churn`: threads that each keep to a schedule of their own."""
    took: list[float] = []
    errors: list[str] = []
    lock = threading.Lock()
    began, count = time.monotonic() + 0.5, int(rate * seconds)
    numbers = iter(range(count))

    def client() -> None:
        while True:
            with lock:
                number = next(numbers, None)
            if number is None:
                return
            time.sleep(max(0.0, began + number / rate - time.monotonic()))
            at = time.monotonic()
            try:
                its = Raw(port)
                its.query(f"UPDATE load SET n = n + 1 WHERE id = {number % 1000}")
                its.close()
                with lock:
                    took.append(time.monotonic() - at)
            except (Lost, OSError) as error:
                with lock:
                    errors.append(f"{type(error).__name__}: {error}")

    threads = [threading.Thread(target=client) for _ in range(24)]
    for each in threads:
        each.start()
    for each in threads:
        each.join()
    told.send((took, errors, time.monotonic() - began))


def churn(port: int, options: Any) -> str:
    parts = []
    for _ in range(PROCESSES):
        mine, theirs = multiprocessing.Pipe(duplex=False)
        share = (port, options.rate / PROCESSES, options.seconds, theirs)
        part = multiprocessing.Process(target=come_and_go, args=share)
        part.start()
        parts.append((part, mine))
    took: list[float] = []
    errors: list[str] = []
    lasted = 0.0
    for part, mine in parts:
        its, wrong, seconds = mine.recv()
        took, errors, lasted = took + its, errors + wrong, max(lasted, seconds)
        part.join()
    if errors:
        raise Lost(f"{len(errors)} errors, {len(took)} without: {errors[:3]}")
    ordered = sorted(took)
    return (
        f"{len(took):,} connections, {len(took) / lasted:,.0f} a second; each took "
        f"{1000 * statistics.median(took):.1f} ms, 99% at most {1000 * ordered[len(ordered) * 99 // 100]:.0f}"
    )


def unread(port: int, options: Any) -> str:
    its = Raw(port)
    its.send(b"Q", f"SELECT id, repeat('x', 1000) FROM generate_series(1, {options.mebibytes * 1024}) id\0".encode())
    time.sleep(options.seconds)
    rows, digest = 0, hashlib.sha256()
    while (m := its.message())[0] != b"Z":
        if m[0] == b"D":
            rows += 1
            digest.update(m[1])
    its.close()
    return f"{rows:,} rows after {options.seconds:.0f} s, sha256 {digest.hexdigest()[:12]}"


def copy(port: int, options: Any) -> str:
    its, at = Raw(port), time.monotonic()
    its.send(b"Q", b"COPY load (id, word) FROM STDIN WHERE id < 0\0")
    while its.message()[0] != b"G":
        pass
    block = b"7\t" + b"y" * ((1 << 20) - 3) + b"\n"
    for _ in range(options.mebibytes):
        its.send(b"d", block)
    its.send(b"c")
    its.until(b"Z")
    its.close()
    return f"{options.mebibytes} MiB in {time.monotonic() - at:.1f} s"


def message(port: int, options: Any) -> str:
    its, at, size = Raw(port), time.monotonic(), options.mebibytes << 19
    its.send(b"P", b"\0SELECT length($1), n FROM load WHERE id = 7\0", struct.pack("!HI", 1, 25))
    block = b"z" * (1 << 20)
    head = b"\0\0" + struct.pack("!HHI", 0, 1, size)
    its.send(b"B", head, *([block] * (size >> 20)), block[: size % (1 << 20)], struct.pack("!H", 0))
    its.send(b"E", b"\0" + struct.pack("!I", 0))
    its.send(b"S")
    rows = its.until(b"Z")
    its.close()
    return f"{size >> 20} MiB in {time.monotonic() - at:.1f} s, the row {rows}"


def inserts(port: int, count: int, wrong: list[str]) -> None:
    try:
        its = Raw(port)
        its.query("BEGIN")
        values = ",".join(f"(${i + 1})" for i in range(MANY))
        its.send(b"P", b"s\0INSERT INTO heap VALUES " + values.encode() + b"\0\0\0")
        parameters = (struct.pack("!I", 20) + b"x" * 20) * MANY
        for _ in range(count):
            its.send(b"B", b"\0s\0\0\0" + struct.pack("!H", MANY), parameters, b"\0\0")
            its.send(b"E", b"\0\0\0\0\0")
            its.send(b"S")
            its.until(b"Z")
        its.query("COMMIT")
        its.close()
    except (Lost, OSError) as error:
        wrong.append(str(error))


def parameters(port: int, options: Any) -> str:
    wrong: list[str] = []
    threads = [threading.Thread(target=inserts, args=(port, options.inserts, wrong)) for _ in range(8)]
    at = time.monotonic()
    for each in threads:
        each.start()
    for each in threads:
        each.join()
    if wrong:
        raise Lost(wrong[0])
    return f"{8 * options.inserts:,} inserts in {time.monotonic() - at:.1f} s"


WORKS = {"churn": churn, "unread": unread, "copy": copy, "message": message, "parameters": parameters}


class Beside:
    """A client that reads a row now and then."""

    def __init__(self, port: int) -> None:
        self.waits: list[float] = []
        self.wrong: list[str] = []
        self.over = threading.Event()
        self.thread = threading.Thread(target=self.run, args=(port,))
        self.thread.start()

    def run(self, port: int) -> None:
        try:
            its = Raw(port)
            while not self.over.wait(0.01):
                at = time.monotonic()
                its.query("SELECT n FROM load WHERE id = 7")
                self.waits.append(time.monotonic() - at)
            its.close()
        except (Lost, OSError) as error:
            self.wrong.append(str(error))

    def end(self) -> float:
        self.over.set()
        self.thread.join()
        return max(self.waits, default=0.0)


class Proxy:
    """The proxy's process."""

    def __init__(self, watch: int) -> None:
        for each in descendants(watch):
            with open(f"/proc/{each}/comm", encoding="utf-8") as file:
                if file.read().startswith("zanteyard-proxy"):
                    self.pid = each
        self.most, self.over = 0, threading.Event()

    def memory(self) -> int:
        with open(f"/proc/{self.pid}/status", encoding="utf-8") as file:
            line = next(line for line in file if line.startswith("VmRSS"))
        return int(line.split()[1]) << 10

    def connections(self) -> int:
        return len(os.listdir(f"/proc/{self.pid}/fd"))

    def watched(self) -> None:
        while not self.over.wait(0.05):
            self.most = max(self.most, self.memory())


def both(name: str, options: Any, direct: int, listen: int, proxy: Proxy) -> bool:
    """Runs one of these with and without the proxy, and prints what it did."""
    said, waits, fine = [], [], True
    for side, port in (("server", direct), ("proxy", listen)):
        before, files = proxy.memory(), proxy.connections()
        proxy.most, proxy.over = 0, threading.Event()
        watching = threading.Thread(target=proxy.watched)
        watching.start()
        beside = Beside(port)
        try:
            its = WORKS[name](port, options)
        except Lost as error:
            its, fine = f"FAILED: {error}", fine and side == "server"
        waits.append(beside.end())
        fine = fine and not beside.wrong
        proxy.over.set()
        watching.join()
        more = f"; another client waited for {1000 * waits[-1]:.0f} ms at most{' and FAILED' if beside.wrong else ''}"
        if side == "proxy":
            ends = time.monotonic() + SOCKET
            while proxy.connections() > files and time.monotonic() < ends:
                time.sleep(0.05)
            left, most = proxy.connections() - files, proxy.most - before
            more += f"; the proxy took {most >> 20} MiB at most, and kept {(proxy.memory() - before) >> 20}"
            if left > 2 or most > MOST:  # two: the audit's own may come and go
                more, fine = f"{more}; {left} sockets are left", False
        print(f"{name}, {side}: {its}{more}", flush=True)
        said.append(its)
    same = [its.split(", ")[-1] if name in ("unread", "message") else "" for its in said]
    return fine and same[0] == same[1] and waits[1] < waits[0] + options.patience


def run(options: Any, folder: str) -> bool:
    program = proxy_program(folder)
    server = Server(os.path.join(folder, "server"))
    server.initialize()
    with open(os.path.join(server.data, "postgresql.conf"), "a", encoding="ascii") as settings:
        settings.write("max_connections = 400\n")
    server.start()
    listen, page = free_port(), f"127.0.0.1:{free_port()}"
    watch = None
    try:
        server.sql("postgres", "CREATE TABLE load (id int PRIMARY KEY, n int DEFAULT 0, word text);"
                   "INSERT INTO load SELECT i FROM generate_series(0, 999) i; ANALYZE load;"
                   "CREATE UNLOGGED TABLE heap (word text)")
        environment = dict(os.environ, ZANTEYARD_PROXY=program, RUNTIME_DIRECTORY=folder)
        environment["PYTHONPATH"] = os.path.join(TOP, "python")
        where = f"postgresql://postgres@127.0.0.1:{server.port}/postgres"
        call = [sys.executable, "-m", "zanteyard", "watch", where, "--trust-clients", "--json", "--metrics", page]
        with open(os.path.join(folder, "log"), "wb") as log:
            watch = subprocess.Popen([*call, "--listen", f"127.0.0.1:{listen}"], env=environment,
                                     stdin=subprocess.DEVNULL, stdout=subprocess.PIPE, stderr=log, text=True)
        wait_for("127.0.0.1", listen)
        wait_for_audit(page)
        proxy = Proxy(watch.pid)
        fine = True
        for name in options.work:
            fine = both(name, options, server.port, listen, proxy) and fine
    finally:
        if watch:
            watch.send_signal(signal.SIGINT)
            out, _ = watch.communicate(timeout=600)
            print(f"watch ended with status {watch.returncode}: {out.splitlines()[-1][:300] if out else ''}")
        server.stop()
    return fine


def main() -> int:
    hears_interrupts()
    signal.signal(signal.SIGINT, signal.default_int_handler)
    parser = argparse.ArgumentParser(description=__doc__, formatter_class=argparse.RawDescriptionHelpFormatter)
    parser.add_argument("--seconds", type=float, default=60)
    parser.add_argument("--rate", type=float, default=1000)
    parser.add_argument("--mebibytes", type=int, default=1024)
    parser.add_argument("--inserts", type=int, default=200)
    parser.add_argument("--patience", type=float, default=1, metavar="SECONDS")
    parser.add_argument("--work", nargs="+", default=list(WORKS), choices=WORKS, metavar="NAME")
    options = parser.parse_args()
    if not postgres_program("initdb"):
        raise SystemExit("PostgreSQL isn't installed")
    folder = tempfile.mkdtemp()
    os.chmod(folder, 0o755)
    try:
        return 0 if run(options, folder) else 1
    finally:
        shutil.rmtree(folder, ignore_errors=True)


if __name__ == "__main__":
    sys.exit(main())
