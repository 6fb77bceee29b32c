"""What ./try.sh shows, if PostgreSQL can be started here: a server in a temporary folder, a shop
that uses it, and Zanteyard between the two. The shop has a bug at PostgreSQL's default isolation
level, and none at serializable.

    PYTHON examples/try_postgres.py ZANTEYARD FOLDER

ZANTEYARD is the command; pages and logs are put into the folder. The status is 0 if the bug was
found and explained, and nothing was found at serializable; 3 if something isn't installed, with a
line that says what.
"""

import glob
import importlib.util
import os
import signal
import socket
import subprocess
import sys
import threading
import time
from collections.abc import Callable, Iterator
from contextlib import contextmanager

from zanteyard.trial.postgres_server import PostgresServer, program, trusted_plugins

HERE = os.path.dirname(os.path.abspath(__file__))
SHOP = os.path.join(HERE, "shop.py")
PASSWORD = "secret"  # of every role; the server listens on this machine, for these minutes
FOUND = 300.0  # seconds within which the bug has to be found, on however busy a machine
SALES = 150  # at serializable
MISSING = 3


def free_ports(count: int) -> list[int]:
    """Ports that nobody uses at the moment."""
    sockets = [socket.socket() for _ in range(count)]
    for one in sockets:
        one.bind(("127.0.0.1", 0))
    ports = [one.getsockname()[1] for one in sockets]
    for one in sockets:
        one.close()
    return ports


class Server(PostgresServer):
    """A server that applications reach by TCP, with a password, as they reach one elsewhere."""

    def __init__(self, port: int) -> None:
        super().__init__()
        self.port = port

    def start(self) -> None:
        settings = [
            "listen_addresses=127.0.0.1",
            f"port={self.port}",
            f"unix_socket_directories={self.folder}",
            "wal_level=logical",
            "fsync=off",
            "password_encryption=scram-sha-256",
            *trusted_plugins(),
        ]
        options = " ".join(f"-c {each}" for each in settings)
        how = ["-D", self.data, "-l", f"{self.folder}/log", "-o", options, "-w", "-t", "300"]
        self.run("pg_ctl", *how, "start")

    def psql(self, text: str, database: str = "postgres") -> None:
        at = ["-h", self.folder, "-p", str(self.port), "-U", "postgres", "-d", database]
        self.run("psql", "-q", "-v", "ON_ERROR_STOP=1", *at, "-c", text)

    def prepare(self) -> None:
        """The shop's database and role, and a role for the audit."""
        self.psql(f"CREATE ROLE shop LOGIN PASSWORD '{PASSWORD}'")
        self.psql(f"CREATE ROLE audit LOGIN REPLICATION PASSWORD '{PASSWORD}'")
        self.psql("CREATE DATABASE shop OWNER shop")
        with open(f"{self.data}/pg_hba.conf", "w", encoding="utf-8") as file:
            file.write("local all postgres trust\nhost all all 127.0.0.1/32 scram-sha-256\n")
        self.psql("SELECT pg_reload_conf()")

    def url(self, role: str, port: int | None = None) -> str:
        return f"postgresql://{role}@127.0.0.1:{port or self.port}/shop"


class Watch:
    """A run of `zanteyard watch`. What it prints is shown; its log is in a file."""

    def __init__(self, words: list[str], log: str) -> None:
        self.log = log
        with open(log, "w", encoding="utf-8") as file:
            self.process = subprocess.Popen(
                words, stdout=subprocess.PIPE, stderr=file, text=True, start_new_session=True
            )
        self.thread = threading.Thread(target=self._show)
        self.thread.start()

    def _show(self) -> None:
        assert self.process.stdout is not None
        for line in self.process.stdout:
            print(f"  | {line}", end="", flush=True)

    def wait_for(self, condition: Callable[[], bool], what: str) -> None:
        until = time.monotonic() + FOUND
        while not condition():
            if self.process.poll() is not None or time.monotonic() > until:
                with open(self.log, encoding="utf-8") as file:
                    sys.exit(f"{what} within {FOUND:.0f} s; the log of the audit:\n{file.read()}")
            time.sleep(0.1)

    def is_listening(self) -> bool:
        with open(self.log, encoding="utf-8") as file:
            return "applications can connect to" in file.read()

    def stop(self) -> int:
        """As Ctrl-C stops it: after a last round, and with its proxy."""
        self.process.send_signal(signal.SIGINT)
        status = self.process.wait()
        self.thread.join()
        return status

    def end(self) -> None:
        if self.process.poll() is None:
            self.stop()


def show(*words: str) -> list[str]:
    """Shows a command, and returns it."""
    print("$ " + " ".join(f"'{word}'" if " " in word else word for word in words), flush=True)
    return [*words]


class Try:
    """The steps of docs/WATCH.md."""

    def __init__(self, server: Server, zanteyard: str, folder: str) -> None:
        self.server, self.zanteyard, self.folder = server, zanteyard, folder
        self.listen, self.page = free_ports(2)

    def shop(self, *words: str, port: int | None = None) -> list[str]:
        return show("python3", "examples/shop.py", self.server.url("shop", port), *words)[2:]

    def sell(self, *words: str, port: int | None = None) -> "subprocess.Popen[bytes]":
        return subprocess.Popen([sys.executable, SHOP, *self.shop(*words, port=port)])

    def prepare(self) -> None:
        print("\nStep 1. What does the server still need?\n")
        url = self.server.url("audit")
        subprocess.run([self.zanteyard, *show("zanteyard", "prepare", url)[1:]], check=True)

    @contextmanager
    def watch(self, name: str) -> Iterator[Watch]:
        listen, page = f"127.0.0.1:{self.listen}", f"127.0.0.1:{self.page}"
        its = ["watch", self.server.url("audit"), "--listen", listen, "--page", page]
        words = show("zanteyard", *its, "--save", name)
        words = [self.zanteyard, *its, "--save", os.path.join(self.folder, name)]
        watch = Watch(words, os.path.join(self.folder, f"{name}.log"))
        try:
            watch.wait_for(watch.is_listening, "no audit began")
            yield watch
        finally:
            watch.end()

    def find(self) -> str:
        """Finds the bug; returns its page."""
        print("\nStep 2. The audit, which listens for applications at an address of its own.\n")
        pages = os.path.join(self.folder, "violations", "*.html")
        with self.watch("violations") as watch:
            print("\nStep 3. The application, with that address instead of the server's.\n")
            shop = self.sell(port=self.listen)
            try:
                watch.wait_for(lambda: bool(glob.glob(pages)), "no violation was found")
            finally:
                shop.terminate()
                shop.wait()
            status = watch.stop()
        if status != 1:
            sys.exit(f"the audit's status is {status}, but should be 1 (violated)")
        return sorted(glob.glob(pages))[0]

    def find_nothing(self) -> None:
        print("\nThe same shop at serializable, where PostgreSQL refuses what can't be serial.\n")
        with self.watch("none") as watch:
            shop = self.sell("--level", "serializable", "--sales", str(SALES), port=self.listen)
            if shop.wait() != 0:
                sys.exit("the shop failed")
            status = watch.stop()
        if status != 0:
            sys.exit(f"the audit's status is {status}, but should be 0 (serial)")


def missing(zanteyard: str) -> str:
    """What isn't installed; empty if nothing is missing."""
    if program("initdb") is None or program("psql") is None:
        return "PostgreSQL isn't installed"
    if not any(map(importlib.util.find_spec, ("psycopg2", "psycopg"))):
        return "neither psycopg2 nor psycopg is installed"
    version = subprocess.run([zanteyard, "--version"], capture_output=True, text=True).stdout
    its = [line for line in version.splitlines() if line.startswith("proxy ")]
    return "the proxy isn't built" if not its or "missing" in its[0] else ""


def main(zanteyard: str, folder: str) -> int:
    lacks = missing(zanteyard)
    if lacks:
        print(lacks)
        return MISSING
    os.environ["PGPASSWORD"] = PASSWORD
    # Shells start background commands with SIGINT ignored, and `watch` would inherit that.
    signal.signal(signal.SIGINT, signal.default_int_handler)
    server = Server(free_ports(1)[0])
    with server:
        server.prepare()
        its = Try(server, zanteyard, folder)
        print("\nA shop on a PostgreSQL server of its own:\n")
        if subprocess.run([sys.executable, SHOP, *its.shop("--create")]).returncode:
            return 1
        its.prepare()
        page = its.find()
        its.find_nothing()
    print(f"\nThe violation's page is {page}: open it in a browser.")
    return 0


if __name__ == "__main__":
    sys.exit(main(*sys.argv[1:]))
