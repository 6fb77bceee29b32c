"""A PostgreSQL server in a temporary folder."""

from __future__ import annotations

import glob
import os
import shutil
import signal
import subprocess
import sys
import time
from collections.abc import Iterator, Sequence
from contextlib import contextmanager
from typing import Any

from ._throwaway_folder import TRIES, new_path

INITIAL = ("-A", "trust", "-U", "postgres", "-E", "UTF8", "--locale=C", "--no-sync")
STARTING = 300  # seconds for a server to take connections
STOPPING = 20  # seconds for a server to stop
BIN = "ZANTEYARD_POSTGRES_BIN"  # in the environment: the folder of the programs to take


def program(name: str) -> str | None:
    """The path of PostgreSQL's program of this name, in the folder that ZANTEYARD_POSTGRES_BIN
    names if it is set; None if it isn't installed."""
    if os.environ.get(BIN):
        return shutil.which(os.path.join(os.environ[BIN], name))
    places = glob.glob(f"/usr/lib/postgresql/*/bin/{name}")
    places.sort(key=lambda path: int(path.split("/")[4]))
    return shutil.which(name) or (places[-1] if places else None)


def trusted_plugins() -> Sequence[str]:
    """The setting that allows wal2json to read the log, if the server has it: 15.19 and later, and
    equally late versions of other releases."""
    name = "output_plugin_libraries"
    call = [program("postgres") or "postgres", "--describe-config"]
    try:
        known = subprocess.run(call, capture_output=True, text=True, check=False).stdout
    except OSError:
        return ()
    is_known = any(line.startswith(f"{name}\t") for line in known.splitlines())
    return (f"{name}=pgoutput,test_decoding,wal2json",) if is_known else ()


@contextmanager
def ended_by_signals() -> Iterator[None]:
    """A context in which SIGTERM, sent by `timeout` and systemd, and SIGHUP, sent when a terminal
    is closed, end the program by an exception, so that it cleans up. For the main thread."""

    def end(number: int, _: object) -> None:
        for each in before:
            signal.signal(each, signal.SIG_IGN)  # once is enough
        sys.exit(128 + number)

    before = {each: signal.getsignal(each) for each in (signal.SIGTERM, signal.SIGHUP)}
    if before[signal.SIGHUP] == signal.SIG_IGN:
        del before[signal.SIGHUP]  # as nohup wants it
    for each in before:
        signal.signal(each, end)
    try:
        yield
    finally:
        for each, handler in before.items():
            signal.signal(each, handler)


class PostgresServer:
    """A server that only listens on a socket in its folder. PostgreSQL doesn't run as root, so root
    runs it as the user postgres."""

    table = "zanteyard"

    def __init__(self) -> None:
        as_postgres = {"user": "postgres", "group": "postgres"}
        self.user: dict[str, Any] = as_postgres if os.geteuid() == 0 else {}

    def run(self, name: str, *arguments: str, **more: Any) -> None:
        call = [program(name) or name, *arguments]
        quiet: dict[str, Any] = {"stdin": subprocess.DEVNULL, "stdout": subprocess.DEVNULL}
        subprocess.run(call, check=True, cwd=self.folder, **quiet, **self.user, **more)

    def __enter__(self) -> PostgresServer:
        self.folder = new_path()
        self.data = f"{self.folder}/data"
        self.dsn = f"host={self.folder} user=postgres dbname=postgres"
        try:
            os.mkdir(self.folder, 0o700)
            if self.user:
                shutil.chown(self.folder, "postgres", "postgres")
            self.run("initdb", "-D", self.data, *INITIAL)
            self.start()
        except BaseException:
            self.__exit__()
            raise
        return self

    def start(self) -> None:
        """Starts the server, also after `stop`."""
        options = f"-c listen_addresses='' -c unix_socket_directories={self.folder} -c fsync=off"
        options += "".join(f" -c {each}" for each in trusted_plugins())
        log, waits = f"{self.folder}/log", ("-w", "-t", str(STARTING))
        self.run("pg_ctl", "-D", self.data, "-l", log, "-o", options, *waits, "start")

    def stop(self) -> None:
        """Ends the server at once, as if it had crashed. Does nothing if it isn't running."""
        ends = time.monotonic() + STOPPING
        pid = self.runs()
        while pid is not None:
            is_late = time.monotonic() > ends
            try:
                os.kill(pid, signal.SIGKILL if is_late else signal.SIGQUIT)
            except ProcessLookupError:
                return
            time.sleep(0.05)
            pid = self.runs()

    def runs(self) -> int | None:
        """The server's process number, or None."""
        try:
            with open(f"{self.data}/postmaster.pid", encoding="ascii") as file:
                pid = abs(int(file.readline()))  # negative while initdb runs one
            with open(f"/proc/{pid}/stat", encoding="utf-8", errors="replace") as file:
                return None if file.read().rsplit(")", 1)[1].split()[0] == "Z" else pid
        except (OSError, ValueError, IndexError):
            return None

    def __exit__(self, *_: object) -> None:
        self.stop()
        for _try in range(TRIES):  # what initdb has started may still create files
            shutil.rmtree(self.folder, ignore_errors=True)
            if not os.path.exists(self.folder):
                break
            time.sleep(0.1)
