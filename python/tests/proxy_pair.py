"""Two PostgreSQL servers with the same initial state, one of them behind the proxy, for tests that
run a program twice and compare its output."""

from __future__ import annotations

import glob
import json
import os
import shutil
import signal
import subprocess
import tempfile
import threading
import time
from typing import Any

from zanteyard.trial import postgres_server
from zanteyard.trial.postgres_server import trusted_plugins

from tests.waiting import at_a_free_port

TOP = os.path.normpath(os.path.join(os.path.dirname(os.path.abspath(__file__)), "../.."))
DRIVERS = os.path.join(TOP, "proxy/drivers")
LIMIT = 600.0  # seconds for whatever has to arrive
SETTINGS = (
    *("fsync=off", "autovacuum=off", "wal_level=logical", "max_prepared_transactions=10"),
    *("shared_buffers=64MB", "jit=off", "max_parallel_workers_per_gather=0", "timezone=UTC"),
)


def postgres_program(name: str) -> str | None:
    """The path of PostgreSQL's program of this name; None if it isn't installed."""
    if os.environ.get(postgres_server.BIN):
        return postgres_server.program(name)
    places = glob.glob(f"/usr/lib/postgresql/*/bin/{name}")
    places.sort(key=lambda path: int(path.split("/")[4]))
    return places[-1] if places else shutil.which(name)


def proxy_program(folder: str) -> str | None:
    """The proxy that ZANTEYARD_PROXY names, or one built in the folder. None without Go or its
    libraries."""
    given = os.environ.get("ZANTEYARD_PROXY")
    if given:
        return given
    libraries = ("jackc/pgproto3/v2", "jackc/pgconn", "gomodule/redigo/redis")
    needed = ["/usr/include/pg_query.h"]
    needed += [f"/usr/share/gocode/src/github.com/{each}" for each in libraries]
    if not shutil.which("go") or not all(map(os.path.exists, needed)):
        return None
    build = os.path.join(TOP, "proxy/build.sh")
    done = subprocess.run([build, folder], capture_output=True, text=True, timeout=1800)
    if done.returncode:
        raise AssertionError(done.stdout + done.stderr)
    return os.path.join(folder, "zanteyard-proxy")


def hears_interrupts() -> None:
    """Makes the programs that this one starts end at SIGINT. A shell without job control starts a
    program in the background that ignores it, as nohup does, and so would whatever it starts."""
    signal.signal(signal.SIGINT, signal.default_int_handler)


class Server:
    """A PostgreSQL server in a folder of its own. Root runs it as the user postgres."""

    def __init__(self, folder: str) -> None:
        self.folder = folder
        self.data = os.path.join(folder, "data")
        as_postgres = {"user": "postgres", "group": "postgres"}
        self.user: dict[str, Any] = as_postgres if os.geteuid() == 0 else {}
        os.mkdir(folder)
        if self.user:
            shutil.chown(folder, "postgres", "postgres")

    def run(self, name: str, *arguments: str) -> None:
        quiet: dict[str, Any] = {"stdin": subprocess.DEVNULL, "stdout": subprocess.DEVNULL}
        call = [postgres_program(name) or name, *arguments]
        environment = dict(os.environ, LC_ALL="C")
        subprocess.run(
            call, check=True, cwd=self.folder, timeout=LIMIT, env=environment, **quiet, **self.user
        )

    def initialize(self) -> None:
        options = ("-A", "trust", "-U", "postgres", "-E", "UTF8", "--locale=C", "--no-sync")
        self.run("initdb", "-D", self.data, *options)

    def copy(self, other: Server) -> None:
        done = ["cp", "-a", other.data, self.data]
        subprocess.run(done, check=True, timeout=LIMIT, **self.user)

    def start(self, port: int | None = None) -> None:
        """Starts it at this port, or at a free one."""
        if port is None:
            at_a_free_port(self.start)
            return
        self.port = port
        more = " ".join(f"-c {each}" for each in (*SETTINGS, *trusted_plugins()))
        options = f"-p {self.port} -c unix_socket_directories={self.folder} {more}"
        log, waits = os.path.join(self.folder, "log"), ("-w", "-t", str(int(LIMIT)))
        self.run("pg_ctl", "-D", self.data, "-l", log, "-o", options, *waits, "start")

    def stop(self) -> None:
        try:
            self.run("pg_ctl", "-D", self.data, "-m", "immediate", "-w", "stop")
        except subprocess.SubprocessError:
            pass  # it wasn't started

    def sql(self, user: str, text: str) -> None:
        """Runs statements without the proxy."""
        call = ["psql", "-X", "-q", "-v", "ON_ERROR_STOP=1", "-h", "127.0.0.1"]
        call += ["-p", str(self.port), "-U", user, "-d", "postgres"]
        done = subprocess.run(call, input=text, capture_output=True, text=True, timeout=LIMIT)
        if done.returncode:
            raise AssertionError(done.stderr)


def listening(path: str) -> int:
    """The port at which a proxy listens, once its log names it."""
    ends = time.monotonic() + LIMIT
    while time.monotonic() < ends:
        with open(path, encoding="utf-8") as log:
            for line in log:
                if "listening on 127.0.0.1:" in line and line.endswith("\n"):
                    return int(line.rsplit(":", 1)[1])
        time.sleep(0.02)
    raise AssertionError("the proxy doesn't listen")


class Proxy:
    """The proxy in front of a server, with a parent that reads its feed."""

    def __init__(self, program: str, server: Server, folder: str) -> None:
        self.log = os.path.join(folder, "proxy.log")
        call = [program, "--listen", "127.0.0.1:0", "--between", "200ms", "--look", "100ms"]
        source = f"host=127.0.0.1 port={server.port} user=postgres dbname=postgres sslmode=disable"
        pipes: dict[str, Any] = {"stdin": subprocess.PIPE, "stdout": subprocess.PIPE}
        with open(self.log, "w", encoding="utf-8") as log:
            self.process = subprocess.Popen(
                [*call, "--trust-clients", "--server", source], stderr=log, text=True, **pipes
            )
        self.offers: list[list[int]] = []
        self._sessions = 0
        self._says = threading.Lock()
        self.events: dict[str, Any] = {}
        self.changed = threading.Condition()
        threading.Thread(target=self._read, daemon=True).start()
        try:
            self.until("started")
            self.port = listening(self.log)
        except BaseException:
            self.stop()
            raise

    def _read(self) -> None:
        for line in self.process.stdout or ():
            one = json.loads(line)
            with self.changed:
                if isinstance(one, dict):
                    self.events[one["event"]] = one
                elif one[0] == "open":
                    self._sessions = one[1]
                elif one[0] in ("offer", "join"):
                    first = 0 if one[0] == "join" else one[2]
                    self.offers += [[one[1], first + place] for place in range(len(one[-1]))]
                    self._sessions = max(self._sessions, one[1] + 1)
                self.changed.notify_all()
            if one == ["truncate"]:  # else the audit takes it for an auditor that fell behind
                self.say(command="cut", marks=[0] * self._sessions)
        with self.changed:
            self.events["ended"] = self.events.get("ended", {"reason": "the proxy has ended"})
            self.changed.notify_all()

    def say(self, **command: Any) -> None:
        assert self.process.stdin
        with self._says:
            self.process.stdin.write(json.dumps(command) + "\n")
            self.process.stdin.flush()

    def until(self, event: str) -> Any:
        """Waits for an event of this name, and returns the last one."""
        with self.changed:
            self.changed.wait_for(lambda: event in self.events or "ended" in self.events, LIMIT)
            if event not in self.events:
                raise AssertionError(f"no event {event}: {self.events.get('ended')}, {self.told()}")
            return self.events[event]

    def told(self) -> str:
        with open(self.log, encoding="utf-8") as log:
            return log.read()[-3000:]

    def reads_by_user(self) -> dict[str, int]:
        """Ends the audit, and counts the offered reads of each user."""
        self.say(command="stop")
        self.until("stopped")
        self.say(command="describe", id=1, transactions=self.offers)
        counts: dict[str, int] = {}
        for each in self.until("transactions")["transactions"]:
            if each.get("known") and not each["fence"]:
                counts[each["user"]] = counts.get(each["user"], 0) + len(each["reads"])
        return counts

    def stop(self) -> None:
        self.process.terminate()
        try:
            self.process.wait(20)
        except subprocess.TimeoutExpired:
            self.process.kill()
            self.process.wait()
        for pipe in (self.process.stdin, self.process.stdout):
            if pipe:
                pipe.close()


class Pair:
    """The two servers and the proxy. `program` is the proxy's."""

    def __init__(self) -> None:
        self.folder = ""
        self.proxy: Proxy | None = None
        self.servers: list[Server] = []

    def make_folder(self) -> None:
        self.folder = tempfile.mkdtemp(prefix="zanteyard-pair-")
        os.chmod(self.folder, 0o711)

    def start(self, program: str) -> None:
        direct, behind = (Server(os.path.join(self.folder, each)) for each in ("direct", "behind"))
        direct.initialize()
        behind.copy(direct)
        for each in (direct, behind):
            self.servers.append(each)
            each.start()
        self.proxy = Proxy(program, behind, self.folder)

    def sql(self, user: str, text: str) -> None:
        for each in self.servers:
            each.sql(user, text)

    def prepare(self, user: str) -> None:
        """Creates a user with a schema, and the tables of setup.sql in it."""
        as_postgres = f"CREATE ROLE {user} LOGIN CREATEROLE;"
        as_postgres += f"CREATE SCHEMA {user} AUTHORIZATION {user};"
        with open(os.path.join(DRIVERS, "setup.sql"), encoding="utf-8") as file:
            setup = file.read()
        self.sql("postgres", as_postgres + f"GRANT CREATE ON DATABASE postgres TO {user};")
        self.sql(user, setup)

    def run(self, user: str, call: list[str], **environment: str) -> list[str]:
        """What the program prints, directly and through the proxy; both runs at the same time."""
        assert self.proxy
        began = []
        for port in (self.servers[0].port, self.proxy.port):
            variables = {"PGHOST": "127.0.0.1", "PGPORT": str(port), "PGUSER": user}
            variables.update(PGDATABASE="postgres", PGSSLMODE="disable", TZ="UTC", LC_ALL="C.UTF-8")
            variables.update(environment)
            with open(os.path.join(self.folder, f"{user}.{port}"), "w+b") as out:
                began.append(
                    subprocess.Popen(
                        *(call,),
                        env=dict(os.environ, **variables),
                        stdin=subprocess.DEVNULL,
                        stdout=out,
                        stderr=subprocess.STDOUT,
                        cwd=DRIVERS,
                    )
                )
        texts = []
        try:
            for process, port in zip(began, (self.servers[0].port, self.proxy.port)):
                status = process.wait(LIMIT)
                with open(os.path.join(self.folder, f"{user}.{port}"), encoding="utf-8") as file:
                    texts.append(f"{file.read()}status {status}\n")
        finally:
            for process in began:
                if process.poll() is None:
                    process.kill()
                    process.wait()
        return texts

    def stop(self) -> None:
        if self.proxy:
            self.proxy.stop()
        for each in self.servers:
            each.stop()
        if self.folder:
            shutil.rmtree(self.folder, ignore_errors=True)
