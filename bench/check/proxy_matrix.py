"""What clients see of accidents, with and without the proxy: a table of drivers and accidents.

    python3 bench/check/proxy_matrix.py [--only ACCIDENT,..] [--drivers DRIVER,..] [--long] [--close S] [--show]

Two equal servers run, one of them behind `zanteyard watch`. Each driver whose packages are installed
has a client at both (bench/check/matrix/). For each accident all clients do the same; it happens to both
servers, or to the audit alone; and each client's answers are compared: values, the error's class and
SQLSTATE, whether it can go on, and how long that took (--close, a second more, is a difference).
--long adds a network that stands still for 30 s. --show prints the answers.

A cell is `same`, `-` if the driver lacks it, or what differs. The exit status is 1 if something
differs.

It needs PostgreSQL, openssl, redis-server, psycopg2, a built proxy (ZANTEYARD_PROXY, or Go) and the
auditor; and for its clients what Debian has: python3-psycopg, python3-asyncpg, python3-sqlalchemy,
python3-django, libpostgresql-jdbc-java, golang-github-jackc-pgx-v4-dev, golang-github-lib-pq-dev,
node-pg.
"""

import argparse
import asyncio
import importlib.util
import json
import os
import resource
import shutil
import signal
import socket
import subprocess
import sys
import tempfile
import threading
import time

TOP = os.path.normpath(os.path.join(os.path.dirname(os.path.abspath(__file__)), "../.."))
sys.path[:0] = [os.path.join(TOP, "python"), os.path.join(TOP, "python/tests")]
HERE = os.path.join(TOP, "bench/check/matrix")

import psycopg2
from proxy_pair import Server, postgres_program, proxy_program

LIMIT = 120.0  # seconds for whatever has to happen
JDBC = "/usr/share/java/postgresql.jar"
NODE = f"{os.environ.get('NODE_PATH', '')}:/usr/share/nodejs"
PYTHON = {"psycopg2": "psycopg2", "psycopg 3": "psycopg", "asyncpg": "asyncpg", "SQLAlchemy": "sqlalchemy",
          "Django": "django"}


def free_port():
    with socket.socket() as its:
        its.bind(("127.0.0.1", 0))
        return its.getsockname()[1]


def until(what, condition):
    ends = time.monotonic() + LIMIT
    while not (its := condition()):
        if time.monotonic() > ends:
            raise SystemExit(f"waited in vain until {what}")
        time.sleep(0.05)
    return its


class Relay:
    """Between a server and whoever connects to it: a network that can stand still, or break."""

    def __init__(self, target):
        self.target, self.port = target, free_port()
        self.loop, self.open, self.writers = asyncio.new_event_loop(), None, set()
        ready = threading.Event()
        threading.Thread(target=self.run, args=(ready,), daemon=True).start()
        ready.wait(LIMIT)

    def run(self, ready):
        asyncio.set_event_loop(self.loop)

        async def begin():
            self.open = asyncio.Event()
            self.open.set()
            await asyncio.start_server(self.pair, "127.0.0.1", self.port)
            ready.set()

        self.loop.run_until_complete(begin())
        self.loop.run_forever()

    async def pair(self, reader, writer):
        try:
            far = await asyncio.open_connection("127.0.0.1", self.target)
        except OSError:
            writer.close()
            return
        self.writers |= {writer, far[1]}
        await asyncio.gather(self.one(reader, far[1]), self.one(far[0], writer))
        self.writers -= {writer, far[1]}

    async def one(self, reader, writer):
        try:
            while data := await reader.read(1 << 16):
                await self.open.wait()
                writer.write(data)
                await writer.drain()
        except OSError:
            pass
        writer.close()

    def stop(self):
        self.loop.call_soon_threadsafe(self.open.clear)

    def go_on(self):
        self.loop.call_soon_threadsafe(self.open.set)

    def break_(self):
        def its():
            for each in list(self.writers):
                each.transport.abort()

        self.loop.call_soon_threadsafe(its)


class Client:
    """A driver's process, at one side."""

    def __init__(self, call, port):
        environment = dict(os.environ, NODE_PATH=NODE)
        self.process = subprocess.Popen(
            [*call, str(port)], stdin=subprocess.PIPE, stdout=subprocess.PIPE, stderr=subprocess.DEVNULL,
            text=True, env=environment,
        )
        self.saw, self.answered, self.asked = [], threading.Condition(), 0
        threading.Thread(target=self.read, daemon=True).start()

    def read(self):
        for line in self.process.stdout:
            with self.answered:
                self.saw.append((json.loads(line), time.monotonic()))
                self.answered.notify_all()
        with self.answered:
            self.asked = -1
            self.answered.notify_all()

    def say(self, command):
        self.said = time.monotonic()
        if self.asked < 0:
            return
        self.asked += 1
        try:
            self.process.stdin.write(command + "\n")
            self.process.stdin.flush()
        except BrokenPipeError:
            pass  # the reader sees its end

    def hear(self, limit=LIMIT):
        with self.answered:
            self.answered.wait_for(lambda: self.asked < 0 or len(self.saw) >= self.asked, limit)
            if self.asked < 0 or len(self.saw) < self.asked:
                return {"error": "it ended" if self.asked < 0 else "no answer"}, time.monotonic()
            return self.saw[-1]

    def end(self):
        self.process.kill()
        self.process.wait()


class Watch:
    """The audit, and with it the proxy."""

    def __init__(self, its, *more, room=None):
        call = [sys.executable, "-m", "zanteyard", "watch", its.where, "--trust-clients", "--json",
                "--listen", f"127.0.0.1:{its.listen}", "--tls-cert", its.cert, "--tls-key", its.key, *more]
        self.process = subprocess.Popen(
            call, env=its.environment, stdin=subprocess.DEVNULL, stdout=subprocess.DEVNULL,
            stderr=subprocess.PIPE, text=True, start_new_session=True,
            preexec_fn=room and (lambda: resource.setrlimit(resource.RLIMIT_FSIZE, (room, room))),
        )
        self.log, self.world = [], its
        threading.Thread(target=lambda: self.log.extend(iter(self.process.stderr.readline, "")), daemon=True).start()

    def says(self, text):
        return any(text in line for line in list(self.log))

    def audits(self):
        def its():
            if self.process.poll() is not None:
                raise SystemExit("watch has ended:\n" + "".join(self.log))
            return self.says("auditing for")

        until("watch audits", its)
        until("there is a slot", lambda: self.world.sql(1, "SELECT 1 FROM pg_replication_slots WHERE active"))
        return self

    def kill(self):
        self.process.kill()
        self.process.wait()


class World:
    """Both servers, the proxy, and the clients."""

    def __init__(self, folder, drivers):
        self.folder = folder
        self.servers = [Server(os.path.join(folder, name)) for name in ("direct", "behind")]
        self.cert, self.key = os.path.join(folder, "proxy.crt"), os.path.join(folder, "proxy.key")
        self.certify()
        for each in self.servers:
            each.initialize()
            with open(os.path.join(each.data, "postgresql.conf"), "a", encoding="ascii") as settings:
                settings.write("ssl = on\nmax_connections = 100\n")
            self.give(each)
            each.start()
            each.sql("postgres", "CREATE TABLE matrix (id int PRIMARY KEY, n int); CREATE TABLE copied (id int);"
                     "INSERT INTO matrix SELECT i, 0 FROM generate_series(1, 2000) i; ANALYZE matrix")
        self.relays = [Relay(each.port) for each in self.servers]
        self.listen = free_port()
        self.where = f"postgresql://postgres@127.0.0.1:{self.relays[1].port}/postgres?sslmode=prefer"
        control = os.path.join(folder, "control")
        os.mkdir(control, 0o700)
        self.control = control
        self.environment = {**os.environ, "ZANTEYARD_PROXY": proxy_program(folder), "RUNTIME_DIRECTORY": control,
                            "PYTHONPATH": os.path.join(TOP, "python")}
        self.watch = Watch(self).audits()
        ports = (self.relays[0].port, self.listen)
        self.clients = {name: [Client(call, port) for port in ports] for name, call in drivers.items()}

    def certify(self):
        call = ["openssl", "req", "-x509", "-newkey", "rsa:2048", "-nodes", "-keyout", self.key, "-out", self.cert,
                "-days", "2", "-subj", f"/CN={time.time()}"]
        subprocess.run(call, check=True, capture_output=True)

    def give(self, server):
        for path, name in ((self.cert, "server.crt"), (self.key, "server.key")):
            its = os.path.join(server.data, name)
            shutil.copy(path, its)
            os.chmod(its, 0o600)
            if server.user:
                shutil.chown(its, "postgres", "postgres")

    def sql(self, side, text):
        its = psycopg2.connect(f"host=127.0.0.1 port={self.servers[side].port} user=postgres dbname=postgres")
        its.autocommit = True
        try:
            cursor = its.cursor()
            cursor.execute(text)
            return cursor.fetchall() if cursor.description else None
        finally:
            its.close()

    def proxy(self):
        """The process number of the proxy that serves the address now."""
        for name in os.listdir(self.control):
            if name.endswith(".sock"):
                try:
                    with socket.socket(socket.AF_UNIX) as its:
                        its.settimeout(10)
                        its.connect(os.path.join(self.control, name))
                        its.sendall(b'{"command":"who"}\n')
                        return json.loads(its.makefile().readline())["process"]
                except OSError:
                    pass
        return None

    def again(self, *more, room=None):
        """Another watch in place of this one, and of its proxy. A file of it has at most so much room."""
        self.watch.process.send_signal(signal.SIGTERM)
        self.watch.process.wait(LIMIT)
        if number := self.proxy():
            for _ in range(2):  # the second one closes all connections
                try:
                    os.kill(number, signal.SIGTERM)
                except ProcessLookupError:
                    break
                time.sleep(0.2)
            until("the proxy has ended", lambda: not os.path.exists(f"/proc/{number}"))
        self.watch = Watch(self, *more, room=room).audits()

    def terminate(self, *sides, where="true"):
        for side in sides or (0, 1):
            self.sql(side, "SELECT pg_terminate_backend(pid) FROM pg_stat_activity WHERE "
                           f"backend_type = 'client backend' AND pid <> pg_backend_pid() AND application_name <> 'zanteyard' AND {where}")

    def stop(self):
        for pair in self.clients.values():
            for each in pair:
                each.end()
        number = self.proxy()
        self.watch.kill()
        if number:
            os.kill(number, signal.SIGKILL)
        for each in self.servers:
            each.stop()


class Cells:
    """What all clients see of one accident."""

    def __init__(self, world):
        self.world = world
        self.answers = {name: ([], []) for name in world.clients}

    def say(self, command):
        """Each client does this, all at once. Nobody waits for the answers yet."""
        self.command = command
        for pair in self.world.clients.values():
            for each in pair:
                each.say(command)

    def hear(self):
        for name, pair in self.world.clients.items():
            for side, each in enumerate(pair):
                answer, when = each.hear()
                self.answers[name][side].append((self.command, answer, when - each.said))

    def do(self, *commands):
        for command in commands:
            self.say(command)
            self.hear()

    def connect(self, command="connect"):
        """Each client connects, if need be several times: only the last answer counts."""
        for pair in self.world.clients.values():
            for each in pair:
                each.say("close")
        for pair in self.world.clients.values():
            for each in pair:
                each.hear(10)
        begun = time.monotonic()
        for name, pair in self.world.clients.items():
            for side, each in enumerate(pair):
                while True:
                    each.say(command)
                    answer, _ = each.hear()
                    if "ok" in answer or time.monotonic() > begun + LIMIT:
                        break
                    time.sleep(0.05)
                self.answers[name][side].append((command, answer, 0.0))

    def differences(self, name, close):
        direct, proxied = self.answers[name]
        found = []
        for (command, one, fast), (_, other, slow) in zip(direct, proxied):
            if seen(one) != seen(other):
                found.append(f"{command}: {seen(one)}, with the proxy {seen(other)}")
            elif slow > fast + close:
                found.append(f"{command}: {fast:.1f} s, with the proxy {slow:.1f}")
        return found


def seen(answer):
    if "ok" in answer:
        return "ok" if answer["ok"] is None else f"ok {answer['ok']}"
    return f"{answer['error']} {answer.get('state')}"


def restarted(world, cells):
    cells.do("ask")
    for side in (0, 1):
        server = world.servers[side]
        server.run("pg_ctl", "-D", server.data, "-m", "fast", "-w", "stop")
    for side in (0, 1):
        world.servers[side].start(world.servers[side].port)
    cells.do("ask")
    cells.connect()
    cells.do("ask", "write")


def crashed(world, cells):
    """A backend is killed, so the server ends all of them, and recovers."""
    cells.do("begin", "write")
    for side in (0, 1):
        number = world.sql(side, "SELECT pid FROM pg_stat_activity WHERE backend_type = 'checkpointer'")[0][0]
        os.kill(number, signal.SIGKILL)
    time.sleep(0.5)
    cells.do("ask")
    cells.connect()
    cells.do("ask", "write")


def slot_dropped(world, cells):
    until("there is a slot", lambda: world.sql(1, "SELECT 1 FROM pg_replication_slots WHERE active"))
    cells.do("begin", "write")
    world.sql(1, "SELECT pg_terminate_backend(active_pid) FROM pg_replication_slots")
    cells.do("ask", "commit", "ask")


def stands_still(seconds):
    def its(world, cells):
        cells.do("begin", "write")
        for each in world.relays:
            each.stop()
        cells.say("ask")
        time.sleep(seconds)
        for each in world.relays:
            each.go_on()
        cells.hear()
        cells.do("commit", "ask")

    return its


def breaks(world, cells):
    cells.do("begin", "write")
    for each in world.relays:
        each.break_()
    time.sleep(0.5)
    cells.do("ask")
    cells.connect()
    cells.do("ask")


def terminated(world, cells):
    cells.say("sleep")
    time.sleep(1.5)
    world.terminate()
    cells.hear()
    cells.connect()
    cells.do("ask")


def terminated_idle(world, cells):
    cells.do("ask")
    world.terminate()
    time.sleep(0.5)
    cells.do("ask")
    cells.connect()
    cells.do("ask")


def cancelled(world, cells):
    cells.do("cancelled")
    if "pgx" in world.clients:  # it closes its connection
        cells.connect()
    cells.do("ask", "begin", "write", "commit")


def copy_cut_off(world, cells):
    cells.say("copy")
    time.sleep(1.5)
    world.terminate()
    cells.hear()
    cells.connect()
    cells.do("ask")


def audit_killed(world, cells):
    cells.do("begin", "write")
    world.watch.kill()
    cells.do("ask", "commit", "ask")
    cells.connect()
    cells.do("ask")
    world.watch = Watch(world).audits()  # it takes the proxy over
    cells.do("ask", "begin", "write", "commit")


def drained(world, cells):
    """Each transaction ends before its connection does. Without the proxy the connections are ended after it."""
    cells.do("begin", "write")
    world.watch.process.send_signal(signal.SIGTERM)
    world.watch.process.wait(LIMIT)
    os.kill(world.proxy(), signal.SIGTERM)
    cells.do("ask", "commit")
    world.terminate(0)
    time.sleep(0.5)
    cells.do("ask")
    world.watch = Watch(world).audits()
    cells.connect()
    cells.do("ask")


def renewed(world, cells):
    cells.connect("connect_tls")
    cells.do("ask", "begin", "write")
    world.certify()
    world.give(world.servers[0])
    world.servers[0].run("pg_ctl", "-D", world.servers[0].data, "reload")
    os.kill(world.proxy(), signal.SIGHUP)
    cells.do("ask", "commit", "ask")
    cells.connect("connect_tls")
    cells.do("ask")


def redis_gone(world, cells):
    port = free_port()
    redis = subprocess.Popen(["redis-server", "--port", str(port), "--save", "", "--dir", world.folder],
                             stdout=subprocess.DEVNULL)
    key = os.path.join(world.folder, "audit.key")
    made = [sys.executable, "-m", "zanteyard", "key", key]
    subprocess.run(made, env=world.environment, check=True, capture_output=True)
    try:
        time.sleep(1)
        world.again("--redis", f"redis://127.0.0.1:{port}", "--audit", "matrix", "--key", key)
        cells.connect()
        cells.do("ask", "begin", "write")
    finally:
        redis.kill()
        redis.wait()
    cells.do("ask", "commit", "ask")
    cells.connect()
    cells.do("ask", "write")
    world.again()


def journal_full(world, cells):
    """The audit's journal can't be written any more. A file that may not grow stands for the disk."""
    its = os.path.join(world.folder, "journal")
    os.mkdir(its, 0o700)
    world.again("--journal", os.path.join(its, "audit.journal"), room=1 << 13)
    cells.connect()
    cells.do("ask", "begin", "write")
    with psycopg2.connect(f"host=127.0.0.1 port={world.listen} user=postgres dbname=postgres") as busy:
        def has_said():
            for _ in range(10):
                busy.cursor().execute("UPDATE matrix SET n = n + 1 WHERE id = 1999")
                busy.commit()
            return world.watch.says("can't be written") or world.watch.says("can't be rewritten")

        until("the journal is full", has_said)
    busy.close()
    cells.do("ask", "commit", "ask")
    cells.connect()
    cells.do("ask", "write")
    world.again()


ACCIDENTS = {
    "terminated in a statement": terminated, "terminated while idle": terminated_idle, "cancelled": cancelled,
    "COPY cut off": copy_cut_off, "network stands still for 1 s": stands_still(1),
    "network stands still for 30 s": stands_still(30), "network breaks": breaks, "slot dropped": slot_dropped,
    "server restarted": restarted, "server crashed": crashed, "audit killed": audit_killed, "proxy drained": drained,
    "certificate renewed": renewed, "journal's disk full": journal_full, "Redis gone": redis_gone,
}


def programs(folder):
    """How each driver's client is called."""
    found = {"psql": [sys.executable, os.path.join(HERE, "clients.py"), "psql"],
             "raw": [sys.executable, os.path.join(HERE, "clients.py"), "raw"]}
    for name, module in PYTHON.items():
        if importlib.util.find_spec(module):
            found[name] = [sys.executable, os.path.join(HERE, "clients.py"), name]
    if shutil.which("javac") and os.path.exists(JDBC):
        subprocess.run(["javac", "-cp", JDBC, "-d", folder, os.path.join(HERE, "Matrix.java")], check=True)
        found["JDBC"] = ["java", "-cp", f"{folder}:{JDBC}", "Matrix"]
    source = "/usr/share/gocode/src/github.com/"
    if shutil.which("go") and os.path.exists(source + "jackc/pgx/v4") and os.path.exists(source + "lib/pq"):
        settings = dict(os.environ, GO111MODULE="off", GOPATH="/usr/share/gocode", GOFLAGS="")
        settings.setdefault("GOCACHE", os.path.join(TOP, "proxy/out/cache"))
        its = os.path.join(folder, "drivers")
        subprocess.run(["go", "build", "-o", its, os.path.join(HERE, "drivers.go")], check=True, env=settings)
        found["pgx"], found["lib/pq"] = [its, "pgx"], [its, "pq"]
    asked = ["node", "-e", "require('pg')"]
    settings = dict(os.environ, NODE_PATH=NODE)
    if shutil.which("node") and not subprocess.run(asked, env=settings, capture_output=True).returncode:
        found["node-postgres"] = ["node", os.path.join(HERE, "node_postgres.js")]
    return found


def main():
    parser = argparse.ArgumentParser(description=__doc__, formatter_class=argparse.RawDescriptionHelpFormatter)
    parser.add_argument("--only", help="these accidents", default="")
    parser.add_argument("--drivers", help="these drivers", default="")
    parser.add_argument("--long", action="store_true")
    parser.add_argument("--close", type=float, default=1.0, help="seconds that an answer may take longer", metavar="S")
    parser.add_argument("--show", action="store_true")
    options = parser.parse_args()
    signal.signal(signal.SIGTERM, lambda *_: sys.exit(1))
    signal.signal(signal.SIGINT, signal.default_int_handler)
    folder = tempfile.mkdtemp(prefix="zanteyard-matrix-")
    os.chmod(folder, 0o755)
    world = None
    try:
        drivers = programs(folder)
        if options.drivers:
            drivers = {name: drivers[name] for name in options.drivers.split(",")}
        world = World(folder, drivers)
        return run(world, options)
    finally:
        if world:
            world.stop()
        shutil.rmtree(folder, ignore_errors=True)


def run(world, options):
    failed = 0
    asked = [name for name in ACCIDENTS if options.long or " 30 s" not in name]
    if options.only:
        asked = options.only.split(",")
    for name in asked:
        began = time.monotonic()
        cells = Cells(world)
        cells.connect()
        cells.do("ask", "ask", "ask")
        ACCIDENTS[name](world, cells)
        different = {driver: found for driver in world.clients if (found := cells.differences(driver, options.close))}
        failed += len(different)
        same = [driver for driver in world.clients if driver not in different]
        print(f"{name} ({time.monotonic() - began:.0f} s): same for {', '.join(same) or 'none'}", flush=True)
        for driver, found in different.items():
            for each in found:
                print(f"    {driver}: {each}", flush=True)
        if options.show:
            for driver, (direct, _) in cells.answers.items():
                said = "; ".join(f"{command}: {seen(answer)}" for command, answer, _ in direct)
                print(f"    {driver}: {said}", flush=True)
    print(f"{len(world.clients)} drivers, {len(asked)} accidents, {failed} cells that differ")
    return 1 if failed else 0


if __name__ == "__main__":
    sys.exit(main())
