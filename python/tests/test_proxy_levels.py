"""The proxy reports the level that the server had, in each way to set it that each driver has."""

import json
import os
import queue
import shutil
import subprocess
import sys
import tempfile
import threading
import unittest
from importlib.util import find_spec

from tests.proxy_pair import DRIVERS, LIMIT, TOP, Server, listening
from tests.proxy_pair import postgres_program, proxy_program
from tests.waiting import wait_until

JDBC = "/usr/share/java/postgresql.jar"
GO = {"pgx": "jackc/pgx/v4", "pq": "lib/pq"}
PYTHON = {
    "psycopg2": ["psycopg2"],
    "psycopg": ["psycopg"],
    "asyncpg": ["asyncpg"],
    "sqlalchemy": ["sqlalchemy", "psycopg2"],
    "django": ["django", "psycopg2"],
}
LEVELS = ["", "read committed", "repeatable read", "serializable"]  # as record.Level counts them
OTHER_ROW = "SELECT id FROM way WHERE id = 0"
BY_FUNCTION = "SELECT set_config('default_transaction_isolation', 'serializable', false)"
CHARACTERISTICS = "SET SESSION CHARACTERISTICS AS TRANSACTION ISOLATION LEVEL"
# Each way by its number: the connection, and what is run there. The options of one connection name
# a level, and so does the role of another.
WAYS = {
    1: ("plain", f"{CHARACTERISTICS} READ COMMITTED; BEGIN"),
    2: ("plain", "BEGIN ISOLATION LEVEL SERIALIZABLE"),
    3: ("plain", "START TRANSACTION READ WRITE, ISOLATION LEVEL REPEATABLE READ"),
    4: ("plain", "BEGIN; SET TRANSACTION ISOLATION LEVEL REPEATABLE READ"),
    5: ("plain", "BEGIN; SET LOCAL transaction_isolation = 'serializable'"),
    6: ("plain", f"{CHARACTERISTICS} SERIALIZABLE; BEGIN"),
    7: ("plain", "SET default_transaction_isolation = 'repeatable read'; BEGIN"),
    8: ("plain", f"BEGIN ISOLATION LEVEL SERIALIZABLE; {OTHER_ROW}; COMMIT AND CHAIN"),
    9: ("plain", f"{BY_FUNCTION}; BEGIN"),
    10: ("options", "BEGIN"),
    11: ("role", "BEGIN"),
    12: ("options", "BEGIN ISOLATION LEVEL READ COMMITTED"),
    13: ("plain", f"{CHARACTERISTICS} REPEATABLE READ; BEGIN; {CHARACTERISTICS} SERIALIZABLE"),
}
UNKNOWN = {9}  # a function's effect is asked for only at the next idle moment


class Records:
    """What a proxy writes to its file of records, by user and way."""

    def __init__(self, path):
        self.path, self.place, self.left = path, 0, ""
        self.users, self.levels, self.absent = {}, {}, set()

    def read(self):
        with open(self.path, encoding="utf-8") as file:
            file.seek(self.place)
            more = file.read()
            self.place = file.tell()
        *lines, self.left = (self.left + more).split("\n")
        for line in map(json.loads, lines):
            if its := line.get("connection"):
                self.users[its["Number"]] = its["User"].removesuffix("_role")
            elif its := line.get("transaction"):
                self.take(its, self.users[its["Connection"]])

    def take(self, its, user):
        ways = [int(each["Key"]) for each in its["Reads"] or () if each["Key"] != "0"]
        if not ways:
            return
        (way,) = set(ways)
        self.levels.setdefault((user, way), set()).add(its["Level"])
        if any(each["Key"] == str(way + 100) for each in its["Absent"] or ()):
            self.absent.add((user, way))


class Program:
    """A driver's program. `levels` are those that the server showed it, by way."""

    def __init__(self, user, call, port, environment):
        variables = {"PGHOST": "127.0.0.1", "PGPORT": str(port), "PGUSER": user}
        variables.update(PGDATABASE="postgres", PGSSLMODE="disable", **environment)
        pipes = dict.fromkeys(("stdin", "stdout", "stderr"), subprocess.PIPE)
        pipes["stderr"] = subprocess.STDOUT
        environment = dict(os.environ, **variables)
        self.process = subprocess.Popen(call, env=environment, text=True, cwd=DRIVERS, **pipes)
        self.user, self.levels, self.lines = user, {}, queue.Queue()
        threading.Thread(target=self._read, daemon=True).start()

    def _read(self):
        for line in self.process.stdout:
            self.lines.put(line.strip())
        self.lines.put(None)

    def ask(self, line):
        self.process.stdin.write(line + "\n")
        self.process.stdin.flush()
        answers = []
        while (answer := self.lines.get(timeout=LIMIT)) != "done":
            if answer is None:
                raise AssertionError(f"{self.user} has ended: {answers[-20:]}")
            answers.append(answer)
        for answer in answers:
            way, level = answer.split(" ", 1)
            if self.levels.setdefault(int(way), level) != level:
                raise AssertionError(f"{self.user}: {way} is {level}, not {self.levels[int(way)]}")

    def stop(self):
        self.process.kill()
        self.process.wait()
        self.process.stdin.close()
        self.process.stdout.close()


class TestLevels(unittest.TestCase):
    @classmethod
    def setUpClass(cls):
        if not postgres_program("initdb") or not shutil.which("psql"):
            raise unittest.SkipTest("PostgreSQL isn't installed")
        if not os.path.isdir(DRIVERS):
            raise unittest.SkipTest("the programs are in clones alone")
        cls.folder = tempfile.mkdtemp(prefix="zanteyard-levels-")
        cls.addClassCleanup(shutil.rmtree, cls.folder, ignore_errors=True)
        os.chmod(cls.folder, 0o711)
        program = proxy_program(cls.folder)
        if not program:
            raise unittest.SkipTest("Go or libpg_query isn't installed: the proxy can't be built")
        cls.calls = cls.programs()
        cls.server = Server(os.path.join(cls.folder, "server"))
        cls.server.initialize()
        cls.addClassCleanup(cls.server.stop)
        cls.server.start()
        text = "CREATE TABLE way (id int PRIMARY KEY); GRANT SELECT ON way TO PUBLIC;"
        text += "INSERT INTO way SELECT generate_series(0, 99);"
        for user in cls.calls:
            text += f"CREATE ROLE {user} LOGIN; CREATE ROLE {user}_role LOGIN;"
            text += f"ALTER ROLE {user}_role SET default_transaction_isolation = 'serializable';"
        cls.server.sql("postgres", text)
        cls.begin_proxy(program)

    @classmethod
    def programs(cls):
        """Each driver's call."""
        calls, builds = {}, []
        settings = dict(os.environ, GO111MODULE="off", GOPATH="/usr/share/gocode", GOFLAGS="")
        settings.setdefault("GOCACHE", os.path.join(TOP, "proxy/out/cache"))
        if shutil.which("javac") and shutil.which("java") and os.path.exists(JDBC):
            calls["jdbc"] = ["java", "-cp", f"{cls.folder}:{JDBC}", "Levels"]
            source = os.path.join(DRIVERS, "Levels.java")
            builds.append(["javac", "-cp", JDBC, "-d", cls.folder, source])
        for name, package in GO.items():
            if os.path.exists("/usr/share/gocode/src/github.com/" + package):
                source = os.path.join(DRIVERS, f"levels_{name}.go")
                calls[name] = [os.path.join(cls.folder, name)]
                builds.append(["go", "build", "-o", *calls[name], source])
        for call in builds:
            subprocess.run(call, env=settings, check=True, timeout=LIMIT)
        for name, modules in PYTHON.items():
            if all(map(find_spec, modules)):
                calls[name] = [sys.executable, os.path.join(DRIVERS, "levels.py"), name]
        return calls

    @classmethod
    def begin_proxy(cls, program):
        log, path = (os.path.join(cls.folder, each) for each in ("proxy.log", "records"))
        source = f"postgresql://postgres@127.0.0.1:{cls.server.port}/postgres?sslmode=disable"
        call = [program, "--listen", "127.0.0.1:0", "--trust-clients", "--server", source]
        call += ["--records", path]
        pipes = {"stdin": subprocess.PIPE, "stdout": subprocess.DEVNULL}
        with open(log, "w", encoding="utf-8") as to:
            proxy = subprocess.Popen(call, stderr=to, **pipes)
        cls.addClassCleanup(proxy.stdin.close)
        cls.addClassCleanup(proxy.wait)
        cls.addClassCleanup(proxy.kill)
        cls.port = listening(log)
        cls.records = Records(path)

    def follow(self, user):
        """Runs all ways again and again, until the proxy has reported each with its level."""
        if user not in self.calls:
            self.skipTest(f"what {user} needs isn't installed")
        program = Program(user, self.calls[user], self.port, {"LC_ALL": "C.UTF-8"})
        self.addCleanup(program.stop)

        def has_come():
            for way, (connection, texts) in WAYS.items():
                program.ask(f"{connection} {way} {texts}")
            program.ask("own")
            return self.is_told(program)

        told = wait_until(has_come)
        self.assertTrue(told, (self.missing(program), program.levels, self.records.levels))
        self.assertEqual(len(set(program.levels.values())), 3)
        self.assertTrue({50, 51, 52} <= set(program.levels), program.levels)

    def is_told(self, program):
        self.records.read()
        for (user, way), levels in self.records.levels.items():
            if user == program.user:
                told, way_ = {LEVELS[each] for each in levels} - {""}, f"{way}: {WAYS.get(way)}"
                self.assertLessEqual(told, {program.levels[way]}, f"{user}, way {way_}")
        return not self.missing(program)

    def missing(self, program):
        """The ways whose level, or whose absent row, the proxy hasn't reported yet."""
        its = self.records
        return [
            way
            for way, level in program.levels.items()
            if way not in UNKNOWN
            and (
                not any(its.levels.get((program.user, way), ()))
                or level != "read committed"
                and (program.user, way) not in its.absent
            )
        ]


for each in ("jdbc", *GO, *PYTHON):
    setattr(TestLevels, f"test_{each}", lambda self, user=each: self.follow(user))


if __name__ == "__main__":
    unittest.main()
