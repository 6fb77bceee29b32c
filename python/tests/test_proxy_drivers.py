"""Programs with common drivers print the same with and without the proxy."""

import difflib
import importlib.util
import os
import shutil
import subprocess
import sys
import threading
import unittest
from concurrent.futures import ThreadPoolExecutor

from tests.proxy_pair import DRIVERS, LIMIT, TOP, Pair, postgres_program, proxy_program

PAIR = Pair()
READERS = set()  # users whose programs' reads have to be seen
JDBC = "/usr/share/java/postgresql.jar"
GO = {"pgx": "jackc/pgx/v4", "pq": "lib/pq"}
PYTHON = {
    "psycopg2": ["psycopg2"],
    "psycopg3": ["psycopg"],
    "psycopg3_c": ["psycopg", "psycopg_c"],  # the part in C, if it is installed
    "asyncpg": ["asyncpg"],
    "sqlalchemy": ["sqlalchemy", "psycopg2"],
    "django": ["django", "psycopg2"],
}
SCRIPTS = {"psycopg3_c": "psycopg3"}  # if it differs from the driver's name
MORE = {"psycopg3_c": {"PSYCOPG_IMPL": "c"}}  # in the environment
SLOW = ("jdbc", "django", "sqlalchemy")  # these start first
BUILDS = {}  # processes that build what the tests run
# Programs that may end before any of their statements was tried: they run once more, only to be seen.
SHORT = {"pgx", "psql_queries", "psycopg2"}
PREPARING = threading.Lock()  # the server refuses rights on one database that are granted at once
RUNS = {}  # the programs' output, once they have ended


def setUpModule():
    if not postgres_program("initdb") or not shutil.which("psql"):
        raise unittest.SkipTest("PostgreSQL isn't installed")
    if not os.path.isdir(DRIVERS):
        raise unittest.SkipTest("the programs are in clones alone")
    unittest.addModuleCleanup(PAIR.stop)
    PAIR.make_folder()
    program = proxy_program(PAIR.folder)
    if not program:
        raise unittest.SkipTest("Go or libpg_query isn't installed: the proxy can't be built")
    begin_builds()
    PAIR.start(program)
    begin_runs()


def begin_builds():
    """Builds run while servers start and other tests run."""
    settings = dict(os.environ, GO111MODULE="off", GOPATH="/usr/share/gocode", GOFLAGS="")
    settings.setdefault("GOCACHE", os.path.join(TOP, "proxy/out/cache"))
    calls = {}
    if shutil.which("javac") and shutil.which("java") and os.path.exists(JDBC):
        source = os.path.join(DRIVERS, "Jdbc.java")
        calls["jdbc"] = ["javac", "-cp", JDBC, "-d", PAIR.folder, source]
    for name, package in GO.items():
        if os.path.exists("/usr/share/gocode/src/github.com/" + package):
            source = os.path.join(DRIVERS, f"{name}_calls.go")
            calls[name] = ["go", "build", "-o", os.path.join(PAIR.folder, name), source]
    for name, call in calls.items():
        BUILDS[name] = subprocess.Popen(call, env=settings)
        unittest.addModuleCleanup(end, BUILDS[name])


def end(process):
    if process.poll() is None:
        process.kill()
    process.wait()


def difference(direct, proxied):
    lines = difflib.unified_diff(
        direct.splitlines(), proxied.splitlines(), "direct", "proxied", lineterm="", n=2
    )
    return "\n".join(each[:300] for each in list(lines)[:80])


def both(user, call, environment):
    """A program's output, direct and through the proxy. Programs run in parallel, each in a schema
    of its own."""
    if user in BUILDS and BUILDS[user].wait(LIMIT):
        raise AssertionError(f"{user} wasn't built")
    with PREPARING:
        PAIR.prepare(user)
    texts = PAIR.run(user, call, **environment)
    if user in SHORT:
        PAIR.run(user, call, **environment)
    if keep := os.environ.get("ZANTEYARD_KEEP"):
        for name, text in zip(("direct", "proxied"), texts):
            with open(os.path.join(keep, f"{user}.{name}"), "w", encoding="utf-8") as file:
                file.write(text)
    return texts


def begin_runs():
    calls = {"jdbc": ["java", "-cp", f"{PAIR.folder}:{JDBC}", "Jdbc"]}
    for name in GO:
        calls[name] = [os.path.join(PAIR.folder, name)]
    calls = {name: call for name, call in calls.items() if name in BUILDS}
    for name, modules in PYTHON.items():
        if all(importlib.util.find_spec(each) for each in modules):
            calls[name] = [sys.executable, os.path.join(DRIVERS, f"{SCRIPTS.get(name, name)}_calls.py")]
    path = {"NODE_PATH": f"{os.environ.get('NODE_PATH', '')}:/usr/share/nodejs"}
    asked = ["node", "-e", "require('pg'); require('pg-cursor')"]
    settings = dict(os.environ, **path)
    if shutil.which("node") and not subprocess.run(
        asked, env=settings, capture_output=True, timeout=LIMIT
    ).returncode:
        calls["node_postgres"] = ["node", os.path.join(DRIVERS, "node_postgres_calls.js")]
    for name in ("psql_queries", "psql_definitions", "psql_errors"):
        calls[name] = ["psql", "-X", "-a", "-f", os.path.join(DRIVERS, f"{name}.sql")]
    pool = ThreadPoolExecutor(4)
    unittest.addModuleCleanup(pool.shutdown)
    for name in sorted(calls, key=lambda name: name not in SLOW):
        RUNS[name] = pool.submit(both, name, calls[name], {**path, **MORE.get(name, {})})


class TestDrivers(unittest.TestCase):
    def same(self, user, lines, reads=True):
        """The outputs are equal, and have at least this many lines."""
        if user not in RUNS:
            self.skipTest(f"what {user} needs isn't installed")
        direct, proxied = RUNS[user].result(3 * LIMIT)
        self.assertEqual(difference(direct, proxied), "")
        self.assertEqual(direct, proxied)
        self.assertTrue(direct.endswith("\nstatus 0\n"), direct[-3000:])
        self.assertGreater(direct.count("\n"), lines)
        if reads:
            READERS.add(user)

    def test_psycopg2(self):
        self.same("psycopg2", 200)

    def test_psycopg3(self):
        self.same("psycopg3", 400)

    def test_psycopg3_in_c(self):
        self.same("psycopg3_c", 400)

    def test_asyncpg(self):
        self.same("asyncpg", 300)

    def test_sqlalchemy(self):
        self.same("sqlalchemy", 400)

    def test_django(self):
        self.same("django", 100)

    def test_jdbc(self):
        self.same("jdbc", 2000)

    def test_pgx(self):
        self.same("pgx", 300)

    def test_pq(self):
        self.same("pq", 1000)

    def test_node_postgres(self):
        self.same("node_postgres", 600)

    def test_psql_queries(self):
        self.same("psql_queries", 1500)

    def test_psql_definitions(self):
        self.same("psql_definitions", 1500, reads=False)

    def test_psql_errors(self):
        self.same("psql_errors", 3000, reads=False)

    def test_zz_reads_were_seen(self):
        """The last test, because of its name: it ends the audit. The proxy tries statements while a
        connection is idle, and each program repeats some."""
        if not READERS:
            self.skipTest("no driver ran")
        self.assertNotIn("ended", PAIR.proxy.events, PAIR.proxy.told())
        counts = PAIR.proxy.reads_by_user()
        self.assertEqual({each for each in READERS if not counts.get(each)}, set(), counts)


if __name__ == "__main__":
    unittest.main()
