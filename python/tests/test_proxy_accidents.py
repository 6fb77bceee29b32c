"""What clients see of accidents, with and without the proxy: a row of each kind of bench/check/proxy_matrix.py, and a short
run of each kind of bench/check/proxy_load.py. By hand both run for longer, with all drivers."""

import importlib.util
import os
import shutil
import subprocess
import sys
import tempfile
import unittest

from .built import TOP, path_of
from .proxy_pair import LIMIT, postgres_program, proxy_program

DRIVERS = "psycopg2,raw"
ACCIDENTS = (
    "terminated in a statement", "terminated while idle", "cancelled", "COPY cut off", "network stands still for 1 s",
    "network breaks", "slot dropped", "server restarted", "server crashed", "audit killed", "proxy drained",
    "certificate renewed", "journal's disk full", "Redis gone",
)
NEEDS = {"certificate renewed": "openssl", "Redis gone": "redis-server"}


@unittest.skipUnless(postgres_program("initdb"), "PostgreSQL isn't installed")
@unittest.skipUnless(importlib.util.find_spec("psycopg2"), "psycopg2 isn't installed")
@unittest.skipUnless(os.path.isdir(os.path.join(TOP, "bench")), "the programs are in clones alone")
@unittest.skipUnless(path_of("cobra_audit"), "the auditor isn't built")
@unittest.skipUnless(shutil.which("openssl"), "openssl isn't installed")
class Accidents(unittest.TestCase):
    @classmethod
    def setUpClass(cls):
        folder = tempfile.TemporaryDirectory()
        cls.addClassCleanup(folder.cleanup)
        program = proxy_program(folder.name)
        if not program:
            raise unittest.SkipTest("Go or libpg_query isn't installed: the proxy can't be built")
        cls.environment = dict(os.environ, ZANTEYARD_PROXY=os.path.abspath(program))
        cls.environment["COBRA_AUDIT"] = os.path.abspath(path_of("cobra_audit"))

    def run_bench(self, name, *words):
        """Its output, if its status is 0."""
        call = [sys.executable, os.path.join(TOP, "bench", name), *words]
        done = subprocess.run(
            call, env=self.environment, stdin=subprocess.DEVNULL, capture_output=True, text=True, timeout=LIMIT
        )
        self.assertEqual(done.returncode, 0, done.stdout + done.stderr)
        return done.stdout

    def test_each_accident(self):
        asked = [each for each in ACCIDENTS if shutil.which(NEEDS.get(each, "openssl"))]
        # A second is the promise; on a machine that is busy with other tests an answer may take longer by chance.
        out = self.run_bench(
            "check/proxy_matrix.py", "--drivers", DRIVERS, "--only", ",".join(asked), "--close", "10"
        )
        self.assertIn(f"2 drivers, {len(asked)} accidents, 0 cells that differ", out)
        for each in asked:
            self.assertRegex(out, rf"(?m)^{each} \(\d+ s\): same for psycopg2, raw$")

    def test_each_strain(self):
        out = self.run_bench(
            "check/proxy_load.py", "--seconds", "3", "--rate", "20", "--mebibytes", "32", "--inserts", "2", "--patience",
            "30",
        )
        self.assertIn("churn, proxy: 60 connections", out)
        self.assertIn("unread, proxy: 32,768 rows after 3 s", out)
        self.assertIn("copy, proxy: 32 MiB", out)
        self.assertIn("message, proxy: 16 MiB", out)
        self.assertIn("parameters, proxy: 16 inserts", out)


if __name__ == "__main__":
    unittest.main()
