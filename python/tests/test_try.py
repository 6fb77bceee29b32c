"""A first try and the gate, in one clone: neither stands in the other's way."""

import os
import re
import shutil
import subprocess
import tempfile
import unittest

from .test_package import TOP, python_for
from zanteyard.program._auditor import PROGRAM
from zanteyard.trial.postgres_server import program
from zanteyard.program._proxy_program import proxy_path

NOT_COPIED = shutil.ignore_patterns(".git", "out", "crates", "__pycache__", ".mypy_cache")


@unittest.skipUnless(os.path.isfile(PROGRAM), f"{PROGRAM} is not built")
@unittest.skipUnless(python_for("setuptools, wheel"), "setuptools and wheel are not installed")
@unittest.skipUnless(python_for("venv, ensurepip"), "python3-venv is not installed")
class Try(unittest.TestCase):
    def setUp(self):
        folder = tempfile.mkdtemp()
        self.addCleanup(shutil.rmtree, folder, ignore_errors=True)
        self.clone = os.path.join(folder, "clone")
        shutil.copytree(TOP, self.clone, ignore=NOT_COPIED)
        os.makedirs(f"{self.clone}/.git")
        self.has_postgres = bool(program("initdb") and python_for("psycopg2"))
        if os.path.isfile(proxy_path()):
            os.makedirs(f"{self.clone}/proxy/out")
            shutil.copy(proxy_path(), f"{self.clone}/proxy/out/zanteyard-proxy")
        else:
            self.has_postgres = False
        self.environment = {
            key: value
            for key, value in os.environ.items()
            if not key.startswith("COBRA_") and key != "PYTHONPATH"
        }
        self.environment["COBRA_AUDIT"] = os.path.abspath(PROGRAM)

    def run_it(self, *words, folder=None):
        return subprocess.run(
            words,
            cwd=folder or self.clone,
            env=self.environment,
            stdin=subprocess.DEVNULL,
            stdout=subprocess.PIPE,
            stderr=subprocess.STDOUT,
            text=True,
            timeout=1800,
        )

    def one_crate(self):
        """In place of all crates, so that the gate takes seconds."""
        with tempfile.TemporaryDirectory() as made:
            os.mkdir(f"{made}/.git")
            ended = self.run_it("rt", "new", "crates/tiny", "start_lib", folder=made)
            self.assertEqual(ended.returncode, 0, ended.stdout)
            os.remove(f"{made}/crates/tiny/BUILD.bazel")
            shutil.move(f"{made}/crates", self.clone)
        with open(f"{self.clone}/crates.txt", "w", encoding="utf-8") as file:
            file.write("tiny:\n")

    def try_it(self, *words):
        """As a background command of a script, which a shell starts with SIGINT ignored."""
        ended = self.run_it("sh", "-c", 'trap "" INT; exec ./try.sh "$@"', "sh", *words)
        self.assertEqual(ended.returncode, 0, ended.stdout)
        self.assertRegex(ended.stdout, "(?m)^[| ]* so n.* can come first$")
        (page,) = re.findall("(?m)^The violation's page is (.*): open it in", ended.stdout)
        folder = os.path.join(self.clone, *[it for it in words if it != "--sqlite"] or ["out/try"])
        self.assertTrue(page.startswith(f"{folder}/"), page)
        with open(page, encoding="utf-8") as file:
            shown = file.read()
        if "--sqlite" not in words and self.has_postgres:
            self.see_the_shop(ended.stdout, shown)
        else:
            self.assertRegex(ended.stdout, "(?m)^counter at autocommit: violated: ")
            self.assertTrue("These transactions can't have run one at a time" in shown)

    def see_the_shop(self, printed, page):
        """Its SQL, its losses, and what the audit says of them, at both levels."""
        self.assertRegex(printed, r"(?m)^ready: an audit can begin$")
        self.assertRegex(printed, r"(?m)^  \| .* UPDATE stock SET qty = \d+ WHERE id = [12]$")
        self.assertRegex(printed, r"(?m)^the shop: \d+ sales at read committed; [1-9]\d* of them")
        self.assertRegex(printed, r"(?m)^  \|   [1-9][\d,]* violations? found: lost update")
        self.assertRegex(printed, r"(?m)^the shop: \d+ sales at serializable.*; 0 of them were lost")
        self.assertRegex(printed, r"(?m)^  \| serial: [\d,]+ of [\d,]+ transactions\b.* were checked")
        for text in ("<h1>Lost update</h1>", "UPDATE stock SET qty", "Why no order is left"):
            self.assertTrue(text in page, text)
        self.assertNotRegex(printed, r"\\x|missing|no time to ask")

    def test_each_way_and_then_the_gate(self):
        """Into its own folder with PostgreSQL, twice into another one without; then the first
        thing that ./test.sh does."""
        self.try_it()
        self.try_it("--sqlite", "mine")
        self.try_it("--sqlite", "mine")
        os.mkdir(f"{self.clone}/other")
        refused = self.run_it("./try.sh", "other")
        self.assertEqual(refused.returncode, 1)
        self.assertIn(f"{self.clone}/other exists, and isn't from an earlier try", refused.stdout)
        if not shutil.which("rt"):
            self.skipTest("the kit's command rt isn't on the PATH")
        self.one_crate()
        with open(f"{TOP}/test.sh", encoding="utf-8") as file:
            self.assertTrue(re.search(r"(?m)^rt ci\b", file.read()))
        for words in (("ci",), ("all", "check")):
            ended = self.run_it("rt", *words)
            self.assertEqual(ended.returncode, 0, ended.stdout)
        if not self.has_postgres:
            self.skipTest("PostgreSQL, its driver or the proxy is missing: only SQLite was tried")


if __name__ == "__main__":
    unittest.main()
