"""The example of an application with its own SQL, watched: its fault shows at one level, and not at
another."""
import ast
import os
import re
import subprocess
import sys
import tempfile
import unittest

from zanteyard.program._binaries import PROGRAM
from zanteyard.trial.postgres_server import program
from zanteyard.program._proxy_program import proxy_path

try:
    import psycopg2
except ImportError:
    psycopg2 = None
try:
    import psycopg
except ImportError:
    psycopg = None
TOP = os.path.normpath(os.path.join(os.path.dirname(os.path.abspath(__file__)), "../.."))
BANK = f"{TOP}/examples/bank.py"
ENOUGH = "600"  # seconds: a run ends with the first violation, after a few seconds
LATE = 1800  # seconds for the program, which starts a server, on a busy machine
STATEMENT = re.compile(r" {8}[\d:.]+ ([A-Z]+) (.*)  \[(.*):(\d+)\]")
TABLE = re.compile(r"\b(?:FROM|INTO|UPDATE) (\w+)")
# Each kind of statement, by its table, with the function whose line sends it.
SENDERS = {
    ("SELECT", "accounts"): {"balances", "report"},
    ("UPDATE", "accounts"): {"move"},
    ("INSERT", "transfers"): {"move"},
    ("INSERT", "reports"): {"report"},
}


def function_at(line):
    """The innermost of the example's functions that contains this line."""
    with open(BANK, encoding="utf-8") as file:
        functions = [it for it in ast.walk(ast.parse(file.read())) if isinstance(it, ast.FunctionDef)]
    its = [(it.lineno, it.name) for it in functions if it.lineno <= line <= it.end_lineno]
    return max(its)[1] if its else ""


@unittest.skipUnless(psycopg2 and program("initdb"), "PostgreSQL or psycopg2 is not installed")
@unittest.skipUnless(os.path.isfile(proxy_path()), "the proxy is not built")
@unittest.skipUnless(os.path.isfile(PROGRAM), f"{PROGRAM} is not built")
class Bank(unittest.TestCase):
    def told(self, *arguments):
        """Its output and its status."""
        with tempfile.TemporaryDirectory() as folder:
            os.chmod(folder, 0o711)  # if this runs as root, a server in it runs as another user
            ran = subprocess.run(
                [sys.executable, BANK, *arguments],
                cwd=TOP,
                env={**os.environ, "TMPDIR": folder, "COBRA_AUDIT": os.path.abspath(PROGRAM)},
                capture_output=True,
                text=True,
                timeout=LATE,
            )
            self.assertEqual(os.listdir(folder), [])
        self.assertEqual(ran.stderr, "")
        return ran.stdout, ran.returncode

    def overdraws(self, *how):
        """Which part of the history is shown differs from run to run: mostly two withdrawals, each
        of which reads what the other one overwrote; or a third transaction that saw the second one
        and not the first. In each, a withdrawal reads what another one overwrote, and each
        statement appears with the application's line that sent it."""
        told, status = self.told("--level", "repeatable", "--seconds", ENOUGH, *how)
        self.assertEqual(status, 1, told)
        self.assertTrue(told.startswith("violated: no serial order"), told)
        self.assertRegex(told, r"\n  [\d,]+ violations? found: .*(write skew|G2)")
        kinds = set()
        for verb, text, path, line in STATEMENT.findall(told):
            kind = verb, TABLE.search(f"{verb} {text}")[1]
            with self.subTest(statement=text):
                self.assertEqual(path, "examples/bank.py")
                self.assertIn(function_at(int(line)), SENDERS[kind])
            kinds.add(kind)
        self.assertLessEqual({("SELECT", "accounts"), ("UPDATE", "accounts")}, kinds)

    def test_customers_overdraw_at_repeatable_read(self):
        self.overdraws()

    @unittest.skipUnless(psycopg, "psycopg 3 is not installed")
    def test_by_psycopg_3_too(self):
        self.overdraws("--driver", "psycopg")

    def test_none_does_at_serializable(self):
        for seconds in ("2", "60"):  # in which something was done, even on a busy machine
            told, status = self.told("--level", "serializable", "--seconds", seconds)
            if status != 4:  # nothing was checked yet
                break
        self.assertEqual(status, 0, told)
        self.assertRegex(told, r"^serial: [\d,]+ of [\d,]+ transactions, .* were checked")


if __name__ == "__main__":
    unittest.main()
