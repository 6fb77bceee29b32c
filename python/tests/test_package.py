"""The wheel: built from this tree, installed into a new environment without an index, and tried."""
import os
import re
import shutil
import subprocess
import tempfile
import unittest
import zipfile

import make_wheel
from zanteyard.cli._commands import COMMANDS
from zanteyard.program._auditor import PROGRAM
from zanteyard.program._binaries import BUILT
from zanteyard.core._version import VERSION

TOP = os.path.normpath(os.path.join(os.path.dirname(os.path.abspath(__file__)), "../.."))
LOST = '["open",2,8]\n["offer",0,0,[[[[5,"init"]],[5]]]]\n["offer",1,0,[[[[5,"init"]],[5]]]]\n'
SERIAL = '["open",1,8]\n["offer",0,0,[[[],[5]]]]\n'
# A script for each status of `zanteyard check`; the last one is given only one node.
SCRIPTS = {
    0: SERIAL,
    1: LOST,
    2: '["open",1,8]\n["offer"]\n',
    3: '["open",1,8]\n["offer",0,0,[[[[5,0,7]],[]]]]\n',
    4: None,
}


def python_for(modules):
    """A Python that has these modules, as package.sh looks for one; or None."""
    for python in ("/usr/bin/python3", "python3"):
        if shutil.which(python):
            words = [python, "-c", f"import {modules}"]
            if not subprocess.run(words, stderr=subprocess.DEVNULL).returncode:
                return python
    return None


def commands_of_the_readme():
    """From the new environment to a violation on a page, each as it is pasted."""
    with open(f"{TOP}/README.md", encoding="utf-8") as file:
        found = re.search(r"```\n((?:.*venv.*\n)+)```", file.read())
    return found[1].splitlines()


@unittest.skipUnless(os.path.isfile(PROGRAM), f"{PROGRAM} is not built")
@unittest.skipUnless(python_for("setuptools, wheel"), "setuptools and wheel are not installed")
@unittest.skipUnless(python_for("venv, ensurepip"), "python3-venv is not installed")
class Package(unittest.TestCase):
    @classmethod
    def setUpClass(cls):
        cls.folder = tempfile.mkdtemp()
        cls.addClassCleanup(shutil.rmtree, cls.folder, ignore_errors=True)
        cls.is_of_the_tree = os.path.realpath(PROGRAM) == os.path.realpath(BUILT)
        how = ["--built"] if cls.is_of_the_tree else ["--unproved", PROGRAM]
        cls.environment = {
            key: value
            for key, value in os.environ.items()
            if not key.startswith("COBRA_") and key != "PYTHONPATH"
        }
        os.mkdir(f"{cls.folder}/out")
        with open(f"{cls.folder}/out/zanteyard-0.0.1-py3-none-any.whl", "wb"):
            pass
        made = cls.run_it(f"{TOP}/package.sh", *how, "--output", f"{cls.folder}/out")
        cls.wheel = made.stdout.split()[-1] if not made.returncode else None
        cls.said = made.stdout + made.stderr
        cls.commands = commands_of_the_readme()
        if cls.wheel:
            cls.shell(cls.commands[0].replace("python3", python_for("venv, ensurepip"), 1))
            cls.installed = cls.shell(cls.commands[1])

    @classmethod
    def run_it(cls, *words):
        return subprocess.run(
            words,
            cwd=cls.folder,
            env=cls.environment,
            stdin=subprocess.DEVNULL,
            stdout=subprocess.PIPE,
            stderr=subprocess.PIPE,
            text=True,
            timeout=900,
        )

    @classmethod
    def shell(cls, command):
        """Runs it as it is in a document."""
        return cls.run_it("sh", "-c", command)

    def zanteyard(self, *words):
        return self.run_it(f"{self.folder}/venv/bin/zanteyard", *words)

    def setUp(self):
        self.assertIsNotNone(self.wheel, self.said)
        self.assertEqual(self.installed.returncode, 0, self.installed.stderr)

    def test_five_statuses(self):
        with open(f"{TOP}/crates/cobra_examples/data/real_split.jsonl", encoding="utf-8") as file:
            kept = [line for line in file if not line.startswith('["round"')]
        for wanted, script in SCRIPTS.items():
            with self.subTest(status=wanted):
                path = f"{self.folder}/script-{wanted}.jsonl"
                with open(path, "w", encoding="utf-8") as file:
                    file.write(
                        script if script is not None else "".join(kept) + '["round",1,0,1]\n'
                    )
                more = ("--nodes", "1") if wanted == 4 else ()
                ended = self.zanteyard("check", path, *more)
                self.assertEqual(ended.returncode, wanted, ended.stdout + ended.stderr)

    def test_what_it_says_of_its_auditor(self):
        first, *programs = self.zanteyard("--version").stdout.splitlines()
        self.assertEqual(first, f"zanteyard {VERSION}")
        self.assertEqual([line.split()[0] for line in programs], ["auditor", "checker", "proxy"])
        self.assertIn(f"{self.folder}/venv/", programs[0])
        self.assertIn(": proved by " if self.is_of_the_tree else "NOT PROVED", programs[0])
        self.assertEqual("+unproved" in os.path.basename(self.wheel), not self.is_of_the_tree)

    def test_it_has_the_licences_of_what_is_inside(self):
        with zipfile.ZipFile(self.wheel) as packed:
            names = {os.path.basename(name) for name in packed.namelist() if ".dist-info/" in name}
        wanted = {"LICENSE", "LICENSES.md", "LICENSE-TEXTS.txt"}
        if os.path.isfile(make_wheel.PROXY) and os.path.isfile(make_wheel.LGPL):
            wanted.add("LICENSE.LGPL-2.1")
        self.assertLessEqual(wanted, names)

    def test_an_extra_brings_a_driver(self):
        with zipfile.ZipFile(self.wheel) as packed:
            (path,) = (name for name in packed.namelist() if name.endswith(".dist-info/METADATA"))
            lines = packed.read(path).decode().splitlines()
        needed = [line for line in lines if line.startswith("Requires-Dist: ") and '"postgresql"' in line.replace("'", '"')]
        self.assertRegex("".join(needed), r"^Requires-Dist: psycopg2-binary\b")

    def test_there_is_one_wheel(self):
        """An earlier one is gone, so that README's pattern has one match."""
        self.assertEqual(os.listdir(f"{self.folder}/out"), [os.path.basename(self.wheel)])

    def test_a_page_from_a_demonstration(self):
        self.assertEqual(len(self.commands), 3)
        ended = self.shell(self.commands[2])
        self.assertEqual(ended.returncode, 1, ended.stderr)
        with open(f"{self.folder}/zanteyard-lost-update.html", encoding="utf-8") as file:
            self.assertIn("These transactions can't have run one at a time", file.read())

    def test_it_has_the_documents_that_help_and_errors_name(self):
        folder = self.zanteyard("help").stdout.split("\nDocuments: ")[1].strip()
        self.assertTrue(folder.startswith(f"{self.folder}/venv/"), folder)
        self.assertEqual(sorted(os.listdir(folder)), sorted([*os.listdir(f"{TOP}/docs"), "README.md"]))
        for command in COMMANDS:
            text = self.zanteyard("help", command).stdout
            for name in re.findall(r"docs/([A-Z_]+\.md)", text):
                self.assertTrue(os.path.isfile(f"{folder}/{name}"), name)

    def test_python_dash_m_is_the_same(self):
        ended = self.run_it(f"{self.folder}/venv/bin/python", "-m", "zanteyard", "--version")
        self.assertEqual(ended.stdout, self.zanteyard("--version").stdout)

    def test_an_auditor_that_was_changed_says_so(self):
        words = "import zanteyard.program._binaries as p; print(p.PACKED)"
        packed = self.run_it(f"{self.folder}/venv/bin/python", "-c", words).stdout.strip()
        with open(f"{packed}/cobra_audit", "ab") as file:
            file.write(b"\0")
        self.addCleanup(
            self.run_it,
            f"{self.folder}/venv/bin/pip",
            "install",
            "--no-index",
            "--force-reinstall",
            "--quiet",
            self.wheel,
        )
        self.assertIn("NOT THE FILE THAT WAS PACKED", self.zanteyard("--version").stdout)


if __name__ == "__main__":
    unittest.main()
