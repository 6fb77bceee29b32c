"""The program that runs the tests: what it says of a module that fails, once or always."""

import os
import shutil
import subprocess
import sys
import tempfile
import unittest

HERE = os.path.dirname(os.path.dirname(os.path.abspath(__file__)))
FAILS = """
import os, unittest


class It(unittest.TestCase):
    def test_it(self):
        with open(os.path.join({folder!r}, "{name}"), "a", encoding="ascii") as file:
            file.write("x")
            self.assertGreater(file.tell(), {times})
"""


READS_ON = """
import subprocess, sys, unittest


class It(unittest.TestCase):
    def test_it(self):
        reads = [sys.executable, "-c", "import sys; sys.stdin.read()"]
        subprocess.Popen(reads, start_new_session=True)
"""
BECOMES = """
import os, sys, unittest


def note(name, text):
    with open(os.path.join({folder!r}, name), "a", encoding="ascii") as file:
        file.write(text)


class It(unittest.TestCase):
    def test_it(self):
        note("became", "x")
        note("pid", str(os.getpid()))
        os.execv(sys.executable, [sys.executable, "-c", "import time; time.sleep(600)"])

    def test_next(self):
        note("next", "x")
"""
LOSES = """

class Loses:
    def pytest_runtest_protocol(self, item):
        return True if item.path.stem == "test_lost" else None


def pytest_sessionstart(session):
    session.config.pluginmanager.register(Loses())
"""
TABLE = """
import os, unittest


class It(unittest.TestCase):
    def test_it(self):
        with open(os.path.join({folder!r}, "table"), "a", encoding="ascii") as file:
            file.write("x")
            for value in range(3):
                with self.subTest(value=value):
                    self.assertTrue(value < 2 or file.tell() > {times}, "the case of 2")
"""
HANGS_ONCE = """
import os, subprocess, sys, time, unittest


class It(unittest.TestCase):
    def test_it(self):
        with open(os.path.join({folder!r}, "hangs"), "a", encoding="ascii") as file:
            file.write("x")
            if file.tell() > 1:
                return
        sleeps = [sys.executable, "-c", "import time; time.sleep(600)"]
        program = subprocess.Popen(sleeps, start_new_session=True)
        with open(os.path.join({folder!r}, "program"), "a", encoding="ascii") as file:
            file.write(str(program.pid))
        time.sleep(600)
"""


class Rerun(unittest.TestCase):
    def setUp(self):
        folder = tempfile.TemporaryDirectory()
        self.addCleanup(folder.cleanup)
        self.folder = folder.name
        shutil.copy(os.path.join(HERE, "conftest.py"), self.folder)

    def path(self, name):
        return os.path.join(self.folder, name)

    def write(self, name, text):
        self.write_module(f"test_{name}", text)

    def write_module(self, name, text):
        with open(self.path(f"{name}.py"), "w", encoding="ascii") as file:
            file.write(text)

    def run_modules(self, *words, **times):
        """Runs modules with these names, each of which fails so many times first."""
        for name, count in times.items():
            self.write(name, FAILS.format(folder=self.folder, name=name, times=count))
        program = [sys.executable, os.path.join(HERE, "run_tests.py"), "--processes", "1"]
        options = [word for word in words if word.startswith("-")]
        names = [word for word in words if not word.startswith("-")] + list(times)
        paths = [self.path(f"test_{name}.py") for name in names]
        call = [*program, *options, *paths]
        return subprocess.run(call, capture_output=True, text=True, timeout=600)

    def runs(self, name):
        with open(self.path(name), encoding="ascii") as file:
            return len(file.read())

    def test_what_failed_once_is_listed(self):
        ran = self.run_modules("--again=2", fails_once=1, passes=0)
        self.assertEqual((ran.returncode, self.runs("fails_once"), self.runs("passes")), (0, 2, 1))
        self.assertRegex(ran.stdout, "FAILED ONCE, then passed by itself: .*/test_fails_once.py::It::test_it\n")
        self.assertIn("AssertionError", ran.stdout)

    def test_what_fails_again_fails(self):
        ran = self.run_modules("--again=2", fails_twice=2)
        self.assertEqual((ran.returncode, self.runs("fails_twice")), (1, 2))
        self.assertNotIn("FAILED ONCE", ran.stdout)

    def test_more_than_few_fail_at_once(self):
        ran = self.run_modules("--again=2", one=1, two=1, three=1)
        self.assertEqual((ran.returncode, self.runs("one")), (1, 1))

    def test_without_the_option_none_runs_again(self):
        ran = self.run_modules(fails_once=1)
        self.assertEqual((ran.returncode, self.runs("fails_once")), (1, 1))

    def test_a_module_that_cant_be_imported(self):
        self.write("broken", "import it_does_not_exist\n")
        ran = self.run_modules("--again=2", "broken", passes=0)
        self.assertEqual(ran.returncode, 1, ran.stdout)
        self.assertIn("it_does_not_exist", ran.stdout)

    def test_a_case_of_a_table(self):
        for times, status in ((1, 0), (2, 1)):
            with self.subTest(times=times):
                self.write("table", TABLE.format(folder=self.folder, times=times))
                ran = self.run_modules("--again=2", "table")
                self.assertEqual((ran.returncode, self.runs("table")), (status, 2), ran.stdout)
                self.assertIn("the case of 2", ran.stdout)
                os.remove(self.path("table"))

    def test_a_test_that_isnt_run(self):
        with open(self.path("conftest.py"), "a", encoding="ascii") as file:
            file.write(LOSES)
        ran = self.run_modules("--again=2", lost=0, passes=0)
        self.assertEqual((ran.returncode, self.runs("passes")), (1, 1), ran.stdout)
        self.assertIn("1 tests weren't run", ran.stdout)

    def test_a_program_that_is_left_reads_no_name(self):
        self.write("reads_on", READS_ON)
        others = {f"z{at}": 0 for at in range(20)}
        ran = self.run_modules("--test-seconds=60", "reads_on", **others)
        self.assertEqual((ran.returncode, self.runs("z19")), (0, 1), ran.stdout)

    def test_another_program_in_its_place(self):
        self.write("becomes", BECOMES.format(folder=self.folder))
        ran = self.run_modules("becomes", passes=0)
        self.assertEqual((ran.returncode, self.runs("passes")), (1, 1), ran.stdout)
        self.assertRegex(ran.stdout, "crashed while running .*test_becomes.py::It::test_it")
        self.assertEqual((self.runs("became"), self.runs("next")), (1, 1))
        self.assertTrue(is_over(self.path("pid")))

    def test_without_pytest(self):
        for name in ("pytest", "xdist"):
            with self.subTest(missing=name):
                program = os.path.join(HERE, "run_tests.py")
                call = f"import sys, runpy; sys.modules[{name!r}] = None; sys.argv[:] = ['', 'one']"
                self.write_module("one", FAILS.format(folder=self.folder, name="one", times=0))
                call += f"; runpy.run_path({program!r}, run_name='__main__')"
                environment = {**os.environ, "PYTHONPATH": self.folder}
                ran = subprocess.run(
                    [sys.executable, "-c", call],
                    env=environment,
                    capture_output=True,
                    text=True,
                    timeout=600,
                )
                self.assertEqual((ran.returncode, "Ran 1 test" in ran.stderr), (0, True), ran.stderr)
                self.assertIn("unittest runs the tests", ran.stdout)

    def test_what_hangs_is_ended_with_what_it_started(self):
        self.write("hangs_once", HANGS_ONCE.format(folder=self.folder))
        ran = self.run_modules("--again=2", "--test-seconds=20", "hangs_once", passes=0)
        self.assertEqual((ran.returncode, self.runs("passes")), (0, 1), ran.stdout)
        self.assertIn("in test_it", ran.stderr)  # where it was
        self.assertRegex(ran.stdout, "FAILED ONCE, then passed by itself: .*test_hangs_once")
        self.assertTrue(is_over(self.path("program")))

    def test_the_time_of_all(self):
        self.write("hangs_once", HANGS_ONCE.format(folder=self.folder))
        ran = self.run_modules("--again=2", "--seconds=20", "hangs_once", passes=0)
        self.assertEqual(ran.returncode, 1, ran.stdout)
        self.assertIn("in test_it", ran.stderr)
        self.assertTrue(is_over(self.path("program")))


def is_over(path):
    """Tells whether the process whose id the file has is no more, or waits to be reaped."""
    with open(path, encoding="ascii") as file:
        return not os.path.exists(f"/proc/{file.read()}/exe")


if __name__ == "__main__":
    unittest.main()
