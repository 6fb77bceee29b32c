#!/usr/bin/env python3
"""Runs the tests by pytest, in several parallel processes, since most wait for servers and clients.

    ./run_tests.py [--processes N] [--seconds N] [--test-seconds N] [--slowest N] [--again N]
                   [MODULE ...]

The status is 1 if a test fails, if a process ends by itself, or if the time is up: that of all
tests, or that of one (`conftest.py`). With --again N, if tests of at most N modules failed, these
tests are run once more, in one process, after all others: what fails only next to other tests is
listed, and isn't a failure. Without pytest and pytest-xdist the modules are run by unittest, one
after another.
"""

import argparse
import contextlib
import importlib.util
import os
import shutil
import signal
import subprocess
import sys
import tempfile
import time
from collections.abc import Iterator

HERE = os.path.dirname(os.path.abspath(__file__))
ENDING = 30.0  # seconds for pytest to say what it has seen, after the time was up


class Runner:
    """Runs pytest with a folder of its own, until `ends`."""

    def __init__(self, folder: str, ends: float, test_seconds: float) -> None:
        self.ends, self.failed = ends, os.path.join(folder, "failed")
        # Compiled files are kept for the hundreds of programs that tests start, even if the tree is
        # read-only.
        self.settings = {
            **os.environ,
            "TMPDIR": folder,
            "ZANTEYARD_TESTS_FOLDER": folder,
            "PYTHONPYCACHEPREFIX": os.path.join(folder, "compiled"),
            "ZANTEYARD_TEST_SECONDS": str(test_seconds),
            "ZANTEYARD_TESTS_END": str(ends),
            "ZANTEYARD_TESTS_FAILED": self.failed,
        }
        self.settings.pop("PYTHONDONTWRITEBYTECODE", None)

    def run(self, *words: str) -> int:
        """Returns pytest's status: 0 if all tests passed, 1 if all were run and some failed."""
        call = [sys.executable, "-m", "pytest", "-p", "no:cacheprovider", *words]
        process = subprocess.Popen(call, cwd=HERE, env=self.settings, stdin=subprocess.DEVNULL)
        try:
            return process.wait(max(self.ends - time.time(), 0) + ENDING / 3)
        except subprocess.TimeoutExpired:
            print("FAILED: the time was up", flush=True)
            process.send_signal(signal.SIGINT)
            with contextlib.suppress(subprocess.TimeoutExpired):
                process.wait(ENDING)
            return 2
        finally:
            process.kill()
            process.wait()


def run_all(runner: Runner, processes: int, slowest: int, again: int, paths: list[str]) -> bool:
    several = ["-n", str(processes), "--dist", "loadfile", "--max-worker-restart", "9999"]
    status = runner.run(*several, f"--durations={slowest}", *paths)
    if status != 1:
        return status == 0
    with open(runner.failed, encoding="utf-8") as file:
        failed = file.read().splitlines()
    modules = {name.partition("::")[0] for name in failed}
    if not 0 < len(modules) <= again or time.time() > runner.ends:
        return False
    print("once more, by themselves:", *failed, flush=True)
    if runner.run(*failed) != 0:
        return False
    for name in failed:
        print(f"FAILED ONCE, then passed by itself: {name}")
    return True


@contextlib.contextmanager
def folder_of_its_own() -> Iterator[str]:
    from conftest import end_all  # which needs pytest

    folder = tempfile.mkdtemp()
    os.chmod(folder, 0o711)  # if this runs as root, servers in it run as another user
    try:
        yield folder
    finally:
        end_all(folder)
        shutil.rmtree(folder, ignore_errors=True)


def main() -> int:
    words = argparse.ArgumentParser(description=__doc__.splitlines()[0])
    words.add_argument("--processes", type=int, default=3, help="side by side (3)")
    words.add_argument("--seconds", type=float, default=3600.0, help="for all of them (3600)")
    words.add_argument("--test-seconds", type=float, default=600.0, help="for each (600)")
    words.add_argument("--slowest", type=int, default=10, help="so many are named at the end (10)")
    words.add_argument("--again", type=int, default=0, help="rerun if so few modules failed (0)")
    words.add_argument("modules", nargs="*", metavar="MODULE", help="as tests.test_live; else all")
    asked = words.parse_args()
    signal.signal(signal.SIGTERM, lambda *_: sys.exit(1))
    if not all(map(importlib.util.find_spec, ("pytest", "xdist"))):
        print("pytest and pytest-xdist aren't both installed: unittest runs the tests, one by one")
        which = asked.modules or ["discover", "-t", ".", "-s", "tests"]
        os.chdir(HERE)
        rooms = ("model", "check", "cost")  # as in pyproject.toml, for pytest
        paths = [os.path.join(HERE, "../bench", room) for room in rooms]
        os.environ["PYTHONPATH"] = os.pathsep.join([*paths, os.environ.get("PYTHONPATH", "")])
        sys.stdout.flush()
        os.execv(sys.executable, [sys.executable, "-X", "faulthandler", "-m", "unittest", *which])
    paths = [
        each if os.path.exists(each) else os.path.join(HERE, *each.split(".")) + ".py"
        for each in asked.modules
    ]
    with folder_of_its_own() as folder:
        runner = Runner(folder, time.time() + asked.seconds, asked.test_seconds)
        return int(not run_all(runner, asked.processes, asked.slowest, asked.again, paths))


if __name__ == "__main__":
    sys.exit(main())
