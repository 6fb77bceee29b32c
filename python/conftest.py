"""What pytest does here beside running the tests: order, folders, and what becomes of a test that
doesn't end.

The modules that take longest are run first. Each process that pytest-xdist starts has its own
folder for temporary files, and its own server, which its modules share. A test that takes longer
than ZANTEYARD_TEST_SECONDS (600), or is still running at ZANTEYARD_TESTS_END (seconds since 1970),
shows where its threads are, and ends its process. What that process has started is ended, too, and
another one goes on with the next test.
"""

import contextlib
import faulthandler
import glob
import os
import shutil
import signal
import tempfile
import time
from collections import Counter
from collections.abc import Iterator
from typing import Any

import pytest

try:
    from xdist.scheduler import LoadFileScheduling
except ImportError:  # then there is one process
    LoadFileScheduling = object

LONG = (
    *("stores", "killed", "journal_kills", "faults"),
    *("restarting", "postgres_live", "bank", "shrinking", "examples", "live", "no_harm"),
    *("rounds", "proxy_drivers", "watch_whole"),
)
# A folder that is given is used as it is, and left to who gave it: with one more in it the paths of
# some sockets would be too long.
GIVEN = "ZANTEYARD_TESTS_FOLDER"
FOLDER, STDERR = pytest.StashKey[str](), pytest.StashKey[int]()


def pytest_configure(config: pytest.Config) -> None:
    config.stash[STDERR] = os.dup(2)  # tests run with another one
    faulthandler.enable(config.stash[STDERR])
    worker: dict[str, Any] | None = getattr(config, "workerinput", None)
    if worker is None and GIVEN in os.environ:
        config.stash[FOLDER] = os.environ[GIVEN]
    elif worker is None:
        config.stash[FOLDER] = tempfile.mkdtemp()
    else:
        config.stash[FOLDER] = os.path.join(worker["folder"], worker["workerid"])
        os.mkdir(config.stash[FOLDER])
    os.chmod(config.stash[FOLDER], 0o711)  # servers of root run as another user
    os.environ["TMPDIR"] = tempfile.tempdir = config.stash[FOLDER]


def pytest_unconfigure(config: pytest.Config) -> None:
    if not hasattr(config, "workerinput") and GIVEN not in os.environ:
        end_all(config.stash[FOLDER])
        shutil.rmtree(config.stash[FOLDER], ignore_errors=True)


def pytest_collection_modifyitems(items: list[pytest.Item]) -> None:
    places = {f"test_{name}": place for place, name in enumerate(LONG)}
    items.sort(key=lambda item: places.get(item.path.stem, len(places)))


@pytest.hookimpl(hookwrapper=True)
def pytest_runtest_protocol(item: pytest.Item) -> Iterator[None]:
    seconds = float(os.environ.get("ZANTEYARD_TEST_SECONDS", 600.0))
    if "ZANTEYARD_TESTS_END" in os.environ:
        seconds = min(seconds, float(os.environ["ZANTEYARD_TESTS_END"]) - time.time())
    stderr = item.config.stash[STDERR]
    faulthandler.dump_traceback_later(max(seconds, 1.0), exit=True, file=stderr)
    yield
    faulthandler.cancel_dump_traceback_later()


@pytest.hookimpl(tryfirst=True)
def pytest_sessionfinish(session: pytest.Session) -> None:
    """Doesn't let a run pass, nor be repeated in part, in which a test was lost."""
    terminal: Any = session.config.pluginmanager.get_plugin("terminalreporter")
    if terminal is None:
        return  # one of pytest-xdist's processes
    ran = {it.nodeid for each in terminal.stats.values() for it in each if hasattr(it, "duration")}
    if len(ran) < session.testscollected and session.exitstatus in (0, 1):
        terminal.write_line(f"{session.testscollected - len(ran)} tests weren't run")
        session.exitstatus = pytest.ExitCode.INTERNAL_ERROR


def pytest_terminal_summary(terminalreporter: Any) -> None:
    """Says which modules took longest. The names of the tests that have failed, and of modules that
    can't be imported, are written to the file that ZANTEYARD_TESTS_FAILED names."""
    seconds: Counter[str] = Counter()
    stats: dict[str, list[Any]] = terminalreporter.stats
    for reports in stats.values():
        for report in reports:
            if hasattr(report, "duration"):
                seconds[report.nodeid.partition("::")[0]] += report.duration
    terminalreporter.section("slowest modules")
    for name, taken in seconds.most_common(10):
        terminalreporter.write_line(f"{taken:8.2f}s {name}")
    if path := os.environ.get("ZANTEYARD_TESTS_FAILED"):
        reports = [*stats.get("failed", ()), *stats.get("error", ())]
        names = {f"{terminalreporter.config.rootpath}/{report.nodeid}\n" for report in reports}
        with open(path, "w", encoding="utf-8") as file:
            file.writelines(sorted(names))


class Hooks:
    """Those of pytest-xdist."""

    def pytest_configure_node(self, node: Any) -> None:
        node.workerinput["folder"] = node.config.stash[FOLDER]

    def pytest_testnodedown(self, node: Any, error: object) -> None:
        if error:
            end_all(os.path.join(node.config.stash[FOLDER], node.gateway.id))

    def pytest_xdist_make_scheduler(self, config: pytest.Config, log: Any) -> Any:
        return ByModule(config, log)


def pytest_addhooks(pluginmanager: pytest.PytestPluginManager) -> None:
    if pluginmanager.hasplugin("xdist"):
        pluginmanager.register(Hooks())


class ByModule(LoadFileScheduling):  # type: ignore[misc]  # it has no types
    """If a process ends by itself, what it hasn't run yet is run, but not the test that ended it,
    which pytest-xdist 3.1 would run again."""

    def remove_node(self, node: Any) -> Any:
        given = self.assigned_work.pop(node)
        left = [(name, test) for name in given for test in given[name] if not given[name][test]]
        if not left:
            return None
        module, ended = left[0]
        given[module][ended] = True
        for name in dict.fromkeys(name for name, _ in left[1:]):
            self.workqueue[name] = given[name]
        self.schedule()
        return ended

    def schedule(self) -> None:
        super().schedule()
        super().schedule()  # a process begins with the last test that it has only if it has another


def end_all(folder: str) -> None:
    """Ends the servers and programs whose temporary files are in this folder."""
    files = (("data/postmaster.pid", signal.SIGQUIT), ("own_server.pid", signal.SIGKILL))
    for name, number in files:
        for path in glob.glob(f"{folder}/**/{name}", recursive=True):
            with contextlib.suppress(OSError, ValueError), open(path, encoding="ascii") as file:
                os.kill(abs(int(file.readline())), number)
    wanted = f"TMPDIR={folder}/".encode()
    for process in filter(str.isdigit, os.listdir("/proc")):
        with contextlib.suppress(OSError), open(f"/proc/{process}/environ", "rb") as file:
            if any((each + b"/").startswith(wanted) for each in file.read().split(b"\0")):
                os.kill(int(process), signal.SIGKILL)
