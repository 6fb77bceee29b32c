"""`zanteyard serve`: an audit as a daemon, for clients that come and go.

docs/OPERATION.md says how to run it. The exit status says why it ended: 0 it was stopped, and
everything was serial; 1 the audit is violated; 2 it can't begin, because of a mistake in the call
or the folder, or because another daemon uses it; 3 it was stopped, and was pending; 4 something
wasn't audited or decided, it ended by a fault of its own, or only the collector's own transactions
have no order.
"""

import argparse
import contextlib
import itertools
import logging
import os
import signal
import sys
import threading
import traceback
from typing import Any

from ..core._outcome import RATHER_LOSE_THE_AUDIT, RATHER_WAIT, UNDECIDED_STATUS, Outcome
from ..core._outcome import exit_status
from ..core._private_files import private
from ..core._verdict_kinds import Kind
from ..core.errors import FolderUnfitError, KeyFileError, ZanteyardError
from ..explain._audited import from_start, refuted
from ..explain._violation_text import tell_violation
from ..journal._file import keep_earlier
from ..live._live_auditor import LiveAuditor
from ..program._auditor import Auditor
from ..program._binaries import find_program
from ..promises._kinds import LIVE as PROMISES
from ..promises._kinds import SERIALIZABLE
from ..remote._server import AuditServer, ProcessServer
from ..watch._options import FORM, add_logging, address, least_of, whole_of
from ..watch.proxy._sharing import add_sharing, mistake_of
from ..watch.pages._prometheus import Metrics
from ..watch.pages._web import WebServer
from ._metrics import families
from ._parsing import add_old_name

JOURNAL, SOCKET, VIOLATION = "audit.journal", "audit.socket", "violation"
STATUS_WORDS = (
    "Exit status: 0 stopped, and serial; 1 violated; 2 it can't start, or another daemon has the "
    "audit; 3 stopped, and pending; 4 something wasn't audited or decided, or the collector's own "
    "transactions have no order."
)
LOOKS = 0.2  # seconds between two checks whether it is over
TELLING = 30.0  # seconds that reducing a violation may take
logger = logging.getLogger("zanteyard")


def add_arguments(command: argparse.ArgumentParser) -> None:
    command.add_argument(
        "--folder", metavar="DIR",
        help=f"the audit's folder, created if missing; clients connect by DIR/{SOCKET} in it",
    )
    add_old_name(command, "--journal", "--folder", metavar="DIR")
    command.add_argument(
        "--sessions",
        type=int,
        default=16,
        choices=range(1, 65),
        metavar="N",
        help="sessions at the start, 1 to 64 (16); more are added, up to 64 clients at a time",
    )
    command.add_argument(
        "--promise", choices=[*PROMISES], default=SERIALIZABLE.name,
        help="what the store promises (serializable; docs/PROMISES.md)",
    )
    command.add_argument(
        "--metrics",
        type=address,
        metavar="HOST:PORT",
        help="serve Prometheus metrics at http://HOST:PORT/metrics",
    )
    add_sharing(command, "collectors", "; those of other machines use it")
    command.add_argument(
        "--every", type=whole_of(1), default=LiveAuditor.EVERY, metavar="N",
        help=f"transactions between two meetings ({LiveAuditor.EVERY})",
    )
    command.add_argument(
        "--round-seconds", type=least_of(0.0), default=60.0, metavar="S",
        help="seconds that the search of a round may take before the round is skipped (60)",
    )
    command.add_argument(
        "--rather-wait", action="store_true", help="let clients wait longer for the auditor"
    )
    command.add_argument(
        "--redact", action="store_true",
        help="hide values and the constants of statements; keys are still shown",
    )
    command.add_argument(
        "--script", metavar="FILE",
        help="write each line sent to the auditor to FILE; if FILE exists, to another name",
    )
    add_logging(command, "log more")


def run(asked: argparse.Namespace) -> int:
    """Runs until a signal or the end of the audit; returns the exit status."""
    if not asked.folder:
        raise FolderUnfitError("no folder was given: give --folder DIR or set ZANTEYARD_FOLDER")
    mistake = mistake_of(asked)
    if mistake is not None:
        raise KeyFileError(mistake)
    logging.basicConfig(level=asked.log, format=FORM, stream=sys.stderr)
    stopped = threading.Event()
    for number in (signal.SIGTERM, signal.SIGINT, signal.SIGHUP):
        signal.signal(number, lambda *_: stopped.set())
    os.makedirs(asked.folder, mode=0o700, exist_ok=True)
    stack = contextlib.ExitStack()
    try:
        return _audit(asked, stack, stopped)
    finally:
        stack.close()


def _audit(asked: argparse.Namespace, stack: contextlib.ExitStack, stopped: threading.Event) -> int:
    auditor = stack.enter_context(_auditor(asked))
    policy = RATHER_WAIT if asked.rather_wait else RATHER_LOSE_THE_AUDIT
    live = LiveAuditor(auditor, every=asked.every, policy=policy, redacts=asked.redact)
    live.count_awaited()
    servers = _servers(asked, live)

    def clients() -> int:
        return sum(server.clients for server in servers)

    if asked.metrics is not None:
        answer = Metrics(lambda: families(live, clients()))
        metrics = WebServer(asked.metrics, answer, any_name=True)
        stack.callback(metrics.close)
        logger.info("serving metrics on port %d", metrics.port)
    about = auditor.promise.title
    logger.info("audit %s for %s begins; its folder is %s", live.name, about, asked.folder)
    faults: list[str] = []
    _end_at_faults(faults)
    while not (live.is_over or faults or stopped.wait(LOOKS)):
        pass
    for server in servers:
        server.close(5.0)
    outcome = live.stop()
    logger.info("%s", outcome)
    if outcome.handed_in == 0:
        logger.warning("nothing was handed in: no client ran a transaction")
    if outcome.is_violated:
        _tell(asked, auditor, outcome)
        return exit_status(Kind.VIOLATED)
    if faults:
        logger.error("ending: %s", faults[0])
        return UNDECIDED_STATUS
    return exit_status(outcome.whole.kind)


def _end_at_faults(faults: list[str]) -> None:
    """Ends the daemon after an exception in any thread: otherwise it would only look healthy."""

    def note(raised: Any) -> None:
        words = "".join(traceback.format_exception(*raised[:3]))
        logger.error("a thread died of an exception: %s", words)
        name = raised.exc_type.__name__
        faults.append(f"a thread died of {name}: {raised.exc_value}")

    threading.excepthook = note


def _auditor(asked: argparse.Namespace) -> Auditor:
    """A new auditor. No client has a session of the run before, and what was in flight when that
    ended is unknown: its journal is kept under another name."""
    path = os.path.join(asked.folder, JOURNAL)
    settings: Any = {"program": find_program(), "script": _unused(asked.script)}
    settings["round_seconds"] = asked.round_seconds
    keep_earlier(path)
    return Auditor(asked.sessions, journal=path, promise=asked.promise, **settings)


def _unused(script: str | None) -> str | None:
    """An unused file name, so that an earlier daemon's script is kept."""
    names = itertools.chain([""], (f".resumed{at or ''}" for at in itertools.count()))
    return script and next(script + name for name in names if not os.path.isfile(script + name))


def _servers(asked: argparse.Namespace, live: LiveAuditor) -> list[ProcessServer]:
    servers: list[ProcessServer] = []
    try:
        servers.append(AuditServer(live, os.path.join(asked.folder, SOCKET)))
        if asked.audit:
            try:
                from ..remote._redis_server import RedisServer
            except ImportError as error:
                raise ZanteyardError("--redis needs redis-py: zanteyard[redis]") from error
            servers.append(RedisServer(live, asked.redis, asked.audit, asked.key))
            logger.info("collectors on other machines join by the audit %s", asked.audit)
    except BaseException:
        for server in servers:
            server.close(0.0)
        live.lose(ZanteyardError("clients can't connect"))
        live.stop(1.0)
        raise
    return servers


def _tell(asked: argparse.Namespace, auditor: Auditor, outcome: Outcome) -> None:
    """Writes an explanation of the violation to the log and to files. If that fails, for example
    because the disk is full, the verdict stays."""
    path = os.path.join(asked.folder, VIOLATION)
    lines: list[str] = []

    def tell(line: str) -> None:
        lines.append(line)
        logger.error("%s", line)

    try:
        history, called = from_start(auditor)
        known = refuted(auditor, outcome.certificate)
        more = (TELLING, auditor.path, known, auditor.promise)
        tell_violation(history, path, called, tell, *more)
    except Exception as error:
        tell(f"violated, but it can't be explained: {error!r}")
    try:
        with open(f"{path}.txt", "w", encoding="utf-8", opener=private) as file:
            file.write("\n".join(lines) + "\n")
    except OSError as error:
        logger.error("can't write %s.txt; its text is in this log: %s", path, error)
