"""One run of `zanteyard watch`, from its start to its outcome."""

import contextlib
import json
import logging
import signal
import threading
import time
from collections.abc import Callable, Iterator, Mapping, Sequence
from dataclasses import dataclass, field
from typing import Any

from ..core._visible import say, shown
from ..core.errors import ProgramEndedError
from ..promises._kinds import SERIALIZABLE, Promise
from ._auditing import Auditing
from .outcome._board import Board
from .outcome._ending import lines_of, status_of
from .violations._explaining import Explaining
from .pages._figures import families
from .pages._prometheus import Metrics
from .violations._groups import Group, Groups
from .violations._hooks import Hooks
from .proxy._intake import Intake
from .outcome._json import status_json, violation_json
from .pages._saving import save
from .pages._serving import Pages
from ..core._stopping import LEAVES, STOPS
from .proxy._supervising import CantBeginError, Control, Supervisor
from .violations._violations import Violation
from ._watching import Watching
from .pages._web import Tell, WebServer

LOOKS = 0.1  # seconds between two checks whether it is over
LAST_ROUND = 30.0  # seconds for the proxy's last meeting, in addition to the time of a round
EXPLAINED = 240.0  # seconds for explanations that are still being prepared
logger = logging.getLogger("zanteyard")


@dataclass(frozen=True)
class Plan:
    """What to run. `call` is the proxy with its arguments. The addresses are HOST:PORT, or None to
    serve nothing."""

    call: Sequence[str]
    auditor: str
    title: str
    origin: str = ""
    environment: Mapping[str, str] | None = None
    page: str | None = None
    metrics: str | None = None
    journal: str | None = None
    save: str | None = None
    round_seconds: float = 60.0
    for_seconds: float | None = None  # seconds after which it stops by itself
    listen: str = ""  # where applications connect
    redacts: bool = False  # shows no values of statements
    promise: Promise = SERIALIZABLE  # what the audit checks
    is_json: bool = False  # what it prints
    control: Control | None = None  # how the proxy is reached; None: by its standard streams
    at_least: float = 0.0  # percent that have to be checked
    known: frozenset[str] = frozenset()  # names of violations' shapes that are set aside
    hooks: Hooks = field(default_factory=Hooks)  # who is told of a violation
    ends_at_violation: bool = False  # it stops at the first one that isn't known


class Run:
    """One run. `tell` prints a line on standard output. Not for several threads, except `stop` and
    `interrupt`."""

    def __init__(self, plan: Plan, tell: Callable[[str], object] = say) -> None:
        """Raises JournalError, and OSError if it can't listen at one of the addresses."""
        self.plan = plan
        self._tell: Callable[[str], object] = lambda line: tell(shown(line))
        self.stop = threading.Event()
        self.leaves = False  # the proxy running, at its end
        self._turn = threading.Lock()
        groups = Groups(plan.known)
        about = (plan.title, plan.origin, plan.promise, plan.at_least)
        self.board = Board(*about, groups)
        intake = Intake()
        explaining = Explaining(plan.auditor, self._explained, plan.promise, groups)
        its_promise = plan.promise
        auditing = Auditing(plan.auditor, plan.journal, plan.round_seconds, its_promise)
        its = (auditing, self.board, intake, self._to_proxy, explaining, plan.redacts)
        self._watching = Watching(*its)
        self._explaining = explaining
        self._supervisor = Supervisor(
            plan.call, plan.environment, intake, self._watching.proxy_is_gone, plan.control
        )
        self._stack = contextlib.ExitStack()
        served: tuple[tuple[str | None, Tell, str, bool], ...] = (
            (plan.page, Pages(self.board), "the page", False),
            (plan.metrics, Metrics(lambda: families(self.board.status())), "metrics", True),
        )
        for address, pages, name, any_name in served:
            if address is not None:
                server = WebServer(address, pages, any_name)
                self._stack.callback(server.close)
                where = server.url + ("metrics" if any_name else "")
                logger.info("%s: %s", name, where)

    def _to_proxy(self, line: bytes) -> bool:
        """Passes a command to the proxy, unless the proxy that it is meant for has ended."""
        is_of_now = self._supervisor.ended == self._watching.gone
        return is_of_now and self._supervisor.tell(line)

    def run(self) -> int:
        """Runs until it is stopped, and returns the exit status. Raises ProgramMissingError, and
        CantBeginError if no audit begins: the proxy ends before that, or says why it can't."""
        with self._stack:
            self._watching.start()
            try:
                self._supervisor.begin()
                self._wait()
                self._last_round()
            except Exception:
                self.leaves = self._supervisor.was_running
                raise
            finally:
                self._end_proxy()
                self._watching.end()
        status = self.board.status()
        if self.plan.is_json:
            self._tell(json_line("outcome", status_json(status, has_violations=False)))
            return status_of(status)
        for line in lines_of(status):
            self._tell(line)
        return status_of(status)

    def interrupt(self, number: int) -> None:
        """Handles a signal: the first one stops the run, another one ends the proxy at once if it
        is already ending."""
        if self.stop.is_set():
            self._supervisor.hurry()
        else:
            self.leaves = number in LEAVES
            self.stop.set()

    def _end_proxy(self) -> None:
        if self._supervisor.is_replaced:
            self._supervisor.let_go()  # it ends by itself
            return
        if not self.leaves:
            self._supervisor.end()
            return
        number = self._supervisor.let_go()
        if number is not None:
            logger.info(
                "the proxy (process %d) goes on, unaudited: %s still serves applications. "
                "`zanteyard watch` with the same arguments audits again; `kill %d` ends the proxy",
                number, self.plan.listen, number,
            )

    def _wait(self) -> None:
        ends: float | None = None
        is_told = False
        try:
            while not self.stop.wait(LOOKS) and (ends is None or time.monotonic() < ends):
                self._supervisor.look()
                if self._watching.cant_begin:
                    raise CantBeginError(f"the audit can't begin: {self._watching.cant_begin}")
                if not is_told and self._supervisor.is_listening:
                    is_told = True
                    self._tell_listening()
                has_started = self._supervisor.has_started.is_set()
                if ends is None and has_started and self.plan.for_seconds is not None:
                    ends = time.monotonic() + self.plan.for_seconds
        except ProgramEndedError as error:
            logger.error("%s", error)

    def _tell_listening(self) -> None:
        plan = self.plan
        logger.info(
            "applications can connect to %s; auditing for %s", plan.listen, plan.promise.title
        )

    def _last_round(self) -> None:
        logger.info("ending after a last round")
        self._watching.stop()
        until = time.monotonic() + LAST_ROUND + self.plan.round_seconds
        while not self._watching.stopped.wait(LOOKS):
            self._supervisor.look_last()
            if time.monotonic() > until:
                logger.warning("the last round didn't finish in time")
                self.board.ended("its last round didn't finish in time")
                break
        self._explaining.wait(EXPLAINED)
        self.plan.hooks.wait()

    def _explained(self, one: Violation, group: Group) -> None:
        """Reports an explained violation, the first of its shape; one at a time."""
        if group.is_known:
            logger.info("violation %d is known (%s), and set aside", one.number, group.name)
            return
        if self._explaining.groups.may_be_known:
            logger.error("VIOLATED: violation %d isn't known: %s", one.number, group.name)
        with self._turn:
            self.board.violation(one)
            self.plan.hooks.tell({"event": "violation", **violation_json(one)})
            if self.plan.ends_at_violation:
                self.stop.set()
            if self.plan.is_json:
                self._tell(json_line("violation", violation_json(one)))
            else:
                for line in one.lines():
                    self._tell(line)
            if self.plan.save is not None:
                names = save(one, self.plan.save, self.plan.title, self.plan.origin)
                told = f"(saved: {', '.join(names)})" if names else "(can't save it)"
                if self.plan.is_json:
                    logger.info("violation %d %s", one.number, told)
                else:
                    self._tell(told)


def json_line(event: str, its: Mapping[str, Any]) -> str:
    return json.dumps({"event": event, **its}, separators=(",", ":"))


@contextlib.contextmanager
def stopped_by_signals(run: Run) -> Iterator[None]:
    """A context in which the signals that end a program stop the run instead. For the main
    thread."""
    before = {number: signal.getsignal(number) for number in STOPS}
    for number in STOPS:
        if before[number] != signal.SIG_IGN:  # as nohup wants it
            signal.signal(number, lambda number, _: run.interrupt(number))
    try:
        yield
    finally:
        for number, handler in before.items():
            signal.signal(number, handler)
