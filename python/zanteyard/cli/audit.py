"""Audits PostgreSQL or another store while clients run on it at the same time. Prints a line for
each round, and the explanation of a violation. Both `zanteyard bench` and
`examples/postgres_live.py` run this."""

import argparse
import contextlib
import glob
import itertools
import os
import signal
import threading
import time
from collections.abc import Iterator
from dataclasses import dataclass, replace
from typing import Any

from ..core._outcome import RATHER_LOSE_THE_AUDIT, RATHER_WAIT, Outcome, words_of_before
from ..core._verdict_kinds import Kind
from ..core._visible import say
from ..explain._audited import from_start, refuted
from ..explain._charts import RoundSeen
from ..explain._html import page_of
from ..explain._report import Story
from ..explain._violation_text import tell_story
from ..live._live_auditor import LiveAuditor
from ..live._told import RoundTold
from ..program._auditor import Auditor
from ..promises._kinds import LIVE as PROMISES
from ..remote._server import AuditServer
from ..session._session import Session
from ..trial._throwaway_folder import ThrowawayFolder
from ..trial.postgres_server import ended_by_signals
from ..trial.store_kinds import POSTGRES, MakesStore, StoreKind
from ..trial.store_kinds import CantAuditError as CantAuditError
from ..watch._options import least_of, whole_of
from ..trial.workloads import EVERY_WORKLOAD, ChurningClients, ClientProcesses, Clients, Nothing

STAYING, CHURNING = 8, 16  # clients at a time, by default


@dataclass(frozen=True)
class LiveRun:
    """The result of a run. `alone` are the clients without an auditor, if they ran; `story` is the
    explanation of a violation, if there was one; `seen` are the rounds."""

    asked: argparse.Namespace
    live: LiveAuditor
    outcome: Outcome
    clients: Clients
    alone: Clients | None
    story: Story | None
    seen: tuple[RoundSeen, ...]

    def lines(self) -> list[str]:
        """The last three lines of a run."""
        at = f"{self.asked.workload} at {self._level()}"
        came = getattr(self.clients, "came", None)
        by = f"{self.asked.clients} clients"
        if came is not None:
            by += f" at a time ({came} in all, in {self.live.auditor.sessions} sessions)"
        compared = f" ({self.alone.rate():.0f} without the auditor)" if self.alone else ""
        return [
            f"{at}: {self.outcome}; {self.live.cuts} cuts in {self.live.rounds} rounds",
            f"{by} committed {self.clients.rate():.0f} transactions a second{compared}; "
            f"{self.clients.aborted} aborted",
            f"clients spent {100 * self.clients.waited:.1f}% of their time in meetings; the "
            f"longest transaction took {self.clients.longest:.2f} s; the auditor was at most "
            f"{self.live.lag:.2f} s behind",
        ]

    def page(self, origin: str) -> str:
        """The run as a page."""
        about = f"{kind_of(self.asked).name}, {self.asked.workload} at {self._level()}"
        if self.outcome.from_before:
            about += f"; {words_of_before(self.outcome.from_before)}"
        return page_of(self.story or self._other_story(), about, origin, self.seen)

    def _level(self) -> str:
        return kind_of(self.asked).levels[self.asked.level]

    def _other_story(self) -> Story:
        whole = self.outcome.whole
        kind = whole.kind if whole.kind in (Kind.SERIAL, Kind.PENDING) else Kind.SPENT
        waiting = tuple(
            f"{read.reader[0]}.{read.reader[1]} read {read.key} from "
            f"{read.source[0]}.{read.source[1]}, which never arrived"
            for read in whole.pending
        )
        return Story(kind, tuple(whole.counts or ()), waiting=waiting)


@contextlib.contextmanager
def stopped_by_signals() -> Iterator[threading.Event]:
    """A context in which the first signal that would end the program sets the event instead, so
    that what was run so far gets a last round and a verdict. A second signal ends the program. For
    the main thread."""
    stop = threading.Event()
    kinds = (signal.SIGINT, signal.SIGTERM, signal.SIGHUP)
    before = {each: signal.getsignal(each) for each in kinds}
    ignored = signal.SIG_IGN  # under nohup
    before = {each: handler for each, handler in before.items() if handler != ignored}

    def restore() -> None:
        for each, handler in before.items():
            signal.signal(each, handler)

    def end(*_: object) -> None:
        restore()
        stop.set()
        with contextlib.suppress(OSError):
            os.write(2, b"ending after a last round; interrupt again to end at once\n")

    for each in before:
        signal.signal(each, end)
    try:
        yield stop
    finally:
        restore()


def unaudited_run(
    asked: argparse.Namespace, make_store: MakesStore, stop: threading.Event | None = None
) -> Clients:
    """The clients without the auditor, for comparison."""
    is_over = (stop or threading.Event()).is_set
    if asked.processes:
        more = (asked.clients, asked.workload, asked.unaudited, asked.rate, is_over)
        return ClientProcesses(None, make_store, *more)
    sessions = [
        Session(Nothing(), number, make_store(), "unaudited") for number in range(asked.clients)
    ]
    workload, seconds = EVERY_WORKLOAD[asked.workload], asked.unaudited
    return Clients(sessions, workload, seconds, is_over, asked.rate)


def _beside(
    asked: argparse.Namespace, make_store: MakesStore, live: LiveAuditor, stop: threading.Event
) -> Clients:
    """The clients of a live audit."""
    if asked.churn:
        workload = EVERY_WORKLOAD[asked.workload]
        settings = (asked.clients, workload, asked.seconds, asked.rate)
        return ChurningClients(live, make_store, *settings, is_over=stop.is_set)
    if not asked.processes:
        sessions = [live.session(make_store()) for _ in range(asked.clients)]
        more = (asked.seconds, lambda: live.is_over or stop.is_set(), asked.rate)
        return Clients(sessions, EVERY_WORKLOAD[asked.workload], *more)
    with ThrowawayFolder() as folder:
        with AuditServer(live, f"{folder}/audit") as server:
            those = (asked.clients, asked.workload, asked.seconds, asked.rate, stop.is_set)
            clients = ClientProcesses(server.path, make_store, *those)
    return clients


class _Rounds:
    """Records each round."""

    def __init__(self) -> None:
        self.began = time.monotonic()
        self.seen: list[RoundSeen] = []

    def see(self, told: RoundTold) -> None:
        at = time.monotonic() - self.began
        kind, taken = told.report.kind, told.transactions
        self.seen.append(RoundSeen(at, kind, told.remaining, told.behind, taken))


def audited_run(
    asked: argparse.Namespace, make_store: MakesStore, stop: threading.Event | None = None
) -> tuple[LiveAuditor, Outcome, Clients, Story | None, tuple[RoundSeen, ...]]:
    """Runs the clients with the auditor until the time is up or `stop` is set. Returns the audit
    and its outcome."""
    policy = RATHER_WAIT if asked.rather_wait else RATHER_LOSE_THE_AUDIT
    rounds, story = _Rounds(), None
    promise = asked.promise
    with Auditor(asked.clients, journal=asked.audit_journal, promise=promise) as auditor:
        more: Any = {"on_client": _say} if asked.churn else {}  # prints clients' first transactions
        settings = {"every": asked.every, "policy": policy, "tell": _say, "on_round": rounds.see}
        live = LiveAuditor(auditor, **settings, **more)
        clients = _beside(asked, make_store, live, stop or threading.Event())
        outcome = live.stop()
        if live.is_violated:
            history, called = from_start(auditor)
            known = refuted(auditor, live.report.certificate if live.report else ())
            path = _unused("violation")
            _, story = tell_story(history, path, called, known=known, promise=auditor.promise)
            story = replace(story, counts=tuple(outcome.counts or ()))
        return live, outcome, clients, story, tuple(rounds.seen)


def _say(told: object) -> None:
    say(str(told), flush=True)


def _unused(name: str) -> str:
    """The name, or the first unused one of name-2, name-3 and so on, so that earlier violations are
    kept."""
    for count in itertools.count(1):
        path = name if count == 1 else f"{name}-{count}"
        if not any(map(os.path.isfile, glob.glob(f"{path}.*"))):
            break
    return path


def count_of_clients(text: str) -> int:
    """A number of clients, 2 to 64."""
    count = int(text) if text.isdecimal() else 0
    if not 2 <= count <= 64:
        raise argparse.ArgumentTypeError(f"{text!r} isn't a whole number from 2 to 64")
    return count


def kind_of(asked: argparse.Namespace) -> StoreKind:
    """The store to audit; PostgreSQL by default."""
    kind: StoreKind = getattr(asked, "kind", POSTGRES)
    return kind


def add_arguments(asked: argparse.ArgumentParser, kind: StoreKind = POSTGRES) -> None:
    """Adds the arguments of a run."""
    asked.set_defaults(kind=kind)
    about = f"the store's isolation level ({kind.default_level})"
    asked.add_argument("--level", choices=kind.levels, default=kind.default_level, help=about)
    about = "what the clients do (mixed)"
    asked.add_argument("--workload", choices=EVERY_WORKLOAD, default="mixed", help=about)
    about = "how many seconds to run with the auditor (10)"
    asked.add_argument("--seconds", type=least_of(0.0), default=10.0, metavar="S", help=about)
    about = "seconds to run without the auditor first, for comparison; 0 for none (3)"
    asked.add_argument("--unaudited", type=least_of(0.0), default=3.0, metavar="S", help=about)
    asked.add_argument(
        "--clients", type=count_of_clients, help="clients at a time, 2 to 64 (8, or 16 with "
        "--churn)"
    )
    about = "replace each client by another after two seconds; print the first transaction of each"
    asked.add_argument("--churn", action="store_true", help=about)
    about = (
        "at most this many transactions a second from all clients together (no limit)"
    )
    asked.add_argument("--rate", type=least_of(0.01), metavar="N", help=about)
    about = f"transactions between two meetings ({LiveAuditor.EVERY})"
    every = LiveAuditor.EVERY
    asked.add_argument("--every", type=whole_of(1), default=every, metavar="N", help=about)
    about = "run each client in its own process instead of a thread"
    asked.add_argument("--processes", action="store_true", help=about)
    about = (
        "let clients wait if the auditor can't keep up; without this, the audit ends and another "
        "begins"
    )
    asked.add_argument("--rather-wait", action="store_true", help=about)
    kind.add_arguments(asked)
    about = "a new file from which the audit continues if the auditor is killed"
    asked.add_argument("--audit-journal", metavar="FILE", help=about)
    about = "what the store promises at that level (serializable; docs/PROMISES.md)"
    asked.add_argument("--promise", choices=PROMISES, default=PROMISES[0], help=about)
    asked.add_argument("--html", metavar="FILE", help="write an HTML page")


def run(asked: argparse.Namespace) -> LiveRun:
    """Runs the clients as requested, and prints each round. Signals such as Ctrl-C end a live audit
    as the time does. Raises CantAuditError."""
    kind = kind_of(asked)
    asked.clients = asked.clients or (CHURNING if asked.churn else STAYING)
    if asked.churn and asked.processes:
        raise CantAuditError("--churn runs clients in threads: leave out --processes")
    with ended_by_signals(), kind.server(asked) as used:
        make_store = kind.maker(asked, used)
        with stopped_by_signals() as stop:
            alone = unaudited_run(asked, make_store, stop) if asked.unaudited else None
            if stop.is_set():
                raise KeyboardInterrupt  # nothing had been audited yet
            live, outcome, clients, story, seen = audited_run(asked, make_store, stop)
    return LiveRun(asked, live, outcome, clients, alone, story, seen)
