"""Runs clients at the same time until a fault shows or the time is up; and tables of which levels
have which faults under load."""

import time
from collections.abc import Callable, Mapping, Sequence
from typing import Any

from ..core._outcome import RATHER_WAIT
from ..core._verdict_kinds import Kind
from ..explain._anomalies import find_anomaly
from ..explain._audited import from_start, refuted
from ..explain._shrinking import smaller
from ..program._auditor import Auditor
from ..session._session import Session
from .lockstep import Seen
from .workloads import EVERY_WORKLOAD, Clients

CLIENTS = 4
RATE = 400.0  # transactions per second of all clients
PART = 0.5  # seconds between two rounds
MOST = 4000  # transactions of one run
SHRINKING = 5.0  # seconds to find out what a violation is called


class Slow:
    """A store whose reads take longer, so that other clients come in between."""

    def __init__(self, store: Any, seconds: float = 0.002) -> None:
        self._store, self._seconds = store, seconds

    def __getattr__(self, name: str) -> Any:
        return getattr(self._store, name)

    def read(self, key: str) -> Any:
        stored = self._store.read(key)
        time.sleep(self._seconds)
        return stored


def run_at_once(
    workload: str, stores: Sequence[Any], seconds: float, names_it: bool = True
) -> Seen:
    """Runs the workload with one client on each of these stores, for this many seconds or until a
    violation. Raises what a client's transaction raised, except AbortedError."""
    with Auditor(len(stores), MOST, policy=RATHER_WAIT) as auditor:
        sessions = [Session(auditor, number, Slow(store)) for number, store in enumerate(stores)]
        ends = time.monotonic() + seconds
        kind: str = Kind.SERIAL
        while kind == Kind.SERIAL and time.monotonic() < ends and auditor.remaining < 0.9 * MOST:
            clients = Clients(sessions, EVERY_WORKLOAD[workload], PART, lambda: False, RATE)
            if clients.failures:
                raise clients.failures[0]
            report = auditor.round()
            kind = report.kind
        if kind != Kind.VIOLATED:
            kind = auditor.outcome().kind  # incomplete if something wasn't audited
        outcomes = [[logged.outcome for logged in txns] for txns in auditor.history]
        named = ""
        if kind == Kind.VIOLATED and names_it:
            history, _ = from_start(auditor)
            known = refuted(auditor, report.certificate)
            anomaly = find_anomaly(smaller(history, seconds=SHRINKING, known=known))
            named = anomaly.name if anomaly is not None else ""
    return Seen(kind, named, outcomes)


def at_once_table(
    make_stores: Callable[[str], Sequence[Any]],
    levels: Sequence[str],
    seconds: float,
    workloads: Sequence[str] = tuple(EVERY_WORKLOAD),
) -> Mapping[str, list[Seen]]:
    """What was seen of each workload at each level. Each one begins with new connections, and
    continues with the rows of the one before."""
    seen_by_workload: dict[str, list[Seen]] = {workload: [] for workload in workloads}
    for level in levels:
        for workload, seen in seen_by_workload.items():
            stores = make_stores(level)
            try:
                seen.append(run_at_once(workload, stores, seconds))
            finally:
                for store in stores:
                    store.close()
    return seen_by_workload
