"""Drives clients in lockstep, one step after another, so that a fault shows every time if the store
allows it; and tables of which levels have which faults.

A step that the store doesn't allow, for example because it would have to wait for another client,
aborts that client's transaction. So the stores must not wait for locks.
"""

from collections.abc import Callable, Iterator, Mapping, Sequence
from contextlib import suppress
from dataclasses import dataclass
from typing import Any

from ..core._outcome import RATHER_WAIT, Outcome
from ..core._verdict_kinds import Kind
from ..core.errors import AbortedError, OutcomeUnknownError
from ..explain._anomalies import find_anomaly
from ..explain._reasons import explain_history
from ..explain._report import story_lines, story_of
from ..explain._standing import standing
from ..explain._words import name as plain_name
from ..program._auditor import Auditor
from ..program._binaries import PROGRAM
from ..promises._kinds import PREFIX, SERIALIZABLE, SNAPSHOT, Promise
from ..session._session import Session
from ..session._transaction import Transaction

SESSIONS = 3
PROMISES = (SERIALIZABLE, SNAPSHOT, PREFIX)
ASKING = 60.0  # seconds to find out which promises a violation breaks
Steps = Callable[[Sequence["Client"]], None]


class Client:
    """A session. After the store has aborted its transaction, further steps of it do nothing."""

    def __init__(self, session: Session) -> None:
        self.session = session
        self.transaction: Transaction | None = None

    def begin(self) -> None:
        with suppress(AbortedError):
            self.transaction = self.session.begin()

    def do(self, step: Callable[[Transaction], Any]) -> Any:
        """The step's result; None if the transaction has ended."""
        try:
            return step(self.transaction) if self.transaction is not None else None
        except AbortedError:
            self.give_up()
            return None

    def give_up(self) -> None:
        transaction, self.transaction = self.transaction, None
        if transaction is not None:
            transaction.rollback()

    def commit(self) -> None:
        transaction, self.transaction = self.transaction, None
        if transaction is not None and not transaction.is_over:
            with suppress(AbortedError):
                transaction.commit()

    def get(self, key: str) -> Any:
        return self.do(lambda transaction: transaction.get(key))

    def put(self, key: str, value: str) -> None:
        self.do(lambda transaction: transaction.put(key, value))

    def exchange(self, key: str, value: str) -> None:
        """Reads and writes the key at once, without ending the transaction."""
        self.do(lambda transaction: transaction.exchange(key, value))

    def run(self, **values: str) -> None:
        """Writes these in a transaction."""
        self.begin()
        for key, value in values.items():
            self.put(key, value)
        self.commit()

    def look(self, *keys: str) -> None:
        """Reads these in a transaction."""
        self.begin()
        for key in keys:
            self.get(key)
        self.commit()


def _dirty_read(clients: Sequence[Client]) -> None:
    """A client reads what another one wrote and then rolls back."""
    writer, reader, _ = clients
    writer.run(x="1")
    writer.begin()
    writer.exchange("x", "2")
    reader.look("x")
    writer.give_up()


def _half_written(clients: Sequence[Client]) -> None:
    """A client reads two keys when another one has written one of the two."""
    writer, reader, _ = clients
    writer.run(x="1", y="1")
    writer.begin()
    writer.exchange("x", "2")
    reader.look("x", "y")
    writer.exchange("y", "2")
    writer.commit()


def _torn_read(clients: Sequence[Client]) -> None:
    """A client reads one key, another one writes two, and the first one reads the second key."""
    writer, reader, _ = clients
    writer.run(x="1", y="1")
    reader.begin()
    reader.get("x")
    writer.run(x="2", y="2")
    reader.get("y")
    reader.commit()


def _newer_write(clients: Sequence[Client]) -> None:
    """A client reads one key, another one writes two, and the first one overwrites the second key
    by a statement that reads it."""
    writer, reader, _ = clients
    writer.run(x="1", y="1")
    reader.begin()
    reader.get("x")
    writer.run(x="2", y="2")
    reader.exchange("y", "3")
    reader.commit()


def _lost_update(clients: Sequence[Client]) -> None:
    """Two clients increment the same number."""
    first, other, _ = clients
    first.run(x="1")
    for client in (first, other):
        client.begin()
        client.get("x")
    for client in (first, other):
        client.put("x", "2")
        client.commit()


def _write_skew(clients: Sequence[Client]) -> None:
    """Two clients each see two coins, and each takes one that the other leaves."""
    first, other, _ = clients
    first.run(x="1", y="1")
    _take_each_one(first, other)


def _absent_keys(clients: Sequence[Client]) -> None:
    """Two clients each see that neither of two keys exists, and each creates one."""
    _take_each_one(*clients[:2])


def _take_each_one(first: Client, other: Client) -> None:
    for client in (first, other):
        client.begin()
        client.get("x")
        client.get("y")
    for client, key in ((first, "x"), (other, "y")):
        client.put(key, "0")
        client.commit()


FAULTS: Mapping[str, Steps] = {
    "dirty read": _dirty_read,
    "half written": _half_written,
    "torn read": _torn_read,
    "newer write": _newer_write,
    "lost update": _lost_update,
    "write skew": _write_skew,
    "absent keys": _absent_keys,
}


@dataclass(frozen=True)
class Seen:
    """What was seen of a fault: the verdict; if violated, the anomaly's name; the outcome of each
    session's transactions; and on request the explanation as lines, and the promises that were
    broken."""

    kind: str
    anomaly: str
    outcomes: Sequence[Sequence[str]]
    lines: Sequence[str] = ()
    broken: Sequence[Promise] = ()

    def __str__(self) -> str:
        return self.anomaly or self.kind


def about(fault: str) -> str:
    """A sentence about what the clients do."""
    return " ".join((FAULTS[fault].__doc__ or "").split()).rstrip(".")


def run_lockstep(
    fault: str,
    stores: Sequence[Any],
    prefix: str = "",
    tells: bool = False,
    asks_promises: bool = False,
) -> Seen:
    """Runs these clients over `stores`, SESSIONS of them, each with its own connection. Their keys
    begin with `prefix`, so that none exists before."""
    with Auditor(SESSIONS, 64, policy=RATHER_WAIT) as auditor:
        sessions = [
            Session(auditor, number, _OwnKeys(store, prefix)) for number, store in enumerate(stores)
        ]
        clients = [Client(session) for session in sessions]
        with suppress(OutcomeUnknownError):
            FAULTS[fault](clients)
        outcome = auditor.outcome()
        history = auditor.history
        ended = [[logged.outcome for logged in transactions] for transactions in history]
        anomaly = find_anomaly(history) if outcome.kind == Kind.VIOLATED else None
        lines = [*_told(auditor, outcome)] if tells else []
    named = anomaly.name if anomaly is not None else ""
    broken: Sequence[Promise] = ()
    if asks_promises and outcome.kind == Kind.VIOLATED:
        broken = standing(history, PROGRAM, seconds=ASKING).broken
    return Seen(outcome.kind, named, ended, lines, broken)


def _told(auditor: Auditor, outcome: Outcome) -> Iterator[str]:
    for session, transactions in enumerate(auditor.history):
        for number, logged in enumerate(transactions):
            yield f"  {session}.{number} {logged.outcome}"
    if outcome.kind == Kind.VIOLATED:
        explanation = explain_history(auditor.history, plain_name)
        yield from story_lines(story_of(auditor.history, plain_name, explanation))
    else:
        yield str(outcome)


class _OwnKeys:
    """A store in which these clients use keys of their own."""

    def __init__(self, store: Any, prefix: str) -> None:
        self.store, self.prefix = store, prefix
        self.begin, self.commit = store.begin, store.commit
        self.rollback, self.outcome = store.rollback, store.outcome
        self.claim, self.identity = store.claim, store.identity

    @property
    def statement(self) -> str | None:
        statement: str | None = self.store.statement
        return statement

    def read(self, key: str) -> Any:
        return self.store.read(self.prefix + key)

    def write(self, key: str, value: object, name: Any) -> None:
        self.store.write(self.prefix + key, value, name)

    def exchange(self, key: str, value: object, name: Any) -> Any:
        return self.store.exchange(self.prefix + key, value, name)


def table_lines(seen_by_fault: Mapping[str, Sequence[Seen]], levels: Sequence[str]) -> list[str]:
    """The results as a table, with a column for each level."""
    rows = [["", *levels]]
    rows += [[fault, *(str(cell) for cell in seen)] for fault, seen in seen_by_fault.items()]
    widths = [max(map(len, column)) for column in zip(*rows)]
    return [
        "  ".join(text.ljust(width) for text, width in zip(row, widths)).rstrip() for row in rows
    ]


def promise_lines(seen_by_fault: Mapping[str, Sequence[Seen]], levels: Sequence[str]) -> list[str]:
    """A table with a column for each level: for each promise "kept", or the first fault that broke
    it."""
    rows = [["", *levels]]
    for promise in PROMISES:
        cells = []
        for at in range(len(levels)):
            faults = [fault for fault, its in seen_by_fault.items() if promise in its[at].broken]
            cells.append(faults[0] if faults else "kept")
        rows.append([promise.title, *cells])
    widths = [max(map(len, column)) for column in zip(*rows)]
    return [
        "  ".join(text.ljust(width) for text, width in zip(row, widths)).rstrip() for row in rows
    ]


def table_of(
    make_stores: Callable[[str], Sequence[Any]],
    levels: Sequence[str],
    asks_promises: bool = False,
) -> dict[str, list[Seen]]:
    """What was seen of each fault at each level. `make_stores` makes SESSIONS stores of a level."""
    seen_by_fault: dict[str, list[Seen]] = {fault: [] for fault in FAULTS}
    for level in levels:
        stores = make_stores(level)
        try:
            for fault, seen in seen_by_fault.items():
                asked = (f"{level}/{fault}/", False, asks_promises)
                seen.append(run_lockstep(fault, stores, *asked))
        finally:
            for store in stores:
                store.close()
    return seen_by_fault
