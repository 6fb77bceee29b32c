"""Histories that are sessions of transactions of reads and writes by value: dbcop's as JSON,
PolySI's as text, and plain CSV."""

import csv
import io
import re
from collections.abc import Iterator, Sequence
from dataclasses import dataclass, field

from ..core.errors import ImportRefusedError
from ._json import JsonReader
from ._recording import (
    ABORTED,
    COMMITTED,
    READ,
    UNKNOWN,
    WRITE,
    Access,
    Attempt,
    Recording,
    optional_token,
    token,
)

HEADER = ["session", "number", "operation", "key", "value"]
OUTCOMES = {"commit": COMMITTED, "abort": ABORTED, "unknown": UNKNOWN}
NUMBER = r"-?[0-9]{1,100}"
POLYSI_LINE = re.compile(rf"([rw])\(({NUMBER}),({NUMBER}),({NUMBER}),({NUMBER})\)")
WHOLE = re.compile(r"0|[1-9][0-9]{0,99}")
NO_INITIAL = "this write writes the initial value of keys (--initial names another one)"


def access_of(
    kind: str, key: str, value: str | None, text: str, initial: str, line: int
) -> Access:
    """A read or write. A read of the initial value, which may not be written, has no value."""
    if kind == WRITE and (value is None or value == initial):
        raise ImportRefusedError(line, NO_INITIAL if value else "a write has no value")
    return Access(kind, key, None if value == initial else value, text)


@dataclass
class _RecordedTransaction:
    """A transaction that is being read."""

    session: str
    number: str
    line: int
    outcome: str = COMMITTED
    accesses: list[Access] = field(default_factory=list)
    has_ended: bool = False


class _RecordedTransactions:
    """Puts the lines of transactions together. A session has one transaction at a time."""

    def __init__(self) -> None:
        self._all: list[_RecordedTransaction] = []
        self._last: dict[str, _RecordedTransaction] = {}  # by session

    def at(self, session: str, number: str, line: int) -> _RecordedTransaction:
        """The transaction of a line; a new one if it isn't the session's last."""
        last = self._last.get(session)
        if last is None or last.number != number:
            last = _RecordedTransaction(session, number, line)
            self._last[session] = last
            self._all.append(last)
        elif last.has_ended:
            raise ImportRefusedError(line, "this transaction ended earlier in the file")
        return last

    def last_number(self, session: str) -> str | None:
        """The number of the session's last transaction; None if it has none."""
        return self._last[session].number if session in self._last else None

    def recording(self, form: str, last_line: int) -> Recording:
        """The recording. Reads of what didn't commit for certain are left out and counted."""
        if not self._all:
            raise ImportRefusedError(max(1, last_line), "the file has no transaction")
        unused = 0
        attempts: list[Attempt] = []
        for recorded in self._all:
            accesses = recorded.accesses
            if recorded.outcome != COMMITTED:
                accesses = [access for access in accesses if access.kind == WRITE]
            unused += len(recorded.accesses) - len(accesses)
            name = f"{recorded.session}/{recorded.number}"
            where = f"line {recorded.line}" if recorded.line else ""
            attempts.append(
                Attempt(
                    name, recorded.session, recorded.outcome, tuple(accesses), recorded.line, where
                )
            )
        return Recording(form, tuple(attempts), unused=unused)


def read_csv(text: str, initial: str = "") -> Recording:
    """Reads rows of a session, a transaction's number, an operation, a key and a value. `initial`
    is the value that a key has before its first write. Raises ImportRefusedError."""
    rows = csv.reader(io.StringIO(text, newline=""), strict=True)
    transactions = _RecordedTransactions()
    line = 0
    try:
        for row in rows:
            first, line = line, rows.line_num
            if first == 0 and row != HEADER:
                raise ImportRefusedError(line, f"the first line must be {','.join(HEADER)}")
            if first and row:
                _csv_row(row, first + 1, transactions, initial)
    except csv.Error as error:
        raise ImportRefusedError(rows.line_num, f"this isn't CSV: {error}") from error
    return transactions.recording("csv", line)


def _csv_row(
    row: Sequence[str], line: int, transactions: _RecordedTransactions, initial: str
) -> None:
    if len(row) != len(HEADER):
        raise ImportRefusedError(
            line, f"a line must have {len(HEADER)} fields, but this one has {len(row)}"
        )
    session, number, operation, key, value = row
    if not session or not WHOLE.fullmatch(number):
        raise ImportRefusedError(line, "a session needs a name, and a transaction a whole number")
    before = transactions.last_number(session)
    if before is not None and int(number) < int(before):
        raise ImportRefusedError(
            line, f"the numbers of a session must ascend, but {before} came before"
        )
    recorded = transactions.at(session, number, line)
    if operation in OUTCOMES:
        if key or value:
            raise ImportRefusedError(line, f"{operation} must have neither key nor value")
        recorded.outcome, recorded.has_ended = OUTCOMES[operation], True
    elif operation not in (READ, WRITE):
        known = ", ".join((READ, WRITE, *OUTCOMES))
        raise ImportRefusedError(line, f"an operation must be one of {known}")
    elif not key:
        raise ImportRefusedError(line, f"a {operation} needs a key")
    elif not value and (initial or operation == WRITE):
        raise ImportRefusedError(line, f"this {operation} has no value")
    else:
        text = f"line {line}: {operation} {key} {value}".rstrip()
        recorded.accesses.append(access_of(operation, key, value, text, initial, line))


def read_polysi(text: str, initial: str = "0") -> Recording:
    """Reads lines `r(key,value,session,transaction)` and `w(..)`, all whole numbers. A session's
    lines are in its order. Raises ImportRefusedError."""
    transactions = _RecordedTransactions()
    sessions: dict[str, str] = {}  # by transaction
    number = 0
    for number, line in enumerate(text.split("\n"), 1):
        if not line.strip():
            continue
        fields = POLYSI_LINE.fullmatch(line.strip())
        if not fields:
            raise ImportRefusedError(
                number, "a line must be r(key,value,session,transaction) or w(..)"
            )
        letter, key, value, session, transaction = fields.groups()
        key, value, session, transaction = (
            str(int(word)) for word in (key, value, session, transaction)
        )
        if transaction != transactions.last_number(session) and transaction in sessions:
            raise ImportRefusedError(
                number, f"transaction {transaction} is in session {sessions[transaction]}, where "
                "it ended earlier"
            )
        sessions.setdefault(transaction, session)
        if sessions[transaction] != session:
            raise ImportRefusedError(number, f"transaction {transaction} is in two sessions")
        recorded = transactions.at(session, transaction, number)
        kind = READ if letter == "r" else WRITE
        shown = f"line {number}: {line.strip()}"
        recorded.accesses.append(access_of(kind, key, value, shown, initial, number))
    return transactions.recording("polysi", number)


def read_dbcop(text: str, initial: str = "0") -> Recording:
    """Reads an object whose `data` is a list of sessions, or that list: each a list of transactions
    with `events` and `success`. Raises ImportRefusedError."""
    recorded = _RecordedTransactions()
    last_line = 0
    for session, (line, transactions) in enumerate(_dbcop_sessions(text)):
        last_line = line
        if not isinstance(transactions, list):
            raise ImportRefusedError(line, "a session must be a list of transactions")
        for number, transaction in enumerate(transactions):
            where = f"session {session}, transaction {number}"
            _dbcop_transaction(
                transaction, recorded.at(str(session), str(number), line), where, initial
            )
    return recorded.recording("dbcop", last_line)


def _dbcop_sessions(text: str) -> Iterator[tuple[int, object]]:
    """Each session with its line; if they are in an object, with the object's line."""
    reader = JsonReader(text)
    if text.lstrip()[:1] == "[":
        yield from reader.elements()
        return
    line, whole = reader.value()
    if not isinstance(whole, dict) or not isinstance(whole.get("data"), list):
        raise ImportRefusedError(
            line, "a history must be an object whose data is a list of sessions"
        )
    if not reader.is_over():
        raise ImportRefusedError(line, "text after the history")
    yield from ((line, session) for session in whole["data"])


def _dbcop_transaction(
    transaction: object, recorded: _RecordedTransaction, where: str, initial: str
) -> None:
    if not isinstance(transaction, dict) or set(transaction) != {"events", "success"}:
        raise ImportRefusedError(recorded.line, f"{where}: it must have events and success")
    if not isinstance(transaction["events"], list) or not isinstance(transaction["success"], bool):
        raise ImportRefusedError(
            recorded.line, f"{where}: events must be a list, and success true or false"
        )
    recorded.outcome = COMMITTED if transaction["success"] else ABORTED
    for event in transaction["events"]:
        if not isinstance(event, dict) or set(event) != {"write", "variable", "value", "success"}:
            raise ImportRefusedError(
                recorded.line, f"{where}: an event must have write, variable, value and success"
            )
        if not isinstance(event["write"], bool) or not isinstance(event["success"], bool):
            raise ImportRefusedError(
                recorded.line, f"{where}: write and success must be true or false"
            )
        if not event["success"]:
            if transaction["success"]:
                raise ImportRefusedError(
                    recorded.line, f"{where}: it succeeded, but one of its events didn't"
                )
            if not event["write"]:
                continue
        kind = WRITE if event["write"] else READ
        key = token(event["variable"], recorded.line, f"{where}: a variable")
        value = optional_token(event["value"], recorded.line, f"{where}: a value")
        text = f"{kind} {key} {'null' if value is None else value}"
        recorded.accesses.append(access_of(kind, key, value, text, initial, recorded.line))
