"""Finds out from another process what became of a PostgreSQL transaction whose client was
killed."""

import time
from collections.abc import Sequence
from typing import Any

from psycopg2 import extensions

from ._commit_status import UNKNOWN, CommitStatus
from ..core._own_keys import FLAG
from ..core._records import Name
from ._postgres_connection import answer, reached
from .postgres import AGE, FIRST, IS, LIVES, NAMED, OVERWRITE, TEXT, TRANSACTION, WHICH, XACT_STATUS
from .postgres import literal, which_of, with_table

# A pooled connection may be used by another client now, so the transaction, or the collector's own
# statement, has to be identified as the killed process's. If the connection is idle and that very
# statement was its last, it has finished. A statement before that may have the same key.
CHANGES = OVERWRITE[OVERWRITE.index("run = ") : OVERWRITE.index(" AS before")]
MAKES = FIRST[: FIRST.index(TRANSACTION)].rstrip()
HAS = "pg_catalog.strpos(query, %s) OPERATOR(pg_catalog.>) 0"
RUNS_STILL = f"""SELECT state {IS} 'idle', {HAS}, {HAS}
    FROM pg_catalog.pg_stat_activity WHERE pid {IS} %s AND {AGE} {IS} %s"""
ITS = f"SELECT {WHICH}"
WHAT_BECAME = f"""SELECT {XACT_STATUS}, {LIVES}"""
ITS_ROW = f"SELECT value FROM {{table}} WHERE {NAMED}"
THE_ROW = f"""SELECT (run, session, number) {IS}
    (%s::{TEXT}, %s::pg_catalog.int4, %s::pg_catalog.int8), value
    FROM {{table}} WHERE key {IS} %s"""
END_IT = f"""SELECT pg_catalog.pg_terminate_backend(pid) FROM pg_catalog.pg_stat_activity
    WHERE pid {IS} %s AND {AGE} {IS} %s AND CASE WHEN %s THEN {HAS} OR {HAS}
    ELSE backend_xid::{TEXT} {IS} pg_catalog.mod(%s::{TEXT}::pg_catalog.numeric, 4294967296)::{TEXT}
    END"""


def statements_of(table: str, key: str, run: str, session: int, number: int) -> tuple[str, str]:
    """The two statements of the collector's `exchange` with this key and name, in a form that no
    other statement contains."""
    key, run = literal(key), literal(run)
    changes, makes = CHANGES.format(table=table), MAKES.format(table=table)
    return changes % (run, session, number, key), makes % (key, "''", run, session, number)


def asked(
    dsn: dict[str, str], around: dict[str, str], table: str, *, ticket: Any, seconds: float
) -> CommitStatus:
    """The outcome of a transaction whose client process was killed. If the client's server process
    is still working on it, this waits for half of the time, and then ends that process. If the
    words lead to another server, for example because they name several, the outcome is unknown."""
    transaction_id, pid, since, life, key, run, session, number = ticket
    words, which = reached(dsn, around), which_of(life)
    if words is None or which is None:
        return UNKNOWN
    asks = Asks(extensions.make_dsn(**words), table, time.monotonic() + seconds, which)
    row_name = (key, run, session, number)
    if transaction_id is None:
        statements = statements_of(table, *row_name)
        seen = asks.seen_last(pid, since, statements, seconds) if since is not None else None
        if seen is None:
            return UNKNOWN
        if "\n" in run:  # a name of several lines can't be found in its row
            return UNKNOWN
        row = asks.row(THE_ROW, (*row_name[1:], key))
        if row is not None and row[0]:
            return "committed", overwritten(row[1])[:1]
        if row is not None and not key.startswith(FLAG):  # others write it, too, when joining
            behind = from_name(overwritten(row[1]), (run, session, number))
            return ("committed", behind[1:2] or None) if behind else UNKNOWN
        # If there was no row, an `exchange` continues with a second statement.
        is_done = seen == "gone" or (seen == "changes" and row is not None)
        return ("aborted", None) if is_done else UNKNOWN
    status, now = asks.status(transaction_id, pid, since, seconds)
    if status == "aborted":
        return "aborted", None
    if status == "committed" and (now == life or asks.row(ITS_ROW, row_name) is not None):
        return "committed", None
    return UNKNOWN


def overwritten(value: str | None) -> Sequence[Name]:
    """The names that a row of the collector's own keeps, the latest first, up to the first line
    that is none."""
    names: list[Name] = []
    for line in (value or "").split("\n"):
        parts = line.split(" ", 2)
        if len(parts) < 3 or not (parts[0].isdecimal() and parts[1].isdecimal()):
            break
        names.append((parts[2], int(parts[0]), int(parts[1])))
    return tuple(names)


def from_name(names: Sequence[Name], name: Name) -> Sequence[Name]:
    """This name and the ones after it; empty if it isn't among them."""
    return names[names.index(name) :] if name in names else ()


class Asks:
    """Queries until the time `ends` of the monotonic clock. Raises psycopg2's errors, also if
    another server or database answers."""

    def __init__(self, dsn: str, table: str, ends: float, which: str) -> None:
        self.dsn, self.table, self.ends, self.which = dsn, table, ends, which

    def left(self) -> float:
        return max(0.05, self.ends - time.monotonic())

    def row(self, text: str, values: Sequence[object]) -> Any:
        its = (with_table(ITS, self.table), self.which)
        return answer(self.dsn, with_table(text, self.table), values, self.left(), its)

    def again(
        self, seconds: float, pid: Any, since: Any, transaction_id: Any, statements: Sequence[str]
    ) -> bool:
        """Whether there is time to ask again, after a pause."""
        left = self.ends - time.monotonic()
        if left < seconds / 2 and since is not None:
            is_alone = transaction_id is None
            self.row(END_IT, (pid, since, is_alone, *statements, transaction_id or "0"))
        time.sleep(min(0.02, max(0.0, left)))
        return left > 0

    def status(self, transaction_id: Any, pid: Any, since: Any, seconds: float) -> Any:
        """The transaction's status, and the server's life when it was asked."""
        while True:
            status, life = self.row(WHAT_BECAME, (transaction_id,))
            if status != "in progress":
                return status, life
            if not self.again(seconds, pid, since, transaction_id, ("", "")):
                return None, life

    def seen_last(
        self, pid: Any, since: Any, statements: Sequence[str], seconds: float
    ) -> str | None:
        """Which of its two statements the killed client's server process has finished: "changes" or
        "makes"; "gone" if the process no longer exists; None if unknown."""
        while True:
            row = self.row(RUNS_STILL, (*statements, pid, since))
            if row is None:
                return "gone"
            is_idle, changes, makes = row
            if is_idle and (changes or makes):
                return "changes" if changes else "makes"
            if not self.again(seconds, pid, since, None, statements):
                return None
