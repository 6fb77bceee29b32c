"""A table in an SQLite file as a store, for clients in threads and in processes. Each row has its
writer's name next to the value; the value NULL marks a deleted key.

Each store has a row of its own, which it writes in every transaction that writes. If a commit fails
other than by a conflict, this row says whether it was done all the same. If it wasn't, finding that
out writes so to the row. In WAL mode this overwrites what the failed commit has left in the log,
which would otherwise take effect when the file is opened again.
"""

import os
import secrets
import sqlite3
import time
from collections.abc import Sequence
from typing import Any

from ._commit_status import CommitStatus, kept, overwritten
from ..core._records import Name, StoredValue
from ..core._store_identity import StoreIdentity, known_of, this_machine
from ..core.errors import AbortedError, NameTakenError, OutcomeUnknownError
from .levels import AUTOCOMMIT, IMMEDIATE, UNCOMMITTED, checked_level

JOURNALS = ("delete", "wal")
TABLE = """CREATE TABLE IF NOT EXISTS {table} (
    key TEXT PRIMARY KEY NOT NULL, value,
    run TEXT NOT NULL, session INTEGER NOT NULL, number INTEGER NOT NULL)"""
READ = "SELECT value, run, session, number FROM {table} WHERE key = ?"
READ_ALL = "SELECT key, value, run, session, number FROM {table} WHERE key IN ({keys})"
ROW = "(?, ?, ?, ?, ?)"
WRITE = """INSERT INTO {table} VALUES {rows} ON CONFLICT (key) DO UPDATE SET
    value = excluded.value, run = excluded.run, session = excluded.session,
    number = excluded.number"""
FIRST = "INSERT INTO {table} VALUES (?, ?, ?, ?, ?) ON CONFLICT (key) DO NOTHING"
BUSY, LOCKED = 5, 6  # another connection has it locked: in another process, or in the same cache
CODE = 0xFF  # the part of an error's code that says which of these it is
PATIENCE = 5.0  # seconds to wait for a lock
PAUSE = 0.002  # seconds between two attempts to begin, when SQLite itself doesn't wait
RUN = "zanteyard run "  # before a run's name: the key of the row with its owner
LAST = "zanteyard last "  # before a store's token: the key of the row with its outcomes
OWN = -2  # in place of a session, in that row
ABORTED = "aborted"  # the value there after somebody has asked; NULL otherwise


def quoted(table: str) -> str:
    """The table's name as SQL has it."""
    return '"' + table.replace('"', '""') + '"'


def prepare(path: str, journal: str = "wal", table: str = "zanteyard") -> None:
    """Creates the file and the table, if they don't exist, and sets the file's journal mode, one of
    JOURNALS."""
    if journal not in JOURNALS:
        raise ValueError(f"{journal} isn't one of {', '.join(JOURNALS)}")
    connection = sqlite3.connect(path, isolation_level=None)
    try:
        connection.execute(f"PRAGMA journal_mode = {journal}")
        connection.execute(TABLE.format(table=quoted(table)))
    finally:
        connection.close()


def is_busy(error: BaseException) -> bool:
    """Whether another connection was in the way. Errors have no codes before Python 3.11."""
    code = getattr(error, "sqlite_errorcode", None)
    if code is not None:
        return int(code) & CODE in (BUSY, LOCKED)
    return isinstance(error, sqlite3.OperationalError) and "locked" in str(error)


class SQLiteStore:
    """One connection, for one thread at a time. `level` is one of SQLite's in `levels.py`. A lock
    may take `patience` seconds, unless SQLite sees that waiting is useless."""

    errors = (sqlite3.Error,)

    def __init__(
        self,
        path: str,
        level: str = IMMEDIATE,
        table: str = "zanteyard",
        patience: float = PATIENCE,
    ) -> None:
        checked_level("sqlite", level)
        self.path, self.level, self.table, self.patience = path, level, quoted(table), patience
        self.connection: Any = None
        self.statement: str | None = None  # the last statement, followed by its values
        self.own, self.count = f"{LAST}{secrets.token_hex(8)}", 0
        self.is_alone = self.has_failed = False
        self.waits = 0.0  # the connection's current busy timeout, in seconds
        self._identity: StoreIdentity | None = None  # of the last file opened
        self.known: str | None = None  # its `known` text

    # the connection

    def connect(self) -> None:
        """Opens the file. Raises sqlite3's errors."""
        self.connection = self.connected()
        self._identity = self.identity_by_now()
        self.known = known_of(self._identity)

    def identity(self) -> StoreIdentity | None:
        """From the file's number on its device, whatever path leads there."""
        if self.connection is None:
            self.connect()
        return self._identity

    def identity_by_now(self) -> StoreIdentity | None:
        """The identity of the file that has the path now; None if there is none, as for a database
        in memory."""
        try:
            status = os.stat(self.path)
        except (OSError, ValueError):
            return None
        where = f"{this_machine()} {status.st_dev} {status.st_ino}"
        table = f"table {self.table} of the SQLite file"
        shown = f"{table} {os.path.abspath(self.path)} (inode {status.st_ino})"
        return StoreIdentity(f"sqlite {where} {self.table}", shown)

    def connected(self) -> Any:
        """A new connection to the file."""
        more: dict[str, Any] = {"isolation_level": None, "check_same_thread": False}
        more["timeout"] = self.waits = self.patience
        if self.level != UNCOMMITTED:
            return sqlite3.connect(self.path, **more)
        path = self.path.replace("%", "%25").replace("?", "%3f").replace("#", "%23")
        connection = sqlite3.connect(f"file:{path}?cache=shared", uri=True, **more)
        connection.execute("PRAGMA read_uncommitted = 1")
        return connection

    def wait_for_locks(self, seconds: float) -> None:
        """Has SQLite wait at most this many seconds for a lock."""
        if seconds != self.waits:
            self.connection.execute(f"PRAGMA busy_timeout = {int(1000 * seconds)}")
            self.waits = seconds

    def send(self, text: str, values: Sequence[object] = ()) -> Any:
        """Runs a statement; every statement of a transaction passes through here. Raises
        AbortedError if another connection was in the way."""
        try:
            cursor = self.connection.execute(text, values)
        except sqlite3.Error as error:
            self.has_failed = True  # else what follows might be committed without this
            if is_busy(error):
                raise AbortedError(str(error)) from error
            raise
        self.statement = f"{text} -- {', '.join(map(repr, values))}" if values else text
        return cursor

    def ask(self, text: str, values: Sequence[object] = (), **more: str) -> Any:
        """The rows of a statement. Raises AbortedError if SQLite has ended the transaction."""
        if self.has_failed:
            raise AbortedError("the transaction had failed before")
        if not (self.is_alone or self.level == AUTOCOMMIT or self.connection.in_transaction):
            self.has_failed = True
            raise AbortedError("SQLite or something else ended the transaction")
        return self.send(text.format(table=self.table, **more), values)

    # what sessions call

    def begin(self) -> None:
        """Raises AbortedError if another client writes for too long; then nothing has begun."""
        self.get_ready(self.patience)
        self.is_alone = False
        if self.level != AUTOCOMMIT:
            self.start(self.level == IMMEDIATE, self.patience)

    def get_ready(self, waits: float) -> None:
        """Connects, if necessary, for a transaction whose locks may take so many seconds."""
        if self.connection is None:
            self.connect()
        self.rollback()
        self.wait_for_locks(waits)
        self.count += 1
        self.has_failed = False

    def start(self, is_writing: bool, seconds: float) -> None:
        """Begins a transaction. With a shared cache SQLite itself doesn't wait for others."""
        ends = time.monotonic() + (seconds if self.level == UNCOMMITTED else 0.0)
        while True:
            try:
                self.send("BEGIN IMMEDIATE" if is_writing else "BEGIN DEFERRED")
                return
            except AbortedError:
                if time.monotonic() >= ends:
                    raise
                self.has_failed = False
                time.sleep(PAUSE)

    def begin_alone(self, seconds: float) -> None:
        """Replaces `begin` for statements that are transactions by themselves. Each ends within
        this many seconds."""
        self.get_ready(min(seconds, self.patience))
        self.is_alone = True

    def read(self, key: str) -> StoredValue | None:
        return self.read_all([key]).get(key)

    def read_all(self, keys: Sequence[str]) -> dict[str, StoredValue]:
        """A read by itself at "read uncommitted" keeps other writers out, so that it returns
        committed values of one moment."""
        is_guarded = self.is_alone and self.level == UNCOMMITTED
        if is_guarded:
            self.start(True, self.waits)
        try:
            if len(keys) == 1:
                rows: list[Any] = [(keys[0], *row) for row in self.ask(READ, keys)]
            else:
                marks = ", ".join("?" * len(keys))
                rows = self.ask(READ_ALL, [*keys], keys=marks).fetchall()
        finally:
            if is_guarded:
                self.rollback()
        return {row[0]: (row[1], row[2:]) for row in rows}

    def write(self, key: str, value: object, name: Name) -> None:
        own = (self.own, None, name[0], OWN, self.count)
        self.ask(WRITE, [*own, key, value, *name], rows=f"{ROW}, {ROW}")

    def exchange(self, key: str, value: object, name: Name) -> StoredValue | None:
        """Reads and writes; nobody else can write in between."""
        is_by_itself = self.is_alone or self.level == AUTOCOMMIT
        if is_by_itself:
            self.start(True, self.waits)
        try:
            own = (self.own, None, name[0], OWN, self.count)
            self.ask(WRITE, own, rows=ROW)  # from here on nobody else can write
            rows = self.ask(READ, (key,)).fetchall()
            if self.is_alone:  # a key of the collector's own
                value = kept(rows[0][1:] if rows else None)
            self.ask(WRITE, (key, value, *name), rows=ROW)
            if is_by_itself:
                written = self.statement
                self.end()
                self.statement = written
        except BaseException:
            if is_by_itself:
                self.rollback()
            raise
        return (rows[0][0], rows[0][1:]) if rows else None

    def commit(self) -> None:
        if self.is_alone or (self.level == AUTOCOMMIT and not self.has_failed):
            return  # nothing is open
        if self.has_failed:
            raise AbortedError("the transaction had failed before its commit")
        if not self.connection.in_transaction:
            raise AbortedError("SQLite or something else ended the transaction")
        self.end()

    def end(self) -> None:
        """Commits. If readers block the commit for too long, the transaction is still open, and is
        aborted here."""
        try:
            self.send_commit()
        except AbortedError:
            self.rollback()
            raise
        except sqlite3.Error as error:
            self.close()
            raise OutcomeUnknownError(str(error)) from error

    def send_commit(self) -> None:
        """Sends the commit, and waits for its answer."""
        self.send("COMMIT")

    def rollback(self) -> None:
        """Rolls back. If that fails, the connection is closed, which discards what wasn't
        committed."""
        try:
            if self.connection is not None and self.connection.in_transaction:
                self.connection.execute("ROLLBACK")
        except sqlite3.Error:
            self.close()

    def close(self) -> None:
        """Closes the connection; the next transaction opens a new one. May be called twice."""
        connection, self.connection = self.connection, None
        if connection is not None:
            connection.close()

    def hang_up(self) -> None:
        """Interrupts what is running; a wait for a lock isn't cut short. May be called from any
        thread."""
        connection = self.connection
        try:
            if connection is not None:
                connection.interrupt()
        except sqlite3.Error:
            pass  # it is closed

    def outcome(self) -> str:
        return self.outcome_within(self.patience)

    def outcome_within(self, seconds: float) -> str:
        """The outcome as the next transaction that writes finds it. For statements that were
        transactions by themselves nobody can say."""
        self.close()
        if self.level == AUTOCOMMIT and not self.is_alone:
            return "unknown"
        if self.known is not None and self.known != known_of(self.identity_by_now()):
            return "unknown"  # another file has the path now
        try:
            connection = sqlite3.connect(self.path, isolation_level=None, timeout=seconds)
            try:
                return self.decided(connection)
            finally:
                connection.close()
        except sqlite3.Error:
            return "unknown"

    def decided(self, connection: Any) -> str:
        """With a rollback journal, what a broken commit has left is undone before this begins to
        write. In WAL mode it is undone by this commit."""
        (journal,) = connection.execute("PRAGMA journal_mode").fetchone()
        connection.execute("BEGIN IMMEDIATE")
        stored = connection.execute(READ.format(table=self.table), (self.own,)).fetchone()
        if stored is not None and stored[3] == self.count:
            connection.execute("ROLLBACK")
            return ABORTED if stored[0] == ABORTED else "committed"
        if journal == "wal":
            row = (self.own, ABORTED, "", OWN, self.count)
            connection.execute(WRITE.format(table=self.table, rows=ROW), row)
        connection.execute("COMMIT")
        return ABORTED

    @property
    def writes_at_once(self) -> bool:
        return self.level == AUTOCOMMIT

    def asks(self) -> Any:
        return ("sqlite", os.path.abspath(self.path), self.table, self.own)

    def ticket(self, written: Sequence[object]) -> Any:
        if self.level == AUTOCOMMIT and not self.is_alone:
            return None
        return (self.count, self.is_alone, self.known, *written)

    def claim(self, run_name: str, token: str, seconds: float) -> None:
        """Reserves the name for one run. Raises NameTakenError if it belongs to another run, and
        AbortedError if another client writes for this many seconds."""
        self.begin_alone(seconds)
        self.start(True, self.waits)
        row = (RUN + run_name, token, run_name, -1, 0)
        try:
            self.ask(FIRST, row)
            rows: list[tuple[Any, ...]] = self.ask(READ, row[:1]).fetchall()
            self.end()
        except BaseException:
            self.rollback()
            raise
        if rows[0][0] != token:
            raise NameTakenError(f"{self.table} has the name {run_name} from an earlier run")


ITS_ROW = "SELECT value FROM {table} WHERE key = ? AND run = ? AND session = ? AND number = ?"


def asked(path: str, table: str, own: str, *, ticket: Any, seconds: float) -> CommitStatus:
    """The outcome of a transaction whose client process was killed."""
    store = SQLiteStore(path, patience=seconds)
    store.table, store.own = table, own
    store.count, is_alone, store.known, *row_name = ticket
    outcome = store.outcome_within(seconds)
    if outcome != "committed" or not is_alone:
        return outcome, None
    try:
        store.connect()
        row = store.connection.execute(ITS_ROW.format(table=table), row_name).fetchone()
        return outcome, None if row is None else overwritten(row[0])
    finally:
        store.close()
