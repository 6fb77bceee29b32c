"""A table of PostgreSQL as a store. Each row has its writer's name next to the value; the value
NULL marks a deleted key."""

import logging
import os
import re
import socket
import threading
from collections.abc import Sequence
from typing import Any

import psycopg2
from psycopg2 import errors, extensions

from ..core._records import Name, StoredValue
from ..core._store_identity import UNSURE, StoreIdentity
from ..core.errors import AbortedError, NameTakenError, OutcomeUnknownError
from ._postgres_connection import connected, environment, outcome_told, to_its_server
from .levels import checked_level

# A connection has the application's search path, since a pooler may lend it to others. So nothing
# here but the table's name, which is the user's, may depend on that path: other names and operators
# are qualified.
IS = "OPERATOR(pg_catalog.=)"
JOINS = "OPERATOR(pg_catalog.||)"
TEXT = "pg_catalog.text"
TABLE = f"""CREATE TABLE IF NOT EXISTS {{table}} (
    key {TEXT} PRIMARY KEY, value {TEXT},
    run {TEXT} NOT NULL, session pg_catalog.int4 NOT NULL, number pg_catalog.int8 NOT NULL)"""
READ = f"SELECT value, run, session, number FROM {{table}} WHERE key {IS} %s"
READ_ALL = f"SELECT key, value, run, session, number FROM {{table}} WHERE key {IS} ANY(%s)"
# Of each write, so that no commit has to ask for it.
TRANSACTION = f"RETURNING pg_catalog.pg_current_xact_id()::{TEXT}"
WRITE = f"""INSERT INTO {{table}} VALUES (%s, %s, %s, %s, %s) ON CONFLICT (key) DO UPDATE
    SET value = excluded.value, run = excluded.run, session = excluded.session,
    number = excluded.number
    {TRANSACTION}"""
# Locks the row before reading it, so that it returns the version that it overwrites. A plain
# subselect would return what the statement's snapshot has, from before it waited for the lock.
OVERWRITE = f"""UPDATE {{table}} AS now SET value = {{value}}, run = %s, session = %s, number = %s
    FROM (SELECT * FROM {{table}} WHERE key {IS} %s FOR UPDATE) AS before
    WHERE now.key {IS} before.key
    {TRANSACTION}, before.value, before.run, before.session, before.number"""
# The value of the collector's own keys is the name that is overwritten, so that it survives a lost
# answer. It is followed by the names overwritten before, one per line, the latest first: others may
# have written the key, for example when joining, before anybody asks.
LINES = 32
LINE = "pg_catalog.chr(10)"
KEPT = f"""pg_catalog.concat_ws({LINE},
    pg_catalog.concat_ws(' ', before.session, before.number, before.run),
    pg_catalog.array_to_string((pg_catalog.string_to_array(
    CASE WHEN before.value {IS} '' THEN NULL ELSE before.value END, {LINE}))[1:{LINES - 1}],
    {LINE}))"""
FIRST = f"""INSERT INTO {{table}} VALUES (%s, %s, %s, %s, %s) ON CONFLICT (key) DO NOTHING
    {TRANSACTION}"""
# A standby may not have heard of it yet.
XACT_STATUS = f"""CASE WHEN pg_catalog.pg_is_in_recovery() THEN NULL
    ELSE pg_catalog.pg_xact_status(%s::{TEXT}::pg_catalog.xid8) END"""
# Identifies the server, the database, the table, and the server's timeline. Another server, or this
# one after a standby has replaced it, knows nothing of what was done here. A standby returns no
# timeline.
TABLE_OID = "{literal}::pg_catalog.regclass::pg_catalog.oid"
DATABASE_OID = f"""(SELECT oid FROM pg_catalog.pg_database
    WHERE datname {IS} pg_catalog.current_database())"""
SYSTEM = "(SELECT system_identifier FROM pg_catalog.pg_control_system())"
TIMELINE = """CASE WHEN NOT pg_catalog.pg_is_in_recovery() THEN pg_catalog.left(
    pg_catalog.pg_walfile_name(pg_catalog.pg_current_wal_lsn()), 8) END"""
WHICH = f"pg_catalog.concat_ws(' ', {SYSTEM}, {DATABASE_OID}, {TABLE_OID}, {TIMELINE})"
NAMED = f"key {IS} %s AND run {IS} %s AND session {IS} %s AND number {IS} %s"
STATUS = f"SELECT {XACT_STATUS}, EXISTS (SELECT 1 FROM {{table}} WHERE {NAMED}), {WHICH}"
CLAIM = f"""WITH mine AS (INSERT INTO {{table}} VALUES (%s, %s, %s, %s, %s)
    ON CONFLICT (key) DO NOTHING RETURNING value)
    SELECT value FROM mine UNION ALL SELECT value FROM {{table}} WHERE key {IS} %s"""
# The names of runs that claimed none, as with earlier versions of this package: looked up once.
CLAIM_ALL = f"""INSERT INTO {{table}} SELECT DISTINCT %s {JOINS} run, '', run, -1, 0 FROM {{table}}
    WHERE session OPERATOR(pg_catalog.>=) 0 ON CONFLICT (key) DO NOTHING"""
READING = "SET TRANSACTION ISOLATION LEVEL SERIALIZABLE, READ ONLY; "
# The connection's server process and when it started; and what changes whenever the server starts
# or crashes, after which it may give a transaction's number to another one.
AGE = f"extract(epoch FROM backend_start)::{TEXT}"
OF = " of "  # followed by the server's identity, after what changes with each start
LIVES = f"""pg_catalog.concat_ws(' ', extract(epoch FROM pg_catalog.pg_postmaster_start_time()),
    (SELECT extract(epoch FROM stats_reset) FROM pg_catalog.pg_stat_bgwriter))
    {JOINS} '{OF}' {JOINS} {WHICH}"""
ITS_PID = "pg_catalog.pg_backend_pid()"
LIFE = f"""SELECT {ITS_PID},
    (SELECT {AGE} FROM pg_catalog.pg_stat_activity WHERE pid {IS} {ITS_PID}), {LIVES},
    pg_catalog.concat_ws(' ', {SYSTEM}, {DATABASE_OID}, {TABLE_OID}),
    pg_catalog.current_database()"""
BARRED = (errors.InsufficientPrivilege, errors.UndefinedFunction, errors.FeatureNotSupported)
CONFLICTS = (errors.SerializationFailure, errors.DeadlockDetected, errors.LockNotAvailable)
PATIENCE = 5.0  # seconds for a connection, and for an outcome
ATTEMPTS = 10  # at a key's first row: an attempt fails only if another client has just created it
RUN = "zanteyard run "  # before a run's name: the key of the row with its owner
RUNS = "zanteyard runs"  # the key of a row that says that each run's name has such a row
logger = logging.getLogger("zanteyard")


def quoted(table: str) -> str:
    """The name of the table, or "schema.table", as statements have it."""
    parts = [
        part if re.fullmatch("[a-z_][a-z0-9_]*", part) else '"' + part.replace('"', '""') + '"'
        for part in table.split(".", 1)
    ]
    return ".".join(parts)


def literal(text: str) -> str:
    """The text as an SQL literal, as the server got it. One with a backslash won't be found, so
    that nothing is mistaken for it."""
    return "'" + text.replace("'", "''") + "'"


def with_table(text: str, table: str) -> str:
    """The statement for this table, whose name is from `quoted`."""
    return text.format(table=table, literal=literal(table))


def which_of(life: str | None) -> str | None:
    """The server, database and table in the life of a connection."""
    return life.partition(OF)[2] if life is not None else None


# Lets one process at a time create the audit's tables: with IF NOT EXISTS alone two could begin,
# and one of them fail. The number has no meaning.
ONE_AT_A_TIME = "SELECT pg_catalog.pg_advisory_xact_lock(7161637279617264)"


def prepare(dsn: str, table: str = "zanteyard") -> None:
    """Creates the table, if it doesn't exist. A table that exists and was never prepared is read
    once, for the names of its runs."""
    connection = psycopg2.connect(dsn)
    try:
        connection.set_session(isolation_level="READ COMMITTED")  # to see what it waited for
        with connection:
            cursor, name = connection.cursor(), quoted(table)
            cursor.execute(ONE_AT_A_TIME)
            cursor.execute(TABLE.format(table=name))
            cursor.execute(FIRST.format(table=name), (RUNS, "", "", -1, 0))
            if cursor.fetchone() is not None:
                cursor.execute(CLAIM_ALL.format(table=name), (RUN,))
    finally:
        connection.close()


class PostgresStore:
    """One connection, for one thread at a time. `level` is "serializable", "repeatable read" or
    "read committed"; `table` may be "schema.table". A connection may take `patience` seconds."""

    errors = (psycopg2.Error,)

    def __init__(
        self,
        dsn: str,
        level: str = "serializable",
        table: str = "zanteyard",
        patience: float = PATIENCE,
    ) -> None:
        checked_level("postgres", level)
        self.dsn, self.level, self.table, self.patience = dsn, level, quoted(table), patience
        self.connection: Any = None
        self._its_dsn = dsn  # for exactly the server of the current, or last, connection
        self.transaction_id: str | None = None
        self.written: tuple[Any, ...] = ()  # the last key written, and the name stored with it
        self.statement: str | None = None  # the last statement, as the server got it
        self.before = ""  # prefix of the transaction's first statement
        self.is_alone = self.is_hung_up = False
        # What another process needs in order to find out about a commit on this connection: the
        # server process, when that started, the server's life, and which table it is.
        self.life: tuple[Any, ...] = (0, None, None)
        self._identity: StoreIdentity | None = None

    def connect(self, seconds: float | None = None) -> None:
        """Opens the connection. Raises psycopg2's errors."""
        self.is_hung_up = False
        told: list[Any] = []
        waits = self.patience if seconds is None else seconds
        self.connection = connected(self.dsn, waits, lambda it: told.append(self.told_by(it)))
        self._its_dsn = to_its_server(self.dsn, self.connection)
        self.life, self._identity = told[0]

    def told_by(self, connection: Any) -> tuple[tuple[Any, ...], StoreIdentity | None]:
        """The life and the identity of what a connection leads to, asked before anything else is
        done with it."""
        connection.autocommit = True  # transactions are begun here, together with a statement
        cursor = connection.cursor()
        try:
            cursor.execute(with_table(LIFE, self.table))
        except psycopg2.Error as error:
            if connection.closed or isinstance(error, errors.UndefinedTable):
                raise
            message = str(error).strip()
            logger.warning("can't identify this PostgreSQL: %s", message)
            unknown = None if isinstance(error, BARRED) else UNSURE
            return (connection.info.backend_pid, None, None), unknown  # then less can be found out
        *life, known, database = cursor.fetchone()
        info = connection.info
        where = f"database {database} of the PostgreSQL at {info.host}:{info.port}"
        shown = f"table {self.table} of {where} ({known})"
        return tuple(life), StoreIdentity(f"postgres {known}", shown)

    def identity(self) -> StoreIdentity | None:
        """From the numbers of the server, the database and the table, whatever address leads there.
        A standby has those of its primary. None if this role may not read them."""
        if self.is_hung_up:
            self.close()
        if self.connection is None or self.connection.closed:
            self.connect()
        return self._identity

    def send(self, text: str, values: Sequence[object] = ()) -> Any:
        """Sends a statement; every statement of a transaction passes through here. Each call is one
        round trip."""
        cursor = self.connection.cursor()
        cursor.execute(text, values)
        return cursor

    def ask(self, text: str, values: Sequence[object] = (), is_reading: bool = False) -> Any:
        """The rows of a statement. Raises AbortedError if the server has ended the transaction."""
        before, self.before = self.before, "" if not self.is_alone else self.before
        if is_reading and self.is_alone and self.level == "serializable":
            before = READING + before
        try:
            cursor = self.send(before + text.format(table=self.table), values)
        except CONFLICTS as error:
            raise AbortedError(str(error).strip()) from error
        except psycopg2.Error as error:
            if self.is_alone and (error.pgcode is None or self.connection.closed):
                raise OutcomeUnknownError(str(error).strip()) from error
            raise
        self.statement = cursor.query.decode(errors="replace")[len(before) :]
        return cursor

    def begin(self, seconds: float | None = None) -> None:
        if self.is_hung_up or self.is_in_transaction:
            self.close()
        if self.connection is None or self.connection.closed:
            self.connect(seconds)
        self.transaction_id, self.is_alone = None, False
        self.before = f"BEGIN ISOLATION LEVEL {self.level.upper()}; "

    @property
    def is_in_transaction(self) -> bool:
        """Whether a transaction is still open that was given up, for example after an interrupt
        before its rollback was sent. Further statements would become part of it."""
        connection = self.connection
        if connection is None or connection.closed:
            return False
        return bool(connection.get_transaction_status() != extensions.TRANSACTION_STATUS_IDLE)

    def begin_alone(self, seconds: float) -> None:
        """Replaces `begin` for statements that are transactions by themselves. Each ends within
        this many seconds and holds no lock afterwards. At the level serializable their reads are
        serializable, too, since another snapshot may show what no order has. An `exchange` locks
        its one row, at any level."""
        self.begin(min(seconds, self.patience))
        self.is_alone = True
        self.before = f"SET LOCAL statement_timeout = {max(1, int(1000 * seconds))}; "

    def read(self, key: str) -> StoredValue | None:
        row = self.ask(READ, (key,), is_reading=True).fetchone()
        return None if row is None else (row[0], row[1:])

    def read_all(self, keys: Sequence[str]) -> dict[str, StoredValue]:
        rows = self.ask(READ_ALL, ([*keys],), is_reading=True)
        return {row[0]: (row[1], row[2:]) for row in rows}

    def write(self, key: str, value: object, name: Name) -> None:
        self.written = (key, *name)
        (self.transaction_id,) = self.ask(WRITE, (key, value, *name)).fetchone()

    def exchange(self, key: str, value: object, name: Name) -> StoredValue | None:
        self.written = (key, *name)
        keeps = KEPT if self.is_alone else "%s"
        values = (*name, key) if self.is_alone else (value, *name, key)
        for _ in range(ATTEMPTS):
            row = self.ask(OVERWRITE.replace("{value}", keeps), values).fetchone()
            if row is not None:
                self.transaction_id = row[0]
                return row[1], row[2:]
            row = self.ask(FIRST, (key, value, *name)).fetchone()
            if row is not None:
                (self.transaction_id,) = row
                return None
        raise AbortedError(f"{key} appeared and disappeared {ATTEMPTS} times")

    def commit(self) -> None:
        try:
            self.send_commit()
        except CONFLICTS as error:
            raise AbortedError(str(error).strip()) from error
        except psycopg2.Error as error:
            if error.pgcode is None or self.connection.closed:
                raise OutcomeUnknownError(str(error).strip()) from error
            raise  # the server has answered: it is aborted

    def has_answered(self, error: BaseException) -> bool:
        """Whether this error is the server's refusal of the commit, so that nobody has to ask."""
        if not isinstance(error, psycopg2.Error) or error.pgcode is None:
            return False
        cursor = getattr(error, "cursor", None)
        if cursor is None or cursor.connection is not self.connection or self.connection.closed:
            return False  # it is about something else, or may have come after the answer
        return error.pgcode[:2] not in ("08", "57") and error.pgcode != "40003"

    def send_commit(self) -> None:
        """Sends the commit, and waits for its answer."""
        if self.is_alone or self.before:
            return  # nothing is open
        if self.send("COMMIT").statusmessage != "COMMIT":  # a statement of it has failed
            raise AbortedError("the transaction had failed before its commit")

    def rollback(self) -> None:
        """Rolls back. If the server can't be told, the connection is closed, which has the same
        effect."""
        if self.connection is None or self.connection.closed or self.is_alone or self.before:
            return
        try:
            self.send("ROLLBACK")
        except psycopg2.Error:
            self.close()

    def close(self) -> None:
        """Closes the connection; the next transaction opens a new one. May be called twice."""
        if self.connection is not None:
            self.connection.close()

    def hang_up(self) -> None:
        """Makes a call that is waiting for the server raise OutcomeUnknownError or psycopg2's error
        at once. The next transaction opens a new connection. May be called from any thread."""
        connection, self.is_hung_up = self.connection, True
        try:
            with socket.socket(fileno=os.dup(connection.fileno())) as same:
                same.shutdown(socket.SHUT_RDWR)
        except (AttributeError, OSError, psycopg2.Error):
            pass  # none is open

    def outcome(self) -> str:
        return self.outcome_within(self.patience)

    def outcome_within(self, seconds: float) -> str:
        if self.transaction_id is None:
            return "unknown"
        values = (self.transaction_id, *self.written)
        which = which_of(self.life[2])
        text = with_table(STATUS, self.table)
        return outcome_told(self._its_dsn, text, values, seconds, which)

    def asks(self) -> Any:
        """For another process on this machine; with the environment's values for what the DSN
        doesn't say."""
        return ("postgres", dict(extensions.parse_dsn(self.dsn)), environment(), self.table)

    def ticket(self, written: Sequence[object]) -> Any:
        return (None if self.is_alone else self.transaction_id, *self.life, *written)

    def claim(self, run_name: str, token: str, seconds: float) -> None:
        """Reserves the name for one run. Raises NameTakenError if it belongs to another run, and
        OutcomeUnknownError if the server doesn't answer within this many seconds."""
        self.begin()  # the client waits for the connection, which it needs anyway
        self.begin_alone(0.8 * seconds)  # the server ends it, unless the connection is cut
        ends = threading.Timer(seconds, self.hang_up)
        ends.daemon = True
        ends.start()
        try:
            owner = self.owner(RUN + run_name, token, run_name)
        except errors.QueryCanceled as error:
            raise OutcomeUnknownError(str(error).strip()) from error
        finally:
            ends.cancel()
            ends.join()  # after that, it is certain whether this connection can be used
        if owner != token:
            raise NameTakenError(f"{self.table} has the name {run_name} from an earlier run")

    def owner(self, key: str, token: str, run_name: str) -> str:
        """The token of the run that has the name; a new name is given to this one."""
        for _ in range(ATTEMPTS):
            row = self.ask(CLAIM, (key, token, run_name, -1, 0, key)).fetchone()
            if row is not None:
                return str(row[0])
        raise AbortedError(f"{key} appeared and disappeared {ATTEMPTS} times")
