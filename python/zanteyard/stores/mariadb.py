"""A table of MariaDB as a store. Each row has its writer's name next to the value; the value NULL
marks a deleted key.

MariaDB can't be asked about a transaction by a number. So each store has a row of its own, which
every transaction that writes updates in the statement of its first write. With the transaction's
count, this row says what was committed last. To find out an unknown outcome, the same count is
written there as that of an aborted attempt. Whichever of the two writes comes first prevents the
other (`DECIDE`), so the answer is final.
"""

import logging
import math
import secrets
import socket
import time
from collections.abc import Mapping, Sequence
from typing import Any

import pymysql
from pymysql.constants import SERVER_STATUS

from ._commit_status import CommitStatus
from ..core._records import Name, StoredValue
from ..core._store_identity import UNSURE, StoreIdentity, known_of
from ._timeouts import LateError, within
from ..core.errors import AbortedError, NameTakenError, OutcomeUnknownError
from ._mariadb_connection import close_connection, limit, limited
from ._shown import standard
from .levels import SNAPSHOT, checked_level

# Keys are compared byte by byte. Most collations treat "x", "X" and "x " as equal.
TABLE = """CREATE TABLE IF NOT EXISTS {table} (
    `key` varchar(512) PRIMARY KEY, value longtext,
    run varchar(255) NOT NULL, session int NOT NULL, number bigint NOT NULL,
    before_value longtext, before_run varchar(255), before_session int, before_number bigint)
    ENGINE = InnoDB CHARACTER SET utf8mb4 COLLATE utf8mb4_nopad_bin"""
# Without strict mode, long texts are cut off, and two keys may become one.
SET_UP = (
    "SET SESSION sql_mode = 'STRICT_ALL_TABLES,NO_ENGINE_SUBSTITUTION', completion_type = NO_CHAIN"
)
SNAPSHOTS = "SET SESSION innodb_snapshot_isolation = ON"
LEVEL = "SET SESSION TRANSACTION ISOLATION LEVEL {level}"
WAITS = "SET SESSION innodb_lock_wait_timeout = %s"
READ = "SELECT value, run, session, number FROM {table} WHERE `key` = %s"
READ_ALL = "SELECT `key`, value, run, session, number FROM {table} WHERE `key` IN %s"
LOCKING = " LOCK IN SHARE MODE"
FOR_UPDATE = " FOR UPDATE"
OWN = -2  # in place of a session, in the row with a store's outcomes
INSERT = "INSERT INTO {table} (`key`, value, run, session, number) VALUES "
ROW = "(%s, %s, %s, %s, %s)"
# A count that isn't greater than the current one fails, because the column is NOT NULL. Assignments
# run from left to right, so the values that are compared or kept are the old ones.
UPDATE = f"""ON DUPLICATE KEY UPDATE {{before}}
    number = IF(VALUES(session) = {OWN} AND number >= VALUES(number), NULL, VALUES(number)),
    value = VALUES(value), run = VALUES(run), session = VALUES(session)"""
KEEPING = """before_value = value, before_run = run, before_session = session,
    before_number = number,"""
BEFORE = "RETURNING `key`, before_value, before_run, before_session, before_number"
DECIDE = f"""{INSERT} {ROW} ON DUPLICATE KEY UPDATE
    value = IF(number < VALUES(number), VALUES(value), value),
    number = GREATEST(number, VALUES(number)) RETURNING value, number"""
CLAIM = f"{INSERT} {ROW} ON DUPLICATE KEY UPDATE value = value RETURNING value"
# A copied table, for example in another server, has another creation time. `server_uid` is no help:
# it depends only on a port and a network card.
WHICH = """SELECT DATABASE(), @@lower_case_table_names, (SELECT UNIX_TIMESTAMP(create_time)
    FROM information_schema.tables WHERE table_schema = IFNULL(%s, DATABASE()) AND table_name = %s),
    (SELECT value FROM {table} WHERE `key` = %s)"""
# The error numbers that end a transaction and say that nothing of it was committed: a lock wait
# timeout (1205: MariaDB rolls back only the statement, and this store the transaction), a deadlock,
# and a row that has changed since the snapshot.
CONFLICTS = (1205, 1213, 1020)
TIME_IS_UP = 1969  # by max_statement_time
CLIENT_ERRORS = range(2000, 3000)  # which don't come from a server
PATIENCE = 5.0  # seconds for a connection, and for an outcome
SHARE = 0.8  # the server's part of the time limit of an answer
RUN = "zanteyard run "  # before a run's name: the key of the row with its owner
LAST = "zanteyard last "  # before a store's token: the key of the row with its outcomes
STORE = "zanteyard store"  # the key of the row that identifies this table
NO_TABLE = 1146
BARRED = (1044, 1045, 1142, 1143, 1290)  # no permission, or a read-only server
WRITING = 1.0  # seconds for writing that row, if it doesn't exist
logger = logging.getLogger("zanteyard")


def quoted(table: str) -> str:
    """The name of the table, or "database.table", as statements have it."""
    parts = ["`" + part.replace("`", "``") + "`" for part in table.split(".", 1)]
    return ".".join(parts).replace("%", "%%")


def prepare(dsn: Mapping[str, Any], table: str = "zanteyard") -> None:
    """Creates the table, if it doesn't exist."""
    connection = pymysql.connect(**{**dsn, "autocommit": True})
    try:
        cursor, name = connection.cursor(), quoted(table)
        cursor.execute(TABLE.format(table=name).replace("%%", "%"))
        cursor.execute(CLAIM.format(table=name), store_row())
    finally:
        connection.close()


def store_row() -> Sequence[Any]:
    """A row that identifies a table, once it exists."""
    return (STORE, secrets.token_hex(8), "", -1, 0)


def named(table: str) -> Sequence[str | None]:
    """The names of the database, or None, and of the table, from what `quoted` returned."""
    parts = [part.replace("``", "`") for part in table.replace("%%", "%")[1:-1].split("`.`", 1)]
    return (parts[0], parts[1]) if len(parts) > 1 else (None, parts[0])


def close_opened(late: Any) -> None:
    """Closes a connection that was opened too late for whoever wanted it."""
    if late is not None:
        close_connection(late[0])


def code_of(error: BaseException) -> int:
    """The error's number; 0 if it has none."""
    return error.args[0] if error.args and isinstance(error.args[0], int) else 0


class MariaDBStore:
    """One connection, for one thread at a time. `dsn` has the arguments of `pymysql.connect`,
    `level` is one of MariaDB's in `levels.py`, and `table` may be "database.table". A connection
    may take `patience` seconds. A lock may take `lock_wait` whole seconds, by default as long as
    the server's setting says. With `for_update`, all reads are SELECT .. FOR UPDATE."""

    errors = (pymysql.MySQLError, LateError)

    def __init__(
        self,
        dsn: Mapping[str, Any],
        level: str = "serializable",
        table: str = "zanteyard",
        patience: float = PATIENCE,
        lock_wait: int | None = None,
        for_update: bool = False,
    ) -> None:
        checked_level("mariadb", level)
        self.dsn, self.level, self.table, self.patience = dict(dsn), level, quoted(table), patience
        self.lock_wait, self.locks = lock_wait, FOR_UPDATE if for_update else ""
        self.connection: Any = None
        self.statement: str | None = None  # the last one, with standard SQL's quotes
        self.own, self.count = f"{LAST}{secrets.token_hex(8)}", 0
        self.before = ""  # prefix of a statement that is a transaction by itself
        self.is_alone = self.is_hung_up = False
        self.ends = math.inf  # time limit of a statement by itself
        self.usual: float | None = None  # the application's own time limit for answers
        self._identity: StoreIdentity | None = None  # of the table that the connection leads to
        self.known: str | None = None  # its `known` text
        # Whether the transaction has written, can't be committed any more, and was ended between
        # two of its writes by something other than this store.
        self.has_written = self.has_failed = self.is_torn = False

    # the connection

    def connect(self, seconds: float | None = None) -> None:
        """Opens the connection. Raises pymysql's errors."""
        self.is_hung_up = False
        waits = self.patience if seconds is None else seconds
        try:
            opened = within(waits, lambda: self.opened(waits), close_opened)
        except LateError as error:
            raise pymysql.OperationalError(2003, str(error)) from None
        self.connection, self._identity = opened
        self.known = known_of(self._identity)
        self.usual = self.connection._read_timeout

    def identity(self) -> StoreIdentity | None:
        """From a row that is written once, and the table's creation time. None without permission
        to write or read them."""
        if self.is_hung_up:
            self.close()
        if not self.is_connected:
            self.connect()
        return self._identity

    def opened(self, seconds: float) -> tuple[Any, StoreIdentity | None]:
        """A connection, and the identity of what it leads to."""
        connection = self.connected(seconds)
        try:
            return connection, self.identity_at(connection)
        except BaseException:
            close_connection(connection)
            raise

    def identity_at(self, connection: Any) -> StoreIdentity | None:
        """The identity of the store behind this connection; None if unknown."""
        schema, name = named(self.table)
        cursor = connection.cursor()
        try:
            cursor.execute(WHICH.format(table=self.table), (schema, name, STORE))
            current, folds, made, token = cursor.fetchone()
            if token is None:
                cursor.execute(limited(WRITING) + CLAIM.format(table=self.table), store_row())
                (token,) = cursor.fetchone()
        except pymysql.MySQLError as error:
            if self.is_broken_at(connection, error) or code_of(error) == NO_TABLE:
                raise
            logger.warning("can't identify this MariaDB: %s", error)
            return None if code_of(error) in BARRED else UNSURE
        called = f"{schema or current}.{name}"
        host = self.dsn.get("unix_socket") or f"{connection.host}:{connection.port}"
        known = f"mariadb {token} {made} {called.casefold() if folds else called}"
        return StoreIdentity(known, f"table {called} of the MariaDB at {host} (store {token})")

    def connected(self, seconds: float) -> Any:
        """A new connection, made within this many seconds."""
        limits = {"connect_timeout": max(1, math.ceil(seconds))}
        dsn: dict[str, Any] = {"charset": "utf8mb4", **limits, **self.dsn, "autocommit": True}
        connection = pymysql.connect(**dsn)
        cursor = connection.cursor()
        cursor.execute(SET_UP)
        if self.level == SNAPSHOT:
            cursor.execute(SNAPSHOTS)
        level = "repeatable read" if self.level == SNAPSHOT else self.level
        cursor.execute(LEVEL.format(level=level.upper()))
        if self.lock_wait is not None:
            cursor.execute(WAITS, (self.lock_wait,))
        return connection

    @property
    def is_connected(self) -> bool:
        """Whether a connection is open."""
        return self.connection is not None and bool(self.connection.open)

    @property
    def is_in_transaction(self) -> bool:
        """As of the server's last answer."""
        return bool(self.connection.server_status & SERVER_STATUS.SERVER_STATUS_IN_TRANS)

    def is_broken(self, error: BaseException) -> bool:
        """Whether this connection can't be used any more."""
        return self.is_broken_at(self.connection, error)

    @staticmethod
    def is_broken_at(connection: Any, error: BaseException) -> bool:
        """Whether this error means that the connection can't be used any more."""
        lost = isinstance(error, pymysql.InterfaceError) or code_of(error) in CLIENT_ERRORS
        return lost or connection is None or not connection.open

    def send(self, text: str, values: Sequence[object] = ()) -> Any:
        """Sends a statement; every statement of a transaction passes through here. Each call is one
        round trip."""
        cursor = self.connection.cursor()
        query = cursor.mogrify(text, values)
        cursor.execute(query)
        self.statement = standard(query)
        return cursor

    def ask(self, text: str, values: Sequence[object] = ()) -> Any:
        """The rows of a statement. Raises what `raise_what_it_means` raises."""
        if not self.is_alone:
            self.still_open()
        try:
            cursor = self.sent_in_time(self.before + text.format(table=self.table), values)
        except pymysql.MySQLError as error:
            self.has_failed = True  # else what follows might be committed without this
            self.raise_what_it_means(error)
            raise
        if self.before and self.statement is not None:
            self.statement = self.statement[len(standard(self.before)) :]
        return cursor

    def sent_in_time(self, text: str, values: Sequence[object]) -> Any:
        """Sends a statement with a time limit of its own: the server's doesn't apply to a statement
        that waits at its commit, for example for a backup."""
        if not self.is_alone:
            return self.send(text, values)
        limit(self.connection, self.ends)
        try:
            return self.send(text, values)
        finally:
            self.connection._read_timeout = self.usual

    def raise_what_it_means(self, error: pymysql.MySQLError) -> None:
        """Raises AbortedError or OutcomeUnknownError, if that is what the error means."""
        message = f"{' '.join(map(str, error.args))}".strip()
        if self.is_alone and self.is_broken(error):
            raise OutcomeUnknownError(message) from error
        if code_of(error) in CONFLICTS or (self.is_alone and code_of(error) == TIME_IS_UP):
            raise AbortedError(message) from error

    def still_open(self) -> None:
        """Raises an error if the server has ended the transaction. A further statement would be a
        transaction by itself."""
        if self.has_failed:
            raise AbortedError("the transaction had failed before")
        if self.is_connected and not self.is_in_transaction:
            self.has_failed = True
            message = (
                "the transaction was ended by something else, such as a CREATE TABLE statement"
            )
            if self.has_written:
                self.is_torn = True
                raise OutcomeUnknownError(message)
            raise AbortedError(message)

    # what sessions call

    def begin(self, seconds: float | None = None) -> None:
        self.get_ready(seconds)
        self.is_alone, self.before = False, ""
        try:
            self.send("START TRANSACTION")
        except pymysql.MySQLError as error:
            if not self.is_broken(error) or self.is_hung_up:
                raise
            self.close()  # it had been idle for too long, so nothing has begun
            self.connect(seconds)
            self.send("START TRANSACTION")

    def get_ready(self, seconds: float | None = None) -> None:
        """Prepares a new transaction."""
        if self.is_hung_up:
            self.close()
        if not self.is_connected:
            self.connect(seconds)
        self.count += 1
        self.has_written = self.has_failed = self.is_torn = False

    def begin_alone(self, seconds: float) -> None:
        """Replaces `begin` for statements that are transactions by themselves. Each ends within
        this many seconds and holds no lock afterwards. Reads lock what they read, at every level:
        they return committed values of one moment."""
        self.ends = time.monotonic() + seconds
        self.get_ready(min(seconds, self.patience))
        self.is_alone = True
        self.before = limited(SHARE * (self.ends - time.monotonic()))

    def read(self, key: str) -> StoredValue | None:
        row = self.ask(READ + (LOCKING if self.is_alone else self.locks), (key,)).fetchone()
        return None if row is None else (row[0], row[1:])

    def read_all(self, keys: Sequence[str]) -> dict[str, StoredValue]:
        if not keys:
            return {}
        locks = LOCKING if self.is_alone else self.locks
        rows = self.ask(READ_ALL + locks, ([*keys],)).fetchall()
        return {row[0]: (row[1], row[2:]) for row in rows}

    def write(self, key: str, value: object, name: Name) -> None:
        self.put(key, value, name, "", "")

    def exchange(self, key: str, value: object, name: Name) -> StoredValue | None:
        """Reads and writes in one statement, which locks the row first. So it returns the version
        that it overwrites, whatever the transaction's snapshot."""
        rows = self.put(key, value, name, KEEPING, BEFORE).fetchall()
        (row,) = [row[1:] for row in rows if row[0] == key]
        return None if row[1] is None else (row[0], row[1:])

    def put(self, key: str, value: object, name: Name, before: str, behind: str) -> Any:
        """Writes a row, and in the transaction's first write also the store's own row."""
        own = () if self.has_written else (self.own, "committed", name[0], OWN, self.count)
        rows = f"{ROW}, {ROW}" if own else ROW
        text = f"{INSERT}{rows} {UPDATE.replace('{before}', before)} {behind}"
        done = self.ask(text, (key, value, *name, *own))
        self.has_written = True
        if own and self.statement is not None:  # a violation needn't show the store's own row
            row = standard(done.mogrify(ROW, own))
            self.statement = self.statement.replace(f", {row}", "")
        return done

    def commit(self) -> None:
        if self.is_alone:
            return  # nothing is open
        if not self.is_connected:
            raise AbortedError("the connection was lost before the commit was sent")
        if self.has_failed or self.has_written:
            self.still_open()
        try:
            self.send_commit()
        except pymysql.MySQLError as error:
            if self.is_broken(error):
                raise OutcomeUnknownError(str(error)) from error
            self.has_failed = True
            self.raise_what_it_means(error)
            raise  # the server has answered: it is aborted

    def send_commit(self) -> None:
        """Sends the commit, and waits for its answer."""
        self.send("COMMIT")

    def rollback(self) -> None:
        """Rolls back. If the server can't be told, the connection is closed, which has the same
        effect."""
        self.has_failed = True
        if not self.is_connected or self.is_alone:
            return
        try:
            self.send("ROLLBACK")
        except pymysql.MySQLError:
            self.close()

    def close(self) -> None:
        """Closes the connection; the next transaction opens a new one. May be called twice."""
        if self.is_connected:
            close_connection(self.connection)

    def hang_up(self) -> None:
        """Makes a call that is waiting for the server raise OutcomeUnknownError or pymysql's error
        at once. The next transaction opens a new connection. May be called from any thread."""
        connection, self.is_hung_up = self.connection, True
        try:
            connection._sock.shutdown(socket.SHUT_RDWR)
        except (AttributeError, OSError):
            pass  # none is open

    def outcome(self) -> str:
        return self.outcome_within(self.patience)

    def outcome_within(self, seconds: float) -> str:
        """Asks over a connection of its own, since the current one may be broken. Waits for a
        transaction that is still open; after that the outcome is final."""
        if self.is_torn:
            return "unknown"
        count = self.count
        try:
            value, decided = within(seconds, lambda: self.decided(count, seconds))
        except (pymysql.MySQLError, LateError, OSError):
            return "unknown"
        return str(value) if decided == count else "unknown"

    def decided(self, count: int, seconds: float) -> tuple[str, int]:
        """The value and count in the store's own row, into which it writes "aborted" unless the row
        is already there."""
        connection = self.connected(seconds)
        try:
            limit(connection, time.monotonic() + seconds)  # without this, it might take forever
            if self.known is not None and known_of(self.identity_at(connection)) != self.known:
                return "unknown", count  # another table has the name now
            cursor = connection.cursor()
            row = (self.own, "aborted", "", OWN, count)
            cursor.execute(limited(seconds) + DECIDE.format(table=self.table), row)
            decision: tuple[str, int] = cursor.fetchone()
            return decision
        finally:
            close_connection(connection)

    def asks(self) -> Any:
        return ("mariadb", self.dsn, self.table, self.own)

    def ticket(self, written: Sequence[object]) -> Any:
        return (self.count, self.is_alone, self.known, *written)

    def claim(self, run_name: str, token: str, seconds: float) -> None:
        """Reserves the name for one run. Raises NameTakenError if it belongs to another run, and
        OutcomeUnknownError or AbortedError if the server doesn't answer within this many
        seconds."""
        self.get_ready()  # the client waits for the connection, which it needs anyway
        self.begin_alone(seconds)
        row = (RUN + run_name, token, run_name, -1, 0)
        (owner,) = self.ask(CLAIM, row).fetchone()
        if owner != token:
            raise NameTakenError(f"{self.table} has the name {run_name} from an earlier run")


ITS_ROW = """SELECT before_run, before_session, before_number FROM {table} WHERE `key` = %s
    AND run = %s AND session = %s AND number = %s"""


def asked(
    dsn: dict[str, Any], table: str, own: str, *, ticket: Any, seconds: float
) -> CommitStatus:
    """The outcome of a transaction whose client process was killed."""
    store = MariaDBStore(dsn, patience=seconds)
    store.table, store.own = table, own
    store.count, is_alone, store.known, *row_name = ticket
    outcome = store.outcome_within(seconds)
    if outcome != "committed" or not is_alone:
        return outcome, None
    connection = store.connected(seconds)
    try:
        limit(connection, time.monotonic() + seconds)
        cursor = connection.cursor()
        cursor.execute(ITS_ROW.format(table=table), row_name)
        row = cursor.fetchone()
        return outcome, None if row is None else () if row[0] is None else (row,)
    finally:
        close_connection(connection)
