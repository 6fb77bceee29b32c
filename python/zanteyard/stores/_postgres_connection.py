"""Connections to PostgreSQL and its answers, each with a time limit."""

import math
import os
import select
import socket
import time
from collections.abc import Callable, Sequence
from typing import Any

import psycopg2
from psycopg2 import extensions

from . import _timeouts as timeouts

LEAST = 2  # seconds: libpq raises a shorter connect_timeout to this
# The environment variables that libpq reads for what a DSN doesn't say.
WORDS = {
    **{"PGHOST": "host", "PGHOSTADDR": "hostaddr", "PGPORT": "port", "PGDATABASE": "dbname"},
    **{"PGUSER": "user", "PGPASSWORD": "password", "PGPASSFILE": "passfile"},
    **{"PGOPTIONS": "options", "PGTARGETSESSIONATTRS": "target_session_attrs"},
    **{"PGSERVICE": "service", "PGSERVICEFILE": "servicefile"},
}
PLAIN = {"target_session_attrs": "any"}  # in place of an empty value, which libpq refuses


def connected(dsn: str, seconds: float, first: Callable[[Any], Any] = bool) -> Any:
    """A connection on which `first` has been called. Raises psycopg2's errors, and OperationalError
    after this many seconds."""
    more: dict[str, Any] = {}
    if "connect_timeout" not in extensions.parse_dsn(dsn):
        more["connect_timeout"] = max(LEAST, math.ceil(seconds))

    def opened() -> Any:
        connection = psycopg2.connect(dsn, **more)
        try:
            first(connection)
        except BaseException:
            connection.close()
            raise
        return connection

    return within(seconds, opened, closed)


def to_its_server(dsn: str, connection: Any) -> str:
    """A DSN for exactly the server of this connection, if the given DSN, or a host name in it,
    leads to several. Another server may be a standby, or know nothing of what was done here."""
    info = connection.info
    if not info.host:
        return dsn
    its: dict[str, Any] = {"host": info.host, "port": info.port}
    address = address_of(connection)
    if address is not None:
        its["hostaddr"] = address
    return str(extensions.make_dsn(dsn, **its))


def address_of(connection: Any) -> str | None:
    """The server's IP address; None if it is reached by a socket path."""
    try:
        with socket.socket(fileno=os.dup(connection.fileno())) as same:
            is_by_path = same.family == socket.AF_UNIX
            return None if is_by_path else str(same.getpeername()[0])
    except (OSError, psycopg2.Error):
        return None  # it is closed


def closed(late: Any) -> None:
    if late is not None:
        late.close()


def answer(
    dsn: str,
    text: str,
    values: Sequence[object],
    seconds: float,
    its: tuple[str, str] | None = None,
) -> Sequence[Any] | None:
    """The statement's first row, over a connection of its own. Raises what `connected` raises. If
    `its` is given, OperationalError is raised unless its first text, as a statement, returns its
    second."""
    ends = time.monotonic() + seconds
    row: Sequence[Any] | None = within(seconds, lambda: first_row(dsn, text, values, ends, its))
    return row


def outcome_told(
    dsn: str, text: str, values: Sequence[object], seconds: float, which: str | None = None
) -> str:
    """"committed", "aborted" or "unknown". The statement returns the status of the transaction's
    number, whether its write exists, and which server and table answer. If that isn't `which`, if
    given, the answer means nothing. The number alone isn't enough: after a crash a server may give
    the number of a lost transaction to another one. Uses a connection of its own, since the current
    one may be broken."""
    try:
        row = answer(dsn, text, values, seconds)
    except psycopg2.Error:
        return "unknown"
    status, is_there, told = row or (None, False, None)
    if which is not None and told != which:
        return "unknown"
    if status == "aborted" or (status == "committed" and is_there):
        return str(status)
    return "unknown"


def first_row(
    dsn: str,
    text: str,
    values: Sequence[object],
    ends: float,
    its: tuple[str, str] | None = None,
) -> Sequence[Any] | None:
    connection = psycopg2.connect(dsn, async_=True)
    try:
        wait(connection, ends)
        if its is not None and row_of(connection, its[0], (), ends) != (its[1],):
            raise psycopg2.OperationalError("another server answers, or another database")
        return row_of(connection, text, values, ends)
    finally:
        connection.close()


def row_of(
    connection: Any, text: str, values: Sequence[object], ends: float
) -> Sequence[Any] | None:
    cursor = connection.cursor()
    cursor.execute(text, values)
    wait(connection, ends)
    row: Sequence[Any] | None = cursor.fetchone()
    return row


def wait(connection: Any, ends: float) -> None:
    """Waits until an asynchronous connection has finished its work."""
    while True:
        state = connection.poll()
        if state == extensions.POLL_OK:
            return
        waits = select.poll()
        is_reading = state == extensions.POLL_READ
        waits.register(connection.fileno(), select.POLLIN if is_reading else select.POLLOUT)
        if not waits.poll(max(0.0, 1000 * (ends - time.monotonic()))):
            raise psycopg2.OperationalError("the server didn't answer in time")


def within(seconds: float, call: Callable[[], Any], drop: Callable[[Any], object] = bool) -> Any:
    """As `timeouts.within`, but raises psycopg2's OperationalError."""
    try:
        return timeouts.within(seconds, call, drop)
    except timeouts.LateError as error:
        raise psycopg2.OperationalError(str(error)) from None


def environment() -> dict[str, str]:
    return {word: os.environ[name] for name, word in WORDS.items() if os.environ.get(name)}


def reached(dsn: dict[str, str], around: dict[str, str]) -> dict[str, str] | None:
    """The words that lead from this process to the server that a client reached with this DSN in
    the environment `around`; None if there are none."""
    here = environment()
    if any("service" in words for words in (dsn, around, here)):
        return dsn if here == around else None  # only libpq knows what a service says
    # libpq treats an empty word as absent, and doesn't look for it in the environment.
    merged = {**{word: PLAIN.get(word, "") for word in here}, **around, **dsn}
    return {word: said for word, said in merged.items() if word != "servicefile"}
