"""Connections to a Redis, and commands over them, each with a time limit."""

import contextlib
import math
import socket
import time
from collections.abc import Sequence
from typing import Any

import redis

from ._timeouts import LateError, within

BROKEN = (redis.ConnectionError, redis.TimeoutError, OSError)
Command = tuple[Any, ...]


class _OverAPath(redis.UnixDomainSocketConnection):
    """Closes its socket if nobody listens there; redis-py leaves it open."""

    def _connect(self) -> socket.socket:
        sock = socket.socket(socket.AF_UNIX)
        try:
            sock.settimeout(self.socket_timeout)
            sock.connect(self.path)
        except BaseException:
            sock.close()
            raise
        return sock


def connected(url: str, seconds: float, **more: Any) -> Any:
    """An open connection. Raises redis-py's errors if it can't be opened within this many
    seconds."""
    pool = redis.ConnectionPool.from_url(url, **more)
    if pool.connection_class is redis.UnixDomainSocketConnection:
        pool.connection_class = _OverAPath
    connection = pool.make_connection()
    try:
        within(seconds, connection.connect, lambda _: connection.disconnect())
    except LateError as error:
        raise redis.TimeoutError(str(error)) from None
    return connection


def limit(connection: Any, ends: float = math.inf) -> None:
    """Sets the socket's timeout, so that no answer is awaited past `ends` or longer than the URL
    says."""
    sock = getattr(connection, "_sock", None)
    if sock is None:
        return
    seconds = max(0.001, ends - time.monotonic())
    usual = connection.socket_timeout
    if usual is None or seconds < usual:
        sock.settimeout(seconds if seconds < math.inf else None)
    else:
        sock.settimeout(usual)


def interrupt(connection: Any) -> None:
    """Makes another thread that is waiting for an answer find the connection closed."""
    sock = getattr(connection, "_sock", None)
    if sock is not None:
        with contextlib.suppress(OSError):  # it was closed meanwhile
            sock.shutdown(socket.SHUT_RDWR)


def answers(connection: Any, commands: Sequence[Command]) -> list[Any]:
    """The answers to all commands, in order. If a command is refused, its answer is the error."""
    connection.send_packed_command(connection.pack_commands(commands), check_health=False)
    received: list[Any] = []
    for _ in commands:
        try:
            received.append(connection.read_response())
        except redis.ResponseError as error:
            received.append(error)
    return received


def replies(connection: Any, commands: Sequence[Command]) -> list[Any]:
    """The answers to all commands. Raises the first error, after all have been answered."""
    received = answers(connection, commands)
    for each in received:
        if isinstance(each, redis.ResponseError):
            raise each
    return received
