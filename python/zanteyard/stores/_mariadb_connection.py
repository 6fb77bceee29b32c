"""Time limits for MariaDB's statements and answers."""

import math
import time
from typing import Any

import pymysql


def limited(seconds: float) -> str:
    """A prefix with which the server ends a statement after this many seconds."""
    return (
        f"SET STATEMENT max_statement_time = {max(0.001, seconds):.3f}, "
        f"innodb_lock_wait_timeout = {max(1, math.ceil(seconds))} FOR "
    )


def limit(connection: Any, ends: float) -> None:
    """Sets the connection's read timeout: no answer is awaited past `ends`, or longer than the
    application allows."""
    usual, seconds = connection._read_timeout, max(0.001, ends - time.monotonic())
    connection._read_timeout = seconds if usual is None else min(usual, seconds)


def close_connection(connection: Any) -> None:
    try:
        connection.close()
    except (AttributeError, pymysql.MySQLError):
        pass  # it was closed, or never opened
