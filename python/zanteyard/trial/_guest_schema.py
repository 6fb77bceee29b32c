"""A temporary schema in a PostgreSQL server that belongs to somebody else."""

from __future__ import annotations

import secrets
from collections.abc import Callable

import psycopg2
from psycopg2 import errors

from ..core._visible import say
from ..stores.postgres import prepare, quoted

WAITING = 10  # seconds to wait for what clients have left open, during cleanup


class GuestSchema:
    """Has the calls of a PostgresServer, for a server that is already running. It creates a schema
    with one table and drops it at the end. If the user may not create schemas, it is a table with a
    unique name next to the existing ones. What `dsn` doesn't say is taken from the environment,
    such as PGHOST and PGDATABASE."""

    def __init__(self, dsn: str, tell: Callable[[str], object] = say) -> None:
        self.dsn, self.tell = dsn, tell
        self.name = f"zanteyard_{secrets.token_hex(6)}"
        self.table = f"{self.name}.zanteyard"
        self.drop = f"DROP SCHEMA IF EXISTS {self.name} CASCADE"

    def run(self, statement: str) -> None:
        connection = psycopg2.connect(self.dsn)
        try:
            connection.autocommit = True
            cursor = connection.cursor()
            cursor.execute(f"SET lock_timeout = '{WAITING}s'")
            cursor.execute(statement)
        finally:
            connection.close()

    def where(self) -> str:
        connection = psycopg2.connect(self.dsn)
        try:
            info = connection.info
            return f"database {info.dbname} at {info.host or 'its socket'}, as {info.user}"
        finally:
            connection.close()

    def __enter__(self) -> GuestSchema:
        """Raises psycopg2's errors if the server can't be reached, or doesn't allow creating a
        table either."""
        makes = f"creates the schema {self.name} with a table, and drops both at the end"
        self.tell(f"in {self.where()}: {makes}")
        try:
            self.run(f"CREATE SCHEMA {self.name}")
        except errors.InsufficientPrivilege:
            self.table, self.drop = self.name, f"DROP TABLE IF EXISTS {quoted(self.name)}"
            makes = f"creates the table {self.name} instead, and drops it at the end"
            self.tell(f"can't create a schema there: {makes}")
        try:
            prepare(self.dsn, self.table)
        except BaseException:
            self.__exit__()
            raise
        return self

    def __exit__(self, *_: object) -> None:
        try:
            self.run(self.drop)
        except psycopg2.Error as error:
            message = f"couldn't clean up; run: {self.drop}"
            self.tell(f"{message}: {error}".strip())
