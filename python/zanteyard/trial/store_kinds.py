"""The kinds of stores that the command audits: how to start or find a server, and how to make a
client's store."""

from __future__ import annotations

import argparse
import os
from collections.abc import Callable, Mapping, Sequence
from typing import Any

from ..session._stores import ConnectedStore
from ..core._visible import say
from ..core.errors import ZanteyardError
from ..stores.levels import LEVELS
from ._throwaway_folder import ThrowawayFolder
from .mariadb_server import MariaDBGuest, MariaDBServer, mariadbd
from .postgres_server import PostgresServer, program
from .redis_server import RedisGuest, RedisServer, redis_server

MakesStore = Callable[[], ConnectedStore]
StoreClass = Callable[..., ConnectedStore]
Server = Any  # a context; what it has beside `dsn` differs from kind to kind


class CantAuditError(ZanteyardError):
    """Something that an audit of this store needs is missing."""


class MakeStore:
    """Makes a client's store, in this process or another one."""

    def __init__(self, kind: str, *arguments: Any, **more: Any) -> None:
        self.kind, self.arguments, self.more = kind, arguments, more

    def __call__(self) -> ConnectedStore:
        return _STORES[self.kind]()(*self.arguments, **self.more)


def _postgres_store() -> StoreClass:
    from ..stores.postgres import PostgresStore

    return PostgresStore


def _mariadb_store() -> StoreClass:
    from ..stores.mariadb import MariaDBStore

    return MariaDBStore


def _redis_store() -> StoreClass:
    from ..stores.redis import RedisStore

    return RedisStore


def _sqlite_store() -> StoreClass:
    from ..stores.sqlite import SQLiteStore

    return SQLiteStore


_STORES: Mapping[str, Callable[[], StoreClass]] = {
    "postgres": _postgres_store,
    "mariadb": _mariadb_store,
    "redis": _redis_store,
    "sqlite": _sqlite_store,
}


class StoreKind:
    """A kind of store: its name in the command line and for people, how to start or find its
    server, and how to make a client's store."""

    command, name = "", ""
    server_help = ""

    @property
    def levels(self) -> Mapping[str, str]:
        """The levels' full names by their names on the command line; the first is the strictest."""
        return LEVELS[self.command]

    @property
    def default_level(self) -> str:
        return next(iter(self.levels))

    def lacking(self) -> str:
        """What has to be installed first, and how; empty if nothing is missing."""
        raise NotImplementedError

    def add_arguments(self, asked: argparse.ArgumentParser) -> None:
        asked.add_argument("--dsn", help=self.server_help)

    def server(self, asked: argparse.Namespace) -> Server:
        """The server to audit, a context that cleans up at its end. Raises CantAuditError."""
        lacking = self.lacking()
        if lacking:
            raise CantAuditError(lacking)
        return self._server(asked)

    def _server(self, asked: argparse.Namespace) -> Server:
        raise NotImplementedError

    def maker(self, asked: argparse.Namespace, server: Server, **more: Any) -> MakesStore:
        """A function that makes a client's store of the requested level."""
        raise NotImplementedError

    def version(self, server: Server) -> str:
        """The versions of the server and of the driver."""
        raise NotImplementedError

    no_waiting: Mapping[str, Any] = {}  # arguments with which a store doesn't wait for locks


def _wanted(module: str, package: str) -> str:
    return (
        f"{module} is missing: apt-get install {package} (for /usr/bin/python3), or pip install "
        f"{module}"
    )


def _is_there(module: str) -> bool:
    try:
        __import__(module)
    except ImportError:
        return False
    return True


class _Postgres(StoreKind):
    command, name = "postgres", "PostgreSQL"
    server_help = (
        "use a running server, in a schema of its own; without a value, the one named by PGHOST, "
        "PGDATABASE and so on"
    )

    def add_arguments(self, asked: argparse.ArgumentParser) -> None:
        asked.add_argument("--dsn", nargs="?", const="", help=self.server_help)

    def server(self, asked: argparse.Namespace) -> Server:
        if not _is_there("psycopg2"):
            raise CantAuditError(_wanted("psycopg2", "python3-psycopg2"))
        if asked.dsn is not None:
            from ._guest_schema import GuestSchema

            return GuestSchema(asked.dsn)
        if not program("initdb"):
            raise CantAuditError("PostgreSQL is missing: apt-get install postgresql")
        return PostgresServer()

    def maker(self, asked: argparse.Namespace, server: Server, **more: Any) -> MakesStore:
        if asked.dsn is None:
            from ..stores.postgres import prepare

            prepare(server.dsn)
        dsn = server.dsn
        if "lock_wait" in more:
            dsn = f"{dsn} options='-c lock_timeout={more.pop('lock_wait')}'"
        return MakeStore(self.command, dsn, self.levels[asked.level], server.table, **more)

    no_waiting = {"lock_wait": 20}  # milliseconds; 0 would mean no limit

    def version(self, server: Server) -> str:
        import psycopg2

        connection = psycopg2.connect(server.dsn)
        version = connection.server_version
        connection.close()
        driver = psycopg2.__version__.split()[0]
        return f"PostgreSQL {version // 10000}.{version % 10000}, psycopg2 {driver}"


class _MariaDB(StoreKind):
    command, name = "mariadb", "MariaDB"
    server_help = (
        "use a running server, in a table of its own, given as pymysql's arguments: 'host=.. "
        "user=.. password=.. database=..' or 'read_default_file=~/.my.cnf database=..'"
    )
    no_waiting = {"lock_wait": 0}

    def lacking(self) -> str:
        return "" if _is_there("pymysql") else _wanted("pymysql", "python3-pymysql")

    def _server(self, asked: argparse.Namespace) -> Server:
        if asked.dsn is not None:
            return MariaDBGuest(words_of(asked.dsn))
        if not mariadbd():
            raise CantAuditError("MariaDB is missing: apt-get install mariadb-server")
        return MariaDBServer()

    def maker(self, asked: argparse.Namespace, server: Server, **more: Any) -> MakesStore:
        from ..stores.mariadb import prepare

        prepare(server.dsn, server.table)
        return MakeStore(self.command, server.dsn, self.levels[asked.level], server.table, **more)

    def version(self, server: Server) -> str:
        import pymysql

        connection = pymysql.connect(**server.dsn)
        cursor = connection.cursor()
        cursor.execute("SELECT VERSION()")
        (version,) = cursor.fetchone()
        connection.close()
        return f"MariaDB {version.split('-')[0]}, pymysql {pymysql.__version__}"


def words_of(text: str) -> dict[str, Any]:
    """`host=.. port=.. user=..` as arguments of pymysql's `connect`. Raises CantAuditError."""
    words: dict[str, Any] = {}
    for word in text.split():
        name, equals, value = word.partition("=")
        if not equals:
            raise CantAuditError(f"{word} has no =")
        words[name] = int(value) if name == "port" else value
    if "database" not in words:
        raise CantAuditError("database= is missing")
    if "read_default_file" in words:
        words["read_default_file"] = os.path.expanduser(words["read_default_file"])
    return words


class _Redis(StoreKind):
    command, name = "redis", "Redis"
    server_help = (
        "use a running server, under a key prefix of its own, given as redis://host:6379/0 or "
        "unix:///run/redis.sock?db=0"
    )

    def lacking(self) -> str:
        return "" if _is_there("redis") else _wanted("redis", "python3-redis")

    def _server(self, asked: argparse.Namespace) -> Server:
        if asked.dsn is not None:
            return RedisGuest(asked.dsn)
        if not redis_server():
            raise CantAuditError("Redis is missing: apt-get install redis-server")
        return RedisServer()

    def maker(self, asked: argparse.Namespace, server: Server, **more: Any) -> MakesStore:
        return MakeStore(self.command, server.dsn, self.levels[asked.level], server.prefix, **more)

    def version(self, server: Server) -> str:
        import redis

        with redis.Redis.from_url(server.dsn) as client:
            figures: dict[str, Any] = dict(client.info("server"))
        return f"Redis {figures['redis_version']}, redis-py {redis.__version__}"


class _SQLite(StoreKind):
    command, name = "sqlite", "SQLite"
    server_help = "use an existing file, in a table of its own; its journal mode stays"
    no_waiting = {"patience": 0.0}

    def lacking(self) -> str:
        return "" if _is_there("sqlite3") else "this Python has no sqlite3 module"

    def add_arguments(self, asked: argparse.ArgumentParser) -> None:
        super().add_arguments(asked)
        about = "SQLite's journal mode (wal)"
        modes = ("wal", "delete")
        asked.add_argument("--journal-mode", choices=modes, default="wal", help=about)

    def _server(self, asked: argparse.Namespace) -> Server:
        return SQLiteFile(asked.journal_mode) if asked.dsn is None else SQLiteGuest(asked.dsn)

    def maker(self, asked: argparse.Namespace, server: Server, **more: Any) -> MakesStore:
        if asked.level == "uncommitted" and getattr(asked, "processes", False):
            raise CantAuditError("a shared cache works only within one process")
        server.prepare()
        return MakeStore(self.command, server.dsn, self.levels[asked.level], server.table, **more)

    def version(self, server: Server) -> str:
        import sqlite3

        return f"SQLite {sqlite3.sqlite_version}, journal {server.journal}"


class SQLiteFile:
    """A file in a temporary folder."""

    table = "zanteyard"

    def __init__(self, journal: str) -> None:
        self.journal, self.folder = journal, ThrowawayFolder()

    def __enter__(self) -> SQLiteFile:
        self.folder.make()
        self.dsn = f"{self.folder.path}/store"
        return self

    def prepare(self) -> None:
        from ..stores.sqlite import prepare

        prepare(self.dsn, self.journal, self.table)

    def __exit__(self, *_: object) -> None:
        self.folder.remove()


class SQLiteGuest(SQLiteFile):
    """A temporary table in an existing file, dropped at the end."""

    def __init__(self, path: str) -> None:
        import sqlite3

        if not os.path.isfile(path):  # else it would be created
            raise CantAuditError(f"{path} doesn't exist")
        connection = sqlite3.connect(path)
        try:
            (journal,) = connection.execute("PRAGMA journal_mode").fetchone()
        except sqlite3.Error as error:
            raise CantAuditError(f"{path} isn't an SQLite file ({error})") from error
        finally:
            connection.close()
        super().__init__(journal)
        self.dsn, self.table = path, f"zanteyard_{os.urandom(6).hex()}"

    def __enter__(self) -> SQLiteGuest:
        say(f"creates the table {self.table} in {self.dsn}, and drops it at the end")
        return self

    def __exit__(self, *_: object) -> None:
        import sqlite3

        connection = sqlite3.connect(self.dsn, isolation_level=None, timeout=10.0)
        try:
            connection.execute(f"DROP TABLE IF EXISTS {self.table}")
        except sqlite3.Error as error:
            say(f"couldn't clean up ({error}); run: DROP TABLE {self.table}")
        finally:
            connection.close()


POSTGRES = _Postgres()
KINDS: Sequence[StoreKind] = (POSTGRES, _MariaDB(), _Redis(), _SQLite())


def kind_named(command: str) -> StoreKind:
    """The kind with this name on the command line."""
    (named,) = [kind for kind in KINDS if kind.command == command]
    return named


def names() -> list[str]:
    return [kind.command for kind in KINDS]
