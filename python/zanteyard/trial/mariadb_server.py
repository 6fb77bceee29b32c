"""A MariaDB server in a temporary folder; and a temporary table in a server that belongs to
somebody else."""

from __future__ import annotations

import os
import secrets
import shutil
from collections.abc import Callable
from typing import Any

from ..core._visible import say
from ._throwaway_server import ThrowawayServer

DATABASE = "zanteyard"
# Without grant tables, which would have to be created: whoever can open the folder may do
# everything. Committed data survives the server, but nothing waits for the disk.
OPTIONS = (
    *("--skip-networking", "--skip-grant-tables", "--skip-log-bin", "--skip-name-resolve"),
    *("--innodb-flush-method=nosync", "--innodb-flush-log-at-trx-commit=2"),
    *("--innodb-log-file-size=16M", "--innodb-buffer-pool-size=32M"),
    *("--aria-pagecache-buffer-size=8M", "--max-connections=200"),
    "--loose-innodb-snapshot-isolation=OFF",
)


def mariadbd() -> str | None:
    """The path of the server program; None if it isn't installed."""
    usual = "/usr/sbin/mariadbd"
    return shutil.which("mariadbd") or (usual if os.path.exists(usual) else None)


class MariaDBServer(ThrowawayServer):
    """MariaDB doesn't run as root, so root runs it as the user mysql. What it creates at its first
    start is complete on the disk only after a shutdown in good order. So call `restart` before
    killing a server that is to be started again."""

    program, user, table = "mariadbd", "mysql", "zanteyard"

    @property
    def dsn(self) -> dict[str, Any]:
        return {"unix_socket": self.socket, "user": "root", "database": DATABASE}

    def prepare_folder(self) -> None:
        for path in (f"{self.folder}/data", f"{self.folder}/data/mysql"):
            os.mkdir(path)
            self.own(path)
        self.own(self.folder)

    def call(self) -> list[str]:
        as_user = ["--user=mysql"] if os.geteuid() == 0 else []
        data, errors = f"--datadir={self.folder}/data", f"--pid-file={self.folder}/server.pid"
        return [
            *(mariadbd() or "mariadbd", "--no-defaults", *as_user, data, errors),
            *(f"--socket={self.socket}", f"--tmpdir={self.folder}", *OPTIONS),
        ]

    def answers(self) -> bool:
        import pymysql

        try:
            dsn: dict[str, Any] = {**self.dsn, "database": None, "connect_timeout": 5}
            connection = pymysql.connect(**dsn)
        except pymysql.MySQLError:
            return False
        connection.cursor().execute(f"CREATE DATABASE IF NOT EXISTS {DATABASE}")
        connection.close()
        return True


class MariaDBGuest:
    """Has the calls of a MariaDBServer, for a server that is already running. It creates one table
    with a unique name in the database that `dsn` names, and drops it at the end."""

    def __init__(self, dsn: dict[str, Any], tell: Callable[[str], object] = say) -> None:
        self.dsn, self.tell = dsn, tell
        self.table = f"zanteyard_{secrets.token_hex(6)}"

    def __enter__(self) -> MariaDBGuest:
        self.tell(
            f"creates the table {self.table} in {self.dsn.get('database')}, and drops it at the end"
        )
        return self

    def __exit__(self, *_: object) -> None:
        import pymysql

        drop = f"DROP TABLE IF EXISTS {self.table}"
        try:
            connection = pymysql.connect(**self.dsn)
            connection.cursor().execute(drop)
            connection.close()
        except pymysql.MySQLError as error:
            message = f"couldn't clean up; run: {drop}"
            self.tell(f"{message}: {error}".strip())
