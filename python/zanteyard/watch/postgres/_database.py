"""A connection to PostgreSQL with whichever driver is installed: psycopg2 or psycopg 3."""

from collections.abc import Mapping, Sequence
from importlib import import_module
from typing import Any
from urllib.parse import urlsplit, urlunsplit

from ...core.errors import ZanteyardError
from ._address import refused

CONNECTING = 10  # seconds for a server to accept a connection
ANSWERING = 20  # seconds for it to answer a statement
PATH = "-c search_path=pg_catalog"  # the last one counts
POOLER = (  # the proxy says the same (its package own)
    ": the URL leads to a pooler such as pgbouncer, not to the server itself: the proxy has to "
    "stand between the pooler and the server (application, pooler, proxy, server)"
)


class DriverMissingError(ZanteyardError):
    """Neither psycopg2 nor psycopg 3 is installed."""


class DatabaseError(ZanteyardError):
    """The server can't be reached, or refused a statement. `code` is the error's SQLSTATE, empty if
    there is none."""

    def __init__(self, text: str, code: str = "") -> None:
        super().__init__(text)
        self.code = code


class Database:
    """One connection, in autocommit mode, for one thread. It begins with pg_catalog alone as its
    search path, so that no name in a statement can mean what an application's role has made: others
    have to be qualified. `more` are libpq's parameters. Raises DatabaseError."""

    def __init__(self, url: str, **more: Any) -> None:
        self._driver = _driver()
        its = self._parsed(url)
        # With several, the one that is checked and the one that is used might differ.
        if max(str(its.get(name, "")).count(",") + 1 for name in ("host", "hostaddr")) > 1:
            raise DatabaseError("the URL names several servers: an audit has exactly one")
        if reason := refused(its):
            raise DatabaseError(reason)
        limits: dict[str, Any] = {"connect_timeout": CONNECTING, "application_name": "zanteyard"}
        limits["options"] = f"{its.get('options', '')} {PATH}".strip()
        try:
            self._connection = self._driver.connect(url, **{**limits, **more})
            self._connection.autocommit = True
        except self._driver.Error as error:
            raise _told(error) from None
        if reason := refused(self._used()):
            self.close()
            raise DatabaseError(reason)

    def _used(self) -> Mapping[str, Any]:
        """All parameters that the connection has, also those of the environment and a service."""
        info = self._connection.info
        its: Mapping[str, Any]
        if self._driver.__name__ == "psycopg2":
            its = info.dsn_parameters
        else:
            its = info.get_parameters()
        return its

    def _parsed(self, url: str) -> Mapping[str, Any]:
        """The URL's parameters."""
        parse: Any
        try:
            if self._driver.__name__ == "psycopg2":
                parse = import_module("psycopg2.extensions").parse_dsn
            else:
                parse = import_module("psycopg.conninfo").conninfo_to_dict
            found: Mapping[str, Any] = parse(url)
        except self._driver.Error as error:
            raise _told(error) from None
        return found

    def run(self, text: str, values: Sequence[object] = ()) -> list[Sequence[Any]]:
        """The rows that the statement returns; an empty list if it returns none."""
        try:
            with self._connection.cursor() as cursor:
                cursor.execute(text, values or None)
                return list(cursor.fetchall()) if cursor.description is not None else []
        except self._driver.Error as error:
            raise _told(error) from None

    def one(self, text: str, values: Sequence[object] = ()) -> Any:
        """The first value of the first row; None if there is none."""
        rows = self.run(text, values)
        return rows[0][0] if rows else None

    def close(self) -> None:
        try:
            self._connection.close()
        except self._driver.Error:
            pass

    def __enter__(self) -> "Database":
        return self

    def __exit__(self, *_: object) -> None:
        self.close()


def _driver() -> Any:
    try:
        import psycopg2

        return psycopg2
    except ImportError:
        pass
    try:
        import psycopg

        return psycopg
    except ImportError:
        raise DriverMissingError(
            "no driver for PostgreSQL: install psycopg2 (Debian: python3-psycopg2) or psycopg 3"
        ) from None


def _told(error: Any) -> DatabaseError:
    code = getattr(error, "pgcode", None) or getattr(error, "sqlstate", None) or ""
    lines = str(error).strip().splitlines()
    text = lines[0] if lines else type(error).__name__
    if "unsupported startup parameter" in str(error):
        text += POOLER
    return DatabaseError(text, code)


def without_password(url: str) -> str:
    """The URL in a form that may be shown."""
    try:
        parts = urlsplit(url)
        if parts.scheme and parts.password is not None:
            place = parts.netloc.rpartition("@")[2]
            user = parts.username or ""
            return urlunsplit(parts._replace(netloc=f"{user}@{place}" if user else place))
    except ValueError:
        pass
    if "password" in url:
        return "the server given"
    return url
