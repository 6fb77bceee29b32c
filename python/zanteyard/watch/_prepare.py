"""`zanteyard prepare`: lists everything that a server and its tables lack for an audit, and how to
fix each. The exit status is 0 if an audit can begin, 1 if something is missing, and 2 if the call
is wrong or the server can't be queried."""

import argparse
from collections.abc import Iterator, Sequence
from typing import Any, NoReturn
from urllib.parse import parse_qs, urlsplit

from ..core._visible import say, visible
from ..explain._json import say_json
from .postgres._database import Database, DatabaseError, without_password
from .postgres._facts import Finding, Server, findings, least_role, server_of, unneeded
from .postgres._hosts import DOCKER_NOTE, OWN
from .outcome._json import prepared_json
from .postgres._patterns import add_tables_option
from .postgres._schema import Table, asked_of, summary, tables_of
from ..core._numbers import counted

READY, MISSING = 0, 1
STATUS_WORDS = (
    "Exit status: 0 if an audit can begin, 1 if something is missing, 2 if the call is wrong or "
    "the server can't be queried."
)
NOT_SHOWN = "not seen; its reads and writes are left out and counted"


class _Refused(argparse.Action):
    """An option of version 0.1.0."""

    def __call__(self, parser: argparse.ArgumentParser, *_: Any) -> NoReturn:
        parser.error("--create isn't needed any more: an audit creates no table")


def add_arguments(command: argparse.ArgumentParser) -> None:
    command.epilog = STATUS_WORDS
    command.add_argument(
        "url", metavar="URL", nargs="?",
        help="the server, given as postgresql://user@server/database (or the environment's "
        "ZANTEYARD_URL)",
    )
    command.add_argument("--create", nargs=0, action=_Refused, help=argparse.SUPPRESS)
    command.add_argument(
        "--json", action="store_true",
        help="print one line of JSON instead of text (docs/FORMATS.md)",
    )
    add_tables_option(command, "show only these tables, such as public.*,shop.orders")


def run(asked: argparse.Namespace) -> int:
    if not asked.url:
        raise DatabaseError("no server was given: give its URL or set ZANTEYARD_URL")
    with Database(asked.url) as database:
        server = server_of(database, host_name(asked.url))
        found = findings(database, server)
        idle: Sequence[str] = ()
        tables = tables_of(database)
        if asked.tables is not None:
            tables, idle = asked_of(tables, asked.tables)
        if asked.json:
            say_json(prepared_json(server, found, tables, is_ready(found)))
            return READY if is_ready(found) else MISSING
        say(heading(server, asked.url))
        for line in report(server, found, tables, idle):
            say(line)
    return READY if is_ready(found) else MISSING


def host_name(url: str) -> str:
    """The server's name, if the URL has it."""
    try:
        parts = urlsplit(url)
        named = parse_qs(parts.query).get("host")
        return named[0] if named else parts.hostname or ""
    except ValueError:
        return ""


def is_ready(found: Sequence[Finding]) -> bool:
    return all(one.is_right or not one.is_needed for one in found)


def heading(server: Server, url: str) -> str:
    at = f" ({server.host.name})" if server.host.name else ""
    return (
        f"{visible(without_password(url))}{at}: database {visible(server.database)}, "
        f"role {visible(server.user)}"
    )


def report(
    server: Server, found: Sequence[Finding], tables: Sequence[Table], idle: Sequence[str] = ()
) -> Iterator[str]:
    """The lines of the report. `idle` are patterns that match no table."""
    yield "the server"
    for one in found:
        mark = "ok  " if one.is_right else "MISSING" if one.is_needed else "note"
        yield f"  {mark:<8}{visible(one.sentence)}"
        if one.remedy and not one.is_right:
            yield f"  {'':<8}  {visible(one.remedy)}"
            if server.host is OWN and one.sentence.startswith("wal_level"):
                yield f"  {'':<8}  {DOCKER_NOTE}"
    yield from _role(server)
    yield from _tables(tables)
    for pattern in idle:
        yield f"  no table matches {visible(pattern)} of --tables"
    missing = [one for one in found if one.is_needed and not one.is_right]
    if missing:
        yield f"{counted(len(missing), 'thing is', 'things are')} missing: an audit can't begin"
    else:
        yield "ready: an audit can begin"


def _role(server: Server) -> Iterator[str]:
    told = unneeded(server)
    enough = f"the role: {visible(told)}; this one is enough"
    yield enough if told else "the least role for an audit"
    for line in least_role(server):
        yield f"  {visible(line)}"


def _tables(tables: Sequence[Table]) -> Iterator[str]:
    seen, count, others = summary(tables)
    yield f"the tables: {seen} of {counted(count, 'table')} can be audited"
    for table in others:
        yield f"  {visible(table.name)}: {visible(table.reason)}"
        if table.remedy:
            yield f"    {visible(table.remedy)}"
    if others:
        yield "  their reads and writes are left out and counted"


def missing_of(url: str) -> list[Finding]:
    """What this server lacks that an audit can't begin without. Raises DatabaseError."""
    with Database(url) as database:
        server = server_of(database, host_name(url))
        return [one for one in findings(database, server) if one.is_needed and not one.is_right]


__all__ = ["DatabaseError", "add_arguments", "missing_of", "run"]
