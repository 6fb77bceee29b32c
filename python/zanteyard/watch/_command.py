"""`zanteyard watch`: audits any application on PostgreSQL; only its connection string changes.

docs/WATCH.md says how to use it. The exit status says what was found: 0 serial, 1 violated, 2 it
can't begin, 3 pending, 4 something was lost or not decided, or nothing was checked, 5 less was
checked than --at-least.
"""

import argparse
import logging
import os
import sys
from collections.abc import Sequence
from urllib.parse import unquote, urlsplit

from ..core._visible import say, visible
from ..core.errors import ZanteyardError
from ..program._binaries import find_program, origin_of
from ..promises._kinds import ASKED, LIVE, SERIALIZABLE
from . import _prepare
from .proxy._control import ControlError, control_path
from .proxy._clients import add_clients, mistake_in, words_for
from .postgres._database import Database, DatabaseError, DriverMissingError, without_password
from .outcome._ending import STATUS_WORDS
from .postgres._facts import findings, server_of, unneeded
from .violations._groups import KnownFileError, known_in
from .violations._hooks import Hooks
from ._options import FORM, HOLD, URL, add_hold, add_logging, add_server, address, least_of
from ._options import percent, share, web_address, whole_of
from .postgres._patterns import add_tables_option
from ._prepare import host_name
from ..program._proxy_program import find_proxy
from ._run import Plan, Run, stopped_by_signals
from .proxy._sharing import add_sharing, mistake_of, words_of
from .proxy._supervising import CantBeginError, Control

MISTAKE = 2
WEBHOOK = "ZANTEYARD_WEBHOOK"
SEEN = f"other users can see the URL's password in the list of processes: give the URL in {URL}"
logger = logging.getLogger("zanteyard")


def add_arguments(command: argparse.ArgumentParser) -> None:
    command.epilog = STATUS_WORDS
    add_server(command)
    command.add_argument(
        "--page", type=address, metavar="HOST:PORT", help="serve a page with the audit's state"
    )
    command.add_argument(
        "--metrics", type=address, metavar="HOST:PORT", help="serve Prometheus metrics at /metrics"
    )
    command.add_argument(
        "--save", metavar="DIR",
        help="save each violation in this folder, as a page, a text and a script",
    )
    command.add_argument(
        "--journal", metavar="FILE",
        help="a file from which the audit continues if the auditor is killed",
    )
    command.add_argument(
        "--sample", type=share, metavar="SHARE",
        help="audit only this share of the connections, such as 0.1",
    )
    command.add_argument(
        "--rollbacks", action="store_true",
        help="below serializable, also check transactions that only read, and that their clients "
        "rolled back though no statement had failed",
    )
    command.add_argument(
        "--aggregates", action="store_true",
        help="see all aggregates, groups, and what an index may answer alone, also where "
        "an answer may then have its rows in another order (docs/SQL.md)",
    )
    command.add_argument(
        "--conditions", action=argparse.BooleanOptionalAction, default=True,
        help="whether to check what conditions passed over, too (phantoms; docs/SQL.md)",
    )
    add_clients(command)
    add_hold(command)
    add_sharing(command)
    add_tables_option(command, "audit only these tables, such as public.*,shop.orders")
    command.add_argument(
        "--promise", choices=[*LIVE], default=SERIALIZABLE.name,
        help="the isolation level that the application relies on (serializable; docs/PROMISES.md)",
    )
    command.add_argument(
        "--redact", action="store_true",
        help="hide constants, parameters and comments of statements, and rows' keys"
    )
    add_ending(command)
    command.add_argument(
        "--json", action="store_true",
        help="print a line of JSON for each violation, and for the outcome (docs/FORMATS.md)",
    )
    add_telling(command)
    command.add_argument(
        "--at-least", type=percent, metavar="PERCENT", default=0.0,
        help="end with status 5 if less than this share was checked in full of the transactions, "
        "the SELECTs or the written rows",
    )
    command.add_argument(
        "--seconds", type=least_of(0.0), metavar="S",
        help="end after this many seconds (without it: at a signal)",
    )
    command.add_argument(
        "--round-seconds", type=least_of(0.0), default=60.0, metavar="S",
        help="seconds that the search of a round may take before the round is skipped (60)",
    )
    add_logging(command, "log each round")


def add_ending(command: argparse.ArgumentParser) -> None:
    """Adds the options of how a proxy limits connections, ends and is replaced."""
    command.add_argument(
        "--drain", type=least_of(0.0), default=30.0, metavar="S",
        help="seconds for which open transactions may go on when the proxy ends (30)",
    )
    command.add_argument(
        "--most-connections", type=whole_of(0), default=0, metavar="N",
        help="refuse clients beyond this many (0: as many as the server takes)",
    )
    command.add_argument(
        "--take-over", action="store_true",
        help="replace the proxy that serves this address, though another program audits through "
        "it; no client is refused",
    )


def add_telling(command: argparse.ArgumentParser) -> None:
    """Adds the options of what happens at a violation."""
    command.add_argument(
        "--ignore", metavar="FILE",
        help="set known violations aside: a file with the name of a shape, as the outcome shows "
        "it, in each line; they are counted",
    )
    command.add_argument(
        "--on-violation", metavar="COMMAND",
        help="run this by the shell at the first violation of each shape, with the violation as a "
        "line of JSON on standard input",
    )
    command.add_argument(
        "--webhook", metavar="URL", type=web_address,
        help=f"post that line to this address (or the environment's {WEBHOOK})",
    )
    command.add_argument(
        "--until-violation", action="store_true",
        help="end after the first violation that isn't set aside",
    )


def run(asked: argparse.Namespace) -> int:
    """Runs the command, and returns its exit status."""
    logging.basicConfig(level=asked.log, format=FORM, stream=sys.stderr)
    if not asked.url:
        return _mistake(f"no server was given: give its URL or set {URL}")
    told = mistake_of(asked) or mistake_in(asked)
    if told is not None:
        return _mistake(told)
    try:
        known = known_in(asked.ignore) if asked.ignore is not None else frozenset()
    except KnownFileError as error:
        return _mistake(str(error))
    program, proxy = find_program(), find_proxy()
    lacks = prepared(asked.url)
    if lacks:
        return _mistake("\n".join(lacks))
    call, environment = call_of(proxy, asked)
    title = f"{visible(without_password(asked.url))}, through {asked.listen}"
    control = control_of(asked)
    plan = Plan(
        call, program, title, origin_of(program).sentence(), environment,
        page=asked.page, metrics=asked.metrics, journal=asked.journal, save=asked.save,
        round_seconds=asked.round_seconds, for_seconds=asked.seconds, redacts=asked.redact,
        promise=ASKED[asked.promise], listen=asked.listen, control=control,
        is_json=asked.json, at_least=asked.at_least, known=known,
        hooks=Hooks(asked.on_violation, asked.webhook), ends_at_violation=asked.until_violation,
    )
    watch = Run(plan, tell)
    with stopped_by_signals(watch):
        try:
            return watch.run()
        except CantBeginError as error:
            return _mistake(str(error))


def control_of(asked: argparse.Namespace) -> Control | None:
    """How the proxy is reached. None, with a warning, if there is no safe place for a socket."""
    try:
        return Control(control_path(asked.listen), asked.drain, asked.take_over)
    except ControlError as error:
        logger.warning("%s; so no later run can take this proxy over", error)
        return None


def tell(line: str) -> None:
    say(line, flush=True)


def _mistake(told: str) -> int:
    for line in f"mistake: {told}".split("\n"):
        say(line, file=sys.stderr, flush=True)
    return MISTAKE


def prepared(url: str) -> list[str]:
    """What this server lacks for an audit. Empty if nothing is missing, or if no driver is
    installed to ask the server."""
    try:
        with Database(url) as database:
            server = server_of(database, host_name(url))
            found = findings(database, server)
    except DriverMissingError as error:
        logger.info("the server wasn't checked first: %s", error)
        return []
    except DatabaseError as error:
        return [f"can't query the server: {visible(str(error))}"]
    lacks = [one for one in found if one.is_needed and not one.is_right]
    if not lacks:
        if told := unneeded(server):
            logger.info("%s: zanteyard prepare shows the least role", visible(told))
        return []
    told = "the server isn't ready; `zanteyard prepare URL` shows everything that is missing"
    each = (": ".join(filter(None, (one.sentence, one.remedy))) for one in lacks)
    return [told, *(f"  {visible(line)}" for line in each)]


def call_of(proxy: str, asked: argparse.Namespace) -> tuple[Sequence[str], dict[str, str]]:
    """The proxy's program with its arguments, and its environment. The password is in the
    environment, since a list of processes would show arguments."""
    url, environment = asked.url, dict(os.environ)
    try:
        password = urlsplit(url).password
    except ValueError:
        password = None
    if url in sys.argv and (password is not None or "password=" in url):
        logger.warning(SEEN)
    if password is not None:
        url, environment["PGPASSWORD"] = without_password(url), unquote(password)
    call = [proxy, "--server", url, "--listen", asked.listen]
    if "password" in url:  # as a parameter, or that of a key: the proxy finds it in the environment
        call, environment[URL] = [proxy, "--listen", asked.listen], url
    call.append(f"--parameters={'false' if asked.redact else 'true'}")
    if asked.redact:
        call.append("--redact")
    call.append(f"--drain={asked.drain:g}s")
    if asked.most_connections:
        call.append(f"--most-connections={asked.most_connections}")
    if asked.promise != SERIALIZABLE.name:
        call.append(f"--promise={asked.promise}")
    if asked.rollbacks:
        call.append("--rollbacks")
    if asked.aggregates:
        call.append("--aggregates")
    if not asked.conditions:
        call.append("--conditions=false")
    if asked.sample is not None:
        call.append(f"--sample={asked.sample:g}")
    if asked.tables is not None:
        call.append(f"--tables={asked.tables.text}")
    if asked.hold != HOLD:
        call.append(f"--hold={asked.hold:g}ms")
    call += [*words_for(asked), *words_of(asked, environment)]
    return call, environment


__all__ = ["ZanteyardError", "add_arguments", "run"]
