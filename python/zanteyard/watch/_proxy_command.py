"""`zanteyard proxy`: a proxy next to another application server. What its applications read and
write is checked by the audit of `zanteyard watch`, to which it reports over a Redis."""

import argparse
import os
import sys

from ..core._visible import say
from ..promises._kinds import SERIALIZABLE
from .proxy._clients import add_clients, mistake_in
from ._command import MISTAKE, add_ending, call_of, control_of
from ._options import URL, add_hold, add_server
from .postgres._patterns import add_tables_option
from ..program._proxy_program import find_proxy
from .proxy._sharing import add_sharing, mistake_of

EXAMPLE = """\
One audit of two application servers, each with its own proxy:

  first$  zanteyard key audit.key     then copy it to the other one
  first$  zanteyard watch postgresql://admin@db.example/shop \\
              --redis rediss://redis.example --audit shop --key audit.key
  second$ zanteyard proxy postgresql://admin@db.example/shop \\
              --redis rediss://redis.example --audit shop --key audit.key

It passes traffic on until SIGTERM or SIGINT, with or without an audit. Then it accepts no more
connections, and ends when no transaction is open any more. With --take-over a new proxy takes the
place of the one that runs: no client is refused.

Exit status: 0 after such a signal, 2 if it can't begin, 4 if it ended by a fault of its own."""


def add_arguments(command: argparse.ArgumentParser) -> None:
    command.epilog = EXAMPLE
    command.formatter_class = argparse.RawDescriptionHelpFormatter
    add_server(command)
    add_clients(command)
    add_hold(command)
    add_sharing(command)
    add_ending(command)
    command.add_argument(
        "--name", metavar="NAME", help="this proxy's name in the audit (the machine's name)"
    )
    add_tables_option(command, "look only at these tables, such as public.*,shop.orders")
    command.add_argument(
        "--redact", action="store_true",
        help="don't send the constants, parameters and comments of statements",
    )
    command.add_argument(
        "--aggregates", action="store_true",
        help="see all aggregates, groups, and what an index may answer alone, also where "
        "an answer may then have its rows in another order (docs/SQL.md)",
    )
    # The audit determines these.
    command.set_defaults(sample=None, promise=SERIALIZABLE.name, rollbacks=False, conditions=True)


def run(asked: argparse.Namespace) -> int:
    """Replaces this process by the proxy's program; returns an exit status only if it can't."""
    if not asked.url:
        return _mistake(f"no server was given: give its URL or set {URL}")
    told = mistake_of(asked, True) or mistake_in(asked)
    if told is not None:
        return _mistake(told)
    program = find_proxy()
    call, environment = call_of(program, asked)
    more = ["--remote"] if asked.name is None else ["--remote", "--name", asked.name]
    control = control_of(asked)
    if control is not None:
        more += ["--control", control.path, *(["--take-over"] if asked.take_over else [])]
    sys.stdout.flush()
    os.execve(program, [*call, *more], environment)


def _mistake(told: str) -> int:
    say(f"mistake: {told}", file=sys.stderr, flush=True)
    return MISTAKE
