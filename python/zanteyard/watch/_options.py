"""Options that several commands have, and the forms of their values."""

import argparse
import logging
from collections.abc import Callable

from .violations._hooks import is_web
from .pages._web import host_and_port

LISTEN = "127.0.0.1:6432"
HOLD = 3.0  # milliseconds, as the proxy's program has it
FORM = "%(asctime)s %(levelname)s %(message)s"
URL = "ZANTEYARD_URL"  # the environment variable for it, so that no list of processes shows it


def add_server(command: argparse.ArgumentParser) -> None:
    """Adds the server's URL and the address for applications."""
    command.add_argument(
        "url", metavar="URL", nargs="?",
        help=f"the server, given as postgresql://user@server/database (or the environment's {URL})",
    )
    command.add_argument(
        "--listen", type=place, metavar="HOST:PORT", default=LISTEN,
        help=f"the address for applications to connect to ({LISTEN}); with a / it is a Unix "
        "socket's path",
    )


def add_hold(command: argparse.ArgumentParser) -> None:
    command.add_argument(
        "--hold", type=least_of(0.0), default=HOLD, metavar="MS",
        help="the longest time, in milliseconds, for which the proxy holds what applications "
        f"begin, or waits for the trial of a statement ({HOLD:g}; several machines: seven times)",
    )


def add_logging(command: argparse.ArgumentParser, verbose: str) -> None:
    """Adds the options of what is logged. `verbose` says what -v adds."""
    command.add_argument(
        "--log", type=level, metavar="LEVEL", default="INFO",
        help="the log level: DEBUG, INFO, WARNING or ERROR (INFO)",
    )
    command.add_argument(
        "-q", "--quiet", action="store_const", const=logging.WARNING, dest="log",
        help="log only warnings and errors",
    )
    command.add_argument(
        "-v", "--verbose", action="store_const", const=logging.DEBUG, dest="log",
        help=verbose,
    )


def web_address(text: str) -> str:
    if not is_web(text):
        raise argparse.ArgumentTypeError("give a URL that begins with http:// or https://")
    return text


def least_of(least: float) -> Callable[[str], float]:
    def number(text: str) -> float:
        try:
            found = float(text)
        except ValueError:
            found = least - 1
        if not least <= found < float("inf"):
            told = f"{text!r} isn't possible: give a number of at least {least:g}, such as 30"
            raise argparse.ArgumentTypeError(told)
        return found

    return number


def whole_of(least: int) -> Callable[[str], int]:
    def number(text: str) -> int:
        found = int(text) if text.isascii() and text.isdecimal() else least - 1
        if found < least:
            told = f"{text!r} isn't possible: give a whole number of at least {least}, such as 10"
            raise argparse.ArgumentTypeError(told)
        return found

    return number


def address(text: str) -> str:
    try:
        host_and_port(text)
    except ValueError as error:
        raise argparse.ArgumentTypeError(str(error)) from error
    return text


def place(text: str) -> str:
    return text if "/" in text else address(text)


def share(text: str) -> float:
    try:
        found = float(text)
    except ValueError:
        found = 0.0
    if not 0 < found <= 1:
        told = f"{text!r} isn't a share: give a number above 0 and at most 1, such as 0.1"
        raise argparse.ArgumentTypeError(told)
    return found


def percent(text: str) -> float:
    try:
        found = float(text.removesuffix("%"))
    except ValueError:
        found = -1.0
    if not 0 <= found <= 100:
        raise argparse.ArgumentTypeError(f"{text!r} isn't possible: give a number from 0 to 100")
    return found


def level(text: str) -> int:
    found = logging.getLevelName(text.upper())
    if not isinstance(found, int):
        told = f"there is no log level {text!r}: give DEBUG, INFO, WARNING or ERROR"
        raise argparse.ArgumentTypeError(told)
    return found
