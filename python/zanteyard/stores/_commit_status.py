"""Finds out from another process whether a commit that got no answer took place.

A store that supports this has two methods, whose results are plain values. `asks()` gives the kind
of the store and the arguments that the `asked(..)` function of that kind needs. `ticket(written)`
gives what identifies the current transaction; `written` is a key and a name, `(key, *name)`, that
it has written or is about to write. `writes_at_once` says that its writes don't wait for the
commit.
"""

import importlib
import logging
from collections.abc import Sequence
from typing import Any

from ..core._records import Name

# The outcome, and the name that a single-statement `exchange` overwrote: a tuple of one name, or an
# empty one if there was none, or None if that is unknown.
CommitStatus = tuple[str, Sequence[Name] | None]
UNKNOWN: CommitStatus = ("unknown", None)
logger = logging.getLogger("zanteyard")


PACKAGE = __name__.split(".")[0]
MODULES = {  # where each kind of store looks up an outcome
    "postgres": f"{PACKAGE}.stores._postgres_outcomes",
    **{kind: f"{PACKAGE}.stores.{kind}" for kind in ("mariadb", "redis", "sqlite")},
}


def find_out(asks: Any, ticket: Any, seconds: float) -> CommitStatus:
    """Returns UNKNOWN instead of raising."""
    if asks is None or ticket is None:
        return UNKNOWN
    kind, *how = asks
    try:
        module = importlib.import_module(MODULES[kind])
        status: CommitStatus = module.asked(*how, ticket=ticket, seconds=seconds)
        return status
    except Exception as error:
        logger.warning("can't find out whether a transaction was committed: %s", error)
        return UNKNOWN


def kept(overwritten: Name | None) -> str:
    """The name that an `exchange` of the collector overwrites, as the value that it writes. If the
    answer is lost, the name isn't."""
    return f"{overwritten[1]} {overwritten[2]} {overwritten[0]}" if overwritten else ""


def overwritten(value: str | None) -> Sequence[Name]:
    if not value:
        return ()
    session, number, run = value.split(" ", 2)
    return ((run, int(session), int(number)),)
