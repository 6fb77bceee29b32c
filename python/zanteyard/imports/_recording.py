"""What clients did according to another tool's file: by value, before it is known which transaction
each read came from."""

import json
from collections.abc import Callable
from dataclasses import dataclass, field
from operator import attrgetter
from typing import NamedTuple

from ..core.errors import ImportRefusedError
from ._edn import Keyword

COMMITTED, ABORTED, UNKNOWN = "committed", "aborted", "unknown"
READ, WRITE, APPEND, READ_LIST = "read", "write", "append", "read-list"
READS = (READ, READ_LIST)
NEVER = 1 << 62  # the place of an end that isn't in the file

BETWEEN = "\n"  # the elements of a list; in none of them

Value = str | None


class Access(NamedTuple):
    """One read or write, in the client's order. `value` is a text that distinguishes values; None
    if a read found the initial state; for a list, the texts of its elements with BETWEEN."""

    kind: str  # READ, WRITE, APPEND or READ_LIST
    key: str
    value: Value
    text: str = ""  # as in the file, unless the recording's `shown` makes it


class Attempt(NamedTuple):
    """A transaction that a client began. `began` and `ended` are places in the file, which say what
    ended before what began; both are 0 if the file doesn't say. The reads of an attempt that didn't
    commit for certain aren't in `accesses`."""

    name: str
    client: str
    outcome: str  # COMMITTED, ABORTED or UNKNOWN
    accesses: tuple[Access, ...]
    line: int
    where: str = ""  # the rest of its name in the file
    began: int = 0
    ended: int = 0
    began_at: int | None = None  # by the file's clock, in nanoseconds
    ended_at: int | None = None


@dataclass(frozen=True)
class Recording:
    """The contents of a file. Each client's attempts are in the order in which it began them.
    `unused` counts the reads of attempts that didn't commit for certain."""

    form: str
    attempts: tuple[Attempt, ...]
    has_times: bool = False
    unused: int = 0
    left_out: tuple[tuple[str, int], ...] = ()  # functions that were skipped, each with a count
    time_goes_back: int = 0  # the line at which it does; 0 if it never does
    # An access as in the file.
    shown: Callable[[Access], str] = field(default=attrgetter("text"), compare=False)


def counted(count: int, what: str) -> str:
    """A count with its noun, such as "1 read" or "2 reads"."""
    return f"{count:,} {what}{'' if count == 1 else 's'}"


def token(value: object, line: int, what: str) -> str:
    """A text that distinguishes a key or value from others. Raises ImportRefusedError if a text
    can't do that."""
    if isinstance(value, Keyword):
        return f":{value.name}"
    if isinstance(value, str):
        return json.dumps(value, ensure_ascii=False)
    if isinstance(value, int) and not isinstance(value, bool):
        return str(value)
    raise ImportRefusedError(line, f"{what} must be a whole number, a string or a keyword")


def optional_token(value: object, line: int, what: str) -> str | None:
    """The same; None for None."""
    return None if value is None else token(value, line, what)
