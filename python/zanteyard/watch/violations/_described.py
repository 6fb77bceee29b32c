"""What the proxy knows about a transaction, for readers of an explanation."""

import time
from collections.abc import Iterator, Sequence
from dataclasses import dataclass
from typing import Any

from ...core._records import AuditId, Source
from ...core._visible import visible
from ._origins import without_tags

VALUE, VALUES = 80, 300  # characters of one parameter, and of all parameters of a statement


@dataclass(frozen=True)
class Statement:
    """One statement as the application sent it. `parameters` are None if the policy withholds them.
    `at` is in seconds since 1970. `unseen` says what the audit couldn't see of it. `reads` are
    those that it is known to have made: the auditor's numbers of keys, and their writers."""

    text: str
    parameters: tuple[str | None, ...] | None = None
    at: float = 0.0
    unseen: tuple[str, ...] = ()
    place: str = ""  # the file and line, if the sender provides them
    reads: tuple[tuple[int, Source], ...] = ()
    more_parameters: int = 0  # beyond those in `parameters`

    @property
    def plain(self) -> str:
        """The text without comments that say where it came from."""
        return without_tags(self.text)[0]

    @property
    def origin(self) -> str:
        """The file and line that it came from, or what else its comment says; else empty."""
        return self.place or without_tags(self.text)[1]

    @property
    def values(self) -> str:
        """The parameters on one line, each with its number; empty if there are none to show."""
        its = self.parameters or ()
        told = ", ".join(f"${at} = {_value(value)}" for at, value in enumerate(its, 1))
        told = told if len(told) <= VALUES else told[:VALUES] + " .."
        return told + (f" and {self.more_parameters:,} more" if self.more_parameters else "")


def _value(value: str | None) -> str:
    return "NULL" if value is None else f"'{visible(value, VALUE)}'"


ROLLED_BACK = "rolled back by the client"  # an outcome: with --rollbacks it is checked


@dataclass(frozen=True)
class Described:
    """One transaction. Unknown texts are empty, and unknown times are 0."""

    id: AuditId
    application: str = ""  # the connection's application_name
    address: str = ""  # of the client
    user: str = ""
    connection: int = 0
    level: str = ""
    outcome: str = ""
    began: float = 0.0  # seconds since 1970
    ended: float = 0.0
    is_fence: bool = False
    statements: tuple[Statement, ...] = ()
    statements_dropped: int = 0  # how many statements' texts weren't kept
    xid: int = 0  # its transaction number on the server, 0 if it has none
    proxy: str = ""  # the other machine's, if it came through one

    @property
    def client(self) -> str:
        """A short description of its client."""
        if self.is_fence:
            return "a fence, which no client ran"
        its = [visible(self.application, 80)] if self.application else []
        its += [f"from {visible(self.address, 80)}"] if self.address else []
        its += [f"as {visible(self.user, 80)}"] if self.user else []
        its += [f"through the proxy {visible(self.proxy, 80)}"] if self.proxy else []
        return " ".join(its)


def clock(at: float, has_parts: bool = True) -> str:
    """The local time of day, to the millisecond; empty for 0."""
    if not at:
        return ""
    whole, parts = divmod(int(at * 1000), 1000)
    told = time.strftime("%H:%M:%S", time.localtime(whole))
    return f"{told}.{parts:03}" if has_parts else told


def lines_of(
    label: str, its: Described | None, reads: Sequence[Sequence[str]] = ()
) -> Iterator[str]:
    """What it is and what it ran, as lines of text; `reads` go below their statements."""
    if its is None:
        yield f"{label}: no details are known"
        return
    began = f"began at {clock(its.began)}" if its.began else ""
    undone = its.outcome if its.outcome == ROLLED_BACK else ""
    facts = [its.client, visible(its.level, 80), undone, began]
    yield f"{label}: " + ", ".join(fact for fact in facts if fact)
    for one, read in zip(its.statements, (*reads, *((),) * len(its.statements))):
        more = "".join(f"  [{it}]" for it in (one.values, visible(one.origin)) if it)
        yield f"    {clock(one.at)} {visible(one.plain, 300)}{more}".rstrip()
        yield from (f"        {visible(line, 300)}" for line in read)
        if one.unseen:
            yield f"        not seen: {visible('; '.join(one.unseen), 200)}"


def by_time(ids: Sequence[AuditId], known: Any) -> Sequence[AuditId]:
    """The transactions by the time at which they began; those with unknown times last."""

    def place(one: AuditId) -> tuple[float, AuditId]:
        its = known.get(one)
        return (its.began if its is not None and its.began else float("inf"), one)

    return sorted(ids, key=place)
