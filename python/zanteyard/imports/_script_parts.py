"""The parts of a recording's script: items in sessions, fences, lines, and names."""

import functools
from collections.abc import Callable, Iterator, Sequence
from dataclasses import dataclass, field

from ..core._records import AuditId
from ..scripts._names import NamedTransaction, ScriptNames
from ..scripts._times import ScriptTimes
from ._recording import ABORTED, APPEND, UNKNOWN, WRITE, Access, Attempt, counted
from ._sources import DRAFT, Stub

LONGEST = 256  # transactions of a line, and reads or writes of a transaction
BEFORE = (-1, -1)  # the source of reads of the initial state, which come before a key's other ones


@dataclass(frozen=True)
class Fence:
    """A fence of a session at a pause: its first one there, or its second."""

    pause: int  # from 1
    session: int
    is_first: bool

    def name(self) -> str:
        """Its name in reports."""
        return f"{'before' if self.is_first else 'after'} pause {self.pause} in {self.session}"


Item = int | Stub | Fence  # an attempt's place, a stub, or a fence


@dataclass(frozen=True)
class Imported:
    """A script, its names, and sentences about what was done."""

    lines: tuple[str, ...]
    names: ScriptNames
    about: tuple[str, ...]
    make_times: Callable[[], ScriptTimes | None] = field(default=lambda: None, compare=False)

    @functools.cached_property
    def times(self) -> ScriptTimes | None:
        """The transactions' times; None if the file doesn't say when they ran."""
        return self.make_times()


@dataclass
class Plan:
    """What is offered: the items of each session, in order."""

    sessions: list[list[Item]] = field(default_factory=list)
    shared: int = 0  # clients that go on in another one's session
    by_time: set[int] = field(default_factory=set)  # sessions that are shared by time
    fences: list[list[Fence]] = field(default_factory=list)  # of each pause, in order

    def places(self) -> dict[Item, AuditId]:
        """The session and number of each item."""
        return {
            item: AuditId((session, number))
            for session, items in enumerate(self.sessions)
            for number, item in enumerate(items)
        }


def in_text(reads: Sequence[tuple[int, int, int]]) -> str:
    """Keys and their sources, as in a line: BEFORE for the initial state."""
    return ",".join([
        f"[{key},{session},{number}]" if number >= 0 else f'[{key},"init"]'
        for key, session, number in reads
    ])


def all_before(before: dict[Item, list[Item]], end: Item) -> set[Item]:
    """Everything from which a path leads to `end`, including `end`."""
    seen: set[Item] = {end}
    waiting = [end]
    while waiting:
        for item in before.get(waiting.pop(), ()):
            if item not in seen:
                seen.add(item)
                waiting.append(item)
    return seen


def offers(session: int, first: int, transactions: Sequence[str]) -> Iterator[str]:
    """The lines that offer a session's transactions from this number on."""
    for start in range(first, len(transactions), LONGEST):
        yield f'["offer",{session},{start},[{",".join(transactions[start : start + LONGEST])}]]'


def keys_of(attempt: Attempt) -> list[str]:
    """The keys that it wrote."""
    return [key for kind, key, _, _ in attempt.accesses if kind == APPEND or kind == WRITE]


def written_by(attempt: Attempt, shown: Callable[[Access], str]) -> dict[str, str]:
    """For each key that it wrote, the file's text of the writes."""
    texts_of: dict[str, list[str]] = {}
    for access in attempt.accesses:
        if access.kind in (WRITE, APPEND):
            texts_of.setdefault(access.key, []).append(shown(access))
    return {key: " ".join(texts) for key, texts in texts_of.items()}


def named_stub(stub: Stub, attempts: tuple[Attempt, ...]) -> NamedTransaction:
    owner = attempts[stub.owner]
    if stub.kind == ABORTED:
        return NamedTransaction(owner.name, ABORTED, (), owner.where)
    if stub.kind == DRAFT:
        return NamedTransaction(f"a part of {owner.name}", "unfinished", (), owner.where)
    return NamedTransaction("an impossible state", "impossible")


ASKS_TIME = "the script asks about strict serializability"


def about_size(transactions: int, sessions: int) -> str:
    """How large the script is."""
    return f"{counted(transactions, 'transaction')} in {counted(sessions, 'session')}"


def about_undone(outcome: str, count: int, taken: int) -> str:
    """What was done with this many attempts that are ABORTED or UNKNOWN, of which so many are in
    the script."""
    left = count - taken
    them = "it" if (left or count) == 1 else "them"
    words = f"left out, because nobody read from {them}"
    if not left:
        words = f"in the script, because somebody read from {them}"
    elif taken:
        words = f"{left} {words}"
    about = {ABORTED: "failed", UNKNOWN: "with unknown outcome"}[outcome]
    return f"{counted(count, 'attempt')} {about}: {words}"


def about_unused(reads: int) -> str:
    """What was done with the reads of such attempts."""
    return (
        f"{counted(reads, 'read')} not used, of attempts that failed or have an unknown outcome"
    )
