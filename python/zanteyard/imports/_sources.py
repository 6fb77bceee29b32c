"""Finds the transaction from which each read came, by looking its value up among those that were
written.

The resulting history is explained by exactly the orders that explain the recording's own values;
docs/HISTORIES.md argues why, case by case. If a value doesn't identify its writer, the file is
refused.
"""

from collections.abc import Callable, Container
from dataclasses import dataclass
from functools import partial
from typing import NamedTuple, cast

from ..core.errors import ImportRefusedError
from ._recording import ABORTED, APPEND, BETWEEN, COMMITTED, READ, READ_LIST, WRITE
from ._recording import Access, Recording

ELSEWHERE = "elsewhere"
DRAFT = "draft"


@dataclass(frozen=True)
class Stub:
    """A source that no committed transaction may read from: an attempt that was aborted (ABORTED),
    an owner's write that it overwrote itself (DRAFT), or no writer at all, because the owner's own
    writes exclude the value (ELSEWHERE). The owner is an attempt's place in the recording."""

    owner: int
    kind: str  # ABORTED, DRAFT or ELSEWHERE


@dataclass(frozen=True)
class Absent:
    """The writer of a value that nobody in the file has written."""

    key: str
    value: str


class Shown(NamedTuple):
    """A read that another attempt's list shows: these elements were appended to what it read."""

    elements: str
    reader: int


# As the class itself, in a third of the time.
shown_of = cast(Callable[[tuple[str, int]], Shown], partial(tuple.__new__, Shown))
Origin = int | Stub | Absent | None  # None for the initial state, else an attempt's place
# What an attempt read, by key and source, each read with what shows it.
Reads = dict[tuple[str, Origin], Access | Shown]


class Chain:
    """The longest list of a key so far in which the writer of each element is known, in whole
    groups. What was recorded for it needn't be recorded again for a list that begins alike."""

    def __init__(self) -> None:
        self.elements = ""
        self.last: dict[int, Origin] = {0: None}  # the last one's writer, by the text's length
        self.starts: dict[int, int] = {}  # by owner, the length of the text before its elements

    def common(self, front: str) -> int:
        """The length of what the list has in common with this one: all of either, if they are whole
        groups, or none."""
        size, whole = len(front), len(self.elements)
        if size <= whole:
            return size if size in self.last and self.elements.startswith(front) else 0
        goes_on = front.startswith(self.elements) and (not whole or front[whole] == BETWEEN)
        return whole if goes_on else 0

    def add(self, elements: str, owner: int) -> None:
        """Adds elements after the last one."""
        self.starts[owner] = len(self.elements)
        self.elements = f"{self.elements}{BETWEEN}{elements}" if self.elements else elements
        self.last[len(self.elements)] = owner


class Sources:
    """The sources of a recording's attempts that took effect, by their places. These include an
    attempt of unknown outcome if somebody has read what it wrote."""

    def __init__(self, recording: Recording) -> None:
        """Raises ImportRefusedError if a value that was read doesn't identify its writer."""
        self._attempts = recording.attempts
        # By key and value, the writer's place, or all of them.
        self._writers: dict[str, dict[str | None, int | list[int]]] = {}
        self._last: dict[tuple[int, str], str | None] = {}  # last write of an attempt to a key
        self._several: dict[tuple[int, str], list[str]] = {}  # appends, if there are several
        last: dict[str, int] = {}  # by key, the last attempt that wrote it
        for at, attempt in enumerate(self._attempts):
            for kind, key, value, _ in attempt.accesses:
                if kind == APPEND or kind == WRITE:
                    writers = self._writers.get(key)
                    if writers is None:
                        self._writers[key] = {value: at}
                    elif value not in writers:
                        writers[value] = at
                    else:
                        self._note_another(at, kind, value, writers)
                    if kind == WRITE:
                        self._last[at, key] = value
                    elif last.get(key) == at:
                        self._several[at, key] = [
                            it.value or "" for it in attempt.accesses
                            if it.kind == APPEND and it.key == key
                        ]
                    last[key] = at
        # All keys; those that nobody wrote are added when they are read.
        self.keys: dict[str, None] = dict.fromkeys(self._writers)
        self.has_absent = False  # somebody read what nobody in the file has written
        self._chains: dict[str, Chain] = {}
        self.stubs: list[tuple[int, Stub]] = []  # by readers, in the order of `of`
        self.of: dict[int, Reads] = {
            at: {}
            for at, attempt in enumerate(self._attempts)
            if attempt.outcome == COMMITTED
        }
        for at in [*self.of]:
            self._look_up(at)

    def _note_another(
        self, at: int, kind: str, value: str | None, writers: dict[str | None, int | list[int]]
    ) -> None:
        """Notes one more writer of a value. An element that one attempt appends twice is as
        ambiguous."""
        before = writers[value]
        if isinstance(before, int):
            before = writers[value] = [before]
        if kind == APPEND or at not in before:
            before.append(at)

    def _took_effect(self, at: int) -> Reads:
        """Records that an attempt took effect, since somebody has read what it wrote."""
        return self.of.setdefault(at, {})

    def _look_up(self, at: int) -> None:
        own: dict[str, str] = {}  # the last write of a key, or all appends to it
        reads, chains = self.of[at], self._chains
        for access in self._attempts[at].accesses:
            kind, key, value, _ = access
            if kind == READ_LIST:
                if key not in own:
                    chain, value = chains.get(key), value or ""
                    # Most lists begin alike, and were read before.
                    if (
                        chain is not None
                        and len(value) in chain.last
                        and chain.elements.startswith(value)
                        and at not in chain.starts
                    ):
                        origin = chain.last[len(value)]
                        reads.setdefault((key, origin), access)
                        continue
                self._list(at, access, own.get(key))
            elif kind == READ:
                self._register(at, access, own.get(key))
            else:
                assert value is not None
                is_longer = kind == APPEND and key in own
                own[key] = f"{own[key]}{BETWEEN}{value}" if is_longer else value

    def _read(self, at: int, access: Access, origin: Origin) -> None:
        """Records that the read came from there."""
        self.keys[access.key] = None
        self.of[at].setdefault((access.key, origin), access)
        if isinstance(origin, int):
            self._took_effect(origin)
        elif isinstance(origin, Stub):
            self.stubs.append((at, origin))

    def _register(self, at: int, access: Access, own: str | None) -> None:
        if own is not None:
            if access.value != own:
                self._read(at, access, Stub(at, ELSEWHERE))
        elif access.value is None:
            self._read(at, access, None)
        else:
            self._read(at, access, self._writer(at, access, access.value))

    def _writer(self, at: int, access: Access, value: str) -> Origin:
        """The writer of a value that this attempt has read. Raises ImportRefusedError if there are
        several candidates."""
        found = self._writers.get(access.key, {}).get(value, [])
        writers = [found] if isinstance(found, int) else found
        others = [writer for writer in writers if writer != at]
        if len(others) > 1 or (access.kind == READ_LIST and len(writers) > 1):
            lines = ", ".join(
                sorted({f"{self._attempts[writer].line}" for writer in writers}, key=int)
            )
            raise ImportRefusedError(
                self._attempts[at].line,
                f"the value {value} of {access.key}, read here, was written more than once (by what"
                f" begins in lines {lines}): which write was read is unknown",
            )
        if not writers:
            self.has_absent = True
            return Absent(access.key, value)
        if not others:
            return Stub(at, ELSEWHERE)
        (writer,) = others
        if self._attempts[writer].outcome == ABORTED:
            return Stub(writer, ABORTED)
        if access.kind == READ and self._last[writer, access.key] != value:
            return Stub(writer, DRAFT)
        return writer

    def _list(self, at: int, access: Access, own: str | None) -> None:
        """Looks up a list, which reveals the order of its writers: the writer of each element has
        read the key from the writer of the element before."""
        front = access.value or ""
        if own is not None:
            if front == own:
                front = ""
            elif front.endswith(f"{BETWEEN}{own}"):
                front = front[: -len(own) - 1]
            else:
                self._read(at, access, Stub(at, ELSEWHERE))
                return
        chain = self._chains.get(access.key)
        if chain is None:
            chain = self._chains[access.key] = Chain()
        known = chain.common(front)
        if known > chain.starts.get(at, known):  # it can't read its own there
            known = 0
        if known == len(front):
            self._read(at, access, chain.last[known])
            return
        self._follow(at, access, chain, front, known)

    def _follow(self, at: int, access: Access, chain: Chain, front: str, known: int) -> None:
        """Looks up what follows so much of a list: groups of elements, each appended by one
        attempt. If whole transactions can't have appended the list, it comes from a Stub."""
        key, attempts, of = access.key, self._attempts, self.of
        elements = (front[known + 1 :] if known else front).split(BETWEEN)
        writers = self._writers.get(key, {})
        goes_on, before = known == len(chain.elements), chain.last[known]
        earlier: Container[Origin] = chain.starts if known else ()
        seen, place = set[Origin](), 0
        while place < len(elements):
            element, size = elements[place], 1
            found = writers.get(element)
            origin: Origin
            if isinstance(found, int) and found != at and attempts[found].outcome != ABORTED:
                origin = found  # as `_writer` says
            else:
                origin = self._writer(at, access, element)
            if isinstance(origin, int) and (origin, key) in self._several:
                group = self._several[origin, key]
                size = len(group)
                element = BETWEEN.join(elements[place : place + size])
                if elements[place : place + size] != group:
                    origin = Stub(origin, DRAFT)
            if (origin in seen or origin in earlier) and not isinstance(origin, Stub):
                origin = Stub(at, ELSEWHERE)  # an element that occurs twice
            if isinstance(origin, Stub):
                self._read(at, access, origin)
                return
            seen.add(origin)
            place += size
            if isinstance(origin, int):
                (of.get(origin) or self._took_effect(origin)).setdefault(
                    (key, before), shown_of((element, at))
                )
                if goes_on:
                    chain.add(element, origin)
            else:
                goes_on = False
            before = origin
        self._read(at, access, before)
