"""Violations of one shape: of the same anomaly, on the same tables, by the same statements."""

import hashlib
import json
import re
import threading
from collections.abc import Collection, Iterator, Sequence
from dataclasses import dataclass, replace

from ...core._redacting import without_constants
from ...core._visible import visible
from ...core.errors import ZanteyardError
from ._described import Described, Statement, clock
from ...core._numbers import counted
from ._violations import PUBLIC, Answered, Held

MOST = 64  # shapes that are kept apart
SHOWN = 15  # groups in the outcome
LINE = re.compile(r":\d+$")  # of a statement's origin
SPACE = re.compile(r"\s+")
NAME = re.compile(r"[0-9a-f]{8}")
UNEXPLAINED = "a violation that couldn't be explained"


class KnownFileError(ZanteyardError):
    """The file of known violations can't be read."""


@dataclass(frozen=True)
class Ran:
    """A statement without its constants, and the file and line that it came from, if known."""

    text: str
    origin: str = ""

    def __str__(self) -> str:
        return f"{self.text}  [{self.origin}]" if self.origin else self.text

    @property
    def plain(self) -> tuple[str, str]:
        """The same without the line's number."""
        return self.text, LINE.sub("", self.origin)


@dataclass(frozen=True)
class Shape:
    """`statements` has, for each way in which a transaction took part, what it ran for it. The
    first violation at other `levels` is explained, too, but the name is the same."""

    is_lost_update: bool
    tables: tuple[str, ...]
    statements: tuple[tuple[Ran, ...], ...]
    levels: tuple[str, ...] = ()  # at which these transactions ran, as far as they are known


@dataclass(frozen=True)
class Group:
    """All violations of one shape so far. `name` stays the same from run to run, also if lines are
    moved within a file. `number` is that of the violation that was explained, 0 if none was.
    `first` and `last` say when violations happened (`happened`), in seconds since 1970."""

    shape: Shape
    count: int
    first: float
    last: float
    title: str = ""  # the anomaly's name, once one was explained
    number: int = 0
    is_known: bool = False

    @property
    def name(self) -> str:
        its = [self.title, self.shape.tables]
        plain = sorted({ran.plain for some in self.shape.statements for ran in some})
        return hashlib.sha256(json.dumps([*its, plain]).encode()).hexdigest()[:8]

    @property
    def statements(self) -> tuple[Ran, ...]:
        """What its transactions ran, each statement once."""
        return tuple(dict.fromkeys(ran for some in self.shape.statements for ran in some))

    @property
    def about(self) -> str:
        """The anomaly and the tables."""
        tables = ", ".join(self.shape.tables)
        return f"{self.title} of {tables}" if tables else self.title


class Groups:
    """The groups of a run; safe for use by several threads. `known` are the names of those that are
    set aside."""

    def __init__(self, known: Collection[str] = ()) -> None:
        self._known = frozenset(known)
        self._turn = threading.Lock()
        self._groups: dict[Shape, Group] = {}
        self._more = 0  # violations of shapes beyond MOST, or whose shape isn't known

    @property
    def may_be_known(self) -> bool:
        """Whether there are any that are set aside."""
        return bool(self._known)

    def enter(self, shape: Shape, at: float) -> bool:
        """Counts a violation that happened then. Returns whether it is the first of its shape that
        is counted, and so wants an explanation."""
        with self._turn:
            known = self._groups.get(shape)
            if known is not None:
                first, last = min(at, known.first), max(at, known.last)
                its = replace(known, count=known.count + 1, first=first, last=last)
                self._groups[shape] = its
            elif len(self._groups) < MOST:
                self._groups[shape] = Group(shape, 1, at, at)
                return True
            else:
                self._more += 1
            return False

    def enter_unseen(self, count: int) -> None:
        """Counts violations whose shape isn't known."""
        with self._turn:
            self._more += count

    def explained(self, shape: Shape, number: int, title: str) -> Group:
        """The group of this shape, now that one of its violations was explained."""
        with self._turn:
            found = replace(self._groups[shape], title=title, number=number)
            found = replace(found, is_known=found.name in self._known)
            self._groups[shape] = found
            return found

    def listed(self) -> tuple[Group, ...]:
        """The groups, the most frequent first. Those with the same name are one."""
        with self._turn:
            its = [*self._groups.values()]
        found: dict[str, Group] = {}
        for one in its:
            other = found.get(one.name)
            if other is not None:
                first, last = min(one.first, other.first), max(one.last, other.last)
                number = min(filter(None, (one.number, other.number)), default=0)
                count = one.count + other.count
                one = replace(other, count=count, first=first, last=last, number=number)
            found[one.name] = one
        return tuple(sorted(found.values(), key=lambda one: (-one.count, one.first)))

    @property
    def more(self) -> int:
        """Violations that are in no group."""
        return self._more


def shape_of(held: Held, answered: Answered) -> Shape:
    """The shape of a violation: the tables of the versions by which its transactions come one
    before another, and the statements of those who read, wrote or replaced these, as far as they
    are about these tables."""
    edges = [edge for edge in held.edges if edge.version]
    keys = {edge.version[0] for edge in edges} or held.keys
    tables = sorted({answered.keys[key].table for key in keys if key in answered.keys})
    ids = dict.fromkeys(id for edge in edges for id in (edge.one, edge.other)) or held.involved()
    found = {_ran(answered.transactions.get(id), keys, tables) for id in ids}
    names = tuple(table.removeprefix(PUBLIC) for table in tables)
    its = [answered.transactions[id] for id in ids if id in answered.transactions]
    levels = tuple(sorted({one.level for one in its if not one.is_fence}))
    statements = tuple(sorted(found - {()}, key=repr))
    return Shape(held.lost is not None, names, statements, levels)


def happened(held: Held, answered: Answered, found: float) -> float:
    """When the last of a violation's transactions ended, by the clock of its proxy; when it was
    found, if that isn't known. In seconds since 1970."""
    ids = {id for edge in held.edges for id in (edge.one, edge.other)}
    if held.lost is not None:
        ids |= {held.lost.one, held.lost.other}
    its = (answered.transactions.get(id) for id in ids)
    return max((one.ended for one in its if one is not None), default=0.0) or found


def _ran(
    its: Described | None, keys: Collection[int], tables: Sequence[str]
) -> tuple[Ran, ...]:
    """What this transaction ran about these rows and tables, each statement once. All of it, if
    that can't be told."""
    if its is None:
        return ()
    named = [re.compile(rf"\b{re.escape(name.split('.')[-1])}\b", re.I) for name in tables]

    def is_about(one: Statement) -> bool:
        return any(key in keys for key, _ in one.reads) or any(
            name.search(one.plain) for name in named
        )

    about = [one for one in its.statements if is_about(one)] or its.statements
    return tuple(
        dict.fromkeys(
            Ran(SPACE.sub(" ", without_constants(one.plain)), visible(one.origin)) for one in about
        )
    )


def lines_of_groups(groups: Sequence[Group], more: int) -> Iterator[str]:
    """The groups in the outcome: those that aren't known, and how many known ones there were."""
    shown = [one for one in groups if not one.is_known]
    if shown:
        yield f"{'times':>12} {'first':<8} {'last':<8} violations of one shape, and its name"
    for one in shown[:SHOWN]:
        times = f"{clock(one.first, False):<8} {clock(one.last, False):<8}"
        yield f"{one.count:>12,} {times} {visible(one.about or UNEXPLAINED, 200)}  ({one.name})"
        yield from (f"{'':>33}{visible(str(ran), 160)}" for ran in one.statements)
    beyond = sum(one.count for one in shown[SHOWN:]) + more
    if beyond:
        yield f"{beyond:>12,} {'':<17} of more shapes"
    known = [one for one in groups if one.is_known]
    if known:
        count = sum(one.count for one in known)
        told = counted(count, "known violation was", "known violations were")
        yield f"{told} set aside (--ignore), of {counted(len(known), 'shape')}"


def known_in(path: str) -> frozenset[str]:
    """The names in a file of known violations: a name in each line, and what people note after it.
    Empty lines and those that begin with # don't count. Raises KnownFileError."""
    try:
        with open(path, encoding="utf-8") as file:
            lines = file.read().splitlines()
    except (OSError, UnicodeDecodeError) as error:
        raise KnownFileError(f"can't read {path}: {error}") from error
    found = set()
    for at, line in enumerate(lines, 1):
        name = line.split("#")[0].split()[:1]
        if name and not NAME.fullmatch(name[0]):
            raise KnownFileError(
                f"{path}, line {at}: a line begins with a violation's name, such as 3f2a91bc"
            )
        found.update(name)
    return frozenset(found)
