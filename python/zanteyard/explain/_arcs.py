"""Arcs, which say what comes before what, and the arcs that each of them follows from."""

from collections.abc import Iterable, Iterator
from enum import StrEnum
from typing import NamedTuple

from ..core._records import History, Logged, Naming, ShownId, Transactions
from ..promises._times import told_gap


class Event(NamedTuple):
    """A transaction's begin or commit, if these are separate events."""

    id: ShownId
    what: str  # "begin" or "commit"


Node = ShownId | Event
Ends = tuple[Node, Node]
SESSION = "they are in one session"


class ArcKind(StrEnum):
    """The kinds of arcs, by which cycles are named."""

    IN_SESSION = "session"
    READ = "read"
    IN_TIME = "time"
    READ_BEFORE = "read before"  # from a reader of a version to who overwrote it: anti-dependency
    WRITTEN = "written"  # from a writer of a key to a later one


class Choice(NamedTuple):
    """A reader read the key from the writer, and another transaction wrote the key, too. In any
    order the other one comes before the writer, or the reader comes before the other one."""

    reader: Node
    key: str
    writer: Node
    other: Node

    def sides(self) -> tuple[Ends, Ends]:
        return (self.other, self.writer), (self.reader, self.other)


def is_of_writers(choice: Choice) -> bool:
    """Whether the choice is about two writers of a key, one of which commits before the other
    begins."""
    return isinstance(choice.reader, Event) and choice.reader.what == "commit"


class Arc(NamedTuple):
    """One transaction comes before another, or one's begin or commit before another's. A forced arc
    has the choice that it is a side of, and in `needs` the arcs of a path that rules the other side
    out. An arc that is assumed in a case of a split has only the choice."""

    start: Node
    end: Node
    why: str
    needs: tuple["Arc", ...]
    kind: ArcKind = ArcKind.IN_SESSION
    key: str = ""  # the key that was read, if that is the reason
    choice: Choice | None = None
    told: str = ""  # a phrase for what comes before what

    @property
    def ends(self) -> Ends:
        return self.start, self.end


def table(history: History) -> Transactions:
    return {
        ShownId((session, number)): logged
        for session, txns in enumerate(history)
        for number, logged in enumerate(txns)
    }


def told_later(first: Logged, second: Logged, names: tuple[str, str]) -> str:
    """Says that the second began after the first had ended; empty if that isn't known."""
    if not first.span or not second.span or first.span[1] is None:
        return ""
    gap, unit = second.span[0] - first.span[1], second.span[2]
    if gap <= 0:
        return ""
    time_text = told_gap(gap, unit)
    return f"{names[1]} began {time_text + ' ' if time_text else ''}after {names[0]} had ended"


def merged(way: Iterable[Arc], name: Naming) -> list[Arc]:
    """The same path, with each run of transactions of one session as one arc."""
    kept: list[Arc] = []
    for arc in way:
        if kept and kept[-1].why == arc.why == SESSION:
            start = kept.pop().start
            arc = arc._replace(start=start, told=told_arc(start, arc.end, name))
        kept.append(arc)
    return kept


def below(arcs: Iterable[Arc]) -> list[Arc]:
    """The arcs and all that they follow from, each after those that it follows from; only the first
    of several between the same two nodes."""
    found: dict[Ends, Arc] = {}
    waiting: list[tuple[Arc | None, Iterator[Arc]]] = [(None, iter([*arcs]))]
    while waiting:
        arc, needs = waiting[-1]
        need = next((need for need in needs if need.ends not in found), None)
        if need is not None:
            waiting.append((need, iter(need.needs)))
            continue
        waiting.pop()
        if arc is not None:
            found.setdefault(arc.ends, arc)
    return [*found.values()]


def shortest_circle(arcs: Iterable[Arc]) -> list[Arc]:
    """The shortest cycle of these arcs. There must be one."""
    after: dict[Node, list[Arc]] = {}
    for arc in arcs:
        after.setdefault(arc.start, []).append(arc)
    return min((way for way in (_around(after, node) for node in after) if way), key=len)


def _around(after: dict[Node, list[Arc]], node: Node) -> list[Arc]:
    """The shortest path from the node back to it; empty if there is none."""
    reached: dict[Node, Arc] = {}
    waiting = [node]
    for at in waiting:
        for arc in after.get(at, ()):
            if arc.end not in reached:
                reached[arc.end] = arc
                waiting.append(arc.end)
    way: list[Arc] = [reached[node]] if node in reached else []
    while way and way[0].start != node:
        way.insert(0, reached[way[0].start])
    return way


def told_arc(start: Node, end: Node, name: Naming) -> str:
    """Says what comes before what."""
    if not (isinstance(start, Event) and isinstance(end, Event)):
        return f"{name(transaction_of(start))} comes before {name(transaction_of(end))}"
    starts, ends = (f"{name(it.id)} {it.what}s" for it in (start, end))
    return f"{starts} before {ends if start.id != end.id else f'it {end.what}s'}"


def told_node(node: Node, name: Naming) -> str:
    """A transaction's name, or a phrase for its begin or commit."""
    return f"the {node.what} of {name(node.id)}" if isinstance(node, Event) else name(node)


def transaction_of(node: Node) -> ShownId:
    """The transaction of a node."""
    return node.id if isinstance(node, Event) else ShownId(node)
