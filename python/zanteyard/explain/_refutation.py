"""Reads an auditor's refutation, a flat list of items, into an Explanation. It says what the
auditor has checked: its cycles, what they force, and its splits.

Two things make it shorter. If what a cycle follows from contains a shorter cycle, that one is
used. And if an arc of the last cycle was forced, this cycle and the one that forced the arc each
rule out one side of a choice; the shorter of the two comes last. If there are no cases, so does the
weaker one, since no more is shown than the weakest cycle.
"""

from collections.abc import Callable, Iterable, Mapping, Sequence
from typing import Any

from ..core._records import History, Naming, ShownId
from ..promises._kinds import EVENTS
from ..promises._times import TIME_KEYS
from ._arc_words import ArcWords
from ._arcs import SESSION, Arc, ArcKind, Choice, Ends, Event, Node, below, merged
from ._arcs import is_of_writers, shortest_circle, table, transaction_of
from ._cycles import places_to, weakest, weakness
from ._explanation import Case, Explanation, WrongRead

MOST_ARCS = 256  # arcs among which a shorter cycle is looked for
MANY = 24  # splits of a refutation; one with more isn't explained case by case
Facts = Mapping[Ends, Arc]  # the known arcs, in the order in which they became known


class UnreadableError(Exception):
    """The items aren't a refutation of this history."""


def read_refutation(
    items: Sequence[Sequence[Any]],
    history: History,
    keys: Sequence[str],
    name: Naming,
    moved: Callable[[ShownId], Node] = ShownId,
    keeps_sessions: bool = True,
) -> Explanation:
    """The explanation in these items. `keys` are the names of keys by number, and `moved` gives the
    place in the history of a transaction in the items. If session order is kept, a read from the
    reader's own session counts as session order. Raises UnreadableError."""
    count = sum(item[0] == "split" for item in items)
    if count > MANY:
        return Explanation(f"the auditor's refutation has {count + 1:,} cases, too many to show")
    try:
        reading = _Reading(items, history, keys, name, moved, keeps_sessions)
        return reading.weakest_last(reading.part({}))
    except (LookupError, TypeError, ValueError, StopIteration) as error:
        raise UnreadableError(f"{error!r}") from error


def _apart(arcs: Iterable[Arc]) -> list[Arc]:
    """Those that aren't between two pieces of one transaction, which was asked about in pieces
    because it is long. Such an arc leads from a transaction to itself, or from its commit to its
    begin."""
    return [
        arc
        for arc in arcs
        if arc.kind != ArcKind.IN_SESSION
        or transaction_of(arc.start) != transaction_of(arc.end)
        or (isinstance(arc.start, Event) and arc.start.what == "begin" and arc.start != arc.end)
    ]


class _Reading:
    """Reads one refutation, item by item."""

    def __init__(
        self,
        items: Sequence[Sequence[Any]],
        history: History,
        keys: Sequence[str],
        name: Naming,
        moved: Callable[[ShownId], Node],
        keeps_sessions: bool,
    ) -> None:
        self.items, self.keeps_sessions = iter(items), keeps_sessions
        self.keys, self.name, self.moved = keys, name, moved
        self.txns = table(history)
        self.words = ArcWords(self.txns, name)

    def part(self, above: Facts) -> Explanation:
        """Reads the items up to the end of this part of the argument."""
        facts: dict[Ends, Arc] = {**above}
        while True:
            kind, *rest = next(self.items)
            if kind == "force":
                choice, side = self._choice(rest[0]), rest[1]
                needs = self._path(rest[2], choice.sides()[2 - side], facts)
                arc = self._forced(choice, side, needs)
                facts.setdefault(arc.ends, arc)
            elif kind == "split":
                choice = self._choice(rest[0])
                first, second = (self._case(choice, 1, facts), self._case(choice, 2, facts))
                return Explanation(self.words.between(choice), cases=(first, second))
            elif kind == "cycle":
                return self._circle(_apart(self._arc(arc, facts) for arc in rest[0]), facts)
            else:
                return self._wrong_read(rest)

    def _case(self, choice: Choice, side: int, facts: Facts) -> Case:
        arc = self.words.assumed(choice, side)
        return Case(arc, self.part({**facts, arc.ends: arc}))

    def _wrong_read(self, parts: Sequence[Any]) -> Explanation:
        node, number = self._read(parts, "node key")
        reader, key = transaction_of(node), self.keys[number]
        source = next(
            source
            for read, source in self.txns[reader].reads
            if read == key and source in self.txns and key not in self.txns[source].writes
        )
        read = WrongRead(reader, key, ShownId(source))
        return Explanation(self.words.wrong_read(reader, key, source), read=read)

    def _path(self, cycle: Sequence[Any], ruled_out: Ends, facts: Facts) -> list[Arc]:
        """The rest of a cycle, from the end of the arc that it rules out to its start."""
        at = next(at for at, arc in enumerate(cycle) if self._ends(arc) == ruled_out)
        rest = [*cycle[at + 1 :], *cycle[:at]]
        return merged(_apart(self._arc(arc, facts) for arc in rest), self.name)

    def _forced(self, choice: Choice, side: int, needs: Sequence[Arc]) -> Arc:
        (first, *more) = needs
        if side == 2 and is_of_writers(choice) and not more and first.needs:
            ruled = first.choice
            if ruled is not None and is_of_writers(ruled) and ruled.key == choice.key:
                return self.words.after_own(first)
        return self.words.forced(choice, side, needs)

    def _circle(self, arcs: Sequence[Arc], facts: Facts) -> Explanation:
        needed = below(arcs)
        if len(needed) <= MOST_ARCS:  # what it follows from may contain a cycle
            arcs = shortest_circle([*arcs, *needed])
        return self._ended(self._better(self._turned(arcs), facts))

    def _ended(self, arcs: Sequence[Arc]) -> Explanation:
        around = self._turned(arcs)
        names = [self.words.step(arc.start) for arc in around]
        end = self.words.none_first(around)
        return Explanation(end, tuple(around), tuple([*names, names[0]]))

    def _turned(self, arcs: Sequence[Arc]) -> list[Arc]:
        """The same cycle, starting at its first transaction and without cutting a run of one
        session."""
        first = next(at for at, arc in enumerate(arcs) if {arcs[at - 1].why, arc.why} != {SESSION})
        around = merged([*arcs[first:], *arcs[:first]], self.name)
        at = min(range(len(around)), key=lambda at: _place(around[at].start))
        return [*around[at:], *around[:at]]

    def _better(self, around: list[Arc], facts: Facts) -> list[Arc]:
        """The shorter of this cycle and the one that ruled out the other side of the last forced
        arc in it."""
        order = [*facts]
        forced = [at for at, arc in enumerate(around) if arc.needs and arc.ends in facts]
        if not forced:
            return around
        at = max(forced, key=lambda at: order.index(around[at].ends))
        return min(around, self._swapped(around, at) or around, key=_length)

    def _swapped(self, around: Sequence[Arc], at: int) -> list[Arc]:
        """The cycle that forced the arc at this place, with the arc of the other side, which the
        rest of this cycle rules out the opposite of; empty if the two don't fit."""
        last, rest = around[at], [*around[at + 1 :], *around[:at]]
        choice = last.choice
        assert choice is not None
        side = 2 if last.ends == choice.sides()[0] else 1
        other = self._forced(choice, side, merged(rest, self.name))
        ways = [other, *last.needs]
        fit = all(one.end == two.start for one, two in zip(ways, [*ways[1:], ways[0]]))
        return ways if fit else []

    def weakest_last(self, explanation: Explanation) -> Explanation:
        """The same, with the weakest cycle that it follows from as the last one, if that can be."""
        around = [*explanation.arcs]
        needed = below(around)
        if not around or len(needed) > MOST_ARCS:
            return explanation
        wanted = weakness(weakest(around))
        for swaps in range(len(needed)):
            if weakness(around) >= wanted:
                return self._ended(around) if swaps else explanation
            ways = (self._swapped(around, at) for at in places_to(around))
            around = next(filter(None, ways), [])
            if not around:
                break
        return explanation

    # parts of items

    def _choice(self, parts: Sequence[Any]) -> Choice:
        reader, key, writer, other = self._read(parts, "node key node node")
        return Choice(reader, self.keys[key], writer, other)

    def _ends(self, parts: Sequence[Any]) -> Ends:
        start, end = self._read(parts, f"kind {KEY_OF.get(parts[0], '')} node node")[-2:]
        return start, end

    def _arc(self, parts: Sequence[Any], facts: Facts) -> Arc:
        kind, *key, start, end = self._read(parts, f"kind {KEY_OF.get(parts[0], '')} node node")
        if kind == "session":
            return self.words.in_session(start, end)
        if kind == "taken":
            return facts[start, end]
        if key[0] >= TIME_KEYS:
            return self.words.in_time(start, end)
        if kind == "read":
            first, second = transaction_of(start), transaction_of(end)
            if self.keeps_sessions and first[0] == second[0] and first[1] < second[1]:
                return self.words.in_session(start, end)
            return self.words.read(self.keys[key[0]], start, end)
        return self.words.read_before_all(self.keys[key[0]], start, end)

    def _read(self, parts: Sequence[Any], shape: str) -> list[Any]:
        """The parts according to a shape: a node is two numbers, followed by a word if begins and
        commits are separate."""
        left, found = [*parts], []
        for what in shape.split():
            if what != "node":
                found.append(left.pop(0))
                continue
            node = self.moved(ShownId((left.pop(0), left.pop(0))))
            is_event = bool(left) and left[0] in EVENTS
            found.append(Event(transaction_of(node), left.pop(0)) if is_event else node)
        if left:
            raise ValueError(f"{parts}")
        return found


KEY_OF = {"read": "key", "base": "key"}  # kinds of arcs that name a key


def _length(around: Sequence[Arc]) -> tuple[int, int, int]:
    """How long a cycle is to explain: its own arcs, everything that it follows from, and how many
    of its arcs say which of two writers came first rather than who read what."""
    return len(around), len(below(around)), sum(arc.kind == ArcKind.WRITTEN for arc in around)


def _place(node: Node) -> tuple[ShownId, str]:
    """The key by which a cycle's nodes are sorted."""
    return transaction_of(node), node.what if isinstance(node, Event) else ""
