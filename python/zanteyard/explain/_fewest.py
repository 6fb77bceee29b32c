"""Finds few transactions that are violated by themselves.

What a refutation names depends on the order in which the auditor derived it, and what can be left
out of that afterwards leads to a smallest part of it, not to the smallest part of the history. Here
what comes before what is derived in the order of how many transactions it follows from. So the
first cycles found follow from few. This needs all pairs of transactions, so it is for a part of the
history. The auditor then decides whether what was found is violated.
"""

from __future__ import annotations

from collections.abc import Iterator, Mapping
from itertools import combinations, groupby, permutations

from ..core._records import Logged, ShownId
from ..promises._kinds import Promise

Txns = Mapping[ShownId, Logged]
MOST_FACTS = 250_000  # that are looked at: a tenth of a second


def fewest(txns: Txns, promise: Promise, most: int) -> list[frozenset[ShownId]]:
    """Sets of transactions, each of which a violation follows from: those of the least size that is
    found, at most `most`. The same transactions always give the same list."""
    wrong = dict.fromkeys(
        frozenset({id, ShownId(source)})
        for id, logged in sorted(txns.items())
        for key, source in logged.reads
        if source in txns and key not in txns[source].writes
    )
    found = [ids for ids in wrong if len(ids) <= most]
    return found or _Deriving(txns, promise, most).cycles()


class _Deriving:
    """Derives which transaction comes before which, or begin or commit, if these are separate
    events. A fact is two events, the first of which comes before the second in any order, and the
    transactions that it follows from, as the bits of a number. Of the facts about two events, one
    that follows from the fewest is kept."""

    def __init__(self, txns: Txns, promise: Promise, most: int) -> None:
        self._ids, self._promise = sorted(txns), promise
        self._events = 2 if promise.is_split else 1  # of each transaction
        count = len(self._ids) * self._events
        self._writes: list[frozenset[str]] = [frozenset()] * count
        self._sources: list[list[tuple[str, int]]] = [[] for _ in range(count)]
        self._readers: list[dict[str, list[int]]] = [{} for _ in range(count)]
        self._facts: list[dict[int, int]] = [{} for _ in range(count)]
        self._before: list[list[int]] = [[] for _ in range(count)]
        self._arcs: list[dict[int, int]] = [{} for _ in range(count)]  # the facts that aren't paths
        self._waiting: list[list[tuple[int, int, int]]] = [[] for _ in range(most + 1)]
        self._most, self._left = most, MOST_FACTS
        self._least, self._cycles = most + 1, dict[int, None]()  # the smallest cycles' size; these
        for first, second in self._given(txns):
            self._arc(first, second, self._bits(first, second))

    # the events of a transaction by its place

    def _begin(self, at: int) -> int:
        return at * self._events

    def _commit(self, at: int) -> int:
        return at * self._events + self._events - 1

    def _bits(self, *events: int) -> int:
        bits = 0
        for event in events:
            bits |= 1 << event // self._events
        return bits

    def _is_of_one(self, first: int, second: int) -> bool:
        return first // self._events == second // self._events

    # what is given

    def _given(self, txns: Txns) -> Iterator[tuple[int, int]]:
        """What sessions, times and reads say by themselves."""
        places = {id: at for at, id in enumerate(self._ids)}
        writers: dict[str, list[int]] = {}
        for at, id in enumerate(self._ids):
            self._writes[self._commit(at)] = frozenset(txns[id].writes)
            for key in txns[id].writes:
                writers.setdefault(key, []).append(self._commit(at))
            if self._events == 2:
                yield self._begin(at), self._commit(at)
        yield from self._in_order(txns)
        for at, id in enumerate(self._ids):
            reader = self._begin(at)
            for key, source in txns[id].reads:
                if source == "init":
                    others = (it for it in writers.get(key, ()) if not self._is_of_one(it, reader))
                    yield from ((reader, other) for other in others)
                elif source in places and source != id:
                    writer = self._commit(places[source])
                    self._sources[reader].append((key, writer))
                    self._readers[writer].setdefault(key, []).append(reader)
                    yield writer, reader

    def _in_order(self, txns: Txns) -> Iterator[tuple[int, int]]:
        """What sessions and times say."""
        if self._promise.keeps_sessions:
            of_sessions = groupby(enumerate(self._ids), lambda it: it[1][0])
            for _, ids in of_sessions:
                for one, other in combinations([at for at, _ in ids], 2):
                    yield self._commit(one), self._begin(other)
        if self._promise.is_timed:
            spans = [(at, txns[id].span) for at, id in enumerate(self._ids) if txns[id].span]
            for (one, first), (other, second) in permutations(spans, 2):
                if first[1] is not None and first[1] < second[0]:
                    yield self._commit(one), self._begin(other)

    # what follows

    def cycles(self) -> list[frozenset[ShownId]]:
        """The transactions of the smallest cycles. What follows from a fact follows from at least
        as many transactions."""
        size = 1
        while size < self._least and self._left > 0:
            if not self._waiting[size]:
                size += 1
                continue
            first, second, bits = self._waiting[size].pop()
            if self._facts[first][second] == bits:  # else it follows from fewer
                self._follow(first, second, bits)
        return [self._transactions(bits) for bits in self._cycles if self._least <= self._most]

    def _transactions(self, bits: int) -> frozenset[ShownId]:
        return frozenset(id for at, id in enumerate(self._ids) if bits >> at & 1)

    def _follow(self, first: int, second: int, bits: int) -> None:
        """Adds what follows from a fact, and from it and one more arc."""
        for start, end in [*self._forced(first, second)]:
            self._arc(start, end, bits | self._bits(start, end))
        size, facts, arcs = bits.bit_count(), self._facts[first], [*self._arcs[second].items()]
        self._left -= len(arcs)
        for end, more in arcs:
            if (old := facts.get(end)) is None or old.bit_count() > size:
                self._fact(first, end, bits | more)

    def _forced(self, first: int, second: int) -> Iterator[tuple[int, int]]:
        """A reader of what the first wrote comes before the second, if that wrote it, too. If the
        second read what the first wrote, too, from another one, the first comes before that. Where
        two writers of a key can't be concurrent, and one has begun before the other commits, it
        commits before the other begins."""
        read, writes = self._readers[first], self._writes[first]
        if read:
            for key in sorted(self._writes[second] & read.keys()):
                yield from (
                    (reader, second) for reader in read[key] if not self._is_of_one(reader, second)
                )
        if writes:
            for key, writer in self._sources[second]:
                if key in writes and writer != first:
                    yield first, writer
        if self._promise.asks_itself and not self._is_of_one(first, second):
            commit = first + 1
            if self._writes[second] and commit < len(self._writes) and not first % 2:
                if self._writes[second] & self._writes[commit]:
                    yield commit, second - 1

    def _arc(self, start: int, end: int, bits: int) -> None:
        """Adds a fact that isn't a path, and the paths that end with it."""
        old, size = self._arcs[start].get(end), bits.bit_count()
        if size > self._least or (old is not None and old.bit_count() <= size):
            return
        self._arcs[start][end] = bits
        self._fact(start, end, bits)
        before = [*self._before[start]]
        self._left -= len(before)
        for first in before:
            if (known := self._facts[first].get(end)) is None or known.bit_count() > size:
                self._fact(first, end, self._facts[first][start] | bits)

    def _fact(self, first: int, second: int, bits: int) -> None:
        size = bits.bit_count()
        if first == second:
            self._cycle(bits, size)
            return
        if size >= self._least:
            return
        old = self._facts[first].get(second)
        if old is None:
            self._before[second].append(first)
        elif old.bit_count() <= size:
            return
        self._facts[first][second] = bits
        self._waiting[size].append((first, second, bits))

    def _cycle(self, bits: int, size: int) -> None:
        if size < self._least:
            self._cycles.clear()
            self._least = size
        if size == self._least:
            self._cycles[bits] = None
