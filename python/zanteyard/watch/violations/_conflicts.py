"""All violations among the transactions of a round that the auditor has found violated.

The auditor reports one violation at a time. Of the proxy's transactions more is plain, since each
write is also a read of the version before it: which versions replaced which. So for two
transactions it is known which comes first if one has read what the other wrote, or read the version
that the other replaced. A cycle of these is a violation by itself, whatever else happened. This
module lists such cycles. Each rests on a read of a version that had been replaced; without these
reads the rest is asked again (docs/FOLDING.md, "After a violation").
"""

import time
from collections import defaultdict, deque
from collections.abc import Iterable, Iterator, Mapping, Sequence
from dataclasses import dataclass
from typing import Any, NamedTuple

from ...core._records import ABORTED, AuditId
from ...explain._arcs import ArcKind
from ...promises._asking import ids_of
from ...promises._kinds import Promise
from ._kept import Kept, OneRead, Transaction, all_reads

SECONDS = 2.0  # seconds for listing the violations of one round
Node = tuple[AuditId, bool]  # a transaction, or its begin (False) and its commit (True)
Version = tuple[Any, ...]  # (key, "init") or (key, session, number)


class Edge(NamedTuple):
    """One transaction comes before another: in its session; because the other has read what it
    wrote (`read`, the version); or because it has read a version that the other replaced."""

    one: AuditId
    other: AuditId
    kind: ArcKind
    version: Version = ()

    @property
    def reads(self) -> tuple[OneRead, ...]:
        """The reads that it rests on."""
        if self.kind == ArcKind.READ:
            return ((self.other, self.version),)
        if self.kind == ArcKind.READ_BEFORE:
            return (self.one, self.version), (self.other, self.version)
        return ()


@dataclass(frozen=True)
class Cycle:
    """Transactions each of which comes before the next, and the last before the first."""

    edges: tuple[Edge, ...]

    @property
    def keys(self) -> set[int]:
        return {edge.version[0] for edge in self.edges if edge.version}

    @property
    def ids(self) -> tuple[AuditId, ...]:
        """The transactions in it, each once."""
        return tuple(dict.fromkeys(edge.one for edge in self.edges))

    def deeds(self) -> dict[AuditId, tuple[list[Version], list[int]]]:
        """What its transactions, and the writers of what they read, did for it: reads and keys."""
        found: dict[AuditId, tuple[list[Version], list[int]]] = {id: ([], []) for id in self.ids}

        def read(one: AuditId, version: Version) -> None:
            if version not in found[one][0]:
                found[one][0].append(version)
            if version[1] != "init":
                wrote(AuditId((version[1], version[2])), version[0])

        def wrote(one: AuditId, key: int) -> None:
            its = found.setdefault(one, ([], []))[1]
            if key not in its:
                its.append(key)

        for edge in self.edges:
            for one, version in edge.reads:
                read(one, version)
            if edge.kind == ArcKind.READ_BEFORE:
                wrote(edge.other, edge.version[0])
        return found


class Listed(NamedTuple):
    """The violations of a round, the reads without which these are gone, and how many of these
    reads weren't looked at by themselves, for want of time."""

    cycles: list[Cycle]
    reads: set[OneRead]
    unseen: int = 0


def cycles_of(kept: Kept, promise: Promise, seconds: float = SECONDS) -> Listed:
    """The violations in what the auditor holds, no two of the same transactions."""
    return _Conflicts(kept, promise).listed(time.monotonic() + seconds)


def own_reads(transactions: Mapping[AuditId, Transaction]) -> set[OneRead]:
    """For each write the read that it is itself: that of the version before it. If a writer has
    read several versions of the key, that is the latest one."""
    places: dict[tuple[AuditId, int], int] = {}
    read: dict[tuple[AuditId, int], list[Version]] = {}
    for one, its in transactions.items():
        keys = set(its[1])
        for version in all_reads(its):
            if version[0] in keys:
                read.setdefault((one, version[0]), []).append(version)

    def writer(version: Version) -> tuple[AuditId, int] | None:
        if version[1] == "init":
            return None
        its = (AuditId((version[1], version[2])), version[0])
        return its if its in read else None

    def place(at: tuple[AuditId, int]) -> int:
        """How many writers of the key it is known to come after."""
        open_ones = [at]
        while open_ones:
            top = open_ones[-1]
            before = [it for it in map(writer, read[top]) if it is not None]
            more = [it for it in before if it not in places]
            if top in places or (more and len(open_ones) > len(read)):
                open_ones.pop()
            elif more:
                open_ones.append(more[0])
            else:
                places[top] = 1 + max((places[it] for it in before), default=0)
                open_ones.pop()
        return places.get(at, 0)

    def rank(version: Version) -> tuple[int, int]:
        its = writer(version)
        return (place(its) if its is not None else 0, version[1] != "init")

    return {
        (one, max(versions, key=rank) if len(versions) > 1 else versions[0])
        for (one, _), versions in read.items()
    }


def reads_of_refutation(certificate: Iterable[Sequence[Any]]) -> set[OneRead]:
    """The reads that a refutation names."""
    found: set[OneRead] = set()

    def arcs_of(arcs: Sequence[Sequence[Any]]) -> None:
        for kind, *rest in map(ids_of, arcs):
            if kind == "read":
                key, *ends = rest
                found.add((AuditId((ends[2], ends[3])), (key, ends[0], ends[1])))
            elif kind == "base":
                found.add((AuditId((rest[1], rest[2])), (rest[0],)))

    for kind, *rest in certificate:
        if kind in ("nowrite", "gone"):
            its = ids_of(rest)
            found.add((AuditId((its[0], its[1])), (its[2],)))
        elif kind in ("force", "split"):
            choice = ids_of(rest[0])
            found.add((AuditId((choice[0], choice[1])), (choice[2], choice[3], choice[4])))
            arcs_of(rest[2] if kind == "force" else ())
        elif kind == "cycle":
            arcs_of(rest[0])
    return found


def refuted_reads(kept: Kept, certificate: Iterable[Sequence[Any]]) -> set[OneRead]:
    """The reads that a refutation names and that writes aren't themselves; if there are none, all
    that it names."""
    named = reads_of_refutation(certificate)
    found = {
        (one, version)
        for one, wanted in named
        if one in kept.transactions
        for version in all_reads(kept.transactions[one])
        if version[: len(wanted)] == wanted
    }
    return found - own_reads(kept.transactions) or found


def every_read(kept: Kept) -> set[OneRead]:
    """All reads that writes aren't themselves."""
    whole = {(one, v) for one, its in kept.transactions.items() for v in all_reads(its)}
    return whole - own_reads(kept.transactions)


class _Conflicts:
    def __init__(self, kept: Kept, promise: Promise) -> None:
        self._is_split = promise.is_split
        self._next: dict[Node, list[tuple[Node, Edge]]] = defaultdict(list)
        self._gone: set[OneRead] = set()  # reads that are left out
        self._own = own_reads(kept.transactions)
        self._by_read: dict[OneRead, list[Edge]] = defaultdict(list)  # that the reader's read makes
        self._build(kept.transactions)

    def _begin(self, one: AuditId) -> Node:
        return one, False

    def _commit(self, one: AuditId) -> Node:
        return one, self._is_split

    def _build(self, transactions: Mapping[AuditId, Transaction]) -> None:
        read: dict[Version, list[AuditId]] = defaultdict(list)
        replaced: dict[Version, list[AuditId]] = defaultdict(list)
        before: AuditId | None = None
        for one, its in sorted(transactions.items()):
            if self._is_split:
                itself = Edge(one, one, ArcKind.IN_SESSION)
                self._next[self._begin(one)].append((self._commit(one), itself))
            if before is not None and before[0] == one[0]:
                self._add(Edge(before, one, ArcKind.IN_SESSION))
            before = one
            if ABORTED in its:
                continue
            keys = set(its[1])
            for version in all_reads(its):
                read[version].append(one)
                if version[0] in keys:
                    replaced[version].append(one)
        for version, readers in read.items():
            if version[1] != "init":
                writer = AuditId((version[1], version[2]))
                if version[0] in transactions.get(writer, ([], []))[1]:
                    for one in readers:
                        self._add(Edge(writer, one, ArcKind.READ, version))
            writers = sorted(replaced[version], key=lambda one: (one, version) not in self._own)
            for one in readers:
                for other in writers:
                    if other != one:
                        self._add(Edge(one, other, ArcKind.READ_BEFORE, version))
        for its_next in self._next.values():  # a cycle without session order shows more
            its_next.sort(key=lambda it: it[1].kind == ArcKind.IN_SESSION)

    def _add(self, edge: Edge) -> None:
        if edge.kind == ArcKind.READ_BEFORE:
            ends = self._begin(edge.one), self._commit(edge.other)
            self._by_read[(edge.one, edge.version)].append(edge)
        else:
            ends = self._commit(edge.one), self._begin(edge.other)
        self._next[ends[0]].append((ends[1], edge))

    def listed(self, ends: float) -> Listed:
        found: dict[frozenset[AuditId], Cycle] = {}
        unseen = 0
        for is_own in (False, True):
            parts = self._parts()
            for read in sorted(self._by_read, key=repr):
                if (read in self._own) != is_own or read in self._gone:
                    continue
                if time.monotonic() > ends:
                    if self._is_in_part(read, parts):
                        self._gone.add(read)
                        unseen += 1
                    continue
                cycle = self._cycle_by(read, parts)
                if cycle is not None:
                    self._gone.add(read)
                    found.setdefault(frozenset(cycle.ids), cycle)
        return Listed([*found.values()], self._gone, unseen)

    def _is_in_part(self, read: OneRead, parts: Mapping[Node, int]) -> bool:
        """Whether one of its edges lies within a part, and so may be in a cycle."""
        return any(
            parts.get(self._begin(edge.one), -1) == parts.get(self._commit(edge.other), -2)
            for edge in self._by_read[read]
        )

    def _cycle_by(self, read: OneRead, parts: Mapping[Node, int]) -> Cycle | None:
        """The shortest cycle through an edge that this read makes."""
        best: list[Edge] | None = None
        for edge in self._by_read[read]:
            start, end = self._commit(edge.other), self._begin(edge.one)
            if parts.get(start, -1) != parts.get(end, -2) or not self._stands(edge):
                continue
            path = self._path(start, end, parts, len(best) - 1 if best else 0)
            if path is not None:
                best = [edge, *path]
                if len(best) == 2:
                    break
        if best is None:
            return None
        return Cycle(tuple(edge for edge in best if edge.one != edge.other))

    def _stands(self, edge: Edge) -> bool:
        return not any(read in self._gone for read in edge.reads)

    def _path(
        self, start: Node, end: Node, parts: Mapping[Node, int], shorter: int
    ) -> list[Edge] | None:
        """The shortest path, shorter than `shorter` edges unless that is 0."""
        part = parts[start]
        came: dict[Node, tuple[Node, Edge]] = {}
        at = deque([(start, 0)])
        while at:
            node, steps = at.popleft()
            if node == end:
                found = []
                while node != start:
                    node, edge = came[node]
                    found.append(edge)
                return found[::-1]
            if shorter and steps + 1 >= shorter:
                continue
            for other, edge in self._next[node]:
                if other in came or other == start or parts.get(other) != part:
                    continue
                if self._stands(edge):
                    came[other] = node, edge
                    at.append((other, steps + 1))
        return None

    def _parts(self) -> dict[Node, int]:
        """For each node in a cycle the number of its strongly connected part (Tarjan 1972)."""
        found: dict[Node, int] = {}
        number: dict[Node, int] = {}
        lowest: dict[Node, int] = {}
        stack: list[Node] = []
        is_on: set[Node] = set()
        count = 0
        for root in [*self._next]:
            if root in number:
                continue
            work = [(root, self._after(root))]
            number[root] = lowest[root] = len(number)
            stack.append(root)
            is_on.add(root)
            while work:
                node, others = work[-1]
                for other in others:
                    if other not in number:
                        number[other] = lowest[other] = len(number)
                        stack.append(other)
                        is_on.add(other)
                        work.append((other, self._after(other)))
                        break
                    if other in is_on:
                        lowest[node] = min(lowest[node], number[other])
                else:
                    work.pop()
                    if work:
                        above = work[-1][0]
                        lowest[above] = min(lowest[above], lowest[node])
                    if lowest[node] == number[node]:
                        part = []
                        while True:
                            part.append(stack.pop())
                            is_on.discard(part[-1])
                            if part[-1] == node:
                                break
                        if len(part) > 1:
                            found.update(dict.fromkeys(part, count))
                            count += 1
        return found

    def _after(self, node: Node) -> Iterator[Node]:
        return (other for other, edge in self._next.get(node, ()) if self._stands(edge))
