"""Reduces a violated history to a small part that is still violated, for explanations and
scripts."""

from __future__ import annotations

import os
import time
from collections.abc import Container, Iterable, Iterator, Mapping, Set
from concurrent.futures import ThreadPoolExecutor
from itertools import islice
from typing import Any, NamedTuple

from ..core._own_keys import is_own
from ..core._records import History, Logged, ShownId, Source
from ..core._verdict_kinds import Kind
from ..program._binaries import PROGRAM
from ..promises._asking import LIMIT
from ..promises._kinds import SERIALIZABLE, Promise
from ._anomalies import FORK, FRACTURED, SKEW, STALE, UNREPEATABLE, anomaly_in
from ._arcs import transaction_of
from ._audited import START, Holding, audited_apart, from_start, named, only_keys
from ._audited import wrong_sources
from ._cycles import G2, NONADJACENT, SINGLE
from ._fewest import fewest
from ._nearest import Links
from ._lost_updates import lost_updates
from ._reasons import explanation_of

SECONDS = 5.0  # seconds for reducing a history
# The plainest first: cycles that give way to a lost update, if there is one of at most their size.
LESS_PLAIN = (SKEW, STALE, UNREPEATABLE, FRACTURED, FORK, SINGLE, NONADJACENT, G2, None)
SMALL = 40  # transactions of a part whose anomaly stays the same while it is reduced, at most
SIDE_BY_SIDE = max(1, min(4, os.cpu_count() or 1))  # auditors
TRIED = 4  # candidates of the same kind that are tried, at most
# The fewest transactions that are violated are looked for in the whole if it has at most so many;
WHOLE = 128
# else first among the nearest, and if they are more than ENOUGH, among more.
NEAREST, NEAR, ENOUGH = 64, 96, 4


def is_violated(
    history: History, program: str = PROGRAM, promise: Promise = SERIALIZABLE
) -> bool:
    """Whether the history is violated. Transactions that did nothing are left out, so that a few
    among many are checked fast."""
    return Part.of(history, promise).refuted(program) is not None


def is_collectors_own(auditor: Holding, program: str = PROGRAM) -> bool:
    """Whether the collector's own transactions are violated by themselves and the clients' aren't:
    then the fault isn't in what the clients did."""
    history, promise = from_start(auditor)[0], getattr(auditor, "promise", SERIALIZABLE)
    return is_violated(only_keys(history, is_own), program, promise) and not is_violated(
        only_keys(history, lambda key: not is_own(key)), program, promise
    )


class Refuted(NamedTuple):
    """What the refutation of a part names, and the name of its anomaly, if the part is small and it
    has one."""

    ids: set[ShownId]
    anomaly: str | None = None


class Part:
    """Some transactions of a history, by (session, number), to be checked for one promise. The part
    is true of the store, too: a read is left out only together with its source, and a write only if
    no remaining read needs it."""

    def __init__(self, txns: dict[ShownId, Logged], promise: Promise = SERIALIZABLE) -> None:
        self.txns, self.promise = txns, promise

    @classmethod
    def of(cls, history: History, promise: Promise = SERIALIZABLE) -> Part:
        return cls(
            {
                ShownId((session, number)): logged
                for session, txns in enumerate(history)
                for number, logged in enumerate(txns)
                if logged.reads or logged.writes
            }
            | wrong_sources(history),
            promise,
        )

    def only(self, ids: Iterable[ShownId]) -> Part:
        """The part with only these transactions, and those that a wrong read among them names:
        these are what is wrong."""
        kept = {id for id in ids if id in self.txns}
        for id in [*kept]:
            kept.update(source for _, source in self.wrong_reads(self.txns[id]))
        less = {id: self.less_reads(self.txns[id], kept) for id in sorted(kept)}
        return Part(less, self.promise)

    def wrong_reads(self, logged: Logged) -> Iterator[tuple[str, ShownId]]:
        for key, source in logged.reads:
            if source in self.txns and key not in self.txns[source].writes:
                yield key, source

    @staticmethod
    def less_reads(logged: Logged, kept: Container[Source]) -> Logged:
        reads = [read for read in logged.reads if read[1] == "init" or read[1] in kept]
        return logged if len(reads) == len(logged.reads) else logged._replace(reads=reads)

    def refuted(self, program: str) -> Refuted | None:
        """What the refutation of these transactions says, if they are violated by themselves; else
        None. They are renumbered without gaps."""
        old: list[list[ShownId]] = []
        sessions: dict[int, int] = {}
        for session, number in sorted(self.txns):
            place = sessions.setdefault(session, len(sessions))
            if place == len(old):
                old.append([])
            old[place].append(ShownId((session, number)))
        new: dict[Source, ShownId] = {
            id: ShownId((at, number)) for at, ids in enumerate(old) for number, id in enumerate(ids)
        }
        history = [[self.moved(self.txns[id], new) for id in ids] for ids in old]
        found = audited_apart(history, program, self.promise) if history else None
        if found is None or found.report.kind != Kind.VIOLATED:
            return None
        name = None
        if len(self.txns) <= SMALL:
            anomaly = anomaly_in(explanation_of(found, history), history)
            name = anomaly.name if anomaly is not None else None
        if not self.promise.keeps_sessions:  # the report has other numbers
            return Refuted({*self.txns}, name)
        ids = named(found.report.certificate)
        whole = (transaction_of(found.moved(ShownId(id))) for id in ids)
        return Refuted({old[session][number] for session, number in whole}, name)

    @staticmethod
    def moved(logged: Logged, new: Mapping[Source, ShownId]) -> Logged:
        reads = [
            (key, "init" if source == "init" else new[source])
            for key, source in logged.reads
            if source == "init" or source in new
        ]
        return logged._replace(reads=reads, statements=(), tried_reads=(), tried_writes=())

    def lesser(self) -> Iterator[tuple[Any, Part]]:
        """The same part without some transactions, the last ones first, in ever smaller groups;
        then without one read, or without one write that nobody has read. Each is preceded by what
        is left out."""
        ids = sorted(self.txns, key=lambda id: (-id[1], id[0]))
        size = max(1, len(ids) // 2)
        while size:
            for start in range(0, len(ids), size):
                out = frozenset(ids[start : start + size])
                part = self.only(self.txns.keys() - out)
                if len(part.txns) < len(self.txns):
                    yield out, part
            size //= 2
        read = {(source, key) for logged in self.txns.values() for key, source in logged.reads}
        for id, logged in self.txns.items():
            for deed in logged.reads:
                reads = [other for other in logged.reads if other != deed]
                less = {**self.txns, id: logged._replace(reads=reads)}
                yield (id, deed), Part(less, self.promise)
            for key in logged.writes:
                if (id, key) not in read:
                    writes = [other for other in logged.writes if other != key]
                    less = {**self.txns, id: logged._replace(writes=writes)}
                    yield (id, (key,)), Part(less, self.promise)

    def own(self) -> int:
        """How many of the transactions are the collector's own."""
        return sum(any(map(is_own, logged.writes)) for logged in self.txns.values())

    def history(self, sessions: int) -> History:
        """The part as a history, with idle transactions in the gaps, so that all keep their
        numbers."""
        whole: History = [[] for _ in range(sessions)]
        for (session, number), logged in sorted(self._plainly().items(), key=lambda item: item[0]):
            whole[session] += [Logged((), ())] * (number - len(whole[session])) + [logged]
        return whole

    def _plainly(self) -> dict[ShownId, Logged]:
        """The transactions. An aborted one has only those of its writes that somebody has read."""
        read = {(source, key) for logged in self.txns.values() for key, source in logged.reads}
        return {
            id: logged._replace(
                tried_reads=(),
                tried_writes=[key for key in logged.tried_writes if (id, key) in read],
            )
            if logged.is_undone
            else logged
            for id, logged in self.txns.items()
        }


class Found(NamedTuple):
    """A violated part and its refutation."""

    part: Part
    refuted: Refuted

    def rank(self) -> tuple[int, int, int]:
        """By which the violation that is easiest to understand is the least one."""
        anomaly = self.refuted.anomaly
        kind = LESS_PLAIN.index(anomaly) + 1 if anomaly in LESS_PLAIN else 0
        return len(self.part.txns), self.part.own(), kind


def smaller(
    history: History,
    program: str = PROGRAM,
    seconds: float = SECONDS,
    known: Iterable[ShownId] = (),
    promise: Promise = SERIALIZABLE,
) -> History:
    """A part of a violated history that is violated and from which nothing more can be left out, or
    the smallest one found within this many seconds. First, only what a refutation names is kept, as
    long as that leaves something out. Then fewer transactions are looked for near these, and in the
    end single transactions, reads and writes are left out. If `known`, what a refutation of the
    whole names, is given, it is tried first, since checking the whole takes longest. Returns the
    history itself if it isn't violated."""
    ends = time.monotonic() + seconds
    whole = Part.of(history, promise)
    part = whole.only(known)
    refuted = part.refuted(program)
    if refuted is None:
        part, refuted = whole, whole.refuted(program)
    if refuted is None:
        return history
    found = reduced(by_names(Found(part, refuted), program), program, ends, NEAR)
    part, refuted = reduced(fewest_near(whole, found, program, ends), program, ends)
    if len(part.txns) <= SMALL and refuted.anomaly in LESS_PLAIN:
        part = lost_update_if_any(whole, part, program)
    return part.history(len(history))


def reduced(found: Found, program: str, ends: float, enough: int = 0) -> Found:
    """What is left if as much as possible is left out, or if at most `enough` transactions remain,
    or the time is up."""
    needed: set[Any] = set()  # what one part needs, its smaller parts need, too
    while len(found.part.txns) > enough and time.monotonic() < ends:
        lesser = next_smaller(found, needed, program, ends)
        if lesser is None:
            break
        found = by_names(lesser, program)
    return found


def fewest_near(whole: Part, found: Found, program: str, ends: float) -> Found:
    """The fewest transactions that are found to be violated by themselves near this part; among as
    many, those that are understood best. So it hardly matters which of several violations a
    refutation has led to, least of all if the whole has few transactions."""

    def refuted(candidate: Part) -> Refuted | None:
        return candidate.refuted(program)

    is_plainest = found.rank() <= (2, 0, 0) and len(whole.txns) > WHOLE
    if is_plainest or len(found.part.txns) > NEAR or time.monotonic() > ends:
        return found
    candidates = [whole.only(ids) for ids in _fewest_near(whole, {*found.part.txns}, ends)]
    tried = sorted(candidates, key=Part.own)[:TRIED]
    with ThreadPoolExecutor(SIDE_BY_SIDE) as pool:
        both = [*zip(tried, pool.map(refuted, tried))]
    others = (Found(candidate, its) for candidate, its in both if its is not None)
    return min([*others, found], key=Found.rank)


def _fewest_near(whole: Part, ids: Set[ShownId], ends: float) -> list[frozenset[ShownId]]:
    """They are looked for among the nearest, and if they are many, among more."""
    promise = whole.promise
    if len(whole.txns) <= WHOLE:
        return fewest(whole.txns, promise, len(ids))
    links = Links(whole.txns)
    found = fewest(whole.only(links.nearest(ids, NEAREST)).txns, promise, len(ids))
    while True:
        ids = found[0] if found else ids
        if len(ids) <= ENOUGH or time.monotonic() > ends:
            return found
        fewer = fewest(whole.only(links.nearest(ids, NEAR)).txns, promise, len(ids) - 1)
        if not fewer:
            return found
        found = fewer


def lost_update_if_any(whole: Part, part: Part, program: str) -> Part:
    """A lost update of at most as many transactions, since people understand it best. Else the
    part."""
    found = (it for it in _lost_updates(whole) if len(it.txns) <= len(part.txns))
    for candidate in islice(found, TRIED):
        if candidate.refuted(program) is not None:
            return candidate
    return part


def _lost_updates(whole: Part) -> Iterator[Part]:
    """Pairs of transactions that read the same version of a key, and both overwrote it."""

    def may_be_one(key: str, source: Source) -> bool:
        is_known = source == "init" or (source in whole.txns and key in whole.txns[source].writes)
        return is_known and key != START and not is_own(key)

    deeds = (
        (id, [it for it in logged.reads if may_be_one(*it)], logged.writes)
        for id, logged in sorted(whole.txns.items())
    )
    for key, source, one, other in lost_updates(deeds):
        txns = {
            id: whole.txns[id]._replace(reads=[(key, source)], writes=[key]) for id in (one, other)
        }
        if source != "init":
            writer = ShownId(source)
            txns[writer] = whole.txns[writer]._replace(reads=(), writes=[key])
        yield Part(txns, whole.promise)


def by_names(found: Found, program: str) -> Found:
    """Keeps only what refutations name, until nothing changes."""
    while True:
        fewer = found.part.only(found.refuted.ids)
        if len(fewer.txns) >= len(found.part.txns):
            return found
        refuted = fewer.refuted(program)
        if refuted is None:
            return found
        found = Found(fewer, refuted)


def next_smaller(found: Found, needed: set[Any], program: str, ends: float) -> Found | None:
    """A part with one thing less, and its refutation; None if everything is needed, or the time is
    up. A read or a write stays if leaving it out would lose the anomaly's name. Several auditors
    run in parallel, since one takes longer to start than to check few transactions. Of a large
    part, one at a time: so the last ends soon after the time is up."""
    part, anomaly = found.part, found.refuted.anomaly
    side_by_side = SIDE_BY_SIDE if len(part.txns) <= LIMIT else 1

    def refuted(candidate: Part) -> Refuted | None:
        return candidate.refuted(program)

    left = ((what, candidate) for what, candidate in part.lesser() if what not in needed)
    with ThreadPoolExecutor(side_by_side) as pool:
        while time.monotonic() < ends:
            some = [*islice(left, side_by_side)]
            if not some:
                break
            candidates = [candidate for _, candidate in some]
            for (what, candidate), its in zip(some, pool.map(refuted, candidates)):
                is_of_transactions = isinstance(what, frozenset)
                if its is not None and (
                    is_of_transactions or anomaly is None or its.anomaly == anomaly
                ):
                    return Found(candidate, its)
                if its is None:
                    needed.add(what)
    return None
