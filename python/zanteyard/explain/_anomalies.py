"""Names the anomaly that a refutation shows: by the kinds of its arcs, and by what the transactions
on its cycle read and wrote.

The names are those of Adya (Weak Consistency, 1999) and of the session guarantees. A history should
first be reduced to a minimal violated part: then its refutation shows the reason for the violation
and nothing else. This is an aid; the verdict doesn't depend on it.
"""

from collections.abc import Mapping, Sequence
from dataclasses import dataclass
from typing import NamedTuple

from ..core._own_keys import FENCE, PLAIN_FENCE
from ..core._records import History, Logged, Naming, ShownId, Source, Transactions
from ..program._binaries import PROGRAM
from ..promises._kinds import ALL, PREFIX, SERIALIZABLE, SNAPSHOT, WITHOUT_SESSIONS
from ..promises._kinds import Promise, stronger
from ._arcs import Arc, ArcKind, below, told_later, transaction_of
from ._audited import audited_apart
from ._cycles import FLOW, NONADJACENT, WEAKNESS, kind_of, weakest
from ._explanation import Explanation, WrongRead
from ._reasons import explanation_of
from ._words import name as plain_name
from ._words import version


@dataclass(frozen=True)
class Anomaly:
    """An anomaly's name, a sentence about how these transactions show it, and the promises that
    none of them can be part of: any other may be kept or broken."""

    name: str
    sentence: str
    transactions: tuple[ShownId, ...]
    excludes: Sequence[Promise] = ()

    def contradicts(self, kept: Sequence[Promise]) -> bool:
        """Whether it excludes one of the promises that are kept."""
        return any(each in kept for each in self.excludes)


ONE_IS_LOST = "one of the two updates is lost"
UNREPEATABLE, FRACTURED, STALE = "non-repeatable read", "fractured read", "stale read"
LOST_UPDATE, DIRTY_WRITE, FORK, SKEW = "lost update", "dirty write", "long fork", "write skew"
NEVER_WRITTEN = "read of what was never written"
MEANINGS: Mapping[str, str] = {
    "dirty read": "Adya's G1a: a read of what an aborted transaction wrote, or of what nobody "
    "wrote",
    "intermediate read": "a read of a version that its own writer overwrote or extended",
    "impossible read": "a read that no order could give its reader, whatever the others did",
    UNREPEATABLE: "a transaction read a key twice, and found two versions of it",
    FLOW: "Adya's G1c, with session order: a cycle of transactions, each of "
    "which saw what the last one wrote, or follows it in its session",
    LOST_UPDATE: "two transactions read one version of a key, and both overwrote it",
    DIRTY_WRITE: "Adya's G0: two transactions wrote the same keys, and each overwrote a part of "
    "the other's work",
    FRACTURED: "a transaction saw one part of another's work and not the rest",
    STALE: "a read of a version older than one that the reader has to come after",
    FORK: "two transactions saw two writes in opposite orders: each saw one and not the "
    "other",
    SKEW: "transactions that each overwrote what another had read, on different keys",
    "write skew over a condition": "Adya's G2: transactions each of which asked for rows by a "
    "condition, and was passed by a row that another one of them made satisfy it, or no longer",
    "phantom": "ANSI's P3, Adya's predicate reads: a transaction asked for rows by a condition, "
    "and another one, of which it saw something else, changed which rows satisfy it",
    # cycles that have none of these forms
    "G-single": "a cycle in which exactly one transaction read what the next one overwrote",
    "G-nonadjacent": "a cycle in which several transactions read what the next one overwrote, but "
    "never two in a row",
    "G2": "a cycle in which two transactions in a row read what the next one overwrote",
}
GIVEN = frozenset({ArcKind.READ, ArcKind.IN_SESSION, ArcKind.IN_TIME})


def meaning_of(name: str) -> str:
    """What an anomaly's name means; empty if unknown."""
    return MEANINGS.get(name, "")


def find_anomaly(
    history: History,
    name: Naming = plain_name,
    promise: Promise = SERIALIZABLE,
    program: str = PROGRAM,
) -> Anomaly | None:
    """The anomaly in a new auditor's refutation of the history; None if it has no name, or if the
    history isn't violated. The history should be small. Raises CantBeAskedError if it can't be
    checked for the promise, and ProgramEndedError."""
    explanation = explanation_of(audited_apart(history, program, promise), history, name)
    return anomaly_in(explanation, history, name)


def anomaly_in(
    explanation: Explanation, history: History, name: Naming = plain_name
) -> Anomaly | None:
    """The anomaly that this explanation of the history shows. None if it has no name: if it ends in
    several cases, or rests on real-time order alone."""
    if explanation.read is not None:
        session, number = explanation.read.source
        return _of_read(explanation.read, history[session][number], explanation.end)
    txns = {
        id: history[id[0]][id[1]]
        for id in (transaction_of(arc.start) for arc in below(explanation.arcs))
    }
    return name_cycle(explanation.arcs, txns, name)


def _told(key: str) -> str:
    return "the fences' row" if key in (FENCE, PLAIN_FENCE) else key


BY_OUTCOME = {"unfinished": "intermediate read", "impossible": "impossible read"}


def _of_read(read: WrongRead, source: Logged, told: str) -> Anomaly:
    """That of a read from a transaction that didn't write the key."""
    is_dirty = read.key in source.tried_writes or source.outcome == "aborted" or not source.writes
    name = BY_OUTCOME.get(source.outcome, "dirty read" if is_dirty else NEVER_WRITTEN)
    return Anomaly(name, told, (read.source, read.reader), ALL)


# cycles


class _Step(NamedTuple):
    """An arc of a cycle, between two transactions. If the second one overwrote what the first one
    read, `source` wrote that. It is known to have come later if reads, sessions and times alone say
    so."""

    start: ShownId
    end: ShownId
    kind: ArcKind
    key: str
    source: Source
    is_known: bool

    @property
    def is_missed(self) -> bool:
        """Whether the second transaction overwrote what the first one read."""
        return self.kind == ArcKind.READ_BEFORE


def _steps(cycle: Sequence[Arc]) -> list[_Step]:
    """The cycle without arcs from a transaction's own begin to its commit."""
    return [
        _Step(
            transaction_of(arc.start),
            transaction_of(arc.end),
            arc.kind,
            arc.key if arc.choice is None else arc.choice.key,
            "init" if arc.choice is None else transaction_of(arc.choice.writer),
            arc.choice is None or bool(arc.needs) and _are_given(arc.needs),
        )
        for arc in cycle
        if transaction_of(arc.start) != transaction_of(arc.end)
    ]


def _are_given(arcs: Sequence[Arc]) -> bool:
    return all(arc.kind in GIVEN for arc in below(arcs))


def name_cycle(
    arcs: Sequence[Arc], txns: Transactions, name: Naming = plain_name
) -> Anomaly | None:
    """The name of a cycle; of the weakest one that it follows from, if versions may have several
    orders. None if there are no arcs, or if it has no name of its own and real-time order is
    involved."""
    if not arcs:
        return None
    cycle = _Cycle(weakest(arcs), txns, name)
    if not cycle.steps:  # of one transaction's begin and commit
        return None
    found = cycle.named()
    if found is None and any(arc.kind == ArcKind.IN_TIME for arc in below(arcs)):
        return None
    if found is None:
        return cycle.by_kind("" if cycle.arcs is arcs else "by one of the orders of versions, ")
    return found


class _Cycle:
    """A cycle, to be named."""

    def __init__(self, arcs: Sequence[Arc], txns: Transactions, name: Naming) -> None:
        self.arcs, self.txns, self.name = arcs, txns, name
        self.steps = _steps(arcs)
        self.ids = tuple(dict.fromkeys(step.start for step in self.steps))
        self.missed = [step for step in self.steps if step.is_missed]
        self.others = [step for step in self.steps if not step.is_missed]

    def named(self) -> Anomaly | None:
        """Its name by what its transactions did, if it has one of the usual forms."""
        for form in (self.lost_update, self.half_seen):
            if (found := form()) is not None:
                return found
        kinds = {step.kind for step in self.others}
        if not kinds <= GIVEN or not all(step.is_known for step in self.missed):
            return None
        if not self.missed:
            return None if ArcKind.IN_TIME in kinds else self.flow()
        if len(self.missed) == 1:
            return self.stale()
        return self.fork() if self.others else self.skew()

    def by_kind(self, when: str) -> Anomaly:
        """Its name by the kinds of its arcs alone."""
        around = " → ".join(self.name(id) for id in (*self.ids, self.ids[0]))
        return self.anomaly(kind_of(self.arcs), f"{when}each comes before the next: {around}")

    def anomaly(
        self, name: str, sentence: str, ids: Sequence[ShownId] = (), least: Promise | None = None
    ) -> Anomaly:
        least = least or self.least()
        excluded = {least, *stronger(least)}
        arcs = below(self.arcs)
        if not any(step.kind == ArcKind.IN_SESSION for step in _steps(arcs)):
            excluded |= {it for each, it in WITHOUT_SESSIONS.items() if each in excluded}
        is_by_time = any(arc.kind == ArcKind.IN_TIME for arc in arcs)
        its = [each for each in ALL if each in excluded and (each.is_timed or not is_by_time)]
        return Anomaly(name, sentence, tuple(ids or self.ids), its)

    def least(self) -> Promise:
        """The weakest promise with session order that excludes every cycle of this form."""
        before = zip([self.steps[-1], *self.steps], self.steps)
        come_after_reads = all(
            step.is_known and last.kind in GIVEN if step.is_missed else step.kind in GIVEN
            for last, step in before
        )
        weakness = WEAKNESS[kind_of(self.arcs)]
        if not weakness or come_after_reads:  # a transaction's reads come before its writes
            return PREFIX
        return SNAPSHOT if weakness <= WEAKNESS[NONADJACENT] else SERIALIZABLE

    def _version(self, step: _Step) -> str:
        return version(step.key, step.source, self.name)

    # the usual forms

    def lost_update(self) -> Anomaly | None:
        if len(self.ids) != 2:
            return None
        for step in self.missed:
            read = (step.key, step.source)
            if all(_has_replaced(self.txns[id], read) for id in self.ids):
                one, other = sorted(self.ids)
                sentence = (
                    f"{self.name(one)} and {self.name(other)} both read {_told(step.key)} "
                    f"{self._version(step)} and both overwrote it: {ONE_IS_LOST}"
                )
                return self.anomaly(LOST_UPDATE, sentence, (one, other), SNAPSHOT)
        return None

    def half_seen(self) -> Anomaly | None:
        """A transaction read something from another, and something else that this one overwrote."""
        if len(self.missed) != 1 or len(self.others) != 1:
            return None
        (step,), reader, other = self.missed, self.missed[0].start, self.missed[0].end
        seen = [key for key, source in self.txns[reader].reads if source == other]
        if not seen:
            return None
        who, old = self.name(reader), self._version(step)
        if step.key in seen:
            new = version(step.key, other, self.name)
            told = " and ".join(sorted((old, new), reverse=True))
            ids = [each for each in (step.source, other) if each != "init"]
            return self.anomaly(
                UNREPEATABLE, f"{who} read {_told(step.key)} {told}", (*ids, reader), PREFIX
            )
        one, key, seen_key = self.name(other), _told(step.key), _told(seen[0])
        if step.is_known:
            told = f"{who} read {seen_key} from {one}, and {key} {old}, though {one} wrote it too"
            return self.anomaly(FRACTURED, told, (other, reader))
        if step.source == "init" or seen[0] not in self.txns[step.source].writes:
            return None
        first = self.name(step.source)  # which of the two wrote last isn't known
        told = (
            f"{first} and {one} both wrote {key} and {seen_key}, and {who} found {key} as the one "
            "had left it and the other key as the other had"
        )
        return self.anomaly(DIRTY_WRITE, told, (step.source, other, reader), PREFIX)

    def flow(self) -> Anomaly:
        told = [
            f"{self.name(step.end)} read {_told(step.key)} from {self.name(step.start)}"
            if step.kind == ArcKind.READ
            else f"{self.name(step.end)} follows {self.name(step.start)} in its session"
            for step in reversed(self.steps)
        ]
        return self.anomaly(FLOW, ", and ".join(told))

    def stale(self) -> Anomaly:
        (step,) = self.missed
        reader, other = step.start, step.end
        who, one = self.name(reader), self.name(other)
        read = f"read {_told(step.key)} {self._version(step)}"
        later = told_later(self.txns[other], self.txns[reader], (one, who))
        kinds = {each.kind for each in self.others}
        if later and ArcKind.IN_TIME in kinds:
            return self.anomaly(
                STALE, f"{later}, and did not see it: it {read}", (other, reader)
            )
        in_session = kinds == {ArcKind.IN_SESSION}
        why = "in its session" if in_session else "as what was read before it shows"
        told = f"{who} {read}, though it comes after {one}, which wrote it ({why})"
        return self.anomaly(STALE, told, (other, reader))

    def fork(self) -> Anomaly | None:
        """Two readers, each of which saw a write that the other one didn't see."""
        if len(self.missed) != 2 or len(self.others) != 2 or self.steps[0].is_missed == (
            self.steps[1].is_missed
        ):
            return None
        first, second = self.missed
        sees = {(it.start, it.end, it.key) for it in self.others if it.kind == ArcKind.READ}
        if sees != {
            (first.end, second.start, first.key),
            (second.end, first.start, second.key),
        }:
            return None
        told = (
            f"{self.name(one.start)} saw {_told(other.key)} of {self.name(other.end)}, and not "
            f"{_told(one.key)} of {self.name(one.end)}"
            for one, other in ((first, second), (second, first))
        )
        ids = (first.end, second.end, first.start, second.start)
        return self.anomaly(FORK, "; ".join(told), ids)

    def skew(self) -> Anomaly:
        told = (
            f"{self.name(step.start)} read {_told(step.key)}, which {self.name(step.end)} overwrote"
            for step in self.steps
        )
        return self.anomaly(SKEW, ", and ".join(told))


def _has_replaced(logged: Logged, read: tuple[str, Source]) -> bool:
    return read[0] in logged.writes and read in [*logged.reads]
