"""Explains a violation in the proxy's history: from a round's refutation to the statements that the
application ran."""

from collections.abc import Iterable, Iterator, Mapping, Sequence
from dataclasses import dataclass, replace
from typing import Any

from ...core._own_keys import FENCE
from ...core._records import ABORTED, AuditId, History, Logged, Read, ShownId, Source
from ...core._visible import visible
from ...explain._arcs import ArcKind
from ...explain._audited import audited_apart, from_start, named, refuted
from ...explain._reasons import explanation_of
from ...explain._report import Story, story_lines, story_of
from ...explain._shrinking import Part, is_violated, smaller
from ...explain._standing import by_reads, standing
from ...explain._words import version
from ...promises._asking import ids_of
from ...promises._kinds import SERIALIZABLE, SNAPSHOT, Promise
from ._conflicts import Cycle
from ._described import Described, by_time, clock, lines_of
from ._kept import Kept, Transaction
from ._sql_anomalies import (
    RowUpdate, both_replaced, lost_update, over_conditions, whose_is_lost
)
from ._statement_reads import as_shown, by_statement
from ._updates import Fate, fate_of

READ_COMMITTED, REPEATABLE_READ = "read committed", "repeatable read"
SERIALIZABLE_LEVEL = "serializable"
# What isn't serial and nothing worse: read committed allows all of these.
ALLOWED = (
    "lost update", "non-repeatable read", "fractured read", "long fork", "write skew",
    "write skew over a condition", "phantom", "G-single", "G-nonadjacent", "G2",
)
WHOSE_TIMES = "and when the proxy received it"
EXPLAINING = 15.0  # seconds for reducing a violated history, and the same for its promises


@dataclass(frozen=True)
class Row:
    """The row that a key stands for: the table with its schema, and the values of its primary
    key. With a condition the key stands for whether that holds of the row."""

    table: str
    values: str  # as one text
    columns: tuple[str, ...] = ()  # their names, if known
    condition: str = ""  # such as bookings WHERE room = 7

    def named(self) -> str:
        """What the key stands for in words: accounts(id=7), or accounts(7) if the columns' names
        are unknown; or whether bookings(id=12) satisfies room = 7."""
        if not self.condition:
            return self._row()
        _, where, rest = self.condition.partition(" WHERE ")
        told = f"satisfies {rest}" if where else "exists"
        return f"whether {self._row()} {told}"

    def passed_over(self) -> str:
        """What a reader of the key did, if it has a condition."""
        return f"asked for {self.condition}, and didn't get {self._row()}"

    def _row(self) -> str:
        table = self.table[len(PUBLIC) :] if self.table.startswith(PUBLIC) else self.table
        values = self.values.split(", ") if len(self.columns) > 1 else [self.values]
        if len(values) != len(self.columns):
            return f"{table}({self.values})"
        return f"{table}({', '.join(map('='.join, zip(self.columns, values)))})"


@dataclass(frozen=True)
class Answered:
    """What the proxy said about transactions and keys; what it doesn't know is missing."""

    transactions: Mapping[AuditId, Described]
    keys: Mapping[int, Row]


NOTHING = Answered({}, {})
PUBLIC = "public."


@dataclass(frozen=True)
class Told:
    """One transaction of a violation: its short name, its id in the auditor's lines, and what the
    proxy knows about it, if anything."""

    label: str
    id: AuditId
    its: Described | None
    reads: tuple[tuple[str, ...], ...] = ()  # by statement: what it read, as far as it is shown


@dataclass(frozen=True)
class Violation:
    """An explained violation. `at` is when the round reported it, in seconds since 1970."""

    number: int
    round: int
    at: float
    story: Story
    told: tuple[Told, ...]
    group: str = ""  # the name of its shape (`_groups.py`)

    @property
    def title(self) -> str:
        anomaly = self.story.anomaly
        if anomaly is not None:
            return anomaly.name
        is_split = self.story.promise.is_split
        return "no order of begins and commits" if is_split else "no serial order"

    @property
    def sentence(self) -> str:
        anomaly = self.story.anomaly
        if anomaly is not None:
            return anomaly.sentence
        return self.story.reasons.end or self.story.sentence

    @property
    def ruling(self) -> tuple[str, bool] | None:
        """The level that decides whether PostgreSQL allows it, of those of its transactions, and
        whether that one does. None if that isn't known. Only the levels of all of them together
        promise anything."""
        if self.story.anomaly is not None and self.title not in ALLOWED:
            return None
        its = [one.its for one in self.told if one.its is not None]
        levels = {one.level for one in its if not one.is_fence}
        if READ_COMMITTED in levels:
            return READ_COMMITTED, True
        if not levels or not levels <= {REPEATABLE_READ, SERIALIZABLE_LEVEL}:
            return None
        if REPEATABLE_READ not in levels:
            return SERIALIZABLE_LEVEL, False
        if SNAPSHOT in self.story.standing.broken:
            return REPEATABLE_READ, False
        return (REPEATABLE_READ, True) if SNAPSHOT in self.story.standing.kept else None

    @property
    def allowed(self) -> str:
        """The same in words; empty if it isn't known."""
        if self.ruling is None:
            return ""
        level, allows = self.ruling
        return f"{level} allows that" if allows else f"{level} doesn't allow that: please report it"

    def lines(self) -> Iterator[str]:
        """All of it as text."""
        told = [*story_lines(replace(self.story, because=()))]
        yield visible(told[0]) + (f"; {self.allowed}" if self.allowed else "")
        yield from (visible_line(line) for line in told[1:])
        yield f"what the application ran, {WHOSE_TIMES}:"
        for one in self.told:
            label = f"{one.label} ({one.id[0]}.{one.id[1]})"
            yield from (f"    {line}" for line in lines_of(label, one.its, one.reads))
        yield "because"
        yield from (f"    {visible(line)}" for line in self.story.because)
        if self.group:
            yield f"others of this shape are counted as {self.group}"


def visible_line(line: str) -> str:
    """The line made safe, with its indentation."""
    body = line.lstrip(" ")
    return " " * (len(line) - len(body)) + visible(body)


def keys_of(certificate: Iterable[Sequence[Any]]) -> set[int]:
    """The keys that a refutation names."""
    found: set[int] = set()
    for kind, *rest in certificate:
        arcs: Sequence[Any] = ()
        if kind in ("nowrite", "gone"):
            found.add(ids_of(rest)[2])
        elif kind in ("force", "split"):
            found.add(ids_of(rest[0])[2])
            arcs = rest[2] if kind == "force" else ()
        elif kind == "cycle":
            arcs = rest[0]
        found.update(arc[1] for arc in arcs if arc[0] in ("read", "base"))
    return found


class Held:
    """A part of what the auditor holds that is violated by itself: without `cycle` all transactions
    with the keys that the refutation in the report names and that of a lost update, else those of
    the cycle, and the writers of what they read. It has what `from_start` and `refuted` need of an
    auditor. `last` has the last forgotten writers of these keys, if they are known."""

    def __init__(
        self,
        kept: Kept,
        report: Sequence[Any],
        cycle: Cycle | None = None,
        last: Mapping[int, AuditId] | None = None,
    ):
        _, _, _, counts, self.certificate = report
        self.marks, self._cycle = [*kept.marks], cycle
        self.edges = cycle.edges if cycle is not None else ()
        transactions: Mapping[AuditId, Transaction] = kept.transactions
        self.lost: RowUpdate | None = None
        if cycle is None:
            keys = keys_of(self.certificate)
            self.lost = both_replaced(transactions, counts, keys)
            if self.lost is not None:
                keys.add(self.lost.key)
        else:
            keys = cycle.keys
            self.lost = _lost_in(cycle, transactions)
            transactions = {
                one: transactions[one] for one in cycle.deeds() if one in transactions
            }
            if self.lost is None:
                self.lost = both_replaced(transactions, counts, keys)
                if self.lost is not None:
                    keys = {*keys, self.lost.key}
        self.keys = keys
        last = kept.last(keys) if last is None else last
        self.base = {key_text(key): its for key, its in last.items() if key in keys}
        self.history: History = [[] for _ in self.marks]
        for (session, number), its in sorted(transactions.items()):
            gap = number - self.marks[session] - len(self.history[session])
            self.history[session] += [Logged((), ())] * gap + [_logged(its, keys)]

    def reads(self, one: AuditId) -> Sequence[Read]:
        """The reads of a remaining transaction, with sources as in the auditor's lines."""
        return self.history[one[0]][one[1] - self.marks[one[0]]].did[0]

    def involved(self) -> list[AuditId]:
        """The remaining transactions that an explanation may mention, the most likely first: those
        of a lost update, those that the refutation names, and all others that did something with
        the same keys."""
        lost = [self.lost.one, self.lost.other] if self.lost is not None else []
        if self._cycle is not None:
            return [one for one in self._cycle.deeds() if self._is_held(one)]
        did: set[AuditId] = set()
        for session, transactions in enumerate(self.history):
            for number, logged in enumerate(transactions, self.marks[session]):
                reads, writes = logged.did
                if reads or writes:
                    did.add(AuditId((session, number)))
                did.update(AuditId(source) for _, source in reads if source != "init")
        ordered = [*lost, *sorted(named(self.certificate)), *sorted(did)]
        return [one for one in dict.fromkeys(ordered) if self._is_held(one)]

    def _is_held(self, one: AuditId) -> bool:
        session, number = one
        if session >= len(self.marks):
            return False
        return 0 <= number - self.marks[session] < len(self.history[session])

    def lost_part(self, whole: History, program: str, promise: Promise) -> History | None:
        """The lost update as a part of the whole that `from_start` made of this."""
        if self.lost is None:
            return None
        one, other = (shown_id(id, self.marks) for id in (self.lost.one, self.lost.other))
        return lost_update(whole, key_text(self.lost.key), (one, other), program, promise)

    def cycle_part(self, whole: History, program: str, promise: Promise) -> History | None:
        """What the cycle rests on, as a part of the whole that `from_start` made of this. None
        without a cycle, or if the auditor doesn't find that violated by itself."""
        if self._cycle is None:
            return None
        txns: dict[ShownId, Logged] = {}
        for one, (reads, keys) in self._cycle.deeds().items():
            if not self._is_held(one):
                continue
            there, names = shown_id(one, self.marks), {key_text(key) for key in keys}
            wanted = {
                (key_text(key), "init" if its == ["init"] else tuple(its)) for key, *its in reads
            }
            real = self.history[one[0]][one[1] - self.marks[one[0]]].reads
            logged = whole[there[0]][there[1]]
            txns[there] = logged._replace(
                reads=[its for its, raw in zip(logged.reads, real) if raw in wanted],
                writes=[key for key in logged.writes if key in names],
            )
        first = ShownId((0, 0))  # what stands for everything that is forgotten, if anything is
        last = [key for its in txns.values() for key, source in its.reads if source == first]
        if last:
            txns.setdefault(first, whole[0][0]._replace(reads=(), writes=[*dict.fromkeys(last)]))
        found = Part(txns).history(len(whole))
        return found if is_violated(found, program, promise) else None

    @staticmethod
    def called(one: AuditId) -> str:
        return f"{one[0]}.{one[1]}"


def _lost_in(cycle: Cycle, transactions: Mapping[AuditId, Transaction]) -> RowUpdate | None:
    """The lost update that a cycle of two transactions is: one has read a version, and overwrote
    another one, after the other transaction had replaced it."""
    if len(cycle.ids) != 2:
        return None
    for edge in cycle.edges:
        if edge.kind == ArcKind.READ_BEFORE and edge.version[0] in transactions[edge.one][1]:
            return RowUpdate(edge.version[0], edge.version[1:], edge.other, edge.one)
    return None


def _logged(its: Transaction, keys: set[int]) -> Logged:
    reads: list[Read] = []
    for key, *source in its[0]:
        if key in keys:
            reads.append((key_text(key), "init" if source == ["init"] else tuple(source)))
    writes = [key_text(key) for key in its[1] if key in keys]
    if ABORTED in its:
        return Logged((), (), ABORTED, tried_reads=reads, tried_writes=writes)
    return Logged(reads, writes)


def key_text(number: int) -> str:
    """The key's name until the proxy has sent a better one."""
    return FENCE if number == 0 else f"key {number}"


def explained(
    number: int,
    report: Sequence[Any],
    held: Held,
    answered: Answered,
    program: str,
    now: float,
    seconds: float = EXPLAINING,
    promise: Promise = SERIALIZABLE,
) -> Violation:
    """The violation in this report of a round, with what the proxy said about it. Takes up to twice
    `seconds`. Raises ProgramEndedError and similar errors."""
    _, round_number, _, counts, certificate = report
    history, names = from_start(held)
    part = held.lost_part(history, program, promise) or held.cycle_part(history, program, promise)
    part = part or smaller(history, program, seconds, refuted(held, certificate), promise)
    real = {
        there: absolute(there, held.marks)
        for there in compact(part)[1].values()
        if history[there[0]][there[1]].outcome != "forgotten"
    }
    ordered = by_time([*real.values()], answered.transactions)
    labels = {one: f"T{at}" for at, one in enumerate(ordered, 1)}
    small, places = compact(part, [one[0] for one in ordered])
    ids = {one: real[there] for one, there in places.items() if there in real}
    shown = {
        key_text(key): visible(row.named(), 200) for key, row in answered.keys.items()
    }

    def called(one: ShownId) -> str:
        return labels[ids[one]] if one in ids else names(places[one])

    older: Mapping[str, str] = getattr(names, "older", {})
    its = {shown.get(key, key): told for key, told in older.items()}
    called.older = its  # type: ignore[attr-defined]  # what `version` looks for
    script = audited_apart(small, program, promise).script
    stands = standing(small, program, promise, seconds)
    by = by_reads(promise, stands)
    audited = audited_apart(small, program, by)
    renamed = _with_keys(small, shown)
    audited = audited._replace(keys=[shown.get(key, key) for key in audited.keys])
    explanation = explanation_of(audited, renamed, called)
    story = story_of(renamed, called, explanation, script, counts, promise)
    conditions = {shown[key_text(key)] for key, row in answered.keys.items() if row.condition}
    story = over_conditions(story, renamed, conditions)
    replaced = _replaces(story, held, ids)
    story = whose_is_lost(story, called, replaced, _fate(held, ids, replaced, answered))
    story = story.with_standing(stands)
    gone = next((one for one, there in places.items() if there == (0, 0) and one not in ids), None)
    writers = as_shown({there: one for one, there in ids.items()}, gone, held.base)

    passed = {
        key_text(key): visible(row.passed_over(), 300)
        for key, row in answered.keys.items() if row.condition
    }

    def read(key: str, source: Source) -> str:
        if key in passed:
            return passed[key]
        return f"read {shown.get(key, key)} {version(shown.get(key, key), source, called)}"

    def made(one: ShownId) -> tuple[tuple[str, ...], ...]:
        its, raw = answered.transactions.get(ids[one]), held.reads(ids[one])
        found = by_statement(its, small[one[0]][one[1]].did[0], raw, writers, key_text)
        return tuple(tuple(read(*its) for its in reads) for reads in found)

    reads = {ids[one]: made(one) for one in ids}
    told = tuple(
        Told(labels[one], one, answered.transactions.get(one), reads[one]) for one in ordered
    )
    return Violation(number, round_number, now, _with_clocks(story, told), told)


def _replaces(
    story: Story, held: Held, ids: Mapping[ShownId, AuditId]
) -> tuple[ShownId, ShownId] | None:
    """Of the two transactions of a lost update, the one whose write replaced the other one's, and
    that other one; None if neither's did directly."""
    anomaly = story.anomaly
    if anomaly is None or held.lost is None:
        return None
    its = anomaly.transactions
    for later, earlier in zip(its, its[::-1]):
        if later in ids and earlier in ids:
            if (key_text(held.lost.key), tuple(ids[earlier])) in held.reads(ids[later]):
                return later, earlier
    return None


def _fate(
    held: Held,
    ids: Mapping[ShownId, AuditId],
    replaced: tuple[ShownId, ShownId] | None,
    answered: Answered,
) -> Fate | None:
    """What became of the update that was replaced, as far as the statements say it."""
    if replaced is None or held.lost is None or held.lost.key not in answered.keys:
        return None
    later, earlier = (answered.transactions.get(ids[one]) for one in replaced)
    return fate_of(earlier, later, answered.keys[held.lost.key].table, held.lost.key)


def compact(
    history: History, order: Sequence[int] = ()
) -> tuple[History, dict[ShownId, ShownId]]:
    """The same history without transactions that did nothing and without empty sessions, renumbered
    without gaps; and for each new number the old one. A transaction that is read from stays. The
    sessions are in this order, followed by those that aren't in it."""
    read = {source for txns in history for logged in txns for _, source in logged.did[0]}
    kept = [
        [ShownId((session, number)) for number, logged in enumerate(txns)
         if any(logged.did) or (session, number) in read]
        for session, txns in sorted(
            enumerate(history),
            key=lambda it: order.index(it[0]) if it[0] in order else len(order),
        )
    ]
    kept = [ids for ids in kept if ids]
    new = {
        old: ShownId((at, number))
        for at, ids in enumerate(kept)
        for number, old in enumerate(ids)
    }

    def moved(reads: Iterable[Read]) -> list[Read]:
        return [(key, new.get(source, source)) for key, source in reads]

    def one(old: ShownId) -> Logged:
        logged = history[old[0]][old[1]]
        return logged._replace(
            reads=moved(logged.reads), tried_reads=moved(logged.tried_reads), statements=()
        )

    return [[one(old) for old in ids] for ids in kept], {its: old for old, its in new.items()}


def absolute(one: ShownId, marks: Sequence[int]) -> AuditId:
    """The transaction that has this number in `from_start`."""
    session, number = one
    return AuditId((session, number - 1 + marks[session] if any(marks) else number))


def shown_id(one: AuditId, marks: Sequence[int]) -> ShownId:
    """The number in `from_start` of a remaining transaction."""
    session, number = one
    return ShownId((session, number - marks[session] + 1 if any(marks) else number))


def _with_keys(history: History, names: Mapping[str, str]) -> History:
    """The same history, with the proxy's names for its keys."""

    def renamed(key: str) -> str:
        return names.get(key, key)

    def one(logged: Logged) -> Logged:
        return logged._replace(
            reads=[(renamed(key), source) for key, source in logged.reads],
            writes=[*map(renamed, logged.writes)],
            tried_reads=[(renamed(key), source) for key, source in logged.tried_reads],
            tried_writes=[*map(renamed, logged.tried_writes)],
        )

    return [[one(logged) for logged in transactions] for transactions in history]


def _with_clocks(story: Story, told: Sequence[Told]) -> Story:
    began = {one.label: clock(one.its.began) for one in told if one.its is not None}
    steps = tuple(replace(step, clock=began.get(step.name, "")) for step in story.steps)
    return replace(story, steps=steps)
