"""The current state of an audit as plain values, from which the page, the metrics and the final
outcome are made."""

from collections.abc import Iterator, Mapping, Sequence
from dataclasses import dataclass, field, replace
from typing import ClassVar

from ...explain._charts import RoundSeen
from ...explain._standing import Standing
from ...promises._kinds import ALL, SERIALIZABLE, Promise
from ..violations._groups import Group
from ...core._numbers import counted
from ...core._verdict_kinds import Kind
from ._totals import Conditions, Totals
from ..violations._violations import Violation

MOST_SHAPES = 200  # shown on a page


@dataclass(frozen=True)
class Shape:
    """Statements of one shape of which something wasn't seen: why, how often, and when and where
    that happened first. `is_reads` distinguishes reads from writes."""

    shape: str
    reason: str
    count: int
    is_reads: bool = True
    first: float = 0.0  # seconds since 1970
    where: str = ""  # the file and line, or the application's name


@dataclass(frozen=True)
class OtherProxy:
    """A proxy on another machine that feeds this audit over a Redis, or did."""

    name: str
    feeds: bool
    connections: int = 0
    transactions: int = 0  # that have arrived
    silent: float = 0.0  # seconds since something arrived from it


@dataclass(frozen=True)
class Others:
    """The proxies that use a Redis. `down` says why the Redis can't be reached, and is empty if it
    can."""

    proxies: Sequence[OtherProxy] = ()
    refused: int = 0  # messages that aren't signed with the audit's key
    down: str = ""


@dataclass(frozen=True)
class Seen:
    """The coverage of an audit: what was checked of everything that happened.

    `totals` has each transaction with a statement on a table, each statement and each row in one
    place. `offered` transactions, without fences, were given to the auditor, with so many `reads`
    and `writes` of keys. `shapes` are statements of which something wasn't seen.
    """

    totals: Totals = field(default_factory=Totals)
    conditions: Conditions = field(default_factory=Conditions)
    committed: int = 0  # in the server's log
    offered: int = 0
    fences: int = 0
    bare: int = 0  # commits in the server's log without a row, of no client
    reads: int = 0
    writes: int = 0
    shapes: Sequence[Shape] = ()
    connections: int = 0
    audited_connections: int = 0
    waiting_connections: int = 0  # for which no session is free
    connections_ever: int = 0
    connections_refused: Mapping[str, int] = field(default_factory=dict)  # by the proxy; why: count
    lag_bytes: int = 0  # of the server's log that the proxy hasn't read yet
    lag_seconds: float = 0.0
    waiting: int = 0  # transactions that the proxy holds before they are offered
    remaining: int = 0
    keys: int = 0
    statements_dropped: int = 0
    others: Others | None = None  # None if no Redis was named

    COUNTED: ClassVar[tuple[str, ...]] = (
        "committed", "offered", "fences", "bare", "reads", "writes", "connections_ever",
        "statements_dropped",
    )

    @property
    def is_nothing(self) -> bool:
        """Whether nothing was checked at all."""
        transactions = self.totals.transactions
        return not (transactions.checked or transactions.in_part)

    def more_lines(self) -> Iterator[str]:
        """Sentences about what the shares don't say: what SELECTs asked for, and what the versions
        of checked rows were."""
        totals = self.totals
        yield from self.conditions.lines()
        if totals.by_condition and not self.conditions.seen:
            asked = counted(totals.by_condition, "SELECT")
            yield (
                f"{asked} didn't ask by one whole key: rows passed over, or not there yet "
                "(phantoms), weren't checked"
            )
        if totals.found_no_row:
            yield f"{counted(totals.found_no_row, 'SELECT')} found no row"
        for count, what in (
            (totals.from_before, "were in a version from before the audit"),
            (totals.of_unchecked, "were in a version that an unchecked transaction wrote"),
            (totals.own, "had been written by the transaction that read them"),
        ):
            if count:
                yield f"{count:,} of the checked rows {what}"
        if totals.only_read * 20 >= totals.transactions.all + totals.only_read:
            told = f"{totals.only_read:,} of those that were rolled back"
            yield f"{told} had only read: --rollbacks checks such transactions"
        if totals.other_statements:
            told = counted(totals.other_statements, "more statement")
            yield f"{told} defined something, called a procedure or the like: not looked into"
        yield from totals.bypassing()
        if self.bare:
            told = counted(self.bare, "more commit")
            yield f"{told} had no row, such as those of the server's own ANALYZE"

    @property
    def unseen_count(self) -> int:
        """Statements of which something wasn't seen."""
        return sum(one.count for one in self.shapes)


@dataclass(frozen=True)
class Ended:
    """An audit that is over: how many rounds it had, its last verdict, and why it ended."""

    number: int
    kind: str
    rounds: int
    reason: str
    at: float  # seconds since 1970
    is_lost: bool = True  # something wasn't audited that could have been; False if it was stopped


@dataclass(frozen=True)
class Status:
    """The whole state at one moment. `kind` is the verdict of the current audit's last round,
    "running" before the first one. Times are in seconds since 1970."""

    title: str  # which database, and the address to reach it
    began: float
    now: float
    origin: str = ""  # how the auditor was built
    promise: Promise = SERIALIZABLE  # what it checks
    database: str = ""
    server: str = ""  # its version
    subtransactions: str = ""  # how they are resolved
    audit: int = 1
    has_begun: bool = False  # the first one, or a later one
    kind: str = Kind.RUNNING
    is_over: bool = False  # nothing is audited at the moment
    ended: tuple[Ended, ...] = ()
    seen: Seen = field(default_factory=Seen)
    earlier_seen: Seen = field(default_factory=Seen)  # of audits before this one
    rounds: tuple[RoundSeen, ...] = ()  # the latest ones
    rounds_count: int = 0
    kinds: Mapping[str, int] = field(default_factory=dict)  # rounds of each verdict
    cuts: int = 0
    forgotten: int = 0  # transactions
    remaining: int = 0
    behind: float = 0.0  # seconds from a meeting to its round's report
    told_at: float = 0.0  # when the last round reported; 0 before the first
    checked_until: float = 0.0  # everything answered by then was checked
    pending: tuple[str, ...] = ()
    pending_count: int = 0
    violations: tuple[Violation, ...] = ()  # those that have been explained
    violations_count: int = 0
    groups: tuple[Group, ...] = ()  # the violations by shape
    ungrouped: int = 0  # violations that are in no group
    reads_aside: int = 0  # on which violations rest, and which aren't asked about any more
    reads_unseen: int = 0  # of these: not looked at by themselves, for want of time
    meetings: int = 0
    meeting_ms: float = 0.0  # of the last one
    longest_meeting_ms: float = 0.0
    meetings_ms: float = 0.0  # total
    fences: int = 0  # of the last one
    notes: tuple[str, ...] = ()  # warnings
    restarts: int = 0
    at_least: float = 0.0  # percent that have to be checked
    # Transactions that ended before this run's first audit, and that no outcome has: while nothing
    # was audited, and in earlier audits that didn't tell of them in their last round.
    unaudited_before: int = 0
    untold_before: int = 0

    @property
    def whole_seen(self) -> Seen:
        """The coverage of all audits so far; values that aren't counts are those of the current
        one."""
        return added(self.earlier_seen, self.seen)

    @property
    def whole_kind(self) -> str:
        """The verdict over all audits so far: "violated" if there was a violation, "incomplete" if
        an audit ended early, and else the current audit's."""
        if self.new_count:
            return Kind.VIOLATED
        if self.is_over or any(one.is_lost for one in self.ended):
            return Kind.INCOMPLETE
        return self.kind

    @property
    def known_count(self) -> int:
        """Violations of known shapes, which are set aside."""
        return sum(one.count for one in self.groups if one.is_known)

    @property
    def new_count(self) -> int:
        """Violations that aren't set aside."""
        return self.violations_count - self.known_count

    @property
    def standing(self) -> Standing:
        """What the explained violations break together, and what none of them breaks."""
        found = [one.story.standing for one in self.violations]
        broken = [it for it in ALL if any(it in each.broken for each in found)]
        kept = [it for it in ALL if found and all(it in each.kept for each in found)]
        return Standing(broken, kept)


def added(one: Seen, other: Seen) -> Seen:
    """The coverage of two audits as one; counts are added."""
    adds = {name: getattr(one, name) + getattr(other, name) for name in Seen.COUNTED}
    totals, conditions = one.totals.plus(other.totals), one.conditions.plus(other.conditions)
    shapes = {(it.shape, it.reason, it.is_reads): it for it in one.shapes}
    for it in other.shapes:
        known = shapes.get((it.shape, it.reason, it.is_reads))
        both = it if known is None else replace(known, count=known.count + it.count)
        shapes[(it.shape, it.reason, it.is_reads)] = both
    refused = dict(one.connections_refused)
    for why, count in other.connections_refused.items():
        refused[why] = refused.get(why, 0) + count
    return replace(
        other,
        **adds,
        totals=totals,
        conditions=conditions,
        shapes=tuple(shapes.values()),
        connections_refused=refused,
    )
