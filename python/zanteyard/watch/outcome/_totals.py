"""How much of what clients did was checked: the proxy's totals (docs/PROXY_FEED.md)."""

from collections.abc import Iterator, Mapping
from dataclasses import dataclass, field
from typing import Any

from ...core._numbers import counted

WAITS = "the audit ended before its next round"  # why what still waits at the end wasn't checked


@dataclass(frozen=True)
class Total:
    """How much there was of something, and in which place each is: `checked` in full, `in_part` or
    `not_checked`, by reason, or `waiting` for a round. Rolled-back ones aren't in `all`."""

    all: int = 0
    checked: int = 0
    in_part: Mapping[str, int] = field(default_factory=dict)
    not_checked: Mapping[str, int] = field(default_factory=dict)
    waiting: int = 0
    rolled_back: int = 0

    @property
    def partly(self) -> int:
        return sum(self.in_part.values())

    @property
    def unchecked(self) -> int:
        return sum(self.not_checked.values())

    def plus(self, other: "Total") -> "Total":
        return Total(
            self.all + other.all,
            self.checked + other.checked,
            both(self.in_part, other.in_part),
            both(self.not_checked, other.not_checked),
            self.waiting + other.waiting,
            self.rolled_back + other.rolled_back,
        )

    def closed(self) -> "Total":
        """The same once no round follows: what waited isn't checked."""
        waited = {WAITS: self.waiting} if self.waiting else {}
        unchecked = both(self.not_checked, waited)
        return Total(self.all, self.checked, self.in_part, unchecked, 0, self.rolled_back)

    def values(self) -> dict[str, Any]:
        """As JSON has it."""
        return {
            "all": self.all,
            "checked": self.checked,
            "in_part": dict(self.in_part),
            "not_checked": dict(self.not_checked),
            "waiting": self.waiting,
            "rolled_back": self.rolled_back,
        }


@dataclass(frozen=True)
class Conditions:
    """What statements asked for by conditions, in reported transactions. Of a followed one, the
    rows that it passed over are checked, too, but for those that are left out."""

    seen: int = 0
    followed: int = 0
    passed_over: int = 0  # rows
    left_out: Mapping[str, int] = field(default_factory=dict)  # conditions, by reason
    rows_left_out: Mapping[str, int] = field(default_factory=dict)
    dropped: int = 0  # forgotten to make room

    def plus(self, other: "Conditions") -> "Conditions":
        return Conditions(
            self.seen + other.seen,
            self.followed + other.followed,
            self.passed_over + other.passed_over,
            both(self.left_out, other.left_out),
            both(self.rows_left_out, other.rows_left_out),
            self.dropped + other.dropped,
        )

    def values(self) -> dict[str, Any]:
        """As JSON has them."""
        return {**vars(self)}

    def lines(self) -> Iterator[str]:
        """Sentences about them."""
        if not self.seen:
            return
        yield (
            f"{counted(self.seen, 'condition')} of statements, {self.followed:,} followed: "
            f"{counted(self.passed_over, 'row')} that they passed over were checked, too"
        )
        for counts, what, rest in (
            (self.left_out, "condition", "not followed"),
            (self.rows_left_out, "row", "that may have been passed over, not checked"),
        ):
            if counts:
                reasons = sorted(counts.items(), key=lambda one: -one[1])
                why = "; ".join(f"{reason} {count:,}" for reason, count in reasons)
                yield f"{counted(sum(counts.values()), what)} {rest}: {why}"


@dataclass(frozen=True)
class Totals:
    """Transactions, their statements on tables, and rows. A row counts as read each time that a
    SELECT returns it, and as written once in each transaction."""

    transactions: Total = field(default_factory=Total)
    selects: Total = field(default_factory=Total)
    writes: Total = field(default_factory=Total)  # INSERT, UPDATE, DELETE, MERGE, COPY
    rows_read: Total = field(default_factory=Total)
    rows_written: Total = field(default_factory=Total)
    only_read: int = 0  # rolled-back transactions that --rollbacks would check
    by_condition: int = 0  # SELECTs that asked by anything but one whole key
    found_no_row: int = 0  # SELECTs
    other_statements: int = 0  # definitions, procedures, and whatever else may read or write
    own: int = 0  # checked rows that the reader itself had written
    from_before: int = 0  # checked rows in a version from before the audit
    of_unchecked: int = 0  # checked rows in a version that an unchecked transaction wrote
    others: int = 0  # transactions that programs committed without the proxy
    others_rows: int = 0  # and the rows that these wrote
    untold: int = 0  # commits of which it isn't known whether they are of a client or of others
    bypassed: int = 0  # of these, how many at least are of others
    levels: Mapping[str, int] = field(default_factory=dict)  # transactions by isolation level

    def named(self) -> Iterator[tuple[str, Total]]:
        """Each total with its name in the feed, in metrics and in JSON."""
        yield "transactions", self.transactions
        yield "selects", self.selects
        yield "writes", self.writes
        yield "rows_read", self.rows_read
        yield "rows_written", self.rows_written

    def reasons(self, is_part: bool) -> Iterator[tuple[str, int, str]]:
        """What wasn't checked, or only in part: of which total, how many, and why."""
        for name, total in self.named():
            counts = total.in_part if is_part else total.not_checked
            for why in sorted(counts, key=counts.__getitem__, reverse=True):
                yield name, counts[why], why

    def plus(self, other: "Totals") -> "Totals":
        def added(one: Any, another: Any) -> Any:
            if isinstance(one, Total):
                return one.plus(another)
            return both(one, another) if isinstance(one, Mapping) else one + another

        theirs = vars(other)
        return Totals(**{name: added(mine, theirs[name]) for name, mine in vars(self).items()})

    def closed(self) -> "Totals":
        """The same once no round follows."""
        mine = vars(self)
        return Totals(
            **{
                name: it.closed() if isinstance(it, Total) else it for name, it in mine.items()
            }
        )

    def level_lines(self) -> Iterator[str]:
        """At which isolation levels the transactions ran, most frequent first."""
        counts = sorted(self.levels.items(), key=lambda one: -one[1])
        if len(counts) == 1:
            yield f"all that committed ran at {level_named(counts[0][0])}"
        elif counts:
            told = [f"{count:,} at {level_named(level)}" for level, count in counts]
            yield f"{', '.join(told[:-1])} and {told[-1]}"

    def bypassing(self) -> Iterator[str]:
        """What is known of transactions that bypassed the proxy, or that there were none."""
        rows = self.rows_written.not_checked.get("its writes couldn't be told apart", 0)
        if rows:
            yield (
                f"{rows:,} of the rows written may be those of one of several transactions, or of "
                "a program that bypasses the proxy"
            )
        if self.bypassed:
            yield (
                f"at least {self.bypassed:,} of the {self.untold:,} commits with such rows "
                "bypassed the proxy: there were fewer such transactions"
            )
        if self.others:
            told = counted(self.others, "more transaction")
            yield f"{told}, with {counted(self.others_rows, 'row')} written, bypassed the proxy"
        elif not self.bypassed:
            known = " is known to have" if rows else ""
            yield f"no transaction that wrote a row{known} bypassed the proxy"

    def values(self) -> dict[str, Any]:
        """As JSON has them."""
        found = {name: total.values() for name, total in self.named()}
        found["transactions"].update(only_read=self.only_read, levels=dict(self.levels))
        found["selects"].update(by_condition=self.by_condition, found_no_row=self.found_no_row)
        found["rows_read"].update(
            own=self.own, from_before=self.from_before, of_unchecked=self.of_unchecked
        )
        outside = {
            "transactions": self.others, "rows_written": self.others_rows, "untold": self.untold,
            "of_these_at_least": self.bypassed,
        }
        return {
            **found, "other_statements": self.other_statements, "without_the_proxy": outside
        }


def level_named(level: str) -> str:
    """An isolation level in words."""
    return "a level that isn't known" if level in ("", "unknown") else level


def both(one: Mapping[str, int], other: Mapping[str, int]) -> Mapping[str, int]:
    """The sums by reason, without those of which there are none."""
    found = {reason: one.get(reason, 0) + other.get(reason, 0) for reason in {**one, **other}}
    return {reason: count for reason, count in found.items() if count}
