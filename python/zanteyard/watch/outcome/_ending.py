"""The outcome of an audit in words: how much was checked, what wasn't, and the exit status."""

from collections import Counter
from collections.abc import Iterator, Mapping, Sequence

from ...core._outcome import exit_status
from ...core._visible import visible
from ...promises._kinds import SERIALIZABLE, Promise
from ..violations._described import clock
from ..violations._groups import lines_of_groups
from ._remedies import with_remedy
from ._state import Seen, Status
from ...core._numbers import counted
from ...core._verdict_kinds import Kind
from ._totals import Totals
from ..violations._violations import Violation

UNTOLD = "its writes couldn't be told apart"  # of rows: for any of several reasons
FOUND_NO_ROW = "it found no row"  # what helps a SELECT doesn't help a write
TOO_LITTLE = 5
SHOWN = 15  # statement shapes
STATUS_WORDS = (
    "Exit status: 0 serial, or the promise asked for was kept; 1 violated; 2 it can't start; 3 "
    "pending; 4 something was lost or not decided, or nothing was checked; 5 less was checked than "
    "--at-least."
)
NAMES: Mapping[str, str] = {
    "transactions": "transactions",
    "selects": "SELECTs",
    "writes": "writes",
    "rows_read": "rows read",
    "rows_written": "rows written",
}


def kind_of(status: Status) -> str:
    """The verdict over the whole run; "nothing" if nothing was checked."""
    kind = status.whole_kind
    if kind in (Kind.SERIAL, Kind.PENDING, Kind.RUNNING) and status.whole_seen.is_nothing:
        return Kind.NOTHING
    if kind == Kind.SPENT:
        return Kind.UNDECIDED
    return Kind.INCOMPLETE if kind == Kind.RUNNING else kind


def word_of(kind: str, promise: Promise) -> str:
    """The verdict for people: "kept" if it is about another promise, since such a history may not
    be serial."""
    return "kept" if kind == Kind.SERIAL and promise != SERIALIZABLE else kind


def status_of(status: Status) -> int:
    """The exit status."""
    found = exit_status(kind_of(status))
    if not found and least_share(status.whole_seen.totals.closed()) < status.at_least:
        return TOO_LITTLE
    return found


def lines_of(status: Status) -> Iterator[str]:
    """The outcome at the end of a run."""
    kind, seen = kind_of(status), status.whole_seen
    if kind == Kind.NOTHING and not seen.totals.transactions.all:
        yield from _nothing(status)
        return
    rounds = counted(status.rounds_count, "round")
    audits = f" and {counted(status.audit, 'audit')}" if status.audit > 1 else ""
    about = "" if status.promise == SERIALIZABLE else f" for {status.promise.title}"
    totals = seen.totals.closed()
    word = word_of(kind, status.promise)
    why = too_little(totals) if kind in (Kind.SERIAL, Kind.PENDING) else ""
    how = ", but too little was looked at" if why else ""
    if kind == Kind.VIOLATED:
        how = _by_level(status)
    yield f"{word}{how}: {shares(totals)} were checked{about}, in {rounds}{audits}"
    if why:
        yield f"  {why}"
    yield from (f"  {line}" for line in totals.level_lines())
    if status.new_count:
        violations = counted(status.new_count, "violation")
        names = ", ".join(sorted({one.title for one in status.violations}))
        yield f"  {violations} found" + (f": {names}" if names else "")
        yield from (f"  {line}" for line in _allowed(status.violations))
        yield from (f"  {line}" for line in status.standing.lines())
    yield from (f"  {line}" for line in lines_of_groups(status.groups, status.ungrouped))
    if status.reads_unseen:
        told = counted(status.reads_unseen, "row read")
        yield f"  {told} in violated rounds had no time to be looked at one by one"
    for one in status.ended:
        if one.is_lost:
            yield f"  an audit ended at {clock(one.at, False)}: {visible(one.reason)}"
    if status.pending_count:
        yield f"  {counted(status.pending_count, 'read')} named transactions that never arrived"
    yield from (f"  {line}" for line in _table(totals))
    yield from (f"  {line}" for line in seen.more_lines())
    yield from (f"  {line}" for line in _refused(seen))
    yield from (f"  {line}" for line in _before(status))
    yield from (f"  {line}" for line in _reasons(totals))
    yield from _shapes(seen)


def _before(status: Status) -> Iterator[str]:
    """What ended before this run's first audit, and is in no outcome."""
    for count, why in (
        (
            status.untold_before,
            "after the last round of an audit, or in one whose `watch` was killed: no outcome has "
            "them",
        ),
        (status.unaudited_before, "while nothing was audited"),
    ):
        if count:
            yield f"before this run's first audit {counted(count, 'transaction')} ended {why}"


def too_little(totals: Totals) -> str:
    """Why it says little that there is no violation: no write was checked, and one is in each, or
    no SELECT was. Empty if both were."""
    written, selects = totals.rows_written, totals.selects
    if written.checked or written.partly or written.waiting:
        if selects.all and not (selects.checked or selects.partly or selects.waiting):
            return f"of {counted(selects.all, 'SELECT')} none was checked"
        return ""
    if not written.all:
        return "no row was written through the proxy, and without a write there is no violation"
    rows = counted(written.all, "written row")
    return f"of {rows} none was checked, and without a write there is no violation"


def _by_level(status: Status) -> str:
    """Whether PostgreSQL allows these violations at the levels of their transactions, as a part of
    the first line; empty if that isn't known of all. The first one of each shape at each level was
    explained."""
    rulings = [one.ruling for one in status.violations]
    refused = sorted({one[0] for one in rulings if one is not None and not one[1]})
    if refused:
        return f", which {refused[-1]} doesn't allow"
    levels = sorted({one[0] for one in rulings if one is not None})
    if not levels or None in rulings or status.ungrouped:
        return ""
    return f", which {' and '.join(levels)} allow{'s' if len(levels) == 1 else ''}"


def _allowed(violations: Sequence[Violation]) -> Iterator[str]:
    """What PostgreSQL says to them at their levels."""
    found = Counter(one.allowed for one in violations if one.allowed)
    if len(found) == 1:
        yield f"{[*found][0]}"
    else:
        yield from (f"of those explained, {count:,}: {told}" for told, count in found.most_common())


def shares(totals: Totals) -> str:
    """How much was checked in full: "20 of 52 transactions, 71 of 90 SELECTs and 10 of 61 written
    rows"."""
    parts = [
        f"{one.checked:,} of {one.all:,} {what}"
        for one, what in (
            (totals.transactions, "transactions"),
            (totals.selects, "SELECTs"),
            (totals.rows_written, "written rows"),
        )
        if one.all
    ]
    if len(parts) > 1:
        parts = [", ".join(parts[:-1]), parts[-1]]
    return " and ".join(parts) or "no transaction"


def least_share(totals: Totals) -> float:
    """The smallest of the shares that were checked in full, in percent."""
    shared = (totals.transactions, totals.selects, totals.rows_written)
    return min((100 * one.checked / one.all for one in shared if one.all), default=0.0)


def _table(totals: Totals) -> Iterator[str]:
    yield f"{'':<16}{'all':>12}{'checked':>12}{'in part':>12}{'not checked':>13}{'rolled back':>13}"
    for name, one in totals.named():
        if one.all or one.rolled_back:
            yield (
                f"{NAMES[name]:<16}{one.all:>12,}{one.checked:>12,}{one.partly:>12,}"
                f"{one.unchecked:>13,}{one.rolled_back:>13,}"
            )


def _reasons(totals: Totals) -> Iterator[str]:
    """Why something wasn't checked, and what helps."""
    for title, is_part in (("checked in part", True), ("not checked", False)):
        rows = [*totals.reasons(is_part)]
        if rows:
            yield title
        for name, count, why in rows:
            if name == "rows_written" and why == UNTOLD:
                told = f"{why}: its transactions say why"
            else:
                told = why if name == "writes" and why == FOUND_NO_ROW else with_remedy(why)
            yield f"{count:>12,} {NAMES[name]:<13} {visible(told, 200)}"


def _nothing(status: Status) -> Iterator[str]:
    """The outcome of a run in which nothing was checked: what there was, and why not."""
    seen = status.whole_seen
    named = f"the database {visible(status.database)}" if status.database else "the database"
    if not seen.connections_ever and seen.connections_refused:
        yield f"nothing was checked: the proxy refused each connection to {named}"
    elif not seen.connections_ever:
        yield f"nothing was checked: no application connected to {named} through the proxy"
    else:
        who = f"{counted(seen.connections_ever, 'connection')} to {named}"
        yield f"nothing was checked: the audit saw no row that {who} read or wrote"
    yield from (f"  {line}" for line in _refused(seen))
    yield from (f"  {line}" for line in _before(status))
    yield from _shapes(seen)


def _refused(seen: Seen) -> Iterator[str]:
    """The connections that the proxy didn't serve."""
    for why, count in seen.connections_refused.items():
        told = with_remedy(visible(why, 200))
        yield f"the proxy refused {counted(count, 'connection')}, since {told}"


def _shapes(seen: Seen) -> Iterator[str]:
    if not seen.shapes:
        return
    shapes = sorted(seen.shapes, key=lambda one: -one.count)
    yield "  statements only partly seen"
    yield f"  {'times':>12} first    what wasn't seen, then the statement"
    for one in shapes[:SHOWN]:
        what = visible(one.reason, 100) + ("" if one.is_reads else " (a write)")
        yield f"  {one.count:>12,} {clock(one.first, False):<8} {what}"
        yield f"  {'':>12} {'':<8}   {visible(one.shape, 160)}"
    if len(shapes) > SHOWN:
        more = shapes[SHOWN:]
        count = sum(one.count for one in more)
        yield f"  {count:>12,} {'':<8} for {counted(len(more), 'more shape')}"
