"""What a violated round shows: its violations, and the reads without which the rest is asked
again."""

from collections.abc import Sequence
from typing import Any, NamedTuple

from ...promises._kinds import Promise
from ._conflicts import cycles_of, every_read, refuted_reads
from ._kept import Kept, OneRead
from ._violations import Held

MOST_NAMED = 4  # rounds of which only what the refutation names is left out


class Found(NamedTuple):
    """The violations of one report. Without `reads` they are gone; none are left if nothing can be
    left out any more. `unseen` of these reads weren't looked at by themselves, for want of time."""

    report: Sequence[Any]
    held: Sequence[Held]
    reads: set[OneRead]
    unseen: int = 0


def found_in(kept: Kept, report: Sequence[Any], promise: Promise, tried: int) -> Found:
    """What this report shows of what the auditor holds. `tried` is how many reports about the same
    transactions there were before it."""
    listed = cycles_of(kept, promise)
    if listed.cycles:
        last = kept.last({key for cycle in listed.cycles for key in cycle.keys})
        held = [Held(kept, report, cycle, last) for cycle in listed.cycles]
        return Found(report, held, listed.reads, listed.unseen)
    reads = listed.reads or refuted_reads(kept, report[4])
    if tried >= MOST_NAMED:
        reads |= every_read(kept)
    return Found(report, [Held(kept, report)], reads, listed.unseen)
