"""The reads of the last round that wait for a transaction."""

from collections.abc import Mapping, Sequence
from typing import Any

from ...core._records import AuditId, has_come

SHOWN = 40


def waiting_reads(
    transactions: Mapping[AuditId, Sequence[Any]], received: Sequence[int]
) -> tuple[list[str], int]:
    """Lines about the first of these reads, and how many there are. `received` is how many
    transactions of each session the auditor has; others haven't joined."""
    lines: list[str] = []
    count = 0
    for one, its in sorted(transactions.items()):
        for key, *source in its[0]:
            if has_come("init" if source == ["init"] else source, received):
                continue
            session, place = source
            count += 1
            if len(lines) < SHOWN:
                read = f"{one[0]}.{one[1]} read key {key}"
                lines.append(f"{read} from {session}.{place}, which hasn't arrived")
    return lines, count
