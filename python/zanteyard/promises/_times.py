"""Times of transactions: what is possible, and the keys of ends.

The auditor itself knows strict serializability: each transaction whose end is known also writes a
key of its own, which later ones read (docs/FORMATS.md), so its refutations name these keys. Where
it can't be asked (`_asking.why_by_reads`), and for strong snapshot isolation, `Timeline.rewritten`
adds such reads here, which nothing proves. It reads only the latest of those that had ended, since
the others had ended before one of these began. Each such key has one writer, so no choice arises.
"""

from bisect import bisect_left
from collections.abc import Mapping, Sequence
from functools import cached_property
from itertools import accumulate
from typing import Any

TIME_KEYS = 1 << 62  # keys of scripts that are checked with times are below this
NUMBERS = 1 << 48  # of a session's transactions
UNKNOWN_BEGIN, UNKNOWN_END = 0, (1 << 64) - 1  # in lines; they would order nothing anyway
Id = tuple[int, int]
Span = tuple[int, int | None]  # when it began, and when it ended, or None if unknown


class Timeline:
    """The times of transactions whose begins are known, in nanoseconds or any other unit of one
    clock."""

    def __init__(self, spans: Mapping[Id, Span]) -> None:
        self.spans = dict(spans)

    def told(self, session: int, first: int, count: int) -> list[list[int]]:
        """When these transactions of a session began, and when they ended, as in lines; empty if
        nothing is known of any of them."""
        spans = [self.spans.get((session, number)) for number in range(first, first + count)]
        if not any(spans):
            return []
        began = [span[0] if span else UNKNOWN_BEGIN for span in spans]
        ends = (span[1] if span else None for span in spans)
        return [began, [UNKNOWN_END if end is None else end for end in ends]]

    @cached_property
    def _latest(self) -> dict[Id, Sequence[Id]]:
        """For each the others that had ended before it began, without those that had ended before
        another one of them began."""
        ended = sorted((end, id) for id, (_, end) in self.spans.items() if end is not None)
        ends, ids = [end for end, _ in ended], [id for _, id in ended]
        # For each count of transactions that ended first, when the last of them began.
        last_begins = [*accumulate((self.spans[id][0] for id in ids), max)]

        def latest(began: int) -> Sequence[Id]:
            count = bisect_left(ends, began)
            return ids[bisect_left(ends, last_begins[count - 1]) : count] if count else ()

        return {id: latest(began) for id, (began, _) in self.spans.items()}

    @cached_property
    def _read(self) -> set[Id]:
        return {source for sources in self._latest.values() for source in sources}

    def rewritten(self, id: Id, transaction: Sequence[Any]) -> list[Any]:
        """A transaction of a line, extended so that it keeps the real-time order."""
        reads, keys, *undone = transaction
        sources = sorted([time_key(source), *source] for source in self._latest.get(id, ()))
        own = [time_key(id)] if id in self._read else []
        return [[*reads, *sources], [*keys, *own], *undone]


def time_key(id: Id) -> int:
    """The transaction's own key, which later ones read."""
    return TIME_KEYS + id[0] * NUMBERS + id[1]


def mistake_in(spans: Mapping[Id, Span]) -> str | None:
    """What is impossible about these times: a transaction that ends before it begins, or before an
    earlier one of its session began; or what no line can tell. None if nothing is."""
    latest: dict[int, int] = {}  # by session, when one of those so far began last
    for (session, number), (began, end) in sorted(spans.items()):
        if end is not None and end < began:
            return f"{session}.{number} ended before it began"
        if end is not None and end < latest.get(session, 0):
            return f"{session}.{number} ended before an earlier transaction of its session began"
        if max(began, end or 0) >= UNKNOWN_END:
            return f"{session}.{number} has a time over {UNKNOWN_END - 1}"
        latest[session] = max(began, latest.get(session, 0))
    return None


UNITS: Mapping[str, Sequence[tuple[int, str]]] = {
    "ns": ((10**9, "s"), (10**6, "ms"), (10**3, "µs"), (1, "ns")),
}


def told_gap(gap: int, unit: str) -> str:
    """A time in these units for a person, such as `3 ms`; empty if the unit is no unit of time."""
    for size, word in UNITS.get(unit, ()):
        if gap >= size:
            amount = gap / size
            return f"{amount:.0f} {word}" if amount >= 10 else f"{amount:.3g} {word}"
    return ""
