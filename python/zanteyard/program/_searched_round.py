"""One round of cobra_audit, which goes on searching while more lines arrive (docs/FORMATS.md)."""

import os
import time
from collections.abc import Callable, Sequence
from typing import Any

from ..core._records import Report
from ..core._verdict_kinds import Kind
from ..core.errors import NoMemoryError

# The efforts of a round: how many nodes its search may look at, the depth at which the search is
# split, and how many workers share it. If one effort doesn't decide, the next one follows.
Effort = tuple[int, int, int]
EFFORTS: tuple[Effort, ...] = ((4096, 0, 1), (65536, 4, max(1, min(16, os.cpu_count() or 1))))
GUIDED = "guided"  # the search that each round uses; it finds more than the plain one
ROUND_SECONDS = 60.0  # the default limit of a round's search
# A search is polled again after an eighth of the time that it has taken, within these bounds.
SHARE, LEAST_PAUSE, LONGEST_PAUSE = 8, 0.0005, 0.02
Ask = Callable[[Sequence[Any]], list[Any]]  # returns the reply to a line; raises RefusedError
BEGIN, COLLECT, SKIP = ["begin"], ["collect"], ["skip"]
REPORT = "report"
WAITS = (0.1, 0.5)  # seconds until a search that ran out of memory is tried again


def pause_after(seconds: float) -> float:
    """Seconds until a search that has taken `seconds` so far is polled again."""
    return min(LONGEST_PAUSE, max(LEAST_PAUSE, seconds / SHARE))


class RoundCount:
    """The number of the last round that was reported. A skipped round has a number too, which its
    program doesn't count, unless it has a journal."""

    def __init__(self, last: int = 0) -> None:
        self.last, self._uncounted = last, 0

    def reported(self, number: int) -> int:
        """The number of a report that has this number from its program."""
        self.last = number + self._uncounted
        return self.last

    def skipped(self, is_counted: bool) -> int:
        """The number of a round that was skipped."""
        self.last, self._uncounted = self.last + 1, self._uncounted + (not is_counted)
        return self.last

    def begin_again(self) -> None:
        """Another program goes on, which counts from 1."""
        self._uncounted = self.last


class SearchedRound:
    """A round over what has been taken in when this object is made, from its begin to its report;
    for one thread at a time. Each call raises what `ask` raises."""

    def __init__(
        self,
        ask: Ask,
        asked: Sequence[Any],
        seconds: float,
        count: RoundCount,
        is_counted: bool,
        counts: Callable[[], Sequence[int]],
    ) -> None:
        """`asked` is what follows the word in a round's line. The search may take `seconds`.
        `count` numbers the rounds, `is_counted` says whether the program counts skipped ones, too,
        and `counts` how many transactions of each session a skipped one was about."""
        self._ask, self._search, self._seconds = ask, ["search", *asked], seconds
        self._count, self._is_counted, self._counts = count, is_counted, counts
        self._waits, self.is_skipped, self._is_late = [*WAITS], False, False
        self._began = time.monotonic()
        ask(BEGIN)
        ask(self._search)

    def look(self) -> Report | None:
        """The report, if the search has ended. A search that takes too long is skipped: then the
        report is spent, and `is_skipped` is set. Raises NoMemoryError after running out of memory
        repeatedly; then the round is over, too."""
        try:
            reply = self._ask(COLLECT)
        except NoMemoryError as error:
            self._search_again(error)
            return None
        if reply[0] == REPORT:
            report = Report(*reply[1:])
            return report._replace(number=self._count.reported(report.number))
        if self._is_late:
            self._ask(SKIP)
            self.is_skipped = True
            number = self._count.skipped(self._is_counted)
            return Report(number, Kind.SPENT, self._counts())
        # Takes effect at the next look: the program may have been stopped and not have searched at
        # all.
        self._is_late = time.monotonic() > self._began + self._seconds
        return None

    def _search_again(self, error: NoMemoryError) -> None:
        if not self._waits:
            self._ask(SKIP)
            raise error
        time.sleep(self._waits.pop(0))
        self._ask(self._search)

    def pause(self, seconds: float) -> None:
        """Waits until the next look, at most this many seconds."""
        time.sleep(max(0.0, min(seconds, pause_after(time.monotonic() - self._began))))

    def wait(self, seconds: float) -> Report:
        """The report, once it is there; no pause between two looks is longer than `seconds`."""
        while (report := self.look()) is None:
            self.pause(seconds)
        return report
