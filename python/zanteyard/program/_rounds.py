"""Rounds of an auditor, which takes in more while each is searched."""

import threading
import time
from collections import deque
from collections.abc import Iterator, Sequence
from contextlib import contextmanager
from typing import Any

from ..core._records import History, Report
from ..core._verdict_kinds import Kind
from ..core.errors import NoRoundError
from ._lines import SECONDS, Lines, refusal_of, written
from ._searched_round import COLLECT, EFFORTS, GUIDED, REPORT, SKIP, Effort, RoundCount
from ._searched_round import SearchedRound, pause_after
from ._supervised import SupervisedProgram

COLLECTED = b'["collect","wait"]'  # has the same reply whenever a script is replayed


class Rounds(Lines):
    """Safe for use by several threads, except that one thread at a time begins a round and takes
    its report."""

    history: History  # for each session, what was taken in and isn't forgotten
    marks: list[int]  # how many transactions of each session are forgotten
    _rounds: threading.RLock  # one round at a time, for one caller
    _is_round_begun = False  # and waits for its `last_round`

    @property
    def received(self) -> list[int]:
        """How many transactions of each session were taken in, including forgotten ones."""
        return [gone + len(txns) for gone, txns in zip(self.marks, self.history)]

    def begin_round(self, efforts: Sequence[Effort] = EFFORTS) -> None:
        """Begins the round that the next `last_round` reports. What is offered in between isn't
        part of it."""
        with self._rounds:
            self._begin_search(efforts)
            self._is_round_begun = True

    def has_round(self, seconds: float) -> bool:
        """Whether the report of the round that was begun is ready; waits at most this many
        seconds."""
        try:
            return self._await_report(seconds)
        except BaseException:
            self._is_round_begun = False  # nobody waits for it any more
            raise

    def last_round(self, efforts: Sequence[Effort] = EFFORTS) -> Report:
        """As `round`, for what has been taken in so far, even if something was lost; or for the
        round that was begun. During the search sessions can hand in, but none can join."""
        with self._rounds:
            if not self._is_round_begun:
                self._begin_search(efforts)
            self._is_round_begun = False  # after an interrupt another one is begun
            began = time.monotonic()
            while not self.has_round(0.0):
                time.sleep(pause_after(time.monotonic() - began))  # others can take the lock
            return self._take_report()

    def _have_no_round(self, told: int = 0) -> None:
        """Initial state with a new program; `told` rounds were reported before."""
        self.effort = EFFORTS[0]  # of the last round
        self._efforts: deque[Effort] = deque()  # to be tried if this one is spent
        self._search: SearchedRound | None = None
        self._may_be_open = False  # a round, after an interrupt
        self._report: Report | None = None  # ready, but not yet taken
        self._round_count = RoundCount(told)

    def _begin_search(self, efforts: Sequence[Effort]) -> None:
        """Starts the search of a round. An open round that nobody waits for is skipped."""
        with self.lock:
            self._report = None
            if self._may_be_open:
                self._leave_round()
            self._efforts = deque(efforts)
            self._search_next()

    def _leave_round(self) -> None:
        try:
            self.ask(SKIP)
        except NoRoundError:
            pass
        self._search, self._may_be_open = None, False

    def _search_next(self) -> None:
        self._search, self._may_be_open = None, True
        self.effort, begun_with = self._efforts.popleft(), [*self.received]
        asked, is_counted = (*self.effort, GUIDED), isinstance(self.program, SupervisedProgram)
        more = (self.round_seconds, self._round_count, is_counted, lambda: begun_with)
        self._search = SearchedRound(self._ask_of_round, asked, *more)

    def _await_report(self, seconds: float) -> bool:
        """Whether the report is ready; waits at most this many seconds."""
        until = time.monotonic() + seconds
        while not self._has_report():
            search, left = self._search, until - time.monotonic()
            if left <= 0:
                return False
            if search is not None:
                search.pause(left)
        return True

    def _has_report(self) -> bool:
        with self.lock:
            if self._report is None:
                if self._search is None:  # its process is gone, or an interrupt has ended it
                    self._begin_search(EFFORTS)
                self._look()
            return self._report is not None

    def _look(self) -> None:
        search = self._search
        assert search is not None
        try:
            report = search.look()
        except NoRoundError:
            self._search, self._may_be_open = None, False
            return
        if report is None:
            return
        if report.kind == Kind.SPENT and self._efforts and not search.is_skipped:
            self._search_next()
            return
        self._report = report
        self._search, self._may_be_open = None, False

    def _take_report(self) -> Report:
        report, self._report = self._report, None
        assert report is not None
        return report

    @contextmanager
    def _between_rounds(self, is_wanted: bool = True) -> Iterator[None]:
        """Holds the lock, and if `is_wanted`, waits until no round is open. The report of an ended
        round stays for its caller."""
        if not is_wanted:
            with self.lock:
                yield
            return
        while True:
            with self.lock:
                if self._search is not None:
                    self._look()
                search = self._search
                if search is None:
                    if self._may_be_open:
                        self._leave_round()
                    yield
                    return
            search.pause(SECONDS)

    def _ask_of_round(self, line: Sequence[Any]) -> list[Any]:
        return self._collect() if line == COLLECT else self.ask(line)

    def _collect(self) -> list[Any]:
        """Asks for the report. The script has this line once, after everything that arrived during
        the search."""
        text = written(COLLECT)
        with self.lock:
            self._begin_to_ask()
            (reply,) = self._replies_to([text], is_kept=False)
            if reply[0] == REPORT:
                self._keep([COLLECTED])
            self._be_in_step()
        refusal = refusal_of(text, reply)
        if refusal is not None:
            raise refusal
        return reply
