"""Explains violations in threads of their own, while the audit goes on: the first one of each
shape. The others are counted."""

import logging
import signal
import threading
import time
from collections.abc import Callable, Sequence
from dataclasses import replace
from typing import Any

from ...core._records import AuditId
from ...promises._kinds import SERIALIZABLE, Promise
from ._describing import Describing
from ._groups import Group, Groups, Shape, happened, shape_of
from ...core._stopping import STOPS
from ._violations import EXPLAINING, Answered, Held, Violation, explained

ANSWERING = 60.0  # seconds for each of the proxy's answers
MOST_DESCRIBED = 4096  # transactions of one report that the proxy is asked about
MOST_WAITING = 64  # reports whose violations aren't all explained
MOST_AT_ONCE = 2
logger = logging.getLogger("zanteyard")


class Explaining:
    """Explains violations. `begin` is for the thread that asks the auditor. `told` is called by a
    thread of this object with each violation that has been explained, and its group."""

    def __init__(
        self,
        program: str,
        told: Callable[[Violation, Group], object],
        promise: Promise = SERIALIZABLE,
        groups: Groups | None = None,
    ) -> None:
        self._program, self._told, self._promise = program, told, promise
        self.groups = groups if groups is not None else Groups()
        self._turn = threading.Lock()
        self._places = threading.BoundedSemaphore(MOST_AT_ONCE)
        self._asked: dict[int, Describing] = {}
        self._threads: list[threading.Thread] = []
        self._reports = 0
        self.count = 0

    def begin(
        self,
        report: Sequence[Any],
        held: Sequence[Held],
        describe: Callable[[int, Sequence[AuditId]], bool],
    ) -> None:
        """Begins to explain the violations of this report. Calls `describe` at once and after each
        answer: it asks the proxy to describe these transactions, and returns whether it could."""
        first, now = self.count + 1, time.time()
        self.count += len(held)
        self._reports += 1
        self._threads = [one for one in self._threads if one.is_alive()]
        if len(self._threads) >= MOST_WAITING:
            self.groups.enter_unseen(len(held))
            return
        ids = [*dict.fromkeys(id for one in held for id in one.involved())]
        number = self._reports
        asked = Describing(ids[:MOST_DESCRIBED], lambda some: describe(number, some))
        with self._turn:
            self._asked[number] = asked
        asked.go_on()
        whole = (number, first, report, held, asked, now)
        thread = threading.Thread(target=self._explain, args=whole, daemon=True)
        self._threads.append(thread)
        thread.start()

    def answered(self, number: int, answered: Answered) -> None:
        """Takes the proxy's answer to `describe`."""
        with self._turn:
            asked = self._asked.get(number)
        if asked is not None:
            asked.put(answered)

    @property
    def is_asking(self) -> bool:
        """Whether the proxy still has to describe something, and so mustn't forget it."""
        with self._turn:
            return any(asked.is_open for asked in self._asked.values())

    def expect_no_answers(self) -> None:
        """Goes on without answers that haven't arrived: the proxy has ended, or its audit has."""
        with self._turn:
            for asked in self._asked.values():
                asked.close()

    def _explain(
        self,
        number: int,
        first: int,
        report: Sequence[Any],
        held: Sequence[Held],
        asked: Describing,
        now: float,
    ) -> None:
        signal.pthread_sigmask(signal.SIG_BLOCK, STOPS)  # programs it starts inherit this
        try:
            answered = asked.take(ANSWERING)
            new = []
            for at, one in enumerate(held, first):
                shape = shape_of(one, answered)
                if self.groups.enter(shape, happened(one, answered, now)):
                    new.append((at, one, shape))
            for at, one, shape in new:
                self._explain_one(at, report, one, answered, now, shape)
        except Exception:  # the verdict stands, whatever fails here
            logger.exception("can't group the violations of a round")
        finally:
            with self._turn:
                self._asked.pop(number, None)

    def _explain_one(
        self,
        number: int,
        report: Sequence[Any],
        held: Held,
        answered: Answered,
        now: float,
        shape: Shape,
    ) -> None:
        try:
            with self._places:
                its = (self._program, now, EXPLAINING, self._promise)
                found = explained(number, report, held, answered, *its)
            group = self.groups.explained(shape, number, found.title)
            self._told(replace(found, group=group.name), group)
        except Exception:  # the verdict stands, whatever fails here
            logger.exception("can't explain violation %d", number)

    def wait(self, seconds: float) -> None:
        """Waits until all violations that were begun are explained, at most this many seconds."""
        ends = time.monotonic() + seconds
        for thread in self._threads:
            thread.join(max(0.0, ends - time.monotonic()))
