"""Runs the calls that meetings in the auditor's process make to this process's sessions."""

import queue
import time
from collections.abc import Callable, Sequence
from dataclasses import astuple
from typing import Any

from ..live._quiesce_coordinator import COMING
from ..session._place import Place
from ..session._quiesce import Edge, QuiesceMissed, SessionGroup
from ._messages import AnyMessages
from ._outbox import Outbox

IncomingCall = tuple[
    int, str, Sequence[Any]
]  # its number, or 0 if no answer is wanted; name; arguments


class QuiesceCalls:
    """Runs calls one after another in a thread of their own; any thread may add them."""

    def __init__(
        self, group: SessionGroup, messages: AnyMessages, outbox: Outbox, coming: set[int]
    ) -> None:
        """`coming` are the numbers of sessions that were given to clients of this process and may
        not have reached them yet."""
        self._group, self._messages, self._outbox = group, messages, outbox
        self._coming = coming
        self._waiting: queue.SimpleQueue[IncomingCall | None] = queue.SimpleQueue()
        self.is_leaving = False  # it takes part in no further meeting
        self._deeds: dict[str, Callable[..., Any]] = {
            "edges": self._edges,
            "flag": lambda meeting, places: self._group.share(meeting, places, "flag"),
            "gather": self._gather,
            "lead": lambda meeting, lists, _: self._group.lead(meeting, lists),
            "pass_on": lambda meeting, places: self._group.pass_on(meeting, places),
            "release": lambda _: self._group.release(),
            "reopen": lambda _: self._group.reopen(),
        }

    def put(self, *call: Any) -> None:
        number, name, arguments = call
        self._waiting.put((number, name, arguments))

    def end(self) -> None:
        self._waiting.put(None)

    def run_all(self) -> None:
        """Runs calls until `end`; then all sessions go on."""
        for number, name, arguments in iter(self._waiting.get, None):
            try:
                self._run(number, name, arguments)
            except OSError:
                pass  # the auditor's process is gone
        self._group.release()

    def _run(self, number: int, name: str, arguments: Sequence[Any]) -> None:
        result = failure = None
        is_missed, (*before, lent) = False, arguments
        places = [Place(*place) for place in lent]
        try:
            result = self._deeds[name](*before, places)
        except QuiesceMissed as error:
            failure, is_missed = str(error), True
        except Exception as error:
            failure = str(error).strip() or type(error).__name__
        if number:
            self._outbox.send_all()
            now = [astuple(place) for place in places]
            self._messages.send("answer", number, result, failure, is_missed, now)

    def _gather(
        self, meeting: int, seconds: float, leads: bool, idle: float, places: Sequence[Place]
    ) -> tuple[list[int], list[tuple[Any, ...]]]:
        if self.is_leaving:
            raise QuiesceMissed("it leaves")
        self._wait_for_who_comes()
        flags, given_back = self._group.gather(meeting, seconds, leads, places, idle)
        return flags, [astuple(place) for place in given_back]

    def _wait_for_who_comes(self) -> None:
        """As a QuiesceCoordinator does."""
        ends = time.monotonic() + COMING
        there = set(self._group.numbers())
        while not self._coming <= there and time.monotonic() < ends:
            time.sleep(COMING / 100)
            there.update(self._group.numbers())
        self._coming.clear()  # nothing is given out meanwhile

    def _edges(self, _: Sequence[Place]) -> list[Edge]:
        self._outbox.begin_anew()
        return self._group.edges()
