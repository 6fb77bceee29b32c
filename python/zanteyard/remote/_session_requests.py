"""Requests sessions that no client has from the auditor's process."""

import queue
import threading
import time
from collections.abc import Sequence
from typing import Any

from ..core._locks import give_back, take
from ..core.errors import ProgramLateError
from ..session._place import Place
from ._messages import AnyMessages

PlaceAnswer = tuple[int, Sequence[Any] | None]  # the request's number, and a place or None


class SessionRequests:
    """Safe for use by several threads; one request at a time."""

    def __init__(self, messages: AnyMessages) -> None:
        self._messages, self._asking = messages, threading.Lock()
        self._asked, self.has_ended = 0, False
        self._answers: queue.SimpleQueue[PlaceAnswer | None] = queue.SimpleQueue()
        # The numbers of open places that were given to clients here and may not have reached them
        # yet.
        self.coming: set[int] = set()

    def ask(self, kind: str, *more: Any, seconds: float) -> Place | None:
        """A place: a free one for the kind "join", one that no audit covers for "overflow". None if
        none is free, or if nobody answers within this many seconds."""
        try:
            return self.asked(kind, *more, seconds=seconds)
        except ProgramLateError:
            return None

    def asked(self, kind: str, *more: Any, seconds: float) -> Place | None:
        """The same, but raises ProgramLateError if nobody answers in time."""
        late = ProgramLateError(f"the auditor's process didn't answer for {seconds:g} s")
        taken: list[bool] = []
        try:
            if not take(self._asking, seconds, taken):  # others wait for theirs
                raise late
            if self.has_ended:
                return None
            self._asked += 1
            if not self._messages.tell(kind, self._asked, *more, seconds=seconds):
                raise late
            try:
                return self._answer(time.monotonic() + seconds)
            except queue.Empty:  # it is given back when it arrives
                raise late from None
        finally:
            give_back(self._asking, taken)

    def take_answer(self, *answer: Any) -> None:
        """Takes an answer: the request's number, and a place or None. A place that nobody waits for
        is given back."""
        place = Place(*answer[1]) if answer[1] is not None else None
        if place is not None and place.is_audited and not place.must_join:
            self.coming.add(place.number)
        self._answers.put((answer[0], answer[1]))
        if self._asking.acquire(blocking=False):
            try:
                self._give_back_late()
            finally:
                self._asking.release()

    def end(self) -> None:
        """Ends it; nothing more is answered."""
        self.has_ended = True
        self._answers.put(None)

    def _give_back_late(self) -> None:
        while not self.has_ended:
            try:
                answer = self._answers.get_nowait()
            except queue.Empty:
                return
            if answer is not None and answer[1] is not None:
                self._tell_back(answer[1])

    def _answer(self, ends: float) -> Place | None:
        while True:
            answer = self._answers.get(timeout=max(0.001, ends - time.monotonic()))
            if answer is None:
                self._answers.put(None)  # for the next caller
                return None
            asked, place = answer
            if asked == self._asked:
                return Place(*place) if place is not None else None
            if place is not None:
                self._tell_back(place)

    def _tell_back(self, place: Sequence[Any]) -> None:
        self._messages.tell("back", place)
        self.coming.discard(place[0])
