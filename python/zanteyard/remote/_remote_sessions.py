"""The sessions of another process, as meetings use them: through calls over its connection."""

import threading
import time
from collections.abc import Callable, Iterable, Sequence
from dataclasses import astuple, dataclass, replace
from typing import Any

from ..core.errors import ElsewhereError
from ..session._place import Place
from ..session._quiesce import Edge, QuiesceMissed, Wait
from ._messages import Channel

LEFT = "a process has left"
PATIENCE = 5.0  # seconds for an answer, added to those of the call itself


@dataclass
class _OutgoingCall:
    """A call: the places that are lent for it, and its answer once that arrives: the result, the
    failure, and whether the failure is a missed meeting."""

    name: str
    lent: Sequence[Place]
    answer: tuple[Any, str | None, bool] | None = None
    is_late: bool = False


class RemoteGroup:
    """Has the calls of a SessionGroup; safe for use by several threads. `take_answer` is for the
    thread that receives."""

    is_here = False
    patience = PATIENCE

    def __init__(
        self,
        messages: Channel,
        wait: float,
        give_back: Callable[[Iterable[Place]], None],
        leave: Callable[[Iterable[Place]], object] = list,
    ) -> None:
        """A call waits `wait` seconds longer than it may take. If its answer arrives later or isn't
        used, `give_back` returns what was lent, and `leave` the places of idle clients."""
        self._messages, self._wait, self._give_back, self._leave = messages, wait, give_back, leave
        self._numbers: dict[int, Place] = {}  # its places, as they were given to it
        self._untold: set[int] = set()  # of these, the ones that it hasn't been told about
        self.ended: set[int] = set()  # of these, the ones that it says have ended
        self.asked_at = 0.0  # when `edges` was last answered, by the monotonic clock
        self._had_ended: set[int] = set()  # of `ended`, by then
        self._has_left = False
        self._changed = threading.Condition()  # guards the following
        self._calls: dict[int, _OutgoingCall] = {}
        self._unread: list[_OutgoingCall] = []  # answered
        self._asked = 0

    def add(self, place: Place) -> None:
        self.ended.discard(place.number)  # that was in an earlier audit
        self._numbers[place.number] = replace(place)

    def add_untold(self, place: Place) -> None:
        """Adds a place that it is still to be told about."""
        self._untold.add(place.number)
        self.add(place)

    def note_told(self, number: int) -> None:
        self._untold.discard(number)

    def note_joined(self, number: int, transaction: int | None) -> None:
        """Notes that a transaction of this session has arrived, or with None, the session's end. It
        may be from before the process got this place."""
        place = self._numbers.get(number)
        if place is not None and transaction is not None and transaction >= place.begun:
            place.must_join = False

    def remove(self, number: int) -> None:
        self._numbers.pop(number, None)

    def places(self) -> list[Place]:
        """Its places, as they were given to it."""
        return list(self._numbers.values())

    def lent(self) -> list[Place]:
        """What was lent for calls that it hasn't answered."""
        with self._changed:
            return [place for call in self._calls.values() for place in call.lent]

    def given_back(self) -> list[Place]:
        """Its places that came back in answers that weren't used yet."""
        with self._changed:
            answers = [
                call.answer[0] for call in self._unread if call.name == "gather" and call.answer
            ]
        return [Place(*place) for result in answers if result for place in result[1]]

    def leave(self) -> None:
        """Ends it; nothing more is answered."""
        with self._changed:
            self._has_left = True
            self._changed.notify_all()

    @property
    def has_left(self) -> bool:
        return self._has_left

    @property
    def had_sessions(self) -> bool:
        """Whether it had sessions, even if it has left."""
        return bool(self._numbers)

    @property
    def has_sessions(self) -> bool:
        joined = any(not place.must_join for place in list(self._numbers.values()))
        return joined and not self._has_left

    def numbers(self) -> Sequence[int]:
        return () if self._has_left else sorted(self._numbers)

    def there(self) -> Sequence[int]:
        return (
            ()
            if self._has_left
            else [number for number in [*self._numbers] if number not in self._untold]
        )

    def told(self) -> str:
        """The numbers of its sessions, for a message; even if it has left."""
        return ", ".join(map(str, sorted(self._numbers)))

    def begin_gather(
        self, meeting: int, seconds: float, leads: bool, places: Sequence[Place], idle: float
    ) -> Wait[tuple[list[int], list[Place]]]:
        wait = self._begin("gather", meeting, seconds, leads, idle, lent=places)

        def gathered(ends: float) -> tuple[list[int], list[Place]]:
            flags, given_back = wait(ends)
            for number, *_ in given_back:
                self._numbers.pop(number, None)
            return flags, [Place(*place) for place in given_back]

        return gathered

    def begin_flag(self, meeting: int, places: Sequence[Place]) -> Wait[None]:
        return self._begin("flag", meeting, lent=places)

    def begin_lead(self, meeting: int, lists: Sequence[Sequence[str]]) -> Wait[None]:
        return self._begin("lead", meeting, lists)

    def begin_pass_on(self, meeting: int, places: Sequence[Place]) -> Wait[None]:
        return self._begin("pass_on", meeting, lent=places)

    def release(self) -> None:
        """Ends the meeting; nobody waits for its answers any more."""
        with self._changed:
            for call in self._calls.values():
                call.is_late = True
            unread, self._unread = self._unread, []
        for call in unread:
            self._leave_idle(call, call.answer and call.answer[0])
        self._messages.tell("call", 0, "release", ([],), seconds=self.patience)

    def reopen(self) -> None:
        self.ended -= self._had_ended
        for place in self.places():
            place.must_join = False  # all are open then
        self._messages.tell("call", 0, "reopen", ([],), seconds=self.patience)

    def edges(self) -> Sequence[Edge] | None:
        try:
            edges: Sequence[Edge]
            edges = self._begin("edges")(time.monotonic() + self.patience)
            return edges
        except (QuiesceMissed, ElsewhereError):
            return None

    def take_answer(
        self,
        asked: int,
        result: Any,
        failure: str | None,
        is_missed: bool,
        lent: Sequence[tuple[Any, ...]],
    ) -> None:
        with self._changed:
            call = self._calls.pop(asked, None)
            if call is None:
                return
            if call.name == "edges":
                self.asked_at, self._had_ended = time.monotonic(), set(self.ended)
            for place, now in zip(call.lent, lent):
                vars(place).update(vars(Place(*now)))
            if not call.is_late:
                call.answer = (result, failure, is_missed)
                self._unread.append(call)
                self._changed.notify_all()
        if call.is_late:
            self._give_back(call.lent)
            self._leave_idle(call, result)

    def _leave_idle(self, call: _OutgoingCall, result: Any) -> None:
        """Takes the places that idle clients have given back."""
        if call.name == "gather" and result:
            places = [Place(*place) for place in result[1]]
            for place in places:
                self._numbers.pop(place.number, None)
            self._leave(places)

    def _begin(self, name: str, *arguments: Any, lent: Sequence[Place] = ()) -> Wait[Any]:
        """Sends a call. Returns a function that waits for the answer until the given time and a
        little longer."""
        call = _OutgoingCall(name, lent)
        sent = (*arguments, [astuple(place) for place in lent])
        with self._changed:
            if self._has_left:
                raise QuiesceMissed(LEFT)
            self._asked += 1
            asked = self._asked
            self._calls[asked] = call
            for place in lent:
                place.is_lent = True  # until it is answered
        if not self._messages.tell("call", asked, name, sent, seconds=self.patience):
            with self._changed:
                if not self._has_left:  # else it may have received the call
                    del self._calls[asked]
                    for place in lent:
                        place.is_lent = False
            raise QuiesceMissed(LEFT)
        return lambda ends: self._answer_to(call, ends)

    def _answer_to(self, call: _OutgoingCall, ends: float) -> Any:
        seconds = max(0.0, ends - time.monotonic()) + min(self.patience, self._wait)
        with self._changed:
            self._changed.wait_for(lambda: call.answer or self._has_left, seconds)
            call.is_late = call.answer is None
            self._unread = [other for other in self._unread if other is not call]
        if call.answer is None:
            what = "has left" if self._has_left else f"didn't answer for {seconds:.3g} s"
            raise QuiesceMissed(f"the client process with sessions {self.told()} {what}")
        result, failure, is_missed = call.answer
        if failure is not None:
            raise (QuiesceMissed if is_missed else ElsewhereError)(failure)
        return result
