"""The auditor's sessions that no client has."""

import threading
import time
from collections import deque
from collections.abc import Iterable, Mapping

from ..program._tenancy import Tenancy
from ..program._window import SESSIONS
from ..session._place import Place
from ..session._quiesce import Edge

SPARE = 8  # sessions kept for clients that come, if there are enough
# Seconds for a new session to join. After that it may never do so, for example if it is unknown
# whether its first fence was written. Then no newer sessions can join.
JOINING = 0.5


class SessionPool:
    """The places that no client has; safe for use by several threads. If a meeting has them all, a
    client that wants one waits for its end. A place is given to one client at a time. It is taken
    back once; a second attempt, such as from a late answer, has no effect.

    Some free places are open in the auditor, and the next client continues there. After a meeting
    these are closed. A closed place can be used again once nothing of it remains: its next client
    joins with a fence. So does the client of a new session. A new session has the next number, so
    no other new one is given out until it has joined.
    """

    def __init__(self, sessions: int) -> None:
        self.sessions = sessions  # including one that hasn't joined yet
        self.tenancy = Tenancy()  # which clients had which sessions
        self._left: deque[Place] = deque(Place(number) for number in range(sessions))
        self._back: deque[Place] = deque()  # to be joined by their next clients
        self._ended: dict[int, Place] = {}  # by number: closed, and not forgotten yet
        self._lent: dict[int, Place] = {}  # by number: lent to meetings
        self._taken: set[int] = set()  # the numbers that clients have
        self._changed = threading.Condition()  # guards the above
        self._is_lending = False
        self._can_join = False  # this audit has a fence to join after
        self._new: int | None = None  # the new session that hasn't joined yet
        self._new_at = 0.0  # when it was given out, by the monotonic clock
        self._waiting = 0  # clients
        self._without = 0  # clients that got none since this audit began
        self._has_ended = False  # nothing more is audited
        self._next_unaudited = max(SESSIONS, sessions)

    def take(self, seconds: float, owed: list[Place] | None = None) -> Place | None:
        """A place; None if none becomes free within this many seconds. It is also appended to
        `owed`, so that it isn't lost if an interrupt comes."""
        owed = [] if owed is None else owed
        with self._changed:
            self._waiting += 1
            try:
                self._changed.wait_for(lambda: self._is_any_left() or self._has_ended, seconds)
            finally:
                self._waiting -= 1
            if not self._is_any_left():
                return None
            owed.append(self._next())
            place = owed[-1]
            self._taken.add(place.number)
            if self._has_ended:
                place.must_join, self._new = False, None
            place.client = self.tenancy.begin(place.number, place.begun)
            return place

    def take_unaudited(self) -> Place:
        """A place that no audit covers, for a client that gets no other."""
        with self._changed:
            self._without += 1
            self._next_unaudited += 1
            return Place(self._next_unaudited - 1, is_audited=False)

    def end(self) -> None:
        """Ends the pool, since nothing more is audited: nobody waits for a place or has to join."""
        with self._changed:
            self._has_ended, self._new = True, None
            self._changed.notify_all()

    def give_back(self, places: Iterable[Place]) -> None:
        """Takes back places of clients. One that has ended for this audit isn't free until it
        returns."""
        with self._changed:
            for place in places:
                if place.number in self._taken:
                    self._taken.remove(place.number)
                    self._leave(place)
            self._changed.notify_all()

    def put_back(self, places: Iterable[Place]) -> None:
        """Takes back places that an interrupt has left without an owner."""
        with self._changed:
            for place in places:
                self._taken.discard(place.number)
                self._leave(place)
            self._changed.notify_all()

    def drop(self, numbers: Iterable[int]) -> None:
        """Records that nobody has these in this audit: their clients are lost, or have other
        places."""
        with self._changed:
            self._taken.difference_update(numbers)

    def keep(self) -> None:
        """Keeps open places back for a meeting, until `take_back`."""
        with self._changed:
            self._is_lending = True

    def coming(self, there: Iterable[int]) -> set[int]:
        """The numbers that clients have and that aren't in `there` yet."""
        with self._changed:
            return self._taken.difference(there)

    def lend(self) -> list[Place]:
        """Lends all open places to a meeting, until `take_back`."""
        with self._changed:
            self._is_lending, places = True, list(self._left)
            self._lent.update((place.number, place) for place in places)
            self._left.clear()
        return places

    def lend_taken(self, places: Iterable[Place]) -> None:
        """Also lends the meeting the places that idle clients have given back."""
        with self._changed:
            for place in places:
                if place.number in self._taken:
                    self._taken.remove(place.number)
                    self._lent[place.number] = place

    def spare(self, places: Iterable[Place]) -> list[Place]:
        """The lent places that stay open for clients that come. A closed place returns only after a
        cut, and nobody knows when that is. So half of the places without clients stay available,
        and a few if there are few."""
        with self._changed:
            lent = [
                place
                for place in places
                if self._lent.get(place.number) is place and _is_behind(place)
            ]
            joining = self._may_join()
            half = (len(lent) + len(self._ended) - joining + 1) // 2
            return lent[: max(0, SPARE - joining, half)]

    def close(self, places: Iterable[Place]) -> list[int]:
        """Marks those lent places as ended that have done nothing after the meeting's fence, and
        returns their numbers."""
        with self._changed:
            lent = [
                place
                for place in places
                if self._lent.get(place.number) is place and _is_behind(place)
            ]
            for place in lent:
                place.has_flag, place.is_ended = False, True
            return [place.number for place in lent]

    def take_back(self, places: Iterable[Place], is_over: bool = True) -> None:
        """Takes back what was lent to a meeting that is over, or what a process has answered for
        since then. What a process hasn't answered for stays lent."""
        with self._changed:
            self._is_lending = self._is_lending and not is_over
            for place in places:
                if self._lent.get(place.number) is place and not place.is_lent:
                    del self._lent[place.number]
                    self._leave(place)
            self._changed.notify_all()

    @property
    def taken(self) -> int:
        """How many clients have a place."""
        return len(self._taken)

    @property
    def are_all_taken(self) -> bool:
        """Whether as many clients have a place as possible."""
        return len(self._taken) >= SESSIONS

    @property
    def free(self) -> int:
        """How many more clients may have a place now."""
        with self._changed:
            return len(self._left) + (self._may_join() if self._can_join else 0)

    # sessions that join and return

    @property
    def new(self) -> int | None:
        """The number that is to join next; None if there is none."""
        return self._new

    def note_joined(self, number: int) -> None:
        """Notes that the new session's first transaction was handed in."""
        with self._changed:
            if self._new == number:
                self._new = None
            self._changed.notify_all()

    def let_join(self) -> None:
        """Lets clients join from now on: this audit has a fence."""
        with self._changed:
            self._can_join = True
            self._changed.notify_all()

    def come_back(self, vacant: Mapping[int, int]) -> None:
        """Makes sessions available of which nothing remains, each with the number of its next
        transaction. If somebody may already have used that number, the session stays ended."""
        with self._changed:
            for number, following in vacant.items():
                place = self._ended.get(number)
                if place is not None and place.begun == following and _is_over(place):
                    del self._ended[number]
                    place.is_ended = place.is_due = place.has_flag = False
                    place.must_join = True
                    self._back.append(place)
            self._changed.notify_all()

    @property
    def wants_meeting(self) -> bool:
        """Whether somebody needs what a meeting would free, or may soon need it."""
        with self._changed:
            if not self._can_join:
                return self._waiting > 0 and not self._left
            free = self._may_join() + len(self._left)
            return free < SPARE and any(map(_is_over, self._ended.values()))

    # another audit, in which all are open

    def begin_anew(self, place: Place) -> None:
        """Uses this place in another audit, in place of the one with its number that nobody has, or
        that was lent and not answered for."""
        with self._changed:
            if place.number in self._nobodys():
                self._lent.pop(place.number, None)
                self._ended.pop(place.number, None)
                self._left.append(place)
            self._changed.notify_all()

    def grow(self) -> None:
        """Adds sessions for the clients that got none, as far as possible. Nobody joins the
        previous audit any more, which didn't know these sessions."""
        with self._changed:
            self._can_join, self._new = False, None
            for _ in range(min(self._without, SESSIONS - self.sessions)):
                self._left.append(Place(self.sessions))
                self.sessions += 1
            self._without = 0
            self._changed.notify_all()

    def reopen(self) -> None:
        """Opens everything that is closed, for the audit that begins."""
        with self._changed:
            ended = [place for place in self._ended.values() if _is_over(place)]
            for place in [*self._back, *ended]:
                self._ended.pop(place.number, None)
                place.is_due, place.is_ended, place.must_join = True, False, False
                self._left.append(place)
            self._back.clear()
            self._can_join, self._new = False, None
            self._changed.notify_all()

    def nobodys(self) -> set[int]:
        """The numbers of places that are neither free nor a client's."""
        with self._changed:
            return self._nobodys()

    def numbers(self) -> list[int]:
        with self._changed:
            return [place.number for place in [*self._left, *self._back]]

    def edges(self) -> list[Edge]:
        """As `SessionGroup.edges`; nothing runs in these."""
        with self._changed:
            places = [*self._left, *self._back, *filter(_is_over, self._ended.values())]
            return [(place.number, place.begun, place.begun, place.unknown) for place in places]

    # the caller holds the lock

    def _is_any_left(self) -> bool:
        may_join = self._can_join and (bool(self._back) or self._may_grow())
        return may_join or (bool(self._left) and not self._is_lending)

    def _may_join(self) -> int:
        """How many may join now, one after another."""
        is_stuck = self._new is not None and time.monotonic() > self._new_at + JOINING
        return len(self._back) + (0 if is_stuck else max(0, SESSIONS - self.sessions))

    def _may_grow(self) -> bool:
        return self._new is None and self.sessions < SESSIONS

    def _next(self) -> Place:
        """A free place: if possible, one in which no other client has been since it was closed."""
        if self._can_join and self._back:
            return self._back.popleft()
        if self._can_join and self._may_grow():
            self._new, self.sessions = self.sessions, self.sessions + 1
            self._new_at = time.monotonic()
            return Place(self._new, must_join=True)
        return self._left.popleft()

    def _nobodys(self) -> set[int]:
        left = [*self._left, *self._back, *filter(_is_over, self._ended.values())]
        return {*range(self.sessions)} - self._taken - {place.number for place in left}

    def _leave(self, place: Place) -> None:
        if not place.is_audited:
            return
        if place.is_ended:
            self._ended[place.number] = place
        elif place.must_join and place.number == self._new:
            self.sessions, self._new = place.number, None  # nobody has seen it
        elif place.must_join and self._can_join:
            self._back.append(place)
        else:
            if place.must_join:  # that was in the previous audit
                place.is_due, place.must_join = True, False
            self._left.append(place)


def _is_behind(place: Place) -> bool:
    """Whether everything done in it comes before the meeting's fence, and it is still open."""
    return not (place.is_lent or place.is_due or place.is_ended)


def _is_over(place: Place) -> bool:
    """Whether no further transaction can turn up in it."""
    return all(end <= place.begun for _, end in place.unknown)
