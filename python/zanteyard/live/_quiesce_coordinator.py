"""Holds meetings of the sessions of all processes; `session/_quiesce.py` says what a meeting is."""

import time
from collections.abc import Sequence
from typing import NamedTuple, Protocol

from ..core._own_keys import FLAG, is_own
from ..session._place import Place
from ..session._quiesce import Edge, QuiesceMissed, Wait
from ._backlog import Backlog
from ._session_pool import SessionPool

READS = 200  # reads of one transaction; the auditor takes 256
COMING = 0.2  # seconds for a client to start using a session that it was given


class QuiesceGroup(Protocol):
    """The sessions of one process, here or elsewhere; `SessionGroup` says what each call does."""

    @property
    def is_here(self) -> bool:
        ...

    @property
    def has_sessions(self) -> bool:
        ...

    @property
    def asked_at(self) -> float:
        ...

    def numbers(self) -> Sequence[int]:
        ...

    def there(self) -> Sequence[int]:
        """The numbers of the sessions that a call would find."""

    def begin_gather(
        self, meeting: int, seconds: float, leads: bool, places: Sequence[Place], idle: float
    ) -> Wait[tuple[list[int], list[Place]]]:
        ...

    def begin_flag(self, meeting: int, places: Sequence[Place]) -> Wait[None]:
        ...

    def begin_lead(self, meeting: int, lists: Sequence[Sequence[str]]) -> Wait[None]:
        ...

    def begin_pass_on(self, meeting: int, places: Sequence[Place]) -> Wait[None]:
        ...

    def release(self) -> None:
        ...

    def edges(self) -> Sequence[Edge] | None:
        """None if the process doesn't answer; then none of its sessions is audited."""

    def reopen(self) -> None:
        ...


class Met(NamedTuple):
    """The result of a meeting. `failure` says why it failed; None if all sessions have met. `came`
    is how many transactions were waiting to be taken in when clients went on: the source of each of
    their reads is among them or was taken in before."""

    failure: str | None
    came: int


class QuiesceCoordinator:
    """For the auditor's thread, except `groups`, to which any thread may add."""

    def __init__(self, groups: list[QuiesceGroup], places: SessionPool, backlog: Backlog) -> None:
        self.groups, self._pool, self._backlog = groups, places, backlog
        self.meetings = 0
        self.is_meeting = False  # clients wait for the meeting, and so for nothing else
        self._counted = 0  # transactions handed in when the last one ended
        self._kept: list[Place] = []  # by the last one, for clients that come

    @property
    def new(self) -> int:
        """How many transactions were handed in since the last meeting."""
        return self._backlog.counted - self._counted

    def start_anew(self) -> None:
        """Counts from now on, as if a meeting had just ended."""
        self._counted = self._backlog.counted

    def go_on(self, remaining: int) -> None:
        """Continues after another process, with this many transactions that it took in and that
        aren't forgotten. If they didn't count, an auditor that is killed more often than meetings
        are due would never have one."""
        self._counted = self._backlog.counted - remaining

    def meet(self, patience: float, idle: float) -> Met:
        """Holds a meeting. It waits `patience` seconds for clients' transactions. Clients that were
        idle for `idle` seconds lose their sessions."""
        self._wait_for_who_comes()
        self.meetings, self.is_meeting = self.meetings + 1, True
        groups, places = list(self.groups), self._pool.lend()
        failure: str | None = None
        try:
            failure = self._hold(groups, places, patience, idle)
            if failure is None:
                self._close(places)
        except QuiesceMissed as error:
            failure = str(error)
        except Exception as error:  # an error of the store, which a client will meet, too
            failure = f"the meeting failed ({str(error).strip() or type(error).__name__})"
        finally:
            self.is_meeting, came = False, len(self._backlog)
            for group in groups:
                group.release()
            self._pool.take_back(places)
        self._counted = self._backlog.counted
        return Met(failure, came)

    def _wait_for_who_comes(self) -> None:
        """Waits for clients that were just given a session of another client. The meeting must find
        them by the call for that session; otherwise nothing would show that what was done there
        comes before the fence."""
        self._pool.keep()
        ends = time.monotonic() + COMING
        while time.monotonic() < ends:
            there = [number for group in list(self.groups) for number in group.there()]
            if not self._pool.coming(there):
                break
            time.sleep(COMING / 100)

    def _close(self, places: Sequence[Place]) -> None:
        """Closes the places that nobody has; everything done there comes before the fence."""
        kept = {place.number for place in self._kept}
        for number in self._pool.close(place for place in places if place.number not in kept):
            self._backlog.put((time.monotonic(), number, None, None))

    def _hold(
        self, groups: Sequence[QuiesceGroup], places: list[Place], patience: float, idle: float
    ) -> str | None:
        """Holds all sessions. Returns the reason if that fails. Adds places that clients give back
        to `places`."""
        number, ends = self.meetings, time.monotonic() + patience
        # The local group comes last, so that it works while others do.
        meeting = sorted(
            (group for group in groups if group.has_sessions), key=lambda group: group.is_here
        )
        if not meeting:
            return "no client has a session"
        leading = meeting[number % len(meeting)]
        shares = [places[at :: len(meeting)] for at in range(len(meeting))]
        unread = {place.number for place in places if place.has_flag}
        gathering = [
            group.begin_gather(
                number, patience, group is leading, [place for place in share if place.is_due], idle
            )
            for group, share in zip(meeting, shares)
        ]
        for gathered in gathering:
            flags, given_back = gathered(ends)
            unread.update(flags)
            self._pool.lend_taken(given_back)
            places.extend(given_back)
        late = self._pool.lend()  # their clients left while others were called
        if late:
            places.extend(late)
            leading.begin_flag(number, [place for place in late if place.is_due])(ends)
            unread.update(place.number for place in late if place.has_flag)
        self._lead(leading, unread, ends)
        self._pool.let_join()
        self._kept = self._pool.spare(places)  # places that then come before the fence
        passing = [
            group.begin_pass_on(number, self._kept if group is leading else [])
            for group in meeting
        ]
        for passed in passing:
            passed(ends)
        return None

    def _lead(self, leading: QuiesceGroup, unread: set[int], ends: float) -> None:
        """Has the leader read what nobody has read. First come the flags of `unread` and those of
        ended sessions, with as many keys as there is room for."""
        gone = self._backlog.take_ends()
        flags = sorted({f"{FLAG}{session}" for session in unread}.union(filter(is_own, gone)))
        unread_keys = self._backlog.take_unseen().union(gone)
        keys = sorted((key for key in unread_keys if not is_own(key)), key=repr)
        lists = [[*flags, *keys[: READS - len(flags)]]]
        rest = keys[READS - len(flags) :]
        lists += [rest[start : start + READS] for start in range(0, len(rest), READS)]
        try:
            leading.begin_lead(self.meetings, [batch for batch in lists if batch])(ends)
        except BaseException:  # to be read at the next meeting
            self._backlog.put_unseen(keys)
            self._backlog.put_ends(gone)
            raise
