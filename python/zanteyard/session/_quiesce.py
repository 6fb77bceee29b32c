"""The sessions of one process, as meetings use them.

At a meeting each session is held when its transaction ends. It then writes its flag, a key of its
own, while one session, the leader, overwrites the mark. The leader reads all flags, the keys that
were written but not read, and the keys whose last writer is a session that has ended. It then runs
a fence and writes the mark again, and all others read the mark before they go on. Thus every
earlier transaction comes before the fence, every later one after it, and the last writer of each
key is known. A session that has done nothing since it read the mark needs no flag, because whoever
overwrites what it read comes after it. Flags are written in parallel, and the mark is read in
parallel: five statements are run one after another, however many sessions there are.
"""

import functools
import threading
import time
from collections.abc import Callable, Sequence
from concurrent.futures import Future, ThreadPoolExecutor, wait
from typing import Any

from ._attempts import Result
from ._place import Place
from ._session import Session

# A session's number, how many of its transactions were answered, the first number that wasn't sent,
# and the ranges of numbers whose outcome is unknown.
Edge = tuple[int, int, int, tuple[tuple[int, int], ...]]
Wait = Callable[[float], Result]  # its argument: until when, by the monotonic clock


class QuiesceMissed(Exception):
    """The meeting can't take place; the text says why."""


def _give_turn(session: Session, _: object) -> None:
    session.turn.release()


def none_running() -> Future[object]:
    done: Future[object] = Future()
    done.set_result(None)
    return done


class SessionGroup:
    """Everything here except `sessions` is for one thread at a time. Methods are called in this
    order: `gather`; `share` and `lead` in one group only; `pass_on`; `release`. A group that isn't
    called in time releases its sessions itself and raises QuiesceMissed from then on."""

    is_here = True

    def __init__(self) -> None:
        self.sessions: list[Session] = []
        self.gate = threading.Lock()  # held during a meeting: no transaction begins
        self.lock = threading.Lock()  # protects what follows, since a timer may release
        self.meeting: int | None = None
        self.held: dict[Session, Future[object]] = {}
        self.leader: Session | None = None  # the one that leads, if it is one of these
        self.timer: threading.Timer | None = None
        self.asked_at = 0.0  # when `edges` was called last, by the monotonic clock
        self._had_ended: list[Place] = []  # the places that had ended by then
        self.pool = ThreadPoolExecutor(64, "zanteyard-meeting")  # creates threads on demand

    def add(self, session: Session) -> None:
        session.gate = self.gate
        self.sessions.append(session)

    def remove(self, session: Session) -> None:
        if session in self.sessions:
            self.sessions.remove(session)

    @property
    def has_sessions(self) -> bool:
        return any(session.is_open for session in list(self.sessions))

    def gather(
        self, meeting: int, seconds: float, leads: bool, places: Sequence[Place], idle: float
    ) -> tuple[list[int], list[Place]]:
        """Holds all sessions and has flags written: by these sessions, and for the places in
        `places`, which are lent. Returns the numbers of those that have flags, and the places of
        sessions that were idle for `idle` seconds."""
        self.ends = time.monotonic() + seconds
        if not self.gate.acquire(timeout=seconds):
            raise QuiesceMissed("the previous meeting isn't over")
        with self.lock:
            self.meeting, self.held = meeting, {}
            self.timer = threading.Timer(seconds, self.release, (meeting,))
            self.timer.daemon = True
            self.timer.start()
        # The meeting waits for sessions that are joining or leaving.
        there = list(self.sessions)  # others may be added meanwhile
        summoned = [session for session in there if session.is_open or session.is_changing]
        may_lead = [session for session in summoned if session.is_open]
        if leads and not may_lead:
            raise QuiesceMissed("no client has a session")
        self.leader = max(may_lead, key=lambda session: session.used_at) if leads else None
        for session in sorted(summoned, key=lambda session: session.current is not None):
            place = self.hold(session, meeting, seconds)
            if session.is_open and session is self.leader:
                self.begin(meeting, session, "write_mark")
            elif session.is_open and place.is_due:
                self.begin(meeting, session, "flag")
        self.end_all()
        if self.leader is not None and not self.leader.is_open:  # it left before it was held
            self.lead_instead(meeting)
        self.share(meeting, places, "flag")
        with self.lock:  # else a released session could go on meanwhile
            if self.meeting != meeting:
                raise QuiesceMissed("the meeting took too long")
            flags = [
                session.place.number
                for session in self.held
                if session.is_open and session.place.has_flag
            ]
            flags += [place.number for place in places if place.has_flag]
            return flags, self.given_back(idle)

    def lead_instead(self, meeting: int) -> None:
        """Makes another one of the held sessions the leader."""
        self.leader = next((session for session in self.held if session.is_open), None)
        if self.leader is None:
            raise QuiesceMissed("no client has a session")
        self.begin(meeting, self.leader, "write_mark")
        self.end_all()

    def begin_gather(
        self, meeting: int, seconds: float, leads: bool, places: Sequence[Place], idle: float
    ) -> Wait[tuple[list[int], list[Place]]]:
        """The `begin_` methods start a step and return a function that waits for its end, so that
        other processes can work at the same time. Here the step ends before they return."""
        gathered = self.gather(meeting, seconds, leads, places, idle)
        return lambda ends: gathered

    def begin_flag(self, meeting: int, places: Sequence[Place]) -> Wait[None]:
        self.share(meeting, places, "flag")
        return lambda ends: None

    def begin_lead(self, meeting: int, lists: Sequence[Sequence[str]]) -> Wait[None]:
        self.lead(meeting, lists)
        return lambda ends: None

    def begin_pass_on(self, meeting: int, places: Sequence[Place]) -> Wait[None]:
        self.pass_on(meeting, places)
        return lambda ends: None

    def hold(self, session: Session, meeting: int, seconds: float) -> Any:
        """Waits for the session's turn and keeps it. Returns the session's place."""
        if not session.turn.acquire(timeout=self.left()):
            message = f"a transaction of session {session.number} took longer than {seconds:g} s"
            raise QuiesceMissed(message)
        with self.lock:
            if self.meeting != meeting:
                session.turn.release()
                raise QuiesceMissed("the meeting took too long")
            self.held[session] = none_running()
            return session.place

    def given_back(self, idle: float) -> list[Place]:
        """Takes the places of idle sessions back; their clients get another one when they return.
        The caller holds the lock."""
        places = []
        for session in list(self.held):
            is_idle = time.monotonic() - session.used_at > idle
            if is_idle and session is not self.leader and session.is_open:
                places.append(session.place)
                session.is_open, session.place = False, None
        return places

    def lead(self, meeting: int, lists: Sequence[Sequence[str]]) -> None:
        """Has the leader read these keys, then run its fence and write the mark."""
        assert self.leader is not None
        for keys in lists:
            self.begin(meeting, self.leader, "read_all", keys)
            self.end_all()
        for deed in ("fence", "write_mark"):
            self.begin(meeting, self.leader, deed)
            self.end_all()

    def pass_on(self, meeting: int, places: Sequence[Place]) -> None:
        """Has all other sessions read the mark, also for lent places."""
        for session in self.held:
            if session is not self.leader and session.is_open:
                self.begin(meeting, session, "read_mark")
        self.end_all()
        self.share(meeting, places, "read_mark")

    def share(self, meeting: int, places: Sequence[Place], deed: str) -> None:
        """Runs for these places what they need, over the sessions' connections."""
        lenders = [session for session in self.held if session.is_open] if places else []
        for start in range(0, len(places) if lenders else 0, max(1, len(lenders))):
            for place, session in zip(places[start : start + len(lenders)], lenders):
                self.begin(meeting, session, "lend", place, deed)
            self.end_all()

    def begin(self, meeting: int, session: Session, deed: str, *arguments: object) -> None:
        with self.lock:
            if self.meeting != meeting:
                raise QuiesceMissed("the meeting took too long")
            run = getattr(session, deed)
            self.held[session] = self.pool.submit(run, *arguments, max(0.001, self.left()))

    def end_all(self) -> None:
        """Waits for everything that was begun. Raises what failed."""
        running = list(self.held.values())
        _, late = wait(running, self.left())
        if late:
            raise QuiesceMissed("the store took too long")
        for call in running:
            call.result()

    def left(self) -> float:
        return max(0.0, self.ends - time.monotonic())

    def release(self, meeting: int | None = None) -> None:
        """Lets all sessions go on; one whose connection is still in use follows as soon as it is
        free. Does nothing if it was called before."""
        with self.lock:
            if self.meeting is None or meeting not in (None, self.meeting):
                return
            if self.timer is not None:
                self.timer.cancel()
            self.meeting, held, self.held = None, self.held, {}
        for session, running in held.items():
            running.add_done_callback(functools.partial(_give_turn, session))
        self.gate.release()

    def edges(self) -> list[Edge]:
        """For each session its number, how many of its transactions have been answered, the first
        number that hasn't been sent, and the numbers whose outcome is unknown. Call it twice:
        whatever had been answered when the first call returned had been answered before anything
        was sent that hadn't been sent at the second call."""
        edges: list[Edge] = []
        self.asked_at, self._had_ended = time.monotonic(), []
        for session in list(self.sessions):
            place = session.place  # its client may leave it meanwhile
            if place is None:
                continue
            if place.is_ended:
                self._had_ended.append(place)
            begun = place.begun  # read before `running`: if nothing runs, all of these have ended
            running = session.running
            if running is None:
                edges.append((place.number, begun, begun, place.unknown))
            else:
                first = running.number + 1 if running.is_committing else running.number
                edges.append((place.number, running.number, first, place.unknown))
        return edges

    def reopen(self) -> None:
        """Opens all places, since another audit begins in which each of them may be used again. A
        place that had ended when `edges` was called ended in the previous audit. A place that has
        ended since then has ended in the new one."""
        for session in list(self.sessions):
            place = session.place
            if (
                place is None
                or place.is_ended
                and not any(ended is place for ended in self._had_ended)
            ):
                continue
            session.is_open, place.is_due = place.is_audited, True
            place.is_ended = place.must_join = False
        self._had_ended = []

    def numbers(self) -> list[int]:
        """The numbers of the sessions' places."""
        places = [session.place for session in list(self.sessions)]
        return [place.number for place in places if place is not None]

    there = numbers

    def end(self) -> None:
        """Ends the group; no meeting follows. Statements that the store hasn't answered are given
        up, since a program waits for its pools' threads before it exits."""
        self.pool.shutdown(wait=False)
        for session in list(self.sessions):
            running = session.running
            if running is not None and not running.holds:
                session.hang_up()
