"""A process of clients of a live audit; `_server.py` says how it takes part."""

from __future__ import annotations

import logging
import os
import threading
import time
import weakref
from collections.abc import Callable
from dataclasses import astuple
from typing import Any

from ..core._outcome import Policy
from ..core._records import Logged
from ..core._store_identity import StoreIdentity
from ..session._stores import Store
from ..core.errors import ProgramEndedError
from ..live._live_auditor import PAUSE
from ..session._local_sessions import PATIENCE, LocalSessions
from ..session._place import Place
from ..session._session import Session
from ..session._store_calls import StoreCalls
from ._connecting import ANSWERING, Door, is_redis
from ._messages import AnyMessages
from ._outbox import Outbox
from ._quiesce_calls import QuiesceCalls
from ._session_requests import SessionRequests
from ._store_answers import StoreAnswers

logger = logging.getLogger("zanteyard")
LEAVING = 30.0  # seconds for sessions to end their transactions


class AuditClient(LocalSessions):
    """Stands in for a LiveAuditor in another process. `path` is that of an AuditServer's socket, or
    the URL of the Redis by which a RedisServer on another machine serves the audit of this name;
    `key` is then the file with the key that both have (the environment's ZANTEYARD_KEY). Call
    `leave` when the sessions do nothing more. If a process behind a socket is killed, its last
    transactions are recovered from its notes (`core/_crash_notes.py`); what one behind a Redis did
    last is lost, which ends the audit.

    Raises OSError if there is no server, ProgramEndedError if it doesn't answer, OtherVersionError
    if the versions of the two processes don't fit, FolderUnfitError if another user listens at the
    path or has the notes' folder, and KeyFileError. With `redacts`, neither values nor constants of
    statements leave this process or get into its notes. Safe for use by several threads.
    """

    def __init__(
        self, path: str, redacts: bool = False, *, audit: str = "audit", key: str | None = None
    ) -> None:
        self.redacts = redacts
        self._door: Any = _redis_door(path, audit, key) if is_redis(path) else Door(path)
        self._messages: AnyMessages = self._door.messages
        run_name, self.is_named, self.token, most, policy = self._door.welcome()
        super().__init__(run_name, Policy(*policy))
        self._notes: dict[Any, int] = {}  # the numbers by which the auditor's process knows them
        self._count, self._noting = 0, threading.Lock()
        _forked.add(self)
        self._outbox = Outbox(self._messages, most)
        self._requests = SessionRequests(self._messages)
        self._store_answers = StoreAnswers(self._messages)
        coming = self._requests.coming
        self._calls = QuiesceCalls(self._group, self._messages, self._outbox, coming)
        self._is_over = self._is_gone = False  # the audit, and the auditor's process
        self._renewed = 0.0  # when a session that had ended was last refused another place
        self._deeds: dict[str, Callable[..., None]] = {
            "call": self._calls.put,
            "left": self._requests.take_answer,
            "over": self._note_end,
            "store": self._store_answers.take_answer,
            "taken": self._outbox.note_taken,
        }
        targets = (self._listen, self._calls.run_all, self._hand_over)
        self._threads = [threading.Thread(target=target, daemon=True) for target in targets]
        for thread in self._threads:
            thread.start()

    @property
    def sessions(self) -> list[Session]:
        """The sessions of this process."""
        return self._group.sessions

    @property
    def is_over(self) -> bool:
        """Whether nothing more is audited: a violation was found, the audit has ended for good, or
        the auditor's process is gone."""
        return self._is_over

    def session(self, store: Store, patience: float = PATIENCE) -> Session:
        """A session for a new client. `patience` is how many seconds it asks the store for an
        unknown outcome. Raises what `LiveAuditor.session` raises, and ProgramEndedError if nothing
        more is audited or nobody answers."""
        seconds = ANSWERING + self.policy.wait  # a meeting may have all free places for that long
        owed: list[Place] = []  # places that no session has yet
        try:
            owed += filter(None, [self._requests.asked("join", True, seconds=seconds)])
            if owed:
                if not owed[0].is_audited:
                    self._renewed = time.monotonic()
                return self._add_session(owed[0], store, patience, owed)
        except BaseException:
            for place in owed:
                if place.is_audited:
                    self._give_back(place)
            raise
        if self._is_over:
            raise ProgramEndedError("auditing has stopped")
        raise ValueError("no session is free: all have clients")

    def leave(self, seconds: float = LEAVING) -> None:
        """Hands over what is left and gives the sessions back. Waits for a meeting that holds them.
        If a session is still in a transaction after this many seconds, the process counts as lost.
        May be called again."""
        if self._calls.is_leaving:
            return
        self._calls.is_leaving, ends = True, time.monotonic() + seconds
        taken = [
            session
            for session in self.sessions
            if session.turn.acquire(timeout=max(0.0, ends - time.monotonic()))
        ]
        self._hand_over_all()
        if len(taken) == len(self.sessions):
            places = [
                session.place
                for session in self.sessions
                if session.place and session.place.is_audited
            ]
            self._messages.tell("leave", [astuple(place) for place in places])
        else:
            self._messages.tell("lose", "a session was in a transaction when it left")
        for session in self.sessions:
            session.is_open, session.renew = False, None
        nobodys = {session.notes for session in taken}
        for session in taken:
            session.turn.release()
        for thread in self._threads:
            thread.join(ANSWERING)
        self._group.end()
        self._messages.close()
        for notes in list(self._notes):
            if notes in nobodys:
                notes.close()
            else:
                notes.end()  # a thread may be writing

    def __enter__(self) -> AuditClient:
        return self

    def __exit__(self, *_: object) -> None:
        self.leave()

    # what sessions call

    def meet_store(self, identity: StoreIdentity) -> None:
        """Raises StoreUnfitError if this isn't the audit's store, unless nothing more is audited.
        If the auditor's process doesn't answer in time, the client goes on. The auditor's process
        is told so before anything that the client then does; if it is another store, it takes in
        none of that."""
        if self._is_over or self._store_answers.meet(identity, self.policy.wait):
            return
        try:
            self._messages.hand_on("assumed", *identity)
        except OSError as error:
            self._lose(f"unknown whether this is the audit's store: {error}")

    def take(self, session: int, number: int, logged: Logged) -> None:
        """Hands over what a transaction did. Waits for room as long as the policy says."""
        self.take_packed(session, number, logged, None)

    def take_packed(
        self, session: int, number: int, logged: Logged, packed: bytes | None
    ) -> None:
        """The same; `packed` is what was logged as bytes, if it is packed already."""
        if self._outbox.lost is not None or self._is_gone:
            self._outbox.dropped += 1
            return
        try:
            self._outbox.put(session, number, logged, packed)
        except ValueError as error:
            self._outbox.dropped += 1
            self._lose(f"can't hand over transaction {number} of session {session}: {error}")
            return
        self._wait_for_room()

    def miss(self, session: int, number: int, error: Exception) -> None:
        """Records that it is unknown whether this transaction was handed in."""
        if self._outbox.lost is None:  # first, so that the reason is known before the loss
            self._lose(str(error))
        self._outbox.put_behind("missed", session, number)

    def take_close(self, session: int) -> None:
        """The session does nothing more."""
        self._outbox.put_close(session)

    def _wait_for_room(self) -> None:
        """Waits for room, except during a meeting: that needs the session's turn, and nothing is
        reported as taken in meanwhile."""
        ends, sessions = time.monotonic() + self.policy.wait, len(self.sessions)
        while self._outbox.is_full(sessions) and not self._goes_on():
            if time.monotonic() > ends:
                count = self._outbox.on_their_way
                waited = f"for {self.policy.wait:g} s"
                self._lose(f"no room {waited}: {count} transactions are on their way")
            time.sleep(PAUSE / 8)

    def _goes_on(self) -> bool:
        """Whether nobody has to wait for room."""
        return self._is_over or self._outbox.lost is not None or self._group.gate.locked()

    def _lose(self, why: str) -> None:
        """Ends the auditing of this process until another audit begins."""
        self._outbox.lose(why)
        logger.error("auditing has stopped: %s", why)

    @property
    def _leaves(self) -> bool:
        return self._calls.is_leaving

    def _renew(self, session: Session) -> Place | None:
        """Another place for a session that has ended. If there is none, the client goes on
        unaudited, and asks again at most once a second."""
        if session.place is not None and time.monotonic() < self._renewed + 1:
            place: Place = session.place
            return place
        wait = self.policy.wait / 2
        answer = self._requests.ask("join", False, seconds=wait)
        if answer is None:
            self._renewed = time.monotonic()
            if self._outbox.lost is None and not self._is_over:
                self._lose("no session is free for a client")
            return session.place or self._requests.ask("overflow", seconds=wait)
        if session.place is not None and session.place.is_audited:  # its place has ended
            self._give_back(session.place)
        return answer

    def _cant_join(self, session: Session, why: Exception) -> Place | None:
        try:  # first, so that the next audit has a session for it
            answer = self._requests.ask("overflow", seconds=self.policy.wait / 2)
        finally:
            if self._outbox.lost is None:
                self._lose(f"a client couldn't join: {why}")
        if answer is not None:
            self._give_back(session.place)
        return answer

    def _notes_of(self, store: Store) -> Any:
        """The session's notes. The auditor's process is told first where they are and how the store
        is asked."""
        with self._noting:
            self._count += 1
            which = self._count
        try:
            notes = self._door.notes(which, self._outbox)
        except OSError as error:
            logger.error("the audit will end if this process is killed: %s", error)
            self._messages.tell("unnoted", seconds=ANSWERING)
            return None
        if notes is None:  # behind a Redis
            return None
        self._notes[notes] = which
        asks = StoreCalls(store).asks()
        if not self._messages.tell("noted", which, asks, seconds=ANSWERING):
            self._messages.tell("noted", which, None, seconds=ANSWERING)  # `asks` can't be sent
        if self._is_gone:
            notes.end()
        return notes

    def _forget(self, notes: Any) -> None:
        """Gives the notes up. The auditor's process removes the files once everything in them has
        been handed over and the session's place has been given back."""
        which = self._notes.pop(notes, None)
        notes.let_go()
        if which is not None:
            self._outbox.put_behind("forget", which)

    def _give_back(self, place: Place) -> None:
        self._outbox.put_behind("back", astuple(place))
        self._requests.coming.discard(place.number)

    # the threads

    def _hand_over(self) -> None:
        while not (self._calls.is_leaving or self._is_gone):
            self._outbox.pause(PAUSE)
            self._hand_over_all()

    def _hand_over_all(self) -> None:
        try:
            self._outbox.send_all()
        except OSError:
            self._note_gone()

    def _listen(self) -> None:
        try:
            while True:
                kind, *rest = self._messages.receive()
                self._deeds[kind](*rest)
        except (EOFError, OSError):
            pass  # the auditor's process has closed it, or is gone
        finally:
            self._note_gone()
            self._calls.end()

    def _note_end(self) -> None:
        self._is_over = True

    def _note_gone(self) -> None:
        """Records that the auditor's process can't be reached. The clients go on."""
        self._is_over = self._is_gone = True
        self._requests.end()
        self._store_answers.end()
        for notes in list(self._notes):
            notes.end()

    def _mark_fork(self) -> None:
        """Marks that this process forks, before it does. The child may use the sessions unnoticed
        after this process has ended. If this process is then found killed, the audit ends."""
        if self._is_gone and self._calls.is_leaving:
            return  # it has left, or is such a child
        try:
            self._door.note_fork()
        except OSError:
            for notes in list(self._notes):
                notes.remove()  # which has the same effect

    def _be_forked(self) -> None:
        """Takes a forked child out of the audit. It must not keep the connection open, whose end
        says that the parent has ended, nor write to the parent's notes."""
        self._is_over = self._is_gone = True
        self._calls.is_leaving = True
        self._requests.has_ended = True
        try:
            self._messages.close()
            for notes in list(self._notes):
                notes.let_go()
        except OSError:
            pass  # it was closed before the fork


def _redis_door(url: str, audit: str, key: str | None) -> Any:
    from ._redis_door import RedisDoor  # only here, since redis-py is optional

    return RedisDoor(url, audit, key)


_forked: "weakref.WeakSet[AuditClient]" = weakref.WeakSet()


def _be_forked() -> None:
    for client in list(_forked):
        client._be_forked()


def _mark_fork() -> None:
    for client in list(_forked):
        client._mark_fork()


os.register_at_fork(before=_mark_fork, after_in_child=_be_forked)
