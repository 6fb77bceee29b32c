"""The sessions of one process, whether the auditor is in the same process or in another one."""

import os

from ._crash_notes import CrashNotes
from ..core._locks import give_back, take
from ..core._outcome import Policy
from ._stores import Store
from ._place import Place
from ._quiesce import SessionGroup
from ._session import Session

PATIENCE = 5.0  # seconds for asking a store about an unknown outcome


class LocalSessions:
    """Safe for use by several threads. `run_name` is stored next to each value that the sessions
    write; `policy` says how long they wait."""

    def __init__(self, run_name: str, policy: Policy) -> None:
        self.run_name, self.policy, self.made_in = run_name, policy, os.getpid()
        self._group = SessionGroup()

    def leave_session(self, session: Session) -> None:
        """Ends this session's use by its client; another client may get its place. Raises
        ValueError in the middle of a transaction."""
        taken: list[bool] = []
        try:
            if not take(session.turn, self.policy.wait, taken):
                raise ValueError(f"session {session.number} is in a transaction")
            session.is_changing = True  # until its place is given back: a meeting needs the place
            place, session.place, session.renew = session.place, None, None
            is_open, session.is_open = session.is_open, False
            if place is not None and place.is_audited:
                place.is_due = is_open
                self._give_back(place)
            notes, session.notes = session.notes, None
            if notes is not None:
                self._forget(notes)
        finally:
            if taken and taken[-1]:
                if session.place is None:  # else an interrupt came first: it can leave again
                    self._group.remove(session)
                session.is_changing = False
            give_back(session.turn, taken)

    def _add_session(
        self, place: Place, store: Store, patience: float, owed: list[Place]
    ) -> Session:
        """Makes a session with this place. If this raises, the caller gives back the places that
        `owed` still lists: those that no session would give back."""
        made = Session(self, place.number, store, self.run_name, patience, self._renew)
        made.place, made.notes = place, self._notes_of(store)
        made.is_open = place.is_audited and not place.must_join
        made.cant_join = self._cant_join
        try:
            owed.clear()
            self._group.add(made)
            if self._leaves:  # perhaps it has said so already: others may have its place
                made.renew, made.is_open = None, False
            if place.must_join and not made.join_now():
                owed.append(place)
                made.place = None  # another one is requested when its first transaction begins
                self._give_back(owed.pop())
            return made
        except BaseException:
            if owed:
                made.place = None
            give_back(made.turn, made.has_turn)  # an interrupt may have come just before that
            self.leave_session(made)
            raise

    @property
    def _leaves(self) -> bool:
        """Whether what is done in sessions that are added from now on isn't handed in."""
        return False

    def _notes_of(self, store: Store) -> CrashNotes | None:
        """The files with the session's notes, for the process that recovers them if this one is
        killed."""
        return None

    def _forget(self, notes: CrashNotes) -> None:
        """Removes the notes of a session that does nothing more. The caller holds its turn."""

    def _renew(self, session: Session) -> Place | None:
        """A place for a session that has ended: another session's, or its own, unaudited."""
        raise NotImplementedError

    def _cant_join(self, session: Session, why: Exception) -> Place | None:
        """A place that no audit covers, if there is one, for a session whose client can't join. It
        goes on unaudited."""
        raise NotImplementedError

    def _give_back(self, place: Place) -> None:
        """Returns a place to the pool, even one that has ended."""
        raise NotImplementedError
