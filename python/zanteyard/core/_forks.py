"""Keeps a forked child's transactions out of the audit of its parent's sessions.

A child has no part in the audit. But it may go on using a session, for example over a driver that
reconnects in each process. Then the names that it writes must differ from those that its parent
will use; otherwise a serial run would look like a violation. Therefore the child's transactions get
the names of a session that no audit covers. A transaction that reads what they wrote has read
something unaudited, and the audit reports that it is incomplete. The same holds for sessions that
the child opens with its parent's auditor, whose numbers the parent may give to others.
"""

import os
import threading
import weakref
from typing import Any

UNAUDITED = 1 << 20  # added to a session's number, above the numbers of clients that got no session


class _Nobody:
    """Takes what a child's sessions hand in, and ignores it."""

    def take(self, *_: object) -> None:
        pass

    take_packed = take_close = miss = take


def keep(session: Any) -> None:
    """Registers a session: children forked from now on leave the audit with it. If this process is
    itself a child of the auditor's process, the session leaves at once."""
    _sessions.add(session)
    if is_forked(session.auditor):
        _leave(session)


def is_forked(made: object) -> bool:
    """Whether this process was forked from the one that made this object."""
    process = getattr(made, "made_in", None)
    return isinstance(process, int) and process != os.getpid()


def _leave(session: Any) -> None:
    """Runs in the child, which has no other thread than the one that forked, so that a lock held by
    another thread would never be released. A running transaction keeps the turn; whoever began it
    ends it."""
    place = session.place
    if place is not None:
        number = place.number
        if place.is_audited:
            number += UNAUDITED
        session.place = type(place)(number, begun=place.begun, is_audited=False)
    session.auditor, session.notes, session.is_open = _Nobody(), None, False
    session.renew = _same
    session.gate, session.turn = threading.Lock(), threading.Lock()
    if session.current is not None:
        session.turn.acquire()


def _same(session: Any) -> Any:
    return session.place


def _leave_all() -> None:
    for session in list(_sessions):
        _leave(session)


_sessions: "weakref.WeakSet[Any]" = weakref.WeakSet()
os.register_at_fork(after_in_child=_leave_all)
