"""A process of clients on the same machine, connected by a socket in the file system."""

import glob
import os
from contextlib import suppress
from multiprocessing.connection import Connection, wait
from typing import Any

from ..session._crash_notes import FORKED, notes_of
from ..live._live_auditor import LiveAuditor
from ._client_process import ClientProcess
from ._crash_recovery import LostError, Noted, in_files
from ._messages import Messages
from ._peer import peer_of

ENDING = 5.0  # seconds to notice that a process is dead after its connection has ended


def watched(connection: Connection) -> int | None:
    """A descriptor that becomes readable when the process at the other end has ended; None if the
    system has none."""
    peer = peer_of(connection.fileno())
    try:
        return None if peer is None else os.pidfd_open(peer.process)
    except (AttributeError, OSError):
        return None


def remove(path: str) -> None:
    """Removes a session's notes."""
    for which in range(2):
        with suppress(OSError):
            os.unlink(f"{path}.{which}")


class SocketProcess(ClientProcess):
    """Its notes are files, and the auditor can see that it has ended."""

    def __init__(self, live: LiveAuditor, connection: Connection, notes: str) -> None:
        """`notes` is the path of its sessions' notes, without their numbers."""
        super().__init__(live, Messages(connection))
        self.notes_path, self._connection = notes, connection
        self._asks: dict[str, Any] = {}  # by path of its notes: how to ask the store
        self._watch = watched(connection)

    def _most(self) -> int:
        """Together, half of what may wait here."""
        return max(1, self._live.most_waiting // (2 * self._live.auditor.sessions))

    def _take_next(self) -> None:
        self._wait()
        kind, *rest = self.messages.receive()
        self._deeds[kind](*rest)

    def _wait(self) -> None:
        """Waits for a message. Raises EOFError if the process has ended while somebody else keeps
        its end of the connection open."""
        if self._watch is not None:
            ready = wait([self._connection, self._watch])
            if self._connection not in ready and not self._connection.poll(0):
                raise EOFError

    def _noted(self) -> Noted:
        if not self._is_dead():
            raise LostError("it ended without leaving")
        if os.path.exists(f"{self.notes_path}{FORKED}"):
            raise LostError("it forked, and its child may still use its sessions")
        there = {path[:-2] for path in glob.glob(f"{glob.escape(self.notes_path)}-*.0")}
        # It hasn't reported the notes of a session that was just being made, in which nothing was
        # done.
        if any(notes_of(path) for path in there - {*self._asks}):
            raise LostError("some of its transactions couldn't be noted")
        return in_files(self._asks)

    def _is_dead(self) -> bool:
        """Whether it is dead, which can become visible a while after the end of its connection."""
        return self._watch is not None and bool(wait([self._watch], ENDING))

    def _end(self) -> None:
        self.messages.close()
        if self._watch is not None:
            os.close(self._watch)
        for path in self._asks:
            remove(path)
        with suppress(OSError):
            os.unlink(f"{self.notes_path}{FORKED}")

    def _take_noted(self, which: int, asks: Any) -> None:
        self._asks[f"{self.notes_path}-{which}"] = asks

    def _forget(self, which: int) -> None:
        path = f"{self.notes_path}-{which}"
        self._asks.pop(path, None)
        remove(path)
