"""Connects a process of clients to the auditor's process, over a socket in the file system."""

import contextlib
import functools
import os
from multiprocessing.connection import Client
from typing import Any

from ..session._crash_notes import FORKED, CrashNotes
from ..core._private_files import check_folder
from ..core._version import FORM, VERSION
from ..core.errors import OtherVersionError, ProgramEndedError
from ._messages import Messages
from ._outbox import Outbox
from ._peer import refuse_others

ANSWERING = 5.0  # seconds for an answer of the auditor's process


def is_redis(path: str) -> bool:
    """Whether this is a Redis's URL, not the path of a socket."""
    return path.startswith(("redis://", "rediss://", "unix://"))


def welcomed(messages: Any) -> Any:
    """The auditor's welcome. Raises ProgramEndedError if nobody answers, and OtherVersionError."""
    if not messages.comes(ANSWERING):
        message = f"the auditor's process didn't answer for {ANSWERING:g} s"
        raise ProgramEndedError(message)
    _, form, version, *welcome = messages.receive()
    if form != FORM:
        sender = f"zanteyard {version}" if isinstance(version, str) else "an earlier version"
        raise OtherVersionError(
            f"the auditor's process is from {sender}, and this one from {VERSION}: they don't "
            "understand one another, and nothing is audited (docs/OPERATION.md)"
        )
    return welcome


class Door:
    """A connection to the auditor's process. `messages` go both ways; the first one that arrives is
    the auditor's welcome. Raises OSError if there is no server, and FolderUnfitError if another
    user has the socket."""

    def __init__(self, path: str) -> None:
        connection: Any = Client(path, "AF_UNIX")
        try:
            refuse_others(path, connection.fileno())
        except BaseException:
            connection.close()
            raise
        self.messages = Messages(connection)
        self._notes_path = ""

    def welcome(self) -> Any:
        """Raises what `welcomed` raises."""
        try:
            *welcome, self._notes_path = welcomed(self.messages)
            with contextlib.suppress(OSError):  # a missing one makes notes fail, which is reported
                check_folder(os.path.dirname(self._notes_path))
        except BaseException:
            self.messages.close()
            raise
        return welcome

    def notes(self, which: int, outbox: Outbox) -> CrashNotes:
        """The notes of a session, in files. If writing them fails, that is reported without
        waiting; the missing files say the same. Raises OSError."""
        tell = functools.partial(outbox.put_behind, "unnoted")
        sent: dict[int, int] = outbox.sent
        return CrashNotes(f"{self._notes_path}-{which}", sent, tell)

    def note_fork(self) -> None:
        """Records a fork before it happens. Raises OSError if that fails."""
        flags = os.O_WRONLY | os.O_CREAT | os.O_CLOEXEC
        os.close(os.open(f"{self._notes_path}{FORKED}", flags, 0o600))
