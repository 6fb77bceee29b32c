"""Lets other processes of clients into a live audit.

The process with the LiveAuditor has an AuditServer, a socket in the file system. In each other
process an AuditClient stands in for the LiveAuditor: its sessions run there, over their own
connections. What they did is handed over about twenty-five times a second. Meetings hold the
sessions and have their flags written, by calls over the same socket. All messages of a process
arrive in order; so whatever was done before a call was answered has been handed over by then.
Clients themselves neither send nor receive: other threads do, and if those fail the client goes on.
The last transactions of a killed process are recovered from its notes, which are in a folder next
to the socket. Both are removed at the end.
"""

from __future__ import annotations

import logging
import os
import shutil
import threading
import time
from multiprocessing.connection import Client, Listener
from typing import Any, Self

from ..core._private_files import check_folder
from ..core.errors import FolderUnfitError
from ..live._live_auditor import PAUSE, LiveAuditor
from ._client_process import ClientProcess
from ._socket_process import SocketProcess

logger = logging.getLogger("zanteyard")
CLOSING = 30.0  # seconds for all processes to leave


class ProcessServer:
    """The processes of clients that are connected to a live audit in one way."""

    def __init__(self, live: LiveAuditor) -> None:
        self._live, self._processes = live, list[Any]()
        self._is_closing, self._has_closed = False, threading.Event()

    def close(self, patience: float = CLOSING) -> None:
        raise NotImplementedError

    def __enter__(self) -> Self:
        return self

    def __exit__(self, *_: object) -> None:
        self.close()

    @property
    def clients(self) -> int:
        """How many processes of clients are connected."""
        return sum(process.thread.is_alive() for process in list(self._processes))

    def _add(self, process: ClientProcess) -> None:
        living = (each for each in self._processes if each.thread.is_alive())
        self._processes = [*living, process]
        process.thread.start()

    def _wait_for_all(self, patience: float) -> None:
        """Waits up to this many seconds for all to leave. Those that remain are lost."""
        self._tell_end()
        until = time.monotonic() + patience
        for process in self._processes:
            process.thread.join(max(0.0, until - time.monotonic()))
            if process.thread.is_alive():
                process.lose(f"it didn't leave within {patience:g} s")

    def _tell_end(self) -> None:
        """Tells clients that nothing more is audited; they see it in `is_over`."""
        for process in list(self._processes):
            process.tell_end()


class AuditServer(ProcessServer):
    """A socket at this path for AuditClients. Only this user can open it, and whoever can is
    trusted. Raises OSError if the socket can't be made, for example because another server uses it,
    and FolderUnfitError if the folder for the notes belongs to somebody else. Safe for use by
    several threads."""

    def __init__(self, live: LiveAuditor, path: str) -> None:
        super().__init__(live)
        self.path, self._count = path, 0
        # The folder for the processes' notes. It is absolute, since they may run in other folders.
        self.notes = os.path.abspath(f"{path}.notes")
        try:
            Client(path, "AF_UNIX").close()
        except ConnectionRefusedError:
            os.unlink(path)  # left by a server that was killed
        except FileNotFoundError:
            pass
        self._listener = Listener(path, "AF_UNIX", backlog=64)
        os.chmod(path, 0o600)
        shutil.rmtree(self.notes, ignore_errors=True)  # left, too
        try:
            os.mkdir(self.notes, 0o700)
        except OSError as error:
            self._refuse_others_notes()
            logger.error("can't make files for clients' notes: %s", error)
        live.call_at_end(self._tell_end)
        self._thread = threading.Thread(target=self._let_in, daemon=True)
        self._thread.start()

    def _refuse_others_notes(self) -> None:
        """Raises FolderUnfitError if another user's folder, which couldn't be removed, has their
        name."""
        try:
            check_folder(self.notes)
        except FolderUnfitError:
            self._listener.close()
            raise
        except OSError:
            pass  # it doesn't exist; the log says why

    def close(self, patience: float = CLOSING) -> None:
        """Admits no further process and waits up to this many seconds for all to leave. Those that
        remain are lost. Call it before the LiveAuditor is stopped, so that everything they did is
        taken in. May be called again."""
        if self._is_closing:
            return
        self._is_closing = True
        try:
            Client(self.path, "AF_UNIX").close()  # the thread is waiting for a connection
            self._thread.join(patience)
            self._listener.close()
        except OSError:
            pass  # the socket's file is gone, so nobody can connect
        self._wait_for_all(patience)
        shutil.rmtree(self.notes, ignore_errors=True)

    def _let_in(self) -> None:
        while True:
            try:
                connection: Any = self._listener.accept()
            except OSError:  # such as too many open files; the client sees the connection end
                time.sleep(PAUSE)
                continue
            if self._is_closing:
                connection.close()
                return
            self._count += 1
            self._add(SocketProcess(self._live, connection, f"{self.notes}/{self._count}"))
