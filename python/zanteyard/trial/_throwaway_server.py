"""A server program in a temporary folder."""

import os
import shutil
import subprocess
import time
from typing import Any

from ._throwaway_folder import PID, ThrowawayFolder

STARTING = 300.0  # seconds for a server to take connections


class CantStartError(OSError):
    """The server program has ended, or takes no connections in time."""


class ThrowawayServer:
    """A server that only listens on a socket in its folder. If root starts it and `user` is given,
    it runs as that user."""

    program = ""
    user: str | None = None

    def __init__(self) -> None:
        self.process: subprocess.Popen[bytes] | None = None
        self.own_folder = ThrowawayFolder()

    def call(self) -> list[str]:
        """The program with its arguments."""
        raise NotImplementedError

    def answers(self) -> bool:
        """Whether it takes connections."""
        raise NotImplementedError

    def prepare_folder(self) -> None:
        """Prepares the folder before the first start."""

    @property
    def folder(self) -> str:
        return self.own_folder.path

    @property
    def socket(self) -> str:
        return f"{self.folder}/socket"

    def __enter__(self) -> Any:
        try:
            self.own_folder.make()
            self.prepare_folder()
            self.start()
        except BaseException:
            self.__exit__()
            raise
        return self

    def own(self, path: str) -> None:
        """Gives the file to the user as whom the server runs."""
        if self.user is not None and os.geteuid() == 0:
            shutil.chown(path, self.user, self.user)

    def start(self) -> None:
        """Starts the server, also after `stop`."""
        with open(f"{self.folder}/log", "ab") as log:
            quiet: dict[str, Any] = {"stdin": subprocess.DEVNULL, "stdout": log, "stderr": log}
            # A terminal's Ctrl-C is meant for the clients: the audit still needs the server for its
            # last round.
            process = subprocess.Popen(
                self.call(), cwd=self.folder, start_new_session=True, **quiet
            )
            self.process = process
        with open(f"{self.folder}/{PID}", "w", encoding="ascii") as file:
            file.write(f"{process.pid}\n")
        ends = time.monotonic() + STARTING
        while not self.answers():
            if process.poll() is not None or time.monotonic() > ends:
                raise CantStartError(f"can't start {self.program}: {self.last_words()}")
            time.sleep(0.02)

    def last_words(self) -> str:
        with open(f"{self.folder}/log", encoding="utf-8", errors="replace") as file:
            return " ".join(file.read().splitlines()[-3:])

    def stop(self) -> None:
        """Kills the server. Does nothing if it isn't running."""
        if self.process is not None:
            self.process.kill()
            self.process.wait()

    def restart(self) -> None:
        """Shuts the server down in good order, and starts it again."""
        if self.process is not None:
            self.process.terminate()
            self.process.wait(STARTING)
        self.start()

    def __exit__(self, *_: object) -> None:
        self.stop()
        self.own_folder.remove()
