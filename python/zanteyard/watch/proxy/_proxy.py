"""The program zanteyard-proxy: how it is started, what it writes, and how it ends."""

import contextlib
import logging
import os
import re
import signal
import subprocess
import threading
from collections.abc import Callable, Mapping, Sequence

from ...core._visible import visible
from ...core.errors import ProgramMissingError
from ..outcome._feed import Item, Split

STAMP = re.compile("[0-9]{4}/[0-9/]+ [0-9:]+ zanteyard-proxy: ")  # before each line of its log
LISTENING = "listening on "  # in its log once it accepts connections
PIECE = 1 << 20  # bytes that are read at once
ENDING = 10.0  # seconds for it to end after it was told to
logger = logging.getLogger("zanteyard")


class Proxy:
    """One run of the program. A thread passes what it writes to `take`, piece by piece; while
    `take` waits, the program isn't read. An empty piece is the end. The program is in a group of
    its own, so signals from a terminal don't reach it, and it serves applications until it is told
    to end."""

    def __init__(
        self,
        call: Sequence[str],
        take: Callable[[Sequence[Item]], None],
        environment: Mapping[str, str] | None = None,
    ) -> None:
        """Raises ProgramMissingError if it can't be started."""
        pipe = subprocess.PIPE
        try:
            self.process = subprocess.Popen(
                list(call),
                stdin=pipe,
                stdout=pipe,
                stderr=pipe,
                bufsize=0,
                env=None if environment is None else dict(environment),
                start_new_session=True,
            )
        except OSError as error:
            raise ProgramMissingError(f"can't start {call[0]}: {error.strerror}") from error
        self.last_words: list[str] = []  # on standard error
        self.is_listening = threading.Event()
        self._take = take
        self._turn = threading.Lock()  # for writing a command
        self._threads = [
            threading.Thread(target=target, daemon=True) for target in (self._read, self._hear)
        ]
        for thread in self._threads:
            thread.start()

    @property
    def is_running(self) -> bool:
        return self.process.poll() is None

    def tell(self, line: bytes) -> bool:
        """Writes a command, and returns whether that succeeded."""
        assert self.process.stdin is not None
        with self._turn:
            try:
                self.process.stdin.write(line)
                return True
            except (OSError, ValueError):
                return False

    def _read(self) -> None:
        assert self.process.stdout is not None
        split = Split()
        try:
            while True:
                data = os.read(self.process.stdout.fileno(), PIECE)
                if not data:
                    break
                items = split.items(data)
                if items:
                    self._take(items)
        except (OSError, ValueError) as error:
            logger.error("can't read from the proxy: %s", error)
        if split.wrong:
            logger.warning("the proxy sent %d unreadable lines", split.wrong)
        self._take(())

    def _hear(self) -> None:
        """Logs what it writes on standard error."""
        assert self.process.stderr is not None
        with contextlib.suppress(OSError, ValueError):
            for line in self.process.stderr:
                told = STAMP.sub("", visible(line.decode("utf-8", "replace"), 500))
                if told.startswith(LISTENING):
                    self.is_listening.set()
                self.last_words = [*self.last_words[-4:], told]
                logger.info("proxy: %s", told)

    def hurry(self) -> None:
        """Sends the signal that ends a draining proxy at once."""
        if self.is_running:
            with contextlib.suppress(ProcessLookupError):
                self.process.send_signal(signal.SIGTERM)

    def end(self, seconds: float = ENDING) -> int:
        """Ends it, by force after this many seconds; returns its status. Connected applications
        lose their connections."""
        with contextlib.suppress(OSError, ValueError):
            assert self.process.stdin is not None
            self.process.stdin.close()
        if self.is_running:
            with contextlib.suppress(ProcessLookupError):
                self.process.send_signal(signal.SIGTERM)
        try:
            status = self.process.wait(seconds)
        except subprocess.TimeoutExpired:
            logger.warning("the proxy didn't end within %g s and was killed", seconds)
            self.process.kill()
            status = self.process.wait()
        for thread in self._threads:
            thread.join(ENDING)
        for pipe in (self.process.stdout, self.process.stderr):
            if pipe is not None and not any(thread.is_alive() for thread in self._threads):
                pipe.close()
        return status
