"""Shows a command's progress on the last line of a terminal, by standard error, and nothing if that
is no terminal."""

import contextlib
import os
import sys
import threading
import time
from collections.abc import Callable, Iterator

from ..core import _visible

FIRST, NEXT = 2.0, 0.5  # seconds before it is shown, and between two updates
ERASED = "\r\x1b[K"
Doing = str | Callable[[], str]


class Progress:
    """A context around the work. `doing` says what is being done; as a function, it is called by
    another thread. The line is removed before something else is printed."""

    def __init__(self, doing: Doing) -> None:
        self.doing = doing
        self._began = time.monotonic()
        self._turn, self._is_shown = threading.Lock(), False
        self._ends = threading.Event()
        self._thread: threading.Thread | None = None

    @contextlib.contextmanager
    def during(self, doing: Doing) -> Iterator[None]:
        """A context in which something else is being done."""
        before, self.doing = self.doing, doing
        try:
            yield
        finally:
            self.doing = before

    def __enter__(self) -> "Progress":
        if _visible.is_terminal(sys.stderr):
            _visible.before_saying = self._take_away
            self._thread = threading.Thread(target=self._show, daemon=True)
            self._thread.start()
        return self

    def __exit__(self, *_: object) -> None:
        self._ends.set()
        if self._thread is not None:
            self._thread.join()
            self._take_away()
            _visible.before_saying = None

    def _show(self) -> None:
        pause = FIRST
        while not self._ends.wait(pause):
            pause = NEXT
            seconds = time.monotonic() - self._began
            doing = self.doing if isinstance(self.doing, str) else self.doing()
            with self._turn:
                self._is_shown = True
                self._write(f"{ERASED}({doing}, {seconds:.0f} s)")

    def _take_away(self) -> None:
        with self._turn:
            if self._is_shown:
                self._is_shown = False
                self._write(ERASED)

    def _write(self, text: str) -> None:
        """Ignores a terminal that is gone; the next output will report it."""
        try:
            os.write(sys.stderr.fileno(), text.encode())
        except (OSError, ValueError):
            self._ends.set()
