"""Keeps meetings and new audits waiting until it is known what killed processes did."""

import threading


class CrashSearches:
    """A context that is active while somebody finds out what a killed process did. For several
    threads."""

    def __init__(self) -> None:
        self._count, self._changed = 0, threading.Condition()

    @property
    def is_going_on(self) -> bool:
        return self._count > 0

    def wait(self, seconds: float = 30.0) -> None:
        with self._changed:
            self._changed.wait_for(lambda: not self._count, seconds)

    def __enter__(self) -> None:
        with self._changed:
            self._count += 1

    def __exit__(self, *_: object) -> None:
        with self._changed:
            self._count -= 1
            self._changed.notify_all()
