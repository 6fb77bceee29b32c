"""What the proxy wrote and the auditor hasn't been given yet."""

import threading
from collections import deque
from collections.abc import Sequence

from ..outcome._feed import Item

MOST = 64 << 20  # bytes of waiting lines; the proxy isn't read while there are more


class Intake:
    """A queue from the thread that reads the proxy to the one that asks the auditor."""

    def __init__(self, most: int = MOST) -> None:
        self._items: deque[Item] = deque()
        self._bytes, self._most = 0, most
        self._is_closed = False
        self._change = threading.Condition()

    def put(self, items: Sequence[Item]) -> None:
        """Adds items. Waits while there are too many. Drops them after `close`."""
        with self._change:
            while self._bytes >= self._most and not self._is_closed:
                self._change.wait()
            if not self._is_closed:
                self._items.extend(items)
                self._bytes += sum(map(_size, items))
                self._change.notify_all()

    def take(self, seconds: float) -> list[Item] | None:
        """Everything that is there, as soon as there is something. An empty list if nothing arrives
        within this many seconds; None once it is closed and empty."""
        with self._change:
            if not self._items and not self._is_closed:
                self._change.wait(seconds)
            if not self._items:
                return None if self._is_closed else []
            found = [*self._items]
            self._items.clear()
            self._bytes = 0
            self._change.notify_all()
            return found

    def close(self) -> None:
        """Ends the queue: nothing more is added."""
        with self._change:
            self._is_closed = True
            self._change.notify_all()

    @property
    def size(self) -> int:
        """Bytes that wait."""
        return self._bytes


def _size(item: Item) -> int:
    return len(item) if isinstance(item, bytes) else 1
