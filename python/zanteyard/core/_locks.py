"""Locks that record whether they were taken, even if an interrupt arrives."""

from typing import Protocol


class Lock(Protocol):
    """A lock of `threading`, plain or reentrant."""

    def acquire(self, blocking: bool = True, timeout: float = -1) -> bool: ...
    def release(self) -> None: ...


def take(lock: Lock, seconds: float, taken: list[bool]) -> bool:
    """Whether the lock was taken within this many seconds. The answer is also appended to `taken`.
    Both happen in one call of C code, so an interrupt comes before both or after both, and a
    `finally` clause that looks at `taken` knows whether to release the lock."""
    taken.extend(map(lock.acquire, (True,), (seconds,)))
    return taken[-1]


def give_back(lock: Lock, taken: list[bool]) -> None:
    """Releases the lock once, if it was taken."""
    if taken and taken.pop():
        lock.release()
