"""What clients have handed in and the auditor hasn't taken in yet."""

import queue
import threading
from collections.abc import Iterable, Sequence

from ..core._own_keys import FLAG, is_own
from ..core._records import Logged

# When it arrived by the monotonic clock, the session, the transaction's number (None for the end of
# the session), and what was logged.
HandedIn = tuple[float, int, int | None, Logged | None]
DROPPED = -1  # in place of a session: counts what other processes couldn't hand over


def keys_written_unseen(logged: Logged) -> Sequence[str]:
    """The keys that the transaction wrote without reading them."""
    if not logged.writes:
        return ()
    read = dict(logged.reads)
    return [key for key in logged.writes if key not in read]


class Backlog:
    """A queue from many threads to the auditor's. Whoever holds a session's turn counts its
    transactions."""

    def __init__(self, most: int) -> None:
        self.most = most
        self.room = most  # how many may wait now, before clients have to wait
        # Keys whose last writer didn't read them and that nobody has read since. Changed by the
        # holder of a session's turn, and by a meeting, which holds all turns.
        self._unseen: set[str] = set()
        # Keys whose last writer's session has ended. For the auditor's thread.
        self._ends: set[str] = set()
        self._waiting: queue.SimpleQueue[HandedIn] = queue.SimpleQueue()
        self._next_numbers: dict[int, int] = {}
        self._taken: dict[int, int] = {}  # for each session, the number after the last one taken
        self._closed: set[int] = set()  # sessions whose end was taken
        # For each session, when the current audit began and asked it what it had done, by the
        # monotonic clock. An end from before that time belongs to the previous audit.
        self.reopened: dict[int, float] = {}
        self._counts: dict[int, int] = {}  # by session, over all audits
        self._dropping = threading.Lock()

    def count(self, session: int, number: int, unseen: Iterable[str] = ()) -> None:
        """Counts a transaction, whether or not an audit covers it."""
        count = self._counts.get(session, 0) + 1  # no interrupt can come between the next two
        self._next_numbers[session], self._counts[session] = number + 1, count
        if unseen:
            self._unseen.update(unseen)

    def count_missed(self, session: int, number: int) -> None:
        """Counts a transaction if it isn't known whether it was counted, and wasn't."""
        if self.next_number(session) <= number:
            self.count(session, number)

    def count_dropped(self, count: int) -> None:
        """Counts transactions that another process did and couldn't hand over."""
        with self._dropping:
            self._counts[DROPPED] = self._counts.get(DROPPED, 0) + count

    @property
    def counted(self) -> int:
        """How many transactions clients and meetings have handed in, over all audits."""
        return sum(list(self._counts.values()))

    def next_number(self, session: int) -> int:
        """The number after the last transaction handed in."""
        return self._next_numbers.get(session, 0)

    def put(self, handed_in: HandedIn) -> None:
        self._waiting.put(handed_in)

    def take(self, most: int) -> list[HandedIn]:
        """Takes what waits, at most this many. For one thread at a time."""
        return [self._waiting.get() for _ in range(min(len(self), most))]

    def note_taken(self, session: int, number: int | None) -> None:
        """Notes that a transaction, or the session's end, is no longer needed: the auditor has it,
        or no audit wants it."""
        if number is None:
            self._closed.add(session)
        else:
            self._taken[session] = number + 1

    def is_taken(self, session: int, number: int | None) -> bool:
        """Whether neither this transaction nor an earlier one is needed any more."""
        if number is None:
            return session in self._closed
        return self._taken.get(session, 0) > number

    def clear(self) -> None:
        while len(self):
            _, session, number, _ = self._waiting.get()
            self.note_taken(session, number)

    def __len__(self) -> int:
        return self._waiting.qsize()

    @property
    def is_over_full(self) -> bool:
        return len(self) > self.room

    def leave_room(self, free: int) -> None:
        """Lowers the number that may wait to what can be taken in."""
        self.room = max(0, min(self.most, free))

    def take_unseen(self) -> set[str]:
        """Returns the keys that were written without being read, and counts them as read from now
        on."""
        keys, self._unseen = self._unseen, set()
        return keys

    def put_unseen(self, keys: Iterable[str]) -> None:
        """Puts keys back that weren't read after all."""
        self._unseen.update(keys)

    def take_ends(self) -> set[str]:
        """Returns the keys last written by sessions that have ended, and counts them as read from
        now on."""
        keys, self._ends = self._ends, set()
        return keys

    def put_ends(self, keys: Iterable[str]) -> None:
        """Adds keys of a session that ends, or puts keys back that weren't read after all. If
        nobody read or overwrote such a key, its session's last transaction would have no place in
        the order, and no fence would ever be settled. The keys of fences and marks are left out,
        since each meeting reads them."""
        self._ends.update(key for key in keys if not is_own(key) or key.startswith(FLAG))
