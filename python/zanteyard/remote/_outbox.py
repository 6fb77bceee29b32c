"""What sessions of one process did, on its way to the auditor's process."""

import queue
import threading
import time
from collections.abc import Sequence
from typing import Any

from ..core._own_keys import LONGEST
from ..core._records import Logged
from ..live._backlog import keys_written_unseen
from ._messages import AnyMessages

# When it was done, the session, the number (None for the end of the session), the keys that were
# written without being read, and what was logged, as bytes.
Packed = tuple[float, int, int | None, Sequence[str], bytes]


class Outbox:
    """Keeps what sessions did until it is sent. While `lost` gives a reason, nothing more should be
    put in. Safe for use by several threads."""

    def __init__(self, messages: AnyMessages, most: int) -> None:
        """At most `most` transactions per session are on their way before clients have to wait."""
        self._messages, self._most = messages, most
        self._waiting: queue.SimpleQueue[Packed] = queue.SimpleQueue()
        self._behind: queue.SimpleQueue[tuple[Any, ...]] = queue.SimpleQueue()
        self._sending = threading.Lock()  # keeps the order of what one session did
        self._wake = threading.Event()  # somebody waits for room
        self._sent = self._taken = 0
        self.sent: dict[int, int] = {}  # for each session, the number after the last one sent
        self.dropped = 0  # transactions that are done and not handed over; they still count
        self.lost: str | None = None
        self._told_lost: str | None = None

    def put(
        self, session: int, number: int, logged: Logged, packed: bytes | None = None
    ) -> None:
        """Raises ValueError if it can't be packed. `packed` is what was logged as bytes, if it is
        packed already."""
        unseen = keys_written_unseen(logged)
        packed = self._messages.packed(logged) if packed is None else packed
        self._waiting.put((time.monotonic(), session, number, unseen, packed))

    def put_close(self, session: int) -> None:
        """The session does nothing more."""
        self._waiting.put((time.monotonic(), session, None, (), b""))

    def put_behind(self, *message: object) -> None:
        """A message that is sent after everything done so far."""
        self._behind.put(message)

    def lose(self, why: str) -> None:
        """Hands nothing over from now on, until `begin_anew`."""
        self.lost = why
        self._wake.set()

    def begin_anew(self) -> None:
        """Hands over what ends from now on. What has ended already is known by its number."""
        self.lost = None

    def is_full(self, sessions: int) -> bool:
        """Whether clients have to wait. From half of the limit on, everything is sent at once."""
        most = self._most * sessions
        if self._waiting.qsize() > most // 2:
            self._wake.set()
        return self._waiting.qsize() + self.on_their_way > most

    @property
    def on_their_way(self) -> int:
        """How many transactions were sent and not taken in yet."""
        return self._sent - self._taken

    def note_taken(self, count: int) -> None:
        self._taken += count

    def pause(self, seconds: float) -> None:
        """Waits this many seconds, or until somebody waits for room."""
        self._wake.wait(seconds)
        self._wake.clear()

    def send_all(self) -> None:
        """Sends everything. Raises OSError if the auditor's process is gone."""
        with self._sending:
            behind = _taken_from(self._behind, self._behind.qsize())
            while self.dropped or not self._waiting.empty():
                self._send(_taken_from(self._waiting, min(self._waiting.qsize(), LONGEST)))
            lost = self.lost
            if lost is not None and self._told_lost is not lost:
                self._told_lost = lost
                self._messages.send("lost", lost)
            for message in behind:  # including reports of missed ones, whose reason is sent by now
                self._messages.send(*message)

    def _send(self, logged: list[Packed]) -> None:
        dropped, self.dropped = self.dropped, 0
        self._sent += len(logged)
        self._messages.send("logged", logged, dropped)
        for _, session, number, _, _ in logged:
            if number is not None:
                self.sent[session] = number + 1


def _taken_from(waiting: "queue.SimpleQueue[Any]", count: int) -> list[Any]:
    return [waiting.get() for _ in range(count)]
