"""Messages between two machines: signed, numbered and bounded, over streams of a Redis.

The Redis isn't trusted. A message that isn't signed with the audit's key is ignored, and so is one
that was received before. If one is missing, if the other side is silent, or if the Redis can't be
reached for a while, the connection has ended: nothing is assumed about what can't be known.
`zanteyard watch` and the proxies of other machines have the same rules (docs/FORMATS.md).
"""

from __future__ import annotations

import logging
import queue
import secrets
import threading
import time
from collections.abc import Iterable, Sequence
from typing import Any

import redis

from ..core._locks import give_back, take
from ..core._records import Logged
from ._shared_key import Signer
from ._message_text import LONGEST, Message, NoMessageError, logged_text, message_of, plain, text_of
from ._messages import HANDING_ON, SENDING

UPWARDS, DOWNWARDS = "zanteyard collector to serve 1", "zanteyard serve to collector 1"
SILENCE = 3.0  # seconds after which the other side counts as gone
BEAT = 0.5  # seconds between two signs of life
WAITS = 2.0  # seconds for an answer of the Redis
LOOKS = 0.2  # seconds that the Redis waits for a message
ENTRIES = 4096  # messages that a stream keeps
AT_ONCE = 64  # messages that are read at once
EXPIRES = 3600  # seconds until the Redis drops what is left of an audit
MOST_WAITING = 64 << 20  # bytes of one collector's messages that wait to be taken in
PART = 1 << 20  # bytes of transactions in a message, unless one alone has more
Entry = tuple[bytes, dict[bytes, bytes]]  # its identifier and its fields
logger = logging.getLogger("zanteyard")


class SharedRedis:
    """A Redis, and what both sides know. Raises ValueError if it is no URL. Safe for use by several
    threads."""

    def __init__(self, url: str, audit: str, key: bytes) -> None:
        waits: dict[str, Any] = {"socket_timeout": WAITS}
        if not url.startswith("unix:"):
            waits["socket_connect_timeout"] = WAITS
        self.redis: Any = redis.Redis.from_url(url, **waits)
        self.upwards, self.downwards = Signer(key, UPWARDS, audit), Signer(key, DOWNWARDS, audit)
        self.prefix = f"zanteyard serve {audit}"

    @property
    def owner(self) -> str:
        """The key of the audit's run, which the daemon that has it writes."""
        return f"{self.prefix}:owner"

    @property
    def clients(self) -> str:
        """The stream of what all collectors send."""
        return f"{self.prefix}:clients"

    def to(self, client: str) -> str:
        """The stream of what this one is sent."""
        return f"{self.prefix}:to {client}"


def opened(fields: dict[bytes, bytes], signer: Signer) -> Message:
    """An entry's message. Raises NoMessageError if it isn't signed, or has another form."""
    text, signature = fields.get(b"m", b""), fields.get(b"s", b"")
    if len(text) > LONGEST or not signer.is_signed(text, signature):
        raise NoMessageError("it isn't signed with the audit's key")
    return message_of(text)


class StreamReader:
    """Reads a stream, for one thread. `looked` is when the last read began that returned all there
    was, by the monotonic clock: who isn't heard by then was silent, even if this process was
    stopped."""

    def __init__(self, shared: SharedRedis, stream: str, after: bytes = b"0-0") -> None:
        self._redis, self._stream, self._after = shared.redis, stream, after
        self.looked = self._answered = time.monotonic()

    def read(self) -> Sequence[Entry]:
        """What has arrived. Waits for a moment if nothing has. Raises OSError if the Redis can't be
        reached."""
        begun = time.monotonic()
        try:
            answers = self._redis.xread({self._stream: self._after}, AT_ONCE, int(LOOKS * 1000))
        except redis.RedisError as error:
            if begun - self._answered > SILENCE:
                raise OSError(f"the Redis can't be reached: {error}") from error
            time.sleep(LOOKS / 4)
            return ()
        self._answered = begun
        entries: Sequence[Entry] = answers[0][1] if answers else ()
        if len(entries) < AT_ONCE:
            self.looked = begun
        if entries:
            self._after = entries[-1][0]
        return entries


class SignedMessages:
    """One end of a connection; has the calls of Messages. Any thread may send, and one
    receives."""

    def __init__(
        self, shared: SharedRedis, stream: str, signer: Signer, run: str, client: str
    ) -> None:
        self.client, self._shared, self._stream, self._signer = client, shared, stream, signer
        self._run, self._number, self._lock = run, 0, threading.Lock()
        self.is_closed = False  # also if a message may not be in the stream
        self._sent_at, self.next = time.monotonic(), 0  # `next`: the number that has to come

    def send(self, *did: object, seconds: float = SENDING) -> None:
        """Sends a message. Waits up to `seconds` for other threads' messages, and for the Redis.
        Raises OSError if it may not have arrived; then nothing more is sent."""
        self._send(plain(did), seconds)

    def _send(self, did: bytes, seconds: float) -> None:
        taken: list[bool] = []
        try:
            if not take(self._lock, seconds, taken):
                raise OSError("another message is still being sent")
            if self.is_closed:
                raise OSError("the connection has ended")
            text = text_of(self._run, self.client, self._number, did)
            try:
                self._append(text, time.monotonic() + min(seconds, SILENCE))
                self._number, self._sent_at = self._number + 1, time.monotonic()
            except BaseException:  # also an interrupt's
                self.is_closed = True
                raise
        finally:
            give_back(self._lock, taken)

    def _append(self, text: bytes, ends: float) -> None:
        """Appends the message; again, unchanged, if it is unknown whether that has succeeded."""
        entry = {"m": text, "s": self._signer.sign(text)}
        while True:
            try:
                self._shared.redis.xadd(self._stream, entry, maxlen=ENTRIES)
                return
            except redis.RedisError as error:
                if time.monotonic() > ends:
                    raise OSError(f"the Redis can't be reached: {error}") from error
                time.sleep(LOOKS / 4)

    def tell(self, *did: object, seconds: float = SENDING) -> bool:
        """Sends a message and returns whether that succeeded."""
        try:
            self.send(*did, seconds=seconds)
        except (OSError, TypeError, ValueError):
            return False
        return True

    def hand_on(self, *did: object) -> None:
        """Sends a message before all that are sent later. Raises OSError."""
        self.send(*did, seconds=HANDING_ON)

    def beat(self) -> None:
        """A sign of life, if nothing else was sent."""
        if time.monotonic() > self._sent_at + BEAT:
            self.tell("beat", seconds=BEAT)

    def close(self) -> None:
        self.is_closed = True


class ServersEnd(SignedMessages):
    """The connection to one collector, in the daemon. `arrive` is for the thread that reads for
    all."""

    def __init__(self, shared: SharedRedis, run: str, client: str, reader: StreamReader) -> None:
        super().__init__(shared, shared.to(client), shared.downwards, run, client)
        self._reader, self._heard = reader, time.monotonic()
        self._waiting: queue.SimpleQueue[tuple[Message | None, int]] = queue.SimpleQueue()
        self._bytes = self._taken = 0  # of all messages
        self._why = ""  # it has ended

    def arrive(self, message: Message, size: int) -> None:
        if message.number < self.next or self._why:
            return  # it was received before
        self._heard = time.monotonic()
        if message.number > self.next:
            self.end("a message from it was lost")
        elif self._bytes - self._taken + size > MOST_WAITING:
            self.end("it sent more than could be taken in")
        else:
            self.next, self._bytes = self.next + 1, self._bytes + size
            self._waiting.put((message, size))

    def end(self, why: str) -> None:
        """Ends it after what has arrived."""
        self._why = self._why or why
        self._waiting.put((None, 0))

    def receive(self) -> Any:
        """The next message, a tuple. Raises EOFError if it can't be heard any more."""
        while True:
            try:
                message, size = self._waiting.get(timeout=LOOKS)
            except queue.Empty:
                if self._reader.looked - self._heard > SILENCE:
                    self.end(f"it was silent for {SILENCE:g} s")
                continue
            if message is None:
                raise EOFError(self._why)
            self._taken += size
            return message.did

    def close(self) -> None:
        super().close()
        try:
            self._shared.redis.expire(self._shared.to(self.client), int(2 * SILENCE))
        except redis.RedisError:
            pass


class ClientsEnd(SignedMessages):
    """The connection to the daemon, in a collector's process."""

    def __init__(self, shared: SharedRedis, run: str) -> None:
        client = secrets.token_hex(16)
        super().__init__(shared, shared.clients, shared.upwards, run, client)
        self._reader = StreamReader(shared, shared.to(client))
        self._heard = time.monotonic()
        self._arrived: list[Message] = []
        self._has_ended = False
        self._beats = threading.Thread(target=self._beat, daemon=True)
        self._beats.start()

    def _beat(self) -> None:
        while not self.is_closed:
            time.sleep(BEAT / 4)
            if self._number:  # it has said hello
                self.beat()

    def packed(self, logged: Logged) -> bytes:
        return logged_text(logged)

    def send(self, *did: Any, seconds: float = SENDING) -> None:
        if did[0] != "logged":
            super().send(*did, seconds=seconds)
            return
        _, logged, dropped = did
        for part in _parts(logged):
            self._send(b'["logged", [%s], %d]' % (b", ".join(part), dropped), seconds)
            dropped = 0

    def comes(self, seconds: float) -> bool:
        """Whether a message arrives within this many seconds."""
        ends = time.monotonic() + seconds
        while not self._arrived and time.monotonic() < ends:
            self._look()
        return bool(self._arrived)

    def receive(self) -> Any:
        """The next message, a tuple. Raises EOFError or OSError if nothing can be heard any
        more."""
        while not self._arrived:
            if self.is_closed or self._has_ended:
                raise EOFError("the connection has ended")
            self._look()
            if self._reader.looked - self._heard > SILENCE:
                raise EOFError(f"the audit was silent for {SILENCE:g} s")
        return self._arrived.pop(0).did

    def _look(self) -> None:
        for _, fields in self._reader.read():
            try:
                message = opened(fields, self._shared.downwards)
            except NoMessageError:
                continue
            is_ours = (message.run, message.client) == (self._run, self.client)
            if not is_ours or message.number < self.next:
                continue  # it was received before, or is another one's
            if message.number > self.next:
                raise EOFError("a message was lost")
            self.next, self._heard = self.next + 1, time.monotonic()
            self._has_ended = message.did[0] == "bye"
            if message.did[0] not in ("beat", "bye"):
                self._arrived.append(message)


def _parts(logged: Iterable[Any]) -> Iterable[list[bytes]]:
    """What sessions did, as texts, in parts that fit into a message."""
    part: list[bytes] = []
    size = 0
    for _, session, number, _, packed in logged:
        text = b"[%d, %s, %s]" % (session, plain(number), packed or b"null")
        if part and size + len(text) > PART:
            yield part
            part, size = [], 0
        part.append(text)
        size += len(text)
    yield part
