"""Lets collectors on other machines into a live audit, over a Redis.

They use the sessions of the same LiveAuditor as the collectors of this machine do. What a lost one
did last can't be found out, so the audit ends as incomplete if it had sessions; nothing of it is
guessed.
"""

from __future__ import annotations

import logging
import secrets
import threading
import time
from collections.abc import Sequence
from typing import Any

import redis

from ..core._records import as_bytes
from ._shared_key import shared_key
from ..core.errors import NameTakenError
from ..live._backlog import keys_written_unseen
from ..live._live_auditor import LiveAuditor
from ._client_process import ClientProcess
from ._crash_recovery import LostError, Noted
from ._message_text import Message, NoMessageError, logged_of
from ._redis_messages import BEAT, EXPIRES, SILENCE, Entry, ServersEnd, SharedRedis, StreamReader
from ._redis_messages import opened
from ._server import CLOSING, ProcessServer

MOST_EVER = 100_000  # collectors that are remembered, so that their messages can't be played again
SELDOM = 60.0  # seconds between two complaints
logger = logging.getLogger("zanteyard")


class RedisProcess(ClientProcess):
    """A collector's process on another machine."""

    messages: ServersEnd

    def _most(self) -> int:
        """Together, half of what may wait here."""
        return max(1, self._live.most_waiting // (2 * self._live.auditor.sessions))

    def _take_next(self) -> None:
        kind, *rest = self.messages.receive()
        if kind not in ("hello", "beat"):
            self._deeds[kind](*rest)

    def _take_logged(self, logged: Sequence[Any], dropped: int) -> None:
        """Its clock isn't this machine's: what it did counts from when it is taken in."""
        now, taken = time.monotonic(), list[Any]()
        for session, number, fields in logged:
            if number is None:
                taken.append((now, session, None, (), b""))
            else:
                did = logged_of(fields)
                taken.append((now, session, number, keys_written_unseen(did), as_bytes(did)))
        super()._take_logged(taken, dropped)

    def _noted(self) -> Noted:
        raise LostError("what it did last on its machine is unknown")

    def _take_noted(self, which: int, asks: Any) -> None:
        """It has no notes."""

    def _forget(self, which: int) -> None:
        pass

    def _end(self) -> None:
        self.messages.tell("bye", seconds=BEAT)
        self.messages.close()


class RedisServer(ProcessServer):
    """Serves the audit of this name in the Redis at this URL. `key` is the path of the file with
    the key that the collectors have, too (the environment's ZANTEYARD_KEY). `refused` counts
    messages that weren't signed with it. Safe for use by several threads.

    Raises ValueError if the URL is none, KeyFileError, OSError if the Redis can't be reached, and
    NameTakenError if another daemon has the audit there.
    """

    def __init__(self, live: LiveAuditor, url: str, audit: str, key: str | None = None) -> None:
        super().__init__(live)
        self._shared, self._audit = SharedRedis(url, audit, shared_key(key)), audit
        self.run, self.refused = secrets.token_hex(16), 0
        self._ever: dict[str, RedisProcess | None] = {}
        self._told_at = float("-inf")
        try:
            self._claim_at_first()
            latest = self._shared.redis.xrevrange(self._shared.clients, count=1)
        except redis.RedisError as error:
            raise OSError(f"can't reach the Redis: {error}") from error
        after = latest[0][0] if latest else b"0-0"
        self._reader = StreamReader(self._shared, self._shared.clients, after)
        live.call_at_end(self._tell_end)
        self._threads = [
            threading.Thread(target=target, daemon=True) for target in (self._hear, self._look)
        ]
        for thread in self._threads:
            thread.start()

    def close(self, patience: float = CLOSING) -> None:
        """Admits no further process and waits up to this many seconds for all to leave. Those that
        remain are lost. Call it before the LiveAuditor is stopped, so that everything they did is
        taken in. May be called again."""
        if self._is_closing:
            return
        self._is_closing = True
        self._wait_for_all(patience)
        self._has_closed.set()
        for thread in self._threads:
            thread.join(CLOSING)
        try:
            if self._is_owner():
                self._shared.redis.delete(self._shared.owner)
        except redis.RedisError:
            pass  # it expires
        self._shared.redis.close()

    # the audit's name

    def _claim(self) -> bool:
        """Whether this daemon has the audit."""
        lasts = int(SILENCE * 1000)
        if self._shared.redis.set(self._shared.owner, self.run, nx=True, px=lasts):
            return True
        return self._is_owner() and bool(self._shared.redis.pexpire(self._shared.owner, lasts))

    def _is_owner(self) -> bool:
        return bool(self._shared.redis.get(self._shared.owner) == self.run.encode())

    def _claim_at_first(self) -> None:
        """Waits for as long as a killed daemon counts as there."""
        ends = time.monotonic() + SILENCE + 1
        while not self._claim():
            if time.monotonic() > ends:
                raise NameTakenError(f"another daemon has the audit {self._audit} in this Redis")
            time.sleep(BEAT / 5)

    # the threads

    def _look(self) -> None:
        """Gives signs of life, to collectors and to other daemons."""
        claimed = time.monotonic()
        while not self._has_closed.wait(BEAT / 4):
            for process in list(self._processes):
                if process.thread.is_alive():
                    process.messages.beat()
            if time.monotonic() > claimed + 2 * BEAT:
                claimed = time.monotonic()
                self._go_on_having_it()
                for client, process in list(self._ever.items()):
                    if process is not None and not process.thread.is_alive():
                        self._ever[client] = None  # it has left, or was lost

    def _go_on_having_it(self) -> None:
        try:
            if not self._claim():
                self._complain(f"another daemon has taken the audit {self._audit}")
            self._shared.redis.expire(self._shared.clients, EXPIRES)
        except redis.RedisError:
            pass  # the reading thread notices it, too

    def _hear(self) -> None:
        while not self._has_closed.is_set():
            try:
                entries = self._reader.read()
            except OSError as error:
                for process in list(self._processes):
                    process.messages.end(str(error))
                self._complain(f"collectors on other machines can't be heard: {error}")
                continue
            for _, fields in entries:
                self._take(fields)
            if entries:
                self._drop(entries[-1])

    def _drop(self, last: Entry) -> None:
        milliseconds, _, number = last[0].partition(b"-")
        try:
            behind = b"%s-%d" % (milliseconds, int(number) + 1)
            self._shared.redis.xtrim(self._shared.clients, minid=behind, approximate=False)
        except redis.RedisError as error:
            self._complain(f"the Redis can't drop what was read (it needs version 6.2): {error}")

    def _take(self, fields: dict[bytes, bytes]) -> None:
        try:
            message = opened(fields, self._shared.upwards)
        except NoMessageError as error:
            self.refused += 1
            self._complain(f"refused {self.refused} messages from the Redis: {error}")
            return
        if message.run != self.run:
            return  # of an earlier run
        process = self._ever.get(message.client)
        is_new = message.client not in self._ever and message.did[0] == "hello"
        if is_new and message.number == 0 and not self._is_closing:
            process = self._let_in(message)
        if process is not None:
            process.messages.arrive(message, len(fields[b"m"]))

    def _let_in(self, message: Message) -> RedisProcess | None:
        if len(self._ever) >= MOST_EVER:
            self._complain("too many collectors have been here: restart this daemon")
            return None
        ends = ServersEnd(self._shared, self.run, message.client, self._reader)
        process = RedisProcess(self._live, ends)
        self._ever[message.client] = process
        self._add(process)
        return process

    def _complain(self, text: str) -> None:
        if time.monotonic() > self._told_at + SELDOM:
            self._told_at = time.monotonic()
            logger.warning("%s", text)
