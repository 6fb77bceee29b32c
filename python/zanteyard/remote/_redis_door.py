"""Connects a process of clients to an audit on another machine, over a Redis."""

from typing import Any

import redis

from ._shared_key import shared_key
from ..core._version import FORM, VERSION
from ._connecting import ANSWERING, welcomed
from ._outbox import Outbox
from ._redis_messages import ClientsEnd, SharedRedis


class RedisDoor:
    """Has the calls of a Door. Raises OSError if the Redis can't be reached, or no daemon has the
    audit there, KeyFileError, and ValueError if the URL is none."""

    def __init__(self, url: str, audit: str, key: str | None) -> None:
        shared = SharedRedis(url, audit, shared_key(key))
        try:
            run = shared.redis.get(shared.owner)
        except redis.RedisError as error:
            raise ConnectionError(f"can't reach the Redis: {error}") from error
        if run is None:
            raise ConnectionRefusedError(
                f"no `zanteyard serve` has the audit {audit} in this Redis"
            )
        self.messages = ClientsEnd(shared, run.decode(errors="replace"))

    def welcome(self) -> Any:
        """Raises what `welcomed` raises."""
        try:
            self.messages.send("hello", FORM, VERSION, seconds=ANSWERING)
            *welcome, _ = welcomed(self.messages)
        except BaseException:
            self.messages.close()
            raise
        return welcome

    def notes(self, which: int, outbox: Outbox) -> None:
        """None: nobody here could read them."""

    def note_fork(self) -> None:
        """Does nothing: what is done in the child is lost if this process is, too."""
