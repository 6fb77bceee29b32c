"""A Redis server in a temporary folder."""

from __future__ import annotations

import secrets
import shutil
import socket
from collections.abc import Callable

from ..core._visible import say
from ._throwaway_server import ThrowawayServer


def redis_server() -> str | None:
    """The path of the server program; None if it isn't installed."""
    return shutil.which("redis-server")


class RedisServer(ThrowawayServer):
    """`options` are further arguments. With `keeps`, its data survives a kill and a new start."""

    program, prefix = "redis-server", "zanteyard:"

    def __init__(self, *options: str, keeps: bool = False) -> None:
        super().__init__()
        kept = ("yes", "--appendfsync", "always") if keeps else ("no",)
        self.options = ("--appendonly", *kept, *options)

    @property
    def dsn(self) -> str:
        return f"unix://{self.socket}?db=0"

    def call(self) -> list[str]:
        own = ("--port", "0", "--unixsocket", self.socket, "--dir", self.folder, "--save", "")
        return [redis_server() or "redis-server", *own, *self.options]

    def answers(self) -> bool:
        with socket.socket(socket.AF_UNIX) as sock:
            sock.settimeout(5.0)
            try:
                sock.connect(self.socket)
                sock.sendall(b"PING\r\n")
                return sock.recv(64).startswith(b"+PONG")  # not while it loads its data
            except OSError:
                return False


class RedisGuest:
    """Temporary keys in a server that is already running, with a unique prefix; they are deleted at
    the end."""

    def __init__(self, dsn: str, tell: Callable[[str], object] = say) -> None:
        self.dsn, self.tell = dsn, tell
        self.prefix = f"zanteyard_{secrets.token_hex(6)}:"

    def __enter__(self) -> RedisGuest:
        self.tell(f"writes keys that begin with {self.prefix}, and deletes them at the end")
        return self

    def __exit__(self, *_: object) -> None:
        import redis

        try:
            client = redis.Redis.from_url(self.dsn)
            for key in client.scan_iter(match=f"{self.prefix}*", count=1000):
                client.delete(key)
            client.close()
        except redis.RedisError as error:
            message = f"couldn't clean up; delete the keys {self.prefix}*"
            self.tell(f"{message}: {error}".strip())
