"""One end of a connection between two processes of one machine."""

import marshal
import os
import socket
import struct
import threading
from multiprocessing.connection import Connection
from typing import Any, Protocol

from ..core._locks import give_back, take
from ..core._records import Logged, as_bytes

SENDING = 30.0  # seconds for the other end to accept a message
HANDING_ON = 0.25  # seconds to wait for other threads' messages


class Channel(Protocol):
    """One end of a connection, over a socket or over a Redis. `Messages` says what each call
    does."""

    def send(self, *message: object, seconds: float = SENDING) -> None: ...
    def tell(self, *message: object, seconds: float = SENDING) -> bool: ...
    def hand_on(self, *message: object) -> None: ...
    def receive(self) -> Any: ...
    def close(self) -> None: ...


class AnyMessages(Channel, Protocol):
    """A client's end. `packed` makes bytes of what was logged, and raises ValueError if it can't be
    sent."""

    def packed(self, logged: Logged) -> bytes: ...
    def comes(self, seconds: float) -> bool: ...


class Messages:
    """Sends and receives messages of plain values. Any thread may send; one receives."""

    def __init__(self, connection: Connection) -> None:
        self._connection, self._lock = connection, threading.Lock()
        self._is_whole = True  # no message was cut off
        with socket.socket(fileno=os.dup(connection.fileno())) as same:
            seconds = struct.pack("ll", int(SENDING), 0)
            same.setsockopt(socket.SOL_SOCKET, socket.SO_SNDTIMEO, seconds)

    def packed(self, logged: Logged) -> bytes:
        return as_bytes(logged)

    def send(self, *message: object, seconds: float = SENDING) -> None:
        """Sends a message. Waits up to `seconds` for other threads' messages. Raises OSError if the
        other end is gone or accepts nothing."""
        plain: Any = message  # what marshal takes isn't a type
        text, taken = marshal.dumps(plain), list[bool]()
        try:
            if not take(self._lock, seconds, taken):
                raise OSError("another message is still being sent")
            if not self._is_whole:
                raise OSError("a message was cut off")
            self._is_whole = False
            self._connection.send_bytes(text)
            self._is_whole = True
        finally:
            if taken and taken[-1] and not self._is_whole:
                self._hang_up()
            give_back(self._lock, taken)

    def _hang_up(self) -> None:
        """Shuts the connection down. After a message that was cut off, by a timeout or Ctrl-C, the
        next one would be read as its rest."""
        try:
            with socket.socket(fileno=os.dup(self._connection.fileno())) as same:
                same.shutdown(socket.SHUT_RDWR)
        except (OSError, TypeError):
            pass  # it is closed

    def tell(self, *message: object, seconds: float = SENDING) -> bool:
        """Sends a message and returns whether that succeeded."""
        try:
            self.send(*message, seconds=seconds)
        except (OSError, TypeError, ValueError):  # it is closed, or has other than plain values
            return False  # the receiving thread will find out why
        return True

    def hand_on(self, *message: object) -> None:
        """Sends a message before all that are sent later. Raises OSError."""
        self.send(*message, seconds=HANDING_ON)

    def receive(self) -> Any:
        """The next message, a tuple. Raises EOFError or OSError if the other end is gone."""
        return marshal.loads(self._connection.recv_bytes())

    def comes(self, seconds: float) -> bool:
        """Whether a message arrives within this many seconds."""
        return self._connection.poll(seconds)

    def close(self) -> None:
        self._connection.close()
