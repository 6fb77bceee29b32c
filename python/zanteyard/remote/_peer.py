"""Who is at the other end of a local socket."""

import os
import socket
import struct
from dataclasses import dataclass

from ..core.errors import FolderUnfitError

CREDENTIALS = struct.Struct("iII")  # the process's, the user's and the group's number


@dataclass(frozen=True)
class Peer:
    """The process at the other end, and its user, by their numbers."""

    process: int
    user: int


def peer_of(descriptor: int) -> Peer | None:
    """The process at the other end, as it was when it connected or began to listen; None if the
    system doesn't say."""
    try:
        with socket.socket(fileno=os.dup(descriptor)) as same:
            credentials = same.getsockopt(socket.SOL_SOCKET, socket.SO_PEERCRED, CREDENTIALS.size)
    except (AttributeError, OSError):
        return None
    process, user, _ = CREDENTIALS.unpack(credentials)
    return Peer(process, user)


def refuse_others(path: str, descriptor: int) -> None:
    """Raises FolderUnfitError if another user than this one or root listens at this path: in a
    folder that others may write to, anybody can make a socket first."""
    peer = peer_of(descriptor)
    if peer is not None and peer.user not in (os.geteuid(), 0):
        raise FolderUnfitError(
            f"user {peer.user} listens at {path}, but this process runs as user {os.geteuid()}: "
            "use a socket in a folder of that user, made by `mkdir -m 700`"
        )
