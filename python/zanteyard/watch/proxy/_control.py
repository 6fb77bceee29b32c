"""The control socket of a proxy (docs/PROXY_FEED.md): where it is, and how a running proxy is
asked for it."""

import hashlib
import json
import os
import re
import socket
import stat
import tempfile
from collections.abc import Mapping, Sequence
from dataclasses import dataclass

from ...core.errors import ZanteyardError

SECONDS = 10.0  # for the proxy to answer
LONGEST = 100  # bytes of a Unix socket's path, less than the 107 that Linux allows
MOST = 1 << 16  # bytes of an answer
FINGERPRINT = "ZANTEYARD_FINGERPRINT"  # the environment variable by which a proxy is recognized
MINE = ("PG", "ZANTEYARD_", "GO", "SSL_CERT_")  # environment variables that the proxy reads


class ControlError(ZanteyardError):
    """The control socket can't be used. Nothing has begun."""


class BusyProxyError(ControlError):
    """Another program audits through the proxy."""


@dataclass(frozen=True)
class Who:
    """A running proxy."""

    process: int
    build: str
    fingerprint: str  # of the options and the environment that it was started with
    parent: int  # the process that audits through it; 0 if there is none


def control_path(listen: str, environment: Mapping[str, str] = os.environ) -> str:
    """The path of the control socket of the proxy at an address. Its folder is made if it is
    missing: the service manager's runtime folder, the user's, or one below the folder for
    temporary files. Raises ControlError if others could put another socket there."""
    folder = _folder(environment)
    try:
        os.makedirs(folder, mode=0o700, exist_ok=True)
        state = os.lstat(folder)
    except OSError as error:
        raise ControlError(f"can't make the folder {folder}: {error.strerror}") from error
    is_own = stat.S_ISDIR(state.st_mode) and state.st_uid == os.getuid()
    is_safe = is_own and not state.st_mode & 0o022
    if not is_safe:
        raise ControlError(f"{folder} must be a folder that only this user can write to")
    name = re.sub("[^A-Za-z0-9.-]+", "_", listen).strip("_") + ".sock"
    path = os.path.join(folder, name)
    if len(os.fsencode(path)) > LONGEST:
        path = os.path.join(folder, hashlib.sha256(listen.encode()).hexdigest()[:16] + ".sock")
    if len(os.fsencode(path)) > LONGEST:
        raise ControlError(f"the path {path} is too long for a Unix socket")
    return path


def _folder(environment: Mapping[str, str]) -> str:
    service = environment.get("RUNTIME_DIRECTORY", "").split(":")[0]
    if service:
        return service
    user = environment.get("XDG_RUNTIME_DIR")
    if user and os.path.isdir(user):
        return os.path.join(user, "zanteyard")
    return os.path.join(tempfile.gettempdir(), f"zanteyard-{os.getuid()}")


def fingerprint(call: Sequence[str], environment: Mapping[str, str]) -> str:
    """Stands for the options and the environment of a proxy. It is a digest, so it doesn't show
    a password."""
    mine = {
        name: value
        for name, value in environment.items()
        if name.startswith(MINE) and name != FINGERPRINT
    }
    text = json.dumps([list(call[1:]), sorted(mine.items())])
    return hashlib.sha256(text.encode("utf-8", "surrogateescape")).hexdigest()


def who(path: str) -> Who | None:
    """The proxy that has this control socket; None if there is none. Raises ControlError if
    something else answers."""
    connection = _connect(path)
    if connection is None:
        return None
    with connection:
        return _who(_ask(connection, path, "who")[0], path)


def attach(path: str, wants_log: bool) -> tuple[socket.socket, Who, bytes] | None:
    """Becomes the parent of the proxy that has this control socket: the connection, the proxy,
    and what it has written already. None if there is none. Raises BusyProxyError if it has
    another parent."""
    connection = _connect(path)
    if connection is None:
        return None
    try:
        line, rest = _ask(connection, path, "attach", log=wants_log)
        found = _who(line, path)
        connection.settimeout(None)
        return connection, found, rest
    except BaseException:
        connection.close()
        raise


def _connect(path: str) -> socket.socket | None:
    connection = socket.socket(socket.AF_UNIX, socket.SOCK_STREAM)
    connection.settimeout(SECONDS)
    try:
        connection.connect(path)
    except (FileNotFoundError, ConnectionRefusedError):
        connection.close()
        return None
    except OSError as error:
        connection.close()
        raise ControlError(f"can't connect to {path}: {error}") from error
    return connection


def _ask(connection: socket.socket, path: str, command: str, **more: object) -> tuple[bytes, bytes]:
    """The first line of the answer, and what came after it."""
    found = b""
    try:
        connection.sendall(json.dumps({"command": command, **more}).encode() + b"\n")
        while b"\n" not in found:
            piece = connection.recv(MOST)
            if not piece or len(found) > MOST:
                raise ControlError(f"{path} gave no answer")
            found += piece
    except OSError as error:
        raise ControlError(f"can't ask {path}: {error}") from error
    line, _, rest = found.partition(b"\n")
    return line, rest


def _who(line: bytes, path: str) -> Who:
    try:
        its = json.loads(line)
        if its["event"] == "refused":
            raise BusyProxyError(str(its["reason"]))
        process, parent = int(its["process"]), int(its["parent"])
        return Who(process, str(its["build"]), str(its["fingerprint"]), parent)
    except (ValueError, KeyError, TypeError) as error:
        raise ControlError(f"{path} isn't the control socket of a proxy") from error
