"""The key by which proxies on several machines and their audit recognize each other's messages: the
bytes of a file that only its owner may access. The proxy reads it."""

import os
import secrets

from ..core.errors import KeyFileError


def make_key(path: str) -> None:
    """Writes a new key to a file that doesn't exist yet. Raises KeyFileError."""
    flags = os.O_WRONLY | os.O_CREAT | os.O_EXCL | os.O_CLOEXEC
    try:
        with open(os.open(path, flags, 0o600), "w", encoding="ascii") as file:
            file.write(secrets.token_hex(32))
            file.flush()
            os.fsync(file.fileno())
    except OSError as error:
        raise KeyFileError(f"can't create the key {path}: {error.strerror}") from error
