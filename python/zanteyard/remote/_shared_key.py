"""The key by which two machines recognize each other's messages: the bytes of a file that only its
owner may access. Collectors, `zanteyard serve`, proxies and `zanteyard watch` read the same
form."""

import hmac
import os
import stat

from ..core.errors import KeyFileError

LEAST, MOST = 16, 4096  # bytes
ENVIRONMENT = "ZANTEYARD_KEY"  # the environment variable with the file's path


def shared_key(path: str | None) -> bytes:
    """The key in this file, or in the file that the environment variable names. Raises KeyFileError
    if it can't be read, if other users may access it, or if it is too short or too long."""
    path = path or os.environ.get(ENVIRONMENT)
    if not path:
        raise KeyFileError(
            "collectors and the audit need a shared key: `zanteyard key FILE` makes one, and "
            f"{ENVIRONMENT} names the file"
        )
    try:
        with open(os.open(path, os.O_RDONLY | os.O_CLOEXEC | os.O_NONBLOCK), "rb") as file:
            mode = os.fstat(file.fileno()).st_mode
            key = file.read(MOST + 1) if stat.S_ISREG(mode) else b""
    except OSError as error:
        raise KeyFileError(f"can't read the key {path}: {error.strerror}") from error
    if mode & 0o077:
        raise KeyFileError(f"other users can access the key {path}: run chmod 600 on it")
    if not LEAST <= len(key) <= MOST:
        raise KeyFileError(f"the key {path} must have {LEAST} to {MOST} bytes")
    return key


class Signer:
    """Signs texts of one direction and audit: the same text of another one has another
    signature."""

    def __init__(self, key: bytes, direction: str, audit: str) -> None:
        self._key, self._before = key, f"{direction}\0{audit}\0".encode()

    def sign(self, text: bytes) -> bytes:
        return hmac.digest(self._key, self._before + text, "sha256")

    def is_signed(self, text: bytes, signature: bytes) -> bool:
        return hmac.compare_digest(self.sign(text), signature)
