"""A journal's file: locked, rewritten atomically, and otherwise only appended to.

An appended record survives the end of this process at once. It survives a failure of the machine
only after the file has been rewritten, since only then is it flushed to the disk. Next to the file
at PATH are PATH.lock, which stays, and PATH.new, which exists briefly.
"""

import fcntl
import logging
import os
import weakref
from collections.abc import Iterable
from typing import NoReturn

from ..core._private_files import check_folder
from ..core.errors import (
    FolderUnfitError,
    JournalDamagedError,
    JournalError,
    JournalInUseError,
    JournalVersionError,
)
from ._records import record, records

VERSION = 2
NAME = b"zanteyard journal "
FIRST_LINE = NAME + b"%d\n" % VERSION
FLAGS = os.O_RDWR | os.O_APPEND | os.O_CLOEXEC
logger = logging.getLogger("zanteyard")


class Journal:
    """A journal file, for one thread at a time. Every call raises JournalError if the file can't be
    written or read; nothing half-written remains in it then."""

    def __init__(self, path: str) -> None:
        """Raises JournalInUseError if another auditor uses it, and JournalError also if other users
        may read or write its folder."""
        self.path = os.path.realpath(path)  # one lock, whatever links lead to it
        self.size = 0  # bytes of the file's whole records
        self._is_torn = False  # the file has bytes after them
        self._file: int | None = None
        self._lock: int | None = None
        _journals.add(self)
        try:
            check_folder(os.path.dirname(self.path))
            self._lock = os.open(f"{self.path}.lock", os.O_RDWR | os.O_CREAT | os.O_CLOEXEC, 0o600)
            fcntl.flock(self._lock, fcntl.LOCK_EX | fcntl.LOCK_NB)
        except FolderUnfitError as error:
            raise JournalError(f"can't open {path}: {error}") from error
        except OSError as error:
            self.close()
            if isinstance(error, BlockingIOError):
                raise JournalInUseError(f"{path}: another auditor uses this journal") from error
            self._fail("can't be locked", error)

    @property
    def is_there(self) -> bool:
        """Whether there is a file to continue from."""
        return os.path.lexists(self.path)

    def read(self) -> list[bytes]:
        """The texts of all records. An incomplete record at the end is left out, which is logged,
        and removed by the next `append`. Raises JournalDamagedError and JournalVersionError."""
        self._let_go()
        try:
            self._file = os.open(self.path, FLAGS)
            with open(self._file, "rb", closefd=False) as file:
                content = file.read()
        except OSError as error:
            self._fail("can't be read", error)
        if not content.startswith(FIRST_LINE):
            raise JournalVersionError(f"{self.path} {_other_version(content)}")
        texts, self.size = [], len(FIRST_LINE)
        try:
            for text, self.size in records(content, self.size):
                texts.append(text)
        except JournalDamagedError as error:
            raise JournalDamagedError(f"{self.path}: {error}; none of it is used") from error
        self._is_torn = self.size < len(content)
        if self._is_torn:
            lost = len(content) - self.size
            logger.warning(
                "%s: dropped an incomplete record of %d bytes at the end", self.path, lost
            )
        return texts

    def append(self, texts: Iterable[bytes]) -> None:
        """Adds records at the end, with one write."""
        assert self._file is not None
        text = b"".join(map(record, texts))
        try:
            if self._is_torn:
                os.ftruncate(self._file, self.size)  # this needs no space
            self._is_torn = True  # in case an interrupt comes in between
            _write(self._file, text)
            self.size += len(text)
            self._is_torn = False
        except OSError as error:
            self._cut_back()
            self._fail("can't be written", error)

    def begin_anew(self, texts: Iterable[bytes]) -> None:
        """Replaces the whole contents. Whatever happens, the file has either the old or the new
        ones."""
        new, file = f"{self.path}.new", None
        try:
            file = os.open(new, FLAGS | os.O_CREAT | os.O_TRUNC, 0o600)
            text = FIRST_LINE + b"".join(map(record, texts))
            _write(file, text)
            os.fsync(file)
            os.rename(new, self.path)
            self._let_go()
            self._file, self.size, self._is_torn = file, len(text), False
            flush_folder(os.path.dirname(self.path))
        except OSError as error:
            if file is not None and file != self._file:
                os.close(file)
                _remove(new)
            self._fail("can't be rewritten", error)

    def set_aside(self) -> str:
        """Renames the file and returns its new name."""
        self._let_go()
        names = (f"{self.path}.damaged{more}" for more in ("", *(f".{at}" for at in range(2, 100))))
        aside = next((name for name in names if not os.path.lexists(name)), f"{self.path}.damaged")
        try:
            os.rename(self.path, aside)
        except OSError as error:
            self._fail("can't be renamed", error)
        return aside

    def close(self) -> None:
        """Releases the journal for other auditors. May be called again."""
        self._let_go()
        if self._lock is not None:
            os.close(self._lock)
            self._lock = None

    def _cut_back(self) -> None:
        """Cuts the file back to its last whole record."""
        assert self._file is not None
        try:
            os.ftruncate(self._file, self.size)
            self._is_torn = False
        except OSError as error:
            logger.error("%s may end with an incomplete record: %s", self.path, error)

    def _let_go(self) -> None:
        if self._file is not None:
            os.close(self._file)
            self._file = None

    def _fail(self, what: str, error: OSError) -> NoReturn:
        raise JournalError(f"{self.path} {what}: {error.strerror or error}") from error


def _write(file: int, text: bytes) -> None:
    count = os.write(file, text)
    while count < len(text):
        count += os.write(file, text[count:])


def flush_folder(path: str) -> None:
    """Flushes the folder, so that the new file's name survives a failure of the machine."""
    folder = os.open(path, os.O_RDONLY | os.O_CLOEXEC)
    try:
        os.fsync(folder)
    finally:
        os.close(folder)


def _remove(path: str) -> None:
    try:
        os.unlink(path)
    except OSError:
        pass  # harmless: the next `begin_anew` empties it


def _other_version(text: bytes) -> str:
    version = text[len(NAME) :].partition(b"\n")[0]
    if text.startswith(NAME) and version.isdigit():
        return (
            f"is a journal of version {version.decode()}, and this program reads version {VERSION}"
        )
    return "isn't a journal"


def _leave_all() -> None:
    """Closes all journals in a forked child. Otherwise it would keep the lock after its parent is
    killed."""
    for journal in list(_journals):
        journal.close()


_journals: "weakref.WeakSet[Journal]" = weakref.WeakSet()
os.register_at_fork(after_in_child=_leave_all)


def keep_earlier(path: str) -> None:
    """Renames the journal of an earlier run to PATH.old, if there is one. Raises JournalInUseError
    if that run isn't over."""
    if os.path.lexists(path):
        journal = Journal(path)
        try:
            os.replace(path, f"{path}.old")
        finally:
            journal.close()
