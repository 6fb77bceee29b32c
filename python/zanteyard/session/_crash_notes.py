"""What a client process is about to commit, and the answers it got, in files that survive the
process.

Each session has two files, which it fills in turn: a file is used again once everything in it has
been handed over. A record starts with its length and the CRC-32 of what follows, four bytes each.
Then follows a plain tuple, written with `marshal`: the version of this format, a count, and the
fields of a CrashNote. Within a file the count goes up by one from record to record; what follows
the last record is older or torn. Nothing is flushed to the disk: these notes are for a process that
is killed, not for a machine that stops.
"""

import logging
import marshal
import os
import struct
import zlib
from collections.abc import Callable, Iterator
from typing import Any, NamedTuple

VERSION = 3
HEAD = struct.Struct("<II")
ROOM = 1 << 16  # bytes that each file gets when it is created, in case the disk fills up
TURN = 3 << 14  # bytes after which the other file is used, if it is free
MOST = 1 << 26  # bytes of a file, at most: a session that gets this far hands nothing over any more
FORKED = "-forked"  # appended to a process's path: a file that exists once the process has forked
logger = logging.getLogger("zanteyard")


class CrashNote(NamedTuple):
    """A note about a transaction. `outcome` is None before its commit is sent, and then what was
    logged. `packed` is what to log if it was committed; for an aborted attempt, what the attempt
    had done. It is None if another note has it, or if there is none. `ticket` identifies the
    transaction to the store. `has_reads` tells whether its reads are known; they aren't for
    single-statement transactions. `is_last` is set if it is the last of its session. `unclear` says
    why its effects are unknown, if they are."""

    session: int
    number: int
    outcome: str | None = None
    packed: bytes | None = None
    ticket: Any = None
    has_reads: bool = True
    is_last: bool = False
    unclear: str | None = None


class Half:
    """One of a session's two files, with room for its notes. Raises OSError if it can't be made."""

    def __init__(self, path: str) -> None:
        self.path, self.at = path, 0
        self.last: dict[int, int] = {}  # of each session in this file, the last number
        flags = os.O_RDWR | os.O_CREAT | os.O_EXCL | os.O_CLOEXEC
        self.file = os.open(path, flags, 0o600)
        os.posix_fallocate(self.file, 0, ROOM)


class CrashNotes:
    """The notes of one session, for the thread that holds its turn. A failure here doesn't reach
    the client: the files are removed, so that nobody relies on incomplete notes, and `tell_failure`
    is called."""

    def __init__(
        self, path: str, sent: dict[int, int], tell_failure: Callable[[], object]
    ) -> None:
        """`sent` maps each session to the number after the last one handed over. Raises OSError."""
        self.paths = [f"{path}.{which}" for which in range(2)]
        self.sent, self.tell_failure = sent, tell_failure
        self.count, self.has_failed = 0, False
        self.is_over = False  # nobody reads the files any more
        self.halves: list[Half] = []
        try:
            for each in self.paths:
                self.halves.append(Half(each))
        except OSError:
            self.close()
            raise
        self.half = self.halves[0]

    def write(self, session: int, number: int, *more: Any) -> None:
        """Writes a CrashNote's fields with one system call."""
        if self.has_failed:
            if self.is_over:
                self.let_go()
            return
        try:
            half = self.half if self.half.at < TURN else self.turned()
            text = marshal.dumps((VERSION, self.count, session, number, *more))
            record = HEAD.pack(len(text), zlib.crc32(text)) + text
            if os.pwrite(half.file, record, half.at) < len(record):
                raise OSError("the disk is full")
            half.at += len(record)
            half.last[session] = number
            self.count += 1
        except Exception as error:
            self.fail(error)

    def turned(self) -> Half:
        """The other file if everything in it has been handed over, else the current one."""
        if self.half.at > MOST:
            raise OSError("the notes file is no longer written")
        other = self.halves[1 if self.half is self.halves[0] else 0]
        if all(number < self.sent.get(session, 0) for session, number in other.last.items()):
            other.last = {}
            other.at = 0
            self.half = other
        return self.half

    def fail(self, error: Exception) -> None:
        self.has_failed = True
        self.remove()
        logger.error("the audit will end if this process is killed: %s", error)
        self.tell_failure()

    def remove(self) -> None:
        for path in self.paths:
            try:
                os.unlink(path)
            except OSError:
                pass  # it is gone; if not, `tell_failure` reports it

    def end(self) -> None:
        """Frees the files' space; nobody reads them any more. May be called from any thread. The
        holder of the session's turn may be writing: its descriptors are closed at its next
        write."""
        self.has_failed = self.is_over = True
        for path in self.paths:
            try:
                file = os.open(path, os.O_WRONLY | os.O_CLOEXEC)
            except OSError:
                continue  # it is gone
            try:
                os.unlink(path)  # before it is emptied: it mustn't look like one without notes
                os.ftruncate(file, 0)
            except OSError:
                pass  # another thread has done it
            finally:
                os.close(file)

    def close(self) -> None:
        """Removes the files, once everything is handed over and nobody writes."""
        self.has_failed = True
        self.remove()
        self.let_go()

    def let_go(self) -> None:
        """Closes the files, and leaves them on disk."""
        self.has_failed = True
        while self.halves:
            try:
                half = self.halves.pop()
            except IndexError:
                return  # another thread has closed them
            os.close(half.file)


def notes_of(path: str) -> list[CrashNote] | None:
    """The notes at this path, in the order in which they were written. None if a file is missing or
    has another version."""
    notes = {}
    for which in range(2):
        try:
            with open(f"{path}.{which}", "rb") as file:
                text = file.read()
        except OSError:
            return None
        for version, count, *fields in records(text):
            if version != VERSION:
                return None
            notes[count] = CrashNote(*fields)
    return [notes[count] for count in sorted(notes)]


def records(text: bytes) -> Iterator[Any]:
    """The records from the beginning of a file up to the first one that is torn or older."""
    at, before = 0, None
    while at + HEAD.size <= len(text):
        length, check = HEAD.unpack_from(text, at)
        body = text[at + HEAD.size : at + HEAD.size + length]
        if not length or len(body) < length or zlib.crc32(body) != check:
            return
        record = marshal.loads(body)
        if before is not None and record[1] != before + 1:
            return
        yield record
        before = record[1]
        at += HEAD.size + length
