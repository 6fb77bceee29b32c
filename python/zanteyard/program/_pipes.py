"""A program that answers line by line over pipes, with a time limit for each wait."""

import os
import select
import subprocess
import time
from collections.abc import Iterable
from typing import NoReturn

from ..core.errors import ProgramEndedError, ProgramLateError


ENDING = 5.0  # seconds for a program to end by itself after its input has ended


class Pipes:
    """For one thread at a time. After an interrupt in the middle of a write or a read, and after
    `kill`, every call raises ProgramEndedError, since an answer could belong to another line."""

    program = "cobra_audit"  # its name in messages

    def __init__(self, path: str) -> None:
        pipe = subprocess.PIPE
        try:
            self.process = subprocess.Popen([path], stdin=pipe, stdout=pipe, stderr=pipe, bufsize=0)
        except OSError as error:
            message = f"can't start {path} ({error}); see README.md for how to build it"
            raise ProgramEndedError(message) from error
        assert self.process.stdin and self.process.stdout and self.process.stderr
        self.input, self.output = self.process.stdin, self.process.stdout
        self.errors = self.process.stderr
        self.rest = b""  # what was read after the last whole line
        self.unsent = memoryview(b"")  # rest of the lines that aren't written yet
        self.found: list[bytes] = []  # answers that nobody has taken yet
        self.is_in_step = True  # no write or read was interrupted halfway
        self.waits = select.poll()
        self.waits.register(self.output, select.POLLIN | select.POLLHUP)
        self.takes = select.poll()
        self.takes.register(self.input, select.POLLOUT)
        os.set_blocking(self.input.fileno(), False)

    def ask(self, lines: Iterable[bytes]) -> None:
        """Queues lines, as bytes without line ends. Each gets one answer."""
        self.still_in_step()
        self.unsent = memoryview(bytes(self.unsent) + b"".join(line + b"\n" for line in lines))

    def answers(self, count: int, seconds: float) -> list[bytes]:
        """The next `count` answers, in the order of their lines. Raises what `wait` raises."""
        self.wait(count, seconds)
        answers, self.found = self.found[:count], self.found[count:]
        return answers

    def taken(self) -> list[bytes]:
        """All answers that have arrived so far."""
        taken, self.found = self.found, []
        return taken

    def still_in_step(self) -> None:
        """Raises ProgramEndedError if answers can't be matched to lines any more."""
        if not self.is_in_step:
            self.kill()
            self.tell_end()

    def wait(self, count: int, seconds: float) -> None:
        """Waits for this many answers. Raises ProgramEndedError, or ProgramLateError after this
        many seconds. May be called again after the latter, and after an interrupt."""
        self.still_in_step()
        until = time.monotonic() + seconds
        try:
            while len(self.found) < count:
                if self.unsent:
                    self.write(until)
                self.read(until, is_blocking=not self.unsent)
        except BrokenPipeError:
            self.tell_end()
        except (OSError, ValueError) as error:
            raise ProgramEndedError(f"can't reach {self.program}: {error}") from error

    def write(self, until: float) -> None:
        """Writes what the program accepts, unless answers have to be read first."""
        try:
            self.is_in_step = False
            self.unsent = self.unsent[os.write(self.input.fileno(), self.unsent[:65536]) :]
            self.is_in_step = True
        except BlockingIOError:
            self.is_in_step = True
            if not self.waits.poll(0) and not self.takes.poll(self.left(until)):
                raise ProgramLateError(f"{self.program} didn't answer in time") from None

    def read(self, until: float, is_blocking: bool) -> None:
        left = self.left(until) if is_blocking else 0
        if not self.waits.poll(left):
            if is_blocking:
                raise ProgramLateError(f"{self.program} didn't answer in time")
            return
        self.is_in_step = False
        got = os.read(self.output.fileno(), 1 << 20)
        if not got:
            self.tell_end()
        *lines, self.rest = (self.rest + got).split(b"\n")
        self.found += lines
        self.is_in_step = True

    def left(self, until: float) -> int:
        """Milliseconds, for `poll`."""
        return max(0, int(1000 * (until - time.monotonic())))

    def tell_end(self) -> NoReturn:
        words = f"{self.program} ended with status {self.end()}"
        raise ProgramEndedError(f"{words}: {self.error}" if self.error else words)

    error = ""  # what it wrote on standard error

    def kill(self) -> None:
        """Kills the program. Its answers so far aren't read any more."""
        self.is_in_step = False
        self.process.kill()

    def end(self) -> int:
        """Ends the program, and returns its status. May be called again."""
        for pipe in (self.input, self.output):
            try:
                pipe.close()
            except OSError:
                pass
        try:
            self.process.wait(ENDING)
        except subprocess.TimeoutExpired:
            self.process.kill()
        if not self.errors.closed:
            self.error = self.errors.read().decode(errors="replace").strip()
            self.errors.close()
        return self.process.wait()
