"""Sends lines to cobra_audit, reads its replies, and keeps the lines in a script."""

import json
import logging
import threading
import time
from collections.abc import Callable, Mapping, Sequence
from typing import Any, NamedTuple

from ..core._private_files import private
from ..core.errors import (
    BadLineError,
    FullError,
    JournalError,
    NoCutError,
    NoMemoryError,
    NoRoundError,
    NotAnchoredError,
    ProgramEndedError,
    ProgramLateError,
    RefusedError,
)
from ._pipes import Pipes
from ._supervised import SupervisedProgram

SECONDS = 60.0  # for the answer to a line that no client waits for
SHOWN = 160  # characters of a refused line
WAITS = (0.1, 0.5)  # seconds until a line that was answered NoMemory is sent again
ENDED = "cobra_audit was closed"
logger = logging.getLogger("zanteyard")
KINDS: Mapping[str, type[RefusedError]] = {
    "Backlog": FullError,
    "BadLine": BadLineError,
    "NoCut": NoCutError,
    "NoMemory": NoMemoryError,
    "NoRound": NoRoundError,
    "NotAnchored": NotAnchoredError,
}


def written(line: Sequence[object]) -> str:
    return json.dumps(line, separators=(",", ":"))


def refusal_of(text: str, reply: Sequence[Any]) -> RefusedError | None:
    """The error for this line, if the reply refuses it."""
    if reply[0] != "no":
        return None
    short = text if len(text) <= SHOWN else f"{text[:SHOWN]} .."
    return KINDS.get(reply[2], RefusedError)(f"{short} was refused: {reply[2]}")


class LateLine(NamedTuple):
    """A session's line that isn't answered yet. `note` is called with the refusal in its answer, if
    any, and returns what is to be raised. `sent` is when it was sent, by the monotonic clock."""

    text: str
    note: Callable[[RefusedError | None], RefusedError | None]
    sent: float


class Lines:
    """Safe for use by several threads: each call is one line and its reply."""

    script_path: str | None
    script_failure: OSError | None  # why the script lacks lines
    script: Any = None  # an unbuffered file, whose `write` returns how much it took
    program: Pipes | SupervisedProgram | None = None
    round_seconds: float  # that a round's search may take
    audits: int
    lock: threading.RLock  # the state follows the replies in their order
    _late: LateLine | None = None

    @property
    def restarts(self) -> int:
        """How many programs were replaced in this audit."""
        return self.program.restarts if isinstance(self.program, SupervisedProgram) else 0

    # Lines and answers are in step except between `_leave_step` and `_be_in_step`. If an interrupt
    # came there, the next caller could take an answer that isn't its own.

    _is_in_step = True
    _why_out = ""  # the reason, if it was no interrupt

    def _leave_step(self) -> None:
        """Marks the start of a request. The caller holds the lock."""
        self._still_in_step()
        self._is_in_step = False

    def _still_in_step(self) -> None:
        """Raises ProgramEndedError if an earlier request was never completed."""
        if not self._is_in_step:
            self._give_up()
            raise ProgramEndedError(self._why_out or "questions and answers are out of step")

    def _be_in_step(self) -> None:
        """Marks that an answer was read completely and its contents kept."""
        self._why_out = ""
        self._is_in_step = True

    def _open_script(self) -> None:
        """Opens the script. That of a later audit is next to the first one's, with the audit's
        number appended."""
        if self.script_path is not None:
            behind = f".{self.audits}" if self.audits > 1 else ""
            self.script = open(f"{self.script_path}{behind}", "wb", 0, opener=private)

    def ask(self, line: Sequence[object]) -> list[Any]:
        """The reply to a line of docs/FORMATS.md. A line that is refused because memory ran out is
        sent again."""
        text = written(line)
        with self.lock:
            self._begin_to_ask()
            (reply,) = self._replies_to([text])
            reply, refusal = self._settled(text, reply)
            self._be_in_step()
        if refusal is not None:
            raise refusal
        return reply

    def _begin_to_ask(self) -> None:
        if self._late is not None:
            self._end_late(SECONDS)
        self._leave_step()

    def _end_late(self, seconds: float) -> None:
        """Reads the answer to a session's line. Raises ProgramLateError, and may then be called
        again, as after an interrupt."""
        late = self._late
        assert late is not None
        self._still_in_step()
        if self.program is None:
            raise ProgramEndedError(ENDED)
        self.program.wait(1, seconds)
        self._leave_step()
        (answer,) = self.program.answers(1, seconds)
        refusal = late.note(self._settled(late.text, json.loads(answer), seconds)[1])
        self._late = None
        self._be_in_step()
        if refusal is not None:
            raise refusal

    def _settled(
        self, text: str, reply: list[Any], seconds: float = SECONDS
    ) -> tuple[list[Any], RefusedError | None]:
        """The reply and the refusal in it, after repeating a line that was refused because memory
        ran out."""
        for wait in WAITS:
            if reply[0] != "no" or reply[2] != "NoMemory" or wait > seconds:
                break
            time.sleep(wait)
            (reply,) = self._replies_to([text])
        return reply, refusal_of(text, reply)

    def _replies_to(self, texts: Sequence[str], is_kept: bool = True) -> list[list[Any]]:
        """The replies to lines that are sent one after another and kept in the script. Raises
        ProgramLateError if that takes too long. The caller has called `_begin_to_ask`."""
        self._give(texts, is_kept)
        try:
            assert self.program is not None
            answers = self.program.answers(len(texts), SECONDS + 2 * self.round_seconds)
            return [json.loads(answer) for answer in answers]
        except (ProgramEndedError, JournalError) as error:
            self._why_out = str(error)
            if isinstance(error, ProgramLateError):
                self._give_up()
            raise

    def _give_up(self) -> None:
        if self.program is not None:
            self.program.kill()

    def _give(self, texts: Sequence[str], is_kept: bool = True) -> None:
        if self.program is None:
            raise ProgramEndedError(ENDED)
        lines = [text.encode() for text in texts]
        if is_kept:
            self._keep(lines)
        self.program.ask(lines)

    def _keep(self, lines: Sequence[bytes]) -> None:
        """Writes lines to the script. If that fails, only the script suffers."""
        if self.script is not None and self.script_failure is None:
            try:
                text = b"".join(line + b"\n" for line in lines)
                while text:
                    text = text[self.script.write(text) :]
            except OSError as error:
                self.script_failure = error
                logger.error("%s lacks lines: %s", self.script.name, error)
