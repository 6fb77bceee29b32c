"""The program cobra_audit with a journal: if it dies, another one is started and brought to the
same state.

It has the calls of Pipes. A line's answer is passed on only after its effect is in the journal. So
a program that is given the journal's lines has the state that all callers know of. A line that
wasn't answered by then is given to it as a new one, and nothing else that the dead program did
counts.
"""

import json
import logging
import os
import time
from collections import deque
from collections.abc import Generator, Sequence
from itertools import islice, takewhile
from typing import Any

from ..core._forks import is_forked
from ..core._verdict_kinds import Kind
from ..core.errors import JournalError, ProgramEndedError, ProgramLateError
from ..journal._entries import Kept
from ..journal._history import state_of
from ..journal._writer import JournalWriter
from ._checkpoint import (
    NO_MEMORY,
    OK,
    REFUSED,
    Answers,
    is_standing,
    saved_lines,
    standing_lines,
    why_not_resumed,
)
from ._pipes import Pipes

Talk = Generator[list[bytes], list[bytes], None]  # yields lines, and is sent their answers

MOST = 8  # programs that may die over one line, or over one round
SILENT = 45.0  # seconds for a program to answer a line, which never waits for a search
PAUSE, LONGEST_PAUSE = 0.02, 0.5  # seconds before the third program; doubled for each further one
CHANGES = (b'["offer",', b'["close",', b'["join",')
OPEN, TRUNCATE = b'["open",', b'["truncate"'
BEGIN, SEARCH, COLLECT, SKIP = b'["begin"', b'["search",', b'["collect"', b'["skip"'
ENDS_ROUND = (b'["finish",', b'["answer",', COLLECT)
REPORTED, CUT = b'["report",', b'["cut",'
FINDS_CUT = (b"serial", b"pending")
logger = logging.getLogger("zanteyard")


class SupervisedProgram:
    """For one thread at a time. In addition to what Pipes raises, `wait` and `answers` raise
    JournalError if the journal can't be written or doesn't fit. Then it is over, since nothing
    except reports is passed on without being in the journal. A program that stays silent for too
    long is replaced, too."""

    def __init__(
        self,
        path: str,
        keeping: JournalWriter,
        kept: Kept | None = None,
    ) -> None:
        """`kept` is the journal's contents, if it continues one."""
        self.path, self.keeping = path, keeping
        self.restarts, self.made_in = 0, os.getpid()
        self._given: deque[bytes] = deque()  # lines whose answers weren't passed on
        self._sent = 0  # how many of these were sent
        self._found: deque[bytes] = deque()  # answers that nobody has taken yet
        self._talk: Talk | None = None  # its own exchange, during which no caller's line is sent
        self._asked = 0  # lines of it that were sent last
        self._last_round: bytes | None = None  # which may have found a cut
        self._lacks_cut = False  # that round was another program's
        # After how many of the journal's changes it was, if known.
        self._round_at: int | None = None
        # The lines by which a round was opened and searched; and after how many changes.
        self._open: list[bytes] = []
        self._open_at = 0
        self._deaths = 0  # since a line was answered
        self._round_deaths = 0  # since the open round was begun
        self._starts_at, self._silent_at = 0.0, float("inf")
        self._is_down = False
        self._is_in_step, self._why_over = True, ""
        self._pipes = self._program()
        if kept is not None:
            self._begin(self._resume(kept))

    def _program(self) -> Pipes:
        return Pipes(self.path)

    # the calls of Pipes

    @property
    def process(self) -> object:
        return self._pipes.process

    def ask(self, lines: Sequence[bytes]) -> None:
        self._still_in_step()
        self._given.extend(lines)

    def answers(self, count: int, seconds: float) -> list[bytes]:
        self.wait(count, seconds)
        return [self._found.popleft() for _ in range(count)]

    def wait(self, count: int, seconds: float) -> None:
        until = time.monotonic() + seconds
        while len(self._found) < count:
            self._still_in_step()
            self._go_on(until)

    def begin_again(self, lines: Sequence[bytes]) -> None:
        """Goes on with another program, in the state to which these lines lead. No answer may be
        awaited. Raises JournalError."""
        self._still_in_step()
        self.keeping.note_checkpoint(lines)
        self._last_round, self._lacks_cut, self._round_at, self._open = None, False, None, []
        self._is_in_step = False
        self._pipes.kill()
        self._pipes.end()
        self._pipes = self._program()
        kept = self.keeping.kept()
        assert kept is not None
        self._begin(self._resume(kept))
        self._is_in_step = True

    def kill(self) -> None:
        self._is_in_step = False
        self._pipes.kill()

    def end(self) -> int:
        self._is_in_step = False
        self.keeping.journal.close()
        return self._pipes.end()

    def _still_in_step(self) -> None:
        if is_forked(self):
            raise ProgramEndedError(
                "a process forked from the auditor's can't take part in the audit"
            )
        if not self._is_in_step:
            self.kill()
            status = self._pipes.end()
            raise ProgramEndedError(self._why_over or f"cobra_audit ended with status {status}")

    def _be_over(self, error: Exception) -> None:
        self._why_over = str(error)
        self.kill()

    # the exchange with the program

    def _go_on(self, until: float) -> None:
        """Sends what may be sent, and takes what is answered. Raises ProgramLateError at the time
        `until`, and may then be called again."""
        try:
            if self._is_down:
                self._start(until)
            self._give()
            wanted = self._asked if self._talk is not None else 1
            ends = min(until, self._silent_at)
            self._pipes.wait(wanted, max(0.0, ends - time.monotonic()))
            self._is_in_step = False
            answers = self._pipes.taken()
            self._take(answers)
            self._is_in_step = not self._why_over
        except ProgramLateError:
            if until <= self._silent_at:
                raise
            self._die(ProgramEndedError(f"cobra_audit didn't answer for {SILENT:g} s"))
        except ProgramEndedError as error:
            self._die(error)
        except JournalError as error:
            self._be_over(error)
            raise

    def _give(self) -> None:
        """Sends consecutive lines that change the state together, and any other line alone."""
        if self._talk is not None or self._sent == len(self._given):
            return
        lines = [*takewhile(_is_change, islice(self._given, self._sent, None))]
        if self._sent and not (lines and _is_change(self._given[0])):
            return
        self._is_in_step = False  # else an interrupt could make it send them twice
        if not lines and self._lacks_cut and self._given[0].startswith(TRUNCATE):
            self._begin(self._find_cut())
        else:
            lines = lines or [self._given[0]]
            self._silent_at = time.monotonic() + SILENT
            self._pipes.ask(lines)
            self._sent += len(lines)
        self._is_in_step = True

    def _take(self, answers: list[bytes]) -> None:
        self._silent_at = float("inf")
        if self._talk is not None:
            self._go_on_talking(answers)
            return
        if len(answers) > self._sent:
            raise ProgramEndedError("cobra_audit sent an answer that wasn't asked for")
        changes = [
            given
            for given, answer in zip(self._given, answers)
            if answer == OK and _is_change(given)
        ]
        if changes:
            self.keeping.note_changes(changes)
        for answer in answers:
            self._settle(self._given[0], answer)
        is_between = self._talk is None and not self._sent and not self._open
        if is_between and self.keeping.is_checkpoint_due:
            self._begin(self._checkpoint())

    def _settle(self, given: bytes, answer: bytes) -> None:
        """Handles a line's answer, after its effect is noted."""
        if answer.startswith(REPORTED):
            self._tell(self._reported(given, answer))
        elif answer.startswith(CUT) or (answer == OK and given.startswith(OPEN)):
            self._begin(self._checkpoint(answer))
        else:
            self._note_round(given, answer)
            self._tell(answer)

    def _note_round(self, given: bytes, answer: bytes) -> None:
        """Remembers what another program needs to know about the open round."""
        if answer == OK and given.startswith(BEGIN):
            self._open, self._open_at, self._round_deaths = [given], self.keeping.changes, 0
        elif answer == OK and given.startswith(SEARCH):
            self._open.append(given)
        elif answer == OK and given.startswith(SKIP):
            self._open = []
            self._note_told(None)
        elif answer.startswith(NO_MEMORY) and given.startswith(COLLECT):
            del self._open[1:]

    def _tell(self, answer: bytes) -> None:
        """Passes the answer to the first line on."""
        self._given.popleft()
        self._sent -= 1
        self._found.append(answer)
        self._deaths = 0

    def _reported(self, given: bytes, answer: bytes) -> bytes:
        """The report with its number, which counts the rounds of all programs. It is passed on even
        if it can't be noted."""
        kind = answer.split(b'"', 4)[3]
        number = self.keeping.rounds + 1
        answer = b"%s%d%s" % (REPORTED, number, answer[answer.index(b",", len(REPORTED)) :])
        if kind in FINDS_CUT:
            asked = self._open[-1] if given.startswith(COLLECT) else given
            self._last_round, self._lacks_cut = b'["round",' + asked.split(b",", 1)[1], False
            is_of_open = given.startswith(ENDS_ROUND)
            self._round_at = self._open_at if is_of_open else self.keeping.changes
        if given.startswith(ENDS_ROUND):
            self._open = []
        self._note_told(json.loads(answer) if kind == b"violated" else None)
        return answer

    def _note_told(self, violation: list[Any] | None) -> None:
        """Notes one more round."""
        try:
            self.keeping.note_report(violation)
        except JournalError as error:
            logger.error("can't note a round in the journal: %s", error)
            self._why_over = str(error)

    # its own lines

    def _begin(self, talk: Talk) -> None:
        self._talk = talk
        self._ask(next(talk))

    def _ask(self, lines: list[bytes]) -> None:
        self._asked = len(lines)
        self._pipes.ask(lines)

    def _go_on_talking(self, answers: list[bytes]) -> None:
        assert self._talk is not None
        try:
            self._ask(self._talk.send(answers))
        except StopIteration:
            self._talk = None

    def _checkpoint(self, answer: bytes | None = None) -> Talk:
        """Writes a checkpoint, then passes this answer on."""
        saved = yield from saved_lines(self.keeping.limit, self.keeping.promise)
        is_last = self._round_at == self.keeping.changes  # nothing has come since that round
        self.keeping.note_checkpoint(saved)
        self._round_at = 0 if is_last else None
        if answer is not None:
            self._last_round = None
            self._tell(answer)

    def _find_cut(self) -> Talk:
        """Finds the last round's cut again, since the program that found it is gone. The round is
        repeated by a program that has only what was there at that time. Changes since then that are
        already in a checkpoint become part of the round."""
        assert self._last_round is not None
        kept, at = self.keeping.kept(), self._round_at
        behind: list[bytes] = kept.lines[kept.saved + at :] if kept and at is not None else []
        if kept and behind:
            self._pipes.kill()
            self._pipes.end()
            self._pipes = self._program()
            yield from self._begun_with(kept.lines[: len(kept.lines) - len(behind)])
        (answer,) = yield [self._last_round]
        if behind:
            yield from self._begun_with(behind)
        self._lacks_cut = False
        reply = json.loads(answer)
        if reply[2] == Kind.VIOLATED:  # through later lines; the next round reports it
            self.keeping.note_violation([reply[0], self.keeping.rounds, *reply[2:]])

    def _begun_with(self, lines: list[bytes], *more: bytes) -> Answers:
        """Gives these lines, which must be answered ok; returns the answers to the lines in
        `more`."""
        answers = yield [*lines, *more]
        wrong = [answer for answer in answers[: len(lines)] if answer != OK]
        wrong += [answer for answer in answers[len(lines) :] if answer.startswith(REFUSED)]
        if wrong:
            raise why_not_resumed(wrong[0], self.keeping.journal.path)
        return answers[len(lines) :]

    def _resume(self, kept: Kept) -> Talk:
        began = time.monotonic()
        state = state_of(kept.lines, has_last=False)
        lines = kept.lines
        if self._open:  # the round must be about what it was begun with
            begun = kept.saved + self._open_at
            lines = [*lines[:begun], *self._open, *lines[begun:]]
        answers = yield from self._begun_with(lines, *standing_lines(len(state.gone)))
        if not is_standing(answers, state.gone, state.closed, state.received):
            raise JournalError(f"{self.keeping.journal.path}: replaying it gives another state")
        took = time.monotonic() - began
        logger.info("cobra_audit was restored from %s in %.3f s", self.keeping.journal.path, took)

    # programs that die

    def _die(self, error: ProgramEndedError) -> None:
        """Starts another program, unless too many have died over the same line or round."""
        self._is_in_step = False
        self._deaths += 1
        self._round_deaths += bool(self._open)
        self._pipes.kill()
        self._pipes.end()
        if max(self._deaths, self._round_deaths) >= MOST:
            self._be_over(error)
            raise error
        logger.warning("%s; starting another one", str(error).rstrip(": "))
        self._sent, self._talk, self._silent_at = 0, None, float("inf")
        self._lacks_cut = self._last_round is not None
        pause = min(LONGEST_PAUSE, PAUSE * 2 ** (self._deaths - 2)) if self._deaths > 1 else 0.0
        self._starts_at = time.monotonic() + pause
        self._is_down, self._is_in_step = True, True

    def _start(self, until: float) -> None:
        now = time.monotonic()
        if now < self._starts_at:
            time.sleep(max(0.0, min(until, self._starts_at) - now))
            if until < self._starts_at:
                raise ProgramLateError("cobra_audit is being restarted")
        self._is_in_step = False
        kept = self.keeping.kept()
        self._pipes = self._program()
        self.restarts += 1
        self._is_down = False
        if kept is not None:
            self._begin(self._resume(kept))
        self._is_in_step = True


def _is_change(line: bytes) -> bool:
    """Whether the line changes what was taken in."""
    return line.startswith(CHANGES)
