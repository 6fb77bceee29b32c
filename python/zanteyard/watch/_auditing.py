"""Passes the proxy's lines to the auditor, and reads its replies.

Lines are passed on as bytes. Each `open` begins a new audit with a new program, which knows nothing
of the previous one.
"""

import json
import logging
import re
import uuid
from collections.abc import Iterator, Sequence
from typing import Any

from ..core._own_keys import FENCE
from ..core.errors import JournalError, ProgramEndedError, RefusedError
from ..journal._file import keep_earlier
from ..journal._entries import Head
from ..program._checkpoint import MARKS, OK, saved_lines, why_not_resumed
from ..program._lines import refusal_of as refused, written
from ..program._pipes import Pipes
from ..program._searched_round import REPORT as REPORTS
from ..program._searched_round import RoundCount, SearchedRound
from ..program._supervised import SupervisedProgram
from ..program._resuming import journaled
from ..promises._asking import Asking, asked_in, most_remaining
from ..promises._kinds import SERIALIZABLE, SNAPSHOT, Promise
from .violations._kept import Kept

SECONDS = 60.0  # seconds for the reply to a line
OPEN = re.compile(rb'\["open",(\d+),(\d+),(\d+)')
ROUND, TRUNCATE, REPORT = b'["round",', b'["truncate"', b'["report",'
HEAD = re.compile(rb'\["report",(\d+),"(\w+)",\[([\d,]*)\]')
logger = logging.getLogger("zanteyard")

Answered = tuple[bytes, bytes]  # a line and its reply


class Auditing:
    """For one thread at a time. With a journal, a program that dies is replaced by another one in
    the same state; without one, the audit ends with its program."""

    def __init__(
        self,
        path: str,
        journal: str | None = None,
        round_seconds: float = 60.0,
        promise: Promise = SERIALIZABLE,
    ) -> None:
        """`path` is the program to start. Lines and replies have transactions as the proxy knows
        them, whatever the promise. A round whose search takes longer than `round_seconds` is
        skipped, and answered as spent. A journal from an earlier run is renamed. Raises
        JournalError."""
        self.path, self.journal, self.round_seconds = path, journal, round_seconds
        self.promise = promise
        self.audits = 0
        self._rounds = RoundCount()
        self._answer = self._refusal = b""  # the last reply, and the last one that was a refusal
        self._rewrites = False  # lines have to be asked in other words
        self._limit = 0  # transactions that may remain
        self.run_name = uuid.uuid4().hex
        self._program: Pipes | SupervisedProgram | None = None
        if journal is not None:
            keep_earlier(journal)

    @property
    def restarts(self) -> int:
        """How many programs were replaced in this audit."""
        return self._program.restarts if isinstance(self._program, SupervisedProgram) else 0

    def give(self, blocks: Sequence[bytes]) -> Iterator[Answered]:
        """Gives these lines, as `Split` makes them: many at a time, which aren't read here. Yields
        each `open`, `round` and `truncate` with its reply, as the replies arrive, and every other
        line that wasn't answered ok. Raises ProgramEndedError if the program ends or doesn't answer
        in time, and JournalError; then the audit is over. Lines before the first `open`, or of an
        audit that is over, aren't answered."""
        waiting: list[bytes] = []
        for block in blocks:
            is_opening = OPEN.match(block) is not None
            if is_opening:
                yield from self._refused(waiting)
                self._begin(block)
            if self._program is None:
                continue
            if is_opening or block.startswith((ROUND, TRUNCATE)):
                yield from self._refused(waiting)
                yield block, self._searched(block) if block.startswith(ROUND) else self._one(block)
            else:
                waiting.append(block)
        yield from self._refused(waiting)

    def ask(self, line: bytes) -> bytes:
        """The reply to one line. Raises what `give` raises."""
        return next((reply for _, reply in self.give([line])), OK)

    def marks(self) -> list[int]:
        """How many transactions of each session are forgotten. Raises what `give` raises."""
        marks: list[int] = json.loads(self._reply(MARKS))[1]
        return marks

    @property
    def is_running(self) -> bool:
        return self._program is not None

    def kept(self) -> Kept:
        """What the program holds. Raises what `give` raises."""
        talk = saved_lines(self._limit, self.promise)
        lines = next(talk)
        while True:
            answers = self._replies(lines)
            try:
                lines = talk.send(answers)
            except StopIteration as ended:
                return Kept(ended.value)

    def go_on_with(self, lines: Sequence[bytes]) -> None:
        """Goes on with another program, in the state to which these lines lead. Raises what `give`
        raises."""
        if isinstance(self._program, SupervisedProgram):
            self._program.begin_again(lines)
            return
        if self._program is not None:
            self._program.kill()
            self._program.end()
        self._program = Pipes(self.path)
        self._rounds.begin_again()
        for answer in self._replies(lines):
            if answer != OK:
                self._kill()
                raise why_not_resumed(answer, "what the auditor gave out")

    def _begin(self, line: bytes) -> None:
        self.end()
        self.audits += 1
        self._rounds = RoundCount()
        self._asking = Asking(self.promise, keeps_version=True)
        self._rewrites = self.promise.asks_itself and asked_in(json.loads(line)) != SNAPSHOT
        found = OPEN.match(line)
        assert found is not None
        self._limit = int(found[2])
        if self.promise.asks_itself:
            self._limit = min(self._limit, most_remaining(self.promise, int(found[3])))
        if self.journal is None:
            self._program = Pipes(self.path)
            return
        head = Head(int(found[1]), self._limit, self.run_name, self.audits)
        head.promise = self.promise.name
        self._program = journaled(self.path, self.journal, lambda: head, [FENCE])

    def _refused(self, blocks: list[bytes]) -> Iterator[Answered]:
        """Gives these lines, and yields those that aren't answered ok. Empties the list."""
        if self._rewrites:
            lines = [json.loads(line) for block in blocks for line in block.split(b"\n")]
            blocks[:] = [written(it).encode() for line in lines for it in self._asking.asked(line)]
        counts = [block.count(b"\n") + 1 for block in blocks]
        for block, answers in zip(blocks, self._exchanged(blocks, counts)):
            if answers.count(OK) < len(answers):
                pairs = zip(block.split(b"\n"), answers)
                yield from ((line, answer) for line, answer in pairs if answer != OK)
        blocks.clear()

    def _exchanged(self, blocks: Sequence[bytes], counts: Sequence[int]) -> Iterator[list[bytes]]:
        """Gives all these lines at once, and yields the replies to each block, so many."""
        program = self._program
        if program is None or not blocks:
            return
        try:
            if isinstance(program, SupervisedProgram):
                program.ask([line for block in blocks for line in block.split(b"\n")])
            else:
                program.ask(blocks)
            for count in counts:
                yield program.answers(count, SECONDS + self.round_seconds)
        except (ProgramEndedError, JournalError):
            self._kill()
            raise

    def _replies(self, lines: Sequence[bytes]) -> list[bytes]:
        each = self._exchanged(lines, [1] * len(lines))
        return [answer for answers in each for answer in answers]

    def _reply(self, line: bytes) -> bytes:
        (reply,) = self._replies([line])
        return reply

    def _one(self, line: bytes) -> bytes:
        """The reply to a line that may have to be asked in other words."""
        if self._rewrites:
            (asked,) = self._asking.asked(json.loads(line))
            line = written(asked).encode()
        return self._reply(line)

    def _searched(self, line: bytes) -> bytes:
        """The reply to a round. The search runs while the program reads other lines, so that it can
        be skipped."""
        _, *asked = json.loads(line)
        more = (self.round_seconds, self._rounds, isinstance(self._program, SupervisedProgram))
        try:
            search = SearchedRound(self._reply_to, asked, *more, self._received)
            report = search.wait(SECONDS)
        except RefusedError:
            return self._refusal
        if search.is_skipped:
            return written([REPORTS, *report[:3]]).encode()
        rest = self._answer[self._answer.index(b",", len(REPORT)) :]
        return b"%s%d%s" % (REPORT, report.number, rest)

    def _received(self) -> list[int]:
        """How many transactions of each session the program was given."""
        received: list[int] = self._reply_to(["show"])[2]
        return received

    def _reply_to(self, line: Sequence[Any]) -> list[Any]:
        """The reply to a line; of a report only its head. Raises RefusedError."""
        text = written(line)
        self._answer = self._reply(text.encode())
        if self._answer.startswith(REPORT):
            return ["report", *head_of(self._answer)]
        reply: list[Any] = json.loads(self._answer)
        refusal = refused(text, reply)
        if refusal is not None:
            self._refusal = self._answer
            raise refusal
        return reply

    def _kill(self) -> None:
        if self._program is not None:
            self._program.kill()
        self.end()

    def end(self) -> None:
        """Ends the program, if one is running."""
        program, self._program = self._program, None
        if program is not None:
            try:
                program.end()
            except OSError as error:
                logger.warning("the auditor didn't end cleanly: %s", error)


def head_of(report: bytes) -> tuple[int, str, list[int]]:
    """The round, its verdict, and how many transactions of each session it was about. The rest,
    such as an order of all that remains, isn't read."""
    found = HEAD.match(report)
    assert found is not None
    return int(found[1]), found[2].decode(), [*map(int, found[3].split(b","))] if found[3] else []


def refusal_of(reply: bytes) -> str:
    """The name of the refusal in a reply; empty if the line wasn't refused."""
    if not reply.startswith(b'["no",'):
        return ""
    parts: list[str] = reply.decode(errors="replace").split('"')
    return parts[3] if len(parts) > 3 else "refused"
