"""How a program hands out its state, and how another one starts from it (docs/FORMATS.md)."""

import json
from collections.abc import Generator, Sequence

from ..core.errors import JournalError, ProgramEndedError, ZanteyardError
from ..promises._asking import form_of
from ..promises._kinds import SERIALIZABLE, Promise

Answers = Generator[list[bytes], list[bytes], list[bytes]]  # yields lines, is sent their answers

OK, RESUMED = b'["ok"]', b'["resumed"]'
REFUSED, NO_MEMORY = b'["no",', b'["no",16,'
BAD_LINE = b'["no",1,"BadLine"]'
EMPTY = b",[]]"  # how an empty answer ends
MARKS, LAST = b'["save","marks"]', b'["last",'
KEYS = 1 << 64  # keys are below this
NUMBERS = 1 << 48  # numbers are at most this
TRIES = 3  # if a line is refused because memory ran out


def saved_lines(limit: int, promise: Promise = SERIALIZABLE) -> Answers:
    """The lines that bring another program to this one's state. Raises JournalError if the program
    can't say. In each step all unfinished parts are requested at once, each from where it ended."""
    last: list[bytes] = []
    remaining: list[bytes] = []
    (marks,) = yield from _answers([MARKS])
    sessions = len(json.loads(marks)[1])  # including those that have joined
    ends_at = {-1: 0, **dict.fromkeys(range(sessions), 0)}  # of keys; of each session
    while ends_at:
        answers = yield from _answers([_part(*each) for each in ends_at.items()])
        for part, answer in zip([*ends_at], answers):
            if answer.endswith(EMPTY):
                del ends_at[part]
                continue
            (last if part < 0 else remaining).append(answer)
            ends_at[part] = _end_of(answer)
            if ends_at[part] == KEYS:
                del ends_at[part]
    opening = written(["resume", sessions, limit, *form_of(promise, sessions, limit)])
    return [opening, marks, *last, *remaining, RESUMED]


def written(line: Sequence[object]) -> bytes:
    return json.dumps(line, separators=(",", ":")).encode()


def _part(session: int, at: int) -> bytes:
    if session < 0:
        return b'["save","last",%d]' % at
    return b'["save","remain",%d,%d]' % (session, at)


def _end_of(answer: bytes) -> int:
    """The number after the last key or transaction in the answer."""
    if answer.startswith(LAST):  # may be very long: only its last entry is parsed
        return int(answer[answer.rindex(b"[") + 1 :].partition(b",")[0]) + 1
    _, _, first, txns = json.loads(answer)
    return int(first) + len(txns)


def standing_lines(sessions: int) -> list[bytes]:
    """Lines that ask how many transactions of each session are gone, whether it is closed, and how
    many were taken in. The start is past the last possible number, so the answers are empty."""
    return [MARKS, *(_part(session, NUMBERS) for session in range(sessions))]


def is_standing(
    answers: Sequence[bytes], gone: list[int], closed: list[bool], received: list[int]
) -> bool:
    """Whether these answers to those lines mean that the program has this state."""
    marks, *ends = map(json.loads, answers)
    wanted = [["offer", session, number, []] for session, number in enumerate(received)]
    return bool(marks[:3] == ["marks", gone, closed] and ends == wanted)


def _answers(lines: list[bytes]) -> Answers:
    for _ in range(TRIES):
        answers = yield lines
        refused = [answer for answer in answers if answer.startswith(REFUSED)]
        if not refused:
            return answers
        if not refused[0].startswith(NO_MEMORY):
            break
    words = refused[0].decode(errors="replace")
    raise JournalError(f"this cobra_audit can't save its state; it answered {words}")


def why_not_resumed(answer: bytes, path: str) -> ZanteyardError:
    """The error for a line that wasn't answered ok."""
    if answer.startswith(NO_MEMORY):
        return ProgramEndedError("cobra_audit has no memory for the state that it was to load")
    message = answer.decode(errors="replace")
    if answer == BAD_LINE:
        message += ": it is older than this package"
    return JournalError(
        f"{path}: cobra_audit doesn't accept the state in it; it answered {message}"
    )
