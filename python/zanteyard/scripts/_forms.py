"""Says what is wrong with the form of a script's line: the column, and what was expected there.

This only helps people with a line that the auditor has answered with BadLine. docs/FORMATS.md has
all forms.
"""

import json
from collections.abc import Callable, Mapping, Sequence
from typing import Any, NamedTuple

from ..core._visible import visible

LONGEST = 8_388_608  # bytes of a line
SHOWN = 30  # characters shown of what was found
MOST_SESSION = 255  # higher numbers are BadLine; those below have refusals of their own
DEEPEST = 32  # levels of nested lists; no form has that many
READER = json.JSONDecoder()


class Unexpected(Exception):
    """A mistake; `column` counts characters, from 1."""

    def __init__(self, column: int, expected: str, found: str) -> None:
        super().__init__(f"column {column}: expected {expected}, found {found}")
        self.column = column


class Part(NamedTuple):
    """A value of the line: where it begins, its text, its value, and the parts of a list (else
    None)."""

    at: int
    text: str
    value: Any
    parts: list["Part"] | None

    def unexpected(self, expected: str) -> Unexpected:
        return Unexpected(self.at + 1, expected, visible(self.text, SHOWN))


Form = Callable[[Part], None]  # raises Unexpected


def mistake_of(line: bytes, is_isolated: bool = False) -> str:
    """What is wrong with the form of a line in a script, which may be one that asks for snapshot
    isolation; empty if nothing is."""
    if len(line) > LONGEST:
        return f"it has {len(line):,} bytes, and a line has at most {LONGEST:,}"
    try:
        text = line.rstrip(b"\r").decode()
    except UnicodeDecodeError as error:
        at = len(line[: error.start].decode()) + 1
        return f"column {at}: the bytes there aren't UTF-8"
    try:
        part, end = _part(text, _past_space(text, 0), 0)
        end = _past_space(text, end)
        if end < len(text):
            raise Unexpected(end + 1, "the end of the line", visible(text[end:], SHOWN))
        _command(part, is_isolated)
    except Unexpected as error:
        return str(error)
    return ""


def _past_space(text: str, at: int) -> int:
    while at < len(text) and text[at] in " \t\r\n":
        at += 1
    return at


def _sign(text: str, at: int) -> str:
    return visible(text[at:], SHOWN) if at < len(text) else "the end of the line"


def _part(text: str, at: int, depth: int) -> Any:
    """The value that begins there, and where it ends."""
    if at < len(text) and text[at] == "[" and depth < DEEPEST:
        return _list(text, at, depth)
    try:
        value, end = READER.raw_decode(text, at)
    except (ValueError, RecursionError):
        raise Unexpected(at + 1, "a JSON value", _sign(text, at)) from None
    return Part(at, text[at:end], value, None), end


def _list(text: str, start: int, depth: int) -> Any:
    parts: list[Part] = []
    at = _past_space(text, start + 1)
    while not (at < len(text) and text[at] == "]" and not parts):
        part, at = _part(text, at, depth + 1)
        parts.append(part)
        at = _past_space(text, at)
        if at < len(text) and text[at] == "]":
            break
        if at >= len(text) or text[at] != ",":
            raise Unexpected(at + 1, '"," or "]"', _sign(text, at))
        at = _past_space(text, at + 1)
    return Part(start, text[start : at + 1], None, parts), at + 1


# forms of parts


def _whole(what: str, least: int = 0, most: int = 2**64 - 1) -> Form:
    bounds = f", {least} to {most:,}" if most < 2**63 else ""

    def check(part: Part) -> None:
        is_whole = type(part.value) is int and not part.text.startswith("-")
        if not is_whole or not least <= part.value <= most:
            raise part.unexpected(f"{what} (a whole number{bounds})")

    return check


def _word(*words: str) -> Form:
    expected = " or ".join(json.dumps(word) for word in words)

    def check(part: Part) -> None:
        if part.value not in words or part.parts is not None:
            raise part.unexpected(expected)

    return check


def _flag(part: Part) -> None:
    if type(part.value) is not bool:
        raise part.unexpected("true or false")


def _any(_: Part) -> None:
    pass


def _each(what: str, form: Form) -> Form:
    """A list of any length."""

    def check(part: Part) -> None:
        if part.parts is None:
            raise part.unexpected(f"{what} (a list)")
        for one in part.parts:
            form(one)

    return check


def _row(what: str, *forms: Sequence[Form]) -> Form:
    """A list with one of these rows of parts: the first row with the same number of parts."""

    def check(part: Part) -> None:
        if part.parts is None:
            raise part.unexpected(what)
        _match(part, part.parts, what, forms)

    return check


def _match(part: Part, parts: Sequence[Part], what: str, rows: Sequence[Sequence[Form]]) -> None:
    row = next((row for row in rows if len(row) == len(parts)), None)
    closest = row or max(rows, key=len)
    for form, one in zip(closest, parts):
        form(one)
    if row is None:
        counts = " or ".join(str(count) for count in sorted({len(row) for row in rows}))
        at = parts[len(closest)].at if len(parts) > len(closest) else part.at + len(part.text) - 1
        of = "part" if counts == "1" else "parts"
        raise Unexpected(at + 1, f"{counts} {of} in {what}", f"{len(parts)}")


SESSION, NUMBER = _whole("a session", 0, MOST_SESSION), _whole("a transaction's number")
KEY = _whole("a key")
READ = _row(
    'a read: [key,"init"] or [key,session,number]',
    (KEY, _word("init")),
    (KEY, SESSION, NUMBER),
)
KEYS, READS = _each("the keys that it writes", KEY), _each("the reads", READ)
TRANSACTION = _row(
    "a transaction: [[read,..],[key,..]]", (READS, KEYS), (READS, KEYS, _word("aborted"))
)
TRANSACTIONS = _each("the transactions", TRANSACTION)
FIRST = _whole("the number of the first transaction")
EFFORT = (
    _whole("the budget", 1, 2**32),
    _whole("the depth", 0, 6),
    _whole("the workers", 1, 16),
)
ROUND = (EFFORT, (*EFFORT, _word("guided")))
OPEN = (_whole("how many sessions"), _whole("how many transactions may remain"))


def _version(*versions: str) -> Form:
    """The version of a script, as a whole number without a fraction or an exponent."""

    def check(part: Part) -> None:
        if part.text not in versions:
            raise part.unexpected(f"{' or '.join(versions)}, the version of the script")

    return check


VERSIONED = (*OPEN, _version("2", "3"))
RESUMES = (OPEN, VERSIONED, (*VERSIONED, _word("snapshot")))
OPENS = (OPEN, VERSIONED, (*VERSIONED, _word("snapshot", "strict")))
TIMES = (
    _each("when each began", _whole("a time")),
    _each("when each ended", _whole("a time")),
)
OFFER = (SESSION, FIRST, TRANSACTIONS)
MARKS = (_each("the marks", NUMBER), _each("which sessions are closed", _flag))
IDS = _each("the order", _row("a transaction: [session,number]", (SESSION, NUMBER)))
EVENT = (SESSION, _whole("a transaction's number", 0, 2**63 - 1), _word("begin", "commit"))
EVENTS = _each("the order", _row('an event: [session,number,"begin"] or "commit"', EVENT))
LAST = _row("a last writer: [key,session,number]", (KEY, SESSION, NUMBER))
FORMS: Mapping[str, Sequence[Sequence[Form]]] = {
    "open": OPENS,
    "resume": RESUMES,
    "offer": (OFFER, (*OFFER, *TIMES)),
    "join": ((SESSION, TRANSACTIONS), (SESSION, FIRST, TRANSACTIONS)),
    "close": ((SESSION,),),
    "round": ROUND,
    "finish": ROUND,
    "search": ROUND,
    **{name: ((),) for name in ("begin", "skip", "truncate", "rebuild", "show", "resumed")},
    "collect": ((), (_word("wait"),)),
    "marks": (MARKS, (*MARKS, _each("in which a begin is gone", _flag))),
    "last": ((_each("the last writers", LAST),),),
}
REFUTED = _each("the refutation", _any)
ANSWERS: Mapping[bool, Mapping[str, Form]] = {  # by whether the script is about snapshot isolation
    False: {"order": IDS, "refuted": REFUTED},
    True: {"order": EVENTS, "refuted": REFUTED},
}
SAVES: Mapping[str, Sequence[Form]] = {"marks": (), "last": (KEY,), "remain": (SESSION, NUMBER)}
COMMANDS = sorted([*FORMS, "answer", "save"])


def _command(line: Part, is_isolated: bool) -> None:
    if line.parts is None:
        raise line.unexpected('a list, as ["round",4096,0,1]')
    if not line.parts:
        raise Unexpected(line.at + 2, "a command", "an empty list")
    name, parts = line.parts[0], line.parts[1:]
    if name.value == "answer":
        forms = ANSWERS[is_isolated]
        _match(line, parts, f"{name.text} after its name", ((_word(*forms), _any),))
        forms[parts[0].value](parts[1])
    elif name.value == "save":
        if not parts:
            raise Unexpected(line.at + len(line.text), "what to save", "]")
        _word(*SAVES)(parts[0])
        _match(line, parts[1:], f"{line.text} after {parts[0].text}", (SAVES[parts[0].value],))
    elif isinstance(name.value, str) and name.value in FORMS:
        _match(line, parts, f"{name.text} after its name", FORMS[name.value])
    else:
        raise name.unexpected(f"a command ({', '.join(COMMANDS)})")
