"""Messages between machines as JSON; docs/FORMATS.md has their form. What another machine sends is
checked before it is used: a fault there must not stop the auditor's threads here."""

import json
from typing import Any, NamedTuple

from ..core._records import ABORTED, Logged

LONGEST = 4 << 20  # bytes of a message
LARGEST = 2 << 20  # of what one transaction did
DEEPEST = 8  # levels of nested lists
SESSIONS, NUMBERS = 1 << 32, 1 << 63  # what these stay below
OUTCOMES = ("committed", ABORTED, "unknown")
LISTS = ("reads", "writes", "tried_reads", "tried_writes")
DEFAULTS = Logged((), ())._asdict()


class NoMessageError(ValueError):
    """It has another form, or exceeds a bound."""


class Message(NamedTuple):
    """`number` counts the messages of one sender to one receiver. `did` is a word and its
    arguments."""

    run: str
    client: str
    number: int
    did: tuple[Any, ...]


def text_of(run: str, client: str, number: int, did: bytes) -> bytes:
    """Raises ValueError if it is too long."""
    head = json.dumps({"run": run, "client": client, "number": number})
    text = b'%s, "did": %s}' % (head[:-1].encode("ascii"), did)
    if len(text) > LONGEST:
        raise ValueError(f"a message has {len(text)} bytes; the limit is {LONGEST}")
    return text


def plain(value: object) -> bytes:
    """Raises TypeError or ValueError if it has other than plain values."""
    return json.dumps(value, allow_nan=False).encode("ascii")


def message_of(text: bytes) -> Message:
    """Raises NoMessageError."""
    try:
        message = json.loads(text.decode("ascii"), parse_constant=_no_number)
        run, client, number, did = (message[name] for name in ("run", "client", "number", "did"))
        is_one = isinstance(run, str) and isinstance(client, str) and _is_below(number, NUMBERS)
        if is_one and isinstance(did, list) and did and isinstance(did[0], str):
            return Message(run, client, number, _frozen(did, DEEPEST))
    except (ValueError, TypeError, KeyError, RecursionError) as error:
        raise NoMessageError(str(error) or "it has another form") from None
    raise NoMessageError("it has another form")


def logged_text(logged: Logged) -> bytes:
    """What one transaction did. Raises ValueError if it can't be sent."""
    values = logged._asdict()
    fields = {name: value for name, value in values.items() if value != DEFAULTS[name]}
    try:
        text = plain(fields)
    except TypeError as error:
        raise ValueError(str(error)) from None
    if len(text) > LARGEST:
        raise ValueError(f"it has {len(text)} bytes; the limit is {LARGEST}")
    _checked(logged)
    return text


def logged_of(fields: Any) -> Logged:
    """Raises NoMessageError."""
    if type(fields) is not dict or not fields.keys() <= DEFAULTS.keys():
        raise NoMessageError("what a transaction did has other fields")
    values = {**DEFAULTS, **fields}
    frozen = {
        name: _frozen(value, DEEPEST) if type(value) is list else value
        for name, value in values.items()
    }
    logged = _checked(Logged(**frozen))
    lists: Any = {name: [*frozen[name]] for name in LISTS}
    return logged._replace(**lists)


def _checked(logged: Logged) -> Logged:
    try:
        are_right = (
            all(map(_is_read, (*logged.reads, *logged.tried_reads)))
            and all(isinstance(key, str) for key in (*logged.writes, *logged.tried_writes))
            and isinstance(logged.caller, str)
            and logged.outcome in OUTCOMES
            and all(_is_deed(deed) and isinstance(text, str) for deed, text in logged.statements)
            and all(len(value) == 3 and {str} == {*map(type, value)} for value in logged.values)
            and isinstance(logged.began, (int, float))
            and len(logged.span) in (0, 3)
            and _is_below(logged.from_before, NUMBERS)
        )
    except (TypeError, ValueError):
        are_right = False
    if not are_right:
        raise NoMessageError("what a transaction did has another form")
    return logged


def _is_read(read: Any) -> bool:
    key, source = read
    if source == "init":
        return isinstance(key, str)
    session, number = source
    return isinstance(key, str) and _is_below(session, SESSIONS) and _is_below(number, NUMBERS)


def _is_deed(deed: Any) -> bool:
    is_write = isinstance(deed, (tuple, list)) and len(deed) == 1 and isinstance(deed[0], str)
    return is_write or _is_read(deed)


def _is_below(number: Any, limit: int) -> bool:
    return type(number) is int and 0 <= number < limit


def _frozen(values: list[Any], deep: int) -> tuple[Any, ...]:
    """The list as a tuple. Raises NoMessageError if it is nested more than `deep` levels."""
    if not deep:
        raise NoMessageError("its lists are nested too deeply")
    return tuple(_frozen(value, deep - 1) if type(value) is list else value for value in values)


def _no_number(word: str) -> float:
    raise NoMessageError(f"{word} isn't a number")
