"""The contents of a journal's records: a checkpoint, and what was done since.

Each record is a letter and a text. A checkpoint consists of the audit's head, the names of the keys
that no earlier record has, the reported violations, what aborted attempts did (the program itself
remembers only that they exist), and the lines that restore a program's state. Its last record says
that it is complete. It is followed by the lines that were answered ok, the names of keys before the
first line that uses them, counts such as the number of reported rounds, and reported violations. A
later checkpoint is a single record, so that it exists as a whole or not at all.
"""

import json
from collections.abc import Iterable, Iterator, Sequence
from dataclasses import dataclass, field
from typing import Any, NamedTuple

from ..core.errors import JournalDamagedError
from ..promises._kinds import ASKED, SERIALIZABLE
from ._file import Journal
from ._records import record, records

HEAD, KEYS, SAVED, WHOLE = b"H", b"K", b"S", b"W"
LINE, FIGURES, VIOLATED, CHECKPOINT = b"L", b"F", b"V", b"C"
UNDONE = b"A"


class Violation(NamedTuple):
    """The first violated report of an audit: which audit of the run it was, and the reply."""

    audit: int
    reply: list[Any]


@dataclass
class Head:
    """Describes an audit: the number of sessions of its program, how many transactions it may hold,
    the run's name, which audit of the run it is, and, if clients were running when it began, what
    it covers (`coverage`). The rest describes its state: `rounds` were reported; at most `left_out`
    reads were left out, and at most `from_before` were of versions from before; `is_of_sessions`
    says whether sessions handed in what they did; `joined` has the sessions that several clients
    had, each with the first transaction of each of them; `store` is the store that it is about,
    once a client has said so."""

    sessions: int
    limit: int
    run_name: str
    audit: int = 1
    coverage: dict[str, Any] | None = None
    rounds: int = 0
    left_out: int = 0
    is_of_sessions: bool = False
    joined: list[list[int]] = field(default_factory=list)
    promise: str = SERIALIZABLE.name
    from_before: int = 0
    store: list[str] | None = None

    def take_figures(
        self,
        rounds: int,
        left_out: int,
        is_of_sessions: bool,
        from_before: int,
        store: list[str] | None,
    ) -> None:
        """Takes the values of a later record."""
        self.rounds, self.left_out, self.is_of_sessions = rounds, left_out, is_of_sessions
        self.from_before, self.store = from_before, store


@dataclass
class Kept:
    """The whole contents of a journal. A program that is given `lines`, and answers ok to each, has
    the state of the last one. The first `saved` of them belong to the checkpoint."""

    head: Head
    names: list[str] = field(default_factory=list)  # of keys, by number
    violations: list[Violation] = field(default_factory=list)
    lines: list[bytes] = field(default_factory=list)
    undone: list[Any] = field(default_factory=list)  # [session, number, the line's form] each
    saved: int = 0
    is_whole: bool = False  # the checkpoint was read to its end

    def take(self, kind: bytes, text: bytes) -> None:
        """Takes a record that follows the head."""
        if (kind == SAVED) == self.is_whole and kind in (SAVED, LINE):
            raise ValueError("a line is in the wrong place")
        if kind == SAVED or kind == LINE:
            self.lines.append(text)
        elif kind == UNDONE:
            self.undone += json.loads(text)
        elif kind == KEYS:
            first, names = json.loads(text)
            if first != len(self.names):
                raise ValueError("key names are missing")
            self.names += names
        elif kind == WHOLE:
            self.saved, self.is_whole = json.loads(text), True
            if self.saved != len(self.lines):
                raise ValueError("lines of the checkpoint are missing")
        elif kind == FIGURES:
            self.head.take_figures(*json.loads(text))
        elif kind == VIOLATED:
            self.violations.append(Violation(*json.loads(text)))
        else:
            raise ValueError(f"unknown kind of record: {kind!r}")


def kept_in(journal: Journal, has_names: bool = True) -> Kept:
    """What the records say together, with or without the names of keys. Raises JournalDamagedError
    if they contradict each other."""
    texts = journal.read()
    begins = [at for at, text in enumerate(texts) if text[:1] == CHECKPOINT]
    last = begins[-1] if begins else 0
    try:
        names = [text for text in _each(texts[:last]) if text[:1] == KEYS]
        head, *behind = [*_each(texts[last:])] or [b""]
        if head[:1] != HEAD:
            raise ValueError("the head is missing")
        kept = Kept(Head(**json.loads(head[1:])))
        if kept.head.promise not in ASKED:
            raise ValueError(f"unknown promise: {kept.head.promise}")
        for text in [*names, *behind]:
            if has_names or text[:1] != KEYS:
                kept.take(text[:1], text[1:])
        if not kept.is_whole:
            raise ValueError("the checkpoint is cut off")
    except (ValueError, TypeError, LookupError) as error:
        message = f"{journal.path}: its records contradict one another, so none is used: {error}"
        raise JournalDamagedError(message) from error
    return kept


def _each(texts: Iterable[bytes]) -> Iterator[bytes]:
    """The records, each checkpoint replaced by the records in it."""
    for text in texts:
        if text[:1] == CHECKPOINT:
            yield from (nested for nested, _ in records(text, len(CHECKPOINT)))
        else:
            yield text


def checkpoint(
    head: Head,
    names: bytes,
    violations: Iterable[Violation],
    saved: Sequence[bytes],
    undone: Sequence[Any] = (),
) -> list[bytes]:
    """A checkpoint, as the texts of its records. `names` is the record of the key names that no
    earlier record has."""
    return [
        HEAD + _text(vars(head)),
        names,
        *map(violated, violations),
        *([UNDONE + _text(undone)] if undone else []),
        *(SAVED + line for line in saved),
        WHOLE + _text(len(saved)),
    ]


def later(texts: Iterable[bytes]) -> bytes:
    """A checkpoint as the text of a single record, to follow another one."""
    return CHECKPOINT + b"".join(map(record, texts))


def keys(first: int, names: Sequence[str]) -> bytes:
    """The record of the key names from this number on."""
    return KEYS + _text([first, names])


def line(text: bytes) -> bytes:
    """The record of a line that was answered ok."""
    return LINE + text


def figures(*now: object) -> bytes:
    """The record of the head's changed values, in the order of `Head.take_figures`."""
    return FIGURES + _text(now)


def violated(violation: Violation) -> bytes:
    return VIOLATED + _text(violation)


def _text(value: object) -> bytes:
    return json.dumps(value, separators=(",", ":")).encode()
