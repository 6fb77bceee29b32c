"""The names that a script's transactions and keys have in the file that it was made from. They are
in a file next to the script, `SCRIPT.names`, which is used as long as the script is the one that it
was made for."""

import hashlib
import json
import os
from collections.abc import Callable, Iterable, Iterator, Mapping, Sequence
from dataclasses import dataclass, field
from typing import Any, Generic, NamedTuple, TypeVar, overload

from ..core._private_files import private
from ..core._processes import shared_all
from ..core._records import AuditId

NAMES = ".names"
# For a partial import: the transaction that waits for the rest, and what it reads.
PART, REST = "this part of the file", "the rest of the file"
VERSION = 1
PIECE = 2048  # transactions whose names a process writes at a time
BEFORE_TRANSACTIONS = ',"transactions":['  # the end of the rest; no name has it unescaped
# What is between two transactions of a session, and between two sessions: after the last text of
# one, and before the name of the next. Nothing else has them, since a mark in a text is escaped.
BETWEEN, BETWEEN_SESSIONS = '"],["', '"]],[["'


# A read as its key and source, (5, "init") or (5, 0, 1), or a write as its key alone.
Deed = Sequence[int | str]


class NamedTransaction(NamedTuple):
    """A transaction's name. `texts` are the reads and writes in the script's form, a write as
    [key], each with its text in the original file."""

    name: str
    outcome: str
    texts: tuple[tuple[Deed, str], ...] = ()
    where: str = ""  # what else the original file calls it


Item = TypeVar("Item")


class LazyNames(Sequence[NamedTransaction], Generic[Item]):
    """The named transactions of a session, each of which is made when it is wanted."""

    def __init__(
        self,
        items: Sequence[Item],
        make: Callable[[Sequence[Item]], Iterator[NamedTransaction]],
        call: Callable[[Item], str],
    ) -> None:
        """`make` makes the named transactions of these items, `call` the name alone."""
        self._items, self._make, self._call = items, make, call

    def name(self, at: int) -> str:
        """The transaction's name."""
        return self._call(self._items[at])

    @overload
    def __getitem__(self, at: int) -> NamedTransaction: ...

    @overload
    def __getitem__(self, at: slice) -> "LazyNames[Item]": ...

    def __getitem__(self, at: int | slice) -> "NamedTransaction | LazyNames[Item]":
        if isinstance(at, slice):
            return LazyNames(self._items[at], self._make, self._call)
        return next(self._make([self._items[at]]))

    def __iter__(self) -> Iterator[NamedTransaction]:
        return self._make(self._items)

    def __len__(self) -> int:
        return len(self._items)

    def __eq__(self, other: object) -> bool:
        return isinstance(other, Sequence) and [*self] == [*other]


@dataclass(frozen=True)
class ScriptNames:
    """The names of a whole script: keys by number, transactions by session and number, and
    transactions that are referred to and never arrive."""

    form: str
    keys: Mapping[int, str] = field(default_factory=dict)
    transactions: Sequence[Sequence[NamedTransaction]] = ()
    absent: Mapping[AuditId, str] = field(default_factory=dict)
    asks_time: bool = False  # whether it is to be checked for real-time order
    timed: Sequence[int] = ()  # sessions that several clients share by real-time order
    has_pauses: bool = False  # some of the real-time order is in fences that no client wrote

    def name(self, id: AuditId) -> str:
        """The transaction's name."""
        session, number = id
        if session < len(self.transactions) and number < len(self.transactions[session]):
            names = self.transactions[session]
            return names.name(number) if isinstance(names, LazyNames) else names[number].name
        return self.absent.get(id, f"{session}.{number}")

    def key(self, number: int) -> str:
        """The key's name, for a sentence."""
        key = self.keys.get(number, str(number))
        return f"key {key}" if key.isdigit() else key

    def transaction(self, session: int, number: int) -> NamedTransaction | None:
        """The named transaction; None if there is none."""
        if session < len(self.transactions) and number < len(self.transactions[session]):
            return self.transactions[session][number]
        return None


def write_names(names: ScriptNames, script: str) -> str:
    """Writes the names next to the script, which has been written already; returns the path."""
    whole: dict[str, Any] = {
        "version": VERSION,
        "script": _sum_of(script),
        "form": names.form,
        "asks_time": names.asks_time,
        "timed": names.timed,
        "has_pauses": names.has_pauses,
        "keys": [[number, key] for number, key in sorted(names.keys.items())],
        "absent": [[*id, name] for id, name in sorted(names.absent.items())],
    }
    text = _text_of(whole)
    with open(script + NAMES, "w", encoding="utf-8", opener=private) as file:
        file.write(f"{text[:-1]}{BEFORE_TRANSACTIONS}")
        for number, session in enumerate(names.transactions):
            pieces = [session[at : at + PIECE] for at in range(0, len(session), PIECE)]
            texts = ",".join(shared_all(_text_in_list, pieces))
            file.write(f"{',' if number else ''}[{texts}]")
        file.write("]}\n")
    return script + NAMES


def _text_of(whole: Any) -> str:
    return json.dumps(whole, separators=(",", ":"))  # `dump` to a file takes five times as long


def _text_in_list(piece: Iterable[NamedTransaction]) -> str:
    return _text_of([*piece])[1:-1]


def read_names(script: str) -> tuple[ScriptNames | None, str]:
    """The names next to the script, if there are any and they belong to it; and, if they can't be
    used, why."""
    path = script + NAMES
    if not os.path.isfile(path):
        return None, ""
    try:
        with open(path, encoding="utf-8") as file:
            whole = json.load(file)
        if whole["version"] != VERSION or whole["script"] != _sum_of(script):
            return None, f"{path} was made for another script, and isn't used"
        return _names_of(whole, _sessions_of(whole["transactions"])), ""
    except (OSError, ValueError, LookupError, TypeError) as error:
        return None, f"{path} can't be read, and isn't used: {error}"


class LateSession(Sequence[NamedTransaction]):
    """The named transactions of a session, each of which is read when it is wanted."""

    def __init__(self, text: str) -> None:
        """`text` is a JSON list of them, without the first and the last bracket and mark."""
        self._texts = text.split(BETWEEN)

    @overload
    def __getitem__(self, at: int) -> NamedTransaction: ...

    @overload
    def __getitem__(self, at: slice) -> list[NamedTransaction]: ...

    def __getitem__(self, at: int | slice) -> NamedTransaction | list[NamedTransaction]:
        if isinstance(at, slice):
            return [_named(json.loads(f'["{text}"]')) for text in self._texts[at]]
        return _named(json.loads(f'["{self._texts[at]}"]'))

    def __len__(self) -> int:
        return len(self._texts)


def names_just_written(script: str) -> ScriptNames:
    """The names next to a script that this process has had written: each transaction has a name, is
    read when it is wanted, and no session is empty. Raises OSError."""
    with open(script + NAMES, encoding="utf-8") as file:
        front, before, transactions = file.read().partition(BEFORE_TRANSACTIONS)
    text = transactions.rstrip()
    if not before or not text.startswith('[["') or not text.endswith('"]]]}'):
        raise OSError(f"{script}{NAMES} can't be read")
    sessions = [LateSession(each) for each in text[3:-5].split(BETWEEN_SESSIONS)]
    return _names_of(json.loads(f"{front}}}"), sessions)


def _sessions_of(sessions: Any) -> list[list[NamedTransaction]]:
    return [[_named(each) for each in session] for session in sessions]


def _named(transaction: Any) -> NamedTransaction:
    name, outcome, texts, where = transaction
    deeds = tuple((deed, str(text)) for deed, text in texts)
    return NamedTransaction(str(name), str(outcome), deeds, str(where))


def _names_of(whole: Any, transactions: Sequence[Sequence[NamedTransaction]]) -> ScriptNames:
    return ScriptNames(
        str(whole["form"]),
        {int(number): str(key) for number, key in whole["keys"]},
        transactions,
        {
            AuditId((int(session), int(number))): str(name)
            for session, number, name in whole["absent"]
        },
        bool(whole["asks_time"]),
        [int(session) for session in whole["timed"]],
        bool(whole.get("has_pauses", whole["asks_time"])),
    )


def _sum_of(path: str) -> str:
    digest = hashlib.sha256()
    with open(path, "rb") as file:
        for block in iter(lambda: file.read(1 << 16), b""):
            digest.update(block)
    return digest.hexdigest()
