"""Turns the lines of a journal into a history: what was taken in and not forgotten."""

import json
from collections.abc import Iterable, Sequence
from dataclasses import dataclass, field
from typing import Any

from ..core._records import ABORTED, AuditId, History, Logged
from ..core.errors import JournalDamagedError
from ..promises._asking import KEYS, asked_in
from ..promises._kinds import SNAPSHOT

ScriptLine = list[Any]
LAST = b'["last",'


@dataclass
class State:
    """The state that the lines lead to: for each session how many transactions are gone, those that
    remain, in the form of lines, and whether it is closed; for each key its last writer that is
    gone; and the transactions with which sessions returned since the checkpoint."""

    gone: list[int] = field(default_factory=list)
    remaining: list[list[Any]] = field(default_factory=list)
    closed: list[bool] = field(default_factory=list)
    last: dict[int, AuditId] = field(default_factory=dict)
    joined: list[AuditId] = field(default_factory=list)  # with which sessions returned
    keys: int = 1 << 64  # those of transactions are below this

    def take(self, word: str, *parts: Any) -> None:
        if word == "resume":
            self.remaining = [[] for _ in range(parts[0])]
            self.keys = KEYS if asked_in([word, *parts]) == SNAPSHOT else self.keys
        elif word == "marks":
            self.gone, self.closed = parts[:2]  # followed by what has begun
        elif word == "last":
            self.last.update(
                (key, AuditId((session, number)))
                for key, session, number in parts[0]
                if key < self.keys
            )
        elif word == "offer":
            self.remaining[parts[0]] += parts[2]
        elif word == "join":
            self.join(parts[0], parts[-1])
        elif word == "close":
            self.closed[parts[0]] = True
        elif word != "resumed":
            raise ValueError(f"unknown line {word}")

    def join(self, session: int, txns: list[Any]) -> None:
        """Opens a new session, or one that was closed."""
        if session == len(self.gone):
            self.gone.append(0)
            self.closed.append(False)
            self.remaining.append([])
        if self.gone[session]:
            self.joined.append(AuditId((session, self.gone[session])))
        self.closed[session] = False
        self.remaining[session] += txns

    def put_undone(self, undone: Iterable[Sequence[Any]]) -> None:
        """Puts in what aborted attempts did, which a checkpoint's lines have as idle transactions.
        Each entry is a session, a number and the transaction's form in a line."""
        for session, number, txn in undone:
            self.remaining[session][number - self.gone[session]] = txn

    @property
    def received(self) -> list[int]:
        return [gone + len(txns) for gone, txns in zip(self.gone, self.remaining)]

    def history(self, names: Sequence[str]) -> History:
        """The history, with the keys' names. It lacks what only the clients' processes knew, such
        as values and statements."""
        return [[_logged(txn, names) for txn in txns] for txns in self.remaining]

    def base(self, names: Sequence[str]) -> dict[str, AuditId]:
        return {_name(key, names): source for key, source in self.last.items()}


def state_of(lines: Sequence[bytes], has_last: bool = True) -> State:
    """The state after these lines; without the last writers that are gone, of which there may be
    very many, if `has_last` is false. Raises JournalDamagedError if a line is malformed."""
    state = State()
    try:
        for line in lines:
            if has_last or not line.startswith(LAST):
                state.take(*json.loads(line))
    except (ValueError, TypeError, LookupError) as error:
        raise JournalDamagedError(f"a line of the journal is malformed: {error!r}") from error
    return state


def _logged(txn: Sequence[Any], names: Sequence[str]) -> Logged:
    reads = [
        (_name(key, names), source[0] if len(source) == 1 else (source[0], source[1]))
        for key, *source in txn[0]
    ]
    writes = [_name(key, names) for key in txn[1]]
    if txn[2:] == [ABORTED]:
        return Logged((), (), ABORTED, tried_reads=reads, tried_writes=writes)
    return Logged(reads, writes)


def _name(key: int, names: Sequence[str]) -> str:
    """The key's name. A key that only the lines have, such as lines written by hand, is named by
    its number."""
    return names[key] if key < len(names) else str(key)
