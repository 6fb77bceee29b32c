"""How the auditor is asked about a promise: by a script's first line, and about strict
serializability also by the times in its offers. Its answers have transactions as they were offered.
What it can't be asked so about real-time order is asked by reads that are added (`_times.py`)."""

from collections.abc import Iterable, Iterator, Sequence
from typing import Any

from ..core._own_keys import FORM, LARGE_FORM, LONGEST
from ..core.errors import CantBeAskedError
from ._kinds import EVENTS, SERIALIZABLE, SNAPSHOT, STRICT, Promise
from ._times import TIME_KEYS, Timeline

SESSIONS, MOST_SESSIONS = 64, 256  # of a script of version 1 or 2, and of one of version 3
LIMIT, MOST = 4096, 1 << 20  # transactions that may remain, in the same way
KEYS = 1 << 63  # keys of scripts about snapshots are below this
OPENS = {"open", "resume"}
STRICTLY = {"open", "offer", "round"}  # the commands of scripts about strict serializability
PARTS = "a script that continues another one is about the promise that its first line asks for"
ANSWERS = (
    "an answer from elsewhere is about the promise that the script itself asks for: remove the "
    "line, and the round is searched"
)


def most_remaining(promise: Promise, form: int = LARGE_FORM) -> int:
    """How many transactions may remain at a time, at most, in scripts of this version. Where each
    is split in two it takes the room of two."""
    most = MOST if form == LARGE_FORM else LIMIT
    return most // 2 if promise.asks_itself else most


def most_sessions(form: int) -> int:
    """How many sessions there may be in scripts of this version."""
    return MOST_SESSIONS if form == LARGE_FORM else SESSIONS


def longest(promise: Promise) -> int:
    """How many transactions a line may have."""
    return LONGEST // 2 if promise.asks_itself else LONGEST


def form_of(promise: Promise, sessions: int, limit: int) -> list[Any]:
    """The end of the line that opens a script about the promise, with so many sessions, in which
    `limit` transactions may remain: version 3 only if it needs that."""
    is_small = sessions <= SESSIONS and limit <= most_remaining(promise, FORM)
    form = FORM if is_small else LARGE_FORM
    if promise == STRICT:
        return [form, STRICT.name]
    return [form, SNAPSHOT.name] if promise.asks_itself else [form]


def asked_in(line: Sequence[Any]) -> Promise | None:
    """The promise that a script is about if this is its first line; None if it is no such line."""
    if not line or line[0] not in OPENS or len(line) < 3:
        return None
    asked = [promise for promise in (SNAPSHOT, STRICT) if line[4:] == [promise.name]]
    return asked[0] if asked else SERIALIZABLE


class Whole:
    """Looks at a script's lines, and finds out whether the auditor itself can be asked about its
    strict serializability: it takes offers and rounds alone, forgets nothing, and has bounds for a
    transaction's reads and writes."""

    def __init__(self) -> None:
        self.why_not = ""  # why it can't
        self._sessions = 0

    def seen(self, lines: Iterable[Sequence[Any]]) -> Iterator[Sequence[Any]]:
        """The lines, each looked at on its way."""
        for line in lines:
            if not self.why_not:
                self.why_not = self._why_not(line)
            yield line

    def _why_not(self, line: Sequence[Any]) -> str:
        if not line or not isinstance(line[0], str):
            return ""  # the auditor says what is wrong with it
        if line[0] not in STRICTLY:
            return f"the script has a {line[0]!r}"
        if line[0] == "open" and len(line) > 1 and is_number(line[1]):
            self._sessions = line[1]
        if line[0] == "offer" and is_of_transactions(line):
            return too_large(self._sessions, ((len(it[0]), len(it[1])) for it in line[3]))
        return ""


def too_large(sessions: int, transactions: Iterable[tuple[int, int]]) -> str:
    """Which of the auditor's bounds a transaction with so many reads and writes is over, in a
    script about strict serializability with so many sessions; empty if none is."""
    for reads, writes in transactions:
        if reads + sessions > LONGEST:
            return f"a transaction has {reads} reads, over {LONGEST} with the {sessions} sessions"
        if writes >= LONGEST:
            return f"a transaction writes {writes} keys, over {LONGEST - 1}"
    return ""


def begun_in(marks: Sequence[Any]) -> Iterator[list[int]]:
    """The transactions of which only the begin is forgotten, from the reply to `save`."""
    for session, (mark, has_begun) in enumerate(zip(marks[1], marks[3])):
        if has_begun:
            yield [session, mark]


class Asking:
    """Asks one run of the auditor about a promise; not for several threads. If `keeps_version`, a
    script stays of version 2, with half the room where transactions are split. If `by_reads`,
    strict serializability is asked by reads that are added."""

    def __init__(
        self,
        promise: Promise = SERIALIZABLE,
        timeline: Timeline | None = None,
        keeps_version: bool = False,
        by_reads: bool = False,
    ) -> None:
        self.promise, self._keeps_version = promise, keeps_version
        self._timeline = timeline if promise.is_timed else None
        self.is_told = promise == STRICT and not by_reads  # when transactions began and ended
        self._own: Promise | None = None  # that the script asks for by itself

    @property
    def is_plain(self) -> bool:
        """Whether lines behind the opening are given as they are."""
        return self.promise == SERIALIZABLE and self._own == SERIALIZABLE

    def asked(self, line: list[Any]) -> list[list[Any]]:
        """The lines that are given in place of this one: one, or two for a long offer. Raises
        CantBeAskedError if the line isn't possible with this promise."""
        word = line[0] if line and isinstance(line[0], str) else ""
        if word in OPENS:
            return [self._opening(line)]
        if word == "answer" and (self._own == SNAPSHOT) != self.promise.asks_itself:
            raise CantBeAskedError(ANSWERS)
        if word in ("offer", "join") and is_of_transactions(line):
            return [*self._offered(line)]
        return [line]

    def _opening(self, line: list[Any]) -> list[Any]:
        own = self._own = asked_in(line)
        asked = STRICT if self.is_told else SNAPSHOT if self.promise.asks_itself else SERIALIZABLE
        if own == asked:
            return line
        if line[0] == "resume":
            raise CantBeAskedError(PARTS)
        plain = line if own == SERIALIZABLE else line[:4]
        if plain[3:] not in ([], [FORM], [LARGE_FORM]) or not all(map(is_number, plain[1:3])):
            return line  # which the auditor refuses
        if asked == SERIALIZABLE:
            return plain
        _, sessions, limit, *form = plain
        version = form[0] if form else FORM
        if asked == STRICT:
            return ["open", sessions, limit, version, STRICT.name]
        if sessions > most_sessions(version) or limit > most_remaining(SERIALIZABLE, version):
            return [*plain[:3], version, SNAPSHOT.name]  # which it refuses, too
        if self._keeps_version and version == FORM:
            return [*plain[:2], min(limit, most_remaining(SNAPSHOT, FORM)), FORM, SNAPSHOT.name]
        limit = min(limit, most_remaining(SNAPSHOT))
        if version == LARGE_FORM:  # its reads may name sessions that version 2 doesn't have
            return ["open", sessions, limit, LARGE_FORM, SNAPSHOT.name]
        return ["open", sessions, limit, *form_of(SNAPSHOT, sessions, limit)]

    def _offered(self, line: list[Any]) -> Iterator[list[Any]]:
        if len(line) > 4 and (self.is_told or self._own != STRICT):
            yield line  # with its own times, or the auditor refuses it
            return
        word, session, *place, transactions = line[:4]
        first = place[0] if place else 0
        if self._timeline is not None:
            check_keys(session, first, transactions)
            if self.is_told:
                yield [*line[:4], *self._timeline.told(session, first, len(transactions))]
                return
            transactions = [
                self._timeline.rewritten((session, number), transaction)
                for number, transaction in enumerate(transactions, first)
            ]
        most = longest(self.promise)
        if len(transactions) > 2 * most:  # too long, as the auditor says
            most = len(transactions)
        yield [word, session, *place, transactions[:most]]
        if transactions[most:]:
            yield ["offer", session, first + most, transactions[most:]]


def check_keys(session: int, first: int, transactions: Sequence[Any]) -> None:
    """Raises CantBeAskedError for a key that collides with what is added for the times."""
    for number, (reads, keys, *_) in enumerate(transactions, first):
        for key in [*keys, *(read[0] for read in reads)]:
            if key >= TIME_KEYS:
                raise CantBeAskedError(
                    f"{session}.{number} has key {key}; under this promise keys must be below "
                    f"{TIME_KEYS}, because higher ones are used for what is added"
                )


def is_number(value: object) -> bool:
    """Whether it is a number as in lines."""
    return type(value) is int and 0 <= value < 1 << 64


def is_of_transactions(line: Sequence[Any]) -> bool:
    """Whether it has the form of an offer or a join. Anything else is left to the auditor."""
    if len(line) not in ((4, 6) if line[0] == "offer" else (3, 4)):
        return False
    *numbers, transactions = line[1:4]
    if not all(map(is_number, numbers)) or not isinstance(transactions, list):
        return False
    return all(map(are_numbers, line[4:])) and all(map(_is_transaction, transactions))


def are_numbers(value: object) -> bool:
    """Whether it is a list of numbers as in lines."""
    return isinstance(value, list) and all(map(is_number, value))


def _is_transaction(transaction: object) -> bool:
    if not isinstance(transaction, list) or len(transaction) not in (2, 3):
        return False
    reads, keys = transaction[:2]
    if not isinstance(reads, list) or not isinstance(keys, list):
        return False
    return all(map(_is_read, reads)) and all(map(is_number, keys))


def _is_read(read: object) -> bool:
    if not isinstance(read, list) or len(read) not in (2, 3) or not is_number(read[0]):
        return False
    return read[1:] == ["init"] or (len(read) == 3 and all(map(is_number, read[1:])))


def ids_of(part: Sequence[Any]) -> list[Any]:
    """A choice or an arc without the words that name a transaction's event."""
    return [it for it in part if it not in EVENTS]
