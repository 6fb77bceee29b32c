"""Recorded histories of bench/cost/field.py: what an attempt notes, their file, and scripts of them.

A file is JSON lines, compressed if its name ends with `.gz`. The first line is an object: the
workload, the level, and how it was recorded. Each further one is a committed transaction, in the
order of their commits: `[session,number,reads,writes]`, or with a last part `"own"` if the recorder
ran it by itself: the clients' fences, and their reads of keys that were written without being read.
Numbers count all attempts of a session; those that aborted aren't in the file. A read is `[key]`
(the initial state), `[key,session,number]` (the writer) or `[key,[element,..]]` (a list); a write
is a key, or `[key,element]` (appended to a list). A line `"round"` is where all clients had met.
"""
import gzip
import io
import json
from collections.abc import Iterator, Sequence
from dataclasses import dataclass, field, fields
from typing import Any, IO, NamedTuple

FENCE = "fence"  # the key of fences
FORM = 1
LINE = 8  # transactions of a client that are offered together
GROUP = 192  # transactions, until all are offered
MOST = 256  # writes of a transaction
NODES = 65536  # of a round's search
Id = tuple[int, int]
encode = json.JSONEncoder(separators=(",", ":")).encode


class HistoryError(ValueError):
    """A file isn't a recorded history."""


class Record(NamedTuple):
    session: int
    number: int
    reads: Sequence[Any]
    writes: Sequence[Any]
    is_own: bool = False


def is_list(key: str) -> bool:
    """Whether the key's values are lists."""
    return key.startswith("list ")


class Attempt:
    """A transaction's client: reads and writes through a store, and notes both. The store has
    `read(key)`, which returns the value and the writer's name, `write` and `append`."""

    def __init__(self, store: Any, session: int, number: int) -> None:
        self.store, self.name = store, (session, number)
        self.reads: dict[str, Any] = {}  # by their JSON: each once
        self.written: dict[str, Any] = {}
        self.writes: list[Any] = []

    def get(self, key: str) -> Any:
        if key in self.written:
            return self.written[key]
        return self.note(key, *self.store.read(key))

    def note(self, key: str, value: Any, source: Sequence[int]) -> Any:
        if is_list(key):
            value = value or []
        read = [key, value] if is_list(key) else [key, *source]
        self.reads[encode(read)] = read
        return value

    def put(self, key: str, value: Any) -> None:
        self.store.write(key, value, self.name)
        if key not in self.written:
            self.writes.append(key)
        self.written[key] = value

    def append(self, key: str, element: int) -> None:
        self.store.append(key, element, self.name)
        self.writes.append([key, element])

    def record(self, is_own: bool = False) -> Record:
        return Record(*self.name, [*self.reads.values()], self.writes, is_own)


class SerialStore:
    """A store in memory, for one transaction at a time."""

    def __init__(self, rows: dict[str, Any]) -> None:
        self.rows: dict[str, Any] = {key: (value, ()) for key, value in rows.items()}

    def read(self, key: str) -> Any:
        return self.rows.get(key, (None, ()))

    def write(self, key: str, value: Any, name: Id) -> None:
        self.rows[key] = (value, name)

    def append(self, key: str, element: int, name: Id) -> None:
        self.rows[key] = ([*(self.read(key)[0] or []), element], name)


@dataclass
class History:
    workload: str
    level: str
    sessions: int
    transactions: int  # without the recorder's own
    seed: int = 1
    aborted: int = 0  # attempts
    seconds: float = 0.0  # of recording
    records: list[Record | None] = field(default_factory=list)  # None: a round

    def lines(self) -> Iterator[str]:
        head = {each.name: getattr(self, each.name) for each in fields(self)}
        del head["records"]
        yield encode({"zanteyard field history": FORM, **head})
        for each in self.records:
            if each is None:
                yield '"round"'
            else:
                yield encode([*each[:4], *(["own"] if each.is_own else [])])


def opened(path: str, way: str) -> IO[str]:
    if path.endswith(".gz"):
        return io.TextIOWrapper(gzip.GzipFile(path, f"{way}b", 4), encoding="utf-8")
    return open(path, way, encoding="utf-8")


def keep(history: History, path: str) -> None:
    with opened(path, "w") as file:
        file.writelines(f"{line}\n" for line in history.lines())


def kept(path: str) -> History:
    """The history in this file. Raises HistoryError, and OSError."""
    number = 0
    try:
        with opened(path, "r") as file:
            history = head_of(json.loads(file.readline()))
            for number, line in enumerate(file, 2):
                history.records.append(record_of(json.loads(line), history.sessions))
    except (ValueError, EOFError) as error:
        raise HistoryError(f"{path}, line {number or 1}: {error}") from error
    return history


def head_of(head: Any) -> History:
    if not isinstance(head, dict) or head.pop("zanteyard field history", None) != FORM:
        raise ValueError("not a history of bench/cost/field.py")
    return History(**{each.name: head[each.name] for each in fields(History) if each.name in head})


def record_of(line: Any, sessions: int) -> Record | None:
    if line == "round":
        return None
    if not isinstance(line, list) or len(line) not in (4, 5) or line[4:] not in ([], ["own"]):
        raise ValueError("not a transaction")
    if not 0 <= line[0] < sessions:
        raise ValueError(f"session {line[0]} of {sessions}")
    return Record(*line[:4], len(line) == 5)


# ---- scripts


class Lists:
    """What the elements of lists say: who appended each, and who overwrote whom."""

    def __init__(self, records: Sequence[Record]) -> None:
        self.appender: dict[tuple[str, int], Id] = {}
        self.last: dict[tuple[str, Id], int] = {}  # the last element that it appended to the key
        self.told: dict[str, list[int]] = {}  # the longest list of each key
        self.overwrites: dict[Id, set[Any]] = {}  # reads that appenders have made, though unseen
        for each in records:
            for key, element in (write for write in each.writes if not isinstance(write, str)):
                self.appender[key, element] = each[:2]
                self.last[key, each[:2]] = element
        for each in records:
            for read in each.reads:
                if len(read) == 2:
                    self.take(*read)

    def take(self, key: str, elements: list[int]) -> None:
        known = self.told.get(key, [])
        if known[: len(elements)] == elements:
            return
        first = 0
        if elements[: len(known)] == known:
            first, self.told[key] = len(known), elements
        for at in range(first, len(elements)):
            its = self.appender.get((key, elements[at]))
            source = self.source(key, elements[:at], its)
            if its is not None and source != its:
                self.overwrites.setdefault(its, set()).add((key, source))

    def source(self, key: str, elements: list[int], reader: Id | None) -> Any:
        """Whom the reader of this list has read from: () is the initial state, and None is nobody
        who committed what was read. `reader` itself, if the last element is its own."""
        if not elements:
            return ()
        its = self.appender.get((key, elements[-1]))
        if its is None or len({*elements}) < len(elements):
            return None
        is_whole = self.last[key, its] == elements[-1]
        return its if is_whole or its == reader else None

    def read_by(self, reader: Id, key: str, elements: list[int]) -> Any:
        """The same without the elements at the end that the reader appended itself."""
        upto = len(elements)
        while upto and self.appender.get((key, elements[upto - 1])) == reader:
            upto -= 1
        return self.source(key, elements[:upto], reader)


class Scripts:
    """Lines of a script. With `has_own`, the recorder's own transactions are in it, and a round and
    a cut wherever clients had met; else there is one round at the end, in a script of version 3.
    `limit` is how many transactions may remain. `promise` is "snapshot", or empty for
    serializability."""

    def __init__(
        self, history: History, limit: int, has_own: bool, nodes: int = NODES, promise: str = ""
    ) -> None:
        self.sessions = history.sessions
        self.room = [limit, 2 if has_own else 3, *([promise] if promise else [])]
        self.round = ["round", nodes, 0, 1, "guided"]
        self.records = [
            each for each in history.records if each is None and has_own
            or each is not None and (has_own or not each.is_own)
        ]
        its = [each for each in self.records if each is not None]
        self.lists = Lists(its)
        self.number: dict[Id, int] = {}  # in the script
        counts = [0] * self.sessions
        for each in its:
            self.number[each[:2]] = counts[each.session]
            counts[each.session] += 1
        self.keys = {FENCE: 0}
        # Keys that were read from nobody who committed, with their places among these.
        self.of_nobody: dict[int, int] = {}

    def lines(self) -> Iterator[str]:
        body = [*self.body()]
        sessions = self.sessions + bool(self.of_nobody)
        yield encode(["open", sessions, *self.room])
        keys = [*self.of_nobody]
        for number, first in enumerate(range(0, len(keys), MOST)):
            its = sorted(keys[first : first + MOST])  # an aborted attempt stands for nobody
            yield encode(["offer", self.sessions, number, [[[], its, "aborted"]]])
        yield from body

    def body(self) -> Iterator[str]:
        waiting: list[list[Any]] = [[] for _ in range(self.sessions)]
        sent, count = [0] * self.sessions, 0
        for each in [*self.records, None]:
            if each is not None:
                waiting[each.session].append(self.transaction(each))
                count += 1
            if each is None or count % GROUP == 0:
                yield from self.offers(waiting, sent)
            if each is None:
                yield encode(self.round)
                yield '["truncate"]'

    def offers(self, waiting: list[list[Any]], sent: list[int]) -> Iterator[str]:
        while any(waiting):
            for session, its in enumerate(waiting):
                if its:
                    yield encode(["offer", session, sent[session], its[:LINE]])
                    sent[session] += len(its[:LINE])
                    del its[:LINE]

    def transaction(self, record: Record) -> list[Any]:
        me = record[:2]
        sources = {*self.lists.overwrites.get(me, ())}
        for key, *rest in record.reads:
            if rest and isinstance(rest[0], list):
                sources.add((key, self.lists.read_by(me, key, rest[0])))
            else:
                sources.add((key, tuple(rest)))
        writes = {self.key(one if isinstance(one, str) else one[0]) for one in record.writes}
        reads = sorted((self.read(key, source) for key, source in sources), key=by_source)
        return [reads, sorted(writes)]

    def read(self, key: str, source: Any) -> list[Any]:
        number = self.key(key)
        if source == ():
            return [number, "init"]
        if source is None or source not in self.number:
            place = self.of_nobody.setdefault(number, len(self.of_nobody))
            return [number, self.sessions, place // MOST]
        return [number, source[0], self.number[source]]

    def key(self, key: str) -> int:
        return self.keys.setdefault(key, len(self.keys))


def by_source(read: list[Any]) -> Any:
    return (read[0], -1, -1) if len(read) == 2 else tuple(read)


def script(
    history: History, limit: int, has_own: bool, nodes: int = NODES, promise: str = ""
) -> Iterator[str]:
    return Scripts(history, limit, has_own, nodes, promise).lines()
