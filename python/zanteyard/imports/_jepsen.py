"""Histories of Jepsen, as EDN or JSON: operations that were invoked and completed, each a list of
micro-operations on registers or on lists."""

import contextlib
from collections.abc import Callable, Collection, Generator, Iterator, Sequence
from functools import partial
from typing import Any, cast

from ..core.errors import ImportRefusedError
from ._edn import EdnReader, Keyword
from ._json import JsonReader
from ._plain_lines import (
    EDN,
    JSON,
    WORDS,
    EdnLines,
    JsonLines,
    Mapped,
    Micro,
    PlainLines,
    PlainMicros,
)
from ..core._processes import shared
from ._recording import (
    ABORTED,
    APPEND,
    BETWEEN,
    COMMITTED,
    NEVER,
    READ,
    READ_LIST,
    READS,
    UNKNOWN,
    WRITE,
    Access,
    Attempt,
    Recording,
    Value,
    optional_token,
    token,
)

OUTCOMES = {"ok": COMMITTED, "fail": ABORTED, "info": UNKNOWN}
# Characters that are read before others are shared out, and in a block for another process.
FRONT, BLOCK = 1 << 20, 1 << 20

# A map of the file: its line, type, process, index (empty if it has none), time, and part of the
# store (if the history is of independent ones); its micro-operations, in which a read that found
# nothing has no value, also of a list, or None if nobody has read them; and the value of a plain
# line that asked for the same, which is empty if none is known.
Operation = tuple[int, str, str, str, int | None, str, Sequence[Micro] | None, str]
# As the classes themselves, in a third of the time.
access_of = cast(Callable[[Micro], Access], partial(tuple.__new__, Access))
attempt_of = cast(Callable[[tuple[Any, ...]], Attempt], partial(tuple.__new__, Attempt))


def read_jepsen(
    text: str,
    form: str,
    is_of_lists: bool,
    is_independent: bool = False,
    left_out: Collection[str] = (),
) -> Recording:
    """Reads the attempts of the file's processes, in the order of their invocations. With
    `is_independent` a client's value is a part of the store and a transaction there; what a process
    does in one part has then no order with what it does in another. Operations of the functions
    `left_out` are skipped, and counted. Raises ImportRefusedError."""
    try:
        return _Operations(text, is_of_lists, is_independent, left_out, False).recording(form)
    except ImportRefusedError:
        # What a plain line asked for may have been read after a later line: only the strict reader
        # knows which error comes first.
        return _Operations(text, is_of_lists, is_independent, left_out, True).recording(form)


def _is_json(text: str) -> bool:
    """Whether it is JSON: there, a map begins with a string."""
    return text.lstrip()[:1] in ("[", "{") and text.lstrip("[{ \t\r\n")[:1] == '"'


def _word(value: object) -> str | None:
    return value.name if isinstance(value, Keyword) else value if isinstance(value, str) else None


class _Operations:
    """The operations of clients, without those of the nemesis."""

    def __init__(
        self,
        text: str,
        is_of_lists: bool,
        is_independent: bool,
        left_out: Collection[str],
        is_strict: bool,
    ) -> None:
        """With `is_strict` no line is taken for plain."""
        self._text, self._is_strict, self._is_independent = text, is_strict, is_independent
        self._left_out = dict.fromkeys(left_out, 0)  # how many, by function
        self._is_json = _is_json(text)
        self._plain = PlainMicros(JSON if self._is_json else EDN, is_of_lists)
        self._lines: PlainLines = (JsonLines if self._is_json else EdnLines)(
            text, self._plain, is_independent, is_strict
        )
        self._kinds = (
            {"r": READ_LIST, "append": APPEND} if is_of_lists else {"r": READ, "w": WRITE}
        )

    def recording(self, form: str) -> Recording:
        """Raises ImportRefusedError."""
        with contextlib.closing(self._all()) as operations:
            attempts, unused, goes_back = _Pairs(self).of(operations)
        left_out = tuple(sorted(self._left_out.items()))
        return Recording(form, attempts, True, unused, left_out, goes_back, self._shown)

    def _all(self) -> Generator[Operation, None, None]:
        """The operations in the file's order. Other processes read blocks of a large file."""
        text, lines = self._text, self._lines
        if len(text) > FRONT + BLOCK and not self._is_strict:
            front = text.find("\n", FRONT) + 1
            if front:
                lines.end = front
                yield from self._operations()
                yield from self._shared()
        lines.end = len(text)
        yield from self._operations()

    def _operations(self) -> Iterator[Operation]:
        """The operations up to the end of what is being read."""
        is_json = self._is_json
        for line, found in self._lines.maps():
            if not isinstance(found, tuple):
                operation = self._operation(line, found)
                if operation is not None:
                    yield operation
                continue
            type, process, index, time, part, value = found
            if is_json:
                value = value.replace(", ", ",")
            at, micros = int(time) if time else None, None
            if type == "ok":
                micros = self._plain_micros(value, line)
                value = self._plain.asked_by(value, micros)
            yield line, type, process, index, at, part, micros, value

    def _shared(self) -> Iterator[Operation]:
        """The operations in the blocks that other processes have read, as far as these began where
        those before them ended."""
        blocks, (at, line) = [], self._lines.place()
        while at < len(self._text):
            end = self._text.find("\n", at + BLOCK) + 1 or len(self._text)
            blocks.append((at, line, end))
            at, line = end, line + self._text.count("\n", at, end)
        for block, found in zip(blocks, shared(self._block, blocks)):
            if found is None:
                return
            operations, left_out, place = found
            yield from operations
            for name, count in left_out.items():
                self._left_out[name] += count
            at, line = place
            self._lines.go_on(at, line, len(self._text))
            if at != block[2]:
                return

    def _block(
        self, block: tuple[int, int, int]
    ) -> tuple[list[Operation], dict[str, int], tuple[int, int]] | None:
        """What is in a block, and where it ended; None if that needs the file's beginning."""
        lines, self._left_out = self._lines, dict.fromkeys(self._left_out, 0)
        within = lines.is_within()
        lines.go_on(*block)
        try:
            operations = [*self._operations()]
        except ImportRefusedError:
            return None
        if lines.is_within() != within:
            return None
        return operations, self._left_out, lines.place()

    def _plain_micros(self, value: str, line: int) -> Sequence[Micro]:
        """The micro-operations of a plain line's value. Raises ImportRefusedError."""
        micros = self._plain.of(value)
        if micros is not None:
            return micros
        if self._is_json:
            _, found = JsonReader(value, 0, line).value()
        else:
            (found,) = EdnReader(value, 0, line).form()
        return [*self._micros(found, line)]

    def micros(self, operation: Operation) -> Sequence[Micro]:
        """What the operation did, or asked for. Raises ImportRefusedError."""
        line, _, _, _, _, _, micros, value = operation
        return self._plain_micros(value, line) if micros is None else micros

    def has_asked(self, asked: Operation, done: Operation) -> bool:
        """Whether it is certain that these are one operation."""
        _, _, _, _, _, part, _, value = asked
        _, _, _, _, _, same, micros, other = done
        return part == same and value != "" and (
            value == other or micros is not None and value == self._plain.asked(micros)
        )

    def _operation(self, line: int, found: Mapped) -> Operation | None:
        """The operation in a map; None for one of the nemesis."""
        process = found.get("process")
        if _word(process) == "nemesis":
            return None
        if not isinstance(process, int) or isinstance(process, bool):
            raise ImportRefusedError(line, "a process must be a whole number or the nemesis")
        type = _word(found.get("type"))
        if type not in ("invoke", *OUTCOMES):
            raise ImportRefusedError(line, "the type must be invoke, ok, fail or info")
        function = _word(found.get("f"))
        if function in self._left_out:
            self._left_out[function] += type == "invoke"
            return None
        if function != "txn":
            raise ImportRefusedError(
                line,
                "a client's operation has a function other than txn: its effect is unknown "
                "(--leave-out skips a function)",
            )
        index, time = (_whole(found.get(name), name, line) for name in ("index", "time"))
        value, part = found.get("value"), ""
        has_none = value is None and type in ("fail", "info")
        if self._is_independent and not has_none:
            if not isinstance(value, (tuple, list)) or len(value) != 2:
                raise ImportRefusedError(line, "the value must be a part and a txn (--independent)")
            part, value = token(value[0], line, "a part"), value[1]
            has_none = value is None and type in ("fail", "info")
        micros = [] if has_none else [*self._micros(value, line)]
        return line, type, str(process), "" if index is None else str(index), time, part, micros, ""

    def _micros(self, value: object, line: int) -> Iterator[Micro]:
        if not isinstance(value, (tuple, list)):
            raise ImportRefusedError(line, "the value of a txn must be a list of micro-operations")
        for micro in value:
            if not isinstance(micro, (tuple, list)) or len(micro) != 3:
                raise ImportRefusedError(
                    line, "a micro-operation must be a function, a key and a value"
                )
            function = _word(micro[0])
            kind = self._kinds.get(function or "")
            if kind is None or function is None:
                known = " and ".join(self._kinds)
                raise ImportRefusedError(line, f"a micro-operation of this form must be {known}")
            key = token(micro[1], line, "a key")
            content: Value
            if kind == READ_LIST:
                content = _elements(micro[2], line)
            elif kind == READ:
                content = optional_token(micro[2], line, "a value")
            else:
                content = token(micro[2], line, "a written value")
            yield kind, key, content, ""

    def _shown(self, access: Access) -> str:
        """As the file has it."""
        kind, key, value, _ = access
        between = ", " if self._is_json else " "
        if value is None:
            value = self._plain.syntax.nil
        elif kind == READ_LIST:
            value = f"[{value.replace(BETWEEN, between)}]"
        first = f'"{WORDS[kind]}"' if self._is_json else f":{WORDS[kind]}"
        return f"[{first}{between}{key}{between}{value}]"


def _whole(value: object, name: str, line: int) -> int | None:
    if value is None or (isinstance(value, int) and not isinstance(value, bool)):
        return value
    raise ImportRefusedError(line, f"the {name} must be a whole number")


def _elements(value: object, line: int) -> Value:
    if value is None:
        return None
    if not isinstance(value, (tuple, list)):
        raise ImportRefusedError(line, "a read must return a list or nil")
    return BETWEEN.join(token(element, line, "a list element") for element in value)


class _Pairs:
    """Matches invocations with their completions. What a plain line asked for is read only if its
    completion doesn't say the same."""

    def __init__(self, operations: _Operations) -> None:
        self._operations = operations
        self._attempts: list[Attempt] = []
        self._indexes: list[str] = []  # of each attempt
        self._open: dict[str, tuple[int, Operation, int]] = {}  # of each process
        self._unused = 0

    def of(self, operations: Iterator[Operation]) -> tuple[tuple[Attempt, ...], int, int]:
        """The attempts, how many reads aren't used, and the line at which the time goes back, 0 if
        it never does. Raises ImportRefusedError."""
        goes_back, latest = 0, None
        open_, attempts = self._open, self._attempts
        until = attempt_of(("", "", UNKNOWN, (), 0, "", 0, 0, None, None))  # until it ends
        for place, operation in enumerate(operations, 1):
            line, type, process, _, time, _, _, _ = operation
            if time is not None:
                if latest is not None and time < latest:
                    goes_back = goes_back or line
                latest = time
            if type != "invoke":
                self._complete(operation, place)
            elif process in open_:
                before = open_[process][1][0]
                raise ImportRefusedError(
                    line,
                    f"process {process} already has an operation in flight, from line {before}",
                )
            else:
                open_[process] = (len(attempts), operation, place)
                attempts.append(until)
                self._indexes.append("")
        for _, (line, _, process, index, time, part, micros, value), _ in [*open_.values()]:
            self._complete((line, "info", process, index, time, part, micros, value), NEVER)
        if not attempts:
            raise ImportRefusedError(1, "the file has no client operation")
        return tuple(self._named()), self._unused, goes_back

    def _named(self) -> Iterator[Attempt]:
        """Names attempts by their lines, or by their indexes or places if several are on one
        line."""
        if len({attempt.line for attempt in self._attempts}) == len(self._attempts):
            yield from self._attempts
            return
        for it, index in zip(self._attempts, self._indexes):
            number = it.ended if it.outcome == COMMITTED else it.began
            name = f"op {index}" if index else f"operation {number}"
            yield it._replace(name=name, where=f"line {it.line}, {it.where}")

    def _complete(self, operation: Operation, place: int) -> None:
        line, type, process, index, time, _, _, _ = operation
        opened = self._open.pop(process, None)
        if opened is None:
            raise ImportRefusedError(
                line, f"process {process} completes an operation that it didn't invoke"
            )
        at, invoked, began = opened
        began_line, _, _, began_index, began_at, part, _, _ = invoked
        operations = self._operations
        micros = operations.micros(operation)
        if type == "ok":
            if not operations.has_asked(invoked, operation):
                _check_same(invoked, operations.micros(invoked), operation, micros)
        else:
            asked = operations.micros(invoked)
            if micros:
                _check_same(invoked, asked, operation, micros)
            self._unused += sum(
                kind in READS and value is not None for kind, _, value, _ in micros
            )
            micros = [micro for micro in asked if micro[0] not in READS]
            line, index = began_line, began_index
        where = f"process {process}"
        if part:  # its keys and its sessions are its own
            where, process = f"{where} in part {part}", f"{process} in {part}"
            micros = [(kind, f"{key} in {part}", value, "") for kind, key, value, _ in micros]
        outcome, self._indexes[at] = OUTCOMES[type], index
        ended, ended_at = (NEVER, None) if outcome == UNKNOWN else (place, time)
        self._attempts[at] = attempt_of((
            f"line {line}", process, outcome, tuple(map(access_of, micros)), line,
            f"{where}, index {index}" if index else where, began, ended, began_at, ended_at,
        ))


def _check_same(
    invoked: Operation, asked: Sequence[Micro], completed: Operation, done: Sequence[Micro]
) -> None:
    """Checks that a completion has the invocation's micro-operations, except for what was read."""
    is_same = len(asked) == len(done) and invoked[5] == completed[5]
    for one, other in zip(asked, done):
        is_same &= one[:2] == other[:2] and (one[2] == other[2] or one[0] in READS)
    if not is_same:
        raise ImportRefusedError(
            completed[0],
            f"this isn't the operation that process {completed[2]} invoked on line {invoked[0]}",
        )
