"""When a script's transactions began and ended, from a file next to the script, `SCRIPT.times`
(docs/PROMISES.md)."""

import json
import os
from collections.abc import Iterable, Iterator, Mapping, Sequence
from dataclasses import dataclass, field
from typing import Any

from ..core._own_keys import LONGEST
from ..core._private_files import private
from ..core._records import AuditId
from ..core.errors import CantBeAskedError
from ..promises._asking import is_of_transactions
from ..promises._times import UNKNOWN_BEGIN, UNKNOWN_END, Span, Timeline, mistake_in

TIMES = ".times"
UNITS = ("ns", "places")  # nanoseconds, or the order of events in a file


@dataclass(frozen=True)
class ScriptTimes:
    """The times of a script's transactions, as far as they are known. The unit is empty if it is
    unknown."""

    unit: str = "ns"
    spans: Mapping[AuditId, Span] = field(default_factory=dict)

    def span(self, id: AuditId) -> tuple[Any, ...]:
        """The transaction's span, as in `Logged`."""
        return (*self.spans[id], self.unit) if id in self.spans else ()

    def timeline(self, lines: Iterable[Sequence[Any]]) -> Timeline:
        """The timeline of the transactions in these lines, without fences that do nothing else and
        without aborted attempts. Raises CantBeAskedError if there are times for a transaction that
        isn't in the lines."""
        kinds = {id: _has_order(txn) for line in lines for id, txn in _offered(line)}
        missing = sorted(id for id in self.spans if id not in kinds)
        if missing:
            session, number = missing[0]
            raise CantBeAskedError(f"{session}.{number} has times, and isn't in the script")
        return Timeline({id: span for id, span in self.spans.items() if kinds[id]})


def _offered(line: Sequence[Any]) -> Iterator[tuple[AuditId, Sequence[Any]]]:
    if line and line[0] in ("offer", "join") and is_of_transactions(line):
        _, session, *place, transactions = line[:4]
        for number, transaction in enumerate(transactions, *place):
            yield AuditId((session, number)), transaction


def times_in(lines: Iterable[Sequence[Any]]) -> ScriptTimes:
    """The times in the offers of a script that asks for strict serializability by itself. By which
    clock they are isn't told."""
    spans: dict[AuditId, Span] = {}
    for line in lines:
        if line and line[0] == "offer" and len(line) == 6 and is_of_transactions(line):
            for number, (began, ended) in enumerate(zip(*line[4:]), line[2]):
                if (began, ended) != (UNKNOWN_BEGIN, UNKNOWN_END):
                    end = None if ended == UNKNOWN_END else ended
                    spans[AuditId((line[1], number))] = (began, end)
    return ScriptTimes("", spans)


def _has_order(transaction: Sequence[Any]) -> bool:
    reads, keys, *undone = transaction
    return not undone and 0 not in keys and not any(read[0] == 0 for read in reads)


def write_times(times: ScriptTimes, script: str) -> str:
    """Writes the file, and returns its name."""
    with open(script + TIMES, "w", encoding="utf-8", opener=private) as file:
        for line in _lines_of(times):
            file.write(json.dumps(line, separators=(",", ":")) + "\n")
    return script + TIMES


def _lines_of(times: ScriptTimes) -> Iterator[list[Any]]:
    """The lines of the file; each is for consecutive transactions of a session."""
    yield ["times", times.unit]
    run: list[AuditId] = []
    for id in sorted(times.spans):
        if run and (len(run) == LONGEST or id != (run[-1][0], run[-1][1] + 1)):
            yield [*run[0], [[*times.spans[each]] for each in run]]
            run = []
        run.append(id)
    if run:
        yield [*run[0], [[*times.spans[each]] for each in run]]


def read_times(script: str) -> ScriptTimes | None:
    """The times next to the script; None if there are none. Raises CantBeAskedError if they are
    malformed or impossible."""
    path = script + TIMES
    if not os.path.isfile(path):
        return None
    unit, spans = "", {}
    with open(path, encoding="utf-8") as file:
        for at, text in enumerate(file, 1):
            try:
                line = json.loads(text)
                if at == 1:
                    word, unit = line
                    if word != "times" or unit not in UNITS:
                        raise ValueError
                else:
                    spans.update(_spans_of(*line))
            except (ValueError, TypeError) as error:
                form = '["times","ns"]' if at == 1 else "[session,first,[[began,ended],..]]"
                raise CantBeAskedError(f"{path}, line {at}: it has the form {form}") from error
    return checked_times(ScriptTimes(unit or "ns", spans), path)


def checked_times(times: ScriptTimes, where: str) -> ScriptTimes:
    """These times, which were found there. Raises CantBeAskedError if they are impossible."""
    spans = {(session, number): span for (session, number), span in times.spans.items()}
    mistake = mistake_in(spans)
    if min((began for began, _ in spans.values()), default=0) < 0:
        mistake = "a transaction began before the clock's beginning"
    if mistake:
        raise CantBeAskedError(f"{where}: {mistake}")
    return times


def _spans_of(session: Any, first: Any, spans: Any) -> dict[AuditId, Span]:
    """The spans in a line. Raises ValueError or TypeError if it is malformed."""
    found: dict[AuditId, Span] = {}
    for number, (began, ended) in enumerate(spans, first):
        numbers = [session, number, began, *([] if ended is None else [ended])]
        if any(type(each) is not int or each < 0 for each in numbers):
            raise ValueError
        found[AuditId((session, number))] = (began, ended)
    return found
