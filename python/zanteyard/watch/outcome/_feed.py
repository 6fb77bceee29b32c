"""Reads what the proxy writes (docs/PROXY_FEED.md) into plain values. Missing fields get empty
values, and unknown events are left out."""

import json
from collections.abc import Mapping, Sequence
from dataclasses import replace

from ...core._records import AuditId, Source
from ..violations._described import ROLLED_BACK, Described, Statement
from ._state import OtherProxy, Others, Seen, Shape
from ._totals import Conditions, Total, Totals
from ..violations._violations import Answered, Row

Event = dict[str, object]
# Lines for the auditor, or an event. Lines that are looked at by themselves (`SINGLE`) come alone.
Item = bytes | Event
OTHERS = "others"  # the shape that counts all remaining shapes


# How lines begin that aren't passed on unread, each after the end of the line before it.
SINGLE = (b"\n{", b'\n["open",', b'\n["round",', b'\n["truncate"')


class Split:
    """Cuts the proxy's output into items; not for several threads. Most of it is lines for the
    auditor, which stay together."""

    def __init__(self) -> None:
        self._rest = b""
        self.wrong = 0  # lines that were neither

    def items(self, data: bytes) -> list[Item]:
        """The items that are complete so far."""
        whole, newline, self._rest = (self._rest + data).rpartition(b"\n")
        if not newline:
            return []
        text, at = b"\n" + whole, 0
        found: list[Item] = []
        while at < len(text):
            places = [place for each in SINGLE if (place := text.find(each, at)) >= 0]
            start = min(places, default=len(text))
            if at < start:
                found += self._lines(text[at + 1 : start])
            if start == len(text):
                break
            end = text.find(b"\n", start + 1)
            at = end if end >= 0 else len(text)
            found += self._single(text[start + 1 : at])
        return found

    def _lines(self, lines: bytes) -> list[Item]:
        """These lines, without those that aren't for the auditor."""
        if lines.startswith(b"[") and lines.count(b"\n[") == lines.count(b"\n"):
            return [lines]
        each = lines.split(b"\n")
        right = [line for line in each if line.startswith(b"[")]
        self.wrong += len(each) - len(right)
        return [b"\n".join(right)] if right else []

    def _single(self, line: bytes) -> list[Item]:
        if line.startswith(b"["):
            return [line]
        event = _event(line)
        if event is None:
            self.wrong += 1
            return []
        return [event]


def _event(line: bytes) -> Event | None:
    if not line.startswith(b"{"):
        return None
    try:
        found = json.loads(line)
    except ValueError:
        return None
    return found if isinstance(found.get("event"), str) else None


def number(value: object) -> float:
    """The value if it is a number, else 0."""
    if isinstance(value, (int, float)) and not isinstance(value, bool):
        return value
    return 0.0


def whole(value: object) -> int:
    return int(number(value))


def text(value: object) -> str:
    return value if isinstance(value, str) else ""


def table(value: object) -> Mapping[str, object]:
    return value if isinstance(value, dict) else {}


def listed(value: object) -> Sequence[object]:
    return value if isinstance(value, list) else ()


def reasons(value: object) -> Mapping[str, int]:
    return {reason: whole(count) for reason, count in table(value).items()}


def seen_of(event: Mapping[str, object]) -> Seen:
    """The coverage in an event."""
    reads, writes = table(event.get("reads")), table(event.get("writes"))
    connections, lag = table(event.get("connections")), table(event.get("lag"))
    fences = whole(event.get("fences"))
    return Seen(
        totals=totals_of(table(event.get("totals"))),
        conditions=conditions_of(table(event.get("conditions"))),
        committed=whole(event.get("committed")),
        offered=whole(event.get("offered")) - fences,
        fences=fences,
        bare=whole(event.get("bare")),
        reads=whole(reads.get("offered")),
        writes=whole(writes.get("offered")),
        shapes=tuple(_shape(table(it)) for it in listed(event.get("unseen"))),
        connections=whole(connections.get("now")),
        audited_connections=whole(connections.get("audited")),
        waiting_connections=whole(connections.get("waiting")),
        connections_ever=whole(connections.get("ever")),
        connections_refused=reasons(connections.get("refused")),
        lag_bytes=whole(lag.get("bytes")),
        lag_seconds=number(lag.get("seconds")),
        waiting=whole(event.get("pending")),
        remaining=whole(event.get("remaining")),
        keys=whole(event.get("keys")),
        statements_dropped=whole(event.get("statements_dropped")),
        others=_others(event.get("remote")),
    )


def conditions_of(conditions: Mapping[str, object]) -> Conditions:
    """The conditions in an event."""
    return Conditions(
        whole(conditions.get("seen")),
        whole(conditions.get("followed")),
        whole(conditions.get("passed_over")),
        reasons(conditions.get("left_out")),
        reasons(conditions.get("rows_left_out")),
        whole(conditions.get("dropped")),
    )


def totals_of(totals: Mapping[str, object]) -> Totals:
    """The totals in an event."""
    selects, rows = table(totals.get("selects")), table(totals.get("rows_read"))
    others = table(totals.get("without_the_proxy"))
    return Totals(
        **{name: _total(table(totals.get(name))) for name, _ in Totals().named()},
        by_condition=whole(selects.get("by_condition")),
        found_no_row=whole(selects.get("found_no_row")),
        only_read=whole(table(totals.get("transactions")).get("only_read")),
        other_statements=whole(totals.get("other_statements")),
        own=whole(rows.get("own")),
        from_before=whole(rows.get("from_before")),
        of_unchecked=whole(rows.get("of_unchecked")),
        others=whole(others.get("transactions")),
        others_rows=whole(others.get("rows_written")),
        untold=whole(others.get("untold")),
        bypassed=whole(others.get("of_these_at_least")),
        levels=reasons(table(totals.get("transactions")).get("levels")),
    )


def _total(total: Mapping[str, object]) -> Total:
    return Total(
        whole(total.get("all")),
        whole(total.get("checked")),
        reasons(total.get("in_part")),
        reasons(total.get("not_checked")),
        whole(total.get("waiting")),
        whole(total.get("rolled_back")),
    )


def _others(others: object) -> Others | None:
    if not isinstance(others, dict):
        return None
    proxies = tuple(_other(table(one)) for one in listed(others.get("proxies")))
    return Others(proxies, whole(others.get("refused")), text(others.get("down")))


def _other(proxy: Mapping[str, object]) -> OtherProxy:
    return OtherProxy(
        text(proxy.get("name")),
        proxy.get("feeds") is True,
        whole(proxy.get("connections")),
        whole(proxy.get("transactions")),
        number(proxy.get("silent")),
    )


def _shape(shape: Mapping[str, object]) -> Shape:
    return Shape(
        text(shape.get("shape")),
        text(shape.get("reason")),
        whole(shape.get("count")),
        shape.get("reads") is not False,
        number(shape.get("first")),
    )


def answered_of(event: Mapping[str, object]) -> Answered:
    """The answer to `describe`."""
    found: dict[AuditId, Described] = {}
    keys: dict[int, Row] = {}
    for one in map(table, listed(event.get("transactions"))):
        id = AuditId((whole(one.get("session")), whole(one.get("number"))))
        if one.get("known") is True:
            found[id] = _described(id, one)
        for key in map(table, listed(one.get("keys"))):
            keys[whole(key.get("key"))] = _row(key)
    return Answered(found, keys)


def _row(key: Mapping[str, object]) -> Row:
    columns = tuple(map(text, listed(key.get("columns"))))
    return Row(
        text(key.get("table")), text(key.get("row")), columns, text(key.get("condition"))
    )


def _described(id: AuditId, one: Mapping[str, object]) -> Described:
    return Described(
        id,
        text(one.get("application_name")),
        text(one.get("address")),
        text(one.get("user")),
        whole(one.get("connection")),
        text(one.get("level")),
        ROLLED_BACK if one.get("rolled_back") is True else "committed",
        number(one.get("began")),
        number(one.get("ended")),
        one.get("fence") is True,
        _statements(one),
        whole(one.get("statements_dropped")),
        whole(one.get("xid")),
        text(one.get("proxy")),
    )


def _statements(one: Mapping[str, object]) -> tuple[Statement, ...]:
    """The statements, each with the reads that it made; an older proxy's feed lacks these."""
    found = [_statement(table(it)) for it in listed(one.get("statements"))]
    reads: list[list[tuple[int, Source]]] = [[] for _ in found]
    for read, at in zip(listed(one.get("reads")), listed(one.get("read_by"))):
        key, *source = listed(read) or (None,)
        if type(at) is int and 0 <= at < len(found) and type(key) is int:
            if source == ["init"]:
                reads[at].append((key, "init"))
            elif [type(it) for it in source] == [int, int]:
                reads[at].append((key, (source[0], source[1])))
    return tuple(replace(it, reads=tuple(its)) for it, its in zip(found, reads))


def _statement(statement: Mapping[str, object]) -> Statement:
    parameters = statement.get("parameters")
    values: tuple[str | None, ...] | None = None
    if isinstance(parameters, list):
        values = tuple(None if it is None else str(it) for it in parameters)
    file, line = text(statement.get("file")), statement.get("line")
    where = f"{file}:{line}" if file and line is not None else file
    unseen = tuple(text(it) for it in listed(statement.get("unseen")))
    more = whole(statement.get("more_parameters"))
    written, at = text(statement.get("text")), number(statement.get("at"))
    return Statement(written, values, at, unseen, where, more_parameters=more)


def command(name: str, **more: object) -> bytes:
    """A line for the proxy."""
    return json.dumps({"command": name, **more}, separators=(",", ":")).encode() + b"\n"
