"""What the later of two UPDATEs of a row did to the earlier one, as far as their texts say it.

Only plain UPDATEs are understood: of one table, with a list of columns. Of anything else nothing is
said: another writing statement of the same table, one whose text wasn't kept, what a procedure or a
prepared statement may have done.
"""

import re
from collections.abc import Iterator, Mapping, Sequence
from typing import NamedTuple

from ...core._redacting import without_constants
from ._described import Described

LOST, BUILT_ON, APART = "lost", "built on", "apart"
TOKEN = re.compile(r'"(?:[^"]|"")*"|[^\W\d][\w$]*|\$\d+|%\w+|::|\S')
HARMLESS = frozenset(
    ("select", "begin", "start", "commit", "end", "set", "show", "savepoint", "release", "table",
     "values", "fetch", "close", "declare", "deallocate", "discard")
)
HIDES = frozenset(("execute", "do", "call"))  # what these write isn't in their text
CONSTANT = frozenset(("null", "true", "false", "default", "now", "current_timestamp"))
ENDS = frozenset(("from", "where", "returning", ";"))


class Fate(NamedTuple):
    """Whether the earlier update is lost, was built on, or stands apart, since it was of other
    columns; and of which columns."""

    kind: str
    columns: tuple[str, ...] = ()


def fate_of(
    earlier: Described | None, later: Described | None, table: str, key: int
) -> Fate | None:
    """What became of the update of this row of the table by the earlier of two transactions. None
    if that isn't known, as when the later one has also read what the earlier one wrote."""
    if earlier is None or later is None:
        return None
    if any((key, tuple(earlier.id)) in one.reads for one in later.statements):
        return None
    name = table.rpartition(".")[2]
    its, before = _set_by(later, name), _set_by(earlier, name)
    if its is None:
        return None
    if before is None:
        builds = all(_builds_on(column, told) for column, told in its.items())
        return Fate(BUILT_ON, tuple(its)) if builds else None
    both = tuple(column for column in before if column in its)
    if not both:
        return Fate(APART, tuple(before))
    lost = tuple(column for column in both if _is_constant(its[column]))
    if lost:
        return Fate(LOST, lost)
    return Fate(BUILT_ON, both) if all(_builds_on(it, its[it]) for it in both) else None


def _set_by(its: Described, table: str) -> Mapping[str, Sequence[str]] | None:
    """The columns that the transaction's statement that may have written this table has set, each
    with the tokens of its value. There may be several such statements, if it makes no difference
    which of them wrote the row."""
    if its.statements_dropped:
        return None
    found: list[Mapping[str, Sequence[str]] | None] = []
    for one in its.statements:
        tokens = TOKEN.findall(without_constants(one.plain))
        words = [_plain(token) for token in tokens]
        if not words:
            continue
        if words[0] in HIDES or ";" in words[:-1]:
            return None
        if words[0] not in HARMLESS and table in words:
            found.append(_assigned(tokens, table))
    alike = {None if one is None else frozenset(_ways(one)) for one in found}
    return found[0] if len(alike) == 1 else None


def _ways(its: Mapping[str, Sequence[str]]) -> Iterator[tuple[str, bool, bool]]:
    """What counts of the columns that an UPDATE has set."""
    for column, value in its.items():
        yield column, _is_constant(value), _builds_on(column, value)


def _plain(token: str) -> str:
    """The name that a token is: without its quotes, or in small letters."""
    return token[1:-1].replace('""', '"') if token.startswith('"') else token.lower()


def _assigned(tokens: Sequence[str], table: str) -> Mapping[str, Sequence[str]] | None:
    """What an UPDATE of the table sets."""
    words = [_plain(token) for token in tokens]
    if words[0] != "update" or "set" not in words:
        return None
    begins = words.index("set")
    target = [word for word in words[1:begins] if word not in ("only", "as", "*")]
    names = 1 + 2 * target.count(".")  # a.b.c, and then perhaps another name
    if names > len(target) or target[names - 1] != table or len(target) > names + 1:
        return None
    found: dict[str, list[str]] = {}
    depth, at = 0, begins + 1
    while at < len(words) and (depth or words[at] not in ENDS):
        if at + 1 >= len(words) or words[at + 1] != "=" or not _is_name(tokens[at]):
            return None  # such as (a, b) = .. or a[1] = ..
        column, value, at = words[at], [], at + 2
        while at < len(words) and (depth or words[at] not in (",", *ENDS)):
            depth += {"(": 1, ")": -1}.get(words[at], 0)
            value.append(tokens[at])
            at += 1
        found[column] = value
        at += at < len(words) and words[at] == ","
    return found or None


def _is_name(token: str) -> bool:
    return token.startswith('"') or token[0].isalpha() or token[0] == "_"


def _names(value: Sequence[str]) -> Sequence[str]:
    """The names in a value, but for those of the types that it is cast to."""
    its = [one for at, one in enumerate(value) if not at or value[at - 1] != "::"]
    return [_plain(one) for one in its if _is_name(one)]


def _is_constant(value: Sequence[str]) -> bool:
    return bool(value) and all(name in CONSTANT for name in _names(value))


def _builds_on(column: str, value: Sequence[str]) -> bool:
    names = _names(value)
    return column in names and "select" not in names
