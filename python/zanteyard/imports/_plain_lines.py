"""Reads the maps that Jepsen writes, as EDN or JSON: each on one line, nearly all with the same
keys in the same order.

One regular expression takes such a line apart, some twenty times as fast as the readers of any EDN
or JSON. A line that doesn't fit exactly is left to these, so that both give the same result.
"""

import re
from collections.abc import Iterator, Sequence
from typing import NamedTuple

from ..core.errors import ImportRefusedError
from ._edn import CLOSING, EdnMap, EdnReader, Keyword
from ._json import JsonReader
from ._recording import APPEND, BETWEEN, READ, READ_LIST, WRITE, Value

NAME = r"[A-Za-z][A-Za-z0-9_.*+!?-]*"
NUMBER = r"(?:0|-?[1-9][0-9]{0,99}+)"
GROUPS = ("type", "process", "index", "time", "part", "value")
NEEDED = {"type", "f", "process", "value"}
MOST_SHAPES = 8
WORDS = {READ: "r", READ_LIST: "r", WRITE: "w", APPEND: "append"}
# A map of the file; the groups of a plain line, in a tuple.
Mapped = EdnMap | dict[str, object]
Found = Mapped | tuple[str, ...]
# A micro-operation as its kind, key, value and text, which an Access has.
Micro = tuple[str, str, Value, str]


class Syntax(NamedTuple):
    """How a plain line is written. All but `nil` and `gap` are regular expressions."""

    quote: str  # before a word
    end: str  # after a word
    pair: str  # between a key and its value
    pairs: str  # between pairs
    comma: str  # between the elements of a list
    scalar: str  # a key or value of a micro-operation, whose text is its token
    other: str  # a value that isn't used
    record: str  # before a map
    nil: str
    gap: str  # what `comma` matches, at its shortest


EDN_SCALAR = rf"(?:{NUMBER}|:{NAME}+)"
# A map with a tag counts as the map.
RECORD = r"(?:#jepsen\.history\.Op)?"
EDN = Syntax(":", "", " ", ",? ", " ", EDN_SCALAR, EDN_SCALAR, RECORD, "nil", " ")
JSON_SCALAR = rf'(?:{NUMBER}|"[A-Za-z0-9_.:/+-]*")'
JSON_OTHER = rf'(?:{NUMBER}|null|true|false|"[^"\\\x00-\x1f]*")'
JSON = Syntax('"', '"', ": ?", ", ?", ", ?", JSON_SCALAR, JSON_OTHER, "", "null", ",")


class PlainMicros:
    """The micro-operations of plain lines. A read of nil has no value, even of a list."""

    def __init__(self, syntax: Syntax, is_of_lists: bool) -> None:
        self.syntax = syntax
        self._write, self._read = (APPEND, READ_LIST) if is_of_lists else (WRITE, READ)
        quote, end, gap = syntax.quote, syntax.end, syntax.gap
        # No bracket in a list and no brace: the line is one map.
        found = r"\[[^\n\\;#(){}\[\]]*+\]" if is_of_lists else syntax.scalar
        key = rf"{end}{syntax.comma}{syntax.scalar}{syntax.comma}"
        micro = (
            rf"\[{quote}(?:r{key}(?:{syntax.nil}|{found})|"
            rf"{WORDS[self._write]}{key}{syntax.scalar})\]"
        )
        self.values = rf"\[{micro}(?:{syntax.comma}{micro})*+\]"
        self._micros = re.compile(rf"\[{quote}([a-z]+){end}{gap}([^{gap}]+){gap}(\[?[^\]]*)\]")
        self._elements = re.compile(rf"{syntax.scalar}(?:{gap}{syntax.scalar})*")
        self._lists = re.compile(r"\[[^:\"\[\]]*+\]") if is_of_lists else None
        self._asked_read = f"[{quote}r{end}{gap}%s{gap}{syntax.nil}]"
        self._asked_write = f"[{quote}{WORDS[self._write]}{end}{gap}%s{gap}%s]"
        self._longest: dict[str, str] = {}  # by key, the longest list that was read

    def of(self, value: str) -> list[Micro] | None:
        """The contents of a plain line's value; None if a list in it isn't plain."""
        micros: list[Micro] = []
        nil, gap, write, read = self.syntax.nil, self.syntax.gap, self._write, self._read
        for word, key, found in self._micros.findall(value):
            if word != "r":
                micros.append((write, key, found, ""))
            elif found == nil:
                micros.append((read, key, None, ""))
            elif read == READ:
                micros.append((read, key, found, ""))
            else:
                elements, longest = found[1:], self._longest.get(key, "")  # without brackets
                # Most lists are a prefix of the longest one.
                if longest.startswith(elements) and (
                    not elements or longest[len(elements) : len(elements) + 1] in ("", gap)
                ) or self._is_plain(key, longest, elements):
                    micros.append((read, key, elements.replace(gap, BETWEEN), ""))
                else:
                    return None
        return micros

    def _is_plain(self, key: str, longest: str, elements: str) -> bool:
        """Whether the elements' texts are their tokens. Most lists that are new extend one."""
        front = len(longest) + 1 if longest and elements.startswith(longest) else 0
        if front and elements[front - 1] != self.syntax.gap:
            front = 0
        if not self._elements.fullmatch(elements, front):
            return False
        if len(elements) > len(longest):
            self._longest[key] = elements
        return True

    def asked_by(self, value: str, micros: Sequence[Micro]) -> str:
        """The value of the plain line that asked for what a plain line with this value did. It may
        be another text if a list isn't of numbers."""
        if self._lists is not None:
            return self._lists.sub(self.syntax.nil, value)
        return self.asked(micros)

    def asked(self, micros: Sequence[Micro]) -> str:
        """The value of the plain line that asked for these micro-operations."""
        read, write = self._asked_read, self._asked_write
        texts = [
            write % (key, value) if kind == self._write else read % key
            for kind, key, value, _ in micros
        ]
        return f"[{self.syntax.gap.join(texts)}]"


class Shape:
    """A pattern for lines with these keys in their order."""

    def __init__(self, pattern: str) -> None:
        compiled = re.compile(pattern)
        self.match = compiled.match
        self.order = tuple(compiled.groupindex[name] for name in GROUPS)


def shape_of(names: Sequence[str], micros: PlainMicros, is_independent: bool) -> Shape | None:
    """The shape of plain lines with these keys; None if one that matters is missing. Its groups are
    GROUPS. `index`, `time` and `part` are empty if the map doesn't have them."""
    if not NEEDED <= {*names} or not all(re.fullmatch(NAME, name) for name in names):
        return None
    syntax, values = micros.syntax, f"(?P<value>{micros.values})"
    if is_independent:
        values = rf"\[(?P<part>{syntax.scalar}){syntax.comma}{values}\]"
    fields = {
        "type": f"{syntax.quote}(?P<type>invoke|ok|fail|info){syntax.end}",
        "f": f"{syntax.quote}txn{syntax.end}",
        "process": rf"(?P<process>{NUMBER})",
        "index": rf"(?P<index>{NUMBER})",
        "time": rf"(?P<time>{NUMBER})",
        "value": values,
    }
    pairs = syntax.pairs.join(
        f"{syntax.quote}{re.escape(name)}{syntax.end}{syntax.pair}{fields.get(name, syntax.other)}"
        for name in names
    )
    given = {*names, *(("part",) if is_independent else ())}
    missing = "".join(f"(?P<{name}>)" for name in ("index", "time", "part") if name not in given)
    return Shape(rf"{syntax.record}\{{{pairs}{missing}\}}\r?(?:\n|\Z)")


class PlainLines:
    """The maps of a text, each with the line on which it begins, from 1. Raises
    ImportRefusedError, with the line, for a text that has anything else."""

    def __init__(
        self, text: str, micros: PlainMicros, is_independent: bool = False, is_strict: bool = False
    ) -> None:
        """`is_independent` says that a client's value is a part of the store, and what was done
        there. With `is_strict` no line is taken for plain."""
        self._text, self._micros = text, micros
        self._is_independent, self._is_strict = is_independent, is_strict
        self._at, self._line = 0, 1
        self.end = len(text)  # where to end; or later, at the end of a line
        self._shapes: list[Shape] = []  # the one that matched last comes first
        self._known: set[tuple[str, ...]] = set()  # keys of which a shape was made

    def maps(self) -> Iterator[tuple[int, Found]]:
        """All maps, in order: a client's operation on transactions on a plain line as the GROUPS of
        its shape, in a tuple, any other map as the strict reader returns it."""
        while self._at < self.end:
            for number, shape in enumerate(self._shapes):
                text, at, line, end = self._text, self._at, self._line, self.end
                while match := shape.match(text, at, end):
                    yield line, match.group(*shape.order)
                    at, line = match.end(), line + 1
                if at > self._at:
                    self._at, self._line = at, line
                    if number:
                        self._shapes.insert(0, self._shapes.pop(number))
                    break
            else:
                yield from self._slowly()

    def place(self) -> tuple[int, int]:
        """How far it has read, and on which line that is."""
        return self._at, self._line

    def go_on(self, at: int, line: int, end: int) -> None:
        """Reads on there, which is the beginning of a line."""
        self._at, self._line, self.end = at, line, end

    def is_within(self) -> object:
        """What is being read that has more than one map; None or False if nothing is."""
        return None

    def _slowly(self) -> Iterator[tuple[int, Found]]:
        """Reads forms up to one that ends its line, or to the end."""
        raise NotImplementedError

    def _learn(self, names: Sequence[str]) -> None:
        """Learns from the keys of a map that was read strictly."""
        if self._is_strict or len(self._shapes) == MOST_SHAPES or (*names,) in self._known:
            return
        self._known.add((*names,))
        shape = shape_of(names, self._micros, self._is_independent)
        if shape is not None:
            self._shapes.append(shape)


class EdnLines(PlainLines):
    """The maps at the top level of a text in EDN, and those in vectors and lists there."""

    _opened: tuple[int, str] | None = None  # the vector being read: line, and end

    def is_within(self) -> object:
        return self._opened

    def maps(self) -> Iterator[tuple[int, Found]]:
        yield from super().maps()
        if self._opened and self._at >= len(self._text):
            raise ImportRefusedError(self._opened[0], "the vector here isn't closed")

    def _slowly(self) -> Iterator[tuple[int, Found]]:
        reader = EdnReader(self._text, self._at, self._line)
        while not reader.is_over():
            line, sign = reader.line(), reader.sign()
            if self._opened and sign == self._opened[1]:
                self._opened = None
                reader.skip(1)
            elif not self._opened and sign in "([":
                self._opened = line, CLOSING[sign]
                reader.skip(1)
            else:
                for form in reader.form():
                    if not isinstance(form, EdnMap):
                        raise ImportRefusedError(line, "an operation must be a map")
                    names = [key.name for key, _ in form.items if isinstance(key, Keyword)]
                    if len(names) == len(form.items):
                        self._learn(names)
                    yield form.line, form
            if reader.ends_line():
                break
        self._at, self._line = reader.place()


class JsonLines(PlainLines):
    """The objects of a text in JSON, one after another, or in one array."""

    def maps(self) -> Iterator[tuple[int, Found]]:
        if self._at == 0 and self._text.lstrip()[:1] == "[":
            yield from map(_object, JsonReader(self._text).elements())
            self._at = len(self._text)
        else:
            yield from super().maps()

    def _slowly(self) -> Iterator[tuple[int, Found]]:
        reader = JsonReader(self._text, self._at, self._line)
        if not reader.is_over():
            line, found = _object(reader.value())
            self._learn([*found])
            yield line, found
        self._at, self._line = reader.place()


def _object(element: tuple[int, object]) -> tuple[int, dict[str, object]]:
    line, found = element
    if not isinstance(found, dict):
        raise ImportRefusedError(line, "an operation must be an object")
    return line, found
