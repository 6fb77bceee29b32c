"""A strict reader of EDN, the text form of Clojure's data, which keeps the line of each map.

Saved histories are full of data that an import has no use for, such as exceptions, sets of nodes
and floats. So all of EDN is read, and values whose equality their text doesn't decide stay as they
were written.
"""

import re
from collections.abc import Iterator
from dataclasses import dataclass

from ..core.errors import ImportRefusedError

DEEPEST = 100  # levels of nested forms
SPACE = re.compile(r"(?:[\s,]|;[^\n]*)*")
REST_OF_LINE = re.compile(r"[ ,\r\t]*(?:\n|\Z)")
TOKEN = re.compile(r"[^\s,;()\[\]{}\"]+")
CHARACTER = re.compile(r"\\(?:[^\s\w]|\w+)")
TEXT = re.compile(r'"((?:[^"\\]|\\.)*)"', re.DOTALL)
ESCAPE = re.compile(r"\\(?:u([0-9a-fA-F]{4})|(.))", re.DOTALL)
ESCAPED = {"t": "\t", "r": "\r", "n": "\n", "b": "\b", "f": "\f", '"': '"', "\\": "\\"}
WHOLE = re.compile(r"[+-]?(?:0|[1-9][0-9]{0,4299})N?")  # as long as Python makes a number of
CLOSING = {"(": ")", "[": "]", "{": "}"}


@dataclass(frozen=True)
class Keyword:
    """A keyword, such as `:name`."""

    name: str


@dataclass(frozen=True)
class Opaque:
    """Something that is kept as it was written: a symbol, a boolean, a number with a decimal point,
    a character, a set, or a tag with its value."""

    text: str


@dataclass(frozen=True)
class EdnMap:
    """A map, and the line on which it begins, from 1. Its items are in the file's order."""

    line: int
    items: "tuple[tuple[Edn, Edn], ...]"

    def get(self, name: str) -> "Edn":
        """The value of this keyword; None if there is none."""
        return next((value for key, value in self.items if key == Keyword(name)), None)


Edn = None | int | str | Keyword | Opaque | EdnMap | tuple["Edn", ...]  # a value


class EdnReader:
    """Reads EDN values: None for nil, int, str, Keyword, Opaque, EdnMap, and tuples for vectors and
    lists. Raises ImportRefusedError, with the line, for what isn't EDN."""

    def __init__(self, text: str, at: int = 0, line: int = 1) -> None:
        """Reads on from that place of the text, which is on that line."""
        self._text = text
        self._at = at
        self._line, self._counted = line, at  # the line of the place up to which lines were counted

    def forms(self) -> Iterator[tuple[int, Edn]]:
        """The top-level forms, each with the line on which it begins."""
        while not self.is_over():
            line = self.line()
            for form in self.form():
                yield line, form

    def form(self) -> list[Edn]:
        """The next form, in a list; an empty list if it was discarded by `#_`."""
        return self._form(0)

    def sign(self) -> str:
        """The first character of the next form, once `is_over` has skipped what is before it."""
        return self._text[self._at]

    def skip(self, count: int) -> None:
        """Passes so many characters over."""
        self._at += count

    def ends_line(self) -> bool:
        """Whether only spaces are left on this line. Then it goes on to the next one."""
        match = REST_OF_LINE.match(self._text, self._at)
        if match:
            self._at = match.end()
        return match is not None

    def place(self) -> tuple[int, int]:
        """How far it has read, and on which line that is."""
        return self._at, self.line()

    def is_over(self) -> bool:
        """Whether no form is left. Skips the spaces and comments before the next one."""
        self._at = self._end_of(SPACE)
        return self._at >= len(self._text)

    def _end_of(self, pattern: "re.Pattern[str]") -> int:
        match = pattern.match(self._text, self._at)
        return match.end() if match else self._at

    def line(self) -> int:
        """The line of the next form, once `is_over` has skipped what is before it."""
        self._line += self._text.count("\n", self._counted, self._at)
        self._counted = self._at
        return self._line

    def _refused(self, why: str) -> ImportRefusedError:
        return ImportRefusedError(self.line(), why)

    def _form(self, depth: int) -> list[Edn]:
        """The next form, in a list; an empty list if `#_` discards it."""
        if depth > DEEPEST:
            raise self._refused(f"forms are nested more than {DEEPEST} deep")
        if self.is_over():
            raise self._refused("the file ends within a form")
        start = self._text[self._at]
        if start in CLOSING:
            return [self._collection(start, depth)]
        if start == '"':
            return [self._string()]
        if start == "\\":
            return [Opaque(self._taken(CHARACTER, "a character"))]
        if start == "#":
            return self._dispatched(depth)
        if start in ")]}":
            raise self._refused(f"{start} has no opening bracket")
        return [scalar_of(self._taken(TOKEN, "a word"))]

    def _taken(self, pattern: "re.Pattern[str]", what: str) -> str:
        end = self._end_of(pattern)
        if end == self._at:
            raise self._refused(f"{what} is missing")
        start, self._at = self._at, end
        return self._text[start:end]

    def _string(self) -> str:
        match = TEXT.match(self._text, self._at)
        if not match:
            raise self._refused("the string isn't closed")
        for escape in ESCAPE.finditer(match[1]):
            if escape[2] and escape[2] not in ESCAPED:
                raise self._refused(f"\\{escape[2]} isn't an escape in a string")
        self._at = match.end()
        return ESCAPE.sub(
            lambda escape: chr(int(escape[1], 16)) if escape[1] else ESCAPED[escape[2]], match[1]
        )

    def _dispatched(self, depth: int) -> list[Edn]:
        """A form that begins with `#`: a set, something discarded, or a tag and its value. A tagged
        map counts as the map."""
        start = self._at
        self._at += 1
        if self._text.startswith("{", self._at):
            self._many("{", depth)
            return [Opaque(self._text[start : self._at])]
        if self._text.startswith("_", self._at):
            self._at += 1
            while not self._form(depth + 1):
                pass
            return []
        tag = self._taken(TOKEN, "a tag")
        if not tag[0].isalpha():
            raise self._refused(f"#{tag} isn't a tag")
        forms: list[Edn] = []
        while not forms:
            forms = self._form(depth + 1)
        return forms if isinstance(forms[0], EdnMap) else [Opaque(self._text[start : self._at])]

    def _many(self, opening: str, depth: int) -> list[Edn]:
        line = self.line()
        self._at += 1
        forms: list[Edn] = []
        while True:
            if self.is_over():
                raise ImportRefusedError(line, f"the {opening} here isn't closed")
            if self._text[self._at] == CLOSING[opening]:
                self._at += 1
                return forms
            forms += self._form(depth + 1)

    def _collection(self, opening: str, depth: int) -> Edn:
        line = self.line()
        forms = self._many(opening, depth)
        if opening != "{":
            return tuple(forms)
        if len(forms) % 2:
            raise ImportRefusedError(line, "a map has a key without a value")
        items: dict[Edn, Edn] = {}
        for key, value in zip(forms[::2], forms[1::2]):
            if key in items:
                raise ImportRefusedError(line, "a map has a key twice")
            items[key] = value
        return EdnMap(line, tuple(items.items()))


def scalar_of(text: str) -> Edn:
    """The value of a word without delimiters."""
    if text == "nil":
        return None
    if text[0] == ":" and len(text) > 1:
        return Keyword(text[1:])
    if WHOLE.fullmatch(text):
        return int(text.rstrip("N"))
    return Opaque(text)
