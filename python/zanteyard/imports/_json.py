"""A strict reader of JSON, which keeps the line of each element of an array."""

import json
import re
from collections.abc import Iterator
from typing import NoReturn

from ..core.errors import ImportRefusedError

SPACE = re.compile(r"[ \t\r\n]*")


def _object(pairs: list[tuple[str, object]]) -> dict[str, object]:
    whole = dict(pairs)
    if len(whole) != len(pairs):
        raise ValueError("an object has the same name twice")
    return whole


def _refuse(text: str) -> NoReturn:
    raise ValueError(f"{text} isn't JSON")


DECODER = json.JSONDecoder(object_pairs_hook=_object, parse_constant=_refuse)


class JsonReader:
    """Reads the values of a text, each with the line on which it begins, from 1. Raises
    ImportRefusedError, with the line, for what isn't JSON."""

    def __init__(self, text: str, at: int = 0, line: int = 1) -> None:
        """Reads on from that place of the text, which is on that line."""
        self._text = text
        self._at = at
        self._line, self._counted = line, at  # the line of the place up to which lines were counted

    def elements(self) -> Iterator[tuple[int, object]]:
        """The elements of the text's array; or, if it is none, its values, one after another."""
        self._skip()
        if not self._text.startswith("[", self._at):
            while self._at < len(self._text):
                yield self.value()
            return
        self._at += 1
        self._skip()
        is_first = True
        while not self._text.startswith("]", self._at):
            if not is_first:
                self._take(",")
            is_first = False
            yield self.value()
        self._take("]")
        if self._at < len(self._text):
            raise self._refused("text after the array")

    def is_over(self) -> bool:
        """Whether no value is left. Skips the spaces before the next one."""
        self._skip()
        return self._at >= len(self._text)

    def place(self) -> tuple[int, int]:
        """How far it has read, and on which line that is."""
        return self._at, self._line_here()

    def value(self) -> tuple[int, object]:
        """The next value."""
        self._skip()
        line = self._line_here()
        try:
            parsed: object
            parsed, self._at = DECODER.raw_decode(self._text, self._at)
        except (ValueError, RecursionError) as error:
            at = getattr(error, "pos", self._at)
            why = getattr(error, "msg", str(error))
            raise ImportRefusedError(
                self._text.count("\n", 0, at) + 1, f"this is no JSON: {why}"
            ) from error
        self._skip()
        return line, parsed

    def _take(self, sign: str) -> None:
        if not self._text.startswith(sign, self._at):
            raise self._refused(f"{sign} is missing")
        self._at += 1
        self._skip()

    def _skip(self) -> None:
        match = SPACE.match(self._text, self._at)
        assert match is not None
        self._at = match.end()

    def _line_here(self) -> int:
        self._line += self._text.count("\n", self._counted, self._at)
        self._counted = self._at
        return self._line

    def _refused(self, why: str) -> ImportRefusedError:
        return ImportRefusedError(self._line_here(), f"this is no JSON: {why}")
