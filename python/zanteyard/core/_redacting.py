"""Removes an application's data from its statements and values. Keys and the form of each statement
stay."""

import re

from ._records import Logged, as_bytes, unpacked

GONE = "?"
# Quoted identifiers and names come first, so that digits in them aren't taken for numbers.
TOKENS = re.compile(
    r"""
    (?P<name> "(?:[^"]|"")*" | \$\d+ | (?! [eEbBxXnN]' | [uU]&' ) [^\W\d]\w* | [:%]\w* )
  | (?P<comment> --[^\n]* | /\*.*?(?:\*/|\Z) )
  | (?P<dollar> \$(?P<tag>[A-Za-z_]*)\$.*?(?:\$(?P=tag)\$|\Z) )
  | (?P<escaped> [eE]'(?:[^'\\]|\\.|'')*(?:'|\Z) )
  | (?P<text> (?:[bBxXnN]|[uU]&)?'(?:[^']|'')*(?:'|\Z) )
  | (?P<number> (?:\d[\d_]*(?:\.[\d_]*)?|\.\d[\d_]*)(?:[eE][+-]?\d+)?\w* )
  | (?P<sign> [=;] )
    """,
    re.VERBOSE | re.DOTALL,
)


def without_constants(statement: str) -> str:
    """The statement with a question mark for each constant, and without comments. A quoted text
    without an end extends to the end of the statement."""
    settings = Settings()

    def one(found: "re.Match[str]") -> str:
        if found["name"] is not None or found["sign"] is not None:
            return GONE if settings.is_value(found[0]) else found[0]
        return "" if found["comment"] is not None else GONE

    return TOKENS.sub(one, statement).strip()


class Settings:
    """Finds values that are written as words, with or without quotes: SET a.b TO secret,
    ALTER ROLE r SET a.b = "secret", CREATE FUNCTION .. SET a.b TO secret."""

    def __init__(self) -> None:
        self._begin()

    def _begin(self) -> None:
        self._is_within = False  # a statement, after its first word
        self._may_set = self._sets = self._has_begun = False

    def is_value(self, token: str) -> bool:
        """Whether the next name, `=` or `;` of the statement is, or belongs to, such a value."""
        word = token.lower()
        if word == ";":
            self._begin()
        elif self._has_begun:
            return word != "="
        elif self._sets and word in ("=", "to", "zone"):  # as in SET TIME ZONE
            self._has_begun = True
        elif word != "=":
            self._may_set |= not self._is_within and word in ("set", "alter", "create")
            self._sets |= self._may_set and word == "set"
            self._is_within = True
        return False


def redacted(logged: Logged) -> Logged:
    """The same transaction without values, and with no constants in its statements."""
    statements = tuple((deed, without_constants(text)) for deed, text in logged.statements)
    return logged._replace(statements=statements, values=())


def redacted_bytes(packed: bytes) -> bytes:
    """As `redacted`, for a packed transaction."""
    return as_bytes(redacted(unpacked(packed)))
