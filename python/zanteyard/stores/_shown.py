"""Statements as they are shown: with the quotes of standard SQL, by which values are told from
names, and are taken out where they mustn't be shown (`core._redacting`)."""

import re

_PLAIN = re.compile(r"[\w:.@]*(?:-[\w:.@]+)*")
_QUOTED = re.compile(
    r"""
    (?P<comment> --[\s][^\n]* | --\Z | /\*.*?(?:\*/|\Z) )
  | \#(?P<line> [^\n]* )
  | '(?P<one> (?:[^'\\]|\\.|'')* )(?:'|\Z)
  | "(?P<two> (?:[^"\\]|\\.|"")* )(?:"|\Z)
  | `(?P<name> (?:[^`]|``)* )(?:`|\Z)
    """,
    re.VERBOSE | re.DOTALL,
)


def value_of(text: str) -> str:
    """A value."""
    return "'" + text.replace("'", "''") + "'"


def name_of(text: str) -> str:
    """A name, in quotes if it has characters that a name hasn't without them."""
    return text if _PLAIN.fullmatch(text) else '"' + text.replace('"', '""') + '"'


def standard(query: str) -> str:
    """A statement of MariaDB's, in which backslashes may escape quotes, texts may be in double
    quotes, names in backticks, and comments begin with a #."""

    def one(found: "re.Match[str]") -> str:
        if found["line"] is not None:
            return "--" + found["line"]
        if found["name"] is not None:
            return '"' + found["name"].replace("``", "`").replace('"', '""') + '"'
        for group, quote in (("one", "'"), ("two", '"')):
            if found[group] is not None:
                inner = found[group].replace(quote * 2, "\\" + quote)
                return value_of(re.sub(r"\\(['\"\\])", r"\1", inner))
        return found[0]

    return _QUOTED.sub(one, query)
