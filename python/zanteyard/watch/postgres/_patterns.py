"""Which tables to audit: patterns such as `public.*` and `shop.orders`, separated by commas, with
the same rules as in the proxy (proxy/src/zanteyard/catalog/filter.go)."""

import argparse
import re
from collections.abc import Iterable, Sequence
from dataclasses import dataclass

Name = tuple[str, str]  # schema and table, without quotes


@dataclass(frozen=True)
class TablePattern:
    """A pattern in which * stands for any characters. Without a schema it applies to every
    schema."""

    text: str
    schema: re.Pattern[str]
    table: re.Pattern[str]

    def means(self, name: Name) -> bool:
        return bool(self.schema.fullmatch(name[0]) and self.table.fullmatch(name[1]))


@dataclass(frozen=True)
class TablePatterns:
    """A list of patterns; `text` is the list as it was given."""

    text: str
    its: Sequence[TablePattern]

    def have(self, names: Iterable[Name]) -> bool:
        """Whether one of these names matches. A partition has its topmost table's name, too."""
        return any(pattern.means(name) for name in names for pattern in self.its)

    def idle(self, names: Sequence[Name]) -> list[str]:
        """The patterns that match none of these names."""
        return [it.text for it in self.its if not any(map(it.means, names))]


def table_patterns(text: str) -> TablePatterns:
    """The patterns in a text, for argparse."""
    return TablePatterns(text, [_pattern(one.strip()) for one in text.split(",")])


def _pattern(text: str) -> TablePattern:
    schema, dot, table = text.partition(".")
    if not dot:
        schema, table = "*", text
    if not schema or not table:
        raise argparse.ArgumentTypeError(
            f"{text!r} isn't a table name or pattern: use the form public.*, shop.orders"
        )
    return TablePattern(text, _regular(schema), _regular(table))


def _regular(text: str) -> re.Pattern[str]:
    return re.compile(".*".join(map(re.escape, text.split("*"))), re.DOTALL)


def add_tables_option(command: argparse.ArgumentParser, what: str) -> None:
    command.add_argument("--tables", type=table_patterns, metavar="LIST", help=what)
