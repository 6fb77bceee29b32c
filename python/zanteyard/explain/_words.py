"""Describes the transactions of a history."""

from collections.abc import Iterator
from typing import Any

from ..core._records import History, Logged, Naming, ShownId, Source

TOLD, FROM = 300, 150  # characters of a statement, at most, and of its end, which has its place


def name(id: tuple[int, int]) -> str:
    """The name of a transaction that has no other one, in any numbering."""
    return f"{id[0]}.{id[1]}"


def version(key: str, source: Source, name: Naming) -> str:
    """A phrase for the version of the key that was read."""
    if source != "init":
        return f"from {name(source)}"
    return getattr(name, "older", {}).get(key, "as it was at first")


def told_undone(reader: ShownId, key: str, source: ShownId, name: Naming) -> str:
    """A sentence about a read from an aborted attempt."""
    return f"of {key}, {name(reader)} read what {name(source)} wrote, which had aborted"


def deeds(logged: Logged, name: Naming) -> list[str]:
    """What a transaction did."""
    did_read, did_write = logged.did
    parts = [f"read {key} {version(key, source, name)}" for key, source in did_read]
    parts += [f"wrote {key}" for key in did_write]
    return [*parts, "aborted"] if logged.outcome == "aborted" else parts


def statements_of(logged: Logged) -> Iterator[str]:
    """Lines with the statements that the transaction ran, as far as they are known."""
    left: dict[Any, str] = dict(logged.statements)
    deeds_by_statement: dict[str, list[str]] = {}
    did_read, did_write = logged.did
    for deed in (*did_read, *((key,) for key in did_write)):
        if deed in left:
            did = ("wrote" if len(deed) == 1 else "read") + f" {deed[0]}"
            deeds_by_statement.setdefault(" ".join(left[deed].split()), []).append(did)
    for statement, deeds in deeds_by_statement.items():
        is_long = len(statement) > TOLD
        short = f"{statement[: TOLD - FROM]} .. {statement[-FROM:]}" if is_long else statement
        yield f"{', '.join(deeds)}: {short}"


def words(history: History, name: Naming = name) -> Iterator[str]:
    """A line for each transaction, followed by its statements."""
    for session, txns in enumerate(history):
        for number, logged in enumerate(txns):
            if deeds(logged, name):  # else it only keeps a number
                called = name(ShownId((session, number)))
                yield f"{called} {', '.join(deeds(logged, name))}"
                yield from (f"    {line}" for line in statements_of(logged))
