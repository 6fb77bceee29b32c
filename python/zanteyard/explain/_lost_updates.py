"""Lost updates: pairs of transactions that read one version of a key, and both replaced it."""

from collections.abc import Container, Iterable, Iterator
from typing import Generic, NamedTuple, TypeVar

Id = TypeVar("Id")
Key = TypeVar("Key")
Version = TypeVar("Version")


class LostUpdate(NamedTuple, Generic[Id, Key, Version]):
    """Two transactions that read the same version of a key and both replaced it."""

    key: Key
    version: Version
    one: Id
    other: Id


def lost_updates(
    every: Iterable[tuple[Id, Iterable[tuple[Key, Version]], Container[Key]]]
) -> Iterator[LostUpdate[Id, Key, Version]]:
    """The pairs among transactions, each with its reads and with the keys that it wrote, in the
    order given. The first one of a pair is the first that replaced the version."""
    first: dict[tuple[Key, Version], Id] = {}
    for id, reads, written in every:
        for key, version in reads:
            if key in written:
                one = first.setdefault((key, version), id)
                if one != id:
                    yield LostUpdate(key, version, one, id)
