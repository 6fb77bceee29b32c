"""Finds the statement of a transaction that made each of the reads behind a violation."""

from collections.abc import Callable, Mapping, Sequence

from ...core._records import AuditId, Read, Source
from ._described import Described


def by_statement(
    its: Described | None,
    reads: Sequence[Read],
    raw: Sequence[Read],
    shown: Callable[[str, Source], Source],
    key_text: Callable[[int], str],
) -> tuple[tuple[Read, ...], ...]:
    """For each statement of a transaction, the ones of these reads that it made. `raw` are all
    reads of the transaction, and `shown` gives the writer of each as in `reads`. What isn't certain
    is left out: a read that may stand for two, and one that no statement or several made."""
    statements = its.statements if its is not None else ()
    made = [{(key_text(number), source) for number, source in one.reads} for one in statements]
    found: list[list[Read]] = [[] for _ in statements]
    for key, source in reads:
        meant = [one for one in raw if one[0] == key and shown(*one) == source]
        makers = [at for at, its_reads in enumerate(made) if meant and meant[0] in its_reads]
        if len(meant) == len(makers) == 1:
            found[makers[0]].append((key, source))
    return tuple(map(tuple, found))


def as_shown(
    places: Mapping[AuditId, Source], gone: Source | None, base: Mapping[str, AuditId]
) -> Callable[[str, Source], Source]:
    """The name that `from_start`, and then `compact`, give to a read's writer. `places` has what
    remains, and `gone` is what stands for everything that was forgotten."""

    def shown(key: str, source: Source) -> Source:
        if source == "init":
            return source
        there = places.get(AuditId(source))
        if there is not None:
            return there
        return gone if gone is not None and base.get(key) == source else "init"

    return shown
