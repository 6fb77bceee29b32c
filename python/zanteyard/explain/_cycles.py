"""The kinds of a refutation's cycles, by Adya's definitions.

An arc that was forced is the order of two writers, or an anti-dependency, only if versions have the
order that it says. If they have the other one, what ruled that out is a cycle: through the reader,
or through the two writers. So a refutation shows, for each order of versions, one of its cycles,
and it shows no more than the weakest of them.
"""

from collections.abc import Iterable, Mapping, Sequence

from ._arcs import Arc, ArcKind, below, is_of_writers

DIRTY_WRITE, FLOW = "dirty write", "circular information flow"
SINGLE, NONADJACENT, G2 = "G-single", "G-nonadjacent", "G2"
# How weak a cycle is. Each promise that excludes one of these excludes those of less, too. What
# excludes the first two, excludes both.
WEAKNESS: Mapping[str, int] = {DIRTY_WRITE: 0, FLOW: 0, SINGLE: 1, NONADJACENT: 2, G2: 3}


def kind_of(cycle: Sequence[Arc]) -> str:
    """The name of a cycle by the kinds of its arcs."""
    kinds = [arc.kind for arc in cycle]
    count = kinds.count(ArcKind.READ_BEFORE)
    if not count:
        return FLOW if ArcKind.READ in kinds else DIRTY_WRITE
    if count == 1:
        return SINGLE
    pairs = zip(kinds, [*kinds[1:], kinds[0]])
    are_next = any(first == second == ArcKind.READ_BEFORE for first, second in pairs)
    return G2 if are_next else NONADJACENT


def ruled_out(arc: Arc) -> list[Arc]:
    """The cycle that rules out the other side of a forced arc's choice."""
    assert arc.choice is not None
    first, second = arc.choice.sides()
    if arc.ends == second:
        ends, kind = first, ArcKind.WRITTEN
    else:
        ends, kind = second, ArcKind.WRITTEN if is_of_writers(arc.choice) else ArcKind.READ_BEFORE
    return [Arc(*ends, "", (), kind, arc.choice.key, arc.choice), *arc.needs]


def weakness(cycle: Sequence[Arc]) -> int:
    return WEAKNESS[kind_of(cycle)]


def weakest(cycle: Sequence[Arc]) -> Sequence[Arc]:
    """The weakest of the cycle and of those that its forced arcs follow from; the cycle itself if
    none is weaker."""
    others = (ruled_out(arc) for arc in below(cycle) if arc.needs)
    return max([cycle, *others], key=weakness)


def steps_to(arc: Arc, wanted: int) -> int:
    """How many arcs, each of which follows from the next, lead from a forced arc to one that a
    cycle of this weakness rules out the opposite of; -1 if none does."""
    steps, at, seen = 0, [arc], {arc.ends}
    while at:
        if any(weakness(ruled_out(one)) == wanted for one in at):
            return steps
        found = {need.ends: need for one in at for need in one.needs if need.needs}
        steps, at = steps + 1, [need for ends, need in found.items() if ends not in seen]
        seen |= {*found}
    return -1


def places_to(cycle: Sequence[Arc]) -> list[int]:
    """The places in the cycle of the forced arcs that its weakest cycle stands behind, the nearest
    first, without those that the rest of the cycle follows from."""
    wanted = weakness(weakest(cycle))
    if weakness(cycle) == wanted:
        return []
    places: list[tuple[int, int]] = []
    for at, arc in enumerate(cycle):
        steps = steps_to(arc, wanted) if arc.needs else -1
        if steps >= 0 and not _is_below(arc, [*cycle[:at], *cycle[at + 1 :]]):
            places.append((steps, at))
    return [at for _, at in sorted(places)]


def _is_below(arc: Arc, others: Iterable[Arc]) -> bool:
    return any(one.ends == arc.ends for one in below(others))
