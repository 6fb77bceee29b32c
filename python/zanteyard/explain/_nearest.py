"""Which transactions of a history are near some of them."""

from bisect import bisect_left
from collections import Counter
from collections.abc import Iterable, Iterator, Mapping
from heapq import heapify, heappop, heappush

from ..core._records import Logged, ShownId


class Links:
    """A transaction is linked with the next ones in its session, with those that it read from, and
    with those that read from it."""

    def __init__(self, txns: Mapping[ShownId, Logged]) -> None:
        self._txns, self._sorted = txns, sorted(txns)
        self._readers: dict[ShownId, list[ShownId]] = {}
        for id, logged in txns.items():
            for _, source in logged.reads:
                if source in txns:
                    self._readers.setdefault(source, []).append(id)

    def _of(self, id: ShownId) -> Iterator[ShownId]:
        at, every = bisect_left(self._sorted, id), self._sorted
        for other in (*every[max(0, at - 1) : at], *every[at + 1 : at + 2]):
            if other[0] == id[0]:
                yield other
        yield from (source for _, source in self._txns[id].reads if source in self._txns)
        yield from self._readers.get(id, ())

    def nearest(self, ids: Iterable[ShownId], most: int) -> set[ShownId]:
        """These, and then one after another the one that has the most links with those taken
        before, until there are `most`."""
        kept: set[ShownId] = set()
        links = Counter({id: len(self._txns) for id in ids if id in self._txns})
        waiting = [(-count, id) for id, count in links.items()]
        heapify(waiting)
        while waiting and len(kept) < most:
            count, id = heappop(waiting)
            if id in kept or -count < links[id]:
                continue
            kept.add(id)
            for other in self._of(id):
                links[other] += 1
                heappush(waiting, (-links[other], other))
        return kept
