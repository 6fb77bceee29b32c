"""Which promises a violation breaks and which it leaves standing; and further violations of a
history that are independent of the first."""

import time
from collections.abc import Iterator, Sequence
from dataclasses import dataclass

from ..core._records import History, Logged, ShownId
from ..core._verdict_kinds import Kind
from ..core.errors import CantBeAskedError, ZanteyardError
from ..promises._kinds import ALL, SERIALIZABLE, WITHOUT_SESSIONS, Promise, stronger, weaker
from ._arcs import table
from ._audited import audited
from ._shrinking import SECONDS, Part, smaller

FEW = 64  # transactions of a violation whose promises are checked, at most


@dataclass(frozen=True)
class Standing:
    """The promises that a violation breaks and keeps, in the order of ALL. Undecided ones are in
    neither."""

    broken: Sequence[Promise] = ()
    kept: Sequence[Promise] = ()
    late: Sequence[Promise] = ()  # there was no time for these
    many: int = 0  # the number of transactions, if there were too many to check

    def lines(self) -> Iterator[str]:
        """What it breaks, and the strongest of what it leaves standing."""
        if self.broken:
            pairs = [each for each in WITHOUT_SESSIONS if each in self.broken]
            are_both = all(WITHOUT_SESSIONS[each] in self.broken for each in pairs)
            others = WITHOUT_SESSIONS.values() if pairs and are_both else ()
            told = listed([each for each in self.broken if each not in others])
            yield f"breaks {told}{', also without session order' if others else ''}"
        implied = {each for promise in self.kept for each in weaker(promise)}
        strongest = [each for each in self.kept if each not in implied]
        if strongest:
            yield f"leaves {listed(strongest)} standing"
        if self.late:
            yield f"(there was no time to ask about {listed(self.late)})"
        if self.many:
            yield (
                f"(which promises it breaks wasn't asked: it has {self.many:,} transactions, and "
                f"at most {FEW} are asked about)"
            )


def listed(promises: Sequence[Promise]) -> str:
    """A list as in "a, b and c"."""
    titles = [promise.title for promise in promises]
    return " and ".join([", ".join(titles[:-1]), titles[-1]] if titles[1:] else titles)


def standing(
    small: History, program: str, promise: Promise = SERIALIZABLE, seconds: float = SECONDS
) -> Standing:
    """What a small history that breaks this promise breaks and keeps. Promises about time are
    checked if it has times."""
    count = len(Part.of(small).txns)
    if count > FEW:
        return Standing(many=count)
    ends = time.monotonic() + seconds
    has_times = any(logged.span for txns in small for logged in txns)
    asked = [each for each in ALL if has_times or not each.is_timed]
    decided: dict[Promise, bool] = {promise: False}
    decided.update((each, False) for each in stronger(promise))
    late = []
    for each in asked:
        if each in decided:
            continue
        if time.monotonic() > ends:
            late.append(each)
            continue
        is_kept = _keeps(small, program, each)
        if is_kept is not None:
            decided[each] = is_kept
            decided.update((other, is_kept) for other in _following(each, is_kept))
    broken = [each for each in asked if decided.get(each) is False]
    late = [each for each in late if each not in decided]
    return Standing(broken, [each for each in asked if decided.get(each)], late)


def by_reads(promise: Promise, its: Standing) -> Promise:
    """Which promise to explain the violation by: the same without session order if that is broken,
    too. Then reads alone show the violation."""
    other = WITHOUT_SESSIONS.get(promise, promise)
    return other if other in its.broken else promise


def _following(promise: Promise, is_kept: bool) -> Sequence[Promise]:
    return weaker(promise) if is_kept else stronger(promise)


def _keeps(small: History, program: str, promise: Promise) -> bool | None:
    """Whether the promise is kept; None if that can't be checked, or isn't decided."""
    try:
        kind = audited(small, program, promise)[0].kind
    except CantBeAskedError:
        return None
    except ZanteyardError:  # the verdict was reported before, and doesn't depend on this
        return None
    if kind == Kind.VIOLATED:
        return False
    return True if kind in (Kind.SERIAL, Kind.PENDING) else None


class Apart:
    """Finds violations of a history that share no reader with those found before."""

    def __init__(self, history: History, program: str, promise: Promise = SERIALIZABLE) -> None:
        self._sessions, self._program = len(history), program
        self._part = Part.of(history, promise)
        self.are_all_found = False

    def others(self, first: History, seconds: float = SECONDS) -> Iterator[History]:
        """Violations other than the first, each reduced as far as possible; as many as are found
        within this many seconds. Afterwards `are_all_found` tells whether there are no more."""
        ends, small, took = time.monotonic() + seconds, first, 0.0
        while True:
            began = time.monotonic()
            left = self._without(small)
            if left is None or began + took > ends:  # the next one will take as long as the last
                return
            self._part = left
            refuted = left.refuted(self._program)
            took = time.monotonic() - began
            if refuted is None:
                self.are_all_found = True
                return
            whole, promise = left.history(self._sessions), left.promise
            rest = max(0.0, ends - time.monotonic())
            small = smaller(whole, self._program, rest, refuted.ids, promise)
            yield small

    def _without(self, small: History) -> Part | None:
        """The rest of the history without the reads of this violation's readers; None if it has no
        readers in it."""
        readers: set[ShownId] = {id for id, logged in table(small).items() if logged.reads}
        if not readers & self._part.txns.keys():
            return None
        txns: dict[ShownId, Logged] = {
            id: logged._replace(reads=()) if id in readers else logged
            for id, logged in self._part.txns.items()
        }
        return Part(txns, self._part.promise)
