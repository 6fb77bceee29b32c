"""Real-time order in a recording: when each transaction began and ended, and the pauses, moments at
which nothing that is offered was in flight. What ended before a pause comes before what began after
it."""

from collections.abc import Mapping, Sequence

from ..core._records import AuditId
from ..core.errors import ImportRefusedError
from ..scripts._times import ScriptTimes
from ..promises._asking import MOST
from ._recording import NEVER, Attempt, Recording
from ._sources import Reads

EVERY = MOST // 8  # transactions between two pauses, at least


def check_times(recording: Recording) -> None:
    """Raises ImportRefusedError if the recording doesn't say what ended before what began."""
    if not recording.has_times:
        raise ImportRefusedError(0, f"{recording.form} records no times, which --strict needs")
    if recording.time_goes_back:
        raise ImportRefusedError(
            recording.time_goes_back,
            "the time goes backwards here: --strict needs lines in the order of time",
        )


def times_of(recording: Recording, ids: Mapping[int, AuditId]) -> ScriptTimes:
    """When these attempts began and ended: in nanoseconds if that is known of all, otherwise as
    places in the file."""
    attempts = {id: recording.attempts[at] for at, id in ids.items()}
    are_told = all(
        attempt.began_at is not None and (attempt.ended_at is not None or attempt.ended == NEVER)
        for attempt in attempts.values()
    )
    if are_told:
        told = {id: (attempt.began_at or 0, attempt.ended_at) for id, attempt in attempts.items()}
        return ScriptTimes("ns", told)
    places = {
        id: (attempt.began, None if attempt.ended == NEVER else attempt.ended)
        for id, attempt in attempts.items()
    }
    return ScriptTimes("places", places)


class Times:
    """When the offered transactions began, and by when they had taken effect, as places in the
    file."""

    def __init__(self, attempts: Sequence[Attempt], of: Mapping[int, Reads]) -> None:
        self.began = {at: attempts[at].began for at in of}
        self.ended = {at: attempts[at].ended for at in of}
        self._bound(of)

    def _bound(self, of: Mapping[int, Reads]) -> None:
        """Bounds the ends: a source had taken effect before its reader did, so an attempt of
        unknown outcome had taken effect by the end of each attempt that read from it."""
        readers: dict[int, list[int]] = {}
        for at, reads in of.items():
            for _, origin in reads:
                if isinstance(origin, int) and origin in of:
                    readers.setdefault(origin, []).append(at)
        waiting = [*of]
        while waiting:
            at = waiting.pop()
            soonest = min(
                (self.ended[reader] for reader in readers.get(at, ())), default=self.ended[at]
            )
            if soonest < self.ended[at]:
                self.ended[at] = soonest
                waiting += [origin for _, origin in of[at]
                            if isinstance(origin, int) and origin in of]

    def pauses(self, every: int = EVERY) -> list[int]:
        """Places at which nothing is in flight: each transaction ended before, or began there or
        later. At least `every` transactions are between two of them."""
        places: list[int] = []
        latest, count = 0, 0
        for began, at in sorted((began, at) for at, began in self.began.items()):
            if began > latest and count >= every:
                places.append(began)
                count = 0
            latest = max(latest, self.ended[at])
            count += 1
        return places


def part_of(place: int, pauses: Sequence[int]) -> int:
    """The number of pauses at or before this place."""
    return sum(place >= pause for pause in pauses)
