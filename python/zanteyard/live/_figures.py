"""Counters of a live run, over all of its audits."""

from dataclasses import dataclass, field


@dataclass
class Figures:
    """Counters over all audits of a run."""

    rounds: int = 0
    cuts: int = 0
    lag: float = 0.0  # the longest that a transaction waited to be taken in, in seconds
    told_behind: float = 0.0  # the same between the last two rounds
    told_at: float = 0.0  # time of the last round, by the monotonic clock
    cut_at: float = 0.0  # the same for the last cut, or the beginning
    kinds: dict[str, int] = field(default_factory=dict)  # rounds of each verdict
    # For each session, how many reads of its transactions were pending in the last round; only if
    # somebody asks for it.
    awaited: dict[int, int] | None = None
