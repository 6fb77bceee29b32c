"""How often a live audit has rounds and meetings."""

from dataclasses import dataclass

PATIENT = 30  # factor by which a meeting waits longer if the next one may be too late


@dataclass
class Pace:
    """The settings of the same names in `LiveAuditor`."""

    every: int
    seconds: float
    idle: float
    patience: float

    @property
    def soon(self) -> int:
        """How many transactions may come before the next meeting if one fails."""
        return max(1, self.every // 4)

    def until_meeting(self, has_failed: bool) -> int:
        """How many transactions may come before the next meeting, depending on whether the last one
        failed."""
        return self.soon if has_failed else self.every

    def patience_of(self, is_last: bool) -> float:
        """How many seconds a meeting waits: longer if the next one may be too late."""
        return PATIENT * self.patience if is_last else self.patience
