"""A session of the auditor, as its client or the pool keeps it."""

from dataclasses import dataclass

RANGES = 16  # ranges of numbers that a place keeps


@dataclass
class Place:
    """A session of the auditor, whoever uses it. `number` is its number, and `begun` counts its
    transactions. `is_due`: it had a transaction after its last flag or mark. `has_flag`: nobody has
    read its flag yet. `is_audited`: an audit covers it. `is_ended`: it has ended for this audit.
    `is_lent`: somebody else is running its flag. `unknown` are ranges of numbers, each from a first
    one to before a second one, that the store may or may not still commit. `must_join`: its client
    must first join by a fence. `client` is the client's number."""

    number: int
    begun: int = 0
    is_due: bool = False
    has_flag: bool = False
    is_audited: bool = True
    is_ended: bool = False
    is_lent: bool = False
    unknown: tuple[tuple[int, int], ...] = ()
    must_join: bool = False
    client: int = 0

    def leave_open(self, number: int) -> None:
        """Records that nobody knows what becomes of the transaction with this number."""
        ranges = (*self.unknown, (number, number + 1))
        self.unknown = ranges if len(ranges) <= RANGES else ((ranges[0][0], number + 1),)
