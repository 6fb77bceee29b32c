"""The collector's own transactions over a session's connection: fences, flags, marks, and a fence's
reads."""

import time
from collections.abc import Callable, Sequence
from typing import Any

from ..core._own_keys import FLAG, MARK
from ._attempts import attempted, join_behind
from ._store_calls import StoreCalls
from ._transaction import Transaction

SHORTEST = 0.001  # seconds that the store gets for a transaction


class OwnTransactions:
    """Transactions of the collector's own, run by whoever holds the session's turn. The store ends
    each of them within the given number of seconds."""

    calls: StoreCalls
    place: Any  # the session's Place

    @property
    def number(self) -> int | None:
        """The number of the auditor's session."""
        raise NotImplementedError

    def start(self, begin: Callable[..., None], holds: bool, *arguments: float) -> Transaction:
        """A transaction that the store begins by this call."""
        raise NotImplementedError

    def run_alone(
        self, body: Callable[[Transaction], object], seconds: float, attempts: int = 3
    ) -> None:
        """Runs a transaction of the collector's own. Raises what its last attempt raised."""
        ends = time.monotonic() + seconds

        def begin() -> Transaction:
            left = max(SHORTEST, ends - time.monotonic())
            return self.start(self.calls.begin_alone, False, left)

        attempted(begin, body, attempts, ends)

    def fence(self, seconds: float = 60.0) -> None:
        """Makes a fence, which reads from the last one."""
        self.run_alone(join_behind, seconds)

    def flag(self, seconds: float = 60.0) -> None:
        """Writes the session's flag: whoever reads it then comes after all that this session has
        done so far."""
        key = f"{FLAG}{self.number}"
        self.run_alone(lambda transaction: transaction.exchange(key, ""), seconds)
        self.place.is_due, self.place.has_flag = False, True

    def read_all(self, keys: Sequence[str], seconds: float = 60.0) -> None:
        """Reads these keys: their writers come before what the session does next."""
        self.run_alone(lambda transaction: transaction.get_all(keys), seconds)

    def write_mark(self, seconds: float = 60.0) -> None:
        """Writes the mark, which the other sessions read in place of a second fence."""
        self.run_alone(lambda transaction: transaction.exchange(MARK, ""), seconds)
        self.place.is_due = self.place.has_flag = False

    def read_mark(self, seconds: float = 60.0) -> None:
        """Reads the mark: the session comes after the fence before it."""
        self.run_alone(lambda transaction: transaction.get(MARK), seconds)
        self.place.is_due = self.place.has_flag = False
