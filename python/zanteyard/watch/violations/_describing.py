"""Asks the proxy to describe the transactions of a violation."""

import logging
import threading
from collections.abc import Callable, Sequence

from ...core._records import AuditId
from ._described import Described
from ._violations import Answered, Row

AT_ONCE = 256  # transactions in one command, so that neither side holds much at a time
logger = logging.getLogger("zanteyard")


class Describing:
    """Asks for these transactions, some at a time, and for the next ones after each answer. `go_on`
    and `put` are for one thread, and `take` is for another one. `ask` sends a command, and returns
    whether it could."""

    def __init__(
        self, ids: Sequence[AuditId], ask: Callable[[Sequence[AuditId]], bool]
    ) -> None:
        self._left = [ids[at : at + AT_ONCE] for at in range(0, len(ids), AT_ONCE)]
        self._ask = ask
        self._transactions: dict[AuditId, Described] = {}
        self._keys: dict[int, Row] = {}
        self._change = threading.Condition()
        self._answers = 0
        self.is_open = True  # an answer is awaited

    def go_on(self) -> None:
        """Asks for the next ones, if there are any."""
        if not self._left or not self._ask(self._left.pop(0)):
            self.close()

    def put(self, answered: Answered) -> None:
        """Takes an answer, and asks for the next ones."""
        with self._change:
            if not self.is_open:
                return
            self._transactions.update(answered.transactions)
            self._keys.update(answered.keys)
            self._answers += 1
            self._change.notify_all()
        self.go_on()

    def close(self) -> None:
        """Awaits no more answers."""
        with self._change:
            self.is_open = False
            self._change.notify_all()

    def take(self, seconds: float) -> Answered:
        """Everything that the proxy described, once no more answers are awaited. Waits at most this
        many seconds for each of them."""
        with self._change:
            while self.is_open:
                before = self._answers
                if not self._change.wait_for(lambda: self._has_news(before), seconds):
                    logger.warning("the proxy didn't describe a violation's transactions in time")
                    self.is_open = False
            return Answered(self._transactions, self._keys)

    def _has_news(self, before: int) -> bool:
        return not self.is_open or self._answers > before
