"""What a live audit reports as it goes on: values for its callers, and lines in the log."""

import logging
from collections.abc import Callable
from typing import Any, NamedTuple

from ..core._records import Cut, Report

logger = logging.getLogger("zanteyard")
Tell = Callable[[str], object]


class RoundTold(NamedTuple):
    """A round and its result: it covered `transactions`, which arrived at `rate` per second, and
    one of which waited up to `behind` seconds to be taken in. `remaining` transactions aren't
    forgotten after it. If there was no cut, `no_cut` says why, unless the verdict is the reason."""

    report: Report
    transactions: int
    rate: float
    behind: float
    remaining: int
    cut: Cut | None
    no_cut: str = ""

    def __str__(self) -> str:
        return (
            f"round {self.report.number}: {self.report.kind}; {self.transactions} transactions, "
            f"{self.rate:.0f} a second, {self.behind:.2f} s behind; {self.remaining} remain; "
            f"{self._what_is_forgotten()}"
        )

    def _what_is_forgotten(self) -> str:
        if self.cut is None:
            return f"no cut: {self.no_cut}" if self.no_cut else "no cut"
        (session, number), gone = self.cut
        return f"cut at {session}.{number}: {gone} forgotten"


class ClientTold(NamedTuple):
    """A client's first transaction: with it a session joins, goes on, or begins."""

    client: int
    session: int
    number: int
    joins: bool

    def __str__(self) -> str:
        how = "joins as" if self.joins else "continues in" if self.number else "begins"
        return (
            f"client {self.client} {how} session {self.session}, first with "
            f"{self.session}.{self.number}"
        )


class Teller:
    """Reports; for the auditor's thread. An exception of a caller's function is logged once, and
    has no other effect."""

    def __init__(
        self,
        tell: Tell | None = None,
        on_round: Callable[[RoundTold], object] | None = None,
        on_client: Callable[[ClientTold], object] | None = None,
    ) -> None:
        self._lines, self._rounds, self._clients = tell, on_round, on_client
        self._has_failed = False

    def line(self, line: str) -> None:
        logger.info("%s", line)
        self._call(self._lines, line)

    def round(self, told: RoundTold) -> None:
        self.line(str(told))
        self._call(self._rounds, told)

    def client(self, told: ClientTold) -> None:
        logger.info("%s", told)
        self._call(self._clients, told)

    def _call(self, function: Callable[[Any], object] | None, told: Any) -> None:
        if function is None:
            return
        try:
            function(told)
        except BaseException as error:  # only the audit would end with it in this thread
            if not self._has_failed:
                self._has_failed = True
                logger.error("can't report a round: %r", error)
