"""Which transactions of each session an audit covers, if it began while clients were running.

What was answered before the audit began is the state that it begins with: no version written later
can come before it. What was in flight at that moment may come before or after any of it, so reads
from it are left out. What was sent to the store later is audited, with numbers that count from
there.
"""

from dataclasses import dataclass, field
from typing import Any

from ..core._own_keys import is_own
from ..core._records import Logged, Source

SESSIONS = 64  # sessions that a live audit has at a time
SKIPPED = 1 << 32  # numbers that a process may have used unseen before it ended without notice


@dataclass
class Coverage:
    """The part of each session that an audit covers, for the sessions that existed when it began.
    All transactions with numbers below `early` had been answered. Those from `first` on are audited
    (None: none of them), up to `last` (None: no end). `unknown` are ranges of earlier numbers, each
    from a first one to before a second one, that the store may have committed or may still commit.
    A read from one of these is neither from the first state nor from anything that is audited.
    Sessions that join later are audited completely."""

    early: list[int]
    first: list[int | None]
    last: list[int | None] = field(default_factory=list)
    unknown: list[tuple[tuple[int, int], ...]] = field(default_factory=list)

    def __post_init__(self) -> None:
        self.last = self.last or [None] * len(self.early)
        self.unknown = self.unknown or [()] * len(self.early)

    @classmethod
    def of_all(cls, sessions: int) -> "Coverage":
        return cls([0] * sessions, [0] * sessions)

    def number(self, session: int, number: int) -> int | None:
        """The transaction's number in the audit; None if it isn't audited."""
        if session >= len(self.early):
            return number  # it joined later
        first, last = self.first[session], self.last[session]
        if first is None or number < first or (last is not None and number > last):
            return None
        return number - first

    def number_there(self, session: int, number: int) -> int | None:
        """The number in the store of the transaction with this number in the audit; None if the
        session isn't audited."""
        first = self.first[session] if session < len(self.early) else 0
        return None if first is None else first + number

    def source(self, session: int, number: int) -> Source | None:
        """The source of a read of this transaction's write, as the audit sees it: (session, number)
        or "init". None if that is unknown, so that the read has to be left out."""
        if session >= max(SESSIONS, len(self.early)):
            return None  # a session without an audit: there were more clients than sessions
        audited = self.number(session, number)
        if audited is not None:
            return (session, audited)
        is_unknown = any(start <= number < end for start, end in self.unknown[session])
        return "init" if number < self.early[session] and not is_unknown else None

    def _with_tried(self, logged: Logged) -> Logged:
        if not logged.tried_reads:
            return logged
        moved = {
            (key, source if isinstance(source, str) else self.source(*source))
            for key, source in logged.tried_reads
        }
        return logged._replace(
            tried_reads=sorted((read for read in moved if read[1] is not None), key=repr)
        )

    def moved(self, logged: Logged) -> tuple[Logged, int]:
        """What was logged, in the audit's numbering, and how many of its reads were left out. Reads
        of an aborted attempt have no effect and aren't counted. A version that was answered before
        the audit began counts as read from before it."""
        logged = self._with_tried(logged)
        reads = [
            (key, source if isinstance(source, str) else self.source(*source))
            for key, source in logged.reads
        ]
        kept = [(key, source) for key, source in reads if source is not None]
        if kept == list(logged.reads):
            return logged, 0
        new: dict[Any, Any] = dict(zip(logged.reads, reads))
        earlier = sum(
            now == "init" != was and not is_own(key)
            for (key, was), (_, now) in zip(logged.reads, reads)
        )
        statements = [
            (new.get(deed, deed), statement)
            for deed, statement in logged.statements
            if new.get(deed, deed)[-1] is not None
        ]
        kept = sorted(set(kept), key=repr)
        more = {"statements": tuple(statements), "from_before": logged.from_before + earlier}
        return logged._replace(reads=kept, **more), len(reads) - len(kept)
