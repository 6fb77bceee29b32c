"""The state of an audit, written by one thread and read by others."""

import threading
import time
from collections import deque
from collections.abc import Mapping, Sequence
from dataclasses import replace
from typing import Any

from ...core._verdict_kinds import Kind
from ...explain._charts import RoundSeen
from ...promises._kinds import SERIALIZABLE, Promise
from ._feed import listed, number, seen_of, text, whole
from ._state import Ended, Seen, Status, added
from ..violations._groups import Groups
from ..violations._violations import Violation

ROUNDS = 180  # that are shown, the latest ones
VIOLATIONS = 20  # that are kept with their explanations: the first half, and the latest half
NOTES = 12


class Board:
    """The state of an audit; safe for use by several threads. Times are in seconds since 1970."""

    def __init__(
        self,
        title: str,
        origin: str = "",
        promise: Promise = SERIALIZABLE,
        at_least: float = 0.0,
        groups: Groups | None = None,
    ) -> None:
        self.groups = groups if groups is not None else Groups()
        now = time.time()
        self._turn = threading.Lock()
        self._status = Status(
            title, now, now, origin=origin, promise=promise, at_least=at_least
        )
        self._rounds: deque[RoundSeen] = deque(maxlen=ROUNDS)
        self._kinds: dict[str, int] = {}
        self._violations: list[Violation] = []
        self._notes: deque[str] = deque(maxlen=NOTES)
        self._met = 0.0  # what was answered by then the next round will cover

    def status(self) -> Status:
        """The whole current state."""
        with self._turn:
            return replace(
                self._status,
                now=time.time(),
                rounds=tuple(self._rounds),
                kinds=dict(self._kinds),
                violations=tuple(self._violations),
                notes=tuple(self._notes),
                groups=self.groups.listed(),
                ungrouped=self.groups.more,
            )

    def _note(self, **changes: Any) -> None:
        self._status = replace(self._status, **changes)

    def started(self, event: Mapping[str, object]) -> None:
        with self._turn:
            self._note(
                is_over=False,
                has_begun=True,
                database=text(event.get("database")),
                server=text(event.get("server")),
                subtransactions=text(event.get("subtransactions")),
            )
            self._notes.extend(text(it) for it in listed(event.get("warnings")))

    def earlier(self, event: Mapping[str, object]) -> None:
        """Notes what ended before this run, in a proxy that it took over."""
        with self._turn:
            unaudited, untold = whole(event.get("unaudited")), whole(event.get("untold"))
            self._note(unaudited_before=unaudited, untold_before=untold)

    def coverage(self, event: Mapping[str, object]) -> None:
        with self._turn:
            self._note(seen=seen_of(event))

    def met(self, event: Mapping[str, object]) -> None:
        took, status = number(event.get("milliseconds")), self._status
        with self._turn:
            self._met = number(event.get("at"))
            self._note(
                meetings=status.meetings + 1,
                meeting_ms=took,
                longest_meeting_ms=max(took, status.longest_meeting_ms),
                meetings_ms=status.meetings_ms + took,
                fences=whole(event.get("fences")),
            )

    def checks(self, event: Mapping[str, object]) -> None:
        """Notes that the next round is without a meeting, about what was reported by then."""
        with self._turn:
            self._met = number(event.get("at"))

    def round(self, kind: str, counts: Sequence[int], remaining: int) -> RoundSeen:
        """Notes a round that was reported just now."""
        now = time.time()
        with self._turn:
            status = self._status
            behind = max(0.0, now - self._met) if self._met else 0.0
            seen = RoundSeen(now - status.began, kind, remaining, behind, sum(counts))
            self._rounds.append(seen)
            self._kinds[kind] = self._kinds.get(kind, 0) + 1
            more = {"pending": (), "pending_count": 0} if kind != Kind.PENDING else {}
            self._note(
                kind=kind,
                rounds_count=status.rounds_count + 1,
                told_at=now,
                checked_until=self._met or now,
                behind=behind,
                remaining=remaining,
                **more,
            )
            return seen

    def finds(self, count: int) -> None:
        """Notes this many violations of the round that was reported last."""
        with self._turn:
            self._note(violations_count=self._status.violations_count + count)

    def sets_aside(self, reads: int, unseen: int) -> None:
        """Notes reads on which violations rest, and which aren't asked about any more; `unseen` of
        them weren't looked at by themselves."""
        with self._turn:
            status = self._status
            aside, more = status.reads_aside + reads, status.reads_unseen + unseen
            self._note(reads_aside=aside, reads_unseen=more)

    def waits(self, lines: Sequence[str], count: int) -> None:
        """Notes the reads that wait after the last round."""
        with self._turn:
            self._note(pending=tuple(lines), pending_count=count)

    def cut(self, gone: int, remaining: int) -> None:
        with self._turn:
            forgotten = self._status.forgotten + gone
            self._note(cuts=self._status.cuts + 1, forgotten=forgotten, remaining=remaining)

    def violation(self, one: Violation) -> None:
        """Adds a violation that has been explained."""
        with self._turn:
            kept = self._violations
            kept.append(one)
            kept.sort(key=lambda it: it.number)
            while len(kept) > VIOLATIONS:
                del kept[VIOLATIONS // 2]

    def ended(self, reason: str, is_lost: bool = True) -> None:
        """Notes that the audit has ended, with the verdict of its last round."""
        with self._turn:
            status = self._status
            kind, rounds = status.kind, status.rounds_count
            over = Ended(status.audit, kind, rounds, reason, time.time(), is_lost)
            self._note(ended=(*status.ended[-49:], over), is_over=True)

    def begins_anew(self) -> None:
        """Begins another audit, of which nothing is known yet."""
        with self._turn:
            last = self._status.seen
            last = replace(last, totals=last.totals.closed())
            earlier = added(self._status.earlier_seen, last)
            self._met = 0.0
            self._note(
                audit=self._status.audit + 1,
                kind=Kind.RUNNING,
                is_over=False,
                seen=Seen(),
                earlier_seen=earlier,
                remaining=0,
                pending=(),
                pending_count=0,
            )

    def note(self, told: str) -> None:
        """Adds a sentence for people."""
        with self._turn:
            if told not in self._notes:
                self._notes.append(told)

    def restarted(self, count: int) -> None:
        """Notes how many programs of the current audit were replaced."""
        with self._turn:
            self._note(restarts=count)
