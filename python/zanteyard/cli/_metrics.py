"""The metrics of a live audit of collectors."""

import time
from collections.abc import Iterator

from ..core._verdict_kinds import Kind
from ..live._live_auditor import LiveAuditor
from ..watch.pages._prometheus import Common, Family, by, one


def families(live: LiveAuditor, clients: int = 0) -> Iterator[Family]:
    """The metrics. `clients` is the number of connected client processes."""
    outcome, figures, auditor, now = live.outcome, live.figures, live.auditor, time.monotonic()
    yield from Common(
        labels=(("audit", live.name),),
        taken=sum(before.audited for before in live.earlier) + live.taken_in,
        waiting=live.waiting,
        remaining=auditor.remaining,
        rounds=figures.kinds,
        cuts=live.cuts,
        since_round=now - figures.told_at,
        behind=live.told_behind,
        audits=len(live.earlier) + 1,
        meetings=live.meetings,
        clients=clients,
        is_violated=live.is_violated,
        is_incomplete=outcome.whole.kind == Kind.INCOMPLETE or bool(live.earlier),
        restarts=auditor.restarts,
    ).families()
    for name, kind, about, value in (
        ("transactions_handed_in_total", "counter", "Transactions handed in by clients.",
         live.counted),
        ("transactions_remaining_limit", "gauge", "How many transactions may remain.",
         auditor.limit),
        ("reads_from_before_total", "counter",
         "Reads of versions from before the audit; they count as reads of the initial state.",
         outcome.from_before),
        ("seconds_since_cut", "gauge",
         "Seconds since transactions were last forgotten, or since the start.",
         now - figures.cut_at),
        ("last_writers", "gauge", "Keys whose last writer is forgotten; only its name is kept.",
         len(auditor.base)),
        ("sessions_left", "gauge", "Further clients that can have a session now.",
         live.sessions_left),
    ):
        yield one(name, kind, about, value)
    about = "Reads that, in the last round, waited for a transaction of this session."
    awaited = {str(session): count for session, count in sorted((figures.awaited or {}).items())}
    yield by("pending_reads", "gauge", about, "session", awaited)
