"""The metrics of an audit of an application."""

from collections.abc import Iterator

from ...promises._kinds import ALL
from ..outcome._state import Status
from ..outcome._totals import Conditions, Totals
from ._prometheus import Common, Family, by, one

WHAT = {
    "transactions": "Transactions",
    "selects": "SELECTs",
    "writes": "Writing statements",
    "rows_read": "Rows read",
    "rows_written": "Rows written",
}


def families(status: Status) -> Iterator[Family]:
    """All metrics. Counts are over all audits of this run."""
    seen, earlier = status.seen, status.earlier_seen
    since = max(0.0, status.now - status.told_at) if status.told_at else 0.0
    yield from Common(
        labels=(("database", status.database), ("promise", status.promise.name)),
        taken=seen.offered + earlier.offered,
        waiting=seen.waiting,
        remaining=status.remaining,
        rounds=status.kinds,
        cuts=status.cuts,
        since_round=since,
        behind=status.behind,
        audits=status.audit if status.has_begun else 0,
        meetings=status.meetings,
        clients=seen.connections,
        is_violated=status.new_count > 0,
        is_incomplete=any(it.is_lost for it in status.ended),
        restarts=status.restarts,
    ).families()
    for name, field, about in (
        ("transactions_committed_total", "committed", "Commits in the server's log."),
        ("reads_taken_total", "reads", "Row reads given to the auditor."),
        ("commits_without_rows_total", "bare", "Commits without a row, of no client."),
        ("writes_taken_total", "writes", "Row writes given to the auditor."),
        ("clients_total", "connections_ever", "Connections opened by clients."),
    ):
        yield one(name, "counter", about, getattr(seen, field) + getattr(earlier, field))
    yield from _totals(status.whole_seen.totals)
    yield from _conditions(status.whole_seen.conditions)
    age = max(0.0, status.now - status.checked_until) if status.checked_until else 0.0
    for name, kind, about, value in (
        ("statements_unseen_total", "counter", "Statements only partly seen.",
         seen.unseen_count + earlier.unseen_count),
        ("meeting_seconds_total", "counter", "For how long meetings held clients, in seconds.",
         status.meetings_ms / 1000),
        ("longest_meeting_seconds", "gauge",
         "For how long the longest meeting held clients, in seconds.",
         status.longest_meeting_ms / 1000),
        ("verdict_age_seconds", "gauge",
         "Seconds since the meeting up to which the last verdict goes.", age),
        ("log_lag_seconds", "gauge", "How many seconds the reader of the server's log lags.",
         seen.lag_seconds),
        ("log_lag_bytes", "gauge", "Bytes of the server's log that aren't yet read.",
         seen.lag_bytes),
        ("clients_beyond", "gauge", "Connections that wait for a session.",
         seen.waiting_connections),
        ("violations_total", "counter", "Violations found.", status.violations_count),
        ("violations_known_total", "counter", "Of these, set aside.", status.known_count),
        ("auditing", "gauge", "1 while an audit runs.", not status.is_over),
    ):
        yield one(name, kind, about, value)
    if seen.others is not None:
        feeding = sum(it.feeds for it in seen.others.proxies)
        yield one(
            "other_proxies", "gauge", "Proxies on other machines that are connected.", feeding
        )
        about = "Messages that weren't signed with the audit's key."
        yield one("messages_refused_total", "counter", about, seen.others.refused)
        yield one("redis_up", "gauge", "1 if Redis can be reached.", not seen.others.down)
    shapes = [
        (
            (("name", it.name), ("anomaly", it.title), ("tables", ",".join(it.shape.tables))),
            float(it.count),
        )
        for it in status.groups
    ]
    yield "zanteyard_violations_by_shape_total", "counter", "Violations of each shape.", shapes
    about = "1 after an explained violation that breaks this promise."
    broken = status.standing.broken
    promises = {it.name: float(it in broken) for it in ALL if not it.is_timed}
    yield by("promise_broken", "gauge", about, "promise", promises)


def _conditions(its: Conditions) -> Iterator[Family]:
    for name, count, about in (
        ("seen", its.seen, "Conditions of statements."),
        ("followed", its.followed, "Conditions of which what they passed over was checked."),
        ("dropped", its.dropped, "Conditions that were forgotten to make room."),
    ):
        yield one(f"conditions_{name}_total", "counter", about, count)
    about = "Rows that conditions passed over, and that were checked."
    yield one("rows_passed_over_total", "counter", about, its.passed_over)
    for name, reasons, about in (
        ("conditions", its.left_out, "Conditions that weren't followed."),
        ("rows_passed_over", its.rows_left_out, "Rows that weren't checked."),
    ):
        counts = dict(sorted(reasons.items()))
        yield by(f"{name}_left_out_total", "counter", about, "reason", counts)


def _totals(totals: Totals) -> Iterator[Family]:
    """The totals, by the names that they have in the feed and in JSON."""
    for name, its in totals.named():
        what = WHAT[name]
        for place, count, about in (
            ("all", its.all, f"{what} of clients, except rolled-back ones."),
            ("checked", its.checked, f"{what} that were checked in full."),
            ("rolled_back", its.rolled_back, f"{what} that were rolled back."),
        ):
            yield one(f"{name}_{place}_total", "counter", about, count)
        place = "waiting_for_round" if name == "transactions" else "waiting"
        yield one(f"{name}_{place}", "gauge", f"{what} that wait for a round.", its.waiting)
        for place, reasons, about in (
            ("in_part", its.in_part, f"{what} that were checked in part."),
            ("not_checked", its.not_checked, f"{what} that weren't checked."),
        ):
            counts = dict(sorted(reasons.items()))
            yield by(f"{name}_{place}_total", "counter", about, "reason", counts)
    for name, count, about in (
        ("transactions_only_read", totals.only_read, "Rolled back, and --rollbacks checks them."),
        ("selects_by_condition", totals.by_condition, "SELECTs not by one whole key."),
        ("selects_found_no_row", totals.found_no_row, "SELECTs that returned no row."),
        ("other_statements", totals.other_statements, "Definitions, procedures and the like."),
        ("rows_read_own", totals.own, "Checked rows that the reader itself had written."),
        ("rows_read_from_before", totals.from_before, "Checked rows from before the audit."),
        ("rows_read_of_unchecked", totals.of_unchecked, "Checked rows by unchecked writers."),
        ("transactions_without_the_proxy", totals.others, "Transactions of other programs."),
        ("rows_written_without_the_proxy", totals.others_rows, "Rows that these wrote."),
        ("commits_untold", totals.untold, "Commits of clients, or of other programs."),
        ("commits_untold_without_the_proxy", totals.bypassed, "Of these, others' at least."),
    ):
        yield one(f"{name}_total", "counter", about, count)
