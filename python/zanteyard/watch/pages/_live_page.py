"""The page of a running audit: the verdict so far, what was checked and what wasn't, rounds,
clients, and each violation with a link to its own page. It works without scripting."""

from collections.abc import Iterator, Mapping, Sequence

from ...explain._charts import draw_rounds
from ...core._version import VERSION
from ...core._visible import escaped, html_text
from ..violations._described import clock
from ..outcome._ending import NAMES, too_little
from ._groups_page import groups_section
from ..outcome._remedies import remedy_for
from ..outcome._state import MOST_SHAPES, Shape, Status
from ._style import EVERY_WITHOUT, SCRIPT, STYLE
from ...core._numbers import counted
from ...core._verdict_kinds import Kind
from ..violations._violations import Violation
from ._web import policy_for

POLICY = policy_for(STYLE, SCRIPT)
HEADINGS: Mapping[str, str] = {
    Kind.RUNNING: "Nothing has been checked yet",
    Kind.SERIAL: "No violation so far",
    Kind.PENDING: "No violation so far; some reads are still waiting",
    Kind.SPENT: "The last round was undecided",
    Kind.INCOMPLETE: "No violation so far; something wasn't checked",
    Kind.VIOLATED: "No serial order explains what the transactions read",
    "broken": "The transactions violate snapshot isolation",
}
SHOWN = 40  # waiting reads


def whole_page(status: Status) -> str:
    """The page, with its changing part."""
    return "\n".join(
        [
            "<!DOCTYPE html>",
            '<html lang="en"><head><meta charset="utf-8">',
            '<meta name="viewport" content="width=device-width, initial-scale=1">',
            f"<title>{escaped(heading_of(status))}: {escaped(status.title)}</title>",
            f'<noscript><meta http-equiv="refresh" content="{EVERY_WITHOUT}"></noscript>',
            f"<style>{STYLE}</style></head><body>",
            '<header class="top"><span><strong>zanteyard watch</strong> '
            f'{escaped(status.title)}</span><span id="lost" role="status">The audit can’t be '
            "reached; this is its last known state.</span></header>",
            f'<main id="now">{changing(status)}</main>',
            f"<footer><p>zanteyard {VERSION}; the auditor is {escaped(status.origin)}. A verdict "
            "covers only what was checked; what was left out is listed above.</p></footer>",
            f"<script>{SCRIPT}</script>",
            "</body></html>",
            "",
        ]
    )


def heading_of(status: Status) -> str:
    if status.new_count:
        return f"{counted(status.new_count, 'violation')} found"
    return HEADINGS[status.whole_kind]


def changing(status: Status) -> str:
    """The part that changes while the audit goes on."""
    return "\n".join(
        [
            *_state(status),
            *_figures(status),
            *_violations(status),
            *groups_section(status.groups, status.ungrouped),
            *_shares(status),
            *_others(status),
            *_shapes(status),
            *_left_out(status),
            *_rounds(status),
            *_pending(status),
            *_audits(status),
            *_notes(status),
        ]
    )


def _state(status: Status) -> Iterator[str]:
    kind = status.whole_kind
    yield f'<section class="state {escaped(kind)}"><h1>{escaped(heading_of(status))}</h1>'
    for line in _sentences(status):
        yield f"<p>{line}</p>"
    yield "</section>"


def _sentences(status: Status) -> Iterator[str]:
    if status.new_count:
        found = HEADINGS["broken" if status.promise.is_split else Kind.VIOLATED]
        yield f"{found}. {_where_explained(status)}"
    elif status.rounds_count:
        order = "An order of begins and commits satisfies snapshot isolation for"
        if not status.promise.is_split:
            order = "A serial order explains"
        yield f"{order} everything that was checked, and keeps each connection’s order."
        why = too_little(status.whole_seen.totals)
        if why:
            yield f"Too little was looked at: {html_text(why)}."
    elif not status.seen.connections:
        yield "No application has connected yet."
    if status.ended and status.is_over and not status.ended[-1].is_lost:
        yield "Another audit begins soon, for what happens from then on."
    elif status.ended and status.is_over:
        yield (
            f"Nothing is being checked: {escaped(status.ended[-1].reason)}. Applications run on as "
            "before, and another audit will be tried."
        )
    lost = [one for one in status.ended if one.is_lost]
    if lost and not status.is_over:
        yield (
            f"An audit ended at {clock(lost[-1].at, False)}: {escaped(lost[-1].reason)}. Another "
            "one began after it. What happened between the two wasn’t checked."
        )
    told = f"The audit asks for {status.promise.title}. Watching for "
    told += lasting(status.now - status.began)
    if status.told_at and not status.is_over:
        told += f"; checked up to {clock(status.checked_until, False)}, "
        told += f"{lasting(max(0.0, status.now - status.checked_until))} ago"
    yield f"{told}."


def _where_explained(status: Status) -> str:
    if not status.violations:
        return "An explanation is being prepared."
    return "The first of each shape has its own page, linked below."


def lasting(seconds: float) -> str:
    """A period of time in words."""
    whole = int(seconds)
    for size, name in ((86400, "day"), (3600, "hour"), (60, "minute")):
        if whole >= 2 * size:
            return counted(whole // size, name)
    return f"{seconds:.1f} s" if seconds < 10 else counted(whole, "second")


def _figures(status: Status) -> Iterator[str]:
    seen, totals = status.whole_seen, status.whole_seen.totals
    rows: list[tuple[str, str, str]] = [
        (f"{name} checked", f"{one.checked:,}", f"{_share(one.checked, one.all)} of {one.all:,}")
        for name, one in (
            ("Transactions", totals.transactions),
            ("SELECTs", totals.selects),
            ("Written rows", totals.rows_written),
        )
    ]
    rows += [
        ("Rounds", f"{status.rounds_count:,}", f"{status.remaining:,} transactions held in memory"),
        ("Time to a verdict", f"{status.behind:.1f} s", f"{seen.waiting:,} transactions waiting"),
        (
            "Connections", f"{seen.connections:,}",
            f"{seen.audited_connections:,} checked, {seen.waiting_connections:,} waiting for a "
            "session",
        ),
    ]
    yield '<dl class="figures">'
    for name, value, more in rows:
        yield f"<div><dt>{name}</dt><dd>{value}<small>{more}</small></dd></div>"
    yield "</dl>"


def _share(part: float, whole: float) -> str:
    """A percentage; 100 % only if nothing is missing."""
    if not whole:
        return "0 %"
    found = 100 * part / whole
    return "100 %" if part >= whole else f"{min(found, 99.9):.1f} %"


def _violations(status: Status) -> Iterator[str]:
    if not status.violations:
        return
    yield '<h2>Violations</h2><ol class="violations">'
    for one in reversed(status.violations):
        yield (
            f'<li><a href="/violation/{one.number}">{escaped(_capital(one.title))}</a> '
            f'<span class="soft">at {clock(one.at, False)}, round {one.round}</span><br>'
            f"{escaped(_capital(one.sentence), 400)}.{_standing(one)}</li>"
        )
    yield "</ol>"


def _standing(one: Violation) -> str:
    its = [f"It {line}" for line in one.story.standing.lines()]
    its += [_capital(one.allowed)] if one.allowed else []
    return "".join(f"<br>{escaped(line)}." for line in its)


def _capital(text: str) -> str:
    return text[:1].upper() + text[1:]


def _shares(status: Status) -> Iterator[str]:
    seen = status.whole_seen
    totals = seen.totals
    if not (totals.transactions.all or totals.transactions.rolled_back):
        return
    yield "<h2>How much was checked</h2>"
    for key, one in totals.named():
        if not (one.all or one.rolled_back):
            continue
        told = f"{_share(one.checked, one.all)}: {one.checked:,} of {one.all:,} {NAMES[key]}"
        for count, what in (
            (one.partly, "more in part"),
            (one.waiting, "waiting for a round"),
            (one.rolled_back, "more rolled back"),
        ):
            told += f"; {count:,} {what}" if count else ""
        name = NAMES[key]
        yield from _bar(name[:1].upper() + name[1:], one.checked, one.all, told)
    for line in (*totals.level_lines(), *seen.more_lines()):
        yield f"<p>{html_text(_capital(line))}.</p>"
    if seen.shapes:
        shapes = counted(len(seen.shapes), "shape")
        yield (
            f"<p>{counted(seen.unseen_count, 'statement')} of {shapes} read or wrote something "
            "that the audit didn’t see; they are listed below. What it doesn’t see may hide a "
            "violation, but never causes a false one.</p>"
        )
    if status.subtransactions == "returning":
        yield (
            "<p>Some reads of rows that were written after a savepoint are left out, because "
            "pg_walinspect is missing or may not be called.</p>"
        )


def _bar(name: str, part: float, whole: float, told: str) -> Iterator[str]:
    width = 1000 * part / whole if whole else 0
    yield (
        f'<div class="share"><span>{name}</span><svg viewBox="0 0 1000 10" '
        'preserveAspectRatio="none" aria-hidden="true"><rect class="track" width="1000" '
        f'height="10"/><rect class="part" width="{width:.1f}" height="10"/></svg>'
        f'<span class="soft">{html_text(told)}</span></div>'
    )


def _others(status: Status) -> Iterator[str]:
    others = status.seen.others
    if others is None:
        return
    yield "<h2>Other proxies</h2>"
    if others.down:
        yield (
            "<p>Redis can’t be reached, so nothing arrives from them: "
            f"{escaped(others.down, 200)}.</p>"
        )
    if not others.proxies:
        yield "<p>None has connected yet.</p>"
    else:
        yield "<table><tbody>"
        for one in others.proxies:
            heard = "" if one.feeds else f", silent for {lasting(one.silent)}"
            yield (
                f'<tr><td>{escaped(one.name, 80)}</td><td class="count">{one.transactions:,}</td>'
                f"<td>transactions, {counted(one.connections, 'connection')}{heard}</td></tr>"
            )
        yield "</tbody></table>"
    if others.refused:
        told = counted(others.refused, "message")
        yield f"<p>{told} refused: not signed with this audit’s key.</p>"


def _shapes(status: Status) -> Iterator[str]:
    shapes: Sequence[Shape] = sorted(status.whole_seen.shapes, key=lambda one: -one.count)
    if not shapes:
        return
    yield '<h2>Statements only partly seen</h2><table class="stack"><thead><tr>'
    yield '<th class="count">Times</th><th>Statement</th><th>What wasn’t seen</th>'
    yield "<th>First</th></tr></thead><tbody>"
    for one in shapes[:MOST_SHAPES]:
        where = " ".join(it for it in (clock(one.first, False), escaped(one.where, 120)) if it)
        what = "" if one.is_reads else " (a write)"
        yield (
            f'<tr><td class="count" data-of="Times">{one.count:,}</td>'
            f'<td class="shape"><code>{escaped(one.shape, 300)}</code></td>'
            f'<td data-of="Not seen">{escaped(one.reason, 200)}{what}</td>'
            f'<td class="time" data-of="First">{where}</td></tr>'
        )
    yield "</tbody></table>"
    if len(shapes) > MOST_SHAPES:
        yield f"<p>and {counted(len(shapes) - MOST_SHAPES, 'shape')} more.</p>"


def _left_out(status: Status) -> Iterator[str]:
    totals = status.whole_seen.totals
    for title, is_part in (("Checked in part", True), ("Not checked", False)):
        rows = [*totals.reasons(is_part)]
        if rows:
            yield f'<h2>{title}</h2><table class="stack"><thead><tr><th class="count">How many</th>'
            yield "<th>What</th><th>Why</th><th>What helps</th></tr></thead><tbody>"
            for name, count, why in rows:
                yield (
                    f'<tr><td class="count" data-of="How many">{count:,}</td>'
                    f'<td data-of="What">{NAMES[name]}</td>'
                    f'<td data-of="Why">{escaped(why, 200)}</td>'
                    f'<td data-of="What helps">{escaped(remedy_for(why))}</td></tr>'
                )
            yield "</tbody></table>"


def _rounds(status: Status) -> Iterator[str]:
    if len(status.rounds) < 2:
        return
    yield "<h2>Round by round</h2>"
    yield f'<figure><div class="wide">{draw_rounds(status.rounds)}</div></figure>'
    if status.meetings:
        yield (
            f"<p>The audited connections were held {counted(status.meetings, 'time')}, so that the "
            f"auditor could forget: for {status.meeting_ms:.1f} ms the last time, and for "
            f"{status.longest_meeting_ms:.1f} ms at most. "
            f"{counted(status.forgotten, 'transaction')} could be forgotten so far, at "
            f"{counted(status.cuts, 'cut')}.</p>"
        )


def _pending(status: Status) -> Iterator[str]:
    if not status.pending_count:
        return
    yield "<h2>Waiting reads</h2>"
    yield (
        f"<p>In the last round {counted(status.pending_count, 'read')} named a transaction that "
        "hadn’t arrived.</p><ul>"
    )
    yield from (f"<li>{escaped(line)}</li>" for line in status.pending[:SHOWN])
    yield "</ul>"


def _audits(status: Status) -> Iterator[str]:
    if not status.ended:
        return
    title = counted(len(status.ended), "earlier audit")
    yield f'<details id="audits"><summary>{title}</summary><table class="stack"><thead><tr>'
    yield '<th class="count">Audit</th><th>Ended</th><th>Last verdict</th><th>Why it ended</th>'
    yield "</tr></thead><tbody>"
    for one in reversed(status.ended):
        yield (
            f'<tr><td class="count" data-of="Audit">{one.number:,}</td>'
            f'<td class="time" data-of="Ended">{clock(one.at, False)}</td>'
            f'<td data-of="Last verdict">{escaped(one.kind)}</td>'
            f'<td data-of="Why">{escaped(one.reason, 300)}</td></tr>'
        )
    yield "</tbody></table></details>"


def _notes(status: Status) -> Iterator[str]:
    if status.notes:
        yield "<h2>Notes</h2><ul>"
        yield from (f"<li>{escaped(note)}</li>" for note in status.notes)
        yield "</ul>"
