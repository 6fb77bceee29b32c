"""A page about a story: one HTML file that loads nothing from outside, and works without scripting
and on paper."""

from collections.abc import Iterable, Mapping, Sequence
from dataclasses import replace

from ..core._records import ABORTED
from ..core._verdict_kinds import Kind
from ..core._version import VERSION
from ..core._visible import html_lines, html_text
from ._anomalies import meaning_of
from ._charts import RoundSeen, draw_rounds
from ._explanation import Link, Reasons, ShownCase
from ._report import SHOWN, Step, Story, line_of
from ._timeline_svg import draw_story

STYLE = """
:root { --ink: #1c2430; --soft: #56616f; --line: #d5dbe3; --paper: #ffffff; --box: #f4f7fb;
  --red: #b3261e; --green: #1b6e3c; --amber: #8a5a00; }
* { box-sizing: border-box; }
body { margin: 0 auto; padding: 2rem 1.5rem 3rem; max-width: 70rem; color: var(--ink);
  background: var(--paper); font: 16px/1.55 system-ui, "Helvetica Neue", Arial, sans-serif; }
h1 { font-size: 1.7rem; line-height: 1.25; margin: 0 0 .4rem; }
h2 { font-size: 1.15rem; margin: 2.2rem 0 .6rem; border-bottom: 1px solid var(--line);
  padding-bottom: .25rem; }
p, ol, ul { margin: .4rem 0; max-width: 52rem; }
li { margin: .25rem 0; }
.verdict { display: inline-block; padding: .1rem .7rem; border-radius: 1rem; color: #fff;
  font-size: .95rem; font-weight: 600; vertical-align: .2rem; background: var(--soft); }
.verdict.violated { background: var(--red); } .verdict.serial { background: var(--green); }
.verdict.pending, .verdict.spent { background: var(--amber); }
.soft, figcaption, footer { color: var(--soft); font-size: .9rem; }
.anomaly { border-left: 4px solid var(--red); padding: .3rem 0 .3rem .9rem; margin: 1rem 0; }
figure { margin: .6rem 0 0; }
.wide { overflow-x: auto; --shade: rgba(40, 60, 90, .28); background:
  linear-gradient(to right, var(--paper) 1.2rem, transparent) 0 0 / 2.4rem 100% no-repeat local,
  linear-gradient(to left, var(--paper) 1.2rem, transparent) 100% 0 / 2.4rem 100% no-repeat local,
  linear-gradient(to right, var(--shade), transparent) 0 0 / .8rem 100% no-repeat scroll,
  linear-gradient(to left, var(--shade), transparent) 100% 0 / .8rem 100% no-repeat scroll; }
svg { max-width: 100%; height: auto; display: block; }
svg.timeline { max-width: none; }
svg.columns-1 { max-width: 100%; } svg.columns-2 { max-width: 100%; min-width: 31rem; }
svg.columns-3 { max-width: 100%; min-width: 47rem; }
svg text { font: 13px system-ui, "Helvetica Neue", Arial, sans-serif; fill: var(--ink); }
svg .name { font-weight: 700; } svg .session, svg .tick { fill: var(--soft); font-size: 12px; }
svg .label { font-weight: 600; } svg .end { text-anchor: end; }
svg .edge { stroke: #51749e; stroke-width: 3; }
svg .lane { stroke: var(--line); stroke-width: 2; stroke-dasharray: 3 4; }
svg .transaction rect { fill: var(--box); stroke: #9aa7b6; stroke-width: 1.2; }
svg .transaction.aborted rect { stroke-dasharray: 7 5; }
svg .arc path { fill: none; stroke-width: 2.2; }
svg .arc.aborted path { stroke-dasharray: 7 5; }
svg .arc.circle path { stroke: var(--red); } svg .arc.other path { stroke: #8491a1; }
svg .mark circle { stroke: #fff; stroke-width: 1.5; }
svg .mark.circle circle { fill: var(--red); } svg .mark.other circle { fill: #5d6a7a; }
svg .arc:hover path { stroke-width: 4.5; }
svg .number { fill: #fff; font-size: 12px; font-weight: 700; text-anchor: middle; }
svg marker path.circle-head { fill: var(--red); } svg marker path.other-head { fill: #8491a1; }
svg .axis { stroke: var(--line); } svg polyline { fill: none; stroke: #51749e; stroke-width: 1.5; }
svg.chart circle { fill: var(--green); } svg.chart circle.violated { fill: var(--red); }
svg.chart circle.pending, svg.chart circle.spent { fill: var(--amber); }
ol.reasons { list-style: none; padding-left: 0; counter-reset: none; }
ol.reasons li { position: relative; padding-left: 2.1rem; }
ol.reasons .mark { position: absolute; left: 0; top: .12rem; min-width: 1.6rem; text-align: center;
  color: #fff; border-radius: 1rem; font-size: .8rem; font-weight: 700; background: #5d6a7a; }
ol.reasons .circle .mark { background: var(--red); }
.case { margin: .8rem 0 .8rem .2rem; padding: .1rem 0 .1rem 1rem;
  border-left: 3px solid var(--line); }
.case > summary { font-weight: 700; font-size: 1.05rem; cursor: pointer; }
.choice { font-weight: 600; }
.around { font-size: 1.05rem; font-weight: 600; color: var(--red); }
table { border-collapse: collapse; width: 100%; font-size: .93rem; }
th, td { text-align: left; vertical-align: top; padding: .35rem .7rem .35rem 0;
  border-bottom: 1px solid var(--line); }
th:first-child { width: 9rem; }
th { font-weight: 600; color: var(--soft); } td.number { font-weight: 700; white-space: nowrap; }
pre, code { font: .86rem/1.45 ui-monospace, "DejaVu Sans Mono", Menlo, monospace; }
pre { background: var(--box); border: 1px solid var(--line); border-radius: 6px; padding: .7rem;
  overflow-x: auto; white-space: pre-wrap; overflow-wrap: anywhere; }
td.did { min-width: 13rem; }
td code { overflow-wrap: anywhere; color: var(--soft); }
@media (max-width: 40rem) { th:first-child { width: auto; } td.did { min-width: 6rem; }
  th, td { padding-right: .5rem; overflow-wrap: anywhere; } }
@media print { body { padding: 0; max-width: none; font-size: 11pt; } .wide { overflow: visible; }
  svg.timeline { max-width: 100%; } h2, figcaption { break-after: avoid; }
  figure, li, tr { break-inside: avoid; }
  * { -webkit-print-color-adjust: exact; print-color-adjust: exact; } }
"""

HEADINGS: Mapping[str, str] = {
    Kind.SERIAL: "Nothing is wrong with what was audited",
    Kind.PENDING: "Nothing is wrong so far, and something is still missing",
    Kind.VIOLATED: "These transactions can't have run one at a time",
    Kind.SPENT: "This wasn't decided",
}

ARROWS = (
    "An arrow leads from what has to come before to what has to come after. Its number is that of "
    "the reason below; point at the arrow to read it. Red arrows form the cycle, grey ones show "
    "what follows from what."
)
BEFORE_YOU_ACCUSE = (
    "Are the reads named here what the clients saw? The verdict is about the log.",
    "Where a step says “in one session”: does the store promise to keep that session’s order? "
    "A client that reads from a replica that lags is more than one session.",
    "The time line is drawn from what was logged; it isn’t the order in which the store ran "
    "these transactions, since there is no such order.",
)


def page_of(story: Story, about: str, origin: str, rounds: Sequence[RoundSeen] = ()) -> str:
    """The whole page. `about` says in a few words what was audited, `origin` by which program."""
    parts: list[str] = [_head(story, about)]
    if story.kind == Kind.VIOLATED:
        parts += [*picture_part(story), *reasons_part(story), *_table(story.steps)]
        parts += [*_others(story), *_again(story)]
    else:
        parts += _order(story)
    parts += _rounds(rounds)
    title = f"{story.kind}: {about}"
    return "\n".join(
        [
            "<!DOCTYPE html>",
            '<html lang="en"><head><meta charset="utf-8">',
            '<meta name="viewport" content="width=device-width, initial-scale=1">',
            f"<title>{html_text(title)}</title>",
            f"<style>{STYLE}</style></head><body>",
            *parts,
            f"<footer><p>Made by zanteyard {VERSION}. The verdict is that of the auditor "
            f"({html_text(origin)}); the text and the picture only explain it.</p></footer>",
            "</body></html>",
            "",
        ]
    )


def _head(story: Story, about: str) -> str:
    count = sum(story.counts)
    of_what = f"{about}: {count:,} transactions of {len(story.counts)} sessions" if count else about
    shown = sum(step.outcome != "forgotten" for step in story.steps)
    if 0 < shown < count:
        of_what += f"; {shown} of the transactions {'is' if shown == 1 else 'are'} shown here"
    lines = [
        f'<h1>{_heading(story)} <span class="verdict {story.kind}">{story.kind}</span></h1>',
        f'<p class="soft">{html_text(of_what)}</p>',
        f"<p>{html_text(_sentence(story))}.</p>",
    ]
    if story.anomaly is not None:
        meaning = meaning_of(story.anomaly.name)
        more = f' <span class="soft">({html_text(meaning)})</span>' if meaning else ""
        lines.append(
            f'<div class="anomaly"><strong>{html_text(_capital(story.anomaly.name))}</strong>{more}'
            f"<br>{html_text(_capital(story.anomaly.sentence))}.</div>"
        )
    elif story.reasons.cases:
        lines.append(f'<div class="anomaly">{html_text(neither(story.reasons))}</div>')
    lines += [f"<p>It {html_text(line)}.</p>" for line in story.standing.lines()]
    return "\n".join(lines)


def _heading(story: Story) -> str:
    if story.kind == Kind.VIOLATED and story.promise.is_split:
        return "These transactions can't have run on snapshots"
    if story.kind == Kind.VIOLATED and story.promise.is_timed:
        return "These transactions can't have run one at a time, in the order of their times"
    return HEADINGS[story.kind]


def _sentence(story: Story) -> str:
    is_final = story.kind == Kind.VIOLATED
    more = ", and nothing that comes later can change that" if is_final else ""
    return _capital(story.sentence) + more


def _capital(text: str) -> str:
    return text[:1].upper() + text[1:]


def picture_part(story: Story) -> Iterable[str]:
    """What happened, with the cycle if there is one. Cases have a picture each instead."""
    drawn = "" if story.reasons.cases else draw_story(story, story.reasons.drawn)
    if drawn:
        yield "<h2>What happened</h2>"
        yield f'<figure><div class="wide">{drawn}</div>'
        yield f"<figcaption>{_caption(story)}</figcaption></figure>"


def _caption(story: Story) -> str:
    """What a picture shows."""
    caption = "A row for each session, its transactions from left to right. "
    if story.reasons.drawn or story.reasons.cases:
        caption += ARROWS
    else:
        caption += "A grey arrow leads from a writer to the transaction that read from it."
    if story.promise.is_split:
        caption += " A box reaches from the transaction’s begin to its commit."
    if any(step.outcome == ABORTED for step in story.steps):
        caption += " Aborted attempts are dashed."
    return caption


def reasons_part(story: Story) -> Iterable[str]:
    """Why no order is left; two cases are two parts that can be folded."""
    yield "<h2>Why no order is left</h2>"
    if story.reasons.cases and story.reasons.links:
        yield "<p>In any order:</p>"
    if story.anomaly is None:  # the page's head has the choice already
        yield from _reasons(story.reasons, story, choice="The two cases:")
    else:
        yield from _reasons(story.reasons, story)
    if story.reasons.cases:
        yield f'<p class="soft">The pictures: {_caption(story)}</p>'


def _reasons(
    reasons: Reasons, story: Story, picture: str = "", choice: str = ""
) -> Iterable[str]:
    """The end first, and then what it follows from. What two cases share comes before them,
    followed by the choice."""
    if reasons.circle:
        around = " → ".join(html_text(called) for called in reasons.circle)
        yield "<p>These form a cycle, so none of them can come first:</p>"
        yield f'<p class="around">{around}</p>'
    yield picture
    red = {link.number for link in reasons.drawn if link.is_of_circle}
    if reasons.links:
        yield '<ol class="reasons">'
        yield from (_reason(link, link.number in red) for link in reasons.links)
        yield "</ol>"
    if reasons.cases:
        yield f'<p class="choice">{html_text(choice or neither(reasons))}</p>'
        yield from (part for case in reasons.cases for part in _case(case, story))
    elif not reasons.circle:
        yield f"<ul><li>{html_text(_capital(reasons.end))}.</li></ul>"


def neither(reasons: Reasons) -> str:
    """A sentence about two cases."""
    return f"{_capital(reasons.end)}. Neither is possible."


def _reason(link: Link, is_of_circle: bool) -> str:
    kind = ' class="circle"' if is_of_circle else ""
    *first, last = map(str, link.follows or ("",))
    numbers = " and ".join([", ".join(first), last] if first else [last])
    follows = f" (by {numbers})" if numbers else ""
    return (
        f'<li{kind}><span class="mark">{link.number}</span>'
        f"<strong>{html_text(link.told)}</strong>: {html_text(link.why)}{follows}.</li>"
    )


def _case(case: ShownCase, story: Story) -> Iterable[str]:
    """What is impossible in the case, with a picture of its cycle."""
    yield '<details class="case" open>'
    yield f"<summary>If {html_text(case.link.told)}</summary>"
    inner = case.reasons
    named = {id for link in inner.drawn for id in (link.start, link.end)}
    involved = replace(story, steps=tuple(step for step in story.steps if step.id in named))
    drawn = draw_story(involved, inner.drawn, case.link.number) if inner.drawn else ""
    picture = f'<figure><div class="wide">{drawn}</div></figure>' if drawn else ""
    yield from _reasons(replace(inner, links=(case.link, *inner.links)), story, picture)
    yield "</details>"


def _table(steps: Sequence[Step]) -> Iterable[str]:
    if not steps:
        return
    has_statements = any(deed.statement for step in steps for deed in step.deeds)
    has_returned = any(deed.returned for step in steps for deed in step.deeds)
    where = "When and where" if any(step.caller for step in steps) else "When"
    has_places = any(step.clock or step.caller for step in steps)
    is_numbered = any(step.name == "{}.{}".format(*step.id) for step in steps)
    yield "<h2>What each transaction did</h2>"
    yield "<table><thead><tr><th>Transaction</th><th>Did</th>"
    yield "<th>Value</th>" * has_returned + "<th>Statement</th>" * has_statements
    yield f"<th>{where}</th>" * has_places + "</tr></thead><tbody>"
    for step in steps:
        deeds = step.deeds
        rows = max(1, len(deeds))
        for at in range(rows):
            yield "<tr>"
            if not at:
                outcome = "" if step.outcome == "committed" else f" ({html_text(step.outcome)})"
                yield f'<td class="number" rowspan="{rows}">{html_text(step.name)}{outcome}</td>'
            deed = deeds[at] if deeds else None
            did = html_text(deed.text) if deed else "nothing that matters here"
            yield f'<td class="did">{did}</td>'
            if has_returned:
                yield f"<td>{html_text(deed.returned) if deed else ''}</td>"
            if has_statements:
                yield f"<td><code>{html_text(deed.statement) if deed else ''}</code></td>"
            if has_places and not at:
                place = " ".join(part for part in (step.clock, step.caller) if part)
                yield f'<td rowspan="{rows}">{html_text(place)}</td>'
            yield "</tr>"
    yield "</tbody></table>"
    yield (
        '<p class="soft">'
        + "Transaction 2.7 is number 7 of session 2, counted from 0. " * is_numbered
        + "What the violation doesn’t need is left out."
    )
    if any(step.outcome == "forgotten" for step in steps):
        yield " “The cut” stands for everything that the auditor had forgotten."
    yield "</p>"


def _others(story: Story) -> Iterable[str]:
    """The independent violations, a line each."""
    if story.others:
        yield "<h2>Other independent violations</h2><ul>"
        yield from (f"<li>{html_text(line_of(other))}</li>" for other in story.others[: 4 * SHOWN])
        yield "</ul>"
        if len(story.others) > 4 * SHOWN:
            yield f"<p>and {len(story.others) - 4 * SHOWN} more.</p>"


def _again(story: Story) -> Iterable[str]:
    if story.script:
        asked = f"--promise {story.promise.name} " if story.promise.is_split else ""
        refutation = (
            "" if asked else ", and <code>cobra_audit &lt; violation.jsonl</code> gives the "
            "auditor’s own refutation"
        )
        yield "<h2>See it again</h2>"
        yield (
            "<p>This is the same as a script. Save it as <code>violation.jsonl</code>; "
            f"<code>zanteyard check {asked}violation.jsonl</code> reports it again{refutation}.</p>"
        )
        yield f"<pre>{html_lines(story.script)}</pre>"
    yield "<h2>Before you accuse the store</h2>"
    yield "<ul>" + "".join(f"<li>{line}</li>" for line in BEFORE_YOU_ACCUSE) + "</ul>"


def _order(story: Story) -> Iterable[str]:
    if story.waiting:
        yield "<h2>Reads that wait</h2><ul>"
        yield from (f"<li>{html_text(line)}</li>" for line in story.waiting[: 4 * SHOWN])
        yield "</ul>"
        if len(story.waiting) > 4 * SHOWN:
            yield f"<p>and {len(story.waiting) - 4 * SHOWN} more.</p>"
    if story.order:
        yield "<h2>An order that explains what was read</h2>"
        yield f"<p>{html_text(' '.join(story.order))}</p>"


def _rounds(rounds: Sequence[RoundSeen]) -> Iterable[str]:
    if not rounds:
        return
    last = rounds[-1]
    yield "<h2>Round by round</h2>"
    yield (
        f"<p>{len(rounds)} rounds in {last.seconds:.1f} s. After the last one "
        f"{last.remaining:,} transactions remain, and the auditor was {last.behind:.2f} s behind."
        "</p>"
    )
    yield f'<figure><div class="wide">{draw_rounds(rounds)}</div></figure>'
    if last.waiting:
        yield "<p>Reads that wait for a transaction that hasn’t arrived:</p><ul>"
        yield from (f"<li>{html_text(line)}</li>" for line in last.waiting[: 2 * SHOWN])
        yield "</ul>"
