"""The page of one violation: the picture, the statements that the application ran, and why no
serial order is left. It works without scripting, and can be saved as one file."""

from collections.abc import Iterable, Iterator, Sequence

from ...explain._anomalies import meaning_of
from ...explain._html import BEFORE_YOU_ACCUSE, neither, picture_part, reasons_part
from ...core._version import VERSION
from ...core._visible import escaped, escaped_lines, html_lines, html_text, visible
from ..violations._described import ROLLED_BACK, Described, Statement, clock
from ._style import STYLE
from ...core._numbers import counted
from ..violations._violations import WHOSE_TIMES, Told, Violation
from ._web import policy_for

POLICY = policy_for(STYLE)
MORE = (
    "Other transactions’ statements and unseen rows are left out: what is shown here is a "
    "violation by itself."
)


def violation_page(one: Violation, title: str, origin: str, is_file: bool = False) -> str:
    """The whole page. `title` says which database it was, `origin` which auditor. As a file it has
    no link to the audit's page."""
    heading = _capital(one.title)
    back = "" if is_file else '<a href="/">The audit</a>'
    return "\n".join(
        [
            "<!DOCTYPE html>",
            '<html lang="en"><head><meta charset="utf-8">',
            '<meta name="viewport" content="width=device-width, initial-scale=1">',
            f"<title>{escaped(heading)}: {escaped(title)}</title>",
            f"<style>{STYLE}</style></head><body>",
            '<header class="top"><span><strong>zanteyard watch</strong> '
            f"{escaped(title)}</span>{back}</header>",
            *_head(one),
            *picture_part(one.story),
            *_parts(one),
            *_again(one, is_file),
            f"<footer><p>zanteyard {VERSION}. The verdict comes from the auditor "
            f"({escaped(origin)}); the text and picture here only explain it.</p></footer>",
            "</body></html>",
            "",
        ]
    )


def _parts(one: Violation) -> Iterator[str]:
    """What the application ran, and why no order is left; the latter comes first if it has the
    pictures."""
    ran, reasons = [*_ran(one.told)], [*reasons_part(one.story)]
    yield from (*reasons, *ran) if one.story.reasons.cases else (*ran, *reasons)


def _capital(text: str) -> str:
    return text[:1].upper() + text[1:]


def _head(one: Violation) -> Iterator[str]:
    meaning = meaning_of(one.title)
    yield '<section class="state violated">'
    yield f"<h1>{escaped(_capital(one.title))}</h1>"
    if meaning:
        yield f"<p>{escaped(_capital(meaning))}.</p>"
    reasons = one.story.reasons
    if one.story.anomaly is None and reasons.cases:
        yield f"<p>{escaped(neither(reasons), 600)}</p>"
    else:
        yield f"<p>{escaped(_capital(one.sentence), 600)}.</p>"
    if one.allowed:
        yield f"<p>{escaped(_capital(one.allowed))}.</p>"
    yield from (f"<p>It {escaped(line)}.</p>" for line in one.story.standing.lines())
    yield (
        f'<p class="soft">Found at {clock(one.at)}, in round {one.round}, among '
        f"{counted(sum(one.story.counts), 'transaction')}.</p></section>"
    )


def _ran(told: Sequence[Told]) -> Iterator[str]:
    yield f"<h2>What the application ran, {WHOSE_TIMES}</h2>"
    for one in told:
        yield f'<details class="transaction" id="{html_text(one.label)}" open>'
        yield f"<summary>{html_text(one.label)}: {_whose(one)}</summary>"
        if one.its is None:
            yield "<p>No details are known.</p></details>"
            continue
        yield f'<p class="soft">{_facts(one, one.its)}</p>'
        if one.its.statements:
            yield '<div class="ran">'
            none: Sequence[Sequence[str]] = ((),) * len(one.its.statements)
            for statement, reads in zip(one.its.statements, (*one.reads, *none)):
                yield from _statement(statement, reads)
            yield "</div>"
        if one.its.statements_dropped:
            its = counted(one.its.statements_dropped, "more statement")
            yield f"<p>The text of {its} wasn’t kept.</p>"
        yield "</details>"
    yield f'<p class="soft">{MORE}</p>'


def _whose(one: Told) -> str:
    its = one.its
    if its is None:
        return f"transaction {one.id[0]}.{one.id[1]}"
    return escaped(its.application, 80) or escaped(its.client, 200) or "an application"


def _whence(its: Described) -> Sequence[str]:
    """The client's address and user, unless the heading shows them because the application has no
    name."""
    address = f"from {escaped(its.address, 80)}" if its.address else ""
    return [address, f"as {escaped(its.user, 80)}" if its.user else ""] if its.application else []


def _facts(one: Told, its: Described) -> str:
    facts = [
        *_whence(its),
        escaped(its.level) if its.level not in ("", "unknown") else "",
        escaped(its.outcome) if its.outcome == ROLLED_BACK else "",
        f"began at {clock(its.began)}" if its.began else "",
        f"ended at {clock(its.ended)}" if its.ended else "",
        f"the server’s number {its.xid}" if its.xid else "",
        f"the auditor’s {one.id[0]}.{one.id[1]}",
    ]
    return ", ".join(fact for fact in facts if fact)


def _statement(one: Statement, reads: Sequence[str]) -> Iterable[str]:
    yield f'<span class="at">{clock(one.at)}</span><div>'
    if one.origin:
        yield f'<span class="origin">{escaped(one.origin, 300)}</span>'
    values = f"\n-- {visible(one.values)}" if one.values else ""
    yield f"<pre>{escaped_lines(one.plain)}{html_lines(values)}</pre>"
    yield from (f'<span class="read">{escaped(line, 300)}</span>' for line in reads)
    if one.unseen:
        yield f'<span class="soft">Not seen: {escaped("; ".join(one.unseen), 300)}.</span>'
    yield "</div>"


def _again(one: Violation, is_file: bool) -> Iterator[str]:
    name = f"violation-{one.number}.jsonl"
    link = f'<a href="/violation/{one.number}.jsonl" download="{name}">{name}</a>'
    yield "<h2>See it again</h2>"
    yield (
        f"<p>The same violation as a script: {name if is_file else link}. "
        f"{AGAIN[one.story.promise.is_split]}</p>"
    )
    yield f"<pre>{html_lines(one.story.script)}</pre>"
    yield "<h2>Before you accuse the application</h2><ul>"
    questions = SNAPSHOT_QUESTIONS if one.story.promise.is_split else QUESTIONS
    yield "".join(f"<li>{line}</li>" for line in (*questions, *BEFORE_YOU_ACCUSE[2:]))
    yield "</ul>"


AGAIN = {
    False: "<code>zanteyard check</code> reports the same violation, and "
    "<code>cobra_audit</code> prints its refutation.",
    True: "<code>zanteyard check --promise snapshot</code> reports the same violation.",
}
QUESTIONS = (
    "Did you intend this isolation level? At read committed, PostgreSQL’s default, and at "
    "repeatable read the server allows such violations: these levels promise less.",
    "Does it matter here? The application may not rely on what it read.",
    "The usual remedies: serializable for these transactions, with retries; a lock (<code>SELECT "
    ".. FOR UPDATE</code>); or a single statement that reads and writes.",
)
SNAPSHOT_QUESTIONS = (
    "Did you intend this isolation level? At read committed, PostgreSQL’s default, the server "
    "allows such violations: that level promises less. At repeatable read and serializable it "
    "rules them out.",
    QUESTIONS[1],
    "The usual remedies: repeatable read or serializable for these transactions, with retries; a "
    "lock (<code>SELECT .. FOR UPDATE</code>); or a single statement that reads and writes.",
)
