"""A story about a history: the verdict in a sentence, the few transactions that show it, and why.

A story is plain data, which can be printed as lines and drawn on a page.
"""

from __future__ import annotations

from collections.abc import Iterable, Iterator, Sequence
from dataclasses import dataclass, replace
from typing import Any, overload

from ..core._circumstances import caller_of, circumstances, clock_of, values_of
from ..core._records import AuditId, History, Logged, Naming, Pending, ShownId
from ..core._verdict_kinds import Kind
from ..promises._kinds import SERIALIZABLE, Promise
from ._anomalies import Anomaly, anomaly_in, meaning_of
from ._arcs import transaction_of
from ._audited import Holding, audited_apart, from_start, refuted
from ._explanation import Explanation, Reasons, laid_out
from ._reasons import explanation_of
from ..scripts._names import PART, REST
from ..scripts._running import ScriptHistory, Verdict
from ._shrinking import SECONDS, SMALL, smaller
from ._standing import Apart, Standing, standing
from ._words import version as version_text
from ._words import words

EXPLAINED = SECONDS  # seconds that reducing the history may take
SHOWN = 12  # transactions of an order, and waiting reads, that are shown of a long list
MOST_LINES = 240  # about the transactions of a violation that couldn't be made small


@dataclass(frozen=True)
class ShownAccess:
    """One read or write. `statement` is what was run for it, and `returned` its value, if the
    collector has logged these; else they are empty."""

    text: str
    statement: str = ""
    returned: str = ""


@dataclass(frozen=True)
class Step:
    """A transaction as it is shown. `clock` is the time of day, and `caller` the file and line, if
    the collector has logged these; else they are empty."""

    id: ShownId
    name: str
    outcome: str
    deeds: tuple[ShownAccess, ...]
    sources: tuple[ShownId, ...] = ()  # the transactions from which it read
    clock: str = ""
    caller: str = ""


@dataclass(frozen=True)
class Story:
    """A verdict and its explanation."""

    kind: str
    counts: tuple[int, ...] = ()  # how many transactions of each session the verdict covers
    anomaly: Anomaly | None = None
    steps: tuple[Step, ...] = ()
    reasons: Reasons = Reasons()  # why no order is left
    lines: tuple[str, ...] = ()  # the transactions, as text
    seen: tuple[str, ...] = ()  # when and where they began and what values they had, if known
    because: tuple[str, ...] = ()  # the reasons, as text
    script: str = ""  # with which the auditor alone reports the same
    order: Sequence[str] = ()  # of a serial or pending verdict
    waiting: tuple[str, ...] = ()  # the reads that wait for a transaction
    promise: Promise = SERIALIZABLE  # that the verdict is about
    standing: Standing = Standing()  # what else a violation breaks, and what it doesn't
    others: tuple["Story", ...] = ()  # violations that are independent of this one
    are_all_found: bool = True  # whether there are no more than these

    @property
    def sentence(self) -> str:
        """The verdict in words."""
        return self.promise.sentence(self.kind)

    def with_standing(self, standing: Standing) -> Story:
        """The story with what the violation breaks and keeps. A name that contradicts this is left
        out: names are an aid, and what is kept was checked."""
        if self.anomaly is not None and self.anomaly.contradicts(standing.kept):
            return replace(self, anomaly=None, standing=standing)
        return replace(self, standing=standing)


class NamedOrder(Sequence[str]):
    """The names of an order's transactions, each of which is looked up when it is wanted."""

    def __init__(self, certificate: Sequence[Sequence[Any]], history: ScriptHistory) -> None:
        """`certificate` is the order as a report has it."""
        self._certificate, self._history = certificate, history

    @overload
    def __getitem__(self, at: int) -> str: ...

    @overload
    def __getitem__(self, at: slice) -> tuple[str, ...]: ...

    def __getitem__(self, at: int | slice) -> str | tuple[str, ...]:
        if isinstance(at, slice):
            return tuple(map(self._name, self._certificate[at]))
        return self._name(self._certificate[at])

    def __len__(self) -> int:
        return len(self._certificate)

    def _name(self, half: Sequence[Any]) -> str:
        session, number, *event = half
        return " ".join([self._history.called(AuditId((session, number))), *event])


def verdict_story(
    verdict: Verdict, history: ScriptHistory, promise: Promise = SERIALIZABLE
) -> Story:
    """The story of a verdict other than violated."""
    order: Sequence[str] = ()
    if verdict.kind in (Kind.SERIAL, Kind.PENDING):
        order = NamedOrder(verdict.certificate, history)
    waiting: tuple[str, ...] = ()
    if verdict.kind is not Kind.SERIAL:  # in which no read waits
        waiting = tuple(_waits(history, read) for read in history.pending())
    counts = tuple(verdict.counts)
    return Story(verdict.kind, counts, order=order, waiting=waiting, promise=promise)


def _waits(history: ScriptHistory, read: Pending) -> str:
    """A line about a read that waits for a transaction."""
    reader = history.called(read.reader)
    if (reader, read.key) == (PART, REST):
        return f"{REST} wasn't imported (--first)"
    return f"{reader} read {read.key} from {history.called(read.source)}, which hasn't arrived"


def violation_story(
    auditor: Holding,
    program: str,
    counts: Sequence[int] = (),
    seconds: float = EXPLAINED,
    certificate: Sequence[Any] = (),
    promise: Promise = SERIALIZABLE,
) -> Story:
    """The story of a violated history, and of the violations in it that are independent of the
    first. `certificate` is that of the auditor's last round. Takes up to four times
    `seconds`."""
    history, names = from_start(auditor)
    small = smaller(history, program, seconds, refuted(auditor, certificate), promise)
    apart = Apart(history, program, promise)
    others = tuple(
        _story_in(other, names, program, (), seconds, promise)
        for other in apart.others(small, seconds)
    )
    story = _story_in(small, names, program, counts, seconds, promise)
    return replace(story, others=others, are_all_found=apart.are_all_found)


def _story_in(
    small: History,
    names: Naming,
    program: str,
    counts: Sequence[int],
    seconds: float,
    promise: Promise,
) -> Story:
    refuted = audited_apart(small, program, promise)
    explanation = explanation_of(refuted, small, names)
    story = story_of(small, names, explanation, refuted.script, counts, promise)
    return story.with_standing(standing(small, program, promise, seconds))


def story_of(
    history: History,
    names: Naming,
    explanation: Explanation,
    script: str = "",
    counts: Sequence[int] = (),
    promise: Promise = SERIALIZABLE,
) -> Story:
    """The story of a violated history that is small already."""
    arcs = explanation.all_arcs()
    ends = {transaction_of(end) for arc in arcs for end in arc.ends}
    return Story(
        Kind.VIOLATED,
        tuple(counts),
        anomaly_in(explanation, history, names),
        tuple(_steps(history, names, ends)),
        laid_out(explanation),
        tuple(words(history, names)),
        tuple(circumstances(history, names)),
        explanation.lines,
        script,
        promise=promise,
    )


def _steps(history: History, names: Naming, named: Iterable[ShownId]) -> Iterator[Step]:
    """The transactions that did something, and those that a link names."""
    named = set(named)
    for session, transactions in enumerate(history):
        for number, logged in enumerate(transactions):
            id = ShownId((session, number))
            if logged.reads or logged.writes or logged.outcome == "aborted" or id in named:
                sources = tuple(source for _, source in logged.reads if source != "init")
                yield Step(
                    id,
                    names(id),
                    logged.outcome,
                    tuple(_deeds(logged, names)),
                    sources,
                    clock_of(logged),
                    caller_of(logged),
                )


def _deeds(logged: Logged, names: Naming) -> Iterator[ShownAccess]:
    statements: dict[Any, str] = dict(logged.statements)
    values = values_of(logged)
    did_read, did_write = logged.did
    for key, source in did_read:
        text = f"read {key} {version_text(key, source, names)}"
        yield ShownAccess(text, statements.get((key, source), ""), values.get(("read", key), ""))
    for key in did_write:
        yield ShownAccess(
            f"wrote {key}", statements.get((key,), ""), values.get(("wrote", key), "")
        )


def story_lines(story: Story, tells_all: bool = False) -> Iterator[str]:
    """The story as text, for a terminal; other violations as one line each, or in full."""
    yield from _one_story(story)
    count = len(story.others)
    if count:
        what = "violation" if count == 1 else "violations"
        more = "" if story.are_all_found else ", and there may be more"
        hint = "" if tells_all else " (--all explains each in full)"
        yield f"{count} more independent {what}{more}{hint}"
    elif not story.are_all_found:
        yield "(there was no time to look for independent violations)"
    for at, other in enumerate(story.others[: None if tells_all else SHOWN], 2):
        if tells_all:
            yield f"violation {at}:"
            yield from (f"  {line}" for line in _one_story(other))
        else:
            yield f"    {line_of(other)}"
    if len(story.others) > SHOWN and not tells_all:
        yield f"    and {len(story.others) - SHOWN} more like these"


def line_of(story: Story) -> str:
    """A violation as one line."""
    if story.anomaly is not None:
        return f"{story.anomaly.name}: {story.anomaly.sentence}"
    return "without a name: " + ", ".join(step.name for step in story.steps)


def _one_story(story: Story) -> Iterator[str]:
    yield f"{story.kind}: {story.sentence}"
    if story.anomaly is not None:
        meaning = meaning_of(story.anomaly.name)
        yield f"  {story.anomaly.name}" + (f" ({meaning}):" if meaning else ":")
        yield f"  {story.anomaly.sentence}"
    if len(story.steps) > SMALL:
        yield f"  (it wasn't made smaller than {len(story.steps):,} transactions)"
    for line in story.lines[:MOST_LINES]:
        yield f"    {line}"
    if len(story.lines) > MOST_LINES:
        yield f"    and {len(story.lines) - MOST_LINES:,} more lines like these"
    if story.seen:
        yield "as the clients saw it"
    for line in story.seen[:MOST_LINES]:
        yield f"    {line}"
    if story.because:
        yield "because"
    for line in story.because:
        yield f"    {line}"
    yield from story.standing.lines()
    if story.order:
        between = ", " if any(" " in name for name in story.order[:SHOWN]) else " "
        yield f"  one such order: {_front(story.order, between)}"
    for line in story.waiting[:SHOWN]:
        yield f"    {line}"
    if len(story.waiting) > SHOWN:
        yield f"    and {len(story.waiting) - SHOWN} more reads like these"


def _front(items: Sequence[str], between: str) -> str:
    more = len(items) - SHOWN
    return between.join(items[:SHOWN]) + (f" .. and {more} more" if more > 0 else "")
