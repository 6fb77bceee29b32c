"""Which promises a finished history keeps, and which transactions break the others."""

from collections.abc import Callable, Iterator, Mapping, Sequence
from dataclasses import dataclass, field
from enum import StrEnum

from ..core._records import History, Naming
from ..core._verdict_kinds import Kind
from ..core.errors import CantBeAskedError, OtherVersionError, ScriptMistakeError
from ..promises._kinds import (
    ALL,
    GENERALIZED,
    PREFIX,
    SERIALIZABLE,
    SESSIONLESS,
    SNAPSHOT,
    STRICT,
    STRONG_SNAPSHOT,
    WITHOUT_SESSIONS,
    Promise,
    stronger,
    weaker,
)
from ..promises._asking import MOST, MOST_SESSIONS
from ._arcs import table
from ._audited import audited, from_start, refuted
from ._report import EXPLAINED, SHOWN
from ..scripts._names import ScriptNames
from ..scripts._times import ScriptTimes
from ..scripts._running import MORE, ScriptHistory, ScriptRun, Verdict
from ._shrinking import Part, is_violated, smaller
from ._standing import listed


class Answer(StrEnum):
    """Whether a promise is kept."""

    YES = "yes"
    NO = "no"
    UNKNOWN = "unknown"
    PENDING = "so far"  # a read's writer hasn't arrived


# What has the same answer.
FOLLOWING: Mapping[Answer, Callable[[Promise], Sequence[Promise]]] = {
    Answer.YES: weaker,
    Answer.PENDING: weaker,
    Answer.NO: stronger,
    Answer.UNKNOWN: lambda _: (),
}
BEGINS = {Answer.NO: "broken", Answer.PENDING: "kept so far", Answer.UNKNOWN: "unknown"}

# Checked with the script's own lines; what these forget is forgotten for each promise.
BY_LINES = tuple(each for each in ALL if each.keeps_sessions and each != PREFIX)


@dataclass(frozen=True)
class Level:
    """Whether a promise is kept. `why` names the transactions that break it, or says why the answer
    is unknown; otherwise it is empty."""

    promise: Promise
    answer: Answer
    why: str = ""


@dataclass
class Levels:
    """Checks a script for all promises, the strongest first. What follows from an answer isn't
    checked again. `seconds` limits how long reducing a violated history may take, for each
    promise."""

    program: str
    lines: Sequence[bytes]
    names: ScriptNames | None = None
    times: ScriptTimes | None = None
    most_nodes: int = MORE[1][0]
    seconds: float = EXPLAINED
    _found: dict[Promise, Level] = field(default_factory=dict)
    _history: ScriptHistory = field(default_factory=ScriptHistory)
    _small: dict[Promise, History] = field(default_factory=dict)
    _called: dict[Promise, Naming] = field(default_factory=dict)  # the transactions in these
    _is_whole: bool = False  # nothing of it is forgotten, or was handed over
    _asked: Promise = SERIALIZABLE  # the one that is being checked

    def doing(self) -> str:
        """What it is doing, for a person who waits. Any thread may call this."""
        return f"checking {self._asked.title}"

    def found(self) -> list[Level]:
        """One level for each promise. Raises ScriptMistakeError if the script is wrong, and
        ProgramEndedError."""
        self._ask(SERIALIZABLE)  # this also reads what is in the script
        for promise in ALL:
            if promise not in self._found:
                self._ask(promise)
        return [self._found[promise] for promise in ALL]

    def _ask(self, promise: Promise) -> None:
        self._asked = promise
        if promise.is_timed and self.times is None:
            self._note(Level(promise, Answer.UNKNOWN, "the script has no times"))
            return
        try:
            level = self._by_lines(promise) if promise in BY_LINES else self._by_history(promise)
        except (CantBeAskedError, OtherVersionError) as error:
            level = Level(promise, Answer.UNKNOWN, str(error))
        except ScriptMistakeError as error:
            if promise == SERIALIZABLE:
                raise
            level = self._by_few(promise) or Level(promise, Answer.UNKNOWN, str(error))
        self._note(level)

    def _note(self, level: Level) -> None:
        """Notes a level, with what follows from it."""
        self._found[level.promise] = level
        for promise in FOLLOWING[level.answer](level.promise):
            known = self._found.get(promise)
            if known is None or known.answer == Answer.UNKNOWN:
                self._found[promise] = Level(promise, level.answer, level.why)

    def _by_lines(self, promise: Promise) -> Level:
        with ScriptRun(
            self.program, self.most_nodes, self.names, promise, lambda: self.times
        ) as run:
            for verdict in run.verdicts(self.lines):
                if verdict.kind == Kind.VIOLATED:
                    break  # violated is final
            assert run.verdict is not None
            if promise == SERIALIZABLE:
                self._history = run.history
                self._is_whole = not any(run.history.marks) and not run.is_resumed
            return self._level(promise, run.verdict, run.history)

    def _level(self, promise: Promise, verdict: Verdict, history: ScriptHistory) -> Level:
        if verdict.kind == Kind.VIOLATED:
            return Level(promise, Answer.NO, self._by_whom(promise, verdict, history))
        if verdict.kind == Kind.SERIAL:
            return Level(promise, Answer.YES)
        if verdict.kind == Kind.PENDING:
            return Level(promise, Answer.PENDING, "a read names a transaction that hasn't arrived")
        return Level(promise, Answer.UNKNOWN, "the search ran out of its budget")

    def _by_few(self, promise: Promise) -> Level | None:
        """The level if a few transactions that break a stronger promise break this one, too: then
        the whole history does. None if they don't, or there are none."""
        for other in stronger(promise):
            few = self._small.get(other)
            if few is not None and len(Part.of(few).txns) <= MOST_SESSIONS:
                if is_violated(few, self.program, promise):
                    self._small[promise], self._called[promise] = few, self._called[other]
                    return Level(promise, Answer.NO, _told(few, self._called[other]))
        return None

    def _by_whom(self, promise: Promise, verdict: Verdict, history: ScriptHistory) -> str:
        whole, names = from_start(history)
        known = refuted(history, verdict.certificate)
        small = smaller(whole, self.program, self.seconds, known, promise)
        self._small[promise], self._called[promise] = small, names
        return _told(small, names)

    def _by_history(self, promise: Promise) -> Level:
        """Checks promises that can't be checked with the script's lines: without session order, or
        when fences can't be told apart from other transactions. The answer is unknown for a history
        that isn't whole."""
        if not self._is_whole:
            return Level(promise, Answer.UNKNOWN, "the script forgets, or resumes another one")
        whole, names = from_start(self._history)
        if not promise.keeps_sessions:
            return self._without_sessions(promise, whole, names)
        if self._history.remaining > MOST // 2:  # each becomes two
            why = f"the script has more than {MOST // 2:,} transactions"
            return Level(promise, Answer.UNKNOWN, why)
        report = audited(whole, self.program, promise)[0]
        verdict = Verdict(report.kind, 0, report.counts, report.certificate, 0)
        return self._level(promise, verdict, self._history)

    def _without_sessions(self, promise: Promise, whole: History, names: Naming) -> Level:
        """Checks a promise without session order. Each transaction needs a session of its own, so
        only few can be checked; but if a few break the promise, the whole history does."""
        part = Part.of(whole, promise)
        if len(part.txns) <= MOST_SESSIONS:
            kind = audited(whole, self.program, promise)[0].kind
            if kind != Kind.VIOLATED:
                return self._level(promise, Verdict(kind, 0, (), (), 0), self._history)
            small = smaller(whole, self.program, self.seconds, (), promise)
            return Level(promise, Answer.NO, _told(small, names))
        (kept_in_order,) = [one for one, other in WITHOUT_SESSIONS.items() if other == promise]
        few = self._small.get(kept_in_order)
        if few is not None and len(Part.of(few).txns) <= MOST_SESSIONS:
            if is_violated(few, self.program, promise):
                return Level(promise, Answer.NO, _told(few, names))
        why = f"the script has more than {MOST_SESSIONS} transactions, and each takes a session"
        return Level(promise, Answer.UNKNOWN, why)


def _told(small: History, names: Naming) -> str:
    ids = [id for id, logged in table(small).items() if logged.reads or logged.writes]
    return ", ".join(names(id) for id in ids[:SHOWN]) + (", .." if len(ids) > SHOWN else "")


# The layout of the promises: each one implies those to its right and below it.
COLUMNS = ("in order of time", "in session order", "in any order")
ROWS = (
    ("serializability", (STRICT, SERIALIZABLE, SESSIONLESS)),
    ("snapshot isolation", (STRONG_SNAPSHOT, SNAPSHOT, GENERALIZED)),
    ("prefix consistency", (None, PREFIX, None)),
)


def levels_lines(levels: Sequence[Level]) -> Iterator[str]:
    """A table of the answers, followed by the transactions that break each promise."""
    answers = {level.promise: level for level in levels}
    width = max(map(len, COLUMNS)) + 2
    names = max(len(name) for name, _ in ROWS) + 2
    yield " " * names + "".join(column.ljust(width) for column in COLUMNS).rstrip()
    for name, row in ROWS:
        cells = [answers[promise].answer if promise else "" for promise in row]
        yield (name.ljust(names) + "".join(cell.ljust(width) for cell in cells)).rstrip()
    told: dict[tuple[Answer, str], list[Promise]] = {}
    for level in levels:
        if level.answer != Answer.YES:
            told.setdefault((level.answer, level.why), []).append(level.promise)
    for (answer, why), promises in told.items():
        yield f"{BEGINS[answer]}: {listed(promises)}"
        yield f"  {'by ' if answer == Answer.NO else ''}{why}"
