"""The outcome of an audit, and the policy for an audit that can't keep up with its clients."""
from collections.abc import Mapping, Sequence
from dataclasses import dataclass
from typing import Any

from ._records import Pending, Report
from ._verdict_kinds import Kind
from ._visible import shown

# The exit status of a command that ends with this verdict; 4 for any other.
STATUSES: Mapping[str, int] = {Kind.SERIAL: 0, Kind.VIOLATED: 1, Kind.PENDING: 3}
UNDECIDED_STATUS = 4


def exit_status(kind: str) -> int:
    """The exit status of a command that ends with this verdict."""
    return STATUSES.get(kind, UNDECIDED_STATUS)


@dataclass(frozen=True)
class Policy:
    """What gives way if the audit can't keep up. A client waits at most `wait` seconds in one call.
    After that the audit ends, with its reason. If `begins_anew` is set, a new audit then starts
    with what is done from that moment on, at most once every `pause` seconds."""

    wait: float = 0.25
    begins_anew: bool = True
    pause: float = 1.0


RATHER_LOSE_THE_AUDIT = Policy()
RATHER_WAIT = Policy(wait=30.0, begins_anew=False)


@dataclass(frozen=True)
class Outcome:
    """The result of an audit. Only the kind "serial" says that everything that clients did has one
    order.

    `kind` is "running" while more may arrive, and then one of these. "serial". "pending":
    everything was audited, but some reads name transactions that never arrived. "violated", which
    stays true whatever is missing. "the collector's own violation": its own transactions alone have
    no order.
    "undecided": the search was given up. "incomplete": something wasn't audited, and `failure` says
    why.

    `audited` of `handed_in` transactions were audited. `left_out` counts the reads that weren't
    checked, because the audit doesn't know their source. `from_before` counts the reads of versions
    that existed before the audit or that another program wrote. All such versions of a key count as
    one, its first state, so an older one that comes back isn't noticed. `earlier` are the audits
    that ended before this one began, each with its own outcome.
    """

    kind: str
    audited: int = 0
    handed_in: int = 0
    failure: Exception | None = None
    pending: tuple[Pending, ...] = ()
    report: Report | None = None
    name: str = ""
    left_out: int = 0
    earlier: tuple["Outcome", ...] = ()
    from_before: int = 0

    @property
    def is_violated(self) -> bool:
        """Whether a violation was found, be it of the collector's own transactions alone."""
        return self.kind in (Kind.VIOLATED, Kind.COLLECTOR)

    @property
    def counts(self) -> Sequence[int] | None:
        """How many transactions of each session the last round covered; None before the first
        round."""
        return self.report.counts if self.report else None

    @property
    def certificate(self) -> Any:
        """The order or the refutation of the last round; None before the first round."""
        return self.report.certificate if self.report else None

    @property
    def whole(self) -> "Outcome":
        """This audit and all earlier ones as one. Nothing is known about the time between two
        audits."""
        if not self.earlier:
            return self
        every = (*self.earlier, self)
        violated = next((outcome for outcome in every if outcome.is_violated), None)
        if violated:
            kind = violated.kind
        else:
            kind = Kind.RUNNING if self.kind == Kind.RUNNING else Kind.INCOMPLETE
        return Outcome(
            kind,
            sum(outcome.audited for outcome in every),
            sum(outcome.handed_in for outcome in every),
            next((outcome.failure for outcome in reversed(every) if outcome.failure), None),
            tuple(read for outcome in every for read in outcome.pending),
            self.report,
            self.name,
            sum(outcome.left_out for outcome in every),
            self.earlier,
            sum(outcome.from_before for outcome in every),
        )

    def __str__(self) -> str:
        parts = [f"{self.kind}: {self.audited} of {self.handed_in} transactions were audited"]
        if self.earlier:
            parts.append(f"in {len(self.earlier) + 1} audits")
        if self.left_out:
            parts.append(f"{self.left_out} reads weren't checked")
        if self.from_before:
            parts.append(words_of_before(self.from_before))
        for read in self.pending[:3]:
            reader, source = (".".join(map(str, id)) for id in (read.reader, read.source))
            parts.append(f"{reader} read {read.key} from {source}, which never arrived")
        if len(self.pending) > 3:
            parts.append(f"and {len(self.pending) - 3} more such reads")
        if self.failure:
            parts.append(str(self.failure).strip() or type(self.failure).__name__)
        return shown("; ".join(parts))


def words_of_before(reads: int) -> str:
    """A phrase for this many reads of versions whose writer the audit doesn't know."""
    what = "1 read was of a version" if reads == 1 else f"{reads} reads were of versions"
    return f"{what} from before the audit"


def kind_of(report: Report | None, failure: Exception | None, is_whole: bool) -> str:
    """The kind of an audit that has ended. A violation stays a violation, whatever is missing."""
    kind = report.kind if report else Kind.INCOMPLETE
    if kind == Kind.VIOLATED:
        return kind
    if not is_whole or failure is not None:
        return Kind.INCOMPLETE
    return Kind.UNDECIDED if kind == Kind.SPENT else kind
