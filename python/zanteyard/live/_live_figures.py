"""What is known of a live audit so far."""


from ..core._outcome import Outcome
from ..core._records import Report
from ..session._local_sessions import LocalSessions
from ..program._auditor import Auditor
from ._audit import Audit
from ._backlog import Backlog
from ._figures import Figures
from ._quiesce_coordinator import QuiesceCoordinator
from ._session_pool import SessionPool


class LiveFigures(LocalSessions):
    """May be read by any thread."""

    auditor: Auditor
    _audit: Audit  # the current one, or the last
    _backlog: Backlog
    _pool: SessionPool
    _coordinator: QuiesceCoordinator
    _figures: Figures
    _lost: Exception | None = None  # why nothing is audited until another audit begins
    _failure: Exception | None = None  # why nothing more is audited at all
    _is_stopping = _has_ended = False

    @property
    def outcome(self) -> Outcome:
        """The outcome so far, of this audit and all earlier ones together."""
        return self._audit.outcome(self._has_ended, self._failure).whole

    @property
    def name(self) -> str:
        """The name of this audit: the run's, with a number from the second audit on."""
        return self._audit.name

    @property
    def earlier(self) -> tuple[Outcome, ...]:
        """The outcomes of the audits that ended before this one began."""
        return self._audit.earlier

    @property
    def report(self) -> Report | None:
        """The report of this audit's last round; None before the first."""
        return self._audit.report

    @property
    def failure(self) -> Exception | None:
        """Why nothing more is audited, once that is so; then `outcome` isn't serial."""
        return self._failure

    @property
    def is_violated(self) -> bool:
        """Whether a violation was found, which is final."""
        return self._audit.is_violated

    @property
    def is_over(self) -> bool:
        """Whether nothing more is audited: a violation was found, or the audit has ended for
        good."""
        return self.is_violated or self._has_ended

    @property
    def handed_in(self) -> int:
        """How many transactions clients and meetings have done since this audit began."""
        return self._audit.handed_in

    @property
    def taken_in(self) -> int:
        """How many of these the auditor has been given."""
        return self._audit.taken_in

    @property
    def left_out(self) -> int:
        """How many of this audit's reads weren't checked, because it doesn't cover their source."""
        return self._audit.left_out

    @property
    def rounds(self) -> int:
        """The number of rounds in all audits."""
        return self._figures.rounds

    @property
    def cuts(self) -> int:
        """The number of cuts in all audits."""
        return self._figures.cuts

    @property
    def meetings(self) -> int:
        """The number of meetings in all audits, including failed ones."""
        return self._coordinator.meetings

    @property
    def lag(self) -> float:
        """The longest that a transaction waited to be taken in, in seconds."""
        return self._figures.lag

    @property
    def told_behind(self) -> float:
        """The same for what was taken in between the last two rounds."""
        return self._figures.told_behind

    @property
    def figures(self) -> Figures:
        """Counters over all audits."""
        return self._figures

    @property
    def counted(self) -> int:
        """How many transactions clients and meetings have handed in, in all audits."""
        return self._backlog.counted

    @property
    def waiting(self) -> int:
        """How many transactions wait to be taken in."""
        return len(self._backlog)

    @property
    def sessions_left(self) -> int:
        """How many more clients may have a session now."""
        return self._pool.free

    @property
    def lost(self) -> Exception | None:
        """Why nothing is audited until another audit begins."""
        return self._lost

    @property
    def has_ended(self) -> bool:
        """Whether nothing more is audited at all."""
        return self._has_ended
