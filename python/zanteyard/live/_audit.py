"""One audit of a live run: it takes in what waits, runs rounds, and makes room by cuts."""

import logging
import time
from collections import Counter
from collections.abc import Iterable, Sequence

from ..core._outcome import Outcome, kind_of
from ..core._own_keys import FENCE, LONGEST
from ..core._records import AuditId, Cut, Logged, Pending, Report, StoreId, never_came
from ..core._verdict_kinds import Kind
from ..program._tenancy import Tenancy
from ..program._window import SESSIONS, Coverage
from ..core.errors import AuditLostError, FullError, NoCutError, NotAnchoredError
from ..explain._shrinking import is_collectors_own
from ..program._auditor import Auditor
from ..program._offers import Fragment
from ._backlog import Backlog, HandedIn
from ._figures import Figures
from ._fragments import fragments
from ._told import ClientTold, RoundTold, Teller

logger = logging.getLogger("zanteyard")
MEANWHILE = 0.04  # seconds during which more transactions arrive while a round is searched


class Audit:
    """One audit, for one thread at a time, except `outcome`. `counted` is how many transactions had
    been handed in when it began, `earlier` are the outcomes of the audits before it, and `closed`
    are the sessions that have ended and may return."""

    def __init__(
        self,
        auditor: Auditor,
        backlog: Backlog,
        figures: Figures,
        teller: Teller,
        run_name: str,
        coverage: Coverage,
        counted: int = 0,
        earlier: tuple[Outcome, ...] = (),
        tenancy: Tenancy | None = None,
        closed: Iterable[int] = (),
    ) -> None:
        self._auditor, self._backlog, self._figures = auditor, backlog, figures
        self._teller, self._coverage, self._counted = teller, coverage, counted
        self.earlier = earlier
        self.name = f"{run_name}, audit {len(earlier) + 1}" if earlier else run_name
        self.began = time.monotonic()
        self.why_no_cut: str | None = None  # what was wrong with the last meeting
        self.taken_in = 0
        self._told_of = 0  # how many of these the last round covered
        self._behind = 0.0  # the longest that one of them waited since the last round, in seconds
        self.report: Report | None = None
        self.left_out = 0  # reads whose source the audit doesn't cover
        self.from_before = 0  # reads of versions from before this audit
        self._pending: tuple[Pending, ...] = ()
        self._is_collectors_own = False
        self._tenancy = tenancy or Tenancy()
        self._closed: set[int] = {*closed}
        # By session, what waits for the session to join after a fence that isn't taken in yet.
        self._held: dict[int, list[HandedIn]] = {}
        self._is_searched = False  # a round; no session joins meanwhile

    @property
    def handed_in(self) -> int:
        """How many transactions clients and meetings have handed in."""
        return self._backlog.counted - self._counted

    @property
    def is_violated(self) -> bool:
        return self.report is not None and self.report.kind == Kind.VIOLATED

    @property
    def has_news(self) -> bool:
        """Whether something was taken in after the last round."""
        return self.taken_in > self._told_of

    def outcome(self, has_ended: bool, failure: Exception | None) -> Outcome:
        audited = sum(self.report.counts) if self.report else 0
        kind: str = Kind.RUNNING
        handed_in = self.handed_in
        if self.is_violated or has_ended:
            kind = kind_of(self.report, failure, audited >= handed_in)
        if self._is_collectors_own:
            kind = Kind.COLLECTOR
        return Outcome(
            kind,
            audited,
            max(audited, handed_in),
            failure,
            self._pending,
            self.report,
            self.name,
            self.left_out,
            self.earlier,
            self.from_before,
        )

    # what waits

    @property
    def reserve(self) -> int:
        """Room that is kept for a meeting's own transactions."""
        return 4 * max(1, self._auditor.sessions - len(self._closed))

    def take_in_all(self, count: int) -> None:
        """Takes in this many waiting transactions."""
        while count > 0 and not self.is_violated:
            count -= self.take_in(count)

    def take_in(self, most: int = LONGEST) -> int:
        """Takes in what waits, at most this many, and returns how many it took. Raises FullError if
        there is no room, and what the auditor raises."""
        held = sum(map(len, self._held.values()))
        free = self._auditor.limit - self._auditor.remaining - self.reserve
        self._backlog.leave_room(free - held)
        waiting = self._backlog.take(min(most, LONGEST))
        if waiting:
            self._take(self._without_held(waiting))
            self._let_join()
            self._behind = max(self._behind, time.monotonic() - waiting[0][0])
        return len(waiting)

    def _take_in_what_fits(self) -> None:
        """Takes in what waits, if there is room without a cut."""
        held = sum(map(len, self._held.values()))
        free = self._auditor.limit - self._auditor.remaining - self.reserve - held
        if free > 0:
            self.take_in(free)

    def _take(self, taken: Sequence[HandedIn], joining: Sequence[int] = ()) -> None:
        offers = [
            (session, self._covered(session, number), logged)
            for _, session, number, logged in taken
            if number is not None and logged is not None
        ]
        self._offer_all(fragments(offers, self._auditor.longest), joining)
        for came, session, number, _ in taken:
            if number is None:
                if came >= self._backlog.reopened.get(session, 0.0):
                    self._close(session)
            else:
                self._tell_first(session, number, session in joining)
            self._backlog.note_taken(session, number)

    def _close(self, session: int) -> None:
        """Closes the session after everything that it did. An earlier process may have closed it
        already."""
        is_there = session not in self._closed and session < self._auditor.sessions
        if is_there and not self._auditor.closed[session]:
            self._backlog.put_ends(self._auditor.written_last[session])
            self._auditor.close(session)
        self._closed.add(session)

    def _tell_first(self, session: int, number: int, joins: bool) -> None:
        client = self._tenancy.first_of(session, number)
        if client is not None:
            self._teller.client(ClientTold(client, session, number, joins))

    # sessions that join

    def _without_held(self, taken: Sequence[HandedIn]) -> list[HandedIn]:
        """Holds back what has to wait until its session has joined; returns the rest."""
        ready: list[HandedIn] = []
        for handed_in in taken:
            _, session, number, _ = handed_in
            if session in self._held or self._joins(session, number):
                self._held.setdefault(session, []).append(handed_in)
            else:
                ready.append(handed_in)
        return ready

    def _joins(self, session: int, number: int | None) -> bool:
        if number is None or self._covered(session, number) is None:
            return False
        return session in self._closed or session >= self._auditor.sessions

    def _let_join(self) -> None:
        """Lets sessions join whose fences read from something taken in. One may have read from
        another's fence, and new sessions join in the order of their numbers. None joins while a
        round is searched."""
        if self._is_searched:
            return
        while not self.is_violated:
            ready = [session for session in sorted(self._held) if self._may_join(session)]
            if not ready:
                break
            held = self._held[ready[0]]
            self._join(ready[0], held)
            del self._held[ready[0]]
        if sum(map(len, self._held.values())) > self._backlog.most:
            raise AuditLostError(self._why_held() or "")

    def _may_join(self, session: int) -> bool:
        source = self._fence_of(session)
        is_next = session <= self._auditor.sessions
        return is_next and (source is None or self._backlog.is_taken(*source))

    def _fence_of(self, session: int) -> StoreId | None:
        """The fence that the first transaction of a joining session has read; None if it read
        none."""
        logged = self._held[session][0][3]
        assert logged is not None
        sources = [source for key, source in logged.reads if key == FENCE and source != "init"]
        return StoreId((sources[0][0], sources[0][1])) if sources else None

    def _join(self, session: int, held: Sequence[HandedIn]) -> None:
        source = self._fence_of(session)
        longest = self._auditor.longest
        try:
            self._take(held[:longest], (session,))
        except NotAnchoredError as error:
            message = f"session {session} can't join: its client's fence read "
            message += f"from {source[0]}.{source[1]}" if source else (
                "from none of this audit's fences"
            )
            raise AuditLostError(f"{message}, not from the last one") from error
        for start in range(longest, len(held), longest):
            self._take(held[start : start + longest])

    def drop_held(self) -> None:
        """Drops what still waits to join. No audit wants it any more, so its senders needn't keep
        it."""
        for _, session, number, _ in (
            handed_in for held in self._held.values() for handed_in in held
        ):
            self._backlog.note_taken(session, number)
        self._held.clear()

    def _why_held(self) -> str | None:
        """A message about what still waits to join; None if nothing does."""
        for session in sorted(self._held):
            source = self._fence_of(session)
            if source is not None and not self._backlog.is_taken(*source):
                fence = f"{source[0]}.{source[1]}"
                return f"session {session} was to join after the fence {fence}, which never arrived"
        return f"session {min(self._held)} never joined" if self._held else None

    def vacant(self) -> dict[int, int]:
        """The sessions that may return, each with the number of its next transaction."""
        if not self._closed:
            return {}
        received = self._auditor.received
        following = {
            session: self._coverage.number_there(session, received[session])
            for session in self._auditor.vacant
        }
        return {session: number for session, number in following.items() if number is not None}

    def covers(self, session: int, number: int) -> bool:
        """Whether this audit covers the transaction."""
        return self._covered(session, number) is not None

    def _covered(self, session: int, number: int) -> int | None:
        """The transaction's number in this audit; None if it isn't audited."""
        if session >= max(SESSIONS, self._auditor.sessions):
            return None
        return self._coverage.number(session, number)

    def called(self, id: AuditId) -> str:
        """The transaction's name in reports, with its client if the session had several."""
        number = self._coverage.number_there(*id)
        return self._tenancy.called(id, id[1] if number is None else number)

    def _offer_all(self, offered: Sequence[Fragment], joining: Sequence[int] = ()) -> None:
        refused = self._auditor.offer_all(offered, joining)
        self._closed.difference_update(joining)
        self.taken_in += sum(len(txns) for _, _, txns in offered)
        self.taken_in -= sum(len(txns) for _, _, txns in refused)
        if not refused:
            return
        self.run_round()  # a cut may make room
        for session, first, txns in () if self.is_violated else refused:
            for number, logged in enumerate(txns, first):
                self._offer(session, number, logged, session in joining and number == first)

    def _offer(self, session: int, number: int, logged: Logged, joins: bool) -> None:
        try:
            (self._auditor.join if joins else self._auditor.offer)(session, number, logged)
        except FullError as error:
            why = f": {self.why_no_cut}" if self.why_no_cut else ""
            limit = self._auditor.limit
            raise FullError(f"{limit} transactions remain, which is the limit{why}") from error
        self.taken_in += 1

    # rounds

    def is_round_due(self, seconds: float) -> bool:
        """Whether a round is due: something is new, and this many seconds have passed since the
        last round."""
        return self.has_news and time.monotonic() - self._figures.told_at >= seconds

    def run_round(self, no_cut: str | None = None, goes_on: bool = False) -> None:
        """Runs a round over everything taken in so far, and a cut after it unless `no_cut` gives a
        reason against that; then reports the round. With `goes_on`, it takes in more during the
        search."""
        no_cut, count = no_cut or self.why_no_cut, self.taken_in
        wrong = self._go_on_while_it_is_made() if goes_on else None
        self.report = report = self._auditor.last_round()
        self.left_out, self.from_before = self._auditor.left_out, self._auditor.from_before
        figures = self._figures
        figures.rounds += 1
        figures.kinds[report.kind] = figures.kinds.get(report.kind, 0) + 1
        if figures.awaited is not None:
            figures.awaited = self._awaited()
        cut, no_cut = (None, no_cut) if no_cut else self._cut(report)
        now = time.monotonic()
        rate = (count - self._told_of) / max(now - figures.told_at, 0.001)
        figures.told_at, self._told_of = now, count
        figures.lag = max(figures.lag, self._behind)
        figures.told_behind, self._behind = self._behind, 0.0
        its = (report, count, rate, figures.told_behind, self._auditor.remaining, cut, no_cut)
        self._teller.round(RoundTold(*its))
        if wrong is not None:
            raise wrong
        if goes_on:
            self._let_join()

    def _go_on_while_it_is_made(self) -> Exception | None:
        """Takes in what waits until the report is ready. Returns the first error, to be raised
        after the report."""
        wrong: Exception | None = None
        self._auditor.begin_round()
        self._is_searched = True
        try:
            while not self._auditor.has_round(MEANWHILE):
                try:
                    if wrong is None:
                        self._take_in_what_fits()
                except Exception as error:
                    wrong = error
        except Exception as error:
            raise wrong or error  # the first one is the reason for the other
        finally:
            self._is_searched = False
        return wrong

    def _awaited(self) -> dict[int, int]:
        if self.report is None or self.report.kind != Kind.PENDING:
            return {}
        reads = never_came(self._auditor.history, self._auditor.marks)
        return dict(Counter(read.source[0] for read in reads))

    def _cut(self, report: Report) -> tuple[Cut | None, str]:
        """What was forgotten; or None and the reason, which is empty if the verdict is the
        reason."""
        if report.kind not in (Kind.SERIAL, Kind.PENDING):
            return None, ""
        try:
            cut = self._auditor.truncate()
        except NoCutError:
            return None, "no fence was settled"
        self._figures.cuts += 1
        self._figures.cut_at = time.monotonic()
        self._forget_clients()
        return cut, ""

    def _forget_clients(self) -> None:
        marks = self._auditor.marks
        there = (self._coverage.number_there(session, mark) for session, mark in enumerate(marks))
        self._tenancy.forget([number or 0 for number in there])

    # its end

    def find_held(self) -> None:
        """Raises AuditLostError if something that was handed in was never taken in."""
        why = self._why_held()
        if why is not None and not self.is_violated:
            raise AuditLostError(why)

    def find_pending(self) -> None:
        """Finds the reads that are still pending."""
        if self.report is not None and self.report.kind == Kind.PENDING:
            self._pending = tuple(never_came(self._auditor.history, self._auditor.marks))

    def find_whose(self) -> None:
        """Finds out whether only the collector's own transactions are violated, and not the
        clients'."""
        if self.is_violated:
            self._is_collectors_own = is_collectors_own(self._auditor)
        if self._is_collectors_own:
            logger.error(
                "only the collector's own fences and marks are violated, no client's transaction"
            )
