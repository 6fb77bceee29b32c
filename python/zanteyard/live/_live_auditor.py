"""An auditor that runs next to its clients: rounds, meetings and cuts, in a thread of its own.

Clients hand in what they did and go on. When room becomes short there is a meeting
(`session/_quiesce.py`), after which the auditor can forget what comes before the meeting's fence.
An audit ends with its outcome if it can't go on, for example because its program was killed or
can't keep up. Depending on the policy, another audit then covers what is done from that moment on
(`core/_window.py`), or nothing more is audited. The clients go on in both cases.
"""

from __future__ import annotations

import logging
import threading
import time
from collections.abc import Callable
from dataclasses import replace

from ..core._forks import is_forked
from ..core._outcome import RATHER_LOSE_THE_AUDIT, Outcome, Policy
from ..core._own_keys import LONGEST
from ..core._records import AuditId, Logged
from ..session._stores import Store
from ..program._window import SESSIONS, Coverage
from ..core.errors import AuditLostError
from ..program._auditor import Auditor
from ..program._binaries import slowness_of
from ..session._local_sessions import PATIENCE
from ..session._place import Place
from ..session._session import Session
from ._audit import Audit
from ._audit_start import coverage_from_now
from ._backlog import Backlog, keys_written_unseen
from ._crash_searches import CrashSearches
from ._figures import Figures
from ._for_processes import ForProcesses
from ._pace import Pace
from ._quiesce_coordinator import QuiesceCoordinator
from ._session_pool import SessionPool
from ._told import ClientTold, RoundTold, Tell, Teller

logger = logging.getLogger("zanteyard")
PAUSE = 0.04  # seconds to collect transactions: one line each would slow clients down
# The shortest time to the next meeting, in seconds, if clients wait for one or few sessions are
# left: after a failed meeting, and after a successful one. It doubles with each meeting without a
# cut, because meetings hold clients up and take room.
SOON, SOON_AGAIN = 0.05, 0.5
LONGEST_PAUSE = 30.0  # seconds between two attempts to start an auditor
STOPPING = 120.0  # seconds for auditing the rest when it is stopped
GIVING_UP = 1.0  # the same if an exception ends it


class LiveAuditor(ForProcesses):
    """Audits clients while they run: any number of them, 64 at a time. Safe for use by several
    threads.

    `run_name` is the name of the run, by default the auditor's.

    A meeting takes place after `every` transactions (after a quarter of that if the last one
    failed), and waits up to `patience` seconds for clients' transactions. `seconds` after the last
    round there is another one, if anything was done. A client that has done nothing for `idle`
    seconds loses its session to others until it needs one. A session without a client is closed at
    the next meeting, and can be used again once it is forgotten. Its next client joins by a fence,
    and so does the client of an additional session. At most `most` transactions may wait to be
    taken in before clients have to wait. `policy` says what gives way.

    `journal` and `round_seconds` are as in Auditor, for an auditor that has no journal yet. The
    auditor also determines the promise; under snapshot isolation there are twice as many meetings.

    With `redacts`, reports of violations have keys and the form of statements, but no constants and
    no values, and this process's sessions keep none. AuditClient has the same option for what
    leaves its process.

    Each round is a line at level INFO of the log `zanteyard`, and so is each client's first
    transaction. The auditor's thread calls `tell` with each round's line and when another audit
    begins, `on_round` with a RoundTold, and `on_client` with a ClientTold. Errors appear in
    `outcome`, and are never raised in the clients' calls.
    """

    EVERY = 2560  # if one meeting fails, there is room for two more

    def __init__(
        self,
        auditor: Auditor,
        run_name: str | None = None,
        every: int = EVERY,
        seconds: float = 2.0,
        idle: float = 30.0,
        patience: float = 1.0,
        most: int = 2048,
        tell: Tell | None = None,
        policy: Policy = RATHER_LOSE_THE_AUDIT,
        journal: str | None = None,
        round_seconds: float | None = None,
        redacts: bool = False,
        on_round: Callable[[RoundTold], object] | None = None,
        on_client: Callable[[ClientTold], object] | None = None,
    ) -> None:
        if auditor.is_resumed:
            raise ValueError("a live audit can't continue from a journal: begin another run")
        if auditor.sessions > SESSIONS:
            raise ValueError(f"a live audit has at most {SESSIONS} sessions")
        if journal is not None:
            auditor.keep_journal(journal, round_seconds)
        auditor.note_sessions()
        super().__init__(run_name if run_name is not None else auditor.run_name, policy)
        self.auditor = auditor
        self.is_named = run_name is not None or auditor.is_named
        self.token, self.redacts = auditor.token, redacts
        self._teller = Teller(tell, on_round, on_client)
        if auditor.promise.is_split:  # half the room
            every = min(every, self.EVERY // 2)
        self._pace = Pace(every, seconds, idle, patience)
        self._backlog, self._pool = Backlog(most), SessionPool(auditor.sessions)
        # This process's clients; other processes add theirs.
        self._coordinator = QuiesceCoordinator([self._group], self._pool, self._backlog)
        now = time.monotonic()
        self._figures = Figures(told_at=now, cut_at=now)
        self._audit = self._next_audit(Coverage.of_all(auditor.sessions))
        auditor.live_called = self._called
        self._cuts_seen, self._may_meet_at = self.cuts, 0.0
        self._in_vain = 0  # meetings since the last cut
        self._crash_searches = CrashSearches()
        self._at_end: list[Callable[[], object]] = []
        self._thread = threading.Thread(target=self._serve, name="zanteyard", daemon=True)
        self._thread.start()

    def session(self, store: Store, patience: float = PATIENCE) -> Session:
        """A session for a new client. `patience` is how many seconds it asks the store for an
        unknown outcome. Raises ValueError if as many clients as possible have a session. If no
        session becomes free within the policy's time, the client goes on unaudited. While the
        client joins, exceptions that don't come from the store are raised, such as those of a
        handler of SIGALRM."""
        if is_forked(self):  # the threads that hold its locks don't exist here
            return Session(self, 0, store, self.run_name, patience)
        owed: list[Place] = []  # places that no session has yet
        try:
            place = self._pool.take(self.policy.wait, owed) or self._without_place()
            if place is None:
                raise ValueError(f"no session is free: {self._no_place()}")
            return self._add_session(place, store, patience, owed)
        except BaseException:
            self._pool.put_back(owed)
            raise

    def stop(self, seconds: float = STOPPING) -> Outcome:
        """Audits everything that was handed in and returns the outcome; after this many seconds,
        what is known by then. May be called again."""
        self._is_stopping = True
        self._thread.join(seconds)
        if self._thread.is_alive():
            self.lose(AuditLostError(f"not everything handed in was audited within {seconds:g} s"))
            self._failure, self._has_ended = self._lost, True
        return self.outcome

    def __enter__(self) -> LiveAuditor:
        return self

    def __exit__(self, kind: type | None, *_: object) -> None:
        """As `stop`. If an exception ends the block, it doesn't wait for the rest to be audited."""
        if kind is not None:
            self.lose(AuditLostError(f"it was abandoned ({kind.__name__})"))
        self.stop(STOPPING if kind is None else GIVING_UP)

    # what sessions call

    def take(self, session: int, number: int, logged: Logged) -> None:
        """Hands in what a transaction did. Waits for room as long as the policy says."""
        self._hand_in(time.monotonic(), session, number, keys_written_unseen(logged), logged)
        if self._backlog.is_over_full and threading.current_thread() is not self._thread:
            self._wait_for_room()

    def miss(self, session: int, number: int, error: Exception) -> None:
        """Records that it is unknown whether this transaction was handed in."""
        self._backlog.count_missed(session, number)
        self.lose(error)

    def take_close(self, session: int) -> None:
        """The session does nothing more."""
        if not self._drops():
            self._backlog.put((time.monotonic(), session, None, None))

    def _wait_for_room(self, pause: float = 0.001) -> None:
        ends = time.monotonic() + self.policy.wait
        while self._backlog.is_over_full and not self._goes_on():
            if time.monotonic() > ends:
                self.lose(AuditLostError(self._no_room()))
            time.sleep(pause)

    def _no_room(self) -> str:
        """A message that says why clients would have to wait."""
        waits, room = f"{len(self._backlog)} transactions are waiting", self._backlog.room
        if room < self._backlog.most:  # it may be fast enough, and be full
            why = self._audit.why_no_cut or "the next cut hasn't been made"
            return f"the auditor has room for {room} more transactions, but {waits}: {why}"
        slow = slowness_of(self.auditor.path)
        return f"the auditor can't keep up: {waits}{slow}"

    def _renew(self, session: Session) -> Place | None:
        # If nothing is audited, nobody waits for a place.
        place = self._pool.take(0.0 if self._drops() else self.policy.wait)
        if place is None:
            self._lose_for_a_client()
        elif session.place is not None:  # its place has ended for this audit
            self._give_back(session.place)
        return place or session.place or self._pool.take_unaudited()

    def _cant_join(self, session: Session, why: Exception) -> Place | None:
        place = self._pool.take_unaudited()  # first, so that the next audit has a session for it
        self.lose(AuditLostError(
            f"a client couldn't join: {str(why).strip() or type(why).__name__}"
        ))
        self._give_back(session.place)
        return place

    def _give_back(self, place: Place) -> None:
        self._pool.give_back([place])

    # the thread

    def _serve(self) -> None:
        try:
            while not self.is_violated and not (self._is_stopping and len(self._backlog) == 0):
                self._pause()
                self._guarded(self._step)
                if self._lost and not self.is_violated and not self._begin_anew():
                    break
            self._conclude()
        except Exception as error:  # appears in the outcome; raised in a thread it would be lost
            self.lose(error)
        finally:
            self._failure, self._has_ended = (None if self.is_violated else self._lost), True
            self._pool.end()
            self._group.end()
            for call in self._at_end:
                call()

    def _pause(self) -> None:
        """Waits for more to arrive. Clients don't wake this thread: that would cost them more than
        their whole log."""
        if len(self._backlog) < LONGEST and not self._is_stopping:
            time.sleep(PAUSE)

    def _guarded(self, deed: Callable[[], object]) -> None:
        """Runs a step; an error in it ends the audit."""
        try:
            deed()
        except Exception as error:
            self.lose(error)

    def _step(self) -> None:
        audit = self._audit
        audit.take_in()
        if self._is_stopping or audit.is_violated or self._lost:
            return
        if self._is_meeting_due():
            self._meet()
        elif audit.is_round_due(self._pace.seconds):
            audit.run_round("there was no meeting yet", goes_on=True)
        if self.cuts > self._cuts_seen:
            self._cuts_seen = self.cuts
            self._pool.come_back(audit.vacant())

    def _is_meeting_due(self) -> bool:
        """Whether a meeting is due, which depends on room only. A later meeting doesn't hide a
        violation."""
        if self._crash_searches.is_going_on:  # what the killed process did must be handed in first
            return False
        if self._coordinator.new >= self._pace.until_meeting(bool(self._audit.why_no_cut)):
            return True
        return time.monotonic() >= self._may_meet_at and self._pool.wants_meeting

    def _meet(self) -> None:
        """Holds a meeting, and then a round over everything that arrived before its end."""
        audit, patience = self._audit, self._pace.patience_of(is_last=not self._has_room())
        met, cuts = (
            self._coordinator.meet(min(patience, self.policy.wait), self._pace.idle),
            self.cuts,
        )
        pause = (SOON if met.failure else SOON_AGAIN) * 2 ** min(self._in_vain, 10)
        self._may_meet_at = time.monotonic() + min(pause, LONGEST_PAUSE)
        self._in_vain += 1
        audit.why_no_cut = met.failure
        audit.take_in_all(met.came)
        if audit.is_violated:  # found by a round that was to make room
            return
        before = self.cuts
        audit.run_round(goes_on=True)
        if self.cuts > cuts:
            self._in_vain, self._may_meet_at = 0, time.monotonic() + SOON_AGAIN
        if self.cuts == before and audit.why_no_cut is None:
            audit.why_no_cut = "no fence was settled"  # so that the next meeting comes soon

    def _has_room(self) -> bool:
        """Whether there is room for what arrives before the next meeting, should this one fail."""
        remain = self.auditor.remaining + len(self._backlog)
        return remain + self._pace.soon < self.auditor.limit

    def _conclude(self) -> None:
        """Runs the last round of this audit, over everything that was handed in to it."""
        audit = self._audit
        self._guarded(lambda: audit.take_in_all(len(self._backlog)))
        if not audit.is_violated and audit.has_news:
            self._guarded(audit.run_round)
        self._guarded(audit.find_held)
        self._guarded(audit.find_pending)
        self._guarded(audit.find_whose)

    # another audit

    def _begin_anew(self) -> bool:
        """Begins another audit, and returns whether it has begun."""
        self._conclude()
        if self.is_violated or self._cant_begin():
            return False
        pause = self.policy.pause
        self._wait_until(self._audit.began + pause)
        self._crash_searches.wait()
        while not self._cant_begin():
            try:
                self._start_anew()
                return True
            except Exception as error:
                logger.error("can't begin another audit: %s", error)
            self._wait_until(time.monotonic() + pause)
            pause = min(2 * pause, LONGEST_PAUSE)
        return False

    def _cant_begin(self) -> bool:
        return self._is_stopping or self.auditor.is_ended or not self.policy.begins_anew

    def _wait_until(self, ends: float) -> None:
        while not self._cant_begin() and time.monotonic() < ends:
            time.sleep(max(0.0, min(PAUSE, ends - time.monotonic())))

    def _start_anew(self) -> None:
        """Begins an audit of what is sent to the store from some moment on. What is in flight at
        that moment is left out, and reads from it aren't checked."""
        why, coordinator = self._lost, self._coordinator
        ended = self._audit.outcome(True, why)
        self._backlog.clear()
        self._audit.drop_held()
        # Nobody waits for room while processes are asked.
        coordinator.is_meeting, self._backlog.room = True, self._backlog.most
        self._lost = None  # nothing is dropped from now on; what has ended is known by its number
        try:
            self._pool.grow()
            self.auditor.sessions = sessions = self._pool.sessions
            coverage = coverage_from_now(sessions, coordinator.groups, self._pool, self._backlog)
            self.auditor.start_anew(coverage)
        except Exception:
            self._lost = why
            raise
        finally:
            coordinator.is_meeting = False
        self._audit = self._next_audit(coverage, ended)
        coordinator.start_anew()
        earlier = self._audit.earlier
        told = f"audit {len(earlier)} ended: {earlier[-1]}; the next audit is {self.name}"
        self._teller.line(told)
        logger.warning("another audit begins, %s; the last one ended: %s", self.name, why)

    def _next_audit(self, coverage: Coverage, before: Outcome | None = None) -> Audit:
        """The next audit, after the previous one with this outcome, if there was one."""
        more = (self._backlog, self._figures, self._teller, self.run_name, coverage)
        tenancy = self._pool.tenancy
        if before is None:
            return Audit(self.auditor, *more, tenancy=tenancy)
        earlier = (*before.earlier, replace(before, earlier=()))
        counted = sum(outcome.handed_in for outcome in earlier)
        return Audit(self.auditor, *more, counted, earlier, tenancy)

    def _called(self, id: AuditId) -> str:
        """The transaction's name in reports, with its client if the session had several."""
        return self._audit.called(id)
