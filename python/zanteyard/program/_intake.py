"""What an auditor takes from sessions after the store has answered."""

import logging
import time
from collections import deque
from collections.abc import Callable
from contextlib import suppress

from ..core._locks import give_back, take
from ..core._outcome import Policy
from ..core._records import Logged
from ..core._store_identity import StoreIdentity
from ..core.errors import FullError, ProgramLateError, RefusedError
from ._lines import SECONDS, LateLine, written
from ._offers import Covered, Offers, no_room
from ._supervised import SupervisedProgram

LATEST = 10.0  # seconds after which a late answer is given up, even if no client waits for it
logger = logging.getLogger("zanteyard")
HandedIn = tuple[int, int, Logged | None]  # session, number, and None for the session's end


class Intake(Offers):
    """Takes what sessions hand in. That never raises and waits no longer than the policy says. If
    something can't be taken in, the audit ends; `failure` and the log say why."""

    policy: Policy
    has_sessions = False  # that hand in to it

    _waiting: deque[HandedIn]

    def _begin_count(self) -> None:
        self.failure: Exception | None = None
        self.taken_in, self._is_round_begun = 0, False
        # For each session, the number after the last one counted, and how many were counted.
        self._seen: dict[int, tuple[int, int]] = {}
        self._late = None

    # what sessions call

    def meet_store(self, identity: StoreIdentity) -> None:
        """Raises StoreUnfitError if this isn't the store that the run is about, which is the first
        one identified."""
        self.audited_store.meet(identity)

    def note_sessions(self) -> None:
        """Records, also in the journal, that sessions hand in: if this process ends, their last
        transactions are unknown. Raises JournalError."""
        self.has_sessions = True
        with self.lock:
            if isinstance(self.program, SupervisedProgram):
                self.program.keeping.is_of_sessions = True
                self.program.keeping.store = self._store()
                self.program.keeping.note_figures()

    def take(self, session: int, number: int, logged: Logged) -> None:
        """Hands in what a transaction did. Waits as long as the policy says."""
        self._count(session, number)
        self._hand_in((session, number, logged))

    def _count(self, session: int, number: int) -> None:
        """Counts a transaction once, even if it is both handed in and missed. For one thread at a
        time per session."""
        seen, count = self._seen.get(session, (0, 0))
        if seen <= number:
            self._seen[session] = (number + 1, count + 1)

    @property
    def handed_in(self) -> int:
        """How many transactions sessions have handed in, each counted once."""
        return sum(count for _, count in list(self._seen.values()))

    def miss(self, session: int, number: int, error: Exception) -> None:
        """Records that it is unknown whether this transaction was handed in."""
        self._count(session, number)
        self._waiting.clear()
        self._fail(error)  # requests that were already sent are answered before a round

    def take_close(self, session: int) -> None:
        """The session does nothing more."""
        self._hand_in((session, 0, None))

    def _hand_in(self, what: HandedIn) -> None:
        if self.failure is not None:
            return
        self._waiting.append(what)
        taken: list[bool] = []
        ends = time.monotonic() + self.policy.wait
        try:
            if take(self.lock, self.policy.wait, taken):  # else the holder of the lock takes it in
                self._take_in(ends)
        finally:
            give_back(self.lock, taken)

    def _take_in(self, ends: float | None = None) -> None:
        """Takes in everything that waits, until the time `ends`. An answer that isn't there by then
        is read by the next caller, without waiting for it again."""
        with self.lock:
            while self.failure is None and (self._late or self._waiting):
                try:
                    if self._late is None:
                        self._send_next()
                    elif ends is not None:
                        ends = min(ends, self._late.sent + self.policy.wait)
                    self._end_late(SECONDS if ends is None else max(0.0, ends - time.monotonic()))
                except ProgramLateError as error:
                    sent = self._late.sent if self._late is not None else 0.0
                    if ends is None or time.monotonic() > sent + LATEST:
                        self._give_up()
                        self._lose(error)
                    return
                except Exception as error:
                    self._lose(error)

    def _send_next(self) -> None:
        text, note = self._line_of(*self._waiting[0])
        self._leave_step()
        with suppress(IndexError):  # `miss` may have emptied it meanwhile
            self._waiting.popleft()
        self._give([text])
        self._late = LateLine(text, note, time.monotonic())
        self._be_in_step()

    def _line_of(
        self, session: int, number: int, logged: Logged | None
    ) -> tuple[str, Callable[[RefusedError | None], RefusedError | None]]:
        """The line for what a session handed in, and what notes its answer."""
        if logged is None:
            return written(["close", session]), lambda refusal: self._closed(session, refusal)
        covered = self._covered((session, number, [logged]))
        self._note_figures(*covered[3:])
        return self._offer_of(covered), lambda refusal: self._offered(covered, refusal)

    def _closed(self, session: int, refusal: RefusedError | None) -> RefusedError | None:
        if refusal is None:
            self.closed[session] = True
        return refusal

    def _offered(self, covered: Covered, refusal: RefusedError | None) -> RefusedError | None:
        if isinstance(refusal, FullError):
            return no_room(*covered[:2])
        if refusal is None:
            self._keep_history(covered)
            self.taken_in += 1
        return refusal

    def _lose(self, error: Exception) -> None:
        """Ends the audit: it covers only what has been taken in so far."""
        self._late = None
        self._waiting.clear()
        self._fail(error)

    def _fail(self, error: Exception) -> None:
        if self.failure is None:
            self.failure = error
            logger.error("auditing has stopped: %s", error)
