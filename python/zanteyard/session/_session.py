"""One client's transactions, numbered when they begin and logged when their outcome is known.

What a session needs from a store is `Store` in `core/_stores.py`. What a store may offer in
addition is in the five protocols next to it.
"""

from __future__ import annotations

import logging
import math
import threading
import time
from collections.abc import Callable, Iterator
from contextlib import contextmanager
from typing import Any

from ._crash_notes import CrashNotes
from ..core._forks import keep
from ..core._locks import give_back, take
from ..core._store_identity import UNSURE, UNTOLD, StoreIdentity
from ._stores import Store
from ..core.errors import (
    AbortedError,
    AuditLostError,
    NameTakenError,
    OutcomeUnknownError,
    StoreLateError,
    StoreUnfitError,
    ZanteyardError,
)
from ._attempts import Result, attempted, join_behind, whole
from ._own_transactions import OwnTransactions
from ._place import Place
from ._store_calls import StoreCalls
from ._transaction import Transaction

AGAIN = 1.0  # seconds until a run's name is claimed again
# Attempts at a joining client's fence. If the store has no `exchange`, each of 63 other clients
# that join may get ahead of it, and so may meetings.
JOINING = 72
PLACES = 3  # places that a client gets for one transaction, if it is unknown whether it joined
logger = logging.getLogger("zanteyard")


class Session(OwnTransactions):
    """Runs one transaction at a time over a store's connection; for one thread at a time.

    `run_name` distinguishes the names of this run from those of others; by default it is the
    auditor's. `patience` is how many seconds the store is asked for an outcome. If the session has
    ended, `renew(self)` returns the Place of another one. If it returns None, the client goes on
    unaudited. Without `renew`, no further transaction begins. If the Place has to join, the session
    joins when its first transaction begins. If the store doesn't allow that, `cant_join(self, why)`
    returns another Place.

    Before the first transaction the store identifies itself. If it isn't the store that the audit
    is about, StoreUnfitError is raised and nothing has begun.

    Errors of the auditor never reach the application. `failure` says why nothing more of this
    session is audited, if so.
    """

    def __init__(
        self,
        auditor: Any,
        number: int,
        store: Store,
        run_name: str | None = None,
        patience: float = 5.0,
        renew: Callable[[Session], Place | None] | None = None,
    ) -> None:
        if getattr(auditor, "is_resumed", False) is True:
            raise ValueError(
                "what the ended process had sent to the store is unknown, so no session can "
                "continue from a journal: begin another run"
            )
        if hasattr(auditor, "note_sessions"):
            auditor.note_sessions()
        self.auditor, self.patience, self.renew = auditor, patience, renew
        self.calls = StoreCalls(store)
        self.cant_join: Callable[[Session, Exception], Place | None] | None = None
        self.is_changing = False  # it is getting or giving back its place, and holds its turn
        its_name = getattr(auditor, "run_name", "")
        self.run_name = run_name if run_name is not None else its_name
        self.redacts = getattr(auditor, "redacts", False) is True  # drops values and constants
        self.is_named = self.run_name != its_name or getattr(auditor, "is_named", True)
        self.place: Any = Place(number)  # None if no place is left for it
        self.is_open = True
        self.started = 0  # transactions that the store has begun
        self.is_claimed, self.claim_at = False, 0.0  # `claim_at` is when it is tried again
        self.unclaimed: Exception | None = None  # why it isn't claimed, after an attempt
        # The store's identity, once the auditor has accepted it; or why it hasn't. What is done
        # before it is accepted isn't audited.
        self.met: StoreIdentity | None = None
        self.unmet: Exception | None = None
        self.is_unsure = False  # the store couldn't identify itself
        self.wait = getattr(getattr(auditor, "policy", None), "wait", 30.0)
        # Held by a transaction from its begin to its end, and by a meeting.
        self.turn = threading.Lock()
        self.has_turn: list[bool] = []  # whether a client holds it without a transaction yet
        # Held while a meeting waits for the turn; otherwise a busy client would take the turn again
        # first.
        self.gate = threading.Lock()
        self.current: Transaction | None = None  # the client's transaction, which holds the turn
        self.running: Transaction | None = None  # the same, or one of the collector's own
        self.used_at = time.monotonic()
        self.failure: Exception | None = None
        self.notes: CrashNotes | None = None  # for recovery if this process is killed
        # Seconds that this client waited for the audit: in total, and the longest single wait.
        self.waited = self.longest = 0.0
        self.connecting = 0.0  # not counted yet: seconds of connecting to the store
        keep(self)

    @property
    def store(self) -> Store:
        """The store over which its transactions run. Assign another one only between two
        transactions."""
        return self.calls.store

    @store.setter
    def store(self, store: Store) -> None:
        self.calls = StoreCalls(store)

    @property
    def number(self) -> int | None:
        """The number of its session in the auditor; None if it has none."""
        place = self.place  # a meeting may take it away
        return place.number if place is not None else None

    @property
    def begun(self) -> int:
        """How many transactions that session has had."""
        place = self.place
        return int(place.begun) if place is not None else 0

    def begin(self) -> Transaction:
        """Begins a transaction. Raises what the store raises if it can't be reached; then nothing
        has begun."""
        if self.current is not None:
            raise ValueError(f"session {self.number} is in a transaction already")
        came = time.monotonic()
        try:
            try:
                self.take_turn()
                self.get_ready()
            finally:
                self.has_waited(came)
            return self.start(self.store.begin, True)
        except BaseException as error:
            self.take_back(error)
            raise

    def take_back(self, error: BaseException) -> None:
        """Undoes what had begun before this error. A transaction without an owner, which an
        interrupt can leave behind, is rolled back."""
        if self.current is not None:
            self.place.begun = max(self.place.begun, self.current.number + 1)
            self.current.rollback()
        elif self.has_turn and self.has_turn[-1]:
            try:
                if not isinstance(error, Exception):  # the store may have begun
                    self.store.rollback()
            finally:
                give_back(self.turn, self.has_turn)

    def get_ready(self) -> None:
        """Identifies the store, claims the run's name there, and joins or takes another place if
        that is needed. Raises what the store raises."""
        self.identify_store()  # before anything is written there
        self.claim_name()  # before it joins, because the fence is written under this name
        self.go_on()

    def take_turn(self) -> None:
        """Only meetings hold the turn and the gate, and they end within the policy's wait, unless
        the store doesn't answer one of their statements on this connection. Such a statement gets
        the same time again and is then given up."""
        if self.gate.locked():
            passed: list[bool] = []
            try:
                take(self.gate, self.wait, passed)
            finally:
                give_back(self.gate, passed)
        self.has_turn = []
        if take(self.turn, self.wait, self.has_turn):
            return
        logger.warning("session %s: the store doesn't answer the audit's statements", self.number)
        self.hang_up()
        if not take(self.turn, self.wait, self.has_turn):
            raise StoreLateError(f"session {self.number} waits for the store")

    def hang_up(self) -> None:
        """Interrupts whatever waits for an answer over the store's connection. For any thread."""
        self.calls.hang_up()

    def has_waited(self, since: float) -> None:
        """Counts that a transaction waited for the audit since this time of the monotonic clock."""
        waited, self.connecting = time.monotonic() - since - self.connecting, 0.0
        self.waited, self.longest = self.waited + waited, max(self.longest, waited)

    def go_on(self) -> None:
        """Takes another place if the session has ended, and joins if it has to."""
        ends = time.monotonic() + self.wait
        try:
            for left in reversed(range(PLACES)):
                if not (self.is_open or self.has_to_join):
                    self.take_place()
                if not self.has_to_join or self.join(not left or time.monotonic() >= ends):
                    return
        finally:
            self.is_changing = False

    @property
    def has_to_join(self) -> bool:
        """Whether the session has a place, and has to join the audit by a fence first."""
        place = self.place
        if place is None or self.renew is None:  # its process has left
            return False
        return bool(place.must_join) and not (self.is_open or place.is_ended)

    def join_now(self) -> bool:
        """Joins when the session is made, so that nobody has to wait for a new session. Returns
        whether it has joined. Raises errors that don't come from the store."""
        place, self.is_changing = self.place, True
        try:
            try:
                self.take_turn()
                if self.has_to_join:  # else its process has left
                    self.identify_store()
                    self.claim_name()
                    self.fence_first()
            finally:
                give_back(self.turn, self.has_turn)
        except Exception as error:
            if not self.is_of_store(error) or isinstance(error, StoreUnfitError):
                raise
            logger.info("a client will join later: %s", str(error).strip() or repr(error))
        finally:
            self.is_changing = False
        return not (place.must_join or place.is_ended)

    def join(self, is_last: bool) -> bool:
        """Joins by a fence, the first transaction of this client that is handed in. Returns whether
        the client can go on. If the store can't say whether the fence was written, the caller
        should take another place, unless `is_last`. Raises errors that don't come from the
        store."""
        place, self.is_changing, before = self.place, True, self.started
        try:
            self.fence_first()
        except Exception as error:
            if self.started == before and self.unmet is None:
                raise  # the store can't be reached, as the client would find out itself
            if not self.is_of_store(error):
                raise
            if place.is_ended and not is_last:
                return False
            if place.must_join:  # else the store reported later that it was written
                self.pass_over(error)
        return True

    def fence_first(self) -> None:
        """Runs the fence; the session has joined once that is handed in (`Transaction.log`)."""
        try:
            self.run_alone(join_behind, self.wait, JOINING)
        finally:
            self.drop_alone()

    def drop_alone(self) -> None:
        """Ends a transaction of the collector's own that an interrupt has left without an owner."""
        running = self.running
        if running is None or running.holds or running.is_over:
            return
        if running.written:  # it may have been written
            running.log((), running.written, "unknown", is_last=True)
        else:
            running.rollback()

    def is_of_store(self, error: Exception) -> bool:
        """Whether this is the result of the collector's own statement. The application, whose
        thread runs it, sees no such error."""
        return isinstance(error, (ZanteyardError, *self.calls.errors))

    def pass_over(self, error: Exception) -> None:
        """Lets the client go on, unaudited."""
        place = self.cant_join(self, error) if self.cant_join is not None else None
        if place is not None:
            self.place, self.is_open = place, place.is_audited
        else:  # nobody else gets this place
            self.fail(error)
            self.is_open, self.place.must_join = True, False

    def take_place(self) -> None:
        """Takes another place from the auditor. Raises ValueError if there is none for good."""
        self.is_changing = False  # no meeting waits for a client that waits for a place
        place = self.renew(self) if self.renew is not None else None
        if place is not None:
            self.is_changing, self.is_open = True, place.is_audited and not place.must_join
            self.place = place
        elif self.renew is None or self.place is None:
            raise ValueError(f"session {self.number} has ended")

    def identify_store(self) -> None:
        """Runs before the first transaction. A store other than the audit's is refused at every
        attempt. A store that can't identify itself may be unreachable, which becomes known when the
        transaction begins."""
        if self.met is not None or not hasattr(self.auditor, "meet_store"):
            return
        is_first, began = self.unmet is None, time.monotonic()
        if self.is_unsure:
            self.hang_up()  # the next connection is asked again
        identity = self.calls.identity()
        self.connecting = time.monotonic() - began
        if identity != UNTOLD:
            self.meet_store(identity)
            self.refuse_store(is_first)

    def refuse_store(self, is_first: bool) -> None:
        """Refuses a store that isn't the audit's, if nothing was done there before."""
        if is_first and isinstance(self.unmet, StoreUnfitError):
            error, self.unmet = self.unmet, None
            self.hang_up()  # the next attempt may use another connection, to another store
            raise error

    def meet_store(self, identity: StoreIdentity) -> None:
        """Finds out whether the store is the audit's, and sets `met` or `unmet`."""
        self.met, self.is_unsure = None, identity == UNSURE
        if self.is_unsure:
            self.unmet = AuditLostError(
                "whether this is the audit's store is unknown: it can't identify itself now"
            )
            return
        try:
            self.auditor.meet_store(identity)
            self.met, self.unmet = identity, None
        except StoreUnfitError as error:
            self.unmet = error

    def see_store(self, holds: bool) -> None:
        """Runs when a transaction has begun, since its connection may be a new one and lead to
        another store. A client goes on there, unaudited; the collector's own transactions don't."""
        if not hasattr(self.auditor, "meet_store"):
            return
        is_first = self.met is None and self.unmet is None
        try:
            identity = self.calls.identity()
            if identity != self.met:
                self.meet_store(identity)
                self.refuse_store(is_first)
            if self.unmet is not None and not holds:
                raise self.unmet
        except BaseException:
            self.store.rollback()
            raise

    @property
    def unlooked(self) -> Exception | None:
        """Why nothing that is done now may be audited, if so."""
        return self.unmet or self.unclaimed

    def claim_name(self) -> None:
        """Runs before the first transaction. If the store doesn't say in time who owns the name, it
        is asked again later, and what is done meanwhile isn't audited. If the name then turns out
        to belong to another run, nobody is stopped."""
        if self.is_claimed or time.monotonic() < self.claim_at:
            return
        token = getattr(self.auditor, "token", None)
        try:
            if self.is_named and token is not None:
                self.calls.claim(self.run_name, token, self.wait)
            self.is_claimed, self.unclaimed = True, None
        except NameTakenError as error:
            if self.unclaimed is None:
                raise
            self.unclaimed, self.claim_at = error, math.inf
        except (AbortedError, OutcomeUnknownError) as error:
            message = f"can't find out in time whether the name {self.run_name} belongs to this run"
            self.unclaimed = AuditLostError(f"{message}: {error}")
            self.claim_at = time.monotonic() + AGAIN

    def start(self, begin: Callable[..., Any], holds: bool, *arguments: Any) -> Transaction:
        """Begins a transaction, which gets its number once the store has begun it."""
        begin(*arguments)
        self.see_store(holds)
        self.started += 1
        transaction = Transaction(self, self.place.begun, holds)
        self.running = transaction
        if holds:  # from here on the transaction releases the turn
            self.current = transaction
        self.place.begun = transaction.number + 1  # an aborted attempt keeps its number, too
        return transaction

    @contextmanager
    def transaction(self) -> Iterator[Transaction]:
        """A transaction for a `with` block. It is committed at the block's end, or rolled back if
        the block raises. Raises what `begin` and `Transaction.commit` raise; nothing is tried
        again."""
        before = self.current
        try:
            with whole(self.begin()) as transaction:
                yield transaction
        except BaseException:
            self.drop(before)
            raise

    def run(self, body: Callable[[Transaction], Result], attempts: int = 10) -> Result:
        """Calls body(transaction) and commits. If the store aborts, it tries again; each attempt
        has its own number."""
        before = self.current
        try:
            return attempted(self.begin, body, attempts)
        except BaseException:
            self.drop(before)
            raise

    def drop(self, before: Transaction | None) -> None:
        """Rolls back a transaction that has begun since and that an interrupt has left without an
        owner."""
        if self.current is not None and self.current is not before:
            self.current.rollback()

    def close(self) -> None:
        """Ends this session. Raises ValueError in the middle of a transaction."""
        if self.current is not None:
            raise ValueError(f"session {self.number} is in a transaction")
        leave = getattr(self.auditor, "leave_session", None)
        if leave is not None:
            leave(self)
        elif self.is_open:
            self.end()

    def __enter__(self) -> Session:
        return self

    def __exit__(self, *_: object) -> None:
        if self.current is not None:
            self.current.rollback()
        self.close()

    def end(self) -> None:
        """Ends the session: no transaction may follow the last one."""
        self.is_open, self.place.is_ended = False, True
        if not self.place.must_join:  # else it never joined, and is closed already
            self.tell(self.auditor.take_close, self.number)

    def tell(self, call: Callable[..., Any], *arguments: Any) -> bool:
        """Whether the auditor took it. Its errors are no concern of the client."""
        came = time.monotonic()
        try:
            call(*arguments)
            return True
        except Exception as error:
            self.fail(error)
            return False
        finally:
            self.has_waited(came)

    def fail(self, error: Exception) -> None:
        """Notes why nothing more of this session is audited, and logs it; only the first time."""
        if self.failure is None:
            self.failure = error
            logger.error("auditing of session %s has stopped: %s", self.number, error)

    def miss(self, number: int, error: Exception | None = None) -> None:
        """Records that it is unknown whether what was done under this number was handed in."""
        self.fail(error or AuditLostError("what it did is unknown"))
        miss = getattr(self.auditor, "miss", None)
        if miss is not None:
            self.tell(miss, self.number, number, error or self.failure)

    def lend(self, place: Place, deed: str, seconds: float = 60.0) -> None:
        """Runs "flag" or "read_mark" over this session's connection, for a session that no client
        has."""
        session = Session(self.auditor, place.number, self.store, self.run_name)
        session.place, place.is_lent, session.notes = place, True, self.notes
        session.met, session.unmet = self.met, self.unmet
        try:
            getattr(session, deed)(seconds)
        finally:
            place.is_lent, place.is_ended = False, not session.is_open
