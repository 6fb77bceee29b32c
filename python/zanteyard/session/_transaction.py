"""One transaction of a session: what it reads and writes, and what becomes of its commit."""

from __future__ import annotations

import logging
import time
from collections.abc import Iterable, Sequence
from contextlib import suppress
from typing import TYPE_CHECKING, Any

from ..core._circumstances import brief, caller
from ..core._forks import UNAUDITED
from ..core._own_keys import FENCE, FLAG
from ..core._records import Deed, Logged, Name, Read, Source, StoreId, StoredValue, as_bytes, undone
from ..core._redacting import redacted
from ..core.errors import AbortedError, AuditLostError, OutcomeUnknownError

if TYPE_CHECKING:
    from ._session import Session

LEAST = 0.1  # seconds for an outcome if nothing else was specified
logger = logging.getLogger("zanteyard")


class Transaction:
    """A transaction of a session's client, for one thread at a time. Keys are texts. A value is
    whatever the store keeps. Each call may raise the store's own errors, AbortedError if the store
    aborted the transaction, and ValueError after its end.

    Writes are sent once, at the commit, so no other transaction can read one that is overwritten.
    `get` returns the transaction's own writes.
    """

    def __init__(self, session: Session, number: int, holds: bool = True) -> None:
        self.session, self.store, self.number, self.holds = session, session.store, number, holds
        self.calls = session.calls  # the store's optional parts
        self.reads: set[Read] = set()
        self.from_before: set[str] = set()  # keys whose versions are from before this run
        self.written: dict[str, object] = {}
        self.is_over = False
        self.is_committing = not holds  # from here on the store may have its writes
        self.is_in_doubt = False  # its commit was sent, and the outcome is unknown
        # For explanations of violations; the collector's own transactions have none of it.
        self.values: list[tuple[str, str, str]] = []
        self.began, self.caller = (time.time(), caller()) if holds else (0.0, "")
        self.sent: tuple[str, ...] = ()  # written keys that aren't written again at the commit
        self.tried: list[str] = []  # keys whose write was sent to the store, whatever came of it
        self.statements: dict[Deed, str] = {}  # the statement of each deed, as in Logged
        self.prepared: Any = None  # what is logged if it is committed, and the same as bytes
        self.unclear: Exception | None = None  # why its effects are unknown, if they are

    def still_open(self) -> None:
        """Raises ValueError if the transaction has ended: a further access would be a separate
        transaction in the store."""
        if self.is_over:
            raise ValueError(f"transaction {self.session.number}.{self.number} has ended")

    def get(self, key: str, statement: str | None = None) -> Any:
        """Reads a key. `statement` is shown with a violation in place of the store's statement."""
        self.still_open()
        if key in self.written:
            return self.written[key]  # its own write: not logged
        return self.was_read(key, self.store.read(key), statement)

    def get_all(self, keys: Sequence[str]) -> dict[str, Any]:
        """The values of these keys, by key; in one statement if the store can do that. The
        transaction must not have written them."""
        self.still_open()
        values = self.calls.read_all(keys)
        return {key: self.was_read(key, values.get(key)) for key in keys}

    def was_read(
        self, key: str, stored: StoredValue | None, statement: str | None = None
    ) -> Any:
        """Notes the read of a version, as the store returned it, and returns its value."""
        read = (key, "init" if stored is None else self.source(stored[1]))
        if stored is not None and read[1] == "init" and self.holds:
            self.from_before.add(key)
        self.reads.add(read)
        self.was_run(read, statement)
        if self.holds:
            self.values.append(("read", key, brief(None if stored is None else stored[0])))
        return None if stored is None else stored[0]

    def was_run(self, deed: Deed, statement: str | None = None) -> None:
        """Notes the statement of a read or a write, for explanations."""
        statement = statement or self.calls.statement
        if statement:
            self.statements.setdefault(deed, statement)

    def source(self, name: Name | None) -> Source:
        """The writer by the name that is stored next to a value; "init" for one of no transaction
        of this run."""
        if name is None or name[0] != self.session.run_name:
            return "init"  # from before this run
        if name[1] >= UNAUDITED > (self.session.number or 0) and self.unclear is None:
            self.unclear = AuditLostError("it read what a forked child wrote without being audited")
        return (name[1], name[2])

    def put(self, key: str, value: object, statement: str | None = None) -> None:
        """Writes a key, at the commit. `statement` is as in `get`."""
        self.still_open()
        self.written[key] = value
        if statement:
            self.statements[(key,)] = statement

    def delete(self, key: str, statement: str | None = None) -> None:
        """Deletes a key, at the commit. The store keeps the transaction's name there."""
        self.put(key, None, statement)

    def exchange(self, key: str, value: object) -> None:
        """Reads and writes the key, in one statement if the store can do that. This must be the
        transaction's last access to the key."""
        self.still_open()
        if not self.calls.can_exchange:
            self.get(key)
            self.put(key, value)
            return
        self.is_committing = True
        self.written[key] = value
        self.sent = (*self.sent, key)
        self.tried.append(key)
        if self.session.notes is not None and (not self.holds or self.calls.writes_at_once):
            self.note_before(key, has_reads=False)
        self.was_read(key, self.calls.exchange(key, value, self.name))
        self.was_run((key,))

    @property
    def name(self) -> Any:
        """The name that is stored next to its values."""
        return (self.session.run_name, self.session.number, self.number)

    def commit(self) -> None:
        """Sends the writes and commits. Raises AbortedError if nothing was committed, and
        OutcomeUnknownError if that can't be found out."""
        self.still_open()
        self.is_committing = True
        is_late = False  # whether its note can only be written once its ticket is known
        try:
            is_to_note = self.holds or len(self.sent) < len(self.written)
            if is_to_note and self.session.notes is not None:
                is_late = not self.calls.writes_at_once
                if not is_late:
                    self.note_before(max(self.written, default=""))
            for key in sorted(self.written):
                if key not in self.sent:
                    self.tried.append(key)
                    self.store.write(key, self.written[key], self.name)
                    self.was_run((key,))
            if is_late:
                self.note_before(max(self.written, default=""))
            self.is_in_doubt = bool(self.written)
            self.store.commit()
            self.log(self.reads, self.written, "committed")
        except OutcomeUnknownError:
            self.find_out()
        except AbortedError:
            self.is_in_doubt = False
            self.rollback()
            raise
        except Exception as error:
            if self.is_in_doubt and not self.is_over:
                self.is_in_doubt = not self.calls.has_answered(error)
                if self.is_in_doubt:
                    self.find_out_behind()
            self.rollback()
            raise
        except BaseException:  # such as Ctrl-C: the store may have committed
            if not self.is_over:
                self.log((), self.written, "unknown", is_last=bool(self.written))
            raise

    def note_before(self, key: str, has_reads: bool = True) -> None:
        """Notes what the transaction is about to do: from here on the store may have committed
        it."""
        notes = self.session.notes
        assert notes is not None
        why = self.session.unlooked or self.unclear if self.written else None
        try:
            reads = self.reads if has_reads else ()
            logged = self.logged(reads, self.written, "committed")
            packed, name = as_bytes(logged), self.name
            if has_reads:
                self.prepared = (logged, packed)
            ticket = self.calls.ticket((key, *name)) if self.written else None
        except Exception as error:
            return notes.fail(error)
        more = (False, str(why)) if why is not None else ()
        notes.write(name[1], self.number, None, packed, ticket, has_reads, *more)

    def note_answer(self, logged: Logged, is_last: bool) -> None:
        """Notes the outcome, before it is handed in."""
        notes, packed = self.session.notes, None
        if notes is not None:
            if (self.prepared is None and logged.outcome == "committed") or logged.is_undone:
                try:
                    packed = as_bytes(logged)
                except ValueError as error:
                    return notes.fail(error)
            more = (packed, None, True, True) if is_last else (packed,)
            notes.write(self.session.number or 0, self.number, logged.outcome, *more)

    def note_unclear(self, outcome: str, is_last: bool, why: Exception) -> None:
        """Notes an outcome that isn't the whole answer, in case this process is killed before it
        hands that in."""
        notes = self.session.notes
        if notes is not None:
            more = (None, None, True, is_last, str(why))
            notes.write(self.session.number or 0, self.number, outcome, *more)

    def rollback(self) -> None:
        """Ends the transaction without an effect. Does nothing if it has ended."""
        if not self.is_over:
            try:
                self.store.rollback()
            finally:
                self.give_up()

    def give_up(self) -> None:
        """Ends the transaction. A transaction whose commit was sent isn't logged as aborted unless
        the store has said so."""
        if self.is_in_doubt:
            self.log((), self.written, "unknown", is_last=bool(self.written))
        else:
            self.log((), (), "aborted")

    def find_out_behind(self) -> None:
        """Asks for the outcome after an exception that stores don't raise, such as one from a
        handler of SIGALRM. It may have come after the store's answer."""
        with suppress(AbortedError, OutcomeUnknownError):
            try:
                self.store.rollback()
            except Exception as error:  # this says nothing about the commit
                logger.info("a rollback after a commit failed: %r", error)
            self.find_out()

    def find_out_alone(self, error: BaseException) -> None:
        """Finds out whether the collector's own single-statement transaction was committed, if this
        error may have come after the store's answer. A client joins in the application's thread,
        where an interrupt can do that."""
        if self.is_over or self.holds or not self.sent or isinstance(error, AbortedError):
            return
        if not isinstance(error, Exception):
            self.log((), self.written, "unknown", is_last=True)
        elif self.session.place.must_join and not self.calls.has_answered(error):
            self.find_out_behind()

    def find_out(self) -> None:
        """Asks the store for the outcome. If the store can't say, the transaction is logged with
        its writes only, as the last one of its session."""
        until = time.monotonic() + (self.session.patience if self.holds else 0.0)
        try:
            while self.written:
                outcome = self.calls.outcome_within(max(LEAST, until - time.monotonic()))
                if outcome == "committed":
                    return self.log(self.reads, self.written, "committed")
                if outcome == "aborted":
                    self.is_in_doubt = False
                    self.give_up()
                    raise AbortedError(
                        "the commit wasn't answered, and the store says that it was aborted"
                    )
                if time.monotonic() >= until:
                    break
                time.sleep(0.05)
        except BaseException:
            if not self.is_over:  # interrupted, such as by Ctrl-C, before the store could answer
                self.log((), self.written, "unknown", is_last=True)
            raise
        self.log((), self.written, "unknown", is_last=bool(self.written))
        raise OutcomeUnknownError(f"{self.session.number}.{self.number}")

    def log(
        self, reads: Iterable[Read], writes: Iterable[str], outcome: str, is_last: bool = False
    ) -> None:
        """Hands in what is known. No error in here reaches the client except one that ends it, such
        as Ctrl-C; then it is unknown what was handed in."""
        session = self.session
        try:
            self.is_over = True
            if session.place.must_join and outcome != "committed" and not is_last:
                self.give_back_number()
                return
            session.place.is_due = True
            if self.holds:
                session.used_at = time.monotonic()
            if not (is_last and any(map(is_dropped_if_unknown, writes))):
                unclear = session.unlooked or self.unclear
                if unclear is not None and outcome != "aborted":  # else it did nothing
                    self.note_unclear(outcome, is_last, unclear)
                    session.miss(self.number, unclear)
                elif not session.tell(self.hand_in, reads, writes, outcome, is_last):
                    session.miss(self.number)
            if is_last:
                session.place.leave_open(self.number)
                session.end()
            elif session.place.must_join:  # this is how it joins
                session.is_open, session.place.must_join = True, False
        except BaseException as error:
            message = (
                f"transaction {session.number}.{self.number} was interrupted while it was handed in"
            )
            session.miss(self.number, AuditLostError(f"{message} ({type(error).__name__})"))
            raise
        finally:  # nothing is called before the turn is released, so no signal can come in between
            session.running = None
            if self.holds and session.current is self:
                session.current = None
                session.has_turn = []
                session.turn.release()

    def give_back_number(self) -> None:
        """Reuses the number of an aborted fence by which a client tried to join. The fence left
        nothing in the store, and nothing is logged about it."""
        self.note_answer(Logged((), (), "aborted"), False)
        self.session.place.begun = self.number

    def hand_in(
        self, reads: Iterable[Read], writes: Iterable[str], outcome: str, is_last: bool
    ) -> None:
        """Hands in what the transaction did; with `is_last` nothing of its session follows."""
        number, auditor = self.session.number, self.session.auditor
        if self.prepared is not None and outcome == "committed":
            logged, packed = self.prepared
            self.note_answer(logged, is_last)
            auditor.take_packed(number, self.number, logged, packed)
        else:
            logged = self.logged(reads, writes, outcome)
            self.note_answer(logged, is_last)
            auditor.take(number, self.number, logged)

    def logged(self, reads: Iterable[Read], writes: Iterable[str], outcome: str) -> Logged:
        """What the transaction did, as the auditor gets it."""
        is_told = outcome == "aborted" and self.session.unlooked is None
        tried_reads, tried_writes = self.undone() if is_told else ([], [])
        statements = tuple(self.statements.items())
        if outcome != "committed":
            deeds: set[Deed] = {*reads, *tried_reads}
            deeds.update((key,) for key in (*writes, *tried_writes))
            statements = tuple(statement for statement in statements if statement[0] in deeds)
        reads = [*reads]
        if len(reads) > 1:
            reads.sort(key=repr)
        writes = sorted(writes)
        values = tuple(self.values)
        if self.holds:
            keys = (*writes, *(key for key in tried_writes if key in self.written))
            values += tuple(("wrote", key, brief(self.written.get(key))) for key in keys)
        if not (reads or tried_reads):  # what was read is unknown or doesn't matter
            values = tuple(value for value in values if value[0] == "wrote")
        more = (statements, values, self.began, self.caller)
        tried = (tried_reads, tried_writes)
        count = len(self.from_before) if reads else 0
        logged = Logged(reads, writes, outcome, *more, *tried, from_before=count)
        return redacted(logged) if self.session.redacts else logged

    def undone(self) -> tuple[list[Read], list[str]]:
        """What an aborted transaction has read, and what it wrote under its name. Writes that were
        still to be sent at the commit don't count."""
        id = StoreId((self.session.number or 0, self.number))
        return undone(id, self.reads, self.tried, FENCE)


def is_dropped_if_unknown(key: str) -> bool:
    """Whether a write of this key is left out if its outcome is unknown. A fence is worthless
    without its read; whoever reads from it then waits for it. A flag that may not exist would leave
    its place open, and no fence would ever be settled."""
    return key == FENCE or key.startswith(FLAG)
