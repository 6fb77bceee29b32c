"""Recovers what a killed process of clients did, from its notes and from the store.

Each number that it may have used is handed in once. Transactions that had arrived already are
skipped. Those that were answered are logged as they would have been. For a commit that was on its
way, the store is asked for the outcome. An attempt whose commit wasn't sent did nothing. A
transaction whose outcome can't be found out is logged with its writes only, as the last of its
session (docs/COLLECTORS.md). If a client itself didn't know what it had done, for example because
it read what a forked child wrote, recovery fails, unless the store says that nothing was committed.
"""

import logging
import time
from collections.abc import Callable, Iterable, Sequence
from typing import Any

from ..stores._commit_status import find_out
from ..session._crash_notes import CrashNote, notes_of
from ..core._own_keys import FENCE
from ..core._records import Logged, StoreId, as_bytes, undone, unpacked
from ..live._backlog import keys_written_unseen
from ..session._place import Place

SECONDS = 5.0  # seconds for asking the store for one outcome
NOTHING = Logged((), (), "aborted")
Noted = dict[int, list[tuple[CrashNote, Any]]]  # by session; each with how to ask the store
logger = logging.getLogger("zanteyard")


class LostError(Exception):
    """Its notes don't say what it did; the message says why."""


class CrashedProcess:
    """A process that was killed. `notes` are its notes by session, each with how to ask the
    store."""

    def __init__(
        self, notes: Noted, run_name: str, next_number: Callable[[int], int]
    ) -> None:
        self.notes, self.run_name = notes, run_name
        self.next_number = next_number  # of a session, after what was handed in
        # Transactions that were noted before they were sent, and weren't answered.
        self._unanswered: set[StoreId] = set()

    def told(self, place: Place) -> Sequence[tuple[int, Logged]]:
        """What the session did and nobody has handed in: numbers, and what is to be logged.
        Afterwards the place is as if it had been given back, or has ended. If its client was to
        join, only what follows its fence is handed in, and the fence may be missing. Raises
        LostError."""
        begun, transactions = place.begun, self._told(place)
        if not place.must_join:
            return transactions
        if transactions and transactions[0][1].outcome == "committed":
            place.must_join = False
            return transactions
        if not place.is_ended:  # aborted attempts have left nothing
            place.begun = max(begun, transactions[0][0]) if transactions else begun
            # Without a noted answer, nobody else may get this name: the store's answer may be about
            # an earlier attempt, and others may have overwritten the fence since.
            if (place.number, place.begun) in self._unanswered:
                place.leave_open(place.begun)
                place.begun, place.is_ended = place.begun + 1, True
        place.is_due = False
        return ()

    def _told(self, place: Place) -> Sequence[tuple[int, Logged]]:
        first = max(place.begun, self.next_number(place.number))
        before, answered = self.sorted_out(place.number, first)
        last = max((*before, *answered, first - 1))
        transactions: list[tuple[int, Logged]] = []
        place.begun, place.is_due, place.has_flag = first, True, False
        for note, _ in self.notes.get(place.number, ()):
            if note.outcome == "unknown" and note.is_last and note.number < first:
                place.leave_open(note.number)
                place.is_ended = note.number == last  # the process had no time to say so
        if place.is_ended:
            return transactions
        for number in range(first, last + 1):
            logged = self.logged(number, before.get(number), answered.get(number))
            place.begun = number + 1
            if logged is not None:
                transactions.append((number, logged))
            if logged is None or logged.outcome == "unknown":
                place.leave_open(number)
                place.is_ended = True
                if number < last:
                    raise LostError(
                        "its notes continue after a transaction whose outcome can't be found out"
                    )
                return transactions
        # One more may have begun whose commit wasn't sent.
        place.begun = last + 2
        return [*transactions, (last + 1, NOTHING)]

    def sorted_out(
        self, session: int, first: int
    ) -> tuple[dict[int, tuple[CrashNote, Any]], dict[int, CrashNote]]:
        """By number, from `first` on: the notes from before a commit was sent, with how to ask the
        store, and the notes of its answer."""
        before: dict[int, tuple[CrashNote, Any]] = {}
        answered: dict[int, CrashNote] = {}
        for note, how in self.notes.get(session, ()):
            if note.number < first:
                continue
            id = StoreId((session, note.number))
            if note.outcome is None:
                before[note.number] = (note, how)
                answered.pop(note.number, None)  # of an earlier attempt to join
                self._unanswered.add(id)
            else:
                answered[note.number] = note
                self._unanswered.discard(id)
        return before, answered

    def logged(
        self, number: int, before: tuple[CrashNote, Any] | None, answered: CrashNote | None
    ) -> Logged | None:
        """What is to be logged; None for a fence that may or may not exist."""
        if answered is None:
            return NOTHING if before is None else self.asked(*before)
        if answered.unclear is not None and answered.outcome != "aborted":
            raise LostError(answered.unclear)
        if answered.outcome == "committed":
            packed = answered.packed or (before and before[0].packed)
            if not packed:
                raise LostError("its notes lack what a transaction did")
            return unpacked(packed)
        if answered.outcome == "aborted" and answered.packed:
            return unpacked(answered.packed)
        if answered.outcome == "aborted" or not answered.is_last:
            return NOTHING
        if before is None or not before[0].packed:
            raise LostError("its notes lack what a transaction wrote")
        return writes_alone(unpacked(before[0].packed))

    def asked(self, note: CrashNote, how: Any) -> Logged | None:
        """What is to be logged of a transaction whose commit was sent and not answered."""
        assert note.packed is not None
        logged = unpacked(note.packed)
        if not logged.writes:
            return NOTHING  # whether its reads should be checked is unknown
        outcome, overwritten = find_out(how, note.ticket, SECONDS)
        called = f"transaction {note.session}.{note.number} of a killed process"
        logger.info("%s was %s, says the store", called, outcome)
        if outcome == "aborted":
            return undone_alone(StoreId((note.session, note.number)), logged)
        if note.unclear is not None:
            raise LostError(note.unclear)
        if outcome == "committed" and note.has_reads:
            return logged
        if outcome == "committed" and overwritten is not None and len(logged.writes) == 1:
            return logged._replace(reads=[(logged.writes[0], self.source(overwritten))])
        if outcome == "committed" and FENCE not in logged.writes:
            return logged  # without its reads
        if FENCE in logged.writes:
            if outcome == "committed":
                raise LostError("what its fence read is unknown")
            return None
        return writes_alone(logged)

    def source(self, overwritten: Sequence[Any]) -> Any:
        for run, session, number in overwritten:
            if run == self.run_name:
                return (session, number)
        return "init"


def in_files(asks: dict[str, Any]) -> Noted:
    """The notes in these files. Raises LostError if any are missing."""
    noted: Noted = {}
    for path, how in asks.items():
        notes = notes_of(path)
        if notes is None:
            raise LostError("its notes are missing")
        for note in notes:
            noted.setdefault(note.session, []).append((note, how))
    return noted


def undone_alone(id: StoreId, logged: Logged) -> Logged:
    """What is to be logged of a noted transaction that wasn't committed."""
    reads, writes = undone(id, logged.reads, logged.writes, FENCE)
    if not (reads or writes):
        return NOTHING
    done = logged._replace(reads=(), writes=(), from_before=0, outcome="aborted")
    return done._replace(tried_reads=reads, tried_writes=writes)


def writes_alone(logged: Logged) -> Logged:
    written = tuple(statement for statement in logged.statements if len(statement[0]) == 1)
    values = tuple(value for value in logged.values if value[0] == "wrote")
    alone = logged._replace(reads=(), from_before=0, outcome="unknown")
    return alone._replace(statements=written, values=values)


def handed_in(
    transactions: Iterable[tuple[int, Logged]]
) -> Iterable[tuple[float, int, Sequence[str], bytes]]:
    """Transactions as a process hands them over: when they arrived, the number, the keys that were
    written without being read, and what was logged, as bytes."""
    for number, logged in transactions:
        yield time.monotonic(), number, keys_written_unseen(logged), as_bytes(logged)
