"""What an audit writes to its journal as it goes on, and when the journal is rewritten."""

import json
from collections.abc import Callable, Iterable, Sequence
from typing import Any

from ..core._records import ABORTED, AuditId
from ..promises._kinds import ASKED, Promise
from ._entries import (
    Head,
    Kept,
    Violation,
    checkpoint,
    figures,
    kept_in,
    keys,
    later,
    line,
    violated,
)
from ._file import Journal

TELLS_ABORTED = b'"%s"' % ABORTED.encode()
GROWS = 1 << 20  # bytes a file grows by, or its own size if more, before it is rewritten


class JournalWriter:
    """Writes a journal; for one thread at a time. Every call raises JournalError if the journal
    can't be written. `head` describes the audit, `names` is the growing list of the keys' names,
    and `kept` is what a continued journal says. `left_out`, `is_of_sessions`, `from_before` and
    `store` are the head's current values."""

    def __init__(
        self,
        journal: Journal,
        head: Callable[[], Head],
        names: Sequence[str],
        kept: Kept | None = None,
    ) -> None:
        self.journal = journal
        self._head, self._names = head, names
        self.rounds = kept.head.rounds if kept else 0  # reported rounds, by all programs
        self.left_out = kept.head.left_out if kept else 0
        self.is_of_sessions = kept.head.is_of_sessions if kept else False
        self.from_before = kept.head.from_before if kept else 0
        self.store = kept.head.store if kept else None
        self.violations: list[Violation] = list(kept.violations) if kept else []
        self._noted = len(kept.names) if kept else 0  # how many names the journal has
        self._figures = self._figures_by_now()  # as the journal has them
        self.changes = len(kept.lines) - kept.saved if kept else 0  # lines after the checkpoint
        # What aborted attempts did, in the form of lines: a program's saved state says only that
        # they exist.
        self._undone: dict[AuditId, Any] = {}
        if kept is not None:
            self._undone.update(
                (AuditId((session, number)), txn) for session, number, txn in kept.undone
            )
            self._note_undone(kept.lines[kept.saved :])
        self._has_begun = kept is not None  # it has a checkpoint of this audit
        self._due = 0  # the size at which the file is rewritten; an old one is rewritten first

    @property
    def limit(self) -> int:
        """How many transactions may remain."""
        return self._head().limit

    @property
    def promise(self) -> Promise:
        """The promise that the audit checks."""
        return ASKED[self._head().promise]

    @property
    def is_checkpoint_due(self) -> bool:
        return self._has_begun and self.journal.size > self._due

    def kept(self) -> Kept | None:
        """What the journal says about this audit, without the keys' names; None before the first
        checkpoint."""
        return kept_in(self.journal, has_names=False) if self._has_begun else None

    def note_changes(self, lines: Sequence[bytes]) -> None:
        """Notes lines that were answered ok."""
        self._note([*map(line, lines)])
        self.changes += len(lines)
        self._note_undone(lines)

    def _note_undone(self, lines: Iterable[bytes]) -> None:
        for each in lines:
            if TELLS_ABORTED in each:
                _, session, *more = json.loads(each)
                first, txns = more if len(more) == 2 else (0, more[0])
                undone = ((number, txn) for number, txn in enumerate(txns, first) if txn[2:])
                self._undone.update((AuditId((session, number)), txn) for number, txn in undone)

    def _undone_of(self, saved: Sequence[bytes]) -> list[Any]:
        """The aborted attempts that remain in this saved state."""
        if self._undone:
            _, gone, *_ = json.loads(saved[1])
            self._undone = {id: txn for id, txn in self._undone.items() if id[1] >= gone[id[0]]}
        return [[*id, txn] for id, txn in self._undone.items()]

    def note_report(self, violation: list[Any] | None) -> None:
        """Notes one more round, and its reply if it was violated."""
        self.rounds += 1
        if violation is not None:
            self.note_violation(violation)
        self.note_figures()

    def note_figures(self) -> None:
        """Writes changed values if nothing else has to be written."""
        if self._has_begun:
            self._note([])

    def note_violation(self, reply: list[Any]) -> None:
        """Notes the first violation of the audit, which stays true."""
        audit = self._head().audit
        if all(violation.audit != audit for violation in self.violations):
            self.violations.append(Violation(audit, reply))
            self._note([violated(self.violations[-1])])

    def note_checkpoint(self, saved: Sequence[bytes]) -> None:
        """Writes a checkpoint of a program's saved state. It is appended until the file is longer
        than it needs to be, because flushing a rewritten file to the disk is expensive."""
        head, count, now = self._head(), len(self._names), self._figures_by_now()
        head.take_figures(*now)
        its_undone = self._undone_of(saved)
        if not self._append_checkpoint(head, count, saved, its_undone):
            names = keys(0, self._names[:count])
            self.journal.begin_anew(checkpoint(head, names, self.violations, saved, its_undone))
            self._due = self.journal.size + max(GROWS, self.journal.size)
        self._noted, self._has_begun, self._figures, self.changes = count, True, now, 0

    def _append_checkpoint(
        self, head: Head, count: int, saved: Sequence[bytes], its_undone: Sequence[Any]
    ) -> bool:
        """Appends it if there is room, and returns whether there was."""
        if not self._has_begun:
            return False
        names = keys(self._noted, self._names[self._noted : count])
        behind = later(checkpoint(head, names, self.violations, saved, its_undone))
        has_room = self.journal.size + len(behind) <= self._due
        if has_room:
            self.journal.append([behind])
        return has_room

    def _note(self, entries: list[bytes]) -> None:
        """Writes these entries and whatever else has changed, with one write. The changes come
        first, since a write may be cut off."""
        count, now = len(self._names), self._figures_by_now()
        if now != self._figures:
            entries.insert(0, figures(*now))
        if count > self._noted:
            entries.insert(0, keys(self._noted, self._names[self._noted : count]))
        if entries:
            self.journal.append(entries)
        self._noted, self._figures = count, now

    def _figures_by_now(self) -> tuple[Any, ...]:
        now = (self.rounds, self.left_out, self.is_of_sessions)
        return (*now, self.from_before, self.store)
