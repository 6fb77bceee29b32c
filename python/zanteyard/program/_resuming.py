"""Begins an audit with a journal, or continues one."""

import logging
from collections.abc import Callable, Sequence
from dataclasses import dataclass

from ._window import Coverage
from ..core.errors import JournalDamagedError, JournalError
from ..journal._entries import Head, Kept, Violation, kept_in
from ..journal._file import Journal
from ..journal._history import State, state_of
from ..journal._writer import JournalWriter
from ..promises._kinds import ASKED
from ._supervised import SupervisedProgram

logger = logging.getLogger("zanteyard")


@dataclass
class Reopened:
    """A journal that another program left, its contents, and the state that they lead to."""

    journal: Journal
    kept: Kept
    state: State

    @property
    def coverage(self) -> Coverage | None:
        plain = self.kept.head.coverage
        if plain is None:
            return None
        unknown = [tuple((start, end) for start, end in ranges) for ranges in plain["unknown"]]
        return Coverage(plain["early"], plain["first"], plain["last"], unknown)


def reopened(path: str, promise: str | None = None) -> Reopened:
    """Raises JournalError if there is no valid journal, or if its audit checks another promise."""
    journal = Journal(path)
    try:
        if not journal.is_there:
            raise JournalError(f"{path}: no such journal")
        kept = kept_in(journal)
        if promise is not None and promise != kept.head.promise:
            raise JournalError(
                f"the audit in {path} asks for {ASKED[kept.head.promise].title}, so it can't "
                f"continue with {ASKED[promise].title}"
            )
        return Reopened(journal, kept, _state_of(kept, path))
    except BaseException:
        journal.close()
        raise


def _state_of(kept: Kept, path: str) -> State:
    state = state_of(kept.lines)
    try:
        state.put_undone(kept.undone)
    except (ValueError, TypeError, IndexError) as error:
        message = f"{path}: its aborted transactions don't match the remaining ones: {error!r}"
        raise JournalDamagedError(message) from error
    return state


def journaled(
    program: str,
    journal: str | Reopened,
    head: Callable[[], Head],
    names: Sequence[str],
) -> SupervisedProgram:
    """A program whose audit continues this journal, or begins a new one. An existing journal isn't
    overwritten, except by a later audit of the same run."""
    if isinstance(journal, Reopened):
        keeping = JournalWriter(journal.journal, head, names, journal.kept)
        return SupervisedProgram(program, keeping, journal.kept)
    begun = Journal(journal)
    try:
        first_head = head()
        if begun.is_there and first_head.audit == 1:
            raise JournalError(f"{journal} exists: continue it by Auditor.resumed")
        keeping = JournalWriter(begun, head, names)
        keeping.violations += _earlier(begun, first_head.run_name)
        return SupervisedProgram(program, keeping)
    except BaseException:
        begun.close()
        raise


def _earlier(journal: Journal, run_name: str) -> list[Violation]:
    """The violations that earlier audits of this run reported, which are kept."""
    if not journal.is_there:
        return []
    try:
        kept = kept_in(journal)
    except JournalDamagedError as error:
        aside = journal.set_aside()
        logger.error("%s; it is now %s", error, aside)
        return []
    if kept.head.run_name != run_name:
        raise JournalError(f"{journal.path} belongs to another run, {kept.head.run_name}")
    return kept.violations
