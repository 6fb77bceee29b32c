"""The program cobra_audit, started with pipes on both ends, and a record of what it was given."""

from __future__ import annotations

import logging
import os
import secrets
import threading
import time
from collections import deque
from collections.abc import Sequence
from dataclasses import asdict

from ..core._outcome import RATHER_LOSE_THE_AUDIT, Outcome, Policy, kind_of
from ..core._own_keys import FORM, LARGE_FORM
from ..core._records import Report, never_came
from ..core._store_identity import AuditedStore, checked
from ..core._verdict_kinds import Kind
from ._window import Coverage
from ..core.errors import AuditLostError, ProgramEndedError
from ..journal._entries import Head
from ..promises._asking import form_of, most_remaining
from ..promises._kinds import ASKED, SERIALIZABLE
from ._binaries import PROGRAM as PROGRAM
from ._intake import Intake
from ._pipes import Pipes
from ._resuming import Reopened, journaled, reopened
from ._searched_round import EFFORTS, ROUND_SECONDS, Effort
from ._supervised import SupervisedProgram

UNKNOWN = "the auditing process ended, and the last transactions of its sessions are unknown"
logger = logging.getLogger("zanteyard")


def fresh_name() -> str:
    """A name for a run that no other run has."""
    return f"{time.strftime('%Y-%m-%d %H:%M:%S')} {secrets.token_hex(6)}"


class Auditor(Intake):
    """The program cobra_audit. Safe for use by several threads: each call is one line and its
    reply. What sessions hand in (`take`) never raises. All other calls raise ProgramEndedError if
    the program is gone and RefusedError if it refuses a line.

    `sessions` is the initial number of sessions, 1 to 256; `join` adds more. At most `limit`
    transactions may remain (4,096 by default, and 1,048,576 at most); with more, a round takes
    longer. `program` is the file to start. `run_name` is stored next to each value that sessions
    write; each run needs its own, and gets one by default. `script` names a file for every line
    that the program is given, so that the lines can be replayed. `policy` says how long sessions
    wait. `journal` names a file that doesn't exist yet (docs/OPERATION.md): if the program dies,
    another one is started and brought to the same state. With a journal, all calls raise
    JournalError if it can't be written. A round whose search takes longer than `round_seconds` (60
    by default) is skipped and reported as spent. `promise` is "serializable" or "snapshot"
    (docs/PROMISES.md). With "snapshot" there is room for half as many transactions.

    If `sessions` is above 64 or `limit` above its default, more sessions may join up to 256, and
    otherwise up to 64: the program's script is then of version 3 (docs/FORMATS.md).
    """

    def __init__(
        self,
        sessions: int,
        limit: int | None = None,
        program: str = PROGRAM,
        run_name: str | None = None,
        script: str | None = None,
        policy: Policy = RATHER_LOSE_THE_AUDIT,
        journal: str | Reopened | None = None,
        round_seconds: float | None = None,
        promise: str = SERIALIZABLE.name,
    ) -> None:
        self.promise = ASKED[promise]
        if self.promise.is_timed:
            raise ValueError(
                f"{promise}: only finished histories can be checked for real-time order"
            )
        usual, most = (most_remaining(self.promise, form) for form in (FORM, LARGE_FORM))
        self.limit = usual if limit is None else min(limit, most)
        self.sessions, self.path, self.script_path = sessions, program, script
        self.journal = journal
        self.round_seconds = ROUND_SECONDS if round_seconds is None else round_seconds
        self.is_resumed = isinstance(journal, Reopened)
        self.policy, self.is_named = policy, run_name is not None
        self.run_name: str = run_name if run_name is not None else fresh_name()
        self.made_in = os.getpid()
        self.token = secrets.token_hex(12)  # unique to this run, even if its name isn't
        self.audited_store = AuditedStore()
        self.audits = 0
        self._waiting = deque()
        self.is_ended = False  # by its owner
        self.lock, self._rounds = threading.RLock(), threading.RLock()
        self._begin_count()
        self._start(None)

    @classmethod
    def resumed(
        cls,
        journal: str,
        program: str = PROGRAM,
        script: str | None = None,
        policy: Policy = RATHER_LOSE_THE_AUDIT,
        round_seconds: float | None = None,
        promise: str | None = None,
    ) -> Auditor:
        """Continues the audit of this journal after its process has gone. `received`, `closed`,
        `history` and `violation` say where it stands. What clients did after `received` must be
        offered again. If the audit's sessions were in that process, their last transactions are
        unknown: then `outcome` is violated or incomplete, and `last_round` reports on what was
        received. The audit checks the same promise as before; raises JournalError if that isn't
        `promise`, or if there is no valid journal."""
        reopened_audit = reopened(journal, promise)
        head = reopened_audit.kept.head
        try:
            more = (program, head.run_name, script, policy, reopened_audit, round_seconds)
            sessions = len(reopened_audit.state.gone)
            return cls(sessions, head.limit, *more, promise=head.promise)
        except BaseException:
            reopened_audit.journal.close()
            raise

    def _start(self, coverage: Coverage | None) -> None:
        self._hold_nothing(coverage)
        self._have_no_round()
        self.audits += 1
        self.script_failure = None
        try:
            self._open_script()
            if isinstance(self.journal, Reopened):
                self._go_on_by(self.journal)
            else:
                self.program = self._started(self.journal)
                form = form_of(self.promise, self.sessions, self.limit)
                self.ask(["open", self.sessions, self.limit, *form])
        except BaseException:
            self._end_program()
            raise

    def _started(self, journal: str | Reopened | None) -> Pipes | SupervisedProgram:
        if journal is None:
            return Pipes(self.path)
        program = journaled(self.path, journal, self._head, self.names)
        program.keeping.is_of_sessions |= self.has_sessions
        program.keeping.store = self._store()
        return program

    def _head(self) -> Head:
        """The head of the journal."""
        coverage = asdict(self.coverage) if self.coverage is not None else None
        plain = (self.sessions, self.limit, self.run_name, self.audits, coverage)
        more = (self._tenancy.joined(), self.promise.name, self.from_before, self._store())
        return Head(*plain, 0, 0, False, *more)

    def _go_on_by(self, reopened_audit: Reopened) -> None:
        """Restores the state of this journal's program."""
        self.journal = reopened_audit.journal.path  # from the next audit on
        kept, state = reopened_audit.kept, reopened_audit.state
        self.audits, self.left_out = kept.head.audit, kept.head.left_out
        self._have_no_round(kept.head.rounds)
        self.from_before = kept.head.from_before
        if kept.head.store is not None:
            self.audited_store.first(checked(*kept.head.store))
        self.coverage = reopened_audit.coverage
        self.names[:] = kept.names
        self.numbers.update((name, number) for number, name in enumerate(kept.names))
        self.history, self.base = state.history(self.names), state.base(self.names)
        self.marks, self.closed = list(state.gone), list(state.closed)
        for joined in [*kept.head.joined, *state.joined]:
            self._tenancy.begin_behind(*joined)
        for session, count in enumerate(self.received):
            self._seen[session] = (count, count)
        self.taken_in = sum(self.received)
        if kept.head.is_of_sessions:
            self.failure = AuditLostError(UNKNOWN)
        self.program = self._started(reopened_audit)
        self._keep(kept.lines)
        self.ask(["save", "marks"])  # once this is answered, the state is restored

    def keep_journal(self, path: str, round_seconds: float | None = None) -> None:
        """Adds a journal to an auditor that hasn't been used yet. Raises JournalError; the auditor
        has then ended."""
        with self.lock:
            self._check_end()
            if self.journal is not None or self.is_in_use:
                raise ValueError("a journal can be set only once, before the audit begins")
            self._end_program()
            self.journal = path
            self.round_seconds = self.round_seconds if round_seconds is None else round_seconds
            self.audits -= 1
            self.is_ended = True
            self._start(None)
            self.is_ended = False

    @property
    def is_in_use(self) -> bool:
        """Whether anything was handed in or offered."""
        return self.audits > 1 or self.handed_in > 0 or any(self.received)

    def start_anew(self, coverage: Coverage | None = None) -> None:
        """Starts a new audit with a new program. With a Coverage, numbers count from the beginning
        of that audit. Raises ProgramEndedError after `end`."""
        with self.lock:
            self._check_end()
            self._end_program()
            self._begin_count()
            self._be_in_step()  # with the new program
            self._start(coverage)

    def _check_end(self) -> None:
        if self.is_ended:
            raise ProgramEndedError("the auditor was closed")

    def round(self, efforts: Sequence[Effort] = EFFORTS) -> Report:
        """The report of a round over everything that sessions have handed in. If an effort is spent
        without a result, the next one is tried; the report is that of the last. A round whose
        search takes longer than `round_seconds` is skipped and reported as spent. If something that
        sessions did was lost, the reason is raised; `outcome` still says what is known."""
        self._take_in()
        if self.failure is not None:
            raise self.failure
        return self.last_round(efforts)

    def outcome(self) -> Outcome:
        """The outcome after a round over everything that was handed in. Raises nothing."""
        report = None
        try:
            self._take_in()
            report = self.last_round()
        except Exception as error:
            self._lose(error)
        if report is None or report.kind != Kind.VIOLATED:
            report = self.violation or report
        is_whole = self.taken_in >= self.handed_in
        is_pending = report is not None and report.kind == Kind.PENDING
        pending = tuple(never_came(self.history, self.marks)) if is_pending else ()
        kind = kind_of(report, self.failure, is_whole)
        handed_in = max(self.handed_in, self.taken_in)
        more = (self.failure, pending, report, self.run_name)
        return Outcome(kind, self.taken_in, handed_in, *more, from_before=self.from_before)

    @property
    def violation(self) -> Report | None:
        """The journal's first violated report, if there is a journal and a violation: it stays
        true, whatever is reported later."""
        violations = (
            self.program.keeping.violations if isinstance(self.program, SupervisedProgram) else ()
        )
        reports = [
            Report(*violation.reply[1:])
            for violation in violations
            if violation.audit == self.audits
        ]
        return reports[0] if reports else None

    def end(self) -> int | None:
        """Ends the program, and returns its status, or None if unknown. May be called again."""
        self.is_ended = True
        with self.lock:
            return self._end_program()

    def _end_program(self) -> int | None:
        if self.script is not None:
            self.script.close()
            self.script = None
        return self.program.end() if self.program is not None else None

    def __enter__(self) -> Auditor:
        return self

    def __exit__(self, *_: object) -> None:
        self.end()
