"""The program cobra_audit, asked about the strict serializability of a finished history."""

from __future__ import annotations

import threading
from collections.abc import Sequence

from ..core._records import Report
from ..core._verdict_kinds import Kind
from ..core.errors import BadLineError, OtherVersionError, ProgramLateError
from ..promises._asking import form_of
from ..promises._kinds import STRICT
from ._offers import Offers
from ._pipes import Pipes
from ._searched_round import EFFORTS, GUIDED, Effort


def older_than_strict(path: str) -> str:
    """What is wrong with a program that doesn't know such scripts."""
    return f"{path} doesn't know {STRICT.title}: it is older than this package"


class StrictAuditor(Offers):
    """Is given offers with their times (`ask`), and then asked for a round, whose search can't be
    skipped: if it takes longer than an answer may, the program is killed. For one thread. Raises
    OtherVersionError if the program doesn't know the promise."""

    def __init__(self, sessions: int, limit: int, program: str) -> None:
        self.promise, self.sessions, self.script_path = STRICT, sessions, None
        self.lock, self._rounds = threading.RLock(), threading.RLock()
        self.round_seconds = 0.0  # added to the time that an answer may take
        self._hold_nothing(None)
        self._have_no_round()
        self.program = Pipes(program)
        try:
            self.ask(["open", sessions, limit, *form_of(STRICT, sessions, limit)])
        except BaseException as error:
            self.end()
            if isinstance(error, BadLineError):
                raise OtherVersionError(older_than_strict(program)) from error
            raise

    def last_round(self, efforts: Sequence[Effort] = EFFORTS) -> Report:
        """The report of a round over everything that was offered, by the first of these efforts
        that isn't spent, or else by the last. One that takes too long is spent."""
        report = Report(0, Kind.SPENT, ())
        for self.effort in efforts:
            try:
                report = Report(*self.ask(["round", *self.effort, GUIDED])[1:])
            except ProgramLateError:
                break
            if report.kind != Kind.SPENT:
                break
        return report

    def end(self) -> None:
        """Ends the program."""
        if isinstance(self.program, Pipes):
            self.program.end()

    def __enter__(self) -> StrictAuditor:
        return self

    def __exit__(self, kind: object, *_: object) -> None:
        if kind is not None and isinstance(self.program, Pipes):
            self.program.kill()  # it may be searching
        self.end()
