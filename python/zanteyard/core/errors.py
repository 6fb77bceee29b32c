"""The errors that this package raises. All of them are subclasses of ZanteyardError."""

from ._visible import shown


class ZanteyardError(Exception):
    """The base of every error that this package raises itself. Its text may quote input, and is
    safe to print."""

    def __str__(self) -> str:
        return shown(super().__str__())


class ProgramMissingError(ZanteyardError):
    """There is no auditor program to start: none was named, none is in the package, none was
    built."""


class ProgramEndedError(ZanteyardError):
    """The program ended or can't be reached, and its state is lost."""


class ProgramLateError(ProgramEndedError):
    """The program didn't answer in time."""


class OtherVersionError(ZanteyardError):
    """The versions of the clients and of the auditor's process don't fit. Nothing has begun."""


class RefusedError(ZanteyardError):
    """A line was refused: the log is wrong."""


class BadLineError(RefusedError):
    """The program doesn't know this line."""


class FullError(RefusedError):
    """The auditor holds as many transactions as it can. Nothing is wrong with this one."""


class NoMemoryError(RefusedError):
    """The program ran out of memory for this line, also at a second attempt. Nothing has
    changed."""


class NoCutError(RefusedError):
    """No round has found a fence up to which everything is settled."""


class NoRoundError(RefusedError):
    """No round is open, or no round is being searched."""


class NotAnchoredError(RefusedError):
    """The transaction that a session is to join with is no fence, or it reads from a fence that
    neither remains nor is the last one forgotten. Run a new fence and join with that."""


class AbortedError(ZanteyardError):
    """The store aborted the transaction; nothing of it was committed."""


class OutcomeUnknownError(ZanteyardError):
    """Whether the transaction was committed can't be found out. If it had written, nothing more of
    its session is audited, unless there is another session for the client."""


class StoreLateError(ZanteyardError, TimeoutError):
    """The store hasn't answered the audit's own statement on this session's connection, and nothing
    else can be sent meanwhile. Nothing has begun."""


class NameTakenError(ZanteyardError, ValueError):
    """The store knows this run's name from an earlier run, whose writes would be taken for this
    run's."""


class StoreUnfitError(ZanteyardError, ValueError):
    """The store's settings allow it to drop data, which would be reported as a fault; or it isn't
    the store that the audit is about. Nothing has begun."""


class FolderUnfitError(ZanteyardError):
    """Other users may read or write the folder, or it belongs to one of them. Nothing of an audit
    was written there, and nothing has begun."""


class AuditLostError(ZanteyardError):
    """The audit ended, and why. The clients go on."""


class KeyFileError(ZanteyardError, OSError):
    """The file with the key that clients and the auditor share can't be used."""


class ElsewhereError(ZanteyardError):
    """An error from another process, as its text."""


class JournalError(ZanteyardError):
    """The journal can't be written or read, or doesn't fit. The audit reports nothing by it."""


class JournalInUseError(JournalError):
    """Another auditor, in this process or another one, uses this journal."""


class JournalDamagedError(JournalError):
    """The journal's contents aren't what was written there."""


class JournalVersionError(JournalError):
    """The file is no journal, or one of another version."""


class CantBeAskedError(ZanteyardError):
    """A line that can't be used with the chosen promise. This says nothing about the store."""


class ScriptMistakeError(ZanteyardError):
    """A line of a script was refused, or no line opens an audit (then `refusal` is "nothing"). The
    script is wrong; this says nothing about the store."""

    def __init__(self, line_number: int, refusal: str, advice: str = "") -> None:
        self.line_number = line_number
        self.refusal = refusal
        self.advice = advice
        what = f"line {line_number} was refused: {refusal}"
        if refusal == "nothing":
            what = "the script opens no audit"
        elif not refusal:
            what = f"line {line_number} can't be used with this promise"
        super().__init__(f"{what}: {advice}" if advice else what)


class ImportRefusedError(ZanteyardError):
    """A file of another tool can't be turned into a sound history. This says nothing about the
    store. `line_number` is the line at fault, from 1; 0 for the file as a whole."""

    def __init__(self, line_number: int, why: str) -> None:
        self.line_number = line_number
        self.why = why
        super().__init__(f"line {line_number}: {why}" if line_number else why)
