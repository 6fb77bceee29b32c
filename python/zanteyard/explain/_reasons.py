"""Why no order explains a history: the refutation that the auditor has checked, in words."""


from ..core._records import History, Naming
from ..core._verdict_kinds import Kind
from ..program._binaries import PROGRAM
from ..promises._kinds import SERIALIZABLE, Promise
from ._audited import Audited, audited_apart
from ._explanation import Explanation as Explanation
from ._refutation import UnreadableError, read_refutation
from ._words import name


def explanation_of(audited: Audited, history: History, name: Naming = name) -> Explanation:
    """What the auditor's refutation of this history says."""
    report = audited.report
    if report.kind != Kind.VIOLATED:
        return Explanation(f"checked by themselves, these transactions are {report.kind}")
    try:
        its = (report.certificate, history, audited.keys, name, audited.moved)
        return read_refutation(*its, keeps_sessions=audited.ids is None)
    except UnreadableError as error:
        return Explanation(f"the auditor's refutation can't be read: {error}")


def explain_history(
    history: History,
    name: Naming = name,
    program: str = PROGRAM,
    promise: Promise = SERIALIZABLE,
) -> Explanation:
    """The explanation of a violated history, from a new auditor."""
    return explanation_of(audited_apart(history, program, promise), history, name)


def reasons(history: History, name: Naming = name, program: str = PROGRAM) -> list[str]:
    """The lines of its explanation."""
    return [*explain_history(history, name, program).lines]
