"""Audits the clients of a transactional store for serializability, with the program cobra_audit.

    from zanteyard import Auditor, Session
    from zanteyard.stores.postgres import PostgresStore, prepare

    prepare("dbname=bank")
    with Auditor(sessions=1) as auditor:
        alice = Session(auditor, 0, PostgresStore("dbname=bank"))
        alice.run(lambda t: t.put("rent", str(int(t.get("rent") or 0) + 10)))
        print(auditor.outcome())

- To run: an Auditor; a Session for each client, over a Store. Each transaction of a session is a
  Transaction.
- For clients that run without end: a LiveAuditor, which gives out sessions. For clients in other
  processes: an AuditServer here, and an AuditClient there. A Policy says what gives way.
- An auditor with a journal survives the end of its program. Auditor.resumed continues an audit
  after the end of its process.
- The result is an Outcome, with the Report of the last round and what is Pending.
- To explain a violation: tell_violation does everything. Its parts are from_start, smaller, words,
  circumstances, find_anomaly, explain_history, reasons and audited.
- All errors are ZanteyardErrors. An error after a commit is never raised in the client's calls:
  outcomes report it, and so does the log `zanteyard`.

docs/COLLECTORS.md says what is logged, and why.
"""
from .cli._command_start import begin as _begin

_begin()

import logging as _logging  # noqa: E402
from importlib import import_module as _import_module  # noqa: E402
from typing import TYPE_CHECKING, Any  # noqa: E402

from .core._log_guard import guard as _guard  # noqa: E402
from .core._version import VERSION as __version__  # noqa: E402

if TYPE_CHECKING:
    from .core._circumstances import circumstances
    from .core._outcome import RATHER_LOSE_THE_AUDIT, RATHER_WAIT, Outcome, Policy
    from .core._own_keys import FENCE
    from .core._records import Cut, Logged, Pending, Report
    from .session._stores import Store
    from .core.errors import (
        AbortedError,
        AuditLostError,
        BadLineError,
        CantBeAskedError,
        ElsewhereError,
        FolderUnfitError,
        FullError,
        ImportRefusedError,
        JournalDamagedError,
        JournalError,
        JournalInUseError,
        JournalVersionError,
        KeyFileError,
        NameTakenError,
        NoCutError,
        NoMemoryError,
        NoRoundError,
        NotAnchoredError,
        OtherVersionError,
        OutcomeUnknownError,
        ProgramEndedError,
        ProgramLateError,
        ProgramMissingError,
        RefusedError,
        ScriptMistakeError,
        StoreLateError,
        StoreUnfitError,
        ZanteyardError,
    )
    from .explain._anomalies import find_anomaly
    from .explain._audited import audited, from_start
    from .explain._reasons import Explanation, explain_history, reasons
    from .explain._shrinking import smaller
    from .explain._violation_text import tell_violation
    from .explain._words import words
    from .live._live_auditor import LiveAuditor
    from .live._told import ClientTold, RoundTold
    from .program._auditor import Auditor
    from .remote._client import AuditClient
    from .remote._server import AuditServer
    from .session._session import Session
    from .session._transaction import Transaction

_guard(_logging.getLogger("zanteyard"))

# Where each name is defined. A module is imported when one of its names is first used, so that the
# command, which needs few of them, starts fast.
_PLACES = {
    "core._circumstances": "circumstances",
    "core._outcome": "RATHER_LOSE_THE_AUDIT RATHER_WAIT Outcome Policy",
    "core._own_keys": "FENCE",
    "core._records": "Cut Logged Pending Report",
    "session._stores": "Store",
    "core.errors": (
        "AbortedError AuditLostError BadLineError CantBeAskedError ElsewhereError "
        "FolderUnfitError FullError ImportRefusedError JournalDamagedError JournalError "
        "JournalInUseError JournalVersionError KeyFileError NameTakenError NoCutError "
        "NoMemoryError NoRoundError NotAnchoredError OtherVersionError "
        "OutcomeUnknownError ProgramEndedError ProgramLateError ProgramMissingError "
        "RefusedError ScriptMistakeError StoreLateError StoreUnfitError ZanteyardError"
    ),
    "explain._anomalies": "find_anomaly",
    "explain._audited": "audited from_start",
    "explain._reasons": "Explanation explain_history reasons",
    "explain._shrinking": "smaller",
    "explain._violation_text": "tell_violation",
    "explain._words": "words",
    "live._live_auditor": "LiveAuditor",
    "live._told": "ClientTold RoundTold",
    "program._auditor": "Auditor",
    "remote._client": "AuditClient",
    "remote._server": "AuditServer",
    "session._session": "Session",
    "session._transaction": "Transaction",
}
_PLACE_OF = {name: module for module, names in _PLACES.items() for name in names.split()}


def __getattr__(name: str) -> Any:
    if name not in _PLACE_OF:
        raise AttributeError(f"module {__name__!r} has no attribute {name!r}")
    found = getattr(_import_module(f".{_PLACE_OF[name]}", __name__), name)
    globals()[name] = found
    return found


def __dir__() -> list[str]:
    return sorted({*globals(), *_PLACE_OF})


__all__ = [
    # running
    *("Auditor", "Session", "Store", "Transaction", "Logged", "FENCE", "Cut"),
    *("LiveAuditor", "AuditServer", "AuditClient"),
    *("Policy", "RATHER_LOSE_THE_AUDIT", "RATHER_WAIT"),
    # outcomes
    *("Outcome", "Pending", "Report", "RoundTold", "ClientTold"),
    # explanations of violations
    *("Explanation", "audited", "explain_history", "from_start", "reasons"),
    *("circumstances", "find_anomaly"),
    *("smaller", "tell_violation", "words"),
    # errors, all of them
    *("AbortedError", "AuditLostError", "BadLineError"),
    *("CantBeAskedError", "ElsewhereError", "FolderUnfitError"),
    *("FullError", "ImportRefusedError", "JournalDamagedError"),
    *("JournalError", "JournalInUseError", "JournalVersionError"),
    *("KeyFileError", "NameTakenError", "NoCutError"),
    *("NoMemoryError", "NoRoundError", "NotAnchoredError"),
    *("OtherVersionError", "OutcomeUnknownError", "ProgramEndedError"),
    *("ProgramLateError", "ProgramMissingError"),
    *("RefusedError", "ScriptMistakeError", "StoreLateError"),
    *("StoreUnfitError", "ZanteyardError"),
    "__version__",
]
