"""The kinds of verdicts, which are the words for what was found of a history."""

from enum import StrEnum


class Kind(StrEnum):
    """Of a round, of an audit, or of a whole run. The auditor says one of the first four of a
    round; the others are of what people are told."""

    SERIAL = "serial"
    PENDING = "pending"  # serial so far, but some reads name transactions that haven't arrived
    VIOLATED = "violated"
    SPENT = "spent"  # nothing was decided: the search ran out of its budget, or was given up
    RUNNING = "running"  # more may arrive
    UNDECIDED = "undecided"  # spent, at the end
    INCOMPLETE = "incomplete"  # something that clients did wasn't audited
    NOTHING = "nothing"  # was checked
    COLLECTOR = "the collector's own violation"  # of fences and marks only, of no client
