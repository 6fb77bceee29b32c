"""The promises that can be checked, and their texts."""

from collections.abc import Mapping
from dataclasses import dataclass

from ..core._verdict_kinds import Kind

EVENTS = ("begin", "commit")  # follow a transaction's numbers in answers about snapshots


@dataclass(frozen=True)
class Promise:
    """A promise, and how it is checked. `name` is its name on the command line; `title` is the
    field's term."""

    name: str
    title: str
    is_split: bool = False  # a transaction's begin and commit are separate events
    asks_itself: bool = False  # the auditor splits, if a script's first line asks for it
    is_timed: bool = False  # a transaction that ended before another one began comes before it
    keeps_sessions: bool = True

    def sentence(self, kind: str) -> str:
        """A sentence for a verdict of this kind."""
        return SENTENCES[_form(self)][kind]


SERIALIZABLE = Promise("serializable", "serializability")
STRICT = Promise("strict", "strict serializability", is_timed=True)
SNAPSHOT = Promise("snapshot", "snapshot isolation", is_split=True, asks_itself=True)
STRONG_SNAPSHOT = Promise(
    "strong-snapshot", "strong snapshot isolation", is_split=True, asks_itself=True, is_timed=True
)
PREFIX = Promise("prefix", "prefix consistency", is_split=True)
SESSIONLESS = Promise(
    "sessionless", "serializability without session order", keeps_sessions=False
)
GENERALIZED = Promise(
    "generalized",
    "generalized snapshot isolation",
    is_split=True,
    asks_itself=True,
    keeps_sessions=False,
)
WITHOUT_SESSIONS: Mapping[Promise, Promise] = {SERIALIZABLE: SESSIONLESS, SNAPSHOT: GENERALIZED}
ASKED: Mapping[str, Promise] = {each.name: each for each in (SERIALIZABLE, SNAPSHOT, STRICT)}
LIVE = (SERIALIZABLE.name, SNAPSHOT.name)  # can be checked while clients run
# All promises, each before those that it implies; and what follows directly from each.
ALL: tuple[Promise, ...] = (
    STRICT,
    SERIALIZABLE,
    SESSIONLESS,
    STRONG_SNAPSHOT,
    SNAPSHOT,
    GENERALIZED,
    PREFIX,
)
IMPLIED: Mapping[Promise, tuple[Promise, ...]] = {
    STRICT: (SERIALIZABLE, STRONG_SNAPSHOT),
    SERIALIZABLE: (SESSIONLESS, SNAPSHOT),
    SESSIONLESS: (GENERALIZED,),
    STRONG_SNAPSHOT: (SNAPSHOT,),
    SNAPSHOT: (GENERALIZED, PREFIX),
    GENERALIZED: (),
    PREFIX: (),
}


def weaker(promise: Promise) -> tuple[Promise, ...]:
    """The promises that this one implies, without itself."""
    found = {at for each in IMPLIED[promise] for at in (each, *weaker(each))}
    return tuple(each for each in ALL if each in found)


def stronger(promise: Promise) -> tuple[Promise, ...]:
    """The promises that imply this one, without itself."""
    return tuple(each for each in ALL if promise in weaker(each))


_SPENT = "undecided: the search ran out of its budget; this says nothing about the store"
SENTENCES: Mapping[str, Mapping[str, str]] = {
    "serializable": {
        Kind.SERIAL: "a serial order that keeps each session's order explains every read",
        Kind.PENDING: "serial so far, but a read names a transaction that hasn't arrived",
        Kind.VIOLATED: "no serial order that keeps each session's order explains these reads",
        Kind.SPENT: _SPENT,
    },
    "strict": {
        Kind.SERIAL: "a serial order that keeps each session's order and real-time order "
        "explains every read",
        Kind.PENDING: "strictly serializable so far, but a read names a transaction that hasn't "
        "arrived",
        Kind.VIOLATED: "no serial order that keeps each session's order and real-time order "
        "explains these reads",
        Kind.SPENT: _SPENT,
    },
    "snapshot": {
        Kind.SERIAL: "an order of begins and commits that keeps each session's order satisfies "
        "snapshot isolation",
        Kind.PENDING: "snapshot isolation holds so far, but a read names a transaction that "
        "hasn't arrived",
        Kind.VIOLATED: "no order of begins and commits that keeps each session's order "
        "satisfies snapshot isolation",
        Kind.SPENT: _SPENT,
    },
}


def _form(promise: Promise) -> str:
    return "snapshot" if promise.is_split else "strict" if promise.is_timed else "serializable"
