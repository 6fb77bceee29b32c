"""A store in memory with one of its faults, and a few clients whose reads show the fault."""

from collections.abc import Callable, Mapping, Sequence
from typing import Any

from ..core.errors import AbortedError
from ..program._auditor import Auditor
from ..session._session import Session
from ..stores.memory import MemoryStore

Body = Callable[[Any], Any]
HONEST = "honest"
SESSIONS = 3


def _put(**values: int) -> Body:
    def body(transaction: Any) -> None:
        for key, value in values.items():
            transaction.put(key, value)

    return body


def _read(*keys: str) -> Body:
    return lambda transaction: [transaction.get(key) for key in keys]


def _add_one(transaction: Any) -> None:
    transaction.put("x", transaction.get("x") + 1)


def _is_committed(transaction: Any) -> bool:
    try:
        transaction.commit()
    except AbortedError:
        return False
    return True


def _at_once(sessions: Sequence[Session], bodies: Sequence[Body]) -> None:
    """Runs one body in each session; all begin before any commits. One that aborts is run again."""
    begun = [(session, session.begin(), body) for session, body in zip(sessions, bodies)]
    for _, transaction, body in begun:
        body(transaction)
    for session, transaction, body in begun:
        if not _is_committed(transaction):
            session.run(body)


def _counters(sessions: Sequence[Session]) -> None:
    """Two clients add one to a counter at the same time."""
    sessions[0].run(_put(x=1))
    _at_once(sessions, [_add_one, _add_one])


def _on_call(sessions: Sequence[Session]) -> None:
    """Two doctors go off call, each because the other one is still on call."""

    def leave(own: str) -> Body:
        def body(transaction: Any) -> None:
            if transaction.get("alice") + transaction.get("bob") > 1:
                transaction.put(own, 0)

        return body

    sessions[0].run(_put(alice=1, bob=1))
    _at_once(sessions, [leave("alice"), leave("bob")])


def _one_after_another(sessions: Sequence[Session]) -> None:
    """A client increments a counter, then another one does, and then both read it."""
    sessions[0].run(_put(x=0))
    sessions[1].run(_add_one)
    sessions[0].run(_read("x"))
    sessions[1].run(_read("x"))


def _half_seen(sessions: Sequence[Session]) -> None:
    """A client reads two keys while another one changes both."""
    sessions[0].run(_put(x=1, y=1))
    reader = sessions[1].begin()
    reader.get("x")
    sessions[0].run(_put(x=2, y=2))
    reader.get("y")
    _is_committed(reader)


def _aborted_write(sessions: Sequence[Session]) -> None:
    """A client's transaction is aborted, and another client reads what it wrote."""
    sessions[0].run(_put(x=1))
    late = sessions[1].begin()
    _add_one(late)
    sessions[0].run(_add_one)
    _is_committed(late)
    sessions[2].run(_read("x"))


def _written_and_read(sessions: Sequence[Session]) -> None:
    """A client writes, and reads what it wrote."""
    sessions[0].run(_put(x=1))
    sessions[0].run(_read("x"))


def _deleted_and_read(sessions: Sequence[Session]) -> None:
    """A client deletes what it wrote, and reads it again."""
    sessions[0].run(_put(x=1))
    sessions[0].run(lambda transaction: transaction.delete("x"))
    sessions[0].run(_read("x"))


STORIES: Mapping[str, Callable[[Sequence[Session]], None]] = {
    "lost-update": _counters,
    "write-skew": _on_call,
    "stale-read": _one_after_another,
    "torn-read": _half_seen,
    "dirty-read": _aborted_write,
    "lost-write": _written_and_read,
    "reappearing": _deleted_and_read,
}
NAMES = (*STORIES, HONEST)


def about(name: str) -> str:
    """A sentence about what the clients do."""
    about_it = _every_story if name == HONEST else STORIES[name]
    return (about_it.__doc__ or "").strip().rstrip(".")


def run_demo(name: str, auditor: Auditor) -> None:
    """Runs the clients over a store with this fault, or without one, and has the auditor take in
    what they did. `name` is one of NAMES; the auditor has SESSIONS sessions."""
    store = MemoryStore(None if name == HONEST else name)
    sessions = [Session(auditor, number, store.connect()) for number in range(SESSIONS)]
    (_every_story if name == HONEST else STORIES[name])(sessions)


def _every_story(sessions: Sequence[Session]) -> None:
    """All of the above, on a store without a fault."""
    for story in STORIES.values():
        story(sessions)
