"""Begins an audit while clients are running; `core/_window.py` says what it covers."""

from collections.abc import Iterable, Sequence

from ..program._window import SKIPPED, Coverage
from ..session._place import Place
from ..session._quiesce import Edge
from ._backlog import Backlog
from ._quiesce_coordinator import QuiesceGroup
from ._session_pool import SessionPool


def coverage_from_now(
    sessions: int, groups: Sequence[QuiesceGroup], places: SessionPool, backlog: Backlog
) -> Coverage:
    """The coverage of an audit of what is sent to the store from now on. Sessions that had ended go
    on, and the places of lost processes may be used again. A process that doesn't answer isn't
    audited. `sessions` is the number of sessions; `SessionPool.grow` adds none until the audit has
    begun."""
    early: list[int] = [0] * sessions
    first: list[int | None] = [None] * sessions
    unknown: list[tuple[tuple[int, int], ...]] = [()] * sessions
    # Asked twice: whatever had been answered when the first call returned had been answered before
    # anything was sent that hadn't been sent at the second.
    for session, answered, _, _ in _asked(groups, places):
        if session < sessions:
            early[session] = answered
    for session, _, unsent, unsure in _asked(groups, places):
        if session < sessions:
            first[session], unknown[session] = unsent, unsure
    for group in groups:
        backlog.reopened.update(dict.fromkeys(group.numbers(), group.asked_at))
        group.reopen()
    places.reopen()
    for session in sorted(places.nobodys()):  # of lost processes
        if first[session] is None:
            early[session] = backlog.next_number(session)
            begun = early[session] + SKIPPED
            first[session] = begun
            unknown[session] = ((0, begun),)  # only its process knew more
            places.begin_anew(Place(session, begun, is_due=True, unknown=unknown[session]))
    return Coverage(early, first, unknown=unknown)


def _asked(groups: Sequence[QuiesceGroup], places: SessionPool) -> Iterable[Edge]:
    """For each session: how many of its transactions have been answered, the first number that
    hasn't been sent, and the numbers whose outcome is unknown."""
    edges = places.edges()
    for group in groups:
        edges += group.edges() or ()
    return edges
