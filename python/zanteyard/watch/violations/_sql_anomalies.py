"""Anomalies as people know them from SQL.

In the proxy's lines each write is also a read of the version that it replaces. So a lost update
appears as a transaction that read two versions of a row: the one that it selected, and the one that
its update replaced. This module finds the part of the log that is the lost update by itself. The
verdict doesn't depend on this: the auditor is asked whether that part is violated, too.
"""

from collections.abc import Container, Mapping, Sequence
from dataclasses import replace
from typing import Any

from ...core._records import ABORTED, AuditId, History, Logged, Naming, ShownId, Source, has_come
from ...core._visible import visible
from ...explain._anomalies import FRACTURED, LOST_UPDATE, ONE_IS_LOST, SKEW, UNREPEATABLE
from ...explain._cycles import SINGLE
from ...explain._lost_updates import LostUpdate, lost_updates
from ...explain._report import Story
from ...explain._shrinking import Part, is_violated
from ...promises._kinds import SERIALIZABLE, Promise
from ._updates import APART, LOST, Fate

RowUpdate = LostUpdate[AuditId, int, tuple[Any, ...]]  # a lost one, of a row


def both_replaced(
    transactions: Mapping[AuditId, Sequence[Any]], counts: Sequence[int], keys: Container[int]
) -> RowUpdate | None:
    """The first lost update among the transactions of a round, of which `counts` has the number in
    each session; one on one of `keys`, if possible. Of a violated round, people understand this
    best."""
    found: RowUpdate | None = None
    for one in lost_updates(
        (id, [(key, tuple(version)) for key, *version in its[0] if key], its[1])
        for id, its in sorted(transactions.items())
        if has_come(id, counts) and ABORTED not in its
    ):
        if one.key in keys:
            return one
        found = found or one
    return found


def lost_update(
    whole: History,
    key: str,
    ids: tuple[ShownId, ShownId],
    program: str,
    promise: Promise = SERIALIZABLE,
) -> History | None:
    """The part of the history that consists of these two transactions, which read the same version
    of the key and both replaced it. None if the auditor doesn't find it violated by itself."""
    one, other = (
        {source for name, source in whole[session][number].reads if name == key}
        for session, number in ids
    )
    for source in sorted(one & other, key=repr):
        found = _both(whole, key, source, ids)
        if is_violated(found, program, promise):
            return found
    return None


def _both(
    whole: History, key: str, source: Source, ids: tuple[ShownId, ShownId]
) -> History:
    txns: dict[ShownId, Logged] = {}
    for one in ids:
        logged = whole[one[0]][one[1]]
        txns[one] = logged._replace(reads=[(key, source)], writes=[key])
    if source != "init":
        writer: Logged = whole[source[0]][source[1]]
        txns[source] = writer._replace(reads=(), writes=[key])
    return Part(txns).history(len(whole))


PHANTOM = "phantom"
OVER_CONDITIONS: Mapping[str, str] = {
    SKEW: f"{SKEW} over a condition", FRACTURED: PHANTOM, UNREPEATABLE: PHANTOM, SINGLE: PHANTOM,
}


def over_conditions(story: Story, small: History, conditions: Container[str]) -> Story:
    """The story, with the name that its anomaly has if it rests on what a condition passed over:
    on one of these keys."""
    anomaly = story.anomaly
    called = OVER_CONDITIONS.get(anomaly.name) if anomaly is not None else None
    if anomaly is None or called is None:
        return story
    passed = any(
        key in conditions
        for session, number in anomaly.transactions
        for key, _ in small[session][number].reads
        if key not in small[session][number].writes
    )
    return replace(story, anomaly=replace(anomaly, name=called)) if passed else story


def whose_is_lost(
    story: Story,
    name: Naming,
    replaced: tuple[ShownId, ShownId] | None,
    fate: Fate | None = None,
) -> Story:
    """The story of a lost update, if the first one's write replaced the second one's: then that one
    is lost. Whether a statement computed its value from what it replaced, as UPDATE .. SET n = n +
    1 does, its text may say (`fate`); else only the application knows."""
    anomaly = story.anomaly
    if anomaly is None or anomaly.name != LOST_UPDATE or replaced is None:
        return story
    later, earlier = map(name, replaced)
    sentence = anomaly.sentence.replace(ONE_IS_LOST, _told_fate(earlier, later, fate))
    return replace(story, anomaly=replace(anomaly, sentence=sentence))


def _told_fate(earlier: str, later: str, fate: Fate | None) -> str:
    if fate is None:
        return f"{earlier}'s update is lost unless {later}'s built on it"
    columns = visible(" and ".join(fate.columns), 100)
    if fate.kind == LOST:
        return f"{earlier}'s update of {columns} is lost"
    if fate.kind == APART:
        return f"{earlier}'s update of {columns} stands, since {later}'s was of other columns"
    return (
        f"{earlier}'s update isn't lost, since {later}'s built on it, but what {later} had read "
        "before was out of date"
    )
