"""Checks a history anew: what a new auditor is asked about it, and what its report means in the
history."""

import json
from collections.abc import Callable, Iterable, Mapping, Sequence
from typing import Any, NamedTuple, Protocol, cast

from ..core._own_keys import FENCE, FORM, PLAIN_FENCE
from ..core._records import MOST, AuditId, AuditNaming, History, Logged, Naming, Read, Report
from ..core._records import ShownId, Source
from ..core.errors import CantBeAskedError
from ..program._auditor import Auditor
from ..program._binaries import PROGRAM
from ..program._lines import written
from ..program._searched_round import GUIDED
from ..program._strict_auditor import StrictAuditor
from ..promises._asking import LIMIT, MOST_SESSIONS, SESSIONS, Asking, form_of, ids_of, longest
from ..promises._asking import most_remaining, too_large
from ..promises._kinds import EVENTS, SERIALIZABLE, SNAPSHOT, STRICT, Promise
from ..promises._times import Timeline
from ._arcs import Event, Node
from ._words import name

ABSENT = 1 << 32  # renumbered transactions that never arrive have numbers from here on
START = "everything before the cut"  # a key that the first transaction after a cut writes


def timeline_of(history: History) -> Timeline:
    """When the history's transactions began and ended, as far as that is known, without fences that
    do nothing else and without aborted attempts."""
    return Timeline(
        {
            (session, number): (logged.span[0], logged.span[1])
            for session, txns in enumerate(history)
            for number, logged in enumerate(txns)
            if logged.span and not logged.is_undone and FENCE not in _keys_of(logged)
        }
    )


def _keys_of(logged: Logged) -> set[str]:
    return {*logged.writes, *(key for key, _ in logged.reads)}


def apart_ids(history: History) -> list[ShownId]:
    """The transactions that did something, or that a read names as its source."""
    did = dict.fromkeys(
        ShownId((session, number))
        for session, txns in enumerate(history)
        for number, logged in enumerate(txns)
        if logged.reads or logged.writes or logged.is_undone
    )
    return [*(did | dict.fromkeys(wrong_sources(history)))]


def each_apart(history: History) -> History:
    """The same transactions, each in a session of its own, without those that did nothing. Raises
    CantBeAskedError if there are more of them than sessions."""
    did = apart_ids(history)
    if len(did) > MOST_SESSIONS:
        raise CantBeAskedError(
            f"without session order each transaction has a session of its own, and these {len(did)}"
            f" are more than {MOST_SESSIONS}"
        )
    places: dict[Source, Source] = {id: (at, 0) for at, id in enumerate(did)}
    absent = SESSIONS - 1  # nobody has its numbers from 1 on; each version knows it

    def moved(source: Source) -> Source:
        if source == "init":
            return source
        return places.setdefault(source, (absent, len(places) + 1))

    def apart(logged: Logged) -> Logged:
        return logged._replace(
            reads=[(key, moved(source)) for key, source in logged.reads],
            tried_reads=(),
            statements=(),
        )

    return [[apart(history[session][number])] for session, number in did] or [[]]


def renumbered(
    txns: Mapping[ShownId, Logged], sessions: int
) -> tuple[History, list[list[ShownId]]]:
    """These transactions as a history without gaps, and the ids that they had, by their new ones.
    What they read from others still never arrives."""
    old: list[list[ShownId]] = [[] for _ in range(sessions)]
    for id in sorted(txns):
        old[id[0]].append(id)
    places: dict[Source, Source] = {
        id: (session, number) for session, ids in enumerate(old) for number, id in enumerate(ids)
    }

    def moved(reads: Iterable[Read]) -> list[Read]:
        return [
            (key, source if source == "init" else places.setdefault(source, absent(len(places))))
            for key, source in reads
        ]

    def absent(number: int) -> Source:
        return (SESSIONS - 1, ABSENT + number)

    def one(logged: Logged) -> Logged:
        reads, tried = moved(logged.reads), moved(logged.tried_reads)
        return logged._replace(reads=reads, tried_reads=tried, statements=())

    return [[one(txns[id]) for id in ids] for ids in old], old


def without_idle(history: History) -> tuple[History, list[list[ShownId]]]:
    """The history without transactions that did nothing, as `renumbered` has it. Those with times
    stay, since some order may follow from them."""
    named = {*apart_ids(history)}
    kept = {
        id: logged
        for session, txns in enumerate(history)
        for number, logged in enumerate(txns)
        if (id := ShownId((session, number))) in named or logged.span
    }
    return renumbered(kept, len(history))


def names_more(history: History) -> bool:
    """Whether a read names a session that scripts of the version that suffices can't have."""
    return len(history) <= SESSIONS and any(
        source != "init" and source[0] >= SESSIONS
        for txns in history
        for logged in txns
        for _, source in (*logged.reads, *logged.tried_reads)
    )


def with_needed_writes(history: History) -> History:
    """The history in which the transaction that stands for forgotten ones writes only keys that
    others access, if it wrote more than a line may list: the rest can't matter."""
    first = history[0][0] if history and history[0] else None
    if first is None or len(first.writes) <= MOST:
        return history
    others = (logged for txns in [history[0][1:], *history[1:]] for logged in txns)
    needed = {key for logged in others for key in (*_keys_of(logged), *_tried_keys_of(logged))}
    first = first._replace(writes=[key for key in first.writes if key in needed])
    return [[first, *history[0][1:]], *history[1:]]


def _tried_keys_of(logged: Logged) -> set[str]:
    return {*logged.tried_writes, *(key for key, _ in logged.tried_reads)}


def in_pieces(
    history: History, places: list[list[ShownId]] | None
) -> tuple[History, list[list[ShownId]] | None]:
    """The history in which that transaction is several, if it still writes more than a line may
    list, and which transactions these are: `places`, if there are any, are those of the history."""
    first = history[0][0] if history and history[0] else None
    if first is None or len(first.writes) <= MOST:
        return history, places
    keys = [*first.writes][::-1]  # others read START, which is in the last piece
    piece = {key: at // MOST for at, key in enumerate(keys)}
    more = (len(keys) - 1) // MOST

    def moved(reads: Iterable[Read]) -> list[Read]:
        return [
            (key, source)
            if source == "init" or source[0]
            else (key, (0, source[1] + more if source[1] else piece.get(key, 0)))
            for key, source in reads
        ]

    whole = [
        [
            it._replace(reads=moved(it.reads), tried_reads=moved(it.tried_reads), statements=())
            for it in txns
        ]
        for txns in history
    ]
    whole[0][:1] = [
        first._replace(writes=keys[at : at + MOST]) for at in range(0, len(keys), MOST)
    ]
    places = places or [
        [ShownId((session, number)) for number in range(len(txns))]
        for session, txns in enumerate(history)
    ]
    return whole, [[places[0][0]] * more + places[0], *places[1:]]


def in_halves(history: History) -> History:
    """Each transaction as two, one that does its reads and one that does its writes: some order
    explains these exactly if the history keeps prefix consistency. Raises CantBeAskedError if there
    are fences."""

    def source_half(source: Source) -> Source:
        return source if source == "init" else (source[0], 2 * source[1] + 1)

    def halves(logged: Logged) -> Sequence[Logged]:
        if FENCE in _keys_of(logged):
            raise CantBeAskedError("fences can't be asked about with this promise")
        reads, tried = (
            [(key, source_half(source)) for key, source in reads]
            for reads in (logged.reads, logged.tried_reads)
        )
        return (
            logged._replace(reads=reads, writes=(), tried_reads=tried, tried_writes=()),
            logged._replace(reads=(), tried_reads=()),
        )

    return [[half for logged in txns for half in halves(logged)] for txns in history]


class Audited(NamedTuple):
    """A new auditor's report about a history, and a script that reproduces it. `keys` are the names
    of keys by the report's numbers. `ids` are the transactions, if each is in a session of its own;
    `places` are those of each session, if idle ones were left out; or they are `halved`."""

    report: Report
    script: str
    keys: Sequence[str]
    ids: Sequence[ShownId] | None = None
    places: Sequence[Sequence[ShownId]] | None = None
    is_halved: bool = False

    def moved(self, id: ShownId) -> Node:
        """The transaction of the history that the report means, or its begin or commit."""
        session, number = id
        if self.ids is not None:
            return self.ids[session]
        whole = ShownId((session, number // 2 if self.is_halved else number))
        if self.places is not None:
            whole = self.places[session][whole[1]]
        return Event(whole, EVENTS[number % 2]) if self.is_halved else whole


def audited(
    history: History, program: str = PROGRAM, promise: Promise = SERIALIZABLE
) -> tuple[Report, str]:
    """The report of a new auditor, and the script that it was given. Raises CantBeAskedError if the
    history can't be checked for the promise."""
    apart = audited_apart(history, program, promise)
    return apart.report, apart.script


def audited_apart(
    history: History, program: str = PROGRAM, promise: Promise = SERIALIZABLE
) -> Audited:
    """The same, with what is needed to read the report. Of a long history, idle transactions are
    left out."""
    history = with_needed_writes(history)
    ids, places = None if promise.keeps_sessions else apart_ids(history), None
    is_halved = promise.is_split and not promise.asks_itself
    is_long = sum(map(len, history)) > (LIMIT // 2 if promise.is_split else LIMIT)
    if ids is not None:
        history = each_apart(history)
    elif is_long or names_more(history):
        history, places = without_idle(history)
    if ids is None:
        history, places = in_pieces(history, places)
    timeline = timeline_of(history) if promise.is_timed else None
    if is_halved:
        history = in_halves(history)
    count = max(1, sum(map(len, history)))
    told = STRICT if promise == STRICT and takes_times(history) else SERIALIZABLE
    told = SNAPSHOT if promise.asks_itself else told
    asking = Asking(promise, timeline, by_reads=told != STRICT)
    limit = min(count, most_remaining(told))
    with auditor_of(told, len(history), limit, program) as auditor:
        form = form_of(told, len(history), limit)
        if form == [FORM] and not any(it.is_undone for txns in history for it in txns):
            form = []
        script: list[Any] = [["open", len(history), limit, *form]]
        for session, txns in enumerate(history):
            for first in range(0, len(txns), longest(told)):
                fragment = txns[first : first + longest(told)]
                line = ["offer", session, first, [*map(auditor.txn, fragment)]]
                is_added_to = promise.is_timed or promise.asks_itself
                script += asking.asked(json.loads(written(line))) if is_added_to else [line]
        for line in script[1:]:
            auditor.ask(line)
        report = auditor.last_round()
        script.append(["round", *auditor.effort, GUIDED])
        text = "".join(written(line) + "\n" for line in script)
        return Audited(report, text, tuple(auditor.names), ids, places, is_halved)


def takes_times(history: History) -> bool:
    """Whether the auditor itself can be asked about the history's strict serializability."""
    did = (logged.did for txns in history for logged in txns)
    return not too_large(len(history), ((len(reads), len(writes)) for reads, writes in did))


def auditor_of(
    promise: Promise, sessions: int, limit: int, program: str
) -> Auditor | StrictAuditor:
    """A new auditor that is asked about this promise."""
    if promise == STRICT:
        return StrictAuditor(sessions, limit, program)
    return Auditor(sessions, limit, program, promise=promise.name)


class Holding(Protocol):
    """What is held of an audit: by an Auditor, of a script, or of a journal."""

    @property
    def history(self) -> Sequence[Sequence[Logged]]:
        """For each session the transactions that aren't forgotten."""

    @property
    def marks(self) -> Sequence[int]:
        """How many transactions of each session are forgotten."""

    @property
    def base(self) -> Mapping[str, AuditId]:
        """By key the last forgotten writer."""


def from_start(auditor: Holding) -> tuple[History, Naming]:
    """The remaining transactions as a history without a cut and without the fences' key, and their
    names. If something was forgotten, a first transaction stands for it: it writes the last version
    of each key, and every session begins with a transaction that reads from it."""
    marks, base = auditor.marks, auditor.base
    history = [[*session] for session in auditor.history]
    # The auditor may have names, or know the clients.
    called: AuditNaming = getattr(auditor, "called", name)
    gone, some_gone = ShownId((0, 0)), any(marks)

    def moved(key: str, source: Source) -> Source:
        if source == "init" or not some_gone:
            return source
        mark = marks[source[0]] if source[0] < len(marks) else 0  # it may join later
        if source[1] >= mark:
            return (source[0], source[1] - mark + 1)
        # a version older than the last is as wrong as the initial state
        return "init" if base.get(key, source) != source else gone

    def plain(key: str) -> str:
        return PLAIN_FENCE if key == FENCE else key

    def plain_deed(key: str, *source: Source) -> Any:
        return (plain(key), *(moved(key, id) for id in source))

    def without_cut(logged: Logged) -> Logged:
        return logged._replace(
            reads=[plain_deed(*read) for read in logged.reads],
            writes=[*map(plain, logged.writes)],
            statements=[(plain_deed(*deed), statement) for deed, statement in logged.statements],
            tried_reads=sorted({plain_deed(*read) for read in logged.tried_reads}, key=repr),
            tried_writes=[*map(plain, logged.tried_writes)],
        )

    history = [[without_cut(logged) for logged in txns] for txns in history]
    if not some_gone:
        return history, cast(Naming, called)  # both numberings are the same
    first = Logged((), (START, *sorted(map(plain, base))), "forgotten")
    after = Logged(((START, gone),), (), "forgotten")

    def renamed(id: ShownId) -> str:
        if id[1]:
            return called(AuditId((id[0], id[1] - 1 + marks[id[0]])))
        return "the cut" if id == gone else f"the cut in {id[0]}"

    older = {plain(key): "in a version older than that at the cut" for key in base}
    renamed.older = older  # type: ignore[attr-defined]  # what `version` looks for
    return [[after if session else first, *txns] for session, txns in enumerate(history)], renamed


def refuted(auditor: Holding, certificate: Iterable[Any]) -> set[ShownId]:
    """The transactions that a violated round's refutation names, as in the history of
    `from_start`."""
    marks = auditor.marks

    def moved(id: AuditId) -> ShownId:
        session, number = id
        if any(marks):
            number = number - marks[session] + 1
        return ShownId((session, number) if number > 0 or not any(marks) else (0, 0))

    return {moved(id) for id in named(certificate)}


def only_keys(history: History, is_kept: Callable[[str], bool]) -> History:
    """The same history, restricted to these keys."""

    def part(logged: Logged) -> Logged:
        reads = [(key, source) for key, source in logged.reads if key == START or is_kept(key)]
        return logged._replace(
            reads=reads, writes=[key for key in logged.writes if key == START or is_kept(key)]
        )

    return [[*map(part, txns)] for txns in history]


def named(items: Iterable[Any]) -> set[AuditId]:
    """The transactions that a refutation's items name."""
    ids: set[tuple[int, int]] = set()
    for kind, first, *rest in items:
        if kind in ("nowrite", "gone"):
            ids.add((first, rest[0]))
        if kind in ("force", "split"):
            choice = ids_of(first)
            ids.update([(choice[0], choice[1]), (choice[3], choice[4]), (choice[5], choice[6])])
        for arc in map(ids_of, {"force": rest[-1:], "cycle": [first]}.get(kind, [[]])[0]):
            ids.update([(arc[-4], arc[-3]), (arc[-2], arc[-1])])
    return {AuditId(id) for id in ids}


def wrong_sources(history: History) -> dict[ShownId, Logged]:
    """Transactions that a read names as its source although they didn't write the key."""
    return {
        source: history[source[0]][source[1]]
        for txns in history
        for logged in txns
        for key, source in logged.reads
        if source != "init"
        and source[0] < len(history)
        and source[1] < len(history[source[0]])
        and key not in history[source[0]][source[1]].writes
    }
