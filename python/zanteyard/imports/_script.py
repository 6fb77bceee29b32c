"""Turns a recording whose sources are known into a script: which transactions are offered, in which
sessions, with which numbers, and their names."""

from collections.abc import Iterator, Sequence

from ..core._own_keys import FORM, LARGE_FORM
from ..core._processes import shared_all
from ..core._records import AuditId
from ..core.errors import ImportRefusedError
from ..scripts._names import PART, REST, Deed, LazyNames, NamedTransaction, ScriptNames
from ..scripts._times import ScriptTimes
from ..promises._asking import LIMIT, MOST, MOST_SESSIONS, SESSIONS
from ._recording import (
    ABORTED,
    APPEND,
    BETWEEN,
    COMMITTED,
    UNKNOWN,
    WRITE,
    Access,
    Recording,
    counted,
)
from ._script_parts import (
    ASKS_TIME,
    BEFORE,
    LONGEST,
    Fence,
    Imported,
    Item,
    Plan,
    about_size,
    about_undone,
    about_unused,
    all_before,
    in_text,
    keys_of,
    named_stub,
    offers,
    written_by,
)
from ._sources import Absent, Origin, Shown, Sources, Stub
from ._times import EVERY, Times, check_times, part_of, times_of

MANY, PIECE = 8192, 2048  # transactions that several processes write, and a piece of them
NEVER_OFFERED = 1_000_000_000  # numbers from here on are those of transactions that never arrive
ROUND, TRUNCATE = '["round",4096,0,1,"guided"]', '["truncate"]'


def script_of(
    recording: Recording, first: int | None = None, asks_time: bool = False, every: int = EVERY
) -> Imported:
    """The script of the whole recording, or of its first `first` attempts, and its times. With
    `asks_time` it will be checked for real-time order: then clients may share a session by time,
    and if there are more transactions than may remain (MOST), fences are put at pauses that are at
    least `every` transactions apart: nothing else lets so many be checked. Raises
    ImportRefusedError if there is no sound script, or none that the auditor can take."""
    if asks_time:
        check_times(recording)
    return _ScriptMaker(recording, first, asks_time, every).imported()


class _ScriptMaker:
    def __init__(
        self, recording: Recording, first: int | None, asks_time: bool, every: int
    ) -> None:
        self._recording = recording
        self._attempts = recording.attempts
        self._sources = Sources(recording)
        self._of = self._sources.of
        self._is_part = first is not None and first < len(self._attempts)
        self._kept = self._front(first) if first is not None else set(range(len(self._attempts)))
        self._times = Times(self._attempts, self._of) if asks_time else None  # of the whole file
        self._every = every
        self._pauses: list[int] = []  # the ones that are used
        self._keys: dict[str, int] = {}
        self._absent: dict[object, AuditId] = {}
        self._absent_names: dict[AuditId, str] = {}
        self._plan = Plan()
        self._places: dict[Item, AuditId] = {}

    def _front(self, first: int) -> set[int]:
        """The first attempts, in the order of their begins, or of their places in the file."""
        order = sorted(range(len(self._attempts)), key=self._begin_of)
        return set(order[:first])

    def _begin_of(self, at: int) -> tuple[int, int]:
        return self._attempts[at].began, at

    def imported(self) -> Imported:
        """The complete result."""
        self._plan = self._planned()
        if self._times is not None and sum(map(len, self._plan.sessions)) > MOST:
            self._pauses = self._times.pauses(self._every)
        self._put_fences()
        self._places = self._plan.places()
        offered = self._all_offered()
        items: list[list[Item | None]] = [[*session] for session in self._plan.sessions]
        if self._is_part:
            offered[0].append(self._rest())
            items[0].append(None)
        lines = tuple(self._lines(offered))
        names = ScriptNames(
            self._recording.form,
            {number: key for key, number in self._keys.items()},
            [LazyNames(session, self._named, self._name_of) for session in items],
            self._absent_names,
            self._times is not None,
            tuple(sorted(self._plan.by_time)),
            bool(self._pauses),
        )
        return Imported(lines, names, tuple(self._about()), self._script_times)

    def _script_times(self) -> ScriptTimes | None:
        if not self._recording.has_times or self._recording.time_goes_back:
            return None
        ids = {item: id for item, id in self._places.items() if isinstance(item, int)}
        return times_of(self._recording, ids)

    def _lines(self, offered: list[list[str]]) -> Iterator[str]:
        """The lines of the script, of the lowest version that has room for them. If not everything
        fits, there is a round at each pause, after which what is settled is forgotten; otherwise
        one round at the end."""
        count = sum(map(len, offered))
        if count > MOST and not self._pauses:
            raise ImportRefusedError(0, self._too_many(count))
        tells_aborted = any(
            stub.kind == ABORTED and self._is_told(stub)
            for stub in self._places if isinstance(stub, Stub)
        )
        is_large = count > LIMIT or len(offered) > SESSIONS
        form = f",{LARGE_FORM}" if is_large else f",{FORM}" if tells_aborted else ""
        yield f'["open",{len(offered)},{min(MOST, count)}{form}]'
        given = [0] * len(offered)
        for pause, fences in enumerate(self._plan.fences):
            ends = {fence.session: self._places[fence][1] + 1 for fence in fences}
            if count > MOST:
                self._check_room(sum(ends[session] - given[session] for session in ends), pause)
            for session, end in ends.items():
                yield from offers(session, given[session], offered[session][:end])
                given[session] = end
            for session in {fence.session for fence in fences if fence.is_first}:
                if given[session] == len(offered[session]):
                    yield f'["close",{session}]'
            if count > MOST:
                yield ROUND
                yield TRUNCATE
        if count > MOST:
            self._check_room(count - sum(given), len(self._pauses))
        for session, transactions in enumerate(offered):
            yield from offers(session, given[session], transactions)
        yield ROUND

    def _check_room(self, count: int, pause: int) -> None:
        """Raises ImportRefusedError if there isn't room for this many transactions before this
        pause, counted from 0."""
        left = len(self._plan.sessions)  # second fences of the previous pause
        if count > MOST - left:
            line = self._line_at(self._pauses[pause - 1]) if pause else 1
            raise ImportRefusedError(
                line,
                f"from here on, {count:,} transactions ran without a moment at which none was in "
                f"flight; at most {MOST:,} can be held at a time",
            )

    def _too_many(self, count: int) -> str:
        """Says why this many transactions can't be checked, and what can be done."""
        text = (
            f"the file has {count:,} transactions, and at most {MOST:,} can be checked at once: "
            "take the first of them (--first N)"
        )
        if self._times is not None:
            return f"{text}; there is no moment with none in flight, at which it could be divided"
        if self._recording.has_times and not self._recording.time_goes_back:
            return f"{text}, or divide it at moments with none in flight (--strict)"
        return text

    def _line_at(self, place: int) -> int:
        return next(attempt.line for attempt in self._attempts if attempt.began == place)

    def _put_fences(self) -> None:
        """Puts fences at each pause: first one for every session that has done something, in a
        chain, then a second one for every session that will do something."""
        if not self._pauses:
            return
        parts = [self._parts_of(items) for items in self._plan.sessions]
        self._plan.sessions = [session_parts[0] for session_parts in parts]
        for pause in range(1, len(self._pauses) + 1):
            first = [
                Fence(pause, session, True)
                for session, session_parts in enumerate(parts)
                if any(session_parts[:pause])
                and (any(session_parts[pause:]) or session_parts[pause - 1])
            ]
            second = [
                Fence(pause, session, False)
                for session, session_parts in enumerate(parts)
                if any(session_parts[pause:])
            ]
            self._plan.fences.append([*first, *second])
            for fence in self._plan.fences[-1]:
                self._plan.sessions[fence.session].append(fence)
            for session, session_parts in enumerate(parts):
                self._plan.sessions[session] += session_parts[pause]

    def _parts_of(self, items: list[Item]) -> list[list[Item]]:
        """A session's items between the pauses."""
        parts: list[list[Item]] = [[] for _ in range(len(self._pauses) + 1)]
        for item in items:
            at = item.owner if isinstance(item, Stub) else item
            assert isinstance(at, int)
            parts[part_of(self._attempts[at].began, self._pauses)].append(item)
        return parts

    def _planned(self) -> Plan:
        """A session for each client. If there are too many clients, one that certainly comes after
        all of another one shares its session."""
        clients = [items for items in self._items_of_clients().values() if items]
        if not clients:
            raise ImportRefusedError(0, "no transaction was committed: nothing can be checked")
        if len(clients) <= MOST_SESSIONS:
            return Plan(clients)
        before = self._known_before()
        plan = Plan()
        for items in clients:
            is_needed = plan.shared < len(clients) - MOST_SESSIONS
            self._place(items, plan, all_before(before, items[0]) if is_needed else set())
        if len(plan.sessions) > MOST_SESSIONS:
            raise ImportRefusedError(
                0,
                f"{len(clients)} clients need {len(plan.sessions)} sessions, of which there are at "
                f"most {MOST_SESSIONS} ({plan.shared} clients certainly follow another one, and "
                "share its session): take fewer transactions (--first)",
            )
        return plan

    def _place(self, items: list[Item], plan: Plan, before: set[Item]) -> None:
        """Puts a client's items into the session of one that comes before it; `before` is what
        comes before the items in every order."""
        for number, session in enumerate(plan.sessions):
            is_known = session[-1] in before
            if is_known or (before and self._is_before_in_time(session, items)):
                session += items
                plan.shared += 1
                if self._times is not None:
                    plan.by_time.add(number)
                return
        plan.sessions.append(items[:])

    def _is_before_in_time(self, session: list[Item], items: list[Item]) -> bool:
        """Whether everything in the session had ended when the first of these items began."""
        if self._times is None:
            return False
        last = [self._times.ended[item] for item in session if isinstance(item, int)]
        first = [self._times.began[item] for item in items if isinstance(item, int)]
        if not last or not first:  # what wrote nothing may be anywhere
            return True
        return max(last) < min(first)

    def _items_of_clients(self) -> dict[str, list[Item]]:
        """By client, what is offered, in order. Raises ImportRefusedError if a client goes on after
        an attempt whose outcome is unknown and which took effect."""
        stubs = self._stubs()
        items_of: dict[str, list[Item]] = {}
        unknown: dict[str, int] = {}
        for at, attempt in enumerate(self._attempts):
            if at not in self._kept:
                continue
            items = items_of.setdefault(attempt.client, [])
            items += stubs.get(at, ())
            if at not in self._of:
                continue
            if attempt.client in unknown:
                before = self._attempts[unknown[attempt.client]]
                raise ImportRefusedError(
                    attempt.line,
                    f"this client continues after its attempt on line {before.line}, which took "
                    "effect although its outcome was unknown: whether that was before this attempt "
                    "is unknown",
                )
            if attempt.outcome == UNKNOWN:
                unknown[attempt.client] = at
            items.append(at)
        return items_of

    def _stubs(self) -> dict[int, list[Stub]]:
        """The sources of reads that can't be real, by owner."""
        stubs_of: dict[int, list[Stub]] = {}
        for at, stub in self._sources.stubs:
            if at in self._kept and stub.owner in self._kept:
                stubs = stubs_of.setdefault(stub.owner, [])
                if stub not in stubs:
                    stubs.append(stub)
        return stubs_of

    def _known_before(self) -> dict[Item, list[Item]]:
        """What comes before each transaction in every order: its predecessor in the client's order,
        and those from which it has read."""
        before: dict[Item, list[Item]] = {}
        for items in self._items_of_clients().values():
            for first, following in zip(items, items[1:]):
                before.setdefault(following, []).append(first)
        for at in self._of:
            if at in self._kept:
                for _, origin in self._of[at]:
                    if isinstance(origin, int):
                        before.setdefault(at, []).append(origin)
        return before

    def _all_offered(self) -> list[list[str]]:
        """The transactions of each session as in a line. Other processes write those of a large
        history, if all numbers in them are known before."""
        sessions = self._plan.sessions
        if len(self._places) < MANY or self._is_part or self._sources.has_absent:
            return [[*self._offered(items)] for items in sessions]
        for key in self._sources.keys:
            self._key(key)
        pieces = [
            (session, at)
            for session, items in enumerate(sessions) for at in range(0, len(items), PIECE)
        ]

        def written(piece: tuple[int, int]) -> list[str]:
            session, at = piece
            return [*self._offered(sessions[session][at : at + PIECE])]

        offered: list[list[str]] = [[] for _ in sessions]
        for (session, _), texts in zip(pieces, shared_all(written, pieces)):
            offered[session] += texts
        return offered

    def _offered(self, items: Sequence[Item]) -> Iterator[str]:
        """Transactions of a session as in a line."""
        keys, places, of, attempts = self._keys, self._places, self._of, self._attempts
        for item in items:
            if not isinstance(item, int):
                yield self._stub(item) if isinstance(item, Stub) else self._fence(item)
                continue
            reads: list[tuple[int, int, int]] = []
            for key, origin in of[item]:
                number = keys.get(key) or self._key(key)
                source = places.get(origin) if isinstance(origin, int) else None
                reads.append((number, *(source or self._source(origin))))
            reads.sort()
            writes = {
                keys.get(key) or self._key(key)
                for kind, key, _, _ in attempts[item].accesses if kind == APPEND or kind == WRITE
            }
            if len(reads) > LONGEST or len(writes) > LONGEST:
                raise ImportRefusedError(
                    attempts[item].line,
                    f"a transaction can have at most {LONGEST} reads and {LONGEST} writes",
                )
            yield f"[[{in_text(reads)}],[{','.join(map(str, sorted(writes)))}]]"

    def _named(self, items: Sequence[Item | None]) -> Iterator[NamedTransaction]:
        """The names of these transactions; None stands for the rest of the file."""
        keys, places, shown = self._keys, self._places, self._recording.shown
        for item in items:
            if not isinstance(item, int):
                yield self._other_name(item)
                continue
            name, _, outcome, accesses, _, where, *_ = self._attempts[item]
            rows: list[tuple[int, int, int, str]] = []
            for (key, origin), deed in self._of[item].items():
                source = places.get(origin) if isinstance(origin, int) else None
                text = shown(deed) if isinstance(deed, Access) else self._shown(deed)
                rows.append((keys[key], *(source or self._source(origin)), text))
            rows.sort()
            texts: list[tuple[Deed, str]] = []
            for key_number, session, number, text in rows:
                read: Deed = (key_number, "init")
                if number >= 0:
                    read = key_number, session, number
                texts.append((read, text))
            written = [it for it in accesses if it[0] == APPEND or it[0] == WRITE]
            if len(written) == 1:
                texts.append(((keys[written[0][1]],), shown(written[0])))
            elif written:
                texts += self._writes(item)
            yield NamedTransaction(name, outcome, tuple(texts), where)

    def _name_of(self, item: Item | None) -> str:
        return self._attempts[item].name if isinstance(item, int) else self._other_name(item).name

    def _other_name(self, item: Stub | Fence | None) -> NamedTransaction:
        if item is None:
            return NamedTransaction(PART, COMMITTED)
        if isinstance(item, Fence):
            return NamedTransaction(item.name(), COMMITTED)
        named = named_stub(item, self._attempts)
        return named._replace(texts=self._writes(item.owner)) if self._is_told(item) else named

    def _writes(self, at: int) -> tuple[tuple[Deed, str], ...]:
        """The keys that an attempt wrote, each with the file's text of its writes."""
        texts = written_by(self._attempts[at], self._recording.shown)
        return tuple(sorted(((self._keys[key],), text) for key, text in texts.items()))

    def _shown(self, deed: Shown) -> str:
        """How another attempt's list shows a read."""
        elements, reader = deed.elements.replace(BETWEEN, " "), self._attempts[deed.reader].name
        return f"appended {elements} after that, as {reader} read"

    def _is_told(self, stub: Stub) -> bool:
        """Whether the script has what the stub's owner wrote: it is an aborted attempt."""
        return stub.kind == ABORTED and 0 < len({*keys_of(self._attempts[stub.owner])}) <= LONGEST

    def _stub(self, stub: Stub) -> str:
        """A stub as in a line, with the keys that it wrote if it is an aborted attempt."""
        if not self._is_told(stub):
            return "[[],[]]"
        keys = sorted({self._key(key) for key in keys_of(self._attempts[stub.owner])})
        return f'[[],[{",".join(map(str, keys))}],"{ABORTED}"]'

    def _fence(self, fence: Fence) -> str:
        """A fence as in a line. It reads from the previous fence, whichever session that is in."""
        row = [fence for fences in self._plan.fences for fence in fences]
        at = row.index(fence)
        source = self._places[row[at - 1]] if at else BEFORE
        return f"[[{in_text([(0, *source)])}],[0]]"

    def _key(self, key: str) -> int:
        return self._keys.setdefault(key, len(self._keys) + 1)

    def _source(self, origin: Origin) -> tuple[int, int]:
        """A source as in a read; BEFORE for the initial state."""
        if origin is None:
            return BEFORE
        place = None if isinstance(origin, Absent) else self._places.get(origin)
        if place is not None:
            return place
        if isinstance(origin, Absent):
            name = f"a writer of {origin.value} that isn't in the file"
        else:
            owner = origin.owner if isinstance(origin, Stub) else origin
            name = f"{self._attempts[owner].name}, which is outside this part of the file"
        return self._never_offered(origin, name)

    def _never_offered(self, what: object, name: str) -> AuditId:
        """An id for a transaction that never arrives, in a session that isn't open if possible."""
        count = len(self._plan.sessions)
        session = min(count, (SESSIONS if count <= SESSIONS else MOST_SESSIONS) - 1)
        id = self._absent.setdefault(
            what, AuditId((session, NEVER_OFFERED + len(self._absent)))
        )
        self._absent_names[id] = name
        return id

    def _rest(self) -> str:
        """A transaction that keeps the verdict pending because of what wasn't imported."""
        source = self._never_offered(REST, "the rest of the file")
        return f"[[{in_text([(self._key(REST), *source)])}],[]]"

    def _about(self) -> Iterator[str]:
        """Sentences about what was done with the file."""
        kept = [self._attempts[at] for at in self._kept]
        count = sum(isinstance(item, int) for item in self._places)
        yield about_size(count, len(self._plan.sessions))
        if self._is_part:
            yield (
                f"only the first {len(kept)} of {len(self._attempts)} attempts: a violation is "
                "final, any other verdict is pending"
            )
        for outcome in (ABORTED, UNKNOWN):
            places = [at for at in self._kept if self._attempts[at].outcome == outcome]
            taken = {at for at in places if at in self._of or Stub(at, ABORTED) in self._places}
            if places:
                yield about_undone(outcome, len(places), len(taken))
        for function, skipped in self._recording.left_out:
            yield (
                f"{counted(skipped, 'operation')} of {function} left out: if they wrote anything, "
                "the verdict may be wrong"
            )
        if self._recording.unused:
            yield about_unused(self._recording.unused)
        if self._plan.shared:
            yield (
                f"{counted(self._plan.shared, 'client')} put into the session of a client that "
                f"certainly came before{', by time' if self._plan.by_time else ''}"
            )
        if self._times is not None:
            yield ASKS_TIME
        if self._pauses:
            pauses = counted(sum(map(bool, self._plan.fences)), "pause")
            yield f"fences at {pauses}, where settled transactions are forgotten"
