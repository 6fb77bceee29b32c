"""Runs a saved script through the auditor, and keeps what the script offered."""

import functools
import itertools
import json
import os
import re
import subprocess
import time
from collections import Counter
from collections.abc import Callable, Iterable, Iterator, Mapping, Sequence
from dataclasses import dataclass, field, replace
from typing import Any, overload

from ..core._own_keys import FENCE, FORM, LARGE_FORM
from ..core._records import ABORTED, AuditId, Logged, Pending, has_come
from ..core._verdict_kinds import Kind
from ..program._tenancy import Tenancy
from ..core.errors import (
    CantBeAskedError,
    OtherVersionError,
    ProgramEndedError,
    ScriptMistakeError,
)
from ..program._searched_round import EFFORTS, GUIDED
from ..program._strict_auditor import older_than_strict
from ..promises._asking import KEYS, LIMIT, MOST, MOST_SESSIONS, SESSIONS, Asking, Whole, asked_in
from ..promises._asking import begun_in, most_remaining
from ..promises._kinds import SERIALIZABLE, SNAPSHOT, STRICT, Promise
from ..promises._times import TIME_KEYS
from ._forms import mistake_of
from ._names import NamedTransaction, ScriptNames
from ._times import ScriptTimes, checked_times, times_in

# The efforts with which a spent round is repeated: nodes of the search, depth, workers.
WORKERS = max(1, min(16, os.cpu_count() or 1))
MORE = tuple((nodes, 4, WORKERS) for nodes in (1 << 16, 1 << 20, 1 << 24))
WAITS = (0.1, 0.5)  # seconds until a line that was answered NoMemory is sent again
SAVE_MARKS = b'["save","marks"]'
SEARCHES = re.compile(rb'\s*\[\s*"(?:round|finish|collect)"')  # whose reply may take long
# An opening of a later version than the first, which an earlier program may not read.
LARGE_OPEN = f'["open",sessions,limit,{LARGE_FORM}]'
MOST_OPEN = (
    f"a script has 1 to {SESSIONS} sessions, and at most {LIMIT:,} transactions remain at a time; "
    f"if it begins with {LARGE_OPEN}, up to {MOST_SESSIONS} and {MOST:,}"
)

# What to do about a refusal, if its name doesn't say.
ADVICE: Mapping[str, str] = {
    "BadLine": "it is no command, or not allowed at this place (docs/FORMATS.md has them all)",
    "BadSession": MOST_OPEN + "; one that joins is the next new one, or was closed and has "
    "nothing left",
    "BadTxn": "reads and keys have to ascend, and nothing reads from itself",
    "BadFence": "key 0 is only for fences",
    "Gap": "an earlier transaction of this session is missing",
    "Repeat": "this session has a transaction of that number already",
    "Closed": "that session was closed before; `join` reopens it",
    "Backlog": "as many transactions remain as `open` has room for, which is at most "
    f"{LIMIT:,}, or {MOST:,} if the script begins with {LARGE_OPEN}: give it more room, or let "
    "`truncate` at fences make some, or check a part of the history",
    "TooLong": "a line has 1 to 256 transactions, each with at most 256 reads and 256 writes; "
    + MOST_OPEN,
    "RoundOpen": "a round is open: `finish` it first",
    "NotAnchored": "a session joins with a fence that reads from one that remains, or from the "
    "last one that is forgotten",
    "NoRound": "no round is open",
    "BadParts": "the saved state isn't what a run has returned (docs/FORMATS.md)",
}


BEGINS = 'a script begins with ["open",..], or by ["resume",..] up to ["resumed"]'
# The same under snapshot isolation.
OF_SNAPSHOTS: Mapping[str, str] = {
    "Backlog": "as many transactions remain as `open` has room for; snapshot isolation can be "
    f"checked for at most {most_remaining(SNAPSHOT):,} at a time, since each takes the room of two "
    f"({most_remaining(SNAPSHOT, FORM):,} if the script begins with "
    f'["open",sessions,limit,{FORM},"snapshot"]): give it more room, or let `truncate` at fences '
    "make some, or check a part of the history; serializability can be checked for up to "
    f"{MOST:,} (--promise serializable)",
    "BadTxn": ADVICE["BadTxn"] + f"; keys are below {KEYS} under this promise, and numbers below "
    f"{1 << 47}",
    "TooLong": ADVICE["TooLong"]
    + f"; under snapshot isolation {most_remaining(SNAPSHOT, FORM):,} remain, in version "
    f"{LARGE_FORM} {most_remaining(SNAPSHOT):,}, and a line has 128",
}
# The same in scripts that ask for strict serializability.
OF_STRICTNESS: Mapping[str, str] = {
    "Backlog": "as many transactions were offered as `open` has room for, and nothing is forgotten "
    f"under this promise: give it more room, at most {MOST:,}, or check a part of the history",
    "BadTxn": ADVICE["BadTxn"] + f"; under this promise keys are below {TIME_KEYS}, reads and the "
    "script's sessions are at most 256 together, and writes at most 255; nothing ended before it "
    "began, or before an earlier transaction of its session began; and fences have no times",
}
FIRST_ASKS = "a script asks for strict serializability by its first line"
STRICT_ONLY = "a script that asks for strict serializability has only offers and rounds"


@dataclass(frozen=True)
class Verdict:
    """The result of a round. `line_number` is the line that asked for it, from 1; 0 if the script
    didn't ask, and a round was added at its end."""

    kind: str  # "serial", "pending", "violated" or "spent"
    line_number: int
    counts: Sequence[int]  # how many transactions of each session the round covers
    certificate: Sequence[Any]  # an order of what remains, or the items of a refutation
    nodes: int  # the budget of the round that decided, or of the last one that gave up
    rounds: int = 1  # how many were run, including the first


class Taken(Sequence[Logged]):
    """A session's transactions, each of which is turned into its Logged when that is wanted."""

    def __init__(self, make: Callable[[int, Sequence[Any]], Logged]) -> None:
        """`make` turns a transaction's number and what a script has of it into its Logged."""
        self._make = make
        self._items: list[tuple[int, Sequence[Any]] | Logged] = []

    def take_in(self, first: int, transactions: Iterable[Sequence[Any]]) -> None:
        """Appends transactions from this number on."""
        self._items += enumerate(transactions, first)

    def forget(self, count: int) -> None:
        """Drops the first ones."""
        del self._items[:count]

    def replace(self, at: int, logged: Logged) -> None:
        """Puts another one there."""
        self._items[at] = logged

    def reads(self) -> Iterator[tuple[int, str | int, Any]]:
        """The place, the key and the source of each read of another transaction; the key has its
        name if the transaction was turned into a Logged."""
        for at, item in enumerate(self._items):
            if isinstance(item, Logged):
                yield from ((at, key, source) for key, source in item.reads)
                continue
            reads, _, *undone = item[1]
            for key, *source in () if undone else reads:
                if source[0] != "init":
                    yield at, key, AuditId((source[0], source[1]))

    def __len__(self) -> int:
        return len(self._items)

    @overload
    def __getitem__(self, at: int) -> Logged: ...

    @overload
    def __getitem__(self, at: slice) -> list[Logged]: ...

    def __getitem__(self, at: int | slice) -> Logged | list[Logged]:
        if isinstance(at, slice):
            return [self[place] for place in range(*at.indices(len(self)))]
        item = self._items[at]
        if not isinstance(item, Logged):
            item = self._items[at] = self._make(*item)
        return item


@dataclass
class ScriptHistory:
    """What a script has offered, and what of it remains. Without names, keys are called `key 5` and
    transactions `0.1`."""

    names: ScriptNames = field(default_factory=lambda: ScriptNames(""))
    history: list[Taken] = field(default_factory=list)
    marks: list[int] = field(default_factory=list)  # how many of each session are forgotten
    base: dict[str, AuditId] = field(default_factory=dict)  # by key, the last forgotten writer
    tenancy: Tenancy = field(default_factory=Tenancy)  # of sessions that several clients had
    find_times: Callable[[], ScriptTimes | None] = lambda: None

    @functools.cached_property
    def times(self) -> ScriptTimes:
        """The transactions' times, as far as they are known."""
        return self.find_times() or ScriptTimes()

    def begin(self, sessions: int) -> None:
        """Begins with this many sessions and no transactions."""
        self.history, self.marks, self.base = [], [], {}
        self.tenancy = Tenancy()
        for _ in range(sessions):
            self._open()

    def _open(self) -> None:
        self.history.append(Taken(functools.partial(self._logged, len(self.history))))
        self.marks.append(0)

    def join(self, session: int, transactions: Iterable[Any]) -> None:
        """Takes in an accepted `join`."""
        if session == len(self.history):
            self._open()
        self.tenancy.begin_behind(session, self.marks[session])  # nothing of it remains
        self.take_in(session, transactions)

    def take_in(self, session: int, transactions: Iterable[Any]) -> None:
        """Takes in an accepted `offer`."""
        taken = self.history[session]
        taken.take_in(self.marks[session] + len(taken), transactions)

    def _logged(self, session: int, number: int, transaction: Sequence[Any]) -> Logged:
        reads, keys, *more = transaction
        named = self.names.transaction(session, number)
        logged = logged_of(reads, keys, self.key_name, named, more == [ABORTED])
        span = self.times.span(AuditId((session, number)))
        return logged._replace(span=span) if span else logged

    def called(self, id: AuditId) -> str:
        """The transaction's name, with its client's first transaction if the session had
        several."""
        called, by_number = self.names.name(id), f"{id[0]}.{id[1]}"
        return self.tenancy.called_by_first(id) if called == by_number else called

    def key_name(self, number: int) -> str:
        """The key's name."""
        return self.names.key(number) if number else FENCE

    def forget(
        self,
        gone: Sequence[Sequence[int]],
        last: Sequence[Sequence[int]],
        begun: Sequence[Sequence[int]] = (),
    ) -> None:
        """Takes in a `cut`, or the last writers of a `last` that is handed over. Of those in
        `begun`, only the begins are forgotten, and with them what they read."""
        self.base.update(
            (self.key_name(key), AuditId((session, number))) for key, session, number in last
        )
        for session, count in Counter(session for session, _ in gone).items():
            self.history[session].forget(count)
            self.marks[session] += count
        for session, number in begun:
            at, taken = number - self.marks[session], self.history[session]
            taken.replace(at, taken[at]._replace(reads=()))

    def pending(self) -> Iterator[Pending]:
        """The reads that wait for a transaction which hasn't arrived."""
        received = [mark + len(taken) for mark, taken in zip(self.marks, self.history)]
        for session, (mark, taken) in enumerate(zip(self.marks, self.history)):
            for at, key, source in taken.reads():
                if not has_come(source, received):
                    called = key if isinstance(key, str) else self.key_name(key)
                    yield Pending(AuditId((session, mark + at)), called, source)

    @property
    def remaining(self) -> int:
        """How many transactions remain."""
        return sum(map(len, self.history))


def logged_of(
    reads: Iterable[Any],
    keys: Iterable[int],
    key_name: Callable[[int], str],
    named: NamedTransaction | None = None,
    is_undone: bool = False,
) -> Logged:
    """A transaction of a script, or what an aborted attempt did, in version 2's form. A transaction
    that did nothing may also be such an attempt, if its names say so."""

    def deed_of(key: int, *source: Any) -> Any:
        if not source:
            return (key_name(key),)
        return (key_name(key), "init" if source[0] == "init" else tuple(source))

    sources = [deed_of(*read) for read in reads]
    written_keys = tuple(map(key_name, keys))
    outcome, texts, where = "committed", [], ""
    if named is not None:
        outcome, where = named.outcome, named.where
        texts = [(deed_of(int(key), *source), text) for (key, *source), text in named.texts]
    if is_undone:
        return Logged((), (), ABORTED, texts, (), 0.0, where, sources, written_keys)
    return Logged(sources, written_keys, outcome, texts, caller=where)


def _parts_of(text: bytes) -> list[Any]:
    """The parts of a line; none if the auditor has to say what is wrong with it."""
    try:
        line = json.loads(text)
    except ValueError:
        return []
    return line if isinstance(line, list) else []


def own_promise(lines: Iterable[bytes]) -> tuple[Promise | None, Iterable[bytes]]:
    """The promise that a script asks for by itself, None if its first line opens nothing; and all
    its lines."""
    rest, front = iter(lines), list[bytes]()
    for line in rest:
        front.append(line)
        if line.strip():
            break
    return asked_in(_parts_of(front[-1]) if front else []), itertools.chain(front, rest)


def own_times(lines: Sequence[bytes]) -> ScriptTimes | None:
    """The times in the lines of a script that asks for strict serializability by itself; None if it
    doesn't. Raises CantBeAskedError if they are impossible."""
    if own_promise(lines)[0] != STRICT:
        return None
    return checked_times(times_in(map(_parts_of, lines)), "its offers")


class ScriptRun:
    """An auditor that is given a script line by line; not for several threads."""

    def __init__(
        self,
        program: str,
        most_nodes: int = MORE[1][0],
        names: ScriptNames | None = None,
        promise: Promise | None = None,
        times: Callable[[], ScriptTimes | None] = lambda: None,
    ) -> None:
        """`most_nodes` is the largest budget with which a spent round is repeated. `names` are
        those of the script's transactions and keys, and `times` finds out when the transactions
        began and ended, if that is wanted. The promise is the one that the script asks for, unless
        one is given."""
        self._is_given = promise is not None
        self.most_nodes, self.promise = most_nodes, promise or SERIALIZABLE
        self.history = ScriptHistory(names or ScriptNames(""), find_times=times)
        self._asking = Asking(self.promise)
        self.why_by_reads = ""  # why strict serializability is asked by reads that are added
        self._is_answered = True  # each line that the auditor was given
        self.verdict: Verdict | None = None  # the latest one
        self.no_cut_lines: list[int] = []  # lines of `truncate` that found nothing to forget
        self.is_resumed = False  # it began with an earlier run's state
        self._is_open = False
        self._round_is_open = False
        self._search: list[Any] = []  # the numbers of a search that isn't collected yet
        self._has_more = False  # something was accepted since the last verdict
        self._offered, self._is_searching = 0, False  # for `doing`
        self.path = program
        self._program = subprocess.Popen(
            [program], stdin=subprocess.PIPE, stdout=subprocess.PIPE, stderr=subprocess.PIPE
        )

    def doing(self) -> str:
        """What it is doing, for a person who waits. Any thread may call this."""
        if self._is_searching:
            return "searching"
        total = sum(map(len, self.history.names.transactions))
        if total:
            return f"{self._offered:,} of {total:,} transactions read"
        return f"{self._offered:,} transaction{'' if self._offered == 1 else 's'} read"

    def verdicts(self, lines: Iterable[bytes]) -> Iterator[Verdict]:
        """Gives the lines to the auditor, and yields each round's verdict when it arrives. If
        something follows the last round, one is added at the end. A verdict about a script that
        resumes another one is true of every history that the parts may stand for. Raises
        ScriptMistakeError at the first line that is refused or that the promise doesn't allow,
        CantBeAskedError if the promise needs times and there are none, OtherVersionError if the
        program doesn't know the promise, and ProgramEndedError if the program ends."""
        number = 0
        for number, line in enumerate(self._prepared(lines), 1):
            text = line.rstrip(b"\n")
            if text.strip():
                try:
                    reply = self._ask(text, number)
                except CantBeAskedError as error:
                    raise ScriptMistakeError(number, "", str(error)) from error
                yield from self._taken(json.loads(text), reply, number)
        if not self._is_open:
            raise ScriptMistakeError(number, "nothing", BEGINS)
        if self._search:
            yield from self._ended("collect", "wait")
        elif self._round_is_open:
            yield from self._ended("finish", *EFFORTS[0], GUIDED)
        if self._has_more or self.verdict is None:
            yield from self._ended("round", *EFFORTS[0], GUIDED)

    def _prepared(self, lines: Iterable[bytes]) -> Iterable[bytes]:
        """The lines, once it is known what they are asked about, and how."""
        own, lines = own_promise(lines)
        if own and not self._is_given:
            self.promise = own
        self._asking = Asking(self.promise)
        if not self.promise.is_timed:
            return lines
        lines = [*lines]  # the order is known only when all times are
        is_own = own == STRICT
        times = times_in(map(_parts_of, lines)) if is_own else self.history.find_times()
        if times is None:
            raise CantBeAskedError(
                f"{self.promise.title} needs the times at which transactions began and ended, and "
                "the script has none: they belong in a file next to it, SCRIPT.times"
            )
        self.history.times, whole = times, Whole()
        timeline = times.timeline(whole.seen(map(_parts_of, lines)))
        if self.promise == STRICT and not is_own:
            self.why_by_reads = whole.why_not
        self._asking = Asking(self.promise, timeline, by_reads=bool(self.why_by_reads))
        return lines

    def _ended(self, *command: Any) -> Iterator[Verdict]:
        """Ends a round by a command that the script doesn't have."""
        yield from self._taken([*command], self._ask_for(*command), 0)

    def _taken(self, command: list[Any], reply: list[Any], number: int) -> Iterator[Verdict]:
        """Takes in what the command has done."""
        if reply[0] == "no":  # a truncate that found nothing
            self.no_cut_lines.append(number)
        elif command[0] in ("open", "resume"):
            self._is_open, self.is_resumed = command[0] == "open", command[0] == "resume"
            self.history.begin(command[1])
        elif command[0] == "marks":
            self.history.marks = [*command[1]]
        elif command[0] == "last":
            self.history.forget((), [gone for gone in command[1] if self._is_of_script(*gone)])
        elif command[0] == "resumed":
            self._is_open = True
        elif command[0] == "offer":
            self.history.take_in(command[1], command[3])
            self._has_more, self._offered = True, self._offered + len(command[3])
        elif command[0] == "join":
            self.history.join(command[1], command[-1])
            self._has_more, self._offered = True, self._offered + len(command[-1])
        elif command[0] == "begin":
            self._round_is_open, self._has_more = True, False
        elif command[0] == "search":
            self._search = command[1:]
        elif command[0] == "skip":  # its round has no verdict
            self._round_is_open, self._search, self._has_more = False, [], True
        elif reply[0] == "cut":
            self.history.forget(reply[2], reply[3], self._begun())
        if reply[0] == "report":
            self._round_is_open = False
            if command[0] == "round":  # otherwise its report lacks what arrived while it was open
                self._has_more = False
            effort = self._search if command[0] == "collect" else command[1:]
            nodes = 0 if command[0] == "answer" else effort[0]  # handed in, without a search
            self._search = []
            self.verdict = self._decided(nodes, reply, number)
            if command[0] == "round":
                self.verdict = self._without_times(self.verdict)
            yield self.verdict

    def _is_of_script(self, key: int, *_: int) -> bool:
        """Whether it is a key of the script's transactions, not one that splitting them adds."""
        return key < KEYS or not self.promise.asks_itself

    def _begun(self) -> list[list[int]]:
        """The transactions of which only the begin is forgotten."""
        marks = self._told(SAVE_MARKS) if self.promise.asks_itself else None
        return [*begun_in(marks)] if marks else []

    def _decided(self, nodes: int, reply: list[Any], number: int) -> Verdict:
        """The verdict. A round that was spent is repeated with larger budgets."""
        rounds = 1
        for more, depth, workers in MORE:
            if reply[2] != Kind.SPENT:
                break
            if nodes < more <= self.most_nodes:
                nodes, rounds, self._has_more = more, rounds + 1, False
                reply = self._ask_for("round", more, depth, workers, GUIDED)
        return Verdict(
            reply[2], number, reply[3], reply[4] if len(reply) > 4 else [], nodes, rounds
        )

    def _without_times(self, verdict: Verdict) -> Verdict:
        """The verdict, with "serial" for a pending one in which no read waits for a transaction:
        the real-time order alone doesn't count."""
        is_by_time = self.promise.is_timed and verdict.kind == Kind.PENDING
        if is_by_time and not any(self.history.pending()):
            return replace(verdict, kind=Kind.SERIAL)
        return verdict

    def _ask_for(self, *words: Any) -> list[Any]:
        return self._ask(json.dumps(words).encode(), 0)

    def _ask(self, text: bytes, number: int) -> list[Any]:
        """The reply. A refusal that isn't a mistake of the script is returned, too."""
        self._is_searching = SEARCHES.match(text) is not None
        for wait in (*WAITS, None):
            reply = self._reply_to(text)
            if reply[0] != "no" or reply[2] == "NoCut":
                return reply
            if reply[2] != "NoMemory":
                raise ScriptMistakeError(number, reply[2], self._advice(reply[2], text))
            if self._search and _parts_of(text)[0] == "collect":  # the refusal has ended the search
                text = json.dumps(["finish", *self._search]).encode()
            if wait:
                time.sleep(wait)
        raise ProgramEndedError(f"line {number} was refused memory, also when it was given again")

    def _advice(self, refusal: str, text: bytes) -> str:
        if self.promise.asks_itself and refusal in OF_SNAPSHOTS:
            return OF_SNAPSHOTS[refusal]
        if self._asking.is_told and refusal in OF_STRICTNESS:
            return OF_STRICTNESS[refusal]
        if refusal == "BadLine":
            mistake = mistake_of(text, self.promise.asks_itself)
            return mistake or self._misplaced(_parts_of(text)) or ADVICE[refusal]
        return ADVICE.get(refusal, "")

    def _misplaced(self, line: Sequence[Any]) -> str:
        """Says why a well-formed line isn't allowed at this place."""
        opens = line[:1] in (["open"], ["resume"])
        if not self._is_open and not self.is_resumed:
            return "" if opens else BEGINS
        if not self._is_open:
            return 'up to ["resumed"] only the saved state is allowed (docs/FORMATS.md)'
        if opens or line[:1] in (["marks"], ["last"], ["resumed"]):
            return "the script is open already, and only its beginning can open it"
        if self._asking.is_told and line[:1] not in (["offer"], ["round"]):
            return STRICT_ONLY
        if line[:1] == ["offer"] and len(line) > 4:
            if self._asking.is_told:
                return "it has as many begins and ends as transactions"
            return 'times need a script that begins with ["open",..,..,2,"strict"]'
        if line[:1] in (["offer"], ["join"]) and any(ABORTED in txn for txn in line[-1]):
            return '"aborted" needs a script of version 2, which begins with ["open",..,..,2]'
        return ""

    def _reply_to(self, text: bytes) -> list[Any]:
        """The reply to the line, or to the last one of those that are given in its place."""
        if self._is_open and self._asking.is_plain:
            return self._told(text)
        line = _parts_of(text)
        own = asked_in(line)
        if own and own != self.promise and not (self._is_given or self._is_open):
            if own == STRICT:  # its times weren't looked for
                raise CantBeAskedError(FIRST_ASKS)
            self.promise, self._asking = own, Asking(own)  # it begins anew
        given = self._asking.asked(line)
        if given == [line]:
            reply = self._told(text)
        else:
            for each in given:  # nothing is sent after one that is refused
                reply = self._told_again(json.dumps(each).encode())
                if reply[0] == "no":
                    break
        is_strict = not self._is_open and asked_in(given[0]) == STRICT
        if is_strict and reply[0] == "no" and reply[2] == "BadLine" and not mistake_of(text):
            raise OtherVersionError(older_than_strict(self.path))
        return reply

    def _told_again(self, text: bytes) -> list[Any]:
        """The reply to one of several lines. If memory runs out, only this line is repeated."""
        for wait in WAITS:
            reply = self._told(text)
            if reply[0] != "no" or reply[2] != "NoMemory":
                return reply
            time.sleep(wait)
        return self._told(text)

    def _told(self, text: bytes) -> list[Any]:
        self._is_answered = False
        pipes = self._program.stdin, self._program.stdout
        assert pipes[0] is not None and pipes[1] is not None
        try:
            pipes[0].write(text + b"\n")
            pipes[0].flush()
            answer = pipes[1].readline()
        except OSError as error:
            raise ProgramEndedError(f"the auditor can't be reached: {error}") from error
        if not answer:
            raise ProgramEndedError(f"the auditor ended with status {self._program.wait()}")
        reply: list[Any] = json.loads(answer)
        self._is_answered = True
        return reply

    def end(self) -> None:
        """Ends the program, also in the middle of a search that was interrupted."""
        if not self._is_answered:
            self._program.kill()
        for pipe in (self._program.stdin, self._program.stdout, self._program.stderr):
            try:
                if pipe is not None:
                    pipe.close()
            except OSError:
                pass
        self._program.wait()

    def __enter__(self) -> "ScriptRun":
        return self

    def __exit__(self, *_: object) -> None:
        self.end()
