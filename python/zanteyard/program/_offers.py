"""What an auditor's program was given: offers, and what it holds until it forgets it."""

from collections import Counter
from collections.abc import Container, Sequence
from typing import Any

from ..core._own_keys import FENCE
from ..core._records import ABORTED, AuditId, AuditNaming, Cut, Logged
from ..core._store_identity import AuditedStore
from ._tenancy import Tenancy
from ._window import Coverage
from ..core.errors import FullError
from ..promises._asking import begun_in, longest
from ..promises._kinds import Promise
from ._lines import written
from ._rounds import Rounds
from ._supervised import SupervisedProgram

Fragment = tuple[int, int, Sequence[Logged]]  # session, first number, transactions
# The same as the audit sees it, how many reads were left out, and how many read versions from
# before.
Covered = tuple[int, int, Sequence[Logged], int, int]


class Offers(Rounds):
    """What was taken in and isn't forgotten. Safe for use by several threads."""

    sessions: int
    promise: Promise
    audited_store: AuditedStore
    is_resumed: bool  # from a journal
    taken_in: int  # transactions
    live_called: AuditNaming | None = None  # how a live audit names transactions
    from_before = 0  # reads of versions from before this audit

    def _hold_nothing(self, coverage: Coverage | None) -> None:
        """Initial state with a new program."""
        self.coverage, self.left_out = coverage, 0  # reads whose source the audit doesn't cover
        self.from_before = 0
        self.numbers: dict[str, int] = {FENCE: 0}
        self.names = [FENCE]  # key names by number, and numbers by name
        self.history, self.marks = [[] for _ in range(self.sessions)], [0] * self.sessions
        self.closed = [False] * self.sessions  # sessions that have ended
        # The last forgotten writer of each key that has one.
        self.base: dict[str, AuditId] = {}
        self._tenancy = Tenancy()  # of clients, by their first transactions

    @property
    def remaining(self) -> int:
        """How many transactions were taken in and aren't forgotten."""
        return sum(map(len, self.history))

    @property
    def longest(self) -> int:
        """How many transactions can be offered together."""
        return longest(self.promise)

    @property
    def written_last(self) -> list[Sequence[str]]:
        """For each session the keys that its last transaction wrote, unless that is forgotten."""
        return [txns[-1].writes if txns else () for txns in self.history]

    @property
    def vacant(self) -> list[int]:
        """The closed sessions of which nothing remains, which may return."""
        return [at for at, txns in enumerate(self.history) if self.closed[at] and not txns]

    def called(self, id: AuditId) -> str:
        """The transaction's name in reports, with its client's first transaction if the session had
        several clients. A live audit shows the client's number instead."""
        return self.live_called(id) if self.live_called else self._tenancy.called_by_first(id)

    # what users call

    def offer(self, session: int, number: int, *logged: Logged) -> None:
        """Offers consecutive transactions, at most 256, or 128 with the promise "snapshot"; the
        first has this number. Raises FullError if there is no room."""
        if self.offer_all([(session, number, logged)]):
            raise no_room(session, number)

    def join(self, session: int, number: int, *logged: Logged) -> None:
        """Lets a session join with its first transactions. It is a new session, whose number is the
        next one from 0 on, or a closed one of which nothing remains (`vacant`), which continues
        where it ended. Its first transaction must be a fence that reads from a remaining fence or
        from the last one forgotten; otherwise NotAnchoredError is raised. Raises FullError if there
        is no room."""
        if self.offer_all([(session, number, logged)], (session,)):
            raise no_room(session, number)

    def offer_all(
        self, fragments: Sequence[Fragment], joining: Container[int] = ()
    ) -> list[Fragment]:
        """Offers several fragments, each (session, first number, transactions), and returns those
        for which there was no room. For the sessions in `joining` the fragment is what they join
        with, as in `join`; each of these has one fragment."""
        refused, wrong = [], None
        full = set()  # sessions for which there was no room
        with self._between_rounds(bool(joining)):
            moved = [self._covered(fragment) for fragment in fragments]
            texts = [self._offer_of(fragment, fragment[0] in joining) for fragment in moved]
            self._begin_to_ask()
            self._note_figures(sum(it[3] for it in moved), sum(it[4] for it in moved))
            replies = self._replies_to(texts)
            for fragment, covered, text, reply in zip(fragments, moved, texts, replies):
                _, refusal = self._settled(text, reply)
                if refusal is None:
                    self._keep_history(covered, fragment[0] in joining)
                elif isinstance(refusal, FullError) or fragment[0] in full:
                    refused.append(fragment)
                    full.add(fragment[0])
                else:
                    wrong = wrong or refusal
            self._be_in_step()
        if wrong is not None:
            raise wrong
        return refused

    def close(self, session: int) -> None:
        """Closes the session: it does nothing more, unless it joins again."""
        self.ask(["close", session])
        self.closed[session] = True

    def truncate(self) -> Cut:
        """Has the auditor forget what the last round found settled. The lines keep the order
        between that and what remains. Raises NoCutError if nothing is settled."""
        text = written(["truncate"])
        with self._between_rounds():
            self._begin_to_ask()
            (reply,) = self._replies_to([text])
            reply, refusal = self._settled(text, reply)
            cut = self._forget(reply, self._begun()) if refusal is None else None
            self._be_in_step()
        if cut is None:
            assert refusal is not None
            raise refusal
        return cut

    def _begun(self) -> list[list[int]]:
        """The transactions of which only the begin is forgotten."""
        if not self.promise.asks_itself:
            return []
        (marks,) = self._replies_to([written(["save", "marks"])], is_kept=False)
        return [*begun_in(marks)]

    def _forget(self, reply: Sequence[Any], begun: Sequence[Sequence[int]]) -> Cut:
        _, fence, gone, last = reply
        self.base.update(
            (self.names[key], AuditId((session, number))) for key, session, number in last
        )
        for session, count in Counter(session for session, _ in gone).items():
            del self.history[session][:count]
            self.marks[session] += count
        for session, number in begun:  # their reads are forgotten with their begins
            at = number - self.marks[session]
            self.history[session][at] = self.history[session][at]._replace(reads=())
        self._tenancy.forget(self.marks)
        return Cut(AuditId((fence[0], fence[1])), len(gone))

    def _offer_of(self, fragment: Covered, joins: bool = False) -> str:
        session, first, txns, *_ = fragment
        where = ["offer", session, first]
        if joins:  # as a new session, or as one that returns
            where = ["join", session] if session >= self.sessions else ["join", session, first]
        return written([*where, [*map(self.txn, txns)]])

    def _keep_history(self, fragment: Covered, joins: bool = False) -> None:
        session, _, txns, left_out, from_before = fragment
        if session == len(self.history):  # a new session has joined
            self.marks.append(0)
            self.closed.append(False)
            self.history.append([])
            self.sessions = len(self.history)
        if joins:
            self._tenancy.begin_behind(session, self.marks[session])  # nothing of it remains
            self.closed[session] = False
        self.history[session] += txns
        self.left_out += left_out
        self.from_before += from_before
        if self.is_resumed:  # no sessions count them
            self.taken_in += len(txns)

    def _note_figures(self, left_out: int, from_before: int) -> None:
        """Passes to the journal how many more reads these lines leave out and have from before, if
        the lines are taken; and the store."""
        if isinstance(self.program, SupervisedProgram):
            keeping = self.program.keeping
            keeping.left_out = self.left_out + left_out
            keeping.from_before = self.from_before + from_before
            keeping.store = self._store()

    def _store(self) -> list[str] | None:
        """The store that this run is about, in the journal's form; None until a client has
        identified it."""
        identity = self.audited_store.identity
        return [*identity] if identity is not None else None

    def _covered(self, fragment: Fragment) -> Covered:
        """The fragment as the audit sees it, how many reads were left out, and how many read
        versions from before."""
        session, first, txns = fragment
        left_out = 0
        if self.coverage is not None:
            moved = [self.coverage.moved(logged) for logged in txns]
            txns, left_out = [logged for logged, _ in moved], sum(count for _, count in moved)
        return session, first, txns, left_out, sum(logged.from_before for logged in txns)

    def txn(self, logged: Logged) -> list[Any]:
        """A transaction as lines have it. What an aborted attempt did has no effect; one that did
        nothing looks like any other idle transaction."""
        did_read, did_write = logged.did
        reads = sorted(
            (self.key_number(key), *(() if source == "init" else source))
            for key, source in did_read
        )
        # "init" comes before every transaction
        texts = [read if len(read) > 1 else (*read, "init") for read in reads]
        plain = [texts, sorted(map(self.key_number, did_write))]
        return [*plain, ABORTED] if logged.is_undone else plain

    def key_number(self, key: str) -> int:
        """The number that stands for the key in lines; a new one, if it has none yet."""
        known = self.numbers.get(key)
        if known is not None:
            return known
        with self.lock:
            if key not in self.numbers:  # another thread may have been faster
                self.names.append(key)  # first, so that an interrupt can't give two keys one number
                self.numbers[key] = len(self.names) - 1
            return self.numbers[key]


def no_room(session: int, number: int) -> FullError:
    return FullError(f"no room for transaction {number} of session {session}")
