"""The interface of a live audit for clients in other processes; `remote` calls it."""

import contextlib
import logging
from collections.abc import Callable, Iterable

from ..core._forks import is_forked
from ..core._records import Logged, unpacked
from ..core._redacting import redacted_bytes
from ..core._store_identity import AuditedStore, StoreIdentity
from ..core.errors import AuditLostError
from ..session._place import Place
from ._crash_searches import CrashSearches
from ._live_figures import LiveFigures
from ._quiesce_coordinator import QuiesceGroup

logger = logging.getLogger("zanteyard")


class ForProcesses(LiveFigures):
    """Safe for use by several threads."""

    token: str
    redacts: bool
    _crash_searches: CrashSearches
    _at_end: list[Callable[[], object]]

    # the audit

    def lose(self, error: Exception) -> None:
        """Ends this audit with what has been handed in so far. Its outcome and the log say why."""
        if self._lost is None:
            self._lost = error
            logger.error("audit %s ends: %s", self.name, error)

    def call_at_end(self, call: Callable[[], object]) -> None:
        """Registers a function that the audit's thread calls when nothing more is audited."""
        self._at_end.append(call)

    def count_awaited(self) -> None:
        """Starts counting, for each session, how many reads of its transactions are pending."""
        self._figures.awaited = {}

    # the store

    def meet_store(self, identity: StoreIdentity) -> None:
        """Raises StoreUnfitError if this isn't the store that the run is about, which is the first
        one identified. Does nothing once the audit is over."""
        if not (self.is_over or is_forked(self)):
            self.auditor.meet_store(identity)

    @property
    def audited_store(self) -> AuditedStore:
        """The store that the run is about."""
        return self.auditor.audited_store

    # meetings

    def add_group(self, group: QuiesceGroup) -> None:
        """Includes the sessions of another process in meetings."""
        self._coordinator.groups.append(group)

    def remove_group(self, group: QuiesceGroup) -> None:
        """Excludes them again, if they were included."""
        if group in self._coordinator.groups:
            self._coordinator.groups.remove(group)

    @property
    def finding_out(self) -> contextlib.AbstractContextManager[None]:
        """A context for finding out what a killed process did: no meeting and no other audit begins
        meanwhile."""
        return self._crash_searches

    # what clients hand in

    def hand_in_packed(
        self, came: float, session: int, number: int, unseen: Iterable[str], packed: bytes
    ) -> None:
        """Hands in what a transaction did. `came` is when it arrived, by the monotonic clock."""
        kept = redacted_bytes(packed) if self.redacts else packed
        self._hand_in(came, session, number, unseen, unpacked(kept))

    def _hand_in(
        self, came: float, session: int, number: int, unseen: Iterable[str], what: Logged
    ) -> None:
        self._backlog.count(session, number, unseen)
        if not self._drops():
            self._backlog.put((came, session, number, what))
        elif not self._is_stopping:
            self._backlog.note_taken(session, number)
        if session == self._pool.new:  # so that the next new session can be given out
            self._pool.note_joined(session)

    def _drops(self) -> bool:
        """Whether what is handed in goes to no audit."""
        return self._has_ended or self._lost is not None

    @property
    def has_to_wait(self) -> bool:
        """Whether a client that has handed something in should wait for room."""
        return self._backlog.is_over_full and not self._goes_on()

    def _goes_on(self) -> bool:
        """Whether nobody has to wait for room, for example during a meeting, which needs the
        sessions' turns."""
        return self._coordinator.is_meeting or self.is_over or self._lost is not None

    @property
    def most_waiting(self) -> int:
        """How many transactions may wait to be taken in before clients have to wait."""
        return self._backlog.most

    def count_missed(self, session: int, number: int) -> None:
        """Counts a transaction if it is unknown whether it was handed in."""
        self._backlog.count_missed(session, number)

    def count_dropped(self, count: int) -> None:
        """Counts transactions that another process did and couldn't hand over."""
        self._backlog.count_dropped(count)

    def next_number(self, session: int) -> int:
        """The number after the session's last transaction that was handed in."""
        return self._backlog.next_number(session)

    # sessions

    def take_place(self, seconds: float) -> Place | None:
        """A session that no client has; None if none becomes free within this many seconds."""
        return self._pool.take(seconds)

    def take_unaudited(self) -> Place:
        """A place that no audit covers."""
        return self._pool.take_unaudited()

    def give_back(self, places: Iterable[Place]) -> None:
        """Takes back places of clients."""
        self._pool.give_back(places)

    def give_back_lent(self, places: Iterable[Place]) -> None:
        """Takes back places that a meeting had lent to a process whose answer has arrived since."""
        self._pool.take_back(places, is_over=False)

    def drop_places(self, numbers: Iterable[int]) -> None:
        """Records that nobody has these sessions in this audit."""
        self._pool.drop(numbers)

    def place_for_nobody(self, is_new: bool) -> Place | None:
        """The place for a client if no session is left. A new client gets one that no audit covers,
        or None if all sessions have clients. Ends this audit, since a client goes on unaudited."""
        if is_new:
            return self._without_place()
        self._lose_for_a_client()
        return None

    def _without_place(self) -> Place | None:
        """A place that no audit covers, for a new client; None if all sessions have clients."""
        if self._pool.are_all_taken:
            return None
        place = self._pool.take_unaudited()  # first, so that the next audit has a session for it
        self._lose_for_a_client()
        return place

    def _lose_for_a_client(self) -> None:
        """Ends this audit, because a client goes on unaudited for lack of a session."""
        if not self.is_over:
            self.lose(AuditLostError(f"no session is free for a client: {self._no_place()}"))

    def _no_place(self) -> str:
        """Says why no further client can have a session."""
        count, why = self._pool.taken, self._audit.why_no_cut
        if self._pool.are_all_taken:
            return f"{count} clients have one each, which is the limit"
        message = f"{count} clients have one each, and the next meeting must free one"
        return f"{message}; the last meeting freed none: {why}" if why else message
