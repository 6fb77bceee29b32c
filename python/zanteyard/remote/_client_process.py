"""A process of clients, seen from the auditor's process."""

import logging
import threading
import time
from collections.abc import Callable, Sequence
from dataclasses import astuple
from typing import Any

from ..core._records import Logged
from ..core._store_identity import checked
from ..core._version import FORM, VERSION
from ..core.errors import AuditLostError, ProgramEndedError
from ..live._live_auditor import PAUSE, LiveAuditor
from ..session._place import Place
from ._messages import Channel
from ._crash_recovery import CrashedProcess, LostError, Noted, handed_in
from ._remote_sessions import RemoteGroup

NEW = 4.0  # seconds that a new client waits for a meeting that has all free places
HANDED_IN = "its last transactions were taken from its notes"
logger = logging.getLogger("zanteyard")


class ClientProcess:
    """A process of clients. A thread of its own takes in what it sends, in the order in which it
    was sent, and ends after the process has left. `SocketProcess` says what its connection is, and
    how it is noticed that the process is dead."""

    def __init__(self, live: LiveAuditor, messages: Channel) -> None:
        self._live, self.messages = live, messages
        waits = live.policy.wait
        self.group = RemoteGroup(messages, waits, live.give_back_lent, live.give_back)
        self.thread = threading.Thread(target=self._listen, daemon=True)
        self._has_all_noted = True
        self._deeds: dict[str, Callable[..., None]] = {
            "answer": self.group.take_answer,
            "assumed": self._take_assumed,
            "back": self._take_back,
            "forget": self._forget,
            "join": self._begin_join,
            "leave": self._take_leave,
            "logged": self._take_logged,
            "lose": self._take_end,
            "lost": self._take_loss,
            "missed": live.count_missed,
            "noted": self._take_noted,
            "unnoted": self._take_unnoted,
            "overflow": self._take_overflow,
            "store": self._take_store,
        }

    # what each kind does in its own way

    def _most(self) -> int:
        """How many of a session's transactions may be on their way."""
        raise NotImplementedError

    def _take_next(self) -> None:
        """Takes in its next message. Raises EOFError or OSError if it can't be reached any more."""
        raise NotImplementedError

    def _noted(self) -> Noted:
        """Its notes. Raises LostError if they can't be read."""
        raise NotImplementedError

    def _end(self) -> None:
        """Cleans up after it; nothing more arrives from it."""
        raise NotImplementedError

    def _take_noted(self, which: int, asks: Any) -> None:
        """Remembers how to ask the store about the transactions in these notes."""
        raise NotImplementedError

    def _forget(self, which: int) -> None:
        """Removes these notes: everything in them has arrived, and their session does nothing
        more."""
        raise NotImplementedError

    notes_path = ""  # the path of its notes' files

    def tell_end(self) -> None:
        """Tells it that nothing more is audited. Nobody waits for a process that is stuck."""
        if not self.group.has_left:
            threading.Thread(target=self.messages.tell, args=("over",), daemon=True).start()

    def lose(self, why: str) -> None:
        """Records that it has vanished. The audit ends if it may have done anything."""
        if self.group.had_sessions:
            message = f"the client process with sessions {self.group.told()} was lost"
            message = f"{message}, and their last transactions are unknown"
            self._live.lose(ProgramEndedError(f"{message}: {why}"))

    def _listen(self) -> None:
        live = self._live
        try:
            self._welcome()
            if live.has_ended:
                self.messages.send("over")
            live.add_group(self.group)
            while not self.group.has_left:
                self._take_next()
        except (EOFError, OSError) as error:
            with live.finding_out:
                places = self.group.places()
                self.group.leave()
                self._find_out(places, str(error) or "it ended without leaving")
        except Exception as error:  # it reports that it is lost, or sent something unknown
            self.lose(str(error) or type(error).__name__)
            live.drop_places(self.group.numbers())
            self.group.leave()
        live.remove_group(self.group)
        self._end()

    def _welcome(self) -> None:
        live = self._live
        run = (FORM, VERSION, live.run_name, live.is_named, live.token)
        self.messages.send("welcome", *run, self._most(), astuple(live.policy), self.notes_path)

    # what it did, if it is killed

    def _find_out(self, places: Sequence[Place], why: str) -> None:
        """Hands in what it did last and takes its places back. If that fails, the audit ends."""
        lent, ended = self.group.lent(), self.group.ended
        try:
            noted = self._noted()
            if not self._has_all_noted:
                raise LostError("some of its transactions couldn't be noted")
            killed = CrashedProcess(noted, self._live.run_name, self._live.next_number)
            for place in [*places, *lent]:
                if place.is_audited and place.number not in ended:
                    self._hand_in(place.number, killed.told(place))
                    if place.is_ended and not place.must_join:
                        self._live.take_close(place.number)
            if places:
                numbers = ", ".join(str(place.number) for place in places)
                logger.warning(
                    "the client process with sessions %s was killed: %s", numbers, HANDED_IN
                )
        except Exception as error:
            self.lose(f"{why}: {error}" if str(error) != why else why)
            self._live.drop_places(place.number for place in places)
        else:
            for place in lent:
                place.is_lent = False
            self._live.give_back_lent(lent)
            self._live.give_back(place for place in places if place.number not in ended)
            self._live.drop_places(place.number for place in places if place.number in ended)

    def _hand_in(self, session: int, transactions: Sequence[tuple[int, Logged]]) -> None:
        for came, number, unseen, packed in handed_in(transactions):
            self._live.hand_in_packed(came, session, number, unseen, packed)

    def _take_unnoted(self, *why: str) -> None:
        self._has_all_noted = False

    def _take_logged(
        self, logged: Sequence[tuple[float, int, int | None, Any, Any]], dropped: int
    ) -> None:
        """Takes in transactions, then answers. Until the answer they count as on their way, which
        makes clients there wait for room."""
        for came, session, number, unseen, packed in logged:
            self._take_one(came, session, number, unseen, packed)
        if dropped:
            self._live.count_dropped(dropped)
        self._wait_for_room()
        self.messages.tell("taken", len(logged))

    def _take_one(
        self, came: float, session: int, number: int | None, unseen: Any, packed: Any
    ) -> None:
        live = self._live
        if number is None:
            self.group.ended.add(session)
            live.take_close(session)
        else:
            self.group.note_joined(session, number)
            live.hand_in_packed(came, session, number, unseen, packed)

    def _wait_for_room(self) -> None:
        while self._live.has_to_wait:
            time.sleep(PAUSE / 4)

    def _take_loss(self, why: str) -> None:
        """It goes on, but what it did from then on is unknown."""
        self._live.lose(AuditLostError(why))

    def _take_end(self, why: str) -> None:
        raise ValueError(why)

    # its sessions

    def _begin_join(self, asked: int, is_new: bool) -> None:
        """Starts a thread, since a joining client may have to wait while a meeting calls its
        process."""
        threading.Thread(target=self._join, args=(asked, is_new), daemon=True).start()

    def _join(self, asked: int, is_new: bool) -> None:
        """Gives a free session to a new client, or to one whose session has ended."""
        live = self._live
        place = live.take_place(max(NEW, live.policy.wait) if is_new else live.policy.wait)
        if place is None:
            place = live.place_for_nobody(is_new)
            self.messages.tell("left", asked, astuple(place) if place else None)
            return
        if self.group.has_left:
            live.give_back([place])
            return
        self.group.add_untold(place)
        if not self.messages.tell("left", asked, astuple(place)):
            self.group.remove(place.number)
            live.give_back([place])
        self.group.note_told(place.number)

    def _take_overflow(self, asked: int) -> None:
        self.messages.tell("left", asked, astuple(self._live.take_unaudited()))

    def _take_store(self, known: object, shown: object) -> None:
        """Notes the store of one of its clients, and tells it which store the audit is about."""
        first = self._live.audited_store.first(checked(known, shown))
        self.messages.tell("store", *first)

    def _take_assumed(self, known: object, shown: object) -> None:
        """Checks the store in which it goes on after getting no answer in time."""
        self._live.audited_store.meet(checked(known, shown))

    def _take_back(self, place: Sequence[Any]) -> None:
        given_back = Place(*place)
        self.group.remove(given_back.number)
        self._live.give_back([given_back])

    def _take_leave(self, places: Sequence[Sequence[Any]]) -> None:
        """Takes back its sessions, and those that it was to join and didn't."""
        numbers, returned = self.group.numbers(), [Place(*place) for place in places]
        known = {place.number for place in returned}
        unused = [
            place for place in self.group.places() if place.must_join and place.number not in known
        ]
        known.update(
            self.group.ended, (place.number for place in [*unused, *self.group.given_back()])
        )
        self.group.leave()
        self._live.give_back([*returned, *unused])
        self._live.drop_places(numbers)  # those of sessions that have ended
        for number in numbers:
            if number not in known:  # it learned of this too late, and did nothing there
                self._live.take_close(number)
