"""Records which client had which session, from which transaction on.

Several clients use a session in turn. They are numbered in the order of their arrival, so that
reports can say which client ran a transaction.
"""

import threading
from bisect import bisect_right
from collections.abc import Sequence

from ..core._records import AuditId


class Tenancy:
    """Safe for use by several threads."""

    def __init__(self) -> None:
        self.clients = 0  # clients that have arrived
        self._lock = threading.Lock()
        # For each session the first transaction numbers of its clients, ascending, and these
        # clients.
        self._firsts: dict[int, list[int]] = {}
        self._clients: dict[int, list[int]] = {}
        self._untold: dict[int, int] = {}  # for each session the latest client's first number
        self._shared: set[int] = set()  # sessions that several clients have had

    def begin(self, session: int, number: int) -> int:
        """Gives the session to another client, from this transaction on. Returns the client's
        number."""
        with self._lock:
            self.clients += 1
            firsts = self._firsts.setdefault(session, [])
            clients = self._clients.setdefault(session, [])
            while firsts and firsts[-1] >= number:  # the previous client did nothing
                firsts.pop()
                clients.pop()
            if firsts:
                self._shared.add(session)
            firsts.append(number)
            clients.append(self.clients)
            self._untold[session] = number
            return self.clients

    def client(self, session: int, number: int) -> int | None:
        """The client that ran the transaction; None if unknown."""
        with self._lock:
            at = bisect_right(self._firsts.get(session, ()), number) - 1
            return self._clients[session][at] if at >= 0 else None

    def first_of(self, session: int, number: int) -> int | None:
        """The client whose first transaction this is; None otherwise, and from the second call
        on."""
        if self._untold.get(session) != number:
            return None
        del self._untold[session]
        return self.client(session, number)

    def called(self, id: AuditId, number: int) -> str:
        """The transaction's name in reports. `number` is its number in the store."""
        called = f"{id[0]}.{id[1]}"
        client = self.client(id[0], number) if id[0] in self._shared else None
        return called if client is None else f"{called} (client {client})"

    # if only the clients' first transactions are known

    def begin_behind(self, session: int, number: int) -> None:
        """As `begin`, when a line says that a client joins a session that may have had others."""
        if number and session not in self._firsts:
            self.begin(session, 0)
        self.begin(session, number)

    def called_by_first(self, id: AuditId) -> str:
        """The transaction's name in reports, with its client's first transaction if the session had
        several clients."""
        called, first = f"{id[0]}.{id[1]}", self._first_before(*id)
        if first is None or id[0] not in self._shared:
            return called
        return f"{called} (client from {id[0]}.{first})"

    def joined(self) -> list[list[int]]:
        """Each session that had several clients, with the first transaction of each of them, as
        arguments of `begin_behind`."""
        with self._lock:
            firsts_of = {session: self._firsts[session] for session in sorted(self._shared)}
            return [[session, first] for session, firsts in firsts_of.items() for first in firsts]

    def _first_before(self, session: int, number: int) -> int | None:
        with self._lock:
            firsts = self._firsts.get(session, ())
            at = bisect_right(firsts, number) - 1
            return firsts[at] if at >= 0 else None

    def forget(self, numbers: Sequence[int]) -> None:
        """Forgets clients that had a session only before these numbers, one for each session."""
        with self._lock:
            for session, number in enumerate(numbers):
                gone = max(0, bisect_right(self._firsts.get(session, ()), number) - 1)
                if gone:
                    del self._firsts[session][:gone], self._clients[session][:gone]
