"""What a session needs from a store, and what a store may offer in addition.

Every store has the methods of `Store`. The five protocols after it are optional, as a whole or in
part: what a store lacks is built from its other methods or left out (`session/_store_calls.py`).
"""

from collections.abc import Sequence
from typing import Any, Protocol

from ..core._records import Name, StoredValue


class Store(Protocol):
    """A connection to a store, for one thread at a time. Every method except `outcome` may raise
    AbortedError."""

    def begin(self) -> None:
        """Begins a transaction."""

    def read(self, key: str) -> StoredValue | None:
        """The value and the name that was stored with it; None if the key doesn't exist."""

    def write(self, key: str, value: object, name: Name) -> None:
        """Writes the value and the name. The value None deletes the key but keeps the name."""

    def commit(self) -> None:
        """Raises OutcomeUnknownError if no answer arrived."""

    def rollback(self) -> None:
        """Ends the transaction without an effect."""

    def outcome(self) -> str:
        """The outcome of the last transaction whose commit was sent and that had written:
        "committed", "aborted" or "unknown"."""


class ConnectedStore(Store, Protocol):
    """A store that opens its connection by itself, and closes it at its end."""

    def connect(self) -> None:
        """Opens the connection."""

    def close(self) -> None:
        """Closes the connection."""


class BoundedStore(Protocol):
    """Calls with a time limit."""

    def begin_alone(self, seconds: float) -> None:
        """Used in place of `begin` for transactions of one statement each that end within this many
        seconds. Their reads and writes may raise OutcomeUnknownError."""

    def outcome_within(self, seconds: float) -> str:
        """As `outcome`, within this many seconds. If a store lacks this, `outcome` is called,
        however long it takes."""

    def hang_up(self) -> None:
        """Interrupts whatever waits for an answer over this connection; the next transaction uses a
        new one. May be called from any thread. It is called when a client waits for the audit's own
        statements."""


class BulkStore(Protocol):
    """Several reads, or a read and a write, in one statement."""

    def read_all(self, keys: Sequence[str]) -> dict[str, StoredValue]:
        """By key what `read` returns, for the keys that exist."""

    def exchange(self, key: str, value: object, name: Name) -> StoredValue | None:
        """Writes as `write` does and returns what `read` would have returned for the version that
        it overwrites. Both must be one atomic step at every isolation level of the store."""


class TracedStore(Protocol):
    """Lets another process find out what became of a client's commits."""

    @property
    def writes_at_once(self) -> bool:
        """Whether a transaction's writes don't wait for its commit."""

    def claim(self, run_name: str, token: str, seconds: float) -> None:
        """Reserves this name for one run. Raises NameTakenError if the store knows the name from a
        run with another token, and OutcomeUnknownError if the store doesn't answer within this many
        seconds."""

    def asks(self) -> Any:
        """How to ask the store from another process, as plain values: the word for its kind
        (`core/_commit_status.py`) and the arguments of that kind's `asked`."""

    def ticket(self, written: Sequence[object]) -> Any:
        """Plain values that identify the current transaction. `written` is a key and a name, `(key,
        *name)`, that it has written or is about to write."""


class ObservedStore(Protocol):
    """What the store knows about its client's own statements and about its answers."""

    @property
    def errors(self) -> tuple[type[BaseException], ...]:
        """The exception classes of its driver. A client joins by a statement of the collector,
        which runs in the application's thread. If that raises one of these, or an error of this
        package, the application doesn't see it. It does see anything else, such as what a handler
        of SIGALRM raises."""

    @property
    def statement(self) -> str | None:
        """The statement that was run last, as it is to be shown with a violation."""

    def has_answered(self, error: BaseException) -> bool:
        """Whether what `commit` raised is the store's own answer. Then nothing was committed, and
        nobody has to ask."""


class IdentifiedStore(Protocol):
    """Distinguishes a store from all others."""

    def identity(self) -> Any:
        """The identity of the store behind the current connection: one text, or a StoreIdentity of
        `core._store_identity`. It is the same over all connections to one store, and differs over
        those to another. None if unknown. It is asked when each transaction begins, so find it out
        once, when the connection is opened. If none is open, this method opens one, and raises what
        `begin` raises."""
