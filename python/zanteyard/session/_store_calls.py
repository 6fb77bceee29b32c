"""All calls that a session may make on a store, whichever of them the store has."""

import logging
from collections.abc import Sequence
from typing import Any

from ..core._records import Name, StoredValue
from ..core._store_identity import StoreIdentity, identity_of
from ._stores import BoundedStore, BulkStore, IdentifiedStore, ObservedStore, Store
from ._stores import TracedStore

logger = logging.getLogger("zanteyard")


class StoreCalls(BoundedStore, BulkStore, TracedStore, ObservedStore, IdentifiedStore):
    """A store with all five optional parts. What the store lacks is built from its other methods or
    does nothing. For one thread at a time, except `hang_up`."""

    def __init__(self, store: Store) -> None:
        self.store = store

    def _own(self, name: str, otherwise: Any = None) -> Any:
        """The store's own attribute, looked up at each use."""
        return getattr(self.store, name, otherwise)

    # BoundedStore

    def begin_alone(self, seconds: float) -> None:
        begin = self._own("begin_alone")
        if begin is not None:
            begin(seconds)
        else:
            self.store.begin()

    def outcome_within(self, seconds: float) -> str:
        bounded = self._own("outcome_within")
        return str(bounded(seconds) if bounded is not None else self.store.outcome())

    def hang_up(self) -> None:
        hang_up = self._own("hang_up")
        if hang_up is not None:
            hang_up()

    # BulkStore

    def read_all(self, keys: Sequence[str]) -> dict[str, StoredValue]:
        read_all = self._own("read_all")
        if read_all is not None:
            values: dict[str, StoredValue] = read_all(keys)
            return values
        each = ((key, self.store.read(key)) for key in keys)
        return {key: value for key, value in each if value is not None}

    @property
    def can_exchange(self) -> bool:
        """Whether `exchange` may be called: it has no substitute."""
        return self._own("exchange") is not None

    def exchange(self, key: str, value: object, name: Name) -> StoredValue | None:
        overwritten: StoredValue | None = self._own("exchange")(key, value, name)
        return overwritten

    # TracedStore

    @property
    def writes_at_once(self) -> bool:
        return bool(self._own("writes_at_once", False))

    @property
    def can_claim(self) -> bool:
        """Whether the store records which run has a name; if not, `claim` does nothing."""
        return self._own("claim") is not None

    def claim(self, run_name: str, token: str, seconds: float) -> None:
        if self.can_claim:
            self._own("claim")(run_name, token, seconds)

    def asks(self) -> Any:
        """None if the store can't be asked, or can't say how."""
        asks = self._own("asks")
        try:
            return asks() if asks is not None else None
        except Exception as error:
            logger.warning("can't describe how to ask this store: %s", error)
            return None

    def ticket(self, written: Sequence[object]) -> Any:
        """None if there is none."""
        ticket = self._own("ticket")
        return ticket(written) if ticket is not None else None

    # ObservedStore

    @property
    def errors(self) -> tuple[type[BaseException], ...]:
        return tuple(self._own("errors", ()))

    @property
    def statement(self) -> str | None:
        statement: str | None = self._own("statement")
        return statement

    def has_answered(self, error: BaseException) -> bool:
        has_answered = self._own("has_answered")
        return has_answered is not None and bool(has_answered(error))

    # IdentifiedStore

    def identity(self) -> StoreIdentity:
        """`UNTOLD` if the store doesn't identify itself."""
        identity = self._own("identity")
        return identity_of(identity() if identity is not None else None)
