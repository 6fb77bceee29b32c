"""Identifies the store that an audit is about.

If clients of two stores used one auditor, the stores would look like one faulty store: what a
client wrote in one isn't found in the other. Therefore each store identifies itself. The first
identity belongs to the audit, and no other is admitted.
"""

import hashlib
import logging
import os
import socket
from typing import Any, NamedTuple

from ._visible import shown as visible
from .errors import StoreUnfitError

LONGEST = 1000  # characters of each of the two texts
logger = logging.getLogger("zanteyard")


class StoreIdentity(NamedTuple):
    """`known` is the same over all connections to one store, whatever name or address they use, and
    differs from that of any other store. `shown` is for people."""

    known: str
    shown: str


# The identities of a store that doesn't identify itself, and of one that couldn't do so this time,
# for example because its memory is full.
UNTOLD = StoreIdentity("", "a store that doesn't identify itself")
UNSURE = StoreIdentity("?", "a store that can't identify itself now")


def identity_of(told: Any) -> StoreIdentity:
    """The identity from what a store's `identity` returned: a StoreIdentity, one text for both,
    (known, shown), or None."""
    if type(told) is StoreIdentity and len(told.known) <= LONGEST >= len(told.shown):
        return told
    if told is None:
        return UNTOLD
    known, shown = (told, told) if isinstance(told, str) else told
    return checked(bounded(known), shown[:LONGEST])


def bounded(known: str) -> str:
    """A text that is too long to be sent is replaced by its hash."""
    if len(known) <= LONGEST:
        return known
    return f"sum {hashlib.sha256(known.encode(errors='surrogatepass')).hexdigest()}"


def checked(known: object, shown: object) -> StoreIdentity:
    """Raises ValueError unless both are texts of allowed length."""
    if isinstance(known, str) and isinstance(shown, str) and len(known) <= LONGEST >= len(shown):
        return StoreIdentity(known, shown)
    raise ValueError("a store's identity must be two strings of at most 1,000 characters")


def known_of(identity: StoreIdentity | None) -> str | None:
    return identity.known if identity is not None else None


class AuditedStore:
    """The store that an audit is about. Safe for use by several threads and in a forked child."""

    def __init__(self) -> None:
        self._first: dict[str, StoreIdentity] = {}

    @property
    def identity(self) -> StoreIdentity | None:
        """None until a store has identified itself."""
        return self._first.get("store")

    def first(self, identity: StoreIdentity) -> StoreIdentity:
        """The audit's identity: this one if it is the first, else the earlier one."""
        is_first = self.identity is None
        first = self._first.setdefault("store", identity)
        if is_first and first is identity:
            self._tell(identity)
        return first

    def meet(self, identity: StoreIdentity) -> None:
        """Raises StoreUnfitError if this isn't the audit's store."""
        first = self.first(identity)
        if first.known == identity.known:
            return
        message = f"this audit is of {first.shown}, but this client uses {identity.shown}: "
        message += "one auditor would take two stores for one faulty store"
        if UNTOLD.known in (first.known, identity.known):
            message += "; a store class of your own identifies its store by `identity`"
        raise StoreUnfitError(message)

    @staticmethod
    def _tell(identity: StoreIdentity) -> None:
        if identity.known == UNTOLD.known:
            logger.warning(
                "this store doesn't identify itself: if clients of two such stores share an "
                "auditor, nobody notices, and its verdict may be true of neither"
            )
        else:
            logger.info("the audit is of %s", visible(identity.shown))


def this_machine() -> str:
    """An identifier of this machine, for a store that is a file on it."""
    for path in ("/etc/machine-id", "/proc/sys/kernel/random/boot_id"):
        try:
            with open(path, encoding="ascii", errors="replace") as file:
                text = file.read(100).strip()
        except OSError:
            continue
        if text:
            return text
    return socket.gethostname() or os.uname().nodename
