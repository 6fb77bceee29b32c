"""Which store the audit is about, as the auditor's process says."""

import threading
import time

from ..core._store_identity import AuditedStore, StoreIdentity, checked
from ._messages import Channel


class StoreAnswers:
    """Asks once and remembers the answer; safe for use by several threads."""

    def __init__(self, messages: Channel) -> None:
        self._messages, self._audited = messages, AuditedStore()
        self._has_answered, self._has_ended = threading.Event(), False

    def meet(self, identity: StoreIdentity, seconds: float) -> bool:
        """Raises StoreUnfitError if this isn't the audit's store. Returns False if nobody answers
        within this many seconds. Once nothing more is answered, any store is accepted, since
        nothing of it is audited."""
        if not (self._has_answered.is_set() or self._has_ended):
            ends = time.monotonic() + seconds
            self._messages.tell("store", *identity, seconds=seconds)
            if not self._has_answered.wait(max(0.0, ends - time.monotonic())):
                return False
        if not self._has_ended:
            self._audited.meet(identity)
        return True

    def take_answer(self, known: object, shown: object) -> None:
        self._audited.first(checked(known, shown))
        self._has_answered.set()

    def end(self) -> None:
        """Ends it; nothing more is answered."""
        self._has_ended = True
        self._has_answered.set()
