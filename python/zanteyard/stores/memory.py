"""A store in memory whose faults can be switched on. Without a fault, a transaction commits only if
everything it read is still the newest version."""

from __future__ import annotations

import random
import secrets
import threading
import time
from typing import Any

from ..core._records import Name, StoredValue
from ..core._store_identity import StoreIdentity
from ..core.errors import AbortedError, NameTakenError, OutcomeUnknownError

FAULTS = (
    *("stale-read", "lost-update", "write-skew", "torn-read"),
    *("dirty-read", "lost-write", "reappearing"),
)


class MemoryStore:
    """The part that all connections share: for each key its versions, oldest first, as (value,
    name, moment). A commit takes up to `takes` seconds on its way there, and up to `takes` on the
    way back."""

    def __init__(self, fault: str | None = None, takes: float = 0.0) -> None:
        assert fault is None or fault in FAULTS, fault
        self.takes = takes
        self.fault, self.moment, self.lock = fault, 0, threading.RLock()
        self.versions: dict[str, list[tuple[Any, Name, int]]] = {}
        self.runs: dict[str, str] = {}  # for each run's name, its token
        token = secrets.token_hex(8)
        self.identity = StoreIdentity(f"memory {token}", f"the in-memory store {token}")

    def connect(self) -> Connection:
        """A connection, for one client."""
        return Connection(self)

    def newest(self, key: str, moment: int) -> int:
        """The index of the key's newest version at this moment, or -1."""
        versions = self.versions.get(key, [])
        return max((i for i, version in enumerate(versions) if version[2] <= moment), default=-1)


class Connection:
    """A client's connection to a MemoryStore, for one thread at a time. It has what a store
    needs."""

    def __init__(self, shared: MemoryStore) -> None:
        self.shared, self.known = shared, True
        self.lost: str | None = None
        self.seen: dict[str, int] = {}
        self.writes: dict[str, StoredValue] = {}
        self.last_outcome = "unknown"

    def begin(self) -> None:
        self.began, self.seen, self.writes = self.shared.moment, {}, {}
        self.last_outcome = "aborted"  # nothing is stored yet

    def read(self, key: str) -> StoredValue | None:
        shared = self.shared
        at = shared.newest(key, shared.moment if shared.fault == "torn-read" else self.began)
        self.seen[key] = at
        if shared.fault == "stale-read" and at > 0:
            at -= 1
        if at < 0:
            return None
        value, name, _ = shared.versions[key][at]
        if value is None and shared.fault == "reappearing":
            value, name, _ = shared.versions[key][at - 1]
        return value, name

    def write(self, key: str, value: object, name: Name) -> None:
        self.writes[key] = (value, name)

    def commit(self) -> None:
        self.go()
        with self.shared.lock:
            self.decide()
        self.go()

    def go(self) -> None:
        """Waits for a random time of up to `takes` seconds."""
        if self.shared.takes:
            time.sleep(random.uniform(0.0, self.shared.takes))

    def decide(self) -> None:
        """Ends the transaction: raises AbortedError if it can't commit, and OutcomeUnknownError if
        tests want no answer."""
        shared = self.shared
        changed = {key for key, at in self.seen.items() if at != shared.newest(key, shared.moment)}
        if shared.fault in ("lost-update", "torn-read"):
            changed = set()
        if shared.fault == "write-skew":  # as under snapshot isolation
            changed &= set(self.writes)
        if changed:
            self.end("aborted")
            raise AbortedError(f"{sorted(changed)} changed")
        self.end("committed")
        if self.lost is not None:
            raise OutcomeUnknownError("no answer")

    def rollback(self) -> None:
        if self.shared.fault == "dirty-read" and self.writes:
            self.install()
        self.writes = {}

    def end(self, outcome: str) -> None:
        """Ends the transaction. Tests set `lost` so that no answer arrives, whether the commit
        takes effect ("committed") or not ("aborted")."""
        outcome, self.last_outcome = self.lost or outcome, "unknown"  # an interrupt may come
        if outcome == "committed" and self.shared.fault != "lost-write":
            self.install()
        self.last_outcome = outcome

    def install(self) -> None:
        """Makes the transaction's writes the newest versions."""
        with self.shared.lock:
            for key, (value, name) in self.writes.items():
                version = (value, name, self.shared.moment + 1)
                self.shared.versions.setdefault(key, []).append(version)
            self.shared.moment += 1

    def claim(self, run_name: str, token: str, seconds: float) -> None:
        with self.shared.lock:
            if self.shared.runs.setdefault(run_name, token) != token:
                raise NameTakenError(f"the store has the name {run_name} from an earlier run")

    def outcome(self) -> str:
        return self.last_outcome if self.known else "unknown"

    def identity(self) -> StoreIdentity:
        return self.shared.identity
