"""Clients that run transactions on a store at the same time, in threads or in processes, for audits
without an application."""

import multiprocessing
from multiprocessing.queues import SimpleQueue
from multiprocessing.synchronize import Barrier, Event
import random
import signal
import threading
import time
from collections.abc import Callable, Sequence
from typing import Any

from ..core.errors import AbortedError
from ..live._live_auditor import LiveAuditor
from ..remote._client import AuditClient
from ..session._session import Session
from ..session._transaction import Transaction
from .store_kinds import MakesStore

PAIRS = 8  # of keys
READY = 300.0  # seconds for all client processes to start
SHORT = 0.002  # seconds between a write and its rollback
LOOKS = 0.2  # seconds between two checks whether client processes should end
LIFE = 2.0  # seconds until a client is replaced by another one


def number_at(transaction: Transaction, key: str) -> int:
    return int(transaction.get(key) or 0)


def counter(transaction: Transaction, client: int) -> None:
    key = f"count {random.randrange(PAIRS)}"
    transaction.put(key, str(number_at(transaction, key) + 1))


def skew(transaction: Transaction, client: int) -> None:
    pair = random.randrange(PAIRS)
    both = number_at(transaction, f"left {pair}") + number_at(transaction, f"right {pair}")
    side = random.choice((f"left {pair}", f"right {pair}"))
    transaction.put(side, str((both + 1) % 1000))  # else it would double again and again


def mixed(transaction: Transaction, client: int) -> None:
    for key in random.sample(range(2 * PAIRS), 2):
        number_at(transaction, f"key {key}")
    transaction.put(f"key {random.randrange(2 * PAIRS)}", str(client))


def blind(transaction: Transaction, client: int) -> None:
    if random.random() < 0.5:
        number_at(transaction, f"key {random.randrange(2 * PAIRS)}")
    else:
        transaction.put(f"key {random.randrange(2 * PAIRS)}", str(client))


Workload = Callable[[Transaction, int], None]
WORKLOADS: dict[str, Workload] = {"counter": counter, "skew": skew, "mixed": mixed, "blind": blind}


def pairs(transaction: Transaction, client: int) -> None:
    """Writes two keys, or reads both."""
    pair = random.randrange(PAIRS)
    for key in (f"left {pair}", f"right {pair}"):
        if client % 2:
            number_at(transaction, key)
        else:
            transaction.put(key, str(client))


def undone(transaction: Transaction, client: int) -> None:
    """Reads a key, or writes it at once and mostly rolls that back."""
    key = f"key {random.randrange(PAIRS)}"
    if client % 2:
        number_at(transaction, key)
        return
    transaction.exchange(key, str(client))
    time.sleep(SHORT)
    if random.random() < 0.75:
        raise AbortedError("the client takes back what it wrote")


# Each of the others shows a fault of some level below serializable; these two show faults of lower
# levels.
EVERY_WORKLOAD: dict[str, Workload] = {**WORKLOADS, "pairs": pairs, "undone": undone}


class Nothing:
    """Stands in for an auditor."""

    def take(self, *_: object) -> None:
        pass

    take_close = take


class Clients:
    """Clients in threads, each with its own session, until the time is up or `is_over()`. Each of
    them begins a transaction, however late it starts. The first one has the number `first`."""

    def __init__(
        self,
        sessions: Sequence[Session | None],
        workload: Workload,
        seconds: float,
        is_over: Callable[[], bool],
        rate: float | None = None,
        first: int = 0,
    ) -> None:
        self.workload, self.is_over, self.committed, self.aborted = workload, is_over, 0, 0
        self.failures: list[Exception] = []
        self.longest, self.lock = 0.0, threading.Lock()
        self.count = len(sessions)
        # Seconds from the begin of a client's transaction to that of its next one.
        self.pause = self.count / rate if rate else 0.0
        self.began = time.monotonic()
        self.until = self.began + seconds
        threads = [
            threading.Thread(target=self.client, args=numbered, daemon=True)
            for numbered in enumerate(sessions, first)
        ]
        for thread in threads:
            thread.start()
        for thread in threads:
            thread.join()
        self.took = time.monotonic() - self.began
        waited = sum(session.waited for session in sessions if session is not None)
        self.waited = waited / (self.took * len(sessions))

    def client(self, number: int, session: Session) -> None:
        self.live_until(self.until, number, session)

    def live_until(self, until: float, number: int, session: Session) -> None:
        committed = aborted = 0
        due = time.monotonic() + random.random() * self.pause  # not all at once
        longest = 0.0
        try:
            while not self.is_over():
                due = self.wait(due)
                began = time.monotonic()
                try:
                    session.run(lambda transaction: self.workload(transaction, number), attempts=1)
                    committed += 1
                except AbortedError:
                    aborted += 1
                ended = time.monotonic()
                longest = max(longest, ended - began)
                if ended >= until:
                    break
        except Exception as error:  # raised by the main thread
            self.failures.append(error)
        with self.lock:
            self.committed += committed
            self.aborted += aborted
            self.longest = max(self.longest, longest)

    def wait(self, due: float) -> float:
        """Waits until `due`; returns when the next transaction is due. A client that is late
        doesn't catch up."""
        if self.pause:
            time.sleep(max(0.0, min(due, self.until) - time.monotonic()))
        return max(due, time.monotonic() - self.pause) + self.pause

    def rate(self) -> float:
        if self.failures:
            raise self.failures[0]
        return float(self.committed / self.took)


class ChurningClients(Clients):
    """Clients that replace each other: `count` at a time, each with its own store, which leave
    after `life` seconds, until the time is up or `is_over()`."""

    def __init__(
        self,
        live: LiveAuditor,
        make_store: MakesStore,
        count: int,
        workload: Workload,
        seconds: float,
        rate: float | None = None,
        life: float = LIFE,
        is_over: Callable[[], bool] = lambda: False,
    ) -> None:
        self.live, self.make_store, self.life = live, make_store, life
        self.came, self.total = 0, 0.0
        has_ended = lambda: bool(live.is_over) or is_over()
        super().__init__([None] * count, workload, seconds, has_ended, rate)
        self.waited = self.total / (self.took * count)

    def client(self, number: int, session: Session) -> None:
        # So that they don't all change at once.
        until, life = self.until, random.uniform(0.5, 1.0) * self.life
        while not (self.is_over() or self.failures):
            store = self.make_store()
            try:
                with self.live.session(store) as own:
                    self.live_until(min(until, time.monotonic() + life), number, own)
                    with self.lock:
                        self.came, self.total = self.came + 1, self.total + own.waited
            except Exception as error:  # raised by the main thread
                self.failures.append(error)
            finally:
                store.close()
            if time.monotonic() >= until:
                break
            life = self.life


class ClientProcesses(Clients):
    """Clients in processes of their own, which connect to the audit at this path; None for no
    audit. `make_store` makes a client's store, and is sent to its process."""

    def __init__(
        self,
        path: str | None,
        make_store: MakesStore,
        count: int,
        workload: str,
        seconds: float,
        rate: float | None = None,
        is_over: Callable[[], bool] = lambda: False,
    ) -> None:
        self.committed = self.aborted = 0
        # Processor time while transactions ran, and in total.
        self.used = self.whole = 0.0
        self.failures = []
        waited: list[float] = []
        took: list[float] = []
        longest: list[float] = []
        spawned = multiprocessing.get_context(
            "spawn"
        )  # a fork would copy only one of the auditor's threads
        results, ready, ended = spawned.SimpleQueue(), spawned.Barrier(count), spawned.Event()
        asked = (ended, path, make_store, workload, seconds, rate and rate / count)
        processes = [
            spawned.Process(
                target=client_process, args=(results, ready, number, *asked), daemon=True
            )
            for number in range(count)
        ]
        try:
            for process in processes:
                process.start()
            for process in processes:
                while process.is_alive():
                    if is_over():
                        ended.set()
                    process.join(LOOKS)
        finally:
            for process in processes:
                if process.is_alive():
                    process.terminate()
        for _ in processes:
            if results.empty():
                self.failures.append(RuntimeError("a client process ended without a message"))
                break
            failure, *counts = results.get()
            if failure is not None:
                self.failures.append(RuntimeError(failure))
                continue
            self.committed += counts[0]
            self.aborted += counts[1]
            self.used += counts[2]
            self.whole += counts[3]
            for values, value in zip((took, waited, longest), counts[4:]):
                values.append(value)
        self.took, self.waited = max(took, default=1.0), sum(waited) / max(1, len(waited))
        self.longest = max(longest, default=0.0)


def client_process(
    results: SimpleQueue[tuple[Any, ...]],
    ready: Barrier,
    number: int,
    ended: Event,
    path: str | None,
    make_store: MakesStore,
    workload: str,
    seconds: float,
    rate: float | None,
) -> None:
    """One client in a process that does nothing else while transactions run, until the time is up
    or `ended` is set. Sends its counts, or what failed."""
    signal.signal(signal.SIGINT, signal.SIG_IGN)  # a terminal's Ctrl-C is for the parent process
    try:
        store = make_store()
        store.connect()
        audit = AuditClient(path) if path else None
        session = audit.session(store) if audit else Session(Nothing(), number, store, "unaudited")
        ready.wait(READY)
        began = time.process_time()
        is_over = lambda: ended.is_set() or (audit is not None and audit.is_over)
        clients = Clients([session], EVERY_WORKLOAD[workload], seconds, is_over, rate, number)
        if audit:
            audit.leave()
        failure = next((str(error) or type(error).__name__ for error in clients.failures), None)
        used = time.process_time()
        counts = (clients.committed, clients.aborted, used - began, used)
        results.put((failure, *counts, clients.took, clients.waited, clients.longest))
    except Exception as error:
        results.put((f"client {number}: {str(error) or type(error).__name__}",))
        ready.abort()  # so that nobody waits for it
