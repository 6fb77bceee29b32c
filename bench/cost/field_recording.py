"""Records histories of bench/cost/field.py over a PostgreSQL of its own.

Each client has a connection, and one statement a read or write. An attempt that the server aborts
is repeated until it commits. Each row has the name of its last writer next to the value: that is
how a read tells whom it read from. Every `every` transactions the clients meet, as
docs/COLLECTORS.md has it: each makes a fence; when all have, each makes a second one, and reads
what it had written without reading it; when all have, they go on.
"""
import collections
import itertools
import json
import multiprocessing
import os
import pickle
import signal
import sys
import tempfile
import threading
import time
from collections.abc import Callable, Iterator, Sequence
from typing import Any

import psycopg2
from psycopg2 import errors

sys.path.append(os.path.join(os.path.dirname(os.path.abspath(__file__)), "../../python"))
from field_histories import Attempt, FENCE, History, MOST, Record, is_list
from field_workloads import WORKLOADS, dealt
from zanteyard.trial.postgres_server import PostgresServer

LEVELS = {"serializable": "SERIALIZABLE", "snapshot": "REPEATABLE READ"}
PROCESSES = max(1, min(4, os.cpu_count() or 1))
CONFLICTS = (errors.SerializationFailure, errors.DeadlockDetected)
SETTINGS = """
max_connections = 300
max_pred_locks_per_transaction = 1024
deadlock_timeout = 100ms
synchronous_commit = off
enable_seqscan = off
"""
TABLE = """DROP TABLE IF EXISTS field; CREATE TABLE field (
    key text PRIMARY KEY, value text, session int NOT NULL, number int NOT NULL)"""
PREPARED = """
PREPARE get(text) AS SELECT value, session, number FROM field WHERE key = $1;
PREPARE get_all(text[]) AS SELECT key, value, session, number FROM field WHERE key = ANY($1);
PREPARE put(text, text, int, int) AS INSERT INTO field VALUES ($1, $2, $3, $4)
    ON CONFLICT (key) DO UPDATE SET value = excluded.value, session = excluded.session,
    number = excluded.number;
PREPARE append(text, text, int, int) AS INSERT INTO field VALUES ($1, $2, $3, $4)
    ON CONFLICT (key) DO UPDATE SET value = field.value || ' ' || excluded.value,
    session = excluded.session, number = excluded.number"""
LOOKS = 0.2  # seconds between two looks at the clients


class RecordingError(Exception):
    """A client has failed."""


class Server(PostgresServer):
    """With room for the locks of long serializable transactions. A scan of the whole table would
    lock all of it."""

    def start(self) -> None:
        with open(f"{self.data}/postgresql.conf", "a", encoding="ascii") as file:
            file.write(SETTINGS)
        super().start()


def value_of(key: str, text: str | None) -> Any:
    if text is None:
        return None
    return [int(element) for element in text.split()] if is_list(key) else json.loads(text)


def text_of(key: str, value: Any) -> str:
    return " ".join(map(str, value)) if is_list(key) else json.dumps(value)


def source_of(session: int, number: int) -> Sequence[int]:
    return () if session < 0 else (session, number)


class Connection:
    """What an Attempt reads and writes through."""

    def __init__(self, dsn: str, level: str) -> None:
        self.connection = psycopg2.connect(dsn)
        self.connection.autocommit = True  # transactions are begun with their first statement
        self.cursor = self.connection.cursor()
        self.cursor.execute(PREPARED)
        self.begin = f"BEGIN ISOLATION LEVEL {LEVELS[level]}; "
        self.before = self.begin

    def send(self, statement: str, *values: Any) -> None:
        before, self.before = self.before, ""
        self.cursor.execute(before + statement, values)

    def read(self, key: str) -> Any:
        self.send("EXECUTE get(%s)", key)
        row = self.cursor.fetchone()
        return (None, ()) if row is None else (value_of(key, row[0]), source_of(*row[1:]))

    def read_all(self, keys: Sequence[str]) -> dict[str, Any]:
        self.send("EXECUTE get_all(%s)", [*keys])
        return {row[0]: (value_of(*row[:2]), source_of(*row[2:])) for row in self.cursor}

    def write(self, key: str, value: Any, name: Sequence[int]) -> None:
        self.send("EXECUTE put(%s, %s, %s, %s)", key, text_of(key, value), *name)

    def append(self, key: str, element: int, name: Sequence[int]) -> None:
        self.send("EXECUTE append(%s, %s, %s, %s)", key, str(element), *name)

    def commit(self) -> None:
        if not self.before:
            self.send("COMMIT")
            if self.cursor.statusmessage != "COMMIT":
                raise RecordingError(f"a commit was answered {self.cursor.statusmessage}")
        self.before = self.begin

    def rollback(self) -> None:
        if not self.before:
            self.send("ROLLBACK")
        self.before = self.begin


def fence(attempt: Attempt) -> None:
    attempt.get(FENCE)
    attempt.put(FENCE, None)


def sweep(keys: Sequence[str], attempt: Attempt) -> None:
    for key, (value, source) in attempt.store.read_all(keys).items():
        attempt.note(key, value, source)


class Client:
    """One session. `committed` counts its workload's transactions, for others to see."""

    def __init__(self, connection: Connection, session: int, committed: Any) -> None:
        self.connection, self.session, self.committed = connection, session, committed
        self.number = 0
        self.blind: set[str] = set()  # keys written without being read, since the last meeting
        self.records: list[Any] = []  # with the times of their commits; None where clients met

    def run(self, body: Callable[[Any], None], is_own: bool = False) -> None:
        """Runs a transaction, again and again until it commits."""
        while True:
            attempt = Attempt(self.connection, self.session, self.number)
            self.number += 1
            try:
                body(attempt)
                self.connection.commit()
            except CONFLICTS:
                self.connection.rollback()
                continue
            record = attempt.record(is_own)
            self.records.append((time.monotonic_ns(), record))
            if not is_own:
                written = {one if isinstance(one, str) else one[0] for one in record.writes}
                self.blind |= written - {read[0] for read in record.reads}
                self.committed.value += 1
            return

    def meet(self, fences: Any, meeting: Any) -> None:
        with fences:
            self.run(fence, True)
        meeting.wait()
        with fences:
            self.run(fence, True)
        keys, self.blind = sorted(self.blind), set()
        for first in range(0, len(keys), MOST):
            its = keys[first : first + MOST]
            self.run(lambda attempt: sweep(its, attempt), True)
        self.records.append(None)
        meeting.wait()  # before somebody overwrites what others have to read


def client_process(task: dict[str, Any], shared: Any, failures: Any) -> None:
    """Runs some sessions, each in a thread, and leaves their records in a file."""
    signal.signal(signal.SIGINT, signal.SIG_IGN)  # a terminal's Ctrl-C is for the parent process
    fences, meeting, counts = shared

    def serve(session: int, clients: dict[int, Client]) -> None:
        try:
            client = Client(Connection(task["dsn"], task["level"]), session, counts[session])
            clients[session] = client
            workload, sessions = WORKLOADS[task["workload"]], task["sessions"]
            every = max(1, task["every"] // sessions)
            least = task["count"] // sessions  # the transactions that every session has
            all_ = dealt(workload, task["seed"], task["count"], sessions)
            its = itertools.islice(all_, session, None, sessions)
            for at, body in enumerate(its, 1):
                client.run(body)
                if at % every == 0 and at < least:
                    client.meet(fences, meeting)
        except threading.BrokenBarrierError:
            pass  # another one has failed
        except Exception as error:
            failures.put(f"session {session}: {type(error).__name__}: {error}".strip())
            meeting.abort()

    clients: dict[int, Client] = {}
    threads = [threading.Thread(target=serve, args=(session, clients), daemon=True)
               for session in task["own"]]
    for thread in threads:
        thread.start()
    for thread in threads:
        thread.join()
    with open(task["path"], "wb") as file:
        pickle.dump([(one.session, one.number, one.records) for one in clients.values()], file)


def fill(dsn: str, rows: dict[str, Any]) -> None:
    """Makes the table anew, with these rows and that of the fences."""
    connection = psycopg2.connect(dsn)
    try:
        connection.autocommit = True
        cursor = connection.cursor()
        cursor.execute(TABLE)
        rows = {**rows, FENCE: None}
        filled = [(key, text_of(key, value), -1, 0) for key, value in rows.items()]
        for first in range(0, len(filled), 1000):
            its = filled[first : first + 1000]
            places = ",".join(["(%s, %s, %s, %s)"] * len(its))
            cursor.execute(f"INSERT INTO field VALUES {places}", [*itertools.chain(*its)])
        cursor.execute("ANALYZE field")
    finally:
        connection.close()


def record(
    dsn: str,
    workload: str,
    level: str,
    count: int,
    sessions: int,
    seed: int = 1,
    every: int = 960,
    tell: Callable[[int, float], None] = lambda committed, seconds: None,
) -> History:
    """Records this many transactions. `tell` is called now and then with how many have committed,
    and for how long it has run. Raises RecordingError, and psycopg2's errors."""
    fill(dsn, WORKLOADS[workload].rows())
    spawned = multiprocessing.get_context("spawn")
    counts = [spawned.Value("L", 0, lock=False) for _ in range(sessions)]
    shared = (spawned.Lock(), spawned.Barrier(sessions), counts)
    failures = spawned.SimpleQueue()
    task = dict(dsn=dsn, workload=workload, level=level, count=count, sessions=sessions, seed=seed,
                every=every)
    began = time.monotonic()
    with tempfile.TemporaryDirectory(prefix="zanteyard-") as folder:
        processes = []
        for at in range(min(PROCESSES, sessions)):
            own = [*range(at, sessions, PROCESSES)]
            task = {**task, "own": own, "path": f"{folder}/{at}"}
            processes.append(spawned.Process(
                target=client_process, args=(task, shared, failures), daemon=True))
        try:
            for process in processes:
                process.start()
            while any(process.is_alive() for process in processes):
                next(each for each in processes if each.is_alive()).join(LOOKS)
                tell(sum(one.value for one in counts), time.monotonic() - began)
        finally:
            for process in processes:
                if process.is_alive():
                    process.terminate()
        if not failures.empty():
            raise RecordingError(failures.get())
        if any(process.exitcode for process in processes):
            raise RecordingError("a process of clients ended without a message")
        logs = []
        for at in range(len(processes)):
            with open(f"{folder}/{at}", "rb") as file:
                logs += pickle.load(file)
    seconds = time.monotonic() - began
    attempts = sum(number for _, number, _ in logs)
    records = [*merged([its for _, _, its in logs])]
    aborted = attempts - sum(each is not None for each in records)
    return History(workload, level, sessions, count, seed, aborted, round(seconds, 1), records)


def merged(logs: Sequence[list[Any]]) -> Iterator[Record | None]:
    """All sessions' records between two meetings, by the times of their commits."""
    waiting = [collections.deque(its) for its in logs]
    while any(waiting):
        part, met = [], False
        for its in waiting:
            while its and its[0] is not None:
                part.append(its.popleft())
            if its:
                its.popleft()
                met = True
        part.sort(key=lambda each: each[0])
        yield from (each for _, each in part)
        if met:
            yield None
