"""Keys of a Redis as a store. Each key's text is a mark and then, as JSON, the value and its
writer's name; the value null marks a deleted key.

A transaction's writes are queued by MULTI and executed by EXEC, which does nothing if a watched key
has changed. Each store has a key of its own, which it watches when a transaction begins and writes
in the same EXEC: it says what was committed last. To find out an unknown outcome, it is written
there that the attempt was aborted, which prevents a late EXEC.
"""

import json
import logging
import secrets
import socket
import time
from collections.abc import Sequence
from typing import Any

import redis

from ._commit_status import CommitStatus
from ..core._records import Name, StoredValue
from ._redis_wire import BROKEN, Command, answers, connected, limit, replies
from ._shown import name_of, value_of
from ..core._store_identity import UNSURE, StoreIdentity
from ..core.errors import AbortedError, NameTakenError, OutcomeUnknownError, StoreUnfitError
from .levels import COMPARED, SINGLE, WATCHED, checked_level

PREFIX = "zanteyard:"  # before each key
RUN = "zanteyard run "  # before a run's name: the key with its owner
LAST = "zanteyard last "  # before a store's token: the key with its outcomes
STORE = "zanteyard store"  # the key that identifies this Redis, database and prefix
PATIENCE = 5.0  # seconds for a connection, and for an outcome
MARK = "zanteyard "  # before each text; other programs' values lack it
BARRED = redis.exceptions.NoPermissionError
logger = logging.getLogger("zanteyard")


def text_of(value: object, name: Name) -> str:
    """Raises ValueError or TypeError if JSON has no such value, or would change it."""
    text = json.dumps([value, *name])
    if value is not None and not isinstance(value, str) and json.loads(text)[0] != value:
        raise ValueError(f"{value!r} would be another value as JSON")
    return MARK + text


def shown(command: Command) -> str:
    """A command as it is shown, with the value in quotes."""
    words = [str(command[0]), *(name_of(str(each)) for each in command[1:])]
    if command[0] == "SET":
        words[2] = value_of(str(command[2]))
    return " ".join(words)


def found_in(text: str | None) -> StoredValue | None:
    """The value and name in a text. A text that no store of this kind has written has no name, and
    is a value as a whole."""
    if text is None:
        return None
    if text.startswith(MARK):
        try:
            value, run, session, number = json.loads(text[len(MARK) :])
        except (ValueError, TypeError):
            pass
        else:
            if (type(run), type(session), type(number)) == (str, int, int):
                return value, (run, session, number)
    return text, None  # type: ignore[return-value]


def _place(connection: Any) -> str:
    """Where it is, for people."""
    path = getattr(connection, "path", None)
    return f"at {path}" if path else f"at {connection.host}:{connection.port}"


class RedisStore:
    """One connection, for one thread at a time. `url` is redis-py's, including the database;
    `level` is one of Redis's in `levels.py`. A connection, and the collector's own statement, may
    take `patience` seconds."""

    errors = (redis.RedisError, ConnectionError)

    def __init__(
        self,
        url: str,
        level: str = WATCHED,
        prefix: str = PREFIX,
        patience: float = PATIENCE,
    ) -> None:
        checked_level("redis", level)
        self.url, self.level, self.prefix, self.patience = url, level, prefix, patience
        self.connection: Any = None
        self.statement: str | None = None
        self.own, self.count = f"{prefix}{LAST}{secrets.token_hex(8)}", 0
        self._identity: StoreIdentity | None = None  # of the Redis that is connected
        self.token: str | None = None  # found there under STORE
        self.seen: dict[str, str | None] = {}  # what was read, by key
        self.queued: list[Command] = []
        self.is_alone = self.is_hung_up = False
        self.ends = 0.0  # time limit of the collector's own statement
        # Of the transaction: whether something of it was done by itself, and whether it was done in
        # part.
        self.has_failed = self.is_torn = False

    # the connection

    def connect(self, seconds: float | None = None) -> None:
        """Opens the connection. Raises redis-py's errors, and StoreUnfitError if the server may
        drop any key."""
        self.is_hung_up = False
        waits = self.patience if seconds is None else seconds
        ends = time.monotonic() + waits
        connection = self.connected(waits)
        try:
            limit(connection, ends)
            self.look_at_it(connection)
            limit(connection)
        except BaseException:
            connection.disconnect()
            raise
        self.connection = connection

    def connected(self, seconds: float) -> Any:
        # Bytes that aren't UTF-8, which another program may have written, become a text, too.
        """A new connection, made within this many seconds."""
        more: dict[str, Any] = {"decode_responses": True, "encoding_errors": "surrogateescape"}
        return connected(self.url, seconds, **more)

    def look_at_it(self, connection: Any) -> None:
        """Checks, in one round trip, which Redis it is and that it drops nothing. A Redis that has
        lost its data, for example by a restart, gets its identity back from a store that knows it:
        what is missing then are lost writes, not another store."""
        key, mine = f"{self.prefix}{STORE}", self.token or secrets.token_hex(8)
        asked: list[Command] = [("INFO", "memory"), ("SET", key, mine, "NX"), ("GET", key)]
        memory, done, told = answers(connection, asked)
        self.see_that_nothing_is_dropped(memory)
        is_barred = isinstance(told, BARRED) or (told is None and isinstance(done, BARRED))
        self._identity = None if is_barred else UNSURE
        if isinstance(told, str):
            self.token, number = told, getattr(connection, "db", 0)
            where = f"database {number} of the Redis {_place(connection)}"
            shown = f"{where}, prefix {self.prefix!r} (store {told})"
            self._identity = StoreIdentity(f"redis {told} {number} {self.prefix}", shown)

    def identity(self) -> StoreIdentity | None:
        """From a key that is written once, and stays when the server restarts or is replaced. None
        without permission to write or read it."""
        if self.is_hung_up:
            self.close()
        if self.connection is None:
            self.connect()
        return self._identity

    def see_that_nothing_is_dropped(self, text: Any) -> None:
        """Raises StoreUnfitError if the server may drop keys to make room."""
        if not isinstance(text, str):
            logger.warning("can't see whether this Redis evicts keys: %s", text)
            return
        figures = dict(line.split(":", 1) for line in text.splitlines() if ":" in line)
        policy = figures.get("maxmemory_policy", "noeviction")
        if figures.get("maxmemory", "0") != "0" and policy.startswith("allkeys"):
            raise StoreUnfitError(
                f"this Redis evicts keys if memory is short ({policy}), along with their writers' "
                "names: an evicted key would be reported as a lost write"
            )

    def send(self, *commands: Command) -> list[Any]:
        """Sends commands; all commands of a transaction pass through here. Each call is one round
        trip. It never opens a connection, since what the old one watched would be forgotten."""
        connection = self.connection
        if connection is None:
            raise redis.ConnectionError("the connection was lost")
        try:
            return replies(connection, commands)
        except redis.ResponseError:
            raise
        except BaseException:  # later answers would belong to nobody
            self.close()
            raise

    def told(self, *commands: Command) -> None:
        """Keeps the text of these commands, to be shown with a violation."""
        self.statement = "; ".join(map(shown, commands))

    # what sessions call

    def begin(self) -> None:
        self.get_ready()
        self.is_alone = False
        try:
            self.watch_own()
        except BROKEN:
            if self.is_hung_up:
                raise
            self.connect()  # it had been idle for too long, so nothing has begun
            self.watch_own()

    def watch_own(self) -> None:
        """Watches the store's own key, and nothing else any more."""
        self.sent_in_time(("UNWATCH",), ("WATCH", self.own))

    def get_ready(self, seconds: float | None = None) -> None:
        """Connects, if necessary, within this many seconds, for a transaction."""
        if self.is_hung_up:
            self.close()
        if self.connection is None:
            self.connect(seconds)
        self.count += 1
        self.seen, self.queued = {}, []
        self.has_failed = self.is_torn = False

    def begin_alone(self, seconds: float) -> None:
        """Replaces `begin` for statements that are transactions by themselves. No answer is awaited
        longer than this many seconds."""
        waits = min(seconds, self.patience)
        self.ends = time.monotonic() + waits
        self.get_ready(waits)
        self.is_alone = True

    def its(self, key: str) -> str:
        """The key as the server has it. Raises UnicodeEncodeError if it can't be encoded: it might
        be sent as another key's bytes."""
        key.encode()
        return self.prefix + key

    def read(self, key: str) -> StoredValue | None:
        return self.read_all([key]).get(key)

    def read_all(self, keys: Sequence[str]) -> dict[str, StoredValue]:
        if not keys:
            return {}
        full_keys = [self.its(key) for key in keys]
        commands: list[Command] = (
            [("MGET", *full_keys)] if len(full_keys) > 1 else [("GET", *full_keys)]
        )
        if self.level == WATCHED and not self.is_alone:
            commands.insert(0, ("WATCH", *full_keys))  # first: it notices a change in between
        texts = self.texts_of(full_keys, commands)
        self.told(*commands)
        if not self.is_alone:
            self.seen.update(zip(keys, texts))
        values = {key: found_in(text) for key, text in zip(keys, texts)}
        return {key: value for key, value in values.items() if value is not None}

    def texts_of(
        self, full_keys: Sequence[str], commands: Sequence[Command]
    ) -> list[str | None]:
        """The answer to the last command. MGET hides values that aren't strings, such as lists; the
        GETs that follow raise an error for them, as reading a single key does."""
        answer = self.asked(commands)[-1]
        if len(full_keys) == 1:
            return [answer]
        texts: list[str | None] = answer
        absent = [("GET", each) for each, text in zip(full_keys, texts) if text is None]
        if absent:
            self.asked(absent)
        return texts

    def asked(self, commands: Sequence[Command]) -> list[Any]:
        """Sends commands. If a transaction's connection is lost, it can't be committed any more."""
        try:
            return self.sent_in_time(*commands)
        except BROKEN as error:
            if self.is_alone:
                raise OutcomeUnknownError(str(error)) from error
            raise

    def sent_in_time(self, *commands: Command) -> list[Any]:
        """Sends commands with a time limit; afterwards the application's own limit applies
        again."""
        if not self.is_alone:
            return self.send(*commands)
        limit(self.connection, self.ends)
        try:
            return self.send(*commands)
        finally:
            limit(self.connection)

    def write(self, key: str, value: object, name: Name) -> None:
        command = ("SET", self.its(key), text_of(value, name))
        self.told(command)
        if self.level == SINGLE:
            self.sent_by_itself(command)
        else:
            self.queued.append(command)

    def sent_by_itself(self, command: Command) -> Any:
        """Sends a command that is a transaction by itself. Without an answer, nobody knows whether
        it was done."""
        try:
            return self.send(command)[0]
        except BROKEN as error:
            raise OutcomeUnknownError(str(error)) from error

    def exchange(self, key: str, value: object, name: Name) -> StoredValue | None:
        """In a transaction the key is watched, at every level except "single commands"."""
        full_key = self.its(key)
        command = ("SET", full_key, text_of(value, name), "GET")
        if self.is_alone:
            return self.exchanged_alone(command)
        if self.level == SINGLE:
            text = self.sent_by_itself(command)
            self.told(command)
            return found_in(text)
        text = self.send(("WATCH", full_key), ("GET", full_key))[-1]
        self.told(("WATCH", full_key), ("GET", full_key))
        self.seen[key] = text
        self.queued.append(command[:-1])
        return found_in(text)

    def exchanged_alone(self, command: Command) -> StoredValue | None:
        """What an exchange without a transaction returned."""
        try:
            self.watch_own()
        except BROKEN as error:
            raise AbortedError(str(error)) from error  # nothing was sent that changes anything
        answers = self.executed([command])
        self.told(command)
        return found_in(answers[0])

    def commit(self) -> None:
        if self.is_alone or self.level == SINGLE:
            return  # nothing is open
        if self.connection is None:
            raise AbortedError("the connection was lost before the commit was sent")
        if self.level == COMPARED and self.queued:
            self.compare()
        if self.queued or self.level == WATCHED:
            try:
                self.executed(self.queued)
            except redis.ResponseError as error:
                raise AbortedError(str(error)) from error  # nothing was done

    def compare(self) -> None:
        """Raises AbortedError if something that was read has changed since."""
        keys = [
            key
            for key in self.seen
            if any(command[1] == self.prefix + key for command in self.queued)
        ]
        if keys:
            full_keys = [self.prefix + key for key in keys]
            texts = self.send(("WATCH", *full_keys), ("MGET", *full_keys))[-1]
            if texts != [self.seen[key] for key in keys]:
                raise AbortedError("a key that was read and is to be written has changed")

    def executed(self, commands: Sequence[Command]) -> list[Any]:
        """The answer to each command. Raises AbortedError if a watched key has changed, and
        redis-py's ResponseError if the server has refused the whole."""
        own = [("SET", self.own, f"{self.count} committed")] if commands else []
        try:
            answers = self.send_exec([("MULTI",), *commands, *own, ("EXEC",)])
        except BROKEN as error:
            raise OutcomeUnknownError(str(error)) from error
        if answers is None:
            raise AbortedError("a key that was watched has changed")
        failed = [answer for answer in answers if isinstance(answer, Exception)]
        if failed:  # the others were done: Redis undoes nothing
            self.is_torn = True
            raise OutcomeUnknownError(
                f"{len(failed)} of {len(answers)} commands failed: {failed[0]}"
            )
        return list(answers)

    def send_exec(self, commands: Sequence[Command]) -> Any:
        """Sends the transaction's commands, and waits for their answers."""
        return self.sent_in_time(*commands)[-1]

    def rollback(self) -> None:
        """Drops what is only queued, and was never sent. What was done at once stays."""
        self.queued = []

    def close(self) -> None:
        """Closes the connection; the next transaction opens a new one. May be called twice."""
        connection, self.connection = self.connection, None
        if connection is not None:
            connection.disconnect()

    def hang_up(self) -> None:
        """Makes a call that is waiting for the server raise OutcomeUnknownError or redis-py's error
        at once. The next transaction opens a new connection. May be called from any thread."""
        connection, self.is_hung_up = self.connection, True
        try:
            connection._sock.shutdown(socket.SHUT_RDWR)
        except (AttributeError, OSError):
            pass  # none is open

    def outcome(self) -> str:
        return self.outcome_within(self.patience)

    def outcome_within(self, seconds: float) -> str:
        """Asks over a connection of its own, since the current one may be broken."""
        if self.is_torn or self.level == SINGLE and not self.is_alone:
            return "unknown"
        ends = time.monotonic() + seconds
        try:
            connection = self.connected(seconds)
            limit(connection, ends)
            try:
                return self.decided(connection)
            finally:
                connection.disconnect()
        except (redis.RedisError, OSError):
            return "unknown"

    def decided(self, connection: Any) -> str:
        """The outcome in the store's own key, into which it writes "aborted" unless the outcome is
        already there."""
        which = f"{self.prefix}{STORE}"
        asked = [("WATCH", self.own), ("GET", self.own), ("GET", which)]
        _, text, token = replies(connection, asked)
        if self.token is not None and token != self.token:
            return "unknown"  # another Redis, or one that has lost its data
        count, _, outcome = (text or "0 ").partition(" ")
        if int(count) == self.count:
            return str(outcome)
        aborted = ("SET", self.own, f"{self.count} aborted")
        *_, done = replies(connection, [("MULTI",), aborted, ("EXEC",)])
        return "unknown" if done is None else "aborted"

    @property
    def writes_at_once(self) -> bool:
        return self.level == SINGLE

    def asks(self) -> Any:
        return ("redis", self.url, self.prefix, self.own)

    def ticket(self, written: Sequence[object]) -> Any:
        its = (self.count, self.token)
        return None if self.level == SINGLE and not self.is_alone else its

    def claim(self, run_name: str, token: str, seconds: float) -> None:
        """Reserves the name for one run. Raises NameTakenError if it belongs to another run, and
        OutcomeUnknownError if the server doesn't answer within this many seconds."""
        self.begin_alone(seconds)
        full_key = f"{self.prefix}{RUN}{run_name}"
        *_, owner = self.asked([("SET", full_key, token, "NX"), ("GET", full_key)])
        if owner != token:
            raise NameTakenError(f"{self.prefix} has the name {run_name} from an earlier run")


def asked(url: str, prefix: str, own: str, *, ticket: Any, seconds: float) -> CommitStatus:
    """The outcome of a transaction whose client process was killed. What a single-statement
    `exchange` has overwritten isn't known."""
    store = RedisStore(url, prefix=prefix, patience=seconds)
    store.own, (store.count, store.token) = own, ticket
    return store.outcome_within(seconds), None
