"""What is logged and what is reported, as plain values."""

import marshal
from collections.abc import Callable, Iterable, Iterator, Mapping, Sequence
from typing import Any, NamedTuple, NewType

# A transaction: its session, and its number in that session. There are three numberings, not to be
# confused:
StoreId = NewType("StoreId", tuple[int, int])  # as in the names in the store: counts all that began
AuditId = NewType(
    "AuditId", tuple[int, int]
)  # as in lines and reports: from the beginning of the audit
ShownId = NewType("ShownId", tuple[int, int])  # in an explained history: from its own beginning
# The writer of the version that was read, in the numbering of its history; "init" for a version
# from before the run.
Source = Any
Read = tuple[str, Source]  # the name of a key, and the writer of the version that was read
Deed = Read | tuple[str]  # a read, or (key,) for a write
Name = tuple[str, int, int]  # stored next to a value: the run, the session, the number
StoredValue = tuple[Any, Name]  # a value, and the name stored next to it
Naming = Callable[[ShownId], str]  # how a transaction is shown
AuditNaming = Callable[[AuditId], str]
ABORTED = "aborted"  # an outcome; in a line it follows what the aborted attempt did
MOST = 256  # reads, or writes, that a line may list for one transaction
SESSIONS, NUMBERS = 64, 1 << 48  # what a transaction's name in a line must stay below


class Logged(NamedTuple):
    """What one transaction did. `outcome` is "committed", "aborted" or "unknown", or "forgotten"
    for an entry that stands for transactions that the auditor has forgotten.

    What an aborted attempt did has no effect. It isn't in `reads` and `writes`, but in
    `tried_reads` and `tried_writes`, as far as it is known.

    The other fields are for the explanation of a violation. `statements` are pairs of a deed and
    the statement that was run for it. `values` are triples of "read" or "wrote", a key, and the
    value as a short text. `began` is the time of day in seconds since 1970, 0 if unknown. `caller`
    is the file and line that began the transaction. `span` is its begin, its end (None if unknown),
    and the unit of that clock ("ns", or another word); it is empty if unknown. `from_before` is how
    many of `reads` are of versions that no transaction of the run wrote; these count as the keys'
    first state.
    """

    reads: Sequence[Read]
    writes: Sequence[str]
    outcome: str = "committed"
    statements: Sequence[tuple[Deed, str]] = ()
    values: Sequence[tuple[str, str, str]] = ()
    began: float = 0.0
    caller: str = ""
    tried_reads: Sequence[Read] = ()
    tried_writes: Sequence[str] = ()
    span: Sequence[Any] = ()
    from_before: int = 0

    @property
    def is_undone(self) -> bool:
        """Whether it is an aborted attempt that had done something."""
        return self.outcome == ABORTED and bool(self.tried_reads or self.tried_writes)

    @property
    def did(self) -> tuple[Sequence[Read], Sequence[str]]:
        """What it read and what it wrote, whether or not that had an effect."""
        if self.is_undone:
            return self.tried_reads, self.tried_writes
        return self.reads, self.writes


def undone(
    id: StoreId, reads: Iterable[Read], writes: Iterable[str], fence: str
) -> tuple[list[Read], list[str]]:
    """The reads and writes of an aborted attempt that a line may list. It had no effect, so the
    rest can be left out. Accesses to `fence`, the fences' key, are left out unless the attempt has
    the exact form of a fence."""
    did_read = sorted({read for read in reads if _may_be_told(id, read[1])}, key=repr)[:MOST]
    keys = sorted({*writes})
    keys = keys if len(keys) <= MOST else []
    is_fence = keys == [fence] and [key for key, _ in did_read] == [fence]
    if not is_fence:
        did_read = [read for read in did_read if read[0] != fence]
        keys = [key for key in keys if key != fence]
    return did_read, keys


def _may_be_told(id: StoreId, source: Source) -> bool:
    if source == "init":
        return True
    is_named = 0 <= source[0] < SESSIONS and 0 <= source[1] < NUMBERS
    return is_named and tuple(source) != id


def has_come(source: Source, received: Sequence[int]) -> bool:
    """Whether what a read names as its source is there, if `received` is how many transactions of
    each session are. Sessions that haven't joined have none."""
    if source == "init":
        return True
    session, number = source
    return session < len(received) and bool(number < received[session])


def never_came(history: "History", marks: Sequence[int] | None = None) -> Iterator["Pending"]:
    """The reads of a history that name transactions which aren't in it. `marks` are how many
    transactions of each session come before it."""
    marks = marks or [0] * len(history)
    received = [mark + len(txns) for mark, txns in zip(marks, history)]
    for session, txns in enumerate(history):
        for number, logged in enumerate(txns, marks[session]):
            for key, source in logged.reads:
                if not has_come(source, received):
                    yield Pending(AuditId((session, number)), key, source)


def as_bytes(logged: Logged) -> bytes:
    # Takes a third of pickle's time, and knows only plain values.
    plain: Any = tuple(logged)
    return marshal.dumps(plain)


def unpacked(packed: bytes) -> Logged:
    return Logged(*marshal.loads(packed))


class Report(NamedTuple):
    """What the program reports about a round. The certificate is an order if the kind is serial or
    pending, and the items of a refutation if it is violated."""

    number: int
    kind: str
    counts: Sequence[int]
    certificate: Any = None


class Pending(NamedTuple):
    """A read that names a transaction which never arrived."""

    reader: AuditId
    key: str
    source: AuditId


class Cut(NamedTuple):
    """The fence up to which the auditor has forgotten, and how many transactions that were."""

    fence: AuditId
    gone: int


History = list[list[Logged]]  # for each session what it did, in order
Transactions = Mapping[ShownId, Logged]
