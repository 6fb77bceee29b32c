"""Says why one transaction comes before another: by sessions, by reads, by time, or because the
opposite is impossible."""

from collections.abc import Sequence

from ..core._records import Naming, ShownId, Transactions
from ._arcs import (
    SESSION,
    Arc,
    ArcKind,
    Choice,
    Event,
    Node,
    is_of_writers,
    told_arc,
    told_later,
    told_node,
    transaction_of,
)
from ._words import told_undone, version

SELF = "a transaction begins before it commits"
ASSUMED = "assumed in this case"
# Why a transaction with this outcome can't be read from.
NO_WRITE = {
    "aborted": "which aborted",
    "unfinished": "which wrote more of it before it ended",
    "impossible": "which no write has left",
}


class ArcWords:
    """Makes arcs between these transactions; `name` names them."""

    def __init__(self, txns: Transactions, name: Naming) -> None:
        self.txns, self.name = txns, name

    def of(self, node: Node) -> str:
        return self.name(transaction_of(node))

    def _arc(self, start: Node, end: Node, why: str, kind: ArcKind, key: str = "") -> Arc:
        return Arc(start, end, why, (), kind, key, told=told_arc(start, end, self.name))

    def in_session(self, start: Node, end: Node) -> Arc:
        is_own = transaction_of(start) == transaction_of(end)
        return self._arc(start, end, SELF if is_own else SESSION, ArcKind.IN_SESSION)

    def in_time(self, start: Node, end: Node) -> Arc:
        first, second = transaction_of(start), transaction_of(end)
        names = self.name(first), self.name(second)
        why = told_later(self.txns[first], self.txns[second], names)
        return self._arc(start, end, why, ArcKind.IN_TIME)

    def read(self, key: str, start: Node, end: Node) -> Arc:
        if transaction_of(start) == transaction_of(end):  # between its own begin and commit
            return self.in_session(start, end)
        why = f"{self.of(end)} read {key} from {self.of(start)}"
        return self._arc(start, end, why, ArcKind.READ, key)

    def read_before_all(self, key: str, start: Node, end: Node) -> Arc:
        """The arc from a reader of the first version to a writer of the key."""
        read = f"{self.of(start)} read {key} {version(key, 'init', self.name)}"
        why = f"{read}, and {self.of(end)} wrote it"
        return self._arc(start, end, why, ArcKind.READ_BEFORE, key)

    def assumed(self, choice: Choice, side: int) -> Arc:
        """The arc of one side of a choice, assumed in one case of a split."""
        kind = ArcKind.READ_BEFORE if side == 2 and not is_of_writers(choice) else ArcKind.WRITTEN
        arc = self._arc(*choice.sides()[side - 1], ASSUMED, kind)
        return arc._replace(choice=choice)

    def forced(self, choice: Choice, side: int, needs: Sequence[Arc]) -> Arc:
        """The arc of one side of a choice, after `needs` have ruled the other side out."""
        arc = self.assumed(choice, side)
        return arc._replace(why=self._forced(choice, side), needs=tuple(needs))

    def _forced(self, choice: Choice, side: int) -> str:
        reader, writer, other = map(self.of, (choice.reader, choice.writer, choice.other))
        if is_of_writers(choice):
            order = f"{writer} begins before {other} does"
            if side == 1:
                order = f"{other} begins before {writer} commits"
            return f"both wrote {choice.key}, and {order}"
        read = f"{reader} read {choice.key} from {writer}, and {other}, which wrote it too,"
        if isinstance(choice.reader, Event):
            does = f"after {writer} does" if side == 2 else f"before {reader} begins"
            return f"{read} commits {does}"
        return f"{read} comes {f'after {writer}' if side == 2 else f'before {reader}'}"

    def after_own(self, first: Arc) -> Arc:
        """The arc for two writers of a key, of which one begins before the other: it also commits
        before the other begins. `first` says why it begins before."""
        choice = first.choice
        assert choice is not None
        start, end = transaction_of(first.start), transaction_of(first.end)
        before, after = Event(start, "commit"), Event(end, "begin")
        arc = self._arc(before, after, first.why, ArcKind.WRITTEN)
        other = Choice(before, choice.key, Event(start, "begin"), after)
        return arc._replace(needs=first.needs, choice=other)

    def between(self, choice: Choice) -> str:
        """Says which two possibilities a choice has."""
        first, second = (told_arc(*side, self.name) for side in choice.sides())
        if is_of_writers(choice):
            both = f"{self.of(choice.writer)} and {self.of(choice.other)} both wrote {choice.key}"
        else:
            read = f"{self.of(choice.reader)} read {choice.key} from {self.of(choice.writer)}"
            both = f"{read}, and {self.of(choice.other)} wrote it too"
        return f"either {first}, or {second}: {both}"

    def wrong_read(self, reader: ShownId, key: str, source: ShownId) -> str:
        """Says what is wrong with a read from a transaction that didn't write the key."""
        if key in self.txns[source].tried_writes:
            return told_undone(reader, key, source, self.name)
        why = NO_WRITE.get(self.txns[source].outcome, "which didn't write it")
        return f"{self.name(reader)} read {key} from {self.name(source)}, {why}"

    def step(self, node: Node) -> str:
        """The name of a step in a cycle."""
        if isinstance(node, Event):
            return f"{self.name(node.id)} {node.what}s"
        return self.name(ShownId(node))

    def none_first(self, around: Sequence[Arc]) -> str:
        """Says that none of a cycle's transactions can come first."""
        *others, last = (told_node(arc.start, self.name) for arc in around)
        if not others:
            return f"so {last} can't come first"
        if len(others) == 1:
            return f"so neither {others[0]} nor {last} can come first"
        return f"so none of {', '.join(others)} and {last} can come first"
