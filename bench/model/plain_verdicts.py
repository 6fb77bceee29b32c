"""Verdicts in plain Python: what holds in every order, whether there is one, and the right cut.

Written only from docs/DEFINITIONS.md and docs/FORMATS.md, never from the auditor's code. It is for
small remainders: rows of bits are Python's whole numbers, and a search copies them.

A transaction is a pair of its reads and the keys that it writes. A read is a pair of its key and
its source, which is an id (session, number), or INIT. What an auditor keeps is a `Parts`.
"""
from dataclasses import dataclass, field

INIT = (-1, -1)  # the initial state as a source: it comes before every id
YES, NO, SPENT = "yes", "no", "spent"


class Wrong(Exception):
    """Why a reply is wrong."""


@dataclass
class Parts:
    """What is kept of a history: for each session how many transactions are gone, those that
    remain, and whether it is closed; and for each key its last writer that is gone, if there is
    one."""

    gone: list
    remaining: list
    closed: list
    base: dict = field(default_factory=dict)

    def copy(self):
        """A copy for a round: what arrives later doesn't change it."""
        return Parts(list(self.gone), [list(txns) for txns in self.remaining], list(self.closed),
                     dict(self.base))

    def received(self):
        return [gone + len(txns) for gone, txns in zip(self.gone, self.remaining)]

    def is_received(self, txn):
        session, number = txn
        return session < len(self.gone) and number < self.gone[session] + len(
            self.remaining[session]
        )

    def is_gone(self, txn):
        return txn[0] < len(self.gone) and txn[1] < self.gone[txn[0]]

    def get(self, txn):
        """The remaining transaction with this id; None if there is none."""
        session, number = txn
        if not 0 <= session < len(self.gone):
            return None
        place = number - self.gone[session]
        return self.remaining[session][place] if 0 <= place < len(self.remaining[session]) else None

    def ids(self):
        """The ids of what remains, ascending."""
        return [
            (session, first + place)
            for session, (first, txns) in enumerate(zip(self.gone, self.remaining))
            for place in range(len(txns))
        ]

    def source_before(self, key):
        """What a read of the key finds before everything that remains."""
        return self.base.get(key, INIT)

    def is_pending(self, source):
        return source != INIT and not self.is_received(source)

    def has_pending(self):
        return any(
            self.is_pending(source)
            for txns in self.remaining
            for reads, _ in txns
            for _, source in reads
        )

    def is_bad(self, key, source):
        """Whether no order allows this read of a remaining transaction."""
        if source == INIT or self.is_gone(source):
            return source != self.source_before(key)
        writer = self.get(source)
        return writer is not None and key not in writer[1]

    def has_bad_read(self):
        return any(
            self.is_bad(key, source)
            for txns in self.remaining
            for reads, _ in txns
            for key, source in reads
        )


def is_fence(txn):
    """Whether it reads key 0 once, writes key 0, and does nothing else."""
    reads, writes = txn
    return len(reads) == 1 and reads[0][0] == 0 and writes == [0]


class Relation:
    """What is known to come before what (DEFINITIONS, "The known relation"): the least transitive
    relation with each session's order, writers before readers, readers of older versions before
    every other writer of the key, the sides taken, and for each choice the remaining side if the
    other one is ruled out."""

    def __init__(self, parts):
        self.ids = parts.ids()
        self.place = {txn: at for at, txn in enumerate(self.ids)}
        self.after, self.before = [0] * len(self.ids), [0] * len(self.ids)
        txns = [parts.get(txn) for txn in self.ids]
        writers = {}
        for me, (_, writes) in enumerate(txns):
            for key in writes:
                writers.setdefault(key, []).append(me)
        for me in range(1, len(self.ids)):
            if self.ids[me - 1][0] == self.ids[me][0]:
                self._add(me - 1, me)
        # Reader, writer read from, other writer, key; in the order of choices.
        self.choices = []
        for me, (reads, _) in enumerate(txns):
            for key, source in reads:
                self._read(me, key, source, writers.get(key, ()), parts)
        self._saturate()

    def _read(self, me, key, source, writers, parts):
        if source == parts.source_before(key):
            for other in writers:
                if other != me:
                    self._add(me, other)
        elif source in self.place and self.place[source] in writers:
            writer = self.place[source]
            self._add(writer, me)
            self.choices += [(me, writer, other, key) for other in writers
                             if other not in (me, writer)]

    def _add(self, a, b):
        """Adds that one comes before the other, with everything that follows by transitivity."""
        if self.after[a] >> b & 1:
            return
        sources, targets = self.before[a] | 1 << a, self.after[b] | 1 << b
        for x in bits(sources):
            self.after[x] |= targets
        for x in bits(targets):
            self.before[x] |= sources

    def _saturate(self):
        left, changed = self.choices, True
        while changed:
            changed, still = False, []
            for choice in left:
                reader, writer, other, _ = choice
                if self.after[writer] >> other & 1:  # side 1 is ruled out
                    changed = changed or not self.after[reader] >> other & 1
                    self._add(reader, other)
                if self.after[other] >> reader & 1:  # side 2 is ruled out
                    changed = changed or not self.after[other] >> writer & 1
                    self._add(other, writer)
                if self._is_open(choice):
                    still.append(choice)
                elif not self.after[other] >> writer & 1 or not self.after[reader] >> other & 1:
                    still.append(choice)  # the other side may still be ruled out
            left = still

    def _is_open(self, choice):
        """Whether neither side is known or ruled out."""
        reader, writer, other, _ = choice
        return not (
            self.after[other] >> writer & 1
            or self.after[reader] >> other & 1
            or self.after[writer] >> other & 1
            or self.after[other] >> reader & 1
        )

    def open_choices(self):
        return [choice for choice in self.choices if self._is_open(choice)]

    def has_cycle(self):
        return any(row >> x & 1 for x, row in enumerate(self.after))

    def with_side(self, choice, side):
        """The relation with this side taken, too."""
        reader, writer, other, _ = choice
        taken = object.__new__(Relation)
        taken.ids, taken.place, taken.choices = self.ids, self.place, self.choices
        taken.after, taken.before = list(self.after), list(self.before)
        taken._add(*((other, writer) if side == 1 else (reader, other)))
        taken._saturate()
        return taken


def bits(word):
    """The places of the bits that are set."""
    while word:
        low = word & -word
        yield low.bit_length() - 1
        word ^= low


def scan(relation, is_bad, nodes):
    """What a search finds that may look at this many nodes, and how many are left (DEFINITIONS,
    `Scans`)."""
    if not nodes:
        return SPENT, 0
    nodes -= 1
    if is_bad or relation.has_cycle():
        return NO, nodes
    choices = relation.open_choices()
    if not choices:
        return YES, nodes
    found, nodes = scan(relation.with_side(choices[0], 1), is_bad, nodes)
    if found != NO:
        return found, nodes
    return scan(relation.with_side(choices[0], 2), is_bad, nodes)


def cubes(relation, depth):
    """The relations of the cubes, in order: each way of taking a side of the first open choices."""
    found = [relation]
    for choice in relation.open_choices()[:depth]:
        found = [cube.with_side(choice, side) for cube in found for side in (1, 2)]
    return found


def may_be_spent(parts, relation, budget, depth, most):
    """Whether the first search uses up this budget at this depth. A share of more than `most` nodes
    isn't searched here: then only the bound in DEFINITIONS (`MayBeSpent`) is checked."""
    open_ = len(relation.open_choices())
    split = min(depth, open_)
    if budget + (1 << split) >= 1 << (open_ + 1):
        return False
    share, is_bad, is_spent = budget >> split, parts.has_bad_read(), False
    for cube in cubes(relation, depth):
        found, _ = scan(cube, is_bad, min(share, most))
        if found == YES:
            return False
        is_spent = is_spent or found == SPENT
    return is_spent


def is_reached(start, last, end, nexts, most):
    """Whether a front is reached from another one and its last writers, by trial; None if more than
    this many fronts would have to be tried. `nexts` are those that may follow a front."""
    seen, waiting = set(), [(start, last)]
    while waiting:
        front, last = waiting.pop()
        if front == end:
            return True
        name = front, frozenset(last.items())
        if name in seen:
            continue
        seen.add(name)
        if len(seen) > most:
            return None
        waiting += nexts(front, last)
    return False


def has_order(parts, most):
    """Whether some order explains the parts; None if that would take too many trials."""
    if parts.has_bad_read():
        return False
    counts = tuple(map(len, parts.remaining))

    def nexts(front, last):
        for session, place in enumerate(front):
            if place == counts[session]:
                continue
            reads, writes = parts.remaining[session][place]
            if all(last.get(key, INIT) == source or parts.is_pending(source)
                   for key, source in reads):
                me = session, parts.gone[session] + place
                then = {**last, **dict.fromkeys(writes, me)}
                yield front[:session] + (place + 1,) + front[session + 1:], then

    return is_reached((0,) * len(counts), dict(parts.base), counts, nexts, most)


def cut_of(parts, relation):
    """The cut of the settled fence that comes after all other settled ones: the fence, what
    precedes it, ascending, and the last writers, by ascending keys; None if no fence is settled."""
    whole = (1 << len(relation.ids)) - 1
    settled = [
        me for me, txn in enumerate(relation.ids)
        if is_fence(parts.get(txn)) and _is_settled(parts, relation, me, whole)
    ]
    if not settled:
        return None
    fence = next(me for me in settled
                 if all(other == me or relation.after[other] >> me & 1 for other in settled))
    front = relation.before[fence] | 1 << fence
    last = {key: relation.ids[_last_in(relation, writers)]
            for key, writers in _writers_in(parts, relation, front).items()}
    gone = [relation.ids[x] for x in bits(front)]
    return relation.ids[fence], gone, [(key, *last[key]) for key in sorted(last)]


def _is_settled(parts, relation, fence, whole):
    ordered = relation.before[fence] | relation.after[fence] | 1 << fence
    if ordered != whole:
        return False
    past = {relation.ids[x][0] for x in bits(relation.after[fence] | 1 << fence)}
    if any(not closed and session not in past for session, closed in enumerate(parts.closed)):
        return False
    front = relation.before[fence] | 1 << fence
    for x in bits(front):
        if any(parts.is_pending(source) for _, source in parts.get(relation.ids[x])[0]):
            return False
    return all(_last_in(relation, writers) is not None
               for writers in _writers_in(parts, relation, front).values())


def _writers_in(parts, relation, front):
    """For each key that is written there, its writers."""
    writers = {}
    for x in bits(front):
        for key in parts.get(relation.ids[x])[1]:
            writers.setdefault(key, []).append(x)
    return writers


def _last_in(relation, writers):
    """The one that comes after all others, if there is one."""
    for x in writers:
        if all(other == x or relation.after[other] >> x & 1 for other in writers):
            return x
    return None
