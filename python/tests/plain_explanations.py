"""Checks an Explanation against its history without knowing how it was made: each cycle has to
consist of arcs that hold there, by sessions, reads, times, and the cases above it."""


class Wrong(Exception):
    """What doesn't hold."""


def owed(holds, what):
    if not holds:
        raise Wrong(what)


class Check:
    """Checks explanations of one history, whose transactions begin and commit separately, or are
    one event each."""

    def __init__(self, history, is_split=False):
        self.is_split = is_split
        self.txns = {
            (session, number): logged
            for session, txns in enumerate(history)
            for number, logged in enumerate(txns)
        }
        self.seen = {}  # arcs that hold, and under which assumptions

    def explanation(self, it, assumed=()):
        """Raises Wrong unless the explanation refutes the history under these assumptions."""
        if it.cases:
            first, second = (case.arc for case in it.cases)
            owed(first.choice == second.choice, "the cases are of two choices")
            sides = self.sides(first.choice)
            owed((plain(first.ends), plain(second.ends)) == sides, "the cases aren't the two sides")
            for case, side in zip(it.cases, sides):
                self.explanation(case.explanation, (*assumed, side))
        elif it.arcs:
            self.path(it.arcs, it.arcs[0].start, it.arcs[0].start, assumed)
            owed(len(it.circle) == len(it.arcs) + 1, "the circle has other names")
        else:
            owed(self.has_wrong_read(it.end), f"no such read: {it.end}")

    def path(self, arcs, start, end, assumed):
        owed(arcs, "no arcs")
        at = plain(start)
        for arc in arcs:
            owed(plain(arc.start) == at, f"{arc.told} doesn't begin where the one before it ends")
            self.arc(arc, assumed)
            at = plain(arc.end)
        owed(at == plain(end), f"{arcs[-1].told} doesn't lead on")

    def arc(self, arc, assumed):
        if self.seen.get(id(arc)) == (arc, assumed):
            return
        start, end = plain(arc.ends)
        if arc.choice is not None and not arc.needs:
            owed((start, end) in assumed, f"{arc.told} isn't assumed here")
        elif arc.choice is not None:
            self.forced(arc, assumed)
        else:
            owed(self.holds(arc, start, end), f"{arc.told} doesn't hold: {arc.why}")
        for node in arc.ends:
            owed(".".join(map(str, txn_of(plain(node)))) in arc.told, f"{arc.told}: another arc")
        self.seen[id(arc)] = arc, assumed

    def holds(self, arc, start, end):
        """Whether the arc holds by sessions, reads and times only."""
        first, second = self.txns[txn_of(start)], self.txns[txn_of(end)]
        if arc.kind == "session":
            return txn_of(start)[0] == txn_of(end)[0] and self.when(start) < self.when(end)
        if arc.kind == "time":
            later = first.span[1] is not None and first.span[1] < second.span[0]
            return later and self.is_between(start, end, "commit", "begin")
        named = f" {arc.key} " in f"{arc.why} " and arc.key
        if arc.kind == "read":
            did = (arc.key, txn_of(start)) in [*second.reads] and arc.key in first.writes
            return named and did and self.is_between(start, end, "commit", "begin")
        did = (arc.key, "init") in [*first.reads] and arc.key in second.writes
        apart = txn_of(start) != txn_of(end)
        return named and did and apart and self.is_between(start, end, "begin", "commit")

    def is_between(self, start, end, first, second):
        return not self.is_split or (start[2], end[2]) == (first, second)

    def when(self, node):
        return node[1], node[2:] == ("commit",)

    def forced(self, arc, assumed):
        """Checks one side of a choice, of which a path rules the other side out."""
        sides = self.sides(arc.choice)
        start, end = plain(arc.ends)
        owed((start, end) in sides, f"{arc.told} is no side of its choice")
        other_start, other_end = sides[(start, end) == sides[0]]
        last = plain(arc.needs[-1].end)
        if start[2:] == ("commit",) and end[2:] == ("begin",) and last[2:] == ("commit",):
            # of two writers one commits before the other begins: so it does if it begins before the
            # other one commits
            other_start = (*other_start[:2], "commit")
        self.path(arc.needs, other_end, other_start, assumed)

    def sides(self, choice):
        reader, writer, other = map(plain, (choice.reader, choice.writer, choice.other))
        key, did = choice.key, [self.txns[txn_of(node)] for node in (reader, writer, other)]
        owed(key in did[1].writes and key in did[2].writes, f"{choice}: who wrote the key?")
        owed(other not in (reader, writer), f"{choice}: between which?")
        if self.is_split and reader[2] == "commit":
            events = [node[2] for node in (reader, writer, other)]
            owed(events == ["commit", "begin", "begin"], f"{choice}: other events")
            owed(txn_of(reader) == txn_of(writer), f"{choice}: of other transactions")
        else:
            owed((key, txn_of(writer)) in [*did[0].reads], f"{choice}: no such read")
            events = [node[2:] for node in (reader, writer, other)]
            wanted = [("begin",), ("commit",), ("commit",)] if self.is_split else [()] * 3
            owed(events == wanted, f"{choice}: other events")
        return (other, writer), (reader, other)

    def has_wrong_read(self, said):
        """Whether the explanation names a wrong read, in any words."""
        return any(
            all(f" {it} " in f" {said.replace(',', ' ')} " for it in (key, name(id), name(source)))
            for id, logged in self.txns.items()
            for key, source in logged.reads
            if source in self.txns and key not in self.txns[source].writes
        )


def name(id):
    return f"{id[0]}.{id[1]}"


def plain(it):
    """A node, or the ends of an arc, as plain tuples: session, number, and the event, if there is
    one."""
    if hasattr(it, "what"):
        return (*it.id, it.what)
    return tuple(map(plain, it)) if isinstance(it[0], tuple) else tuple(it)


def txn_of(node):
    return node[:2]
