"""A plain checker of what reports show: orders, and refutations as docs/FORMATS.md defines them.

Each check raises Wrong, with a sentence, if something doesn't hold.
"""
from plain_verdicts import INIT, Wrong

DEEPEST = 4096  # nested nodes of a tree: splits, and runs of forced sides


def check_order(parts, order):
    """Every remaining transaction occurs once, each session's in order; each read sees the last
    writer before it, or names a transaction that hasn't arrived."""
    next_of, last = list(parts.gone), dict(parts.base)
    for entry in order:
        session, number = pair(entry)
        if session >= len(next_of) or next_of[session] != number:
            raise Wrong(f"{session}.{number} stands out of its session's order")
        next_of[session] += 1
        txn = parts.get((session, number))
        if txn is None:
            raise Wrong(f"{session}.{number} doesn't remain")
        for key, source in txn[0]:
            met = last.get(key, INIT)
            if source != met and not parts.is_pending(source):
                raise Wrong(f"{session}.{number} reads key {key} from {source} and meets {met}")
        last.update((key, (session, number)) for key in txn[1])
    if next_of != parts.received():
        raise Wrong("the order lacks a transaction")


def check_tree(parts, items, is_handed_in=False):
    """Each split has both its parts, each part its end, and what is forced is forced by a cycle.
    The auditor's own cycles begin with the fact that is ruled out; one that is handed in
    needn't."""
    if not isinstance(items, list):
        raise Wrong("the tree is no list")
    waiting = [(frozenset(), 0, False)]  # what is taken, how many nodes are above, whether forced
    for item in items:
        if not waiting:
            raise Wrong(f"{item} stands behind the end")
        (taken, above, is_forced), name = waiting.pop(), named(item)
        if name == "force" and len(item) == 4:
            taken = _forced(parts, taken, *item[1:], is_handed_in)
            waiting.append((taken, above if is_forced else above + 1, True))
        elif name == "split" and len(item) == 2:
            first, second = sides(parts, item[1])
            waiting += [(taken | {side}, above + 1, False) for side in (second, first)]
        else:
            _check_end(parts, taken, item, name)
        if above > DEEPEST or waiting and waiting[-1][1] > DEEPEST:
            raise Wrong(f"more than {DEEPEST} nodes stand above one another")
    if waiting:
        raise Wrong("a part of the argument has no end")


def _forced(parts, taken, choice, side, cycle, is_handed_in):
    """What is taken after a forced side. The fact that it rules out is the first arc of its cycle,
    unless it is handed in: a taken arc, or the arc that the reads imply, too."""
    both = sides(parts, choice)
    if type(side) is not int or side not in (1, 2):
        raise Wrong(f"{side} is no side")
    taken_side, ruled_out = both[side - 1], both[2 - side]
    if not is_handed_in and (not cycle or ends(cycle[0]) != ruled_out):
        raise Wrong(f"the cycle of {choice} doesn't begin with the fact that it rules out")
    check_cycle(parts, taken | {ruled_out}, cycle)
    return taken | {taken_side}


def _check_end(parts, taken, item, name):
    if name == "cycle" and len(item) == 2:
        check_cycle(parts, taken, item[1])
    elif name in ("nowrite", "gone") and len(item) == 4:
        session, number, key = numbers(item[1:])
        txn = parts.get((session, number))
        reads = [source for at, source in txn[0] if at == key] if txn else []
        if not any(_is_such(parts, name, key, source) for source in reads):
            raise Wrong(f"{item}: there is no such read")
    else:
        raise Wrong(f"{item} is no item of a tree")


def _is_such(parts, name, key, source):
    if name == "gone":
        is_past = source == INIT or parts.is_gone(source)
        return is_past and source != parts.source_before(key)
    writer = parts.get(source)
    return writer is not None and key not in writer[1]


def check_cycle(parts, taken, arcs):
    """Right arcs, each beginning where the previous one ends, and the first where the last ends."""
    if not isinstance(arcs, list) or not arcs:
        raise Wrong("a cycle has no arcs")
    end = ends(arcs[-1])[1]
    for arc in arcs:
        before, after = ends(arc)
        if before != end:
            raise Wrong(f"{arc} doesn't begin where the arc in front of it ends")
        if not is_right(parts, taken, arc, before, after):
            raise Wrong(f"{arc} isn't right")
        end = after


def is_right(parts, taken, arc, before, after):
    """Whether the first of these two has to come before the second, as the arc says."""
    name, first, second = arc[0], parts.get(before), parts.get(after)
    if first is None or second is None:
        return False
    if name == "session":
        return len(arc) == 5 and before[0] == after[0] and before[1] < after[1]
    if name == "taken":
        return len(arc) == 5 and (before, after) in taken
    if len(arc) != 6 or before == after:
        return False
    key = arc[1]
    if name == "read":
        return (key, before) in second[0] and key in first[1]
    return name == "base" and (key, parts.source_before(key)) in first[0] and key in second[1]


def sides(parts, choice):
    """The facts of the two sides of a choice."""
    rs, rn, key, ws, wn, os, on = numbers(choice, 7)
    reader, writer, other = (rs, rn), (ws, wn), (os, on)
    txns = [parts.get(txn) for txn in (reader, writer, other)]
    if None in txns or other in (reader, writer):
        raise Wrong(f"{choice} is no choice")
    if (key, writer) not in txns[0][0] or key not in txns[1][1] or key not in txns[2][1]:
        raise Wrong(f"{choice} is no choice")
    return (other, writer), (reader, other)


def named(item):
    """The word with which a list begins."""
    if not isinstance(item, list) or not item or not isinstance(item[0], str):
        raise Wrong(f"{item} isn't a list that begins with a word")
    return item[0]


def numbers(entry, count=None):
    """A list of this many whole numbers."""
    if not isinstance(entry, list) or any(type(number) is not int for number in entry):
        raise Wrong(f"{entry} isn't a list of whole numbers")
    if count is not None and len(entry) != count:
        raise Wrong(f"{entry} hasn't {count} numbers")
    return entry


def pair(entry):
    return tuple(numbers(entry, 2))


def ends(arc):
    """The two transactions of an arc."""
    named(arc)
    fs, fn, ts, tn = numbers(arc[-4:], 4)
    return (fs, fn), (ts, tn)
