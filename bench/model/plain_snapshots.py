"""Snapshot isolation in plain Python: its definition, over begins and commits; and the two
transactions that an auditor of orders has in place of each.

Written only from docs/FORMATS.md and docs/DEFINITIONS.md, never from the auditor's code. A *half*
is one of the two: a begin has twice its transaction's number, and its commit one more. A `Whole` is
about transactions as they were offered. What is `split` is given to an auditor of halves, and what
it replies is `told` of transactions as they were offered.
"""
from dataclasses import dataclass, field

from plain_verdicts import INIT, Parts, Wrong, is_reached

STARS, NUMBERS = 2**63, 2**47  # keys, and numbers, are below these
EVENTS = ("begin", "commit")


@dataclass
class Whole(Parts):
    """Parts by transactions as they were offered. Of each session it is said whether the first that
    remains has begun: its begin is gone, and its reads are forgotten."""

    begun: list = field(default_factory=list)

    def copy(self):
        return Whole(**vars(super().copy()), begun=list(self.begun))

    def open_keys(self, front):
        """What is written by transactions that have begun and not committed there."""
        return {key for txns, at in zip(self.remaining, front) if at % 2
                for key in txns[at // 2][1]}

    def then(self, front, last, session):
        """The last writers after the session's next event; None if it can't come next: a
        transaction can't begin unless it reads what was committed last, and nothing that it writes
        is written by one that has begun and not committed."""
        place = front[session] // 2
        reads, writes = self.remaining[session][place]
        if front[session] % 2:
            me = session, self.gone[session] + place
            return {**last, **{key: me for key in writes}}
        if not self.open_keys(front).isdisjoint(writes):
            return None
        is_read = all(last.get(key, INIT) == source or self.is_pending(source)
                      for key, source in reads)
        return last if is_read else None


def check_events(whole, order):
    """Checks an order of begins and commits by the definition."""
    front, last = list(map(int, whole.begun)), whole.base
    for session, number, event in order:
        if session >= len(front) or front[session] != 2 * (number - whole.gone[session]) + (
                EVENTS.index(event)) or front[session] >= 2 * len(whole.remaining[session]):
            raise Wrong(f"{event} of {session}.{number} stands out of its session's order")
        last = whole.then(front, last, session)
        if last is None:
            raise Wrong(f"{session}.{number} can't begin there")
        front[session] += 1
    if front != [2 * len(txns) for txns in whole.remaining]:
        raise Wrong("the order lacks a begin or a commit")


def has_events(whole, most):
    """Whether there is such an order; None if that would take too many trials."""
    end = tuple(2 * len(txns) for txns in whole.remaining)

    def nexts(front, last):
        for session, place in enumerate(front):
            then = whole.then(front, last, session) if place < end[session] else None
            if then is not None:
                yield front[:session] + (place + 1,) + front[session + 1:], then

    return is_reached(tuple(map(int, whole.begun)), whole.base, end, nexts, most)


def star(key):
    """The key by which a commit reads from its begin; fences stay fences."""
    return key + STARS if key else 0


def plain(key):
    return key - STARS if key >= STARS else key


def split(session, first, txns):
    """The transactions of a line, each as two. The begin reads what the transaction reads, and
    writes the star of each key that it writes; the commit reads these, and writes the keys."""
    halves = []
    for number, (reads, writes, *aborted) in enumerate(txns, first):
        stars = list(map(star, writes))
        begins = [read if read[1] == "init" else [read[0], read[1], 2 * read[2] + 1]
                  for read in reads]
        commits = [[key, session, 2 * number] for key in stars]
        halves += [[begins, stars, *aborted], [commits, writes, *aborted]]
    return halves


def split_command(command):
    """What the auditor of halves is asked in place of this."""
    word, *its = command
    if word == "offer" or word == "join" and len(its) == 3:
        session, first, txns = its
        return [word, session, 2 * first, split(session, first, txns)]
    if word == "join":
        return [word, its[0], split(its[0], 0, its[1])]
    if its[:1] == ["remain"]:
        return [word, "remain", its[1], 2 * min(its[2], NUMBERS)]
    if word == "answer":
        kind, given = its
        return [word, kind, half_order(given) if kind == "order" else half_tree(given)]
    return command


def told_reply(reply):
    """The reply about transactions as they were offered."""
    word, *its = reply
    if word == "report":
        number, kind, counts, *shown = its
        name = told_tree if kind == "violated" else told_order
        return [word, number, kind, halved(counts), *map(name, shown)]
    if word == "cut":
        fence, gone, last = its
        return [word, whole_id(*fence), [whole_id(*half) for half in gone if half[1] % 2],
                told_last(last)]
    if word == "show":
        marks, received, closed, last, remaining = its
        alone = sum(mark % 2 for mark in marks)  # commits whose begin is gone
        return [word, halved(marks), halved(received), closed, told_last(last),
                (remaining + alone) // 2]
    if word == "marks":
        marks, closed = its
        return [word, halved(marks), closed, [mark % 2 == 1 for mark in marks]]
    if word == "last":  # the writers of stars, too
        return [word, [[key if number % 2 else STARS + plain(key), *whole_id(session, number)]
                       for key, session, number in its[0]]]
    if word == "offer":
        session, first, halves = its
        return [word, session, first // 2, whole_txns(first, halves)]
    return reply


def halved(counts):
    return [count // 2 for count in counts]


def whole_id(session, half):
    return [session, half // 2]


def told_last(last):
    return [[key, *whole_id(*half)] for key, *half in last if key < STARS]


def whole_txns(first, halves):
    """What was split into these. A first commit alone has no reads, and a last begin alone is left
    out."""
    txns = [[[], halves[0][1]]] if first % 2 and halves else []
    halves = halves[first % 2:]
    for (reads, _), (_, writes) in zip(halves[::2], halves[1::2]):
        txns.append([[read if read[1] == "init" else [read[0], *whole_id(*read[1:])]
                      for read in reads], writes])
    return txns


def event(session, half):
    return [session, half // 2, EVENTS[half % 2]]


def told_order(order):
    return [event(*half) for half in order]


def told_tree(items):
    return [[item[0], *map(told_part, item[1:])] if item[0] in ("force", "split", "cycle")
            else [item[0], *event(*item[1:3]), plain(item[3])] for item in items]


def told_part(part):
    """A choice, a side or a cycle."""
    if type(part) is not list:
        return part
    if part and type(part[0]) is int:
        return [*event(*part[:2]), plain(part[2]), *event(*part[3:5]), *event(*part[5:])]
    return [[arc[0], *map(plain, arc[1:-4]), *event(*arc[-4:-2]), *event(*arc[-2:])]
            for arc in part]


def half_report(report, received):
    """The report about halves, of which so many were received, that is told as this one. Raises
    Wrong if there is none."""
    try:
        word, number, kind, _, *shown = report
        name = half_tree if kind == "violated" else half_order
        halves = [word, number, kind, received, *map(name, shown)]
        if told_reply(halves) == report:
            return halves
    except (AttributeError, IndexError, TypeError, ValueError):
        pass
    raise Wrong(f"{halved(received)} were taken in, and what is shown has begins and commits")


def half(session, number, word):
    return [session, 2 * number + EVENTS.index(word)]


def half_order(order):
    return [half(*each) for each in order]


def half_key(key, reader):
    """A commit reads stars alone, and a begin plain keys."""
    return star(key) if reader[2] == "commit" else key


def half_tree(items):
    return [[item[0], *map(half_part, item[1:])] if item[0] in ("force", "split", "cycle")
            else [item[0], *half(*item[1:4]), half_key(item[4], item[1:4])] for item in items]


def half_part(part):
    if type(part) is not list:
        return part
    if part and type(part[0]) is int:
        return [*half(*part[:3]), half_key(part[3], part[:3]), *half(*part[4:7]), *half(*part[7:])]
    return [half_arc(*arc) for arc in part]


def half_arc(word, *its):
    key, before, after = its[:-6], its[-6:-3], its[-3:]
    reader = before if word == "base" else after
    return [word, *(half_key(each, reader) for each in key), *half(*before), *half(*after)]


def whole_of(parts):
    """What the parts of halves are of transactions as they were offered."""
    def source(read):
        return read if read[1] == INIT else (read[0], tuple(whole_id(*read[1])))

    remaining = []
    for first, halves in zip(parts.gone, parts.remaining):
        txns = [([], halves[0][1])] if first % 2 and halves else []
        rest = halves[first % 2:]
        remaining.append(txns + [(list(map(source, reads)), writes)
                                 for (reads, _), (_, writes) in zip(rest[::2], rest[1::2])])
    base = {key: tuple(whole_id(*half)) for key, half in parts.base.items() if key < STARS}
    return Whole(halved(parts.gone), remaining, list(parts.closed), base,
                 [mark % 2 == 1 for mark in parts.gone])


def is_proper(parts):
    """Whether each commit whose begin is gone can read the stars that its begin wrote, and none is
    read by its own begin, as in parts that a run gives out."""
    for session, halves in enumerate(parts.remaining):
        for number, (reads, _) in enumerate(halves, parts.gone[session]):
            if any(source == (session, number + 1) for _, source in reads):
                return False
    for session, (mark, halves) in enumerate(zip(parts.gone, parts.remaining)):
        if mark % 2 and not (halves and all(
                parts.base.get(key) == source for key, source in halves[0][0])):
            return False
    return True
