"""Refutations in plain Python: as a search finds them, and reduced as far as possible.

Written only from docs/FORMATS.md and docs/DEFINITIONS.md. A tree is a list of items, as in a
report. Nothing here is fast: it is for histories of a few dozen transactions.
"""
from plain_proofs import check_tree, ends, sides
from plain_verdicts import INIT, Wrong


class Arcs:
    """What comes before what because of the transactions themselves: for each id the arcs that
    begin there."""

    def __init__(self, parts):
        ids = parts.ids()
        self.after = {me: [] for me in ids}
        for at, me in enumerate(ids):
            for other in ids[at + 1:]:
                if other[0] == me[0]:
                    self._add("session", None, me, other)
        for me in ids:
            for key, source in parts.get(me)[0]:
                if source == parts.source_before(key):
                    for other in ids:
                        if other != me and key in parts.get(other)[1]:
                            self._add("base", key, me, other)
                elif parts.get(source) is not None and key in parts.get(source)[1]:
                    self._add("read", key, source, me)

    def _add(self, name, key, before, after):
        self.after[before].append([name, *([] if key is None else [key]), *before, *after])

    def path(self, taken, start, goal):
        """A shortest path of arcs from one node to the other; None if there is none. If both are
        the same, a cycle."""
        reached, waiting = {}, [start]
        for at in waiting:
            facts = [["taken", *at, *after] for before, after in taken if before == at]
            for arc in [*self.after[at], *facts]:
                after = ends(arc)[1]
                if after in reached:
                    continue
                reached[after] = arc
                if after == goal:
                    return self._back(reached, start, goal)
                waiting.append(after)
        return None

    @staticmethod
    def _back(reached, start, goal):
        arcs, at = [], goal
        while not arcs or at != start:
            arcs.append(reached[at])
            at = ends(reached[at])[0]
        return arcs[::-1]


def choices_of(parts):
    """All choices, in order: for each reader's reads, for each other writer of the key."""
    ids = parts.ids()
    return [[*me, key, *source, *other] for me in ids for key, source in parts.get(me)[0]
            if source != parts.source_before(key) and parts.get(source) is not None
            and key in parts.get(source)[1]
            for other in ids if other not in (me, source) and key in parts.get(other)[1]]


def refuted(parts):
    """The tree found by a search that splits its first open choice, with each step that it forced
    and each split that it made; None if there is an order."""
    leaf = _bad_read(parts)
    if leaf is not None:
        return [leaf]
    return _search(parts, Arcs(parts), choices_of(parts), [])


def _bad_read(parts):
    for me in parts.ids():
        for key, source in parts.get(me)[0]:
            if parts.is_bad(key, source):
                is_past = source == INIT or parts.is_gone(source)
                return ["gone" if is_past else "nowrite", *me, key]
    return None


def _search(parts, arcs, choices, taken):
    items, taken = [], list(taken)
    while True:
        for me in arcs.after:
            cycle = arcs.path(taken, me, me)
            if cycle:
                return [*items, ["cycle", cycle]]
        step = _forced(parts, arcs, choices, taken)
        if step is None:
            break
        items.append(step)
        taken.append(sides(parts, step[1])[step[2] - 1])
    for choice in choices:
        facts = sides(parts, choice)
        if not any(arcs.path(taken, *fact) for fact in facts):
            halves = [_search(parts, arcs, choices, [*taken, fact]) for fact in facts]
            if None in halves:
                return None
            return [*items, ["split", choice], *halves[0], *halves[1]]
    return None


def _forced(parts, arcs, choices, taken):
    """The first new step: a side whose other side closes a cycle."""
    for choice in choices:
        facts = sides(parts, choice)
        for side in (1, 2):
            before, after = facts[2 - side]
            back = arcs.path(taken, after, before)
            if back and not arcs.path(taken, *facts[side - 1]):
                return ["force", choice, side, [["taken", *before, *after], *back]]
    return None


def end_of(items, start):
    """The place after the part of the argument that begins there."""
    parts = 1
    while parts:
        name, start = items[start][0], start + 1
        parts += 1 if name == "split" else 0 if name == "force" else -1
    return start


def smaller(items):
    """Each tree that is this one without a forced step, or with half of a split in its place."""
    for at, item in enumerate(items):
        if item[0] == "force":
            yield items[:at] + items[at + 1:]
        elif item[0] == "split":
            middle = end_of(items, at + 1)
            end = end_of(items, middle)
            yield items[:at] + items[at + 1:middle] + items[end:]
            yield items[:at] + items[middle:end] + items[end:]


def minimised(parts, items):
    """A tree from which nothing more can be removed without losing the refutation."""
    check_tree(parts, items)
    for fewer in smaller(items):
        try:
            return minimised(parts, fewer)
        except Wrong:
            pass
    return items
