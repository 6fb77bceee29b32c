#!/usr/bin/env python3
"""A slow auditor in plain Python, on the model by which the fuzzer judges cobra_audit. It answers
the lines of docs/FORMATS.md. Its refutations are those of a plain search for few transactions; for
more a cycle of what sessions and reads say by themselves, or empty. Its orders and cuts are those
of the model.

More transactions than `MOST_RELATED` are judged without a search, in time that grows as they do, if
there is such a cycle, or if they can be executed one after another, each as soon as its reads find
what they read and nobody else has to read what it overwrites. They are never cut then."""
import copy
import json
import os
import sys

TOP = os.path.normpath(os.path.join(os.path.dirname(os.path.abspath(__file__)), "../.."))
sys.path.insert(0, os.path.join(TOP, "bench/model"))
from judge import Model, command_of, text  # noqa: E402
from plain_strict import rewritten_parts  # noqa: E402
from plain_trees import refuted  # noqa: E402
from plain_verdicts import INIT, Relation, cut_of  # noqa: E402

MOST_REFUTED = 64  # transactions
MOST_RELATED = 1024
MOST_KEYS = 3  # few, so that tests need several replies


class Plain(Model):
    """The model, with answers in place of judgements."""

    def copy(self):
        """A copy of its state."""
        return copy.deepcopy(self)

    def reply_to(self, line):
        command = command_of(line)
        owed = self.owed(command)
        if owed is not None:
            return owed
        budget = self.search[0] if command[0] == "collect" else command[1]
        self.search = None  # a search never ends unless it is told to
        return self.report(budget)

    def save(self, what, *where):
        told = super().save(what, *where)
        return text(["last", json.loads(told)[1][:MOST_KEYS]]) if what == "last" else told

    def report(self, budget):
        parts, self.snapshot = self.snapshot or self.parts, None
        if self.timed is not None:
            parts = rewritten_parts(self.timed)
        self.rounds += 1
        many = sum(map(len, parts.remaining)) > MOST_RELATED and judged_fast(parts)
        if many:
            kind, shown = many
            return self.text_of("report", self.rounds, kind, parts.received(), shown)
        relation = Relation(parts)
        solved, left = (None, 1) if parts.has_bad_read() else solve(relation, budget)
        front = ["report", self.rounds]
        if solved is None:
            kind = "violated" if left else "spent"
            return self.text_of(*front, kind, parts.received(),
                                *([refutation(parts)] if left else []))
        self.held = cut_of(parts, relation) if self.timed is None else None
        places = sorted(range(len(solved.ids)), key=lambda at: bin(solved.before[at]).count("1"))
        kind = "pending" if parts.has_pending() else "serial"
        return self.text_of(*front, kind, parts.received(), [solved.ids[at] for at in places])


def refutation(parts):
    if len(parts.ids()) <= MOST_REFUTED:
        return refuted(parts)
    cycle = certain_cycle(parts)
    return [["cycle", cycle]] if cycle else []


def judged_fast(parts):
    """A verdict and what shows it; None if it takes a search."""
    order = executed(parts)
    if order is not None:
        return "pending" if parts.has_pending() else "serial", order
    cycle = certain_cycle(parts)
    return ("violated", [["cycle", cycle]]) if cycle else None


def executed(parts):
    """An order in which each transaction is executed as soon as all its reads find what they read;
    None if it ends before all of them are."""
    at, last, order = [0] * len(parts.gone), dict(parts.base), []
    overwriting = {}  # by key and source, how many reads are still to come
    for me in parts.ids():
        for read in parts.get(me)[0]:
            overwriting[read] = overwriting.get(read, 0) + 1

    def can_be_next(session):
        reads, writes = parts.remaining[session][at[session]]
        own = {key for key, _ in reads}
        return all(parts.is_pending(source) or last.get(key, INIT) == source
                   for key, source in reads) and not any(
            overwriting.get((key, last.get(key, INIT)), 0) > (key in own) for key in writes)

    is_stuck = False
    while not is_stuck:
        is_stuck = True
        for session, txns in enumerate(parts.remaining):
            while at[session] < len(txns) and can_be_next(session):
                reads, writes = txns[at[session]]
                for read in reads:
                    overwriting[read] -= 1
                me = session, parts.gone[session] + at[session]
                last.update(dict.fromkeys(writes, me))
                order.append(me)
                at[session] += 1
                is_stuck = False
    return order if len(order) == len(parts.ids()) else None


def certain_cycle(parts):
    """A shortest cycle of the arcs that need no choice through the first transaction that has one;
    None if there is none."""
    writers, after = {}, {}
    for me in parts.ids():
        for key in parts.get(me)[1]:
            writers.setdefault(key, []).append(me)
    for me in parts.ids():
        following = me[0], me[1] + 1
        arcs = after.setdefault(me, [])
        if parts.get(following):
            arcs.append(["session", *me, *following])
        for key, source in parts.get(me)[0]:
            if source == parts.source_before(key):
                arcs += [["base", key, *me, *other] for other in writers.get(key, ())
                         if other != me]
            elif source in writers.get(key, ()):
                after.setdefault(source, []).append(["read", key, *source, *me])
    return shortest_cycle(on_cycles(after), after)


def on_cycles(after):
    """What is left when everything without a predecessor is taken away, again and again."""
    count = dict.fromkeys(after, 0)
    for arcs in after.values():
        for arc in arcs:
            count[tuple(arc[-2:])] += 1
    waiting = [me for me, its in count.items() if not its]
    for me in waiting:
        for arc in after[me]:
            end = tuple(arc[-2:])
            count[end] -= 1
            if not count[end]:
                waiting.append(end)
    return sorted(me for me, its in count.items() if its)


def shortest_cycle(starts, after):
    for start in starts:
        reached, waiting = {}, [start]
        for me in waiting:
            for arc in after[me]:
                end = tuple(arc[-2:])
                if end not in reached:
                    reached[end] = arc
                    waiting.append(end)
            if start in reached:
                way = [reached[start]]
                while tuple(way[0][-4:-2]) != start:
                    way.insert(0, reached[tuple(way[0][-4:-2])])
                return way
    return None


def solve(relation, nodes):
    """A relation without open choices and cycles, and how many nodes are left; or None."""
    if nodes <= 0:
        return None, 0
    nodes -= 1
    if relation.has_cycle():
        return None, nodes + 1
    choices = relation.open_choices()
    if not choices:
        return relation, nodes + 1
    for side in (1, 2):
        found, nodes = solve(relation.with_side(choices[0], side), nodes)
        if found or not nodes:
            return found, nodes
    return None, nodes


def main():
    plain = Plain()
    for line in sys.stdin.buffer:
        sys.stdout.buffer.write(plain.reply_to(line.rstrip(b"\n")) + b"\n")
        sys.stdout.buffer.flush()


if __name__ == "__main__":
    main()
