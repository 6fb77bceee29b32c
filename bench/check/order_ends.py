#!/usr/bin/env python3
"""Compares what orders mean after cuts with the definitions, over small generated histories.

    python3 bench/check/order_ends.py [--histories N] [--seed N]

No auditor is asked. A plain one (plain_verdicts.py, plain_snapshots.py) takes in what a store has
logged, in turns of a few transactions, finds orders by trial, and forgets what its cuts name. Each
order that explains what is left, with those of what was forgotten before it, has to be an order of
the whole history: one in which each read finds the last writer, or, if transactions are split, one
of begins and commits that is snapshot isolation. Another order of what is left, which doesn't
explain it, must not be one of the whole history in this way. Some order explains what is left
exactly if the whole history has one. What was forgotten are the first transactions of each session,
in an order that meets all their reads; each key's last writer there is the one that is kept. Each
of these is checked by the definition, over the whole history.
"""
import argparse
import collections
import random

import os
import sys
sys.path[:0] = [os.path.join(os.path.dirname(os.path.abspath(__file__)), "../model")]
from plain_snapshots import EVENTS, Whole, check_events, has_events, split, whole_of
from plain_verdicts import INIT, Parts, Relation, cut_of, has_order

ORDERS = 3  # of one round that are checked
OTHERS = 6  # orders of one round that need not explain anything
TRIALS = 4000  # of transactions put next, in a search for orders
FRONTS = 20000  # that may be tried where it is asked whether there is any order


class Store:
    """Executes transactions of a few sessions, and lies now and then."""

    def __init__(self, dice, is_split):
        self.dice, self.is_split = dice, is_split
        self.logs = [[] for _ in range(dice.choice((2, 2, 3)))]
        self.last, self.begun, self.fences = {}, {}, dice.choice((0.5, 0.7))

    def step(self):
        """A session's transaction begins or commits; without snapshots it does both."""
        session = self.dice.randrange(len(self.logs))
        if session not in self.begun:
            self.begun[session] = self._begins()
            if self.is_split:
                return
        reads, writes = self.begun.pop(session)
        self.last.update(dict.fromkeys(writes, (session, len(self.logs[session]))))
        self.logs[session].append((reads, writes))

    def _begins(self):
        busy = {key for _, writes in self.begun.values() for key in writes}
        if 0 not in busy and self.dice.random() < self.fences:
            return [(0, self.last.get(0, INIT))], [0]
        keys = [self.dice.sample((1, 2, 3), self.dice.randint(0, 2)) for _ in range(2)]
        reads = [(key, INIT if self.dice.random() < 0.03 else self.last.get(key, INIT))
                 for key in keys[0]]
        return reads, [key for key in keys[1] if key not in busy or self.dice.random() < 0.05]


def orders_of(parts, dice):
    """Some orders that explain the parts, found in random turns."""
    counts, found, order, trials = [*map(len, parts.remaining)], [], [], 0

    def put_next(front, last):
        nonlocal trials
        trials += 1
        if len(found) == ORDERS or trials > TRIALS:
            return
        if front == counts:
            found.append([*order])
        for session in dice.sample(range(len(counts)), len(counts)):
            if front[session] == counts[session]:
                continue
            reads, writes = parts.remaining[session][front[session]]
            if all(last.get(key, INIT) == source or parts.is_pending(source)
                   for key, source in reads):
                order.append((session, parts.gone[session] + front[session]))
                then = front[:session] + [front[session] + 1] + front[session + 1:]
                put_next(then, {**last, **dict.fromkeys(writes, order[-1])})
                order.pop()

    put_next([0] * len(counts), dict(parts.base))
    return found


def explains_rest(parts, order):
    """Whether the order of all that is left explains it, by the definition."""
    last = dict(parts.base)
    for session, number in order:
        reads, writes = parts.remaining[session][number - parts.gone[session]]
        if not all(last.get(key, INIT) == source or parts.is_pending(source)
                   for key, source in reads):
            return False
        last.update(dict.fromkeys(writes, (session, number)))
    return True


def others_of(parts, orders, dice):
    """Orders of all that is left, session by session as they have to be: some at random, and some
    that are those with two neighbours of two sessions exchanged."""
    for _ in range(OTHERS):
        turns = [session for session, txns in enumerate(parts.remaining) for _ in txns]
        dice.shuffle(turns)
        if orders and dice.random() < 0.7:
            turns = [session for session, _ in dice.choice(orders)]
            for _ in range(dice.randint(1, 2)):
                place = dice.randrange(max(1, len(turns) - 1))
                turns[place : place + 2] = turns[place : place + 2][::-1]
        yield [(session, parts.gone[session] + turns[:place].count(session))
               for place, session in enumerate(turns)]


def explains(history, order):
    """Whether the order explains the whole history, by the definition."""
    last = {}
    for session, number in order:
        reads, writes = history[session][number]
        for key, (its, place) in reads:
            is_received = its < len(history) and place < len(history[its])
            if is_received and last.get(key, INIT) != (its, place):
                return False
        last.update(dict.fromkeys(writes, (session, number)))
    return all([each for each in order if each[0] == session]
               == [(session, number) for number in range(len(txns))]
               for session, txns in enumerate(history))


def is_snapshot_order(history, events):
    """Whether these are the history's begins and commits in an order that is snapshot isolation."""
    for session, txns in enumerate(history):
        its = [(session, number, word) for number in range(len(txns)) for word in EVENTS]
        if [event for event in events if event[0] == session] != its:
            return False
    for place, (session, number, word) in enumerate(events):
        if word == "begin" and not all(
                sees_last_commit(history, events[:place], *read)
                for read in history[session][number][0]):
            return False
    places = {event: place for place, event in enumerate(events)}
    ids = [(session, number) for session, txns in enumerate(history)
           for number in range(len(txns))]
    return all(places[*one, "commit"] < places[*other, "begin"]
               or places[*other, "commit"] < places[*one, "begin"]
               for one in ids for other in ids
               if one < other and set(writes_of(history, one)) & set(writes_of(history, other)))


def sees_last_commit(history, front, key, source):
    """Whether the read gives the last version of the key that is committed in front."""
    commits = [(session, number) for session, number, word in front
               if word == "commit" and key in writes_of(history, (session, number))]
    if source == INIT:
        return not commits
    is_received = source[0] < len(history) and source[1] < len(history[source[0]])
    return not is_received or commits[-1:] == [source]


def writes_of(history, txn):
    return history[txn[0]][txn[1]][1]


def told(reads):
    return [[key, "init"] if source == INIT else [key, *source] for key, source in reads]


def halves_of(session, number, txn):
    """A transaction as an auditor holds it that splits them."""
    return [([(key, INIT if source == ["init"] else tuple(source)) for key, *source in reads], keys)
            for reads, keys in split(session, number, [[told(txn[0]), txn[1]]])]


class Audit:
    """A plain auditor that forgets, beside the whole history that it took in."""

    def __init__(self, store, tally):
        sessions = len(store.logs)
        self.store, self.tally, self.past, self.held = store, tally, [], None
        self.history = [[] for _ in range(sessions)]
        self.parts = Parts([0] * sessions, [[] for _ in range(sessions)], [False] * sessions)

    def take(self):
        """Takes in some of what the store has logged since."""
        for session, log in enumerate(self.store.logs):
            mine = self.history[session]
            while len(mine) < len(log) and self.store.dice.random() < 0.6:
                number = len(mine)
                mine.append(log[number])
                self.parts.remaining[session] += (
                    halves_of(session, number, log[number]) if self.store.is_split
                    else [log[number]])

    def round(self):
        """Checks some orders of what is left, and whether there is any, and finds a cut."""
        orders = orders_of(self.parts, self.store.dice)
        for order in orders:
            self._check(order)
        self.tally["rounds"] += 1
        self._check_verdict()
        self._check_past()
        for order in others_of(self.parts, orders, self.store.dice):
            self._check_other(order)
        if orders:
            cut = cut_of(self.parts, Relation(self.parts))
            self.held = (cut, self.store.dice.choice(orders)) if cut else None

    def _check(self, order):
        self.tally["orders"] += 1
        self.tally["orders after a cut"] += bool(self.past)
        whole = self.past + order
        if not self.store.is_split:
            assert explains(self.history, whole), (self.history, self.past, order)
            return
        check_events(whole_of(self.parts), events_of(order))
        assert is_snapshot_order(self.history, events_of(whole)), (self.history, self.past, order)

    def _check_other(self, order):
        """An order explains what is left exactly if, behind the past, it is one of the whole."""
        explained = explains_rest(self.parts, order)
        self.tally["others"] += 1
        self.tally["others that explain"] += explained
        whole = self.past + order
        assert explains(self._held_whole(), whole) == explained, (self.history, self.past, order)
        if self.store.is_split:
            assert is_snapshot_order(self.history, events_of(whole)) == explained, (
                self.history, self.past, order)

    def _held_whole(self):
        """The whole history as the auditor would hold it: as it is, or split."""
        if not self.store.is_split:
            return self.history
        return [[half for number, txn in enumerate(txns)
                 for half in halves_of(session, number, txn)]
                for session, txns in enumerate(self.history)]

    def _check_past(self):
        whole, last = self._held_whole(), {}
        for session, number in self.past:
            reads, writes = whole[session][number]
            assert all(last.get(key, INIT) == source for key, source in reads)
            last.update(dict.fromkeys(writes, (session, number)))
        assert last == self.parts.base, (self.history, self.past, self.parts.base)
        for session, mark in enumerate(self.parts.gone):
            its = [number for each, number in self.past if each == session]
            assert its == list(range(mark)), (self.history, self.past)
            assert self.parts.remaining[session] == whole[session][mark:]

    def _check_verdict(self):
        sessions = len(self.history)
        none, nothing = [0] * sessions, [False] * sessions
        some = has_order(self.parts, FRONTS)
        if self.store.is_split:
            whole = Whole(none, self.history, nothing, {}, nothing)
            others = [has_events(whole_of(self.parts), FRONTS), has_events(whole, FRONTS)]
        else:
            others = [has_order(Parts(none, self.history, nothing), FRONTS)]
        if None not in (some, *others):
            assert all(other == some for other in others), (self.history, self.past, some, others)
            self.tally["verdicts"] += 1
            self.tally["violated"] += not some

    def truncate(self):
        """Applies the cut that is held, to what has come since as well."""
        if not self.held:
            return
        (fence, gone, last), order = self.held
        ahead = order[: order.index(fence) + 1]
        assert sorted(ahead) == gone, (self.history, order, gone)
        self.past, self.held = self.past + ahead, None
        for session, _ in gone:
            self.parts.gone[session] += 1
            del self.parts.remaining[session][0]
        self.parts.base.update({key: tuple(its) for key, *its in last})
        self.tally["cuts"] += 1


def events_of(halves):
    return [(session, half // 2, EVENTS[half % 2]) for session, half in halves]


def try_history(dice, is_split, tally):
    store = Store(dice, is_split)
    audit = Audit(store, tally)
    for _ in range(dice.randint(10, 40)):
        store.step()
        audit.take()
        if dice.random() < 0.5:
            audit.round()
        if dice.random() < 0.6:
            audit.truncate()


def main():
    parser = argparse.ArgumentParser(description=__doc__.splitlines()[0])
    parser.add_argument("--histories", type=int, default=1000)
    parser.add_argument("--seed", type=int, default=0)
    given = parser.parse_args()
    for is_split in (False, True):
        tally = collections.Counter()
        for place in range(given.histories):
            try_history(random.Random(f"{given.seed} {place}"), is_split, tally)
        print("snapshot isolation" if is_split else "serializability", dict(tally))


if __name__ == "__main__":
    main()
