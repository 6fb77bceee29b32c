#!/usr/bin/env python3
"""Compares strict serializability with its rewriting, over all orders of small generated histories.

    python3 bench/check/strict_orders.py [--histories N] [--seed N]

No auditor is asked: definition and rewriting are written here from docs/DEFINITIONS.md. A store of
two or three sessions runs up to seven transactions, some at the same time, and lies now and then.
Some times are equal, unknown, or impossible. Each order of a history that keeps its sessions has to
explain it and keep real time exactly if it explains the rewritten history. A read is pending in the
one exactly if one is in the other. Rewritings that are wrong on purpose are tried as well: on each
some order has to differ. The last line says on how many histories each was found.
"""
import argparse
import collections
import random
from itertools import permutations

INIT = None
END_KEYS, NUMBERS = 2**62, 2**48
Txn = collections.namedtuple("Txn", "reads writes began ended")  # a time is None if it's unknown


# ---- the definition


def received(history, txn):
    return txn[0] < len(history) and txn[1] < len(history[txn[0]])


def explains(history, order):
    """Whether each read finds the last writer of its key in front, in an order of all that there
    is."""
    last = {}
    for session, number in order:
        txn = history[session][number]
        for key, source in txn.reads:
            waits = source is not INIT and not received(history, source)
            if not waits and last.get(key, INIT) != source:
                return False
        last.update(dict.fromkeys(txn.writes, (session, number)))
    return True


def keeps_time(history, order):
    """Whether one that ended before another began comes before it."""
    place = {txn: at for at, txn in enumerate(order)}
    at = {txn: history[txn[0]][txn[1]] for txn in order}
    return all(place[one] < place[other] for one in order for other in order
               if at[one].ended is not None and at[other].began is not None
               and at[one].ended < at[other].began)


def is_pending(history):
    return any(source is not INIT and not received(history, source)
               for txns in history for txn in txns for _, source in txn.reads)


# ---- the rewriting


class Rewriting:
    """Each transaction writes a key of its own, if it's known when it ended. Of each session, one
    that begins later reads the key of the last that had ended, unless that one had ended before
    another one of these began."""

    def end_key(self, session, number):
        return END_KEYS + session * NUMBERS + number

    def writes_end(self, txn):
        return txn.ended is not None

    def is_before(self, one, other):
        return None not in (one.ended, other.began) and one.ended < other.began

    def pick(self, numbers, txns):
        return numbers[-1:]

    def is_looked_at(self, session, own):
        return True

    def latest(self, found, txn):
        """When the latest of these began that began before this one."""
        return max((one.began for one in found if None not in (one.began, txn.began)
                    and one.began < txn.began), default=None)

    def is_left_out(self, one, latest):
        return None not in (one.ended, latest) and one.ended < latest

    def source(self, session, number):
        return session, number

    def rewritten(self, history):
        return [[self._txn(history, session, number) for number in range(len(txns))]
                for session, txns in enumerate(history)]

    def _txn(self, history, own, number):
        txn = history[own][number]
        found = [(session, last) for session, txns in enumerate(history)
                 if self.is_looked_at(session, own)
                 for last in self.pick([n for n, one in enumerate(txns)
                                        if self.is_before(one, txn)], txns)]
        latest = self.latest([history[session][last] for session, last in found], txn)
        reads = [(self.end_key(*last), self.source(*last)) for last in found
                 if not self.is_left_out(history[last[0]][last[1]], latest)]
        writes = [self.end_key(own, number)] if self.writes_end(txn) else []
        return Txn([*txn.reads, *reads], [*txn.writes, *writes], None, None)


class ReadsTheFirst(Rewriting):
    def pick(self, numbers, txns):
        return numbers[:1]


class ReadsOnlyTheNewest(Rewriting):
    def pick(self, numbers, txns):
        return numbers[-1:] if numbers[-1:] == [len(txns) - 1] else []


class EqualTimesOrder(Rewriting):
    def is_before(self, one, other):
        return None not in (one.ended, other.began) and one.ended <= other.began


class ComparesBegins(Rewriting):
    def is_before(self, one, other):
        return None not in (one.ended, one.began, other.began) and one.began < other.began


class ComparesEnds(Rewriting):
    def is_before(self, one, other):
        return None not in (one.ended, other.ended) and one.ended < other.ended


class UnknownIsEarly(Rewriting):
    def is_before(self, one, other):
        return one.ended is not None and one.ended < (0 if other.began is None else other.began) or (
            one.ended is None and other.began is not None)


class LowerSessionsAlone(Rewriting):
    def is_looked_at(self, session, own):
        return session <= own


class LeavesOutThoseThatBeganEarlier(Rewriting):
    def is_left_out(self, one, latest):
        return None not in (one.began, latest) and one.began < latest


class LeavesOutEqualTimes(Rewriting):
    def is_left_out(self, one, latest):
        return None not in (one.ended, latest) and one.ended <= latest


class LeavesOutByItsOwnBegin(Rewriting):
    def latest(self, found, txn):
        return txn.began


class LeavesOutByImpossibleBegins(Rewriting):
    def latest(self, found, txn):
        return max((one.began for one in found if one.began is not None), default=None)


class OneKeyASession(Rewriting):
    def end_key(self, session, number):
        return END_KEYS + session


class OneKeyANumber(Rewriting):
    def end_key(self, session, number):
        return END_KEYS + number


class KeysOfTheHistory(Rewriting):
    def end_key(self, session, number):
        return 1 + session


class NothingIsWritten(Rewriting):
    def writes_end(self, txn):
        return False


class ReadAsAtFirst(Rewriting):
    def source(self, session, number):
        return INIT


class ReadFromTheNext(Rewriting):
    def source(self, session, number):
        return session, number + 1


WRONG = (ReadsTheFirst, ReadsOnlyTheNewest, EqualTimesOrder, ComparesBegins, ComparesEnds,
         UnknownIsEarly, LowerSessionsAlone, LeavesOutThoseThatBeganEarlier, LeavesOutEqualTimes,
         LeavesOutByItsOwnBegin, LeavesOutByImpossibleBegins, OneKeyASession, OneKeyANumber,
         KeysOfTheHistory, NothingIsWritten, ReadAsAtFirst, ReadFromTheNext)


# ---- histories


def run_of(dice):
    """What a store's sessions ran: transactions begin, take effect and end, each at a moment."""
    sizes = [dice.randint(1, 3) for _ in range(dice.choice((2, 2, 3)))]
    while sum(sizes) > 7:
        sizes[dice.randrange(len(sizes))] = 1
    history, last, now, open_ones = [[] for _ in sizes], {}, 0, {}
    while any(len(txns) < size for txns, size in zip(history, sizes)):
        session = dice.choice([s for s, size in enumerate(sizes) if len(history[s]) < size])
        now += dice.choice((0, 1, 1))
        if session not in open_ones:
            open_ones[session] = [now, None]
        elif open_ones[session][1] is None:
            open_ones[session][1] = _effect(dice, last, (session, len(history[session])), sizes)
        else:
            began, (reads, writes) = open_ones.pop(session)
            history[session].append(Txn(reads, writes, *_spoilt(dice, began, now)))
    return history


def _effect(dice, last, own, sizes):
    reads = []
    for key in sorted(dice.sample((1, 2, 3), dice.choice((0, 1, 1, 2)))):
        source = last.get(key, INIT)
        if dice.random() < 0.08:
            session = dice.randrange(len(sizes))
            source = dice.choice((INIT, (session, dice.randint(0, sizes[session]))))
        if source != own:
            reads.append((key, source))
    writes = sorted(dice.sample((1, 2, 3), dice.choice((0, 1, 1, 2))))
    last.update(dict.fromkeys(writes, own))
    return reads, writes


def _spoilt(dice, began, ended):
    """These times, or others now and then: unknown, moved, or exchanged."""
    chance = dice.random()
    if chance < 0.05:
        return None, ended
    if chance < 0.1:
        return began, None
    if chance < 0.15:
        return max(0, began + dice.randint(-3, 3)), max(0, ended + dice.randint(-3, 3))
    return (ended, began) if chance < 0.16 else (began, ended)


def orders_of(history):
    """Each order of all that there is in which sessions are kept."""
    turns = [session for session, txns in enumerate(history) for _ in txns]
    for order in set(permutations(turns)):
        counts = collections.Counter()
        found = []
        for session in order:
            found.append((session, counts[session]))
            counts[session] += 1
        yield found


def try_history(history, wrong, tally):
    rewritten = Rewriting().rewritten(history)
    assert is_pending(history) == is_pending(rewritten), history
    others = [other for other in wrong if tally[other.__name__] < 100]
    found, holds, plain = set(), False, False
    lies = [(other, other().rewritten(history)) for other in others]
    for order in orders_of(history):
        plainly = explains(history, order)
        strict = plainly and keeps_time(history, order)
        assert explains(rewritten, order) == strict, (history, order)
        found.update(other.__name__ for other, lie in lies if explains(lie, order) != strict)
        holds, plain = holds or strict, plain or plainly
        tally["orders"] += 1
    tally.update(found)
    tally["histories"] += 1
    tally["serializable"] += plain
    tally["strictly"] += holds
    tally["pending"] += is_pending(history)


def main():
    parser = argparse.ArgumentParser(description=__doc__.splitlines()[0])
    parser.add_argument("--histories", type=int, default=10000)
    parser.add_argument("--seed", type=int, default=0)
    given = parser.parse_args()
    tally = collections.Counter()
    for place in range(given.histories):
        try_history(run_of(random.Random(f"{given.seed} {place}")), WRONG, tally)
    names = [other.__name__ for other in WRONG]
    print({name: count for name, count in tally.items() if name not in names})
    print("wrong rewritings, found up to 100 times each:", {name: tally[name] for name in names})
    missed = [name for name in names if not tally[name]]
    assert not missed, f"no history tells these from the right one: {missed}"


if __name__ == "__main__":
    main()
