"""Histories of a store under load, as lines of scripts: what the benchmarks give to cobra_audit.

A store executes transactions one after another, and answers each read with the last version of its
key, or sometimes, as `stale` says, with an older one. Kinds: counter (each transaction reads one of
a few hot keys, and writes it), mixed (1 to 4 reads and 0 to 3 writes, half of them of keys that
weren't read), skew (reads two keys, writes one of them), blind (only writes, or only reads).
"""
import json
import random


class Store:
    """A serial store, which keeps for each key its writers in order, and for each session its
    log."""

    def __init__(self, sessions, seed, stale):
        self.random = random.Random(seed)
        self.stale = stale
        self.writers = {}
        self.logs = [[] for _ in range(sessions)]

    def source(self, key):
        """The last writer of the key, or, with a probability of `stale` per thousand, an older
        one."""
        writers = self.writers.get(key, [])
        back = 1
        if writers and self.random.randrange(1000) < self.stale:
            back = self.random.randrange(1, min(len(writers), 4) + 2)
        return [key, *writers[-back]] if back <= len(writers) else [key, "init"]

    def execute(self, session, reads, writes):
        log = self.logs[session]
        answered = [self.source(key) for key in sorted(set(reads))]
        for key in set(writes):
            self.writers.setdefault(key, []).append((session, len(log)))
        log.append([answered, sorted(set(writes))])


def counter(draw, keys):
    hot = draw.randint(1, max(keys // 40, 1))
    return [hot], [hot]


def mixed(draw, keys):
    reads = [draw.randint(1, keys) for _ in range(draw.randint(1, 4))]
    writes = [draw.choice(reads) if draw.random() < 0.5 else draw.randint(1, keys) for _ in range(draw.randint(0, 3))]
    return reads, writes


def skew(draw, keys):
    pair = [draw.randint(1, keys), draw.randint(1, keys)]
    return pair, [draw.choice(pair)]


def blind(draw, keys):
    if draw.random() < 0.5:
        return [draw.randint(1, keys)], []
    return [], [draw.randint(1, keys), draw.randint(1, keys)]


KINDS = {"counter": counter, "mixed": mixed, "skew": skew, "blind": blind}


def script(kind, transactions, sessions=8, keys=400, seed=1, stale=0, fragment=8, last=("round", 4096, 0, 1, "guided")):
    """The lines of a script: the offers of a history, shuffled between its sessions, and then one
    more command."""
    store = Store(sessions, seed, stale)
    lines, sent = [["open", sessions, 4096]], [0] * sessions

    def flush():
        turns = [s for s in range(sessions) for _ in range(0, len(store.logs[s]) - sent[s], fragment)]
        store.random.shuffle(turns)
        for session in turns:
            txns = store.logs[session][sent[session] : sent[session] + fragment]
            lines.append(["offer", session, sent[session], txns])
            sent[session] += len(txns)

    for number in range(transactions):
        store.execute(store.random.randrange(sessions), *KINDS[kind](store.random, keys))
        if number % 64 == 63:
            flush()
    flush()
    lines.append(list(last))
    return [json.dumps(line, separators=(",", ":")) for line in lines]
