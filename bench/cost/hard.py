#!/usr/bin/env python3
"""How cobra_audit decides histories that need a search, in one table.

Run it at the top of the repository, after `cd crates/cobra_audit && rt run < /dev/null` has built
the program:

    python3 bench/cost/hard.py [--budget N] [--some WORD] [--write FOLDER] [PROGRAM]..

With several programs, each has its own columns: name an earlier commit's program to compare it. If
one of the SAT solvers `clasp`, `cadical` or `minisat` is installed, it is timed, too, with its own
encoding.
"""
import argparse
import itertools
import json
import os
import random
import shutil
import subprocess
import tempfile
import time

SESSIONS = 64


class Log:
    """Transactions by session; a transaction's name is its session and its place there."""

    def __init__(self):
        self.sessions = []

    def add(self, reads, writes, session=None):
        """Adds a transaction. Reads are pairs of a key and the name of its writer. By default the
        transaction has a session of its own."""
        if session is None:
            session = len(self.sessions)
        while len(self.sessions) <= session:
            self.sessions.append([])
        txns = self.sessions[session]
        txns.append([sorted([key, *source] for key, source in reads), sorted(writes)])
        return (session, len(txns) - 1)

    def lines(self, budget, depth=0, workers=1):
        lines = [["open", max(len(self.sessions), 1), 4096]]
        for session, txns in enumerate(self.sessions):
            for first in range(0, len(txns), 256):
                lines.append(["offer", session, first, txns[first : first + 256]])
        lines.append(["round", budget, depth, workers, "guided"])
        return [json.dumps(line, separators=(",", ":")) for line in lines]


def idle(log, count):
    """This many pairs of writers of one key with a reader of the first, in three sessions:
    whichever side is taken, nothing follows."""
    first = len(log.sessions)
    for key in range(10001, 10001 + count):
        writer = log.add([], [key], first)
        log.add([], [key], first + 1)
        log.add([(key, writer)], [], first + 2)


def hide(log, pairs, wrong):
    """This many pairs of writers of one key, whose order is open, and for each clause readers that
    rule out one way to order some of the pairs. A clause is pairs of a writer pair's number and
    which of the two comes first. Each transaction has a session of its own."""
    key = itertools.count(20001)
    made = []
    for _ in range(pairs):
        shared, marks = next(key), (next(key), next(key))
        made.append((shared, marks, [log.add([], [shared, mark]) for mark in marks]))
    for clause in wrong:
        for (pair, first), (before, lead) in zip(clause, clause[-1:] + clause[:-1]):
            shared, _, writers = made[pair]
            _, marks, others = made[before]
            log.add([(shared, writers[first]), (marks[1 - lead], others[1 - lead])], [])


def all_ways(pairs):
    """Each way to order the pairs is ruled out by a clause of its own."""
    return [list(enumerate(ways)) for ways in itertools.product((0, 1), repeat=pairs)]


def chain(pairs):
    """Each pair's order decides the next one's, and the last contradicts the second."""
    wrong = [[(pair, 1), (pair + 1, 0)] for pair in range(pairs - 1)]
    return wrong + [[(pairs - 1, 1), (1, 1)], [(0, 0), (1, 0)]]


def formula(pairs, count, width, seed):
    """Random clauses of this many pairs each."""
    draw = random.Random(seed)
    return [[(pair, draw.randrange(2)) for pair in draw.sample(range(pairs), width)] for _ in range(count)]


def store(txns, sessions, keys, seed, blind, stale=0.0, behind=0):
    """A store under load. A transaction reads the current version, or, with probability `stale`,
    what was current up to `behind` transactions before, and usually writes a key that it hasn't
    read."""
    draw = random.Random(seed)
    log, written = Log(), [{}]
    last = {}
    for number in range(txns):
        then = written[max(0, len(written) - 1 - (draw.randint(1, behind) if draw.random() < stale else 0))]
        session = draw.randrange(sessions)
        mine = {key: who for key, who in last.items() if who[0] == session}
        reads = {}
        for key in draw.sample(range(1, keys + 1), draw.randint(0, 2)):
            source = then.get(key)
            if key in mine and (source is None or source[0] != session or source[1] < mine[key][1]):
                source = last[key]
            if source is not None:
                reads[key] = source
        writes = {key for key in reads if draw.random() > blind}
        writes |= {draw.randint(1, keys) for _ in range(draw.randint(0, 2))}
        name = log.add(list(reads.items()), writes, session)
        for key in writes:
            last[key] = name
        written.append(dict(last))
    return log


def blind_counter(txns, keys, sessions, same, seed=1):
    """Every second transaction writes a key blindly, and the next one reads it, in the same session
    or in any; the store is correct. In the same session nothing orders the sessions, and nearly
    every writer is open to nearly every read."""
    draw = random.Random(seed)
    log = Log()
    for number in range(0, txns, 2):
        key, session = draw.randint(1, keys), draw.randrange(sessions)
        who = log.add([], [key], session)
        log.add([(key, who)], [], session if same else draw.randrange(sessions))
    return log


def open_choices(log):
    """How many choices the known relation leaves open; none if it has a cycle."""
    relation = Relation(log)
    relation.saturate()
    return len(relation.open) if not relation.has_cycle() else -1


class Relation:
    """What every order keeps, as plain sets of bits; only for the tables."""

    def __init__(self, log):
        self.number = {}
        for session, txns in enumerate(log.sessions):
            for place in range(len(txns)):
                self.number[(session, place)] = len(self.number)
        count = len(self.number)
        self.after, self.before = [0] * count, [0] * count
        writers, reads = {}, []
        for session, txns in enumerate(log.sessions):
            for place, (read, writes) in enumerate(txns):
                me = self.number[(session, place)]
                if place:
                    self.add(me - 1, me)
                for key in writes:
                    writers.setdefault(key, []).append(me)
                for key, *source in read:
                    reads.append((key, self.number[tuple(source)], me))
        for _, writer, reader in reads:
            self.add(writer, reader)
        self.open = [(r, w, o) for key, w, r in reads for o in writers[key] if o not in (w, r)]

    def add(self, a, b):
        if self.after[a] >> b & 1:
            return
        sources, targets = self.before[a] | 1 << a, self.after[b] | 1 << b
        for x in range(len(self.after)):
            if sources >> x & 1:
                self.after[x] |= targets
            if targets >> x & 1:
                self.before[x] |= sources

    def saturate(self):
        changed = True
        while changed:
            changed, left = False, []
            for reader, writer, other in self.open:
                if self.after[other] >> writer & 1 or self.after[reader] >> other & 1:
                    continue
                if self.after[other] >> reader & 1:
                    self.add(other, writer)
                    changed = True
                elif self.after[writer] >> other & 1:
                    self.add(reader, other)
                    changed = True
                else:
                    left.append((reader, writer, other))
            self.open = left

    def has_cycle(self):
        return any(row >> x & 1 for x, row in enumerate(self.after))


def contradiction(pairs, wrong, spare):
    log = Log()
    idle(log, spare)
    hide(log, pairs, wrong)
    return log


def busy(seed, violated):
    """A serial store, or one with stale reads, and an independent contradiction."""
    draw = random.Random(seed)
    log = store(240 if violated else 300, 14, draw.choice((12, 24, 48)), seed, 0.9)
    if violated:
        pairs = draw.randint(2, 10)
        hide(log, pairs, all_ways(2) if pairs == 2 else all_ways(3) if pairs == 3 else chain(pairs))
    return log


def rows():
    for spare in (0, 32, 400):
        for pairs in (2, 3):
            yield f"all ways of {pairs} pairs beside {spare}", contradiction(pairs, all_ways(pairs), spare)
        for pairs in (5, 12):
            yield f"chain of {pairs} pairs beside {spare}", contradiction(pairs, chain(pairs), spare)
    for seed in range(8):
        yield f"formula of 10 pairs, seed {seed}", contradiction(10, formula(10, 13, 3, seed), 16)
    for seed in range(15):
        yield f"store violated, seed {seed}", busy(seed, True)
    for seed in range(15):
        yield f"store serial, seed {seed}", busy(seed, False)
    for seed in range(10):
        yield f"store stale, seed {seed}", store(300, 16, 48, seed, 0.9, 0.1, 12)
    for keys, blind in ((16, 0.3), (64, 0.5), (64, 0.9), (256, 0.9)):
        yield f"store honest, {keys} keys, blind {blind}", store(4096, 64, keys, 1, blind)
    for same in (True, False):
        for keys in (1, 2, 16):
            for sessions in (8, 64):
                yield f"blind, {'same' if same else 'any'}, {keys} keys, {sessions} sessions", blind_counter(4096, keys, sessions, same)
        yield f"blind, {'same' if same else 'any'}, 256 keys, 64 sessions, 512", blind_counter(512, 256, 64, same)


def run(program, lines):
    """The kind, the size of the certificate, the seconds of the round, and the peak memory in
    MiB."""
    process = subprocess.Popen([program], stdin=subprocess.PIPE, stdout=subprocess.PIPE)
    for line in lines[:-1]:
        process.stdin.write(line.encode() + b"\n")
        process.stdin.flush()
        assert process.stdout.readline() == b'["ok"]\n', line
    begin = time.perf_counter()
    process.stdin.write(lines[-1].encode() + b"\n")
    process.stdin.flush()
    report = json.loads(process.stdout.readline())
    seconds = time.perf_counter() - begin
    with open(f"/proc/{process.pid}/status", encoding="ascii") as status:
        peak = [int(line.split()[1]) for line in status if line.startswith("VmHWM:")]
    process.stdin.close()
    process.wait()
    return report[2], len(report[4]) if len(report) > 4 else 0, seconds, peak[0] / 1024


class Formula:
    """Clauses for a SAT solver: each transaction has a place, a binary number, and earlier ones
    have lower places."""

    def __init__(self, log):
        relation = Relation(log)
        self.clauses, self.last = [], 0
        bits = max(1, (len(relation.number) - 1).bit_length())
        self.places = [[self.fresh() for _ in range(bits)] for _ in relation.number]
        self.known = {}
        for session, txns in enumerate(log.sessions):
            for place, (reads, _) in enumerate(txns):
                me = relation.number[(session, place)]
                if place:
                    self.clauses.append([self.below(me - 1, me)])
                for _, *source in reads:
                    self.clauses.append([self.below(relation.number[tuple(source)], me)])
        for reader, writer, other in relation.open:
            self.clauses.append([self.below(other, writer), self.below(reader, other)])

    def fresh(self):
        self.last += 1
        return self.last

    def below(self, a, b):
        """A literal that implies that a's place is below b's: at some bit a has 0 and b has 1, and
        above it they are equal."""
        if (a, b) in self.known:
            return self.known[(a, b)]
        less = self.fresh()
        self.clauses.append([-less])
        for low, high in zip(self.places[a], self.places[b]):
            rest, less = less, self.fresh()
            self.clauses += [[-less, -low, high], [-less, -low, rest], [-less, high, rest]]
        self.known[(a, b)] = less
        return less

    def seconds(self, solver):
        with tempfile.NamedTemporaryFile("w", suffix=".cnf") as file:
            file.write(f"p cnf {self.last} {len(self.clauses)}\n")
            file.writelines(" ".join(map(str, clause)) + " 0\n" for clause in self.clauses)
            file.flush()
            begin = time.perf_counter()
            status = subprocess.run([solver, file.name], stdout=subprocess.DEVNULL, stderr=subprocess.DEVNULL).returncode
            return {10: "yes", 20: "no", 30: "yes"}.get(status, "?"), time.perf_counter() - begin


def main():
    words = argparse.ArgumentParser(description=__doc__, formatter_class=argparse.RawDescriptionHelpFormatter)
    words.add_argument("--budget", type=int, default=65536, help="nodes of a search (65,536)")
    words.add_argument("--some", metavar="WORD", default="", help="only rows with this in their name")
    words.add_argument("--write", metavar="FOLDER", help="write the scripts there, and run nothing")
    words.add_argument("programs", nargs="*", default=["crates/cobra_audit/out/cobra_audit"])
    asked = words.parse_args()
    solver = next(filter(None, map(shutil.which, ("cadical", "clasp", "minisat"))), None)
    print(f"budget {asked.budget}, load {os.getloadavg()[0]:.1f}" + (f", beside {os.path.basename(solver)}" if solver else ""))
    print(f"{'history':38} txns  " + "     kind items       s   MiB" * len(asked.programs) + ("    sat       s" if solver else ""), flush=True)
    for name, log in rows():
        if asked.some not in name:
            continue
        lines = log.lines(asked.budget)
        if asked.write:
            with open(os.path.join(asked.write, name.replace(",", "").replace(" ", "_") + ".jsonl"), "w", encoding="ascii") as file:
                file.writelines(line + "\n" for line in lines)
            continue
        told = f"{name:38} {sum(map(len, log.sessions)):4}  "
        for program in asked.programs:
            told += "%9s %5d %7.2f %5.0f" % run(program, lines)
        if solver:
            told += "  %5s %7.2f" % Formula(log).seconds(solver)
        print(told, flush=True)


if __name__ == "__main__":
    main()
