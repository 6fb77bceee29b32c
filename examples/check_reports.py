#!/usr/bin/env python3
"""Checks reports of cobra_audit independently: orders and refutations against the script.

    python3 examples/check_reports.py SCRIPT REPLIES

SCRIPT has the lines that the auditor was given, REPLIES its replies, line by line. Each report is
checked against what had been accepted before its round began: the order of a serial or pending one
has to explain all reads, and the refutation of a violated one has to leave no order, step by step,
as docs/FORMATS.md says. A spent report claims nothing. A cut has to be a prefix of the last
reported order, up to a fence, and its last writers have to be those of that prefix; that every
order has this prefix isn't checked. It prints a line per report and per cut, and ends with status 1
if one is wrong.

It is a second opinion: some 250 lines of plain Python, slow, for readers who don't trust the
proofs.
"""
import json
import sys

INIT = "init"


class Wrong(Exception):
    """Why a report doesn't hold."""


class History:
    """What was accepted: for each session its transactions, each with its reads and the keys that
    it writes, and how many of them are gone; and for each key its last writer that is gone. If a
    script resumes another one, what was gone before is unknown: for each session the numbers below
    `known_from`."""

    def __init__(self, known_from):
        self.sessions = [[] for _ in known_from]
        self.known_from, self.gone, self.last = list(known_from), list(known_from), {}

    def offer(self, session, txns):
        for reads, writes, *more in txns:
            if more == ["aborted"]:  # version 2: what it did has no effect
                reads, writes = [], []
            sources = [(read[0], INIT if read[1] == INIT else (read[1], read[2])) for read in reads]
            self.sessions[session].append((sources, set(writes)))

    def join(self, session, txns):
        if session == len(self.sessions):
            for numbers in (self.known_from, self.gone):
                numbers.append(0)
            self.sessions.append([])
        self.offer(session, txns)

    def copy(self):
        other = History(self.known_from)
        other.sessions = [list(txns) for txns in self.sessions]
        other.gone, other.last = list(self.gone), dict(self.last)
        return other

    def cut(self, gone, last):
        for session, _ in gone:
            self.gone[session] += 1
        self.last.update(last)

    def counts(self):
        return [first + len(txns) for first, txns in zip(self.known_from, self.sessions)]

    def get(self, txn):
        session, number = txn
        if not (session >= 0 and number >= 0 and self.is_received(txn)):
            raise Wrong(f"{txn} was not taken in")
        if number < self.gone[session]:
            raise Wrong(f"{txn} is gone")
        return self.sessions[session][number - self.known_from[session]]

    def is_gone(self, txn):
        return txn[0] < len(self.sessions) and txn[1] < self.gone[txn[0]]

    def reads_base(self, txn, key):
        """Whether it reads the version of the key from before everything that remains."""
        return self.reads(txn, key, self.last.get(key, INIT))

    def is_received(self, txn):
        return txn[0] < len(self.sessions) and txn[1] < self.counts()[txn[0]]

    def reads(self, txn, key, source):
        return (key, source) in self.get(txn)[0]

    def writes(self, txn, key):
        return key in self.get(txn)[1]

    def has_pending(self):
        return any(
            source != INIT and not self.is_received(source)
            for txns in self.sessions
            for reads, _ in txns
            for _, source in reads
        )


def check_order(history, order):
    """Every remaining transaction occurs once, each session's in order; each read sees the last
    writer before it."""
    next_of = list(history.gone)
    last = dict(history.last)
    for session, number in order:
        if next_of[session] != number:
            raise Wrong(f"{session}.{number} stands out of its session's order")
        next_of[session] += 1
        reads, writes = history.get((session, number))
        for key, source in reads:
            met = last.get(key, INIT)
            if source != met and not (source != INIT and not history.is_received(source)):
                raise Wrong(f"{session}.{number} reads key {key} from {source}, and meets {met}")
        for key in writes:
            last[key] = (session, number)
    if next_of != history.counts():
        raise Wrong("a transaction is missing")


def ends(arc):
    """The two transactions of an arc."""
    fs, fn, ts, tn = arc[-4:]
    return (fs, fn), (ts, tn)


def check_arc(history, taken, arc):
    """The arc is in every order that keeps the sides taken."""
    kind, (before, after) = arc[0], ends(arc)
    history.get(before), history.get(after)
    if kind == "session" and len(arc) == 5:
        right = before[0] == after[0] and before[1] < after[1]
    elif kind == "read" and len(arc) == 6:
        right = history.reads(after, arc[1], before) and history.writes(before, arc[1])
    elif kind == "base" and len(arc) == 6:
        right = history.reads_base(before, arc[1]) and before != after and history.writes(after, arc[1])
    elif kind == "taken" and len(arc) == 5:
        right = (before, after) in taken
    else:
        right = False
    if not right:
        raise Wrong(f"{arc} isn't right")


def check_cycle(history, taken, arcs):
    """The arcs form a cycle."""
    if not arcs:
        raise Wrong("an empty cycle")
    for arc, following in zip(arcs, arcs[1:] + arcs[:1]):
        check_arc(history, taken, arc)
        if ends(arc)[1] != ends(following)[0]:
            raise Wrong(f"{arc} doesn't end where {following} begins")


def sides(history, choice):
    """The arcs of the two sides of a choice: another writer comes before the writer that was read
    from, or after the reader."""
    ts, tn, key, ws, wn, vs, vn = choice
    reader, writer, other = (ts, tn), (ws, wn), (vs, vn)
    right = history.reads(reader, key, writer) and history.writes(writer, key) and history.writes(other, key)
    if not right or other in (writer, reader):
        raise Wrong(f"{choice} is no choice")
    return [(other, writer), (reader, other)]


def check_leaf(history, taken, item):
    """An item that ends a branch: a cycle, or a read that no order allows."""
    if item[0] == "cycle" and len(item) == 2:
        check_cycle(history, taken, item[1])
    elif item[0] == "nowrite":
        _, session, number, key = item
        reads, _ = history.get((session, number))
        if not any(
            k == key and source != INIT and history.is_received(source) and not history.is_gone(source) and not history.writes(source, key)
            for k, source in reads
        ):
            raise Wrong(f"{item}: no such read")
    elif item[0] == "gone":
        _, session, number, key = item
        reads, _ = history.get((session, number))
        older = [source for k, source in reads if k == key and (source == INIT or history.is_gone(source))]
        if not any(source != history.last.get(key, INIT) for source in older):
            raise Wrong(f"{item}: no such read")
    else:
        raise Wrong(f"{item} ends nothing")


def check_tree(history, items):
    """Each split has both its branches, each ended by a leaf; what is forced is forced by a
    cycle."""
    waiting = [frozenset()]
    for item in items:
        if not waiting:
            raise Wrong(f"{item} follows the end")
        taken = waiting.pop()
        if item[0] == "force":
            _, choice, side, cycle = item
            both = sides(history, choice)
            check_cycle(history, taken | {both[2 - side]}, cycle)
            waiting.append(taken | {both[side - 1]})
        elif item[0] == "split" and len(item) == 2:
            first, second = sides(history, item[1])
            waiting += [taken | {second}, taken | {first}]
        else:
            check_leaf(history, taken, item)
    if waiting:
        raise Wrong("a branch has no end")


def check_report(history, reply):
    kind, counts = reply[2], reply[3]
    if counts != history.counts():
        raise Wrong(f"{history.counts()} were taken in")
    if kind in ("serial", "pending"):
        check_order(history, [tuple(txn) for txn in reply[4]])
        if (kind == "pending") != history.has_pending():
            raise Wrong("pending and serial are confounded")
    elif kind == "violated":
        check_tree(history, reply[4])
    elif kind != "spent":
        raise Wrong("no such kind")


def check_cut(history, order, reply):
    """What is gone is a prefix of the last reported order, up to a fence; then it is removed."""
    _, fence, gone, last = reply
    front = [tuple(txn) for txn in order[: len(gone)]]
    if sorted(front) != [tuple(txn) for txn in gone] or not front or front[-1] != tuple(fence):
        raise Wrong("what is gone is no front of the order that ends with the fence")
    if history.get(front[-1])[1] != {0}:
        raise Wrong("it is no fence")
    writers = {key: txn for txn in front for key in history.get(txn)[1]}
    if [[key, *txn] for key, txn in sorted(writers.items())] != last:
        raise Wrong("other transactions wrote last")
    history.cut(front, writers)


def check_handed_in(command, reply):
    """A report that was handed in is reported unchanged."""
    _, word, given = command
    if (reply[2] == "violated") != (word == "refuted") or reply[2] == "spent" or reply[4] != given:
        raise Wrong("it isn't what was handed in")


def check_run(script, replies):
    """Prints a line for each report and each cut; returns how many are wrong."""
    history, begun, order, wrong = None, None, [], 0
    for line, text in zip(script, replies):
        reply = json.loads(text)
        if reply[0] == "no":
            continue
        command = json.loads(line)
        if command[0] == "open":
            history = History([0] * command[1])
        elif command[0] == "marks":
            history = History(command[1])
        elif command[0] == "last":
            history.last.update((key, (session, number)) for key, session, number in command[1])
        elif command[0] == "offer":
            history.offer(command[1], command[3])
        elif command[0] == "join":
            history.join(command[1], command[-1])
        elif command[0] == "begin":
            begun = history.copy()
        if command[0] in ("join", "rebuild"):
            order = []  # a cut that was found is dropped
        if reply[0] not in ("report", "cut"):
            continue
        asked = begun if command[0] in ("finish", "collect", "answer") else history
        told = f"round {reply[1]}: {reply[2]}" if reply[0] == "report" else f"cut at {reply[1][0]}.{reply[1][1]}"
        try:
            if reply[0] == "cut":
                check_cut(history, order, reply)
                order = []
            else:
                if command[0] == "answer":
                    check_handed_in(command, reply)
                check_report(asked, reply)
                order = reply[4] if reply[2] in ("serial", "pending") else order
            print(f"{told}, right")
        except Wrong as why:
            wrong += 1
            print(f"{told}, WRONG: {why}")
    return wrong


def main():
    if len(sys.argv) != 3:
        sys.exit(__doc__)
    with open(sys.argv[1], "rb") as script, open(sys.argv[2], "rb") as replies:
        sys.exit(1 if check_run(script, replies) else 0)


if __name__ == "__main__":
    main()
