#!/usr/bin/env python3
"""Runs in which sessions join, close and return, judged over their whole histories.

    python3 bench/check/joins.py [--runs N] [--seed N] [--program PROGRAM]

Each run is a small store that executes what clients do, and lies now and then. Clients come and go,
meet, and are logged in any order between their sessions. Its lines go to cobra_audit, with rounds
and cuts between them; some rounds are searched while more lines arrive, and some of these are
skipped. Each reply is judged by the plain model (`judge.py`), and each report also by the
definition over everything that was ever accepted, as if nothing had been cut away: a client that
joined has an additional session, and one that returned goes on in an existing one. It prints a
table, and the first wrong run as a script, with status 1.
"""
import argparse
import json
import os
import random
import subprocess
import sys
from collections import Counter, defaultdict

sys.path[:0] = [os.path.join(os.path.dirname(os.path.abspath(__file__)), "../model")]
from judge import ABORTED, NAMES, Model, command_of, effect_of
from plain_verdicts import NO, SPENT, YES, Parts, Relation, Wrong, cut_of, has_order, scan

FARTHEST = 20000  # nodes or fronts that are tried for a whole history
INIT = ("init",)


def compact(told):
    return json.dumps(told, separators=(",", ":")).encode()


def verdict_of(history, counts):
    """The verdict by definition, for this many transactions of each session; None if it takes too
    long."""
    parts = Parts([0] * len(counts), [txns[:count] for txns, count in zip(history, counts)],
                  [False] * len(counts))
    found = has_order(parts, FARTHEST)
    if found is None:
        found = {YES: True, NO: False, SPENT: None}[
            scan(Relation(parts), parts.has_bad_read(), FARTHEST)[0]]
    if found is None:
        return None
    return "violated" if not found else "pending" if parts.has_pending() else "serial"


class Clients:
    """What clients do in the store, which runs it one after another; it waits in their sessions."""

    def __init__(self, dice):
        self.dice = dice
        self.keys = [*range(1, dice.choice((1, 2, 3, 4)) + 1)]
        self.lies = dice.choice((0.0, 0.0, 0.0, 0.05))
        self.wrong_fences = dice.choice((0.0, 0.0, 0.05, 0.3))
        self.blind = dice.choice((0.0, 0.1))
        self.aborts = dice.choice((0.0, 0.0, 0.1))  # attempts; a lie may be a read of one of them
        self.begun = [0] * dice.choice((1, 2, 3))
        self.waiting = [[] for _ in self.begun]  # (joins, number, transaction), or None for a close
        self.open = [True] * len(self.begun)
        self.last, self.writers = {}, defaultdict(list)

    def log(self, session, keys, writes, joins=False):
        me = (session, self.begun[session])
        self.begun[session] += 1
        reads = [[key, *self.source(key, me)] for key in keys]
        is_lost = self.dice.random() < self.aborts
        for key in writes:
            self.writers[key].append(me)
            if not is_lost:
                self.last[key] = me
        self.waiting[session].append(
            (joins, me[1], [reads, writes, *([ABORTED] if is_lost else [])]))

    def source(self, key, me):
        found = self.last.get(key)
        lies = self.wrong_fences if key == 0 else self.lies
        if self.writers[key] and self.dice.random() < lies:
            found = self.dice.choice((None, *self.writers[key][-4:]))
        return INIT if found in (None, me) else found

    def execute(self):
        there = [session for session, is_open in enumerate(self.open) if is_open]
        if not there:
            return
        keys = sorted(self.dice.sample(self.keys, self.dice.randrange(len(self.keys)) + 1)[:2])
        writes = {key for key in keys if self.dice.random() < 0.6}
        if self.dice.random() < self.blind:
            writes.add(self.dice.choice(self.keys))
        self.log(self.dice.choice(there), keys, sorted(writes))

    def meet(self):
        there = [session for session, is_open in enumerate(self.open) if is_open]
        for session in there * 2:
            self.log(session, [0], [0])

    def leave(self):
        there = [session for session, is_open in enumerate(self.open) if is_open]
        if len(there) > 1 or there and self.dice.random() < 0.05:
            session = self.dice.choice(there)
            self.open[session] = False
            self.waiting[session].append(None)

    def join(self, parts):
        """A new session, or one of which nothing remains and nothing waits."""
        vacant = [session for session, txns in enumerate(parts.remaining)
                  if parts.closed[session] and not txns and not self.waiting[session]]
        is_next = len(self.begun) == len(parts.gone) < 8
        if vacant and (not is_next or self.dice.random() < 0.7):
            session = self.dice.choice(vacant)
            self.begun[session] = parts.received()[session]
        elif is_next:
            session = len(self.begun)
            self.begun.append(0)
            self.waiting.append([])
            self.open.append(False)
        else:
            return
        self.open[session] = True
        if self.wrong_fences and self.dice.random() < 0.1:  # it begins with no fence
            self.log(session, self.keys[:1], [], True)
        else:
            self.log(session, [0], [0], True)

    def give_up(self, session):
        """What it is to join with is refused for good: it never existed."""
        self.waiting[session], self.open[session] = [], False


class Foreseen(Model):
    """Predicts the reply, as far as a run has to know it: whether a report finds an order, and so a
    cut."""

    def foresee(self, command):
        word, *rest = command
        if word == "search":
            return json.loads(self.begin_search(*rest))
        if word not in ("round", "finish", "collect"):
            return json.loads(getattr(self, word)(*rest))
        refused = self.refused_round(word)
        if refused:
            return json.loads(refused)
        parts, self.snapshot, self.search = self.snapshot or self.parts, None, None
        relation = Relation(parts)
        found, _ = scan(relation, parts.has_bad_read(), FARTHEST)
        if found == YES:
            self.held = cut_of(parts, relation)
        return ["report"]


class Run:
    """One run: its lines, and what has been accepted."""

    def __init__(self, dice):
        self.dice = dice
        self.clients, self.model, self.history = Clients(dice), Foreseen(), []
        self.script, self.opens = [], None  # what was accepted of each session when a round began
        self.counts = {}  # by report's line, what had been accepted of each session
        self.refused = Counter()  # consecutive refused joins of each session

    def ask(self, *told):
        """The predicted reply."""
        line = compact(told)
        reply = self.model.foresee(command_of(line))
        if reply == ["ok"]:
            self.accepted(command_of(line))
        if reply == ["report"]:
            counts, self.opens = self.opens or [len(txns) for txns in self.history], None
            self.counts[len(self.script)] = counts
        self.script.append(line)
        return reply

    def accepted(self, command):
        word, *rest = command
        if word == "open":
            self.history = [[] for _ in range(rest[0])]
        if word == "join" and rest[0] == len(self.history):
            self.history.append([])
        if word in ("offer", "join"):
            self.history[rest[0]] += map(effect_of, rest[-1])
        if word == "begin":
            self.opens = [len(txns) for txns in self.history]
        if word == "skip":
            self.opens = None

    def judge(self, program, table):
        """Judges the program's replies. Raises Wrong."""
        script = b"\n".join([*self.script, b""])
        ran = subprocess.run([program], input=script, stdout=subprocess.PIPE, check=False)
        model, replies = Model(), ran.stdout.split(b"\n")
        if len(replies) != len(self.script) + 1 or replies[-1] or ran.returncode:
            raise Wrong(f"{len(replies) - 1} replies to {len(self.script)} lines")
        for place, (line, reply) in enumerate(zip(self.script, replies)):
            try:
                model.judge(line, reply)
                self.judge_whole(place, json.loads(reply), table)
            except Wrong as why:
                raise Wrong(f"line {place + 1}: {why}; told is {reply[:300]!r}") from why

    def judge_whole(self, place, reply, table):
        command = json.loads(self.script[place])
        word = f" {NAMES[reply[1]]}" if reply[0] == "no" else ""
        if command[0] == "join" and not word:
            word = ", back" if len(command) == 4 and command[2] else ", new"
        table[command[0] + word] += 1
        if reply[0] != "report":
            return
        counts = self.counts[place]
        if reply[3] != counts:
            raise Wrong(f"{counts} were accepted as the round began")
        whole = verdict_of(self.history, counts)
        table[f"report {reply[2]}, of the whole {whole}"] += 1
        if "spent" != reply[2] != whole is not None:
            raise Wrong(f"the whole history is {whole}")

    def go(self):
        dice, clients = self.dice, self.clients
        version = [2] if clients.aborts else []
        self.ask("open", len(clients.begun), dice.choice((40, 4096)), *version)
        while sum(map(len, self.history)) < 40 and len(self.counts) < 10:
            turn = dice.random()
            if turn < 0.4:
                clients.execute()
            elif turn < 0.43:
                clients.meet()
            elif turn < 0.52:
                clients.leave()
            elif turn < 0.64 and (clients.last.get(0) or dice.random() < 0.1):
                clients.join(self.model.parts)
            elif turn < 0.8:
                self.hand_in()
            elif turn < 0.88:
                self.settle()
            elif turn < 0.93:
                self.round()
        self.hand_in_all()
        self.ask("round", 4096, 0, 1, "guided")
        self.ask("show")

    def settle(self):
        """The clients meet, and what they have done is handed in; usually something can then be
        forgotten."""
        self.clients.meet()
        if self.dice.random() < 0.2:
            self.clients.leave()
        self.hand_in_all()
        if self.dice.random() < 0.5:
            self.ask("round", 4096, 0, 1, "guided")
        else:
            self.begin_search()
            self.clients.execute()
            self.hand_in()
            self.end_round()
        self.ask("truncate")

    def hand_in_all(self):
        if self.opens and self.dice.random() < 0.9:
            self.end_round()
        for _ in range(3):
            self.hand_in(100)
        if self.opens:
            self.end_round()

    def begin_search(self):
        self.ask("begin")
        self.ask("search", 4096, 0, 1, "guided")

    def end_round(self):
        """Ends the open round."""
        if not self.model.search:
            self.ask("finish", 4096, 0, 1, "guided")
        elif self.dice.random() < 0.15:
            self.ask("skip")
        else:
            self.ask("collect", "wait")

    def hand_in(self, most=3):
        """Hands in what waits in some sessions, in any order."""
        for session in self.dice.sample(range(len(self.clients.waiting)),
                                        len(self.clients.waiting)):
            for _ in range(self.dice.randrange(most + 1)):
                if not self.clients.waiting[session] or not self.hand_in_one(session):
                    break

    def hand_in_one(self, session):
        """Whether it was accepted."""
        waiting = self.clients.waiting[session]
        if waiting[0] is None:
            reply = self.ask("close", session)
        else:
            joins, first, txn = waiting[0]
            more = 1 if joins and self.dice.random() < 0.7 else self.dice.choice((1, 1, 2, 4))
            some = [txn]
            for one in waiting[1:more]:
                if one is None:
                    break
                some.append(one[2])
            if not joins:
                reply = self.ask("offer", session, first, some)
            elif session == len(self.history):
                reply = self.ask("join", session, some)
            else:
                reply = self.ask("join", session, first, some)
            if reply == ["ok"]:
                del waiting[:len(some) - 1]
        if reply == ["ok"]:
            waiting.pop(0)
            self.refused[session] = 0
            return True
        self.refused[session] += 1
        if reply[2] in ("NotAnchored", "BadFence") and self.refused[session] > 9:
            self.clients.give_up(session)
        return False

    def round(self):
        turn = self.dice.random()
        if self.opens and turn < 0.7:
            self.end_round()
        elif turn < 0.35:
            self.begin_search() if self.dice.random() < 0.7 else self.ask("begin")
        else:
            self.ask("round", 4096, 0, 1, "guided")
        if self.dice.random() < 0.8:
            self.ask("truncate")
        if self.dice.random() < 0.05:
            self.ask("rebuild")


def main():
    asked = argparse.ArgumentParser(description=__doc__.splitlines()[0])
    asked.add_argument("--runs", type=int, default=300, help="how many runs (300)")
    asked.add_argument("--seed", type=int, default=random.randrange(10**6), help="the seed of the dice (drawn)")
    default = os.environ.get("COBRA_AUDIT", "crates/cobra_audit/out/cobra_audit")
    asked.add_argument("--program", default=default)
    asked = asked.parse_args()
    table = Counter()
    for number in range(asked.runs):
        run = Run(random.Random(f"{asked.seed} {number}"))
        run.go()
        try:
            run.judge(asked.program, table)
        except Wrong as why:
            sys.stdout.buffer.write(b"\n".join([*run.script, b""]))
            sys.exit(f"run {number} of seed {asked.seed}: {why}")
        if number % 50 == 49:
            print(f"{number + 1} runs", file=sys.stderr, flush=True)
    print(f"seed {asked.seed}: {asked.runs} runs, as they have to be")
    for word in sorted(table):
        print(f"{table[word]:8} {word}")


if __name__ == "__main__":
    main()
