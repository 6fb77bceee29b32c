"""Scripts that ask for strict serializability, for fuzz.py: a store runs transactions at the same
time, logs when they begin and end, and lies now and then."""
from collections import defaultdict

from fuzz_lines import ABORTED, compact, copied, effort, many, odd, versioned, write

UNKNOWN = (0, 2**64 - 1)  # a begin and an end that say so


class Clients:
    """Sessions that run transactions at the same time. What they have logged waits until it is
    offered, each as `(txn, began, ended)`."""

    def __init__(self, dice, sessions):
        self.dice, self.now = dice, dice.choice((1, 1, 2**61))
        self.lies = dice.choice((0.0, 0.0, 0.02, 0.1))
        self.unknown = dice.choice((0.0, 0.0, 0.1, 1.0))
        self.stale = dice.choice((0.0, 0.0, 0.05, 0.3))  # reads of what was there before
        self.keys = range(1, dice.choice((2, 3, 4, 7)))
        self.last, self.before, self.writers = {}, {}, defaultdict(list)
        self.running = {}  # by session, the begin; then it has its effect, too
        self.waiting = [[] for _ in range(sessions)]
        self.first = [0] * sessions

    def execute(self):
        """One session begins a transaction, has its effect, or ends it."""
        session = self.dice.randrange(len(self.waiting))
        self.now += self.dice.choice((0, 1, 1, 5))
        if session not in self.running:
            self.running[session] = [self.now, None]
        elif self.running[session][1] is None:
            self.running[session][1] = self.effect(session)
        else:
            began, txn = self.running.pop(session)
            self.waiting[session].append((txn, *self.times(began, self.now)))

    def effect(self, session):
        dice, me = self.dice, (session, self.first[session] + len(self.waiting[session]))
        keys = sorted(dice.sample(self.keys, min(len(self.keys), dice.choice((0, 1, 1, 2)))))
        writes = [key for key in keys if dice.random() < 0.6]
        reads = [[key, *self.source(key, me)] for key in keys if dice.random() < 0.8]
        is_lost = dice.random() < 0.05
        for key in writes:
            self.writers[key].append(me)
            if not is_lost:
                self.before[key], self.last[key] = self.last.get(key), me
        return [reads, writes, *([ABORTED] if is_lost else [])]

    def source(self, key, me):
        dice, found = self.dice, self.last.get(key)
        if dice.random() < self.stale:
            found = self.before.get(key)
        if dice.random() < self.lies:
            found = dice.choice((None, (dice.randrange(len(self.waiting)), dice.randrange(9)),
                                 *self.writers[key][-3:]))
        return ("init",) if found is None or found == me else found

    def times(self, began, ended):
        dice = self.dice
        if dice.random() < self.unknown:
            began, ended = dice.choice((UNKNOWN, (UNKNOWN[0], ended), (began, UNKNOWN[1])))
        if dice.random() < self.lies / 3:
            ended = max(0, ended - dice.choice((1, 3, 20)))
        return began, ended

    def go_on(self, received):
        """What was taken in no longer waits."""
        for session, count in enumerate(received[:len(self.waiting)]):
            taken = count - self.first[session]
            if taken > len(self.waiting[session]):
                self.waiting[session] = []
            elif taken > 0:
                del self.waiting[session][:taken]
            self.first[session] = max(count, self.first[session])


class Timed:
    """Whole scripts: offers of several sessions in any order, with rounds."""

    def __init__(self, dice):
        self.dice, self.version = dice, dice.choice((2, 3))
        self.sessions = dice.choice((1, 2, 2, 3, 3, 4, 6, many(dice, self.version, 0.05, 5)))
        self.limit = dice.choice((1, 4, 8, 16, 30, 4096))
        self.most = min(self.limit, dice.choice((8, 12, 20, 40)))
        self.clients = Clients(dice, self.sessions)
        self.odd = dice.choice((0.0, 0.0, 0.05, 0.2))
        self.full = 0  # consecutive chunks that began with that much

    def is_over(self, _):
        return self.full > 1

    def chunk(self, model):
        """About twenty lines."""
        if model.parts is None:
            return [self.told(["open", self.sessions, self.limit, self.version, "strict"])]
        received, sent, lines = model.parts.received(), [0] * self.sessions, []
        self.clients.go_on(received)
        self.full += sum(received) >= self.most
        for _ in range(self.dice.choice((6, 20))):
            lines.append(self.told(self.line(sent, sum(received) + sum(sent))))
        return [*lines, ("timed: round", compact(["round", 256, 0, 1]))]

    def line(self, sent, count):
        dice = self.dice
        if count < self.most and dice.random() < 0.7 or dice.random() < 0.05:
            return self.offer(sent)
        if dice.random() < 0.9:
            return ["round", *effort(dice)]
        return dice.choice((["show"], ["begin"], ["finish", 8, 0, 1], ["close", 0], ["truncate"],
                            ["join", self.sessions, [[[], []]]], ["save", "marks"], ["collect"],
                            ["open", 2, 16, 2, "strict"], ["answer", "order", []], ["resumed"]))

    def offer(self, sent):
        """The next fragment of some session, assuming that everything sent was taken in."""
        dice, clients = self.dice, self.clients
        while dice.random() < 0.7 or not any(
                len(its) > count for its, count in zip(clients.waiting, sent)):
            clients.execute()
        session = dice.choice([at for at, its in enumerate(clients.waiting)
                               if len(its) > sent[at]])
        given = clients.waiting[session][sent[session]:][:dice.choice((1, 1, 2, 5))]
        txns, began, ended = map(list, zip(*given))
        first = clients.first[session] + sent[session]
        sent[session] += len(txns)
        times = [] if dice.random() < 0.05 else [began, ended]
        return ["offer", session, first, copied(txns), *times]

    def told(self, line):
        """The line with its kind; it may be replaced by an odd one."""
        kind = f"timed: {line[0]}"
        if self.dice.random() < self.odd:
            return f"timed: odd {line[0]}", compact(odd(self.dice, line))
        if self.dice.random() < self.odd / 3:
            line = versioned(self.dice, line)
            return f"timed: another version of {line[0]}", write(line).encode()
        return kind, compact(line)
