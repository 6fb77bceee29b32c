"""Lines for bench/check/fuzz.py: mutated bytes, lines mutated by their grammar, and whole scripts.

Each generator is made for one script, from dice, and asked for one chunk after another: a list of
pairs of a kind, which is a word for the table, and a line without its LF. It looks at the plain
model for what has been taken in so far; within a chunk it assumes that everything is accepted.
"""
from collections import defaultdict

import os
import sys
sys.path[:0] = [os.path.join(os.path.dirname(os.path.abspath(__file__)), "../model")]
from judge import (ABORTED, ISOLATED, LARGE, LARGE_ISOLATED, LONGEST, NUMBERS, ORDERED, WHOLE, command_of, decode,
                   effect_of, encode, is_aborted)
from plain_snapshots import EVENTS, split_command
from plain_verdicts import is_fence

EDGES = (0, 1, 2, 3, 5, 6, 7, 8, 15, 16, 17, 63, 64, 65, 127, 128, 129, 255, 256, 257, 2048, 2049,
         4095, 4096, 4097, 2**19, 2**19 + 1, 2**20 - 1, 2**20, 2**20 + 1, 2**31 - 1,
         2**31, 2**32 - 1, 2**32, 2**32 + 1, 2**47 - 1, 2**47,
         NUMBERS - 257, NUMBERS - 256, NUMBERS - 1, NUMBERS, NUMBERS + 1, 2**53, 2**53 + 1,
         2**63 - 1, 2**63, WHOLE - 1, WHOLE, WHOLE + 1)
NO_NUMBERS = ("-0", "-1", "-5", "00", "01", "007", "+1", "5.0", "0.0", "5e0", "5E0", "5e-1", "1e1",
              "1e999", "0x5", "0b1", "5.", ".5", "5_0", "5n", "NaN", "Infinity", "-Infinity", "-",
              "1" * 400, "-" + "9" * 30, "0." + "3" * 60, "18446744073709551616.0", "1e", "--1",
              "5 5", "\u0665", "\uff15", "1" + "0" * 5000)
OTHERS = ("null", "true", "false", '""', '"init"', '"Init"', '"5"', "{}", '{"a":1}',
          '{"a":1,"a":1}', '{"init":{"init":[]}}', "[]", "[[]]", '[""]', '"\\u0000"', '"\\ud800"',
          '"\\udc00\\ud800"', '"\\ud83d\\ude00"', "undefined", "'init'", "nul", "tru",
          '{"a"}', "{1:2}", '{"a":1,}')
SPACES = (" ", "\t", "\r", "  ", " \t\r ")
NO_SPACES = ("\x0b", "\x0c", "\xa0", "\u2028", "\ufeff", "\x00", "/**/", "\\", ";", ",", ":",
             "\x85")
NO_TEXT = (b"\xff", b"\xfe\xff", b"\xc3", b"\xc0\x80", b"\xed\xa0\x80", b"\xf4\x90\x80\x80",
           b"\x80", b"\xe2\x28\xa1", b"\xf8\x88\x80\x80\x80", b"\xef\xbb\xbf", b"\x00", b"\r",
           b"\x1b", b"\x7f", b"\xef\xbb", b"\xf0\x9f\x98")
WORDS = ("open", "offer", "join", "close", "begin", "finish", "round", "search", "collect",
         "wait", "skip", "truncate", "rebuild", "show", "resume", "marks", "last", "resumed",
         "save", "remain", "answer", "order", "refuted", ABORTED, "snapshot", "strict", "commit")
BUDGETS = (1, 1, 1, 2, 2, 3, 4, 5, 7, 8, 15, 16, 31, 32, 33, 64, 64, 128, 256)


class Raw(str):
    """A piece of a line that is written unchanged."""


# In place of a script's version: one of version 2, or of version 3, that asks for snapshot isolation.
SNAPSHOT, LARGE_SNAPSHOT = "snapshot", "snapshot by version 3"
STRICT, LARGE_STRICT = "strict", "strict by version 3"  # the same for strict serializability
ISOLATED_AT = {2: SNAPSHOT, 3: LARGE_SNAPSHOT}
MORE = {1: [], 2: [2], 3: [3], SNAPSHOT: [2, SNAPSHOT], LARGE_SNAPSHOT: [3, SNAPSHOT],
        STRICT: [2, STRICT], LARGE_STRICT: [3, STRICT]}  # in openings
VERSIONS = (2, 2, 2, 3, 3, 1, 0, 4, 256, WHOLE, "2", "", None, True, [], [2], [3], Raw("2.0"),
            Raw("-2"), Raw("02"), Raw("2e0"), Raw("3.0"), Raw("03"), Raw('"\\u0032"'))
OUTCOMES = (*[ABORTED] * 4, "Aborted", "abort", "aborted ", "committed", "", None, False, 0, 2, [],
            [ABORTED], Raw('"\\u0061borted"'), Raw('"abor\\u0074ed"'), Raw("aborted"))


def copied(told):
    """A deep copy of the list."""
    return [copied(part) if type(part) is list else part for part in told]


def compact(told):
    return encode(told).encode()


def effort(dice):
    depth = dice.choice((0, 0, 0, 0, 1, 2, 3, 6))
    workers = dice.choice((1, 1, 1, 1, 1, 1, 2, 16)) if depth else 1
    return [dice.choice(BUDGETS), depth, workers, *dice.choice(([], [], ["guided"]))]


def save(dice, sessions):
    """A request for the parts of the saved state."""
    return ["save", *dice.choice((["marks"], ["last", dice.choice((0, 0, 1, 5, 2**63, WHOLE - 1))],
                                  ["remain", dice.randrange(sessions + 1), dice.randrange(9)]))]


def opening(word, sessions, limit, version):
    """A line with which a script of this version begins."""
    return [word, sessions, limit, *MORE[version]]


def told_txns(line):
    """The transactions of what looks like an offer or a join, perhaps with times behind them."""
    txns = line[3] if len(line) == 6 else line[-1]
    return txns if type(txns) is list else []


def versioned(dice, line):
    """The line with an addition to what an opening, or a transaction, has in version 1: a later
    version's or not, twice, or removed."""
    line = copied(line)
    if line[0] in ("open", "resume"):
        line = line[:3] if dice.random() < 0.8 else line
        if dice.random() < 0.2:
            words = (SNAPSHOT, SNAPSHOT, STRICT, SNAPSHOT[:-1], "serializable")
            line = [*line[:3], dice.choice((2, 3, 3, 4)), dice.choice(words)]
        holder, more = line, dice.choice(VERSIONS)
    elif line[0] in ("offer", "join") and told_txns(line):
        holder, more = dice.choice(told_txns(line)), dice.choice(OUTCOMES)
    else:
        return [*line, dice.choice((2, ABORTED))]
    if type(holder) is not list:
        return line
    if holder and dice.random() < 0.2:
        holder.pop()
    else:
        holder.insert(len(holder) if dice.random() < 0.9 else dice.randrange(3), more)
    return line


def handing(dice, handed, sessions, limit, version):
    """A line of a hand-over that may well be accepted next."""
    if handed is None or dice.random() < 0.02:
        return opening("resume", sessions, limit, version)
    if handed.parts is None:
        flags = [[dice.random() < 0.1 for _ in range(handed.sessions)]
                 for _ in range(handed.marks_parts - 1)]
        return ["marks", [dice.choice((0, 0, 1, 3)) for _ in range(handed.sessions)], *flags]
    if handed.marks_parts == 3:
        return handing_halves(dice, handed)
    turn, gone = dice.random(), handed.parts.gone
    session = dice.choice([at for at, mark in enumerate(gone) if mark] or [0])
    if turn < 0.3:
        keys = sorted({dice.randrange(9) for _ in range(dice.randrange(4))}
                      - (dict(handed.writers).keys() if dice.random() < 0.9 else set()))
        return ["last", [[key, session, max(gone[session] - 1, 0)] for key in keys]]
    if turn < 0.7:
        session = dice.randrange(handed.sessions)
        txn = dice.choice(([[], [5]], [[[5, "init"]], [6]], [[], []], [[[6, session, 99]], [5]]))
        return ["offer", session, handed.parts.received()[session], [txn] * dice.randrange(3)]
    return ["resumed"]


def handing_halves(dice, handed):
    """The same in a script that asks for snapshot isolation, after its marks. The stars of what has
    begun usually have their writers."""
    parts, turn = handed.parts, dice.random()
    session = dice.randrange(handed.sessions)
    mark, received = parts.gone[session], parts.received()[session]
    if turn < 0.4 and mark:
        keys = {dice.choice((0, 5, 6)) for _ in range(2)} | {5 if mark % 2 else 7}
        last = [[key, session, (mark - 1) // 2] for key in keys if dice.random() < 0.9]
        if mark % 2:
            last = [[key + 2**63 if dice.random() < 0.9 else key, *writer] for key, *writer in last]
        taken = dict(handed.writers)
        return ["last", sorted(it for it in last if it[0] not in taken or dice.random() < 0.1)]
    if turn < 0.8:
        txn = dice.choice(([[], [5]], [[[5, "init"]], [6]], [[], []], [[[6, session, 99]], [5]],
                           [[[0, "init"]], [0]], [[[5, session, max(received // 2 - 1, 0)]], []]))
        return ["offer", session, received // 2, [txn] * dice.choice((0, 1, 1, 2))]
    return ["resumed"]


def saved(model):
    """The lines by which another run goes on with what the model keeps."""
    version = ISOLATED_AT[model.version] if model.is_isolated else model.version

    def ask(*wanted):
        return decode(model.owed(["save", *wanted]).decode())

    lines, key = [ask("marks")], 0
    sessions = len(lines[0][1])
    while key < WHOLE and ask("last", key)[1]:
        lines.append(ask("last", key))
        key = lines[-1][1][-1][0] + 1
    for session in range(sessions):
        first = 0
        while ask("remain", session, first)[3]:
            lines.append(ask("remain", session, first))
            first = lines[-1][2] + len(lines[-1][3])
    limit = model.limit // (2 if model.is_isolated else 1)
    return [opening("resume", sessions, limit, version), *lines, ["resumed"]]


def join(dice, parts, last_fence):
    """A session that joins or returns with a fence, usually correctly."""
    sessions = len(parts.gone)
    ended = [at for at in range(sessions) if parts.closed[at] and not parts.remaining[at]]
    ended = dice.choice(ended or [sessions])
    session = dice.choice((sessions, ended, dice.randrange(sessions + 1)))
    first = parts.received()[session] if session < sessions else 0
    fences = [me for me in parts.ids() if is_fence(parts.get(me))]
    anchors = [*fences, *filter(None, [parts.base.get(0)])]
    source = dice.choice(anchors) if anchors and dice.random() < 0.9 else ("init",)
    if last_fence in anchors and dice.random() < 0.8:
        source = last_fence
    txns = [[[[0, *source]], [0]], [[], [5]]][: dice.choice((1, 1, 1, 2))]
    return ["join", session, *([first] if first or dice.random() < 0.3 else []), txns]


def forged(dice, model, fewest=0):
    """An answer that is handed in: what a report has shown last, usually changed, at least this
    often, or the other of the two."""
    word = dice.choice(("order", "refuted"))
    given = copied(model.shown[word])
    for _ in range(max(fewest, dice.choice((0, 0, 1, 1, 1, 2, 3)))):
        given = dice.choice((odd, odd, odd, cut_off, swapped, exchanged))(dice, given)
    if word == "order" and dice.random() < 0.03:
        given = [renamed(dice, each) for each in given]
    if dice.random() < 0.02:
        word = dice.choice(("order", "refuted", "serial", "Order", ""))
    return ["answer", word, given]


def renamed(dice, name):
    """A transaction by the other names: without the word of an event, or with one."""
    if type(name) is not list:
        return name
    return name[:2] if len(name) == 3 else [*name, dice.choice(EVENTS)]


def cut_off(dice, items):
    """The list without its end, its beginning or an item."""
    place = dice.randrange(len(items) + 1)
    return dice.choice((items[:place], items[place:], items[:place] + items[place + 1:]))


def swapped(dice, items):
    """The list with two neighbouring pieces swapped, such as the halves of a split."""
    one, two, three = sorted(dice.randrange(len(items) + 1) for _ in range(3))
    return items[:one] + items[two:three] + items[one:two] + items[three:]


def exchanged(dice, items):
    """The list with one of its parts replaced by another one of the same kind."""
    found = places(items)
    if not found:
        return items
    holder, place = dice.choice(found)
    others = [it[at] for it, at in found if type(it[at]) is type(holder[place])]
    chosen = dice.choice(others)
    holder[place] = copied(chosen) if type(chosen) is list else chosen
    return items


class Store:
    """A store that runs transactions one after another, and lies now and then. What it has logged
    waits in its session until it is offered."""

    def __init__(self, dice, sessions):
        self.dice, self.sessions = dice, sessions
        self.keys = [*range(1, dice.choice((1, 2, 3, 4, 6, 12)) + 1)]
        if dice.random() < 0.1:
            self.keys[-1] = WHOLE - 1
        self.lies = dice.choice((0.0, 0.0, 0.0, 0.0, 0.02, 0.15))
        self.ahead = dice.choice((0.0, 0.0, 0.0, 0.03))  # reads of what no one has run yet
        self.blind = dice.choice((0.0, 0.1, 0.5, 0.9))
        self.meets = dice.choice((0.0, 0.1, 0.2)) if sessions < 7 else 0.0
        self.torn = sessions > 7 and dice.random() < 0.7
        if self.torn:  # readers don't write, and read anything: this requires a search
            self.keys, self.lies = [1, 2, 3, 4][:dice.choice((2, 3, 4))], 0.5
        self.aborts = 0.0  # attempts; a lie may be a read of what one of them wrote
        self.last, self.writers = {}, defaultdict(list)
        self.begun = {}  # by session, what a transaction that has begun sees; None for serial ones
        self.is_isolated = False
        self.waiting = [[] for _ in range(sessions)]  # the first has the number `first`
        self.first = [0] * sessions

    def fit(self, version):
        """Runs what fits scripts of this version."""
        self.is_isolated = version in (SNAPSHOT, LARGE_SNAPSHOT)
        if self.is_isolated:
            self.keys[-1] = min(self.keys[-1], ISOLATED.keys - 1)
            self.stays = self.dice.choice((0.0, 0.1, 0.5))
            self.meets = self.dice.choice((0.1, 0.3)) if self.sessions < 7 else 0.0

    def execute(self):
        """Runs one more transaction, which waits in its session; or a meeting, at which each
        session runs two fences."""
        dice = self.dice
        if dice.random() < self.meets:
            self.meet()
        elif self.torn:
            keys = sorted(dice.sample(self.keys, dice.choice((1, 2, 2, 3)) % len(self.keys) + 1))
            is_reader = dice.random() < 0.5
            self.log(dice.randrange(self.sessions), *((keys, []) if is_reader else ([], keys)))
        else:
            keys = sorted(dice.sample(self.keys, min(len(self.keys), dice.choice((0, 1, 1, 2)))))
            writes = {key for key in keys if dice.random() < 0.6}
            if dice.random() < self.blind:
                writes.add(dice.choice(self.keys))
            session = dice.randrange(self.sessions)
            seen = self.snapshot(session, writes) if self.is_isolated else self.last
            self.log(session, keys, sorted(writes), seen)

    def meet(self):
        """Each session that isn't in a transaction runs two fences; so perhaps all but one, which
        is known to have begun before them, and to commit after them."""
        dice, seen = self.dice, dict(self.last)
        if len(self.begun) == self.sessions:
            self.begun.clear()
        sessions = [at for at in range(self.sessions) if at not in self.begun]
        keys = dice.sample(self.keys, 2) if len(self.keys) > 1 and len(sessions) > 1 else None
        if not self.is_isolated or not keys or dice.random() < 0.5:
            for session in sessions * 2:
                self.log(session, [0], [0])
            return
        late, other, *_ = dice.sample(sessions, len(sessions))
        self.log(other, keys[:1], keys[:1])
        for session in sessions * 2:
            if session != late:
                self.log(session, [0], [0])
        self.log(other, keys[1:], [])
        self.log(late, sorted(keys), keys[1:], seen)

    def snapshot(self, session, writes):
        """What the session's next transaction sees, if it writes these keys: perhaps what was there
        when it began, long ago, unless one of the keys was written since."""
        seen = self.begun.pop(session, self.last)
        if self.dice.random() < self.stays:  # the one after it begins now, and commits later
            self.begun[session] = None
        is_late = any(seen.get(key) != self.last.get(key) for key in writes)
        return self.last if is_late and self.dice.random() > self.lies else seen

    def log(self, session, keys, writes, seen=None):
        """Logs a transaction of the session, which reads and writes these keys."""
        me = session, self.first[session] + len(self.waiting[session])
        seen = self.last if seen is None else seen
        reads = [[key, *self.source(key, me, seen)] for key in keys]
        is_lost = self.dice.random() < self.aborts
        for key in writes:
            self.writers[key].append(me)
            if not is_lost:
                self.last[key] = me
        self.waiting[session].append([reads, writes, *([ABORTED] if is_lost else [])])
        if session in self.begun and self.begun[session] is None:
            self.begun[session] = dict(self.last)

    def source(self, key, me, seen):
        dice, found = self.dice, seen.get(key)
        if dice.random() < self.lies and self.writers[key]:
            found = dice.choice((None, dice.choice(self.writers[key])))
        if dice.random() < self.ahead:
            found = dice.randrange(self.sessions + 1), dice.randrange(30)
        return ("init",) if found is None or found == me else found

    def go_on(self, model):
        """Follows the model: what was taken in no longer waits. Sessions may have joined; or
        another number of them was opened, perhaps in version 1, where aborted attempts are idle."""
        received = model.kept().received()
        if model.version == 1 and self.aborts:
            self.aborts = 0.0
            self.waiting = [[[[], []] if is_aborted(txn) else txn for txn in its]
                            for its in self.waiting]
        joined = received[self.sessions:]
        self.waiting += [[] for _ in joined]
        self.first += joined
        self.sessions += len(joined)
        if len(received) != self.sessions:
            self.sessions = len(received)
            self.waiting = [[] for _ in received]
            self.first = list(received)
        for session, count in enumerate(received):
            taken = count - self.first[session]
            if taken <= 0:
                continue
            if taken > len(self.waiting[session]):  # another line was taken in
                self.waiting[session] = []
            else:
                del self.waiting[session][:taken]
            self.first[session] = count


def many(dice, version, chance=1.0, few=0):
    """As many sessions as scripts of this version may have, or a little more than those of others;
    with a chance, and else few."""
    if dice.random() >= chance:
        return few
    return dice.choice((65, 256)) if version in (3, LARGE_SNAPSHOT) else 64


class Scripts:
    """Whole scripts: several sessions, whose fragments come in any order, with rounds and cuts."""

    def __init__(self, dice):
        self.dice = dice
        self.version = dice.choice((1, 2, 3, SNAPSHOT, LARGE_SNAPSHOT))
        self.sessions = dice.choice((1, 2, 2, 3, 3, 4, 6, 12, 16, many(dice, self.version, 0.1, 5)))
        self.limit = dice.choice((1, 4, 8, 16, 20, 30, 40, 50, 4096, 4096))
        self.store = Store(dice, self.sessions)
        self.most = dice.choice((8, 12, 16, 30))  # what remains is at most a little more
        if self.store.torn:
            self.most = dice.choice((12, 16))
        self.store.fit(self.version)
        if self.store.is_isolated:
            self.limit, self.most = min(self.limit, ISOLATED.limit), self.most // 2 + 2
        if self.version == 3 and dice.random() < 0.5:
            self.limit = dice.choice((ORDERED.limit + 1, LARGE.limit))
        if self.version == LARGE_SNAPSHOT and dice.random() < 0.5:
            self.limit = dice.choice((ISOLATED.limit + 1, LARGE_ISOLATED.limit))
        if self.version != 1:
            self.store.aborts = dice.choice((0.0, 0.1, 0.3))
        self.is_open, self.odd = False, dice.choice((0.0, 0.0, 0.05, 0.2))
        self.full = 0  # consecutive chunks that began with that much
        self.joins = dice.choice((0.0, 0.05, 0.2)) if self.store.meets else 0.0
        self.resumes = dice.random() < 0.25
        self.handed = []  # lines that another run has given out, to begin with

    def resumed(self, model):
        """The same, with what the model keeps, in a script of its own."""
        self.handed, self.full = saved(model), 0
        return self

    def opening(self, model):
        """The next lines of a script's beginning."""
        if self.handed:
            lines, self.handed = self.handed, []
            return [(f"script: saved {line[0]}", compact(line)) for line in lines]
        line = opening("open", self.sessions, self.limit, self.version)
        if self.resumes:
            line = handing(self.dice, model.handed, self.sessions, self.limit, self.version)
        return [self.told(line)]

    def told(self, line):
        """The line with its kind; it may be replaced by an odd one."""
        kind = f"script: {line[0]}"
        if self.dice.random() < self.odd:
            line, kind = odd(self.dice, line), f"script: odd {line[0]}"
        elif self.dice.random() < self.odd / 2:
            line, kind = versioned(self.dice, line), f"script: another version of {line[0]}"
            return kind, write(line).encode()
        return kind, compact(line)

    def is_over(self, _):
        """Whether much remains, and nothing of it is settled."""
        return self.full > 2

    def chunk(self, model):
        """About thirty lines."""
        dice, store = self.dice, self.store
        if model.parts is None:
            return self.opening(model)
        store.go_on(model)
        self.sessions = store.sessions
        self.is_open = model.snapshot is not None
        sent, lines = [0] * self.sessions, []
        remaining = sum(map(len, model.kept().remaining))
        most = min(self.most, self.limit)
        self.full = self.full + 1 if remaining >= most else 0
        for _ in range(dice.choice((8, 30))):
            if dice.random() < 0.5 and (remaining < most or dice.random() < 0.05):
                line = self.offer(sent)
                remaining += len(line[3])
            elif dice.random() < (self.joins / 9 if self.is_open else self.joins):
                line = self.join(model)
                remaining += len(line[-1])
            elif self.is_open and dice.random() < (0.03 if model.is_isolated else 0.3):
                line = forged(dice, model)
            else:
                line = self.other()
            lines.append(self.told(line))
        if remaining >= most or dice.random() < 0.3:
            lines += [("script: round", compact(["round", 64, 0, 1])),
                      ("script: truncate", compact(["truncate"]))]
        return lines

    def offer(self, sent):
        """The next fragment of some session, assuming that everything sent was taken in."""
        dice, store = self.dice, self.store
        for _ in range(dice.choice((0, 1, 2, 3))):
            store.execute()
        full = [at for at in range(self.sessions) if len(store.waiting[at]) > sent[at]]
        if not full:
            store.execute()
            full = [at for at in range(self.sessions) if len(store.waiting[at]) > sent[at]]
        session = dice.choice(full)
        waits = store.waiting[session][sent[session]:]
        txns = waits[: dice.choice((1, 1, 2, 3, 8))]
        first = store.first[session] + sent[session]
        sent[session] += len(txns)
        return ["offer", session, first, txns]

    def join(self, model):
        """A session joins with a fence; the store has run the fence if the line is likely to be
        accepted."""
        line = join(self.dice, model.kept(), self.store.last.get(0))
        me = line[1], line[2] if len(line) == 4 else 0
        asked = split_command(line) if model.is_isolated else line
        first = asked[2] if len(line) == 4 else 0
        effects = list(map(effect_of, asked[-1]))
        if not self.is_open and not model.joining_fault(line[1], first, effects):
            self.store.last[0] = me
            self.store.writers[0].append(me)
        return line

    def other(self):
        dice = self.dice
        turn = dice.random()
        if turn < 0.15:
            return ["show"]
        if turn < 0.2:
            return save(dice, self.sessions)
        if turn < 0.45:
            self.is_open = not self.is_open
            return ["begin"] if self.is_open else self.ending()
        if turn < 0.75:
            words = ("search", "search", "finish") if self.is_open else ("round",) * 9 + ("search",)
            return [dice.choice(words), *effort(dice)]
        if turn < 0.95:
            return ["truncate"]
        if turn < 0.98:
            return ["rebuild"]
        closes = 0.9 if self.joins else 0.3
        return ["close", dice.randrange(self.sessions + 1)] if dice.random() < closes else ["show"]

    def ending(self):
        """What may well end the open round, during a search or without one."""
        dice = self.dice
        return dice.choice((["finish", *effort(dice)], ["collect", "wait"], ["collect", "wait"],
                            ["collect"], ["skip"]))


def odd(dice, line):
    """The line with one of its parts, or a part of a part, changed a little or to a limit."""
    line = copied(line)
    found = places(line)
    if not found:
        return line
    holder, place = dice.choice(found)
    old = holder[place]
    if type(old) is int:
        holder[place] = dice.choice((old + 1, abs(old - 1), dice.choice(EDGES), 0))
    elif type(old) is list:
        turn = dice.randrange(5)
        if turn == 0 or not old:
            holder[place] = []
        elif turn == 1:
            old.append(dice.choice(old))
        elif turn == 2:
            old.pop(dice.randrange(len(old)))
        elif turn == 3:
            old.reverse()
        else:
            old.insert(0, dice.choice((0, [], "init", [[], []], [[], [5]], [5, "init"])))
    else:
        holder[place] = dice.choice(("init", *WORDS))
    return line


def places(value):
    """Each part of a list, and of the lists in it: the list and the place."""
    found = []
    for place, part in enumerate(value):
        found.append((value, place))
        if type(part) is list:
            found += places(part)
    return found


class Mutated:
    """Lines that are nearly commands that are allowed there."""

    def __init__(self, dice):
        self.dice = dice
        self.version = dice.choice((1, 2, 3, SNAPSHOT, LARGE_SNAPSHOT, STRICT, LARGE_STRICT))
        self.sessions = dice.choice((1, 2, 3, many(dice, self.version)))
        self.limit = dice.choice((1, 5, 10, 16))
        self.store = Store(dice, self.sessions)
        self.store.fit(self.version)
        self.store.aborts = 0.0 if self.version == 1 else 0.3
        self.count = dice.choice((16, 100))
        self.now = 1  # of the clock of what is offered with times

    def is_over(self, _):
        return False

    def base(self, model):
        """A command that is likely to be accepted."""
        dice, store = self.dice, self.store
        turn = dice.random()
        if model.parts is None and (model.handed or turn > 0.7):
            return handing(dice, model.handed, self.sessions, self.limit, self.version)
        if model.parts is None or turn < 0.05:
            return opening("open", self.sessions, self.limit, self.version)
        if turn < 0.65:
            store.go_on(model)
            store.execute()
            session = dice.choice([at for at, its in enumerate(store.waiting) if its])
            *txns, last = store.waiting[session][:4]
            if model.version == 1 and dice.random() < 0.3:  # which only version 2 would accept
                last = [*last, ABORTED]
            line = ["offer", session, store.first[session], [*txns, last]]
            return self.timed(line) if dice.random() < (0.5 if model.timed else 0.02) else line
        if turn < 0.8:
            return [dice.choice(("round", "round", "finish", "search")), *effort(dice)]
        if turn < 0.81:
            return ["close", dice.randrange(self.sessions)]
        if turn < 0.83:
            return join(dice, model.kept(), store.last.get(0))
        if turn < 0.84:
            return forged(dice, model)
        if turn < 0.85:
            return save(dice, self.sessions)
        if turn < 0.88:
            return dice.choice((["collect"], ["collect", "wait"], ["skip"]))
        return [dice.choice(("show", "show", "show", "begin", "truncate", "rebuild"))]

    def timed(self, line):
        """The offer with times: the next ones of a clock, known or not."""
        count, dice = len(line[3]), self.dice
        began = [self.now + 2 * place if dice.random() < 0.9 else 0 for place in range(count)]
        self.now += 2 * count
        return [*line, began, [time + 1 if time else WHOLE - 1 for time in began]]

    def openings_of_none(self):
        """Openings of no version, which have to be given before a valid one."""
        line = opening("open", self.sessions, self.limit, self.version)
        pieces = [write(versioned(self.dice, line)).encode() for _ in range(9)]
        return [(f"{self.name}: open in no version", piece) for piece in pieces
                if command_of(piece) is None]

    def chunk(self, model):
        lines = []
        if model.parts is None:
            lines += self.openings_of_none()
        if model.parts is None and self.dice.random() < 0.5:
            line = opening("open", self.sessions, self.limit, self.version)
            lines.append((f"{self.name}: open", compact(line)))
            self.count -= 1
        for _ in range(self.count):
            lines += self.mutate(self.base(model))
        return lines


class Answers:
    """Orders and trees that are handed in: those of reports, forged, cut and mutated."""

    def __init__(self, dice):
        self.dice = dice
        self.store = Store(dice, dice.choice((2, 2, 3, 4, 6, 12)))
        if not self.store.torn:
            self.store.lies = dice.choice((0.0, 0.0, 0.1, 0.4))
        self.store.ahead = dice.choice((0.0, 0.0, 0.0, 0.1))
        self.most = dice.choice((2, 4, 6, 8, 12))
        self.version = dice.choice((1, 2, 3, SNAPSHOT, LARGE_SNAPSHOT))
        self.store.aborts = dice.choice((0.1, 0.4)) if self.version != 1 else 0.0
        self.store.fit(self.version)

    def is_over(self, model):
        return False

    def chunk(self, model):
        """While a round is open, answers to it, of which only the last may be unchanged, since a
        right answer ends the round. Otherwise more is taken in, and a round is opened on it, after
        a report."""
        if model.parts is None:
            line = opening("open", self.store.sessions, 2048, self.version)
            return [("answers: open", compact(line))]
        if model.snapshot:
            more = [self.told(forged(self.dice, model, 1)) for _ in range(20)]
            more.append(self.told(forged(self.dice, model)))
            if self.dice.random() < 0.2:
                more.insert(0, ("answers: search", compact(["search", 256, 0, 1])))
            if self.dice.random() < 0.05:
                more.append(("answers: finish", compact(["finish", 256, 0, 1])))
                more.append(("answers: collect", compact(["collect", "wait"])))
            return more
        lines = self.offers(model) + [["round", 256, 0, 1]]
        if self.dice.random() < 0.3:
            lines += [["truncate"], ["round", 256, 0, 1]]
        return [(f"answers: {line[0]}", compact(line)) for line in [*lines, ["begin"]]]

    def told(self, line):
        kind = line[1] if line[1] in ("order", "refuted") else "neither"
        return f"answers: {kind}", compact(line)

    def offers(self, model):
        """A few more, unless as much remains as may."""
        store = self.store
        store.go_on(model)
        if sum(map(len, model.parts.remaining)) >= self.most:
            return [["open", 1, 1]] if self.dice.random() < 0.1 else []
        for _ in range(self.dice.choice((1, 2, 4))):
            store.execute()
        return [["offer", session, store.first[session], txns]
                for session, txns in enumerate(store.waiting) if txns]


class Bytes(Mutated):
    """Lines with bytes changed, removed, inserted, and spliced."""

    name = "bytes"

    def mutate(self, command):
        dice, line = self.dice, bytearray(compact(command))
        kind = dice.choice(("as it is", "flipped", "set", "taken out", "put in", "doubled", "cut",
                            "spliced", "moved", "no text"))
        for _ in range(dice.choice((1, 1, 1, 2, 4))):
            place = dice.randrange(len(line) + 1)
            getattr(self, "make_" + kind.replace(" ", "_"))(line, min(place, len(line) - 1), place)
            if not line:
                break
        return [(f"bytes: {kind}", bytes(piece)) for piece in line.split(b"\n")]

    def make_as_it_is(self, line, at, place):
        """No change: right lines get right replies."""

    def make_flipped(self, line, at, place):
        line[at] ^= 1 << self.dice.randrange(8)

    def make_set(self, line, at, place):
        line[at] = self.dice.randrange(256)

    def make_taken_out(self, line, at, place):
        del line[at:at + self.dice.choice((1, 1, 2, 9))]

    def make_put_in(self, line, at, place):
        line[place:place] = bytes([self.dice.choice(b'[]{},:"\\ \t\r\n0159.eE+-xabinituos\0')])

    def make_doubled(self, line, at, place):
        line[place:place] = line[at:at + self.dice.randrange(1, 12)]

    def make_cut(self, line, at, place):
        del line[place:]

    def make_spliced(self, line, at, place):
        other = compact([self.dice.choice(WORDS), 0, 0, [[[], [5]]]])
        line[place:] = other[self.dice.randrange(20):]

    def make_moved(self, line, at, place):
        piece = line[at:at + self.dice.randrange(1, 6)]
        del line[at:at + len(piece)]
        place = self.dice.randrange(len(line) + 1)
        line[place:place] = piece

    def make_no_text(self, line, at, place):
        line[place:place] = self.dice.choice(NO_TEXT)


class Grammar(Mutated):
    """Lines changed by their grammar: numbers, fields, nesting, escapes, white space, lengths."""

    name = "grammar"
    kinds = ("number", "no number", "other value", "field out", "field twice", "nested",
             "flattened", "word", "escape", "white space", "no space", "no text", "comma",
             "bracket", "two lines", "around", "odd", "version")

    def mutate(self, command):
        dice = self.dice
        if dice.random() < 0.002:
            return [("grammar: long lists", compact(long_offer(dice, command)))]
        kind = dice.choice(self.kinds)
        line = getattr(self, "make_" + kind.replace(" ", "_"))(command)
        if type(line) is list:
            line = write(line).encode()
        elif type(line) is str:
            line = line.encode("utf-8")
        return [(f"grammar: {kind}", piece) for piece in line.split(b"\n")]

    def put(self, command, value, wants=object):
        """The command with the value in place of one of its parts."""
        command = copied(command)
        fitting = [at for at in places(command) if isinstance(at[0][at[1]], wants)]
        if not fitting:
            return command
        holder, place = self.dice.choice(fitting)
        holder[place] = value(holder[place]) if callable(value) else value
        return command

    def make_number(self, command):
        return self.put(command, self.dice.choice(EDGES), int)

    def make_no_number(self, command):
        return self.put(command, Raw(self.dice.choice(NO_NUMBERS)), int)

    def make_other_value(self, command):
        return self.put(command, Raw(self.dice.choice(OTHERS)))

    def make_field_out(self, command):
        command = copied(command)
        holder, place = self.dice.choice(places(command))
        del holder[place]
        return command

    def make_field_twice(self, command):
        command = copied(command)
        holder, place = self.dice.choice(places(command))
        holder.insert(place, holder[place])
        return command

    def make_nested(self, command):
        deep = self.dice.choice((1, 1, 2, 5, 126, 127, 128, 129, 200, 3000))
        return self.put(command, lambda old: Raw("[" * deep + write(old) + "]" * deep))

    def make_flattened(self, command):
        flat = lambda old: Raw(",".join(map(write, old)))  # noqa: E731
        return self.put(command, flat, list)

    def make_word(self, command):
        word = command[0]
        return [self.dice.choice((word.upper(), word + " ", " " + word, word[:-1], word + "\0", "",
                                  *WORDS)), *command[1:]]

    def make_escape(self, command):
        """Words whose letters are escaped, as JSON allows, or nearly so."""
        dice = self.dice

        def escaped(old):
            place = dice.randrange(max(len(old), 1))
            code = ord(old[place]) if old else 0
            one = dice.choice((f"\\u{code:04x}", f"\\u{code:04X}", f"\\u{code:04x}",
                               f"\\u{code:03x}", f"\\x{code:02x}", "\\" + chr(code),
                               f"\\U{code:04x}", "\\/",
                               f"\\u{{{code:x}}}", "\\ud83d\\ude00", "\\ud800", f"\\u+{code:03x}"))
            return Raw('"' + old[:place] + one + old[place + 1:] + '"')
        return self.put(command, escaped, str)

    def spaced(self, command, spaces, chance):
        dice, line = self.dice, []
        for letter in write(command):
            is_mark = letter in "[],"
            if is_mark and dice.random() < chance:
                line.append(dice.choice(spaces))
            line.append(letter)
            if is_mark and dice.random() < chance:
                line.append(dice.choice(spaces))
        return "".join(line)

    def make_white_space(self, command):
        return self.spaced(command, SPACES, 0.3)

    def make_no_space(self, command):
        return self.spaced(command, NO_SPACES, 0.05)

    def make_no_text(self, command):
        line = compact(command)
        place = self.dice.choice((0, len(line), self.dice.randrange(len(line) + 1)))
        return line[:place] + self.dice.choice(NO_TEXT) + line[place:]

    def swapped(self, command, marks, others):
        line = write(command)
        at = [place for place, letter in enumerate(line) if letter in marks] or [0]
        place = self.dice.choice(at)
        return line[:place] + self.dice.choice(others) + line[place + 1:]

    def make_comma(self, command):
        return self.swapped(command, ",", (",,", "", ":", ";", " ", ",]", "\n"))

    def make_bracket(self, command):
        return self.swapped(command, "[]", ("", "[[", "]]", "{", "}", "(", "],", ",]", "[,"))

    def make_two_lines(self, command):
        between = self.dice.choice(("", " ", ",", "\r", "\t", "\r\n", "\n\n"))
        other = self.dice.choice((["show"], ["begin"], [], command))
        return write(command) + between + write(other)

    def make_around(self, command):
        front, end = self.dice.choice((
            ("", "\r"), (" ", ""), ("", " "), ("\t\r ", "\r\r"), ("\ufeff", ""), ("", "\ufeff"),
            ("", "\0"), ("\0", ""), ("", ","), ("", "#"), ("//", ""), ("", "\x0c"), ('"', '"'),
            ("[", "]"), ("{", "}"), ("", "\r" * 300), (" " * 5000, ""), ("", "x"), ('{"a":', "}"),
            ("", "null")))
        return front + write(command) + end

    def make_odd(self, command):
        return odd(self.dice, command)

    def make_version(self, command):
        return versioned(self.dice, command)


def write(value):
    """Compact JSON, except for pieces that are written unchanged."""
    kind = type(value)
    if kind is int:
        return repr(value)
    if kind is list:
        return "[" + ",".join(map(write, value)) + "]"
    return value if kind is Raw else encode(value)


def long_offer(dice, command):
    """As many fragments, reads and writes as are allowed, or one more."""
    session, first = command[1:3] if command[0] == "offer" else (0, 0)
    count = dice.choice((255, 256, 257))
    turn, more = dice.randrange(4), dice.choice(([], [], [ABORTED]))
    if turn == 0:
        return ["offer", session, first, [[[], [], *more]] * count]
    if turn == 1:
        reads = [[key, "init"] for key in range(1, count + 1)]
        return ["offer", session, first, [[reads, [], *more]]]
    if turn == 2:
        return ["offer", session, first, [[[], list(range(1, count + 1)), *more]]]
    start = NUMBERS - count + dice.randrange(3)
    return ["offer", session, start, [[[], [], *more]] * min(count, 256)]


class Longest:
    """Few lines, each of maximal length, or a byte longer."""

    def __init__(self, dice):
        self.dice, self.is_done = dice, False

    def is_over(self, _):
        return self.is_done

    def chunk(self, model):
        dice, kind = self.dice, "longest lines"
        self.is_done = True
        version = dice.choice((1, 2, 3, SNAPSHOT))
        lines = [(kind, compact(opening("open", 2, 16, version)))]
        for over in (0, 1):
            room = LONGEST + over
            fill = dice.choice((b" ", b"\t", b"\r"))
            command = dice.choice((["show"], ["offer", 0, over, [[[], [5]]]], ["begin"],
                                   ["offer", 0, over, [[[], [5], ABORTED]]]))
            line = compact(command)
            place = dice.choice((0, 1, len(line)))
            lines.append((kind, line[:place] + fill * (room - len(line)) + line[place:]))
            lines.append((kind, dice.choice((b"x", b"[", b" ", b"\0", b'"', b"1", b"\xff")) * room))
            keys = b'["offer",1,0,[[[],[' + b"7," * (room // 2)
            lines.append((kind, keys[:room - 4] + b"]]]]"))
        choice, end = b'["split",[0,0,5,1,0,1,1]],', b'["gone",0,0,5]'
        step = b'["force",[0,0,5,1,0,1,1],1,[]],'
        if version == SNAPSHOT:
            choice = b'["split",[0,0,"begin",5,1,0,"commit",1,1,"commit"]],'
            end = b'["gone",0,0,"begin",5]'
            step = choice.replace(b"split", b"force")[:-2] + b",1,[]],"
        deep = (LONGEST - 40) // (len(choice) + len(end) + 1)
        tree = choice * deep + b",".join([end] * (deep + 1))  # as deep as a line can hold
        run = step * ((LONGEST - 40) // len(step)) + end
        lines += [(kind, b'["begin"]'),
                  *((kind, b'["answer","refuted",[' + items + b"]]")
                    for items in (tree, run, tree[:-1]))]
        return lines + [(kind, b'["show"]')]
