#!/usr/bin/env python3
"""What the most expensive known lines and rounds cost, as an attacker would send them.

Run it at the top of the repository, after `cd crates/cobra_audit && rt run < /dev/null` has built
the program, or with COBRA_AUDIT naming another one:

    python3 bench/cost/worst.py [--size N] [--some WORD] [--seconds S] [--mib M] [PROGRAM]

Each row starts a program, gives it the lines before the expensive one, and then that line. The row
has the reply, its seconds and processor seconds, by how many MiB the program grew meanwhile, and
the program's peak. --size is how many transactions remain (4,096); --some takes only the rows whose
name contains WORD. A line that takes longer than S seconds (120) or makes the program grow past M
MiB (4,096) is given up, and the row says so. No line should take over 2 seconds or 64 MiB, and no
round with a budget up to 65,536 over 10 seconds or 128 MiB; a row above that is marked, by the
lower of the two times, since other programs may be running. --write FOLDER writes each row's script
there instead of running it.
"""
import argparse
import json
import os
import random
import select
import subprocess
import time
from functools import partial

import hard
import resume

LONGEST, MOST = 8388608, 256
LINE, ROUND = (2.0, 64.0), (10.0, 128.0)  # limits in seconds and MiB
DEAREST = 2**64 - 1 - MOST  # keys of twenty digits from here on
BUDGETS = (4096, 65536)
# A round of this should take at most twice as long as with one node.
HONEST = "store, 4 in 5 write 256 keys"


def compact(told):
    return json.dumps(told, separators=(",", ":")).encode()


def offers(sessions):
    """Lines that offer these transactions of each session."""
    for session, txns in enumerate(sessions):
        for first in range(0, len(txns), MOST):
            yield compact(["offer", session, first, txns[first:first + MOST]])


def opened(sessions, limit=4096):
    return [compact(["open", max(len(sessions), 1), limit]), *offers(sessions)]


def largest():
    """The largest offers that aren't TooLong, of keys with one to three digits, and with twenty."""
    for first, about in ((1, "short"), (DEAREST, "twenty digits")):
        keys = list(range(first, first + MOST))
        txn = [[[key, 63, 281474976710655] for key in keys], keys]
        line = compact(["offer", 0, 0, [txn] * MOST])
        yield f"largest offer, {about}, {len(line) / 2**20:.1f} MiB", opened([[]]), line


def filled(begin, item, end):
    """The list of as many of these items as fit in a line."""
    count = (LONGEST - len(begin) - len(end) + 1) // (len(item) + 1)
    return begin + b",".join([item] * count) + end


def longest():
    """Lines with as many bytes as are read."""
    fills = {
        "white space": b'["show"]' + b" " * (LONGEST - 8),
        "numbers": (b'["offer",0,0,[[[],[' + b"7," * (LONGEST // 2))[:LONGEST - 5] + b"7]]]]",
        "brackets": b"[" * LONGEST,
        "empty lists": filled(b'["offer",0,0,[', b"[]", b"]]"),
        "empty lists, cut off": filled(b'["offer",0,0,[', b"[]", b","),
        "transactions": b'["offer",0,0,[' + b"[[],[]]," * ((LONGEST - 24) // 8) + b"[[],[]]]]",
        "transactions of one write": filled(b'["offer",0,0,[', b"[[],[7]]", b"]]"),
        "transactions of one read": filled(b'["offer",0,0,[', b"[[[7,0,0]],[]]", b"]]"),
        "transactions of a read and a write": filled(b'["offer",0,0,[', b"[[[7,0,0]],[7]]", b"]]"),
        "reads": filled(b'["offer",0,0,[[[', b"[7,0,0]", b"],[]]]]"),
        "an order": filled(b'["answer","order",[', b"[0,0]", b"]]"),
        "splits": filled(b'["answer","refuted",[', b'["split",[0,0,0,0,0,0,0]]', b"]]"),
        "a tree of splits": filled(b'["answer","refuted",[',
                                   b'["split",[0,0,0,0,0,0,0]],["gone",0,0,0]',
                                   b',["gone",0,0,0]]]'),
        "lists as deep as a command's": filled(b"[", b"[[[[0]]]]", b"]"),
        "lists in lists": b"[" + b",".join(
            [b"[" * 100 + b"0" + b"]" * 100] * (LONGEST // 202)) + b"]",
        "objects in objects, too deep": b'{"":' * (LONGEST // 5),
        "objects in objects": b"[" + b",".join(
            [b'{"":' * 100 + b"0" + b"}" * 100] * (LONGEST // 502)) + b"]",
        "small objects": b"[" + b'{"":0},' * (LONGEST // 7 - 1) + b"0]",
        "lists, and then an object": filled(b'["offer",0,0,[', b"[]", b",{}]]"),
        "members": b"{" + b",".join(b'"%d":{}' % at for at in range(LONGEST // 12)) + b"}",
        "a word": b'["' + b"x" * (LONGEST - 4) + b'"]',
        "escapes": b'["' + b"\\u0041" * ((LONGEST - 4) // 6) + b'"]',
        "a number": b"1" * LONGEST,
        "letters": b"x" * LONGEST,
        "too long": b"x" * (LONGEST + 1),
    }
    for what, line in fills.items():
        yield f"longest line, {what}", opened([[]]), line[:LONGEST + 1]


def chain(count, keys, sessions=1):
    """Each transaction reads all keys from the previous one, and overwrites them."""
    made, last = [[] for _ in range(sessions)], None
    for number in range(count):
        session = number % sessions
        source = last or ("init",)
        made[session].append([[[key, *source] for key in range(1, keys + 1)],
                              list(range(1, keys + 1))])
        last = session, len(made[session]) - 1
    return made


def blind(count, keys, sessions=64, is_one=False):
    """Half of them write all keys without reading, and each of the others reads them from one of
    these: nothing orders the writers."""
    made, written = [[] for _ in range(sessions)], []
    every = list(range(1, keys + 1))
    half = count // 2
    for number in range(half):
        session = number % (sessions // 2 or 1)
        made[session].append([[], every])
        written.append((session, len(made[session]) - 1))
    for number in range(count - half):
        session = sessions // 2 + number % (sessions - sessions // 2)
        source = written[0] if is_one else written[number * 7919 % half]
        made[session].append([[[key, *source] for key in every], []])
    return made


def written_whole(count, sessions=16):
    """A store that executes one transaction after another: four in five write all of 256 keys, half
    of these without reading, and all others read all keys."""
    draw, keys = random.Random(1), list(range(1, MOST + 1))
    made, last = [[] for _ in range(sessions)], ("init",)
    for _ in range(count):
        session, kind = draw.randrange(sessions), draw.randrange(5)
        reads = [] if kind < 2 else [[key, *last] for key in keys]
        made[session].append([reads, keys if kind < 4 else []])
        if kind < 4:
            last = session, len(made[session]) - 1
    return made


def from_the_start(count, keys, sessions=64):
    """Half of them read all keys in their initial state, and each of the others writes them: each
    reader comes before each writer."""
    made, every = [[] for _ in range(sessions)], list(range(1, keys + 1))
    for number in range(count):
        is_reader = number < count // 2
        session = number % (sessions // 2) + (0 if is_reader else sessions // 2)
        made[session].append([[[key, "init"] for key in every], []] if is_reader else [[], every])
    return made


def stale(count):
    """A chain at whose end the first version is read again: violated by a long cycle."""
    made = chain(count - 1, 1, 64)
    made[63].append([[[1, 0, 0]], []])
    return made


def fences(count, sessions):
    """Only fences, one after another: one of the last is settled."""
    made, last = [[] for _ in range(sessions)], ("init",)
    for number in range(count):
        session = number % sessions
        made[session].append([[[0, *last]], [0]])
        last = session, len(made[session]) - 1
    return made


def wide_fences(count):
    """A session in which transactions of 256 keys, all different, precede a fence."""
    txns = [[[], list(range(1 + at * MOST, 1 + (at + 1) * MOST))] for at in range(count - 1)]
    return [[*txns, [[[0, "init"]], [0]]]]


def handed_on(count):
    """Pairs, of which one writes 256 keys of their own, and the other reads and overwrites them."""
    sessions = [[] for _ in range(64)]
    for pair in range(count // 2):
        first, keys = pair % 32 * 2, list(range(1 + pair * MOST, 1 + (pair + 1) * MOST))
        place = len(sessions[first])
        sessions[first].append([[], keys])
        sessions[first + 1].append([[[key, first, place] for key in keys], keys])
    return sessions


def one_reader(count):
    """One key, one writer that is read, and as many other writers as fit, each of which may be on
    either side: the search goes as deep as it may."""
    sessions = [[] for _ in range(64)]
    sessions[0].append([[], [1]])
    sessions[1].append([[[1, 0, 0]], []])
    for number in range(count - 2):
        sessions[2 + number % 62].append([[], [1]])
    return sessions


def split_pairs(count):
    """Pairs of writers of a key of their own, each with a reader: no choice decides another."""
    sessions = [[] for _ in range(63)]
    for pair in range(count // 3):
        first = pair % 21 * 3
        key, place = pair + 1, len(sessions[first])
        sessions[first].append([[], [key]])
        sessions[first + 1].append([[], [key]])
        sessions[first + 2].append([[[key, first, place]], []])
    return sessions


def open_chain(size):
    """A chain of 256 keys, and after it six pairs of writers of other keys that nothing orders:
    each worker that searches them has a relation over everything."""
    pairs, made = split_pairs(18), chain(size - 18, MOST, 63)
    behind = [len(txns) for txns in made]
    for session, txns in enumerate(pairs):
        made[session] += [[[[key + MOST, at, place + behind[at]] for key, at, place in reads],
                           [key + MOST for key in writes]] for reads, writes in txns]
    return made


def stores(size):
    """Stores of 64 sessions whose clients write what they haven't read, some with stale reads."""
    for keys, blind, stale, behind in ((16, 0.9, 0.0, 0), (256, 0.9, 0.0, 0), (64, 0.5, 0.0, 0),
                                       (256, 0.9, 0.01, 20), (1024, 0.9, 0.02, 50),
                                       (64, 0.3, 0.002, 5)):
        yield (f"store, {keys} keys, blind {blind}, stale {stale}",
               partial(stored, size, keys, blind, stale, behind))


def stored(size, keys, blind, stale, behind):
    return hard.store(size, 64, keys, 1, blind, stale, behind).sessions


def contradictions(size):
    """Contradictions that need a search, with as many irrelevant pairs as fit."""
    for name, pairs, wrong in (("all ways of 3 pairs", 3, hard.all_ways(3)),
                               ("chain of 8 pairs", 8, hard.chain(8)),
                               ("formula of 8 pairs", 8, hard.formula(8, 13, 3, 1))):
        yield f"{name} beside idle ones", partial(contradicted, size, pairs, wrong)


def contradicted(size, pairs, wrong):
    log = hard.contradiction(pairs, wrong, 0)
    hard.idle(log, (size - sum(map(len, log.sessions))) // 3)
    return log.sessions


def refuted_stores(size):
    """Stores whose blind writes leave much open, with three pairs of writers whose every order is
    ruled out: a search that begins with the store finds that out again and again."""
    for keys, blind in ((512, 0.9), (64, 0.5)):
        yield (f"store, {keys} keys, blind {blind}, beside a contradiction",
               partial(refuted_store, size, keys, blind))


def refuted_store(size, keys, blind):
    log = hard.store(size - 30, 20, keys, 1, blind)
    hard.hide(log, 3, hard.all_ways(3))
    return log.sessions


def rounds(size, some):
    """Rounds over as many transactions as may remain, for histories whose name contains the
    word."""
    made = {
        "chain of 1 key": partial(chain, size, 1),
        "chain of 1 key, 64 sessions": partial(chain, size, 1, 64),
        "chain of 256 keys, half as long": partial(chain, size // 2, MOST),
        "chain of 256 keys": partial(chain, size, MOST, 64),
        "keys that no other writes": partial(wide_fences, size),
        "keys that two write, one behind the other": partial(handed_on, size),
        "blind, 1 key": partial(blind, size, 1),
        "blind, 1 key, one writer read": partial(blind, size, 1, is_one=True),
        "blind, 16 keys": partial(blind, size, 16),
        "blind, 256 keys": partial(blind, size, MOST),
        "blind, 256 keys, an eighth as many": partial(blind, size // 8, MOST),
        HONEST: partial(written_whole, size * 10 // 13),
        "1 key read from the start": partial(from_the_start, size, 1),
        "256 keys read from the start": partial(from_the_start, size, MOST),
        "256 keys read from the start, an eighth as many": partial(from_the_start, size // 8, MOST),
        "stale at the end of a chain": partial(stale, size),
        "fences": partial(fences, size, 64),
        "nothing but its sessions": lambda: [[[[], []]] * (size // 64) for _ in range(64)],
        "one read, all others blind": partial(one_reader, size),
        "pairs that nothing orders": partial(split_pairs, size),
        "chain of 256 keys and open pairs": partial(open_chain, size),
        **dict(stores(size)),
        **dict(contradictions(size)),
        **dict(refuted_stores(size)),
    }
    asked = [(f"round of {budget}, {what}", what, [budget, 0, 1])
             for what in made for budget in BUDGETS]
    asked.append((f"round of 1, {HONEST}", HONEST, [1, 0, 1]))
    asked += [(f"round of 65536, depth 6, 16 workers, {what}", what, [65536, 6, 16])
              for what in ("blind, 1 key", "one read, all others blind",
                           "pairs that nothing orders", "chain of 256 keys and open pairs")]
    for name, what, effort in asked:
        if some in name:
            yield name, opened(made[what]()), compact(["round", *effort, "guided"])


def later(size):
    """A round to which a fragment was added since the last one: of readers of what was before all
    others, and of writers of what these read."""
    some, asked = 128, compact(["round", 4096, 0, 1, "guided"])
    for what, at in (("readers", 0), ("writers", 32)):
        made = from_the_start(size - some, MOST)
        lines, first = opened(made), len(made[at])
        more = compact(["offer", at, first, [made[at][0]] * some])
        yield (f"second round, {some} {what} of 256 keys read from the start",
               [*lines, asked, more], asked)


def awaited(size):
    """Transactions with as many reads as possible, all from one that hasn't arrived; and its
    offer."""
    keys = list(range(1, MOST + 1))
    waiting = [[[key, 63, 0] for key in keys], []]
    sessions = [[waiting] * ((size - 1) // 63) for _ in range(63)]
    reads = sum(map(len, sessions)) * MOST
    lead, arrives = opened([*sessions, []]), compact(["offer", 63, 0, [[[], keys]]])
    yield f"offer, for which {reads:,} reads wait", lead, arrives
    for what, lines in (("wait for one", lead), ("have come of one", [*lead, arrives])):
        yield (f"round of 4096, {reads:,} reads {what}", lines, compact(["round", 4096, 0, 1, "guided"]))


def joins(size):
    """Sessions that join, and one that joins with as much as possible."""
    fence = [compact(["open", 1, size]), b'["offer",0,0,[[[[0,"init"]],[0]]]]']
    keys = list(range(DEAREST, DEAREST + MOST))
    dear = [[[key, 63, 281474976710655] for key in keys], keys]
    yield ("join, the largest, twenty digits", fence,
           compact(["join", 1, [[[[0, 0, 0]], [0]], *[dear] * (MOST - 1)]]))
    each = (size - 1) // 63
    last, lines = (0, 0), list(fence)
    for session in range(1, 64):
        its = [[[[0, *last]], [0]], *[[[], [1, session + 1]]] * (each - 1)]
        lines.append(compact(["join", session, its[:MOST]]))
        last = session, 0
    yield f"join, the 64th, {each} of each", lines[:-1], lines[-1]
    for budget in BUDGETS:
        yield (f"round of {budget}, 63 sessions joined", lines, compact(["round", budget, 0, 1, "guided"]))


def hand_overs(size):
    """Parts with many last writers, and lines of a hand-over that are as long as possible."""
    begin, keys = compact(["resume", resume.SESSIONS, resume.LIMIT]), 1_000_000
    handed = list(resume.parts(keys, size))
    yield f"resumed, {keys:,} last writers", [begin, *handed], b'["resumed"]'
    opened_so = [begin, *handed, b'["resumed"]']
    yield f"save last, {keys:,} last writers", opened_so, b'["save","last",0]'
    yield f"show, {keys:,} last writers", opened_so, b'["show"]'
    yield f"begin, {keys:,} last writers", opened_so, b'["begin"]'
    yield f"rebuild, {keys:,} last writers", opened_so, b'["rebuild"]'
    yield f"round of 4096, {keys:,} last writers", opened_so, compact(["round", 4096, 0, 1, "guided"])
    many, marks = [begin], compact(["marks", [2] * 64, [False] * 64])
    writers = ",".join(f"[{key},0,0]" for key in range(1, LONGEST // 11)).encode()
    yield "last, the longest", [*many, marks], b'["last",[' + writers[:LONGEST - 30].rsplit(
        b",[", 1)[0] + b"]]"
    yield ("marks, the longest", many, b'["marks",[' + b"0," * ((LONGEST - 20) // 2) + b"0],[]]")
    yield ("offer of a hand-over, the longest", [*many, marks],
           b'["offer",0,2,[' + b"[[],[]]," * ((LONGEST - 24) // 8) + b"[[],[]]]]")
    full = compact(["offer", 0, 0, [[[[key, "init"] for key in keys_of(at)], keys_of(at)]
                                    for at in range(MOST)]])
    yield "save remain, the largest", [*opened([[]]), full], b'["save","remain",0,0]'


def keys_of(at):
    """The keys of one of many transactions, of twenty digits each."""
    first = DEAREST - at * MOST
    return list(range(first, first + MOST))


def others(size):
    """Lines that copy, rebuild or report what remains."""
    dear = opened(chain(size, MOST, 64))
    yield "begin, chain of 256 keys", dear, b'["begin"]'
    yield "rebuild, chain of 256 keys", dear, b'["rebuild"]'
    yield "show, chain of 256 keys", dear, b'["show"]'
    yield "close, chain of 256 keys", dear, b'["close",0]'
    last = opened(blind(size - 1, 1))
    reader = [[[1, 0, 0]], []]
    yield "offer, the last, blind, 1 key", last, compact(["offer", 0, (size - 1) // 2 // 32 + 1,
                                                          [reader]])
    asked = compact(["round", 65536, 0, 1, "guided"])
    past = [*opened(wide_fences(size)), asked]
    yield f"truncate, {(size - 1) * MOST:,} keys", past, b'["truncate"]'
    yield f"show, {(size - 1) * MOST:,} keys of the past", [*past, b'["truncate"]'], b'["show"]'
    yield "truncate, fences", [*opened(fences(size, 64)), asked], b'["truncate"]'


class Program:
    """The program, watched while it serves a line."""

    def __init__(self, path, seconds, mib):
        self.running = subprocess.Popen([path], bufsize=0, stdin=subprocess.PIPE,
                                        stdout=subprocess.PIPE)
        self.seconds, self.mib = seconds, mib

    def memory(self, word):
        """MiB, from VmRSS or VmHWM."""
        with open(f"/proc/{self.running.pid}/status", encoding="ascii") as status:
            return next(int(line.split()[1]) / 1024 for line in status if line.startswith(word))

    def processor(self):
        """Processor seconds of all its threads."""
        with open(f"/proc/{self.running.pid}/stat", encoding="ascii") as stat:
            fields = stat.read().rsplit(")", 1)[1].split()
        return (int(fields[11]) + int(fields[12])) / os.sysconf("SC_CLK_TCK")

    def serve(self, line):
        """The reply's first bytes, its seconds, processor seconds, by how much it grew, and its
        peak; the reply is None if it didn't arrive."""
        before, used, begin = self.memory("VmRSS:"), self.processor(), time.perf_counter()
        with open(f"/proc/{self.running.pid}/clear_refs", "w", encoding="ascii") as file:
            file.write("5")  # resets the peak
        text = memoryview(line + b"\n")
        while text:
            text = text[self.running.stdin.write(text):]
        told, grown = b"", 0.0
        while not told.endswith(b"\n"):
            took = time.perf_counter() - begin
            if took > self.seconds or grown > self.mib:
                return None, took, self.processor() - used, grown, before + grown
            if select.select([self.running.stdout], [], [], 0.2)[0]:
                piece = os.read(self.running.stdout.fileno(), 1 << 20)
                if not piece:
                    return None, took, 0.0, grown, before + grown
                told = (told if len(told) < 99 else told[:99]) + piece
            grown = self.memory("VmRSS:") - before
        seconds, peak = time.perf_counter() - begin, self.memory("VmHWM:")
        return told[:99], seconds, self.processor() - used, peak - before, peak

    def stop(self):
        self.running.kill()
        self.running.wait()


def kind_of(reply):
    """A word for the table."""
    if reply is None:
        return "given up"
    parts = reply.split(b'"')
    word = parts[3] if parts[1] in (b"report", b"no") else parts[1]
    return word.decode()


def measure(path, lead, line, seconds, mib):
    program = Program(path, seconds, mib)
    try:
        for each in lead:
            if program.serve(each)[0] is None:
                return ("given up before", 0.0, 0.0, 0.0, 0.0)
        reply, *figures = program.serve(line)
        return (kind_of(reply), *figures)
    finally:
        program.stop()


def write(folder, name, lines):
    place = os.path.join(folder, name.replace(",", "").replace(" ", "_") + ".jsonl")
    with open(place, "wb") as file:
        file.write(b"".join(line + b"\n" for line in lines))


def main():
    words = argparse.ArgumentParser(description=__doc__.splitlines()[0])
    words.add_argument("--size", type=int, default=4096, help="transactions that remain (4,096)")
    words.add_argument("--some", default="", metavar="WORD", help="only rows with this in their name")
    words.add_argument("--seconds", type=float, default=120.0, help="give a line up after so long (120)")
    words.add_argument("--mib", type=float, default=4096.0, help="give a line up at so much memory (4,096)")
    words.add_argument("--write", metavar="FOLDER", help="write the scripts there, and run nothing")
    words.add_argument("program", nargs="?", default=os.environ.get(
        "COBRA_AUDIT", "crates/cobra_audit/out/cobra_audit"))
    asked = words.parse_args()
    path = os.path.abspath(asked.program)
    print(f"{asked.size} transactions, load {os.getloadavg()[0]:.1f}")
    print(f"{'line':58} {'answer':>10} {'s':>8} {'cpu s':>8} {'MiB':>7} {'peak':>7}", flush=True)
    for rows in (largest(), longest(), others(asked.size), joins(asked.size),
                 awaited(asked.size), later(asked.size), hand_overs(asked.size),
                 rounds(asked.size, asked.some)):
        for name, lead, line in rows:
            if asked.some not in name:
                continue
            if asked.write:
                write(asked.write, name, [*lead, line])
                continue
            kind, seconds, used, grown, peak = measure(path, lead, line, asked.seconds, asked.mib)
            wanted = ROUND if name.startswith("round") else LINE
            mark = "  over" if min(seconds, used) > wanted[0] or grown > wanted[1] else ""
            print(f"{name:58} {kind:>10} {seconds:8.2f} {used:8.2f} {grown:7.0f} {peak:7.0f}{mark}",
                  flush=True)


if __name__ == "__main__":
    main()
