#!/usr/bin/env python3
"""Whether a round costs only what is new, and a cut only what it forgets.

Run it at the top of the repository, after `cd crates/cobra_audit && rt run < /dev/null` has built
the program:

    python3 bench/cost/kept.py [--table again|grown|runs|keys] .. [--transactions N] [--most N] [PROGRAM ..]

Several programs are compared in one run. The histories are those of bench/model/histories.py.

- again: 3,000 transactions of one kind remain. Milliseconds of processor time of the first round;
  of a second one, without anything new; and of a `begin` and a `finish` after these. The last
  column is the second round's share of the first.
- grown: 2,000 transactions of one kind remain, and had a round. Then, repeatedly, more arrive,
  followed by a round: the same figures for each of these rounds, and for the first one and a second
  one without anything new.
- runs: transactions of clients that meet before each round and read each blind key once, with a
  round and a truncate after each 300 and after each 2,000. Processor time of the whole script from
  a file, the time of CPython's json.loads over its lines, and their ratio.
- keys: 10,000 keys are written and cut away, and with --most up to a million and more; then 20,000
  writes of new keys with their round and truncate. Milliseconds of these, and resident memory for
  each key so far, in bytes, above what the program takes with ten thousand.
"""
import argparse
import json
import resource
import subprocess
import sys
import tempfile
import os
import time

sys.path.insert(0, os.path.dirname(os.path.abspath(__file__)))
sys.path[:0] = [os.path.join(os.path.dirname(os.path.abspath(__file__)), "../model")]
from histories import KINDS, script  # noqa: E402
from long_run import Auditor, Clients  # noqa: E402

ROUND = ("round", 4096, 0, 1, "guided")
TABLES = ("again", "grown", "runs", "keys")
MORE = (1, 8, 32, 64, 128, 192, 256, 320)


class Lines:
    """Stands in for an auditor: keeps what it is asked, and says that everything is done."""

    def __init__(self):
        self.lines = []

    def ask(self, *command):
        self.lines.append(json.dumps(command, separators=(",", ":")))
        return ["ok"]


def timed(auditor, *command):
    """The reply, and the milliseconds of processor time that it took."""
    begin = auditor.seconds()
    reply = auditor.ask(*command)
    return reply, (auditor.seconds() - begin) * 1000


def again(programs):
    print("kind     transactions  first ms  again ms  begin ms  finish ms  again of first")
    for kind in KINDS:
        for program in programs:
            auditor = Auditor(program)
            for line in script(kind, 3000)[:-1]:
                auditor.ask(*json.loads(line))
            report, first = timed(auditor, *ROUND)
            second = min(timed(auditor, *ROUND)[1] for _ in range(5))
            begin = timed(auditor, "begin")[1]
            finish = timed(auditor, "finish", *ROUND[1:])[1]
            auditor.end()
            print(f"{kind:8} {3000:12} {first:9.1f} {second:9.1f} {begin:9.1f} {finish:10.1f} {second / first:15.2f}  {report[2]}", flush=True)


def grown_once(program, kind):
    """The milliseconds of each round while one history grows."""
    clients = Clients(Auditor(program), 8)
    draw = clients.store.random
    rounds = []
    for count in (2000, 0) + MORE:
        for _ in range(count):
            clients.execute(draw.randrange(8), *KINDS[kind](draw, 400))
        clients.flush()
        rounds.append(timed(clients.auditor, *ROUND)[1])
    clients.auditor.end()
    return rounds


def grown(programs):
    print("kind        first     again " + " ".join(f"{count:>5} more" for count in MORE))
    for kind in KINDS:
        for program in programs:
            runs_of = [grown_once(program, kind) for _ in range(3)]
            print(f"{kind:8} " + " ".join(f"{min(each):9.1f}" for each in zip(*runs_of)) + " ms", flush=True)


def lines_of(kind, transactions, every):
    """The script of an audit with a round and a truncate after each group of transactions."""
    told = Lines()
    clients = Clients(told, 8)
    draw = clients.store.random
    for number in range(1, transactions + 1):
        clients.execute(draw.randrange(8), *KINDS[kind](draw, 400))
        if number % 64 == 0:
            clients.flush()
        if number % every == 0:
            clients.meet()
            clients.sweep()
            clients.flush()
            told.ask(*ROUND)
            told.ask("truncate")
    return told.lines


def seconds_of_json(lines):
    begin = time.perf_counter()
    for line in lines:
        json.loads(line)
    return time.perf_counter() - begin


def of_children():
    """The processor time of all programs that have ended."""
    told = resource.getrusage(resource.RUSAGE_CHILDREN)
    return told.ru_utime + told.ru_stime


def seconds_of(program, path):
    """The processor time of the whole script, whose replies go to a file; each has to be a good
    one."""
    with open(path, "rb") as source, tempfile.TemporaryFile() as replies:
        begin = of_children()
        subprocess.run([program], stdin=source, stdout=replies, check=True)
        seconds = of_children() - begin
        replies.seek(0)
        for line in replies:
            if line.startswith(b'["no"') or line.startswith(b'["report"') and b'"serial"' not in line[:40]:
                sys.exit(f"no good reply: {line[:200]!r}")
    return seconds


def runs(programs, transactions):
    print("kind     transactions  a round each  script s   json s   ratio")
    for every in (300, 2000):
        for kind in KINDS:
            lines = lines_of(kind, transactions, every)
            theirs = min(seconds_of_json(lines) for _ in range(3))
            with tempfile.NamedTemporaryFile("w", encoding="ascii") as written:
                written.write("\n".join(lines) + "\n")
                written.flush()
                for program in programs:
                    ours = min(seconds_of(program, written.name) for _ in range(3))
                    print(f"{kind:8} {transactions:12} {every:13} {ours:9.2f} {theirs:8.3f} {ours / theirs:7.1f}", flush=True)


def resident(auditor):
    """The program's current memory, in bytes."""
    with open(f"/proc/{auditor.process.pid}/status", encoding="ascii") as told:
        return next(int(line.split()[1]) for line in told if line.startswith("VmRSS:")) * 1024


class Writer:
    """Sessions that write keys that nobody wrote before, eight per transaction, and meet."""

    def __init__(self, program):
        self.auditor = Auditor(program)
        self.clients = Clients(self.auditor, 8)
        self.keys = 0

    def write(self, keys):
        """Writes this many keys, followed by a round and a truncate."""
        for place in range(keys // 8):
            first = self.keys + 1
            self.clients.store.execute(place % 8, [], list(range(first, first + 8)))
            self.keys += 8
            self.clients.store.writers.clear()
        self.clients.store.writers[0] = self.last_fence() if self.keys > keys else []
        self.clients.meet()
        self.clients.flush()
        for command in (ROUND, ("truncate",)):
            reply = self.auditor.ask(*command)
            if reply[0] not in ("report", "cut") or reply[0] == "report" and reply[2] != "serial":
                sys.exit(f"no good reply: {str(reply)[:200]}")
        self.fence = self.clients.store.writers[0]

    def last_fence(self):
        return self.fence[-1:]


def keys(programs, most):
    print("keys so far  20,000 more ms  resident MiB  bytes a key")
    for program in programs:
        writer, base = Writer(program), 0
        goal = 10_000
        while goal <= most:
            while writer.keys < goal:
                writer.write(10_000)
            begin = writer.auditor.seconds()
            writer.write(20_000)
            spent = (writer.auditor.seconds() - begin) * 1000
            now = resident(writer.auditor)
            base = base or (now, writer.keys)
            each = (now - base[0]) / (writer.keys - base[1]) if writer.keys > base[1] else 0
            print(f"{goal:11} {spent:15.0f} {now / 2**20:13.1f} {each:12.1f}", flush=True)
            goal *= 10
        writer.auditor.end()


def main():
    words = argparse.ArgumentParser(description=__doc__, formatter_class=argparse.RawDescriptionHelpFormatter)
    words.add_argument("--table", action="append", choices=TABLES, help="only this table; may be repeated")
    words.add_argument("--transactions", type=int, default=60_000, help="of the table runs (60,000)")
    words.add_argument("--most", type=int, default=1_000_000, help="keys of the table keys (1,000,000)")
    words.add_argument("program", nargs="*", default=["crates/cobra_audit/out/cobra_audit"])
    asked = words.parse_args()
    tables = asked.table or TABLES
    if "again" in tables:
        again(asked.program)
    if "grown" in tables:
        grown(asked.program)
    if "runs" in tables:
        runs(asked.program, asked.transactions)
    if "keys" in tables:
        keys(asked.program, asked.most)


if __name__ == "__main__":
    main()
