#!/usr/bin/env python3
"""A long audit that forgets what is settled: cuts, what remains, and whether time and memory stay
flat.

Run it at the top of the repository, after `cd crates/cobra_audit && rt run < /dev/null` has built
the program:

    python3 bench/cost/long_run.py [--transactions N] [--every N] [--ways] [PROGRAM]

There is a row for each kind of history (bench/model/histories.py), with clients that meet before each
round and read each blind key once (docs/COLLECTORS.md, "Fences"): how many rounds found a cut, the
most transactions that remained after a round, the processor time per transaction in the first and
the last tenth of the run and their ratio, and the program's peak memory after a tenth and at the
end. With --ways, there are also rows without the meetings, without those reads, and without both;
such a run ends when 4,096 transactions remain.
"""
import argparse
import json
import os
import subprocess
import sys

sys.path.insert(0, os.path.dirname(os.path.abspath(__file__)))
sys.path[:0] = [os.path.join(os.path.dirname(os.path.abspath(__file__)), "../model")]
from histories import KINDS, Store  # noqa: E402

TICKS = os.sysconf("SC_CLK_TCK")


class Auditor:
    """The program over pipes: a line, then its reply."""

    def __init__(self, program):
        self.process = subprocess.Popen([program], stdin=subprocess.PIPE, stdout=subprocess.PIPE)

    def ask(self, *command):
        self.process.stdin.write(json.dumps(command, separators=(",", ":")).encode() + b"\n")
        self.process.stdin.flush()
        return json.loads(self.process.stdout.readline())

    def seconds(self):
        """Its processor time so far, in seconds."""
        with open(f"/proc/{self.process.pid}/schedstat", encoding="ascii") as told:
            return int(told.read().split()[0]) / 1e9

    def peak(self):
        """Its peak memory so far, in MiB."""
        with open(f"/proc/{self.process.pid}/status", encoding="ascii") as told:
            return next(int(line.split()[1]) for line in told if line.startswith("VmHWM:")) / 1024

    def end(self):
        self.process.stdin.close()
        self.process.wait()


class Clients:
    """Clients of a store, each with a session, whose transactions are audited."""

    def __init__(self, auditor, sessions):
        self.auditor = auditor
        self.store = Store(sessions, 1, 0)
        self.sent = [0] * sessions
        self.blind = set()
        self.refused = None
        self.told(auditor.ask("open", sessions, 4096))

    def told(self, reply):
        if reply[0] == "no" and self.refused is None:
            self.refused = reply[2]

    def execute(self, session, reads, writes):
        self.store.execute(session, reads, writes)
        self.blind |= set(writes) - set(reads)

    def meet(self):
        """Each makes a fence, and when all have, a second one."""
        for _ in range(2):
            sessions = list(range(len(self.sent)))
            self.store.random.shuffle(sessions)
            for session in sessions:
                self.execute(session, [0], [0])

    def sweep(self):
        """Each key that was written without being read is read once."""
        keys = sorted(self.blind)
        for place in range(0, len(keys), 8):
            self.execute(place // 8 % len(self.sent), keys[place : place + 8], [])
        self.blind = set()

    def flush(self):
        for session, log in enumerate(self.store.logs):
            for first in range(self.sent[session], len(log), 8):
                self.told(self.auditor.ask("offer", session, first, log[first : first + 8]))
            self.sent[session] = len(log)


def tenth(clients, kind, transactions, every, meets, sweeps):
    """Runs some rounds. Returns their number, how many found a cut, and the most that remained
    after one."""
    rounds = cuts = most = 0
    draw = clients.store.random
    for number in range(1, transactions + 1):
        clients.execute(draw.randrange(len(clients.sent)), *KINDS[kind](draw, 400))
        if number % 64 == 0:
            clients.flush()
        if number % every == 0 and clients.refused is None:
            if meets:
                clients.meet()
            if sweeps:
                clients.sweep()
            clients.flush()
            if clients.refused:
                break
            report = clients.auditor.ask("round", 4096, 0, 1, "guided")
            if report[0] != "report" or report[2] != "serial":
                sys.exit(f"no serial report: {json.dumps(report)[:200]}")
            rounds += 1
            cuts += clients.auditor.ask("truncate")[0] == "cut"
            most = max(most, clients.auditor.ask("show")[5])
    return rounds, cuts, most


def run(program, kind, transactions, every, meets, sweeps):
    auditor = Auditor(program)
    clients = Clients(auditor, 8)
    part = max(transactions // 10 // every, 1) * every
    rounds = cuts = most = 0
    times, peaks = [], []
    for _ in range(10):
        begin = auditor.seconds()
        told = tenth(clients, kind, part, every, meets, sweeps)
        rounds, cuts, most = rounds + told[0], cuts + told[1], max(most, told[2])
        times.append((auditor.seconds() - begin) / part * 1e6)
        peaks.append(auditor.peak())
        if clients.refused:
            break
    auditor.end()
    ways = ("meet" if meets else "-") + " " + ("sweep" if sweeps else "-")
    end = f"{times[0]:10.0f} {times[-1]:10.0f} {times[-1] / times[0]:6.2f}" if not clients.refused else f"{clients.refused:>28}"
    print(f"{kind:8} {ways:11} {rounds:7} {cuts:7} {most:8} {end} {peaks[0]:9.1f} {peaks[-1]:9.1f}", flush=True)


def main():
    words = argparse.ArgumentParser(description=__doc__, formatter_class=argparse.RawDescriptionHelpFormatter)
    words.add_argument("--transactions", type=int, default=20000, help="the length of a run (20,000)")
    words.add_argument("--every", type=int, default=300, help="transactions between two rounds (300)")
    words.add_argument("--kinds", default="counter,mixed,skew,blind", help="kinds of histories, with commas between")
    words.add_argument("--ways", action="store_true", help="also without meetings, and without reads of blind keys")
    words.add_argument("program", nargs="?", default="crates/cobra_audit/out/cobra_audit")
    asked = words.parse_args()
    print("kind     clients      rounds    cuts     left   us first    us last  ratio  MiB 1/10   MiB end")
    for kind in asked.kinds.split(","):
        ways = [(True, True), (True, False), (False, True), (False, False)] if asked.ways else [(True, True)]
        for meets, sweeps in ways:
            run(asked.program, kind, asked.transactions, asked.every, meets, sweeps)


if __name__ == "__main__":
    main()
