#!/usr/bin/env python3
"""Gives cobra_audit broken lines and scripts, and compares its replies with those of a plain model.

Run it at the top of the repository, after `cd crates/cobra_audit && rt run < /dev/null` has built
the program, or with COBRA_AUDIT naming another one:

    python3 bench/check/fuzz.py [--lines N] [--seed S] [--minutes M] [--processes N] [--only WORD]
                          [--keep FILE] [PROGRAM]

There are five generators (`fuzz_lines.py`, `fuzz_timed.py`): mutated bytes, lines mutated by their
grammar, whole scripts, answers that are handed in, and scripts that ask for strict serializability.
Each reply is compared with that of the plain model (`judge.py`), and each program has to end with
status 0 and nothing else. It prints a table of what was tried by kind of line and by reply, also if
SIGINT or SIGTERM stops it. At the first difference it stops, reduces the script as long as a
difference stays, writes it to FILE (fuzz-difference.jsonl) and ends with status 1. --only uses only the generators whose name contains
WORD. --processes distributes the lines over N processes, each with a model and a program. The same
seed and number of processes give the same lines to programs that answer alike.
"""
import argparse
import fcntl
import gc
import multiprocessing
import os
import random
import select
import signal
import subprocess
import sys
import time
from collections import Counter, defaultdict
from dataclasses import dataclass, replace
from multiprocessing.connection import wait

from fuzz_lines import Answers, Bytes, Grammar, Longest, Scripts
from fuzz_timed import Timed
sys.path[:0] = [os.path.join(os.path.dirname(os.path.abspath(__file__)), "../model")]
from judge import Model, first_difference
from plain_verdicts import Wrong

PIPE = 1 << 20  # bytes that fit into a pipe before its writer has to wait
SECONDS = 600.0  # seconds for the replies to a chunk, on a busy machine
GENERATORS = {"bytes": (Bytes, 30), "grammar": (Grammar, 30), "scripts": (Scripts, 25),
              "answers": (Answers, 15), "timed": (Timed, 15)}
FORKS = multiprocessing.get_context("fork")
EACH = 600  # lines of a script, about
OFTEN = 5.0  # seconds between two progress reports
FEW = 100000  # lines for each script of the longest lines


class Program:
    """The program, over pipes."""

    def __init__(self, path):
        pipes = {"stdin": subprocess.PIPE, "stdout": subprocess.PIPE, "stderr": subprocess.PIPE}
        self.running = subprocess.Popen([path], bufsize=0, **pipes)
        for end in (self.running.stdin, self.running.stdout):
            fcntl.fcntl(end, fcntl.F_SETPIPE_SZ, PIPE)

    def ask(self, lines):
        """The replies to the lines, without LFs; fewer if it ended, or if no reply arrives."""
        try:
            text = memoryview(b"\n".join(lines) + b"\n")
            while text:
                text = text[self.running.stdin.write(text):]
        except OSError:  # it has ended
            pass
        told, count, until = [], 0, time.monotonic() + SECONDS
        output = self.running.stdout
        while count < len(lines):
            ready, _, _ = select.select([output], [], [], max(until - time.monotonic(), 0))
            piece = os.read(output.fileno(), PIPE) if ready else b""
            if not piece:
                break
            told.append(piece)
            count += piece.count(b"\n")
        return b"".join(told).split(b"\n")[:-1]

    def end(self, rest=b""):
        """What it answers to a last line without LF, and whether it ended correctly."""
        try:
            told, error = self.running.communicate(rest, timeout=SECONDS)
        except subprocess.TimeoutExpired:
            self.running.kill()
            self.running.communicate()
            return b"", "it doesn't end"
        ended = self.running.returncode, error
        return told, None if ended == (0, b"") else f"it ended with {ended}"

    def stop(self):
        self.running.kill()
        self.running.communicate()


class Table:
    """What was tried, by kind of line and by reply."""

    def __init__(self):
        self.tried = defaultdict(Counter)
        self.lines = self.scripts = 0

    def add(self, kind, reply):
        """The word of the reply: a refusal's name, or a report's kind."""
        if reply[:5] == b'["no"':
            word = reply[reply.rindex(b',"') + 2:-2].decode()
        elif reply[:9] == b'["report"':
            word = reply.split(b'"', 4)[3].decode()
        else:
            word = reply.split(b'"', 2)[1].decode()
        self.tried[kind][word] += 1
        self.lines += 1

    def set_to(self, tables):
        """Counts what these have counted, and nothing else."""
        self.tried.clear()
        for row in tables:
            for kind, counts in row.tried.items():
                self.tried[kind].update(counts)
        self.lines = sum(table.lines for table in tables)
        self.scripts = sum(table.scripts for table in tables)

    def text(self):
        words = sum(self.tried.values(), Counter())
        heads = [word for word, _ in words.most_common()]
        widths = [max(len(head), len(f"{words[head]:,}")) for head in heads]
        rows = [("kind of line", "lines", heads)]
        for kind in sorted(self.tried):
            row = self.tried[kind]
            rows.append((kind, f"{sum(row.values()):,}",
                         [f"{row[head]:,}" if row[head] else "" for head in heads]))
        rows.append(("all", f"{self.lines:,}", [f"{words[head]:,}" for head in heads]))
        return "\n".join(
            f"{kind:24} {count:>11}  " + " ".join(f"{it:>{w}}" for it, w in zip(its, widths))
            for kind, count, its in rows)


@dataclass
class Run:
    """What is tried: scripts from this seed until that many lines were given, or until that time,
    by the generators whose name contains the word."""

    seed: str
    lines: int
    until: float | None = None
    only: str = ""

    def is_over(self, table):
        return table.lines >= self.lines or (
            self.until is not None and time.monotonic() >= self.until)

    def shared(self, count):
        """The parts for this many processes, each with a seed of its own."""
        return [replace(self, seed=f"{self.seed}/{at}",
                        lines=self.lines // count + (at < self.lines % count))
                for at in range(count)]


class Difference(Exception):
    """A script whose last line has a wrong reply."""

    def __init__(self, script, why):
        super().__init__(why)
        self.script, self.why = script, why


def try_script(generator, dice, start, table, most, is_whole=True):
    """Gives a script of about this many lines to a program. Some whole ones are followed by another
    one, which goes on with what it keeps. Raises Difference."""
    model, program, given = Model(), start(), []
    try:
        while len(given) < most and not generator.is_over(model):
            chunk = generator.chunk(model)
            told = program.ask([line for _, line in chunk])
            judge_chunk(model, chunk, told, given, table)
        end_script(model, program, given, table, dice)
        table.scripts += 1
    finally:
        program.stop()
    if is_whole and model.parts and isinstance(generator, Scripts) and dice.random() < 0.2:
        try_script(generator.resumed(model), dice, start, table, most // 2, False)


def judge_chunk(model, chunk, told, given, table):
    for place, (kind, line) in enumerate(chunk):
        given.append(line)
        if place >= len(told):
            raise Difference(list(given), "no whole reply to the line")
        judge_line(model, line, told[place], given)
        table.add(kind, told[place])


def judge_line(model, line, reply, given):
    try:
        model.judge(line, reply)
    except Wrong as why:
        raise Difference(list(given), f"{why}; told is {reply[:300]!r}") from None


def end_script(model, program, given, table, dice):
    """Half of all scripts end with a line without LF."""
    rest = dice.choice((b"", b"", b'["show"]', b'["show"', b" ", b"\r", b"\xff",
                        b'["round",9,0,1]'))
    told, why = program.end(rest)
    if why:
        raise Difference(list(given), why)
    replies = told.split(b"\n")
    if len(replies) != 1 + bool(rest) or replies[-1]:
        raise Difference([*given, rest], f"at the end is told {told[:300]!r}")
    if rest:
        given.append(rest)
        judge_line(model, rest, replies[0], given)
        table.add("last line without LF", replies[0])


def fuzz(start, run, table=None, tell=None):
    """Does the run in this process. Raises Difference."""
    table, number, longest = table if table is not None else Table(), 0, 0
    chosen = {name: it for name, it in GENERATORS.items() if run.only in name}
    kinds, weights = zip(*chosen.values()) if chosen else ((Longest,), (1,))
    while not run.is_over(table):
        dice = random.Random(f"{run.seed} {number}")
        kind = dice.choices(kinds, weights)[0]
        if not run.only and table.lines >= (longest + 1) * FEW:
            kind, longest = Longest, longest + 1
        try_script(kind(dice), dice, start, table, min(EACH, run.lines))
        number += 1
        if tell:
            tell(table)
    return table


def fuzz_beside(answers, start, run):
    """One of several processes. From time to time, and at its end, it sends what it has tried,
    whether it is done, and if it found a difference, the script and the reason."""
    signal.signal(signal.SIGTERM, lambda *_: sys.exit(1))  # its program is stopped, too
    signal.signal(signal.SIGINT, signal.SIG_IGN)  # the parent process handles that
    table, last, found = Table(), [time.monotonic()], None

    def tell(table):
        if time.monotonic() - last[0] > OFTEN:
            last[0] = time.monotonic()
            answers.send((table, False, None))

    try:
        fuzz(start, run, table, tell)
    except Difference as difference:
        found = difference.script, difference.why
    answers.send((table, True, found))


class Beside:
    """One of several processes, and what it has tried so far."""

    def __init__(self, start, run):
        self.seed, self.table, self.is_over = run.seed, Table(), False
        self.answers, end = FORKS.Pipe(duplex=False)
        self.process = FORKS.Process(target=fuzz_beside, args=(end, start, run), daemon=True)
        self.process.start()
        end.close()

    def hear(self):
        """Takes what it sends. Raises Difference."""
        try:
            self.table, self.is_over, found = self.answers.recv()
        except EOFError:
            raise RuntimeError(f"the process with seed {self.seed} has ended by itself") from None
        if found:
            raise Difference(*found)

    def stop(self):
        """Ends it. The signal is sent again if it doesn't end: Python ignores an exception that is
        raised while a destructor runs, such as that of a finished program, and so the signal."""
        while self.process.is_alive():
            self.process.terminate()
            self.process.join(1.0)
        self.answers.close()


def fuzz_side_by_side(start, run, processes, table=None, tell=None):
    """Does the run in this many processes; at the first difference all stop. Raises Difference."""
    table = table if table is not None else Table()
    team = []
    try:
        for part in run.shared(processes):
            team.append(Beside(start, part))
        while not all(each.is_over for each in team):
            running = {each.answers: each for each in team if not each.is_over}
            for answers in wait(list(running)):
                running[answers].hear()
            if tell:
                table.set_to([each.table for each in team])
                tell(table)
    finally:
        for each in team:
            each.stop()
        table.set_to([each.table for each in team])
    return table


def replies_of(start, lines, has_end=True):
    """A program's replies to these lines; the last may have no LF."""
    program = start()
    try:
        told = program.ask(lines if has_end else lines[:-1])
        rest, why = program.end(b"" if has_end else lines[-1])
        return b"".join(reply + b"\n" for reply in told) + rest, why
    finally:
        program.stop()


def differs(start, lines):
    """Whether some reply to these lines is wrong, and why."""
    told, why = replies_of(start, lines)
    found = first_difference(b"".join(line + b"\n" for line in lines), told)
    return found or ((len(lines), why) if why else None)


def shrunk(start, lines, most=400):
    """The lines without those that can be left out while a difference stays, after at most this
    many trials."""
    found = differs(start, lines)
    if not found:
        return lines, "it isn't met again"
    lines, size = lines[:found[0] + 1], max(len(lines) // 2, 1)
    while size and most:
        place = 0
        while place < len(lines) and most:
            fewer = lines[:place] + lines[place + size:]
            most -= 1
            again = differs(start, fewer) if fewer else None
            if again:
                lines, found = fewer[:again[0] + 1], again
            else:
                place += size
        size //= 2
    return lines, found[1]


def tell_difference(start, difference, path):
    """Writes the reduced script, and prints what is wrong with it."""
    print(f"DIFFERENCE after {len(difference.script)} lines: {difference.why}", flush=True)
    with open(path, "wb") as file:
        file.write(b"".join(line + b"\n" for line in difference.script))
    lines, why = shrunk(start, difference.script)
    with open(path, "wb") as file:
        file.write(b"".join(line + b"\n" for line in lines))
    print(f"{len(lines)} lines are left, in {path}: {why}")


def arguments():
    words = argparse.ArgumentParser(description=__doc__.split("\n\n")[0])
    words.add_argument("--lines", type=int, default=1000000, help="how many lines (1,000,000)")
    words.add_argument("--seed", default="1", help="the seed of the dice (1)")
    words.add_argument("--minutes", type=float, help="stop after this many minutes")
    words.add_argument("--processes", type=int, default=1, metavar="N", help="share the lines among so many (1)")
    words.add_argument("--only", default="", metavar="WORD", help="generators with this in their name")
    words.add_argument("--keep", default="fuzz-difference.jsonl", metavar="FILE", help="where a difference is written")
    words.add_argument("program", nargs="?", default=os.environ.get(
        "COBRA_AUDIT", "crates/cobra_audit/out/cobra_audit"))
    return words.parse_args()


def main():
    gc.disable()  # it would look at each list of a line of 8 MiB, and nearly nothing is in a cycle
    asked = arguments()
    path, begin = os.path.abspath(asked.program), time.monotonic()
    run = Run(asked.seed, asked.lines, None, asked.only)
    if asked.minutes:
        run.until = begin + 60 * asked.minutes
    table, end, last = Table(), "no difference", [begin]
    signal.signal(signal.SIGTERM, signal.default_int_handler)

    def start():
        return Program(path)

    def tell(table):
        if time.monotonic() - last[0] > 60:
            last[0] = time.monotonic()
            print(f"{table.lines:,} lines so far, {last[0] - begin:.0f} s", flush=True)

    try:
        if asked.processes > 1:
            fuzz_side_by_side(start, run, asked.processes, table, tell)
        else:
            fuzz(start, run, table, tell)
    except KeyboardInterrupt:
        end = "no difference until it was STOPPED"
    except Difference as difference:
        end = "A DIFFERENCE"
        tell_difference(start, difference, asked.keep)
    print(table.text())
    processes = f" in {asked.processes} processes" if asked.processes > 1 else ""
    print(f"seed {asked.seed}{processes}: {table.lines:,} lines in {table.scripts:,} scripts, "
          f"{time.monotonic() - begin:.0f} s, {end}")
    sys.exit(end != "no difference")


if __name__ == "__main__":
    main()
