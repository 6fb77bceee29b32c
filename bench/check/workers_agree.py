#!/usr/bin/env python3
"""Whether replies are equal with any number of workers and with the single-threaded solver.

Run it at the top of the repository, after `rt run < /dev/null` in crates/cobra_audit and `rt run`
in crates/cobra_examples have built the programs:

    python3 bench/check/workers_agree.py [--times N] [--generated N] [PROGRAM [EXAMPLES]]

Each script of crates/cobra_examples/data is given to cobra_audit with 1, 2, 4 and 16 workers in its
rounds, unchanged and with each depth from 0 to 6 in their place, --times times each. Its replies
are given, as the expected ones, to cobra_examples, which runs the script with the single-threaded
solver and compares byte for byte. A line that is refused for its numbers stays unchanged.

Then follow --generated generated histories, from a fixed seed. Each is searched at each depth with
each number of workers ten times. The output says how many were serial, violated and spent, and
whether a report differs in more than its number from the others of its depth.
"""
import argparse
import collections
import json
import pathlib
import random
import subprocess
import sys
import tempfile

WORKERS = (1, 2, 4, 16)


def is_round(line):
    """Whether the line asks for a search, with numbers within their limits."""
    try:
        told = json.loads(line)
    except (ValueError, RecursionError):
        return False
    if not isinstance(told, list) or len(told) < 4 or told[0] not in ("round", "finish"):
        return False
    if any(type(number) is not int for number in told[1:4]) or told[4:] not in ([], ["guided"]):
        return False
    return 1 <= told[1] <= 2**32 and 0 <= told[2] <= 6 and 1 <= told[3] <= 16


def with_numbers(lines, depth, workers):
    """The lines with these numbers in their rounds; a depth of None stays unchanged."""
    for line in lines:
        if is_round(line):
            told = json.loads(line)
            told[2] = told[2] if depth is None else depth
            told[3] = workers
            line = json.dumps(told, separators=(",", ":")).encode()
        yield line


def served(program, script):
    return subprocess.run([program], input=script, stdout=subprocess.PIPE, check=True).stdout


def generated(dice, sessions=6, each=3, keys=4):
    """A history of transactions that run one after another, in which some reads are of any writer
    of their key."""
    last, writers, history = {}, collections.defaultdict(list), [[] for _ in range(sessions)]
    lies = dice.choice((0.0, 0.1, 0.3))
    turns = [session for session in range(sessions) for _ in range(each)]
    dice.shuffle(turns)
    for session in turns:
        reads = []
        for key in sorted(dice.sample(range(1, keys + 1), dice.randint(0, 2))):
            source = dice.choice(writers[key]) if writers[key] and dice.random() < lies else last.get(key)
            reads.append([key, *source] if source else [key, "init"])
        writes = sorted(dice.sample(range(1, keys + 1), dice.randint(0, 2)))
        for key in writes:
            last[key] = (session, len(history[session]))
            writers[key].append(last[key])
        history[session].append([reads, writes])
    return history


def disagreements(program, count, times=10):
    """Kinds of the reports on generated histories, and those histories and depths at which reports
    differ."""
    dice, kinds, others = random.Random(15), collections.Counter(), []
    for number in range(count):
        history, budget = generated(dice), dice.choice((3, 24, 4096))
        lines = [["open", len(history), 64], *(["offer", session, 0, txns] for session, txns in enumerate(history))]
        rounds = [(depth, workers) for depth in range(7) for workers in WORKERS for _ in range(times)]
        lines += [["round", budget, depth, workers] for depth, workers in rounds]
        text = "".join(json.dumps(line, separators=(",", ":")) + "\n" for line in lines).encode()
        reports = [json.loads(line) for line in served(program, text).splitlines()[-len(rounds) :]]
        for depth in range(7):
            told = {json.dumps([report[0], *report[2:]]) for report, (at, _) in zip(reports, rounds) if at == depth}
            kinds[reports[depth * len(WORKERS) * times][2]] += 1
            if len(told) != 1:
                others.append(f"generated history {number}, depth {depth}: the replies depend on the workers or on the run")
    return kinds, others


def main():
    words = argparse.ArgumentParser(description=__doc__, formatter_class=argparse.RawDescriptionHelpFormatter)
    words.add_argument("--times", type=int, default=1, help="how often each script is run (1)")
    words.add_argument("--generated", type=int, default=200, help="how many generated histories (200)")
    words.add_argument("program", nargs="?", default="crates/cobra_audit/out/cobra_audit")
    words.add_argument("examples", nargs="?", default="crates/cobra_examples/out/cobra_examples")
    asked = words.parse_args()
    examples = pathlib.Path(asked.examples).resolve()
    runs, others, names = 0, [], []
    with tempfile.TemporaryDirectory() as folder:
        for path in sorted(pathlib.Path("crates/cobra_examples/data").glob("*.jsonl")):
            lines = path.read_bytes().split(b"\n")
            for depth in (None, *range(7)):
                told = set()
                for workers in WORKERS:
                    script = b"\n".join(with_numbers(lines, depth, workers))
                    told |= {served(asked.program, script) for _ in range(asked.times)}
                    runs += asked.times
                name = f"{path.stem}.{'as_it_stands' if depth is None else depth}"
                if len(told) != 1:
                    others.append(f"{name}: the replies depend on the workers")
                names.append(name)
                (pathlib.Path(folder) / f"{name}.jsonl").write_bytes(script)
                (pathlib.Path(folder) / f"{name}.replies").write_bytes(told.pop())
        single = subprocess.run([examples, *names], cwd=folder, stdout=subprocess.PIPE, check=True).stdout.decode()
    others += [line for line in single.splitlines() if not line.endswith(": as it must be")]
    print("\n".join(others + [f"{runs} runs of {len(names)} scripts, {len(single.splitlines())} of them by one thread too, {len(others)} differences"]))
    kinds, differing = disagreements(asked.program, asked.generated)
    searched = ", ".join(f"{count} {kind}" for kind, count in sorted(kinds.items()))
    print("\n".join(differing + [f"{asked.generated} generated histories at 7 depths ({searched}), each with {WORKERS} workers ten times: {len(differing)} differences"]))
    sys.exit(1 if others or differing else 0)


if __name__ == "__main__":
    main()
