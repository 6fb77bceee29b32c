#!/usr/bin/env python3
"""How large and how wide the proved core is, by the text of its files.

    python3 bench/cost/core_counts.py [--most N]

Run it at the top of the repository. It counts lines that aren't blank, of product and of crates of
tests apart: sources, specs and proofs; functions, and those with more than five arguments; files of
more than 400 lines; clauses, and those of more than 200 columns; must-fail edits; and runs of five
and more lines that stand twice. Then it lists the N (10) widest, longest and most often repeated.
Names and numbers count in repeats; imports, comments and lone brackets don't.
"""
import argparse
import collections
import glob
import itertools
import os
import re
import sys
from typing import NamedTuple

TESTS = ("_tests", "test_histories")
WIDE, LONG, MANY = 200, 400, 5  # columns of a clause, lines of a file, arguments of a function
RUN, SHORT, OFTEN = 5, 20, 8  # lines of a repeat, its mean columns at least, places at most
PASSED = re.compile(r"\s*(ghost use |use |pub use |mod |pub mod |//|--|#!?\[)|[\s{}()\[\];,]*$")
CLAUSE = re.compile(r"\s*(requires|ensures)\b")
FUNCTION = re.compile(
    r"^\s*(?:pub(?:\([a-z]+\))? )?fn ([a-z_0-9]+)(?:<[^>]*>)?"
    r"\(([^{]*?)\)\s*(?:->|$|requires|ensures|\{|where)",
    re.MULTILINE | re.DOTALL,
)


class File(NamedTuple):
    path: str
    lines: list[str]

    @property
    def size(self) -> int:
        return sum(1 for line in self.lines if line.strip())


def is_test(path: str) -> bool:
    return path.split("/")[1].endswith(TESTS)


def read(pattern: str) -> list[File]:
    paths = sorted(glob.glob(pattern, recursive=True))
    found = []
    for path in paths:
        if "/out/" not in path:
            with open(path, encoding="utf-8") as file:
                found.append(File(path, file.read().split("\n")))
    return found


def arguments(text: str) -> int:
    """How many there are in a list; commas in brackets don't part them."""
    depth, parts, is_empty = 0, 0, True
    for sign in text:
        if sign in "(<[{":
            depth += 1
        elif sign in ")>]}":
            depth -= 1
        elif sign == "," and not depth:
            parts, is_empty = parts + 1, True
            continue
        is_empty = is_empty and sign.isspace()
    return parts + (not is_empty)


def functions(files: list[File]) -> list[tuple[int, str]]:
    """The number of arguments, and where it is, of each function."""
    found = []
    for file in files:
        for match in FUNCTION.finditer("\n".join(file.lines)):
            found.append((arguments(match[2].replace("->", "")), f"{file.path} {match[1]}"))
    return found


def clauses(files: list[File]) -> list[tuple[int, str]]:
    """The columns, and where it is, of each clause."""
    return [
        (len(line), f"{file.path}:{number}")
        for file in files
        for number, line in enumerate(file.lines, 1)
        if CLAUSE.match(line)
    ]


def repeats(files: list[File]) -> list[tuple[int, str]]:
    """The lines of each run that stands in two places, and where that is."""
    texts = {
        file.path: [
            (number, " ".join(line.split()))
            for number, line in enumerate(file.lines, 1)
            if not PASSED.match(line)
        ]
        for file in files
    }
    places: dict[tuple[str, ...], list[tuple[str, int]]] = collections.defaultdict(list)
    for path, kept in texts.items():
        for at in range(len(kept) - RUN + 1):
            run = tuple(text for _, text in kept[at : at + RUN])
            if sum(map(len, run)) > SHORT * RUN:
                places[run].append((path, at))
    seen, found = set(), []
    for where in places.values():
        if len(where) > OFTEN:
            continue
        for (one, a), (other, b) in itertools.combinations(where, 2):
            if (one, a, other, b) in seen or one == other and abs(a - b) < RUN:
                continue
            size = 0
            mine, yours = texts[one], texts[other]
            while (
                a + size < len(mine)
                and b + size < len(yours)
                and mine[a + size][1] == yours[b + size][1]
                and not (one == other and a + size >= b)
            ):
                seen.add((one, a + size, other, b + size))
                size += 1
            if size >= RUN:
                found.append((size, f"{one}:{mine[a][0]} and {other}:{yours[b][0]}"))
    return found


def main() -> None:
    parser = argparse.ArgumentParser(description=__doc__.split("\n", maxsplit=1)[0])
    parser.add_argument("--most", type=int, default=10, metavar="N")
    asked = parser.parse_args()
    if not os.path.isdir("crates"):
        sys.exit("run it at the top of the repository")
    sources, specs = read("crates/*/src/**/*.rt"), read("crates/*/specs/**/*.antt")
    proofs = read("crates/*/proofs/**/*.antt")
    every = [*sources, *specs, *proofs]
    print("{:36} {:>8} {:>8}".format("", "product", "tests"))
    for name, files in (("source", sources), ("specs", specs), ("proofs", proofs)):
        sizes = [sum(f.size for f in files if is_test(f.path) == tests) for tests in (False, True)]
        print("{:36} {:>8,} {:>8,}".format(f"lines of {name}", *sizes))
    called, asked_for, twice = functions(sources), clauses(sources), repeats(every)
    long = [(len(file.lines) - 1, file.path) for file in every if len(file.lines) - 1 > LONG]
    many = [each for each in called if each[0] > MANY]
    wide = [each for each in asked_for if each[0] > WIDE]
    edits = [(1, path) for path in sorted(glob.glob("crates/*/must-fail/*.edit"))]
    rows = {
        "functions": called,
        f"of more than {MANY} arguments": many,
        f"files of more than {LONG} lines": long,
        "clauses": asked_for,
        f"of more than {WIDE} columns": wide,
        "must-fail edits": edits,
    }
    for name, found in rows.items():
        tests = sum(is_test(where) for _, where in found)
        print("{:36} {:>8,} {:>8,}".format(name, len(found) - tests, tests))
    longest = max(twice, default=(0, ""))[0]
    print(f"{f'repeats of {RUN} and more lines':36} {len(twice):>8,}, the longest {longest} lines")
    lists = {"arguments": many, "lines": long, "columns": wide, "lines that stand twice": twice}
    for name, found in lists.items():
        print(f"\n{name}:")
        for size, where in sorted(found, key=lambda each: (-each[0], each[1]))[: asked.most]:
            print(f"{size:6} {where}")


if __name__ == "__main__":
    main()
