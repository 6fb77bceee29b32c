#!/usr/bin/env python3
"""How fast histories of Jepsen are imported and checked: as EDN and as JSON lines, of appends to
lists and of registers.

Run it at the top of the repository:

    python3 bench/cost/imports.py [--transactions N] [--keep FOLDER] [--program PROGRAM]

It makes serial histories as Elle's generators do: each transaction has one to four
micro-operations on one of ten current keys, and after 32 writes of a key a new one takes its
place. One `zanteyard import` and one `zanteyard check` run over each. Processor time includes
child processes, of which the auditor is one; `wall` is what a person waits.
"""
import argparse
import json
import os
import random
import resource
import subprocess
import sys
import tempfile
import time

TOP = os.path.normpath(os.path.join(os.path.dirname(os.path.abspath(__file__)), "../.."))
KEYS, WRITES, LONGEST, CLIENTS = 10, 32, 4, 10
FORMS = ("jepsen-lists", "jepsen-registers")
COLUMNS = "{:>32} {:>8} {:>8} {:>9} {:>9} {:>9} {:>9}"


class Store:
    """A store of ten current keys, of which one is replaced when it was written often enough."""

    def __init__(self, is_of_lists, seed):
        self.is_of_lists, self.random = is_of_lists, random.Random(seed)
        self.current, self.next_key = list(range(KEYS)), KEYS
        self.written, self.state = dict.fromkeys(self.current, 0), {}

    def transaction(self):
        """Micro-operations as they were asked for, and as they were answered."""
        asked, done = [], []
        for _ in range(self.random.randint(1, LONGEST)):
            place = self.random.randrange(KEYS)
            key = self.current[place]
            if self.random.random() < 0.5:
                found = self.state.get(key)
                asked.append(["r", key, None])
                done.append(["r", key, found if not isinstance(found, list) else [*found]])
                continue
            self.written[key] += 1
            value = self.written[key]
            if self.is_of_lists:
                self.state.setdefault(key, []).append(value)
            else:
                self.state[key] = value
            asked.append(["append" if self.is_of_lists else "w", key, value])
            done.append(asked[-1])
            if value == WRITES:
                self.current[place], self.next_key = self.next_key, self.next_key + 1
                self.written[self.current[place]] = 0
        return asked, done


def operations(form, count):
    """The maps of a history, in the order of time. Several are in flight at a time."""
    store = Store(form == "jepsen-lists", count)
    random_, open_, now = random.Random(1), {}, 0
    left = count
    while left or open_:
        client = random_.randrange(CLIENTS)
        now += random_.randint(10_000, 90_000)
        if client in open_:
            kind, micros = "ok", open_.pop(client)
        elif left:
            left -= 1
            kind, (micros, open_[client]) = "invoke", store.transaction()
        else:
            continue
        yield {"type": kind, "f": "txn", "value": micros, "time": now, "process": client}


def edn(value):
    if value is None:
        return "nil"
    if isinstance(value, list):
        return f"[{' '.join(map(edn, value))}]"
    return f":{value}" if isinstance(value, str) else str(value)


def edn_line(index, one):
    pairs = ", ".join(f":{name} {edn(value)}" for name, value in one.items())
    return f"{{{pairs}, :index {index}}}\n"


def json_line(index, one):
    return json.dumps({**one, "index": index}, separators=(",", ":")) + "\n"


WRITERS = {"edn": edn_line, "json": json_line}


def write(path, form, writer, count):
    with open(path, "w", encoding="ascii") as file:
        file.writelines(
            writer(index, one) for index, one in enumerate(operations(form, count))
        )


def ran(*words):
    """The wall and processor seconds of a command."""
    before, begin = resource.getrusage(resource.RUSAGE_CHILDREN), time.perf_counter()
    done = subprocess.run([sys.executable, "-m", "zanteyard", *words], check=False,
                          stdout=subprocess.PIPE, stderr=subprocess.STDOUT, text=True)
    wall = time.perf_counter() - begin
    after = resource.getrusage(resource.RUSAGE_CHILDREN)
    if done.returncode:
        sys.exit(f"zanteyard {' '.join(words)}: status {done.returncode}\n{done.stdout}")
    spent = after.ru_utime + after.ru_stime - before.ru_utime - before.ru_stime
    return wall, spent


def main():
    parser = argparse.ArgumentParser(description=__doc__.split("\n", maxsplit=1)[0])
    parser.add_argument("--transactions", type=int, default=100_000, metavar="N")
    parser.add_argument("--keep", metavar="FOLDER", help="where to leave the histories")
    parser.add_argument("--program", metavar="PROGRAM", help="the auditor, instead of the built one")
    asked = parser.parse_args()
    os.environ["PYTHONPATH"] = os.path.join(TOP, "python")
    if asked.program:
        os.environ["COBRA_AUDIT"] = os.path.abspath(asked.program)
    print(COLUMNS.format("history", "MB", "import", "processor", "MB/s", "check", "processor"))
    print(COLUMNS.format("", "", "wall, s", "s", "of wall", "wall, s", "s"))
    with tempfile.TemporaryDirectory() as scratch:
        folder = asked.keep or scratch
        os.makedirs(folder, exist_ok=True)
        for form in FORMS:
            for name, writer in WRITERS.items():
                path = os.path.join(folder, f"{form}.{name}")
                if not os.path.exists(path):
                    write(path, form, writer, asked.transactions)
                size = os.path.getsize(path) / 1e6
                wall, spent = ran("import", form, path, "-o", os.path.join(scratch, "script"))
                checked = ran("check", path)
                print(COLUMNS.format(
                    os.path.basename(path), f"{size:.1f}", f"{wall:.2f}", f"{spent:.2f}",
                    f"{size / wall:.1f}", *(f"{each:.2f}" for each in checked),
                ), flush=True)


if __name__ == "__main__":
    main()
