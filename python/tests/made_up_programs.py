"""A made-up program: `cobra_audit` as the plain model of bench/model/judge.py defines it, for small
histories and for behaviour that the real program shows only sometimes.

    python3 made_up_programs.py SETTINGS

SETTINGS is JSON. "seed": searches end between lines, at random. "reports": the numbers of rounds,
from 1, whose verdict is "spent". "wants_memory": how many of the first collects run out of memory.
"ends": the line at which it ends with status 1, where the opening line is 0. "waits": a file until
whose existence no search ends.
"""

import json
import os
import random
import stat
import sys
import time

sys.path.insert(0, os.path.join(os.path.dirname(os.path.abspath(__file__)), "../../bench/model"))
from judge import Model, OK, REFUSALS, SEARCHING, command_of  # noqa: E402
from plain_verdicts import Relation, cut_of, has_order  # noqa: E402

MOST = 200000  # fronts that are tried


def made_up(folder, **settings):
    """The path of such a program."""
    path = os.path.join(folder, f"made_up_{len(os.listdir(folder))}")
    its = [sys.executable, os.path.abspath(__file__), json.dumps(settings)]
    with open(path, "w", encoding="utf-8") as file:
        file.write("#!/bin/sh\nexec " + " ".join(f"'{it}'" for it in its) + "\n")
    os.chmod(path, stat.S_IRWXU)
    return path


class Program:
    def __init__(self, settings):
        self.dice = random.Random(settings.get("seed"))
        self.goes_on = 0.5 if "seed" in settings else 0.0  # the chance that a search goes on at a look
        self.reports = {int(at): kind for at, kind in settings.get("reports", {}).items()}
        self.wanting = settings.get("wants_memory", 0)
        self.ends, self.waits = settings.get("ends"), settings.get("waits")
        self.model, self.rounds = Model(), 0

    def serve(self):
        for at, line in enumerate(sys.stdin.buffer):
            if at == self.ends:
                print("ended as it was told to", file=sys.stderr)
                sys.exit(1)
            sys.stdout.buffer.write(self.reply_to(line.rstrip(b"\n")) + b"\n")
            sys.stdout.buffer.flush()

    def reply_to(self, line):
        command = command_of(line)
        if command == ["collect"] and self.model.search and self.is_searching():
            return SEARCHING
        owed = self.model.owed(command)
        if command == ["rebuild"] and owed == OK:
            self.rounds = 0
        if owed is not None:
            return owed
        while self.waits and not os.path.exists(self.waits):
            time.sleep(0.005)
        if command[0] == "collect" and self.wanting:
            self.wanting, self.model.search = self.wanting - 1, None
            return REFUSALS[16]
        return self.report()

    def is_searching(self):
        if self.waits and not os.path.exists(self.waits):
            return True
        return self.dice.random() < self.goes_on

    def report(self):
        """Reports, and keeps the cut."""
        model = self.model
        parts, model.snapshot, model.search = model.snapshot or model.parts, None, None
        self.rounds += 1
        if self.reports.get(self.rounds) == "spent":
            return model.text_of("report", self.rounds, "spent", parts.received())
        is_yes = has_order(parts, MOST)
        assert is_yes is not None
        if not is_yes:
            return model.text_of("report", self.rounds, "violated", parts.received(),
                                 [["cycle", []]])
        model.held = cut_of(parts, Relation(parts))
        kind = "pending" if parts.has_pending() else "serial"
        return model.text_of("report", self.rounds, kind, parts.received(), parts.ids())


if __name__ == "__main__":
    Program(json.loads(sys.argv[1])).serve()
