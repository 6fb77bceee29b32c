#!/usr/bin/env python3
"""What a client's notes cost: the processor time of a transaction's two notes.

    bench/cost/notes_cost.py [--count 20000] [--runs 9]

One note comes before the commit, and one after the answer, both in the client's thread. Runs with and without notes alternate,
over a store that does nothing. Each transaction reads a key and writes it.
"""
import argparse
import os
import sys
import tempfile
import time

sys.path.insert(0, os.path.join(os.path.dirname(os.path.abspath(__file__)), "../../python"))

from zanteyard import Session  # noqa: E402
from zanteyard.session._crash_notes import CrashNotes  # noqa: E402
from zanteyard.core._records import as_bytes  # noqa: E402


class Nowhere:
    """A store of one key, for one client."""

    name, statement = None, "SELECT value, run, session, number FROM zanteyard WHERE key = 'x'"

    def begin(self):
        pass

    rollback = commit = begin

    def read(self, key):
        return self.name and ("1", self.name)

    def write(self, key, value, name):
        self.name = name

    def outcome(self):
        return "committed"

    def ticket(self, written):
        return ("12345", 4711, "1732550000.25", "1732550000.1 1732550000.2", *written)


class Taking:
    """Stands in for an AuditClient: packs what is handed in, and counts it as sent soon."""

    run_name, sent = "2026-11-25 15:00:00 0123456789ab", {}

    def take(self, session, number, logged):
        self.take_packed(session, number, logged, as_bytes(logged))

    def take_packed(self, session, number, logged, packed):
        self.sent[session] = number - 20


def seconds(count, path):
    session = Session(Taking(), 0, Nowhere())
    Taking.sent = {}
    session.notes = notes = CrashNotes(path, Taking.sent, lambda: None) if path else None
    body = lambda t: t.put("x", str(int(t.get("x") or 0) + 1))
    began = time.thread_time()
    for _ in range(count):
        session.run(body)
    took = time.thread_time() - began
    if notes is not None:
        assert not notes.has_failed
        notes.close()
    return took


def main():
    asked = argparse.ArgumentParser(description=__doc__.split("\n\n")[0])
    asked.add_argument("--count", type=int, default=20000, help="transactions of a run (20,000)")
    asked.add_argument("--runs", type=int, default=9, help="how many runs of each kind (9)")
    asked = asked.parse_args()
    with tempfile.TemporaryDirectory() as folder:
        runs = [
            tuple(1e6 * seconds(asked.count, path) / asked.count for path in (None, f"{folder}/notes"))
            for _ in range(asked.runs)
        ]
    without, noted = map(min, zip(*runs))
    more = sorted(b - a for a, b in runs)
    print(f"least of {asked.runs} runs: {without:.1f} us a transaction without notes, {noted:.1f} us with them")
    print(f"more in the same run: {more[len(more) // 2]:.1f} us in the middle, {more[0]:.1f} to {more[-1]:.1f} us")


if __name__ == "__main__":
    main()
