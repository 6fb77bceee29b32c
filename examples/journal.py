#!/usr/bin/env python3
"""Audits a few transactions with a journal, and is killed in the middle.

    python3 examples/journal.py JOURNAL

The first time it begins a journal, kills the auditor, and then ends as if it were killed itself.
The second time it continues from the journal, with what isn't in there yet. docs/OPERATION.md shows
its output.
"""
import logging
import os
import signal
import sys

HERE = os.path.dirname(os.path.abspath(__file__))
sys.path.insert(0, os.path.join(HERE, "../python"))
from zanteyard import Auditor, Logged  # noqa: E402

# What two clients did, as their collector noted it: session, number, reads and writes.
NOTED = [
    (0, 0, Logged([], ["rent"])),
    (0, 1, Logged([("rent", (0, 0))], ["rent"])),
    (1, 0, Logged([("rent", (0, 1))], [])),
    (1, 1, Logged([("rent", (0, 0))], ["rent"])),  # this has read what 1.0 overwrote
]


def offer(auditor, noted):
    for session, number, logged in noted:
        auditor.offer(session, number, logged)
        print(f"{session}.{number} was accepted: {auditor.round().kind}")


def begin(path):
    auditor = Auditor(sessions=2, run_name="bank", journal=path)
    offer(auditor, NOTED[:1])
    print("killing the auditor")
    os.kill(auditor.program.process.pid, signal.SIGKILL)
    offer(auditor, NOTED[1:3])
    print("ending this program as if it were killed", flush=True)
    os._exit(1)


def go_on(path):
    with Auditor.resumed(path) as auditor:
        print(f"transactions accepted of each session: {auditor.received}")
        offer(auditor, [each for each in NOTED if each[1] >= auditor.received[each[0]]])
    with Auditor.resumed(path) as auditor:
        print(f"the journal has a round that was {auditor.violation.kind}")


def main():
    if len(sys.argv) != 2:
        sys.exit(__doc__)
    logging.basicConfig(stream=sys.stdout, format="  %(message)s")
    path = sys.argv[1]
    go_on(path) if os.path.exists(path) else begin(path)


if __name__ == "__main__":
    main()
