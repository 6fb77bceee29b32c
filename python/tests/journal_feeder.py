"""Gives an auditor with a journal what a file contains, from the journal's state on, until it is
killed, and prints a dot before each transaction. At the end it prints the auditor's outcome. For
test_journal_kills.

    python3 journal_feeder.py PROGRAM JOURNAL LOG [TOLD]

Each round is written to TOLD as soon as it is reported: how many transactions of each session it
covered, and its verdict.
"""
import json
import os
import pickle
import sys

sys.path.insert(0, os.path.dirname(os.path.dirname(os.path.abspath(__file__))))
from zanteyard import Auditor, NoCutError  # noqa: E402


def note(told, report):
    for path in told:
        with open(path, "a") as file:
            file.write(json.dumps([report.counts, report.kind]) + "\n")


def main():
    program, journal, log, *told = sys.argv[1:]
    with open(log, "rb") as file:
        entries = pickle.load(file)
    if os.path.exists(journal):
        auditor = Auditor.resumed(journal, program)
    else:
        auditor = Auditor(3, 512, program, "run", journal=journal)
    with auditor:
        for session, number, logged in entries:
            if number < auditor.received[session]:
                continue
            sys.stdout.write(".")
            sys.stdout.flush()
            auditor.offer(session, number, logged)
            if sum(auditor.received) % 20 == 0:
                note(told, auditor.round())
                try:
                    auditor.truncate()
                except NoCutError:
                    pass
        report = auditor.round()
        note(told, report)
        print("", report.kind, *auditor.ask(["show"])[2], flush=True)


if __name__ == "__main__":
    main()
