"""What must hold for a log whose auditors were killed: the verdicts of a program that nobody kills
and that is given the whole log.

A log is the transactions of each session in the form of lines. Reported rounds are a list: for
each, how many transactions of each session it covered, and its verdict.
"""
import contextlib
import io
import json
import os
import subprocess
import sys

from zanteyard import Auditor
from zanteyard.core._own_keys import LONGEST

sys.path.insert(0, os.path.join(os.path.dirname(os.path.abspath(__file__)), "../../examples"))
from check_reports import check_run  # noqa: E402

ROUND = ["round", 65536, 0, 1]


def log_of(entries, sessions, program):
    """The log of triples of session, number and what was logged, and the numbers that it gave the
    keys' names."""
    log = [[] for _ in range(sessions)]
    with Auditor(sessions, program=program) as auditor:
        for session, number, logged in entries:
            assert number == len(log[session])
            log[session].append(auditor.txn(logged))
    return log


def log_in(script, replies=None):
    """The log in a script's lines; only of lines that were answered ok, if the replies are
    given."""
    lines = [json.loads(line) for line in script]
    log = [[] for _ in range(lines[0][1])]
    for at, line in enumerate(lines):
        if line[0] in ("offer", "join") and (replies is None or json.loads(replies[at]) == ["ok"]):
            session, first, txns = line[1], line[2] if len(line) == 4 else 0, line[-1]
            if session == len(log):
                log.append([])
            assert first == len(log[session]), line
            log[session] += txns
    return log


def verdicts(log, told, program):
    """The verdicts of a new program about the same numbers of transactions; each is checked
    independently."""
    given, script = [0] * len(log), [["open", len(log), 4096, 2]]
    for counts, _ in told:
        for session, count in enumerate(counts):
            while given[session] < count:
                txns = log[session][given[session] : count][:LONGEST]
                script.append(["offer", session, given[session], txns])
                given[session] += len(txns)
        script.append(ROUND)
    text = "".join(json.dumps(line) + "\n" for line in script).encode()
    replies = subprocess.run([program], input=text, stdout=subprocess.PIPE, check=True).stdout.splitlines()
    assert not [reply for reply in replies if reply.startswith(b'["no"')], replies
    reports = [json.loads(reply) for reply in replies if reply.startswith(b'["report"')]
    last = [script[0], *(line for line in script if line[0] == "offer"), ROUND]
    assert are_right(last, [*[b'["ok"]'] * (len(last) - 1), replies[-1]])
    assert len(reports) == len(told)
    # Sessions that joined later exist from the start here, and are still empty.
    return [(tuple(report[3][: len(counts)]), report[2]) for report, (counts, _) in zip(reports, told)]


def are_right(script, replies):
    """Whether examples/check_reports.py finds nothing wrong with a program's lines and replies."""
    lines = [line if isinstance(line, bytes) else json.dumps(line).encode() for line in script]
    with contextlib.redirect_stdout(io.StringIO()) as printed:
        wrong = check_run(lines, replies)
    if wrong:
        print(printed.getvalue())
    return not wrong


class Heard:
    """The lines that an auditor's program is given, and what is reported, whichever programs
    die."""

    def __init__(self, auditor):
        program = auditor.program
        self.lines, self.replies = [b'["open",%d,%d,2]' % (auditor.sessions, auditor.limit)], [b'["ok"]']
        ask, answers = program.ask, program.answers

        def asked(lines):
            lines = [*lines]
            ask(lines)
            self.lines += lines

        def answered(count, seconds):
            found = answers(count, seconds)
            self.replies += found
            return found

        program.ask, program.answers = asked, answered

    @property
    def told(self):
        reports = [json.loads(reply) for reply in self.replies if reply.startswith(b'["report"')]
        return [(tuple(report[3]), report[2]) for report in reports]
