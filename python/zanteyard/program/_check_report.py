"""`zanteyard check SCRIPT --replies REPLIES`: has a separate program check stored replies. It runs
no search and doesn't rely on the auditor (`cobra_check`, docs/FORMATS.md)."""

import argparse
import contextlib
import subprocess
from collections.abc import Iterator
from typing import IO

from ..core.errors import ProgramEndedError, ZanteyardError
from ._binaries import find_checker

# The exit status for each status of the checker. 4: none is wrong, but some aren't checked.
STATUSES = {0: 0, 3: 1, 4: 4}
STATUS_WORDS = (
    "Exit status: 0 if each reply is right, 1 if one is wrong, 4 if none is, but some say that "
    "memory was missing, which isn't checked, or the script resumes another or is strict, of which "
    "nothing is; 2 if the call is wrong."
)


def add_arguments(command: argparse.ArgumentParser) -> None:
    command.epilog = STATUS_WORDS
    command.add_argument("script", metavar="SCRIPT", help="the lines that the auditor was given")
    command.add_argument("replies", metavar="REPLIES", help="its replies to them")


def run(asked: argparse.Namespace) -> int:
    """Runs the check. The checker prints its own output. Raises ZanteyardError."""
    with open(asked.script, "rb") as script, open(asked.replies, "rb") as replies:
        return check(script, replies)


def by_turns(script: IO[bytes], replies: IO[bytes]) -> Iterator[tuple[bytes, bytes]]:
    """Each line of the script with its reply, which is empty if it is missing; the checker reports
    that. Raises ZanteyardError if there are more replies than lines."""
    for line in script:
        yield line, replies.readline()
    if replies.readline():
        raise ZanteyardError("more replies than lines")


def check(script: IO[bytes], replies: IO[bytes]) -> int:
    """Has the replies checked, and returns the exit status."""
    program = subprocess.Popen([find_checker()], stdin=subprocess.PIPE)
    assert program.stdin is not None
    with contextlib.suppress(BrokenPipeError), program.stdin as lines:
        for line, reply in by_turns(script, replies):
            lines.write(line if line.endswith(b"\n") else line + b"\n")
            lines.write(reply)
    status = program.wait()
    if status not in STATUSES:
        raise ProgramEndedError(f"the checker ended with status {status}")
    return STATUSES[status]
