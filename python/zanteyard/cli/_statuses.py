"""The exit statuses of the commands that print a verdict."""

import contextlib
import sys

from ..core._visible import say

MISTAKE = 2
STATUS_WORDS = (
    "Exit status: that of the last verdict, 0 serial, 1 violated, 3 pending, 4 undecided; 2 if the "
    "script or the call is wrong."
)


def complain(status: int, *lines: str) -> int:
    """Prints the lines on standard error and returns the status, even if they can't be printed:
    then Python's own status would be 1."""
    with contextlib.suppress(OSError):
        for line in lines:
            say(line, file=sys.stderr, flush=True)
    return status
