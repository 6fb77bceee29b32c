"""The first moments of the command `zanteyard`, while Python imports it."""

import os
import signal
import sys
from collections.abc import Sequence

_begun = []  # the previous handler of Ctrl-C


def begin() -> None:
    """Makes Ctrl-C end the command at once, without a traceback, until its `main` takes over. Does
    nothing in another program that imports the package, or if the signal is ignored."""
    handler = signal.getsignal(signal.SIGINT)
    if handler is signal.default_int_handler and is_command(sys.argv, sys.orig_argv):
        _begun.append(signal.signal(signal.SIGINT, signal.SIG_DFL))


def is_command(words: Sequence[str], all_words: Sequence[str]) -> bool:
    """Whether this program is the command, by its words and Python's own: until the package is
    imported, `python -m zanteyard` has only -m as its name."""
    if not words or words[0] != "-m":
        return bool(words) and os.path.basename(words[0]) == "zanteyard"
    at = all_words.index("-m") if "-m" in all_words else len(all_words)
    return list(all_words[at + 1 : at + 2]) == ["zanteyard"]


def is_over() -> None:
    """Restores the previous handler of Ctrl-C."""
    if _begun:
        signal.signal(signal.SIGINT, _begun.pop())
