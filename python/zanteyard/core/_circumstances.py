"""When and where a transaction began, and what it read and wrote: shown with a violation, and never
used for a verdict."""

import contextlib
import os
import sys
import threading
import time
from collections.abc import Iterator
from typing import Any

from ._records import History, Logged, Naming, ShownId

PACKAGE = os.path.dirname(os.path.dirname(os.path.abspath(__file__))) + os.sep
# Code that isn't the caller itself, such as the modules by which `python -m` starts a program.
OURS = (PACKAGE, contextlib.__file__, threading.__file__, "<frozen ")
COMMAND = "zanteyard"  # the file by which this package's own command is started
LETTERS = 60  # characters of a value, at most
DEPTH = 12  # stack frames to look through, at most


def caller() -> str:
    """The nearest caller outside of this package, as "file:line"; empty if there is none within
    `DEPTH` frames."""
    frame: Any = sys._getframe(1)
    for _ in range(DEPTH):
        if frame is None:
            return ""
        name = frame.f_code.co_filename
        if not name.startswith(OURS) and os.path.basename(name) != COMMAND:
            return f"{name}:{frame.f_lineno}"
        frame = frame.f_back
    return ""


def brief(value: Any) -> str:
    """A value as a short text."""
    if value is None:
        return "nothing"
    is_long = isinstance(value, (str, bytes, list)) and len(value) > LETTERS
    text = repr(value[:LETTERS] if is_long else value)
    return text[:LETTERS] + " .." if is_long or len(text) > LETTERS else text


def clock_of(logged: Logged) -> str:
    """The local time of day at which it began, to the millisecond; empty if unknown."""
    if not logged.began:
        return ""
    whole, parts = divmod(int(logged.began * 1000), 1000)
    return time.strftime("%H:%M:%S", time.localtime(whole)) + f".{parts:03}"


def caller_of(logged: Logged) -> str:
    """The caller, as a path relative to the current folder if it is below that."""
    here = os.getcwd() + os.sep
    return logged.caller[len(here) :] if logged.caller.startswith(here) else logged.caller


def values_of(logged: Logged) -> dict[tuple[str, str], str]:
    """What was read from and written to each key, for the reads and writes that `logged` still
    has."""
    did_read, did_write = logged.did
    texts_of: dict[tuple[str, str], list[str]] = {("read", key): [] for key, _ in did_read}
    texts_of.update({("wrote", key): [] for key in did_write})
    for kind, key, text in logged.values:
        noted = texts_of.get((kind, key))
        if noted is not None and text not in noted:
            noted.append(text)
    return {deed: " and ".join(texts) for deed, texts in texts_of.items() if texts}


def circumstances(history: History, names: Naming) -> Iterator[str]:
    """A line for each transaction about which something is known."""
    for session, transactions in enumerate(history):
        for number, logged in enumerate(transactions):
            if not any(logged.did):
                continue
            began = [f"began at {clock_of(logged)}"] if logged.began else []
            came = [f"called from {caller_of(logged)}"] if logged.caller else []
            values = values_of(logged)
            did = [
                f"{'read' if kind == 'read' else 'wrote'} {key}: {text}"
                for (kind, key), text in values.items()
            ]
            parts = [" ".join(began + came)] * bool(began or came) + did
            if parts:
                yield f"{names(ShownId((session, number)))} " + "; ".join(parts)
