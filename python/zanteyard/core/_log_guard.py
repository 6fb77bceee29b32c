"""Keeps exceptions of log handlers away from the application, and makes log lines safe to show: no
key, statement or name in one can look like a line of its own.

Some of Python's own handlers raise: a WatchedFileHandler whose folder is gone or has become
read-only, or a FileHandler that opens its file late. An exception raised after a commit would look
to the application as if the commit had failed. What can't be logged is therefore printed on
standard error, as Python does if a logger has no handler.
"""

import contextlib
import functools
import logging
import signal
import sys
from collections.abc import Callable, Iterator
from traceback import walk_tb
from typing import Any

from ._visible import shown


def guard(logger: logging.Logger) -> None:
    """Guards this logger, whatever handlers it and its parents get later. May be called again."""
    if getattr(logger.handle, "is_guarded", False):
        return
    plain = logger.handle

    def handle(record: logging.LogRecord) -> None:
        try:
            make_visible(record)
            plain(record)
        except Exception as error:
            if is_of_signal(error):
                raise
            tell(record, error)

    handle.is_guarded = True  # type: ignore[attr-defined]
    setattr(logger, "handle", handle)  # of this logger only


def make_visible(record: logging.LogRecord) -> None:
    """Escapes unprintable characters of a record. Lines of a traceback get a prefix."""
    message = record.getMessage()
    safe = shown(message)
    if safe != message:
        record.msg, record.args = safe, ()
    if record.exc_info and not record.exc_text:
        traceback = logging.Formatter().formatException(record.exc_info)
        record.exc_text = "\n".join(f"  | {shown(line)}" for line in traceback.split("\n"))


def tell(record: logging.LogRecord, error: Exception) -> None:
    """Prints the record on standard error, if there is one."""
    with contextlib.suppress(Exception):
        told = f"{record.getMessage()} (can't write the log: {error!r})"
        sys.stderr.write(f"{shown(told)}\n")
        sys.stderr.flush()


def is_of_signal(error: BaseException) -> bool:
    """Whether a signal handler raised it, wherever it was interrupted. Then it is the
    application's."""
    codes = {*_codes()}
    return any(frame.f_code in codes for frame, _ in walk_tb(error.__traceback__))


def _codes() -> Iterator[Any]:
    for number in signal.valid_signals():
        handler = signal.getsignal(number)
        if callable(handler):
            yield _code_of(handler)


def _code_of(called: Callable[..., Any]) -> Any:
    """The code object that runs when this is called; None if it isn't Python code."""
    while isinstance(called, functools.partial):
        called = called.func
    plain: Any = getattr(called, "__func__", called)
    if not hasattr(plain, "__code__"):
        plain = getattr(type(called).__call__, "__func__", type(called).__call__)
    return getattr(plain, "__code__", None)
