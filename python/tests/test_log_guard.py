"""A log that can't be written, for example because its folder is gone or the disk is full, harms no
application: its messages go to standard error."""

from __future__ import annotations

import contextlib
import functools
import io
import logging
import logging.handlers
import os
import shutil
import signal
import tempfile
import unittest
from collections.abc import Iterator
from typing import Any
from unittest import mock

from zanteyard import Auditor, LiveAuditor, Session
from zanteyard.program._auditor import PROGRAM
from zanteyard.core.errors import AuditLostError
from zanteyard.core._log_guard import guard
from zanteyard.stores.memory import MemoryStore

from tests.waiting import wait_until

LOGGER = logging.getLogger("zanteyard")


class Raising(logging.Handler):
    def __init__(self, error: BaseException) -> None:
        super().__init__()
        self.error = error

    def emit(self, record: logging.LogRecord) -> None:
        raise self.error


@contextlib.contextmanager
def handled(handler: logging.Handler) -> Iterator[io.StringIO]:
    """Logs with this additional handler; returns what arrives on standard error."""
    LOGGER.addHandler(handler)
    try:
        with contextlib.redirect_stderr(io.StringIO()) as told:
            yield told
    finally:
        LOGGER.removeHandler(handler)


@contextlib.contextmanager
def without_folder() -> Iterator[io.StringIO]:
    """The log file's folder disappears while it is used, and can't be made again."""
    folder = tempfile.mkdtemp()
    handler = logging.handlers.WatchedFileHandler(os.path.join(folder, "the.log"))
    try:
        with handled(handler) as told:
            shutil.rmtree(folder)
            yield told
    finally:
        handler.close()


class Guarded(unittest.TestCase):
    def test_what_a_handler_raises_reaches_nobody(self) -> None:
        for error in (OSError(28, "No space left on device"), ValueError("closed"), MemoryError()):
            with self.subTest(error), handled(Raising(error)) as told:
                LOGGER.error("%s ends", "the audit")
                self.assertIn("the audit ends", told.getvalue())
                self.assertIn(repr(error), told.getvalue())

    def test_python_s_own_handlers(self) -> None:
        with without_folder() as told:
            LOGGER.error("one")
            LOGGER.error("two")
            self.assertEqual(told.getvalue().count("FileNotFoundError"), 2)
        late = logging.FileHandler("/nowhere/at/all.log", delay=True)
        with handled(late) as told:
            LOGGER.error("one")
            self.assertIn("one (can't write the log: FileNotFoundError", told.getvalue())

    def test_without_standard_error(self) -> None:
        class Full(io.StringIO):
            def write(self, _: str) -> int:
                raise OSError(28, "No space left on device")

        for its in (None, Full()):
            with handled(Raising(ValueError())), mock.patch("sys.stderr", its):
                LOGGER.error("one")

    def test_what_ends_the_program_goes_on(self) -> None:
        for error in (KeyboardInterrupt(), SystemExit()):
            with handled(Raising(error)), self.assertRaises(type(error)):
                LOGGER.error("one")

    def test_what_a_signals_handler_raises_is_the_applications(self) -> None:
        class Ringing(logging.Handler):
            def emit(self, record: logging.LogRecord) -> None:
                os.kill(os.getpid(), signal.SIGUSR1)

        class Handler:
            def __call__(self, *_: Any) -> None:
                raise TimeoutError("the time is up")

            def ring(self, *_: Any) -> None:
                self()

        def ring(_: Any, *__: Any) -> None:
            raise TimeoutError("the time is up")

        its = (Handler(), Handler().ring, functools.partial(ring, 1), lambda *_: ring(1))
        before = signal.getsignal(signal.SIGUSR1)
        self.addCleanup(signal.signal, signal.SIGUSR1, before)
        for each in its:
            signal.signal(signal.SIGUSR1, each)
            with handled(Ringing()), self.assertRaisesRegex(TimeoutError, "the time is up"):
                LOGGER.error("one")

    def test_to_guard_it_again_changes_nothing(self) -> None:
        before = LOGGER.handle
        guard(LOGGER)
        self.assertIs(LOGGER.handle, before)


@unittest.skipUnless(os.path.isfile(PROGRAM), f"{PROGRAM} is not built")
class Audits(unittest.TestCase):
    def test_one_that_ends_is_followed_by_another(self) -> None:
        with without_folder() as told, LiveAuditor(Auditor(2)) as live:
            session = live.session(MemoryStore().connect())
            live.lose(ValueError("for a test"))
            self.assertTrue(wait_until(lambda: len(live.earlier) == 1))
            session.run(lambda transaction: transaction.put("x", 1))
            self.assertIs(live.failure, None)
        self.assertIn("for a test (can't write the log", told.getvalue())


    def test_a_commit_that_isnt_audited_is_no_failure(self) -> None:
        """The client's transactions go on, and the outcome reports it."""
        with without_folder() as told, Auditor(1) as auditor:
            session = Session(auditor, 0, MemoryStore().connect())
            lost = AuditLostError("there is no auditor that answers")
            with mock.patch.object(auditor, "take", side_effect=lost):
                session.run(lambda transaction: transaction.put("x", 11))
            self.assertEqual(session.run(lambda transaction: transaction.get("x")), 11)
            self.assertEqual(auditor.outcome().kind, "incomplete")
        self.assertIn("auditing of session 0 has stopped", told.getvalue())


if __name__ == "__main__":
    unittest.main()
