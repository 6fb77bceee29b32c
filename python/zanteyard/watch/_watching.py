"""A running audit: passes what the proxy writes to the auditor, notes the replies, and tells the
proxy what it needs of them."""

import json
import logging
import signal
import threading
import time
from collections.abc import Callable, Sequence
from typing import Any

from ..core.errors import JournalError, ProgramEndedError, ZanteyardError
from ._auditing import OPEN, ROUND, TRUNCATE, Auditing, head_of, refusal_of
from .outcome._board import Board
from .outcome._ending import word_of
from .violations._explaining import Explaining
from .outcome._feed import Event, Item, answered_of, command, listed, text, whole
from .proxy._intake import Intake
from .violations._pending import waiting_reads
from .violations._redacting import without_values
from .violations._found import Found, found_in
from ..core._stopping import STOPS
from ..core._verdict_kinds import Kind

OK, REPORT, CUT = b'["ok"]', b'["report",', b'["cut",'
GONE = "gone"  # an event of this program: the proxy has ended
LOOKS = 0.2  # seconds between two checks whether another audit should begin
PAUSES = (1.0, 2.0, 5.0, 15.0, 60.0)  # seconds before another audit begins, each time longer
LEAVING = 2.0  # seconds in which a signal that the proxy got reaches this program as well
CALM = 300.0  # seconds after which an audit's end counts as the first again
DESCRIBING = 5.0  # seconds for which the proxy may not forget what it has to describe
MOST_ASKED = 8  # rounds over the same transactions, each without what the one before found
PENDING = 5.0  # seconds between two lists of waiting reads
TOLD = 60.0  # seconds between two log lines with the same text
MOST_WARNINGS = 100  # that are remembered
Tell = Callable[[bytes], bool]
logger = logging.getLogger("zanteyard")


class RefusedLineError(ZanteyardError):
    """The auditor refused one of the proxy's lines."""


class Watching:
    """A running audit, with one thread that asks the auditor. `tell` sends a command to the current
    proxy, and returns whether it could. With `redacts`, no values of statements are kept."""

    def __init__(
        self,
        auditing: Auditing,
        board: Board,
        intake: Intake,
        tell: Tell,
        explaining: Explaining,
        redacts: bool = False,
    ) -> None:
        self.auditing, self.board, self.intake = auditing, board, intake
        self.explaining, self.redacts = explaining, redacts
        self.stopped = threading.Event()  # the proxy's last lines have been audited
        self.gone = 0  # proxies whose last lines were read
        self._tell = tell
        self._marks: list[int] = []  # of each session, how many transactions are forgotten
        self._owed: list[list[int]] = []  # marks that the proxy hasn't been told yet
        self._owed_until = float("inf")
        self._received = 0  # transactions of the last round
        self._is_stopping = self._has_started = False
        self._has_given_up = False  # the proxy ended its audit, and hasn't begun another one
        self.cant_begin = ""  # why the very first audit couldn't begin
        self._restart_at: float | None = None  # by the monotonic clock
        self._drained_at: float | None = None  # when the proxy had no connection left
        self._ends = 0  # of audits, in quick succession
        self._ended_at = float("-inf")
        self._looked_at = self._logged_at = float("-inf")
        self._logged_kind = ""
        self._warned: dict[str, float] = {}  # when each was logged last
        self._thread = threading.Thread(target=self._run, daemon=True)

    def start(self) -> None:
        self._thread.start()

    def stop(self) -> None:
        """Asks for a last round. `stopped` is set once that was reported, or the audit is lost."""
        self._is_stopping = True
        if not self._tell(command("stop")) or self._has_given_up:
            self.stopped.set()

    def end(self) -> None:
        """Ends the audit and the auditor's program."""
        self.intake.close()
        self._thread.join()

    def _run(self) -> None:
        signal.pthread_sigmask(signal.SIG_BLOCK, STOPS)  # programs it starts inherit this
        try:
            while True:
                items = self.intake.take(LOOKS)
                if items is None:
                    break
                self._take(items)
                self._tell_cuts()
                self._begin_anew_if_due()
                self._leave_if_due()
        except Exception:
            logger.exception("the audit ends because of a bug in this program")
            self.board.ended("a bug in this program; see the log")
        finally:
            self.stopped.set()
            self.auditing.end()

    def _take(self, items: Sequence[Item]) -> None:
        lines: list[bytes] = []
        for item in items:
            if isinstance(item, bytes):
                lines.append(item)
            else:
                self._give(lines)
                lines = []
                self._event(item)
        self._give(lines)

    # lines for the auditor

    def _give(self, lines: Sequence[bytes]) -> None:
        if not lines:
            return
        try:
            for line, reply in self.auditing.give(lines):
                self._answered(line, reply)
        except RefusedLineError as error:
            self._lose(str(error))
        except (ProgramEndedError, JournalError) as error:
            self._lose(str(error).rstrip(": "))
        self.board.restarted(self.auditing.restarts)

    def _answered(self, line: bytes, reply: bytes) -> None:
        if reply == OK:
            if opened := OPEN.match(line):
                self._marks, self._owed = [0] * int(opened[1]), []
        elif reply.startswith(REPORT):
            if self._reported(reply):
                self._go_on_after(line, json.loads(reply))
        elif line.startswith(TRUNCATE):
            self._cut(reply.startswith(CUT))
            self._owed.append(self._marks)
            self._tell_cuts()
        elif line.startswith(ROUND):
            logger.warning("a round was refused: %s", refusal_of(reply))
        else:
            shown = line[:60].decode(errors="replace")
            raise RefusedLineError(f"the auditor answered {refusal_of(reply)} to {shown}")

    def _reported(self, reply: bytes) -> bool:
        """Notes a round, and returns whether it was violated."""
        number, kind, counts = head_of(reply)
        self._received = sum(counts)
        seen = self.board.round(kind, counts, self._remaining)
        now = time.monotonic()
        is_due = kind != self._logged_kind or now >= self._logged_at + TOLD
        if is_due:
            self._logged_kind, self._logged_at = kind, now
        logger.log(
            logging.INFO if is_due else logging.DEBUG,
            "round %d: %s; %d transactions with the audit's own, %d of them held in memory; "
            "%.1f s behind",
            number, word_of(kind, self.auditing.promise), seen.taken, seen.remaining, seen.behind,
        )
        if kind == Kind.PENDING and now >= self._looked_at + PENDING:
            self._looked_at = now
            self.board.waits(*waiting_reads(self.auditing.kept().transactions, counts))
        return bool(kind == Kind.VIOLATED)

    def _cut(self, is_cut: bool) -> None:
        """Notes what is forgotten. Sessions may have joined, too."""
        before = sum(self._marks)
        self._marks = self.auditing.marks()
        if is_cut:
            self.board.cut(sum(self._marks) - before, self._remaining)

    def _tell_cuts(self) -> None:
        """Lets the proxy forget, once it has described what it was asked about."""
        now = time.monotonic()
        if self._owed and self.explaining.is_asking and now < self._owed_until:
            self._owed_until = min(self._owed_until, now + DESCRIBING)
            return
        self._owed_until = float("inf")
        while self._owed:
            self._tell(command("cut", marks=self._owed.pop(0)))

    @property
    def _remaining(self) -> int:
        """Transactions of the last round that the auditor remembers."""
        return self._received - sum(self._marks)

    def _go_on_after(self, line: bytes, report: list[Any]) -> None:
        """Handles the violated report on this line. What the violations in it rest on is left out,
        and the round is repeated over the rest, until that isn't violated (docs/FOLDING.md, "After
        a violation")."""
        for tried in range(MOST_ASKED):
            kept = self.auditing.kept()
            found = found_in(kept, report, self.auditing.promise, tried)
            self._tell_violations(found)
            if not found.reads:
                break
            self.board.sets_aside(len(found.reads), found.unseen)
            self.auditing.go_on_with(kept.without(found.reads))
            reply = self.auditing.ask(line)
            if not reply.startswith(REPORT):
                raise RefusedLineError(f"the auditor answered {refusal_of(reply)} to a round")
            if not self._reported(reply):
                return
            report = json.loads(reply)
        self._end_audit("what is left of a violated round is violated for another reason", False)

    def _tell_violations(self, found: Found) -> None:
        count = len(found.held)
        self.board.finds(count)
        sentence = self.auditing.promise.sentence(Kind.VIOLATED)
        more = f" ({count} times)" if count > 1 else ""
        if self.explaining.groups.may_be_known:  # its explanation tells whether it is
            logger.info("violated: %s%s; known violations are set aside", sentence, more)
        else:
            told = "the first of each shape is explained"
            logger.error("VIOLATED: %s%s; %s", sentence, more, told)
        self.explaining.begin(
            found.report,
            found.held,
            lambda id, its: self._tell(command("describe", id=id, transactions=its)),
        )

    # the audit's end, and the next audit

    def _lose(self, reason: str, has_proxy: bool = True) -> None:
        go_on = has_proxy and not self._is_stopping
        logger.error(
            "the audit ended: %s%s", reason, "; applications run on as before" if go_on else ""
        )
        self._end_audit(reason)

    def _end_audit(self, reason: str, is_lost: bool = True) -> None:
        self.auditing.end()
        self.board.ended(reason, is_lost)
        now = time.monotonic()
        self._ends = self._ends + 1 if now < self._ended_at + CALM else 1
        self._ended_at = now
        if self._is_stopping:
            return
        pause = PAUSES[min(self._ends, len(PAUSES)) - 1]
        self._restart_at = now + pause

    def _begin_anew_if_due(self) -> None:
        if self._restart_at is None or self.explaining.is_asking:
            return  # by another audit the proxy forgets what it is asked about
        if time.monotonic() >= self._restart_at:
            self._restart_at = None
            if not self._is_stopping:
                self._tell(command("restart"))

    def _leave_if_due(self) -> None:
        """Lets a proxy end that was told to. If this program may have been told as well, it is
        about to want a last round."""
        if self._drained_at is None:
            return
        if self._is_stopping:
            is_due = self.stopped.is_set() and not self.explaining.is_asking
        else:
            is_due = time.monotonic() >= self._drained_at + LEAVING
        if is_due:
            self._drained_at = None
            self._tell(command("leave"))

    def _begin_anew(self) -> None:
        self._has_given_up = False
        self.board.begins_anew()
        logger.info("another audit begins, for what happens from now on")

    # events

    def _event(self, event: Event) -> None:
        name = event["event"]
        if name == "coverage":
            self.board.coverage(event)
        elif name == "meeting":
            self.board.met(event)
        elif name == "checking":
            self.board.checks(event)
        elif name == "transactions":
            answered = answered_of(event)
            answered = without_values(answered) if self.redacts else answered
            self.explaining.answered(whole(event.get("id")), answered)
        elif name == "earlier":
            self.board.earlier(event)
        elif name == "started":
            if self._has_started:  # for example by another proxy
                self._begin_anew()
            self._has_started, self._restart_at = True, None
            self.board.started(event)
            for told in listed(event.get("warnings")):
                logger.warning("%s", text(told))
        elif name == "restarted":
            self._begin_anew()
        elif name == "warning":
            self._warn(text(event.get("text")))
        elif name == "behind":
            self._lose(text(event.get("reason")) or "the auditor fell behind")
        elif name == "ended":
            self.explaining.expect_no_answers()
            if not self.stopped.is_set():  # else it was told to end
                self._has_given_up = True
                self._given_up(event)
        elif name == "drained":
            self._drained_at = time.monotonic()
        elif name == "stopped":
            self.stopped.set()
        elif name == GONE:
            self.explaining.expect_no_answers()
            self.gone += 1
            self._has_given_up, self._drained_at = False, None
            self._lose(text(event.get("reason")), has_proxy=False)
            self._restart_at = None  # the next proxy begins an audit by itself
            if self._is_stopping:
                self.stopped.set()

    def _given_up(self, event: Event) -> None:
        """Handles a proxy that gave up. If no audit has begun yet, something is missing, unless it
        only waited for a transaction."""
        reason = text(event.get("reason")) or "the proxy gave up the audit"
        if self._has_started or event.get("blocked") is True:
            self._lose(reason)
        else:
            self.cant_begin = self.cant_begin or reason

    def _warn(self, told: str) -> None:
        """Notes a warning, and logs it unless it was logged recently."""
        now = time.monotonic()
        if now >= self._warned.get(told, float("-inf")) + TOLD:
            if len(self._warned) >= MOST_WARNINGS:
                self._warned.clear()
            self._warned[told] = now
            logger.warning("%s", told)
        self.board.note(told)

    def proxy_is_gone(self, reason: str) -> None:
        """Reports that a proxy ended without being told to, after everything from it has been read.
        May be called from any thread."""
        self.intake.put([{"event": GONE, "reason": reason}])
