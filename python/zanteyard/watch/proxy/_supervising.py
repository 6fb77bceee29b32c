"""Keeps a proxy running: one that ends by itself is replaced, so that applications can connect
again."""

import logging
import threading
import time
from collections.abc import Callable, Mapping, Sequence
from dataclasses import dataclass

from ...core.errors import ProgramEndedError, ZanteyardError
from ._attached import AttachedProxy
from ._control import BusyProxyError, ControlError
from ..outcome._feed import Item
from ._intake import Intake
from ._proxy import Proxy

PAUSES = (0.1, 0.5, 2.0, 5.0, 15.0)  # seconds before another one is started, each time longer
MOST = 10  # that may end in quick succession
CALM = 60.0  # seconds after which an end counts as the first again
logger = logging.getLogger("zanteyard")


@dataclass(frozen=True)
class Control:
    """How the proxy is reached: by the socket at this path."""

    path: str
    drain: float = 30.0  # seconds for open transactions once the proxy was told to end
    takes_over: bool = False  # from a proxy through which another program audits


class Supervisor:
    """Keeps a proxy running. `begin`, `look`, `let_go` and `end` are for one thread, `tell` and
    `hurry` are for any. `gone` is called with the reason after everything from a proxy that ended
    by itself has been read. With `control` the proxy outlives this process."""

    def __init__(
        self,
        call: Sequence[str],
        environment: Mapping[str, str] | None,
        intake: Intake,
        gone: Callable[[str], object],
        control: Control | None = None,
    ) -> None:
        self._call, self._environment, self._control = call, environment, control
        self._intake, self._gone = intake, gone
        self._proxy: Proxy | AttachedProxy | None = None
        self._is_ending = False
        self._deaths, self._died_at = 0, float("-inf")
        self._start_at = 0.0  # by the monotonic clock
        self.ended = 0  # proxies that ended by themselves
        self.has_started = threading.Event()  # the current proxy has begun an audit

    def begin(self) -> None:
        """Starts the first proxy, or attaches to the one that runs already. Raises
        ProgramMissingError, and CantBeginError if another program audits through it."""
        try:
            self._start()
        except BusyProxyError as error:
            raise CantBeginError(f"{error}; --take-over would end that audit") from error
        except ControlError as error:
            raise CantBeginError(str(error)) from error

    def _start(self) -> None:
        self.has_started.clear()
        if self._control is None:
            self._proxy = Proxy(self._call, self._take, self._environment)
            return
        path, drain, takes_over = self._control.path, self._control.drain, self._control.takes_over
        its = (self._call, self._take, self._environment, path, drain, takes_over)
        self._proxy = AttachedProxy(*its)

    def _take(self, items: Sequence[Item]) -> None:
        if any(isinstance(item, dict) and item["event"] == "started" for item in items):
            self.has_started.set()
        if items:
            self._intake.put(items)

    @property
    def is_listening(self) -> bool:
        """Whether the current proxy accepts connections."""
        return self._proxy is not None and self._proxy.is_listening.is_set()

    def tell(self, line: bytes) -> bool:
        """Sends a command to the current proxy, and returns whether that succeeded."""
        proxy = self._proxy
        return proxy is not None and proxy.tell(line)

    def look(self) -> None:
        """Replaces a proxy that has ended. Raises CantBeginError if it never began an audit, and
        ProgramEndedError if too many have ended."""
        if self._proxy is None:
            if time.monotonic() >= self._start_at:
                self._start()
            return
        if self.is_replaced:
            raise ProgramEndedError("another proxy has taken this one's place")
        if self._proxy.is_running:
            if isinstance(self._proxy, AttachedProxy) and self._proxy.is_over.is_set():
                self._attach_again(self._proxy)
            return
        why = _why(self._proxy.end(), self._proxy.last_words)
        now = time.monotonic()
        self._deaths = self._deaths + 1 if now < self._died_at + CALM else 1
        self._died_at = now
        if not self.has_started.is_set() and self._deaths == 1:
            raise CantBeginError(why)
        self._proxy = None
        self.ended += 1
        self._gone(why)
        if self._deaths >= MOST:
            raise ProgramEndedError(f"{why}; {MOST} proxies ended in quick succession")
        self._start_at = now + PAUSES[min(self._deaths, len(PAUSES)) - 1]
        logger.error("%s; starting another one", why)

    def look_last(self) -> None:
        """Reports a proxy that has ended, and starts no other one."""
        if self._proxy is not None and not self._proxy.is_running:
            why = _why(self._proxy.end(), self._proxy.last_words)
            self._proxy = None
            self.ended += 1
            self._gone(why)

    def _attach_again(self, proxy: AttachedProxy) -> None:
        """Leaves a proxy that no longer speaks to this process; the next look attaches to it."""
        why = "the proxy no longer speaks to this process"
        logger.error("%s; attaching to it again", why)
        proxy.let_go()
        self._proxy = None
        self.ended += 1
        self._gone(why)
        self._start_at = time.monotonic() + PAUSES[0]

    @property
    def is_replaced(self) -> bool:
        """Whether another proxy has the current one's address."""
        return isinstance(self._proxy, AttachedProxy) and self._proxy.is_replaced

    @property
    def was_running(self) -> bool:
        """Whether the current proxy ran before this run began."""
        return isinstance(self._proxy, AttachedProxy) and self._proxy.was_running

    def hurry(self) -> None:
        """Ends a proxy that is draining at once."""
        proxy = self._proxy
        if proxy is not None:
            proxy.hurry()

    def let_go(self) -> int | None:
        """Leaves the proxy running, if it can outlive this process, and returns its process.
        Otherwise it ends it, and returns None."""
        if isinstance(self._proxy, AttachedProxy) and self._proxy.is_running:
            self._proxy.let_go()
            return self._proxy.number
        self.end()
        return None

    def end(self) -> None:
        """Ends the proxy, if one is running: its connections end once they have no transaction
        open, or after the time for that."""
        if self._proxy is not None:
            self._proxy.end()


def _why(status: int, last_words: Sequence[str]) -> str:
    """Why a proxy ended. Its last words don't say that it was killed."""
    if status < 0:
        return f"the proxy was killed by signal {-status}"
    words = "; ".join(last_words[-2:])
    return f"the proxy ended with status {status}" + (f": {words}" if words else "")


class CantBeginError(ZanteyardError):
    """The proxy ended before it had begun an audit."""
