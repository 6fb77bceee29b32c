"""A proxy that is reached by its control socket. It goes on when this process ends, however that
happens, and another `zanteyard watch` attaches itself to it."""

import contextlib
import logging
import os
import select
import signal
import socket
import subprocess
import threading
import time
from collections.abc import Callable, Mapping, Sequence

from ...core._visible import visible
from ...core.errors import ProgramMissingError
from ._control import FINGERPRINT, BusyProxyError, ControlError, Who, attach, fingerprint, who
from ..outcome._feed import Item, Split
from ._proxy import ENDING, LISTENING, PIECE, STAMP
from ...program._proxy_program import version_of

LOOKS = 0.02  # seconds between two tries to reach a proxy that was started
Take = Callable[[Sequence[Item]], None]
logger = logging.getLogger("zanteyard")


class AttachedProxy:
    """As `Proxy`, for a proxy with a control socket. It takes over the one that runs there, if
    that has the same options and is of the same build; otherwise it starts another one, which
    takes the listening socket."""

    def __init__(
        self,
        call: Sequence[str],
        take: Take,
        environment: Mapping[str, str] | None,
        control: str,
        drain: float,
        takes_over: bool = False,
    ) -> None:
        """Raises ProgramMissingError if it can't be started, BusyProxyError if another program
        audits through it, and ControlError if its socket can't be used."""
        self.last_words: list[str] = []
        self.is_listening = threading.Event()
        self.is_replaced = False  # another proxy has the listening socket, and this one drains
        self.is_over = threading.Event()  # nothing more comes from it
        self._take, self._control, self._drain = take, control, drain
        self._turn = threading.Lock()  # for writing a command
        self._socket: socket.socket | None = None
        own = dict(os.environ if environment is None else environment)
        mark = fingerprint(call, own)
        self._child: subprocess.Popen[bytes] | None = None
        self._other: OtherProcess | None = None
        found = who(control)
        if found is not None and found.parent and not takes_over:
            raise BusyProxyError(f"process {found.parent} audits through the proxy at this address")
        if found is not None and not found.parent and _is_like(found, mark, call[0]):
            self._adopt(found)
        else:
            self._start(call, {**own, FINGERPRINT: mark}, found)

    def _adopt(self, found: Who) -> None:
        self._other = OtherProcess(found.process)
        reached = attach(self._control, True)
        if reached is None:
            raise ControlError(f"the proxy that had {self._control} has just ended")
        self._socket, _, rest = reached
        its = "the proxy that runs already (process %d) goes on with its connections"
        logger.info(its, found.process)
        self.is_listening.set()
        self._threads = [threading.Thread(target=self._read, args=(rest,), daemon=True)]
        self._threads[0].start()

    def _start(
        self, call: Sequence[str], environment: Mapping[str, str], earlier: Who | None
    ) -> None:
        more = ["--control", self._control]
        if earlier is not None:
            logger.info("another proxy takes over from process %d", earlier.process)
            more.append("--take-over")
        try:
            self._child = subprocess.Popen(
                [*call, *more],
                stdin=subprocess.DEVNULL,
                stdout=subprocess.DEVNULL,
                stderr=subprocess.PIPE,
                bufsize=0,
                env=dict(environment),
                start_new_session=True,
            )
        except OSError as error:
            raise ProgramMissingError(f"can't start {call[0]}: {error.strerror}") from error
        self._threads = [
            threading.Thread(target=target, daemon=True) for target in (self._reach, self._hear)
        ]
        for thread in self._threads:
            thread.start()

    @property
    def was_running(self) -> bool:
        """Whether it ran before, so that applications may be connected to it."""
        return self._other is not None

    @property
    def number(self) -> int:
        """Its process."""
        if self._child is not None:
            return self._child.pid
        assert self._other is not None
        return self._other.number

    @property
    def is_running(self) -> bool:
        if self._child is not None:
            return self._child.poll() is None
        assert self._other is not None
        return self._other.is_running

    def tell(self, line: bytes) -> bool:
        """Writes a command, and returns whether that succeeded."""
        with self._turn:
            if self._socket is None:
                return False
            try:
                self._socket.sendall(line)
                return True
            except OSError:
                return False

    def _reach(self) -> None:
        """Attaches to the proxy that was started, once it has its socket, and reads what it
        writes."""
        rest = b""
        while self.is_running:
            with contextlib.suppress(ControlError):
                reached = attach(self._control, False)
                if reached is not None:
                    connection, found, rest = reached
                    if self._child is not None and found.process == self._child.pid:
                        self._socket = connection
                        break
                    connection.close()  # the proxy that ran before
            time.sleep(LOOKS)
        if self._socket is None:
            self.is_over.set()
            self._take(())
        else:
            self._read(rest)

    def _read(self, rest: bytes) -> None:
        assert self._socket is not None
        split = Split()
        data = rest
        try:
            while True:
                items = [item for item in split.items(data) if not self._is_its_own(item)]
                if items:
                    self._take(items)
                data = self._socket.recv(PIECE)
                if not data:
                    break
        except OSError as error:
            logger.error("can't read from the proxy: %s", error)
        if split.wrong:
            logger.warning("the proxy sent %d unreadable lines", split.wrong)
        self.is_over.set()
        self._take(())

    def _is_its_own(self, item: Item) -> bool:
        """Handles an event of the proxy, as opposed to one of its audit."""
        if isinstance(item, bytes):
            return False
        if item["event"] == "logged":
            self._heard(str(item.get("text", "")))
            return True
        if item["event"] == "replaced":
            self.is_replaced = True
            return True
        return False

    def _hear(self) -> None:
        """Logs what the process that was started writes on standard error."""
        assert self._child is not None and self._child.stderr is not None
        with contextlib.suppress(OSError, ValueError):
            for line in self._child.stderr:
                self._heard(line.decode("utf-8", "replace"))

    def _heard(self, line: str) -> None:
        told = STAMP.sub("", visible(line, 500))
        if told.startswith(LISTENING):
            self.is_listening.set()
        self.last_words = [*self.last_words[-4:], told]
        logger.info("proxy: %s", told)

    def hurry(self) -> None:
        """Sends the signal that ends a draining proxy at once."""
        self._signal(signal.SIGTERM)

    def _signal(self, number: int) -> None:
        with contextlib.suppress(ProcessLookupError):
            if self._child is not None:
                if self.is_running:
                    self._child.send_signal(number)
            elif self._other is not None:
                self._other.send(number)

    def end(self, seconds: float | None = None) -> int:
        """Ends it: its connections end as soon as they have no transaction open, and by force
        after this many seconds (those for draining, and some more). Returns its status, or 0 if
        that is unknown."""
        limit = self._drain + ENDING if seconds is None else seconds
        self._signal(signal.SIGTERM)
        if not self._wait(limit):
            logger.warning("the proxy didn't end within %g s and was killed", limit)
            self._signal(signal.SIGKILL)
            self._wait(ENDING)
        self.let_go()
        status = self._child.returncode if self._child is not None else None
        return status if status is not None else 0

    def _wait(self, seconds: float) -> bool:
        """Waits until it has ended; returns whether it has."""
        if self._other is not None:
            return self._other.wait(seconds)
        assert self._child is not None
        try:
            self._child.wait(seconds)
        except subprocess.TimeoutExpired:
            return False
        return True

    def let_go(self) -> None:
        """Leaves the proxy running, without an audit."""
        with self._turn:
            if self._socket is not None:
                with contextlib.suppress(OSError):
                    self._socket.shutdown(socket.SHUT_RDWR)
        for thread in self._threads:
            if thread is not threading.current_thread():
                thread.join(ENDING if not self.is_running else 0.0)
        with self._turn:
            if self._socket is not None and self.is_over.is_set():
                self._socket.close()
        if self._other is not None:
            self._other.close()


def _is_like(found: Who, mark: str, program: str) -> bool:
    """Whether a proxy is what a call with this fingerprint would start. If the program doesn't say
    its version, as on a machine that is too busy, the proxy that runs keeps its connections."""
    return found.fingerprint == mark and version_of(program) in (found.build, "")


class OtherProcess:
    """A process that isn't a child of this one."""

    def __init__(self, number: int) -> None:
        """Raises ControlError if there is none."""
        self.number = number
        try:
            self._handle = os.pidfd_open(number)
        except OSError as error:
            why = f"the proxy's process {number} can't be reached: {error.strerror}"
            raise ControlError(why) from error
        self._is_closed = False

    @property
    def is_running(self) -> bool:
        return not self.wait(0.0)

    def wait(self, seconds: float) -> bool:
        """Waits until it has ended; returns whether it has."""
        if self._is_closed:
            return True
        return bool(select.select([self._handle], [], [], seconds)[0])

    def send(self, number: int) -> None:
        if not self._is_closed:
            signal.pidfd_send_signal(self._handle, number)

    def close(self) -> None:
        if not self._is_closed:
            self._is_closed = True
            os.close(self._handle)
