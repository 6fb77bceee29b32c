"""A small web server for read-only pages: few threads, no access to the file system, and no answer
to requests that use another server's name."""

from __future__ import annotations

import base64
import contextlib
import hashlib
import ipaddress
import socket
import threading
from collections.abc import Callable
from dataclasses import dataclass
from http.server import BaseHTTPRequestHandler, HTTPServer
from typing import Any

from ...core._version import VERSION

MOST_AT_ONCE = 16  # requests; more are answered 503
SLOWEST = 10.0  # seconds for a client to send its request and to take the answer, both together
LONGEST_PATH = 200
HTML = "text/html; charset=utf-8"
TEXT = "text/plain; charset=utf-8"


@dataclass(frozen=True)
class Answer:
    """A text as the answer to a request, and its type."""

    text: str
    kind: str = HTML
    status: int = 200
    policy: str = "default-src 'none'"


NOT_FOUND = Answer("there is no such page\n", TEXT, 404)
OTHER_NAME = Answer("this server has another name\n", TEXT, 421)
BUSY = b"HTTP/1.0 503 Service Unavailable\r\nContent-Length: 0\r\nConnection: close\r\n\r\n"
Tell = Callable[[str], Answer | None]


def policy_for(style: str, script: str = "") -> str:
    """A Content-Security-Policy that allows this style and this script, and nothing else."""
    allowed = f"default-src 'none'; style-src '{_sum_of(style)}'"
    if script:
        allowed += f"; script-src '{_sum_of(script)}'; connect-src 'self'"
    return f"{allowed}; base-uri 'none'; form-action 'none'; frame-ancestors 'none'"


def _sum_of(text: str) -> str:
    return "sha256-" + base64.b64encode(hashlib.sha256(text.encode()).digest()).decode()


def host_and_port(address: str) -> tuple[str, int]:
    """The host and port in HOST:PORT. Raises ValueError. The host may be an IPv6 address in
    brackets."""
    host, colon, port = address.rpartition(":")
    if not (colon and port.isascii() and port.isdecimal() and int(port) < 1 << 16):
        raise ValueError("give HOST:PORT, such as 127.0.0.1:8080")
    if ":" in host and not (host.startswith("[") and host.endswith("]")):
        raise ValueError("put an IPv6 address in brackets, such as [::1]:8080")
    return host.strip("[]") or "127.0.0.1", int(port)


def is_own_name(named: str, host: str) -> bool:
    """Whether a request's Host header is a name for this server: an IP address, which another
    site's page can't stand for, `localhost`, or the name that it listens under. Any other name may
    be one that somebody else has pointed here."""
    name = named.strip()
    if name.startswith("["):
        name = name[1:].split("]")[0]
    elif name.count(":") <= 1:
        name = name.split(":")[0]
    if name.lower() in ("localhost", host.lower(), socket.gethostname().lower()):
        return True
    try:
        ipaddress.ip_address(name)
        return True
    except ValueError:
        return False


def _hang_up(request: socket.socket) -> None:
    with contextlib.suppress(OSError):  # it has ended meanwhile
        request.shutdown(socket.SHUT_RDWR)


class _Server(HTTPServer):
    """One thread per request, with a limit on their number."""

    daemon_threads = True
    request_queue_size = 64

    def __init__(self, address: tuple[str, int], handler: Any) -> None:
        self.address_family = socket.AF_INET6 if ":" in address[0] else socket.AF_INET
        self.places = threading.BoundedSemaphore(MOST_AT_ONCE)
        super().__init__(address, handler)

    def server_bind(self) -> None:
        """Binds without looking up its own name, which may take long."""
        self.socket.setsockopt(socket.SOL_SOCKET, socket.SO_REUSEADDR, 1)
        self.socket.bind(self.server_address)
        self.server_address = self.socket.getsockname()
        self.server_name, self.server_port = str(self.server_address[0]), self.server_address[1]

    def process_request(self, request: Any, client_address: Any) -> None:
        if not self.places.acquire(blocking=False):
            try:
                request.settimeout(0.1)
                request.sendall(BUSY)
            except OSError:
                pass
            self.shutdown_request(request)
            return
        try:
            whole = (request, client_address)
            threading.Thread(target=self._answer, args=whole, daemon=True).start()
        except BaseException:
            self.places.release()
            self.shutdown_request(request)
            raise

    def _answer(self, request: Any, client_address: Any) -> None:
        late = threading.Timer(SLOWEST, _hang_up, (request,))  # however it spreads its bytes
        late.daemon = True
        late.start()
        try:
            self.finish_request(request, client_address)
        except Exception:  # such as a client that hangs up; that must not fill the log
            pass
        finally:
            late.cancel()
            self.places.release()
            self.shutdown_request(request)

    def handle_error(self, *_: object) -> None:
        """Logs nothing."""


class WebServer:
    """Answers GET and HEAD at HOST:PORT with the result of `tell` for a path, until it is closed.
    With port 0 it takes any free one; `port` says which. `tell` is called from several threads.
    With `any_name`, the host name in requests doesn't matter. Raises OSError if it can't listen
    there, and ValueError if that is no address."""

    def __init__(self, address: str, tell: Tell, any_name: bool = False) -> None:
        host, port = host_and_port(address)
        self.host = host

        class Handler(BaseHTTPRequestHandler):
            timeout = SLOWEST
            server_version, sys_version = f"zanteyard/{VERSION}", ""

            def do_GET(self) -> None:
                self._send(self._found(), True)

            def do_HEAD(self) -> None:
                self._send(self._found(), False)

            def _found(self) -> Answer:
                if not (any_name or is_own_name(self.headers.get("Host", ""), host)):
                    return OTHER_NAME
                path = self.path.split("?")[0].split("#")[0]
                if len(path) > LONGEST_PATH or not path.startswith("/"):
                    return NOT_FOUND
                return tell(path) or NOT_FOUND

            def _send(self, answer: Answer, is_whole: bool) -> None:
                data = answer.text.encode("utf-8", "replace")
                self.send_response(answer.status)
                for name, value in (
                    ("Content-Type", answer.kind),
                    ("Content-Length", str(len(data))),
                    ("Content-Security-Policy", answer.policy),
                    ("X-Content-Type-Options", "nosniff"),
                    ("Referrer-Policy", "no-referrer"),
                    ("Cache-Control", "no-store"),
                ):
                    self.send_header(name, value)
                self.end_headers()
                if is_whole:
                    self.wfile.write(data)

            def log_message(self, *_: object) -> None:
                """Logs no requests."""

        try:
            self._server = _Server((host, port), Handler)
        except OSError as error:  # its message lacks the address
            raise OSError(error.errno, error.strerror, address) from error
        self.port = self._server.server_port
        threading.Thread(target=self._server.serve_forever, args=(0.1,), daemon=True).start()

    @property
    def url(self) -> str:
        host = f"[{self.host}]" if ":" in self.host else self.host
        return f"http://{host}:{self.port}/"

    def close(self) -> None:
        self._server.shutdown()
        self._server.server_close()
