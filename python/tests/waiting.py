"""Waits for what has to happen, instead of assuming how long it takes; and free ports, which another
program may take before they are used."""
import socket
import subprocess
import time

from zanteyard.trial._throwaway_server import CantStartError

SOON = 300.0  # seconds, on a busy machine


def wait_until(condition, seconds=SOON, pause=0.01):
    """Whether it has become true in time."""
    until = time.monotonic() + seconds
    while not (has_come := condition()) and time.monotonic() < until:
        time.sleep(pause)
    return has_come


def at_a_free_port(start):
    """What `start(port)` returns; with another port if the server can't be started at the first."""
    for left in reversed(range(5)):
        with socket.socket() as sock:
            sock.bind(("127.0.0.1", 0))
            port = sock.getsockname()[1]
        try:
            return start(port)
        except (CantStartError, subprocess.CalledProcessError):
            if not left:
                raise
    raise AssertionError
