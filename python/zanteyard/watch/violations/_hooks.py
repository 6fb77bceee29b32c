"""Tells other programs of a violation: a command that gets it as JSON, and a web address."""

import json
import logging
import subprocess
import threading
import urllib.error
import urllib.request
from collections.abc import Callable, Mapping
from functools import partial
from typing import Any

from ...core._version import VERSION
from ...core._visible import visible

LASTING = 60.0  # seconds that a command, or a request, may take
logger = logging.getLogger("zanteyard")


class Hooks:
    """What is told of each violation that is the first of its shape. Nothing waits for it but
    `wait`; a failure is logged. `command` is for the shell, and gets one line of JSON; `webhook` is
    a URL, to which the same is posted."""

    def __init__(self, command: str | None = None, webhook: str | None = None) -> None:
        self._calls: list[Callable[[bytes], None]] = []
        if command is not None:
            self._calls.append(partial(_run, command))
        if webhook is not None:
            self._calls.append(partial(_post, webhook))
        self._threads: list[threading.Thread] = []

    def tell(self, its: Mapping[str, Any]) -> None:
        data = json.dumps(its, separators=(",", ":")).encode() + b"\n"
        self._threads = [one for one in self._threads if one.is_alive()]
        for call in self._calls:
            thread = threading.Thread(target=call, args=(data,), daemon=True)
            self._threads.append(thread)
            thread.start()

    def wait(self) -> None:
        """Waits until everything was told."""
        for thread in self._threads:
            thread.join(LASTING + 5)


def _run(command: str, data: bytes) -> None:
    try:
        done = subprocess.run(
            command, shell=True, input=data, timeout=LASTING, stdout=subprocess.DEVNULL
        )
    except (OSError, subprocess.SubprocessError) as error:
        logger.error("--on-violation failed: %s", visible(str(error), 300))
        return
    if done.returncode:
        logger.error("--on-violation ended with status %d", done.returncode)


def _post(url: str, data: bytes) -> None:
    agent = {"Content-Type": "application/json", "User-Agent": f"zanteyard/{VERSION}"}
    try:
        request = urllib.request.Request(url, data, agent, method="POST")
        with urllib.request.urlopen(request, timeout=LASTING) as answer:
            answer.read(1 << 16)
    except (OSError, ValueError, urllib.error.URLError) as error:
        logger.error("--webhook failed: %s", visible(_without(url, str(error)), 300))


def _without(url: str, told: str) -> str:
    """The text without the URL, which may have a secret in it."""
    return told.replace(url, "the URL")


def is_web(url: str) -> bool:
    return url.startswith(("http://", "https://")) and len(url) > len("https://")
