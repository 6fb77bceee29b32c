"""Has a large, plain history of Jepsen turned into a script by the program zanteyard-proxy, in a
tenth of the time.

What isn't plain, it leaves alone: then everything is read here, with the same result.
"""

import contextlib
import json
import logging
import os
import subprocess
import tempfile
from collections.abc import Iterator
from typing import NamedTuple

from ..program._proxy_program import proxy_path
from . import _script
from ._recording import ABORTED, UNKNOWN
from ._script_parts import ASKS_TIME, about_size, about_undone, about_unused

LEAST = 1 << 22  # bytes of a history that is worth another process
FORMS = ("jepsen-lists", "jepsen-registers")

log = logging.getLogger(__name__)


class Written(NamedTuple):
    """A script's file, with its names and times beside it, and what was done with the history."""

    script: str
    about: tuple[str, ...]


@contextlib.contextmanager
def written_at_once(form: str, history: bytes, asks_time: bool) -> Iterator[Written | None]:
    """The script of the whole history, as `script_of` makes it, in files that are removed when the
    context ends. None if the history isn't large and plain, or the program can't be run."""
    if form not in FORMS or len(history) < LEAST:
        yield None
        return
    with contextlib.ExitStack() as stack:
        about: tuple[str, ...] | None = None
        script = ""
        try:
            folder = stack.enter_context(tempfile.TemporaryDirectory(prefix="zanteyard-"))
            script = os.path.join(folder, "script")
            about = _about_it(form, history, script, asks_time)
        except (OSError, ValueError, LookupError, TypeError) as error:
            log.info("not imported at once: %s", error)
        yield None if about is None else Written(script, about)


def _about_it(form: str, history: bytes, script: str, asks_time: bool) -> tuple[str, ...] | None:
    """Has the script written; None if the history isn't plain."""
    options = ["-least", str(_script.MANY), *(["-strict"] if asks_time else [])]
    its = subprocess.run(
        [proxy_path(), "import", *options, form, script], input=history, capture_output=True
    )
    if its.returncode:
        log.info("not imported at once: %s", its.stderr.decode("utf-8", "replace").strip())
        return None
    return tuple(_about(json.loads(its.stdout), asks_time))


def _about(counts: dict[str, int], asks_time: bool) -> Iterator[str]:
    yield about_size(counts["transactions"], counts["sessions"])
    if counts["aborted"]:
        yield about_undone(ABORTED, counts["aborted"], 0)
    if counts["unknown"]:
        yield about_undone(UNKNOWN, counts["unknown"], counts["unknown_taken"])
    if counts["unused"]:
        yield about_unused(counts["unused"])
    if asks_time:
        yield ASKS_TIME
