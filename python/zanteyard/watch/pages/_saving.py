"""Saves each violation in files: a page, a text, and a script for the auditor."""

import logging
import os

from ...core._private_files import private
from ._violation_page import violation_page
from ..violations._violations import Violation

logger = logging.getLogger("zanteyard")


def save(one: Violation, folder: str, title: str, origin: str) -> tuple[str, ...]:
    """Writes violation-N.html, .txt and .jsonl into the folder, which is created if necessary.
    Returns the names of the files that were written. Errors are logged."""
    found = []
    base = os.path.join(folder, f"violation-{one.number}")
    for end, text in (
        (".txt", "".join(f"{line}\n" for line in one.lines())),
        (".jsonl", one.story.script),
        (".html", violation_page(one, title, origin, is_file=True)),
    ):
        try:
            os.makedirs(folder, mode=0o700, exist_ok=True)
            with open(base + end, "w", encoding="utf-8", opener=private) as file:
                file.write(text)
            found.append(base + end)
        except OSError as error:
            logger.error("can't write %s: %s", base + end, error.strerror)
    return tuple(found)
