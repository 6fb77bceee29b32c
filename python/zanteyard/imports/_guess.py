"""Guesses the form of a history file that was given in place of a script."""

import re
import zlib

from ._command import GZIP
from ._sessions import HEADER, POLYSI_LINE

FIRST = 1 << 16  # bytes that are examined


def history_form(front: bytes) -> str | None:
    """The FORM of `zanteyard import` that a file with this beginning seems to have; "FORM" if it
    has one of them and it is unclear which; None if it may be a script."""
    if front.startswith(GZIP):
        return history_form(_decompressed(front)) or "FORM"
    text = front.decode("utf-8-sig", "replace").lstrip()
    line = text.partition("\n")[0].strip()
    if line.replace('"', "") == ",".join(HEADER):
        return "csv"
    if POLYSI_LINE.fullmatch(line):
        return "polysi"
    if re.match(r"(?:;[^\n]*\n|[\[(\s])*(?:#jepsen\.history\.Op)?\{\s*:", text):
        return "jepsen-lists" if ":append " in text else "jepsen-registers"
    if re.match(r"[\[\s]*\{", text):
        if '"append"' in text:
            return "jepsen-lists"
        return "dbcop" if '"variable"' in text else "jepsen-registers"
    return None


def _decompressed(front: bytes) -> bytes:
    """What a compressed file begins with; empty if that can't be decompressed."""
    try:
        return zlib.decompressobj(zlib.MAX_WBITS | 16).decompress(front, FIRST)
    except zlib.error:
        return b""
