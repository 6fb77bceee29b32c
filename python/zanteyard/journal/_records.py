"""Records of an append-only file, made so that an incomplete record and a damaged one can be told
apart.

A record is three integers of four bytes, low byte first, followed by its text: the length of the
text, the CRC-32 of the text, and the CRC-32 of these two integers. A process that is killed while
writing leaves the beginning of a record at the end of the file. Anything else that doesn't fit is
damage: by a disk, by a machine that went down, or by another program that wrote to the file. The
checksums find accidental damage, not deliberate changes.
"""

import struct
import zlib
from collections.abc import Iterator

from ..core.errors import JournalDamagedError

HEAD = struct.Struct("<II")
CHECK = struct.Struct("<I")
BEFORE = HEAD.size + CHECK.size  # bytes before a record's text


def record(text: bytes) -> bytes:
    """The text as a record."""
    head = HEAD.pack(len(text), zlib.crc32(text))
    return head + CHECK.pack(zlib.crc32(head)) + text


def records(content: bytes, at: int) -> Iterator[tuple[bytes, int]]:
    """The texts from this position on, each with the position after it, up to an incomplete record.
    Raises JournalDamagedError if one is damaged."""
    while at + BEFORE <= len(content):
        length, sum_of_text = HEAD.unpack_from(content, at)
        (sum_of_head,) = CHECK.unpack_from(content, at + HEAD.size)
        if zlib.crc32(content[at : at + HEAD.size]) != sum_of_head:
            raise JournalDamagedError(f"the record at byte {at} is damaged")
        end = at + BEFORE + length
        if end > len(content):
            return
        text = content[at + BEFORE : end]
        if zlib.crc32(text) != sum_of_text:
            raise JournalDamagedError(f"the text of the record at byte {at} is damaged")
        yield text, end
        at = end
