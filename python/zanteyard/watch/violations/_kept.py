"""What the auditor holds, as it gives it out itself (docs/FORMATS.md, "Save and resume"): enough to
explain a violation, and for another auditor to go on from there."""

import json
import re
from collections.abc import Collection, Iterable, Sequence
from typing import Any

from ...core._records import AuditId
from ...journal._history import state_of

Transaction = list[Any]  # its reads, the keys that it wrote, and "aborted" if it was
OneRead = tuple[AuditId, tuple[Any, ...]]  # a transaction, and a read of it as in the lines
LAST, OFFER = b'["last",', b'["offer",'


class Kept:
    """The state that these lines lead to. `marks` are how many transactions of each session are
    forgotten, and `transactions` are those that aren't, as they were offered."""

    def __init__(self, lines: Sequence[bytes]) -> None:
        self._lines = lines
        state = state_of(lines, has_last=False)
        self.marks = state.gone
        self.transactions: dict[AuditId, Transaction] = {
            AuditId((session, number)): its
            for session, mark in enumerate(state.gone)
            for number, its in enumerate(state.remaining[session], mark)
        }

    def last(self, keys: Iterable[int]) -> dict[int, AuditId]:
        """The last forgotten writers of these keys. The lines may have many megabytes, and aren't
        parsed as a whole."""
        names = b"|".join(b"%d" % key for key in sorted(keys))
        if not names:
            return {}
        wanted = re.compile(rb"\[(" + names + rb"),(\d+),(\d+)\]")
        return {
            int(its[1]): AuditId((int(its[2]), int(its[3])))
            for line in self._lines
            if line.startswith(LAST)
            for its in wanted.finditer(line)
        }

    def without(self, reads: Collection[OneRead]) -> list[bytes]:
        """The lines that lead to the same state without these reads."""
        readers = {one for one, _ in reads}

        def less(one: AuditId, its: Transaction) -> Transaction:
            if one not in readers:
                return its
            return [[read for read in its[0] if (one, tuple(read)) not in reads], *its[1:]]

        def line_without(line: bytes) -> bytes:
            if not line.startswith(OFFER):
                return line
            _, session, first, transactions = json.loads(line)
            whole = [
                less(AuditId((session, number)), its)
                for number, its in enumerate(transactions, first)
            ]
            offer = ["offer", session, first, whole]
            return json.dumps(offer, separators=(",", ":")).encode()

        return [line_without(line) for line in self._lines]


def all_reads(its: Transaction) -> list[tuple[Any, ...]]:
    return [tuple(read) for read in its[0]]
