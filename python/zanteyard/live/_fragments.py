"""Groups what clients have handed in, by session, for the auditor."""

from collections.abc import Iterable

from ..core._own_keys import LONGEST
from ..core._records import Logged
from ..program._offers import Fragment


def fragments(
    offers: Iterable[tuple[int, int | None, Logged]], longest: int = LONGEST
) -> list[Fragment]:
    """For each session in `offers`: (session, first number, transactions), with at most `longest`
    of these. Transactions without a number are left out. After a gap in a session's numbers a new
    fragment begins, which the auditor refuses: accepting it could make a serial run look
    violated."""
    cut: list[Fragment] = []
    last: dict[int, tuple[int, int, list[Logged]]] = {}
    for session, number, logged in offers:
        if number is None:
            continue
        fragment = last.get(session)
        is_next = fragment is not None and number == fragment[1] + len(fragment[2])
        if fragment is None or not is_next or len(fragment[2]) == longest:
            fragment = last[session] = (session, number, [])
            cut.append(fragment)
        fragment[2].append(logged)
    return cut
