"""Strict serializability in the plain model: which times are taken, what a round is about, and what
an order has to keep. Written only from docs/FORMATS.md and docs/DEFINITIONS.md.

A history here is a list of sessions, each a list of `(reads, writes, began, ended)`; a time is None
if it is unknown.
"""
from plain_verdicts import INIT, Parts, Wrong, is_reached

END_KEYS, NUMBERS = 2**62, 2**48  # the keys of ends aren't below the first
UNKNOWN = (0, 2**64 - 1)  # a begin and an end that say so


def span_of(began, ended):
    return None if began == UNKNOWN[0] else began, None if ended == UNKNOWN[1] else ended


def is_before(ended, began):
    """Whether an end is before a begin, as far as both are known."""
    return None not in (ended, began) and ended < began


def are_possible(sessions, earlier, given):
    """Whether transactions can have these times, after these of their session, in a script of so
    many sessions."""
    for place, (reads, writes, began, ended) in enumerate(given):
        if is_before(ended, began) or len(reads) + sessions > 256 or len(writes) > 255:
            return False
        keys = {*writes, *(key for key, _ in reads)}
        if any(key >= END_KEYS for key in keys) or 0 in keys and (began, ended) != (None, None):
            return False
        if any(is_before(ended, other[2]) for other in (*earlier, *given[:place])):
            return False
    return True


def plain_parts(history):
    """What an auditor would keep of it without times."""
    return _parts([[txn[:2] for txn in txns] for txns in history])


def rewritten_parts(history):
    """The same with a key for each known end, which those read that began later: of each session
    the key of the last that had ended, unless that was before another one of these began."""
    return _parts([[_rewritten(history, session, number) for number in range(len(txns))]
                   for session, txns in enumerate(history)])


def _parts(remaining):
    return Parts([0] * len(remaining), remaining, [False] * len(remaining))


def _rewritten(history, own, number):
    reads, writes, began, ended = history[own][number]
    last = [(session, max((n for n, one in enumerate(txns) if is_before(one[3], began)),
                          default=None)) for session, txns in enumerate(history)]
    found = [(session, n) for session, n in last if n is not None]
    latest = max((history[session][n][2] or 0 for session, n in found), default=None)
    ends = [(END_KEYS + session * NUMBERS + n, (session, n)) for session, n in found
            if not is_before(history[session][n][3], latest)]
    return [*reads, *ends], [*writes, *[END_KEYS + own * NUMBERS + number] * (ended is not None)]


def check_real_time(history, order):
    """Raises Wrong if one that ended before another one began comes after it."""
    latest = None  # the latest begin so far
    for session, number in order:
        _, _, began, ended = history[session][number]
        if is_before(ended, latest):
            raise Wrong(f"{session}.{number} ended before one began that is ordered before it")
        latest = began if latest is None else max(latest, began or 0)


def has_strict_order(history, most):
    """Whether some order explains the history and keeps real time; None if that would take too
    many trials."""
    parts = plain_parts(history)
    if parts.has_bad_read():
        return False
    counts = tuple(map(len, history))

    def nexts(front, last):
        waiting = [txn for txns, place in zip(history, front) for txn in txns[place:]]
        for session, place in enumerate(front):
            if place == counts[session]:
                continue
            reads, writes, began, _ = history[session][place]
            if any(is_before(other[3], began) for other in waiting):
                continue
            if all(last.get(key, INIT) == source or parts.is_pending(source)
                   for key, source in reads):
                then = {**last, **dict.fromkeys(writes, (session, place))}
                yield front[:session] + (place + 1,) + front[session + 1:], then

    return is_reached((0,) * len(counts), {}, counts, nexts, most)
