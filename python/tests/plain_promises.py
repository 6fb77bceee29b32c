"""The promises by their definitions, checked by trying all orders; for small histories.

A history is a list of sessions, each a list of transactions `(reads, writes, outcome)`. `reads` are
pairs of a key and the id of its writer, or None for the initial state; an id that isn't in the
history hasn't arrived. Times are the begin and the end of each id, None for an unknown end.
"""
import random

COMMITTED, ABORTED = "committed", "aborted"


def ids_of(history):
    return [(session, number) for session, its in enumerate(history) for number in range(len(its))]


def did(history, id):
    """What a transaction did; nothing if it aborted. A pending read demands nothing."""
    reads, writes, outcome = history[id[0]][id[1]]
    if outcome == ABORTED:
        return (), frozenset()
    there = {*ids_of(history)}
    return [read for read in reads if read[1] is None or read[1] in there], frozenset(writes)


def is_pending(history):
    there = {*ids_of(history)}
    return any(
        source is not None and source not in there
        for its in history
        for reads, _, outcome in its
        for _, source in reads
        if outcome != ABORTED
    )


def before_in_session(history, keeps_sessions):
    return lambda id: [(id[0], number) for number in range(id[1])] if keeps_sessions else []


def ended_before(times, history):
    """For each transaction those that are known to have ended before its begin, without aborted
    ones."""
    def has_order(id):
        return id in times and history[id[0]][id[1]][2] != ABORTED

    return {
        id: [
            other
            for other in times
            if has_order(id) and has_order(other) and times[other][1] is not None
            and times[other][1] < times[id][0]
        ]
        for id in ids_of(history)
    }


def has_order(history, times=None, keeps_sessions=True):
    """Serializability, or strict serializability if there are times: whether there is an order in
    which each read gives the last version before it."""
    ids, earlier = ids_of(history), before_in_session(history, keeps_sessions)
    in_time = ended_before(times or {}, history)
    done_before = {id: {*earlier(id), *in_time[id]} for id in ids}
    seen = set()

    def goes_on(done, last):
        if len(done) == len(ids):
            return True
        state = (done, frozenset(last.items()))
        if state in seen:
            return False
        seen.add(state)
        for id in ids:
            reads, writes = did(history, id)
            if id in done or not done_before[id] <= done:
                continue
            if all(last.get(key) == source for key, source in reads):
                if goes_on(done | {id}, {**last, **{key: id for key in writes}}):
                    return True
        return False

    return goes_on(frozenset(), {})


def has_events(history, times=None, keeps_sessions=True, keeps_writers_apart=True):
    """Snapshot isolation: whether there is an order of begins and commits in which each read gives
    the last version committed before its begin, and of two writers of a key one commits before the
    other begins. With times, a transaction that had ended commits before the other begins. Without
    the rule for writers it is prefix consistency."""
    ids, earlier = ids_of(history), before_in_session(history, keeps_sessions)
    in_time = ended_before(times or {}, history)
    committed_before = {id: {*earlier(id), *in_time[id]} for id in ids}
    seen = set()

    def goes_on(begun, done, last):
        if len(done) == len(ids):
            return True
        state = (begun, done, frozenset(last.items()))
        if state in seen:
            return False
        seen.add(state)
        open_keys = {key for id in begun - done for key in did(history, id)[1]}
        for id in ids:
            reads, writes = did(history, id)
            if id not in begun:
                is_apart = not keeps_writers_apart or not writes & open_keys
                if committed_before[id] <= done and is_apart:
                    if all(last.get(key) == source for key, source in reads):
                        if goes_on(begun | {id}, done, last):
                            return True
            elif id not in done:
                if goes_on(begun, done | {id}, {**last, **{key: id for key in writes}}):
                    return True
        return False

    return goes_on(frozenset(), frozenset(), {})


DEFINITIONS = {
    "strict": lambda history, times: has_order(history, times),
    "serializable": lambda history, times: has_order(history),
    "sessionless": lambda history, times: has_order(history, None, False),
    "strong-snapshot": lambda history, times: has_events(history, times),
    "snapshot": lambda history, times: has_events(history),
    "generalized": lambda history, times: has_events(history, None, False),
    "prefix": lambda history, times: has_events(history, None, True, False),
}


def generated(seed, fences=True):
    """A history as a store at some isolation level might leave it, and its times."""
    rng = random.Random(seed)
    count = rng.randrange(2, 4)
    lengths = [rng.randrange(1, 4) for _ in range(count)]
    ids = [(session, number) for session in range(count) for number in range(lengths[session])]
    fence_ids = {id for id in ids if fences and rng.random() < 0.15}
    writes = {
        id: {0} if id in fence_ids else {key for key in (1, 2) if rng.random() < 0.45} for id in ids
    }
    aborted = {id for id in ids if id not in fence_ids and rng.random() < 0.08}
    times, order = _run(rng, lengths)
    history = [[None] * length for length in lengths]
    for place, id in enumerate(order):
        seen = order[: max(0, place - rng.choice([0, 0, 0, 1, 2]))]
        before = [one for one in order[:place] if one in seen or one[0] == id[0]]
        before = [one for one in before if one not in aborted]
        reads = []
        for key in [0] if id in fence_ids else [1, 2]:
            if id in fence_ids or rng.random() < 0.5:
                writers = [one for one in before if key in writes[one]]
                source = writers[-1] if writers else None
                others = [None, *(one for one in ids if one != id and key in writes[one])]
                if rng.random() < 0.05:
                    source = rng.choice([*others, (3, 7)])
                reads.append((key, source))
        outcome = ABORTED if id in aborted else COMMITTED
        history[id[0]][id[1]] = (reads, writes[id], outcome)
    return history, times


def _run(rng, lengths):
    """When each transaction begins and ends, and an order of their begins. Some ends are
    unknown."""
    times, order, clock = {}, [], 0
    at, open_since = [0] * len(lengths), [None] * len(lengths)
    while any(at[session] < lengths[session] for session in range(len(lengths))):
        session = rng.choice([it for it in range(len(lengths)) if at[it] < lengths[it]])
        clock += 1
        if open_since[session] is None:
            open_since[session] = clock
            order.append((session, at[session]))
        else:
            end = None if rng.random() < 0.1 else clock
            times[session, at[session]] = (open_since[session], end)
            at[session] += 1
            open_since[session] = None
    return times, order


def script_of(history):
    """Its lines, with one offer for each transaction, so that it is clear which one is refused."""
    yield ["open", len(history), max(1, sum(map(len, history))), 2]
    for session, number in ids_of(history):
        reads, writes, outcome = history[session][number]
        told = sorted([key, -1, -1] if source is None else [key, *source] for key, source in reads)
        told = [[key, "init"] if one < 0 else [key, one, two] for key, one, two in told]
        more = [ABORTED] if outcome == ABORTED else []
        yield ["offer", session, number, [[told, sorted(writes), *more]]]
