"""Histories by value for the tests of imports: made at random, written in each format, and judged
by trying every order."""
import json
import random
from dataclasses import dataclass, field

from zanteyard.imports._recording import ABORTED, APPEND, COMMITTED, READ, READ_LIST, UNKNOWN, WRITE
from zanteyard.imports._recording import BETWEEN, Access, Attempt

ENDS = {COMMITTED: "ok", ABORTED: "fail", UNKNOWN: "info"}


@dataclass
class Made:
    """One attempt: ("r", key, value), ("w", key, value) or ("append", key, value). Values are whole
    numbers, lists of them, or None."""

    client: int
    outcome: str
    micros: list = field(default_factory=list)


def made(random_, is_of_lists):
    """A few attempts of two to four clients on two keys; about half of these histories have an
    order."""
    keys, count = (1, 2), random_.randint(2, 6)
    value_of = {key: [] if is_of_lists else None for key in keys}
    versions = [dict(value_of)]
    written = {key: [None] for key in keys}
    client_of = list(range(random_.randint(2, 3)))
    fault = random_.choice((0, 0.15, 0.4))
    attempts, next_value = [], 1
    for _ in range(count):
        place = random_.randrange(len(client_of))
        outcome = random_.choices((COMMITTED, ABORTED, UNKNOWN), (8, 1, 1))[0]
        state = dict(versions[-1])
        if random_.random() < fault:
            state = dict(random_.choice(versions))
        micros = []
        for _ in range(random_.randint(1, 3)):
            key = random_.choice(keys)
            if random_.random() < 0.5:
                value = state[key]
                if random_.random() < fault / 4:
                    value = random_.choice(written[key])
                    value = [value] if is_of_lists and value else value
                if random_.random() < fault / 8:
                    value = [*(value or []), 99] if is_of_lists else 99
                micros.append(("r", key, value))
            else:
                is_again = random_.random() < 0.02
                value = next_value - 1 if is_again and next_value > 1 else next_value
                next_value += 1
                micros.append(("append" if is_of_lists else "w", key, value))
                state[key] = [*state[key], value] if is_of_lists else value
                written[key].append(value)
        attempts.append(Made(client_of[place], outcome, micros))
        is_seen = outcome == COMMITTED or random_.random() < (0.5 if outcome == UNKNOWN else fault)
        if is_seen:
            latest = dict(versions[-1])
            for function, key, value in micros:
                if function == "w":
                    latest[key] = value
                elif function == "append":
                    latest[key] = state[key]
            versions.append(latest)
        if outcome == UNKNOWN:
            client_of[place] = max(client_of) + 1
    return attempts


# Writing each format.


def edn_of(micro):
    def told(value):
        if isinstance(value, list):
            return "[" + " ".join(map(str, value)) + "]"
        return "nil" if value is None else str(value)

    return f"[:{micro[0]} {micro[1]} {told(micro[2])}]"


def operations(attempts, random_):
    """Invocations and completions; those of different clients overlap at random."""
    open_, lines = [], []
    for attempt in attempts:
        for other in [*open_]:
            if other.client == attempt.client or random_.random() < 0.6:
                open_.remove(other)
                lines.append((other, True))
        lines.append((attempt, False))
        open_.append(attempt)
    for other in open_:
        if other.outcome != UNKNOWN or random_.random() < 0.5:
            lines.append((other, True))
    for attempt, is_end in lines:
        micros = [
            (f, key, None if f == "r" and (not is_end or attempt.outcome != COMMITTED) else value)
            for f, key, value in attempt.micros
        ]
        yield attempt.client, ENDS[attempt.outcome] if is_end else "invoke", micros


def as_edn(attempts, random_):
    lines = [
        f"{{:process {client}, :type :{type}, :f :txn, :value [{' '.join(map(edn_of, micros))}]}}"
        for client, type, micros in operations(attempts, random_)
    ]
    if random_.random() < 0.5:
        lines.insert(random_.randrange(len(lines)), "{:process :nemesis, :type :info, :f :kill}")
    return "[" * (is_vector := random_.random() < 0.5) + "\n".join(lines) + "]" * is_vector


def as_json(attempts, random_):
    found = [
        {"process": client, "type": type, "f": "txn", "value": micros, "index": index}
        for index, (client, type, micros) in enumerate(operations(attempts, random_))
    ]
    if random_.random() < 0.5:
        return json.dumps(found)
    return "".join(f"{json.dumps(one)}\n" for one in found)


def by_client(attempts):
    found = {}
    for attempt in attempts:
        found.setdefault(attempt.client, []).append(attempt)
    return found


def as_dbcop(attempts, random_):
    """Without unknown outcomes, which this format lacks."""
    clients = by_client(attempts)
    data = [
        [
            {
                "events": [
                    {"write": f == "w", "variable": key, "value": value or 0, "success": True}
                    for f, key, value in one.micros
                ],
                "success": one.outcome == COMMITTED,
            }
            for one in clients[client]
        ]
        for client in sorted(clients)
    ]
    whole = {"params": {"id": 1}, "info": "", "data": data}
    return json.dumps(whole, indent=random_.choice((0, 1)))


def as_polysi(attempts, _):
    """The committed attempts."""
    return "".join(
        f"{f}({key},{value or 0},{one.client},{number})\n"
        for number, one in enumerate(attempts)
        for f, key, value in one.micros
    )


def as_csv(attempts, random_):
    lines = ["session,number,operation,key,value"]
    for number, one in enumerate(attempts):
        for f, key, value in one.micros:
            name = {"r": "read", "w": "write"}[f]
            lines.append(f"s{one.client},{number},{name},{key},{'' if value is None else value}")
        end = {COMMITTED: "commit", ABORTED: "abort", UNKNOWN: "unknown"}[one.outcome]
        if one.outcome != COMMITTED or random_.random() < 0.5:
            lines.append(f"s{one.client},{number},{end},,")
    return "\n".join(lines) + "\n"


# Judging.


def elements_of(value):
    """The elements of a list that was read."""
    return tuple(value.split(BETWEEN)) if value else ()


def attempts_of(attempts, is_of_lists):
    """The same in the package's form."""
    return [
        Attempt("", str(one.client), one.outcome, tuple(
            Access(
                {"r": READ_LIST if is_of_lists else READ, "w": WRITE, "append": APPEND}[f],
                str(key),
                BETWEEN.join(map(str, value or ())) if is_of_lists and f == "r"
                else None if value is None else str(value),
                "",
            )
            for f, key, value in one.micros
        ), 0)
        for one in attempts
    ]


def is_explained(attempts, ignored=(), earlier=None):
    """Whether there is an order of what committed, and of some of what may have, each client's
    order kept, in which each read gives what it gave. Reads of a (key, value) in `ignored` are
    accepted. What is in `earlier` took effect after the attempts that precede it there."""
    clients = [*by_client(attempts).values()]
    seen = set()
    earlier = earlier or {}

    def is_due(one, places):
        """Whether everything that has to come earlier has been placed."""
        left = (other for place, its in zip(places, clients) for other in its[place:])
        return not any(it in earlier.get(one, ()) for it in left)

    def after(state, attempt):
        state, own = dict(state), set()
        for access in attempt.accesses:
            now = state.get(access.key)
            if access.kind in (WRITE, APPEND):
                own.add(access.key)
            if access.kind == WRITE:
                state[access.key] = access.value
            elif access.kind == APPEND:
                state[access.key] = (*(now or ()), access.value)
            elif attempt.outcome == COMMITTED:
                wanted = access.value
                if access.kind == READ_LIST:
                    now, wanted = now or (), elements_of(wanted)
                    if any((access.key, one) in ignored for one in wanted):
                        continue
                elif (access.key, wanted) in ignored and access.key not in own:
                    continue
                if now != wanted:
                    return None
        return state

    def search(places, state):
        at = (places, tuple(sorted(state.items())))
        if at in seen:
            return False
        seen.add(at)
        if all(place == len(its) for place, its in zip(places, clients)):
            return True
        for client, (place, its) in enumerate(zip(places, clients)):
            if place == len(its):
                continue
            following = (*places[:client], place + 1, *places[client + 1 :])
            one = its[place]
            if one.outcome != COMMITTED and one not in earlier and search(following, state):
                return True
            if one.outcome != ABORTED and is_due(one, places):
                then = after(state, one)
                if then is not None and search(following, then):
                    return True
        return False

    return search((0,) * len(clients), {})


def nobodys(attempts):
    """The (key, value) that committed attempts read and nobody wrote."""
    written = {(it.key, it.value) for one in attempts for it in one.accesses
               if it.kind in (WRITE, APPEND)}
    return {
        (it.key, value)
        for one in attempts
        if one.outcome == COMMITTED
        for it in one.accesses
        if it.kind in (READ, READ_LIST)
        for value in (elements_of(it.value) if it.kind == READ_LIST else (it.value,))
        if value is not None and (it.key, value) not in written
    }


def judged(attempts):
    """The right verdicts."""
    ignored = nobodys(attempts)
    if not is_explained(attempts, ignored):
        return {"violated"}
    if not ignored:
        return {"serial"}
    is_of_lists = any(it.kind == READ_LIST for one in attempts for it in one.accesses)
    kind = APPEND if is_of_lists else WRITE
    others = [
        Attempt("", f"somebody {at}", UNKNOWN, (Access(kind, key, value, ""),), 0)
        for at, (key, value) in enumerate(sorted(ignored))
    ]
    # whoever wrote it, the rest of a list determines the order of its writers
    is_possible = is_explained([*attempts, *others])
    return {"pending"} if is_possible or not is_of_lists else {"pending", "violated"}


def judged_script(lines):
    """The verdict about a small script, by trying every order: the definition in FORMATS.md."""
    sessions = {}
    for line in map(json.loads, lines):
        if line[0] == "offer":
            did = [[[], []] if txn[2:] == ["aborted"] else txn for txn in line[3]]
            sessions.setdefault(line[1], []).extend(did)
    its = [sessions[session] for session in sorted(sessions)]
    count = {session: len(txns) for session, txns in sessions.items()}
    waits, seen = False, set()
    for txns in its:
        for reads, _ in txns:
            for read in reads:
                waits |= read[1] != "init" and read[2] >= count.get(read[1], 0)

    def search(places, last):
        at = (places, tuple(sorted(last.items())))
        if at in seen:
            return False
        seen.add(at)
        if all(place == len(txns) for place, txns in zip(places, its)):
            return True
        for session, (place, txns) in enumerate(zip(places, its)):
            if place < len(txns) and all(
                (last.get(key, ("init",)) == tuple(source))
                or (source[0] != "init" and source[1] >= count.get(source[0], 0))
                for key, *source in txns[place][0]
            ):
                following = (*places[:session], place + 1, *places[session + 1 :])
                then = {**last, **{key: (session, place) for key in txns[place][1]}}
                if search(following, then):
                    return True
        return False

    if not search((0,) * len(its), {}):
        return "violated"
    return "pending" if waits else "serial"


def seeded(seed):
    return random.Random(seed)
