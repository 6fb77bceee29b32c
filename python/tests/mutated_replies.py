"""Seeded mutations of an auditor's replies as JSON: wrong reports whose text is still well
formed."""

import copy
import json
import random
from collections.abc import Callable, Iterator
from typing import Any

Reply = list[Any]
KINDS = ("serial", "pending", "violated", "spent")
OK, REFUSED = ["ok"], ["no", 13, "NoCut"]


def changed_kind(draw: random.Random, reply: Reply, others: list[Reply]) -> Reply | None:
    """Another kind; a spent report has no certificate."""
    kind = draw.choice([other for other in KINDS if other != reply[2]])
    certificate = [] if kind == "spent" else (reply[4:] or [[]])
    return reply[:2] + [kind, reply[3]] + certificate


def changed_count(draw: random.Random, reply: Reply, others: list[Reply]) -> Reply | None:
    """One transaction more or less in a session, or one session less."""
    counts = list(reply[3])
    at = draw.randrange(len(counts))
    if draw.randrange(4) == 0:
        del counts[at]
    else:
        counts[at] = max(0, counts[at] + draw.choice((-1, 1)))
    return reply[:3] + [counts] + reply[4:]


def changed_list(draw: random.Random, items: list[Any]) -> None:
    """An item dropped, doubled, or swapped with its neighbour or with any other one."""
    at = draw.randrange(len(items))
    way = draw.randrange(4)
    if way == 0:
        del items[at]
    elif way == 1:
        items.insert(at, copy.deepcopy(items[at]))
    else:
        by = (at + 1) % len(items) if way == 2 else draw.randrange(len(items))
        items[at], items[by] = items[by], items[at]


def places(part: Any) -> Iterator[tuple[list[Any], int]]:
    """The places of numbers in it."""
    for at, item in enumerate(part):
        if isinstance(item, list):
            yield from places(item)
        elif isinstance(item, int):
            yield part, at


def lists_in(part: Any) -> Iterator[list[Any]]:
    """The lists of lists in it, itself included: orders, trees and cycles."""
    if part and isinstance(part[-1], list):
        yield part
    for item in part:
        if isinstance(item, list):
            yield from lists_in(item)


def changed_number(draw: random.Random, part: Any) -> None:
    """One of its numbers, changed by one or by a few."""
    found = list(places(part))
    if found:
        items, at = draw.choice(found)
        items[at] = max(0, items[at] + draw.choice((-1, 1, 1, -2, 2)))


def changed_certificate(draw: random.Random, reply: Reply, others: list[Reply]) -> Reply | None:
    """An order's ids, or the items of a tree, of one of its cycles, or a number in it."""
    if len(reply) < 5 or not reply[4]:
        return None
    certificate = copy.deepcopy(reply[4])
    if draw.randrange(3) == 0:
        changed_number(draw, certificate)
    else:
        changed_list(draw, draw.choice(list(lists_in(certificate))))
    return reply[:4] + [certificate]


def turned_cycle(draw: random.Random, reply: Reply, others: list[Reply]) -> Reply | None:
    """A cycle that begins with another one of its arcs."""
    if len(reply) < 5 or reply[2] != "violated":
        return None
    tree = copy.deepcopy(reply[4])
    cycles = [item[-1] for item in tree if item[0] in ("cycle", "force") and len(item[-1]) > 1]
    if not cycles:
        return None
    cycle = draw.choice(cycles)
    by = draw.randrange(1, len(cycle))
    cycle[:] = cycle[by:] + cycle[:by]
    return reply[:4] + [tree]


def of_another_round(draw: random.Random, reply: Reply, others: list[Reply]) -> Reply | None:
    """Another report of the script, unchanged or with this one's number."""
    found = [other for other in others if other[0] == "report" and other != reply]
    if not found:
        return None
    other = draw.choice(found)
    return other if draw.randrange(2) else reply[:2] + other[2:]


def changed_cut(draw: random.Random, reply: Reply, others: list[Reply]) -> Reply | None:
    """A number of a cut, or one of its lists, changed."""
    cut = copy.deepcopy(reply)
    if draw.randrange(2):
        changed_number(draw, cut)
    else:
        changed_list(draw, draw.choice([part for part in cut[2:] if part]))
    return cut


def refused(draw: random.Random, reply: Reply, others: list[Reply]) -> Reply | None:
    """A refusal in its place."""
    return REFUSED


def granted(draw: random.Random, reply: Reply, others: list[Reply]) -> Reply | None:
    """`ok` in its place."""
    return OK


Change = Callable[[random.Random, Reply, list[Reply]], Reply | None]
OF_A_REPORT: list[Change] = [
    changed_kind, changed_count, changed_certificate, changed_certificate, changed_certificate,
    changed_certificate, turned_cycle, of_another_round, refused, granted,
]
CHANGES: dict[str, list[Change]] = {
    "report": OF_A_REPORT, "cut": [changed_cut, changed_cut, granted, refused],
    "ok": [refused], "no": [granted],
}


def mutations(draw: random.Random, replies: list[bytes]) -> Iterator[tuple[int, str, bytes]]:
    """One mutation for each kind of change of each report and cut, and some of other replies: which
    reply, the change's name, and the changed text."""
    read = [json.loads(reply) for reply in replies]
    for at, reply in enumerate(read):
        changes = CHANGES.get(reply[0], [])
        if reply[0] in ("ok", "no") and draw.randrange(4):
            continue
        for change in changes:
            changed = change(draw, reply, read)
            if changed is not None and changed != reply:
                text = json.dumps(changed, separators=(",", ":"))
                yield at, change.__name__, text.encode()
