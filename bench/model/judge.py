#!/usr/bin/env python3
"""A plain model of cobra_audit: the right reply to each line of a script.

    python3 bench/model/judge.py SCRIPT [PROGRAM]

Written only from docs/FORMATS.md and docs/DEFINITIONS.md, never from the auditor's code. If the
documents determine a reply's bytes (refusals, `ok`, cuts, states), they are compared. A report's
order or refutation is checked, and so is that `spent` comes only if the budget may be used up; a
small remainder is also decided by trying all orders. As a program it prints the first wrong reply
and the reason, with status 1, or how many lines were answered correctly.
"""
import json
import os
import subprocess
import sys
from dataclasses import dataclass, replace

from plain_proofs import check_order, check_tree
from plain_snapshots import (EVENTS, STARS, check_events, half_report, has_events, is_proper, split,
                             split_command, told_order, told_reply, whole_of)
from plain_strict import (are_possible, check_real_time, has_strict_order, plain_parts,
                          rewritten_parts, span_of)
from plain_verdicts import INIT, Parts, Relation, Wrong, cut_of, has_order, is_fence, may_be_spent

LONGEST = 8388608  # bytes of a line, without its LF
WHOLE, NUMBERS = 2**64, 2**48
DEEPEST, FARTHEST = 600, 400  # nodes that are searched here, and fronts that are tried
NAMES = {1: "BadLine", 2: "BadSession", 3: "BadTxn", 4: "BadFence", 5: "Gap", 6: "Repeat",
         7: "Closed", 8: "Backlog", 9: "TooLong", 10: "RoundOpen", 11: "NoRound",
         12: "BadCertificate", 13: "NoCut",
         14: "BadParts", 16: "NoMemory", 17: "NotAnchored"}
REFUSALS = {number: b'["no",%d,"%s"]' % (number, name.encode()) for number, name in NAMES.items()}
OK, SEARCHING = b'["ok"]', b'["searching"]'
ABORTED = "aborted"  # after the lists of a transaction of which nothing was committed
decode = json.JSONDecoder().decode
encode = json.JSONEncoder(separators=(",", ":")).encode


def is_whole(it, below=WHOLE):
    """Whether it is a whole number without a sign, below this limit."""
    return type(it) is int and 0 <= it < below


def are_wholes(numbers):
    """The same for each of them."""
    for it in numbers:
        if type(it) is not int or not 0 <= it < WHOLE:
            return False
    return True


def is_effort(parts):
    budget, depth, workers = parts
    return (is_whole(budget, 2**32 + 1) and budget >= 1 and is_whole(depth, 7)
            and is_whole(workers, 17) and workers >= 1)


def is_guided(parts):
    return is_effort(parts[:3]) and parts[3] == "guided"


def is_read(it):
    if type(it) is not list or not it or not is_whole(it[0]):
        return False
    if len(it) == 2:
        return it[1] == "init"
    return len(it) == 3 and is_whole(it[1], 256) and is_whole(it[2])


def is_txn(it):
    """Whether it has the form of a transaction. A third entry says that it aborted; `Model` judges
    whether that is allowed there."""
    return (type(it) is list and len(it) in (2, 3) and type(it[0]) is list and type(it[1]) is list
            and all(map(is_read, it[0])) and are_wholes(it[1])
            and it[2:] in ([], [ABORTED]))


def tells_aborted(command):
    """Whether the command has an aborted transaction, which version 1 doesn't know."""
    return command[0] in ("offer", "join") and any(map(is_aborted, txns_in(command)))


def is_timed(command):
    return command[0] == "offer" and len(command) == 6


def txns_in(command):
    """The transactions of an offer or a join."""
    return command[3] if is_timed(command) else command[-1]


def is_offer(parts):
    session, first, txns = parts
    return (is_whole(session, 256) and is_whole(first) and type(txns) is list
            and all(map(is_txn, txns)))


def is_timed_offer(parts):
    """What is offered, when each began and when each ended. That they are as many is judged by
    `Model`."""
    return is_offer(parts[:3]) and all(type(times) is list and are_wholes(times)
                                       for times in parts[3:])


def is_opening(parts, promises=("snapshot", "strict")):
    """Two numbers, followed by the version if that is 2 or 3, and then perhaps by a promise;
    version 1 isn't stated."""
    is_versioned = parts[2:3] in ([2], [3]) and (not parts[3:] or parts[3] in promises)
    return are_wholes(parts[:3]) and (not parts[2:] or is_versioned)


def is_nothing(parts):
    return not parts


def is_save(parts):
    if parts[0] == "remain":
        return len(parts) == 3 and is_whole(parts[1], 256) and is_whole(parts[2])
    return parts == ["marks"] or len(parts) == 2 and parts[0] == "last" and is_whole(parts[1])


def is_marks(parts):
    marks, *flags = parts
    return (type(marks) is list and are_wholes(marks)
            and all(type(its) is list and all(type(flag) is bool for flag in its)
                    for its in flags))


def is_writer(it):
    return (type(it) is list and len(it) == 3 and is_whole(it[0]) and is_whole(it[1], 256)
            and is_whole(it[2]))


def are_names(parts, is_isolated):
    """Whether these are names of transactions, one after another: a session and a number each; in a
    script that asks for snapshot isolation also the word of an event."""
    size = size_of(is_isolated)
    return (len(parts) % size == 0 and all(is_whole(it, 256) for it in parts[::size])
            and all(is_told(it, is_isolated) for it in parts[1::size])
            and (not is_isolated or all(type(it) is str and it in EVENTS for it in parts[2::3])))


def size_of(is_isolated):
    """How many parts a name has."""
    return 3 if is_isolated else 2


def is_told(it, is_isolated):
    """Whether it is a number or a key beside a name."""
    return is_whole(it, STARS if is_isolated else WHOLE)


def is_id(it, is_isolated):
    return (type(it) is list and len(it) == size_of(is_isolated)
            and are_names(it, is_isolated))


def is_order(it, is_isolated):
    return type(it) is list and all(is_id(each, is_isolated) for each in it)


def is_choice(it, is_isolated):
    size = size_of(is_isolated)
    return (type(it) is list and len(it) == 3 * size + 1 and is_told(it[size], is_isolated)
            and are_names(it[:size] + it[size + 1:], is_isolated))


ARCS = {"session": 0, "taken": 0, "read": 1, "base": 1}  # how many keys each has


def is_arc(it, is_isolated):
    if type(it) is not list or not it or type(it[0]) is not str or it[0] not in ARCS:
        return False
    keys = ARCS[it[0]]
    return (len(it) == 1 + keys + 2 * size_of(is_isolated)
            and all(is_told(key, is_isolated) for key in it[1:1 + keys])
            and are_names(it[1 + keys:], is_isolated))


def is_cycle(it, is_isolated):
    return type(it) is list and all(is_arc(each, is_isolated) for each in it)


def is_reader(it, is_isolated):
    return (len(it) == 2 + size_of(is_isolated) and is_told(it[-1], is_isolated)
            and are_names(it[1:-1], is_isolated))


TREE_FORMS = {  # with how many more parts then wait for their end
    "force": (lambda it, names: len(it) == 4 and is_choice(it[1], names) and is_whole(it[2], 3)
              and it[2] > 0 and is_cycle(it[3], names), 0),
    "split": (lambda it, names: len(it) == 2 and is_choice(it[1], names), 1),
    "cycle": (lambda it, names: len(it) == 2 and is_cycle(it[1], names), -1),
    "nowrite": (is_reader, -1),
    "gone": (is_reader, -1),
}


def is_tree(it, is_isolated):
    if type(it) is not list:
        return False
    waiting = 1
    for item in it:
        if not waiting or type(item) is not list or not item or type(item[0]) is not str:
            return False
        form, more = TREE_FORMS.get(item[0], (None, 0))
        if not form or not form(item, is_isolated):
            return False
        waiting += more
    return not waiting


def is_answer(parts, is_isolated=False):
    """Whether they hand an answer in: of begins and commits, if the script asks for snapshot
    isolation."""
    word, given = parts
    return (word == "order" and is_order(given, is_isolated)
            or word == "refuted" and is_tree(given, is_isolated))


def is_last(parts):
    return type(parts[0]) is list and all(map(is_writer, parts[0]))


FORMS = {
    ("open", 3): is_opening,
    ("open", 4): is_opening,
    ("open", 5): is_opening,
    ("offer", 4): is_offer,
    ("offer", 6): is_timed_offer,
    ("join", 3): lambda parts: is_offer([parts[0], 0, parts[1]]),
    ("join", 4): is_offer,
    ("close", 2): lambda parts: is_whole(parts[0], 256),
    ("begin", 1): is_nothing,
    ("finish", 4): is_effort,
    ("finish", 5): is_guided,
    ("round", 4): is_effort,
    ("round", 5): is_guided,
    ("search", 4): is_effort,
    ("search", 5): is_guided,
    ("collect", 1): is_nothing,
    ("collect", 2): lambda parts: parts == ["wait"],
    ("skip", 1): is_nothing,
    ("truncate", 1): is_nothing,
    ("rebuild", 1): is_nothing,
    ("show", 1): is_nothing,
    ("save", 2): is_save,
    ("save", 3): is_save,
    ("save", 4): is_save,
    ("resume", 3): is_opening,
    ("resume", 4): is_opening,
    ("resume", 5): lambda parts: is_opening(parts, ("snapshot",)),
    ("marks", 3): is_marks,
    ("marks", 4): is_marks,
    ("last", 2): is_last,
    ("resumed", 1): is_nothing,
    ("answer", 3): is_answer,
}
BEGINNING = ("open", "resume")  # the words that are allowed while no auditor is open
HANDED = ("marks", "last", "resumed")  # those that are allowed only in a hand-over, as is offer


def command_of(line, is_isolated=False):
    """The command in a line, as a list; None if it is none. In a script that asks for snapshot
    isolation answers are about begins and commits. No command has a minus sign, and Python would
    read -0 as 0."""
    if len(line) > LONGEST or b"-" in line:
        return None
    try:
        told = decode(line.decode("utf-8"))
    except (ValueError, RecursionError):
        return None
    if type(told) is not list or not told or type(told[0]) is not str:
        return None
    if is_isolated and told[0] == "answer":
        return told if len(told) == 3 and is_answer(told[1:], is_isolated) else None
    form = FORMS.get((told[0], len(told)))
    return told if form and form(told[1:]) else None


def is_aborted(told):
    return told[2:] == [ABORTED]


def txn_of(told):
    """Its lists, whether or not it was committed: both are judged by the same rules."""
    reads, writes, *_ = told
    return [(read[0], INIT if len(read) == 2 else (read[1], read[2])) for read in reads], writes


def effect_of(told):
    """What it did; nothing, if it aborted."""
    return ([], []) if is_aborted(told) else txn_of(told)


def rises(items):
    return all(one < other for one, other in zip(items, items[1:]))


@dataclass(frozen=True)
class Bounds:
    """How many transactions a fragment has at most, what keys and numbers are below, how many
    transactions may remain, and how many sessions there may be."""

    txns: int = 256
    numbers: int = NUMBERS
    keys: int = WHOLE
    limit: int = 4096
    sessions: int = 64


ORDERED, ISOLATED = Bounds(), Bounds(128, NUMBERS // 2, STARS, 2048)
# Those of version 3.
LARGE = replace(ORDERED, limit=2**20, sessions=256)
LARGE_ISOLATED = replace(ISOLATED, limit=2**19, sessions=256)


def bounds_of(version, is_isolated):
    if version == 3:
        return LARGE_ISOLATED if is_isolated else LARGE
    return ISOLATED if is_isolated else ORDERED


def is_low(txn, bounds):
    """Whether its keys, and the numbers of the sources of its reads, are below these."""
    reads, writes = txn
    return all(key < bounds.keys for key in writes) and all(
        key < bounds.keys and source[1] < bounds.numbers for key, source in reads)


def txn_fault(me, txn, bounds=ORDERED):
    """The number of the refusal of a malformed transaction; else None."""
    reads, writes = txn
    if not rises(reads) or not rises(writes) or not is_low(txn, bounds):
        return 3
    for _, source in reads:
        if source != INIT and (source == me or source[0] >= bounds.sessions):
            return 3
    touches = (writes and writes[0] == 0) or (reads and reads[0][0] == 0)
    return 4 if touches and not is_fence(txn) else None


def fragment_fault(session, first, txns, bounds=ORDERED):
    """The number of the refusal of a fragment that is wrong by itself; else None."""
    if session >= bounds.sessions:
        return 2
    if not 1 <= len(txns) <= bounds.txns or first + len(txns) > bounds.numbers:
        return 9
    if any(len(reads) > 256 or len(writes) > 256 for reads, writes in txns):
        return 9
    for place, txn in enumerate(txns):
        fault = txn_fault((session, first + place), txn, bounds)
        if fault:
            return fault
    return None


def text(told):
    """The bytes of a reply, without its LF."""
    return encode(told).encode()


def told_txn(txn):
    """A transaction in the form of a line."""
    reads, writes = txn
    return [[[key, "init"] if source == INIT else [key, *source] for key, source in reads], writes]


def place_fault(parts, session, first):
    """The number of the refusal of a fragment that isn't the next one of its session; else None."""
    if session >= len(parts.gone):
        return 2
    received = parts.gone[session] + len(parts.remaining[session])
    return 5 if first > received else 6 if first < received else None


class HandOver:
    """Parts that are handed over in place of an opening."""

    marks_parts = 2  # of a line of marks

    def __init__(self, sessions, limit, version):
        self.sessions, self.limit = sessions, limit
        self.bounds = bounds_of(version, False)
        self.parts, self.writers = None, []

    def owed(self, command):
        """The right reply to the command, whose effect on the parts is applied. Aborted attempts
        leave nothing to hand over, in any version."""
        word, *told = command
        if word == "offer" and self.parts and not tells_aborted(command):
            return self.offer(*told)
        if word not in HANDED or (self.parts is None) != (word == "marks"):
            return REFUSALS[1]
        if word == "marks" and len(told) != self.marks_parts:
            return REFUSALS[1]
        return getattr(self, word)(*told)

    def marks(self, marks, closed):
        if len(marks) != self.sessions or len(closed) != self.sessions:
            return REFUSALS[14]
        self.parts = Parts(marks, [[] for _ in marks], closed)
        return OK

    def last(self, writers):
        self.writers += [(key, (session, number)) for key, session, number in writers]
        return OK

    def offer(self, session, first, told):
        fault = place_fault(self.parts, session, first)
        if fault:
            return REFUSALS[fault]
        self.parts.remaining[session] += map(txn_of, told)
        return OK

    def resumed(self):
        self.parts.base = dict(self.writers)
        return OK if self.is_good() else REFUSALS[14]

    def is_good(self):
        """Whether the parts keep the rules."""
        parts = self.parts
        return (len(parts.base) == len(self.writers)
                and sum(map(len, parts.remaining)) <= self.limit
                and all(received <= NUMBERS for received in parts.received())
                and all(map(parts.is_gone, parts.base.values()))
                and not any(len(part) > 256 for me in parts.ids() for part in parts.get(me))
                and not any(txn_fault(me, parts.get(me), self.bounds) for me in parts.ids()))


class SplitHandOver(HandOver):
    """The same of a script that asks for snapshot isolation: its parts are of halves."""

    marks_parts = 3

    def __init__(self, sessions, limit, version):
        super().__init__(sessions, 2 * limit, version)

    def marks(self, marks, closed, begun):
        if len(begun) != len(marks) or any(mark > ISOLATED.numbers for mark in marks):
            return REFUSALS[14]
        return super().marks([2 * mark + flag for mark, flag in zip(marks, begun)], closed)

    def last(self, writers):
        if any(number >= ISOLATED.numbers for _, _, number in writers):
            return REFUSALS[14]
        return super().last([
            (key, session, 2 * number + 1) if key < STARS
            else (0 if key == STARS else key, session, 2 * number)
            for key, session, number in writers])

    def offer(self, session, first, told):
        if first + len(told) > ISOLATED.numbers or not all(
                is_low(txn_of(txn), ISOLATED) for txn in told):
            return REFUSALS[14]
        received, halves = self.parts.received(), split(session, first, told)
        if session < len(received) and received[session] == 2 * first + 1:
            return super().offer(session, 2 * first + 1, halves[1:])
        return super().offer(session, 2 * first, halves)


class Model:
    """The auditor as the documents define it: `judge` takes a line and the reply to it. The result
    of its search is judged, too: that a budget is used up, and that it answers the same again.

    If the script asks for snapshot isolation, its parts, cuts and searches are of halves
    (`plain_snapshots.py`). Its reports are judged by the definition, too, which is tried over the
    whole history as it was offered. If it asks for strict serializability, searches are of the
    rewritten history, and orders and small verdicts are judged by real time as well."""

    judges_search = True

    def __init__(self):
        self.parts = self.limit = self.snapshot = self.held = self.handed = None
        self.search = None  # the arguments of the open round's running search
        self.version = 1  # the version of the script's opening, for what may be offered
        self.is_isolated = False  # whether the script asks for snapshot isolation
        self.timed = None  # if it asks for strict serializability, what was offered, with its times
        self.whole = self.asked = None  # if it does, what was offered, if known; of the open round
        self.rounds = 0
        self.told = {}  # for what remains now: by budget and depth, the report without its number
        self.shown = {"order": [], "refuted": [["cycle", []]]}  # what reports have shown last

    def judge(self, line, reply):
        """Raises Wrong if this isn't the right reply to the line; neither has its LF."""
        command = command_of(line, self.is_isolated)
        if self.search and command == ["collect"] and reply == SEARCHING:
            return
        owed = self.owed(command)
        if owed is None:
            self.judge_report(command, reply)
        elif reply != owed:
            raise Wrong(f"owed is {owed[:300].decode()}")

    def owed(self, command):
        """The right reply to the result of `command_of`, whose effect is applied. None, without any
        effect, if the reply is a report."""
        if command is None:
            return REFUSALS[1]
        if is_timed(command) and self.timed is None:
            return REFUSALS[1]
        if self.handed and command[0] not in BEGINNING:
            return self.hand_over(command)
        if (self.parts is None) != (command[0] in BEGINNING) or command[0] in HANDED:
            return REFUSALS[1]
        if self.version == 1 and tells_aborted(command):
            return REFUSALS[1]
        if self.timed is not None:
            return self.strict(command)
        if self.is_isolated:
            return self.isolated(command)
        return self.ordered(command)

    def ordered(self, command):
        """The same of a command that may stand there, as an auditor of orders replies."""
        if command[0] in ("round", "finish", "collect"):
            return self.refused_round(command[0])
        if command[0] == "search":
            return self.begin_search(*command[1:])
        return getattr(self, command[0])(*command[1:])

    def strict(self, command):
        """The same in a script that asks for strict serializability."""
        if command[0] == "round":
            return None
        if command[0] != "offer":
            return REFUSALS[1]
        session, first, told, *times = command[1:]
        if any(len(its) != len(told) for its in times):
            return REFUSALS[1]
        txns, count = list(map(txn_of, told)), sum(map(len, self.timed))
        fault = fragment_fault(session, first, txns, bounds_of(self.version, False))
        fault = fault or place_fault(plain_parts(self.timed), session, first)
        if not fault and count + len(txns) > self.limit:
            fault = 8
        if fault:
            return REFUSALS[fault]
        spans = map(span_of, *times) if times else [(None, None)] * len(told)
        given = [(*effect_of(txn), *span) for txn, span in zip(told, spans)]
        if not are_possible(len(self.timed), self.timed[session], given):
            return REFUSALS[3]
        self.timed[session] += given
        self.parts, self.told = plain_parts(self.timed), {}
        return OK

    def isolated(self, command):
        """The same in a script that asks for snapshot isolation."""
        word, *its = command
        if word in ("offer", "join"):
            session, first, txns = its if len(its) == 3 else (its[0], 0, its[1])
            bounds = bounds_of(self.version, True)
            fault = fragment_fault(session, first, list(map(txn_of, txns)), bounds)
            if fault:
                return REFUSALS[fault]
        owed = self.ordered(split_command(command))
        if owed is None:
            return None
        if self.whole and owed == OK:
            self.keep_whole(word, its)
        return text(told_reply(decode(owed.decode())))

    def keep_whole(self, word, its):
        """What was offered, for ever."""
        if word == "begin":
            self.asked = self.whole.copy()
        elif word in ("offer", "join"):
            session, whole = its[0], self.whole
            if session == len(whole.gone):
                whole.gone.append(0)
                whole.remaining.append([])
                whole.begun.append(False)
            whole.remaining[session] += map(effect_of, its[-1])

    def text_of(self, *report):
        """The bytes of a report about what the auditor keeps."""
        return text(told_reply(report) if self.is_isolated else report)

    def kept(self):
        """The parts by transactions as they were offered."""
        return whole_of(self.parts) if self.is_isolated else self.parts

    def open(self, sessions, limit, version=1, promise=None):
        refused = self.refused_opening(sessions, limit, version, promise)
        if refused:
            return refused
        is_isolated = promise == "snapshot"
        self.limit, self.version, self.handed = limit * (2 if is_isolated else 1), version, None
        self.parts = Parts([0] * sessions, [[] for _ in range(sessions)], [False] * sessions)
        self.timed = [[] for _ in range(sessions)] if promise == "strict" else None
        self.begins(is_isolated)
        return OK

    def begins(self, is_isolated):
        self.is_isolated = is_isolated
        self.whole = whole_of(self.parts) if is_isolated and is_proper(self.parts) else None

    def resume(self, sessions, limit, version=1, promise=None):
        refused = self.refused_opening(sessions, limit, version, promise)
        if refused:
            return refused
        handed = SplitHandOver if promise else HandOver
        self.version, self.handed = version, handed(sessions, limit, version)
        return OK

    def refused_opening(self, sessions, limit, version, promise):
        bounds = bounds_of(version, promise == "snapshot")
        if not 1 <= sessions <= bounds.sessions:
            return REFUSALS[2]
        return None if 1 <= limit <= bounds.limit else REFUSALS[9]

    def hand_over(self, command):
        owed = self.handed.owed(command)
        if command == ["resumed"] and owed == OK:
            handed, self.handed = self.handed, None
            self.parts, self.limit = handed.parts, handed.limit
            self.begins(isinstance(handed, SplitHandOver))
        return owed

    def offer(self, session, first, told):
        parts, txns = self.parts, list(map(txn_of, told))
        fault = self.fragment_fault(session, first, txns) or self.place_fault(session, first)
        if not fault and sum(map(len, parts.remaining)) + len(txns) > self.limit:
            fault = 8
        if fault:
            return REFUSALS[fault]
        parts.remaining[session] += map(effect_of, told)
        self.told = {}
        return OK

    def join(self, session, *told):
        parts, txns = self.parts, list(map(txn_of, told[-1]))
        first = told[0] if len(told) == 2 else 0
        effects = list(map(effect_of, told[-1]))
        fault = self.fragment_fault(session, first, txns)
        if not fault:
            fault = 10 if self.snapshot else self.joining_fault(session, first, effects)
        if not fault and sum(map(len, parts.remaining)) + len(txns) > self.limit:
            fault = 8
        if fault:
            return REFUSALS[fault]
        if session == len(parts.gone):
            parts.gone.append(0)
            parts.remaining.append([])
            parts.closed.append(False)
        parts.remaining[session] += effects
        parts.closed[session] = False
        self.held, self.told = None, {}
        return OK

    def joining_fault(self, session, first, txns):
        parts = self.parts
        count = len(parts.gone)
        if session < count and (not parts.closed[session] or parts.remaining[session]):
            return 2
        if session > count:
            return 2
        received = parts.gone[session] if session < count else 0
        if first != received:
            return 5 if first > received else 6
        return None if self.is_anchored(txns[0]) else 17

    def is_anchored(self, txn):
        """Whether it is a fence that reads from one that remains, or from the last one
        forgotten."""
        if not is_fence(txn):
            return False
        source = txn[0][0][1]
        remains = source in self.parts.ids() and is_fence(self.parts.get(source))
        return source != INIT and (remains or source == self.parts.base.get(0))

    def fragment_fault(self, session, first, txns):
        """The same of a fragment of halves, if transactions are split."""
        return fragment_fault(session, first, txns, bounds_of(self.version, False))

    def place_fault(self, session, first):
        if session < len(self.parts.gone) and self.parts.closed[session]:
            return 7
        return place_fault(self.parts, session, first)

    def close(self, session):
        if session >= len(self.parts.gone):
            return REFUSALS[2]
        if self.parts.closed[session]:
            return REFUSALS[7]
        self.parts.closed[session], self.told = True, {}
        return OK

    def begin(self):
        if self.snapshot:
            return REFUSALS[10]
        self.snapshot, self.told = self.parts.copy(), {}
        return OK

    def truncate(self):
        if self.snapshot:
            return REFUSALS[10]
        if not self.held:
            return REFUSALS[13]
        (fence, gone, last), self.held, self.told = self.held, None, {}
        for session, _ in gone:
            self.parts.gone[session] += 1
            self.parts.remaining[session].pop(0)
        self.parts.base.update((key, (session, number)) for key, session, number in last)
        return text(["cut", fence, gone, last])

    def rebuild(self):
        if self.snapshot:
            return REFUSALS[10]
        self.rounds, self.held, self.told = 0, None, {}
        return OK

    def show(self):
        parts = self.parts
        last = [(key, *parts.base[key]) for key in sorted(parts.base)]
        remaining = sum(map(len, parts.remaining))
        return text(["show", parts.gone, parts.received(), parts.closed, last, remaining])

    def save(self, what, *where):
        parts = self.parts
        if what == "marks":
            return text(["marks", parts.gone, parts.closed])
        if what == "last":
            told = [[key, *parts.base[key]] for key in sorted(parts.base) if key >= where[0]]
            return text(["last", told[:16384]])
        session, number = where
        if session >= len(parts.gone):
            return REFUSALS[2]
        gone = parts.gone[session]
        first = max(gone, min(number, gone + len(parts.remaining[session])))
        told = parts.remaining[session][first - gone:][:256]
        return text(["offer", session, first, list(map(told_txn, told))])

    def answer(self, word, given):
        parts = self.snapshot
        if not parts:
            return REFUSALS[11]
        try:
            if word == "order":
                check_order(parts, given)
            else:
                check_tree(parts, given, is_handed_in=True)
        except Wrong:
            return REFUSALS[12]
        kind = "violated"
        if word == "order":
            kind = "pending" if parts.has_pending() else "serial"
            self.held = cut_of(parts, Relation(parts))
        check_by_trial(parts, kind)
        if self.asked:
            check_kind(kind, has_events(self.asked, FARTHEST))
        if self.is_isolated and word == "order" and is_proper(parts):
            check_events(whole_of(parts), told_order(given))
        self.snapshot = self.search = None
        self.rounds += 1
        return text(["report", self.rounds, kind, parts.received(), given])

    def begin_search(self, *effort):
        if not self.snapshot:
            return REFUSALS[11]
        if self.search:
            return REFUSALS[10]
        self.search = effort
        return OK

    def skip(self):
        if not self.snapshot:
            return REFUSALS[11]
        self.snapshot = self.search = None
        return OK

    def refused_round(self, word):
        if word == "round":
            return REFUSALS[10] if self.snapshot else None
        if word == "collect":
            return None if self.search else REFUSALS[11]
        if self.search:
            return REFUSALS[10]
        return None if self.snapshot else REFUSALS[11]

    def judge_report(self, command, reply):
        """Judges a report on the open round, or on everything that was taken in."""
        budget, depth = self.search[:2] if command[0] == "collect" else command[1:3]
        whole = self.asked if self.snapshot else self.whole
        parts, self.snapshot = self.snapshot or self.parts, None
        if self.timed is not None:
            parts = rewritten_parts(self.timed)
        self.search = None
        self.rounds += 1
        report = told = report_of(reply)
        if self.is_isolated:
            report = half_report(report, parts.received())
        self.check_front(parts, report)
        relation = Relation(parts)
        if report[2] == "spent":
            if self.judges_search and not may_be_spent(parts, relation, budget, depth, DEEPEST):
                raise Wrong("the budget can't be used up here")
        elif report[2] == "violated":
            check_tree(parts, report[4])
            self.shown["refuted"] = told[4]
        else:
            check_order(parts, report[4])
            if self.timed is not None:
                check_order(self.parts, report[4])
                check_real_time(self.timed, report[4])
            self.shown["order"] = told[4]
            self.held = cut_of(parts, relation) if self.timed is None else None
            if self.is_isolated and is_proper(parts):
                check_events(whole_of(parts), told[4])
        check_by_trial(parts, report[2])
        if self.timed is not None and sum(map(len, self.timed)) <= 12:
            check_kind(report[2], has_strict_order(self.timed, FARTHEST))
        if whole:
            check_kind(report[2], has_events(whole, FARTHEST))
        if command[0] == "round" and self.judges_search:  # the same, whatever the workers
            if self.told.setdefault((budget, depth, *command[4:]), report[2:]) != report[2:]:
                raise Wrong("another answer than before to the same question")

    def check_front(self, parts, report):
        kind, length = report[2], 4 if report[2] == "spent" else 5
        if report[1] != self.rounds:
            raise Wrong(f"it is round {self.rounds}")
        if report[3] != parts.received():
            raise Wrong(f"{parts.received()} were taken in")
        if kind not in ("serial", "pending", "violated", "spent") or len(report) != length:
            raise Wrong("no such report")
        if kind in ("serial", "pending") and (kind == "pending") != parts.has_pending():
            raise Wrong(f"it is no {kind}, by its reads")


def report_of(reply):
    """The list in a report."""
    try:
        report = decode(reply.decode("ascii"))
    except ValueError:
        raise Wrong("a report is owed") from None
    if type(report) is not list or len(report) < 4 or report[0] != "report":
        raise Wrong("a report is owed")
    if text(report) != reply:
        raise Wrong("the report isn't written as FORMATS has it")
    return report


def check_by_trial(parts, kind):
    """Checks a small remainder's verdict by trying all orders."""
    if kind == "spent" or sum(map(len, parts.remaining)) > 12:
        return
    check_kind(kind, has_order(parts, FARTHEST))


def check_kind(kind, found):
    """Checks a verdict by what trying all orders has found, if it has."""
    if kind != "spent" and found is not None and found != (kind != "violated"):
        raise Wrong("by trial of all orders it is the other way")


def lines_of(script):
    """The lines of a script; a last piece without LF is one unless it is empty."""
    lines = script.split(b"\n")
    return lines if lines[-1] else lines[:-1]


def first_difference(script, replies):
    """The place of the first line with a wrong reply, and the reason; else None. `replies` are the
    bytes that were written."""
    model, lines, told = Model(), lines_of(script), replies.split(b"\n")
    rest = told.pop()
    for place, line in enumerate(lines):
        if place >= len(told):
            return place, f"no whole reply; what is there is {rest[:200]!r}"
        try:
            model.judge(line, told[place])
        except Wrong as why:
            return place, f"{why}; told is {told[place][:300]!r}"
    if len(told) > len(lines) or rest:
        return len(lines), "more was written than is owed"
    return None


def main():
    if len(sys.argv) not in (2, 3):
        sys.exit(__doc__)
    with open(sys.argv[1], "rb") as file:
        script = file.read()
    default = os.environ.get("COBRA_AUDIT", "crates/cobra_audit/out/cobra_audit")
    ended = subprocess.run([*sys.argv[2:], default][:1], input=script, stdout=subprocess.PIPE,
                           stderr=subprocess.PIPE, check=False)
    found = first_difference(script, ended.stdout)
    if found or ended.returncode or ended.stderr:
        sys.exit(f"line {found[0] + 1}: {found[1]}" if found else f"it ended with {ended!r}")
    print(f"{len(lines_of(script))} lines were answered as they have to be")


if __name__ == "__main__":
    main()
