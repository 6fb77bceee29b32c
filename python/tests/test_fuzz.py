"""The auditor and a plain model of it, with the input of bench/check/fuzz.py, for a minute; and lies
between the auditor and the model, each of which has to be found."""
import json
import multiprocessing
import os
import re
import subprocess
import sys
import tempfile
import time
import unittest

from zanteyard.program._auditor import PROGRAM

from .waiting import wait_until

TOP = os.path.normpath(os.path.join(os.path.dirname(os.path.abspath(__file__)), "../.."))
WORKED = os.path.join(TOP, "crates/cobra_examples/data")

import fuzz
import judge
from plain_proofs import check_tree
from plain_verdicts import Wrong

LINES, SECONDS = 300000, 60.0  # tried at most; bench/check/fuzz.py tries more
SEED = 3
FOUND = 1500  # lines within which each lie about replies is found
SCRIPTS = 16  # times as many for lies about lines: some need a script of a certain version
LEFT = 3  # lines, at most, to which a lie's script is reduced


def told(reply):
    return json.loads(reply)


def is_report(reply, *kinds):
    return reply.startswith(b'["report"') and told(reply)[2] in kinds


def changed(reply, kinds, change):
    """The report with a change, if it is of one of these kinds and the change applies."""
    if not is_report(reply, *kinds):
        return reply
    report = told(reply)
    change(report)
    return judge.text(report)


YES, ALL = ("serial", "pending"), ("serial", "pending", "violated", "spent")


def rename(report, kind):
    report[2] = kind


def exchange(report):
    order = report[4]
    if len(order) > 1:
        order[0], order[-1] = order[-1], order[0]


def other_leaf(report):
    """The last item with one of its numbers or arcs changed."""
    leaf = report[4][-1]
    if leaf[0] == "cycle":
        leaf[1].pop()
    else:
        leaf[-1] += 1


def other_side(report):
    for item in report[4]:
        if item[0] == "force":
            item[2] = 3 - item[2]


def one_part(report):
    """A split without its second half."""
    if any(item[0] == "split" for item in report[4]):
        report[4].pop()


def other_count(report):
    report[3][-1] += 1


def refuted(report):
    report[2], report[4] = "violated", [["cycle", []]]


def cleared(report):
    counts = report[3]
    report[2] = "serial"
    report[4] = [[session, number] for session, count in enumerate(counts)
                 for number in range(count)]


def too_far(reply):
    """A cut that takes one transaction more."""
    if not reply.startswith(b'["cut"'):
        return reply
    cut = told(reply)
    session, number = cut[2][-1]
    cut[2].append([session, number + 1])
    return judge.text(cut)


def other_last(reply):
    if not reply.startswith(b'["cut"') or len(told(reply)[3]) < 2:
        return reply
    cut = told(reply)
    cut[3][1][1:] = cut[1]
    return judge.text(cut)


def shown(change):
    def lie(_, reply):
        if not reply.startswith(b'["show"'):
            return [reply]
        state = told(reply)
        change(state)
        return [judge.text(state)]
    return lie


def more_remains(state):
    state[5] += 1


def all_open(state):
    state[3] = [False] * len(state[3])


def reports(kinds, change):
    return lambda _, reply: [changed(reply, kinds, change)]


def every(count, replies):
    """Replaces every n-th of these replies."""
    seen = [0]

    def lie(_, reply):
        seen[0] += 1
        return replies(reply) if seen[0] % count == 0 else [reply]
    return lie


def always(line, reply):
    return [reply]


def same(line):
    return line


def swallowed(line):
    """An offer that is answered ok but not kept."""
    return b'["show"]' if line.startswith(b'["offer"') else line


def told_ok(line, reply):
    return [judge.OK] if line.startswith(b'["offer"') else [reply]


def rebuilds(line):
    """A refusal that changes the state: an unknown command resets the auditor."""
    return line if judge.command_of(line) else b'["rebuild"]'


def told_bad(line, reply):
    return [reply] if judge.command_of(line) else [judge.REFUSALS[1]]


def no_cut(line, reply):
    return [judge.REFUSALS[13] if reply.startswith(b'["cut"') else reply]


MAY_WANT = ("open", "offer", "join", "begin", "finish", "round", "truncate", "rebuild", "resume",
            "marks", "last", "resumed")


def wanting(line, reply):
    """Whatever may be answered NoMemory is."""
    command = judge.command_of(line)
    is_refused = reply.startswith(b'["no"')
    return [judge.REFUSALS[16] if command and command[0] in MAY_WANT and not is_refused else reply]


def more_room(line):
    told_line = judge.command_of(line)
    if told_line and told_line[0] == "open":
        return judge.text(["open", told_line[1], told_line[2] + 1])
    return line


class LateBegin:
    """A round that includes what arrived after its begin, but is otherwise reported correctly."""

    def __init__(self):
        self.is_open, self.told = False, {}

    def given(self, line):
        word = (judge.command_of(line) or [""])[0]
        if word == "finish" and self.is_open:
            self.is_open = False
            return line.replace(b"finish", b"round")
        if word == "begin" or self.is_open and word in ("round", "truncate", "rebuild"):
            self.told.setdefault(line, []).append(judge.REFUSALS[10] if self.is_open else judge.OK)
            self.is_open = True
            return b'["show"]'
        return line

    def answer(self, line, reply):
        told = self.told.get(line)
        return [told.pop(0) if told and reply.startswith(b'["show"') else reply]


def replaced(old, new):
    return lambda _, reply: [reply.replace(old, new)]


def read_as(old, new):
    """A line that is read as another one."""
    return lambda line: line.replace(old, new)


def as_version(old, new):
    """An opening that is read as one of another version."""
    opening = re.compile(rb'(\["(?:open|resume)",\d+,\d+)' + old + rb"\]")
    return lambda line: opening.sub(rb"\1" + new + b"]", line)


def without_no_text(line):
    return line.decode("utf-8", errors="ignore").encode()


# For each lie: which part of the generators shows it, what the program is given in place of a line,
# and what replaces the reply.
LIES = {
    "another refusal": ("scripts", same, replaced(b'6,"Repeat"', b'5,"Gap"')),
    "another number": ("scripts", same, replaced(b'["no",6', b'["no",5')),
    "another name": ("bytes", same, replaced(b'"BadLine"', b'"Badline"')),
    "white space in a reply": ("bytes", same, replaced(b'"ok"]', b'"ok" ]')),
    "a reply dropped": ("scripts", same, every(50, lambda _: [])),
    "a reply twice": ("scripts", same, every(50, lambda reply: [reply, reply])),
    "half a reply": ("scripts", same, every(50, lambda reply: [reply[:-1]])),
    "pending called serial": ("scripts", same, reports(YES[1:], lambda it: rename(it, "serial"))),
    "serial called pending": ("scripts", same, reports(YES[:1], lambda it: rename(it, "pending"))),
    "violated called serial": ("scripts", same, reports(("violated",), cleared)),
    "serial called violated": ("scripts", same, reports(YES, refuted)),
    "spent with budget left": ("scripts", same, reports(
        YES, lambda it: (rename(it, "spent"), it.pop()))),
    "two of an order exchanged": ("scripts", same, reports(YES, exchange)),
    "an order without its last": ("scripts", same, reports(YES, lambda it: it[4] and it[4].pop())),
    "a leaf changed": ("scripts", same, reports(("violated",), other_leaf)),
    "forced to the other side": ("scripts", same, reports(("violated",), other_side)),
    "a split without an end": ("scripts", same, reports(("violated",), one_part)),
    "another count": ("scripts", same, reports(ALL, other_count)),
    "another round": ("scripts", same, replaced(b'["report",2', b'["report",3')),
    "a cut too far": ("scripts", same, lambda _, reply: [too_far(reply)]),
    "another last writer": ("scripts", same, lambda _, reply: [other_last(reply)]),
    "a cut withheld": ("scripts", same, no_cut),
    "memory is always wanting": ("scripts", same, wanting),
    "one more remains": ("scripts", same, shown(more_remains)),
    "a closed session is shown open": ("scripts", same, shown(all_open)),
    "an offer that isn't kept": ("scripts", swallowed, told_ok),
    "a refusal that changed the state": ("bytes", rebuilds, told_bad),
    "a place more than the limit": ("scripts", more_room, always),
    "what came after a begin is counted": ("scripts", LateBegin, None),
    "what was aborted counts": ("scripts", read_as(b',"aborted"', b""), always),
    "the first version has what was aborted": ("", as_version(rb"", b",2"), always),
    "any other version is the second": ("grammar", as_version(rb",(?:0|1|4|256)", b",2"), always),
    "the third version is the second": ("scripts", as_version(rb",3", b",2"), always),
    "the second version is the first": ("scripts", as_version(rb",2", b""), always),
    "snapshot isolation isn't asked for": ("scripts", read_as(b',"snapshot"]', b"]"), always),
    "a begin is told as a commit": ("scripts", same, replaced(b'"begin"', b'"commit"')),
    "what has begun isn't told": ("scripts", same, replaced(b"true]]", b"false]]")),
    "minus zero is zero": ("grammar", read_as(b"-0", b"0"), always),
    "a float is a number": ("grammar", read_as(b"5.0", b"5"), always),
    "a byte order mark is skipped": ("grammar", read_as(b"\xef\xbb\xbf", b""), always),
    "what is no text is skipped": ("bytes", without_no_text, always),
    "a comma at the end": ("grammar", read_as(b",]", b"]"), always),
    "a leading zero": ("grammar", lambda line: re.sub(rb"(?<=[\[,])0+(?=\d)", b"", line), always),
    "an escape isn't read": ("grammar", read_as(b"\\u0", b"\\v0"), always),
}


# 0.2 and 1.2 both read the initial version of key 1, and wrote it. A round after an answer and a
# cut may rule out a side of 0.3's read by an arc that is that side's fact, before it reaches the
# cycle.
KNOWN_SIDE = (
    '["open",2,8]', '["offer",0,0,[[[[0,"init"]],[0]],[[[0,1,0]],[0]],[[[1,"init"]],[1]]]]',
    '["offer",1,0,[[[[0,0,0]],[0]],[[[0,0,1]],[0]]]]', '["begin"]',
    '["answer","order",[[0,0],[1,0],[0,1],[0,2],[1,1]]]', '["offer",0,3,[[[[1,1,2]],[1]]]]',
    '["offer",1,2,[[[[1,"init"]],[1]]]]', '["truncate"]', '["round",256,0,1]',
)
KNOWN_SIDE_TREE = [
    ["force", [0, 3, 1, 1, 2, 0, 2], 2, [["base", 1, 0, 2, 1, 2], ["base", 1, 1, 2, 0, 2]]],
    ["cycle", [["base", 1, 0, 2, 0, 3], ["taken", 0, 3, 0, 2]]],
]


class Recorded(fuzz.Program):
    """The program, with a record of its lines and replies."""

    def __init__(self, scripts):
        super().__init__(PROGRAM)
        self.pairs = []
        scripts.append(self.pairs)

    def ask(self, lines):
        replies = super().ask(lines)
        self.pairs += zip(lines, replies)
        return replies


class Liar(fuzz.Program):
    """The program, with a lie between it and whoever reads its replies."""

    def __init__(self, given, answer):
        super().__init__(PROGRAM)
        if given is LateBegin:
            late = LateBegin()
            given, answer = late.given, late.answer
        self.given, self.answer = given, answer

    def ask(self, lines):
        replies = super().ask([self.given(line) for line in lines])
        return [lie for line, reply in zip(lines, replies) for lie in self.answer(line, reply)]


class Waiting(fuzz.Program):
    """The program, which is asked for a search's report only once it is ready. Otherwise it may say
    that it is still searching, and two runs would differ."""

    def __init__(self):
        super().__init__(PROGRAM)

    def ask(self, lines):
        return super().ask([self.waits(line) for line in lines])

    def end(self, rest):
        return super().end(self.waits(rest))

    @staticmethod
    def waits(line):
        try:
            is_collect = json.loads(line) == ["collect"]
        except (ValueError, RecursionError):
            is_collect = False
        return b'["collect","wait"]' if is_collect else line


def start():
    return fuzz.Program(PROGRAM)


def lying():
    _, given, answer = LIES["what is no text is skipped"]
    return Liar(given, answer)


def recorded(only):
    """The program's lines and replies for some scripts."""
    scripts = []
    fuzz.fuzz(lambda: Recorded(scripts), fuzz.Run(SEED, FOUND, only=only))
    return scripts


def worked():
    """The lines and replies of the worked scripts; the last line may have no LF."""
    for name in sorted(os.listdir(WORKED)):
        if name.endswith(".jsonl"):
            with open(os.path.join(WORKED, name), "rb") as file:
                lines = judge.lines_of(file.read())
            with open(os.path.join(WORKED, name[:-5] + "replies"), "rb") as file:
                yield list(zip(lines, judge.lines_of(file.read())))


def found_in(scripts, answer):
    """After how many lines the lie is found; None if it isn't."""
    before = 0
    for pairs in scripts:
        lies = [lie for pair in pairs for lie in answer(*pair)]
        script = b"".join(line + b"\n" for line, _ in pairs)
        found = judge.first_difference(script, b"".join(lie + b"\n" for lie in lies))
        if found:
            return before + found[0] + 1
        before += len(pairs)
    return None


@unittest.skipUnless(os.path.isfile(PROGRAM), f"{PROGRAM} is not built")
class Fuzz(unittest.TestCase):
    def test_lines_and_scripts_are_answered_as_the_plain_model_says(self):
        try:
            run = fuzz.Run(SEED + 1, LINES, time.monotonic() + SECONDS)
            table = fuzz.fuzz(start, run)
        except fuzz.Difference as difference:
            lines, why = fuzz.shrunk(start, difference.script)
            self.fail(f"{why}: {lines}")
        self.assertGreater(table.lines, 0)

    def test_lies_about_replies_are_found(self):
        scripts = {"scripts": [*recorded("scripts"), *worked()], "bytes": recorded("bytes")}
        for name, (only, given, answer) in LIES.items():
            if given is same:
                with self.subTest(lie=name):
                    self.assertIsNotNone(found_in(scripts[only], answer), "the lie isn't found")

    def test_lies_about_lines_are_found(self):
        for name, (only, given, answer) in LIES.items():
            if given is not same:
                run = fuzz.Run(SEED, SCRIPTS * FOUND, only=only)
                with self.subTest(lie=name), self.assertRaises(fuzz.Difference):
                    fuzz.fuzz(lambda: Liar(given, answer), run)

    def test_a_script_is_made_small(self):
        with self.assertRaises(fuzz.Difference) as found:
            fuzz.fuzz(lying, fuzz.Run(SEED, FOUND, only="bytes"))
        lines, why = fuzz.shrunk(lying, found.exception.script)
        self.assertLessEqual(len(lines), LEFT)
        self.assertIn("BadLine", why)

    def test_processes_share_the_lines_and_give_the_same_again(self):
        run, apart = fuzz.Run(SEED, FOUND + 1), fuzz.Table()
        parts = run.shared(2)
        self.assertEqual([FOUND // 2 + 1, FOUND // 2], [part.lines for part in parts])
        apart.set_to([fuzz.fuzz(Waiting, part) for part in parts])
        for _ in range(2):
            beside = fuzz.fuzz_side_by_side(Waiting, run, 2)
            self.assertEqual(apart.text(), beside.text())
            self.assertEqual(apart.scripts, beside.scripts)
            self.assertGreaterEqual(beside.lines, run.lines)

    def test_what_one_process_finds_stops_all(self):
        """The other processes have lines for days."""
        first = multiprocessing.Value("i", 0)

        def lying_first():
            with first.get_lock():
                first.value = first.value or os.getpid()
            return lying() if first.value == os.getpid() else start()

        table, run = fuzz.Table(), fuzz.Run(SEED, 10**9, only="bytes")
        with self.assertRaises(fuzz.Difference) as found:
            fuzz.fuzz_side_by_side(lying_first, run, 3, table)
        self.assertEqual([], multiprocessing.active_children())
        self.assertGreater(table.lines, 0)
        lines, why = fuzz.shrunk(lying, found.exception.script)
        self.assertLessEqual(len(lines), LEFT)
        self.assertIn("BadLine", why)

    def test_processes_that_are_stopped_tell_one_table_and_leave_none(self):
        with tempfile.TemporaryDirectory() as folder:
            program = os.path.join(folder, "program")
            with open(program, "w", encoding="utf-8") as file:
                file.write(f"#!/bin/sh\n: > '{folder}/'$PPID\nexec '{PROGRAM}'\n")
            os.chmod(program, 0o700)
            words = [sys.executable, fuzz.__file__, "--processes", "2", "--lines", str(10**9)]
            running = subprocess.Popen([*words, program], stdout=subprocess.PIPE)
            self.assertTrue(wait_until(lambda: len(os.listdir(folder)) > 2))
            running.terminate()
            told, _ = running.communicate()  # returns when nobody holds its end of the pipe any more
            self.assertEqual(1, running.returncode)
            self.assertEqual(1, told.count(b"kind of line"))
            self.assertRegex(told.splitlines()[-1], rb"^seed 1 in 2 processes: .* STOPPED$")

    def test_a_side_is_ruled_out_by_a_circle_that_begins_with_its_fact(self):
        """Such a cycle may be reported by its reads. One that begins elsewhere is no tree of the
        auditor's."""
        model, lines = judge.Model(), [line.encode() for line in KNOWN_SIDE]
        for line in lines[:-1]:
            owed = model.owed(judge.command_of(line))
            self.assertIsNotNone(owed, line)
        check_tree(model.parts, KNOWN_SIDE_TREE)
        turned = json.loads(json.dumps(KNOWN_SIDE_TREE))
        turned[0][3].reverse()
        check_tree(model.parts, turned, is_handed_in=True)
        with self.assertRaises(Wrong):
            check_tree(model.parts, turned)
        told, why = fuzz.replies_of(start, lines)
        self.assertIsNone(why)
        script = b"".join(line + b"\n" for line in lines)
        self.assertIsNone(judge.first_difference(script, told))

    def test_worked_scripts_are_answered_so(self):
        for pairs in worked():
            with self.subTest(first=pairs[:3]):
                self.assertIsNone(found_in([pairs], always))
                self.assertIsNotNone(found_in([pairs], wanting), "memory is always wanting")


if __name__ == "__main__":
    unittest.main()
