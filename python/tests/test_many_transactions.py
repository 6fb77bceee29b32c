"""Histories of more than 4,096 transactions: scripts of version 3.

They are run by the built program, which has to know that version, and by the plain auditor if none
is built. The plain auditor judges these histories without a search (`plain_auditor.py`)."""
import contextlib
import io
import json
import os
import random
import subprocess
import tempfile
import time
import unittest
from unittest import mock

from zanteyard import Auditor, Logged
from zanteyard.cli._main import main
from zanteyard.core.errors import ImportRefusedError
from zanteyard.explain import _shrinking as shrinking
from zanteyard.explain._audited import audited_apart, without_idle
from zanteyard.explain._levels import Levels
from zanteyard.explain._reasons import explain_history
from zanteyard.explain._report import MOST_LINES, Story, story_lines
from zanteyard.explain._shrinking import smaller
from zanteyard.explain._standing import standing
from zanteyard.imports import _script as import_script
from zanteyard.imports._command import import_text
from zanteyard.program._auditor import PROGRAM
from zanteyard.promises._asking import LIMIT, MOST
from zanteyard.promises._kinds import PREFIX, SERIALIZABLE, SNAPSHOT

from .killing import PLAIN

AUDITOR = PROGRAM if os.path.isfile(PROGRAM) else PLAIN
COUNT = 4200
ROUND = ["round", 4096, 0, 1]


def line(process, type, time_, micros):
    value = " ".join(f"[:{f} {key} {'nil' if it is None else it}]" for f, key, it in micros)
    return f"{{:process {process}, :type :{type}, :f :txn, :value [{value}], :time {time_}}}\n"


def history(count=COUNT, ends="", processes=16, keys=300):
    """Jepsen's lines of a serializable store, in which whoever writes a key has read it before. It
    may end in a lost update, or in a read of a version that another client's, which had ended, had
    overwritten."""
    dice, state, running, lines, clock, begun = random.Random(1), {}, {}, [], 0, 0
    while begun < count or running:
        clock += 1000
        process = dice.randrange(processes)
        if process in running:
            done = []
            for f, key, value in running.pop(process):
                if f == "w":
                    state[key] = value
                done.append((f, key, state.get(key)))
            lines.append(line(process, "ok", clock, done))
        elif begun < count:
            begun += 1
            first, second = dice.sample(range(keys), 2)
            micros = [("r", first, None), ("r", second, None), ("w", second, begun)]
            running[process] = micros
            lines.append(line(process, "invoke", clock, micros))
    if ends == "lost update":
        for type in ("invoke", "ok"):
            for process in range(2):
                micros = [("r", ":lost", None), ("w", ":lost", process + 1)]
                lines.append(line(process, type, clock + 1000, micros))
    if ends == "stale read":
        for process, micros in enumerate(([("w", ":new", 1)], [("r", ":new", None)])):
            clock += 1000
            lines += (line(process, type, clock, micros) for type in ("invoke", "ok"))
    return "".join(lines)


def run(*words, program=AUDITOR):
    out, err = io.StringIO(), io.StringIO()
    with contextlib.redirect_stdout(out), contextlib.redirect_stderr(err):
        with mock.patch.dict(os.environ, COBRA_AUDIT=program):
            status = main(words)
    return status, out.getvalue(), err.getvalue()


class WithFolder(unittest.TestCase):
    def setUp(self):
        folder = tempfile.TemporaryDirectory()
        self.addCleanup(folder.cleanup)
        self.folder = folder.name
        self.script = os.path.join(self.folder, "a.jsonl")

    def imported(self, text, *more):
        """Imports it, and returns the script's lines."""
        path = os.path.join(self.folder, "a.edn")
        with open(path, "w", encoding="utf-8") as file:
            file.write(text)
        status, out, err = run("import", "jepsen-registers", path, "-o", self.script, *more)
        self.assertEqual((status, err), (0, ""))
        self.assertNotIn("fences", out)
        with open(self.script, encoding="utf-8") as file:
            return [json.loads(each) for each in file]

    def written(self, *lines):
        with open(self.script, "w", encoding="utf-8") as file:
            file.writelines(f"{json.dumps(each)}\n" for each in lines)


class Scripts(WithFolder):
    """Imported and checked."""

    def test_one_script_of_all(self):
        for more in ((), ("--strict",)):
            with self.subTest(more=more):
                opened, *offers, last = self.imported(history(), *more)
                self.assertEqual(opened, ["open", 16, COUNT, 3])
                self.assertEqual({each[0] for each in offers}, {"offer"})
                self.assertEqual(last, [*ROUND, "guided"])
                status, out, err = run("check", self.script)
                self.assertEqual((status, err), (0, ""), out)
                self.assertIn("serial: a serial order", out)
                self.assertEqual("real-time" in out, bool(more))

    def test_few_of_many_are_told(self):
        self.imported(history(ends="lost update"))
        status, out, err = run("check", self.script, "--seconds", "60")
        self.assertEqual((status, err), (1, ""), out)
        at = 2 * COUNT + 3
        self.assertIn(f"line {at} and line {at + 1} both read :lost as it was at first", out)
        self.assertIn(f"so neither line {at} nor line {at + 1} can come first", out)
        self.assertIn("strong snapshot isolation and snapshot isolation, also without", out)
        self.assertLess(out.count("\n"), 20)
        self.assertNotIn("more independent", out)

    def test_what_time_alone_excludes(self):
        self.imported(history(ends="stale read"))
        self.assertEqual(run("check", self.script)[0], 0)
        status, out, _ = run("check", self.script, "--promise", "strict", "--seconds", "60")
        self.assertEqual(status, 1)
        self.assertIn(f"line {2 * COUNT + 2} had ended, and did not see it", out)

    def test_a_part_that_waits_for_the_rest(self):
        opened, *_ = self.imported(history(), "--first", "4150")
        self.assertEqual(opened, ["open", 16, 4151, 3])
        self.assertEqual(run("check", self.script)[0], 3)

    def test_snapshot_isolation(self):
        """Of the same script."""
        for ends, status, kind in (("", 0, "serial"), ("lost update", 1, "violated")):
            with self.subTest(ends=ends):
                self.imported(history(ends=ends))
                told = run("check", self.script, "--promise", "snapshot", "--seconds", "60")
                self.assertEqual((told[0], told[2]), (status, ""), told[1])
                self.assertIn(f"{kind}: ", told[1])
                self.assertIn("snapshot isolation", told[1])

    def test_more_than_snapshot_isolation_can_be_checked_for(self):
        """Is refused, with what can be."""
        offers = [["offer", 0, 256 * at, [[[], []]] * 256] for at in range(2049)]
        self.written(["open", 1, MOST, 3], *offers, ROUND)
        status, _, err = run("check", self.script, "--promise", "snapshot")
        self.assertEqual(status, 2)
        self.assertIn("line 2050 was refused: Backlog", err)
        self.assertIn("can be checked for at most 524,288 at a time", err)
        self.assertIn("up to 1,048,576 (--promise serializable)", err)

    def test_levels(self):
        self.imported(history(ends="lost update"))
        status, out, _ = run("levels", self.script, "--seconds", "60")
        rows = [line.rsplit("  ", 3) for line in out.splitlines()[1:4]]
        self.assertEqual(status, 0)
        told = [[cell.strip() for cell in row if cell.strip()] for row in rows]
        self.assertEqual([row[-1] for row in told], ["no", "no", "yes"], out)
        self.assertNotIn("unknown", out)

    def test_levels_that_cant_be_asked(self):
        """A stale read by time breaks strict serializability; whether the strong form of snapshot
        isolation is broken is found by the few that break that."""
        self.imported(history(ends="stale read"))
        out = run("levels", self.script, "--seconds", "60")[1]
        self.assertIn("broken: strict serializability and strong snapshot isolation", out)


class Openings(WithFolder):
    """Which room there is."""

    def replies(self, *lines):
        text = "".join(json.dumps(each) + "\n" for each in lines)
        done = subprocess.run([AUDITOR], input=text, capture_output=True, text=True, check=True)
        return [json.loads(each) for each in done.stdout.splitlines()]

    def test_limits_of_each_version(self):
        ok, wrong, long = ["ok"], ["no", 1, "BadLine"], ["no", 9, "TooLong"]
        for word in ("open", "resume"):
            for more, reply in (
                ([LIMIT + 1], long), ([LIMIT + 1, 2], long), ([0, 3], long), ([MOST + 1, 3], long),
                ([MOST // 2 + 1, 3, "snapshot"], long), ([2049, 2, "snapshot"], long),
                ([0, 3, "snapshot"], long), ([8, 4], wrong), ([8, 4, "snapshot"], wrong),
                ([LIMIT, 3], ok), ([1, 3], ok), ([MOST, 3], ok), ([MOST // 2, 3, "snapshot"], ok),
            ):
                with self.subTest(word=word, more=more):
                    self.assertEqual(self.replies([word, 64, *more]), [reply])

    def test_aborted_transactions(self):
        """As in version 2."""
        told = self.replies(
            ["open", 2, MOST, 3], ["offer", 0, 0, [[[], [5], "aborted"]]],
            ["offer", 1, 0, [[[[5, 0, 0]], []]]], ROUND,
        )
        self.assertEqual(told[-1], ["report", 1, "violated", [1, 1], [["nowrite", 1, 0, 5]]])

    def test_saved_and_resumed(self):
        """What one run gives out, 4,200 transactions, is handed over whole; not in version 2."""
        *lines, last = self.imported(history())
        saves = [["save", "marks"], ["save", "last", 0]]
        saves += [["save", "remain", session, at] for session in range(16) for at in (0, 256)]
        told = self.replies(*lines, *saves)[len(lines):]
        self.assertEqual(sum(len(each[3]) for each in told[2:]), COUNT)
        resumed = self.replies(["resume", 16, COUNT, 3], *told, ["resumed"], last)
        self.assertEqual(resumed[:-1], [["ok"]] * (len(told) + 2))
        self.assertEqual(resumed[-1][:3], ["report", 1, "serial"])
        for opening in (["resume", 16, COUNT - 1, 3], ["resume", 16, LIMIT, 2]):
            told_too_few = self.replies(opening, *told, ["resumed"])
            self.assertEqual(told_too_few[-1], ["no", 14, "BadParts"])

    def test_an_auditor_with_more_room(self):
        with Auditor(2, LIMIT + 1, AUDITOR, script=self.script) as auditor:
            auditor.ask(["offer", 0, 0, [[[], [5]]]])
            self.assertEqual(auditor.last_round().kind, "serial")
        with open(self.script, encoding="utf-8") as file:
            self.assertEqual(json.loads(next(file)), ["open", 2, LIMIT + 1, 3])

    def test_a_journal_of_one(self):
        path = os.path.join(self.folder, "audit.journal")
        with Auditor(2, LIMIT + 1, AUDITOR, journal=path) as auditor:
            auditor.take(0, 0, Logged((), ("x",)))
            auditor.last_round()
        with Auditor.resumed(path, AUDITOR) as auditor:
            self.assertEqual((auditor.limit, auditor.received), (LIMIT + 1, [1, 0]))

    def test_advice_names_the_version(self):
        idle = [[[], []]] * 256
        offers = [["offer", 0, 256 * at, idle] for at in range(17)]
        for limit in (LIMIT, 300):
            self.written(["open", 1, limit], *offers, ROUND)
            status, _, err = run("check", self.script)
            self.assertEqual(status, 2)
            self.assertIn(f"line {limit // 256 + 2} was refused: Backlog", err)
            self.assertIn('1,048,576 if the script begins with ["open",sessions,limit,3]', err)
        self.written(["open", 1, LIMIT + 1], *offers, ROUND)
        self.assertIn("4,096 transactions remain at a time; if it", run("check", self.script)[2])
        self.written(["open", 1, 5000, 3], *offers, ROUND)
        self.assertEqual(run("check", self.script)[0], 0)

    def test_more_than_that(self):
        """Is refused, with how many there are and what can be done."""
        self.addCleanup(setattr, import_script, "MOST", import_script.MOST)
        import_script.MOST = 4199
        refused = "4,200 transactions, and at most 4,199 can be checked at once: take the first"
        for asks_time, more in ((False, r"\(--strict\)"), (True, "there is no moment")):
            with self.assertRaisesRegex(ImportRefusedError, f"{refused}.*{more}"):
                import_text("jepsen-registers", history(), asks_time=asks_time)


class Explained(unittest.TestCase):
    """A violation among many, in time that grows as these do."""

    def many(self, count=COUNT, clients=2):
        """In as few sessions, with a lost update at the end of each."""
        lost = Logged((("x", "init"),), ("x",))
        busy = [
            [Logged(((f"k{at}", (at, number - 1) if number else "init"),), (f"k{at}",))
             for number in range(count // clients)] for at in range(clients)
        ]
        return [[*its, lost] for its in busy]

    def test_the_whole_is_not_audited_again(self):
        sizes = []

        def audited_here(history, *more):
            sizes.append(sum(map(len, without_idle(history)[0])))
            return audited_apart(history, *more)

        whole = self.many()
        with mock.patch.object(shrinking, "audited_apart", audited_here):
            small = smaller(whole, AUDITOR, 60.0, [(0, COUNT // 2), (1, COUNT // 2)])
            self.assertLess(max(sizes), 8)
        did = [[it for it in its if it.reads] for its in small]
        self.assertEqual([[tuple(it.writes) for it in its] for its in did], [[("x",)], [("x",)]])

    def test_idle_ones_are_left_out_of_a_long_part(self):
        """The report is read back in the numbers of the part; also by halves, and of snapshots."""
        lost = Logged((("x", "init"),), ("x",))
        part = [[Logged((), ())] * 70000 + [lost] for _ in range(2)]
        for promise, what in ((SERIALIZABLE, ""), (SNAPSHOT, " begins"), (PREFIX, "")):
            with self.subTest(promise=promise.name):
                its = audited_apart(part, AUDITOR, promise)
                self.assertLess(len(its.script), 400)
                owed = "serial" if promise == PREFIX else "violated"
                self.assertEqual(its.report.kind, owed)
        told = explain_history(part, program=AUDITOR).lines
        self.assertEqual(told[-1], "so neither 0.70000 nor 1.70000 can come first")
        found = standing(part, AUDITOR, seconds=600.0)
        self.assertIn(SNAPSHOT, found.broken)
        self.assertIn(PREFIX, found.kept)
        its = audited_apart(part, AUDITOR, PREFIX)
        moved = its.moved((1, 1))
        self.assertEqual((moved.id, moved.what), ((1, 70000), "commit"))

    def test_reads_of_what_never_arrives_stay_so(self):
        wait = Logged((("x", (0, 60000)), ("y", (5, 3))), ())
        part = [[Logged((), ())] * 5000 + [wait]]
        self.assertEqual(audited_apart(part, AUDITOR).report.kind, "pending")
        dirty = [[Logged((), ())] * 5000 + [Logged((("x", (0, 70)),), ())]]
        self.assertEqual(audited_apart(dirty, AUDITOR).report.kind, "violated")

    def test_a_hundred_thousand(self):
        """Without an audit of the whole: only what is done with all transactions here."""
        sizes, took = (10000, 100000), []
        for count in sizes:
            whole = self.many(count, clients=8)
            known = [(0, count // 8), (1, count // 8)]
            began = time.process_time()
            smaller(whole, AUDITOR, 60.0, known)
            took.append(time.process_time() - began)
        self.assertLess(took[1], 30 * took[0] + 2.0, took)

    def test_what_is_left_large_isnt_printed_whole(self):
        lines = [*story_lines(Story("violated", lines=("a line",) * 5000))]
        self.assertIn(f"    and {5000 - MOST_LINES:,} more lines like these", lines)
        self.assertLess(len(lines), MOST_LINES + 20)


class Halves(WithFolder):
    def test_prefix_consistency_of_many(self):
        """Each becomes two."""
        lines = self.imported(history(2100, ends="lost update"))
        self.assertEqual(lines[0], ["open", 16, 2102])
        given = [json.dumps(each).encode() for each in lines]
        levels = Levels(AUDITOR, given, seconds=600.0).found()
        self.assertIn((PREFIX, "yes"), [(each.promise, each.answer) for each in levels])


if __name__ == "__main__":
    unittest.main()
