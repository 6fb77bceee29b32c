"""Strict serializability, asked of the auditor by offers with times; and what it can't be asked so."""
import contextlib
import io
import json
import os
import signal
import subprocess
import sys
import tempfile
import unittest
from unittest import mock

from zanteyard.cli._main import main
from zanteyard.core.errors import CantBeAskedError, OtherVersionError, ScriptMistakeError
from zanteyard.core._records import Logged
from zanteyard.explain._audited import audited, takes_times
from zanteyard.program._auditor import PROGRAM
from zanteyard.program._strict_auditor import StrictAuditor
from zanteyard.promises._kinds import STRICT
from zanteyard.scripts import _running as running
from zanteyard.scripts._running import ScriptRun
from zanteyard.scripts._times import ScriptTimes, checked_times, read_times, write_times

from .plain_promises import generated, script_of
from .test_promises import HISTORIES, ROUND, as_logged, asked_times
from .waiting import wait_until

PYTHON = os.path.normpath(os.path.join(os.path.dirname(os.path.abspath(__file__)), ".."))
LATEST = 2**64 - 1  # an unknown end
WRITE, MISS = [[], [5]], [[[5, "init"]], []]  # who writes key 5, and who reads it as it was at first
OWN = [
    ["open", 2, 8, 2, "strict"],
    ["offer", 0, 0, [WRITE], [1], [2]],
    ["offer", 1, 0, [MISS], [5], [6]],
    ROUND,
]
# Answers lines by a table, or not at all, and keeps them, after its process's number, in a file.
FAKE = """#!{python}
import json, os, sys
table = json.loads({table!r})
with open({kept!r}, "a") as kept:
    print(os.getpid(), file=kept, flush=True)
    for line in sys.stdin:
        word = json.loads(line)[0]
        replies = table.get(word, [["ok"]])
        reply = replies.pop(0) if len(replies) > 1 else replies[0]
        print(line, end="", file=kept, flush=True)
        if reply is not None:
            print(json.dumps(reply), flush=True)
"""


def run(*words, program=PROGRAM):
    out, err = io.StringIO(), io.StringIO()
    with contextlib.redirect_stdout(out), contextlib.redirect_stderr(err):
        with mock.patch.dict(os.environ, COBRA_AUDIT=program):
            status = main(words)
    return status, out.getvalue(), err.getvalue()


def encoded(lines):
    return [json.dumps(line).encode() for line in lines]


def kind_of(lines, times=None, **more):
    promise = None if times is None else STRICT
    asked = None if times is None else ScriptTimes("ns", times)
    with ScriptRun(PROGRAM, promise=promise, times=lambda: asked, **more) as asked_run:
        return [*asked_run.verdicts(encoded(lines))][-1], asked_run


class WithFolder(unittest.TestCase):
    def setUp(self):
        folder = tempfile.TemporaryDirectory()
        self.addCleanup(folder.cleanup)
        self.folder = folder.name

    def path(self, lines, times=None):
        path = os.path.join(self.folder, "script.jsonl")
        with open(path, "wb") as file:
            file.writelines(line + b"\n" for line in encoded(lines))
        if times is not None:
            write_times(ScriptTimes("ns", times), path)
        return path

    def fake(self, **table):
        """A program that answers these commands so, in turn, and others by ok; and what it keeps."""
        path, kept = (os.path.join(self.folder, name) for name in ("fake", "kept"))
        with open(path, "w", encoding="utf-8") as file:
            file.write(FAKE.format(python=sys.executable, table=json.dumps(table), kept=kept))
        os.chmod(path, 0o700)
        return path, kept


@unittest.skipUnless(os.path.isfile(PROGRAM), f"{PROGRAM} is not built")
class Asked(WithFolder):
    def test_times_decide(self):
        """Of a write of session 0, and a read of session 1 that misses it."""
        opened = [["open", 2, 8], ["offer", 0, 0, [WRITE]], ["offer", 1, 0, [MISS]], ROUND]
        rows = (
            ("it ended before", {(0, 0): (1, 2), (1, 0): (5, 6)}, "violated"),
            ("only just", {(0, 0): (1, 4), (1, 0): (5, 6)}, "violated"),
            ("equal times order nothing", {(0, 0): (1, 5), (1, 0): (5, 6)}, "serial"),
            ("both at once", {(0, 0): (5, 5), (1, 0): (5, 5)}, "serial"),
            ("at the clock's beginning", {(0, 0): (0, 0), (1, 0): (1, 1)}, "violated"),
            ("at its end", {(0, 0): (0, LATEST - 2), (1, 0): (LATEST - 1, LATEST - 1)}, "violated"),
            ("both ran", {(0, 0): (1, 7), (1, 0): (5, 6)}, "serial"),
            ("the end is unknown", {(0, 0): (1, None), (1, 0): (5, 6)}, "serial"),
            ("the reader's end is unknown", {(0, 0): (1, 2), (1, 0): (5, None)}, "violated"),
            ("nothing is known of the writer", {(1, 0): (5, 6)}, "serial"),
            ("nothing is known", {}, "serial"),
        )
        for shows, times, owed in rows:
            with self.subTest(shows=shows):
                verdict, asked = kind_of(opened, times)
                self.assertEqual((verdict.kind, asked.why_by_reads), (owed, ""))
                if owed == "serial":
                    self.assertEqual(sorted(verdict.certificate), [[0, 0], [1, 0]])
        self.assertEqual(kind_of(opened)[0].kind, "serial")  # without times

    def test_what_is_offered_later_counts_later(self):
        """Each round is about what was offered before it; a read may wait for the rest."""
        lines = [["open", 2, 8], ["offer", 1, 0, [[[[5, 0, 0]], []]]], ROUND,
                 ["offer", 0, 0, [[[], [5]], MISS]], ROUND]
        times = {(1, 0): (8, 9), (0, 0): (1, 2), (0, 1): (3, 4)}
        with ScriptRun(PROGRAM, promise=STRICT, times=lambda: ScriptTimes("ns", times)) as asked:
            kinds = [it.kind for it in asked.verdicts(encoded(lines))]
        self.assertEqual(kinds, ["pending", "violated"])

    def test_the_same_as_by_added_reads(self):
        """With fences and aborted attempts; orders keep the order of time."""
        kinds = set()
        for seed in range(HISTORIES // 5):
            history, times = generated(seed)
            counted = asked_times(history, times)
            lines = [*script_of(history), ROUND]
            with self.subTest(seed=seed):
                verdict, asked = kind_of(lines, counted)
                self.assertEqual(asked.why_by_reads, "")
                with mock.patch.object(running.Whole, "_why_not", lambda *_: "of a test"):
                    other, asked = kind_of(lines, counted)
                self.assertEqual(asked.why_by_reads, "of a test")
                self.assertEqual(verdict.kind, other.kind)
                if verdict.kind != "violated":
                    ids = [*map(tuple, verdict.certificate)]
                    self.assertEqual(len(ids), sum(map(len, history)))
                    spans = [counted[id] for id in ids if id in counted and not is_undone(history, id)]
                    for at, (_, ended) in enumerate(spans):
                        self.assertFalse(ended is not None and [it for it in spans[:at] if ended < it[0]])
                kinds.add(verdict.kind)
        self.assertEqual(kinds, {"serial", "pending", "violated"})

    def test_a_history_that_is_explained(self):
        """By a script that asks by itself, and that `check` takes."""
        stale = [[Logged((), ("x",), span=(1, 2, "ns"))],
                 [Logged((("x", "init"),), (), span=(5, None, "ns"))]]
        report, script = audited(stale, PROGRAM, STRICT)
        self.assertEqual(report.kind, "violated")
        lines = [*map(json.loads, script.splitlines())]
        self.assertEqual(lines[0], ["open", 2, 2, 2, "strict"])
        self.assertEqual(lines[2], ["offer", 1, 0, [[[[1, "init"]], []]], [5], [LATEST]])
        status, out, _ = run("check", self.path(lines))
        self.assertEqual(status, 1)
        self.assertIn("1.0 began after 0.0 had ended, and did not see it", out)

    def test_what_has_no_room_is_asked_by_added_reads(self):
        """It gets the same verdict, and `check` says so. Explanations ask so, too."""
        many = [[key, "init"] for key in range(10, 265)]
        fits = [["open", 2, 8], ["offer", 0, 0, [WRITE]], ["offer", 1, 0, [MISS]], ROUND]
        large = [*fits[:2], ["offer", 1, 0, [[[[5, "init"], *many[:254]], []]]], ROUND]
        closed = [*fits[:3], ["close", 0], ROUND, ["truncate"]]
        times = {(0, 0): (1, 2), (1, 0): (5, 6)}
        for lines, words in ((fits, ""), (large, "255 reads, over 256"), (closed, "'close'")):
            with self.subTest(words=words):
                status, out, err = run("check", "--promise", "strict", self.path(lines, times))
                self.assertEqual((status, err), (1, ""))
                self.assertIn("1.0 began 3 ns after 0.0 had ended, and did not see it", out)
                self.assertEqual("isn't proved" in out, bool(words), out)
                self.assertIn(words, out)
        history = [[Logged((), ("x",), span=(1, 2, "ns"))],
                   [Logged([(f"k{at}", "init") for at in range(254)], (), span=(5, 6, "ns")),
                    Logged((("x", "init"),), (), span=(7, 8, "ns"))]]
        self.assertTrue(takes_times(history))
        self.assertEqual(audited(history, PROGRAM, STRICT)[0].kind, "violated")
        history[1][0] = history[1][0]._replace(reads=[(f"k{at}", "init") for at in range(255)])
        self.assertFalse(takes_times(history))
        report, script = audited(history, PROGRAM, STRICT)
        self.assertEqual((report.kind, "strict" in script), ("violated", False))

    def test_impossible_times(self):
        two = [["open", 2, 8], ["offer", 0, 0, [WRITE, WRITE, WRITE]], ROUND]
        for times, words in (
            ({(0, 0): (3, 2)}, "0.0 ended before it began"),
            ({(0, 0): (5, 6), (0, 1): (1, 4)}, "0.1 ended before an earlier transaction"),
            ({(0, 0): (5, 6), (0, 1): (3, 5), (0, 2): (1, 4)}, "0.2 ended before an earlier"),
            ({(0, 0): (5, LATEST)}, "0.0 has a time over 18446744073709551614"),
        ):
            with self.subTest(words=words):
                with self.assertRaisesRegex(CantBeAskedError, words):
                    read_times(self.path(two, times))
                with self.assertRaisesRegex(CantBeAskedError, words):
                    checked_times(ScriptTimes("ns", times), "here")
        checked_times(ScriptTimes("ns", {(0, 0): (5, 9), (0, 1): (1, 5), (1, 0): (1, 2)}), "here")

    def test_a_script_that_asks_by_itself(self):
        """For each promise, and in a table."""
        path = self.path(OWN)
        for more, status, words in (
            ((), 1, "1.0 began after 0.0 had ended"), (("--promise", "strict"), 1, "stale read"),
            (("--promise", "serializable"), 0, "serial"), (("--promise", "snapshot"), 0, "serial"),
        ):
            with self.subTest(more=more):
                told = run("check", *more, path)
                self.assertEqual((told[0], told[2]), (status, ""))
                self.assertIn(words, told[1])
                self.assertNotIn("isn't proved", told[1])
        self.assertIn("serializability     no                yes", run("levels", path)[1])
        self.assertEqual(run("explain", path)[0], 1)

    def test_a_script_that_begins_anew(self):
        """It asks for what its last opening asks for, but for strict serializability at once."""
        for first, kind in ((["resume", 2, 8, 2, "snapshot"], "serial"), (["resume", 2, 8], "violated")):
            second = ["open", 2, 8] if kind == "violated" else ["open", 2, 8, 2, "snapshot"]
            skew = [["offer", at, 0, [[[[5 + at, "init"]], [6 - at]]]] for at in range(2)]
            for lines in ([first, second], [["resume", 1, 4], first, second]):
                self.assertEqual(kind_of([*lines, *skew, ROUND])[0].kind, kind)
        with self.assertRaisesRegex(ScriptMistakeError, "line 2 .*by its first line"):
            kind_of([["resume", 2, 8], *OWN])

    def test_refusals_of_such_a_script(self):
        """Are told with the line, and what is allowed."""
        many = [[key, "init"] for key in range(1, 256)]
        for line, refusal, words in (
            (["close", 0], "BadLine", "only offers and rounds"),
            (["offer", 0, 1, [WRITE], [1], [2, 3]], "BadLine", "as many begins and ends"),
            (["offer", 0, 1, [WRITE], [3], [2]], "BadTxn", "nothing ended before it began"),
            (["offer", 0, 1, [[many, []]]], "BadTxn", "at most 256 together"),
            (["offer", 0, 1, [[[], []]] * 8], "Backlog", "nothing is forgotten"),
            (["offer", 0, 1, "x"], "BadLine", "column 17"),
        ):
            with self.subTest(line=line), self.assertRaises(ScriptMistakeError) as raised:
                kind_of([*OWN[:2], line, ROUND])
            told = raised.exception
            self.assertEqual((told.line_number, told.refusal), (3, refusal))
            self.assertIn(words, told.advice)


class ByOthers(WithFolder):
    """With programs that answer otherwise."""

    def test_an_older_program(self):
        """It doesn't know scripts that open so: an error says that, and the table has the rest."""
        path, _ = self.fake(open=[["no", 1, "BadLine"]])
        times = {(0, 0): (1, 2), (1, 0): (5, 6)}
        plain = [["open", 2, 8], ["offer", 0, 0, [WRITE]], ["offer", 1, 0, [MISS]], ROUND]
        for lines, spans in ((plain, times), (OWN, None)):
            more = () if spans is None else ("--promise", "strict")
            status, out, err = run("check", *more, self.path(lines, spans), program=path)
            self.assertEqual((status, out), (2, ""))
            self.assertIn(f"{path} doesn't know strict serializability: it is older", err)
            os.unlink(os.path.join(self.folder, "script.jsonl"))
        with self.assertRaisesRegex(OtherVersionError, "older than this package"):
            StrictAuditor(2, 8, path)
        serial = ["report", 1, "serial", [1, 1], [[0, 0], [1, 0]]]
        path, _ = self.fake(open=[["ok"], ["no", 1, "BadLine"], ["ok"]], round=[serial])
        with mock.patch.object(running.ScriptRun, "_reply_to", self.answers_old):
            out = run("levels", self.path(plain, times), program=path)[1]
        self.assertIn("serializability     unknown", out)
        self.assertIn("it is older than this package", out)

    @staticmethod
    def answers_old(asked, text):
        """As a ScriptRun is answered by a program that knows everything but such scripts."""
        line = json.loads(text)
        if line[0] == "open" and asked.promise == STRICT:
            raise OtherVersionError(running.older_than_strict(asked.path))
        return {"round": ["report", 1, "serial", [1, 1], [[0, 0], [1, 0]]]}.get(line[0], ["ok"])

    def test_a_spent_round_is_repeated(self):
        """With sixteen times the budget, by the same script."""
        spent, done = ["report", 1, "spent", [1, 1]], ["report", 2, "serial", [1, 1], [[0, 0], [1, 0]]]
        path, kept = self.fake(round=[spent, spent, done])
        with ScriptRun(path) as asked:
            (verdict,) = asked.verdicts(encoded(OWN))
        self.assertEqual((verdict.kind, verdict.rounds, verdict.nodes), ("serial", 3, 1 << 20))
        with open(kept, encoding="utf-8") as file:
            told = [json.loads(line) for line in [*file][1:]]
        self.assertEqual([each[0] for each in told], ["open", "offer", "offer", *["round"] * 3])
        self.assertEqual([each[1] for each in told[3:]], [1 << 12, 1 << 16, 1 << 20])

    def test_an_interrupt_ends_the_program(self):
        """Also in the middle of a round, which such a program can't be asked to leave: of the script's
        own round, and of one that explains."""
        violated = ["report", 1, "violated", [1, 1], [["nowrite", 1, 0, 5]]]
        for rounds, programs in (([None], 1), ([violated, None], 2)):
            with self.subTest(programs=programs):
                path, kept = self.fake(round=rounds if programs == 1 else [None])
                if programs == 2:
                    path, kept = self.first_answers(violated)
                self.interrupt_in_round(path, kept, programs)
                os.unlink(kept)

    def first_answers(self, reply):
        """A program whose first process answers its rounds, and whose later ones don't."""
        path, kept = self.fake(round=[None])
        with open(path, encoding="utf-8") as file:
            text = file.read()
        first = f"if not os.path.exists({kept!r}): table['round'] = [json.loads({json.dumps(reply)!r})]\n"
        with open(path, "w", encoding="utf-8") as file:
            file.write(text.replace("with open", first + "with open", 1))
        return path, kept

    def interrupt_in_round(self, path, kept, programs):
        call = [sys.executable, "-m", "zanteyard", "check", self.path(OWN)]
        settings = {**os.environ, "COBRA_AUDIT": path, "PYTHONPATH": PYTHON}
        pipe = {"stdout": subprocess.PIPE, "stderr": subprocess.PIPE}
        with subprocess.Popen(call, env=settings, text=True, **pipe) as asked:
            def told():
                with contextlib.suppress(FileNotFoundError), open(kept, encoding="utf-8") as file:
                    return [json.loads(line) for line in file if line.endswith("\n")]
                return []

            def searches():
                return sum(each == ROUND for each in told()) == programs

            wait_until(lambda: searches() or asked.poll() is not None)
            asked.send_signal(signal.SIGINT)
            out, err = asked.communicate(timeout=60)
        self.assertEqual((asked.returncode, out), (4, ""), err)
        self.assertEqual(err.strip(), "undecided: interrupted")
        for process in (each for each in told() if isinstance(each, int)):
            with self.assertRaises(ProcessLookupError):
                os.kill(process, 0)


def is_undone(history, id):
    return history[id[0]][id[1]][2] == "aborted"


if __name__ == "__main__":
    unittest.main()
