"""What `zanteyard check` and `explain` print about scripts: the worked ones, those in which
sessions join or return, and those that resume another one."""
import glob
import io
import json
import os
import random
import tempfile
import unittest
from contextlib import redirect_stderr, redirect_stdout

from zanteyard.core._own_keys import FENCE
from zanteyard.explain._audited import from_start
from zanteyard.program._auditor import PROGRAM
from zanteyard.cli._main import main
from zanteyard.core._outcome import exit_status
from zanteyard.core.errors import ScriptMistakeError
from zanteyard.scripts._running import ScriptRun
from zanteyard.explain._shrinking import is_violated
from zanteyard.promises._kinds import SERIALIZABLE, SNAPSHOT

from .plain_auditor import Plain  # this import also makes bench importable
from fuzz_lines import Scripts as Generator
from plain_snapshots import is_proper

TOP = os.path.normpath(os.path.join(os.path.dirname(os.path.abspath(__file__)), "../.."))
WORKED = os.path.join(TOP, "crates/cobra_examples/data")
ROUND = '["round",4096,0,1]'
CUT = [  # 0.0 has written key 5, and is forgotten with the fence 0.1; the fence 1.0 remains
    '["open",2,16]',
    '["offer",0,0,[[[],[5]],[[[0,"init"]],[0]]]]',
    '["offer",1,0,[[[[0,0,1]],[0]]]]',
    ROUND,
    '["truncate"]',
]
HANDED = [  # the same, handed over
    '["resume",2,16]',
    '["marks",[2,0],[false,false]]',
    '["last",[[0,0,1],[5,0,0]]]',
    '["offer",1,0,[[[[0,0,1]],[0]]]]',
    '["resumed"]',
]
OF_PARTS = "(the script begins with a saved state: the verdict is about every history before it)"


ENDS = b'["round"', b'["finish"', b'["answer"', b'["collect"'  # lines that are answered by a report


def run(*words):
    out, err = io.StringIO(), io.StringIO()
    with redirect_stdout(out), redirect_stderr(err):
        status = main(words)
    return status, out.getvalue(), err.getvalue()


def worked():
    """The name, the lines and the replies of each worked script."""
    for path in sorted(glob.glob(f"{WORKED}/*.jsonl")):
        with open(path, "rb") as script, open(path[: -len("jsonl")] + "replies", "rb") as replies:
            lines, told = script.read().split(b"\n"), replies.read().splitlines()
        if not lines[-1]:
            lines.pop()
        assert len(lines) == len(told), path
        yield os.path.basename(path)[: -len(".jsonl")], lines, [*map(json.loads, told)]


def generated(seed):
    """The lines of a script that the plain auditor accepts, in which sessions join and parts are
    handed over, up to the first round that it doesn't decide; and that auditor."""
    plain, made, lines = Plain(), Generator(random.Random(seed)), []
    made.odd = 0.0
    while len(lines) < 150 and not made.is_over(plain):
        for _, line in made.chunk(plain):
            word = json.loads(line)[0]
            before = plain
            if word in ("round", "finish", "search"):
                line, before = json.dumps([word, 256, 0, 1]).encode(), plain.copy()
            elif word == "collect":  # may be answered at any moment that the search goes on
                line, before = b'["collect","wait"]', plain.copy()
            reply = json.loads(plain.reply_to(line))
            if reply[0] == "report" and reply[2] == "spent":
                return lines, before
            if not is_refusal(reply):
                lines.append(line)
    return lines, plain


def is_refusal(reply):
    return reply[0] == "no" and reply[2] != "NoCut"


def reports(replies):
    return [(reply[2], reply[3], [*reply[4:]]) for reply in replies if reply[0] == "report"]


@unittest.skipUnless(os.path.isfile(PROGRAM), f"{PROGRAM} is not built")
class Scripts(unittest.TestCase):
    maxDiff = None

    def setUp(self):
        folder = tempfile.TemporaryDirectory()
        self.addCleanup(folder.cleanup)
        self.folder = folder.name

    def path(self, lines):
        path = os.path.join(self.folder, "script.jsonl")
        with open(path, "wb") as file:
            file.writelines((it if isinstance(it, bytes) else it.encode()) + b"\n" for it in lines)
        return path

    def told(self, lines, command="check", seconds="100"):
        """The command's status and output. Reducing a violation may take this many seconds, by
        default more than it ever does."""
        status, out, err = run(command, self.path(lines), "--seconds", seconds)
        self.assertEqual(err, "")
        return status, out

    def verdicts(self, lines):
        with ScriptRun(PROGRAM, most_nodes=1) as asked:  # so that a spent round isn't repeated
            found = [*asked.verdicts(lines)]
            return found, asked.history

    def test_worked_scripts_get_the_verdicts_of_their_replies(self):
        """What was refused changes nothing, and is left out."""
        words = set()
        for name, lines, replies in worked():
            kept = [(line, reply) for line, reply in zip(lines, replies) if not is_refusal(reply)]
            if not kept:
                continue
            words.update(json.loads(line)[0] for line, _ in kept)
            wanted = reports(reply for _, reply in kept)
            with self.subTest(script=name):
                found, history = self.verdicts(line for line, _ in kept)
                asked_for = [it for it in found if it.line_number]
                self.assertEqual([(it.kind, it.counts) for it in asked_for],
                                 [(kind, counts) for kind, counts, _ in wanted])
                self.assertEqual([it.certificate for it in asked_for],
                                 [more[0] if more else [] for _, _, more in wanted])
                counts = [mark + len(its) for mark, its in zip(history.marks, history.history)]
                self.assertEqual(counts, found[-1].counts)
        self.assertGreaterEqual(words, {"join", "resume", "marks", "last", "resumed", "save"})

    def test_worked_scripts_by_check_and_explain(self):
        for name, lines, replies in worked():
            kept = [(line, reply) for line, reply in zip(lines, replies) if not is_refusal(reply)]
            kinds = [kind for kind, _, _ in reports(reply for _, reply in kept)]
            if not kinds or "spent" in kinds:
                continue  # a spent round is repeated
            lines = [line for line, _ in kept]
            while not lines[-1].strip().startswith(ENDS):
                lines.pop()  # so that no round is added at the end
            with self.subTest(script=name):
                status, out = self.told(lines, "check", "0.5")
                self.assertEqual(status, exit_status(kinds[-1]), out)
                self.assertEqual("violated" in kinds, "because" in out)
                if "violated" in kinds:  # the first one ends it
                    status, out = self.told(lines, "explain", "0.5")
                    self.assertEqual((status, "because" in out), (1, True), out)

    def test_generated_scripts(self):
        """The same history is kept as by the plain auditor; without its cut, that history is
        violated exactly if the last round is."""
        count, kinds, words = 0, set(), set()
        for seed in range(60):
            lines, plain = generated(seed)
            told = [json.loads(line)[0] for line in lines]
            if plain.parts is None or not {"join", "resume"} & {*told}:
                continue
            if plain.is_isolated and not is_proper(plain.parts):
                continue  # parts of no run
            kept, promise = plain.kept(), SNAPSHOT if plain.is_isolated else SERIALIZABLE
            with self.subTest(seed=seed):
                ended = b'["collect","wait"]' if plain.search else b'["finish",4096,0,1]'
                found, its = self.verdicts([*lines, *([ended] if plain.snapshot else []), ROUND.encode()])
                remaining = [[[[*map(_read, txn.reads)], [*txn.writes]] for txn in txns]
                             for txns in its.history]
                owed = [[[[(its.key_name(key), source if source[0] >= 0 else "init") for key, source in reads],
                          [*map(its.key_name, writes)]] for reads, writes in txns]
                        for txns in kept.remaining]
                self.assertEqual(remaining, owed)
                self.assertEqual(its.marks, kept.gone)
                self.assertEqual(its.base, {its.key_name(key): it for key, it in kept.base.items()})
                if found[-1].kind != "spent":
                    is_broken = is_violated(from_start(its)[0], promise=promise)
                    self.assertEqual(is_broken, found[-1].kind == "violated")
                    count += 1
                    kinds.add(found[-1].kind)
                    words.update(told)
        self.assertGreater(count, 12)
        self.assertGreaterEqual(kinds, {"serial", "violated"})
        self.assertGreaterEqual(words, {"join", "close", "truncate", "resumed"})

    def test_the_first_refusal_of_a_worked_script_is_the_mistake(self):
        count = 0
        for name, lines, replies in worked():
            refused = [(at, reply[2]) for at, reply in enumerate(replies, 1) if is_refusal(reply)]
            if refused and lines[refused[0][0] - 1].strip():
                count += 1
                with self.subTest(script=name), self.assertRaises(ScriptMistakeError) as raised:
                    self.verdicts(lines)
                error = raised.exception
                self.assertEqual((error.line_number, error.refusal), refused[0])
        self.assertGreater(count, 5)

    def test_a_violation_by_a_session_that_joined(self):
        stale = '["join",2,[[[[0,1,0]],[0]],[[[5,"init"]],[]]]]'
        for lines in (
            [*CUT, stale],  # the round is added at the end
            [*CUT, stale, ROUND],
            [*CUT, '["join",2,[[[[0,1,0]],[0]]]]', '["offer",2,1,[[[[5,"init"]],[]]]]', ROUND],
        ):
            for command in ("check", "explain"):
                with self.subTest(lines=lines[5:], command=command):
                    status, out = self.told(lines, command)
                    self.assertEqual(status, 1, out)
                    self.assertIn("    2.1 read key 5 in a version older than that at the cut\n", out)
                    self.assertIn("because\n", out)

    def test_a_violation_by_a_session_that_came_back(self):
        back = [*CUT, '["close",0]', '["join",0,2,[[[[0,1,0]],[0]],[[],[7]]]]']
        for lines in ([*back, '["offer",0,4,[[[[7,"init"]],[]]]]'], [*back, '["offer",0,4,[[[[5,0,9]],[]]]]']):
            with self.subTest(last=lines[-1]):
                status, out = self.told(lines)
                kind = "violated" if "init" in lines[-1] else "pending"
                self.assertEqual(status, exit_status(kind), out)
                told = {"violated": (r"    0\.3 .*wrote key 7", r"    0\.4 .*read key 7 as it was at first"),
                        "pending": (r"    0\.4 .*read key 5 from 0\.9\b.*, which hasn't arrived",)}[kind]
                for line in told:
                    self.assertRegex(out, f"(?m)^{line}$")

    def test_a_join_without_a_violation(self):
        status, out = self.told([*CUT, '["join",2,[[[[0,1,0]],[0]],[[[5,0,0]],[]]]]'])
        self.assertEqual(status, 0, out)
        self.assertTrue(out.endswith("one such order: 1.0 2.0 2.1\n"), out)

    def test_what_a_session_that_is_not_there_yet_wrote(self):
        """It is pending; a violation next to it is reported, also after a cut."""
        lines = [*CUT, '["offer",1,1,[[[[5,"init"],[7,2,1]],[]]]]', ROUND]
        status, out = self.told(lines)
        self.assertEqual(status, 1, out)
        self.assertIn("    1.1 read key 5 in a version older than that at the cut\n", out)

    def test_refused_joins_are_mistakes(self):
        for refusal, line, advice in (
            ("NotAnchored", '["join",2,[[[],[5]]]]', "joins with a fence"),
            ("BadSession", '["join",3,[[[[0,1,0]],[0]]]]', "the next new one"),
            ("Gap", '["join",2,1,[[[[0,1,0]],[0]]]]', "an earlier transaction"),
        ):
            with self.subTest(refusal=refusal):
                status, out, err = run("check", self.path([*CUT, line]))
                self.assertEqual(status, 2, out)
                self.assertIn(f"mistake: line 6 was refused: {refusal}: ", err)
                self.assertIn(advice, err)

    def test_a_script_that_resumes_another(self):
        """As if the earlier lines had been there; the output says that they aren't."""
        for more in (
            [],
            ['["offer",1,1,[[[[5,0,0]],[]]]]'],
            ['["offer",1,1,[[[[5,"init"]],[]]]]'],
            ['["join",2,[[[[0,1,0]],[0]],[[[5,"init"]],[]]]]'],
            ['["close",0]', '["join",0,2,[[[[0,1,0]],[0]],[[[5,0,0]],[]]]]', ROUND, '["truncate"]',
             '["offer",0,4,[[[[0,1,0]],[0]]]]'],
        ):
            with self.subTest(more=more):
                status, out = self.told([*CUT, *more, ROUND])
                resumed, its = self.told([*HANDED, *more, ROUND])
                self.assertEqual(resumed, status)
                *its, last = its.splitlines()
                self.assertEqual(last, OF_PARTS)
                whole = [line for line in out.splitlines() if not line.startswith("line 4: ")]
                self.assertEqual(_without_places(its), _without_places(whole[1:]))
        self.assertIn(OF_PARTS, self.told(HANDED, "explain")[1])

    def test_a_hand_over_that_is_begun_again_or_never_ends(self):
        again = ['["resume",1,9]', '["marks",[3],[false]]', '["last",[[7,0,2]]]', *HANDED]
        status, out = self.told([*again, ROUND])
        wanted_status, wanted = self.told([*HANDED, ROUND])
        self.assertEqual(status, wanted_status)
        self.assertEqual(_without_places(out.splitlines()), _without_places(wanted.splitlines()))
        _, history = self.verdicts([line.encode() for line in again])
        self.assertEqual(history.marks, [2, 0])
        self.assertEqual(history.base, {FENCE: (0, 1), "key 5": (0, 0)})
        for end in range(1, len(HANDED)):
            status, _, err = run("check", self.path(HANDED[:end]))
            self.assertEqual((status, 'up to ["resumed"]' in err), (2, True), err)
        status, _, err = run("check", self.path([*HANDED[:2], '["last",[[5,0,2]]]', HANDED[-1]]))
        self.assertEqual((status, "refused: BadParts" in err), (2, True), err)


def _read(read):
    key, source = read
    return key, source if source == "init" else tuple(source)


def _without_places(lines):
    """Without the line numbers of verdicts."""
    return [line.partition(": ")[2] if line.startswith("line ") else line for line in lines]


if __name__ == "__main__":
    unittest.main()
