"""Promises other than serializability, compared with their definitions by trying all orders."""
import json
import os
import re
import unittest
from collections import Counter

from zanteyard.core._own_keys import FENCE
from zanteyard.core._records import ABORTED, Logged
from zanteyard.core.errors import CantBeAskedError, ScriptMistakeError
from zanteyard.explain._audited import audited, in_halves
from zanteyard.scripts._running import ScriptRun
from zanteyard.scripts._times import ScriptTimes, read_times
from zanteyard.program._auditor import PROGRAM
from zanteyard.promises._asking import KEYS, Asking, Whole
from zanteyard.promises._kinds import ALL, ASKED, IMPLIED, SERIALIZABLE, SNAPSHOT, STRICT, weaker
from zanteyard.promises._times import TIME_KEYS, Timeline

from .plain_promises import COMMITTED, DEFINITIONS, generated, has_order, ids_of, is_pending, script_of

TOP = os.path.normpath(os.path.join(os.path.dirname(os.path.abspath(__file__)), "../.."))
HISTORIES = int(os.environ.get("ZANTEYARD_HISTORIES", "500"))
ROUND = ["round", 4096, 0, 1, "guided"]


def is_fence(transaction):
    reads, writes, _ = transaction
    return [key for key, _ in reads] == [0] and writes == {0}


def asked_times(history, times):
    """The times that count. A fence does nothing else, so nothing can be added to it."""
    return {id: times[id] for id in times if not is_fence(history[id[0]][id[1]])}


def kind_owed(history, times, name):
    is_kept = DEFINITIONS[name](history, asked_times(history, times))
    return "violated" if not is_kept else "pending" if is_pending(history) else "serial"


def kind_told(lines, promise, times=None):
    asked_about = ScriptTimes("ns", times) if times is not None else None
    with ScriptRun(PROGRAM, promise=promise, times=lambda: asked_about) as run:
        (verdict,) = run.verdicts([json.dumps(line).encode() for line in lines])
        return verdict


def as_logged(history, times):
    """The transaction in the form that explanations use."""
    def key_name(key):
        return FENCE if key == 0 else f"key {key}"

    def one(id):
        reads, writes, outcome = history[id[0]][id[1]]
        read = [(key_name(key), "init" if source is None else source) for key, source in reads]
        written = [key_name(key) for key in sorted(writes)]
        span = (*times[id], "ns") if id in times else ()
        if outcome == ABORTED:
            return Logged((), (), ABORTED, tried_reads=read, tried_writes=written, span=span)
        return Logged(read, written, span=span)

    return [[one((at, number)) for number in range(len(its))] for at, its in enumerate(history)]


def read_back(lines):
    """The lines of a script as a history for the plain definitions."""
    sessions = [[] for _ in range(lines[0][1])]
    for line in lines[1:]:
        for reads, keys, *more in line[3]:
            read = [(key, None if source == ["init"] else tuple(source)) for key, *source in reads]
            sessions[line[1]].append((read, set(keys), more[0] if more else "committed"))
    return sessions


def plainly(logged):
    """The same in the form of the plain definitions."""
    def one(its):
        reads, writes = its.did
        outcome = ABORTED if its.is_undone else COMMITTED
        return [(key, None if at == "init" else at) for key, at in reads], set(writes), outcome

    return [[*map(one, its)] for its in logged]


class Rules(unittest.TestCase):
    """What the auditor is given."""

    def test_lines(self):
        """Of a script that asks for serializability, if it is asked about snapshot isolation."""
        asking, form, large = Asking(SNAPSHOT), [2, "snapshot"], [3, "snapshot"]
        offer, fence = ["offer", 1, 3, [[[], [5]], [[], []]]], [[[0, 0, 1]], [0]]
        many, longer = [[[], []]] * 200, ["offer", 0, 2, [[[], []]] * 257]
        for line, *asked in (
            (["open", 2, 16, 2], ["open", 2, 16, *form]),
            (["open", 64, 2048], ["open", 64, 2048, *form]),
            (["open", 2, 2049], ["open", 2, 2049, *large]),
            (["open", 2, 100, 3], ["open", 2, 100, *large]),
            (["open", 65, 100, 3], ["open", 65, 100, *large]),
            (["open", 256, 100000, 3], ["open", 256, 100000, *large]),
            (["open", 2, 1048576, 3], ["open", 2, 524288, *large]),
            # These are refused, as the script's own lines are.
            (["open", 2, 1048577, 3], ["open", 2, 1048577, *large]),
            (["open", 257, 8, 3], ["open", 257, 8, *large]),
            (["open", 65, 8, 2], ["open", 65, 8, *form]),
            (["open", 65, 8], ["open", 65, 8, *form]),
            (["open", 2, 4097], ["open", 2, 4097, *form]),
            (["offer", 0, 2, many], ["offer", 0, 2, many[:128]], ["offer", 0, 130, many[128:]]),
            (["join", 2, many], ["join", 2, many[:128]], ["offer", 2, 128, many[128:]]),
            *((line, line) for line in (
                offer, ["join", 2, 5, [fence]], ["save", "marks"], ["round", 1, 0, 1], longer,
                ["open", 2, 4097, *form], ["open", 2, 8, *large], ["open", 2, 8, 4],
                ["open", 2, 8, 4, "snapshot"], ["offer", 0, 0, "x"],
                ["offer", 0, 0, [[[[5]], []]]], [],
            )),
        ):
            with self.subTest(line=line[:3]):
                self.assertEqual(asking.asked(line), asked)
        self.assertEqual(asking.asked(["answer", "order", []]), [["answer", "order", []]])  # its own
        for line in (["resume", 2, 16], ["answer", "order", []]):
            with self.subTest(line=line), self.assertRaises(CantBeAskedError):
                Asking(SNAPSHOT).asked(line)
        with self.assertRaises(CantBeAskedError):
            Asking(SERIALIZABLE).asked(["resume", 2, 16, *form])
        live = Asking(SNAPSHOT, keeps_version=True)
        self.assertEqual(live.asked(["open", 64, 4096, 2]), [["open", 64, 2048, *form]])

    def test_lines_of_strict_scripts(self):
        """Offers say when transactions began and ended, as far as that is known; and the lines of a
        script that asks by itself, if it is asked about its own promise, or another one."""
        two, own = [[[], [5]], [[], []]], ["open", 2, 8, 2, "strict"]
        timeline = Timeline({(0, 1): (0, 7), (0, 2): (5, None), (1, 1): (1, 2)})
        asking = Asking(STRICT, timeline)
        for line, asked in (
            (["open", 2, 8], own), (["open", 2, 8, 2], own), (["open", 2, 8, 2, "snapshot"], own),
            (["open", 99, 5000, 3], ["open", 99, 5000, 3, "strict"]),
            (["offer", 0, 1, two], ["offer", 0, 1, two, [0, 5], [7, 2**64 - 1]]),
            (["offer", 1, 0, two], ["offer", 1, 0, two, [0, 1], [2**64 - 1, 2]]),
            (["offer", 0, 4, two], ["offer", 0, 4, two]),
            *((line, line) for line in (ROUND, ["open", 2, 8, 4], ["offer", 0, 0, "x"], [])),
        ):
            with self.subTest(line=line):
                self.assertEqual(asking.asked(line), [asked])
        timed, plain = ["offer", 0, 0, two, [1, 2], [3, 4]], ["offer", 0, 0, two]
        reads = Asking(STRICT, Timeline({}), by_reads=True)
        for asking, opened, offered in (
            (Asking(STRICT, Timeline({})), own, timed), (Asking(SERIALIZABLE), own[:4], plain),
            (Asking(SNAPSHOT), [*own[:4], "snapshot"], plain), (reads, own[:4], plain),
        ):
            with self.subTest(opened=opened):
                self.assertEqual(asking.asked(own), [opened])
                self.assertEqual(asking.asked(timed), [offered])
                self.assertEqual(asking.asked(plain), [plain])
                self.assertFalse(asking.is_plain)
        self.assertEqual(reads.asked(["open", 2, 8, 2, "snapshot"]), [["open", 2, 8, 2]])
        self.assertEqual(reads.asked(["open", 2, 5000, 3]), [["open", 2, 5000, 3]])
        self.assertEqual(reads.asked(timed), [timed])  # which the auditor refuses

    def test_what_strict_scripts_have_no_room_for(self):
        """It is asked by reads that are added; so is what isn't only offers and rounds."""
        def why_not(sessions, reads, writes, *more):
            read = [[key, "init"] for key in range(1, reads + 1)]
            lines = [["open", sessions, 8], ["offer", 0, 0, [[read, [*range(1, writes + 1)]]]], *more]
            seen, whole = [], Whole()
            seen += whole.seen(lines)
            self.assertEqual(seen, lines)
            return whole.why_not

        self.assertEqual(why_not(6, 250, 255, ROUND, [], ["offer"], [5]), "")
        self.assertIn("251 reads, over 256 with the 6 sessions", why_not(6, 251, 255))
        self.assertIn("writes 256 keys, over 255", why_not(6, 250, 256))
        for word in ("close", "truncate", "join", "resume", "begin", "answer"):
            self.assertIn(repr(word), why_not(6, 250, 255, [word]))

    def test_there_is_an_order_where_the_promise_is_kept(self):
        """Without the auditor: tests the halves of prefix consistency, and times by added reads."""
        kinds = Counter()
        for seed in range(HISTORIES):
            history, times = generated(seed)
            counted = asked_times(history, times)
            live = {id: counted[id] for id in counted if history[id[0]][id[1]][2] != ABORTED}
            asking = Asking(STRICT, Timeline(live), by_reads=True)
            asked = [each for line in script_of(history) for each in asking.asked(line)]
            told = {"strict": has_order(read_back(asked))}
            if not has_fence(history):
                told["prefix"] = has_order(plainly(in_halves(as_logged(history, times))))
            for name, is_kept in told.items():
                with self.subTest(seed=seed, promise=name):
                    self.assertEqual(is_kept, DEFINITIONS[name](history, counted))
                kinds[name, is_kept] += 1
        for name in ("strict", "prefix"):
            for is_kept in (False, True):
                self.assertGreater(kinds[name, is_kept], HISTORIES // 50)
        with self.assertRaisesRegex(CantBeAskedError, "fences"):
            in_halves([[Logged([(FENCE, "init")], [FENCE])]])

    def test_what_implies_what(self):
        """And nothing else: for each other pair, some history keeps only the one."""
        found = set()
        skew = [[([(1, None)], {2}, COMMITTED)], [([(2, None)], {1}, COMMITTED)]]
        tried = [(skew, {(0, 0): (1, 3), (1, 0): (2, 4)})]
        tried += [generated(seed, fences=False) for seed in range(HISTORIES)]
        for history, times in tried:
            kept = {it.name for it in ALL if DEFINITIONS[it.name](history, times)}
            for promise in ALL:
                if promise.name in kept:
                    self.assertLessEqual({it.name for it in weaker(promise)}, kept)
                    found.update((promise.name, it.name) for it in ALL if it.name not in kept)
        owed = {
            (one.name, other.name)
            for one in ALL for other in ALL if other not in (one, *weaker(one))
        }
        self.assertEqual(owed - found, set())
        self.assertEqual({*IMPLIED}, {*ALL})

    def test_times(self):
        """Each transaction reads from the latest of those that had ended, and from no others."""
        spans = {(0, 0): (0, 10), (1, 0): (5, 20), (0, 1): (12, 30), (1, 1): (25, None), (2, 0): (31, 40)}
        timeline = Timeline(spans)
        read = {
            id: [tuple(read[1:]) for read in timeline.rewritten(id, [[], []])[0]] for id in spans
        }
        wanted = {(0, 0): [], (1, 0): [], (0, 1): [(0, 0)], (1, 1): [(0, 0), (1, 0)]}
        self.assertEqual(read, {**wanted, (2, 0): [(0, 1), (1, 0)]})
        self.assertEqual(timeline.rewritten((0, 0), [[[5, "init"]], [5]])[1], [5, TIME_KEYS])


def has_fence(history):
    return any(is_fence(one) for its in history for one in its)


@unittest.skipUnless(os.path.isfile(PROGRAM), f"{PROGRAM} is not built")
class ByTheAuditor(unittest.TestCase):
    def test_histories_get_the_verdicts_of_the_definitions(self):
        told = Counter()
        for seed in range(HISTORIES):
            history, times = generated(seed)
            lines = [*script_of(history), ROUND]
            for name, promise in ASKED.items():
                if promise == SERIALIZABLE:
                    continue
                owed = kind_owed(history, times, name)
                counted = asked_times(history, times) if promise.is_timed else None
                with self.subTest(seed=seed, promise=name):
                    verdict = kind_told(lines, promise, counted)
                    self.assertEqual(verdict.kind, owed)
                    self.check_order(history, promise, verdict)
                told[name, owed] += 1
        for name in ("snapshot", "strict"):
            for kind in ("serial", "pending", "violated"):
                self.assertGreater(told[name, kind], HISTORIES // 50, told)

    def check_order(self, history, promise, verdict):
        """The order of begins and commits has each once, and begins before commits."""
        if verdict.kind != "violated" and promise == SNAPSHOT:
            events = [*map(tuple, verdict.certificate)]
            owed = [(*id, event) for id in ids_of(history) for event in ("begin", "commit")]
            self.assertEqual(sorted(events), sorted(owed))
            for id in ids_of(history):
                self.assertLess(events.index((*id, "begin")), events.index((*id, "commit")))

    def test_small_histories_are_asked_about_each_promise(self):
        """As explanations ask what a violation breaks."""
        for seed in range(HISTORIES // 10):
            history, times = generated(seed, fences=False)
            for promise in ALL:
                with self.subTest(seed=seed, promise=promise.name):
                    report, _ = audited(as_logged(history, times), PROGRAM, promise)
                    self.assertEqual(report.kind, kind_owed(history, times, promise.name))

    def test_the_table_of_the_crate_that_is_proved(self):
        """Its histories, split by this module, get their verdicts."""
        rows = [*crate_rows()]
        self.assertGreaterEqual(len(rows), 8)
        for sessions, by_order, by_snapshot in rows:
            lines = [["open", len(sessions), 16]]
            lines += [["offer", at, 0, its] for at, its in enumerate(sessions) if its]
            with self.subTest(sessions=sessions):
                self.assertEqual(kind_told([*lines, ROUND], SERIALIZABLE).kind, by_order)
                self.assertEqual(kind_told([*lines, ROUND], SNAPSHOT).kind, by_snapshot)

    def test_the_worked_histories_of_the_document(self):
        """Each row of docs/PROMISES.md; every script has a row."""
        with open(os.path.join(TOP, "docs/PROMISES.md"), encoding="utf-8") as file:
            rows = re.findall(r"^\| `(\w+)` \| .* \| (\w+) \| (\w+) \|$", file.read(), re.MULTILINE)
        folder = os.path.join(TOP, "examples/promises")
        names = sorted(name[: -len(".jsonl")] for name in os.listdir(folder) if name.endswith(".jsonl"))
        self.assertEqual(sorted(name for name, _, _ in rows), names)
        for name, *owed in rows:
            lines = lines_of(folder, name)
            for promise, kind in zip((SERIALIZABLE, SNAPSHOT), owed):
                with self.subTest(name=name, promise=promise.name):
                    self.assertEqual(kind_told(lines, promise).kind, kind)
        times = read_times(os.path.join(folder, "stale_read.jsonl"))
        self.assertEqual(kind_told(lines_of(folder, "stale_read"), STRICT, times.spans).kind, "violated")

    def test_what_cant_be_asked_is_refused_in_words(self):
        opened = ["open", 2, 4096]
        rows = (
            (SNAPSHOT, [["resume", 1, 4]], "continues another one"),
            (SERIALIZABLE, [["resume", 2, 8, 2, "snapshot"]], "continues another one"),
            (SNAPSHOT, [opened, ["begin"], ["answer", "order", []]], "from elsewhere"),
            (SNAPSHOT, [opened, ["offer", 0, 0, [[[], [KEYS]]]]], "below 9223372036854775808"),
            (None, [["open", 2, 2049, 2, "snapshot"]], "2,048 remain, in version 3 524,288"),
            (None, [["open", 2, 524289, 3, "snapshot"]], "2,048 remain, in version 3 524,288"),
            (None, [["open", 257, 9, 3, "snapshot"]], "up to 256"),
            (None, [["open", 2, 2048, 2, "snapshot"], *too_many()], "at most 524,288 at a time"),
            (SNAPSHOT, [["open", 2, 2048], *too_many()], "give it more room"),
            (STRICT, [opened, ["offer", 0, 0, [[[], [TIME_KEYS]]]]], "below 4611686018427387904"),
        )
        for promise, lines, words in rows:
            with self.subTest(words=words), self.assertRaisesRegex(ScriptMistakeError, words):
                kind_told([*lines, ROUND], promise, {} if promise == STRICT else None)
        with self.assertRaisesRegex(CantBeAskedError, "SCRIPT.times"):
            kind_told([opened, ROUND], STRICT)
        with self.assertRaisesRegex(CantBeAskedError, "1.7 has times, and isn't in the script"):
            kind_told([opened, ROUND], STRICT, {(1, 7): (0, 1)})

    def test_a_script_may_ask_by_itself(self):
        """It is asked about its own promise, unless another one is given."""
        lost = [["offer", at, 0, [[[[5, "init"]], [5]]]] for at in range(2)]
        skew = [["offer", at, 0, [[[[5 + at, "init"]], [6 - at]]]] for at in range(2)]
        own, plain = ["open", 2, 8, 2, "snapshot"], ["open", 2, 8]
        for opened, promise, offers, kind in (
            (own, None, lost, "violated"), (own, None, skew, "serial"), (own, SNAPSHOT, skew, "serial"),
            (own, SERIALIZABLE, skew, "violated"), (plain, None, skew, "violated"),
            (plain, SNAPSHOT, skew, "serial"),
        ):
            with self.subTest(opened=opened, promise=promise, kind=kind):
                self.assertEqual(kind_told([opened, *offers, ["save", "marks"], ROUND], promise).kind, kind)

    def test_a_script_may_continue_one_about_snapshots(self):
        """What its splitting adds is no key of the script's."""
        fence, last = [[[0, 0, 1]], [0]], [[0, 0, 1], [5, 0, 0], [KEYS + 5, 0, 0], [KEYS + 9, 2, 0]]
        lines = [
            ["resume", 3, 16, 2, "snapshot"], ["marks", [2, 0, 0], [False] * 3, [False, False, True]],
            ["last", last], ["offer", 0, 2, [[[[9, 2, 0]], [7]]]], ["offer", 1, 0, [fence]],
            ["offer", 2, 0, [[[], [9]]]], ["resumed"], ROUND,
        ]
        with ScriptRun(PROGRAM) as run:
            (verdict,) = run.verdicts(json.dumps(line).encode() for line in lines)
            self.assertEqual((verdict.kind, verdict.counts), ("serial", [3, 1, 1]))
            self.assertEqual(run.history.base, {FENCE: (0, 1), "key 5": (0, 0)})

    def test_reads_are_forgotten_with_a_begin(self):
        """At a cut behind which a transaction commits that has begun before it."""
        fences = [[[0, "init"]], [0]], [[[0, 0, 1]], [0]]
        lines = [
            ["open", 3, 16], ["offer", 0, 0, [[[], [5]], fences[0]]],
            ["offer", 1, 0, [fences[1], [[[5, 0, 0], [9, "init"]], []]]],
            ["offer", 2, 0, [[[[5, "init"]], [9]]]], ["offer", 0, 2, [[[[9, 2, 0]], [7]]]], ROUND,
            ["truncate"], ROUND,
        ]
        with ScriptRun(PROGRAM, promise=SNAPSHOT) as run:
            self.assertEqual(
                [(it.kind, it.counts) for it in run.verdicts(json.dumps(line).encode() for line in lines)],
                [("serial", [3, 2, 1])] * 2,
            )
            self.assertEqual(run.history.marks, [2, 1, 0])
            self.assertEqual([its.did for its in run.history.history[2]], [((), ("key 9",))])

    def test_half_the_room_suffices_for_half_as_many(self):
        for limit, lines in ((2048, too_many()[:-1]), (4096, too_many())):
            verdict = kind_told([["open", 1, limit], *lines, ["show"], ROUND], SNAPSHOT)
            self.assertEqual((verdict.kind, verdict.counts), ("serial", [256 * len(lines)]))


def lines_of(folder, name):
    with open(os.path.join(folder, f"{name}.jsonl"), encoding="utf-8") as file:
        return [*map(json.loads, file)]


def too_many():
    """Offers of 256 transactions each that do nothing."""
    return [["offer", 0, 256 * at, [[[], []]] * 256] for at in range(9)]


def crate_rows():
    """The rows of crates/isolation_tests: each row's sessions in the form of lines, and its two
    verdicts."""
    path = os.path.join(TOP, "crates/isolation_tests/src/histories.rt")
    with open(path, encoding="utf-8") as file:
        text = file.read()
    kinds = {"Serial": "serial", "Violated": "violated", "Pending": "pending"}
    form = r"remain: (&\[.*?\]),\n\s+(?:marks|\.\.EMPTY).*?by_order: Kind::(\w+),\s+by_snapshot: Kind::(\w+)"
    for remain, by_order, by_snapshot in re.findall(form, text, re.DOTALL):
        plain = re.sub(r"By\(ID_(\d+)_(\d+)\)", r"(\1, \2)", remain.replace("&", ""))
        sessions = eval(plain, {"Init": ("init",)})  # from the repository's own source
        lines = [
            [[[[key, *source] for key, source in reads], [*keys]] for reads, keys in its]
            for its in sessions
        ]
        yield lines, kinds[by_order], kinds[by_snapshot]


if __name__ == "__main__":
    unittest.main()
