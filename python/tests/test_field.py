"""bench/cost/field.py: the shapes of its workloads, files and scripts of recorded histories, its peer
beside the plain definition, its table, and a small recorded run."""
import collections
import contextlib
import glob
import io
import json
import os
import random
import shutil
import signal
import subprocess
import sys
import tempfile
import time
import unittest
from unittest import mock

from zanteyard.program._auditor import PROGRAM
from zanteyard.trial.postgres_server import program

TOP = os.path.normpath(os.path.join(os.path.dirname(os.path.abspath(__file__)), "../.."))
import field
import histories
from field_histories import FENCE, History, HistoryError, Record, keep, kept, script
from field_histories import Attempt, SerialStore
from field_workloads import ListAppend, SESSIONS, Tpcc, WORKLOADS, dealt

HAS_COMPILER = any(map(shutil.which, field.COMPILERS))
HAS_CLASP = bool(shutil.which("clasp"))
ENDING = 150.0  # seconds for a program to end


def run_serially(name, count, seed=1, sessions=SESSIONS):
    """The history of a store that runs one transaction after another."""
    workload = WORKLOADS[name]
    store, numbers = SerialStore(workload.rows()), [0] * sessions
    history = History(name, "serial", sessions, count, seed)
    for at, body in enumerate(dealt(workload, seed, count, sessions)):
        attempt = Attempt(store, at % sessions, numbers[at % sessions])
        numbers[at % sessions] += 1
        body(attempt)
        history.records.append(attempt.record())
    return history


def keys_of(items):
    return [one if isinstance(one, str) else one[0] for one in items]


class Workloads(unittest.TestCase):
    COUNT = 4000

    def test_blindw(self):
        for name, share in (("BlindW-RM", 0.9), ("BlindW-RW", 0.5), ("BlindW-RR", 1.0)):
            with self.subTest(name=name):
                records = run_serially(name, self.COUNT).records
                if share == 1:
                    first, records = records[:1250], records[1250:]
                    written = [key for each in first for key in each.writes]
                    self.assertEqual(sorted(map(int, written)), [*range(10_000)])
                for each in records:
                    its = keys_of(each.reads) + keys_of(each.writes)
                    self.assertEqual(len({*its}), 8)
                    self.assertTrue(not each.reads or not each.writes)
                    self.assertTrue(all(0 <= int(key) < 10_000 for key in its))
                only_read = sum(not each.writes for each in records) / len(records)
                self.assertAlmostEqual(only_read, share, delta=0.03)

    def test_the_sessions_take_turns(self):
        for name in WORKLOADS:
            with self.subTest(name=name):
                records = run_serially(name, 240).records
                counts = collections.Counter(each.session for each in records)
                self.assertEqual(counts, {session: 10 for session in range(24)})

    def test_the_share_of_transactions_that_only_read(self):
        # C-Twitter: timelines, and some that follow whom they follow already. C-TPCC: order status
        # and stock level.
        for name, least, most in (
            ("C-Twitter", 0.5, 0.65), ("C-RUBiS", 0.53, 0.57), ("C-TPCC", 0.07, 0.12)
        ):
            with self.subTest(name=name):
                records = run_serially(name, self.COUNT).records
                share = sum(not each.writes for each in records) / len(records)
                self.assertTrue(least <= share <= most, share)

    def test_what_the_clones_write(self):
        kinds = {
            "C-Twitter": "user tweet follows",
            "C-RUBiS": "user item bid comment",
            "C-TPCC": "next order last stock taken balance history delivered carrier",
        }
        for name, owed in kinds.items():
            with self.subTest(name=name):
                records = run_serially(name, self.COUNT).records
                found = {key.split()[0] for each in records for key in keys_of(each.writes)}
                self.assertEqual(found, {*owed.split()})

    def test_tpcc_stays_in_its_warehouse(self):
        records = run_serially("C-TPCC", self.COUNT).records
        for each in records:
            at = each.session % Tpcc.WAREHOUSES
            orders = [key for key in each.writes if key.startswith("order ")]
            self.assertTrue(all(key.startswith(f"order {at} ") for key in orders))
            if orders:
                self.assertTrue(5 <= sum(key.startswith("stock ") for key in each.writes) <= 15)
        share = sum(any(key.startswith("order ") for key in each.writes) for each in records)
        self.assertAlmostEqual(share / len(records), 0.45, delta=0.03)

    def test_list_append(self):
        records = run_serially("list-append", self.COUNT).records
        appended = [tuple(each) for record in records for each in record.writes]
        self.assertEqual(len({*appended}), len(appended))
        per_key = collections.Counter(key for key, _ in appended)
        self.assertEqual(max(per_key.values()), ListAppend.MOST)
        self.assertLessEqual(sum(count < ListAppend.MOST for count in per_key.values()), 64)
        draw = random.Random("list-append 1")
        sizes = collections.Counter()
        for body, _ in zip(WORKLOADS["list-append"].transactions(draw, 24), range(self.COUNT)):
            operations = body.args[0]
            sizes[len(operations)] += 1
            sizes["appends"] += sum(element is not None for _, element in operations)
        self.assertEqual({*sizes}, {1, 2, 3, 4, "appends"})
        self.assertAlmostEqual(sizes["appends"] / self.COUNT, 1.25, delta=0.1)

    def test_the_seed_decides(self):
        for name in WORKLOADS:
            with self.subTest(name=name):
                first, again, other = (run_serially(name, 2000, seed).records for seed in (1, 1, 2))
                self.assertEqual(first, again)
                self.assertNotEqual(first, other)


class Files(unittest.TestCase):
    def setUp(self):
        folder = tempfile.TemporaryDirectory()
        self.addCleanup(folder.cleanup)
        self.folder = folder.name

    def test_what_is_kept_is_the_same_afterwards(self):
        for name in ("C-Twitter", "list-append"):
            history = run_serially(name, 100)
            history.records[50:50] = [Record(3, 77, [[FENCE]], [FENCE], True), None]
            for path in (f"{self.folder}/{name}.jsonl", f"{self.folder}/{name}.jsonl.gz"):
                keep(history, path)
                self.assertEqual(kept(path), history)

    def test_another_file_is_refused_with_its_line(self):
        named = '"workload":"w","level":"l","sessions":2,"transactions":1'
        head = '{"zanteyard field history":1,' + named + "}"
        for lines, place in (
            ("nonsense", "line 1"), ('["open",2,8]', "line 1: not a history"), ("", "line 1"),
            (head + "\n[1,2]", "line 2: not a transaction"), (head + "\n[0,0,[],[]]\n{", "line 3"),
            (head + "\n[2,0,[],[]]", "line 2: session 2 of 2"),
        ):
            with self.subTest(lines=lines):
                path = f"{self.folder}/file"
                with open(path, "w", encoding="utf-8") as file:
                    file.write(lines)
                with self.assertRaisesRegex(HistoryError, place):
                    kept(path)


class Scripts(unittest.TestCase):
    def lines(self, records, has_own=False, sessions=2):
        history = History("w", "l", sessions, len(records), records=records)
        return [json.loads(line) for line in script(history, 16, has_own, 9)]

    END = [["round", 9, 0, 1, "guided"], ["truncate"]]

    def test_registers(self):
        """Attempts that aborted have no place in it."""
        records = [Record(0, 2, [["x"]], ["x", "y"]), Record(1, 0, [["y", 0, 2], ["z"]], [])]
        self.assertEqual(self.lines(records), [
            ["open", 2, 16, 3],
            ["offer", 0, 0, [[[[1, "init"]], [1, 2]]]],
            ["offer", 1, 0, [[[[2, 0, 0], [3, "init"]], []]]],
            *self.END,
        ])

    def test_a_read_of_an_attempt_that_aborted(self):
        lines = self.lines([Record(0, 2, [["x", 1, 7]], []), Record(1, 0, [], ["x"])])
        self.assertEqual(lines[:3], [
            ["open", 3, 16, 3], ["offer", 2, 0, [[[], [1], "aborted"]]],
            ["offer", 0, 0, [[[[1, 2, 0]], []]]],
        ])

    def test_lists(self):
        """An appender read from the one before it, and a reader from the last one that isn't
        itself."""
        records = [
            Record(0, 0, [], [["list 1", 1], ["list 1", 2]]), Record(1, 0, [], [["list 1", 3]]),
            Record(0, 1, [["list 1", [1, 2, 3]], ["list 1", [1, 2, 3, 4]]], [["list 1", 4]]),
        ]
        self.assertEqual(self.lines(records)[1:3], [
            ["offer", 0, 0, [[[[1, "init"]], [1]], [[[1, 1, 0]], [1]]]],
            ["offer", 1, 0, [[[[1, 0, 0]], [1]]]],
        ])

    def test_lists_that_no_order_explains(self):
        """Of half a transaction's elements; of an element twice; of nobody's; and two that
        disagree."""
        one, two, three = (["list 1", element] for element in (1, 2, 3))
        appends = [Record(0, 0, [], [one, two]), Record(0, 1, [], [three])]
        for elements in ([1], [1, 2, 1], [1, 2, 9]):
            with self.subTest(elements=elements):
                lines = self.lines([*appends, Record(1, 0, [["list 1", elements]], [])])
                self.assertIn([[[1, 2, 0]], []], lines[-3][3])
        both = [
            Record(1, number, [["list 1", elements]], [])
            for number, elements in enumerate(([1, 2, 3], [3, 1, 2]))
        ]
        self.assertEqual(self.lines([*appends, *both])[1], ["offer", 0, 0, [
            [[[1, "init"], [1, 0, 1]], [1]], [[[1, "init"], [1, 0, 0]], [1]],
        ]])

    def test_the_recorder_s_own_transactions(self):
        """Are in it with the rounds, or not at all."""
        own = [Record(0, 1, [[FENCE]], [FENCE], True), Record(1, 1, [["x", 0, 0]], [], True)]
        records = [Record(0, 0, [], ["x"]), *own, None, Record(1, 2, [["x", 0, 0]], [])]
        self.assertEqual(self.lines(records, True), [
            ["open", 2, 16, 2],
            ["offer", 0, 0, [[[], [1]], [[[0, "init"]], [0]]]],
            ["offer", 1, 0, [[[[1, 0, 0]], []]]],
            *self.END, ["offer", 1, 1, [[[[1, 0, 0]], []]]], *self.END,
        ])
        self.assertEqual(self.lines(records), [
            ["open", 2, 16, 3], ["offer", 0, 0, [[[], [1]]]], ["offer", 1, 0, [[[[1, 0, 0]], []]]],
            *self.END,
        ])


def has_order(sessions):
    """The plain definition, by trial: whether some order of all, each session's kept, has each read
    find the last writer of its key. A read of a transaction that isn't there counts as met."""
    ids = {(at, number) for at, its in enumerate(sessions) for number in range(len(its))}
    waiting, seen = [((0,) * len(sessions), ())], set()
    while waiting:
        front, last = waiting.pop()
        if all(place == len(its) for place, its in zip(front, sessions)):
            return True
        if (front, last) in seen:
            continue
        seen.add((front, last))
        state = dict(last)
        for at, (place, its) in enumerate(zip(front, sessions)):
            if place == len(its):
                continue
            reads, writes = its[place]
            if all(
                source != ["init"] and tuple(source) not in ids
                or state.get(key, ("init",)) == tuple(source) for key, *source in reads
            ):
                then = {**state, **{key: (at, place) for key in writes}}
                following = (*front[:at], place + 1, *front[at + 1:])
                waiting.append((following, tuple(sorted(then.items()))))
    return False


@unittest.skipUnless(HAS_COMPILER, "no C++ compiler is installed")
class ThePeer(unittest.TestCase):
    @classmethod
    def setUpClass(cls):
        folder = tempfile.TemporaryDirectory()
        cls.addClassCleanup(folder.cleanup)
        cls.peer = field.Peer(folder.name, 60)

    def judged(self, *scripts):
        """The peer's answer to each of these lists of lines."""
        text = "".join(f"{line}\n" for lines in scripts for line in lines)
        done = subprocess.run([self.peer.program, "60"], input=text, capture_output=True, text=True)
        self.assertEqual((done.stderr, done.returncode), ("", 0))
        found = [json.loads(line) for line in done.stdout.splitlines()]
        self.assertEqual(len(found), len(scripts))
        return found

    def test_five_hundred_histories_beside_the_definition(self):
        """Half are of stores that sometimes answer with an older version; in the other half some
        reads name anybody."""
        if not HAS_CLASP:
            self.skipTest("clasp is not installed")
        scripts, owed, kinds = [], [], ("counter", "mixed", "skew", "blind")
        for seed in range(500):
            draw = random.Random(seed)
            count, sessions = draw.randint(4, 9), draw.randint(2, 4)
            stale = draw.choice((0, 100, 400))
            more = (count, sessions, draw.randint(2, 5), seed, stale)
            lines = histories.script(kinds[seed % 4], *more)
            log = [[] for _ in range(sessions)]
            for line in map(json.loads, lines):
                if line[0] == "offer":
                    log[line[1]] += line[3]
            if seed % 2:
                self.name_anybody(draw, log)
                offers = [["offer", at, 0, its] for at, its in enumerate(log) if its]
                lines = map(json.dumps, [["open", sessions, 4096], *offers, ["round", 1, 0, 1]])
            scripts.append([*lines])
            owed.append(has_order(log))
        found = self.judged(*scripts)
        for seed, (its, is_serial) in enumerate(zip(found, owed)):
            with self.subTest(seed=seed, script=scripts[seed]):
                self.assertEqual(its["verdict"] in ("serial", "pending"), is_serial, its)
        verdicts = collections.Counter(its["verdict"] for its in found)
        self.assertGreater(min(verdicts[each] for each in ("serial", "pending", "violated")), 10)
        self.assertGreater(sum(its["open"] > 0 for its in found), 20)

    def test_what_only_the_solver_finds(self):
        """Two pairs of writers, of keys 1 and 2, each with its readers: either order of the one
        pair excludes both orders of the other. With any read less it is serial."""
        if not HAS_CLASP:
            self.skipTest("clasp is not installed")
        writers = [[[], [1, 3]], [[], [1, 4]], [[], [2, 5]], [[], [2, 6]]]
        own = [[1, 0, 0], [1, 1, 0], [2, 2, 0], [2, 3, 0]]
        others = [[[5, 2, 0], [6, 3, 0]]] * 2 + [[[3, 0, 0], [4, 1, 0]]] * 2
        logs = []
        for left_out in range(13):
            reads = [[read, *more] for read, more in zip(own, others)]
            if left_out:
                del reads[(left_out - 1) // 3][(left_out - 1) % 3]
            logs.append([[each] for each in [*writers, *([its, []] for its in reads)]])
        scripts = [
            [json.dumps(line) for line in [["open", 8, 8], *(
                ["offer", at, 0, its] for at, its in enumerate(log))]]
            for log in logs
        ]
        first, *rest = self.judged(*scripts)
        self.assertEqual((first["verdict"], first["found"], first["open"]),
                         ("violated", "no order of open pairs", 2))
        self.assertEqual({its["verdict"] for its in rest}, {"serial"})
        self.assertEqual([has_order(log) for log in logs], [False] + [True] * 12)

    def name_anybody(self, draw, log):
        for at, its in enumerate(log):
            for number, (reads, _) in enumerate(its):
                for read in reads:
                    session = draw.randrange(len(log))
                    other = draw.randrange(len(log[session]) + 1)
                    if draw.random() < 0.15 and (session, other) != (at, number):
                        read[1:] = [session, other]

    def test_the_workloads_of_a_serial_store_are_serial(self):
        for name in WORKLOADS:
            with self.subTest(name=name):
                history = run_serially(name, 600)
                (found,) = self.judged([*script(history, 4096, False)])
                if HAS_CLASP or not found["open"]:
                    self.assertEqual(found["verdict"], "serial")
                self.assertEqual((found["transactions"], found["sessions"]), (600, 24))

    def test_what_it_says_of_a_violation(self):
        of_nobody = ['["open",2,8]', '["offer",0,0,[[[[5,1,0]],[]]]]', '["offer",1,0,[[[],[6]]]]']
        circle = ['["open",2,8]', '["offer",0,0,[[[[5,1,0]],[6]]]]',
                  '["offer",1,0,[[[[6,0,0]],[5]]]]']
        lost = ['["open",2,8]', *(f'["offer",{at},0,[[[[5,"init"]],[5]]]]' for at in (0, 1))]
        aborted = ['["open",2,8,2]', '["offer",0,0,[[[[5,1,0]],[]]]]',
                   '["offer",1,0,[[[],[5],"aborted"]]]']
        judged = self.judged(of_nobody, circle, lost, aborted)
        self.assertEqual([(its["verdict"], its["found"]) for its in judged], [
            ("violated", "read of nobody's write"), ("violated", "cycle of sessions and reads"),
            ("violated", "cycle with forced overwrites"), ("violated", "read of nobody's write"),
        ])

    def test_a_script_that_it_can_t_read(self):
        for text in ('["offer",0,0,[]]', '["open",1,8]\n["offer",0,1,[[[],[]]]]',
                     '["open",1,8]\n["offer",0,0,[[[[1]],[]]]]', '["open",1,8]\n["offer",3,0,[]]'):
            with self.subTest(text=text):
                call = [self.peer.program]
                done = subprocess.run(call, input=text, capture_output=True, text=True)
                self.assertEqual(done.returncode, 2)
                self.assertRegex(done.stderr, r"^field_peer: line [12]: .* expected\n$")


class Says:
    """A judge that always says the same."""

    def __init__(self, verdict, found=""):
        self.told, self.openings = (verdict, found, 1.234, 56.7), []

    def judge(self, path):
        with open(path, encoding="ascii") as file:
            self.openings.append(next(file))
        return field.Judged(*self.told)

    def name(self, path, judged):
        return "write skew"


class TheTable(unittest.TestCase):
    def rows(self, ours, theirs, count=20, has_round=True, level="serial"):
        self.openings = ours.openings
        with tempfile.TemporaryDirectory() as folder:
            out = io.StringIO()
            with contextlib.redirect_stdout(out), contextlib.redirect_stderr(io.StringIO()):
                table = field.Table(ours, theirs, folder, 9)
                history = run_serially("C-RUBiS", count)
                history.records += [None] * has_round
                history.level = level
                table.take(history)
            return out.getvalue().splitlines(), table.differences

    def cells(self, row):
        self.assertRegex(row, r"^\| .* \|$")
        return [cell.strip() for cell in row[1:-1].split("|")]

    def test_a_row_a_way(self):
        lines, differences = self.rows(Says("violated"), Says("violated", "cycle"))
        self.assertEqual(self.cells(lines[0]), [*field.COLUMNS])
        self.assertRegex(lines[1], r"^\|(-+\|){10}$")
        figures = ["1.23", "57", "violated: write skew", "1.23", "57", "violated: cycle"]
        self.assertEqual([self.cells(line) for line in lines[2:]], [
            ["C-RUBiS", "serial", "20", way, *figures] for way in ("rounds", "at once")
        ])
        self.assertEqual(differences, 0)

    def test_what_is_too_large_at_once_has_a_row(self):
        with mock.patch.object(field, "ONCE", field.Way("at once", 40)):
            lines, differences = self.rows(Says("serial"), Says("serial"), 41)
        self.assertEqual(self.cells(lines[3])[2:7], [
            "41", "at once", "-", "-", "refused: at most 40 at once",
        ])
        self.assertEqual((len(lines), differences), (4, 0))

    def test_what_was_recorded_at_snapshot_isolation_is_asked_about_that(self):
        """By one judge, so that there is nothing to compare."""
        lines, differences = self.rows(Says("serial"), Says("violated"), level="snapshot")
        rows = [self.cells(line) for line in lines[2:] if line.startswith("|")]
        self.assertEqual([row[3] for row in rows], ["rounds", "at once", "snapshot"])
        self.assertEqual([row[6:] for row in rows][2], ["serial", "-", "-", "-"])
        self.assertEqual(differences, 2)
        opened = ["open", 24, 1 << 19, 3, "snapshot"]
        self.assertEqual([json.loads(line) for line in self.openings], [
            ["open", 24, 4096, 2], ["open", 24, 1 << 20, 3], opened,
        ])

    def test_verdicts_that_differ_are_shouted(self):
        for ours, theirs, are_different in (
            ("serial", "violated", True), ("violated", "pending", True),
            ("serial", "serial", False), ("undecided", "serial", False),
            ("refused", "violated", False),
        ):
            with self.subTest(ours=ours, theirs=theirs):
                lines, differences = self.rows(Says(ours), Says(theirs), 20, False)
                self.assertEqual(differences, are_different)
                self.assertEqual(len(lines), 3 + are_different)
                self.assertEqual(lines[-1].startswith("!!! THE VERDICTS DIFFER: "), are_different)

    def test_without_a_peer(self):
        lines, _ = self.rows(Says("serial"), None)
        self.assertEqual(self.cells(lines[2])[-3:], ["-", "-", "-"])

    def test_arguments(self):
        for words in (
            ["--record"], ["--workload", "TPC-H"], ["--sessions", "64"], ["--seconds", "x"],
            ["--transactions", "0"], ["--keep", "x", "--record", "--judge", "y"],
        ):
            with self.subTest(words=words), contextlib.redirect_stderr(io.StringIO()) as told:
                with self.assertRaises(SystemExit) as ended:
                    field.main(words)
                self.assertEqual(ended.exception.code, 2)
                self.assertIn("field.py: error:", told.getvalue())

    def test_a_file_that_is_no_history(self):
        path = os.path.join(TOP, "packages.txt")
        with contextlib.redirect_stderr(io.StringIO()) as told:
            with contextlib.redirect_stdout(io.StringIO()):
                status = field.main(["--judge", path])
        self.assertEqual(status, 2)
        # What is told of the auditor, if it isn't built, comes first.
        owed = f"field.py: {path}, line 1: " if os.path.isfile(PROGRAM) else "field.py: "
        self.assertIn(owed, told.getvalue())


class Recorded(unittest.TestCase):
    def setUp(self):
        folder = tempfile.TemporaryDirectory()
        self.addCleanup(folder.cleanup)
        self.folder = folder.name
        os.chmod(self.folder, 0o711)  # if this runs as root, servers in it run as another user
        os.makedirs(f"{self.folder}/tmp", mode=0o711)
        try:
            import psycopg2  # noqa: F401
        except ImportError:
            self.skipTest("psycopg2 is not installed")
        if not program("initdb"):
            self.skipTest("PostgreSQL is not installed")

    def begin(self, *words):
        return subprocess.Popen(
            [sys.executable, f"{TOP}/bench/cost/field.py", *words],
            env={**os.environ, "TMPDIR": f"{self.folder}/tmp", "COBRA_AUDIT": PROGRAM},
            stdout=subprocess.PIPE, stderr=subprocess.PIPE, text=True,
        )

    def told(self, *words):
        out, err = (running := self.begin(*words)).communicate(timeout=1800)
        self.assertEqual(running.returncode, 0, out + err)
        for line in err.splitlines():  # on a slow machine
            self.assertRegex(line, r"^(recording|cobra_audit judges|the peer judges) .*, \d+ s$")
        self.assertEqual(os.listdir(f"{self.folder}/tmp"), [])
        return out.splitlines()

    def test_both_judges_agree_about_a_recorded_run(self):
        if not (os.path.isfile(PROGRAM) and HAS_COMPILER and HAS_CLASP):
            self.skipTest("cobra_audit is not built, or a C++ compiler or clasp is not installed")
        names = ("BlindW-RW", "list-append")
        lines = self.told("--workload", *names, "--transactions", "240", "--every", "80",
                          "--sessions", "8", "--keep", f"{self.folder}/kept")
        rows = [[cell.strip() for cell in line[1:-1].split("|")] for line in lines[2:]]
        self.assertEqual([row[:4] for row in rows], [
            [name, level, "240", way]
            for name, levels in zip(names, (["serializable"], ["serializable", "snapshot"]))
            for level in levels
            for way in ("rounds", "at once", "snapshot")[:3 if level == "snapshot" else 2]
        ])
        for row in rows:
            with self.subTest(row=row):
                verdict = row[6].split(":")[0]
                is_alone = row[3] == "snapshot"  # which the peer isn't asked about
                self.assertEqual("-" if is_alone else verdict, row[9].split(":")[0])
                if row[1] == "serializable" or is_alone:
                    self.assertEqual(verdict, "serial")
        again = self.told("--judge", *sorted(glob.glob(f"{self.folder}/kept/*-serializable-*")))
        whole = [[cell.strip() for cell in line[1:-1].split("|")] for line in again[2:]]
        verdicts = lambda rows: [(*row[:4], row[6], row[9]) for row in rows]
        self.assertEqual(verdicts(whole), verdicts(rows[:4]))

    def test_what_is_recorded(self):
        """Each session's share, in its order; and fences between which all have met."""
        self.told("--workload", "BlindW-RW", "--transactions", "99", "--every", "16",
                  "--sessions", "4", "--record", "--keep", self.folder)
        history = kept(f"{self.folder}/BlindW-RW-serializable-99.jsonl.gz")
        its = [each for each in history.records if each is not None]
        counts = collections.Counter(each.session for each in its if not each.is_own)
        self.assertEqual(counts, {0: 25, 1: 25, 2: 25, 3: 24})
        self.assertEqual(history.records.count(None), 5)
        numbers = collections.defaultdict(list)
        for each in its:
            numbers[each.session].append(each.number)
        for each in numbers.values():
            self.assertEqual(each, sorted({*each}))
        fences = [each for each in its if FENCE in each.writes]
        self.assertEqual(len(fences), 2 * 4 * 5)
        for before, fence in zip(fences, fences[1:]):
            self.assertEqual(fence.reads, [[FENCE, *before[:2]]])
        operations = [each.args[0] for each in dealt(WORKLOADS["BlindW-RW"], 1, 99, 4)]
        ran = [{*keys_of(each.reads), *keys_of(each.writes)} for each in its if not each.is_own]
        self.assertEqual(sorted(map(sorted, ran)), sorted(map(sorted, operations)))

    def test_ctrl_c_leaves_no_server_behind(self):
        """While a server is being made, and while clients run."""
        for is_served in (False, True):
            with self.subTest(is_served=is_served):
                running = self.begin("--transactions", "1000000", "--record", "--keep", self.folder)
                self.addCleanup(running.kill)
                pattern = "*/.s.PGSQL.*" if is_served else "*"
                while not glob.glob(f"{self.folder}/tmp/{pattern}"):
                    self.assertIsNone(running.poll())
                    time.sleep(0.02)
                running.send_signal(signal.SIGINT)
                out, err = running.communicate(timeout=4 * ENDING)
                self.assertEqual(running.returncode, 130, err)
                self.assertIn("stopped\n", err)  # initdb may have said something, too
                self.assertNotIn("Traceback", out + err)
                self.assertEqual(os.listdir(f"{self.folder}/tmp"), [])
                self.assertEqual(self.of_folder(), [])

    def of_folder(self):
        """Processes that name the folder."""
        found = []
        for process in filter(str.isdigit, os.listdir("/proc")):
            try:
                with open(f"/proc/{process}/cmdline", "rb") as file:
                    if f"{self.folder}/tmp".encode() in file.read():
                        found.append(process)
            except OSError:
                pass
        return found


if __name__ == "__main__":
    unittest.main()
