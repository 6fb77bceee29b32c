"""What makes the import of Jepsen's files fast changes nothing: lines that one expression takes
apart, in several processes, say what the readers of any EDN and JSON make of them."""
import contextlib
import fcntl
import gzip
import io
import json
import os
import re
import subprocess
import sys
import tempfile
import termios
import unittest
from collections import Counter
from unittest import mock

from zanteyard.cli._main import main
from zanteyard.core.errors import ImportRefusedError
from zanteyard.core import _processes
from zanteyard.imports import _jepsen, _script
from zanteyard.imports._command import import_text
from zanteyard.imports._edn import EdnReader
from zanteyard.imports._guess import history_form
from zanteyard.imports._jepsen import read_jepsen
from zanteyard.imports._plain_lines import EDN, JSON, EdnLines, JsonLines, PlainMicros
from zanteyard.program._binaries import PROGRAM

from . import recordings, test_import
from .recordings import judged_script, seeded
from .test_import import SAMPLES, mutated, wanted

LINE = "{:type :%s, :f :txn, :value %s, :process %s, :time %d, :index %d}\n"


def told(text, form, **more):
    """What is made of it, or why nothing is."""
    try:
        return read_jepsen(text, form, form == "jepsen-lists", **more)
    except ImportRefusedError as error:
        return str(error)


def slowly(text, form, is_independent=False):
    """The same by the strict readers alone."""
    reading = _jepsen._Operations(text, form == "jepsen-lists", is_independent, (), True)
    try:
        return reading.recording(form)
    except ImportRefusedError as error:
        return str(error)


def in_blocks(text, form, front, block):
    """The same by several processes, which read blocks of so many characters."""
    with mock.patch.multiple(_jepsen, FRONT=front, BLOCK=block):
        return told(text, form)


def as_jepsen(text):
    """Each map on a line of its own, with the keys in the order in which Jepsen writes them."""
    lines = []
    for _, form in EdnReader(text).forms():
        for part in form if isinstance(form, tuple) else (form,):
            written = dict((key.name, value) for key, value in part.items)
            if isinstance(written.get("process"), int):
                lines.append(LINE % (
                    written["type"].name,
                    edn(written.get("value")),
                    written["process"],
                    len(lines) * 1000,
                    len(lines),
                ))
    return "".join(lines)


def as_json_lines(text):
    """The same of a text as `recordings.as_json` makes it: compact, or with spaces."""
    text = text.strip()
    maps = json.loads(text) if text[0] == "[" else map(json.loads, text.splitlines())
    separators = ((",", ":"), (", ", ": "))[len(text) % 2]
    return "".join(f"{json.dumps(one, separators=separators)}\n" for one in maps)


def by_names(imported):
    """The offers of a script with the names of its keys, and its transactions' names."""
    keys = imported.names.keys

    def named(reads, writes, *undone):
        return sorted([keys[key], *map(str, source)] for key, *source in reads), sorted(
            keys[key] for key in writes), undone

    lines = [json.loads(line) for line in imported.lines]
    offers = [(*line[:3], [named(*txn) for txn in line[3]]) for line in lines if line[0] == "offer"]
    names = [
        [(it.name, it.outcome, it.where, sorted((keys[deed[0]], str(deed[1:]), text)
                                                for deed, text in it.texts)) for it in session]
        for session in imported.names.transactions
    ]
    return [*offers, *names, *(line for line in lines if line[0] != "offer"), imported.about]


def edn(value):
    if value is None:
        return "nil"
    if isinstance(value, tuple):
        return "[" + " ".join(map(edn, value)) + "]"
    if isinstance(value, str):
        return f'"{value}"'
    return f":{value.name}" if hasattr(value, "name") else str(value)


class Fast(unittest.TestCase):
    FORMS = ("jepsen-registers", "jepsen-lists")

    def texts(self, count, first=0):
        for form in self.FORMS:
            for seed in range(first, first + count):
                attempts, random_ = wanted(form, seed)
                yield form, as_jepsen(recordings.as_edn(attempts, random_)), random_
                yield form, as_json_lines(recordings.as_json(attempts, random_)), random_

    def test_four_hundred_histories(self):
        plain = Counter()
        for form, text, _ in self.texts(100):
            with self.subTest(form=form, text=text):
                self.assertEqual(told(text, form), slowly(text, form))
            is_json = text.startswith('{"')
            syntax, lines = (JSON, JsonLines) if is_json else (EDN, EdnLines)
            maps = lines(text, PlainMicros(syntax, form == "jepsen-lists")).maps()
            plain[is_json, form] += sum(isinstance(found, tuple) for _, found in maps)
        self.assertEqual(len(plain), 4)
        self.assertGreater(min(plain.values()), 250)  # lines that were taken apart at once

    def test_four_thousand_that_are_changed(self):
        refused = 0
        for form, text, random_ in self.texts(200, 500):
            for _ in range(5):
                changed = mutated(text, random_)
                with self.subTest(form=form, text=changed):
                    outcome = told(changed, form)
                    self.assertEqual(outcome, slowly(changed, form))
                    refused += isinstance(outcome, str)
        self.assertGreater(refused, 400)

    def test_blocks_in_several_processes(self):
        """Also when a block begins in the middle of a map, a vector isn't closed there, and lines
        are changed."""
        refused, blocks, real = 0, Counter(), _processes.shared

        def counted(work, parts):
            for found in real(work, parts):
                blocks[found is None] += 1
                yield found

        with mock.patch("os.sched_getaffinity", lambda _: range(4)), \
                mock.patch.object(_jepsen, "shared", counted):
            for number, (form, text, random_) in enumerate(self.texts(12, 900)):
                wide = text.replace(", :time", ",\n:time") if number % 4 == 0 else text
                closed = f"[{wide}]" if number % 3 == 0 and text[1] == ":" else wide
                for changed in (text, closed, mutated(text, random_)):
                    front, block = random_.randrange(200), random_.randrange(1, 300)
                    with self.subTest(form=form, text=changed, front=front, block=block):
                        outcome = in_blocks(changed, form, front, block)
                        self.assertEqual(outcome, slowly(changed, form))
                        refused += isinstance(outcome, str)
        self.assertGreater(refused, 10)
        self.assertGreater(min(blocks[True], blocks[False]), 10, blocks)

    def test_a_block_within_a_string(self):
        """What looks like lines of the file, in a string that is longer than a block, is none."""
        lines = LINE % ("invoke", "[[:w 1 2]]", 0, 1, 0) + LINE % ("ok", "[[:w 1 2]]", 0, 2, 1)
        other = lines.replace(":process 0", ":process 1").replace("1 2]", "1 3]")
        text = f'{lines}{{:process :nemesis, :type :info, :f :x, :value "\n{other}"}}\n{lines}'
        self.assertEqual(len(told(text, "jepsen-registers").attempts), 2)
        for front in range(0, len(text), 20):
            for block in (1, 50, 100, 150):
                with mock.patch.multiple(_jepsen, FRONT=front, BLOCK=block):
                    # Without the strict reader, which is asked if this goes wrong.
                    reading = _jepsen._Operations(text, False, False, (), False)
                    found = reading.recording("jepsen-registers")
                self.assertEqual(found, slowly(text, "jepsen-registers"), (front, block))

    def test_functions_left_out_in_blocks(self):
        read = "{:type :invoke, :f :read, :value nil, :process 1}\n"
        read += "{:type :ok, :f :read, :value {1 1}, :process 1}\n"
        txn = LINE % ("invoke", "[[:w 1 1]]", 0, 1, 0) + LINE % ("ok", "[[:w 1 1]]", 0, 2, 1)
        with mock.patch.multiple(_jepsen, FRONT=200, BLOCK=300):
            found = import_text("jepsen-registers", txn + read * 100, left_out=["read"])
        self.assertIn("100 operations of read left out", "\n".join(found.about))

    def test_scripts_that_several_processes_write(self):
        """They say the same, with other numbers for keys."""
        counted = Counter()
        for form, text, _ in self.texts(12, 300):
            found = []
            for many in (1 << 20, 0):
                try:
                    with mock.patch.multiple(_script, MANY=many, PIECE=2), \
                            mock.patch("os.sched_getaffinity", lambda _: range(4)):
                        found.append(by_names(import_text(form, text)))
                except ImportRefusedError as error:
                    found.append(str(error))
            self.assertEqual(*found, text)
            counted[len(found[0]) > 5] += 1
        self.assertGreater(counted[True], 10)

    def test_processes_that_are_not_to_be_had(self):
        """A process that is killed, or can't be begun, costs nothing but time."""
        form, text, _ = next(self.texts(1))
        wanted_ = slowly(text, form)

        def killed(*_):
            os.kill(os.getpid(), 9)

        def refused():
            raise BlockingIOError

        for name, broken in (("zanteyard.core._processes._run", killed), ("os.fork", refused)):
            with self.subTest(name), mock.patch(name, broken):
                self.assertEqual(in_blocks(text, form, 0, 100), wanted_)
                self.assertEqual(_processes.shared_all(len, ["ab", "c"]), [2, 1])
        children, fork = [], os.fork

        def forked():
            children.append(fork())
            return children[-1]

        with mock.patch("os.fork", forked):
            self.assertEqual(_processes.shared_all(len, ["ab", "c", "def"]), [2, 1, 3])
        self.assertTrue(children or len(os.sched_getaffinity(0)) == 1)
        for child in children:
            with self.assertRaises(ChildProcessError):
                os.waitpid(child, os.WNOHANG)  # it was waited for

    def test_what_only_looks_plain(self):
        """Each row is a value that the quick reading must not take for another one."""
        rows = (
            "[[:r 1 007]]", "[[:r 1 +7]]", "[[:r 1 -0]]", "[[:r 1 7N]]", "[[:r 1 1.0]]",
            "[[:r 1 nil]  [:w 1 2]]", "[[:r 1 nil],[:w 1 2]]", "[[:r 1 nil][:w 1 2]]",
            "[[:r 1 nil] 3 [:w 1 2]]", "[[:r 1 nil]] [[:w 1 2]]", "[[:r 1 nil] [:w 1 2] ]",
            "[[:r :r nil] [:w :w :w]]", "[[:r nil nil]]", "[[:w 1 nil]]", "[[:r true 1]]",
            "[[:r 1 [2 3]]]", "[[:r 1 []]]", "[[:r 1 #{2}]]", "[[:r 1 {2 3}]]", "[[:r :a/b 1]]",
            "[[:r 1 [2 3]] [:append 1 4]]", "[[:r 1 [2  3]]]", "[[:r 1 [2,3]]]", "[[:r 1 [02]]]",
            "[[:r 1 [:a :b]]]", "[[:r 1 [nil]]]", "[[:r 1 [2 [3]]]]", "[[:r 1 [2 3 ]]]",
            "[[:r 1 ]]", "[[:r 1 2 3]]", "[[:cas 1 2]]", "[]", "[[]]", "[[:]]",
        )
        for row in rows:
            self.compare(LINE % ("invoke", row, 0, 1, 0) + LINE % ("ok", row, 0, 2, 1))

    def compare(self, text):
        for form in self.FORMS:
            with self.subTest(text=text, form=form):
                self.assertEqual(told(text, form), slowly(text, form))

    def test_what_only_looks_plain_in_json(self):
        rows = (
            '[["r",1,007]]', '[["r",1,-0]]', '[["r",1,1.0]]', '[["r",1,1e1]]', '[["r","a b",null]]',
            '[["r","a","b"]]', '[["r","a\\u0041",1]]', '[["w","a]",1]]', '[["w","a,b",1]]',
            '[["r",1,null]  ,["w",1,2]]', '[["r",1,null] ["w",1,2]]', '[["r",1,null],3,["w",1,2]]',
            '[["r",1,[2,3]]]', '[["r",1,[2, 3]]]', '[["r",1,[2 3]]]', '[["r",1,[2,,3]]]',
            '[["r",1,["a","b"]]]', '[["r",1,["a, b"]]]', '[["r",1,["a","b,c"]]]', '[["r",1,[]]]',
            '[["r",1,[2,3]],["append",1,4]]', '[["r",1,[02]]]', '[["r",1,[null]]]', '[["r",1,[[2]]]]',
            '[["r",1,[2,3 ]]]', '[["w",null,1]]', '[["w",true,1]]', '[["w",1,null]]', "[]", "[[]]",
            '[["r", 1, [2, 3]], ["append", 1, 4]]', '[["w","\u00e9",1]]', '[["w",1,"nil"]]',
        )
        line = '{"type":"%s","f":"txn","value":%s,"process":0,"error":"%s"}\n'
        for row in rows:
            plain = '[["r",1,null]]' if "append" in row else '[["w",1,2]]'
            self.compare(
                line % ("invoke", plain, "") + line % ("ok", plain, "x") +
                line % ("invoke", row, "") + line % ("ok", row, "a b") +
                line % ("invoke", row, "") + line % ("fail", row, "}{")
            )

    def test_lists_that_go_on_from_one_another(self):
        micros = PlainMicros(EDN, True)
        for elements in ("1 2 3", "1 2", "1", "1 2 3 14", "1 2 3 1", "1 3", "", "1 2 3 14 5"):
            (read,) = micros.of(f"[[:r 7 [{elements}]]]")
            self.assertEqual(read, ("read-list", "7", "\n".join(elements.split()), ""), elements)

    def test_tags_vectors_comments_and_blank_lines(self):
        lines = LINE % ("invoke", "[[:w 1 2]]", 0, 1, 0), LINE % ("ok", "[[:w 1 2]]", 0, 2, 1)
        plain = told("".join(lines), "jepsen-registers").attempts
        tag = "#jepsen.history.Op"
        for text in (
            tag + tag.join(lines),
            "[" + "".join(lines) + "]",
            "[" + "\n".join(lines) + "\n]\n",
            "(" + ", ".join(lines) + ")",
            "".join(lines)[:-1],
            "".join(lines).replace("\n", "\r\n"),
        ):
            with self.subTest(text=text):
                found = told(text, "jepsen-registers")
                self.assertEqual(found, slowly(text, "jepsen-registers"))
                self.assertEqual([one.accesses for one in found.attempts],
                                 [one.accesses for one in plain])
        for text in ("[" + lines[0], lines[0] + "]", "[" + lines[0] + ")", "[[" + lines[0] + "]]"):
            with self.subTest(text=text):
                self.assertIsInstance(told(text, "jepsen-registers"), str)

    def test_lists_that_share_a_front(self):
        """What is kept of a key's longest list is right for its other readers, too."""
        for seed in range(300):
            random_ = seeded(seed)
            text, index, state = "", 0, {}
            for process in range(8):
                micros = []
                for _ in range(random_.randint(1, 3)):
                    key = random_.randrange(2)
                    its = state.setdefault(key, [])
                    if random_.random() < 0.5:
                        its.append(index * 10 + len(micros))
                        micros.append(f"[:append {key} {its[-1]}]")
                    else:
                        shown = its[: random_.choice((len(its), len(its), 1, 2))]
                        shown = shown[::-1] if random_.random() < 0.1 else shown
                        micros.append(f"[:r {key} [{' '.join(map(str, shown))}]]")
                for type in ("invoke", "ok"):
                    text += LINE % (type, f"[{' '.join(micros)}]", process, index, index)
                    index += 1
            fast = import_text("jepsen-lists", text)
            with mock.patch("zanteyard.imports._sources.Chain.add", lambda *_: None):
                self.assertEqual(import_text("jepsen-lists", text), fast, text)


class Options(unittest.TestCase):
    def test_parts_that_are_independent(self):
        """Two keys' histories: each has an explanation, whatever the order of processes between
        them; as one history of one store they have none."""
        def text(*rows):
            return "".join(
                LINE % (type, value, process, at, at)
                for at, (process, value) in enumerate(rows) for type in ("invoke", "ok")
            )

        whole = text(
            (0, "[:x [[:w 1 1]]]"), (0, "[:y [[:r 1 nil]]]"),
            (1, "[:y [[:w 1 1]]]"), (1, "[:x [[:r 1 nil]]]"),
        )
        found = import_text("jepsen-registers", whole, is_independent=True)
        self.assertEqual(judged_script(found.lines), "serial")
        names = found.names
        self.assertEqual({*names.keys.values()}, {"1 in :x", "1 in :y"})
        self.assertEqual(len(names.transactions), 4)  # a process has a session in each part
        joined = whole.replace("[:x [[:w 1", "[[:w :x").replace("[:y [[:w 1", "[[:w :y")
        joined = joined.replace("[:x [[:r 1", "[[:r :x").replace("[:y [[:r 1", "[[:r :y")
        joined = joined.replace("]]],", "]],")
        self.assertEqual(judged_script(import_text("jepsen-registers", joined).lines), "violated")
        stale = text((0, "[:x [[:w 1 1]]]"), (0, "[:x [[:r 1 nil]]]"))
        found = import_text("jepsen-registers", stale, is_independent=True)
        self.assertEqual(judged_script(found.lines), "violated")
        self.assertEqual(told(whole, "jepsen-registers", is_independent=True),
                         slowly(whole, "jepsen-registers", is_independent=True))
        with self.assertRaisesRegex(ImportRefusedError, "a part and a txn"):
            import_text("jepsen-registers", text((0, "[[:w 1 1]]")), is_independent=True)
        with self.assertRaisesRegex(ImportRefusedError, "Jepsen's"):
            import_text("csv", "", is_independent=True)

    def test_functions_to_leave_out(self):
        txn = LINE % ("invoke", "[[:w 1 1]]", 0, 1, 0) + LINE % ("ok", "[[:w 1 1]]", 0, 2, 1)
        read = "{:type :invoke, :f :read, :value nil, :process 1}\n"
        read += "{:type :ok, :f :read, :value {1 1}, :process 1}\n"
        with self.assertRaisesRegex(ImportRefusedError, "line 3: .*--leave-out"):
            import_text("jepsen-registers", txn + read)
        found = import_text("jepsen-registers", txn + read, left_out=["read", "dump"])
        self.assertIn("1 operation of read left out", "\n".join(found.about))
        self.assertIn("0 operations of dump left out", "\n".join(found.about))
        self.assertEqual(found.lines, import_text("jepsen-registers", txn).lines)

    def test_gzip(self):
        text = LINE % ("invoke", "[[:w 1 1]]", 0, 1, 0) + LINE % ("ok", "[[:w 1 1]]", 0, 2, 1)
        with tempfile.TemporaryDirectory() as folder:
            path, script = os.path.join(folder, "a.edn.gz"), os.path.join(folder, "a.jsonl")
            with open(path, "wb") as file:
                file.write(gzip.compress(text.encode()))
            self.assertEqual(self.run_import(path, script)[0], 0)
            with open(script, encoding="utf-8") as file:
                lines = tuple(file.read().splitlines())
            self.assertEqual(lines, import_text("jepsen-registers", text).lines)
            with open(path, "wb") as file:
                file.write(gzip.compress(text.encode())[:-9])
            status, err = self.run_import(path, os.path.join(folder, "b.jsonl"))
            self.assertEqual(status, 2)
            self.assertRegex(err, "^refused: a.edn.gz can't be decompressed: ")
            self.assertNotIn("b.jsonl", os.listdir(folder))

    @unittest.skipUnless(os.path.isfile(PROGRAM), f"{PROGRAM} is not built")
    def test_a_history_in_place_of_a_script(self):
        """It is checked in one step, with the same verdict and the same words as in two."""
        statuses = set()
        for form, name, _ in test_import.Samples().shown():
            path = os.path.join(SAMPLES, name)
            with self.subTest(name=name), tempfile.TemporaryDirectory() as folder:
                script, packed = f"{folder}/script.jsonl", f"{folder}/{name}.gz"
                with open(path, "rb") as plain, gzip.open(packed, "wb") as file:
                    file.write(plain.read())
                _, about = self.ran("import", form, path, "-o", script)
                status, two = self.ran("check", script)
                statuses.add(status)
                said = [line for line in about[1:] if "begin and end times" not in line]
                first = about[0].replace(f"{script}:", f"{name}, read as {form}:")
                verdict = re.sub("^(line [0-9]+|at the end):", f"{name}:", two[0])
                for file in (path, packed):
                    got, one = self.ran("check", file)
                    self.assertEqual(got, status)
                    its = [line.replace(f"{name}.gz", name) for line in one]
                    self.assertEqual(its, [first, *said, verdict, *two[1:]])
                for command in ("levels", "explain"):
                    got, one = self.ran(command, path)
                    wanted, two = self.ran(command, script)
                    self.assertEqual(got, wanted)
                    self.assertEqual(one[-1], two[-1])
                self.assertEqual({*os.listdir(folder)} - {f"{name}.gz"},
                                 {it for it in os.listdir(folder) if it.startswith("script")})
        self.assertLessEqual({0, 1, 3}, statuses)
        self.assertIsNone(history_form(b'["open",2,8]\n'))
        self.assertIsNone(history_form(b""))

    @unittest.skipUnless(os.path.isfile(PROGRAM), f"{PROGRAM} is not built")
    def test_a_history_with_times(self):
        status, lines = self.ran("check", "--promise", "strict", f"{SAMPLES}/registers.json")
        self.assertEqual(status, 0)
        self.assertIn("real-time order explains every read", "\n".join(lines))

    @unittest.skipUnless(os.path.isfile(PROGRAM), f"{PROGRAM} is not built")
    def test_a_history_from_a_pipe(self):
        """It is read once, also if the pipe's first piece doesn't tell its form."""
        wanted = self.ran("check", f"{SAMPLES}/lists.edn")[1]
        with open(f"{SAMPLES}/lists.edn", "rb") as file:
            whole = file.read()
        with tempfile.TemporaryDirectory() as folder:
            pipe = f"{folder}/lists.edn"
            os.mkfifo(pipe)
            with subprocess.Popen(["cp", f"{SAMPLES}/lists.edn", pipe]):
                self.assertEqual(self.ran("check", pipe), (1, wanted))
            zipped = gzip.compress(whole)
            wanted = [line.replace("lists.edn", "a history") for line in wanted]
            for text, size in ((whole, len(whole)), (whole, 9), (zipped, 40)):
                with self.subTest(size=size):
                    self.assertEqual(self.piped(text, size), (1, wanted))

    @staticmethod
    def piped(text, size):
        """The same of a history on standard input, which arrives in pieces of this size, of which
        the first is read before the second is written."""
        call = [sys.executable, "-u", "-m", "zanteyard", "check", "-"]
        with subprocess.Popen(
            call, stdin=subprocess.PIPE, stdout=subprocess.PIPE, text=False, bufsize=0
        ) as running:
            running.stdin.write(text[:size])
            left = b"1234"
            while any(left):  # until the pipe is empty
                left = fcntl.ioctl(running.stdin, termios.FIONREAD, bytes(4))
            running.stdin.write(text[size:])
            running.stdin.close()
            lines = running.stdout.read().decode().splitlines()
        return running.returncode, lines

    @staticmethod
    def ran(*words):
        """The status of a command, and the lines that it printed."""
        out = io.StringIO()
        with contextlib.redirect_stdout(out):
            status = main(words)
        return status, out.getvalue().splitlines()

    def run_import(self, path, script):
        out, err = io.StringIO(), io.StringIO()
        with contextlib.redirect_stdout(out), contextlib.redirect_stderr(err):
            status = main(("import", "jepsen-registers", path, "-o", script))
        return status, err.getvalue()


if __name__ == "__main__":
    unittest.main()
