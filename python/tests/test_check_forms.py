"""`zanteyard check` does what `explain`, `journal` and `check-report` do, and reads what `import`
reads."""
import contextlib
import io
import json
import os
import tempfile
import unittest

from zanteyard import Auditor
from zanteyard.cli._main import main
from zanteyard.imports._command import FORMS
from zanteyard.imports._guess import FIRST, history_form
from zanteyard.program._binaries import PROGRAM, checker_path

from .test_import import SAMPLES

TOP = os.path.normpath(os.path.join(os.path.dirname(os.path.abspath(__file__)), "../.."))
WORKED = os.path.join(TOP, "crates/cobra_examples/data")
BEGIN = ['["open",2,8]', '["offer",0,0,[[[],[6]]]]', '["round",32,0,1]']
LOST = ['["offer",0,1,[[[[5,"init"]],[5]]]]', '["offer",1,0,[[[[5,"init"]],[5]]]]', BEGIN[2]]
LATER = ['["offer",0,1,[[[],[7]]]]', BEGIN[2]]


def ran(*words):
    """The status of a command, what it printed, and its errors."""
    out, err = io.StringIO(), io.StringIO()
    with contextlib.redirect_stdout(out), contextlib.redirect_stderr(err):
        status = main(words)
    return status, out.getvalue(), err.getvalue()


@unittest.skipUnless(os.path.isfile(PROGRAM), f"{PROGRAM} is not built")
class Forms(unittest.TestCase):
    def setUp(self):
        folder = tempfile.TemporaryDirectory()
        self.addCleanup(folder.cleanup)
        self.folder = folder.name

    def written(self, name, text):
        path = os.path.join(self.folder, name)
        with open(path, "w", encoding="utf-8") as file:
            file.write(text)
        return path

    def script(self, *lines):
        return self.written("script.jsonl", "".join(f"{line}\n" for line in lines))

    def text_of(self, name):
        with open(os.path.join(self.folder, name), encoding="utf-8") as file:
            return file.read()

    def test_a_page(self):
        """Of the first violation, as `explain` writes it; else of the last verdict."""
        pages = [os.path.join(self.folder, name) for name in ("check.html", "explain.html")]
        for lines, status, kind in (
            ((*BEGIN, *LOST, LATER[0].replace("0,1", "0,2"), LATER[1]), 1, "violated"),
            ((*BEGIN, *LATER), 0, "serial"),
        ):
            with self.subTest(kind=kind):
                path = self.script(*lines)
                plain = ran("check", path)
                self.assertEqual(ran("check", path, "--html", pages[0]),
                                 (status, f"{plain[1]}(page: {pages[0]})\n", ""))
                ran("explain", path, "--html", pages[1])
                self.assertEqual(*(self.text_of(page).replace(os.path.basename(page), "") for page in pages))
                self.assertIn(f'<span class="verdict {kind}">', self.text_of("check.html"))
                self.assertEqual(ran("check", path, "--json", "--html", pages[0])[1].count("page:"), 0)

    def test_a_page_that_cant_be_written(self):
        status, out, err = ran("check", self.script(*BEGIN, *LOST), "--html", self.folder)
        self.assertEqual((status, err), (2, f"mistake: {self.folder}: Is a directory\n"))
        self.assertIn("\nbecause\n", out)

    def test_a_journal(self):
        path = os.path.join(self.folder, "audit.journal")
        with Auditor(sessions=1, journal=path) as auditor:
            auditor.round()
        wanted = ran("journal", path)
        self.assertIn("0 transactions from 1 sessions were accepted\n", wanted[1])
        self.assertEqual(ran("check", path), wanted)
        self.assertEqual(ran("check", path, "--json"),
                         (2, "", "mistake: --json isn't possible with a journal\n"))

    @unittest.skipUnless(os.access(checker_path(), os.X_OK), "cobra_check isn't built")
    def test_stored_replies(self):
        script, replies = (f"{WORKED}/three_rounds.{end}" for end in ("jsonl", "replies"))
        with open(replies, encoding="utf-8") as file:
            right = file.read()
        wrong = self.written("wrong", right.replace("violated", "serial"))
        self.assertNotEqual(right, self.text_of("wrong"))
        for path, status in ((replies, 0), (wrong, 1)):
            self.assertEqual(ran("check", script, "--replies", path)[0], status)
        with open(script, encoding="utf-8") as file:
            longer = self.written("longer", f'{file.read()}["begin"]\n')
        wanting = self.written("wanting", f'{right}["no",16,"NoMemory"]\n')
        self.assertEqual(ran("check", longer, "--replies", wanting)[0], 4)
        self.assertEqual(ran("check", script, "--replies", replies, "--html", "x"),
                         (2, "", "mistake: --html isn't possible with --replies\n"))

    def test_what_a_file_doesnt_say(self):
        """As by `import` with the same options, in one step."""
        script = os.path.join(self.folder, "made.jsonl")
        for form, name, *more in (
            ("jepsen-registers", "registers.edn", "--first", "3"),
            ("dbcop", "dbcop.json", "--initial", "7"),
            ("jepsen-registers", "registers.edn", "--leave-out", "read"),
        ):
            with self.subTest(name=name, more=more):
                path = os.path.join(SAMPLES, name)
                self.assertEqual(ran("import", form, path, "-o", script, *more)[0], 0)
                status, two, _ = ran("check", script)
                got, one, _ = ran("check", path, *more)
                self.assertEqual((got, one.splitlines()[-1]), (status, two.splitlines()[-1]))
                self.assertEqual(ran("check", path, "--form", form, *more), (got, one, ""))
        for words, why in (
            (("registers.edn", "--initial", "7"), "in jepsen-registers the initial value is always nil"),
            (("dbcop.json", "--independent"), "--independent and --leave-out are for Jepsen's histories"),
        ):
            status, _, err = ran("check", os.path.join(SAMPLES, words[0]), *words[1:])
            self.assertEqual((status, why in err), (2, True), err)
        path = self.script(*BEGIN)
        self.assertEqual(
            ran("check", path, "--first", "3"),
            (2, "", f"mistake: --first is for another tool's history, and {path} is none\n"),
        )

    def test_every_form_is_recognized(self):
        seen = set()
        for name in os.listdir(SAMPLES):
            with open(os.path.join(SAMPLES, name), "rb") as file:
                seen.add(history_form(file.read()))
        self.assertEqual(seen, {*FORMS})
        quoted = '"session","number","operation","key","value"\na,0,read,x,\n'
        self.assertEqual(ran("check", self.written("a.csv", quoted))[0], 0)

    def test_a_form_that_shows_late(self):
        """The first append is on a line far from the beginning."""
        line = '{:process 0, :type :%s, :f :txn, :value [[%s]]}\n'
        reads = line % ("invoke", ":r 1 nil") + line % ("ok", ":r 1 []")
        appends = line % ("invoke", ":append 1 1") + line % ("ok", ":append 1 1")
        for size in (1 << 13, FIRST):
            path = self.written("late.edn", f"{reads * 9};{'x' * size}\n{appends}")
            status, out, err = ran("check", path, "--json")
            self.assertEqual((status, json.loads(out)["form"]), (0, "jepsen-lists"), err)


if __name__ == "__main__":
    unittest.main()
