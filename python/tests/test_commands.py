"""The command `zanteyard`: its five statuses with five scripts, and its output."""
import importlib.util
import io
import os
import re
import shlex
import signal
import subprocess
import sys
import tempfile
import unittest
from contextlib import redirect_stderr, redirect_stdout
from unittest import mock

from zanteyard.trial import _demo as demo
from zanteyard.program._auditor import PROGRAM
from zanteyard.trial.postgres_server import program
from zanteyard.trial.store_kinds import KINDS
from zanteyard.cli import audit
from zanteyard.cli.audit import stopped_by_signals
from zanteyard.cli._commands import COMMANDS, GROUPS, parser
from zanteyard.cli._main import main
from zanteyard.cli._command_start import is_command
from zanteyard.core._outcome import Outcome
from zanteyard.program import _binaries
from zanteyard.program._binaries import ProgramOrigin, find_program, program_path
from zanteyard.core._version import VERSION

from .overlapping import overlapping

TOP = os.path.normpath(os.path.join(os.path.dirname(os.path.abspath(__file__)), "../.."))
WORKED = os.path.join(TOP, "crates/cobra_examples/data")

LOST = [
    '["open",2,8]',
    '["offer",0,0,[[[[5,"init"]],[5]]]]',
    '["offer",1,0,[[[[5,"init"]],[5]]]]',
]


def run(*words):
    out, err = io.StringIO(), io.StringIO()
    with redirect_stdout(out), redirect_stderr(err):
        try:
            status = main(words)
        except SystemExit as ended:
            status = ended.code
    return status, out.getvalue(), err.getvalue()


@unittest.skipUnless(os.path.isfile(PROGRAM), f"{PROGRAM} is not built")
class Commands(unittest.TestCase):
    def setUp(self):
        folder = tempfile.TemporaryDirectory()
        self.addCleanup(folder.cleanup)
        self.folder = folder.name

    def script(self, *lines):
        path = os.path.join(self.folder, "script.jsonl")
        with open(path, "w", encoding="utf-8") as file:
            file.write("".join(f"{line}\n" for line in lines))
        return path

    def check(self, *lines, command=("check",)):
        return run(*command, self.script(*lines))

    def test_mistakes_are_told_in_words(self):
        """The usual first mistakes: no file, a file that is none, and an empty script."""
        begins = 'a script begins with ["open",..], or by ["resume",..] up to ["resumed"]'
        not_open = f"mistake: the script opens no audit: {begins}\n"
        missing = os.path.join(self.folder, "missing.jsonl")
        for path, told in (
            (missing, f"mistake: {missing}: No such file or directory\n"),
            (self.folder, f"mistake: {self.folder}: Is a directory\n"),
            (self.script(), not_open),
            (self.script("", ""), not_open),
        ):
            with self.subTest(path=path):
                self.assertEqual(run("check", path), (2, "", told))

    def test_output_that_nobody_reads_is_no_mistake(self):
        """If standard output is closed, the status is that of the verdict, if there is one by
        then."""
        a_round = '["round",32,0,1]'
        for lines, wanted, told in (
            ([*LOST, a_round], 1, b""),
            ([*LOST[:2], a_round, LOST[2]], 4, b"undecided: standard output was closed\n"),
        ):
            with self.subTest(lines=lines):
                command = ["check", self.script(*lines)]
                reading, writing = os.pipe()
                os.close(reading)
                with open(writing, "wb") as nobody:
                    ended = self.unbuffered(command, nobody)
                    _, errors = ended.communicate(timeout=600)
                self.assertEqual((ended.returncode, errors), (wanted, told))

    @staticmethod
    def unbuffered(command, output):
        return subprocess.Popen(
            [sys.executable, "-u", "-m", "zanteyard", *command],
            stdout=output,
            stderr=subprocess.PIPE,
        )

    def test_a_page_is_written_whoever_reads_the_words(self):
        """For example by `zanteyard explain SCRIPT --html PAGE | head -1`."""
        page = os.path.join(self.folder, "page.html")
        for command in (
            ["explain", self.script(*LOST), "--html", page],
            ["demo", "write-skew", "--html", page],
        ):
            with self.subTest(command=command):
                running = self.unbuffered(command, subprocess.PIPE)
                self.assertTrue(running.stdout.readline())
                running.stdout.close()
                self.assertEqual(running.stderr.read(), b"")
                running.stderr.close()
                self.assertEqual(running.wait(600), 1)
                with open(page, encoding="utf-8") as file:
                    self.assertIn('<span class="verdict violated">', file.read())
                os.remove(page)

    def test_a_page_that_cant_be_written_is_told_after_the_words(self):
        status, out, err = run("explain", self.script(*LOST), "--html", self.folder)
        self.assertEqual((status, err), (2, f"mistake: {self.folder}: Is a directory\n"))
        self.assertIn("because\n", out)

    def test_five_statuses_over_five_scripts(self):
        spent = ("check", "--nodes", "1")
        begins = ('["open",2,8]', '["offer",0,0,[[[],[5]]]]')
        rows = [
            (0, "serial", ("check",), [*begins, '["round",32,0,1]']),
            (1, "violated", ("check",), [*LOST, '["round",32,0,1]']),
            (2, "BadLine", ("check",), [*begins, '["rouND",32,0,1]']),
            (
                3,
                "pending",
                ("check",),
                [*begins, '["offer",1,0,[[[[5,0,7]],[]]]]', '["round",9,0,1]'],
            ),
            (4, "undecided", spent, [*self.worked("real_split")[:-1], '["round",1,0,1]']),
        ]
        for wanted, word, command, lines in rows:
            with self.subTest(word=word):
                status, out, err = self.check(*lines, command=command)
                self.assertEqual(status, wanted, out + err)
                self.assertIn(word, out + err)

    def worked(self, name):
        with open(os.path.join(WORKED, f"{name}.jsonl"), encoding="utf-8") as file:
            return [
                line for line in file.read().splitlines() if not line.startswith('["round"')
            ] + [""]

    def test_a_lost_update_in_words(self):
        status, out, _ = self.check(*LOST, '["round",32,0,1]')
        self.assertEqual(status, 1)
        self.assertEqual(
            out.splitlines(),
            [
                "line 4: violated: no serial order that keeps each session's order explains these reads",
                "  lost update "
                "(two transactions read one version of a key, and both overwrote it):",
                "  0.0 and 1.0 both read key 5 as it was at first and both overwrote it: "
                "one of the two updates is lost",
                "    0.0 read key 5 as it was at first, wrote key 5",
                "    1.0 read key 5 as it was at first, wrote key 5",
                "because",
                "    0.0 comes before 1.0: 0.0 read key 5 as it was at first, and 1.0 wrote it",
                "    1.0 comes before 0.0: 1.0 read key 5 as it was at first, and 0.0 wrote it",
                "    so neither 0.0 nor 1.0 can come first",
                "breaks serializability and snapshot isolation, also without session order",
                "leaves prefix consistency standing",
            ],
        )

    def test_a_round_is_put_at_the_end_where_the_script_asks_for_none(self):
        status, out, _ = self.check(*LOST)
        self.assertEqual((status, out.split(":")[0]), (1, "at the end"))
        status, out, _ = self.check(LOST[0], LOST[1], '["round",32,0,1]', LOST[2])
        self.assertEqual((status, len(re.findall("^(?:line|at the end)", out, re.M))), (1, 2))
        status, out, _ = self.check(*LOST[:2], '["begin"]', LOST[2])
        self.assertEqual((status, out.count("at the end")), (1, 2))  # the open round, and the rest

    def test_a_spent_round_is_given_again_with_more(self):
        lines = self.worked("real_split")
        status, out, _ = self.check(*lines[:-1], '["round",1,0,1]')
        self.assertEqual(status, 1)
        self.assertIn("after 2 tries, the last with 65,536 nodes: violated", out)

    def test_mistakes_of_the_call(self):
        missing = os.path.join(self.folder, "none.jsonl")
        for words in (
            (),
            ("check",),
            ("check", missing),
            ("check", missing, "--nodes", "0"),
            ("no",),
        ):
            with self.subTest(words=words):
                self.assertEqual(run(*words)[0], 2)
        self.assertEqual(self.check()[0], 2)  # an empty script
        self.assertEqual(run("demo", "no-such-fault")[0], 2)

    def test_limits_are_told(self):
        for line in (
            '["open",65,8]', '["open",2,4097]', '["open",65,8,2]', '["open",2,4097,2]',
            '["open",257,8,3]', '["open",2,1048577,3]',
        ):
            status, _, err = self.check(line)
            self.assertEqual(status, 2)
            self.assertIn("1 to 64 sessions, and at most 4,096 transactions", err)
            self.assertIn('begins with ["open",sessions,limit,3], up to 256 and 1,048,576', err)

    def test_a_cut_that_is_not_found_is_no_mistake(self):
        status, out, _ = self.check('["open",1,8]', '["round",9,0,1]', '["truncate"]')
        self.assertEqual((status, out.splitlines()[-1][:22]), (0, "(no fence was settled "))

    def test_what_was_forgotten_is_told_as_the_cut(self):
        status, out, _ = run("explain", os.path.join(WORKED, "gone_read.jsonl"))
        self.assertEqual(status, 1)
        self.assertIn("from the cut", out)
        self.assertIn("stale read", out)

    def test_worked_scripts_of_each_fault_get_their_names(self):
        for name, wanted in (
            ("fault_lost_update", "lost update"),
            ("write_skew", "write skew"),
            ("aborted_attempt", "dirty read"),
            ("three_rounds", "stale read"),
        ):
            with self.subTest(name=name):
                self.assertIn(
                    f"  {wanted} (", run("explain", os.path.join(WORKED, f"{name}.jsonl"))[1]
                )

    def test_each_demonstration(self):
        names = {
            "lost-update": "lost update",
            "write-skew": "write skew",
            "stale-read": "stale read",
            "torn-read": "fractured read",
            "dirty-read": "dirty read",
            "lost-write": "stale read",
            "reappearing": "stale read",
        }
        self.assertEqual({*names, demo.HONEST}, {*demo.NAMES})
        for name, wanted in names.items():
            with self.subTest(name=name):
                page = os.path.join(self.folder, f"{name}.html")
                status, out, err = run("demo", name, "--html", page)
                self.assertEqual((status, err), (1, ""))
                self.assertIn(f"  {wanted} (", out)
                self.assertTrue(os.path.isfile(page))
        status, out, _ = run("demo", demo.HONEST, "--no-html")
        self.assertEqual(status, 0)
        self.assertIn("one such order: 0.0 ", out)

    def test_audit_postgres(self):
        try:
            import psycopg2  # noqa: F401
        except ImportError:
            self.skipTest("psycopg2 is not installed")
        if not program("initdb"):
            self.skipTest("PostgreSQL is not installed")
        self.addCleanup(os.chdir, os.getcwd())
        os.chdir(self.folder)
        few = ("audit", "postgres", "--unaudited", "0", "--clients", "4", "--rather-wait")
        few = (*few, "--html", "page.html")
        skewed = ("--level", "repeatable", "--workload", "skew", "--every", "128")
        for wanted, kind, more in (
            (1, "violated", (*skewed, "--seconds", "120")),  # the violation ends it
            (0, "serial", ("--workload", "counter", "--seconds", "2")),
        ):
            with self.subTest(kind=kind), overlapping(4, tempfile.mkdtemp(dir=self.folder)):
                status, out, err = run(*few, *more)
                self.assertEqual(status, wanted, out + err)
                self.assertRegex(out, f"(?m)^[a-z]+ at [a-z ]+: {kind}")
                with open("page.html", encoding="utf-8") as file:
                    page = file.read()
                self.assertIn(f'<span class="verdict {kind}">', page)
                self.assertIn('<svg class="chart"', page)
        self.assertEqual(run("audit", "mysql")[0], 2)

    def test_a_page_that_can_not_be_written_is_no_verdict(self):
        """A run that was violated ends with that status, even if its page can't be written."""
        try:
            from zanteyard.cli import audit as audit_command
        except ImportError:
            self.skipTest("psycopg2 is not installed")
        for kind, wanted in (("violated", 1), ("serial", 0)):
            ran = mock.Mock(outcome=Outcome(kind))
            ran.lines.return_value, ran.page.return_value = ["what came of it"], "a page"
            with mock.patch.object(audit_command, "run", return_value=ran):
                status, out, err = run("audit", "postgres", "--html", self.folder)
            self.assertEqual((status, out), (wanted, "what came of it\n"), err)
            self.assertEqual(err, f"can't write {self.folder}: Is a directory\n")

    def test_an_error_of_ours_never_looks_like_a_verdict(self):
        told = demo.STORIES
        demo.STORIES = {"lost-update": lambda sessions: 1 // 0}
        self.addCleanup(setattr, demo, "STORIES", told)
        status, _, err = run("demo", "--no-html")
        self.assertEqual(status, 4)
        self.assertIn("ZeroDivisionError", err)


class Help(unittest.TestCase):
    def test_each_command_has_an_example_that_it_takes(self):
        whole = parser()
        for name, its in COMMANDS.items():
            with self.subTest(name=name):
                program, *words = shlex.split(its.example)
                self.assertEqual((program, words[0]), ("zanteyard", name))
                whole.parse_args(words)
                status, out, err = run("help", name)
                self.assertEqual((status, err), (0, ""))
                self.assertIn(f"\nexample:\n  {its.example}\n\n", out)
                self.assertIn("Exit status: ", " ".join(out.split()))
                self.assertEqual(run(name, "--help"), (0, out, ""))
        for kind in KINDS:
            for name in ("bench", "audit"):
                out = run("help", name, kind.command)[1]
                self.assertIn(f"\nexample:\n  zanteyard {name} {kind.command} --seconds 5\n", out)

    def test_help_is_the_same_whichever_commands_are_filled(self):
        """Only the requested command has its arguments filled in."""
        self.assertEqual(parser("").format_help(), parser().format_help())

    def test_help_alone(self):
        whole = parser("").format_help()
        self.assertEqual(run("help"), (0, whole, ""))
        self.assertEqual(run("--help"), (0, whole, ""))
        self.assertEqual(run(), (2, "", whole))
        sections = dict(part.split(":\n", 1) for part in whole.split("\n\n")[2:-3])
        self.assertEqual([*sections], [*GROUPS, "options"])
        for title, commands in GROUPS.items():
            lines = [line.split(None, 1) for line in sections[title].splitlines()]
            self.assertEqual(lines, [[name, its.about] for name, its in commands.items()])
        self.assertLessEqual(max(map(len, whole.split("\nDocuments")[0].splitlines())), 100)
        status, out, err = run("help", "nothing")
        self.assertEqual((status, out), (2, ""))
        self.assertIn("there is no command 'nothing'", err)

    def completed(self, line, **more):
        """What a shell is told that has this line, by the functions of argcomplete."""
        asks = {"_ARGCOMPLETE": "1", "_ARGCOMPLETE_IFS": "\n", "COMP_LINE": line, "COMP_POINT": str(len(line))}
        code = f'exec "{sys.executable}" -m zanteyard 8>&1 9>&2'  # it writes there
        return subprocess.run(
            ["bash", "-c", code], env={**os.environ, **asks, **more}, capture_output=True, text=True
        )

    @unittest.skipUnless(importlib.util.find_spec("argcomplete"), "argcomplete isn't installed (python3-argcomplete)")
    def test_what_a_shell_completes(self):
        with tempfile.TemporaryDirectory() as folder:
            open(f"{folder}/history.jsonl", "wb").close()
            for line, wanted in (
                ("che", ["check", "check-report"]),
                ("explain --h", ["--help", "--html"]),
                ("check --promise s", ["serializable", "snapshot", "strict"]),
                ("bench p", ["postgres"]),
                ("audit postgres --level r", ["repeatable"]),
                (f"check {folder}/h", [f"{folder}/history.jsonl"]),
            ):
                with self.subTest(line=line):
                    told = self.completed(f"zanteyard {line}")
                    found = [each.strip() for each in told.stdout.splitlines()]
                    self.assertEqual((sorted(found), told.returncode), (wanted, 0), told.stderr)

    def test_a_shell_asks_in_vain(self):
        """Without argcomplete nothing is told, and nothing is run."""
        with tempfile.TemporaryDirectory() as folder:
            with open(f"{folder}/argcomplete.py", "w", encoding="utf-8") as file:
                file.write("raise ImportError\n")
            path = os.pathsep.join((folder, os.environ.get("PYTHONPATH", "")))
            told = self.completed("zanteyard demo ", PYTHONPATH=path)
        self.assertEqual((told.returncode, told.stdout, told.stderr), (2, "", ""))

    def test_a_command_imports_only_its_own(self):
        """So that it starts fast."""
        code = (
            "import sys; from zanteyard.cli._main import main\n"
            "try:\n    main(['--version'])\nexcept SystemExit: pass\n"
            "print(*(it for it in sys.modules if it.startswith('zanteyard.')))"
        )
        out = subprocess.run([sys.executable, "-c", code], capture_output=True, text=True).stdout
        packages = {it.split(".")[1] for it in out.splitlines()[-1].split()}
        self.assertEqual(packages, {"core", "cli", "program"})
        self.assertNotIn("zanteyard.watch", out)

    def test_an_interrupt_while_it_is_imported(self):
        """Ctrl-C in its first moments, during the import of any module."""
        code = """
import sys
class Interrupting:
    def find_spec(self, name, *_):
        if name == sys.argv[1]:
            raise KeyboardInterrupt
sys.meta_path.insert(0, Interrupting())
from zanteyard.cli._main import main
sys.exit(main(sys.argv[2:]))
"""
        for module, words in (
            ("zanteyard.cli._commands", ["watch", "postgresql://db/shop"]),
            ("zanteyard.watch._command", ["watch", "postgresql://db/shop"]),
            ("zanteyard.imports._command", ["import", "csv", "a", "-o", "b"]),
            ("zanteyard.cli._scripts", ["check", "a"]),
        ):
            with self.subTest(module=module):
                call = [sys.executable, "-c", code, module, *words]
                ended = subprocess.run(call, capture_output=True, text=True)
                self.assertEqual(ended.stderr.splitlines(), ["interrupted"])
                self.assertEqual((ended.returncode, ended.stdout), (4, ""))

    def test_an_interrupt_before_it_has_begun(self):
        """Ctrl-C while the package itself is imported: it ends at once, and says nothing."""
        code = """
import signal, sys
sys.argv = sys.argv[1:]
class Interrupting:
    def find_spec(self, name, *_):
        if name == "zanteyard.core._log_guard":
            signal.raise_signal(signal.SIGINT)
sys.meta_path.insert(0, Interrupting())
import zanteyard
"""
        for name, wanted in (("/usr/bin/zanteyard", -signal.SIGINT), ("/usr/bin/shop", None)):
            with self.subTest(name=name):
                call = ["env", "--default-signal=INT", sys.executable, "-c", code, name]
                ended = subprocess.run(call, capture_output=True, text=True)
                if wanted is not None:
                    self.assertEqual((ended.returncode, ended.stderr), (wanted, ""))
                self.assertEqual("KeyboardInterrupt" in ended.stderr, wanted is None)

    def test_which_program_is_the_command(self):
        for words, all_words, wanted in (
            (["/x/bin/zanteyard", "check"], [], True),
            (["-m", "check"], ["python3", "-X", "dev", "-m", "zanteyard", "check"], True),
            (["-m", "check"], ["python3", "-m", "zanteyard.trial.lockstep"], False),
            (["-m"], ["python3", "-m", "shop"], False),
            (["-m"], [], False),
            (["/x/bin/shop"], ["python3", "/x/bin/shop"], False),
            ([], [], False),
        ):
            with self.subTest(words=words, all_words=all_words):
                self.assertEqual(is_command(words, all_words), wanted)

    def test_its_main_takes_ctrl_c_over(self):
        code = """
import signal, sys
sys.argv = ["/x/bin/zanteyard"]
import zanteyard
before = signal.getsignal(signal.SIGINT)
from zanteyard.cli._main import main
main([])
print(before == signal.SIG_DFL, signal.getsignal(signal.SIGINT) == signal.default_int_handler)
"""
        call = ["env", "--default-signal=INT", sys.executable, "-c", code]
        out = subprocess.run(call, capture_output=True, text=True).stdout
        self.assertEqual(out.splitlines()[-1], "True True")

    def test_numbers_that_are_none(self):
        """Messages don't show names of Python functions."""
        for words, wanted in (
            (("check", "a", "--nodes", "abc"), "argument --nodes: 'abc' isn't a whole number from 1 to 16,777,216"),
            (("check", "a", "--nodes", "0"), "argument --nodes: '0' isn't a whole number from 1 to 16,777,216"),
            (("audit", "sqlite", "--clients", "-3"), "argument --clients: '-3' isn't a whole number from 2 to 64"),
            (("import", "csv", "a", "-o", "b", "--first", "x"), "argument --first: 'x' isn't a whole number above 0"),
        ):
            with self.subTest(words=words):
                status, out, err = run(*words)
                self.assertEqual((status, out), (2, ""))
                self.assertTrue(err.endswith(f"error: {wanted}\n"), err)

    def test_what_is_interrupted_later(self):
        for name, place, told in (
            ("check", "zanteyard.cli._scripts.given", "undecided: interrupted\n"),
            ("import", "zanteyard.imports._command.contents_of", "interrupted\n"),
        ):
            with self.subTest(name=name):
                words = shlex.split(COMMANDS[name].example)[1:]
                with mock.patch(place, side_effect=KeyboardInterrupt):
                    self.assertEqual(run(*words), (4, "", told))


class Signals(unittest.TestCase):
    """`zanteyard audit` at signals such as Ctrl-C."""

    def test_the_first_one_is_noted_and_the_second_one_ends_the_program(self):
        seen = []
        for number in (signal.SIGTERM, signal.SIGINT):
            before = signal.signal(number, lambda *its: seen.append(its[0]))
            self.addCleanup(signal.signal, number, before)
        with stopped_by_signals() as stop:
            self.assertFalse(stop.is_set())
            signal.raise_signal(signal.SIGTERM)
            self.assertTrue(stop.is_set())
            self.assertEqual(seen, [])
            signal.raise_signal(signal.SIGINT)
            signal.raise_signal(signal.SIGTERM)
            self.assertEqual(seen, [signal.SIGINT, signal.SIGTERM])
        signal.raise_signal(signal.SIGTERM)
        self.assertEqual(len(seen), 3)

    def test_what_nohup_wants_stays(self):
        before = signal.signal(signal.SIGHUP, signal.SIG_IGN)
        self.addCleanup(signal.signal, signal.SIGHUP, before)
        with stopped_by_signals() as stop:
            signal.raise_signal(signal.SIGHUP)
            self.assertFalse(stop.is_set())

    def test_a_violation_found_before_stays(self):
        with tempfile.TemporaryDirectory() as folder:
            path = os.path.join(folder, "violation")
            self.assertEqual(audit._unused(path), path)
            for name, wanted in (("violation.jsonl", "-2"), ("violation-2.html", "-3"), ("violation-4.txt", "-3")):
                with open(os.path.join(folder, name), "w", encoding="utf-8"):
                    pass
                self.assertEqual(audit._unused(path), path + wanted)
            os.symlink("/dev/full", os.path.join(folder, "other.jsonl"))  # nothing was written there
            self.assertEqual(audit._unused(os.path.join(folder, "other")), os.path.join(folder, "other"))


class Programs(unittest.TestCase):
    def test_which_program_is_started(self):
        self.assertEqual(program_path({"COBRA_AUDIT": "/no/such"}), "/no/such")
        self.assertTrue(program_path({}).endswith("cobra_audit"))
        with self.assertRaisesRegex(Exception, "/no/such is missing"):
            find_program({"COBRA_AUDIT": "/no/such"})

    def test_one_without_proofs_says_that_it_is_slow(self):
        """In its version, and in the message when clients have to wait for it."""
        slow = "some 300 times slower than a proved one"
        self.assertIn(f"NOT PROVED, built for a trial; {slow}", ProgramOrigin("p", False).sentence())
        for is_proved, wanted in ((False, f" (it was built without proofs and is {slow})"), (True, ""), (None, "")):
            with mock.patch.object(_binaries, "origin_of", return_value=ProgramOrigin("p", is_proved)):
                self.assertEqual(_binaries.slowness_of("p"), wanted)
        with mock.patch.object(_binaries, "origin_of", side_effect=OSError):
            self.assertEqual(_binaries.slowness_of("p"), "")

    def test_its_origin_is_told(self):
        self.assertEqual(ProgramOrigin("p", True, "kit", "abc").sentence(), "p: proved by kit, commit abc")
        self.assertIn("NOT PROVED", ProgramOrigin("p", False).sentence())
        self.assertIn("NOT THE FILE", ProgramOrigin("p", True, is_as_noted=False).sentence())
        self.assertIn("unknown whether", ProgramOrigin("p", None).sentence())

    def test_the_version(self):
        with open(os.path.join(TOP, "VERSION"), encoding="utf-8") as file:
            self.assertEqual(file.read().strip(), VERSION)
        status, out, _ = run("--version")
        self.assertEqual((status, out.splitlines()[0]), (0, f"zanteyard {VERSION}"))
        self.assertEqual(len(out.splitlines()), 4)


if __name__ == "__main__":
    unittest.main()
