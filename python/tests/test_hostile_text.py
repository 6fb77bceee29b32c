"""Whatever the names of keys, statements, sessions, stores and files contain: no command prints,
logs or writes a character that moves a cursor, breaks a line or reverses the direction of
writing."""
import ast
import contextlib
import glob
import io
import json
import logging
import os
import signal
import subprocess
import sys
import tempfile
import threading
import unittest

from tests import watch_feed as feed
from zanteyard.cli._main import main
from zanteyard.core._log_guard import guard
from zanteyard.core._outcome import Outcome
from zanteyard.core._records import Logged, Pending
from zanteyard.core._visible import shown, shown_lines
from zanteyard.core.errors import ScriptMistakeError, ZanteyardError
from zanteyard.explain._html import page_of
from zanteyard.explain._reasons import explain_history
from zanteyard.explain._report import story_of
from zanteyard.scripts._names import NamedTransaction, ScriptNames, read_names, write_names
from zanteyard.explain._violation_text import tell_violation
from zanteyard.program._auditor import PROGRAM, Auditor
from zanteyard.session._session import Session
from zanteyard.stores.memory import MemoryStore
from zanteyard.watch._run import Plan, Run

HERE = os.path.dirname(os.path.abspath(__file__))
PACKAGE = os.path.normpath(os.path.join(HERE, "../zanteyard"))
FORGED = "line 9: serial, FORGED"
# Clears a terminal, begins a new line in seven ways, and reverses the direction of writing.
EVIL = f"x\x1b[2J\x1b]0;t\x07\r\n{FORGED}\x0b\x0c\x85\u2028\u2029\u202eevil\u2066\x9b31m\u200b\x7f"
NAME = EVIL.replace("/", "")
IS_BUILT = os.path.isfile(PROGRAM)


class Outputs(unittest.TestCase):
    def setUp(self):
        its = tempfile.TemporaryDirectory()
        self.addCleanup(its.cleanup)
        self.folder = os.path.join(its.name, NAME)  # all files are in a folder with such a name
        os.mkdir(self.folder, 0o700)
        here = os.getcwd()
        self.addCleanup(os.chdir, here)
        os.chdir(self.folder)

    def path(self, name=NAME):
        return os.path.join(self.folder, name)

    def check(self, text, names_it=True, is_page=False):
        """Each character is visible, and no line is forged. A page shows statements with their own
        lines, in boxes."""
        if isinstance(text, bytes):
            text = text.decode("utf-8")
        bad = {sign for sign in text if sign != "\n" and not sign.isprintable()}
        self.assertEqual(bad, set(), text)
        for line in () if is_page else text.split("\n"):
            self.assertFalse(line.strip().startswith(FORGED), text)
        if names_it:
            self.assertIn("FORGED", text)  # else the test doesn't test it

    def run_command(self, *words, names_it=True):
        """Runs the command, checks its output, and returns its status."""
        out, err = io.StringIO(), io.StringIO()
        with contextlib.redirect_stdout(out), contextlib.redirect_stderr(err):
            try:
                status = main(words)
            except SystemExit as ended:
                status = ended.code
        self.check(out.getvalue() + err.getvalue(), names_it)
        return status

    def check_file(self, path, names_it=True):
        with open(path, "rb") as file:
            self.check(file.read(), names_it, path.endswith(".html"))

    def write(self, text, name=NAME):
        with open(self.path(name), "w", encoding="utf-8") as file:
            file.write(text)
        return self.path(name)


class Functions(unittest.TestCase):
    def test_escapes(self):
        for text, wanted in (
            ("accounts(id=7) größe 表", "accounts(id=7) größe 表"),
            ("  a  b ", "  a  b "),
            ("a\u00a0b\u2003c\u3000d", "a b c d"),
            ("\x1b[2J", "\\x1b[2J"),
            ("a\r\nb\tc", "a\\x0d\\x0ab\\x09c"),
            ("\x00\x7f\x85\x9b\xad", "\\x00\\x7f\\x85\\x9b\\xad"),
            ("\u202e\u2028\ufeff\ud800", "\\u202e\\u2028\\ufeff\\ud800"),
            ("\U000e0001\U0010ffff", "\\U000e0001\\U0010ffff"),
        ):
            with self.subTest(text=ascii(text)):
                self.assertEqual(shown(text), wanted)
        self.assertEqual(shown_lines("a\n b\r\n"), "a\n b\\x0d\n")

    def test_every_character(self):
        self.assertTrue(all(shown(chr(it)).isprintable() for it in range(sys.maxunicode + 1)))

    def test_nothing_else_prints(self):
        """`say` is the only function that prints, and `html_text` and its like are the only ones
        that escape."""
        found = []
        for path in glob.glob(f"{PACKAGE}/**/*.py", recursive=True):
            if path.endswith("core/_visible.py"):
                continue
            with open(path, encoding="utf-8") as file:
                tree = ast.parse(file.read())
            for node in ast.walk(tree):
                if isinstance(node, ast.Name) and node.id == "print":
                    found.append(f"{path}:{node.lineno}: print")
                if isinstance(node, (ast.Import, ast.ImportFrom)):
                    names = [one.name for one in node.names] + [getattr(node, "module", None)]
                    if "html" in names:
                        found.append(f"{path}:{node.lineno}: html")
        self.assertEqual(found, [])


class Values(Outputs):
    """Values that users print themselves."""

    def test_an_outcome(self):
        pending = (Pending((0, 1), EVIL, (2, 3)),)
        self.check(str(Outcome("pending", 1, 2, ValueError(EVIL), pending)))

    def test_errors(self):
        for error in (ZanteyardError(EVIL), ScriptMistakeError(3, "malformed", EVIL)):
            self.check(str(error))

    def test_the_log(self):
        logger = logging.Logger("tried")
        guard(logger)
        told = io.StringIO()
        handler = logging.StreamHandler(told)
        handler.setFormatter(logging.Formatter("%(levelname)s %(message)s"))
        logger.addHandler(handler)
        logger.warning("a key is %s, of %d", EVIL, 3)
        logger.error(EVIL)
        logger.error("100%% of it: %s", KeyError(EVIL))
        try:
            raise ValueError(EVIL)
        except ValueError:
            logger.exception("it failed")
        self.check(told.getvalue())
        for line in told.getvalue().splitlines():
            self.assertRegex(line, "^(WARNING|ERROR|  )")

    def test_a_record_that_has_nothing_hidden_stays_as_it_is(self):
        """Log tools group messages by their format strings."""
        logger = logging.Logger("tried")
        guard(logger)
        seen = []
        handler = logging.Handler()
        handler.emit = seen.append
        logger.addHandler(handler)
        logger.warning("%d of %s", 3, "größe")
        self.assertEqual((seen[0].msg, seen[0].args), ("%d of %s", (3, "größe")))


class Calls(Outputs):
    """Error messages quote mistakes in a call."""

    def test_words_of_the_call(self):
        for words in (
            [EVIL], ["check", EVIL], ["check", "s", EVIL], ["explain", EVIL],
            ["levels", EVIL], ["check-report", EVIL, "r"], ["demo", EVIL], ["import", EVIL, "f"],
            ["import", "csv", EVIL, "-o", "s"], ["watch", f"postgresql://{EVIL}@127.0.0.1:1/{EVIL}"],
            ["watch", "postgresql://h/d", "--listen", EVIL], ["watch", "x", "--log", EVIL],
            ["watch", "x", "--sample", EVIL], ["watch", "x", "--tables", EVIL],
            ["watch", "x", "--redis", EVIL], ["watch", "x", "--key", EVIL],
            ["proxy", "x", "--listen", EVIL], ["prepare", f"postgresql://127.0.0.1:1/{EVIL}"],
            ["prepare", EVIL], ["journal", EVIL], ["serve", "--folder", "x", "--metrics", EVIL],
            ["audit", EVIL], ["audit", "postgres", "--workload", EVIL],
            ["check", "s", "--nodes", EVIL], ["check", "s", "--promise", EVIL],
        ):
            with self.subTest(words=words):
                self.assertEqual(self.run_command(*words, names_it=False), 2)


@unittest.skipUnless(IS_BUILT, f"{PROGRAM} is not built")
class Scripts(Outputs):
    LOST = (
        '["open",2,8]\n["offer",0,0,[[[[5,"init"]],[5]]]]\n["offer",1,0,[[[[5,"init"]],[5]]]]\n'
        '["round",32,0,1]\n'
    )

    def named(self, script):
        """Writes a file with the names of a script's keys and transactions as another program
        would, without escapes."""
        named = [
            [NamedTransaction(f"{EVIL}{at}", "committed", (((5, "init"), EVIL), ((5,), EVIL)), EVIL)]
            for at in range(2)
        ]
        path = write_names(ScriptNames("csv", {5: EVIL}, named), script)
        self.check_file(path)
        names, why_not = read_names(script)
        self.assertEqual((names.key(5), names.name((0, 0)), why_not), (EVIL, f"{EVIL}0", ""))

    def test_check_explain_levels(self):
        script = self.write(self.LOST)
        self.named(script)
        self.assertEqual(self.run_command("check", script), 1)
        self.assertEqual(self.run_command("check", "--all", script), 1)
        self.assertEqual(self.run_command("explain", "--html", self.path("page"), script), 1)
        self.check_file(self.path("page"))
        self.assertEqual(self.run_command("levels", script), 0)

    def test_names_that_cant_be_used(self):
        script = self.write(self.LOST)
        for text in ("", json.dumps({"version": 1, "script": EVIL}), EVIL, '{"version": "\x1b"}'):
            self.write(text, f"{NAME}.names")
            self.assertEqual(self.run_command("check", script), 1)

    def test_lines_that_are_no_lines(self):
        for line in (EVIL, f'["open",2,"{EVIL}"]', json.dumps(["open", 2, EVIL]), f'["{EVIL}"]'):
            script = self.write(line.replace("\r\n", "\\r\\n") + "\n")
            for command in ("check", "explain", "levels"):
                self.assertEqual(self.run_command(command, script, names_it=False), 2)

    def test_imports(self):
        key, value = json.dumps(EVIL), json.dumps(EVIL + "1")
        quoted_key = '"' + EVIL.replace('"', '""') + '"'
        for form, text in (
            ("csv", "session,number,operation,key,value\n"
             f"{quoted_key},0,write,{quoted_key},1\nb,0,read,{quoted_key},1\n"),
            ("csv", f"session,number,operation,key,value\n{quoted_key}\n"),
            ("csv", f"{quoted_key}\n"),
            ("dbcop", f'[{{"a": {key}}}]'),
            ("polysi", EVIL),
            ("jepsen-registers", f'{{:process 0, :type :ok, :value [[:w {key} {value}]]}}'),
            ("jepsen-lists", f'[{{"process": 0, "type": {key}, "value": [["append", {key}, 1]]}}]'),
            ("jepsen-registers", EVIL),
        ):
            with self.subTest(form=form, text=text):
                history = self.write(text, "history")
                script = self.path("script")
                status = self.run_command("import", form, history, "-o", script, names_it=False)
                if status == 0:
                    for path in glob.glob(glob.escape(script) + "*"):
                        self.check_file(path, names_it=False)
                    self.run_command("check", script, names_it=False)

    def test_demonstration(self):
        page = self.path("page")
        self.assertEqual(self.run_command("demo", "lost-update", "--html", page), 1)
        self.check_file(page, names_it=False)

    def test_a_report(self):
        """The program that checks it repeats no byte of it."""
        script, replies = self.write(self.LOST), self.write(f"{EVIL}\n" * 4, "replies")
        command = [sys.executable, "-m", "zanteyard", "check-report", script, replies]
        environment = {**os.environ, "PYTHONPATH": os.path.dirname(PACKAGE)}
        ended = subprocess.run(command, capture_output=True, env=environment, timeout=600)
        self.check(ended.stdout + ended.stderr, names_it=False)


@unittest.skipUnless(IS_BUILT, f"{PROGRAM} is not built")
class Audits(Outputs):
    def violated(self, journal=None):
        """An auditor in which two clients lost an update of such a key."""
        self.audits = contextlib.ExitStack()
        self.addCleanup(self.audits.close)
        auditor = self.audits.enter_context(Auditor(2, journal=journal))
        store = MemoryStore("lost-update")
        sessions = [Session(auditor, at, store.connect(), EVIL) for at in range(2)]
        sessions[0].run(lambda its: its.put(EVIL, EVIL))
        begun = [session.begin() for session in sessions]
        for transaction in begun:
            transaction.put(EVIL, f"{transaction.get(EVIL)}1")
        for transaction in begun:
            transaction.commit()
        return auditor

    def story(self, history, before):
        """A story in which each name begins like this."""

        def name(id):
            return f"{before}{id[0]}.{id[1]}"

        return story_of(history, name, explain_history(history, name))

    def test_a_violation_told(self):
        auditor = self.violated()
        self.assertEqual(auditor.round().kind, "violated")
        lines = []
        tell_violation(auditor.history, self.path("violation"), tell=lines.append)
        for line in lines:
            self.assertNotIn("\n", line)
        self.check("\n".join(lines))
        self.check_file(self.path("violation.jsonl"), names_it=False)
        self.check(page_of(self.story(auditor.history, EVIL), EVIL, EVIL))

    def test_statements(self):
        history = [
            [Logged([("k", "init")], ["k"], statements=[(("k",), EVIL), (("k", "init"), EVIL)])]
            for _ in range(2)
        ]
        lines = []
        tell_violation(history, self.path("violation"), tell=lines.append)
        self.check("\n".join(lines))
        self.check(page_of(self.story(history, ""), "a", "b"))

    def test_a_journal(self):
        auditor = self.violated(self.path("journal"))
        self.assertEqual(auditor.round().kind, "violated")
        self.audits.close()
        self.assertEqual(self.run_command("journal", self.path("journal")), 1)

    def test_the_daemon(self):
        """In such a folder, until a signal."""
        words = ["serve", "--folder", os.path.basename(self.path("j" + NAME)), "--log", "DEBUG"]
        environment = {**os.environ, "PYTHONPATH": os.path.dirname(PACKAGE)}
        with subprocess.Popen(
            [sys.executable, "-m", "zanteyard", *words], env=environment,
            stdout=subprocess.PIPE, stderr=subprocess.STDOUT,
        ) as daemon:
            told = daemon.stdout.readline()
            daemon.send_signal(signal.SIGTERM)
            told += daemon.stdout.read()
        self.check(told)


@unittest.skipUnless(IS_BUILT, f"{PROGRAM} is not built")
class Watched(Outputs):
    """Statements, applications, reasons and server errors that the proxy writes."""

    def test_a_run(self):
        feeds = [feed.started(database=EVIL, server=EVIL, warnings=[EVIL]), feed.OPEN,
                 *feed.LOST_UPDATE, *feed.ROUND, feed.coverage()]
        program = feed.program(os.path.dirname(self.folder), feeds)
        told, found = [], self.path("found")
        plan = Plan([program], PROGRAM, EVIL, "proved", {**os.environ, "ZANTEYARD_FEED_TEXT": EVIL}, save=found)
        run = Run(plan, told.append)
        waits = threading.Event()

        def stop():
            try:
                for _ in range(12000):
                    status = run.board.status()
                    if run.stop.is_set() or (status.violations and status.seen.reads):
                        break
                    waits.wait(0.01)
            finally:
                run.stop.set()

        stopping = threading.Thread(target=stop)
        stopping.start()
        try:
            self.assertEqual(run.run(), 1)
        finally:
            run.stop.set()
            stopping.join()
        self.check("\n".join(told))
        for path in glob.glob(glob.escape(found) + "/*"):
            self.check_file(path, names_it=not path.endswith("jsonl"))


if __name__ == "__main__":
    unittest.main()
