"""The documents: every command in them is run, and its output compared; no line is too long, and
every file that they name exists."""
import glob
import importlib
import os
import re
import shutil
import subprocess
import sys
import tempfile
import unittest

import import_graph
import make_wheel
from zanteyard.program._auditor import PROGRAM

TOP = os.path.normpath(os.path.join(os.path.dirname(os.path.abspath(__file__)), "../.."))
NAMES = ("README.md", "CONTRIBUTING.md", "LICENSES.md", "docs/*.md", "python/README.md")
DOCUMENTS = sorted(
    os.path.relpath(path, TOP) for name in NAMES for path in glob.glob(os.path.join(TOP, name))
)
COLUMNS, WORDS = 120, 900
ALL_WORDS = 47_000  # of all pages together but LICENSES.md, as `wc -w` counts them

# Commands that aren't run here, and the tests that run them.
ELSEWHERE = {
    r"python3 -m venv .*venv": "test_package",
    r"venv/bin/.*": "test_package",
    r"\./test\.sh": "the gate, which has called this",
    r"\./try\.sh": "test_package, in a folder of its own",
    r"rt .*": "the gate, which runs the same program on the same script",
    r"python3 examples/journal\.py .*": "test_restarting, over an auditor that knows save",
    r"zanteyard check bank\.journal": "test_restarting, too",
    r"zanteyard (watch|prepare) .*": "test_watch_run and test_watch_prepare, over servers of their own",
    r"zanteyard proxy .*": "test_watch_remote, over servers of its own",
    r"zanteyard serve .*": "test_serving and test_machines, over folders and a Redis of their own",
    r"zanteyard key .*": "test_hostile_redis, in a folder of its own",
    r"apt-get install \./out/zanteyard_\*\.deb": "test_deb, which unpacks it and runs its commands",
    r"zanteyard bench postgres .*": "test_commands, with less time",
    r"zanteyard bench (mariadb|redis|sqlite) .*": "test_stores, with less time",
    r"/usr/bin/python3 examples/store_faults\.py .*": "test_stores, which compares the tables",
    r"/usr/bin/python3 examples/bank\.py .*": "test_bank, with less time",
    r"/usr/bin/python3 examples/postgres_\w+\.py .*": "test_postgres_live and test_examples, with less time",
}


# Words of the contracts on which programs and reviewers rely: docs/DEFINITIONS.md has to say what they mean.
PROMISED = {
    "the headline": "EachReportIsTrue AreTrueReplies Accepted accepted_after TellsTrueOf reported_on IsVerdictWhole"
    " ExplainsWhole HasPendingWhole History effects IsKept StandsForAccepted IsKeptBehind KeepsRest RemainsBehind"
    " EndsOrder MovesBehind Origin BeginsWith ViolationsAreFinal",
    "strict scripts": "EachStrictReportIsTrue timed_after TellsStrictly IsStrictOrder IsStrictVerdict EndedBefore",
    "what serve writes": "IsOutput StopsForMemory StopsReading StopsWriting IsAnswered Answers AnswersOpen AnswersBeside"
    " Finishes IsCommand command_of line_of lines asked_by",
    "what cobra_check says": "IsAllRight IsRightSoFar Checks IsRightReply IsUnchecked IsOwedReport Owes IsWrongReply"
    " StopsAtWrong FindsAll told_of TellsFirst HasFault IsUnshown IsShownIn ChecksTrue IsKeptIn StandsForReceived",
    "steps and refusals": "StepsTo Legal Holds FragmentFault IntakeFault IsOfferRefusal IsCloseRefusal IsBeginRefusal"
    " IsFinishRefusal IsTruncateRefusal IsRebuildRefusal number_of",
    "cuts": "StandsFor KeepsStandsFor IsSettled IsLastSettled IsFound IsCutAt IsCutOf IsKeptFront IsTruncated Known",
    "joins": "IsJoiningFragment IsReturningFragment IsAnchored IsAnchor MayJoin IsLetIn IsJoinRefusal JoinFault",
    "marks": "IsNext AdmitFault CloseFault",
    "hand-overs": "saved_told IsCheckpoint GivenOutIsTaken WiderBoundsAreKept GivenOutFits handed_parts AreGoodParts"
    " IsGood IsResumedRefusal",
    "orders and refutations": "Explains Meets IsRefutation Refutes IsClosed IsArc IsCycle IsForced IsChoice IsNoWrite"
    " IsGoneRead depth_of IsJoin",
    "searches": "Scans IsPicked IsPlain IsSpent IsLawful MayAnswer",
    "snapshot isolation": "IsSnapshotOrder KeepsSnapshotIsolation IsSnapshotVerdict SeesLastCommit AnswersIsolated"
    " Opens TellsIsolation IsAskedFault OfferedFault LegalIsolation isolated_of IsKeptSplit ToldBehind TellBehind"
    " KeepsBehind",
}


def text_of(name):
    with open(os.path.join(TOP, name), encoding="utf-8") as file:
        return file.read()


def blocks(name):
    """The fenced blocks of a document: the word of each, its lines, and the text after it."""
    parts = re.split(r"^```(.*)$", text_of(name), flags=re.MULTILINE)
    for at in range(1, len(parts) - 1, 4):
        yield parts[at], parts[at + 1].strip("\n").splitlines(), parts[at + 3]


def sessions(name):
    """Each command that a document shows after a prompt, and its output."""
    for _, lines, _ in blocks(name):
        command, printed = None, []
        for line in lines:
            if line.startswith("$ "):
                if command is not None:
                    yield command, printed
                command, printed = line[2:], []
            elif command is not None:
                printed.append(line)
        if command is not None:
            yield command, printed


def is_elsewhere(command):
    return any(re.fullmatch(pattern, command) for pattern in ELSEWHERE)


class Documents(unittest.TestCase):
    def test_no_line_is_too_long(self):
        long = [
            f"{name}:{number}"
            for name in DOCUMENTS
            for number, line in enumerate(text_of(name).splitlines(), 1)
            if len(line) > COLUMNS
        ]
        self.assertEqual(long, [])

    def test_the_readme_is_short(self):
        self.assertLessEqual(len(text_of("README.md").split()), WORDS)

    def test_all_pages_together_are_short(self):
        pages = [name for name in DOCUMENTS if name != "LICENSES.md"]
        words = sum(len(text_of(name).split()) for name in [*pages, "proxy/README.md"])
        self.assertLessEqual(words, ALL_WORDS)
        self.assertGreater(words, ALL_WORDS / 2, "pages are missing here")

    def test_every_file_that_is_named_is_there(self):
        places = r"`((?:docs|bench|examples|python|crates)/[\w./-]+)`"
        for name in DOCUMENTS:
            for path in re.findall(places, text_of(name)):
                if "NAME" not in path and "/out/" not in path:
                    with self.subTest(document=name, path=path):
                        self.assertTrue(os.path.exists(os.path.join(TOP, path)))

    @unittest.skipUnless(os.path.isdir(os.path.join(TOP, ".git")) and shutil.which("git"), "no clone")
    def test_nothing_is_kept_that_a_tool_made(self):
        """Caches and builds aren't in the repository."""
        listed = ["git", "-c", "safe.directory=*", "-C", TOP, "ls-files"]
        names = subprocess.run(listed, stdout=subprocess.PIPE, text=True, check=True).stdout
        made = re.compile(r"(^|/)(\.?\w+_cache|__pycache__|out|node_modules)/|\.(pyc|whl|deb)$")
        self.assertEqual([it for it in names.splitlines() if made.search(it)], [])

    def test_what_is_there_is_named(self):
        """Benchmarks, packages, the purpose of each module, and the number of edits."""
        text = text_of("CONTRIBUTING.md")
        for path in glob.glob(os.path.join(TOP, "bench/*/*.py")):
            with self.subTest(path=path):
                self.assertTrue(re.search(rf"[`/]{re.escape(os.path.basename(path))}\b", text))
        text = text_of("python/README.md")
        listed = re.findall(r"^- `zanteyard/(\w+)`: \w", text, re.MULTILINE)
        folder = os.path.join(TOP, "python/zanteyard")
        about, its = {}, ""  # of each package and module
        for line in import_graph.as_modules(import_graph.graph_of(folder), folder):
            if line.startswith("  "):
                name, sentence = line[2:].split(": ", 1)
                about[its, name] = sentence
            else:
                its = line
        for path in glob.glob(os.path.join(folder, "*/*.py")):
            package, name = path.split(os.sep)[-2:]
            if name != "__init__.py":
                with self.subTest(path=path):
                    self.assertIn(package, listed)
                    self.assertGreater(len(about[package, name].split()), 2)
        (edits,) = re.findall(r"There are (\d+) edits", text_of("CONTRIBUTING.md"))
        self.assertEqual(int(edits), len(glob.glob(os.path.join(TOP, "crates/*/must-fail/*.edit"))))

    def test_every_import_that_is_shown_runs(self):
        """Of documents and examples, and from modules for users alone, which have no underscore."""
        count = 0
        paths = [*DOCUMENTS, *(os.path.relpath(path, TOP) for path in glob.glob(os.path.join(TOP, "examples/*.py")))]
        for path in paths:
            for module, names in re.findall(r"from (zanteyard[\w.]*) import (\w+(?:, \w+)*)", text_of(path)):
                count += 1
                with self.subTest(path=path, module=module):
                    self.assertNotIn("._", module)
                    try:
                        there = importlib.import_module(module)
                    except ImportError as error:
                        if (error.name or "").startswith("zanteyard"):
                            raise
                        continue  # its driver isn't installed
                    self.assertEqual([name for name in names.split(", ") if not hasattr(there, name)], [])
        self.assertGreater(count, 15)

    def test_every_command_is_run_somewhere(self):
        """A command without a prompt is in a block that has only commands."""
        begins = ("rt ", "./", "python3 ", "/usr/bin/python3 ", "zanteyard ", "cd ", "apt-get ")
        for name in DOCUMENTS:
            for word, lines, _ in blocks(name):
                for line in lines:
                    if not word and line.startswith(begins):
                        with self.subTest(document=name, command=line):
                            self.assertTrue(is_elsewhere(line))


class Licences(unittest.TestCase):
    """Compares LICENSES.md with what is linked into the programs, and with the package's extras."""

    @classmethod
    def setUpClass(cls):
        cls.page = text_of("LICENSES.md")

    def assert_named(self, names):
        for name in names:
            with self.subTest(name=name):
                self.assertTrue(f"`{name}`" in self.page)

    def test_each_library_of_the_kit_that_a_program_of_the_wheel_takes(self):
        on = {}
        for line in text_of("crates.txt").splitlines():
            crate, _, below = line.partition(":")
            on[crate.split()[0]] = below.split() if not line.startswith("#") else []
        taken, left = set(), list(make_wheel.PROGRAMS)
        while left:
            crate = left.pop()
            if crate not in taken:
                taken.add(crate)
                left += on.get(crate, [])
        self.assert_named(taken - on.keys())
        self.assertGreater(len(taken - on.keys()), 5)
        wheel = self.page.split("\n## In the wheel: `cobra_audit`")[1].split("\n## ")[0]
        of_the_kit = {name for below in on.values() for name in below} - on.keys()
        self.assertEqual(of_the_kit.intersection(re.findall(r"`(\w+)`", wheel)) - taken, set())

    @unittest.skipUnless(shutil.which("go"), "Go is not installed")
    def test_each_module_that_the_proxy_takes(self):
        call = ". ./env.sh && go list -deps zanteyard/cmd/zanteyard-proxy"
        listed = subprocess.run(["sh", "-c", call], cwd=f"{TOP}/proxy", stdout=subprocess.PIPE, text=True)
        modules = set()
        for package in listed.stdout.split():
            if package.startswith(("github.com/", "golang.org/")):
                modules.add("/".join(package.split("/")[:3]))
        self.assertEqual(listed.returncode, 0)
        self.assertGreater(len(modules), 5)
        self.assert_named(name if name.startswith("golang") else name.split("/")[2] for name in modules)

    def test_each_extra(self):
        settings = text_of("python/pyproject.toml")
        extras = settings.split("[project.optional-dependencies]\n")[1].split("\n\n")[0]
        self.assert_named(line.split(" = ")[0] for line in extras.splitlines())


class Definitions(unittest.TestCase):
    """Compares docs/DEFINITIONS.md with the files of definitions."""

    @classmethod
    def setUpClass(cls):
        cls.page = text_of("docs/DEFINITIONS.md")
        cls.files = {}  # their texts, by crate and name
        for path in glob.glob(os.path.join(TOP, "crates/*/specs/*.antt")):
            crate, name = path.split(os.sep)[-3], os.path.basename(path)[: -len(".antt")]
            if name != "Lib":
                cls.files[crate, name] = text_of(os.path.relpath(path, TOP))
        cls.listed, _, inner = cls.page.partition("\n## Words of inner crates\n")
        cls.inner = set()  # crates whose words the page leaves to their specs
        for crates in re.findall(r"^- ((?:`\w+`(?:, )?)+): \w", inner, re.MULTILINE):
            cls.inner.update(re.findall(r"\w+", crates))
        cls.told = set()  # the words before the sentences
        for told in re.findall(r"^- (`(?:.*\n)(?:  .*\n)*)", cls.listed, re.MULTILINE):
            for words in re.findall(r"`([^`]+)`", re.split(r":\s", told, maxsplit=1)[0]):
                cls.told.add(words.split()[0])

    def test_each_file_is_named_by_a_heading_or_says_that_it_is_private(self):
        """Those of inner crates apart. Some headings share a file."""
        named = set()
        for heading in re.findall(r"^## .*`.*$", self.listed, re.MULTILINE):
            crate = None
            for word in re.findall(r"`([\w/]+)`", heading):
                crate, name = word.split("/") if "/" in word else (crate, word)
                named.add((crate, name))
        private = {file for file, text in self.files.items() if text.startswith("-- For private ")}
        inner = {file for file in self.files if file[0] in self.inner}
        self.assertEqual(self.inner - {crate for crate, _ in inner}, set(), "no such crate")
        self.assertGreater(len(inner), 5)
        self.assertGreater(len(private), 5)
        self.assertEqual(sorted(named & (inner | private)), [], "needn't be named")
        self.assertEqual(sorted(self.files.keys() - named - private - inner), [], "not named")
        self.assertEqual(sorted(named - self.files.keys()), [], "not there")

    def test_each_word_that_is_told_of_is_defined(self):
        whole = "\n".join(self.files.values())
        defined = set(re.findall(r"^(?:abbrev |record |data )?pub (?:record |data )?(\w+)", whole, re.MULTILINE))
        structs = set()  # that definitions use as they are declared
        for path in glob.glob(os.path.join(TOP, "crates/*/src/**/*.rt"), recursive=True):
            structs.update(re.findall(r"^pub (?:struct|enum) (\w+)", text_of(os.path.relpath(path, TOP)), re.MULTILINE))
        for word in self.told:
            with self.subTest(word=word):
                self.assertIn(word, defined | structs)
        self.assertGreater(len(self.told), 200)

    def test_the_words_of_public_contracts_are_told_of(self):
        for promise, words in PROMISED.items():
            for word in words.split():
                with self.subTest(promise=promise, word=word):
                    self.assertIn(word, self.told)

    def test_each_word_of_an_inner_crate_has_its_sentence(self):
        """Above it in its file, but for a few that go with the one before."""
        for crate in self.inner:
            whole = "\n".join(text for (its, _), text in self.files.items() if its == crate)
            word = r"(?:(?:abbrev|record|data) )?pub (?:(?:record|data) )?\w+"
            words = len(re.findall(rf"^{word}", whole, re.MULTILINE))
            sentences = len(re.findall(rf"^-- .*\n{word}", whole, re.MULTILINE))
            with self.subTest(crate=crate):
                self.assertGreater(words, 0)
                self.assertGreaterEqual(sentences, words * 7 / 8)


@unittest.skipUnless(os.path.isfile(PROGRAM), f"{PROGRAM} is not built")
class Shown(unittest.TestCase):
    maxDiff = None

    def setUp(self):
        self.folder = tempfile.mkdtemp()
        self.addCleanup(shutil.rmtree, self.folder, ignore_errors=True)
        for name in ("examples", "crates", "python", "bench", "docs"):
            os.symlink(os.path.join(TOP, name), os.path.join(self.folder, name))
        commands = os.path.join(self.folder, "bin")
        os.mkdir(commands)
        self.command(commands, "zanteyard", f'exec "{sys.executable}" -m zanteyard "$@"')
        self.command(commands, "python3", f'exec "{sys.executable}" "$@"')
        self.command(commands, "cobra_audit", f'exec "{os.path.abspath(PROGRAM)}" "$@"')
        self.environment = {
            **os.environ,
            "PATH": f"{commands}:{os.environ['PATH']}",
            "PYTHONPATH": os.path.join(TOP, "python"),
            "COBRA_AUDIT": os.path.abspath(PROGRAM),
        }

    @staticmethod
    def command(folder, name, text):
        path = os.path.join(folder, name)
        with open(path, "w", encoding="utf-8") as file:
            file.write(f"#!/bin/sh\n{text}\n")
        os.chmod(path, 0o755)

    def run_it(self, command, script=None):
        ended = subprocess.run(
            ["sh", "-c", command],
            cwd=self.folder,
            env=self.environment,
            input=script,
            stdout=subprocess.PIPE,
            stderr=subprocess.STDOUT,
            text=True,
            timeout=600,
        )
        return ended.stdout.splitlines()

    def save_scripts(self, name):
        """Saves the blocks for which the text after them gives a file name."""
        for _, lines, behind in blocks(name):
            saved = re.match(r"\s*Saved as `([\w.]+)`", behind)
            if saved:
                with open(os.path.join(self.folder, saved[1]), "w", encoding="utf-8") as file:
                    file.write("".join(f"{line}\n" for line in lines))

    def test_what_each_command_prints(self):
        count = 0
        for name in DOCUMENTS:
            self.save_scripts(name)
            for command, printed in sessions(name):
                if not is_elsewhere(command):
                    count += 1
                    with self.subTest(document=name, command=command):
                        self.assertEqual(self.run_it(command), printed)
        self.assertGreaterEqual(count, 4)

    def replies(self, lines):
        return self.run_it("cobra_audit", "".join(f"{line}\n" for line in lines))

    def test_lines_and_replies(self):
        """Blocks with input lines after `>` and output lines after `<`."""
        count = 0
        for name in DOCUMENTS:
            for _, lines, _ in blocks(name):
                said = [line[2:] for line in lines if line.startswith("> [")]
                if said:
                    count += 1
                    wanted = [line[2:] for line in lines if line.startswith("< [")]
                    with self.subTest(document=name, script=said[0]):
                        self.assertEqual(self.replies(said), wanted)
        self.assertGreaterEqual(count, 1)

    def test_tables_of_lines_and_replies(self):
        for name in DOCUMENTS:
            rows = re.findall(r"^\| `(\[.*\])` \| `(\[.*\])` \|$", text_of(name), re.MULTILINE)
            begins = [at for at, (line, _) in enumerate(rows) if line.startswith(('["open"', '["resume"'))]
            for start, end in zip(begins, [*begins[1:], len(rows)]):
                with self.subTest(document=name, script=rows[start]):
                    lines, wanted = zip(*rows[start:end])
                    self.assertEqual(self.replies(lines), list(wanted))

    def test_three_lines_in_one_session_and_in_two(self):
        (script,) = [
            lines for _, lines, _ in blocks("docs/HISTORIES.md") if lines[0] == '["open",1,4096]'
        ]
        self.assertIn('"violated"', self.replies(script)[-1])
        apart = [
            '["open",2,8]',
            '["offer",0,0,[[[],[5]]]]',
            '["offer",1,0,[[[[5,"init"]],[]]]]',
            script[-1],
        ]
        self.assertIn('"serial"', self.replies(apart)[-1])


if __name__ == "__main__":
    unittest.main()
