"""The statuses and messages of `cobra_audit` and of `zanteyard`, as in docs/FORMATS.md and
docs/HISTORIES.md, with failing devices and wrong arguments."""
import os
import re
import subprocess
import sys
import tempfile
import unittest

from zanteyard.program._auditor import PROGRAM
from zanteyard.core._version import VERSION

HERE = os.path.dirname(os.path.abspath(__file__))
TOP = os.path.normpath(os.path.join(HERE, "../.."))
SCRIPT = os.path.join(TOP, "crates/cobra_examples/data/first_cut.jsonl")
REPLIES = SCRIPT[:-5] + "replies"
SECONDS = 300
NO_TEXT = b"\xff\xfe"  # an argument that isn't UTF-8
USAGE = re.compile(rb"usage: cobra_audit \[--help \| --version\] < SCRIPT\n")
FAILED = re.compile(rb"device failed\n")
NOTHING = re.compile(b"")
TEXT = re.compile(rb"cobra_audit is the auditor of Zanteyard: (?s:.*)\n")
# Shell redirections of a program's streams.
FULL, CLOSED, FOLDER, NO_INPUT, EMPTY = ">/dev/full", ">&-", "< /", "<&-", "< /dev/null"


def run(words, ends="", text=b""):
    """Status, standard output and standard error, with these redirections by a shell; otherwise it
    reads `text`."""
    command = ["/bin/sh", "-c", f'exec "$@" {ends}', "sh", *words]
    environment = {**os.environ, "PYTHONPATH": os.path.join(HERE, "..")}
    ended = subprocess.run(command, input=text, stdout=subprocess.PIPE, stderr=subprocess.PIPE,
                           env=environment, timeout=SECONDS, check=False)
    return ended.returncode, ended.stdout, ended.stderr


def bytes_of(path):
    with open(path, "rb") as file:
        return file.read()


@unittest.skipUnless(os.path.isfile(PROGRAM), f"{PROGRAM} is not built")
class AuditorWords(unittest.TestCase):
    def test_ends_and_arguments(self):
        version = re.compile(re.escape(f"cobra_audit {VERSION}\n".encode()))
        owed = re.compile(re.escape(bytes_of(REPLIES)))
        rows = [  # arguments, redirections, input; status, standard output, standard error
            (["--version"], "", b"", 0, version, NOTHING),
            (["--version"], FOLDER, b"", 0, version, NOTHING),  # it isn't read
            (["--help"], NO_INPUT, b"", 0, TEXT, NOTHING),
            (["--Help"], "", b"", 2, NOTHING, USAGE),
            (["-h"], "", b"", 2, NOTHING, USAGE),
            (["--version "], "", b"", 2, NOTHING, USAGE),
            (["--help=1"], "", b"", 2, NOTHING, USAGE),
            (["--"], "", b"", 2, NOTHING, USAGE),
            (["-"], "", b'["open",1,8]\n', 2, NOTHING, USAGE),
            ([""], "", b"", 2, NOTHING, USAGE),
            ([SCRIPT], "", b"", 2, NOTHING, USAGE),
            ([NO_TEXT], "", b"", 2, NOTHING, USAGE),
            ([b"--version\xff"], "", b"", 2, NOTHING, USAGE),
            (["--version", "--version"], "", b"", 2, NOTHING, USAGE),
            (["--help", "x"], "", b"", 2, NOTHING, USAGE),
            (["a"] * 3000, "", b"", 2, NOTHING, USAGE),
            (["x"], f"{FULL} {NO_INPUT}", b"", 2, NOTHING, USAGE),
            ([], "", bytes_of(SCRIPT), 0, owed, NOTHING),
            ([], "", bytes_of(SCRIPT)[:-1], 0, owed, NOTHING),  # no LF at its end
            ([], EMPTY, b"", 0, NOTHING, NOTHING),
            ([], "", b"", 0, NOTHING, NOTHING),
            ([], "", b"\n", 0, re.compile(rb'\["no",1,"BadLine"\]\n'), NOTHING),
            ([], "", b" ", 0, re.compile(rb'\["no",1,"BadLine"\]\n'), NOTHING),
            ([], "", b'["open",1,8]', 0, re.compile(rb'\["ok"\]\n'), NOTHING),
            ([], FOLDER, b"", 1, NOTHING, FAILED),
            ([], NO_INPUT, b"", 1, NOTHING, FAILED),
            ([], FULL, b'["show"]\n', 1, NOTHING, FAILED),
            ([], CLOSED, b'["show"]\n', 1, NOTHING, FAILED),
            ([], CLOSED, b"", 0, NOTHING, NOTHING),  # nothing is written
            (["--version"], FULL, b"", 1, NOTHING, FAILED),
            (["--help"], CLOSED, b"", 1, NOTHING, FAILED),
            (["x"], "2>/dev/full", b"", 2, NOTHING, NOTHING),
            ([], f"{FOLDER} 2>&-", b"", 1, NOTHING, NOTHING),
        ]
        for words, ends, text, *wanted in rows:
            with self.subTest(words=words[:3], ends=ends, text=text):
                status, told, error = run([PROGRAM, *words], ends, text)
                self.assertEqual(status, wanted[0], (told, error))
                self.assertRegex(told, re.compile(rb"\A(?:%b)\Z" % wanted[1].pattern))
                self.assertRegex(error, re.compile(rb"\A(?:%b)\Z" % wanted[2].pattern))

    def test_a_reader_that_is_gone(self):
        """Even if a signal would report it."""
        for handling in ("", "trap '' PIPE; "):
            with self.subTest(handling=handling):
                read, write = os.pipe()
                os.close(read)
                with os.fdopen(write, "wb") as pipe:
                    ended = subprocess.run(
                        ["/bin/sh", "-c", handling + 'exec "$0"', PROGRAM], input=b'["show"]\n',
                        stdout=pipe, stderr=subprocess.PIPE, timeout=SECONDS, check=False)
                self.assertEqual((ended.returncode, ended.stderr), (1, b"device failed\n"))

    def test_an_end_that_does_not_block(self):
        read, write = os.pipe()
        os.set_blocking(read, False)
        with os.fdopen(read, "rb") as pipe, os.fdopen(write, "wb"):
            ended = subprocess.run([PROGRAM], stdin=pipe, stdout=subprocess.PIPE,
                                   stderr=subprocess.PIPE, timeout=SECONDS, check=False)
        self.assertEqual((ended.returncode, ended.stdout, ended.stderr),
                         (1, b"", b"device failed\n"))


@unittest.skipUnless(os.path.isfile(PROGRAM), f"{PROGRAM} is not built")
class CommandWords(unittest.TestCase):
    def test_ends_and_arguments(self):
        told = rb"line 4: serial: (?s:.*)\n"
        mistake = rb"(?s:.*)\n"
        versions = rf"zanteyard {re.escape(VERSION)}\nauditor .*\nchecker .*\nproxy .*\n".encode()
        rows = [  # arguments, redirections, input; status, standard output, standard error
            (["--version"], "", b"", 0, versions, b""),
            (["--help"], NO_INPUT, b"", 0, rb"usage: zanteyard (?s:.*)\n", b""),
            ([], "", b"", 2, b"", rb"usage: zanteyard " + mistake),
            (["--nope"], "", b"", 2, b"", rb"usage: zanteyard " + mistake),
            ([""], "", b"", 2, b"", rb"usage: zanteyard " + mistake),
            ([NO_TEXT], "", b"", 2, b"", rb"usage: zanteyard " + mistake),
            (["check", SCRIPT, SCRIPT], "", b"", 2, b"", rb"usage: zanteyard " + mistake),
            (["check", NO_TEXT], "", b"", 2, b"", rb"mistake: .*No such file or directory.*\n"),
            (["check", "/"], "", b"", 2, b"", rb"mistake: .*Is a directory.*\n"),
            (["check", "-"], EMPTY, b"", 2, b"", rb'mistake: .* a script begins with .*\n'),
            (["check", "-"], "", b'["open",1,8]', 0, rb"at the end: serial: .*\n", b""),
            (["check", SCRIPT], "", b"", 0, told, b""),
            (["check", SCRIPT], NO_INPUT, b"", 0, told, b""),  # it isn't read
            (["check", SCRIPT], FULL, b"", 2, b"", rb"mistake: .*No space left on device\n"),
            (["demo", "--no-html"], FULL, b"", 2, b"", rb"mistake: .*No space left on device\n"),
            (["check", "-"], NO_INPUT, b"", 2, b"", rb"mistake: standard input is closed\n"),
            (["check", "/dev/null"], "2>/dev/full", b"", 2, b"", b""),
            (["--version"], FULL, b"", 2, b"", rb"mistake: .*No space left on device\n"),
            (["explain"], "", b"", 2, b"", rb"usage: zanteyard explain " + mistake),
            (["import"], "", b"", 2, b"", rb"usage: zanteyard import " + mistake),
            (["audit"], "", b"", 2, b"", rb"usage: zanteyard audit " + mistake),
        ]
        for words, ends, text, status, out, error in rows:
            with self.subTest(words=words, ends=ends, text=text):
                ended = run([sys.executable, "-m", "zanteyard", *words], ends, text)
                self.assertEqual(ended[0], status, ended[1:])
                self.assertRegex(ended[1], re.compile(rb"\A(?:%b)\Z" % out))
                self.assertRegex(ended[2], re.compile(rb"\A(?:%b)\Z" % error))

    def test_no_auditor(self):
        with tempfile.TemporaryDirectory() as folder:
            gone = os.path.join(folder, "none")
            words = ["env", f"COBRA_AUDIT={gone}", sys.executable, "-m", "zanteyard"]
            status, told, error = run([*words, "check", SCRIPT])
            self.assertEqual((status, told), (2, b""))
            self.assertTrue(error.startswith(f"mistake: {gone} is missing".encode()), error)


if __name__ == "__main__":
    unittest.main()
