"""How each program ends and what it prints: a row for each way to start it and to cut it off."""
import os
import subprocess
import tempfile
import unittest

from .built import PATHS, TOP, bytes_of, by_turns, path_of

SECONDS = 300.0
ASKED = ("cobra_audit", "cobra_check")  # programs that look at their arguments
FAILED = b"device failed\n"
USAGE = {
    "cobra_audit": b"usage: cobra_audit [--help | --version] < SCRIPT\n",
    "cobra_check": b"usage: cobra_check [--help | --version] < LINES\n",
}
SCRIPT, REPLIES = (bytes_of("crates/cobra_examples/data", f"three_rounds.{end}")
                   for end in ("jsonl", "replies"))
RIGHT = b"""reply 3 pending, right
reply 5 serial, right
reply 7 violated, right
right: replies 7 reports 3 spent 0 not-checked 0
"""
WRONG = b"""reply 3 pending, right
reply 4 wrong: owed is ["ok"]
wrong: replies 4 reports 1 spent 0 not-checked 0
"""
HONEST = b"".join([b"fault none\n", *(b"collector %d submitted 11 taken 11\n" % each
                                      for each in range(4)), b"last serial\nlatest serial\n"])
# Input with which each program has something to write.
WORK = {"cobra_audit": SCRIPT, "cobra_check": by_turns(SCRIPT, REPLIES),
        "cobra_demo": b"none 16\n"}
# A program and its input; its status, its output, and its messages.
ROWS = [
    ("cobra_audit", b"", 0, b"", b""),
    ("cobra_audit", b"\n", 0, b'["no",1,"BadLine"]\n', b""),
    ("cobra_audit", SCRIPT, 0, REPLIES, b""),
    ("cobra_audit", SCRIPT[:-1], 0, REPLIES, b""),
    ("cobra_audit", b'["round",32,0,1]', 0, b'["no",1,"BadLine"]\n', b""),
    ("cobra_check", b"", 0, b"right: replies 0 reports 0 spent 0 not-checked 0\n", b""),
    ("cobra_check", WORK["cobra_check"], 0, RIGHT, b""),
    ("cobra_check", by_turns(SCRIPT, REPLIES.replace(b'["ok"]\n["report",2', b'[]\n["report",2')),
     3, WRONG, b""),
    ("cobra_demo", b"none 16\n", 0, HONEST, b""),
    ("cobra_demo", b"none 1", 0, HONEST, b""),
    ("cobra_demo", b"lost-update 1\n", 0, HONEST.replace(b"none", b"lost-update").replace(
        b"serial", b"violated"), b""),
    ("cobra_demo", b"", 2, b"", b"usage\n"),
    ("cobra_demo", b"none 0\n", 2, b"", b"usage\n"),
    ("cobra_demo", b"None 16\n", 2, b"", b"usage\n"),
]
UNKNOWN = (["script.jsonl"], ["--help", "--version"], ["--version", "--version"], [""], ["--Help"],
           ["-h"], ["--"], ["--help "], ["--version=1"], [b"\xff"], ["--help", b"\xff"],
           [b"\xff", "--help"], [b"--help\xff"])


def ended(name, *arguments, given=b"", **devices):
    """The status, the output and the messages."""
    devices = {"stdout": subprocess.PIPE, "stderr": subprocess.PIPE, **devices}
    if "stdin" not in devices:
        devices["input"] = given
    it = subprocess.run([path_of(name), *arguments], timeout=SECONDS, check=False, **devices)
    return it.returncode, it.stdout, it.stderr


class Statuses(unittest.TestCase):
    def for_each(self, check, names=tuple(PATHS)):
        """Calls `check` with each of these names; a program that isn't built is skipped."""
        for name in names:
            with self.subTest(program=name):
                if path_of(name) is None:
                    self.skipTest(f"{name} is not built")
                check(name)

    def test_help_and_version(self):
        version = bytes_of("VERSION").strip().decode()

        def check(name):
            self.assertEqual(ended(name, "--version"), (0, f"{name} {version}\n".encode(), b""))
            status, told, said = ended(name, "--help")
            self.assertEqual((status, said), (0, b""))
            self.assertTrue(told.startswith(f"{name} ".encode()) and told.endswith(b".\n"), told)
            for word in ("--help", "--version", "status", "docs/FORMATS.md"):
                self.assertIn(word.encode(), told)

        self.for_each(check, ASKED)

    def test_other_arguments(self):
        def check(name):
            for arguments in UNKNOWN:
                told = ended(name, *arguments, given=WORK[name])
                self.assertEqual(told, (2, b"", USAGE[name]), arguments)

        self.for_each(check, ASKED)

    def test_inputs(self):
        for name, given, status, written, said in ROWS:
            with self.subTest(program=name, given=given[-40:]):
                if path_of(name) is None:
                    self.skipTest(f"{name} is not built")
                self.assertEqual(ended(name, given=given), (status, written, said))

    def test_an_input_that_fails(self):
        folder = os.open(TOP, os.O_RDONLY)
        self.addCleanup(os.close, folder)
        self.for_each(lambda name: self.assertEqual(ended(name, stdin=folder), (1, b"", FAILED)))

    def test_an_output_that_fails(self):
        def check(name):
            with open("/dev/full", "wb") as full:
                self.assertEqual(ended(name, given=WORK[name], stdout=full), (1, None, FAILED))
            closed = ended(name, given=WORK[name], stdout=None, preexec_fn=lambda: os.close(1))
            self.assertEqual(closed, (1, None, FAILED))
            for word in ("--help", "--version") if name in ASKED else ():
                with open("/dev/full", "wb") as full:
                    self.assertEqual(ended(name, word, stdout=full), (1, None, FAILED))

        self.for_each(check)

    def test_nobody_reads_what_it_writes(self):
        """Its reader is gone before it writes: it notices that, and isn't ended by a signal."""
        def check(name):
            reader, writer = os.pipe()
            os.close(reader)
            with open(writer, "wb") as gone:
                self.assertEqual(ended(name, given=WORK[name], stdout=gone), (1, None, FAILED))

        self.for_each(check)

    def test_nobody_hears_what_it_says(self):
        """The status is the same if its messages can't be written."""
        def check(name):
            status = 2 if name == "cobra_demo" else 0
            nothing = {"stdin": subprocess.DEVNULL, "stdout": subprocess.DEVNULL}
            with open("/dev/full", "wb") as full, open(os.devnull, "rb") as read_only:
                for deaf in (full, read_only):
                    self.assertEqual(ended(name, stderr=deaf, **nothing)[0], status)
                    if name in ASKED:
                        self.assertEqual(ended(name, "--other", stderr=deaf), (2, b"", None))

        self.for_each(check)

    def test_a_file_is_read_to_its_end(self):
        def check(name):
            with tempfile.TemporaryFile() as script, tempfile.TemporaryFile() as output:
                script.write(SCRIPT)
                script.seek(0)
                self.assertEqual(ended(name, stdin=script, stdout=output), (0, None, b""))
                output.seek(0)
                self.assertEqual(output.read(), REPLIES)

        self.for_each(check, ("cobra_audit",))


if __name__ == "__main__":
    unittest.main()
