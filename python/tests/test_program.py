"""What the program prints about itself."""
import os
import re
import subprocess
import unittest

from zanteyard.program._auditor import PROGRAM

TOP = os.path.normpath(os.path.join(os.path.dirname(os.path.abspath(__file__)), "../.."))


def text_of(*names):
    with open(os.path.join(TOP, *names), encoding="utf-8") as file:
        return file.read()


@unittest.skipUnless(os.path.isfile(PROGRAM), f"{PROGRAM} is not built")
class Program(unittest.TestCase):
    def run_it(self, *arguments, script=""):
        ended = subprocess.run([PROGRAM, *arguments], input=script, stdout=subprocess.PIPE, stderr=subprocess.PIPE, text=True, timeout=300)
        return ended.returncode, ended.stdout, ended.stderr

    def test_arguments(self):
        self.assertEqual(self.run_it("--version"), (0, f"cobra_audit {text_of('VERSION')}", ""))
        status, told, error = self.run_it("--help")
        self.assertEqual((status, error), (0, ""))
        script, replies = re.findall(r"(?:^  [\[].*\n)+", told, re.MULTILINE)
        self.assertEqual(self.run_it(script=script), (0, re.sub("^  ", "", replies, flags=re.MULTILINE), ""))
        for other in (("script.jsonl",), ("--version", "--help"), ("",)):
            status, told, error = self.run_it(*other)
            self.assertEqual((status, told, error.count("\n")), (2, "", 1))


if __name__ == "__main__":
    unittest.main()
