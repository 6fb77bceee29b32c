"""Messages about malformed lines: the column, and what was expected there."""
import glob
import io
import json
import os
import random
import subprocess
import sys
import tempfile
import unittest
from contextlib import redirect_stderr, redirect_stdout

from zanteyard.cli._main import main
from zanteyard.scripts._forms import COMMANDS, LONGEST, mistake_of
from zanteyard.program._binaries import PROGRAM

TOP = os.path.normpath(os.path.join(os.path.dirname(os.path.abspath(__file__)), "../.."))
WORKED = os.path.join(TOP, "crates/cobra_examples/data")
PLACED = ("open", "resume", "marks", "last", "resumed")  # which open a script, and are allowed nowhere else
WRONG = (
    ('["rouND",32,0,1]', 2, f"a command ({', '.join(COMMANDS)})", '"rouND"'),
    ('["round",32,0]', 14, '3 or 4 parts in "round" after its name', "2"),
    ('["round",32,0,1,"guidet"]', 17, '"guided"', '"guidet"'),
    ('["round",0,0,1]', 10, "the budget (a whole number, 1 to 4,294,967,296)", "0"),
    ('["round",1,7,1]', 12, "the depth (a whole number, 0 to 6)", "7"),
    ('["round",1,0,17]', 14, "the workers (a whole number, 1 to 16)", "17"),
    ('["offer",0,0,[[[],[5]]]', 24, '"," or "]"', "the end of the line"),
    ('["offer",0,0,[[[[5,"int"]],[5]]]]', 20, '"init"', '"int"'),
    ('["offer",0,0,[[[],[5.0]]]]', 20, "a key (a whole number)", "5.0"),
    ('["offer",0,0,[[[],[-0]]]]', 20, "a key (a whole number)", "-0"),
    ('["offer",0,0,[[]]]', 16, "2 or 3 parts in a transaction: [[read,..],[key,..]]", "0"),
    ('["offer",0,0,[[[],5]]]', 19, "the keys that it writes (a list)", "5"),
    ('["offer",0,0,[[[],[5],"abort"]]]', 23, '"aborted"', '"abort"'),
    ('["offer","0",0,[]]', 10, "a session (a whole number, 0 to 255)", '"0"'),
    ('["offer",0,0,[],7]', 17, "when each began (a list)", "7"),
    ('["offer",0,0,[],[1]]', 20, '3 or 5 parts in "offer" after its name', "4"),
    ('["offer",0,0,[],[1],[1.0]]', 22, "a time (a whole number)", "1.0"),
    ('["open",2,8,2,"snap"]', 15, '"snapshot" or "strict"', '"snap"'),
    ('["resume",2,8,2,"strict"]', 17, '"snapshot"', '"strict"'),
    ('["open",2,8,4]', 13, "2 or 3, the version of the script", "4"),
    ('["open",2,8,4,"snapshot"]', 13, "2 or 3, the version of the script", "4"),
    ('["close",256]', 10, "a session (a whole number, 0 to 255)", "256"),
    ('{"a":1}', 1, 'a list, as ["round",4096,0,1]', '{"a":1}'),
    ('["begin"] x', 11, "the end of the line", "x"),
    ("['begin']", 2, "a JSON value", "'begin']"),
    ("[]", 2, "a command", "an empty list"),
    ('["collect","wiat"]', 12, '"wait"', '"wiat"'),
    ('["save"]', 8, "what to save", "]"),
    ('["answer","order",[[0]]]', 22, "2 parts in a transaction: [session,number]", "1"),
    ('["show",]', 9, "a JSON value", "]"),
    ("[" * 40, 33, "a JSON value", "[" * 8),
)
WRONG_OF_EVENTS = (  # in scripts that ask for snapshot isolation
    ('["answer","order",[[0,0]]]', 24, '3 parts in an event: [session,number,"begin"] or "commit"', "2"),
    ('["answer","order",[[0,0,"start"]]]', 25, '"begin" or "commit"', '"start"'),
    ('["answer","order",[[0,9223372036854775808,"begin"]]]', 23,
     "a transaction's number (a whole number, 0 to 9,223,372,036,854,775,807)", "9223372036854775808"),
)


class Forms(unittest.TestCase):
    def test_what_is_said(self):
        for line, column, expected, found in WRONG:
            with self.subTest(line=line):
                wanted = f"column {column}: expected {expected}, found {found}"
                self.assertEqual(mistake_of(line.encode()), wanted)
        for line, column, expected, found in WRONG_OF_EVENTS:
            with self.subTest(line=line):
                wanted = f"column {column}: expected {expected}, found {found}"
                self.assertEqual(mistake_of(line.encode(), is_isolated=True), wanted)

    def test_bytes_that_are_no_text(self):
        self.assertEqual(mistake_of('["é'.encode() + b'\xff"]'), "column 4: the bytes there aren't UTF-8")
        long = b'["show"]' + b" " * LONGEST
        self.assertEqual(mistake_of(long), "it has 8,388,616 bytes, and a line has at most 8,388,608")

    def test_answers_about_events(self):
        for line in ('["answer","order",[]]', '["answer","order",[[0,0,"begin"],[0,0,"commit"]]]',
                     '["answer","refuted",[["nowrite",1,0,"begin",5]]]'):
            with self.subTest(line=line):
                self.assertEqual(mistake_of(line.encode(), is_isolated=True), "")
        self.assertTrue(mistake_of(b'["answer","order",[[0,0,"begin"]]]'))

    def test_lines_that_are_right(self):
        for line in (
            ' [ "open" , 2 , 8 , 2 ]\r', '["\\u0073how"]', '["join",2,[]]', '["join",2,0,[[[],[]]]]',
            '["save","remain",0,18446744073709551615]', '["answer","refuted",[["nowrite",1,0,5]]]',
            '["open",2,8,2,"snapshot"]', '["collect","wait"]', '["last",[[0,0,1]]]',
            '["open",256,1048576,3]', '["resume",2,8,3]', '["open",256,524288,3,"snapshot"]',
            '["marks",[2,0],[false,true]]', '["rebuild"]', '["resume",2,8,2,"snapshot"]',
            '["marks",[2,0],[false,true],[true,false]]', '["open",2,8,3,"strict"]',
            '["offer",0,0,[[[],[]]],[0],[18446744073709551615]]',
        ):
            with self.subTest(line=line):
                self.assertEqual(mistake_of(line.encode()), "")


@unittest.skipUnless(os.path.isfile(PROGRAM), f"{PROGRAM} is not built")
class AsTheAuditorSays(unittest.TestCase):
    def replies_to(self, lines):
        script = "".join(f"{line}\n" for line in ('["open",2,64,2]', *lines))
        ended = subprocess.run([PROGRAM], input=script.encode(), capture_output=True, timeout=300)
        self.assertEqual((ended.returncode, ended.stderr), (0, b""))
        return [json.loads(it) for it in ended.stdout.splitlines()[1:]]

    def test_it_finds_a_mistake_where_the_auditor_does(self):
        """In the forms above and in worked scripts, each changed at one random place."""
        chance = random.Random(7)
        lines = [line for line, *_ in WRONG if "\n" not in line]
        for path in sorted(glob.glob(f"{WORKED}/*.jsonl"))[:40]:
            with open(path, encoding="utf-8") as file:
                lines += [line for line in file.read().splitlines() if line and len(line) < 400]
        lines += [changed(chance.choice(lines), chance) for _ in range(600)]
        placed = tuple(f'"{name}"' for name in (*PLACED, "answer"))
        lines = [line for line in lines if not line.lstrip(" \t[").startswith(placed)]
        replies = self.replies_to(lines)
        self.assertEqual(len(replies), len(lines))
        wrong = 0
        for line, reply in zip(lines, replies):
            with self.subTest(line=line):
                is_bad = reply == ["no", 1, "BadLine"]
                self.assertEqual(bool(mistake_of(line.encode())), is_bad, reply)
                wrong += is_bad
        self.assertGreater(wrong, 100)
        self.assertGreater(len(lines) - wrong, 100)

    def test_it_is_said_by_the_command(self):
        opened, version_1 = '["open",2,8,2]', '["open",2,8]'
        aborted = '["offer",0,0,[[[],[5],"aborted"]]]'
        begins = 'a script begins with ["open",..], or by ["resume",..] up to ["resumed"]'
        for lines, number, wanted in (
            ([opened, '["round",32,0]'], 2, WRONG[1][2] + ", found 2"),
            (['["round",32,0,1]'], 1, begins),
            ([opened, opened], 2, "the script is open already"),
            ([version_1, aborted], 2, '"aborted" needs a script of version 2'),
            (['["resume",1,8]', '["round",32,0,1]'], 2, 'up to ["resumed"] only the saved state'),
            ([opened, '["rouND"]'], 2, "column 2: expected a command (answer, begin, "),
        ):
            with self.subTest(lines=lines), tempfile.NamedTemporaryFile("w", suffix=".jsonl") as file:
                file.write("".join(f"{line}\n" for line in lines))
                file.flush()
                out, err = io.StringIO(), io.StringIO()
                with redirect_stdout(out), redirect_stderr(err):
                    status = main(["check", file.name])
                self.assertEqual((status, out.getvalue()), (2, ""))
                told = f"mistake: line {number} was refused: BadLine: "
                self.assertTrue(err.getvalue().startswith(told), err.getvalue())
                self.assertIn(wanted, err.getvalue())


def changed(line, chance):
    """One character is left out, doubled or replaced."""
    at = chance.randrange(len(line))
    other = chance.choice('[],"0123456789-.e x')
    return line[:at] + chance.choice(("", line[at] * 2, other, other + line[at])) + line[at + 1 :]


if __name__ == "__main__":
    sys.exit(unittest.main())
