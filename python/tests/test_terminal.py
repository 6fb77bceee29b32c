"""What a terminal shows in addition: colours of verdicts, and progress."""
import os
import pty
import select
import shutil
import subprocess
import sys
import tempfile
import time
import unittest

from zanteyard.program._binaries import PROGRAM

LOST = '["open",2,8]\n["offer",0,0,[[[[5,"init"]],[5]]]]\n["offer",1,0,[[[[5,"init"]],[5]]]]\n'
SERIAL = '["open",1,8]\n["offer",0,0,[[[],[5]]]]\n'
SECONDS = 300.0  # for a program to print something
# A program that takes the second offer only when there is a file, and gives every round up when
# there is another one.
SLOW = """
import json, os, sys, time
def wait_for(name):
    while not os.path.exists("{folder}/" + name):
        time.sleep(0.05)
for line in sys.stdin:
    word, *more = json.loads(line)
    reply = ["ok"]
    if word == "offer" and more[:2] != [0, 0]:
        wait_for("goes_on")
    if word == "round":
        wait_for("ends")
        reply = ["report", 1, "spent", [500, 500, 500]]
    print(json.dumps(reply), flush=True)
"""
RED, GREEN, PLAIN = "\x1b[1;31m", "\x1b[1;32m", "\x1b[0m"


@unittest.skipUnless(os.path.isfile(PROGRAM), f"{PROGRAM} is not built")
class OnATerminal(unittest.TestCase):
    def begin(self, *words, **more):
        """The command on a terminal of its own; `seen` reads that. What is printed, and progress,
        which is on standard error, are on the same one."""
        self.seen, theirs = pty.openpty()
        self.addCleanup(os.close, self.seen)
        its = {**os.environ, "TERM": "xterm", "COBRA_AUDIT": os.path.abspath(PROGRAM), **more}
        if "NO_COLOR" not in more:
            its.pop("NO_COLOR", None)
        running = subprocess.Popen(
            [sys.executable, "-m", "zanteyard", *words],
            env=its, stdin=subprocess.PIPE, stdout=theirs, stderr=theirs,
        )
        os.close(theirs)
        self.addCleanup(running.stdin.close)
        self.addCleanup(running.kill)
        return running

    def read(self, wanted=None):
        """Reads up to the text, or to the end."""
        found, ends = "", time.monotonic() + SECONDS
        while wanted is None or wanted not in found:
            self.assertLess(time.monotonic(), ends, found)
            if not select.select([self.seen], [], [], 1.0)[0]:
                continue
            try:
                data = os.read(self.seen, 4096)
            except OSError:  # nobody has the other side
                data = b""
            if not data:
                self.assertIsNone(wanted, found)
                break
            found += data.decode()
        return found

    def of(self, script, **more):
        with tempfile.NamedTemporaryFile("w", suffix=".jsonl") as file:
            file.write(script)
            file.flush()
            running = self.begin("check", file.name, **more)
            text = self.read()
            running.wait(SECONDS)
            return text

    def test_verdicts_have_their_colours(self):
        self.assertIn(f"at the end: {RED}violated{PLAIN}: no serial order", self.of(LOST))
        self.assertIn(f"at the end: {GREEN}serial{PLAIN}: ", self.of(SERIAL))

    def test_none_where_they_arent_wanted(self):
        for more in ({"NO_COLOR": "1"}, {"TERM": "dumb"}):
            with self.subTest(more=more):
                text = self.of(LOST, **more)
                self.assertIn("at the end: violated: no serial order", text)
                self.assertNotIn("\x1b[1", text)

    def test_as_asked(self):
        for how, wanted in (("always", f"{RED}violated{PLAIN}"), ("never", "violated")):
            for words, more in ((["--color", how], {}), ([], {"ZANTEYARD_COLOR": how})):
                with self.subTest(how=how, words=words):
                    ended = subprocess.run(
                        [sys.executable, "-m", "zanteyard", "check", "-", *words], input=LOST,
                        capture_output=True, text=True,
                        env={**os.environ, "COBRA_AUDIT": os.path.abspath(PROGRAM), **more},
                    )
                    self.assertEqual((ended.returncode, ended.stderr), (1, ""))
                    self.assertIn(f"at the end: {wanted}: no serial order", ended.stdout)

    def test_none_on_a_pipe(self):
        ended = subprocess.run(
            [sys.executable, "-m", "zanteyard", "check", "-"], input=LOST, capture_output=True,
            text=True, env={**os.environ, "TERM": "xterm", "COBRA_AUDIT": os.path.abspath(PROGRAM)},
        )
        self.assertEqual(ended.returncode, 1)
        self.assertNotIn("\x1b", ended.stdout)
        self.assertEqual(ended.stderr, "")

    def test_how_far_it_is(self):
        """While it waits for the rest of a script; afterwards the line is cleared. Nothing is shown
        of what takes less than two seconds."""
        began = time.monotonic()
        running = self.begin("check", "-")
        first, second, third = LOST.splitlines(True)
        running.stdin.write((first + second).encode())
        running.stdin.flush()
        self.assertIn("(1 transaction read, ", self.read("(1 transaction read, "))
        self.assertGreater(time.monotonic() - began, 1.0)
        running.stdin.write(third.encode())
        running.stdin.close()
        text = self.read()
        before, after = text.split("at the end: ", 1)
        self.assertTrue(before.endswith("\r\x1b[K"), before)
        self.assertTrue(after.startswith(f"{RED}violated"), after)
        self.assertNotIn(" read, ", after)
        self.assertEqual(running.wait(SECONDS), 1)

    def test_of_how_many(self):
        """If the script has names, which say how many there are; and that it searches."""
        folder = tempfile.mkdtemp()
        self.addCleanup(shutil.rmtree, folder)
        history, script, slow = (f"{folder}/{name}" for name in ("a.csv", "a.jsonl", "slow"))
        rows = (f"s{at % 3},{at},write,x,{at + 1}\n" for at in range(1500))
        with open(history, "w", encoding="utf-8") as file:
            file.write("session,number,operation,key,value\n" + "".join(rows))
        words = [sys.executable, "-m", "zanteyard", "import", "csv", history, "-o", script]
        subprocess.run(words, check=True, capture_output=True)
        with open(slow, "w", encoding="utf-8", opener=as_program) as file:
            file.write(f"#!{sys.executable}\n" + SLOW.format(folder=folder))
        running = self.begin("check", script, COBRA_AUDIT=slow)
        self.read("(256 of 1,500 transactions read, ")
        open(f"{folder}/goes_on", "wb").close()
        self.read("(searching, ")
        open(f"{folder}/ends", "wb").close()
        self.assertIn("undecided: ", self.read())
        self.assertEqual(running.wait(SECONDS), 4)

    def test_that_it_is_at_work(self):
        """Commands that count nothing; a file or program has each of them wait until it is shown."""
        folder = tempfile.mkdtemp()
        self.addCleanup(shutil.rmtree, folder)
        history, script, slow = (f"{folder}/{name}" for name in ("history", "script", "slow"))
        os.mkfifo(history)
        with open(slow, "w", encoding="utf-8", opener=as_program) as file:
            waits = f"while [ ! -e {folder}/shown ]; do sleep 0.05; done"
            file.write(f'#!/bin/sh\n{waits}\nexec {os.path.abspath(PROGRAM)} "$@"\n')
        for words, shown, goes_on, wanted in (
            (("import", "csv", history, "-o", script), "(importing, ", "session,number,operation,key,value\na,0,write,x,1\n", f"{script}: "),
            (("levels", "-"), "(reading, ", LOST, "serializab"),
            (("demo", "lost-update", "--no-html"), "(checking, ", "", "violated"),
        ):
            with self.subTest(words=words):
                running = self.begin(*words, COBRA_AUDIT=slow)
                before = self.read(shown)
                open(f"{folder}/shown", "wb").close()
                if words[0] == "import":
                    with open(history, "w", encoding="utf-8") as file:
                        file.write(goes_on)
                else:
                    running.stdin.write(goes_on.encode())
                running.stdin.close()
                text = before + self.read()
                self.assertIn(wanted, text)
                self.assertNotIn(shown, text.rsplit("\r\x1b[K", 1)[1])
                running.wait(SECONDS)
                os.remove(f"{folder}/shown")


def as_program(path, flags):
    return os.open(path, flags, 0o700)


if __name__ == "__main__":
    unittest.main()
