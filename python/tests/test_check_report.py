"""`cobra_check` accepts stored replies of the worked scripts, refuses changed ones, and agrees with
a plain checker about the changes."""

import contextlib
import glob
import importlib.util
import io
import json
import os
import random
import subprocess
import unittest

from zanteyard.program._binaries import checker_path

from .mutated_replies import mutations

PLAIN = os.path.join(os.path.dirname(__file__), "../../examples/check_reports.py")
DATA = os.path.join(os.path.dirname(__file__), "../../crates/cobra_examples/data")
RESUMED = os.path.join(DATA, "resumed.jsonl")


def lines_of(path):
    with open(path, "rb") as file:
        return file.read().splitlines()


def resumes(path):
    """Whether a line of it resumes, and isn't refused as a line: what had gone before isn't shown."""
    turns = zip(lines_of(path), lines_of(path[: -len("jsonl")] + "replies"))
    return any(line.startswith(b'["resume') and b"BadLine" not in reply for line, reply in turns)


def asks_for_isolation(path):
    return lines_of(path)[0].endswith(b',"snapshot"]')


def asks_for_strictness(path):
    """Whether a line of it opens a script that asks for strict serializability, which isn't checked yet."""
    return any(line.endswith(b',"strict"]') for line in lines_of(path))


ALL = sorted(glob.glob(os.path.join(DATA, "*.jsonl")))
WHOLE = [path for path in ALL if not resumes(path) and not asks_for_strictness(path)]
SCRIPTS = [path for path in WHOLE if not asks_for_isolation(path)]


def checked(script, replies):
    """The checker's run over these lines."""
    turns = b"".join(b"%s\n%s\n" % both for both in zip(script, replies))
    return subprocess.run([checker_path()], input=turns, stdout=subprocess.PIPE)


def status_of(script, replies):
    """Its exit status."""
    return checked(script, replies).returncode


def changes(reply):
    """The reply with each digit changed in turn, with a byte missing, and with a word changed."""
    if b'"begin"' in reply:
        yield reply.replace(b'"begin"', b'"commit"', 1)
    for at, byte in enumerate(reply):
        if 48 <= byte <= 57:
            yield reply[:at] + bytes([48 + (byte - 47) % 10]) + reply[at + 1:]
    yield reply[:-2] + reply[-1:]
    yield reply.replace(b"serial", b"pending") if b"serial" in reply else reply + b" "


def plain_checker():
    """examples/check_reports.py as a module."""
    spec = importlib.util.spec_from_file_location("check_reports", PLAIN)
    module = importlib.util.module_from_spec(spec)
    spec.loader.exec_module(module)
    return module


def plainly_right(plain, script, replies):
    """The plain checker's verdict. It judges well-formed reports and cuts; it may fail at anything
    else, which counts as wrong."""
    with contextlib.redirect_stdout(io.StringIO()):
        try:
            return plain.check_run(script, replies) == 0
        except (ValueError, TypeError, IndexError, KeyError):
            return False


def has_certificate(changed, reply):
    """Whether the two checkers have to agree on the changed reply: both replies are reports of the
    same round (the plain checker ignores its number), and a spent report claims nothing."""
    changed, reply = json.loads(changed), json.loads(reply)
    return changed[0] == reply[0] == "report" and changed[1] == reply[1]


@unittest.skipUnless(os.access(checker_path(), os.X_OK), "cobra_check isn't built")
class StoredReplies(unittest.TestCase):
    def test_worked_replies_are_right(self):
        self.assertLess(len(SCRIPTS), len(WHOLE))
        for path in WHOLE:
            with self.subTest(os.path.basename(path)):
                replies = lines_of(path[: -len("jsonl")] + "replies")
                self.assertEqual(status_of(lines_of(path), replies), 0)

    def test_a_script_that_resumes_another_is_not_checked(self):
        script, replies = lines_of(RESUMED), lines_of(RESUMED[: -len("jsonl")] + "replies")
        ended = checked(script, replies)
        self.assertEqual(ended.returncode, 4)
        self.assertEqual(ended.stdout,
                         b"reply 2 not checked: its script resumes another, and what had gone before "
                         b"isn't shown\nunchecked: replies 2 reports 0 spent 0 not-checked 1\n")
        self.assertTrue(plainly_right(plain_checker(), script, replies))

    def test_a_script_that_asks_for_strict_serializability_is_not_checked(self):
        for path in filter(asks_for_strictness, ALL):
            with self.subTest(os.path.basename(path)):
                script, replies = lines_of(path), lines_of(path[: -len("jsonl")] + "replies")
                ended = checked(script, replies)
                at = next(at for at, turn in enumerate(zip(script, replies), 1)
                          if turn[0].startswith(b'["open",') and b"BadLine" not in turn[1])
                self.assertEqual(ended.returncode, 4)
                self.assertEqual(ended.stdout,
                                 b"reply %d not checked: its script asks for strict serializability\n"
                                 b"unchecked: replies %d reports 0 spent 0 not-checked 1\n" % (at, at))

    def test_a_cut_from_before_a_join_is_wrong(self):
        name = os.path.join(DATA, "join_drops_the_cut.")
        script, replies = lines_of(name + "jsonl"), lines_of(name + "replies")
        at = script.index(b'["truncate"]')
        self.assertEqual(script.index(b'["truncate"]', at + 1), len(script) - 1)
        self.assertTrue(plainly_right(plain_checker(), script, replies))
        script, replies = script[: at + 1], [*replies[:at], replies[-1]]
        self.assertEqual(json.loads(replies[-1])[0], "cut")
        self.assertEqual(status_of(script, replies), 3)
        self.assertFalse(plainly_right(plain_checker(), script, replies))

    def test_changed_replies_are_wrong(self):
        isolated = ("isolation_cut", "isolation_lost_update", "isolation_uncommitted_read")
        for name in ("three_rounds", "lost_update", "first_cut", *isolated):
            script = lines_of(os.path.join(DATA, name + ".jsonl"))
            replies = lines_of(os.path.join(DATA, name + ".replies"))
            for at, reply in enumerate(replies):
                for changed in changes(reply):
                    with self.subTest(name, reply=at + 1, changed=changed):
                        stored = replies[:at] + [changed] + replies[at + 1:]
                        self.assertEqual(status_of(script, stored), 3)

    def test_both_checkers_agree_on_mutations(self):
        plain, tried, still_right = plain_checker(), 0, 0
        for path in SCRIPTS:
            script, replies = lines_of(path), lines_of(path[: -len("jsonl")] + "replies")
            draw = random.Random(os.path.basename(path))
            for at, name, changed in mutations(draw, replies):
                with self.subTest(os.path.basename(path), reply=at + 1, by=name, changed=changed):
                    stored = replies[:at] + [changed] + replies[at + 1:]
                    right = status_of(script[: at + 1], stored[: at + 1]) == 0
                    plainly = plainly_right(plain, script[: at + 1], stored[: at + 1])
                    tried, still_right = tried + 1, still_right + right
                    if right:
                        self.assertTrue(plainly, "right by cobra_check alone")
                        if status_of(script, stored) == 0:
                            self.assertTrue(plainly_right(plain, script, stored))
                    elif has_certificate(changed, replies[at]):
                        self.assertFalse(plainly, "right by check_reports.py alone")
        self.assertGreater(tried, 400)
        self.assertGreater(still_right, 20)
