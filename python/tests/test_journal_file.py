"""A journal's file: an incomplete record is dropped, and damage is reported."""
import os
import resource
import signal
import subprocess
import sys
import tempfile
import unittest

from zanteyard.core.errors import (
    JournalDamagedError,
    JournalError,
    JournalInUseError,
    JournalVersionError,
    ZanteyardError,
)
from zanteyard.journal._file import FIRST_LINE, Journal
from zanteyard.journal._records import record

TAKES = """
import sys
from zanteyard.journal._file import Journal
Journal(sys.argv[1])
print("taken", flush=True)
sys.stdin.read()
"""


class WithFolder(unittest.TestCase):
    def setUp(self):
        folder = tempfile.TemporaryDirectory()
        self.addCleanup(folder.cleanup)
        self.folder = folder.name
        self.path = os.path.join(self.folder, "journal")

    def journal(self, path=None):
        journal = Journal(path or self.path)
        self.addCleanup(journal.close)
        return journal

    def written(self, *texts):
        journal = Journal(self.path)
        journal.begin_anew(texts[:1])
        for each in texts[1:]:
            journal.append([each])
        journal.close()

    def bytes(self):
        with open(self.path, "rb") as file:
            return file.read()

    def overwrite(self, found):
        with open(self.path, "wb") as file:
            file.write(found)

    @staticmethod
    def room(size):
        """Limits files to this many bytes."""
        _, hard = resource.getrlimit(resource.RLIMIT_FSIZE)
        resource.setrlimit(resource.RLIMIT_FSIZE, (hard if size is None else size, hard))


class File(WithFolder):
    def test_kept(self):
        texts = [b"", b"a", b"\n" * 3, bytes(range(256)) * 300]
        self.written(*texts)
        journal = self.journal()
        self.assertEqual(journal.read(), texts)
        journal.append([b"more", b"and more"])
        self.assertEqual(journal.read(), [*texts, b"more", b"and more"])
        journal.begin_anew([b"new"])
        journal.append([b"er"])
        self.assertEqual(journal.read(), [b"new", b"er"])
        self.assertEqual(sorted(os.listdir(self.folder)), ["journal", "journal.lock"])

    def test_cut_off_at_every_byte(self):
        texts = [b"one", b"two", b"three"]
        self.written(*texts)
        whole = self.bytes()
        ends = [len(FIRST_LINE)]
        for each in texts:
            ends.append(ends[-1] + len(record(each)))
        for length in range(len(FIRST_LINE), len(whole) + 1):
            self.overwrite(whole[:length])
            journal = Journal(self.path)
            is_torn = length not in ends
            with self.assertLogs("zanteyard", "WARNING") if is_torn else self.subTest():
                self.assertEqual(journal.read(), texts[: sum(end <= length for end in ends[1:])])
            self.assertEqual(len(self.bytes()), length)
            journal.append([b"behind"])
            self.assertEqual(len(self.bytes()), max(it for it in ends if it <= length) + 18)
            self.assertEqual(journal.read()[-1], b"behind")
            journal.close()

    def test_damaged_at_every_byte(self):
        texts = [b"one", b"two", b"three"]
        self.written(*texts)
        whole = self.bytes()
        for at in range(len(whole)):
            for bit in (0, 7):
                self.overwrite(whole[:at] + bytes([whole[at] ^ 1 << bit]) + whole[at + 1 :])
                journal = Journal(self.path)
                is_first = at < len(FIRST_LINE)
                with self.assertRaises(JournalVersionError if is_first else JournalDamagedError):
                    journal.read()
                journal.close()
                self.assertEqual(len(self.bytes()), len(whole))

    def test_other_versions(self):
        for found, told in (
            (b"", "isn't a journal"),
            (b"zanteyard journal 3\n", "version 3"),
            (b"zanteyard journal 12\nwhatever", "version 12"),
            (b'["open",2,16]\n', "isn't a journal"),
        ):
            self.overwrite(found)
            journal = Journal(self.path)
            with self.assertRaisesRegex(JournalVersionError, told):
                journal.read()
            journal.close()

    def test_one_at_a_time(self):
        mine = self.journal()
        with self.assertRaises(JournalInUseError):
            Journal(self.path)
        mine.close()
        other = subprocess.Popen(
            [sys.executable, "-c", TAKES, self.path],
            cwd=os.path.dirname(os.path.dirname(os.path.abspath(__file__))),
            stdin=subprocess.PIPE,
            stdout=subprocess.PIPE,
        )
        self.assertEqual(other.stdout.readline(), b"taken\n")
        with self.assertRaises(JournalInUseError) as raised:
            Journal(self.path)
        self.assertIsInstance(raised.exception, ZanteyardError)
        os.kill(other.pid, signal.SIGKILL)
        other.communicate()
        self.journal()

    def test_no_place(self):
        file = os.path.join(self.folder, "file")
        open(file, "w").close()
        for path in (f"{file}/journal", f"{self.folder}/nowhere/journal", "/proc/journal"):
            with self.assertRaisesRegex(JournalError, "can't be locked|can't open"):
                Journal(path)

    def test_full_disk(self):
        """For each amount of free space: nothing half-written is left."""
        self.addCleanup(self.room, None)
        texts = [b"the first", b"the second", b"the third"]
        self.written(*texts)
        whole = self.bytes()
        for room in range(len(whole), len(whole) + len(record(b"another"))):
            journal = self.journal()
            journal.read()
            self.room(room)
            with self.assertRaisesRegex(JournalError, "can't be written: "):
                journal.append([b"another"])
            self.room(None)
            self.assertEqual(self.bytes(), whole)
            self.room(room)
            with self.assertRaisesRegex(JournalError, "can't be rewritten: "):
                journal.begin_anew([*texts, b"another"])
            self.room(None)
            self.assertEqual(journal.read(), texts)
            journal.close()
            self.assertEqual(sorted(os.listdir(self.folder)), ["journal", "journal.lock"])


if __name__ == "__main__":
    unittest.main()
