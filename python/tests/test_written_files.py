"""Files that are written for people: only their owner can read them, and numbers are exact."""
import contextlib
import io
import os
import socket
import subprocess
import tempfile
import time
import unittest
from unittest import mock

from zanteyard.cli._main import main
from zanteyard.core._private_files import check_folder, private
from zanteyard.watch.pages._prometheus import text_of
from zanteyard.core.errors import FolderUnfitError, JournalError
from zanteyard.journal._file import Journal
from zanteyard.remote._connecting import Door
from zanteyard.remote._server import AuditServer

NOBODY = 65534


class PrivateFiles(unittest.TestCase):
    def setUp(self):
        folder = tempfile.TemporaryDirectory()
        self.addCleanup(folder.cleanup)
        self.path = f"{folder.name}/violation.txt"

    def rights(self):
        return os.stat(self.path).st_mode & 0o777

    def test_a_new_file_is_its_owners_alone(self):
        before = os.umask(0)
        self.addCleanup(os.umask, before)
        with open(self.path, "w", encoding="utf-8", opener=private) as file:
            file.write("a value")
        self.assertEqual(self.rights(), 0o600)

    def test_a_file_that_was_there_becomes_so(self):
        with open(self.path, "w", encoding="utf-8") as file:
            file.write("older, and longer")
        os.chmod(self.path, 0o644)
        with open(self.path, "w", encoding="utf-8", opener=private) as file:
            file.write("a value")
        self.assertEqual(self.rights(), 0o600)
        with open(self.path, encoding="utf-8") as file:
            self.assertEqual(file.read(), "a value")

    @unittest.skipIf(os.geteuid(), "only root can make another user's files")
    def test_what_another_user_has_put_there(self):
        """They could read what is written, or have a file of this user overwritten."""
        with open(self.path, "w", encoding="utf-8") as file:
            file.write("as before")
        os.chmod(self.path, 0o666)
        os.chown(self.path, NOBODY, NOBODY)
        link = f"{self.path}.link"
        own, pipe, hard = f"{self.path}.own", f"{self.path}.pipe", f"{self.path}.hard"
        with open(own, "w", encoding="utf-8") as file:
            file.write("as before")
        os.symlink(own, link)
        os.lchown(link, NOBODY, NOBODY)
        os.mkfifo(pipe)
        os.chown(pipe, NOBODY, NOBODY)
        for path in (self.path, link, pipe):
            with self.subTest(path=path), self.assertRaisesRegex(PermissionError, "another user"):
                open(path, "w", encoding="utf-8", opener=private)
        os.link(own, hard)
        with self.assertRaisesRegex(PermissionError, "another user"):
            open(hard, "w", encoding="utf-8", opener=private)
        os.unlink(hard)
        for path in (self.path, link):
            with open(path, encoding="utf-8") as file:
                self.assertEqual(file.read(), "as before")
        os.lchown(link, os.geteuid(), -1)
        with open(link, "w", encoding="utf-8", opener=private) as file:
            file.write("new")
        with open(own, encoding="utf-8") as file:
            self.assertEqual(file.read(), "new")
        self.assertEqual(os.stat(own).st_mode & 0o777, 0o600)

    def test_a_device_keeps_its_rights(self):
        before = os.stat(os.devnull).st_mode
        with open(os.devnull, "w", encoding="utf-8", opener=private) as file:
            file.write("a value")
        self.assertEqual(os.stat(os.devnull).st_mode, before)


class Folders(unittest.TestCase):
    """Folders with keys and values of an application, which nobody else may read or add to."""

    def setUp(self):
        its = tempfile.TemporaryDirectory()
        self.addCleanup(its.cleanup)
        self.folder = os.path.join(its.name, "audit")
        os.mkdir(self.folder, 0o700)

    def test_whose_folder_it_is(self):
        for mode, deed in (
            (0o700, None), (0o711, None), (0o500, None), (0o1700, None),
            (0o740, "read"), (0o704, "read"), (0o755, "read"),
            (0o720, "write"), (0o702, "write"), (0o777, "write"), (0o1777, "write"),
        ):
            with self.subTest(mode=f"{mode:o}"):
                os.chmod(self.folder, mode)
                if deed is None:
                    check_folder(self.folder)
                    continue
                with self.assertRaisesRegex(FolderUnfitError, f"other users may {deed} .*chmod go-rw"):
                    check_folder(self.folder)
                subprocess.run(["chmod", "go-rw", self.folder], check=True)  # as the message says
                check_folder(self.folder)

    def test_who_else_has_it(self):
        with mock.patch("os.geteuid", return_value=os.geteuid() + 1):
            with self.assertRaisesRegex(FolderUnfitError, "belongs to user .*mkdir -m 700"):
                check_folder(self.folder)
        link = f"{self.folder}.link"
        os.symlink(self.folder, link)
        with self.assertRaisesRegex(FolderUnfitError, "isn't a folder"):
            check_folder(link)

    def test_a_journal(self):
        os.chmod(self.folder, 0o750)
        path = os.path.join(self.folder, "journal")
        with self.assertRaisesRegex(JournalError, "other users may read .*chmod go-rw"):
            Journal(path)
        self.assertEqual(os.listdir(self.folder), [])
        link = f"{self.folder}.link"
        os.symlink(self.folder, link)
        with self.assertRaises(JournalError):
            Journal(os.path.join(link, "journal"))
        os.chmod(self.folder, 0o700)
        Journal(os.path.join(link, "journal")).close()

    def test_the_daemon(self):
        os.chmod(self.folder, 0o755)
        told = io.StringIO()
        with contextlib.redirect_stderr(told), mock.patch("signal.signal"):
            with mock.patch("logging.basicConfig"):
                self.assertEqual(main(["serve", "--folder", self.folder]), 2)
        self.assertRegex(told.getvalue(), "^mistake: .*other users may read .*chmod go-rw")
        self.assertEqual(os.listdir(self.folder), [])

    def server(self):
        live = mock.Mock()
        return AuditServer(live, os.path.join(self.folder, "socket"))

    def test_notes_that_are_anothers(self):
        """For example if the socket is in a folder that all may write, and somebody else made the
        notes' folder first."""
        notes = os.path.join(self.folder, "socket.notes")
        os.mkdir(notes, 0o777)
        os.chmod(notes, 0o777)
        with mock.patch("shutil.rmtree"):  # it fails for another user's files
            with self.assertRaisesRegex(FolderUnfitError, "other users may write"):
                self.server()
        os.chmod(notes, 0o700)
        server = self.server()
        self.assertEqual(os.stat(server.notes).st_mode & 0o777, 0o700)
        server.close(0.0)

    def door(self, notes):
        """The client's end; its server says that its notes are there."""
        none = {name: mock.Mock() for name in ("Client", "Messages", "refuse_others")}
        with mock.patch.multiple("zanteyard.remote._connecting", **none):
            door = Door("a socket")
        with mock.patch(
            "zanteyard.remote._connecting.welcomed", return_value=["its words", notes]
        ):
            return door.welcome()

    def test_notes_of_a_server_that_is_anothers(self):
        os.chmod(self.folder, 0o777)
        with self.assertRaisesRegex(FolderUnfitError, "other users may write"):
            self.door(f"{self.folder}/3")
        os.chmod(self.folder, 0o700)
        self.assertEqual(self.door(f"{self.folder}/3"), ["its words"])
        self.assertEqual(self.door(f"{self.folder}/none/3"), ["its words"])


    def test_a_socket_that_is_anothers(self):
        """Whoever made it first in a folder that all may write gets nothing."""
        os.chmod(self.folder, 0o777)
        path = f"{self.folder}/before.socket"
        listener = socket.socket(socket.AF_UNIX)
        self.addCleanup(listener.close)
        listener.bind(path)
        child = os.fork()
        if child == 0:  # it alone listens, as another user if it may
            try:
                if os.geteuid() == 0:
                    os.setuid(NOBODY)
                listener.listen()
                os._exit(listener.accept()[0].recv(100) != b"")
            finally:
                os._exit(2)
        user = os.geteuid() + (os.geteuid() != 0)
        with mock.patch("os.geteuid", return_value=user):
            with self.assertRaisesRegex(FolderUnfitError, "listens at"):
                self.door_to(path)
        self.assertEqual(os.waitstatus_to_exitcode(os.waitpid(child, 0)[1]), 0)

    def door_to(self, path):
        """A client's end, as soon as somebody listens there."""
        while True:
            try:
                return Door(path)
            except ConnectionRefusedError:
                time.sleep(0.01)


class Figures(unittest.TestCase):
    def test_each_digit_of_a_counter_is_told(self):
        samples = [((("of", 'a "name"\n\x1b\u202e'),), 123456789), ((), 0.25), ((), True), ((), 2**53 + 2)]
        text = text_of(iter([("taken_total", "counter", "Taken.", samples)]))
        self.assertEqual(
            text.splitlines()[2:],
            ['taken_total{of="a \\"name\\"\\\\x0a\\\\x1b\\\\u202e"} 123456789', "taken_total 0.25", "taken_total 1", "taken_total 9007199254740994"],
        )
