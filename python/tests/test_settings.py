"""Options in the environment and in a file; old names; what is said about a wrong word."""
import io
import os
import sys
import tempfile
import unittest
from contextlib import redirect_stderr
from unittest import mock

from zanteyard.cli._commands import parser
from zanteyard.cli._parsing import did_you_mean
from zanteyard.cli._settings import SettingError

URL = "postgresql://u@a/b"


def asked(*words, **environment):
    """The arguments in these words, in this environment."""
    variables = {f"ZANTEYARD_{name}": value for name, value in environment.items()}
    with mock.patch.dict(os.environ, variables):
        return parser(words[0], words).parse_args(words)


def refused(*words):
    """What is said about these words."""
    said = io.StringIO()
    with redirect_stderr(said):
        try:
            asked(*words)
        except SystemExit as ended:
            return ended.code, said.getvalue().splitlines()[-1]
    raise AssertionError("they are accepted")


class Terminal(io.StringIO):
    def isatty(self):
        return True


class Settings(unittest.TestCase):
    def setUp(self):
        folder = tempfile.TemporaryDirectory()
        self.addCleanup(folder.cleanup)
        self.path = os.path.join(folder.name, "zanteyard.toml")

    def file(self, text):
        with open(self.path, "w", encoding="utf-8") as file:
            file.write(text)
        return self.path

    def test_where_a_value_comes_from(self):
        """The command line comes first, then the environment, then the file."""
        path = self.file(f'[watch]\nurl = "{URL}"\nlisten = "a:1"\npage = "a:2"\nmetrics = "a:3"\n')
        its = asked("watch", "--config", path, "--listen", "c:1", PAGE="b:2", LISTEN="b:1")
        self.assertEqual((its.url, its.listen, its.page, its.metrics), (URL, "c:1", "b:2", "a:3"))
        its = asked("watch", URL, CONFIG=path)
        self.assertEqual((its.listen, its.save), ("a:1", None))

    def test_kinds_of_values(self):
        path = self.file(
            '[watch]\nsample = 0.5\nredact = true\njson = false\ntables = ["a.*", "b"]\n'
            'round-seconds = 3\nuntil_violation = true\nlog = "warning"\n\n[serve]\nfolder = "x"\n'
            '\n[import]\nleave-out = ["read-all"]\n'
        )
        its = asked("watch", URL, "--config", path, TAKE_OVER="yes", REQUIRE_TLS="0")
        self.assertEqual((its.sample, its.redact, its.json, its.round_seconds), (0.5, True, False, 3.0))
        self.assertEqual((its.tables.text, its.until_violation, its.log), ("a.*,b", True, 30))
        self.assertEqual((its.take_over, its.require_tls), (True, False))
        its = asked("serve", f"--config={path}")
        self.assertEqual(its.folder, "x")
        its = asked("import", "csv", "f", "-o", "s", f"--config={path}")
        self.assertEqual(its.leave_out, ["read-all"])

    def test_levels_of_the_log(self):
        for words, wanted in (((), 20), (("-q",), 30), (("-v",), 10), (("--log", "error"), 40)):
            self.assertEqual(asked("watch", URL, *words).log, wanted)
        self.assertEqual(asked("watch", URL, VERBOSE="1").log, 10)

    def test_options_of_a_store(self):
        self.assertEqual(asked("audit", "sqlite", SECONDS="7").seconds, 7.0)

    def test_wrong_values(self):
        for text, told in (
            ("[watch]\nliten = 1\n", r"\[watch\] has no option liten \(did you mean listen\?\)"),
            ("[watch]\nsample = 2\n", "sample: .* such as 0.1"),
            ("[watch]\npromise = 'snapshto'\n", r"promise: .*\(did you mean snapshot\?\)"),
            ("[watch]\nredact = 'maybe'\n", "redact is 'maybe': give true or false"),
            ("[watch]\nlisten = [1]\n", "listen can't be a list"),
            ("listen = 'a:1'\n", r"listen stands in no table, such as \[watch\]"),
            ("[watch\n", "isn't TOML"),
        ):
            with self.subTest(text=text), self.assertRaisesRegex(SettingError, told):
                asked("watch", URL, "--config", self.file(text))
        with self.assertRaisesRegex(SettingError, "the environment's ZANTEYARD_SECONDS: 'x'"):
            asked("watch", URL, SECONDS="x")
        with self.assertRaisesRegex(SettingError, "can't read .*/none"):
            asked("watch", URL, "--config", f"{self.path}/none")

    def test_what_is_for_other_commands_isnt_looked_at(self):
        path = self.file("[serve]\nnonsense = 1\n")
        self.assertEqual(asked("watch", URL, "--config", path, ELSEWHERE="x").url, URL)


class Words(unittest.TestCase):
    def test_old_names(self):
        said = Terminal()
        with redirect_stderr(said):
            self.assertEqual(asked("serve", "--journal", "x").folder, "x")
            self.assertEqual(asked("check", "f", "--seconds", "3").shrink_seconds, 3.0)
        with redirect_stderr(io.StringIO()) as silent:
            self.assertEqual(asked("serve", "--journal", "x").folder, "x")
        self.assertEqual(silent.getvalue(), "")
        self.assertEqual(
            said.getvalue().splitlines(),
            [
                "note: --journal is called --folder now",
                "note: --seconds is called --shrink-seconds now",
            ],
        )

    def test_wrong_words(self):
        for words, told in (
            (("chek", "f"), "there is no command 'chek' (did you mean check?)"),
            (("watch", "--liten", "a:1"), "watch: error: there is no option --liten (did you mean --listen?)"),
            (("watch", URL, "more"), "watch: error: unexpected: more"),
            (("audit", "sqlite", "--clents", "3"), "sqlite: error: there is no option --clents (did you mean --clients?)"),
            (("watch", "--seconds", "soon", URL), "'soon' isn't possible: give a number of at least 0, such as 30"),
            (("watch", "--seconds", "-1", URL), "give a number of at least 0, such as 30"),
            (("watch", "--most-connections", "x", URL), "'x' isn't possible: give a whole number of at least 0, such as 10"),
            (("watch", "--at-least", "most", URL), "'most' isn't possible: give a number from 0 to 100"),
            (("serve", "--metrics", "::1:9464"), "put an IPv6 address in brackets, such as [::1]:8080"),
            (("serve", "--every", "0"), "'0' isn't possible: give a whole number of at least 1"),
            (("bench", "sqlite", "--rate", "-1"), "'-1' isn't possible: give a number of at least 0.01"),
            (("watch", "--sample", "x", URL), "'x' isn't a share: give a number above 0 and at most 1"),
            (("watch", "--log", "loud", URL), "no log level 'loud': give DEBUG, INFO, WARNING or ERROR"),
            (("serve", "--sessions", "65"), "there is no value 65: give a whole number from 1 to 64"),
        ):
            with self.subTest(words=words):
                status, said = refused(*words)
                self.assertEqual(status, 2)
                self.assertIn(told, said)

    def test_nothing_is_near(self):
        self.assertEqual(did_you_mean("xyz", ["listen", "page"]), "")


if __name__ == "__main__":
    sys.exit(unittest.main())
