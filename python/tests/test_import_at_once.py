"""What the program zanteyard-proxy makes of a plain history of Jepsen is what is made of it here, in
each byte; what isn't plain, it leaves alone."""
import contextlib
import io
import os
import tempfile
import unittest
from collections import Counter
from unittest import mock

from zanteyard.cli._main import main
from zanteyard.core.errors import ImportRefusedError
from zanteyard.imports import _at_once, _script
from zanteyard.imports._at_once import written_at_once
from zanteyard.imports._command import import_text, write
from zanteyard.program._binaries import PROGRAM
from zanteyard.program._proxy_program import proxy_path
from zanteyard.scripts._names import NAMES, names_just_written, read_names
from zanteyard.scripts._times import TIMES

from . import recordings, test_import_fast
from .test_import import SAMPLES, mutated, wanted
from .test_import_fast import as_jepsen, as_json_lines

ENDS = ("", NAMES, TIMES)
TRANSACTION = """\
{:type :invoke, :f :txn, :value [[:append 1 1]], :process 0, :time 1, :index 0}
{:type :ok, :f :txn, :value [[:append 1 1]], :process 0, :time 2, :index 1}
"""
READING = """\
{:type :invoke, :f :txn, :value [[:r 1 nil]], :process 1, :time 3, :index 2}
{:type :ok, :f :txn, :value [[:r 1 [1]]], :process 1, :time 4, :index 3}
"""
LISTS = TRANSACTION + READING


def at_once(form, text, asks_time=False):
    """The files that the program writes and the sentences about them; None if it leaves the history
    alone."""
    with written_at_once(form, text.encode(), asks_time) as written:
        if written is None:
            return None
        return [*map(read, (written.script + end for end in ENDS)), written.about]


def here(form, text, asks_time=False):
    """The same, made here; or why nothing is."""
    try:
        with tempfile.TemporaryDirectory() as folder:
            script = os.path.join(folder, "script")
            imported = import_text(form, text, asks_time=asks_time)
            write(imported, script)
            return [*map(read, (script + end for end in ENDS)), imported.about]
    except ImportRefusedError as error:
        return str(error)


def read(path):
    if not os.path.exists(path):
        return None
    with open(path, "rb") as file:
        return file.read()


@unittest.skipUnless(os.path.isfile(proxy_path()), f"{proxy_path()} is not built")
class AtOnce(unittest.TestCase):
    def setUp(self):
        """Histories are small here, and no other process writes them."""
        for patch in (
            mock.patch.object(_at_once, "LEAST", 0),
            mock.patch.object(_script, "MANY", 0),
            mock.patch("os.sched_getaffinity", lambda _: range(1)),
        ):
            patch.start()
            self.addCleanup(patch.stop)

    def histories(self, count):
        for form in test_import_fast.Fast.FORMS:
            for seed in range(3000, 3000 + count):
                attempts, random_ = wanted(form, seed)
                yield form, as_jepsen(recordings.as_edn(attempts, random_)), random_
                yield form, as_json_lines(recordings.as_json(attempts, random_)), random_

    def test_the_same_bytes(self):
        """Of histories of which half have no order, with aborted and unknown attempts."""
        counts, words = Counter(), Counter()
        for form, text, random_ in self.histories(40):
            for changed in (text, mutated(text, random_)):
                asks_time = random_.random() < 0.3
                with self.subTest(form=form, text=changed, asks_time=asks_time):
                    found = at_once(form, changed, asks_time)
                    if found is not None:
                        self.assertEqual(found, here(form, changed, asks_time))
                        words.update(word for line in found[3] for word in line.split())
                counts[form, text.startswith('{"'), found is not None] += 1
        taken = [count for (_, _, is_taken), count in counts.items() if is_taken]
        self.assertEqual(len(taken), 4, counts)
        self.assertGreater(min(taken), 10, counts)
        for word in ("failed:", "unknown", "strict", "attempts"):
            self.assertGreater(words[word], 5, word)

    def test_longer_ones(self):
        """A thousand transactions that read lists of one another."""
        lines = []
        for number in range(1000):
            key, size = number // 40, number % 40 + 1
            appended = f"[:append {key} {size}]"
            seen = f"[:r {key} [{' '.join(map(str, range(1, size + 1)))}]]"
            for kind, value in (("invoke", "nil"), ("ok", seen[len(f"[:r {key} "):-1])):
                lines.append(
                    f"{{:type :{kind}, :f :txn, :value [{appended} [:r {key} {value}]], "
                    f":process {number % 7}, :time {len(lines) * 10}, :index {len(lines)}}}\n"
                )
        text = "".join(lines)
        found = at_once("jepsen-lists", text)
        self.assertEqual(found, here("jepsen-lists", text))
        self.assertIn("1,000 transactions in 7 sessions", found[3])

    def test_what_the_nemesis_does_is_passed_over(self):
        plain = at_once("jepsen-lists", LISTS)
        self.assertEqual(plain, here("jepsen-lists", LISTS))
        for value in ("nil", ":all", '{"n1" :killed, "n2" [1 2 {:a 1}]}', "[:isolated #{1 2}]", '"x"',
                      "1.5", "(1 2)"):
            line = f"{{:type :info, :f :start, :value {value}, :process :nemesis, :time 2}}\n"
            text = TRANSACTION + line + READING
            with self.subTest(value=value):
                self.assertEqual(at_once("jepsen-lists", text), here("jepsen-lists", text))
                self.assertIsNotNone(at_once("jepsen-lists", text))

    def test_what_is_left_alone(self):
        """It is read here, or refused with the words that it had before."""
        for old, new in (
            (":ok", ":okay"), (":f :txn", ":f :read"), ("[1]", "[2]"), ("[1]", "[1 1]"),
            ("[1]", "[1.0]"), ("[1]", "(1)"), (":append", ":w"), (":time 4", ":time 1"),
            (":time 4", ":time -4"), (":index 3", ":index x"), (":process 1", ":process 0x"),
            (":index 3", ":time 3"), ("}\n", "} {}\n"), ("}\n", "} ; end\n"), ("\n", "\n#_x\n"),
            ('1]]', '"ü"]]'), (":type", ":typ"), ("{:type :ok", "[{:type :ok"), (", ", ",  "),
            (":process 0, :time 2", ":process 5, :time 2"), ("[[:r 1 [1]]]", "[]"),
            ("[[:r 1 [1]]]", "nil"), ("\n", "\n\n\x0c"), ("[:append 1 1]]", "[:append 1 2]]"),
        ):
            text = LISTS.replace(old, new) if old != "}\n" else LISTS.replace(old, new, 1)
            with self.subTest(old=old, new=new):
                self.assertNotEqual(text, LISTS)
                self.assertIsNone(at_once("jepsen-lists", text))
        for text in ("", "\n", "[]", "{}", "{:a}", LISTS[:-3], LISTS[:100]):
            self.assertIsNone(at_once("jepsen-lists", text))
        self.assertIsNone(at_once("polysi", LISTS))

    def test_each_character_changed(self):
        """No character decides alone what is plain: what is taken is what is made here."""
        taken = 0
        for at in range(len(LISTS)):
            for number, other in enumerate(("", " ", "1", "]", '"', ":")):
                if at % 4 != number % 4:
                    continue
                text = LISTS[:at] + other + LISTS[at + 1:]
                found = at_once("jepsen-lists", text)
                if found is not None:
                    taken += 1
                    self.assertEqual(found, here("jepsen-lists", text), text)
        self.assertGreater(taken, 20)

    def test_a_program_that_fails(self):
        """Without the program, or with an older one, everything is read here."""
        for program in ("/nowhere/zanteyard-proxy", "/bin/false", "/bin/true", "/bin/echo", "/"):
            with mock.patch.object(_at_once, "proxy_path", lambda it=program: it):
                with self.assertNoLogs("zanteyard", "WARNING"):
                    self.assertIsNone(at_once("jepsen-lists", LISTS))
        with mock.patch.object(tempfile, "TemporaryDirectory", side_effect=OSError("no room")):
            self.assertIsNone(at_once("jepsen-lists", LISTS))
        with mock.patch.object(_at_once, "LEAST", len(LISTS) + 1):
            self.assertIsNone(at_once("jepsen-lists", LISTS))
        with mock.patch.object(_script, "MANY", 3):
            self.assertIsNone(at_once("jepsen-lists", LISTS))

    def test_names_are_read_when_they_are_wanted(self):
        with written_at_once("jepsen-lists", LISTS.encode(), False) as written:
            whole, why_not = read_names(written.script)
            late = names_just_written(written.script)
        self.assertEqual(why_not, "")
        self.assertEqual(late.name((1, 0)), whole.name((1, 0)))
        self.assertEqual([[*session] for session in late.transactions], whole.transactions)
        self.assertEqual(late.keys, whole.keys)

    @unittest.skipUnless(os.path.isfile(PROGRAM), f"{PROGRAM} is not built")
    def test_commands_say_the_same(self):
        violated = LISTS.replace(":process 1", ":process 0").replace(":r 1 [1]", ":r 1 nil")
        with tempfile.TemporaryDirectory() as folder:
            path, statuses = os.path.join(folder, "history.edn"), []
            for text in (LISTS, violated):
                with open(path, "w", encoding="utf-8") as file:
                    file.write(text)
                for words in (("check", path), ("explain", path), ("check", "--json", path),
                              ("check", "--promise", "strict", path),
                              ("import", "jepsen-lists", path, "-o", f"{folder}/script")):
                    with self.subTest(text=text, words=words):
                        found = [self.ran(words), *map(read, (f"{folder}/script{end}" for end in ENDS))]
                        with mock.patch.object(_at_once, "LEAST", 1 << 40):
                            wanted_ = [self.ran(words),
                                       *map(read, (f"{folder}/script{end}" for end in ENDS))]
                        self.assertEqual(found, wanted_)
                        statuses.append(found[0][0])
            self.assertEqual(os.stat(f"{folder}/script").st_mode & 0o777, 0o600)
        self.assertEqual(statuses, [0, 0, 0, 0, 0, 1, 1, 1, 1, 0])

    @staticmethod
    def ran(words):
        out = io.StringIO()
        with contextlib.redirect_stdout(out):
            status = main(words)
        return status, out.getvalue()

    def test_samples(self):
        """The samples that are plain are taken."""
        for name in ("lists.edn", "registers.json"):
            with open(os.path.join(SAMPLES, name), encoding="utf-8") as file:
                text = file.read()
            form = "jepsen-lists" if name == "lists.edn" else "jepsen-registers"
            found = at_once(form, text)
            if found is not None:
                self.assertEqual(found, here(form, text))


if __name__ == "__main__":
    unittest.main()
