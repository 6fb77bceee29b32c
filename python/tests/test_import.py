"""Imports of other tools' histories: the verdict is that of the values, in each format."""
import contextlib
import io
import json
import os
import re
import tempfile
import unittest
from collections import Counter

from zanteyard.imports import _script as import_script
from zanteyard.imports import _command as import_command
from zanteyard.program._auditor import PROGRAM
from zanteyard.cli._main import main
from zanteyard.imports._edn import EdnReader, Keyword
from zanteyard.core.errors import ImportRefusedError
from zanteyard.imports._times import Times
from zanteyard.imports._command import FORMS, import_text
from zanteyard.imports._script import script_of
from zanteyard.imports._recording import ABORTED, COMMITTED, UNKNOWN
from zanteyard.scripts._times import read_times
from zanteyard.scripts._running import ScriptRun
from zanteyard.imports._sources import Sources
from zanteyard.promises._asking import Asking
from zanteyard.promises._kinds import STRICT

from . import plain_readers, recordings
from .recordings import attempts_of, judged, judged_script, nobodys, seeded

TOP = os.path.normpath(os.path.join(os.path.dirname(os.path.abspath(__file__)), "../.."))
SAMPLES = os.path.join(TOP, "examples/imports")
WRITERS = {
    "jepsen-registers as EDN": ("jepsen-registers", recordings.as_edn),
    "jepsen-registers as JSON": ("jepsen-registers", recordings.as_json),
    "jepsen-lists as EDN": ("jepsen-lists", recordings.as_edn),
    "jepsen-lists as JSON": ("jepsen-lists", recordings.as_json),
    "dbcop": ("dbcop", recordings.as_dbcop),
    "polysi": ("polysi", recordings.as_polysi),
    "csv": ("csv", recordings.as_csv),
}
SAID = {"dbcop": (COMMITTED, ABORTED), "polysi": (COMMITTED,)}  # other formats have all outcomes
VERDICTS = ("serial", "violated", "pending")
PLAIN = {
    "jepsen-registers as EDN": plain_readers.read_edn,
    "jepsen-registers as JSON": plain_readers.read_json,
    "jepsen-lists as EDN": plain_readers.read_edn,
    "jepsen-lists as JSON": plain_readers.read_json,
    "dbcop": plain_readers.read_dbcop,
    "polysi": plain_readers.read_polysi,
    "csv": plain_readers.read_csv,
}


def wanted(form, seed):
    """A history that the format can express, and the random numbers used."""
    random_ = seeded(seed)
    attempts = recordings.made(random_, form == "jepsen-lists")
    said = SAID.get(form, (COMMITTED, ABORTED, UNKNOWN))
    attempts = [one for one in attempts if one.outcome in said]
    return attempts or [recordings.Made(0, COMMITTED, [("r", 1, None)])], random_


def sample(name):
    with open(os.path.join(SAMPLES, name), encoding="utf-8") as file:
        return file.read()


def run(*words):
    out, err = io.StringIO(), io.StringIO()
    with contextlib.redirect_stdout(out), contextlib.redirect_stderr(err):
        status = main(words)
    return status, out.getvalue(), err.getvalue()


def verdict_of(form, text, **more):
    """The verdict, from trying every order of the script."""
    return judged_script(import_text(form, text, **more).lines)


class Generated(unittest.TestCase):
    def test_two_hundred_histories_in_each_form(self):
        for told, (form, written) in WRITERS.items():
            verdicts = Counter()
            for seed in range(200):
                attempts, random_ = wanted(form, seed)
                text = written(attempts, random_)
                with self.subTest(form=told, seed=seed, text=text):
                    try:
                        verdict = verdict_of(form, text)
                    except ImportRefusedError as error:
                        verdict = "refused"
                        self.assertRegex(str(error), "more than once|no transaction was committed")
                    else:
                        right = judged(attempts_of(attempts, form == "jepsen-lists"))
                        self.assertIn(verdict, right)
                    verdicts[verdict] += 1
            for verdict in VERDICTS:
                self.assertGreaterEqual(verdicts[verdict], 8, (told, verdicts))

    @unittest.skipUnless(os.path.isfile(PROGRAM), f"{PROGRAM} is not built")
    def test_the_auditor_gives_the_verdict_of_every_order(self):
        for told, (form, written) in WRITERS.items():
            for seed in range(200, 220):
                try:
                    imported = import_text(form, written(*wanted(form, seed)))
                except ImportRefusedError:
                    continue
                with self.subTest(form=told, seed=seed), ScriptRun(PROGRAM) as asked:
                    (verdict,) = asked.verdicts(line.encode() for line in imported.lines)
                    self.assertEqual(verdict.kind, judged_script(imported.lines))

    def test_what_is_written_is_read(self):
        """The values of each format are read back correctly, whatever the verdict."""
        for told, (form, written) in WRITERS.items():
            for seed in range(60):
                attempts, random_ = wanted(form, seed)
                with self.subTest(form=told, seed=seed):
                    found = FORMS[form].read(written(attempts, random_)).attempts
                    self.assertEqual(deeds_of(found), deeds_of(attempts_of(
                        attempts, form == "jepsen-lists"
                    )))


def mutated(text, random_):
    """The text with one or two small changes."""
    for _ in range(random_.randint(1, 2)):
        if not text.strip():
            break
        at = random_.randrange(len(text))
        lines = text.splitlines(keepends=True)
        one, other = random_.randrange(len(lines)), random_.randrange(len(lines))
        words = [*re.finditer(r"\w+|\S", text)]
        first, second = random_.choice(words), random_.choice(words)
        text = random_.choice((
            lambda: text[:at] + text[at + 1 :],
            lambda: text[:at] + random_.choice('01239"[]{}(),:; nrwx\n') + text[at:],
            lambda: text[:at] + random_.choice("0123") + text[at + 1 :],
            lambda: text[:at],
            lambda: "".join(lines[:one] + lines[one + 1 :]),
            lambda: "".join(lines[: one + 1] + lines[one:]),
            lambda: "".join([*lines[:one], lines[other], *lines[one + 1 :]]),
            lambda: text[: first.start()] + second[0] + text[first.end() :],
            lambda: re.sub(r"\b\d+\b", str(random_.randrange(6)), text, count=1),
            lambda: text.replace("ok", random_.choice(("fail", "info")), 1),
        ))()
    return text


class Mutated(unittest.TestCase):
    def test_a_thousand_files_are_refused_with_a_line_or_right(self):
        told, random_ = Counter(), seeded(1)
        texts = {
            told: [written(*wanted(form, seed)) for seed in range(40)]
            for told, (form, written) in WRITERS.items()
        }
        for form, name, _ in Samples().shown():
            kind = {"edn": " as EDN", "json": " as JSON"}.get(name.split(".")[1], "")
            texts[form + kind if form + kind in texts else form].append(sample(name))
        for count in range(1000):
            kind = random_.choice([*WRITERS])
            text = mutated(random_.choice(texts[kind]), random_)
            with self.subTest(count=count, kind=kind, text=text):
                told[self.outcome_of(kind, text)] += 1
        for outcome in ("refused", *VERDICTS):
            self.assertGreaterEqual(told[outcome], 15, told)

    def outcome_of(self, kind, text):
        form = WRITERS[kind][0]
        try:
            found = FORMS[form].read(text)
            verdict = judged_script(script_of(found).lines)
        except ImportRefusedError as error:
            if not re.search("no transaction was committed", error.why):
                self.assertIn(error.line_number, range(1, text.count("\n") + 2), error)
            return "refused"
        self.assertIn(verdict, judged(found.attempts))
        is_of_lists = form == "jepsen-lists"
        plain = attempts_of(PLAIN[kind](text), is_of_lists)
        self.assertEqual(deeds_of(found.attempts), deeds_of(plain))
        return verdict


class Refusals(unittest.TestCase):
    def test_each_has_its_line(self):
        ok = "{:process 0 :type :%s :f :txn :value [%s]}\n"

        def edn(*micros):
            """Operations of processes 0, 1 and so on, in this order."""
            return "".join(
                (ok % ("invoke", it) + ok % ("ok", it)).replace(":process 0", f":process {at}")
                for at, it in enumerate(micros)
            )

        w1, r1 = "[:w :x 1]", "[:r :x 1]"
        csv = "session,number,operation,key,value\n"
        event = '{"write": true, "variable": 0, "value": %s, "success": %s}'
        dbcop = '[\n[{"events": [%s], "success": true}]]'
        rows = (
            ("jepsen-registers", edn(w1, w1, r1), 6, "lines 2, 4"),
            (
                "jepsen-registers",
                ok % ("invoke", w1) + ok % ("fail", w1) + edn(w1, r1),
                6,
                "once",
            ),
            ("jepsen-registers", edn("[:w :x nil]"), 1, "a written value"),
            ("jepsen-registers", edn("[:w 1.5 1]"), 1, "a key"),
            ("jepsen-registers", edn("[:append :x 1]"), 1, "r and w"),
            ("jepsen-registers", edn("[:r :x [1]]"), 1, "a value"),
            ("jepsen-registers", edn("[:r :x]"), 1, "micro-operation"),
            ("jepsen-registers", edn(w1).replace("txn", "read"), 1, "function"),
            ("jepsen-registers", edn(w1).replace(":process 0", ":process :a"), 1, "process"),
            ("jepsen-registers", edn(w1).replace(":ok", ":oops"), 2, "type"),
            ("jepsen-registers", ok % ("ok", w1), 1, "didn't invoke"),
            ("jepsen-registers", (ok % ("invoke", w1)) * 2, 2, "in flight"),
            ("jepsen-registers", ok % ("invoke", w1) + ok % ("ok", r1), 2, "isn't the operation"),
            ("jepsen-registers", ok % ("invoke", w1) + ok % ("ok", ""), 2, "isn't the operation"),
            ("jepsen-registers", edn(w1) + "17", 3, "a map"),
            ("jepsen-registers", edn(w1) + "{", 3, "isn't closed"),
            ("jepsen-registers", "", 1, "no client operation"),
            (
                "jepsen-registers",
                ok % ("invoke", w1) + ok % ("info", w1) + ok % ("invoke", r1) + ok % ("ok", r1),
                4,
                "continues after its attempt on line 1",
            ),
            ("jepsen-lists", edn("[:append 1 1]", "[:append 1 1]", "[:r 1 [1]]"), 6, "once"),
            ("jepsen-lists", edn("[:append 1 1] [:append 1 1]", "[:r 1 [1]]"), 4, "once"),
            ("jepsen-lists", edn("[:r 1 1]"), 1, "a list"),
            ("jepsen-lists", edn("[:r 1 [nil]]"), 1, "a list element"),
            ("jepsen-lists", edn("[:w 1 1]"), 1, "r and append"),
            ("jepsen-registers", '{"process": 0, "process": 0}', 1, "twice"),
            ("jepsen-registers", '[{"process": 0.5}]', 1, "process"),
            ("jepsen-registers", '{"process": true}', 1, "process"),
            ("jepsen-registers", '[\n{"process": NaN}]', 2, "isn't JSON"),
            ("csv", "a,b\n", 1, "first line"),
            ("csv", csv + "a,0,read,x\n", 2, "fields"),
            ("csv", csv + "a,0,look,x,1\n", 2, "one of read, write"),
            ("csv", csv + "a,-1,read,x,1\n", 2, "a whole number"),
            ("csv", csv + "a,1,read,x,\na,0,read,x,\n", 3, "ascend"),
            ("csv", csv + "a,0,commit,,\na,0,read,x,\n", 3, "ended"),
            ("csv", csv + "a,0,commit,x,\n", 2, "neither"),
            ("csv", csv + "a,0,write,x,\n", 2, "no value"),
            ("csv", csv + 'a,0,write,x,"1\n', 2, "isn't CSV"),
            ("csv", csv, 1, "no transaction"),
            ("polysi", "w(1,1,0,0)\nw(1,1,0)\n", 2, "a line must be"),
            ("polysi", "w(1,1,0,0)\nw(1,2,1,0)\n", 2, "in session 0"),
            ("polysi", "w(1,1,0,0)\nw(1,2,0,1)\nw(2,2,0,0)\n", 3, "ended"),
            ("polysi", "w(1,0,0,0)\n", 1, "initial value"),
            ("dbcop", dbcop % (event % (1, "false")), 2, "its events didn't"),
            ("dbcop", dbcop % (event % ("0", "true")), 2, "initial value"),
            ("dbcop", dbcop % (event % ("null", "true")), 2, "no value"),
            ("dbcop", dbcop % '{"write": true}', 2, "an event must have"),
            ("dbcop", '{"data": 1}', 1, "list of sessions"),
            ("dbcop", '{"data": []} 1', 1, "text after"),
        )
        for form, text, line, why in rows:
            with self.subTest(form=form, text=text):
                with self.assertRaisesRegex(ImportRefusedError, why) as raised:
                    import_text(form, text)
                self.assertEqual(raised.exception.line_number, line, raised.exception)

    def test_it_is_told_and_nothing_is_written(self):
        with tempfile.TemporaryDirectory() as folder:
            path, script = os.path.join(folder, "a.csv"), os.path.join(folder, "a.jsonl")
            with open(path, "wb") as file:
                file.write(b"session,number,operation,key,value\na,0,read,\xff,\n")
            status, out, err = run("import", "csv", path, "-o", script)
            self.assertEqual((status, out, err), (2, "", "refused: line 2: a.csv isn't UTF-8\n"))
            self.assertEqual(os.listdir(folder), ["a.csv"])

    def test_the_initial_value(self):
        text = "session,number,operation,key,value\na,0,read,x,7\n"
        self.assertEqual(verdict_of("csv", text), "pending")
        self.assertEqual(verdict_of("csv", text, initial="7"), "serial")
        self.assertEqual(verdict_of("polysi", "r(1,-1,0,0)\n", initial="-1"), "serial")
        with self.assertRaises(ImportRefusedError):
            import_text("jepsen-lists", sample("lists.edn"), initial="7")


def deeds_of(attempts):
    """What each client did, without names."""
    found = {}
    for one in attempts:
        its = [(it.kind, it.key, it.value or (it.kind == "read-list" and "")) for it in one.accesses
               if one.outcome == COMMITTED or it.kind not in ("read", "read-list")]
        if its:
            found.setdefault(one.client, []).append((one.outcome, its))
    return sorted(found.values(), key=repr)


class Samples(unittest.TestCase):
    def shown(self):
        """The table of docs/HISTORIES.md: format, file, verdict."""
        with open(os.path.join(TOP, "docs/HISTORIES.md"), encoding="utf-8") as file:
            rows = re.findall(r"^\| `([\w-]+)` \| .* \| (.*) \|$", file.read(), re.MULTILINE)
        for form, samples in rows:
            for name, verdict in re.findall(r"`([\w.]+)` (\w+)", samples):
                yield form, name, verdict

    def test_each_has_its_verdict(self):
        shown = [*self.shown()]
        self.assertEqual({name for _, name, _ in shown}, {*os.listdir(SAMPLES)})
        self.assertEqual({form for form, _, _ in shown}, {*FORMS})
        for form, name, verdict in shown:
            with self.subTest(name=name):
                self.assertEqual(verdict_of(form, sample(name)), verdict)

    @unittest.skipUnless(os.path.isfile(PROGRAM), f"{PROGRAM} is not built")
    def test_the_auditor_says_so_too(self):
        with tempfile.TemporaryDirectory() as folder:
            script = os.path.join(folder, "script.jsonl")
            statuses = {"serial": 0, "violated": 1, "pending": 3}
            for form, name, verdict in self.shown():
                with self.subTest(name=name):
                    path = os.path.join(SAMPLES, name)
                    self.assertEqual(run("import", form, path, "-o", script)[0], 0)
                    status, out, err = run("explain", script, "--html", f"{script}.html")
                    self.assertEqual((status, err), (statuses[verdict], ""))
                    self.assertIn(verdict, out)
                    self.assertNotRegex(out, r"\b\d+\.\d+\b")  # all names are the file's


class Names(unittest.TestCase):
    @unittest.skipUnless(os.path.isfile(PROGRAM), f"{PROGRAM} is not built")
    def test_names_of_another_script_are_not_used(self):
        with tempfile.TemporaryDirectory() as folder:
            script = os.path.join(folder, "script.jsonl")
            run("import", "csv", os.path.join(SAMPLES, "sessions.csv"), "-o", script)
            self.assertIn("carol/0", run("check", script)[1])
            with open(script, "a", encoding="utf-8") as file:
                file.write('["round",4096,0,1]\n')
            out = run("check", script)[1]
            self.assertNotIn("carol/0", out)
            self.assertIn("was made for another script", out)
            with open(f"{script}.names", "w", encoding="utf-8") as file:
                file.write("[]")
            self.assertIn("can't be read", run("check", script)[1])


class Edn(unittest.TestCase):
    def test_values(self):
        read = '#a.b/C{:a [1 -2 +3N "x\\n\\u0041"] ; more\n :b nil, #_#_ gone 5 c/d 1.5}'
        ((line, found),) = EdnReader(f"\n{read}").forms()
        self.assertEqual((line, found.get("a")), (2, (1, -2, 3, "x\nA")))
        self.assertEqual(found.items[1], (Keyword("b"), None))
        self.assertEqual(found.items[2][1].text, "1.5")

    def test_what_is_none(self):
        for text, line in (
            ("{:a", 1),
            ("\n[1 2", 2),
            ("{:a 1}\n}", 2),
            ("{:a}", 1),
            ("{:a 1\n:a 2}", 1),
            ('\n"x', 2),
            ('"\\q"', 1),
            ("[1 (2])", 1),
            ("#", 1),
            ("##Inf", 1),
            ("[" * 200 + "]" * 200, 1),
            ("#_", 1),
        ):
            with self.subTest(text=text), self.assertRaises(ImportRefusedError) as raised:
                [*EdnReader(text).forms()]
            self.assertEqual(raised.exception.line_number, line)


def in_time(imported):
    """The lines of the script, with what is added so that some order explains them exactly if some
    order that respects time does."""
    lines = [*map(json.loads, imported.lines)]
    asking = Asking(STRICT, imported.times.timeline(lines), by_reads=True)
    return [json.dumps(each) for line in lines for each in asking.asked(line)]


class Strict(unittest.TestCase):
    def test_the_verdict_is_by_the_order_of_time(self):
        """Compared with trying every order of the attempts; an unknown end comes before nothing."""
        told = Counter()
        for kind in ("jepsen-registers as EDN", "jepsen-lists as JSON"):
            form, written = WRITERS[kind]
            for seed in range(300):
                text = written(*wanted(form, seed))
                try:
                    found = FORMS[form].read(text)
                    imported = script_of(found, None, True)
                except ImportRefusedError:
                    continue
                its = [found.attempts[at] for at in Sources(found).of]
                earlier = {one: {it for it in its if it.ended < one.began} for one in its}
                with self.subTest(kind=kind, seed=seed, text=text):
                    verdict = judged_script(in_time(imported))
                    ignored = nobodys(found.attempts)
                    is_explained = recordings.is_explained(found.attempts, ignored, earlier)
                    if not ignored:
                        self.assertEqual(verdict, "serial" if is_explained else "violated")
                    plain = judged_script(script_of(found).lines)
                    if plain == "violated":
                        self.assertEqual(verdict, plain)
                    told[plain, verdict] += 1
        for wanted_ in (("serial", "serial"), ("serial", "violated"), ("violated", "violated")):
            self.assertGreaterEqual(told[wanted_], 8, told)

    def test_at_a_pause_nothing_is_in_flight(self):
        count = 0
        for seed in range(200):
            text = recordings.as_edn(*wanted("jepsen-registers", seed))
            try:
                found = FORMS["jepsen-registers"].read(text)
                of = Sources(found).of
            except ImportRefusedError:
                continue
            times = Times(found.attempts, of)
            pauses = times.pauses(1)
            with self.subTest(seed=seed, text=text):
                for at in of:
                    self.assertFalse(
                        [it for it in pauses if times.began[at] < it <= times.ended[at]]
                    )
            count += len(pauses) > 0
        self.assertGreater(count, 50)

    def test_a_part_asks_for_no_more_than_the_whole(self):
        verdicts = Counter()
        for seed in range(200):
            text = recordings.as_edn(*wanted("jepsen-registers", seed))
            try:
                found = FORMS["jepsen-registers"].read(text)
                whole, part = (
                    judged_script(in_time(script_of(found, first, True)))
                    for first in (None, len(found.attempts) - 1)
                )
            except ImportRefusedError:
                continue
            with self.subTest(seed=seed, text=text):
                self.assertIn(part, ("pending", "violated"))
                if part == "violated":
                    self.assertEqual(whole, part)
                verdicts[part] += 1
        self.assertGreaterEqual(verdicts["violated"], 5)

    def test_who_tells_nothing_of_time(self):
        with self.assertRaisesRegex(ImportRefusedError, "csv records no times"):
            import_text("csv", sample("sessions.csv"), asks_time=True)
        text = (
            "{:process 0 :type :invoke :f :txn :time 5 :value [[:w :x 1]]}\n"
            "{:process 0 :type :ok :f :txn :time 4 :value [[:w :x 1]]}\n"
        )
        import_text("jepsen-registers", text)
        with self.assertRaisesRegex(ImportRefusedError, "line 2: the time goes back"):
            import_text("jepsen-registers", text, asks_time=True)

    def long(self, count, every):
        """Two processes. Each appends to a list while the other one's last operation is in flight,
        except that every n-th operation begins when nothing is in flight."""
        lists, lines, ended = {}, [], None
        for at in range(count):
            key, element = at // 140 * 7 + at % 7, at + 1
            its = lists.setdefault(key, [])
            micros = [["r", key, [*its]], ["append", key, element]]
            its.append(element)
            asked = [["r", key, None], micros[1]]
            one = {"process": at % 2, "f": "txn"}
            more = [{**one, "type": "invoke", "value": asked}]
            if ended:
                more.insert(0 if at % every == 0 else 1, ended)
            lines += more
            ended = {**one, "type": "ok", "value": micros}
        return [*lines, ended]

    @unittest.skipUnless(os.path.isfile(PROGRAM), f"{PROGRAM} is not built")
    def test_a_long_history_with_pauses(self):
        self.addCleanup(setattr, import_script, "MOST", import_script.MOST)
        self.addCleanup(setattr, import_command, "EVERY", import_command.EVERY)
        import_script.MOST, import_command.EVERY = 400, 100
        with tempfile.TemporaryDirectory() as folder:
            path, script = os.path.join(folder, "a.json"), os.path.join(folder, "a.jsonl")
            lines = self.long(1100, 100)

            def tried(*more):
                with open(path, "w", encoding="utf-8") as file:
                    file.writelines(f"{json.dumps(one)}\n" for one in lines)
                status, _, err = run("import", "jepsen-lists", path, "-o", script, *more)
                return run("check", script) if not status else (status, "", err)

            self.assertIn("1,100 transactions", tried()[2])
            self.assertIn("divide it at moments with none in flight (--strict)", tried()[2])
            for option in ("--strict", "--realtime"):
                status, out, err = tried(option)
                self.assertEqual((status, err), (0, ""))
                self.assertNotIn("no fence was settled", out)
                self.assertIn("and real-time order explains", out)
                self.assertGreaterEqual(out.count("serial"), 8)
            status, out, err = run("check", "--promise", "serializable", script)
            self.assertEqual(status, 2)
            self.assertIn("import it again without --strict", err)
            lines = self.long(1100, 700)
            self.assertIn("line 1: from here on, 70", tried("--strict")[2])
            lines = self.long(1100, 2000)
            self.assertIn("there is no moment with none in flight", tried("--strict")[2])

    @unittest.skipUnless(os.path.isfile(PROGRAM), f"{PROGRAM} is not built")
    def test_what_time_alone_excludes_is_told_so(self):
        """A stale read by another process is violated by real-time order, and serial without it. A
        torn read is violated in both cases."""
        def one(process, *micros):
            asked = [[f, key, None if f == "r" else value] for f, key, value in micros]
            for type, value in (("invoke", asked), ("ok", micros)):
                yield {"process": process, "type": type, "f": "txn", "value": value}

        first = one(0, ["w", 1, 1], ["w", 2, 2])
        old, torn = one(1, ["r", 1, None]), one(1, ["r", 1, 1], ["r", 2, None])
        rows = (
            ([*first, *old], 0, "line 2 had ended, and did not see it"),
            ([*one(0, ["w", 1, 1], ["w", 2, 2]), *torn], 1, "fractured read"),
        )
        with tempfile.TemporaryDirectory() as folder:
            path, script = os.path.join(folder, "a.json"), os.path.join(folder, "a.jsonl")
            for lines, plain, words in rows:
                with open(path, "w", encoding="utf-8") as file:
                    file.writelines(f"{json.dumps(one)}\n" for one in lines)
                for more in ((), ("--strict",)):
                    run("import", "jepsen-registers", path, "-o", script, *more)
                    asked = () if more else ("--promise", "strict")
                    self.assertEqual(run("check", script, "--promise", "serializable")[0], plain)
                    status, out, _ = run("check", script, *asked)
                    self.assertEqual(status, 1)
                    self.assertIn(words, out)

    def test_times_of_the_file_are_told(self):
        """In nanoseconds if each operation has a time: the explanation says how long before the
        other one had ended."""
        lines = (
            "{:process 0 :type :invoke :f :txn :time 1000 :value [[:w :x 1]]}\n"
            "{:process 0 :type :ok :f :txn :time 2000000 :value [[:w :x 1]]}\n"
            "{:process 1 :type :invoke :f :txn :time 5000000 :value [[:r :x nil]]}\n"
            "{:process 1 :type :ok :f :txn :time 6000000 :value [[:r :x nil]]}\n"
        )
        with tempfile.TemporaryDirectory() as folder:
            path, script = os.path.join(folder, "a.edn"), os.path.join(folder, "a.jsonl")
            with open(path, "w", encoding="utf-8") as file:
                file.write(lines)
            run("import", "jepsen-registers", path, "-o", script)
            times = read_times(script)
            self.assertEqual((times.unit, times.spans[0, 0]), ("ns", (1000, 2000000)))
            if os.path.isfile(PROGRAM):
                out = run("check", "--promise", "strict", script)[1]
                self.assertIn("line 4 began 3 ms after line 2 had ended, and did not see it", out)
            run("import", "csv", os.path.join(SAMPLES, "sessions.csv"), "-o", script)
            self.assertIsNone(read_times(script))


class Limits(unittest.TestCase):
    def test_a_part_is_violated_only_where_the_whole_is(self):
        verdicts = Counter()
        for told, (form, written) in WRITERS.items():
            for seed in range(60):
                attempts, random_ = wanted(form, seed)
                text = written(attempts, random_)
                right = judged(attempts_of(attempts, form == "jepsen-lists"))
                first = random_.randint(1, 3)
                with self.subTest(form=told, seed=seed, first=first, text=text):
                    try:
                        verdict = verdict_of(form, text, first=first)
                    except ImportRefusedError:
                        continue
                    verdicts[verdict] += 1
                    if verdict != "pending":
                        self.assertTrue(verdict in right and "violated" in right | {verdict}
                                        or first >= len(attempts))
                        self.assertIn(verdict, right)
        self.assertGreaterEqual(verdicts["violated"], 5)

    def test_a_part_that_waits_for_the_rest(self):
        text = "session,number,operation,key,value\na,0,write,x,1\nb,0,read,x,1\na,1,write,x,2\n"
        with tempfile.TemporaryDirectory() as folder:
            history, script = f"{folder}/h.csv", f"{folder}/h.jsonl"
            with open(history, "w", encoding="utf-8") as file:
                file.write(text)
            out = io.StringIO()
            with contextlib.redirect_stdout(out):
                self.assertEqual(main(["import", "csv", history, "-o", script, "--first", "2"]), 0)
                self.assertEqual(main(["check", script]), 3)
        self.assertEqual(out.getvalue().splitlines()[-1], "    the rest of the file wasn't imported (--first)")

    def test_few_sessions_are_shared_by_who_comes_behind(self):
        """If there are too many clients; the verdict stays the same."""
        self.addCleanup(setattr, import_script, "MOST_SESSIONS", import_script.MOST_SESSIONS)
        import_script.MOST_SESSIONS = 2
        shared = Counter()
        for told, (form, written) in WRITERS.items():
            for seed in range(120):
                attempts, random_ = wanted(form, seed)
                text = written(attempts, random_)
                try:
                    imported = import_text(form, text)
                except ImportRefusedError as error:
                    shared["at most 2" in str(error)] += 1
                    continue
                with self.subTest(form=told, seed=seed, text=text):
                    right = judged(attempts_of(attempts, form == "jepsen-lists"))
                    self.assertIn(judged_script(imported.lines), right)
                    shared["shared"] += "into the session of a client" in " ".join(imported.about)
        self.assertGreaterEqual(shared["shared"], 20)
        self.assertGreaterEqual(shared[True], 20)

    def test_more_clients_than_sessions(self):
        head = "session,number,operation,key,value\n"
        chain = "".join(
            f"s{at},0,read,x,{at or ''}\ns{at},0,write,x,{at + 1}\n" for at in range(262)
        )
        imported = import_text("csv", head + chain)
        self.assertIn("6 clients put into the session of a client", " ".join(imported.about))
        self.assertEqual(json.loads(imported.lines[0])[1:], [256, 262, 3])
        apart = "".join(f"s{at},0,write,x,{at + 1}\n" for at in range(262))
        refused = "262 clients need 262 sessions, of which there are at most 256"
        with self.assertRaisesRegex(ImportRefusedError, refused):
            import_text("csv", head + apart)
        for first, opened in ((60, [60, 61]), (64, [64, 65]), (65, [65, 66, 3])):
            with self.subTest(first=first):
                lines = import_text("csv", head + apart, first).lines
                self.assertEqual(json.loads(lines[0])[1:], opened)
                *_, rest = json.loads(lines[1])[3]  # which waits for a session that isn't open
                self.assertEqual(rest[0][0][1], min(first, 63) if first <= 64 else first)

    def test_what_a_failed_attempt_wrote_is_in_the_script_where_it_was_read(self):
        """With its keys, so that the read can be explained; otherwise the script has version 1."""
        text = sample("sessions.csv")
        imported = import_text("csv", text)
        opened, *_, undone, reader, _ = map(json.loads, imported.lines)
        self.assertEqual((opened, undone[3]), (["open", 3, 3, 2], [[[], [1], "aborted"]]))
        self.assertEqual(reader[3], [[[[1, 1, 0]], []]])
        self.assertEqual(imported.names.transactions[1][0].texts, (((1,), "line 4: write rent 90"),))
        unread = import_text("csv", text.replace("carol,0,read,rent,90", "carol,0,read,rent,100"))
        self.assertEqual(json.loads(unread.lines[0]), ["open", 2, 2])
        self.assertEqual(judged_script(imported.lines), "violated")
        head = "session,number,operation,key,value\n"
        wide = "".join(f"a,0,write,x{at},1\n" for at in range(257)) + "a,0,abort,,\nb,0,read,x7,1\n"
        lines = import_text("csv", head + wide).lines  # more than a line may have: as before
        self.assertEqual(json.loads(lines[1])[3], [[[], []]])

    def test_many_transactions(self):
        head = "session,number,operation,key,value\n"
        many = "".join(f"a,{at},write,x,{at + 1}\n" for at in range(4097))
        for first, opened in (
            (None, ["open", 1, 4097, 3]),
            (4096, ["open", 1, 4097, 3]),  # and one that waits for the rest
            (4095, ["open", 1, 4096]),
        ):
            with self.subTest(first=first):
                lines = import_text("csv", head + many, first).lines
                self.assertEqual(json.loads(lines[0]), opened)
                words = [json.loads(line)[0] for line in lines[1:]]
                self.assertEqual(words, ["offer"] * (len(lines) - 2) + ["round"])
        undone = "b,0,write,y,1\nb,0,abort,,\nc,0,read,y,1\n"
        opened, *_ = import_text("csv", head + many + undone).lines
        self.assertEqual(json.loads(opened), ["open", 3, 4099, 3])
        self.addCleanup(setattr, import_script, "MOST", import_script.MOST)
        import_script.MOST = 4096
        refused = "4,097 transactions, and at most 4,096 can be checked at once: take .* N.$"
        with self.assertRaisesRegex(ImportRefusedError, refused):
            import_text("csv", head + many)
        wide = "".join(f"a,0,write,x{at},1\n" for at in range(257))
        with self.assertRaisesRegex(ImportRefusedError, "line 2: .* at most 256"):
            import_text("csv", head + wide)


if __name__ == "__main__":
    unittest.main()
