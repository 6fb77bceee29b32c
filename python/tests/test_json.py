"""`--json` and `--junit`: what other programs read of a verdict is what people read of it."""
import contextlib
import io
import json
import os
import tempfile
import unittest
from xml.etree import ElementTree

from zanteyard.cli._main import main
from zanteyard.program._binaries import PROGRAM

from .test_import import SAMPLES

LOST = '["open",2,8]\n["offer",0,0,[[[[5,"init"]],[5]]]]\n["offer",1,0,[[[[5,"init"]],[5]]]]\n'
ROUND = '["round",4096,0,1]\n'


def ran(*words):
    """The status of a command, and the lines that it printed."""
    out = io.StringIO()
    with contextlib.redirect_stdout(out):
        status = main(words)
    return status, out.getvalue().splitlines()


@unittest.skipUnless(os.path.isfile(PROGRAM), f"{PROGRAM} is not built")
class Json(unittest.TestCase):
    def setUp(self):
        folder = tempfile.TemporaryDirectory()
        self.addCleanup(folder.cleanup)
        self.script, self.report = f"{folder.name}/a.jsonl", f"{folder.name}/report.xml"

    def write(self, text):
        with open(self.script, "w", encoding="utf-8") as file:
            file.write(text)

    def test_each_verdict(self):
        self.write('["open",2,8]\n["offer",0,0,[[[],[6]]]]\n' + ROUND + LOST.partition("\n")[2]
                   .replace("0,0,", "0,1,") + ROUND + ROUND)
        status, lines = ran("check", self.script, "--json", "--junit", self.report)
        first, second = map(json.loads, lines)
        self.assertEqual(status, 1)
        self.assertEqual((first["verdict"], first["line"], first["order"]), ("serial", 3, ["0.0"]))
        self.assertNotIn("because", first)
        self.assertEqual((second["verdict"], second["line"]), ("violated", 6))
        self.assertEqual(second["anomaly"]["name"], "lost update")
        self.assertEqual(second["file"], "a.jsonl")
        self.assertIn("snapshot", second["breaks"])
        self.assertEqual(second["keeps"], ["prefix"])
        text = "\n".join(ran("check", self.script)[1])
        for line in (second["sentence"], second["anomaly"]["sentence"], *second["because"]):
            self.assertIn(line, text)
        suite = ElementTree.parse(self.report).getroot()
        self.assertEqual((suite.get("tests"), suite.get("failures")), ("2", "1"))
        passed, failed = suite.iter("testcase")
        self.assertIsNone(passed.find("failure"))
        self.assertEqual(failed.find("failure").get("type"), "lost update")
        self.assertIn("can come first", failed.find("failure").text)

    def test_what_waits_and_what_is_undecided(self):
        self.write('["open",1,8]\n["offer",0,0,[[[[5,0,7]],[]]]]\n')
        status, lines = ran("check", self.script, "--json")
        (its,) = map(json.loads, lines)
        self.assertEqual((status, its["verdict"], len(its["waiting"])), (3, "pending", 1))
        self.assertNotIn("line", its)  # of the round at the end, which the script doesn't have

    def test_a_history_and_its_levels(self):
        path = os.path.join(SAMPLES, "registers.edn")
        status, lines = ran("check", path, "--json")
        (its,) = map(json.loads, lines)
        self.assertEqual((status, its["form"], its["verdict"]), (1, "jepsen-registers", "violated"))
        self.assertEqual(its["imported"][0], "3 transactions in 3 sessions")
        status, lines = ran("levels", path, "--json")
        (its,) = map(json.loads, lines)
        found = {each["promise"]: each["answer"] for each in its["levels"]}
        self.assertEqual((found["serializable"], found["snapshot"]), ("no", "yes"))

    def test_a_level_that_is_expected(self):
        """A job of continuous integration fails if the history doesn't meet it."""
        path = os.path.join(SAMPLES, "registers.edn")
        for level, wanted in (("serializable", 1), ("snapshot", 0), ("strict", 1)):
            self.assertEqual(ran("levels", path, "--expect", level, "--json")[0], wanted, level)
        self.write('["open",1,8]\n["offer",0,0,[[[[5,0,7]],[]]]]\n')
        for level, wanted in (("serializable", 3), ("strict", 4)):  # the script has no times
            self.assertEqual(ran("levels", self.script, "--expect", level)[0], wanted, level)

    def test_names_that_xml_lacks(self):
        from zanteyard.cli._junit import junit_report
        from zanteyard.explain._report import Story

        text = junit_report("a\x00\x1b<&b", [Story("pending", waiting=("\ud800\ufffe",))])
        suite = ElementTree.fromstring(text.partition("\n")[2])
        self.assertEqual(suite.find("testcase").get("name"), "a\ufffd\ufffd<&b")


if __name__ == "__main__":
    unittest.main()
