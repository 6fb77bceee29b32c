"""The page: one file that loads nothing from outside, viewed in a real browser if there is one."""
import html.parser
import os
import re
import shutil
import subprocess
import tempfile
import unittest
import zlib

from zanteyard import Logged
from zanteyard.explain._charts import RoundSeen
from zanteyard.explain._html import page_of
from zanteyard.explain._reasons import explain_history
from zanteyard.explain._report import Story, story_of
from zanteyard.explain._words import name
from zanteyard.promises._kinds import SERIALIZABLE, SNAPSHOT

from .killing import PLAIN
from .test_explanations import VIOLATED

BROWSER = shutil.which("chromium") or shutil.which("chromium-browser")
STATEMENT = "SELECT value FROM t WHERE key = '<x>' & 1"


def history():
    first = Logged((), ("x",), "committed", ((("x",), "INSERT INTO t VALUES ('x', 1)"),))
    read = ("x", (0, 0))
    second = Logged((read,), ("x",), "committed", ((read, STATEMENT),))
    return [[first, second], [second]]


def story(its=None, script="", **more):
    """The story of a history, with the refutation of a plain auditor."""
    its = its or history()
    promise = more.get("promise", SERIALIZABLE)
    explanation = explain_history(its, name, PLAIN, promise)
    return story_of(its, name, explanation, script, **more)


def page(**more):
    return page_of(story(script='["open",2,3]\n'), "a bank", "proved", **more)


class Tags(html.parser.HTMLParser):
    """Collects the elements, and checks that each is closed and that nothing is loaded from
    outside."""

    EMPTY = {"meta", "br"}

    def __init__(self, text):
        super().__init__()
        self.open, self.seen, self.asked, self.wrong = [], [], [], []
        self.feed(text)
        self.close()

    def handle_starttag(self, tag, attributes):
        self.seen.append(tag)
        self.asked += [
            value
            for key, value in attributes
            if key in ("src", "href", "xlink:href", "srcset", "data", "action") and value
        ]
        if tag not in self.EMPTY:
            self.open.append(tag)

    def handle_startendtag(self, tag, attributes):
        self.seen.append(tag)

    def handle_endtag(self, tag):
        if not self.open or self.open.pop() != tag:
            self.wrong.append(tag)


class Page(unittest.TestCase):
    def test_it_is_whole_and_asks_for_nothing(self):
        text = page(rounds=[RoundSeen(1.0, "serial", 9, 0.1), RoundSeen(2.0, "violated", 12, 0.2)])
        tags = Tags(text)
        self.assertEqual((tags.open, tags.wrong, tags.asked), ([], [], []))
        self.assertEqual({"script", "link", "img", "iframe"} & {*tags.seen}, set())
        self.assertEqual(re.findall(r"@import|url\((?!#)", text), [])
        self.assertNotIn("http", text)

    def test_a_transaction_reaches_from_its_begin_to_its_commit(self):
        """With snapshot isolation, where arrows connect begins and commits."""
        text = page_of(story(promise=SNAPSHOT), "a bank", "proved")
        tags = Tags(text)
        self.assertEqual((tags.open, tags.wrong, tags.asked), ([], [], []))
        self.assertEqual(text.count('class="edge"'), 6)  # of three transactions
        for wanted in (
            "can't have run on snapshots",
            ">begin</text>",
            ">commit</text>",
            "0.1 begins before 1.0 commits</strong>",
            "A box reaches from the transaction’s begin to its commit.",
            " begins → ",
        ):
            with self.subTest(wanted=wanted):
                self.assertIn(wanted, text)
        self.assertNotIn("class=\"edge\"", page())

    def test_two_cases_fold(self):
        """Each has its cycle, its picture and its reasons; each number appears in both cases."""
        text = page_of(story(VIOLATED["a split"][0]), "a bank", "proved")
        tags = Tags(text)
        self.assertEqual((tags.open, tags.wrong, tags.asked), ([], [], []))
        self.assertNotIn("script", tags.seen)
        for each in ('<details class="case" open>', '<svg class="timeline', '<p class="around">'):
            self.assertEqual(text.count(each), 2)
        self.assertIn("<summary>If 1.0 comes before 0.0</summary>", text)
        self.assertIn("<summary>If 4.0 comes before 1.0</summary>", text)
        for once in ("Either 1.0 comes before 0.0, or 4.0 comes before 1.0: ", "Neither is possible."):
            self.assertEqual(text.count(once), 1)  # where the page begins
        told = re.findall(r'<span class="mark">(\d+)</span>', text)
        drawn = re.findall(r'<text class="number"[^>]*>(\d+)</text>', text)
        self.assertEqual(sorted(told), sorted(drawn))
        self.assertEqual(len(told), len({*told}))
        ids = re.findall(r' id="([^"]*)"', text)
        self.assertEqual(len(ids), len({*ids}))

    def test_what_is_on_it(self):
        text = page()
        for wanted in (
            "<strong>Lost update</strong>",
            "0.1 and 1.0 both read x from 0.0 and both overwrote it",
            "SELECT value FROM t WHERE key = &#x27;&lt;x&gt;&#x27; &amp; 1",
            "0.1 → 1.0 → 0.1",
            "session 0",
            "[&quot;open&quot;,2,3]",
            "1.0 comes before 0.1</strong>: 1.0 read x from 0.0, and 0.1, which wrote it too",
        ):
            self.assertIn(wanted, text)
        self.assertNotIn("'<x>'", text)
        arcs, boxes = text.count('<g class="arc'), text.count('<g class="transaction"')
        self.assertEqual((arcs, boxes), (4, 3))
        self.assertEqual(text.count('<g class="arc circle"'), 2)
        self.assertEqual(text.count('<span class="mark">'), arcs)  # each arc's reason in words

    def test_how_many_of_the_transactions_are_shown(self):
        for counts, wanted in (
            ((2, 1), "a bank: 3 transactions of 2 sessions</p>"),
            ((4, 1), "a bank: 5 transactions of 2 sessions; 3 of the transactions are shown here</p>"),
        ):
            text = page_of(story(counts=counts), "a bank", "proved")
            self.assertIn(wanted, text)

    def test_other_verdicts(self):
        for kind, more, wanted in (
            ("serial", {"order": ("0.0", "1.0")}, "0.0 1.0"),
            ("pending", {"waiting": ("1.0 read x from 0.7, which hasn't arrived",)}, "from 0.7"),
            ("spent", {}, "wasn't decided"),
        ):
            with self.subTest(kind=kind):
                text = page_of(Story(kind, (1, 1), **more), "a bank", "proved")
                self.assertIn(wanted, text.replace("&#x27;", "'"))
                self.assertEqual((Tags(text).open, Tags(text).wrong), ([], []))

    def test_rounds_of_a_live_run(self):
        seen = [
            RoundSeen(
                2.0 * it, "serial", 9, 0.05, waiting=("1.0 read x from 0.7, which hasn't arrived",)
            )
            for it in range(1, 9)
        ]
        text = page(rounds=seen)
        self.assertEqual(text.count('<svg class="chart"'), 2)
        self.assertEqual(text.count('<circle class="serial"'), 2 * len(seen))
        self.assertIn("8 rounds in 16.0 s", text)
        self.assertIn("1.0 read x from 0.7", text)


def pixels(path):
    """Width, height and rows of a PNG with 8 bits per colour; each row is a list of pixels."""
    with open(path, "rb") as file:
        data = file.read()
    at, packed, width, height, kind = 8, b"", 0, 0, 0
    while at < len(data):
        length, name_ = int.from_bytes(data[at : at + 4], "big"), data[at + 4 : at + 8]
        body = data[at + 8 : at + 8 + length]
        if name_ == b"IHDR":
            width, height, kind = (
                int.from_bytes(body[:4], "big"),
                int.from_bytes(body[4:8], "big"),
                body[9],
            )
        packed += body if name_ == b"IDAT" else b""
        at += 12 + length
    size = {2: 3, 6: 4}[kind]
    raw, rows, above = zlib.decompress(packed), [], [0] * (width * size)
    for row in range(height):
        start = row * (width * size + 1)
        how, line = raw[start], [*raw[start + 1 : start + 1 + width * size]]
        for i in range(len(line)):
            left = line[i - size] if i >= size else 0
            up, corner = above[i], above[i - size] if i >= size else 0
            guess = left + up - corner
            near = min((abs(guess - it), at_) for at_, it in enumerate((left, up, corner)))[1]
            line[i] = (
                line[i] + (0, left, up, (left + up) // 2, (left, up, corner)[near])[how]
            ) % 256
        rows.append([tuple(line[i : i + 3]) for i in range(0, len(line), size)])
        above = line
    return width, height, rows


@unittest.skipUnless(BROWSER, "chromium is not installed")
class InABrowser(unittest.TestCase):
    def setUp(self):
        self.folder = tempfile.mkdtemp()
        self.addCleanup(shutil.rmtree, self.folder, ignore_errors=True)  # the browser may still be running
        self.path = os.path.join(self.folder, "page.html")
        with open(self.path, "w", encoding="utf-8") as file:
            file.write(page(rounds=[RoundSeen(1.0, "serial", 9, 0.1)]))

    def browse(self, *words):
        whole = [
            BROWSER,
            "--headless",
            "--no-sandbox",
            "--disable-gpu",
            "--hide-scrollbars",
            f"--user-data-dir={self.folder}/user",
            *words,
            f"file://{self.path}",
        ]
        ended = subprocess.run(
            whole, stdout=subprocess.PIPE, stderr=subprocess.DEVNULL, timeout=600
        )
        self.assertEqual(ended.returncode, 0)
        return ended.stdout.decode()

    def test_it_is_seen(self):
        picture = os.path.join(self.folder, "page.png")
        self.browse("--window-size=1100,700", f"--screenshot={picture}")
        width, height, rows = pixels(picture)
        self.assertEqual((width, height), (1100, 700))
        seen = [pixel for row in rows for pixel in row]
        red = sum(pixel == (179, 38, 30) for pixel in seen)
        white = sum(pixel == (255, 255, 255) for pixel in seen)
        self.assertGreater(red, 400)  # the mark of the verdict, and arcs of the cycle
        self.assertGreater(white, len(seen) // 2)
        lower = [pixel for row in rows[280:560] for pixel in row]
        self.assertGreater(sum(pixel == (179, 38, 30) for pixel in lower), 100)  # the arcs
        self.assertGreater(sum(pixel == (244, 247, 251) for pixel in lower), 9000)  # the boxes

    def test_in_a_narrow_window(self):
        """The picture shrinks as long as it can be read; beyond that, a shadow shows that it
        continues."""
        def seen(text):
            with open(self.path, "w", encoding="utf-8") as file:
                file.write(text)
            picture = os.path.join(self.folder, "page.png")
            self.browse("--window-size=500,1000", f"--screenshot={picture}")
            return [row[400:476] for row in pixels(picture)[2]]

        boxes = sum(pixel == (244, 247, 251) for row in seen(page()) for pixel in row)
        self.assertGreater(boxes, 1000)  # of the second column
        write, first = Logged((), ("y",)), history()
        first[1].append(Logged((("x", (1, 0)), ("y", (2, 0))), ("x",)))
        three = page_of(story([*first, [write]]), "a bank", "proved")
        self.assertIn("columns-3", three)
        shades = [row[-1] for row in seen(three)]
        self.assertGreater(sum(max(it) < 240 for it in shades), 50)

    def test_on_paper(self):
        paper = os.path.join(self.folder, "page.pdf")
        self.browse(f"--print-to-pdf={paper}")
        with open(paper, "rb") as file:
            data = file.read()
        self.assertTrue(data.startswith(b"%PDF"))
        self.assertLessEqual(len(re.findall(rb"/Type\s*/Page\b", data)), 3)


if __name__ == "__main__":
    unittest.main()
