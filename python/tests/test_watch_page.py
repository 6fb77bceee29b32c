"""The pages of a watched audit: what they show, that they load nothing from outside and contain
nothing unsafe, and how they look in a real browser."""
import os
import re
import shutil
import subprocess
import sys
import tempfile
import unittest
from dataclasses import replace

from tests import watch_feed as feed
from tests.killing import PLAIN
from tests.test_page import BROWSER, Tags, pixels
from zanteyard.core._records import Logged
from zanteyard.explain._charts import RoundSeen
from zanteyard.explain._reasons import explain_history
from zanteyard.explain._report import story_of
from zanteyard.watch.outcome import _ending as ending
from zanteyard.watch.pages import _live_page as live_page
from zanteyard.watch.outcome._board import Board
from zanteyard.watch.violations._described import Described, Statement
from zanteyard.watch.outcome._feed import answered_of, seen_of
from zanteyard.watch.outcome._json import status_json
from zanteyard.watch.pages._serving import Pages
from zanteyard.watch.outcome._state import Ended, Status
from zanteyard.watch.outcome._totals import Total
from zanteyard.watch.pages._style import NOW, SCRIPT, STYLE
from zanteyard.core._visible import escaped, visible, visible_lines
from zanteyard.core._numbers import counted
from zanteyard.watch.pages._violation_page import violation_page
from zanteyard.watch.violations._violations import Row, Told, Violation
from zanteyard.watch.pages._web import Answer, WebServer

EVIL = "<script>alert(1)</script>\x1b[2J\u202egnp.exe\u200b\x00"
SHOWN_EVIL = "&lt;script&gt;alert(1)&lt;/script&gt;\\x1b[2J\\u202egnp.exe\\u200b\\x00"


def violation(evil=""):
    first = Logged((), ("stock(7)",))
    read = ("stock(7)", (0, 0))
    both = Logged((read,), ("stock(7)",))
    names = {(0, 0): "T1", (0, 1): "T2", (1, 0): "T3"}
    history = [[first, both], [both]]
    explanation = explain_history(history, names.__getitem__, PLAIN)
    story = story_of(history, names.__getitem__, explanation, '["open",2,3]\n', (2, 1))
    statements = (
        Statement(f"SELECT qty FROM stock WHERE id = $1 {evil}", ("7" + evil,), feed.AT, (evil,)),
        Statement(f"UPDATE stock SET qty = 4 {evil} /*file='shop.py{evil}',line='3'*/"),
    )
    its = Described((0, 1), "shop" + evil, "10.0.0.7:5" + evil, "u" + evil, statements=statements)
    told = (Told("T1", (0, 0), None), Told("T2", (0, 1), its), Told("T3", (1, 0), its))
    return Violation(1, 17, feed.AT, story, told)


def status(**more):
    its = {
        "seen": seen_of(feed.coverage()),
        "kind": "serial",
        "rounds": (RoundSeen(1.0, "serial", 9, 0.1), RoundSeen(2.0, "serial", 12, 0.2)),
        "rounds_count": 2,
        "told_at": 1001.0,
        "checked_until": 1000.5,
        "origin": "proved",
    }
    return Status("shop at db", 900.0, 1002.0, **{**its, **more})


class Whose(unittest.TestCase):
    def test_a_client_without_a_name_is_told_once(self):
        first, second, third = violation().told
        for name, count in (("shop", 1), ("", 1)):
            its = replace(second.its, application=name, address="10.0.0.7:5", user="anna")
            text = violation_page(replace(violation(), told=(first, replace(second, its=its))), "", "")
            self.assertEqual(text.count("from 10.0.0.7:5"), count)
            self.assertEqual(text.count("as anna"), count)
        self.assertIn("T2: from 10.0.0.7:5 as anna</summary>", text)


class Texts(unittest.TestCase):
    def test_what_cant_be_seen_is_shown(self):
        for text, wanted in (
            ("a  b\n c\t", "a b c"),
            ("\x1b[31mred", "\\x1b[31mred"),
            ("\u202eabc\u2066", "\\u202eabc\\u2066"),
            ("\U000e0041", "\\U000e0041"),
            ("\ud800", "\\ud800"),
            ("naïve Ω 漢 🙂", "naïve Ω 漢 🙂"),
            ("a\u00a0b", "a b"),
            ("x" * 50, "x" * 10 + " .."),
        ):
            with self.subTest(text=text):
                self.assertEqual(visible(text, 10 if len(text) == 50 else 4000), wanted)
        self.assertEqual(visible_lines("SELECT 1\r\n  , 2\x07\n"), "SELECT 1\n  , 2\\x07")
        self.assertEqual(escaped(EVIL), SHOWN_EVIL)
        self.assertEqual(
            [counted(1, "read"), counted(2000, "read"), counted(1, "thing is", "things are")],
            ["1 read", "2,000 reads", "1 thing is"],
        )


class Live(unittest.TestCase):
    def test_it_is_whole_and_asks_for_nothing(self):
        for one in (status(), status(violations=(violation(EVIL),), violations_count=3)):
            text = live_page.whole_page(one)
            tags = Tags(text)
            asked = [it for it in tags.asked if not re.fullmatch(r"/violation/\d+", it)]
            self.assertEqual((tags.open, tags.wrong, asked), ([], [], []))
            self.assertEqual({"link", "img", "iframe", "object"} & {*tags.seen}, set())
            self.assertEqual(tags.seen.count("script"), 1)
            self.assertNotIn("http", text.replace('http-equiv="refresh"', ""))
            self.assertNotIn(" style=", text)  # the policy forbids it

    def test_what_it_says(self):
        for one, wanted in (
            (status(), ["No violation so far", "54.5 % of 11", "an aggregate", "checked up to "]),
            (
                status(),
                [
                    "54.5 %: 6 of 11 transactions; 2 more in part; 1 more rolled back",
                    "45.0 %: 9 of 20 SELECTs",
                    "78.9 %: 15 of 19 rows read; 5 more rolled back",
                    "<p>4 of the checked rows were in a version from before the audit.</p>",
                    "<p>2 of the checked rows were in a version that an unchecked transaction ",
                    "<p>8 SELECTs didn't ask by one whole key: ",
                    "<h2>Checked in part</h2>",
                    "<h2>Not checked</h2>",
                    "--aggregates, or select the rows",
                ],
            ),
            (status(kind="running", rounds_count=0), ["Nothing has been checked yet"]),
            (
                status(violations=(violation(),), violations_count=22),
                ["22 violations found", "/violation/1", "The first of each shape has its own page"],
            ),
            (
                status(kind="pending", pending=("1.0 read key 5",), pending_count=1),
                ["some reads are still waiting", "In the last round 1 read named", "1.0 read key 5"],
            ),
            (
                status(is_over=True, ended=(Ended(1, "serial", 2, "the slot was lost", 950.0),)),
                ["something wasn't checked", "Nothing is being checked: the slot was lost"],
            ),
            (
                status(
                    violations_count=1, is_over=True,
                    ended=(Ended(1, "violated", 2, "a violation was found", 950.0, False),),
                ),
                ["An explanation is being prepared", "Another audit begins soon"],
            ),
            (status(subtransactions="returning"), ["pg_walinspect is missing"]),
            (status(notes=("take care",)), ["take care"]),
        ):
            text = live_page.whole_page(one).replace("&#x27;", "'")
            for each in wanted:
                with self.subTest(wanted=each):
                    self.assertIn(each, text)

    def test_what_comes_from_outside_is_made_safe(self):
        its = feed.coverage(
            totals={"rows_read": feed.total(5, 1, {EVIL: 1}, {EVIL: 3})},
            unseen=[{"shape": EVIL, "reason": EVIL, "reads": True, "count": 1, "first": feed.AT}],
        )
        one = status(
            seen=seen_of(its), notes=(EVIL,), ended=(Ended(1, EVIL, 2, EVIL, 1.0),),
            pending=(EVIL,), pending_count=1, violations=(violation(EVIL),), violations_count=1,
        )
        for text in (
            live_page.whole_page(replace(one, title=EVIL, origin=EVIL)),
            violation_page(violation(EVIL), EVIL, EVIL),
        ):
            self.assertNotIn("<script>alert", text)
            self.assertEqual(set("\x1b\u202e\u200b\x00") & set(text), set())
            self.assertGreaterEqual(text.count("\\u202egnp"), 5)

    def test_a_share_is_whole_only_if_nothing_is_missing(self):
        for part, whole, wanted in ((9999999, 10000000, "99.9 %"), (5, 5, "100 %"), (0, 0, "0 %")):
            self.assertEqual(live_page._share(part, whole), wanted)

    def test_times(self):
        for seconds, wanted in (
            (0.25, "0.2 s"), (75, "75 seconds"), (600, "10 minutes"), (7200, "2 hours"),
            (200000, "2 days"),
        ):
            self.assertEqual(live_page.lasting(seconds), wanted)


class OfAViolation(unittest.TestCase):
    def test_it_is_whole(self):
        for is_file in (False, True):
            text = violation_page(violation(), "shop", "proved", is_file)
            tags = Tags(text)
            asked = [] if is_file else ["/", "/violation/1.jsonl"]
            self.assertEqual((tags.open, tags.wrong, tags.asked), ([], [], asked))
            self.assertNotIn("script", tags.seen)

    def test_what_it_says(self):
        text = violation_page(violation(), "shop", "proved").replace("&#x27;", "'")
        for wanted in (
            "<h1>Lost update</h1>",
            "T2 and T3 both read stock(7) from T1 and both overwrote it",
            "SELECT qty FROM stock WHERE id = $1\n-- $1 = '7'</pre>",
            "shop.py:3",
            "UPDATE stock SET qty = 4</pre>",
            "T2 → T3 → T2",
            "T1: transaction 0.0",
            "[&quot;open&quot;,2,3]",
            "SELECT .. FOR UPDATE",
        ):
            with self.subTest(wanted=wanted):
                self.assertIn(wanted, text)


class Endings(unittest.TestCase):
    def test_what_the_status_is(self):
        violated = {"violations_count": 1}
        lost = {"ended": (Ended(1, "serial", 2, "it was lost", 1.0),)}
        for more, wanted in (
            ({}, 0),
            (violated, 1),
            ({**violated, **lost}, 1),
            ({"kind": "pending"}, 3),
            ({"kind": "spent"}, 4),
            ({"kind": "running"}, 4),
            (lost, 4),
            ({"seen": seen_of(feed.coverage(totals={}))}, 4),
            ({"at_least": 45.0}, 0),
            ({"at_least": 46.0}, 5),
            ({"at_least": 46.0, **violated}, 1),
            ({"at_least": 46.0, **lost}, 4),
        ):
            with self.subTest(more=more):
                self.assertEqual(ending.status_of(status(**more)), wanted)

    def test_an_audit_that_checked_nothing_isnt_serial(self):
        """And says whether anybody was there, and what was left out."""
        its = status(seen=seen_of({}), database="shop")
        self.assertEqual(
            [*ending.lines_of(its)],
            ["nothing was checked: no application connected to the database shop through the proxy"],
        )
        why = "the server asks for no credential"
        its = status(seen=seen_of({"connections": {"refused": {why: 2}}}), database="shop")
        first, second = ending.lines_of(its)
        self.assertEqual(
            first, "nothing was checked: the proxy refused each connection to the database shop"
        )
        begins = f"  the proxy refused 2 connections, since {why}: give the role a password"
        self.assertEqual(second[: len(begins)], begins)
        its = status(
            seen=seen_of(feed.coverage(totals={})), database="shop"
        )
        first, *rest = ending.lines_of(its)
        self.assertEqual(
            first,
            "nothing was checked: the audit saw no row that 5 connections to the database shop "
            "read or wrote",
        )
        self.assertEqual(rest[-1].strip(), "SELECT count(*) FROM orders WHERE customer = $1")

    def test_what_was_run_but_not_checked_is_counted(self):
        totals = {"transactions": feed.total(9, 0, {}, {"no statement of it was seen": 8}, 1)}
        its = status(seen=seen_of(feed.coverage(totals=totals)))
        told = [*ending.lines_of(its)]
        self.assertTrue(told[0].startswith("nothing: 0 of 9 transactions were checked"), told)
        unseen = "no statement of it was seen: the statements below say why"
        self.assertIn(f"             8 transactions  {unseen}", told)
        waits = (
            "the audit ended before its next round: end the audit a second after the application; "
            "if it ended by itself, the log says why"
        )
        self.assertIn(f"             1 transactions  {waits}", told)

    def test_what_no_outcome_has(self):
        """Transactions of audits before this run, in a proxy that it took over."""
        board = Board("shop")
        board.coverage(feed.coverage())
        board.earlier(feed.event("earlier", unaudited=1, untold=5210))
        its = board.status()
        self.assertEqual(status_json(its)["before"], {"unaudited": 1, "untold": 5210})
        for told in (ending.lines_of(its), ending.lines_of(replace(its, seen=seen_of({})))):
            self.assertEqual(
                [line.strip() for line in told if "before this run" in line],
                [
                    "before this run's first audit 5,210 transactions ended after the last round of "
                    "an audit, or in one whose `watch` was killed: no outcome has them",
                    "before this run's first audit 1 transaction ended while nothing was audited",
                ],
            )
        self.assertFalse([line for line in ending.lines_of(status()) if "before this" in line])

    def test_earlier_audits_count(self):
        its = status(earlier_seen=seen_of(feed.coverage()))
        self.assertIn("12 of 22 transactions", next(ending.lines_of(its)))


class Feeds(unittest.TestCase):
    def test_fields_that_are_missing_or_wrong(self):
        wrong = {"transactions": {"all": "x", "in_part": 7}, "selects": 5}
        for event in ({}, {"reads": 5, "unseen": [7, {}], "totals": wrong, "committed": "x"}):
            seen = seen_of(event)
            totals = seen.totals
            self.assertEqual((seen.offered, totals.transactions, totals.selects.all), (0, Total(), 0))

    def test_what_is_described(self):
        its = [feed.described(1, 2), {"session": 3, "number": 4, "known": False}]
        answered = answered_of(feed.event("transactions", id=1, transactions=its))
        self.assertEqual([*answered.transactions], [(1, 2)])
        self.assertEqual(answered.keys[5].named(), "stock(7)")
        first = answered.transactions[(1, 2)].statements[0]
        self.assertEqual((first.origin, first.values), ("shop/orders.py:41", "$1 = '7'"))
        self.assertEqual(first.plain, "SELECT qty FROM stock WHERE id = $1")

    def test_how_rows_are_named(self):
        for row, wanted in (
            (Row("public.stock", "7"), "stock(7)"),
            (Row("public.stock", "7", ("id",)), "stock(id=7)"),
            (Row("shop.stock", "7, x", ("id", "place")), "shop.stock(id=7, place=x)"),
            (Row("public.stock", "7, x, y", ("id", "place")), "stock(7, x, y)"),
            (Row("public.stock", "7, x", ("a",)), "stock(a=7, x)"),
        ):
            self.assertEqual(row.named(), wanted)


@unittest.skipUnless(BROWSER, "chromium is not installed")
class InABrowser(unittest.TestCase):
    """A page of the state that `now` returns, each time that the browser asks."""

    def setUp(self):
        self.folder = tempfile.mkdtemp()
        self.addCleanup(shutil.rmtree, self.folder, ignore_errors=True)  # the browser may still be running

        class Board:
            status = staticmethod(lambda: self.one)

        self.one = status(violations=(violation(),), violations_count=1)
        self.server = WebServer("127.0.0.1:0", Pages(Board()))
        self.addCleanup(self.server.close)

    def browse(self, path, *words):
        whole = [
            BROWSER, "--headless", "--no-sandbox", "--disable-gpu", "--hide-scrollbars",
            f"--user-data-dir={self.folder}/user", *words, self.server.url.rstrip("/") + path,
        ]
        ended = subprocess.run(
            whole, stdout=subprocess.PIPE, stderr=subprocess.DEVNULL, timeout=600
        )
        self.assertEqual(ended.returncode, 0)
        return ended.stdout.decode()

    def seen(self, path, width):
        picture = os.path.join(self.folder, f"{width}.png")
        self.browse(path, f"--window-size={width},900", f"--screenshot={picture}")
        found_width, _, rows = pixels(picture)
        self.assertEqual(found_width, width)
        return [pixel for row in rows for pixel in row]

    def test_it_is_seen(self):
        for path, width in (("/", 1200), ("/", 500), ("/violation/1", 1200), ("/violation/1", 500)):
            with self.subTest(path=path, width=width):
                seen = self.seen(path, width)
                red = sum(pixel == (179, 38, 30) for pixel in seen)
                self.assertGreater(red, 300)  # the edge of the box with the verdict
                self.assertGreater(sum(pixel == (251, 236, 235) for pixel in seen), 20000)

    def test_nothing_is_wider_than_a_narrow_screen(self):
        """Wide contents scroll by themselves: the page as a whole is as wide as the screen."""
        page = live_page.whole_page(status(violations=(violation(EVIL * 9),), violations_count=1))
        for text in (page, violation_page(violation(EVIL * 9), "shop", "proved")):
            wide = "document.title = document.documentElement.scrollWidth"
            own = f"<script>{wide}</script></body>"
            self.server.close()
            answer = Answer(text.replace("</body>", own), policy="")
            self.server = WebServer("127.0.0.1:0", lambda path, answer=answer: answer)
            self.addCleanup(self.server.close)
            found = self.browse("/", "--window-size=500,900", "--dump-dom")
            self.assertEqual(re.findall("<title>(.*?)</title>", found)[0], "500")

    def test_it_refreshes_itself(self):
        """The page shows the state when it was requested; its changing part shows later states."""
        first = Pages(type("Board", (), {"status": staticmethod(lambda: status())}))
        later = Pages(type("Board", (), {"status": staticmethod(lambda: self.one)}))
        asked = []

        def tell(path):
            asked.append(path)
            return later(path) if path == NOW else first(path)

        self.server.close()
        self.server = WebServer("127.0.0.1:0", tell)
        self.addCleanup(self.server.close)
        found = self.browse("/", "--virtual-time-budget=9000", "--dump-dom")
        self.assertIn(NOW, asked)
        self.assertIn("1 violation found", found)
        self.assertNotIn("No violation so far</h1>", found)

    def test_the_policy_fits_the_page(self):
        """Otherwise the browser wouldn't run the script, or use the style."""
        text = live_page.whole_page(status())
        self.assertIn(f"<style>{STYLE}</style>", text)
        self.assertIn(f"<script>{SCRIPT}</script>", text)


if __name__ == "__main__":
    sys.exit(unittest.main())
