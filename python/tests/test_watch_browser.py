"""The live page in a real browser, with a real audit behind it: what a person sees while violations
are found, the audit ends, and the program is gone; on a phone, by keyboard, and in the dark."""
import sys
import unittest

from tests import test_watch_after
from tests import watch_feed as feed
from tests.browsing import BROWSER, Browser
from tests.test_watch_after import WRITE_SKEW, lost_update
from zanteyard.watch.pages._serving import Pages
from zanteyard.watch.pages._web import WebServer

HEADING = "document.querySelector('h1').innerText"
EXPLAINED = "document.querySelectorAll('ol.violations li').length"
TIMES = (
    "[...document.querySelectorAll('h2')].filter(it => it.innerText == 'Violations by shape')"
    ".flatMap(it => [...it.nextElementSibling.querySelectorAll('td.count')]).map(it => it.innerText).join()"
)
FOCUSED = "document.activeElement.getAttribute('href') || document.activeElement.tagName"
PAPER = "getComputedStyle(document.body).backgroundColor"
PHONE = 360


@unittest.skipUnless(BROWSER, "chromium is not installed")
class InABrowser(test_watch_after.GoesOn):
    def setUp(self):
        super().setUp()
        self.browser = self.enterContext(Browser())

    def serve(self):
        """An audit of an application that has done nothing yet, and its page."""
        self.audit(feed.coverage())
        self.server = WebServer("127.0.0.1:0", Pages(self.board))
        self.addCleanup(self.server.close)
        self.browser.open(self.server.url)

    def do(self, *parts):
        """What the proxy reports; then the verdict."""
        for part in (*parts, *feed.ROUND):
            self.fake.write(part)

    def test_from_the_first_violation_to_the_end(self):
        """The page is opened once, and shows what happens."""
        browser = self.browser
        self.serve()
        self.assertEqual(browser.value(HEADING), "Nothing has been checked yet")
        self.do(*lost_update(0, 100))
        browser.until(f"{HEADING} == '1 violation found' && {EXPLAINED} == 1")
        self.do(*WRITE_SKEW)
        browser.until(f"{HEADING} == '2 violations found' && {EXPLAINED} == 2 && {TIMES} == '1,1'")
        self.do(*lost_update(1, 101))  # of the first one's shape
        browser.until(f"{HEADING} == '3 violations found' && {TIMES} == '2,1'")
        self.assertEqual(browser.value(EXPLAINED), 2)
        self.fake.write(feed.offer(0, 50, [[], [5]]))  # the auditor refuses it: some are missing
        browser.until("document.body.innerText.includes('An audit ended at')")
        self.assertEqual(browser.value(HEADING), "3 violations found")
        self.watching.proxy_is_gone("the proxy was killed")
        browser.until("document.body.innerText.includes('Nothing is being checked: the proxy was killed')")
        lost = "getComputedStyle(document.getElementById('lost')).display != 'none'"
        self.assertFalse(browser.value(lost))
        self.server.close()
        browser.until(lost)
        self.assertEqual(browser.value(HEADING), "3 violations found")

    def test_on_a_phone_by_keyboard_and_in_the_dark(self):
        browser = self.browser
        self.serve()
        self.do(*lost_update(0, 100), *WRITE_SKEW)
        browser.until(f"{EXPLAINED} == 2")
        wide = "document.documentElement.scrollWidth"
        for width in (1200, PHONE):
            colours = set()
            for scheme in ("light", "dark"):
                with self.subTest(width=width, scheme=scheme):
                    browser.look_of(width, scheme)
                    self.assertEqual(browser.value(f"[innerWidth, {wide}].join()"), f"{width},{width}")
                    colours.add(browser.value(PAPER))
            self.assertEqual(len(colours), 2)
        seen = []
        while "/violation/1" not in seen:
            browser.press("Tab")
            seen.append(browser.value(FOCUSED))
            self.assertLess(len(seen), 20, seen)
        self.assertEqual(browser.value("getComputedStyle(document.activeElement).outlineStyle"), "solid")
        title = browser.value("document.activeElement.innerText")
        browser.press("Enter")
        browser.until("location.pathname == '/violation/1' && document.readyState == 'complete'")
        self.assertEqual(browser.value(HEADING), title)
        self.assertEqual(browser.value(f"[innerWidth, {wide}].join()"), f"{PHONE},{PHONE}")


for _name in [name for name in dir(test_watch_after.GoesOn) if name.startswith("test_")]:
    setattr(InABrowser, _name, None)  # these run in their own module
if __name__ == "__main__":
    sys.exit(unittest.main())
