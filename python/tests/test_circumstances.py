"""When and where a transaction came from, and what it read, is shown with a violation."""
import os
import unittest
from unittest import mock

from zanteyard import Auditor, Session, tell_violation
from zanteyard.explain._words import name
from zanteyard.program._auditor import PROGRAM
from zanteyard.core._circumstances import brief, caller, clock_of
from zanteyard.stores.memory import MemoryStore
from zanteyard.explain._html import page_of
from zanteyard.core._records import Logged
from zanteyard.explain._reasons import explain_history
from zanteyard.explain._report import story_of


class Circumstances(unittest.TestCase):
    def test_values_are_short(self):
        rows = ((None, "nothing"), ("a", "'a'"), (5, "5"), ("x" * 90, "'" + "x" * 59 + " .."))
        for value, wanted in rows:
            self.assertEqual(brief(value), wanted)

    def test_the_caller_is_outside_of_the_package(self):
        found, line = caller().rsplit(":", 1)
        self.assertEqual(os.path.basename(found), os.path.basename(__file__))
        self.assertGreater(int(line), 1)

    def test_who_only_starts_a_program_isnt_the_caller(self):
        for name, wanted in (
            ("<frozen runpy>", ""), ("/usr/bin/zanteyard", ""), ("/srv/zanteyard/shop.py", "shop.py:1"),
            ("<stdin>", "<stdin>:1"),
        ):
            its = {"caller": caller}
            with mock.patch("zanteyard.core._circumstances.DEPTH", 1):  # not this file, too
                exec(compile("found = caller()", name, "exec"), its)
            self.assertTrue(its["found"].endswith(wanted), (name, its["found"]))
            self.assertEqual(bool(its["found"]), bool(wanted))

    def test_what_is_not_known_is_not_told(self):
        self.assertEqual(clock_of(Logged((), ())), "")

    @unittest.skipUnless(os.path.isfile(PROGRAM), f"{PROGRAM} is not built")
    def test_a_lost_update(self):
        store = MemoryStore("lost-update")
        with Auditor(sessions=2) as auditor:
            alice, bob = (Session(auditor, number, store.connect()) for number in range(2))
            alice.run(lambda transaction: transaction.put("rent", "100"))
            with alice.transaction() as one:
                with bob.transaction() as other:
                    for transaction in (one, other):
                        transaction.put("rent", str(int(transaction.get("rent")) - 10))
            self.assertEqual(auditor.round().kind, "violated")
            told = []
            small = tell_violation(auditor.history, "/nowhere/x", tell=told.append)
        text = "\n".join(told)
        here = os.path.basename(__file__)
        self.assertRegex(
            text,
            rf"0\.1 began at \d\d:\d\d:\d\d\.\d{{3}} called from .*{here}:\d+; "
            "read rent: '100'; wrote rent: '90'",
        )
        page = page_of(story_of(small, name, explain_history(small)), "a bank", "proved")
        self.assertIn("<td>&#x27;100&#x27;</td>", page)
        self.assertRegex(page, rf"\d\d:\d\d:\d\d\.\d{{3}} .*{here}:\d+")


if __name__ == "__main__":
    unittest.main()
