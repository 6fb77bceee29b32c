"""`zanteyard watch` for snapshot isolation: with a made-up feed, and with a real server and the
real proxy."""
import os
import shutil
import tempfile
import threading
import time
import unittest
from unittest import mock

from tests import test_watch_audit, test_watch_run, test_watch_whole
from tests import watch_feed as feed
from zanteyard.cli._commands import parser
from zanteyard.program._binaries import PROGRAM
from zanteyard.promises._kinds import SNAPSHOT
from zanteyard.watch._auditing import Auditing
from zanteyard.watch.outcome._board import Board
from zanteyard.watch._command import call_of
from zanteyard.watch.violations._explaining import Explaining
from zanteyard.watch.pages._figures import families
from zanteyard.watch.proxy._intake import Intake
from zanteyard.watch.pages._live_page import whole_page
from zanteyard.program._proxy_program import proxy_path
from zanteyard.watch._run import Plan, Run
from zanteyard.watch.pages._violation_page import violation_page
from zanteyard.watch.violations._violations import keys_of
from zanteyard.watch._watching import Watching

try:
    import psycopg2
except ImportError:
    psycopg2 = None

OPEN = ["open", feed.SESSIONS, 2048, 2]
# Each of two reads what the other one replaces.
WRITE_SKEW = [
    feed.offer(0, 0, [[[5, "init"], [6, "init"]], [6]]),
    feed.offer(1, 0, [[[5, "init"], [6, "init"]], [5]]),
]


class Words(unittest.TestCase):
    def test_what_the_proxy_is_told(self):
        asked = parser().parse_args(["watch", "postgresql://a/b", "--promise", "snapshot"])
        self.assertIn("--promise=snapshot", call_of("proxy", asked)[0])
        asked = parser().parse_args(["watch", "postgresql://a/b"])
        self.assertFalse([it for it in call_of("proxy", asked)[0] if it.startswith("--promise")])

    def test_what_a_proxy_beside_another_server_is_told(self):
        asked = parser().parse_args(["proxy", "postgresql://a/b", "--redis", "redis://c", "--audit", "d", "--key", "e"])
        call, _ = call_of("proxy", asked)
        self.assertEqual(call[:3], ["proxy", "--server", "postgresql://a/b"])
        self.assertFalse(
            [it for it in call if it.startswith(("--promise", "--rollbacks", "--sample", "--conditions"))]
        )

    def test_conditions_are_followed_unless_that_is_turned_off(self):
        for more in ([], ["--conditions"], ["--no-conditions"]):
            asked = parser().parse_args(["watch", "postgresql://a/b", *more])
            its = [it for it in call_of("proxy", asked)[0] if it.startswith("--conditions")]
            self.assertEqual(its, ["--conditions=false"] if more == ["--no-conditions"] else [])

    def test_aggregates_are_seen_if_that_is_asked_for(self):
        for command in (["watch"], ["proxy", "--redis", "redis://c", "--audit", "d", "--key", "e"]):
            for more in ([], ["--aggregates"]):
                asked = parser().parse_args([command[0], "postgresql://a/b", *command[1:], *more])
                self.assertEqual("--aggregates" in call_of("proxy", asked)[0], bool(more))

    def test_a_list_of_processes_shows_no_password(self):
        for url in (
            "postgresql://u:s3cret@a/b",
            "postgresql://u@a/b?password=s3cret",
            "postgresql://u@a/b?sslpassword=s3cret",
            "host=a user=u password=s3cret",
        ):
            words = ["zanteyard", "watch", url]
            with mock.patch("sys.argv", words), self.assertLogs("zanteyard", "WARNING") as told:
                call, environment = call_of("proxy", parser().parse_args(words[1:]))
            self.assertIn("give the URL in ZANTEYARD_URL", told.output[0])
            with mock.patch("sys.argv", words[:2]), self.assertNoLogs("zanteyard", "WARNING"):
                call_of("proxy", parser().parse_args(words[1:]))  # it is from elsewhere
            self.assertNotIn("s3cret", " ".join(call))
            known = [environment.get(name, "") for name in ("ZANTEYARD_URL", "PGPASSWORD")]
            self.assertIn("s3cret", "".join(known))

    def test_keys_of_a_refutation(self):
        """One that names begins and commits."""
        choice = [0, 1, "begin", 5, 1, 0, "commit", 2, 0, "commit"]
        arc = ["read", 7, 1, 0, "commit", 0, 1, "begin"]
        self.assertEqual(keys_of([["nowrite", 0, 1, "begin", 3]]), {3})
        self.assertEqual(keys_of([["force", choice, 1, [arc]], ["cycle", [arc]]]), {5, 7})


class ByAFeed(test_watch_audit.Audits):
    def begin(self, parts, promise=SNAPSHOT, **more):
        self.board, intake = Board("shop", "proved", promise), Intake()
        self.commands, self.changed, self.told = test_watch_audit.Commands(), threading.Condition(), []
        self.explaining = Explaining(
            PROGRAM, lambda one, _: self.board.violation(one), promise, self.board.groups
        )
        auditing = Auditing(PROGRAM, promise=promise, **more)
        self.watching = Watching(auditing, self.board, intake, self.tell, self.explaining)
        self.watching.start()
        self.fake = feed.Fake(parts, test_watch_audit.Output(intake))
        threading.Thread(target=self.fake.run, args=(self.commands,), daemon=True).start()
        self.addCleanup(self.end)

    def test_a_write_skew(self):
        self.begin([feed.started(), OPEN, *WRITE_SKEW, *feed.ROUND, ("await", "cut")])
        self.fake_has("cut")
        status = self.stop()
        self.assertEqual(status.whole_kind, "serial")
        page = whole_page(status)
        self.assertIn("asks for snapshot isolation", page)
        self.assertIn("order of begins and commits satisfies snapshot isolation", page)

    def test_a_violation_says_what_it_breaks(self):
        self.begin([feed.started(), OPEN, *feed.LOST_UPDATE, *feed.ROUND, ("await", "cut")])
        self.fake_has("cut")
        status = self.stop()
        (found,) = status.violations
        self.assertEqual(found.title, "lost update")
        breaks = "breaks serializability, snapshot isolation and prefix consistency, also without session order"
        text = "\n".join(found.lines())
        self.assertIn("violated: no order of begins and commits that keeps each session's order", text)
        self.assertIn("T3 begins before T2 commits", text)
        broken = "breaks serializability and snapshot isolation, also without session order"
        self.assertTrue(broken in text or breaks in text, text)
        self.assertIn("--promise snapshot", violation_page(found, "shop", "proved"))
        self.assertIn("It breaks serializability", violation_page(found, "shop", "proved"))
        self.assertIn("The transactions violate snapshot isolation", whole_page(status))
        figures = {name: samples for name, _, _, samples in families(status)}
        self.assertIn(("promise", "snapshot"), figures["zanteyard_info"][0][0])
        self.assertIn(((("promise", "snapshot"),), 1.0), figures["zanteyard_promise_broken"])

    def test_a_violation_says_what_it_leaves_standing(self):
        """In an audit for serializability."""
        parts = [feed.started(), OPEN, *WRITE_SKEW, *feed.ROUND, ("await", "cut")]
        self.begin(parts, test_watch_audit.Board("").status().promise)
        self.fake_has("cut")
        status = self.stop()
        (found,) = status.violations
        self.assertIn("leaves snapshot isolation standing", "\n".join(found.lines()))
        self.assertIn("It leaves snapshot isolation standing", whole_page(status))
        figures = {name: samples for name, _, _, samples in families(status)}
        self.assertIn(((("promise", "snapshot"),), 0.0), figures["zanteyard_promise_broken"])


for _name in [name for name in dir(test_watch_audit.Audits) if name.startswith("test_")]:
    setattr(ByAFeed, _name, None)  # these run in their own module


class WithAJournal(test_watch_run.InAFolder):
    @unittest.skipUnless(os.path.isfile(PROGRAM), f"{PROGRAM} is not built")
    def test_another_auditor_goes_on(self):
        path = os.path.join(self.folder, "journal")
        lines = [*map(feed_line, [OPEN, *WRITE_SKEW, *feed.ROUND])]
        auditing = Auditing(PROGRAM, path, promise=SNAPSHOT)
        self.addCleanup(auditing.end)
        told = [reply for _, reply in auditing.give(lines)]
        self.assertIn(b'"serial"', told[-2])
        auditing._program.process.kill()
        last = [["offer", 0, 1, [[[[5, "init"]], [5]]]], *feed.ROUND]  # this misses 1.0's
        told = [reply for _, reply in auditing.give([*map(feed_line, last)])]
        self.assertIn(b'"violated"', told[-2])
        self.assertIn(b'"begin"', told[-2])
        self.assertEqual(auditing.restarts, 1)


def feed_line(line):
    return feed.json.dumps(line, separators=(",", ":")).encode()


class OverAServer(test_watch_whole.Whole):
    """PostgreSQL at repeatable read promises snapshot isolation."""

    def setUp(self):
        self.folder = tempfile.mkdtemp()
        self.addCleanup(shutil.rmtree, self.folder, ignore_errors=True)
        self.told = []
        call = [proxy_path(), "--trust-clients", "--server", self.url, "--listen", f"{self.folder}/.s.PGSQL.6432"]
        self.watch = Run(
            Plan([*call, "--promise=snapshot"], PROGRAM, "shop", promise=SNAPSHOT), self.told.append
        )
        self.status = None
        running = threading.Thread(target=self.run_it)
        running.start()
        self.addCleanup(self.end, running)

    def test_repeatable_read_keeps_it(self):
        """With write skews, and with rows that a transaction with an older snapshot inserts
        again."""
        with psycopg2.connect(self.cluster.dsn) as beside, beside.cursor() as cursor:
            cursor.execute("CREATE TABLE IF NOT EXISTS again (id int PRIMARY KEY)")
        one, other = self.connect("REPEATABLE READ"), self.connect("REPEATABLE READ")

        def run(connection, text, *values):
            with connection.cursor() as cursor:
                cursor.execute(text, values)

        def skew():
            for connection in (one, other):
                self.read(connection, 7)
                self.read(connection, 8)
            self.write(one, 7, 1)
            self.write(other, 8, 1)
            one.commit()
            other.commit()
            self.read(one, 7)  # its snapshot is older than what follows
            self.write(other, 7, 2)
            run(other, "INSERT INTO again VALUES (1)")
            other.commit()
            run(other, "DELETE FROM again WHERE id = 1")
            other.commit()
            run(one, "INSERT INTO again VALUES (1)")
            one.commit()
            run(other, "DELETE FROM again WHERE id = 1")
            other.commit()
            time.sleep(0.02)

        def is_done(status):
            return status.rounds_count >= 4 and status.seen.reads >= 100 and status.cuts >= 2

        self.until(skew, lambda status: is_done(status) or status.violations)
        told = self.finish()
        self.assertEqual(self.status, 0, told)
        checked = "(?m)^kept: .* transactions\\b.* were checked for snapshot isolation, in "
        self.assertRegex(told, checked)

    def test_read_committed_loses_updates(self):
        one, other = self.connect(), self.connect()

        def lose_one():
            left, also = self.read(one, 7), self.read(other, 7)
            self.write(one, 7, left - 1)
            one.commit()
            self.write(other, 7, also - 1)
            other.commit()
            time.sleep(0.05)

        self.until(lose_one, lambda status: status.violations)
        told = self.finish()
        self.assertEqual(self.status, 1, told)
        self.assertIn("no order of begins and commits that keeps each session's order", told)
        self.assertIn("lost update", told)
        self.assertIn("breaks serializability", told)


for _name in [name for name in dir(test_watch_whole.Whole) if name.startswith("test_")]:
    setattr(OverAServer, _name, None)


if __name__ == "__main__":
    unittest.main()
