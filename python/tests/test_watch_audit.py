"""An audit with a made-up feed: the real auditor, and no proxy."""
import io
import json
import os
import sys
import tempfile
import threading
import unittest
from unittest import mock

from tests import watch_feed as feed
from tests.made_up_programs import made_up
from zanteyard.program._binaries import PROGRAM
from zanteyard.watch._auditing import Auditing
from zanteyard.watch.outcome._board import Board
from zanteyard.watch.violations._explaining import Explaining
from zanteyard.watch.outcome._feed import Split
from zanteyard.watch.proxy._intake import Intake
from zanteyard.watch._watching import OK, Watching


class Output(io.StringIO):
    """A fake proxy's output, which goes into the intake."""

    def __init__(self, intake):
        super().__init__()
        self.intake, self.split = intake, Split()

    def write(self, text):
        items = self.split.items(text.encode())
        if items:
            self.intake.put(items)
        return len(text)


class Commands:
    """Lines for a fake proxy, as they arrive; they end with None."""

    def __init__(self):
        self.lines, self.change = [], threading.Condition()

    def put(self, line):
        with self.change:
            self.lines.append(line)
            self.change.notify_all()
        return True

    def __iter__(self):
        while True:
            with self.change:
                while not self.lines:
                    self.change.wait()
                line = self.lines.pop(0)
            if line is None:
                return
            yield line


@unittest.skipUnless(os.path.isfile(PROGRAM), f"{PROGRAM} is not built")
class Audits(unittest.TestCase):
    def begin(self, parts, **more):
        """A Watching with a fake proxy of these parts."""
        self.board, intake, self.commands = Board("shop"), Intake(), Commands()
        self.changed = threading.Condition()
        self.told = []
        self.explaining = Explaining(
            PROGRAM, lambda one, _: self.board.violation(one), groups=self.board.groups
        )
        auditing = Auditing(PROGRAM, **more)
        self.watching = Watching(auditing, self.board, intake, self.tell, self.explaining)
        self.watching.start()
        self.fake = feed.Fake(parts, Output(intake))
        threading.Thread(target=self.fake.run, args=(self.commands,), daemon=True).start()
        self.addCleanup(self.end)
        return self.watching

    def tell(self, line):
        self.told.append(json.loads(line))
        return self.commands.put(line)

    def end(self):
        self.commands.put(None)
        self.watching.end()

    def stop(self):
        """Stops, and returns the status after the last round."""
        self.watching.stop()
        self.watching.stopped.wait()
        self.explaining.wait(600)
        return self.board.status()

    def told_of(self, name):
        return [its for its in self.told if its["command"] == name]

    def test_a_serial_one(self):
        parts = [
            feed.started(warnings=["take care"]),
            feed.OPEN,
            feed.offer(0, 0, [[[5, "init"]], [5]]),
            feed.meeting(),
            *feed.ROUND,
            feed.coverage(),
            ("await", "cut"),
        ]
        self.begin(parts)
        self.fake_has("cut")
        status = self.stop()
        self.assertEqual(status.whole_kind, "serial")
        self.assertEqual((status.rounds_count, status.violations_count), (2, 0))
        self.assertEqual((status.seen.offered, status.seen.totals.transactions.all), (8, 11))
        self.assertEqual(status.notes, ("take care",))
        self.assertEqual([its["marks"] for its in self.told_of("cut")], [[0] * 64] * 2)

    def levels_of_rounds(self, seconds):
        """At which levels the rounds of a healthy run are logged, if that is the time between two
        lines."""
        with mock.patch("zanteyard.watch._watching.TOLD", seconds):
            with self.assertLogs("zanteyard", "DEBUG") as logged:
                parts = [feed.started(), feed.OPEN, feed.offer(0, 0, [[[5, "init"]], [5]]), *feed.ROUND]
                self.begin([*parts, ("await", "cut")])
                self.fake_has("cut")
                self.stop()
        return [each.levelname for each in logged.records if each.msg.startswith("round %d")]

    def test_a_healthy_run_logs_one_round_a_minute(self):
        self.assertEqual(self.levels_of_rounds(60.0 * 60), ["INFO", "DEBUG"])

    def test_after_a_minute_there_is_another_line(self):
        self.assertEqual(self.levels_of_rounds(0.0), ["INFO", "INFO"])

    def test_a_cut_is_told_with_its_marks(self):
        fence = [[[0, "init"]], [0]]
        parts = [
            feed.started(),
            feed.OPEN,
            *(["close", session] for session in range(2, 64)),
            feed.offer(0, 0, [[], [5]], fence),
            feed.offer(1, 0, [[[0, 0, 1]], [0]]),
            *feed.ROUND,
            ("await", "cut"),
        ]
        self.begin(parts)
        self.fake_has("cut")
        status = self.stop()
        self.assertEqual([its["marks"][:3] for its in self.told_of("cut")], [[2, 0, 0]] * 2)
        self.assertEqual((status.cuts, status.forgotten, status.remaining), (1, 2, 1))

    def test_a_session_that_joins_has_a_mark(self):
        parts = [
            feed.started(),
            ["open", 1, 131072, 3],
            feed.offer(0, 0, [[], [5]], [[[0, "init"]], [0]]),
            ["join", 1, [[[[0, 0, 1]], [0]], [[[5, 0, 0]], []]]],
            *feed.ROUND,
            ("await", "cut"),
        ]
        self.begin(parts)
        self.fake_has("cut")
        self.fake.write(feed.offer(1, 2, [[[0, 1, 0]], [0]]))
        self.fake.write(feed.offer(0, 2, [[[0, 1, 2]], [0]]))
        status = self.stop()
        self.assertEqual([its["marks"] for its in self.told_of("cut")], [[2, 0], [2, 3]])
        self.assertEqual((status.cuts, status.forgotten, status.kind), (2, 5, "serial"))

    def test_a_read_of_a_session_that_hasnt_joined_waits(self):
        parts = [feed.started(), ["open", 1, 131072, 3], feed.offer(0, 0, [[[5, 1, 1]], []])]
        self.begin([*parts, *feed.ROUND, ("await", "cut")])
        self.fake_has("cut")
        self.assertEqual(self.board.status().kind, "pending")
        self.until(lambda: self.board.status().pending_count)
        waits = ("0.0 read key 5 from 1.1, which hasn't arrived",)
        self.assertEqual(self.board.status().pending, waits)

    def test_a_round_without_a_meeting(self):
        """Its verdict goes up to the time at which the proxy noted what it is about."""
        checking = feed.event("checking", at=feed.AT + 7)
        parts = [feed.started(), feed.OPEN, feed.meeting(), *feed.ROUND, ("await", "cut")]
        self.begin([*parts, feed.offer(0, 0, [[], [5]]), checking, *feed.ROUND])
        self.wait_for_rounds(2)
        status = self.board.status()
        self.assertEqual((status.checked_until, status.meetings), (feed.AT + 7, 1))

    def test_an_auditor_that_has_fallen_behind(self):
        """Another audit begins if the proxy says that only this helps."""
        reason = "the auditor fell behind: for a minute it could forget nothing"
        behind = feed.event("behind", at=feed.AT, reason=reason)
        parts = [feed.started(), feed.OPEN, feed.offer(0, 0, [[], [5]]), *feed.ROUND, behind]
        self.begin([*parts, ("await", "restart")])
        self.fake_has("restart")
        status = self.stop()
        self.assertEqual(status.ended[0].reason, reason)
        self.assertEqual((status.ended[0].kind, status.whole_kind), ("serial", "incomplete"))
        self.assertEqual(status.audit, 2)

    def test_a_violation_is_explained_and_the_audit_goes_on(self):
        self.begin([feed.started(), feed.OPEN, *feed.LOST_UPDATE, *feed.ROUND, ("await", "cut")])
        self.fake_has("cut")
        status = self.stop()
        self.assertEqual((status.whole_kind, status.kind), ("violated", "serial"))
        self.assertEqual((status.audit, status.violations_count), (1, 1))
        self.assertEqual(self.told_of("restart"), [])
        (found,) = status.violations
        self.assertEqual(found.title, "lost update")
        self.assertEqual([one.label for one in found.told], ["T1", "T2", "T3"])
        text = "\n".join(found.lines())
        for wanted in (
            "T2 and T3 both read stock(7) from T1 and both overwrote it",
            "T2 (1.0): shop from 10.0.0.7:50001 as shop, read committed, began at ",
            "SELECT qty FROM stock WHERE id = $1  [$1 = '7']  [shop/orders.py:41]",
            "UPDATE stock SET qty = 4 WHERE id = 7",
            "T3 comes before T2: T3 read stock(7) from T1, and T2, which wrote it too, comes",
        ):
            with self.subTest(wanted=wanted):
                self.assertIn(wanted, text)
        asked = self.told_of("describe")
        self.assertEqual([sorted(its["transactions"]) for its in asked], [[[0, 0], [1, 0], [2, 0]]])

    def until(self, is_so):
        """Waits for it, two minutes at most."""
        pause = threading.Event()
        for _ in range(12000):
            if is_so():
                return
            pause.wait(0.01)
        self.fail("it hasn't come to that in two minutes")

    def fake_has(self, name):
        """Waits until the fake proxy has received this."""
        self.until(lambda: self.told_of(name))

    def test_a_line_that_is_refused_ends_the_audit(self):
        self.begin([feed.started(), feed.OPEN, feed.offer(0, 5, [[], [5]]), ("await", "restart")])
        self.fake_has("restart")
        status = self.stop()
        self.assertEqual(status.whole_kind, "incomplete")
        self.assertIn('the auditor answered Gap to ["offer",0,5', status.ended[0].reason)
        self.assertEqual((status.audit, status.kind), (2, "serial"))

    def test_the_proxys_end_of_an_audit(self):
        self.begin(
            [
                feed.started(),
                feed.OPEN,
                feed.offer(0, 0, [[], [5]]),
                *feed.ROUND,
                feed.event("ended", at=feed.AT, reason="the slot was lost"),
                ("await", "restart"),
            ]
        )
        self.fake_has("restart")
        status = self.stop()
        self.assertEqual(status.ended[0].reason, "the slot was lost")
        self.assertEqual((status.ended[0].kind, status.whole_kind), ("serial", "incomplete"))

    def test_a_proxy_that_gave_up_isnt_waited_for(self):
        """It doesn't answer `stop` then."""
        ended = feed.event("ended", at=feed.AT, reason="the slot was lost")
        self.begin([feed.started(), feed.OPEN, *feed.ROUND, ended])
        self.until(lambda: self.board.status().is_over)
        self.fake.answer = lambda its: None
        status = self.stop()
        self.assertEqual(status.whole_kind, "incomplete")

    def test_an_auditor_that_dies(self):
        self.begin([feed.started(), feed.OPEN, feed.offer(0, 0, [[], [5]]), *feed.ROUND])
        self.wait_for_rounds(1)
        self.watching.auditing._program.process.kill()
        self.fake.write(feed.offer(0, 1, [[], [5]]))
        self.fake_has("restart")
        status = self.stop()
        self.assertIn("ended with status -9", status.ended[0].reason)
        self.assertEqual((status.whole_kind, status.kind), ("incomplete", "serial"))

    def wait_for_rounds(self, count):
        self.until(lambda: self.board.status().rounds_count >= count)


class SearchesThatDoNotEnd(unittest.TestCase):
    def test_a_round_is_skipped_and_the_audit_goes_on(self):
        with tempfile.TemporaryDirectory() as folder:
            ended = os.path.join(folder, "ended")
            for journal in (None, os.path.join(folder, "journal")):
                with self.subTest(journal=journal):
                    program = made_up(folder, waits=ended)
                    auditing = Auditing(program, journal, round_seconds=0.2)
                    self.addCleanup(auditing.end)
                    lines = [b'["open",1,8,2]', b'["offer",0,0,[[[],[5]]]]', b'["round",64,0,1]']
                    replies = [reply for _, reply in auditing.give([*lines, b'["show"]'])]
                    self.assertEqual(replies[:2], [OK, b'["report",1,"spent",[1]]'])
                    with open(ended, "wb"):
                        pass
                    wanted = b'["report",2,"serial",[1],[[0,0]]]'
                    self.assertEqual(auditing.ask(b'["round",64,0,1]'), wanted)
                    self.assertEqual(auditing.restarts, 0)
                    os.remove(ended)
                    refused = b'["no",10,"RoundOpen"]'  # whatever opened one
                    self.assertEqual(auditing.ask(b'["begin"]'), OK)
                    self.assertEqual(auditing.ask(b'["round",64,0,1]'), refused)

    def test_one_that_finds_no_memory_leaves_no_round_open(self):
        with tempfile.TemporaryDirectory() as folder:
            auditing = Auditing(made_up(folder, wants_memory=3))
            self.addCleanup(auditing.end)
            self.assertEqual(auditing.ask(b'["open",1,8,2]'), OK)
            self.assertEqual(auditing.ask(b'["round",64,0,1]'), b'["no",16,"NoMemory"]')
            self.assertEqual(auditing.ask(b'["round",64,0,1]'), b'["report",1,"serial",[0],[]]')


if __name__ == "__main__":
    sys.exit(unittest.main())
