"""What aborted attempts did is logged and reported, and has no effect."""
import io
import json
import os
import tempfile
import unittest
from contextlib import redirect_stderr, redirect_stdout
from unittest import mock

from zanteyard import AbortedError, Auditor, LiveAuditor, Logged
from zanteyard import OutcomeUnknownError, Session
from zanteyard import audited, from_start, reasons, smaller, words
from zanteyard.explain._anomalies import find_anomaly
from zanteyard.core._own_keys import FENCE, FLAG
from zanteyard.program._auditor import PROGRAM
from zanteyard.cli._main import main
from zanteyard.program._window import Coverage
from zanteyard.trial.lockstep import SESSIONS, run_lockstep
from zanteyard.stores.memory import MemoryStore
from zanteyard.core._records import MOST, as_bytes, undone, unpacked
from zanteyard.stores.sqlite import SQLiteStore
from zanteyard.stores.sqlite import prepare as prepare_sqlite

from .test_memory import add_one, put, read
from .test_restarting import WithJournal
from .waiting import SOON

UNDONE = Logged((), (), "aborted", tried_reads=[("y", "init")], tried_writes=["x", "y"])


class WithFolder(unittest.TestCase):
    def setUp(self):
        if not os.path.isfile(PROGRAM):
            self.skipTest(f"{PROGRAM} is not built: see README.md")
        folder = tempfile.TemporaryDirectory()
        self.addCleanup(folder.cleanup)
        self.folder, self.path = folder.name, os.path.join(folder.name, "script")

    def auditor(self, **more):
        auditor = Auditor(3, 64, script=self.path, **more)
        self.addCleanup(auditor.end)
        return auditor

    def lines(self):
        with open(self.path, encoding="utf-8") as file:
            return [json.loads(line) for line in file]

    def sessions(self, auditor, fault=None):
        self.store = MemoryStore(fault)
        return [Session(auditor, number, self.store.connect()) for number in range(3)]


class Lines(WithFolder):
    """What the auditor is given."""

    def test_an_attempt_is_told_with_what_it_did(self):
        """An attempt is sent with what it did; one that did nothing is idle, as before."""
        auditor = self.auditor()
        auditor.offer(0, 0, UNDONE, Logged((), (), "aborted"), Logged((), ("x",)))
        auditor.offer(1, 0, Logged([("x", (0, 2))], ()), Logged([("x", "init")], (), "aborted"))
        self.assertEqual(
            self.lines(),
            [
                ["open", 3, 64, 2],
                ["offer", 0, 0, [[[[1, "init"]], [1, 2], "aborted"], [[], []], [[], [2]]]],
                ["offer", 1, 0, [[[[2, 0, 2]], []], [[[2, "init"]], []]]],
            ],
        )

    def test_it_counts_for_nothing(self):
        """Its writes are no versions, its reads wait for nobody, and what only looks like a fence
        is left out."""
        auditor = self.auditor()
        auditor.offer(0, 0, Logged((), (), "aborted", tried_reads=[("x", (1, 7))], tried_writes=["x"]))
        fence = Logged((), (), "aborted", tried_reads=[(FENCE, "init")], tried_writes=[FENCE])
        auditor.offer(0, 1, fence, Logged([(FENCE, "init")], [FENCE]))
        auditor.offer(1, 0, Logged([(FENCE, (0, 2))], [FENCE]))
        auditor.offer(2, 0, Logged([(FENCE, (1, 0))], [FENCE]), Logged([("x", "init")], ()))
        self.assertEqual(auditor.round().kind, "serial")
        self.assertEqual(auditor.outcome().pending, ())
        self.assertEqual(auditor.truncate().fence, (0, 2))
        self.assertEqual((auditor.marks, auditor.base), ([3, 0, 0], {FENCE: (0, 2)}))
        auditor.offer(2, 2, Logged([("x", (0, 0))], ()))
        self.assertEqual(auditor.round().kind, "violated")

    def test_what_a_line_may_not_have_is_left_out(self):
        for reads, writes, told in (
            ([("x", (0, 7)), ("y", (0, 6))], ["x"], ([("y", (0, 6))], ["x"])),  # its own
            ([("x", (64, 0)), ("y", (63, 0))], ["x"], ([("y", (63, 0))], ["x"])),
            ([("x", (-1, 0)), ("y", (0, 1 << 48))], ["x"], ([], ["x"])),
            ([("x", "init")], ["x", "x"], ([("x", "init")], ["x"])),
            ([(FENCE, (1, 1))], [FENCE], ([(FENCE, (1, 1))], [FENCE])),
            ([], [FENCE], ([], [])),  # a fence whose read nobody knows
            ([(FENCE, (0, 7))], [FENCE], ([], [])),
            ([(FENCE, (1, 1)), (FENCE, (1, 2))], [FENCE], ([], [])),
            ([(FENCE, (1, 1)), ("x", "init")], [FENCE], ([("x", "init")], [])),
            ([(FENCE, (1, 1))], [FENCE, "x"], ([], ["x"])),
            ([(FENCE, (1, 1))], ["x"], ([], ["x"])),
        ):
            with self.subTest(reads=reads, writes=writes):
                self.assertEqual(undone((0, 7), reads, writes, FENCE), told)

    def test_the_longest(self):
        keys = [f"key {at:03}" for at in range(MOST + 1)]
        reads = [(key, "init") for key in keys]
        self.assertEqual(undone((0, 0), reads, keys[1:], FENCE), (reads[:MOST], keys[1:]))
        self.assertEqual(undone((0, 0), reads, keys, FENCE), (reads[:MOST], []))
        auditor = self.auditor()
        long = Logged((), (), "aborted", tried_reads=reads[:MOST], tried_writes=keys[1:])
        auditor.offer(0, 0, *[long] * 64)
        self.assertEqual(auditor.received, [64, 0, 0])

    def test_where_an_audit_begins_among_others(self):
        """When an audit begins among others, its reads are translated or left out, and don't count
        as unchecked."""
        moves = Coverage([2, 0, 5], [3, 0, None], unknown=[((1, 2),), (), ()])
        tried = [("x", (0, 4)), ("x", (0, 1)), ("x", (0, 0)), ("y", (1, 2)), ("y", (2, 9)), ("z", "init")]
        moved, left_out = moves.moved(UNDONE._replace(tried_reads=tried))
        told = [("x", "init"), ("x", (0, 1)), ("y", (1, 2)), ("z", "init")]
        self.assertEqual((sorted(moved.tried_reads, key=repr), left_out), (sorted(told, key=repr), 0))
        self.assertEqual(moved.tried_writes, UNDONE.tried_writes)

    def test_it_is_the_same_as_bytes(self):
        self.assertEqual(unpacked(as_bytes(UNDONE)), UNDONE)


class Told(WithFolder):
    """Explanations of reads from an aborted attempt."""

    HISTORY = [
        [Logged((), ("x",)), UNDONE._replace(statements=[(("x",), "UPDATE x")], values=[("wrote", "x", "2")])],
        [Logged([("x", (0, 1)), ("z", "init")], ("z",))],
    ]
    SAID = "of x, 1.0 read what 0.1 wrote, which had aborted"

    def test_in_words(self):
        self.assertEqual(reasons(self.HISTORY), [self.SAID])
        anomaly = find_anomaly(self.HISTORY)
        self.assertEqual((anomaly.name, anomaly.sentence), ("dirty read", self.SAID))
        self.assertEqual(anomaly.transactions, ((0, 1), (1, 0)))
        small = smaller(self.HISTORY, seconds=SOON)
        self.assertEqual(
            [*words(small)], ["0.1 wrote x, aborted", "    wrote x: UPDATE x", "1.0 read x from 0.1"]
        )
        report, script = audited(small)
        self.assertEqual(report.kind, "violated")
        lines = [json.loads(line) for line in script.splitlines()]
        self.assertEqual(lines[0], ["open", 2, 3, 2])
        self.assertEqual(lines[1], ["offer", 0, 0, [[[], []], [[], [1], "aborted"]]])

    def test_of_a_key_that_it_did_not_write(self):
        history = [[UNDONE], [Logged([("z", (0, 0))], ())]]
        self.assertEqual(reasons(history), ["1.0 read z from 0.0, which aborted"])
        self.assertEqual(find_anomaly(history).name, "dirty read")

    def test_it_is_no_reason_where_nobody_has_read_it(self):
        """An attempt that nobody read from isn't mentioned, since it plays no part."""
        history = [[UNDONE, Logged([("x", "init")], ["x"])], [Logged([("x", "init")], ["x"])]]
        small = smaller(history, seconds=SOON)
        self.assertEqual(find_anomaly(small).name, "lost update")
        self.assertNotIn("aborted", "\n".join(words(small)))

    def told(self, command, *more):
        out, err = io.StringIO(), io.StringIO()
        with redirect_stdout(out), redirect_stderr(err):
            status = main([command, self.path, *more])
        return status, out.getvalue() + err.getvalue()

    SCRIPT = (
        '["open",2,8,2]\n["offer",0,0,[[[[6,1,7]],[5],"aborted"]]]\n'
        '["offer",1,0,[[[[5,0,0]],[6]]]]\n["round",4096,0,1]\n'
    )

    def test_of_a_script(self):
        with open(self.path, "w", encoding="utf-8") as file:
            file.write(self.SCRIPT)
        status, text = self.told("check")
        self.assertEqual(status, 1)
        self.assertIn("of key 5, 1.0 read what 0.0 wrote, which had aborted", text)
        self.assertIn("0.0 wrote key 5, aborted\n", text)
        status, _ = self.told("explain", "--html", f"{self.path}.html")
        with open(f"{self.path}.html", encoding="utf-8") as file:
            page = file.read()
        self.assertEqual(page.count('<g class="transaction aborted">'), 1)
        self.assertEqual(page.count('<g class="arc other aborted">'), 1)
        self.assertIn("Aborted attempts are dashed", page)
        self.assertIn('["open",2,2,2]', page.replace("&quot;", '"'))

    def test_of_a_script_of_the_first_version(self):
        """Version 1 has no form for it, and nothing is drawn dashed."""
        with open(self.path, "w", encoding="utf-8") as file:
            file.write(self.SCRIPT.replace(",8,2]", ",8]"))
        status, text = self.told("check")
        self.assertEqual(status, 2)
        self.assertIn("line 2 was refused: BadLine", text)


class Found(WithFolder):
    """Found by clients of a store in memory that keeps what an aborted attempt has written."""

    def dirty_read(self, sessions):
        a, b, c = sessions
        a.run(put(x=1))
        late = b.begin()
        add_one(late)
        late.put("y", 5)
        a.run(add_one)
        with self.assertRaises(AbortedError):
            late.commit()
        b.run(put(z=1))  # the retry has another number
        c.run(read("x"))

    def test_in_words_that_name_the_abort(self):
        with Auditor(3, 64, script=self.path) as auditor:
            self.dirty_read(self.sessions(auditor, "dirty-read"))
            self.assertEqual(auditor.round().kind, "violated")
            self.assertEqual(
                reasons(smaller(auditor.history, seconds=SOON)), ["of x, 2.0 read what 1.0 wrote, which had aborted"]
            )
        self.assertIn(["offer", 1, 0, [[[[1, 0, 0]], [1, 2], "aborted"]]], self.lines())

    def test_by_a_live_audit(self):
        store = MemoryStore("dirty-read")
        with LiveAuditor(self.auditor()) as live:
            self.dirty_read([live.session(store.connect()) for _ in range(3)])
        self.assertEqual(live.outcome.kind, "violated")
        told = reasons(smaller(live.auditor.history, seconds=SOON))
        self.assertEqual(len(told), 1)
        self.assertRegex(told[0], "^of x, .* read what .* wrote, which had aborted$")

    def test_an_honest_store_is_serial(self):
        with self.auditor() as auditor:
            self.dirty_read(self.sessions(auditor))
            self.assertEqual(auditor.round().kind, "serial")
            aborted = auditor.history[1][0]
        self.assertEqual((aborted.reads, aborted.writes, aborted.outcome), ([], [], "aborted"))
        self.assertEqual(aborted.did, ([("x", (0, 0))], ["x", "y"]))
        self.assertIn(("wrote", "y", "5"), aborted.values)

    def test_what_never_went_to_the_store_was_not_written(self):
        with self.auditor() as auditor:
            a, *_ = self.sessions(auditor, "dirty-read")
            with self.assertRaises(ZeroDivisionError):
                a.run(lambda t: (t.put("x", 1), t.get("y"), 1 // 0))
            transaction = a.begin()
            transaction.rollback()
            its = auditor.history[0]
        self.assertEqual([one.did for one in its], [([("y", "init")], []), ([], [])])

    def test_a_store_that_aborts_in_the_midst_of_what_is_written(self):
        """If the store aborts in the middle of the writes, only the writes that it was given are
        reported."""
        with self.auditor() as auditor:
            a, *_ = self.sessions(auditor)
            write = a.store.write

            def refuses(key, value, name):
                if key == "y":
                    raise AbortedError("no")
                write(key, value, name)

            with mock.patch.object(a.store, "write", refuses), self.assertRaises(AbortedError):
                a.run(put(x=1, y=1, z=1), attempts=1)
            self.assertEqual(auditor.history[0][0].tried_writes, ["x", "y"])

    def test_fences_and_flags_that_were_aborted(self):
        """The read of a fence that failed is unknown, so the fence is idle. A flag is reported."""
        with self.auditor() as auditor:
            a, *_ = self.sessions(auditor)
            for deed in (a.fence, a.flag):
                with mock.patch.object(a.store, "commit", side_effect=AbortedError("no")), self.assertRaises(AbortedError):
                    deed()
            told = [one.did for one in auditor.history[0]]
            self.assertEqual(auditor.round().kind, "serial")
        key = f"{FLAG}0"
        self.assertEqual(told, [([(FENCE, "init")], [FENCE])] * 3 + [([(key, "init")], [key])] * 3)

    def test_over_sqlite(self):
        """At SQLite's weakest level the fault shows every time; at the strictest level, aborted
        attempts are reported."""
        path = os.path.join(self.folder, "store")
        prepare_sqlite(path, "delete")
        for level, kind in (("read uncommitted", "violated"), ("immediate", "serial")):
            stores = [SQLiteStore(path, level, patience=0.0) for _ in range(SESSIONS)]
            seen = run_lockstep("dirty read", stores, f"{level}/", tells=True)
            for store in stores:
                store.close()
            self.assertEqual(seen.kind, kind)
            if kind == "violated":
                self.assertEqual(seen.anomaly, "dirty read")
                self.assertIn("of x, 1.0 read what 0.1 wrote, which had aborted", "\n".join(seen.lines))


class NotKnown(WithFolder):
    """A transaction isn't called aborted unless that is known."""

    def outcome_of(self, store, *errors):
        auditor = self.auditor()
        session = Session(auditor, 0, store, patience=0.05)
        with self.assertRaises(errors):
            session.run(put(x=1), attempts=1)
        session.close()
        return auditor.history[0][0]

    def store(self, **more):
        its = MemoryStore().connect()
        for name, call in more.items():
            setattr(its, name, call)
        return its

    def raises(self, error):
        def call(*_):
            raise error

        return call

    def test_a_commit_that_was_not_answered(self):
        """Whatever the store's rollback says afterwards, and whatever happens in between."""
        failed = ValueError("of a handler of SIGALRM")
        for name, error in (
            ("rollback", AbortedError("so it says of the rollback")),
            ("rollback", OutcomeUnknownError("nor of the rollback")),
            ("rollback", OSError("the connection is gone")),
            ("rollback", KeyboardInterrupt()),
            ("has_answered", KeyboardInterrupt()),
            ("outcome", KeyboardInterrupt()),
        ):
            with self.subTest(name=name, error=error):
                store = self.store(commit=self.raises(failed), **{name: self.raises(error)})
                store.known = False
                logged = self.outcome_of(store, ValueError, OutcomeUnknownError, KeyboardInterrupt)
                self.assertEqual((logged.outcome, logged.writes, logged.did), ("unknown", ["x"], ([], ["x"])))

    def test_what_the_store_has_answered_is(self):
        failed = ValueError("a constraint")
        for more in ({"has_answered": lambda error: error is failed}, {"outcome": lambda: "aborted"}):
            with self.subTest(more=[*more]):
                logged = self.outcome_of(self.store(commit=self.raises(failed), **more), ValueError)
                self.assertEqual((logged.outcome, logged.tried_writes), ("aborted", ["x"]))

    def test_before_the_commit_is_sent_it_is(self):
        for error in (ValueError("of the driver"), AbortedError("a conflict")):
            logged = self.outcome_of(self.store(write=self.raises(error)), ValueError, AbortedError)
            self.assertEqual((logged.outcome, logged.tried_writes), ("aborted", ["x"]))


class Kept(WithJournal):
    """Aborted attempts in a journal."""

    def fences(self, auditor, numbers, source):
        for session in range(3):
            auditor.offer(session, numbers[session], Logged([(FENCE, source)], [FENCE]))
            source = session, numbers[session]
            numbers[session] += 1
        return source

    def test_what_was_aborted_is_still_told(self):
        """Also after a cut, when a checkpoint is written, although no program's saved state has
        them."""
        with self.auditor() as auditor:
            auditor.offer(0, 0, UNDONE, Logged((), ("z",)), UNDONE)
            numbers = [3, 0, 0]
            last = self.fences(auditor, numbers, "init")
            self.fences(auditor, numbers, last)
            auditor.offer(0, 5, UNDONE._replace(tried_writes=["new"]))
            self.assertEqual(auditor.round().kind, "serial")
            gone = auditor.truncate().gone
            self.assertGreater(gone, 3)
            kept = auditor.history[0][-1]
            auditor.offer(0, 6, UNDONE, Logged([("z", (0, 1))], ()))
        for _ in range(2):  # the second journal has what the first program wrote
            with self.resumed() as auditor:
                its = auditor.history[0]
                self.assertEqual([one.outcome for one in its[-3:]], ["aborted", "aborted", "committed"])
                self.assertEqual(its[-3].did, kept.did)
                self.assertEqual([sorted(deeds) for deeds in its[-2].did], [[("y", "init")], ["x", "y"]])
        with self.resumed() as auditor:
            auditor.offer(1, numbers[1], Logged([("new", (0, 5))], ()))
            self.assertEqual(auditor.round().kind, "violated")
            history, name = from_start(auditor)
            told = reasons(smaller(history, seconds=SOON), name)
        self.assertEqual(told, ["of new, 1.2 read what 0.5 wrote, which had aborted"])


if __name__ == "__main__":
    unittest.main()
