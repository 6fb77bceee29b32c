"""What becomes of an audit after a violation: it goes on, and the next ones are found, too."""
import functools
import json
import os
import random
import subprocess
import sys
import tempfile
import unittest
from unittest import mock

from tests import test_watch_audit, test_watch_promises
from tests import watch_feed as feed
from zanteyard.core._records import AuditId
from zanteyard.program._binaries import PROGRAM
from zanteyard.promises._kinds import SERIALIZABLE, SNAPSHOT
from zanteyard.watch.violations._conflicts import cycles_of, own_reads, refuted_reads
from zanteyard.watch.violations._kept import Kept

SESSIONS = 6


def text(line):
    return json.dumps(line, separators=(",", ":")).encode()


def kept_of(transactions, marks=(0,) * SESSIONS, last=()):
    """What an auditor gives out that holds these transactions, in the order of their numbers."""
    lines = [["resume", SESSIONS, 4096, 2], ["marks", [*marks], [False] * SESSIONS]]
    lines += [["last", [*last]]] if last else []
    for session in range(SESSIONS):
        its = [its for one, its in sorted(transactions.items()) if one[0] == session]
        lines += [["offer", session, marks[session], its]] if its else []
    return Kept([*map(text, lines), b'["resumed"]'])


def verdict(lines, promise=SERIALIZABLE):
    """The kind that the auditor reports after these lines of a hand-over."""
    first = json.loads(lines[0])
    if promise == SNAPSHOT:
        first = [*first[:2], 2048, 2, "snapshot"]
        marks = json.loads(lines[1])
        lines = [lines[0], text([*marks, [False] * SESSIONS]), *lines[2:]]
    whole = [text(first), *lines[1:], b'["round",65536,0,1,"guided"]', b""]
    done = subprocess.run([PROGRAM], input=b"\n".join(whole), capture_output=True)
    *oks, report = map(json.loads, done.stdout.splitlines())
    assert all(its == ["ok"] for its in oks), oks
    return report[2]


def made(seed):
    """Transactions as the proxy offers those of a store that locks the rows that it writes: each
    write is a read of the version before it, and other reads may be of older versions, but for each
    third seed."""
    its_random = random.Random(seed)
    versions = {key: [[key, "init"]] for key in range(1, 5)}
    found, numbers = {}, [0] * SESSIONS
    for _ in range(its_random.randrange(8, 30)):
        session = its_random.randrange(SESSIONS)
        one = AuditId((session, numbers[session]))
        numbers[session] += 1
        keys = sorted(its_random.sample([*versions], its_random.randrange(0, 3)))
        reads = {tuple(versions[key][-1]) for key in keys}
        for _ in range(its_random.randrange(0, 3)):
            key = its_random.choice([*versions])
            age = its_random.choice((1, 1, 1, 1, 2, 3)) if seed % 3 else 1
            reads.add(tuple(versions[key][-min(age, len(versions[key]))]))
        for key in keys:
            versions[key].append([key, *one])
        found[one] = [[[*read] for read in sorted(reads, key=placed)], keys]
    return found


def placed(read):
    return read[0], () if read[1] == "init" else (*read[1:],)


@unittest.skipUnless(os.path.isfile(PROGRAM), f"{PROGRAM} is not built")
class Listed(unittest.TestCase):
    """The listed cycles, beside the auditor's verdicts."""

    def test_random_histories(self):
        """Each cycle is violated by itself. Without the reads nothing is violated any more, and no
        write has lost the read that it is itself."""
        found = {}
        for promise in (SERIALIZABLE, SNAPSHOT):
            for seed in range(24):
                with self.subTest(seed=seed, promise=promise.name):
                    kept = kept_of(made(seed))
                    listed = cycles_of(kept, promise, seconds=3600.0)
                    kind = verdict(kept.without(()), promise)
                    self.assertEqual(kind == "violated", bool(listed.cycles))
                    self.assertEqual(verdict(kept.without(listed.reads), promise), "serial")
                    self.assertFalse(listed.reads & own_reads(kept.transactions))
                    for cycle in listed.cycles[:2]:
                        part = kept_of(filled(cycle.deeds()))
                        self.assertEqual(verdict(part.without(()), promise), "violated")
                    found[kind] = found.get(kind, 0) + 1
        self.assertGreater(min(found["serial"], found["violated"]), 5)

    def test_what_a_write_is_itself(self):
        """The latest of the versions that its transaction has read."""
        init, first, second = (5, "init"), (5, 0, 0), (5, 1, 0)
        transactions = {
            AuditId((0, 0)): [[[*init]], [5]],
            AuditId((1, 0)): [[[*init], [*first]], [5]],
            AuditId((2, 0)): [[[*init], [*first], [*second]], [5]],
            AuditId((3, 0)): [[[*init], [*second]], [7]],
        }
        wanted = {((0, 0), init), ((1, 0), first), ((2, 0), second)}
        self.assertEqual(own_reads(transactions), wanted)

    def test_lost_updates_of_one_version(self):
        """Three have read it. The first to write it lost nothing."""
        transactions = {
            AuditId((0, 0)): [[[5, "init"]], [5]],
            AuditId((1, 0)): [[[5, "init"], [5, 0, 0]], [5]],
            AuditId((2, 0)): [[[5, "init"], [5, 1, 0]], [5]],
        }
        listed = cycles_of(kept_of(transactions), SERIALIZABLE, seconds=3600.0)
        self.assertEqual(listed.reads, {((1, 0), (5, "init")), ((2, 0), (5, "init"))})
        self.assertEqual([{*cycle.ids} for cycle in listed.cycles], [{(1, 0), (0, 0)}, {(2, 0), (0, 0)}])

    def test_no_time(self):
        """Then reads are left out unseen, but only those that may be to blame."""
        transactions = {
            AuditId((0, 0)): [[[5, "init"]], [5]],
            AuditId((1, 0)): [[[5, "init"], [5, 0, 0]], [5]],
            AuditId((2, 0)): [[[6, "init"]], []],
            AuditId((3, 0)): [[[6, "init"]], [6]],
        }
        listed = cycles_of(kept_of(transactions), SERIALIZABLE, seconds=-1.0)
        self.assertEqual(listed.cycles, [])
        self.assertIn(((1, 0), (5, "init")), listed.reads)
        self.assertNotIn(((2, 0), (6, "init")), listed.reads)
        self.assertEqual(listed.unseen, len(listed.reads))

    def test_a_refutation_without_a_cycle(self):
        """Somebody has read a version that was forgotten long ago, or one that nobody wrote."""
        transactions = {AuditId((0, 0)): [[[5, 1, 0], [6, 2, 0]], []], AuditId((2, 0)): [[], [7]]}
        kept = kept_of(transactions, (0, 3, 0, 0, 0, 0), [[5, 1, 1]])
        self.assertEqual(cycles_of(kept, SERIALIZABLE).cycles, [])
        for item, read in ((["gone", 0, 0, 5], (5, 1, 0)), (["nowrite", 0, 0, 6], (6, 2, 0))):
            self.assertEqual(refuted_reads(kept, [item]), {((0, 0), read)})
        self.assertEqual(kept.last({5, 6}), {5: (1, 1)})


def filled(deeds):
    """These transactions, with idle ones in the gaps."""
    found = {}
    for session, number in deeds:
        for each in range(number + 1):
            reads, keys = deeds.get(AuditId((session, each)), ([], []))
            its = sorted(([*read] for read in reads), key=placed)
            found[AuditId((session, each))] = [its, sorted(keys)]
    return found


def lost_update(at, key):
    """Two transactions of sessions 2 and 3 that both read a version and overwrote it; as the proxy
    offers it, the second one replaces the version of the first."""
    return [
        feed.offer(2, at, [[[key, "init"]], [key]]),
        feed.offer(3, at, [[[key, "init"], [key, 2, at]], [key]]),
    ]


WRITE_SKEW = [
    feed.offer(0, 0, [[[1, "init"], [2, "init"]], [1]]),
    feed.offer(1, 0, [[[1, "init"], [2, "init"]], [2]]),
]


def described(session, number, **more):
    """Sessions 0 and 1 are those of the write skew."""
    if session > 1:
        key = 100 + number
        read = {"reads": [[key, "init"]], "read_by": [0]}
        return feed.described(
            session, number, writes=[key], **read,
            keys=[{"key": key, "table": "public.stock", "row": str(number), "columns": ["id"]}], **more
        )
    statements = [
        feed.statement("SELECT on_call FROM staff WHERE id = $1", feed.AT, file="staff.py", line=3),
        feed.statement(f"UPDATE staff SET on_call = false WHERE id = {session}", feed.AT),
    ]
    keys = [{"key": key, "table": "public.staff", "row": str(key), "columns": ["id"]} for key in (1, 2)]
    its = {"reads": [[1, "init"], [2, "init"]], "read_by": [0, 0], "writes": [session + 1]}
    return feed.described(session, number, statements=statements, keys=keys, **its)


@unittest.skipUnless(os.path.isfile(PROGRAM), f"{PROGRAM} is not built")
class GoesOn(test_watch_audit.Audits):
    def setUp(self):
        """Nothing is left out for want of time, however slow the machine is."""
        for name, value in (
            ("violations._found.cycles_of", functools.partial(cycles_of, seconds=3600.0)),
            ("_watching.DESCRIBING", 3600.0),
        ):
            patched = mock.patch(f"zanteyard.watch.{name}", value)
            patched.start()
            self.addCleanup(patched.stop)

    def audit(self, *parts, **more):
        self.begin([feed.started(), feed.OPEN, *parts], **more)
        self.fake.describes = described

    def test_a_frequent_violation_hides_no_rare_one(self):
        """All are found in one round, and those of the next round as well, by the same audit."""
        frequent = [line for at in range(150) for line in lost_update(at, 100 + at)]
        later = lost_update(150, 250)
        self.audit(
            *frequent, *WRITE_SKEW, *feed.ROUND, ("await", "cut"), *later, *feed.ROUND, ("await", "cut")
        )
        self.until(lambda: len(self.told_of("cut")) == 2)
        status = self.stop()
        self.assertEqual((status.audit, status.violations_count, status.kind), (1, 152, "serial"))
        self.assertEqual(self.told_of("restart"), [])
        frequent, rare = status.groups
        self.assertEqual((frequent.about, frequent.count), ("lost update of stock", 151))
        self.assertEqual((rare.about, rare.count), ("write skew of staff", 1))
        self.assertEqual({one.title for one in status.violations}, {"lost update", "write skew"})
        self.assertEqual([str(ran) for ran in rare.statements], [
            "SELECT on_call FROM staff WHERE id = $1  [staff.py:3]",
            "UPDATE staff SET on_call = false WHERE id = ?",
        ])

    def test_all_are_described_before_anything_is_forgotten(self):
        """The proxy forgets what is cut. There are more than one command may ask about."""
        frequent = [line for at in range(150) for line in lost_update(at, 100 + at)]
        self.audit(*frequent, *feed.ROUND, ("await", "cut"))
        self.fake_has("cut")
        self.stop()
        sent = [its["command"] for its in self.told]
        self.assertEqual(sent[:3], ["describe", "describe", "cut"])
        asked = {tuple(one) for its in self.told_of("describe") for one in its["transactions"]}
        self.assertEqual(len(asked), 300)

    def test_the_rounds_are_numbered_on(self):
        with self.assertLogs("zanteyard", "DEBUG") as logged:
            self.audit(*WRITE_SKEW, *feed.ROUND, ("await", "cut"))
            self.fake_has("cut")
            self.stop()
        rounds = [line.split(";")[0].split("round ")[1] for line in logged.output if ":round " in line]
        self.assertEqual(rounds, ["1: violated", "2: serial", "3: serial"])

    def test_with_a_journal(self):
        """An auditor that is killed after the violation is replaced by one that doesn't have what
        was left out, either."""
        with tempfile.TemporaryDirectory() as folder:
            self.audit(
                *WRITE_SKEW, *feed.ROUND, ("await", "cut"), journal=os.path.join(folder, "journal")
            )
            self.fake_has("cut")
            self.watching.auditing._program._pipes.process.kill()
            for line in lost_update(0, 100):
                self.fake.write(line)
            status = self.stop()
            self.watching.end()
        self.assertEqual((status.audit, status.violations_count, status.kind), (1, 2, "serial"))
        self.assertEqual(status.restarts, 1)
        self.assertEqual(status.rounds_count, 4)

    def test_a_read_of_what_nobody_wrote(self):
        """No store does that; the audit goes on without the read."""
        self.audit(
            feed.offer(0, 0, [[], [5]]), feed.offer(1, 0, [[[6, 0, 0]], []]), *feed.ROUND, ("await", "cut")
        )
        self.fake_has("cut")
        status = self.stop()
        self.assertEqual((status.audit, status.violations_count, status.kind), (1, 1, "serial"))


class GoesOnForSnapshots(GoesOn):
    """The same of what breaks snapshot isolation."""

    def begin(self, parts, **more):
        return test_watch_promises.ByAFeed.begin(self, parts, **more)

    def test_a_frequent_violation_hides_no_rare_one(self):
        """A write skew breaks no snapshot."""
        frequent = [line for at in range(100) for line in lost_update(at, 100 + at)]
        self.audit(*frequent, *WRITE_SKEW, *feed.ROUND, ("await", "cut"))
        self.fake_has("cut")
        status = self.stop()
        self.assertEqual((status.audit, status.violations_count, status.kind), (1, 100, "serial"))
        (group,) = status.groups
        self.assertEqual((group.about, group.count), ("lost update of stock", 100))

    def test_the_rounds_are_numbered_on(self):
        """Nothing is violated."""

    test_with_a_journal = test_the_rounds_are_numbered_on


for _name in [name for name in dir(test_watch_audit.Audits) if name.startswith("test_")]:
    setattr(GoesOn, _name, None)  # these run in their own module
if __name__ == "__main__":
    sys.exit(unittest.main())
