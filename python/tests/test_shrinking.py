"""The explanation of a violation is small, complete and ready in time, with as many transactions as
may remain."""
import os
import random
import sys
import time
import unittest

from zanteyard import AbortedError, Logged, Session, audited, smaller, tell_violation
from zanteyard.explain import _shrinking as shrinking
from zanteyard.explain._audited import named, refuted
from zanteyard.program._auditor import PROGRAM
from zanteyard.explain._fewest import fewest
from zanteyard.explain._reasons import explain_history
from zanteyard.promises._kinds import ALL
from zanteyard.stores.memory import MemoryStore
from zanteyard.explain._shrinking import Part
from zanteyard.explain._words import statements_of

from .test_examples import EXAMPLES

FEW, MOST = 1024, 4096  # transactions
SECONDS = 5.0
SLOW = 60.0  # factor for a busy machine


def workloads():
    sys.path.insert(0, EXAMPLES)
    try:
        import postgres_live
    finally:
        sys.path.remove(EXAMPLES)
    return postgres_live.WORKLOADS


class Records:
    """Stands in for an auditor."""

    run_name = "run"
    is_named = False

    def __init__(self, clients):
        self.history = [[] for _ in range(clients)]

    def take(self, session, number, logged):
        self.history[session].append(logged)


def history_of(workload, fault, honest, count=MOST, clients=8):
    """This many transactions over a store in memory, several of them concurrent; without a fault at
    first."""
    random.seed(1)
    store, records = MemoryStore(), Records(clients)
    sessions = [Session(records, number, store.connect()) for number in range(clients)]
    begun, running = 0, {}
    while begun < count or running:
        store.fault = fault if begun >= honest else None
        session = random.choice(sessions)
        if session in running:
            try:
                running.pop(session).commit()
            except AbortedError:
                pass
        elif begun < count:
            begun += 1
            running[session] = session.begin()
            workload(running[session], session.number)
    return records.history


def random_history(dice):
    """Few transactions that read any version of a key that there is, at any time."""
    keys = "xyz"[: dice.randrange(1, 4)]
    ids = [(session, number) for session in range(dice.randrange(2, 5)) for number in range(dice.randrange(1, 4))]
    writes = {id: [key for key in keys if dice.random() < 0.4] for id in ids}
    history, moment = [[] for _ in range(ids[-1][0] + 1)], 0
    for id in ids:
        moment += dice.randrange(3)
        reads = [
            (key, dice.choice(["init", *(other for other in ids if key in writes[other] and other != id)]))
            for key in keys if dice.random() < 0.5
        ]
        span = (moment, moment + dice.randrange(4), "ns")
        history[id[0]].append(Logged(reads, writes[id], span=span))
    return history


def told_of(history):
    """The transactions that do something."""
    return [logged for txns in history for logged in txns if logged.reads or logged.writes]


@unittest.skipUnless(os.path.isfile(PROGRAM), f"{PROGRAM} is not built")
class Shrinking(unittest.TestCase):
    OWED = {("write-skew", "skew"), ("write-skew", "mixed")} | {
        ("lost-update", name) for name in ("counter", "skew", "mixed")
    }

    def test_each_workload_and_level_in_time(self):
        for name, workload in workloads().items():
            for fault in ("write-skew", "lost-update"):  # as at repeatable read, and at read committed
                for honest, count in ((0, FEW), (MOST - 96, MOST))[: 1 + (name == "mixed")]:
                    with self.subTest(workload=name, fault=fault, honest=honest):
                        history = history_of(workload, fault, honest, count)
                        owed = "violated" if (fault, name) in self.OWED else "serial"
                        self.assertEqual(audited(history)[0].kind, owed)
                        if owed == "violated":
                            self.check(history)

    def check(self, history):
        began = time.monotonic()
        small = smaller(history, seconds=SLOW * SECONDS)
        explanation = explain_history(small)
        self.assertLess(time.monotonic() - began, SLOW * SECONDS)
        self.assertLessEqual(len(told_of(small)), 8)
        self.assertEqual([it for it in told_of(small) if it.outcome == "aborted"], [])
        self.assertLessEqual(len(explanation.lines), 20)
        self.assertTrue(explanation.lines[-1].endswith(" can come first"))
        self.check_least(small)

    def check_least(self, small):
        """Violated, and not violated without any one of its transactions."""
        self.assertEqual(audited(small)[0].kind, "violated")
        part = Part.of(small)
        for id in part.txns:
            self.assertIsNone(part.only(part.txns.keys() - {id}).refuted(PROGRAM), id)

    def test_the_whole_is_not_audited_again_where_its_refutation_is_known(self):
        sizes = []

        def audited_here(history, *more):
            sizes.append(sum(map(len, history)))
            return audited_apart(history, *more)

        audited_apart = shrinking.audited_apart
        self.addCleanup(setattr, shrinking, "audited_apart", audited_apart)
        history = history_of(workloads()["counter"], "lost-update", 20, count=100)
        known = named(audited(history)[0].certificate)
        shrinking.audited_apart = audited_here
        wanted = smaller(history, seconds=SLOW * SECONDS)
        whole, sizes[:] = sizes[0], []
        self.assertEqual(smaller(history, seconds=SLOW * SECONDS, known=known), wanted)
        self.assertLess(max(sizes), whole // 2)
        sizes.clear()
        self.assertEqual(smaller(history, seconds=SLOW * SECONDS, known={(0, 0)}), wanted)  # these aren't violated by themselves
        self.assertEqual(sizes[1], whole)

    def test_it_does_not_matter_which_violation_a_refutation_has_led_to(self):
        """Of few transactions the same ones are shown, and of many no more."""
        for fault, honest, count in (("write-skew", 60, 120), ("lost-update", 200, 280)):
            history = history_of(workloads()["mixed"], fault, honest, count)
            found, left = [], Part.of(history)
            for _ in range(4):  # each time without the readers of the last refutation
                refuted = left.refuted(PROGRAM)
                if refuted is None:
                    break
                small = smaller(history, seconds=SLOW * SECONDS, known=refuted.ids)
                self.check_least(small)
                found.append(small)
                left = Part({
                    id: logged._replace(reads=()) if id in refuted.ids else logged
                    for id, logged in left.txns.items()
                })
            with self.subTest(fault=fault):
                self.assertGreater(len(found), 1)
                sizes = {len(told_of(small)) for small in found}
                self.assertLessEqual(max(sizes), 8)
                if len(Part.of(history).txns) <= shrinking.WHOLE:
                    self.assertEqual(len(sizes), 1)

    def test_a_part_of_few_is_found_for_each_promise(self):
        """What is derived here is what the auditor finds violated, and nothing else, for histories
        of a few transactions at random."""
        for seed in range(40):
            history = random_history(random.Random(seed))
            for promise in ALL:
                part = Part.of(history, promise)
                found = fewest(part.txns, promise, len(part.txns))
                with self.subTest(seed=seed, promise=promise.name):
                    self.assertEqual(bool(found), part.refuted(PROGRAM) is not None)
                    self.assertEqual(found, fewest(dict(reversed(part.txns.items())), promise, len(part.txns)))
                    for ids in found[:1]:
                        self.assertIsNotNone(part.only(ids).refuted(PROGRAM))
                        self.assertEqual(fewest(part.txns, promise, len(ids) - 1), [])

    def test_what_a_refutation_names_behind_a_cut(self):
        """In each session a first transaction stands for what was forgotten."""

        class Cut:
            marks = [3, 5]

        self.assertEqual(refuted(Cut, [["nowrite", 0, 3], ["gone", 1, 7], ["gone", 1, 2]]), {(0, 1), (1, 3), (0, 0)})

    def test_what_plays_no_part_is_left_out(self):
        base, aborted = ("x", (0, 0)), Logged((), (), "aborted")
        lost = Logged((base,), ("x",))
        other = Logged((("y", "init"),), ("y",))
        history = [[Logged((), ("x",)), aborted, other, lost], [aborted, lost], [aborted]]
        self.assertEqual(
            smaller(history, seconds=SLOW * SECONDS),
            [[Logged((), ("x",)), Logged((), ()), Logged((), ()), lost], [Logged((), ()), lost], []],
        )

    def test_a_dirty_read_is_told_with_what_aborted(self):
        history = [[Logged((), (), "aborted")], [Logged((("x", (0, 0)), ("y", "init")), ("z",))]]
        told = []
        tell_violation(history, "/nowhere/x", tell=told.append)
        self.assertEqual(told[3:5], ["    0.0 aborted", "    1.0 read x from 0.0"])
        self.assertEqual(told[5:7], ["because", "    1.0 read x from 0.0, which aborted"])

    def test_a_run_of_one_session_is_told_as_one(self):
        txns = [
            Logged((), ("x",)),
            *(Logged((), (f"y{number}",)) for number in range(5)),
            Logged((("x", "init"),), ()),
        ]
        explanation = explain_history([txns])
        self.assertEqual(
            explanation.lines,
            (
                "0.0 comes before 0.6: they are in one session",
                "0.6 comes before 0.0: 0.6 read x as it was at first, and 0.0 wrote it",
                "so neither 0.0 nor 0.6 can come first",
            ),
        )

    def test_what_cant_be_written_is_told_behind_the_violation(self):
        lost = Logged((("x", "init"),), ("x",))
        told = []
        tell_violation([[lost], [lost]], "/nowhere/violation", tell=told.append)
        self.assertEqual(told[0].split(":")[0], "violated")
        self.assertEqual(told[-1].split(":")[0], "(/nowhere/violation can't be written")

    def test_a_long_statement_is_told_with_its_place(self):
        place = "/a/long/way" * 8 + "/bank.py:104"
        did = (("x",), "UPDATE t SET x = 1 " + "y" * 400 + f" -- {place}")
        (line,) = statements_of(Logged((), ("x",), "committed", (did,)))
        self.assertTrue(line.startswith("wrote x: UPDATE t SET x = 1 y"), line)
        self.assertTrue(line.endswith(f" -- {place}"), line)
        self.assertLess(len(line), 320)

    def test_a_lost_update_among_equals(self):
        """It is told in place of another cycle, if it has no more transactions and is violated by
        itself."""
        def did(reads, *writes):
            return Logged(tuple((key, source) for key, source in reads), writes)

        skew = [[did([("x", "init")], "y")], [did([("y", "init")], "x")]]
        lost = [[did([("z", "init"), ("x", "init")], "z")], [did([("z", "init")], "z", "w")]]
        alone = [[did([("z", "init")], "z")], [did([("z", "init")], "z")]]
        later = [[did([], "z"), did([("z", (2, 0))], "z")], [did([("z", (2, 0))], "z")]]
        dirty = [[Logged((), (), "aborted")], [did([("x", (0, 0))])]]
        wrong = [[did([], "v"), did([("z", (2, 0))], "z")], [did([("z", (2, 0))], "z")]]
        nothing = [[], []]
        for name, history, wanted in (
            ("as many", skew + lost, nothing + alone),
            ("more", skew + later, skew + nothing),
            ("none", skew + [[did([("z", "init")], "z")]], skew + [[]]),
            ("no cycle", dirty + lost, dirty + nothing),
            ("a read of what its source didn't write", dirty + wrong, None),
        ):
            with self.subTest(name=name):
                small = smaller(history, PROGRAM, SECONDS * SLOW, {(0, 0), (1, 0)})
                plain = [
                    [(tuple(it.reads), tuple(it.writes)) for it in txns if it.reads or it.writes]
                    for txns in small
                ]
                if wanted is None:  # whichever, it isn't made up
                    self.assertNotIn(((("z", (2, 0)),), ("z",)), sum(plain, []))
                    continue
                self.assertEqual(
                    plain,
                    [[(tuple(it.reads), tuple(it.writes)) for it in txns if it.reads or it.writes]
                     for txns in wanted],
                )

    def test_the_names_of_a_refutation(self):
        report = audited([[Logged((("x", "init"),), ("x",))], [Logged((("x", "init"),), ("x",))]])[0]
        self.assertEqual(named(report.certificate), {(0, 0), (1, 0)})


if __name__ == "__main__":
    unittest.main()
