"""Rounds that are searched while more arrives: what a report covers, who waits for it, and what
becomes of a search that takes too long, runs out of memory, or dies with its program. With a
made-up program, whose searches end anywhere between lines, and with the real one."""

import itertools
import json
import logging
import os
import random
import subprocess
import tempfile
import threading
import time
import unittest

from zanteyard import FENCE, Auditor, LiveAuditor, Logged, NoCutError, NoMemoryError
from zanteyard import Policy, ProgramEndedError
from zanteyard.core.errors import NotAnchoredError
from zanteyard.journal import _writer as journal_writer
from zanteyard.program._auditor import PROGRAM
from zanteyard.program._check_report import by_turns
from zanteyard.program._rounds import Rounds
from zanteyard.program._searched_round import EFFORTS
from zanteyard.stores.memory import MemoryStore

from .built import path_of
from .killing import BEFORE, MOMENTS, Killer
from .made_up_programs import made_up

from fuzz_lines import Store
from joins import verdict_of
from judge import effect_of

RUNS = int(os.environ.get("ZANTEYARD_RUNS", "40"))
SECONDS = 300.0
WRITES, READS = Logged([], ["x"]), Logged([("x", (0, 0))], [])
STALE = Logged([("x", "init")], ["x"])  # two of these have no order
FIRST_FENCE, NEXT_FENCE = Logged([(FENCE, "init")], [FENCE]), Logged([(FENCE, (0, 0))], [FENCE])


def logged(txn):
    """A transaction of a line, with keys by name."""
    reads, writes = txn
    name = lambda number: FENCE if number == 0 else f"k{number}"
    source = lambda it: "init" if it[0] == "init" else tuple(it)
    return Logged([(name(it[0]), source(it[1:])) for it in reads], [*map(name, writes)])


class Run:
    """What a small store does is given to an auditor, before a round and while it is searched. Each
    report has to be what the definition says about everything that had been taken in when the round
    began."""

    def __init__(self, test, dice, auditor):
        self.test, self.dice, self.auditor = test, dice, auditor
        sessions = auditor.sessions
        self.store, self.sent, self.closed = Store(dice, sessions), [0] * sessions, set()
        self.history = [[] for _ in range(sessions)]  # everything taken in
        self.kinds, self.cuts, self.joins, self.refused, self.overlapped = [], 0, 0, 0, 0

    def offer(self):
        """Offers some of what the store has done, in one call, each session's in its order."""
        found, lines = [], {}
        for session in self.dice.sample(range(len(self.sent)), len(self.sent)):
            txns = self.store.waiting[session][self.sent[session]:]
            txns = txns[: self.dice.randrange(len(txns) + 1)]
            if txns and session not in self.closed:
                found.append((session, self.sent[session], [*map(logged, txns)]))
                lines[session] = txns
        refused = {session for session, _, _ in self.auditor.offer_all(found)}
        self.refused += len(refused)
        for session, txns in lines.items():
            if session not in refused:
                self.sent[session] += len(txns)
                self.history[session] += map(effect_of, txns)
        return len(lines) - len(refused)

    def join(self):
        """Lets a new session join with a fence that reads the last one, if that is taken in."""
        fence = self.store.last.get(0)
        if fence is None or fence[1] >= self.sent[fence[0]] or len(self.sent) > 9:
            return
        session, txns = len(self.sent), [[[[0, *fence]], [0]]]
        if not self.auditor.offer_all([(session, 0, [*map(logged, txns)])], (session,)):
            self.store.last[0] = session, 0
            self.store.writers[0].append((session, 0))
            self.store.sessions += 1
            self.store.waiting.append(txns)
            self.store.first.append(0)
            self.sent.append(1)
            self.history.append([*map(effect_of, txns)])
            self.joins += 1

    def close(self):
        session = self.dice.randrange(len(self.sent))
        if session not in self.closed:
            self.closed.add(session)
            self.auditor.close(session)

    def execute(self):
        for _ in range(self.dice.randrange(6)):
            self.store.execute()

    def go_on(self):
        """Continues while a round is searched."""
        self.execute()
        self.overlapped += self.offer()
        if self.dice.random() < 0.1:
            self.close()

    def round(self):
        counts = [*map(len, self.history)]
        self.auditor.begin_round()
        self.go_on()
        while not self.auditor.has_round(0.0):
            self.go_on()
        report = self.auditor.last_round()
        self.test.assertEqual([*report.counts], counts)
        whole = verdict_of(self.history, counts)
        if report.kind != "spent" and whole is not None:
            self.test.assertEqual(report.kind, whole)
        self.kinds.append(report.kind)
        if report.kind in ("serial", "pending"):
            try:
                self.auditor.truncate()
                self.cuts += 1
            except NoCutError:
                pass
        self.test.assertEqual(self.auditor.received, [*map(len, self.history)])


class Overlapping(unittest.TestCase):
    """Searches of generated histories, and what arrives meanwhile."""

    RUNS, AT_LEAST = RUNS, 5  # cuts, joins, fragments without room, and some during a round

    def program(self, folder, seed):
        return made_up(folder, seed=seed)

    def auditor(self, folder, sessions, limit, seed):
        return Auditor(sessions, limit, self.program(folder, seed), "run", f"{folder}/script")

    def test_reports_are_right_of_what_they_were_begun_with(self):
        kinds, counts = set(), [0] * 4
        # How much comes while a round is searched is up to the machine: more runs make up for it.
        for seed in range(10 * self.RUNS):
            if seed >= self.RUNS and len(kinds) >= 3 and min(counts) > self.AT_LEAST:
                break
            with self.subTest(seed=seed), tempfile.TemporaryDirectory() as folder:
                run = self.run_of(folder, seed)
                kinds.update(run.kinds)
                its = (run.cuts, run.joins, run.refused, run.overlapped)
                counts = [one + more for one, more in zip(counts, its)]
        self.assertLessEqual({"serial", "pending", "violated"}, kinds)
        self.assertGreater(min(counts), self.AT_LEAST, counts)

    def run_of(self, folder, seed):
        dice = random.Random(f"rounds {seed}")
        sessions, limit = dice.choice((1, 2, 3, 4)), dice.choice((12, 30, 4096))
        with self.auditor(folder, sessions, limit, seed) as auditor:
            run = Run(self, dice, auditor)
            for _ in range(dice.randrange(2, 12)):
                run.execute()
                for deed in dice.sample([run.offer, run.join, run.close, run.round], 4):
                    if dice.random() < (0.1 if deed == run.close else 0.6):
                        deed()
                if "violated" in run.kinds:
                    break
            run.round()
            marks = [*auditor.marks]
        self.script_leads_there(folder, seed, run.kinds[-1], marks)
        return run

    def script_leads_there(self, folder, seed, kind, marks):
        with open(f"{folder}/script", "rb") as lines:
            more = {"stdout": subprocess.PIPE, "timeout": SECONDS, "check": True}
            program = self.program(folder, seed)
            told = subprocess.run([program], input=lines.read() + b'["show"]\n', **more).stdout
        replies = [*map(json.loads, told.splitlines())]
        refused = [it for it in replies if it[0] == "no" and it[2] not in ("NoCut", "Backlog")]
        self.assertEqual(refused, [])
        self.assertEqual([it[2] for it in replies if it[0] == "report"][-1], kind)
        if kind != "violated":
            self.assertEqual(replies[-1][1], marks)


@unittest.skipUnless(os.access(PROGRAM, os.X_OK), "cobra_audit isn't built")
class OverlappingByTheProgram(Overlapping):
    def program(self, folder, seed):
        return PROGRAM


class OverlappingWhereProgramsDie(Overlapping):
    """With a journal: a round that another program continues covers what it was begun with."""

    RUNS, AT_LEAST, kills = RUNS // 2, 0, 0

    def setUp(self):
        logging.getLogger("zanteyard").setLevel(logging.ERROR)
        self.addCleanup(logging.getLogger("zanteyard").setLevel, logging.NOTSET)
        self.addCleanup(setattr, journal_writer, "GROWS", journal_writer.GROWS)
        journal_writer.GROWS = 150  # bytes after which the journal is rewritten

    def auditor(self, folder, sessions, limit, seed):
        more = {"journal": f"{folder}/journal"}
        return Auditor(sessions, limit, self.program(folder, seed), "run", f"{folder}/script", **more)

    def run_of(self, folder, seed):
        dice = random.Random(f"deaths {seed}")
        plan = lambda _: dice.choice(MOMENTS) if dice.random() < 0.04 else None
        with Killer(plan, dice) as killer:
            run = super().run_of(folder, seed)
        self.kills += killer.kills
        return run

    def test_reports_are_right_of_what_they_were_begun_with(self):
        super().test_reports_are_right_of_what_they_were_begun_with()
        self.assertGreater(self.kills, self.RUNS)


class Waiting(unittest.TestCase):
    def test_who_waits_for_a_search_takes_no_time_of_a_processor(self):
        rounds, looks = Rounds.__new__(Rounds), []

        class Search:
            def pause(self, seconds):
                looks.append("a pause")

        def look():
            looks.append("a look")
            if len(looks) > 4:
                rounds._search = None  # it has ended

        rounds.lock, rounds._search, rounds._look, rounds._may_be_open = threading.Lock(), Search(), look, False
        with rounds._between_rounds():
            self.assertTrue(rounds.lock.locked())
        self.assertEqual(looks, ["a look", "a pause"] * 2 + ["a look"])


class WithMadeUp(unittest.TestCase):
    def setUp(self):
        folder = tempfile.TemporaryDirectory()
        self.addCleanup(folder.cleanup)
        self.folder = folder.name
        self.script = os.path.join(self.folder, "script")
        self.ended = os.path.join(self.folder, "ended")  # a file: searches end once it exists

    def auditor(self, sessions=2, limit=64, more=(), **settings):
        program = made_up(self.folder, **settings)
        found = Auditor(sessions, limit, program, script=self.script, **dict(more))
        self.addCleanup(found.end)
        return found

    def end_searches(self):
        with open(self.ended, "wb"):
            pass

    def lines(self):
        with open(self.script, "rb") as script:
            return [json.loads(line) for line in script]

    def wait_for(self, is_so):
        until = time.monotonic() + SECONDS
        while not is_so():
            self.assertLess(time.monotonic(), until)
            time.sleep(0.01)

    def beside(self, call):
        """A thread that makes this call; returns a function that waits for its result."""
        results = []
        thread = threading.Thread(target=lambda: results.append(call()), daemon=True)
        thread.start()

        def joined():
            thread.join(SECONDS)
            return results[0]

        return joined


class WhileARoundIsSearched(WithMadeUp):
    def test_what_comes_meanwhile_is_in_the_next(self):
        auditor = self.auditor(waits=self.ended)
        auditor.offer(0, 0, WRITES)
        auditor.begin_round()
        self.assertFalse(auditor.has_round(0.0))
        auditor.offer(0, 1, WRITES)
        auditor.offer(1, 0, READS)
        auditor.close(1)
        self.assertFalse(auditor.has_round(0.05))
        self.end_searches()
        self.assertEqual(auditor.last_round()[:3], (1, "serial", [1, 0]))
        self.assertEqual((auditor.received, auditor.remaining), ([2, 1], 3))
        self.assertEqual(auditor.last_round()[:3], (2, "serial", [2, 1]))
        auditor.end()
        self.assertEqual([line[0] for line in self.lines()], [
            "open", "offer", "begin", "search", "offer", "offer", "close", "collect",
            "begin", "search", "collect"])
        self.assertEqual(self.lines()[3], ["search", *EFFORTS[0], "guided"])
        self.assertEqual(self.lines()[-1], ["collect", "wait"])

    def test_sessions_hand_in_meanwhile(self):
        """From another thread, while a third one waits for the round."""
        auditor = self.auditor(waits=self.ended, more={"policy": Policy(SECONDS)})
        auditor.take(0, 0, WRITES)
        report = self.beside(auditor.round)
        self.wait_for(lambda: ["search", *EFFORTS[0], "guided"] in self.lines())
        for number in range(1, 20):
            auditor.take(0, number, WRITES)
            auditor.take(1, number - 1, READS)
        self.assertEqual((auditor.taken_in, auditor.failure), (39, None))
        self.end_searches()
        self.assertEqual(report().counts, [1, 0])
        auditor.end()

    def test_each_caller_has_a_round_of_its_own(self):
        auditor = self.auditor(waits=self.ended)
        reports = []
        for session in range(2):
            auditor.offer(session, 0, Logged([], ["x"]))
            reports.append(self.beside(auditor.round))
            self.wait_for(lambda: ["begin"] in self.lines())
        self.end_searches()
        found = sorted(report()[:3] for report in reports)
        self.assertEqual(found, [(1, "serial", [1, 0]), (2, "serial", [1, 1])])

    def test_one_that_nobody_took_is_not_told_for_another(self):
        auditor = self.auditor()
        auditor.offer(0, 0, WRITES)
        auditor.begin_round()
        self.assertTrue(auditor.has_round(SECONDS))
        auditor.offer(0, 1, WRITES)
        auditor.begin_round()
        self.assertEqual(auditor.last_round().counts, [2, 0])
        auditor.last_round(((7, 0, 1),))
        self.assertEqual(auditor.effort, (7, 0, 1))

    def test_a_session_that_joins_waits_for_it(self):
        auditor = self.auditor(waits=self.ended)
        auditor.offer(0, 0, FIRST_FENCE)
        auditor.begin_round()
        joined = self.beside(lambda: auditor.join(2, 0, NEXT_FENCE))
        time.sleep(0.1)
        self.assertEqual(auditor.received, [1, 0])
        self.end_searches()
        self.assertIsNone(joined())
        self.assertEqual(auditor.last_round()[:3], (1, "serial", [1, 0]))
        self.assertEqual(auditor.last_round().counts, [1, 0, 1])
        with self.assertRaises(NotAnchoredError):
            auditor.join(3, 0, WRITES)

    def test_who_waits_for_it_begins_none(self):
        """Even if somebody else has its report by then."""
        auditor = self.auditor(waits=self.ended)
        auditor.offer(0, 0, FIRST_FENCE)
        report = self.beside(auditor.round)
        self.wait_for(lambda: ["begin"] in self.lines())
        joined = self.beside(lambda: auditor.join(2, 0, NEXT_FENCE))
        self.end_searches()
        self.assertEqual(report().counts, [1, 0])
        self.assertIsNone(joined())
        self.assertEqual(self.lines().count(["begin"]), 1)

    def test_a_cut_waits_for_it(self):
        auditor = self.auditor(waits=self.ended)
        auditor.offer_all([(0, 0, [FIRST_FENCE]), (1, 0, [NEXT_FENCE])])
        auditor.begin_round()
        cut = self.beside(auditor.truncate)
        self.end_searches()
        self.assertEqual(cut(), ((0, 0), 1))
        self.assertEqual(auditor.last_round()[:3], (1, "serial", [1, 1]))

    def test_an_interrupt_leaves_it_to_nobody(self):
        """The next round covers everything that is there."""
        auditor = self.auditor(waits=self.ended)
        auditor.offer(0, 0, WRITES)
        await_report = auditor._await_report

        def interrupted(seconds):
            await_report(seconds)
            raise KeyboardInterrupt

        auditor._await_report = interrupted
        with self.assertRaises(KeyboardInterrupt):
            auditor.last_round()
        auditor._await_report = await_report
        auditor.offer(0, 1, WRITES)
        self.end_searches()
        self.assertEqual(auditor.last_round()[:3], (1, "serial", [2, 0]))
        self.assertIn(["skip"], self.lines())


class SearchesThatDoNotEnd(WithMadeUp):
    def test_one_that_takes_too_long_is_skipped(self):
        """The program goes on, the round is undecided, and the next one runs as usual."""
        for journal in (None, os.path.join(self.folder, "journal")):
            with self.subTest(journal=journal):
                self.ended = os.path.join(self.folder, f"ended {bool(journal)}")
                more = {"round_seconds": 0.2, "journal": journal}
                auditor = self.auditor(more=more, waits=self.ended)
                process = auditor.program.process
                auditor.take(0, 0, WRITES)
                self.assertEqual(auditor.round()[:3], (1, "spent", [1, 0]))
                outcome = auditor.outcome()
                self.assertEqual((outcome.kind, outcome.failure), ("undecided", None))
                self.assertIsNone(process.poll())
                if journal:
                    auditor.program.process.kill()  # another program goes on, without that round
                auditor.take(1, 0, READS)
                self.end_searches()
                self.assertEqual(auditor.round()[:3], (3, "serial", [1, 1]))
                auditor.end()
        if journal:
            with Auditor.resumed(journal, made_up(self.folder)) as resumed:
                self.assertEqual(resumed.round()[:3], (4, "serial", [1, 1]))

    def test_a_live_audit_goes_on(self):
        auditor = self.auditor(waits=self.ended, more={"round_seconds": 0.2})
        policy = Policy(60.0, begins_anew=False)
        live = LiveAuditor(auditor, every=10000, seconds=0.0, policy=policy)
        session = live.session(MemoryStore().connect())
        for count in range(1, 4):
            session.run(add_one)
            self.wait_for(lambda: live.figures.kinds.get("spent", 0) >= count)  # noqa: B023
        self.assertEqual((live.report.kind, live.failure), ("spent", None))
        self.end_searches()
        session.run(add_one)
        outcome = live.stop()
        self.assertEqual((outcome.kind, outcome.audited), ("serial", outcome.handed_in))

    def test_one_that_finds_no_memory_is_given_again(self):
        for wanting in range(3):
            with self.subTest(wanting=wanting):
                auditor = self.auditor(wants_memory=wanting)
                auditor.offer(0, 0, WRITES)
                self.assertEqual(auditor.round()[:3], (1, "serial", [1, 0]))
                auditor.end()

    def test_one_that_never_finds_memory(self):
        """That is reported, and the round is over."""
        auditor = self.auditor(wants_memory=3)
        auditor.offer(0, 0, WRITES)
        with self.assertRaises(NoMemoryError):
            auditor.round()
        auditor.offer(0, 1, WRITES)
        self.assertEqual(auditor.round()[:3], (1, "serial", [2, 0]))

    def test_a_program_that_dies_over_each_search(self):
        """With a journal: not forever, even if it has answered that it searches."""
        for every in (1, 2):
            with self.subTest(every=every):
                more = {"journal": os.path.join(self.folder, f"journal {every}")}
                auditor = self.auditor(more=more, waits=self.ended)
                auditor.offer(0, 0, WRITES)
                collects = itertools.count(1)

                def plan(lines):
                    is_collect = lines == [b'["collect"]']
                    return BEFORE if is_collect and next(collects) % every == 0 else None  # noqa: B023

                with Killer(plan), self.assertRaises(ProgramEndedError):
                    auditor.round()
                self.assertEqual(auditor.program.restarts, 7)
                auditor.end()

    def test_a_program_that_dies_behind_a_search_without_memory(self):
        """The next one is given the search once."""
        auditor = self.auditor(more={"journal": f"{self.folder}/journal"}, wants_memory=1)
        auditor.offer(0, 0, WRITES)
        searches = itertools.count(1)

        def plan(lines):
            is_search = lines[0].startswith(b'["search"') and len(lines) == 1
            return BEFORE if is_search and next(searches) == 2 else None

        with Killer(plan) as killer:
            self.assertEqual(auditor.round()[:3], (1, "serial", [1, 0]))
        self.assertEqual((killer.kills, auditor.program.restarts), (1, 1))


class BelowALiveAudit(WithMadeUp):
    def live(self, limit=4096, sessions=2, **settings):
        auditor = self.auditor(sessions, limit, **settings)
        policy = Policy(60.0, begins_anew=False)
        its = {"every": 10000, "seconds": 0.0, "patience": 60.0}
        return LiveAuditor(auditor, policy=policy, **its), auditor

    def test_clients_are_taken_in_meanwhile(self):
        live, _ = self.live(waits=self.ended)
        store = MemoryStore()
        sessions = [live.session(store.connect()) for _ in range(2)]
        sessions[0].run(add_one)
        self.wait_for(lambda: ["begin"] in self.lines())
        for _ in range(10):
            for session in sessions:
                session.run(add_one)
        self.wait_for(lambda: live.taken_in == live.handed_in)
        self.assertEqual((live.rounds, live.handed_in), (0, 21))
        self.end_searches()
        outcome = live.stop()
        self.assertEqual((outcome.kind, outcome.audited, outcome.failure), ("serial", 21, None))

    def test_who_joins_waits_and_holds_up_nobody(self):
        """A session that a client has joined is taken in after the report, with everything it
        did."""
        self.end_searches()
        live, auditor = self.live(waits=self.ended)
        live._pace.seconds = 600.0
        store = MemoryStore()
        stays = live.session(store.connect())
        stays.run(add_one)
        live._pace.every = 1
        self.wait_for(lambda: live.cuts)  # from here on sessions may join
        live._pace.every, live._pace.seconds = 10000, 0.0
        os.remove(self.ended)
        stays.run(add_one)
        self.wait_for(lambda: self.lines()[-1][0] in ("search", "offer"))
        rounds, others = live.rounds, [live.session(store.connect()) for _ in range(2)]
        for _ in range(5):
            for session in (stays, *others):
                session.run(add_one)
        numbers = [session.number for session in others]
        self.wait_for(lambda: auditor.received[0] == live.next_number(0))
        time.sleep(0.2)
        self.assertEqual(live.rounds, rounds)
        joined = max(numbers)
        self.assertEqual([line for line in self.lines() if line[:2] == ["join", joined]], [])
        self.end_searches()
        self.wait_for(lambda: len(auditor.received) > joined and auditor.received[joined] > 5)
        self.assertNotIn("RoundOpen", str(live.failure))
        outcome = live.stop()
        self.assertEqual((outcome.kind, outcome.audited, outcome.failure),
                         ("serial", outcome.handed_in, None))
        auditor.end()

    def test_no_more_is_taken_in_than_there_is_room_for(self):
        live, _ = self.live(limit=24, waits=self.ended)
        session = live.session(MemoryStore().connect())
        session.run(add_one)
        self.wait_for(lambda: ["begin"] in self.lines())
        for _ in range(17):
            session.run(add_one)
        self.wait_for(lambda: live.taken_in == 16)  # eight are for a meeting
        time.sleep(0.2)
        self.assertEqual((live.taken_in, live.failure), (16, None))
        self.end_searches()
        outcome = live.stop()
        self.assertEqual((outcome.kind, outcome.audited, outcome.failure), ("serial", 18, None))

    def test_rounds_and_clients_are_told_as_values(self):
        rounds, clients, lines = [], [], []
        auditor = self.auditor()
        its = {"every": 10000, "seconds": 0.0, "tell": lines.append, "on_round": rounds.append}
        live = LiveAuditor(auditor, **its, on_client=clients.append, policy=Policy(60.0))
        session = live.session(MemoryStore().connect())
        for count in range(1, 4):
            session.run(add_one)
            self.wait_for(lambda: len(rounds) >= count)  # noqa: B023
        live.stop()
        self.assertEqual([told.report.number for told in rounds], [*range(1, len(rounds) + 1)])
        self.assertEqual([*map(str, rounds)], lines)
        last = rounds[-1]
        self.assertEqual((last.report.kind, last.transactions, last.remaining), ("serial", 3, 3))
        self.assertEqual((last.cut, clients[0]), (None, (1, 0, 0, False)))
        self.assertEqual(str(clients[0]), "client 1 begins session 0, first with 0.0")

    def test_what_a_callback_raises_harms_nothing(self):
        calls = {name: lambda told: 1 // 0 for name in ("tell", "on_round", "on_client")}
        live = LiveAuditor(self.auditor(), **calls)
        session = live.session(MemoryStore().connect())
        with self.assertLogs("zanteyard", "ERROR") as told:
            session.run(add_one)
            outcome = live.stop()
        self.assertEqual((outcome.kind, outcome.failure), ("serial", None))
        self.assertEqual(len(told.output), 1)

    def test_a_program_that_ends(self):
        live, _ = self.live(ends=2)
        session = live.session(MemoryStore().connect())
        session.run(add_one)
        self.wait_for(lambda: session.run(add_one) or live.failure)
        self.assertIn("cobra_audit ended with status 1", str(live.failure))
        outcome = live.stop()
        self.assertEqual(outcome.kind, "incomplete")
        self.assertLess(outcome.audited, outcome.handed_in)


@unittest.skipUnless(all(map(path_of, ("cobra_audit", "cobra_check"))), "not built")
class LiveByTheProgram(unittest.TestCase):
    """A live audit of clients that come and go; its script leads to the same result."""

    def setUp(self):
        folder = tempfile.TemporaryDirectory()
        self.addCleanup(folder.cleanup)
        self.script, self.replies = (os.path.join(folder.name, it) for it in ("script", "replies"))

    def audited(self, fault):
        """The outcome, and what its auditor has forgotten; its script is kept."""
        policy = Policy(60.0, begins_anew=False)
        with Auditor(2, script=self.script) as auditor:
            its = {"every": 16, "seconds": 0.02, "policy": policy, "patience": 60.0}
            live, store = LiveAuditor(auditor, **its), MemoryStore(fault)
            stays = live.session(store.connect())
            for turn in range(5):
                with live.session(store.connect()) as comes:
                    for session in (stays, comes) * 8:
                        session.run(add_one)
                ends = time.monotonic() + SECONDS
                while live.cuts <= turn and not live.is_over and time.monotonic() < ends:
                    stays.run(add_one)
                    time.sleep(0.005)
            outcome = live.stop()
            return outcome, [*auditor.marks]

    def told(self):
        """What cobra_audit answers to the script; nothing is refused, and everything is right."""
        with open(self.script, "rb") as lines, open(self.replies, "wb") as replies:
            subprocess.run([PROGRAM], stdin=lines, stdout=replies, timeout=SECONDS, check=True)
        with open(self.script, "rb") as lines, open(self.replies, "rb") as replies:
            asked = b"".join(each for pair in by_turns(lines, replies) for each in pair)
        more = {"stdout": subprocess.PIPE, "timeout": SECONDS, "check": True}
        last = subprocess.run([path_of("cobra_check")], input=asked, **more).stdout
        self.assertRegex(last.splitlines()[-1], b"^right: .* spent 0 not-checked 0$")
        with open(self.replies, "rb") as replies:
            found = [*map(json.loads, replies)]
        self.assertEqual([it for it in found if it[0] == "no" and it[2] != "NoCut"], [])
        return found

    def test_the_script_leads_there(self):
        outcome, marks = self.audited(None)
        self.assertEqual((outcome.kind, outcome.failure), ("serial", None))
        self.assertEqual(outcome.audited, outcome.handed_in)
        found = self.told()
        self.assertEqual([it[2:4] for it in found if it[0] == "report"][-1],
                         ["serial", [*outcome.counts]])
        gone = [id for it in found if it[0] == "cut" for id in it[2]]
        self.assertEqual([sum(id[0] == at for id in gone) for at in range(len(marks))], marks)
        self.assertGreater(len([it for it in found if it[0] == "cut"]), 4)

    def test_the_script_of_a_violation(self):
        outcome, _ = self.audited("stale-read")
        self.assertEqual(outcome.kind, "violated")
        self.assertEqual([it[2] for it in self.told() if it[0] == "report"][-1], "violated")


def add_one(transaction):
    transaction.put("x", (transaction.get("x") or 0) + 1)


if __name__ == "__main__":
    unittest.main()
