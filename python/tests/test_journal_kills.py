"""Auditors with a journal and their processes, killed at seeded random moments, over a store in
memory and over PostgreSQL: each verdict is that of a program that nobody kills on the whole log,
and an independent checker accepts it.

ZANTEYARD_KILLS multiplies how long they run; ZANTEYARD_SEED is the seed.
"""
import json
import os
import pickle
import random
import signal
import subprocess
import sys
import threading
import time
import unittest
from contextlib import suppress

from zanteyard import RATHER_WAIT, AbortedError, Auditor, AuditServer, LiveAuditor, Logged
from zanteyard.program._auditor import PROGRAM as BUILT
from zanteyard.trial.postgres_server import PostgresServer, program
from zanteyard.stores.memory import FAULTS, MemoryStore
from zanteyard.trial.store_kinds import MakeStore
from zanteyard.trial.workloads import ClientProcesses

from .killing import PLAIN, Log
from .owed import Heard, are_right, log_in, log_of, verdicts
from .plain_sql import run_sql
from .test_restarting import PROGRAM, WithJournal, log_with
from .waiting import wait_until

try:
    import psycopg2

    from zanteyard.stores.postgres import PostgresStore, prepare
except ImportError:
    psycopg2 = None

TIMES = float(os.environ.get("ZANTEYARD_KILLS", "1"))
SEED = os.environ.get("ZANTEYARD_SEED", "1")
KILLS = 3  # at least: of auditors of honest stores, and before a provoked violation
MANY = 2000  # transactions within which a fault shows
ENOUGH = 300.0  # seconds to wait, on the slowest machine
ONE_OF = [Logged([("never written", "init")], [f"of {session}"]) for session in range(3)]
HERE = os.path.dirname(os.path.abspath(__file__))
LIVE, FEEDER = (os.path.join(HERE, name) for name in ("journal_live.py", "journal_feeder.py"))
LACKING = [
    name
    for name, there in (("psycopg2", psycopg2), ("initdb of PostgreSQL", program("initdb")), (BUILT, os.path.isfile(BUILT)))
    if not there
]


def shuffled(entries, dice):
    """Sessions in any order, each in its own order, so that reads have to wait for what they
    name."""
    waiting = {}
    for entry in entries:
        waiting.setdefault(entry[0], []).append(entry)
    found = []
    while waiting:
        session = dice.choice([*waiting])
        found += waiting[session][: (count := dice.randrange(1, 6))]
        del waiting[session][:count]
        if not waiting[session]:
            del waiting[session]
    return found


class Killing(threading.Thread):
    """Kills the process `pid()` repeatedly, until the context ends; at most twice while `done()`
    doesn't change, and at most five times while `rounds()` doesn't, since after eight programs that
    die over one line or one round the audit ends."""

    def __init__(self, pid, done, rounds, dice, pause=(0.05, 0.5)):
        super().__init__(daemon=True)
        self.pid, self.done, self.rounds, self.dice, self.pause = pid, done, rounds, dice, pause
        self.kills, self.has_ended = 0, threading.Event()

    def run(self):
        done, rounds, idle, over_one_round = None, None, 0, 0
        while not self.has_ended.wait(self.dice.uniform(*self.pause)):
            now = self.done()
            done, idle = now, idle + 1 if now == done else 0
            now = self.rounds()
            rounds, over_one_round = now, over_one_round if now == rounds else 0
            if idle < 2 and over_one_round < 5:
                try:
                    os.kill(self.pid(), signal.SIGKILL)
                    self.kills += 1
                    over_one_round += 1
                except (OSError, AssertionError, AttributeError, ValueError):
                    pass  # it is being started

    def __enter__(self):
        self.start()
        return self

    def __exit__(self, *_):
        self.has_ended.set()
        self.join()


@unittest.skipIf(PROGRAM == PLAIN, "no auditor is built that knows save and resume")
class Live(WithJournal):
    """The auditor of running clients is killed."""

    def audited(self, fault, seed, least):
        """The outcome, how many programs were killed, and the auditor's lines and reports. Goes on
        until at least that many were killed, and with a fault until it is found."""
        dice = random.Random(seed)
        auditor, store, most = self.auditor(limit=4096), MemoryStore(fault), 120 * TIMES
        heard = Heard(auditor)
        live = LiveAuditor(auditor, every=100, seconds=0.1, policy=RATHER_WAIT)
        log = Log(dice, fault, connect=store.connect)
        log.sessions = [live.session(store.connect()) for _ in range(3)]
        until, when = time.monotonic() + ENOUGH, random.Random(f"{seed} when")
        with Killing(lambda: auditor.program.process.pid, lambda: len(heard.replies), lambda: len(heard.told), when, (0.02, 0.2)) as killing:
            while time.monotonic() < until and not live.is_over:
                if live.handed_in >= most and (fault is None or live.handed_in > MANY) and killing.kills >= least:
                    break
                log.run(1)
                time.sleep(0.005 if live.handed_in < most else 0.05)
            outcome = live.stop()
        auditor.end()
        return outcome, killing.kills, heard

    def test_over_a_store_in_memory(self):
        """If a fault doesn't show in one run, it does in another."""
        for at, fault in enumerate((None, *FAULTS)):
            with self.subTest(fault=fault, seed=SEED):
                wanted = "violated" if fault else "serial"
                for more in range(8):
                    self.path = os.path.join(self.folder, f"journal {at} {more}")
                    least = 0 if fault else KILLS
                    outcome, killed, heard = self.audited(fault, f"{SEED} {at} {more}", least)
                    self.see(outcome, heard)
                    if outcome.kind == wanted:
                        break
                self.assertEqual(outcome.kind, wanted)
                self.assertGreaterEqual(killed, least)

    def test_threads(self):
        """Each waits for its own replies while the program is started again."""
        auditor, failures = self.auditor(limit=4096), []
        heard = Heard(auditor)

        def offers(session):
            for number in range(300):
                if number == 150:
                    wait_until(lambda: killing.kills > 0)
                auditor.offer(session, number, ONE_OF[session])

        def rounds(_):
            for _ in range(6):
                auditor.last_round()

        def run(deed, session):
            try:
                deed(session)
            except Exception as error:
                failures.append(error)

        deeds = [*((offers, session) for session in range(3)), (rounds, None), (rounds, None)]
        threads = [threading.Thread(target=run, args=each) for each in deeds]
        dice, program_id = random.Random(SEED), lambda: auditor.program.process.pid
        with Killing(program_id, lambda: len(heard.replies), lambda: len(heard.told), dice, (0.005, 0.05)) as killing:
            for thread in threads:
                thread.start()
            for thread in threads:
                thread.join()
        self.assertEqual((failures, auditor.received), ([], [300] * 3))
        self.assertGreater(killing.kills, 0)
        self.assertEqual(verdicts(log_in(heard.lines, heard.replies), heard.told, PROGRAM), heard.told)
        self.assertTrue(are_right(heard.lines, heard.replies))

    def see(self, outcome, heard):
        self.assertEqual((outcome.failure, outcome.earlier), (None, ()))
        self.assertEqual(outcome.kind, heard.told[-1][1], str(outcome))
        self.assertTrue(are_right(heard.lines, heard.replies))
        self.assertEqual(verdicts(log_in(heard.lines, heard.replies), heard.told, PROGRAM), heard.told)
        with self.resumed() as auditor:
            # What clients hand in while a violation is found is taken in without another round.
            received, told = tuple(auditor.received), heard.told[-1][0]
            more = received if outcome.kind == "violated" else told
            self.assertEqual(received, tuple(map(max, told, more)))
            self.assertEqual(auditor.outcome().kind, "violated" if outcome.kind == "violated" else "incomplete")


class Fed(WithJournal):
    """The process with the journal is killed, and the auditor with it; what clients did is in a
    file."""

    def fed(self, entries, dice, chance=1.0):
        """What was reported by all processes that fed it."""
        path, told = os.path.join(self.folder, "log"), os.path.join(self.folder, "told")
        with open(path, "wb") as file:
            pickle.dump(entries, file)
        for kills in range(200):
            feeder = subprocess.Popen(
                [sys.executable, FEEDER, PROGRAM, self.path, path, told],
                stdout=subprocess.PIPE,
                stderr=subprocess.PIPE,
                bufsize=0,
            )
            dots, count = b"", dice.randrange(1, 40) if kills < 60 * chance else 1 << 20
            while len(dots) < count and (more := feeder.stdout.read(count - len(dots))):
                dots += more
            time.sleep(dice.random() * 0.004)
            os.kill(feeder.pid, signal.SIGKILL)
            more, error = feeder.communicate()
            self.assertEqual(error, b"")
            if b"\n" in dots + more:
                break
        with open(told) as file:
            lines = [json.loads(line) for line in file.read().splitlines()]
        os.unlink(told)
        os.unlink(self.path)
        return [(tuple(counts), kind) for counts, kind in lines], kills

    def check(self, entries, dice, wanted):
        told, kills = self.fed(shuffled(entries, dice), dice)
        log = log_of(entries, 3, PROGRAM)
        self.assertEqual(told[-1], (tuple(map(len, log)), wanted))
        self.assertEqual(verdicts(log, told, PROGRAM), told)
        return kills, {kind for _, kind in told}

    @unittest.skipIf(PROGRAM == PLAIN, "no auditor is built that knows save and resume")
    def test_over_a_store_in_memory(self):
        kills, kinds = 0, set()
        for at, fault in enumerate((None, *FAULTS, *[None] * 40)):
            if at > len(FAULTS) and kills > 8:
                break  # else the others finished before they were killed
            with self.subTest(fault=fault, seed=f"{SEED} {at}"):
                entries, wanted = log_with(fault, f"{SEED} {at}")
                more, those = self.check(entries, random.Random(f"{SEED} {at}"), wanted)
                kills, kinds = kills + more, kinds | those
        self.assertGreater(kills, 8)
        self.assertLessEqual({"serial", "violated"}, kinds)

    @unittest.skipIf(PROGRAM == PLAIN, "no auditor is built that knows save and resume")
    def test_a_process_with_clients(self):
        """It is killed with its clients: what it had taken in is there, and the verdict covers only
        that."""
        for at, fault in enumerate((None, "lost-update", "write-skew")):
            dice, script = random.Random(f"{SEED} {at}"), os.path.join(self.folder, f"script {at}")
            self.path = os.path.join(self.folder, f"journal {at}")
            command = [sys.executable, LIVE, PROGRAM, self.path, script, fault or "-", f"{SEED} {at}"]
            process = subprocess.Popen(command, stdout=subprocess.PIPE)
            self.assertEqual(process.stdout.readline(), b"begun\n")
            self.assertTrue(wait_until(lambda script=script: self.has_offers(script)))
            time.sleep(dice.random())
            process.kill()
            process.communicate()
            self.see_resumed(script)

    @staticmethod
    def has_offers(script):
        with open(script, "rb") as file:
            return b'["offer"' in file.read()

    def see_resumed(self, script):
        with open(script, "rb") as file:
            lines = file.read().splitlines(keepends=True)
        log = log_in(line for line in lines if line.endswith(b"\n"))
        until = time.monotonic() + ENOUGH
        while True:
            try:
                auditor = self.resumed()
                break
            except Exception:  # a process of its own may still have it
                if time.monotonic() > until:
                    raise
                time.sleep(0.05)
        counts = tuple(auditor.received)
        told = auditor.last_round()
        self.assertEqual(tuple(told.counts), counts)
        self.assertEqual(verdicts([txns[:count] for txns, count in zip(log, counts)], [(counts, None)], PROGRAM), [(counts, told.kind)])
        if auditor.violation is not None:
            self.assertEqual(told.kind, "violated")
        self.assertEqual(auditor.outcome().kind, "violated" if told.kind == "violated" else "incomplete")
        auditor.end()
        return told.kind


@unittest.skipIf(LACKING or PROGRAM == PLAIN, f"not installed or not built: {', '.join(LACKING)}")
class Postgres(Fed):
    @classmethod
    def setUpClass(cls):
        cluster = PostgresServer()
        cls.dsn = cluster.__enter__().dsn
        cls.addClassCleanup(cluster.__exit__)

    def setUp(self):
        super().setUp()
        connection = psycopg2.connect(self.dsn)
        connection.autocommit = True
        connection.cursor().execute("DROP TABLE IF EXISTS zanteyard")
        connection.close()
        prepare(self.dsn)

    test_over_a_store_in_memory = test_a_process_with_clients = None

    def test_a_log_of_it(self):
        """At the lowest level updates are lost; at the highest none is."""
        for level, wanted in (("serializable", "serial"), ("read committed", "violated")):
            with self.subTest(level=level, seed=SEED):
                self.setUp()
                dice = random.Random(f"{SEED} {level}")
                log = Log(dice, connect=lambda level=level: PostgresStore(self.dsn, level))
                for _ in range(3):
                    log.run(10)
                    log.meet()
                for session in log.sessions:
                    session.store.close()
                self.check(log.entries, dice, wanted)

    def have_begun(self):
        """Whether any client has committed something."""
        return run_sql(self.dsn, "SELECT EXISTS (SELECT FROM zanteyard WHERE key ~ '^(count|left|right) ')") == [(True,)]

    def test_eight_processes(self):
        """The auditor of running clients is killed again and again; they go on, in one audit. In
        addition, two sessions in lockstep each write what the other one has read. At a level where
        both may commit, that is the only possible violation."""
        for level, workload, wanted in (("serializable", "skew", "serial"), ("repeatable read", "counter", "violated")):
            with self.subTest(level=level, seed=SEED):
                self.setUp()
                dice, script = random.Random(f"{SEED} {level}"), os.path.join(self.folder, f"script {level}")
                self.path, told = os.path.join(self.folder, level), []
                auditor = Auditor(10, 4096, PROGRAM, script=script)
                self.addCleanup(auditor.end)
                live = LiveAuditor(auditor, every=300, seconds=0.5, policy=RATHER_WAIT, tell=told.append, journal=self.path)
                last, rounds = auditor.last_round, []
                auditor.last_round = lambda *asked: rounds.append(last(*asked)) or rounds[-1]
                with AuditServer(live, os.path.join(self.folder, f"audit {wanted}")) as server:
                    with Killing(lambda: auditor.program.process.pid, lambda: live.taken_in + live.rounds, lambda: live.rounds, dice, (0.2, 1.0)) as killing:
                        pair = Lockstep(live, lambda level=level: PostgresStore(self.dsn, level), killing, self.have_begun)
                        # a violation ends the run
                        seconds = 4.0 * TIMES if wanted == "serial" else 3 * ENOUGH
                        with pair:
                            make = MakeStore("postgres", self.dsn, level)
                            clients = ClientProcesses(server.path, make, 8, workload, seconds, 100.0)
                outcome = live.stop()
                self.assertEqual((clients.failures, pair.failure), ([], None))
                # the highest level may also abort both, because of reads that it assumes
                self.assertIn(pair.committed, (2,) if wanted == "violated" else (0, 1))
                self.assertEqual((outcome.kind, outcome.earlier), (wanted, ()), str(outcome))
                self.assertGreaterEqual(pair.kills, KILLS)
                self.assertGreater(clients.committed, 0)
                auditor.end()
                with open(script, "rb") as file:
                    log = log_in(file.read().splitlines())
                heard = [(tuple(each.counts), each.kind) for each in rounds]
                self.assertEqual(heard[-1][1], wanted)
                self.assertEqual(verdicts(log, heard, PROGRAM), heard)


class Lockstep(threading.Thread):
    """Once clients have begun, and the auditor has been killed a few times since, each of two
    sessions reads two keys and then writes one of them, before the other has ended. Records how
    many of the two transactions the store has committed."""

    def __init__(self, live, connect, killing, have_begun):
        super().__init__(daemon=True)
        self.live, self.connect, self.killing, self.have_begun = live, connect, killing, have_begun
        self.committed, self.kills, self.failure = 0, 0, None

    def run(self):
        try:
            stores = [self.connect(), self.connect()]
            sessions = [self.live.session(store) for store in stores]
            wait_until(self.have_begun)
            self.wait_for_kills(sessions[0])
            with suppress(AbortedError), sessions[0].transaction() as one:
                self.read(one)
                with suppress(AbortedError), sessions[1].transaction() as other:
                    self.read(other)
                    other.put("that side", "1")
                    other.commit()
                    self.committed += 1
                one.put("this side", "1")
                one.commit()
                self.committed += 1
            for store in stores:
                store.close()
        except Exception as error:  # raised by the main thread
            self.failure = error

    def wait_for_kills(self, session):
        """The auditor is killed only if something is done meanwhile."""
        until, before = time.monotonic() + ENOUGH, self.killing.kills
        while self.kills < KILLS and time.monotonic() < until:
            with suppress(AbortedError):
                session.run(lambda transaction: transaction.put("while it is killed", "1"))
            time.sleep(0.05)
            self.kills = self.killing.kills - before

    def read(self, transaction):
        for key in ("this side", "that side"):
            transaction.get(key)

    def __enter__(self):
        self.start()
        return self

    def __exit__(self, *_):
        self.join()


if __name__ == "__main__":
    unittest.main()
