"""Faults around an audit of a real server: what the application saw, what the audit reported, and
how long anybody waited for it. If ZANTEYARD_FAULTS names a file, these tests write their results
there; README.md sums them up."""
import logging
import os
import signal
import subprocess
import sys
import tempfile
import threading
import time
import unittest
from contextlib import suppress

from zanteyard import FENCE, AbortedError, Auditor, AuditServer, LiveAuditor, OutcomeUnknownError
from zanteyard import StoreUnfitError
from zanteyard.program._auditor import PROGRAM
from zanteyard.trial.postgres_server import PostgresServer, program

from .lateness import BOUND, Lateness
from .test_standby import Standby

try:
    import psycopg2

    from zanteyard.stores.postgres import PostgresStore, prepare
except ImportError:
    psycopg2 = None

LACKING = [
    name
    for name, there in (
        ("psycopg2", psycopg2),
        ("initdb of PostgreSQL", program("initdb")),
        (PROGRAM, os.path.isfile(PROGRAM)),
    )
    if not there
]
PLACE = os.path.join(os.path.dirname(os.path.abspath(__file__)), "..")
CLIENTS = 4
SOON = 300.0  # seconds, on a busy machine
PACE = 0.02  # seconds between two transactions, if the auditor is to keep up with them

CLIENT = """
import os, sys, time
from contextlib import suppress
sys.path.insert(0, sys.argv[1])
import logging; logging.getLogger("zanteyard").setLevel(logging.CRITICAL)
from zanteyard import AbortedError, AuditClient
from zanteyard.remote import _client, _connecting
from zanteyard.stores.postgres import PostgresStore
_client.ANSWERING = _connecting.ANSWERING = 120.0  # seconds to begin on a busy machine
from tests.lateness import Lateness
from tests.test_faults import add_one
with AuditClient(sys.argv[2]) as audit:
    session = audit.session(PostgresStore(sys.argv[3]))
    print("begun", flush=True)
    with Lateness() as lateness:
        while not os.path.exists(sys.argv[4]):
            with suppress(AbortedError):
                session.run(add_one, attempts=1)
                print("+", end="", flush=True)
            time.sleep(float(sys.argv[5]))
    print(f"\\n{session.longest} {lateness.allowed_beside_others}", end="", flush=True)
"""


def add_one(transaction):
    transaction.put("x", str(int(transaction.get("x") or 0) + 1))


class Application:
    """Clients that increment counters, each in a thread, until it is ended. A client tries again if
    the store reports that a transaction aborted, and if the store can't be reached. It counts the
    increments that it was told are done."""

    def __init__(self, sessions, pace=0.0):
        self.sessions, self.done, self.unknown, self.seen, self.pace = sessions, 0, 0, [], pace
        self.lateness = Lateness().__enter__()
        self.is_ended, self.lock = False, threading.Lock()
        self.threads = [
            threading.Thread(target=self.client, args=(it,), daemon=True) for it in sessions
        ]
        for thread in self.threads:
            thread.start()

    def client(self, session):
        while not self.is_ended:
            try:
                session.run(add_one, attempts=1)
                with self.lock:
                    self.done += 1
            except AbortedError:
                pass
            except OutcomeUnknownError:
                with self.lock:
                    self.unknown += 1
            except Exception as error:
                with self.lock:
                    self.seen.append(error)
                time.sleep(0.05)
            time.sleep(self.pace)

    def end(self):
        self.is_ended = True
        for thread in self.threads:
            thread.join(SOON)
        self.lateness.__exit__()

    @property
    def longest(self):
        return max(session.longest for session in self.sessions)


@unittest.skipIf(LACKING, f"not installed or not built: {', '.join(LACKING)}")
class Faults(unittest.TestCase):
    @classmethod
    def setUpClass(cls):
        cls.cluster = PostgresServer()
        cls.cluster.__enter__()
        cls.addClassCleanup(cls.cluster.__exit__)

    def setUp(self):
        logging.getLogger("zanteyard").setLevel(logging.CRITICAL)
        self.addCleanup(logging.getLogger("zanteyard").setLevel, logging.NOTSET)
        admin = psycopg2.connect(self.cluster.dsn)
        admin.autocommit = True
        admin.cursor().execute("DROP TABLE IF EXISTS zanteyard")
        admin.close()
        prepare(self.cluster.dsn)
        self.told, self.counted_in = [], [self.cluster.dsn]

    def audit(self, sessions=CLIENTS, **more):
        self.auditor = Auditor(sessions, **more)
        self.addCleanup(self.auditor.end)
        self.addCleanup(lambda: self.live.stop(1.0))
        self.live = LiveAuditor(self.auditor, seconds=0.3, tell=self.told.append)

    def application(self, pace=0.0, patience=SOON, dsn=None, live=None):
        stores = [PostgresStore(dsn or self.cluster.dsn) for _ in range(CLIENTS)]
        sessions = [(live or self.live).session(store, patience=patience) for store in stores]
        for store in stores:
            self.addCleanup(store.close)
        application = Application(sessions, pace)
        self.addCleanup(application.end)
        return application

    def wait_for(self, condition):
        until = time.monotonic() + SOON
        while not condition() and time.monotonic() < until:
            time.sleep(0.02)
        self.assertTrue(condition(), self.told[-5:])

    def is_audited(self):
        return self.live.report is not None

    def began_anew(self):
        return len(self.live.outcome.earlier) > 0 and self.is_audited()

    def counted(self):
        """What the stores have counted."""
        return sum(int(self.sql(dsn, "SELECT value FROM zanteyard WHERE key = 'x'")) for dsn in self.counted_in)

    def sql(self, dsn, text):
        """The first value of the first row; None if there is none."""
        connection = psycopg2.connect(dsn)
        try:
            connection.autocommit = True
            cursor = connection.cursor()
            cursor.execute(text)
            return cursor.fetchone()[0] if cursor.description else None
        finally:
            connection.close()

    def ended(self, application, fault, kind="incomplete", saw="nothing"):
        """Checks what must hold after every fault: nothing is counted twice, no violation is
        reported, and nobody waits too long."""
        application.end()
        outcome = self.live.stop()
        self.assertEqual(outcome.kind, kind or self.owed(outcome), str(outcome))
        self.assertGreaterEqual(self.counted(), application.done)
        self.assertLessEqual(self.counted(), application.done + application.unknown)
        self.assertLess(application.longest, application.lateness.allowed_beside_others)
        if saw == "nothing":
            self.assertEqual((application.seen, application.unknown), ([], 0))
        why = next((str(one.failure) for one in outcome.earlier if one.failure), "")
        self.row(fault, saw, outcome, why, application.longest)
        return outcome

    def owed(self, outcome):
        """The same if it isn't known in advance whether the audit went on. Only a fence whose
        outcome can't be found out isn't handed in."""
        if outcome.earlier or outcome.failure:
            return "incomplete"
        self.assertLessEqual({one.key for one in outcome.pending}, {FENCE})
        return "pending" if outcome.pending else "serial"

    def row(self, fault, saw, outcome, why, longest):
        path = os.environ.get("ZANTEYARD_FAULTS")
        if path:
            audits = f" in {len(outcome.earlier) + 1} audits" if outcome.earlier else ""
            said = f"{outcome.kind}: {outcome.audited} of {outcome.handed_in}{audits}"
            because = f"; {why}" if why else ""
            with open(path, "a", encoding="utf-8") as file:
                file.write(f"| {fault} | {saw} | {said}{because} | {longest:.2f} s |\n")

    def test_no_fault(self):
        self.audit()
        application = self.application(PACE)
        self.wait_for(self.is_audited)
        self.ended(application, "none", "serial")

    def test_cobra_audit_is_killed(self):
        self.audit()
        application = self.application()
        self.wait_for(self.is_audited)
        self.auditor.program.kill()
        self.wait_for(self.began_anew)
        self.ended(application, "`cobra_audit` is killed")

    def test_a_client_hangs_in_a_transaction(self):
        self.audit(limit=1000)  # so that there is soon no room
        self.live._pace.every = 400
        store = PostgresStore(self.cluster.dsn)
        self.addCleanup(store.close)
        hung = self.live.session(store)
        sessions = [self.live.session(PostgresStore(self.cluster.dsn)) for _ in range(CLIENTS - 1)]
        transaction = hung.begin()
        transaction.get("y")
        application = Application(sessions, PACE / 4)
        self.addCleanup(application.end)
        self.wait_for(self.began_anew)
        transaction.put("y", "1")
        try:
            transaction.commit()
        except AbortedError:
            pass  # the store's own error
        hung.run(lambda t: t.get("y"))
        outcome = self.ended(application, "a client hangs in a transaction")
        self.assertIn("took longer", str(outcome.earlier[0].failure))
        for session in sessions:
            session.store.close()

    def test_the_server_of_one_connection_stands_still(self):
        """As if the network to it were down: what a meeting asks over it isn't answered."""
        self.audit()
        store = PostgresStore(self.cluster.dsn)
        self.addCleanup(store.close)
        stuck = self.live.session(store)
        stuck.run(lambda t: t.get("y"))
        sessions = [self.live.session(PostgresStore(self.cluster.dsn)) for _ in range(CLIENTS - 1)]
        pid = store.connection.info.backend_pid
        os.kill(pid, signal.SIGSTOP)
        self.addCleanup(self.go_on, pid)
        self.live._pace.every = 100  # so that a meeting comes soon
        application = Application(sessions)
        self.addCleanup(application.end)
        self.wait_for(lambda: stuck.running is not None)

        def goes_on():
            """Over another connection, which a busy machine may not open at the first try."""
            with suppress(psycopg2.OperationalError):
                stuck.run(lambda t: t.get("y"))
                return True
            return False

        self.wait_for(goes_on)
        self.assertLess(stuck.longest, 2 * BOUND + application.lateness.allowed_beside_others)
        self.go_on(pid)
        self.ended(application, "the server of one connection stands still", None)
        for session in sessions:
            session.store.close()

    @staticmethod
    def go_on(pid):
        try:
            os.kill(pid, signal.SIGCONT)
        except ProcessLookupError:
            pass

    def test_postgresql_is_restarted(self):
        """The server can't always say what became of a commit that was on its way."""
        self.audit()
        application = self.application(patience=20.0)
        self.wait_for(self.is_audited)
        self.cluster.stop()
        time.sleep(0.5)
        begun = sum(session.begun for session in application.sessions)
        time.sleep(0.5)
        # Attempts that never reached the store took no numbers; earlier ones had begun.
        later = sum(session.begun for session in application.sessions)
        self.assertLessEqual(later, begun + CLIENTS)
        self.cluster.start()
        done = application.done
        self.wait_for(lambda: application.done > done + 100)
        application.end()
        self.assertTrue(all(isinstance(error, psycopg2.Error) for error in application.seen))
        self.assertNotEqual(application.seen, [])
        saw = "the store's own errors, meanwhile"
        self.ended(application, "PostgreSQL is killed and started", None, saw)

    def test_the_disk_is_full(self):
        self.audit(script="/dev/full")
        application = self.application(PACE)
        self.wait_for(self.is_audited)
        self.assertIsInstance(self.auditor.script_failure, OSError)
        self.ended(application, "the disk with the script is full", "serial")

    # stores other than the audit's, and other servers that answer for the store

    def test_a_client_of_another_database(self):
        self.sql(self.cluster.dsn, "DROP DATABASE IF EXISTS other")
        self.sql(self.cluster.dsn, "CREATE DATABASE other")
        store = PostgresStore(self.cluster.dsn.replace("dbname=postgres", "dbname=other"))
        prepare(store.dsn)
        self.audit(CLIENTS + 1)
        application = self.application(PACE)
        self.wait_for(self.is_audited)
        with self.assertRaises(StoreUnfitError):
            self.live.session(store).run(add_one)
        store.close()
        done = application.done
        self.wait_for(lambda: application.done > done + 10)
        application.end()
        self.assertEqual((application.seen, application.unknown), ([], 0))
        saw = "`StoreUnfitError`, that client alone"
        self.ended(application, "a client of another database comes", "serial", saw)

    def test_a_connection_leads_to_another_server(self):
        with PostgresServer() as other:
            prepare(other.dsn)
            self.counted_in.append(other.dsn)
            self.audit()
            application = self.application(PACE)
            self.wait_for(self.is_audited)
            session, store = application.sessions[0], application.sessions[0].store
            store.dsn = other.dsn
            store.close()
            self.wait_for(lambda: isinstance(session.unmet, StoreUnfitError))
            done = application.done
            self.wait_for(lambda: application.done > done + 10)
            application.end()
            fault = "a client's connection is lost, and the next one leads to another server"
            self.ended(application, fault)

    @unittest.skipUnless(program("pg_basebackup"), "pg_basebackup isn't installed (no standby answered)")
    def test_a_standby_that_lags_answers(self):
        """The primary's socket is gone for a moment, just when connections to it are lost."""
        with tempfile.TemporaryDirectory() as folder, Standby(self.cluster) as standby:
            self.sql(standby.dsn, "SELECT pg_wal_replay_pause()::text")
            here = f"{folder}/primary"
            os.symlink(self.cluster.folder, here)
            self.audit()
            dsn = f"host={here},{standby.folder} user=postgres dbname=postgres"
            application = self.application(PACE, dsn=dsn)
            self.wait_for(self.is_audited)
            for _ in range(3):
                os.unlink(here)
                ends = "SELECT count(pg_terminate_backend(pid)) FROM pg_stat_activity WHERE backend_type = 'client backend'"
                self.sql(self.cluster.dsn, f"{ends} AND pid <> pg_backend_pid()")
                time.sleep(0.5)
                os.symlink(self.cluster.folder, here)
                self.sql(standby.dsn, f"{ends} AND pid <> pg_backend_pid()")  # the application's pool comes back
                done = application.done
                self.wait_for(lambda: application.done > done + 10)
            application.end()
            self.assertTrue(all(isinstance(error, psycopg2.Error) for error in application.seen))
            fault, saw = "a standby that lags answers in the primary's place", "the store's own errors, meanwhile"
            self.ended(application, fault, None, saw)

    # clients in processes of their own

    def processes(self, pace=0.0):
        """Three clients, each of which has committed something."""
        folder = self.folder()
        self.server = AuditServer(self.live, f"{folder}/audit")
        self.addCleanup(self.server.close)
        begun = [self.client(folder, self.server.path, pace) for _ in range(3)]
        self.go_on_all(begun)
        return begun

    def folder(self):
        folder = tempfile.TemporaryDirectory()
        self.addCleanup(folder.cleanup)
        self.ends = f"{folder.name}/ends"  # clients run until it exists
        return folder.name

    def client(self, folder, path, pace=0.0):
        """Reports in a file what it does, so that the report survives a kill."""
        call = [sys.executable, "-c", CLIENT, PLACE, path, self.cluster.dsn, self.ends, str(pace)]
        with tempfile.NamedTemporaryFile(dir=folder, delete=False) as file:
            process = subprocess.Popen(call, stdout=file)
        process.told = file.name
        self.addCleanup(process.wait)
        self.addCleanup(process.kill)
        return process

    @staticmethod
    def told_by(process):
        with open(process.told, encoding="ascii") as file:
            return file.read()

    def go_on_all(self, processes):
        """Waits until each has reported a few more commits."""
        wanted = {process: self.told_by(process).count("+") + 10 for process in processes}
        self.wait_for(lambda: all(self.told_by(it).count("+") >= count for it, count in wanted.items()))

    def all_ended(self, processes, fault, kind="incomplete"):
        self.end_all()
        ends = [self.end_of(process) for process in processes]
        self.server.close()
        outcome = self.live.stop()
        self.assertEqual(outcome.kind, kind or self.owed(outcome), str(outcome))
        told = sum(count for count, _ in ends)
        self.assertGreaterEqual(self.counted(), told)
        # A killed client may have one more commit than it could report.
        self.assertLessEqual(self.counted(), told + sum(waited is None for _, waited in ends))
        for _, waited in ends:
            if waited is not None:
                self.assertLess(*waited)
        longest = max(waited[0] for _, waited in ends if waited is not None)
        why = next((str(one.failure) for one in outcome.earlier if one.failure), "")
        self.row(fault, "nothing", outcome, why, longest)
        return outcome

    def end_all(self):
        with open(self.ends, "wb"):
            pass

    def end_of(self, process):
        """How many commits it reported, how long it waited at most, and how long it might have; or
        None for these if it was killed."""
        process.wait(SOON)
        _, told, waited = f"{self.told_by(process)}\n".split("\n")[:3]
        return told.count("+"), tuple(map(float, waited.split())) or None

    def test_no_fault_in_processes(self):
        self.audit()
        begun = self.processes(PACE)
        self.wait_for(self.is_audited)
        self.all_ended(begun, "none, in processes", "serial")

    def test_a_clients_process_is_killed(self):
        """The audit goes on: its last transactions are in its notes."""
        self.audit()
        killed, *others = self.processes(PACE)
        killed.kill()
        self.assertIsNone(self.end_of(killed)[1])  # it was killed while it ran
        self.go_on_all(others)
        self.all_ended([killed, *others], "a client's process is killed", "serial")

    def test_a_clients_process_stands_still(self):
        """No meeting is possible until there is no room. The process isn't audited until it answers
        again."""
        self.audit()
        hung, *others = self.processes()
        os.kill(hung.pid, signal.SIGSTOP)
        time.sleep(4.0)
        os.kill(hung.pid, signal.SIGCONT)
        self.go_on_all([hung, *others])
        # whether there was no room meanwhile depends on how much the others did
        self.all_ended([hung, *others], "a client's process stands still for 4 s", kind=None)

    def test_the_auditors_process_is_killed(self):
        """Clients go on, unaudited, and learn it from their own `is_over`."""
        program = """
import sys, time
sys.path.insert(0, sys.argv[1])
from zanteyard import Auditor, AuditServer, LiveAuditor
with Auditor(4) as auditor, LiveAuditor(auditor, tell=lambda line: None) as live:
    with AuditServer(live, sys.argv[2]):
        print("begun", flush=True)
        time.sleep(100)
"""
        folder = self.folder()
        path = f"{folder}/audit"
        call = [sys.executable, "-c", program, PLACE, path]
        server = subprocess.Popen(call, stdout=subprocess.PIPE, text=True)
        self.addCleanup(server.stdout.close)
        self.addCleanup(server.wait)
        self.addCleanup(server.kill)
        self.assertEqual(server.stdout.readline(), "begun\n")
        client = self.client(folder, path)
        self.go_on_all([client])
        server.kill()
        self.go_on_all([client])
        self.end_all()
        count, longest = self.end_of(client)
        self.assertEqual(self.counted(), count)
        self.assertLess(*longest)


if __name__ == "__main__":
    unittest.main()
