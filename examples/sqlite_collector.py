"""A whole collector: two clients of a small bank in SQLite, audited by cobra_audit.

    python3 examples/sqlite_collector.py [FAULT] [PROGRAM]

FAULT is honest (the default), stale, lost-update, dirty-read or lost-write. PROGRAM is the auditor,
by default the repository's build. docs/COLLECTORS.md says why each part is as it is.
"""
import json
import os
import sqlite3
import subprocess
import sys
import tempfile

FAULTS = ("honest", "stale", "lost-update", "dirty-read", "lost-write")
BUILT = "../crates/cobra_audit/out/cobra_audit"
FAULT, PROGRAM = (*sys.argv[1:3], *("honest", None)[len(sys.argv) - 1 :])[:2]
PROGRAM = PROGRAM or os.environ.get("COBRA_AUDIT")
PROGRAM = PROGRAM or os.path.join(os.path.dirname(os.path.abspath(__file__)), BUILT)
if FAULT in ("-h", "--help"):
    sys.exit(print(__doc__.strip()))
if FAULT not in FAULTS or len(sys.argv) > 3:
    named = FAULT if FAULT not in FAULTS else sys.argv[3]
    print(f"unknown fault {named}: give honest, {', '.join(FAULTS[1:])}", file=sys.stderr)
    sys.exit(2)
if not os.path.isfile(PROGRAM):
    print(f"{PROGRAM} is missing: see README.md for how to build it", file=sys.stderr)
    sys.exit(2)


class Auditor:
    """The program, with pipes on both ends: one reply per line."""

    def __init__(self, sessions, limit):
        pipes = {"stdin": subprocess.PIPE, "stdout": subprocess.PIPE}
        self.program = subprocess.Popen([PROGRAM], text=True, **pipes)
        self.numbers = {}  # a number for each key, in one table for all sessions
        self.ask("open", sessions, limit, 2)  # 2: aborted attempts are marked as such

    def ask(self, *line):
        print(json.dumps(line), file=self.program.stdin, flush=True)
        reply = json.loads(self.program.stdout.readline() or '["no", 0, "the program ended"]')
        if reply[0] == "no":
            sys.exit(f"{json.dumps(line)} was answered with {reply}")
        return reply

    def number(self, key):
        return self.numbers.setdefault(key, len(self.numbers) + 1)  # from 1: key 0 is for fences


class Session:
    """One client: a connection, one transaction at a time, and a number for each that begins."""

    def __init__(self, name, auditor, database):
        self.name, self.auditor, self.begun = name, auditor, 0
        self.store = sqlite3.connect(database, isolation_level=None, timeout=0)

    def begin(self):
        self.id, self.reads, self.writes = (self.name, self.begun), set(), {}
        self.tried = []  # the keys whose write was sent to the store, whatever came of it
        self.begun += 1  # an aborted attempt keeps its number: a retry takes the next
        if FAULT != "lost-update":  # the fault: what was read may change before the commit
            self.store.execute("BEGIN")

    def get(self, key):
        if key in self.writes:
            return self.writes[key]  # its own write: not logged
        order = "ASC" if FAULT == "stale" else "DESC"  # the fault: the oldest, not the newest
        found = f"SELECT value, session, number FROM versions WHERE key = ? ORDER BY rowid {order}"
        value, *source = self.store.execute(found, (key,)).fetchone() or (None, "init")
        self.reads.add((self.auditor.number(key), *source))
        return value

    def put(self, key, value):
        # Sent to the store once, at the commit, so that others can only read the last version.
        self.writes[key] = value

    def commit(self):
        try:
            if not self.store.in_transaction:
                self.store.execute("BEGIN")
            for key, value in self.writes.items():  # next to the value the writer's name
                self.tried.append(key)
                row = (key, value, *self.id)
                self.store.execute("INSERT INTO versions VALUES (?, ?, ?, ?)", row)
            is_lost = FAULT == "lost-write" and self.id == (1, 1)
            self.store.execute("ROLLBACK" if is_lost else "COMMIT")
        except sqlite3.Error as error:  # a local store is certain that nothing was committed
            self.store.execute("COMMIT" if FAULT == "dirty-read" else "ROLLBACK")
            return self.offer(self.tried, f"aborted ({error})", "aborted")
        return self.offer(self.writes, "committed")

    def offer(self, keys, outcome, *aborted):
        reads = sorted(self.reads, key=lambda read: (read[0], read[1] != "init", read[1:]))
        writes = sorted(map(self.auditor.number, keys))
        print(f"  {self.id[0]}.{self.id[1]} {outcome}: reads {reads}, writes {writes}")
        self.auditor.ask("offer", *self.id, [[reads, writes, *aborted]])
        return not aborted


def put(client, **values):
    client.begin()
    for key, value in values.items():
        client.put(key, value)
    return client.commit()


def work(alice, bob):
    put(alice, rent=100, food=50)
    bob.begin(), alice.begin()  # at the same time, both take 10 from the rent
    for client in (bob, alice):
        client.put("rent", client.get("rent") - 10)
    alice.commit()
    if not bob.commit():  # an honest store lets one of them commit; the other tries again
        bob.begin(), bob.put("rent", bob.get("rent") - 10), bob.commit()
    put(alice, food=900, rent=-750)  # aborts: nothing may be below 0
    bob.begin(), bob.get("rent"), bob.get("food"), bob.commit()
    put(alice, food=130, rent=0)


with tempfile.TemporaryDirectory() as folder:
    setup = sqlite3.connect(f"{folder}/bank", isolation_level=None)
    table = "versions (key, value CHECK (value >= 0), session, number)"
    setup.executescript(f"PRAGMA journal_mode = WAL; CREATE TABLE {table}")
    auditor = Auditor(sessions=2, limit=8)
    work(Session(0, auditor, f"{folder}/bank"), Session(1, auditor, f"{folder}/bank"))
    _, _, kind, counts, certificate = auditor.ask("round", 4096, 0, 1, "guided")
    order = certificate if kind != "violated" else []
    told = " ".join(f"{session}.{number}" for session, number in order)
    says = {
        "serial": f"one at a time in the order {told}, these transactions would have read the same",
        "pending": f"the order {told} explains what they read, if what is still to come allows it",
        "violated": "no order that keeps each session's own explains what they read",
    }
    if kind == "violated":
        # docs/FORMATS.md says how to read it
        print(*(f"  {json.dumps(item)}" for item in certificate), sep="\n")
    print(f"{FAULT}: {kind}: {says[kind]}")
