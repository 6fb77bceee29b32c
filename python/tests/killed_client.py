"""A process of clients that is killed at a chosen place; run by test_killed.py."""
import logging
import os
import random
import signal
import sys
import threading
import time
from contextlib import suppress

sys.path.insert(0, sys.argv[1])
logging.getLogger("zanteyard").setLevel(logging.CRITICAL)

from zanteyard import AbortedError, AuditClient, OutcomeUnknownError, ProgramEndedError  # noqa: E402
from zanteyard.trial.store_kinds import MakeStore  # noqa: E402


def die():
    os.kill(os.getpid(), signal.SIGKILL)
    time.sleep(60)


def send_and_die(store):
    """Sends the commit and dies; the server can see which commit that is."""
    with store.connection.cursor() as cursor:
        cursor.execute("SET LOCAL zanteyard.dies = 'yes'")
    text = b"COMMIT\0"
    os.write(store.connection.fileno(), b"Q" + (len(text) + 4).to_bytes(4, "big") + text)
    die()


class Dying:
    """Ends the process when it reaches a place for the n-th time."""

    def __init__(self, where, left):
        self.where, self.left = where, left

    def comes(self, where):
        if where != self.where:
            return False
        self.left -= 1
        return self.left < 0

    def beset(self, session):
        store = session.store
        for name, before, behind in (
            ("write", "before its write", "behind its write"),
            ("send_commit", "before its commit", "behind its commit"),
            ("exchange", "before its exchange", "behind its exchange"),
        ):
            setattr(store, name, self.around(getattr(store, name), before, behind, session))
        for name in ("flag", "fence", "write_mark", "read_mark", "lend"):
            setattr(session, name, self.around(getattr(session, name), f"before a {name}", f"behind a {name}", session))
        notes = session.notes
        notes.write = self.around(notes.write, "before a note", "behind a note", session)
        session.auditor.take_packed = self.around(session.auditor.take_packed, "before its take", "behind its take", session)

    def around(self, plain, before, behind, session):
        def call(*arguments):
            if self.comes(before):
                die()
            if before == "before its commit" and self.comes("in its commit"):
                send_and_die(session.store)
            result = plain(*arguments)
            if self.comes(behind):
                die()
            return result

        return call


def work(session, client, seed, pause, workload, took):
    """Increments a counter, or takes one of two coins that the other leaves. Each transaction also
    writes a row of its own."""
    chance, count = random.Random(seed), 0
    while True:
        count += 1

        def body(transaction):
            transaction.put(f"row {client} {count}", str(count))
            keys = [f"{chance.choice('ab')} {chance.randrange(3)}" for _ in range(1)]
            if workload == "counter":
                transaction.put(keys[0], str(int(transaction.get(keys[0]) or 0) + 1))
            elif workload == "skew":
                pair = chance.randrange(2)
                both = [int(transaction.get(f"{side} {pair}") or 0) for side in "ab"]
                transaction.put(f"{chance.choice('ab')} {pair}", str((sum(both) + 1) % 1000))
            elif workload == "mixed":
                transaction.put(keys[0], str(count))
                if chance.random() < 0.2:
                    raise AbortedError("for the sake of it")

        began = time.monotonic()
        with suppress(AbortedError, OutcomeUnknownError):
            try:
                session.run(body, attempts=1)
            except ValueError:
                return  # it has left
        took.append(max(took.pop(), time.monotonic() - began))
        time.sleep(chance.random() * pause)


def patiently(deed, *arguments):
    """Retries, since the auditor's process may still be starting on a busy machine."""
    for _ in range(5):
        with suppress(ProgramEndedError):
            return deed(*arguments)
    return deed(*arguments)


def main():
    _, _, path, kind, dsn, level, client, seed, where, left, pause, workload, sessions = sys.argv
    more = () if level == "-" else (level,)
    audit = patiently(AuditClient, *path.split(" "))  # a socket's path, or a URL and an audit's name
    dying = Dying(where, int(left))
    made = []
    for _ in range(int(sessions)):
        store = MakeStore(kind, dsn, *more)()
        made.append(patiently(audit.session, store))
        dying.beset(made[-1])
    took = [[0.0] for _ in made]  # seconds, the longest
    threads = [
        threading.Thread(target=work, daemon=True, args=(it, f"{client}.{at}", f"{seed} {at}", float(pause), workload, took[at]))
        for at, it in enumerate(made)
    ]
    print("begun", flush=True)
    for thread in threads:
        thread.start()
    for line in sys.stdin:  # until it is told to end
        break
    os._exit(0) if where == "leaves without a word" else None
    audit.leave()
    print("longest", max(it for (it,) in took), flush=True)
    os._exit(0)


if __name__ == "__main__":
    main()
