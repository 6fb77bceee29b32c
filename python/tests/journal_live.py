"""Clients of a store in memory with an auditor that has a journal, until the whole process is
killed. For test_journal_kills.

    python3 journal_live.py PROGRAM JOURNAL SCRIPT FAULT SEED
"""
import os
import random
import sys

sys.path.insert(0, os.path.dirname(os.path.dirname(os.path.abspath(__file__))))
from zanteyard import RATHER_WAIT, Auditor, LiveAuditor  # noqa: E402
from zanteyard.stores.memory import MemoryStore  # noqa: E402
from tests.killing import Log  # noqa: E402


def main():
    program, journal, script, fault, seed = sys.argv[1:]
    store, dice = MemoryStore(None if fault == "-" else fault), random.Random(seed)
    auditor = Auditor(3, 4096, program, script=script)
    live = LiveAuditor(auditor, every=100, seconds=0.1, policy=RATHER_WAIT, journal=journal)
    log = Log(dice, connect=store.connect)
    log.sessions = [live.session(store.connect()) for _ in range(3)]
    print("begun", flush=True)
    while live.handed_in < 3000:
        log.run(1)
    os.kill(os.getpid(), 9)


if __name__ == "__main__":
    main()
