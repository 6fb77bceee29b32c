"""Kills programs at chosen moments, and makes logs with cuts, for the tests of journals."""
import os
import random
import signal
import subprocess
import time
from contextlib import suppress

from zanteyard import AbortedError, Session
from zanteyard.core._own_keys import FENCE
from zanteyard.program._auditor import PROGRAM
from zanteyard.stores.memory import MemoryStore
from zanteyard.program._pipes import Pipes

PLAIN = os.path.join(os.path.dirname(os.path.abspath(__file__)), "plain_auditor.py")
BEFORE, BETWEEN, AFTER, LATER = MOMENTS = ("before a line", "between line and reply",
                                           "behind the reply", "a little later")
STOPPED = "stopped, and not killed"


def auditor_that_saves():
    """The built program if it knows the lines for saving; else the plain one."""
    if os.path.isfile(PROGRAM):
        lines = b'["open",1,1]\n["save","marks"]\n'
        told = subprocess.run([PROGRAM], input=lines, stdout=subprocess.PIPE, check=False).stdout
        if told.endswith(b'["marks",[0],[false]]\n'):
            return PROGRAM
    return PLAIN


class Killer:
    """A context that kills programs while they are given lines. Each time, `plan(lines)` returns
    the moment, or None."""

    def __init__(self, plan, dice=None):
        self.plan, self.dice, self.kills = plan, dice or random.Random(1), 0

    def __enter__(self):
        self.ask = ask = Pipes.ask

        def asked(pipes, lines):
            lines = [*lines]
            moment = self.plan(lines)
            if moment in (BETWEEN, STOPPED):
                os.kill(pipes.process.pid, signal.SIGSTOP)
            if moment == BEFORE:
                self.kill(pipes)
            ask(pipes, lines)
            if moment in (BETWEEN, AFTER, LATER):
                self.write(pipes)
            if moment == AFTER:
                pipes.waits.poll(10000)
            if moment == LATER:
                time.sleep(self.dice.random() * 0.02)
            if moment in (BETWEEN, AFTER, LATER):
                self.kill(pipes)

        Pipes.ask = asked
        return self

    def __exit__(self, *_):
        Pipes.ask = self.ask

    @staticmethod
    def write(pipes):
        """Writes what fits; `wait` writes the rest."""
        with suppress(BrokenPipeError):  # it was killed over earlier lines
            if pipes.unsent:
                pipes.write(time.monotonic())

    def kill(self, pipes):
        self.kills += 1
        os.kill(pipes.process.pid, signal.SIGKILL)
        os.waitid(os.P_PID, pipes.process.pid, os.WEXITED | os.WNOWAIT)


def once(at, moment):
    """A plan that kills once, at the n-th time that lines are given, from 0."""
    count = iter(range(1 << 30))
    return lambda _: moment if next(count) == at else None


class Log:
    """What sessions over a store in memory did, in the order in which it was handed in: triples of
    session, number and what was logged."""

    run_name, token, is_named = "run", "token", True

    def __init__(self, dice, fault=None, sessions=3, keys=4, connect=None):
        """`connect` makes a session's store, in place of the one in memory."""
        self.entries, self.dice = [], dice
        connect = connect or MemoryStore(fault).connect
        self.keys = [f"key {at}" for at in range(keys)]
        self.sessions = [Session(self, at, connect()) for at in range(sessions)]

    def take(self, *entry):
        self.entries.append(entry)

    def run(self, steps):
        """Runs pairs of concurrent transactions in two sessions."""
        for _ in range(steps):
            pair = self.dice.sample(self.sessions, 2)
            begun = [(session, session.begin()) for session in pair]
            for _, transaction in begun:
                for key in self.dice.sample(self.keys, 2):
                    value = int(transaction.get(key) or 0)
                    chance = self.dice.random()
                    if chance < 0.6:
                        transaction.put(key, str(value + 1))
                    elif chance < 0.7:
                        transaction.delete(key)
            for _, transaction in begun:
                try:
                    transaction.commit()
                except AbortedError:
                    pass

    def meet(self):
        for _ in range(2):
            for session in self.sessions:
                session.run(lambda transaction: transaction.put(FENCE, transaction.get(FENCE)))
