"""Clients that overlap for certain. If the store has the fault that they show, it shows, however
slow or busy the machine is.

This runs the command `zanteyard`, or a program with a function main, for an audit with a workload.
In its first transaction, each client has read its keys before any of them writes:

    python3 -m tests.overlapping CLIENTS zanteyard|PROGRAM [WORD ...]

Clients are threads or processes. It leaves a folder where it runs.
"""
import contextlib
import importlib.util
import os
import sys
from unittest import mock

from zanteyard.cli._main import main
from zanteyard.trial.workloads import EVERY_WORKLOAD, number_at

from .waiting import wait_until

# In the environment, which processes of clients inherit: how many clients there are, and a folder
# with a file for each that has come.
ASKED = "OVERLAPPING"


def meet(client):
    """Waits until all clients have come."""
    count, folder = os.environ[ASKED].split(" ", 1)
    open(os.path.join(folder, str(client)), "x", encoding="ascii").close()
    if not wait_until(lambda: len(os.listdir(folder)) == int(count), pause=0.001):
        raise TimeoutError(f"of {count} clients only these have begun: {os.listdir(folder)}")


def counter(transaction, client):
    count = number_at(transaction, "count 0")
    meet(client)
    transaction.put("count 0", str(count + 1))


def skew(transaction, client):
    both = number_at(transaction, "left 0") + number_at(transaction, "right 0")
    meet(client)
    transaction.put(("left 0", "right 0")[client % 2], str(both + 1))


def skewed(one, other):
    """Runs a transaction of each of two sessions; each writes what the other one has read."""
    with one.transaction() as first, other.transaction() as second:
        for transaction, side in ((first, "this side"), (second, "that side")):
            transaction.get("this side"), transaction.get("that side")
            transaction.put(side, "1")


def beginning_with(first, later):
    """A workload of which each client's first transaction is another one."""
    begun = set()

    def workload(transaction, client):
        is_first = client not in begun
        begun.add(client)
        (first if is_first else later)(transaction, client)

    return workload


def workloads():
    return {it.__name__: beginning_with(it, EVERY_WORKLOAD[it.__name__]) for it in (counter, skew)}


@contextlib.contextmanager
def overlapping(count, folder):
    """An audit of so many clients in this context is one of clients that overlap."""
    came = os.path.join(folder, "overlapping")
    os.mkdir(came)
    with mock.patch.dict(os.environ, {ASKED: f"{count} {came}"}), mock.patch.dict(EVERY_WORKLOAD, workloads()):
        yield


def run(count, program, *words):
    """The status."""
    with overlapping(count, os.getcwd()):
        if program == "zanteyard":
            return main(words)
        spec = importlib.util.spec_from_file_location("program", program)
        module = importlib.util.module_from_spec(spec)
        spec.loader.exec_module(module)
        with mock.patch.object(sys, "argv", [program, *words]):
            return module.main()


if __name__ == "__main__":
    sys.exit(run(*sys.argv[1:]))
if __name__ == "__mp_main__":  # a process of a client
    EVERY_WORKLOAD.update(workloads())
