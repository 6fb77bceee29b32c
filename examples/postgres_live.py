"""Audits a PostgreSQL while clients run on it: a line per round, and why a violation is one.

    python3 examples/postgres_live.py [--level serializable|repeatable|committed]
        [--workload counter|skew|mixed|blind] [--seconds N] [--clients N] [--rate N] [--every N]
        [--unaudited N] [--processes] [--churn] [--rather-wait] [--dsn [DSN]] [--html FILE]

It starts a server of its own in a temporary folder, or uses the one that --dsn names. It first runs
the clients without the auditor, for comparison. A violation is explained, and written as a script
for cobra_audit and as a picture. With --churn clients live for two seconds, 16 at a time, and are
replaced by others; it prints the first transaction of each. The status is 0 if everything that was
done was audited and is serial, and else 1.

This is `zanteyard bench postgres` without an installed wheel; that command's statuses say more.
"""
import argparse
import os
import sys

TOP = os.path.join(os.path.dirname(os.path.abspath(__file__)), "..")
sys.path.insert(0, os.path.join(TOP, "python"))
from zanteyard import ProgramEndedError
from zanteyard.cli.audit import CantAuditError, add_arguments, run
from zanteyard.trial.workloads import WORKLOADS, ClientProcesses, Clients, Nothing

__all__ = ["WORKLOADS", "ClientProcesses", "Clients", "Nothing"]  # used by benchmarks


def main():
    asked = argparse.ArgumentParser(description=__doc__.splitlines()[0])
    add_arguments(asked)
    try:
        ran = run(asked.parse_args())
    except (CantAuditError, ProgramEndedError) as error:
        sys.exit(str(error))
    for line in ran.lines():
        print(line)
    sys.exit(0 if ran.outcome.kind == "serial" else 1)


if __name__ == "__main__":
    main()
