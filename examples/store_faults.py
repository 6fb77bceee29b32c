"""Which level of a store has which fault: clients are driven in lockstep at each, and audited.

    python3 examples/store_faults.py mariadb|redis|sqlite [--journal-mode wal|delete] [--dsn DSN]
        [--level LEVEL --fault FAULT | --at-once SECONDS | --promises]

It starts a server of its own in a temporary folder, or uses the one that --dsn names. With a level
and a fault it explains that one. With --at-once four clients run each workload at the same time,
for SECONDS or until it is violated. With --promises the table shows which promise each level kept
(docs/PROMISES.md), also for PostgreSQL. The status is 0, or 2 if something is missing.
"""
import argparse
import os
import sys

TOP = os.path.join(os.path.dirname(os.path.abspath(__file__)), "..")
sys.path.insert(0, os.path.join(TOP, "python"))
from zanteyard.trial.under_load import CLIENTS, at_once_table
from zanteyard.trial.postgres_server import ended_by_signals
from zanteyard.core.errors import ZanteyardError
from zanteyard.trial.lockstep import FAULTS, SESSIONS, about, promise_lines, run_lockstep
from zanteyard.trial.lockstep import table_lines, table_of
from zanteyard.trial.store_kinds import KINDS, kind_named


def stores_of(kind, asked, server, level, count, **more):
    asked.level = level
    make_store = kind.maker(asked, server, **more)
    return [make_store() for _ in range(count)]


def in_lockstep(kind, asked, server, level):
    return stores_of(kind, asked, server, level, SESSIONS, **kind.no_waiting)


def tell_table(kind, asked, server):
    if asked.promises:
        make_stores = lambda level: in_lockstep(kind, asked, server, level)
        found = table_of(make_stores, [*kind.levels], asks_promises=True)
        for line in promise_lines(found, [*kind.levels.values()]):
            print(line)
        return
    if asked.at_once is None:
        found = table_of(lambda level: in_lockstep(kind, asked, server, level), [*kind.levels])
    else:
        make_stores = lambda level: stores_of(kind, asked, server, level, CLIENTS)
        found = at_once_table(make_stores, [*kind.levels], asked.at_once)
    for line in table_lines(found, [*kind.levels.values()]):
        print(line)


def tell_one(kind, asked, server):
    print(f"{about(asked.fault)}.")
    stores = in_lockstep(kind, asked, server, asked.level)
    for line in run_lockstep(asked.fault, stores, tells=True).lines:
        print(line)
    for store in stores:
        store.close()


def main():
    whole = argparse.ArgumentParser(description=__doc__.splitlines()[0])
    commands = whole.add_subparsers(metavar="STORE", required=True)
    for kind in KINDS:
        one = commands.add_parser(kind.command)
        one.set_defaults(kind=kind.command)
        one.add_argument("--level", choices=kind.levels)
        one.add_argument("--fault", choices=FAULTS)
        one.add_argument("--at-once", type=float, metavar="SECONDS")
        one.add_argument("--promises", action="store_true")
        kind.add_arguments(one)
    asked = whole.parse_args()
    if asked.kind == "postgres" and not asked.promises:
        whole.error("of PostgreSQL it tells --promises alone")
    if (asked.level is None) != (asked.fault is None):
        whole.error("--level and --fault go together")
    kind = kind_named(asked.kind)
    try:
        with ended_by_signals(), kind.server(asked) as server:
            print(kind.version(server))
            (tell_table if asked.fault is None else tell_one)(kind, asked, server)
    except (ZanteyardError, OSError) as error:
        print(error, file=sys.stderr)
        sys.exit(2)


if __name__ == "__main__":
    main()
