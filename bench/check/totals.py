"""Compares what an audit says that it saw with what the server says that it did.

    python3 bench/check/totals.py [--work NAME ..] [--keep DIR] [--watch OPTIONS]

Each work runs through `zanteyard watch`. The server's word is its log of all statements,
pg_stat_statements, pg_stat_database, pg_stat_user_tables, and a slot of test_decoding. A table a
work: each total of the outcome beside the server's own, and what isn't the same.

`mixed` has transactions of all kinds; `known` and `idle` are small ones whose numbers can be
counted by hand. The others are programs of Debian's, unchanged: sysbench, pgbench
(postgresql-contrib), Django's admin (python3-django), Keystone (python3-keystone) and Redmine
(redmine, redmine-pgsql). One that isn't installed is skipped.

It needs PostgreSQL 15, psycopg2, libpg_query, a built proxy (ZANTEYARD_PROXY) and the auditor.
"""

import argparse
import contextlib
import json
import os
import shutil
import signal
import subprocess
import sys
import tempfile
import time
from collections.abc import Iterator
from typing import Any

TOP = os.path.normpath(os.path.join(os.path.dirname(os.path.abspath(__file__)), "../.."))
PYTHON = os.path.join(TOP, "python")
sys.path[:0] = [PYTHON, os.path.join(PYTHON, "tests")]
sys.path[:0] = [os.path.join(os.path.dirname(os.path.abspath(__file__)), "../cost")]
from proxy_cost import free_port, hears_interrupts, wait_for, wait_for_audit
from totals_server import Oracle, Said
from totals_works import WORKS, Missing, Where, Work


@contextlib.contextmanager
def watched(
    oracle: Oracle, database: str, folder: str, more: list[str]
) -> Iterator[tuple[int, str]]:
    """`zanteyard watch` of a database. Gives its port, and the file with its lines of JSON."""
    port, figures = free_port(), f"127.0.0.1:{free_port()}"
    lines = os.path.join(folder, "outcome.json")
    call = [sys.executable, "-m", "zanteyard", "watch", "--json", "--listen", f"127.0.0.1:{port}"]
    call += ["--metrics", figures, "--trust-clients", *more]
    call.append(f"postgresql://postgres@127.0.0.1:{oracle.server.port}/{database}")
    environment = dict(os.environ, PYTHONPATH=PYTHON)
    with open(lines, "wb") as out, open(os.path.join(folder, "watch.log"), "wb") as log:
        running = subprocess.Popen(call, stdout=out, stderr=log, env=environment, cwd=folder)
    try:
        wait_for("127.0.0.1", port, 120)
        wait_for_audit(figures, 120)
        yield port, lines
    finally:
        running.send_signal(signal.SIGINT)  # which ends the proxy, too
        try:
            running.wait(600)
        except subprocess.TimeoutExpired:
            running.kill()
            raise


def outcome_of(lines: str) -> tuple[dict[str, Any], list[dict[str, Any]]]:
    """The outcome, and the violations."""
    violations = []
    with open(lines, encoding="utf-8") as file:
        for text in file:
            its = json.loads(text)
            if its["event"] == "violation":
                violations.append(its)
            if its["event"] == "outcome":
                return its, violations
    raise SystemExit(f"no outcome in {lines}")


def percent(one: float, other: float) -> str:
    return f"{100 * one / other:.1f}%" if other else "-"


def checked(its: dict[str, Any]) -> str:
    part = sum(its["in_part"].values())
    return f"{its['checked']:,} and {part:,} in part, {percent(its['checked'] + part, its['all'])}"


def lines_of(seen: dict[str, Any], said: Said) -> Iterator[tuple[str, int, int, str, str]]:
    """Each total: its name, what the outcome and the server say, the server's source, and how much
    of it was checked."""
    log, told = "log", "pg_stat_statements"
    all_of = seen["transactions"]
    yield "transactions", all_of["all"], said.transactions, log, checked(all_of)
    yield "  rolled back", all_of["rolled_back"], said.rolled_back, log, ""
    all_of = seen["selects"]
    yield "SELECTs", all_of["all"], said.selects, log, checked(all_of)
    yield "  rolled back", all_of["rolled_back"], said.selects_rolled_back, log, ""
    both = all_of["all"] + all_of["rolled_back"]
    yield "  together", both, said.selects_told, told, ""
    all_of = seen["rows_read"]
    both = all_of["all"] + all_of["rolled_back"]
    yield "rows read, rolled back too", both, said.rows_read, told, checked(all_of)
    all_of = seen["writes"]
    yield "writes", all_of["all"], said.writes, log, checked(all_of)
    yield "  rolled back", all_of["rolled_back"], said.writes_rolled_back, log, ""
    all_of = seen["rows_written"]
    yield "rows written", all_of["all"], said.rows_written, "slot", checked(all_of)
    beside = seen["without_the_proxy"]
    yield "without the proxy", beside["transactions"] + beside["rows_written"], 0, "nobody was", ""


def show_totals(seen: dict[str, Any], said: Said) -> None:
    print(f"  {'total':<28}{'outcome':>10}{'server':>10}{'':>8}  {'source':<19} checked")
    for what, told, its, source, how in lines_of(seen, said):
        near = "same" if told == its else f"{told - its:+,}"
        print(f"  {what:<28}{told:>10,}{its:>10,}{near:>8}  {source:<19} {how}")
    selects, rows = seen["selects"], seen["rows_read"]
    kept = rows["checked"] + sum(rows["in_part"].values())
    for what, share in (
        ("SELECTs with hidden columns, by the server", percent(said.seen, said.selects_told)),
        ("  of those of rows", percent(said.seen_plain, said.plain)),
        ("  of the rows that SELECTs returned", percent(said.seen_rows, said.rows_read)),
        ("rows kept of those seen", percent(kept, said.seen_rows)),
        ("SELECTs by a condition", percent(selects["by_condition"], selects["all"])),
        ("SELECTs that found no row", percent(selects["found_no_row"], selects["all"])),
    ):
        print(f"  {what:<48}{share:>8}")
    for what, count in (
        ("commits with rows, by the slot", said.commits),
        ("tuples written, rolled-back ones too", said.tuples),
        ("xact_commit, the audit's own too", said.xact_commit),
        ("xact_rollback", said.xact_rollback),
        ("transactions without a table, by the log", said.apart),
        ("statements of clients, by the log", said.logged),
    ):
        print(f"  {what:<48}{count:>8,}")


def show_reasons(seen: dict[str, Any], said: Said) -> None:
    for total in ("transactions", "selects", "rows_read", "writes", "rows_written"):
        for place in ("in_part", "not_checked"):
            for why, count in sorted(seen[total][place].items(), key=lambda it: -it[1]):
                print(f"    {count:>8,} {total} {place.replace('_', ' ')}: {why}")
    for each in sorted(seen["statements"], key=lambda it: -it["count"])[:12]:
        what = each["reason"] + ("" if each["reads"] else " (a write)")
        print(f"    {each['count']:>8,} times {what}: {each['shape'][:100]}")
    for text, times in said.unparsed.most_common(5):
        print(f"    {times:>8,} not parsed: {text}")


def show_violation(its: dict[str, Any]) -> None:
    """In full: whether it is real is for people to judge."""
    print(f"    violation {its['number']}: {its['title']}: {its.get('sentence', '')}")
    for ran in its["ran"]:
        print(f"      {ran['label']}, {ran.get('level')}:")
        for one in ran.get("statements", ()):
            print(f"        {one['text'][:160]} {one['parameters']} {one['reads']}")


def run(name: str, work: Work, asked: Any) -> None:
    kept = asked.keep and os.path.join(asked.keep, name)
    folder = kept or tempfile.mkdtemp(prefix="zanteyard-totals-")
    shutil.rmtree(folder, ignore_errors=True)
    os.makedirs(folder)
    os.chmod(folder, 0o711)
    oracle = Oracle(os.path.join(folder, "server"))
    try:
        direct = Where("127.0.0.1", oracle.server.port, folder)
        oracle.run("CREATE DATABASE app")
        oracle.run("CREATE EXTENSION IF NOT EXISTS pg_walinspect", "app")
        work.prepare(direct)
        with watched(oracle, "app", folder, asked.watch.split()) as (port, lines):
            oracle.begin("app")
            began = time.monotonic()
            work.run(Where("127.0.0.1", port, folder))
            took = time.monotonic() - began
            said = oracle.end("app")
        outcome, violations = outcome_of(lines)
        with open(os.path.join(folder, "said.json"), "w", encoding="utf-8") as file:
            json.dump(said.__dict__, file)
        seen = outcome["seen"]
        print(f"== {name}: {outcome['verdict']}, {outcome['audits']} audits, "
              f"{outcome['violations']} violations, {took:.1f} s")
        show_totals(seen, said)
        show_reasons(seen, said)
        for each in violations:
            show_violation(each)
        sys.stdout.flush()
    except Missing as why:
        print(f"== {name}: skipped, {why}", flush=True)
    finally:
        oracle.server.stop()
        if not asked.keep:
            shutil.rmtree(folder, ignore_errors=True)


def main() -> None:
    hears_interrupts()
    form = argparse.RawDescriptionHelpFormatter
    parser = argparse.ArgumentParser(description=__doc__, formatter_class=form)
    parser.add_argument("--work", nargs="+", choices=[*WORKS], default=[*WORKS], metavar="NAME")
    parser.add_argument("--keep", metavar="DIR", help="keep each work's log, feed and outcome here")
    parser.add_argument("--watch", default="", metavar="OPTIONS", help="more options of watch")
    asked = parser.parse_args()
    # A shell starts background commands with SIGINT ignored, and `watch` would ignore it, too.
    signal.signal(signal.SIGINT, signal.default_int_handler)
    for name in asked.work:
        run(name, WORKS[name], asked)


if __name__ == "__main__":
    main()
