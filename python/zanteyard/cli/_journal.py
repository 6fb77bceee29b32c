"""`zanteyard check JOURNAL`, which is `zanteyard journal` as well: the verdict on what a killed
process left."""

import argparse

from ..core._outcome import exit_status
from ..core._verdict_kinds import Kind
from ..core._visible import say
from ..explain._report import EXPLAINED, violation_story
from ..program._auditor import Auditor
from ..program._binaries import find_program
from ._told import tell_with_page


def add_journal(command: argparse.ArgumentParser) -> None:
    command.add_argument("script", metavar="JOURNAL", help="the journal's file (docs/OPERATION.md)")
    command.set_defaults(run=run_journal)


def run_journal(asked: argparse.Namespace) -> int:
    program = find_program()
    with Auditor.resumed(asked.script, program) as auditor:
        count, sessions = sum(auditor.received), auditor.sessions
        say(f"{auditor.run_name}: {count} transactions from {sessions} sessions were accepted")
        report = auditor.last_round()
        if report.kind == Kind.VIOLATED:
            asked.status = exit_status(report.kind)
            round_told = (report.counts, EXPLAINED, report.certificate, auditor.promise)
            tell_with_page(violation_story(auditor, program, *round_told))
            return exit_status(report.kind)
        outcome = auditor.outcome()
        asked.status = exit_status(outcome.kind)
        say(f"the last round over them is {report.kind}; {outcome}")
        return exit_status(outcome.kind)
