"""`zanteyard demo` and `bench`: a run of clients."""

import argparse

from ..core._outcome import exit_status
from ..core._verdict_kinds import Kind
from ..core._visible import say
from ..explain._report import Story, violation_story
from ..program._auditor import Auditor
from ..program._binaries import find_program
from ..trial import _demo as demo
from ._told import complain, origin, tell_with_page, write


def add_demo(command: argparse.ArgumentParser) -> None:
    command.add_argument(
        "name",
        nargs="?",
        default="lost-update",
        choices=demo.NAMES,
        metavar="NAME",
        help="the fault: one of " + ", ".join(demo.NAMES) + " (lost-update)",
    )
    command.add_argument(
        "--html", metavar="FILE", help="where to write the page (zanteyard-NAME.html)"
    )
    command.add_argument("--no-html", action="store_true", help="write no page")
    command.set_defaults(run=run_demo)


def run_demo(asked: argparse.Namespace) -> int:
    program = find_program()
    say(f"{asked.name}: {demo.about(asked.name)}.")
    with Auditor(demo.SESSIONS, program=program) as auditor:
        demo.run_demo(asked.name, auditor)
        report = auditor.round()
        if report.kind == Kind.VIOLATED:
            counts, certificate = report.counts, report.certificate
            story = violation_story(auditor, program, counts, certificate=certificate)
        else:
            order = tuple(f"{session}.{number}" for session, number in report.certificate)
            story = Story(report.kind, tuple(report.counts), order=order)
    asked.status = exit_status(report.kind)
    page = None if asked.no_html else asked.html or f"zanteyard-{asked.name}.html"
    tell_with_page(story, f"in-memory store, {asked.name}", page)
    return exit_status(report.kind)


def run_audit(asked: argparse.Namespace) -> int:
    from . import audit as audit_command

    ran = audit_command.run(asked)
    asked.status = status = exit_status(ran.outcome.whole.kind)
    why_not = ""
    if asked.html:
        try:
            write(ran.page(origin()), asked.html)
        except OSError as error:  # the run can't be repeated, so its outcome is printed first
            why_not = f"can't write {asked.html}: {error.strerror}"
    for line in ran.lines():
        say(line)
    if why_not:
        complain(status, why_not)
    elif asked.html:
        say(f"(page: {asked.html})")
    return status
