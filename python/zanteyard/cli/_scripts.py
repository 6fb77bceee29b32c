"""`zanteyard check`, `explain` and `levels`: what a script, another tool's history or a journal
says, as text and on a page."""

import argparse

from ..core._outcome import exit_status
from ..core._verdict_kinds import Kind
from ..core._visible import say
from ..core.errors import CantBeAskedError, ScriptMistakeError
from ..explain._html import page_of
from ..explain._json import levels_json, say_json, story_json
from ..explain._levels import Answer, Levels, levels_lines
from ..explain._report import EXPLAINED, Story, verdict_story, violation_story
from ..imports._garbage import no_collections
from ..scripts._running import MORE, ScriptRun, Verdict, own_times
from ..program import _check_report
from ..program._binaries import find_program
from ..promises._kinds import ALL, ASKED, STRICT
from ._given import FOR_HISTORIES, Given, add_file, given, is_journal, refuse_options
from ._journal import run_journal
from ._junit import junit_report
from ._parsing import add_old_name, one_of
from ._progress import Progress
from ._told import origin, tell, tell_with_page, write


# Statuses, with --expect.
OF_LEVELS = {Answer.YES: 0, Answer.NO: 1, Answer.PENDING: 3, Answer.UNKNOWN: 4}
READING, EXPLAINING = "reading", "explaining"  # what progress shows
OF_VERDICTS = ("promise", "all", "html", "json", "junit", *FOR_HISTORIES)


class Page:
    """The page of the first violation, or else of the last verdict. It is written before the
    verdict is printed: a reader may stop before the end of the text."""

    def __init__(self, path: str | None, about: str) -> None:
        self.path, self._about, self._is_final = path, about, False
        self._why_not: OSError | None = None

    def write(self, story: Story) -> None:
        if self.path is None or self._is_final:
            return
        self._is_final = story.kind == Kind.VIOLATED
        try:
            write(page_of(story, self._about, origin()), self.path)
        except OSError as error:
            self._why_not = error

    def end(self, is_said: bool) -> None:
        """Says where it is. Raises OSError if it couldn't be written."""
        if self._why_not is not None:
            raise self._why_not
        if self.path is not None and is_said:
            say(f"(page: {self.path})")


def add_check(command: argparse.ArgumentParser) -> None:
    _add_script(command, ", or an audit's journal (docs/OPERATION.md)")
    _add_promise(command)
    _add_html(command, "of the first violation, or else of the last verdict")
    command.add_argument(
        "--replies",
        metavar="REPLIES",
        help="instead check the auditor's stored replies to the lines of this script, without "
        "trusting the auditor: the exit status is 1 if one is wrong",
    )
    _add_json(command, "a line of JSON for each verdict")
    command.add_argument(
        "--junit",
        metavar="REPORT",
        help="also write a JUnit report, in which a verdict other than serial is a failure",
    )
    command.set_defaults(run=check)


def add_explain(command: argparse.ArgumentParser) -> None:
    _add_script(command)
    _add_promise(command)
    _add_html(command, "as well")
    command.set_defaults(run=explain)


def add_levels(command: argparse.ArgumentParser) -> None:
    _add_script(command)
    _add_json(command, "one line of JSON")
    command.add_argument(
        "--expect", choices=[each.name for each in ALL], metavar="LEVEL",
        help="end with status 1 if the history doesn't meet this level, 3 if only so far, 4 if "
        "that is unknown: " + one_of([each.name for each in ALL]),
    )
    command.set_defaults(run=levels)


def _add_html(command: argparse.ArgumentParser, what: str) -> None:
    command.add_argument("--html", metavar="PAGE", help=f"write an HTML page {what}")


def _add_json(command: argparse.ArgumentParser, what: str) -> None:
    command.add_argument(
        "--json", action="store_true", help=f"print {what} instead of text (docs/FORMATS.md)"
    )


def _add_script(command: argparse.ArgumentParser, also: str = "") -> None:
    add_file(command, also)
    command.add_argument(
        "--nodes",
        type=_nodes,
        default=MORE[1][0],
        metavar="N",
        help=f"the largest budget for repeating an undecided round, in search nodes ({MORE[1][0]}; "
        f"at most {MORE[-1][0]})",
    )
    command.add_argument(
        "--shrink-seconds",
        type=float,
        default=EXPLAINED,
        metavar="S",
        help=f"how many seconds shrinking a violation may take ({EXPLAINED:.0f})",
    )
    add_old_name(command, "--seconds", "--shrink-seconds", type=float, metavar="S")


def _add_promise(command: argparse.ArgumentParser) -> None:
    command.add_argument(
        "--promise",
        choices=tuple(ASKED),
        help="what the store promises (what the script asks for, or strict if it was imported with "
        "--strict); strict needs the times in SCRIPT.times (docs/PROMISES.md)",
    )
    command.add_argument(
        "--all",
        action="store_true",
        help="explain every independent violation in full, not only the first",
    )


def _nodes(text: str) -> int:
    nodes = int(text) if text.isdecimal() else 0
    if not 1 <= nodes <= MORE[-1][0]:
        raise argparse.ArgumentTypeError(f"{text!r} isn't a whole number from 1 to {MORE[-1][0]:,}")
    return nodes


def _run_of(asked: argparse.Namespace, source: Given) -> ScriptRun:
    """Raises CantBeAskedError if the script can't be checked for the promise."""
    names = source.names()
    is_timed = names is not None and names.asks_time
    promise = ASKED[asked.promise] if asked.promise else STRICT if is_timed else None
    if promise and is_timed and not promise.is_timed and names and names.has_pauses:
        raise CantBeAskedError(
            f"the script's fences enforce real-time order, which {promise.title} doesn't ask for: "
            "import it again without --strict"
        )
    times = None if source.form else source.times()  # a file's mistakes are reported at once
    return ScriptRun(
        find_program(), asked.nodes, names, promise, source.times if source.form else lambda: times
    )


def check(asked: argparse.Namespace) -> int:
    if asked.replies is not None:
        refuse_options(asked, OF_VERDICTS, "isn't possible with --replies")
        asked.has_verdict = False
        return _check_report.run(asked)
    if is_journal(asked.script):
        refuse_options(asked, OF_VERDICTS, "isn't possible with a journal")
        return run_journal(asked)
    stories: list[Story] = []
    with no_collections(), Progress(READING) as progress, given(asked, progress) as source:
        page = Page(asked.html, source.about)
        with _run_of(asked, source) as run:
            progress.doing = run.doing
            for verdict in run.verdicts(source.lines):
                is_violated = verdict.kind == Kind.VIOLATED
                if is_violated:
                    asked.status = exit_status(verdict.kind)  # this is final
                if is_violated and stories and stories[-1].kind == Kind.VIOLATED:
                    if not asked.json:
                        say(f"{source.where(verdict)} still violated")
                    continue
                with progress.during(EXPLAINING):
                    story = _story(verdict, run, asked.shrink_seconds)
                stories.append(story)
                page.write(story)
                if asked.json:
                    say_json({**source.as_json(verdict), **story_json(story)})
                else:
                    tell(story, asked.all, source.where(verdict))
            if not asked.json:
                _tell_no_cuts(run)
                _tell_how(run)
            if asked.junit is not None:
                write(junit_report(source.about, stories), asked.junit)
            status = _status(run)
            page.end(not asked.json)
            return status


def explain(asked: argparse.Namespace) -> int:
    with no_collections(), Progress(READING) as progress, given(asked, progress) as source:
        with _run_of(asked, source) as run:
            progress.doing = run.doing
            for verdict in run.verdicts(source.lines):
                if verdict.kind == Kind.VIOLATED:
                    break  # violated is final
            assert run.verdict is not None
            progress.doing = EXPLAINING
            story = _story(run.verdict, run, asked.shrink_seconds)
            asked.status = _status(run)
            where = source.where(run.verdict)
            tell_with_page(story, source.about, asked.html, asked.all, where)
            _tell_how(run)
            return _status(run)


def levels(asked: argparse.Namespace) -> int:
    with no_collections(), Progress(READING) as progress, given(asked, progress) as source:
        lines = [*source.lines]
        names, times = source.names(), own_times(lines) or source.times()
        found = Levels(find_program(), lines, names, times, asked.nodes, asked.shrink_seconds)
        progress.doing = found.doing
        answers = {each.promise.name: each.answer for each in found.found()}
        if asked.json:
            say_json({**source.as_json(), "levels": levels_json(found.found())})
        else:
            for line in levels_lines(found.found()):
                say(line)
    return 0 if asked.expect is None else OF_LEVELS[answers[asked.expect]]


def _story(verdict: Verdict, run: ScriptRun, seconds: float) -> Story:
    if verdict.kind == Kind.VIOLATED:
        round_told = (verdict.counts, seconds, verdict.certificate)
        return violation_story(run.history, find_program(), *round_told, run.promise)
    return verdict_story(verdict, run.history, run.promise)


def _tell_no_cuts(run: ScriptRun) -> None:
    if run.no_cut_lines:
        lines: list[str] = [str(number) for number in run.no_cut_lines[:8]]
        more = " and more" if len(run.no_cut_lines) > 8 else ""
        say(f"(no fence was settled at line {', '.join(lines)}{more}: nothing was forgotten there)")


def _tell_how(run: ScriptRun) -> None:
    if run.why_by_reads:
        say(
            "(real-time order was asked by reads that are added, which isn't proved, because "
            f"{run.why_by_reads}: docs/PROMISES.md)"
        )
    if run.is_resumed:  # what came before isn't in the script
        say("(the script begins with a saved state: the verdict is about every history before it)")


def _status(run: ScriptRun) -> int:
    if run.verdict is None:
        raise ScriptMistakeError(0, "nothing")
    return exit_status(run.verdict.kind)
