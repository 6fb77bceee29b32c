"""The file to check: a script, or a history of another tool, which is imported first."""

import argparse
import contextlib
import io
import os
import sys
from collections.abc import Iterable, Iterator, Sequence
from dataclasses import dataclass
from typing import IO, Any

from ..core._visible import say
from ..core.errors import CantBeAskedError
from ..scripts._names import ScriptNames, names_just_written, read_names
from ..scripts._running import Verdict
from ..scripts._times import ScriptTimes, checked_times, read_times
from ..imports._command import (
    FORMS,
    add_history_options,
    import_text,
    plainly,
    text_in,
    unpacked,
)
from ..imports._guess import FIRST, history_form
from ..imports._script_parts import Imported
from ..journal._file import NAME as JOURNAL
from ..promises._kinds import STRICT
from ._progress import Progress

IMPORTING = "importing"  # what progress shows
FOR_HISTORIES = ("form", "initial", "first", "independent", "leave_out")


@dataclass(frozen=True)
class Given:
    """The script to check: the given one, or the one that was made of a history."""

    script: str  # its path; empty if it was made of a history and isn't in a file
    about: str  # the file's name
    lines: Iterable[bytes]
    form: str = ""  # of the history
    imported: Sequence[str] = ()  # how it was turned into the script
    made: Imported | None = None  # that script

    def names(self) -> ScriptNames | None:
        """The names of the script's transactions, if there are any."""
        if self.made is not None:
            return self.made.names
        if self.form:
            return names_just_written(self.script)
        names, why_not = read_names(self.script) if self.script != "-" else (None, "")
        if why_not:
            say(f"({why_not})")
        return names

    def times(self) -> ScriptTimes | None:
        """When the script's transactions ran, if that is known. Raises CantBeAskedError."""
        if self.made is not None:
            return self.made.times and checked_times(self.made.times, self.about)
        return read_times(self.script) if self.script != "-" else None

    def where(self, verdict: Verdict) -> str:
        """Which round the verdict is from. Lines of a script that nobody has seen aren't named."""
        return f"{self.about}:" if self.form else _where(verdict)

    def as_json(self, verdict: Verdict | None = None) -> dict[str, Any]:
        found: dict[str, Any] = {"file": self.about}
        if self.form:
            found.update(form=self.form, imported=list(self.imported))
        elif verdict is not None and verdict.line_number:
            found["line"] = verdict.line_number
        return found


def add_file(command: argparse.ArgumentParser, also: str = "") -> None:
    """Adds the argument FILE, and the options of a history."""
    command.add_argument(
        "script",
        metavar="FILE",
        help="a script, as in docs/FORMATS.md, or another tool's history (docs/HISTORIES.md)"
        f"{also}; - reads standard input",
    )
    command.add_argument(
        "--form",
        choices=tuple(FORMS),
        help="the form of another tool's history, if it isn't recognized",
    )
    add_history_options(command)


def is_journal(path: str) -> bool:
    """Whether the file is the journal of an audit (docs/OPERATION.md)."""
    if not os.path.isfile(path):
        return False
    with open(path, "rb") as file:
        return file.read(len(JOURNAL)) == JOURNAL


@contextlib.contextmanager
def given(asked: argparse.Namespace, progress: Progress) -> Iterator[Given]:
    """The script that the call is about. Raises ImportRefusedError if the file is a history that
    can't be turned into a sound script."""
    path = asked.script
    with _opened(path) as file:
        form, whole = _history_in(file, path, asked.form)
        if form is not None:
            yield from _imported(asked, progress, form, whole)
            return
        refuse_options(asked, FOR_HISTORIES, f"is for another tool's history, and {path} is none")
        yield Given(path, os.path.basename(path) if path != "-" else "a script", file)


def _imported(
    asked: argparse.Namespace, progress: Progress, form: str, packed: bytes
) -> Iterator[Given]:
    about = os.path.basename(asked.script) if asked.script != "-" else "a history"
    is_timed = getattr(asked, "promise", None) == STRICT.name
    with contextlib.ExitStack() as stack:
        made: Imported | None = None
        with progress.during(IMPORTING):
            whole = unpacked(packed, about)
            written = stack.enter_context(plainly(asked, form, whole, is_timed))
            if written is None:
                settings = (asked.first, asked.initial, is_timed, asked.independent)
                made = import_text(form, text_in(whole, about), *settings, asked.leave_out)
        done = made.about if made else written.about if written else ()
        if not getattr(asked, "json", False):
            say(f"{about}, read as {form}: {done[0]}")
            for line in done[1:]:
                say(f"  {line}")
        if made is not None:
            lines = (line.encode() for line in made.lines)
            yield Given("", about, lines, form, done, made)
        elif written is not None:
            file = stack.enter_context(open(written.script, "rb"))
            yield Given(written.script, about, file, form, done)


def refuse_options(asked: argparse.Namespace, names: Sequence[str], why: str) -> None:
    """Raises CantBeAskedError if one of these options was given."""
    for name in names:
        if getattr(asked, name):
            raise CantBeAskedError(f"--{name.replace('_', '-')} {why}")


def _opened(path: str) -> contextlib.AbstractContextManager[IO[bytes]]:
    if path != "-":
        return open(path, "rb", FIRST)
    if sys.stdin is None:  # Python's value if it is closed
        raise OSError("standard input is closed")
    return contextlib.nullcontext(sys.stdin.buffer)


def _history_in(file: IO[bytes], path: str, form: str | None) -> tuple[str | None, bytes]:
    """The form of the history in the file, and its bytes; without a form it is a script, of which
    nothing is read."""
    if form is None:
        front = file.peek(FIRST)[:FIRST] if isinstance(file, io.BufferedReader) else b""
        if history_form(front) is None:
            return None, b""
    whole = file.read()
    form = form or _form_of(whole)  # of a pipe, the front may have been short
    if form == "FORM":
        raise CantBeAskedError(
            f"{path} is compressed, and can't be a script: if you know its form, name it with "
            "--form (docs/HISTORIES.md)"
        )
    return form, whole


def _form_of(whole: bytes) -> str | None:
    """The first append may be far from the file's beginning."""
    form = history_form(whole[:FIRST])
    if form == "jepsen-registers" and any(it in whole for it in (b":append ", b'"append"')):
        return "jepsen-lists"
    return form


def _where(verdict: Verdict) -> str:
    """Which round the verdict is from."""
    line = f"line {verdict.line_number}" if verdict.line_number else "at the end"
    again = f", after {verdict.rounds} tries, the last with {verdict.nodes:,} nodes"
    return f"{line}{again if verdict.rounds > 1 else ''}:"
