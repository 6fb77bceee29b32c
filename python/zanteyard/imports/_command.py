"""The command `zanteyard import`: turns a history that another tool has saved into a script."""

import argparse
import contextlib
import gzip
import os
import shutil
import zlib
from collections.abc import Callable, Collection, Mapping
from dataclasses import dataclass
from typing import Any

from ._at_once import Written, written_at_once
from ._garbage import no_collections
from ..core._private_files import private
from ..core._visible import say
from ..core.errors import ImportRefusedError
from ..scripts._names import NAMES, write_names
from ..scripts._times import TIMES, write_times
from ..promises._asking import MOST
from ._jepsen import read_jepsen
from ._recording import Recording, counted
from ._script import script_of
from ._script_parts import Imported
from ._sessions import read_csv, read_dbcop, read_polysi
from ._times import EVERY


GZIP = b"\x1f\x8b"  # how such a file begins


@dataclass(frozen=True)
class Form:
    """A file format. `read` turns a text into a Recording."""

    about: str
    read: Callable[..., Recording]
    has_initial: bool = False  # whether the initial value of keys can be specified
    is_jepsen: bool = False


FORMS: Mapping[str, Form] = {
    "jepsen-registers": Form(
        "a Jepsen history of reads and writes, as EDN or JSON",
        lambda text, **more: read_jepsen(text, "jepsen-registers", False, **more),
        is_jepsen=True,
    ),
    "jepsen-lists": Form(
        "a Jepsen history of reads and list appends, as EDN or JSON",
        lambda text, **more: read_jepsen(text, "jepsen-lists", True, **more),
        is_jepsen=True,
    ),
    "dbcop": Form("a dbcop history, as JSON", read_dbcop, True),
    "polysi": Form("a PolySI history, one operation a line", read_polysi, True),
    "csv": Form("CSV lines of session,number,operation,key,value", read_csv, True),
}


def add_arguments(command: argparse.ArgumentParser) -> None:
    """Adds the command's arguments."""
    forms = "; ".join(f"{name}: {form.about}" for name, form in FORMS.items())
    command.add_argument("form", choices=tuple(FORMS), metavar="FORM", help=forms)
    command.add_argument(
        "file", metavar="FILE", help="the history, in UTF-8; it may be compressed by gzip"
    )
    command.add_argument(
        "-o", "--output", dest="script", metavar="SCRIPT", required=True, help="the script to write"
    )
    add_history_options(command)
    _add_strict(command)


def add_history_options(command: argparse.ArgumentParser) -> None:
    """Adds the options of a history, whichever form it has."""
    command.add_argument(
        "--initial",
        metavar="VALUE",
        help="the value of a key before its first write (dbcop and polysi: 0; csv: empty; Jepsen "
        "always has nil)",
    )
    command.add_argument(
        "--first",
        type=_count,
        metavar="N",
        help="take only the first N attempts of the file; a history without a violation is then "
        "pending",
    )
    command.add_argument(
        "--independent",
        action="store_true",
        help="Jepsen: the history is of jepsen.independent, so that each value is a part of the "
        "store and a transaction there; nothing is asked of the order between parts",
    )
    command.add_argument(
        "--leave-out",
        metavar="FUNCTION",
        action="append",
        default=[],
        help="Jepsen: skip a client's operations of this function (such as `read`), which must "
        "have written nothing; may be repeated",
    )


def _add_strict(command: argparse.ArgumentParser) -> None:
    command.add_argument(
        "--strict",
        "--realtime",
        dest="strict",
        action="store_true",
        help="ask about strict serializability: clients may share sessions by real-time order, and "
        f"the file may have more than {MOST:,} transactions if there are moments with none in "
        "flight",
    )


def _count(text: str) -> int:
    count = int(text) if text.isdecimal() else 0
    if count < 1:
        raise argparse.ArgumentTypeError(f"{text!r} isn't a whole number above 0")
    return count


def run(asked: argparse.Namespace) -> int:
    """Writes the script and its names, and prints what was done; returns 0. Raises
    ImportRefusedError if the file can't be turned into a sound script, and writes nothing then."""
    def tell(doing: str) -> None:
        if hasattr(asked, "progress"):
            asked.progress.doing = doing

    with no_collections():
        whole = contents_of(asked.file)
        with plainly(asked, asked.form, whole, asked.strict) as written:
            if written is not None:
                tell(f"writing {asked.script}")
                for end in ("", NAMES, TIMES):
                    _copy(written.script + end, asked.script + end)
                about, has_times = written.about, True
        if written is None:
            imported = import_text(
                asked.form,
                text_in(whole, os.path.basename(asked.file)),
                asked.first,
                asked.initial,
                asked.strict,
                asked.independent,
                asked.leave_out,
                tell,
            )
            tell(f"writing {asked.script}")
            write(imported, asked.script)
            about, has_times = imported.about, imported.times is not None
    say(f"{asked.script}: {about[0]}")
    for line in about[1:]:
        say(f"  {line}")
    if has_times:
        say(f"  begin and end times: {asked.script}{TIMES}")
    return 0


def plainly(
    asked: argparse.Namespace, form: str, whole: bytes, asks_time: bool
) -> contextlib.AbstractContextManager[Written | None]:
    """A context with the script of this history, if it can be had at once and no option asks for
    less than all of it."""
    if asked.first or asked.initial is not None or asked.independent or asked.leave_out:
        return contextlib.nullcontext()
    return written_at_once(form, whole, asks_time)


def _copy(path: str, to: str) -> None:
    with open(path, "rb") as file, open(to, "wb", opener=private) as copy:
        shutil.copyfileobj(file, copy, 1 << 20)


def write(imported: Imported, script: str) -> None:
    """Writes the script, and the files beside it."""
    with open(script, "w", encoding="utf-8", opener=private) as file:
        file.writelines(f"{line}\n" for line in imported.lines)
    write_names(imported.names, script)
    if imported.times is not None:
        write_times(imported.times, script)
    else:
        with contextlib.suppress(FileNotFoundError):  # left by another file's script
            os.remove(script + TIMES)


def import_text(
    form: str,
    text: str,
    first: int | None = None,
    initial: str | None = None,
    asks_time: bool = False,
    is_independent: bool = False,
    left_out: Collection[str] = (),
    tell: Callable[[str], None] = lambda _: None,
) -> Imported:
    """The script for a file's text. `is_independent` and `left_out` are for Jepsen's forms, as
    `read_jepsen` has them. `tell` is called with what is being done. Raises ImportRefusedError."""
    chosen = FORMS[form]
    if initial is not None and not chosen.has_initial:
        raise ImportRefusedError(0, f"in {form} the initial value is always nil")
    more: dict[str, Any] = {} if initial is None else {"initial": initial}
    if is_independent or left_out:
        if not chosen.is_jepsen:
            raise ImportRefusedError(0, "--independent and --leave-out are for Jepsen's histories")
        more.update(is_independent=is_independent, left_out=left_out)
    recording = chosen.read(text, **more)
    tell(f"looking up what {counted(len(recording.attempts), 'attempt')} read")
    return script_of(recording, first, asks_time, EVERY)


def contents_of(path: str) -> bytes:
    """What a file has, without gzip. Raises ImportRefusedError and OSError."""
    with open(path, "rb") as file:
        return unpacked(file.read(), os.path.basename(path))


def unpacked(whole: bytes, name: str) -> bytes:
    """What a file with this content and name has, without gzip. Raises ImportRefusedError."""
    if whole[:2] != GZIP:
        return whole
    try:
        return gzip.decompress(whole)
    except (OSError, EOFError, zlib.error) as error:
        raise ImportRefusedError(0, f"{name} can't be decompressed: {error}") from error


def text_in(whole: bytes, name: str) -> str:
    """The text of a file with this content and name. Raises ImportRefusedError."""
    try:
        return whole.decode("utf-8-sig")
    except UnicodeDecodeError as error:
        line = whole.count(b"\n", 0, error.start) + 1
        raise ImportRefusedError(line, f"{name} isn't UTF-8") from error
