"""The command `zanteyard`. Its exit status is that of the last verdict: 0 serial, 1 violated, 2 a
mistake in the script or the call, 3 pending, 4 undecided."""

import contextlib
import os
import sys
from collections.abc import Sequence
from typing import Any

from ..core import _visible
from ..core._outcome import UNDECIDED_STATUS
from ..core.errors import ImportRefusedError, ProgramEndedError, ZanteyardError
from ._command_start import is_over
from ._statuses import MISTAKE, complain


def main(words: Sequence[str] | None = None) -> int:
    """Runs the command, and returns its exit status. Errors are printed on standard error."""
    words = sys.argv[1:] if words is None else words
    asked: Any = None
    try:
        is_over()
        # Imported here, so that Ctrl-C during the imports is handled as it is later.
        from ._commands import command_of, parser
        from ._completion import ASKED, complete

        if ASKED in os.environ:
            return complete(parser())
        if not words:
            parser("").print_help(sys.stderr)
            return MISTAKE
        asked = parser(command_of(words), words).parse_args(words)
        _visible.colours = getattr(asked, "color", _visible.AUTO)
        status: int = asked.run(asked)
        asked.status = status
        sys.stdout.flush()
        return status
    except ProgramEndedError as error:
        return complain(UNDECIDED_STATUS, f"undecided: {error}")
    except ImportRefusedError as error:
        return complain(MISTAKE, f"refused: {error}")
    except ZanteyardError as error:
        return complain(MISTAKE, f"mistake: {error}")
    except BrokenPipeError:
        _let_go_of_output()
        known = getattr(asked, "status", None)  # of a verdict that is final
        if known is not None:
            return int(known)
        if not getattr(asked, "has_verdict", True):
            return UNDECIDED_STATUS  # as `zanteyard prepare URL | head` wants it
        return complain(UNDECIDED_STATUS, "undecided: standard output was closed")
    except OSError as error:
        why = f"{error.filename}: {error.strerror}" if error.filename else str(error)
        return complain(MISTAKE, f"mistake: {why}")
    except KeyboardInterrupt:
        word = "undecided: " if getattr(asked, "has_verdict", False) else ""
        return complain(UNDECIDED_STATUS, f"{word}interrupted")
    except Exception:  # Python's own status would be 1, which means violated
        import traceback

        first, *lines = traceback.format_exc().rstrip().split("\n")
        return complain(UNDECIDED_STATUS, first, *(f"  | {line}" for line in lines))


def _let_go_of_output() -> None:
    """Discards buffered output. Otherwise Python would try to write it at its end, and report
    another error."""
    with contextlib.suppress(OSError), open(os.devnull, "w", encoding="utf-8") as nowhere:
        os.dup2(nowhere.fileno(), sys.stdout.fileno())
