"""Makes texts from outside safe to show.

A key, a statement or a file name may contain anything: codes that move a terminal's cursor or clear
its screen, line breaks that make the rest look like a line of ours, marks that reverse the
direction of writing, invisible characters. All of these are shown as escapes, such as \\x1b or
\\u202e. Whatever is printed, logged or written as text passes through `shown`, or through a
function here that calls it.
"""

import html
import os
import re
import sys
import unicodedata
from collections.abc import Callable
from typing import TextIO

LONGEST = 4000  # characters of one text


def shown(text: str) -> str:
    """The whole text on one line. Invisible characters, line breaks and tabs become escapes. Spaces
    stay, and other kinds of space become plain ones."""
    return text if text.isprintable() else "".join(map(_one, text))


def shown_lines(text: str) -> str:
    """As `shown`, but keeps line breaks: for a text that consists of lines of ours."""
    return "\n".join(map(shown, text.split("\n")))


before_saying: Callable[[], None] | None = None  # removes the progress line
COLOURS = {
    **dict.fromkeys(("serial", "kept"), "32"),  # green
    **dict.fromkeys(("violated", "mistake"), "31"),  # red
    **dict.fromkeys(("pending", "spent", "undecided", "incomplete"), "33"),  # yellow
}
AUTO, ALWAYS, NEVER = "auto", "always", "never"
colours = AUTO  # when there are colours; --color sets it
VERDICT = re.compile(f"({'|'.join(COLOURS)})(?=[:;,]|$)")


def say(text: str, file: TextIO | None = None, end: str = "\n", flush: bool = False) -> None:
    """Prints one line. On a terminal a verdict in it is coloured. Raises what `print` does."""
    if before_saying is not None:
        before_saying()
    file = sys.stdout if file is None else file
    line = shown(text)
    print(_coloured(line) if has_colours(file) else line, file=file, end=end, flush=flush)


def is_terminal(file: TextIO | None) -> bool:
    try:
        return file is not None and file.isatty()
    except ValueError:  # it is closed
        return False


def has_colours(file: TextIO | None) -> bool:
    """Whether to use colours: as --color says, or else by the rules of no-color.org."""
    if colours != AUTO:
        return colours == ALWAYS
    if os.environ.get("NO_COLOR") or os.environ.get("TERM", "dumb") == "dumb":
        return False
    return is_terminal(file)


def _coloured(line: str) -> str:
    """Colours the first verdict, unless the line is indented: then it is about something else."""
    if line[:1] in (" ", ""):
        return line
    return VERDICT.sub(lambda it: f"\x1b[1;{COLOURS[it[1]]}m{it[1]}\x1b[0m", line, count=1)


def visible(text: str, longest: int = LONGEST) -> str:
    """The text on one line, with white space as single spaces and escapes for invisible characters.
    A text longer than `longest` characters is cut off and ends in ".."."""
    return _cut(shown(" ".join(text[: longest * 4].split())), longest)


def visible_lines(text: str, longest: int = LONGEST) -> str:
    """The same, but keeps line breaks and indentation."""
    lines = text[: longest * 4].expandtabs(4).replace("\r\n", "\n").split("\n")
    return _cut("\n".join(shown(line).rstrip() for line in lines).strip("\n"), longest)


def html_text(text: object) -> str:
    """`shown`, for HTML."""
    return html.escape(shown(str(text)))


def html_lines(text: str) -> str:
    """`shown_lines`, for HTML."""
    return html.escape(shown_lines(text))


def escaped(text: str, longest: int = LONGEST) -> str:
    """`visible`, for HTML."""
    return html.escape(visible(text, longest))


def escaped_lines(text: str, longest: int = LONGEST) -> str:
    """`visible_lines`, for HTML."""
    return html.escape(visible_lines(text, longest))


def _cut(text: str, longest: int) -> str:
    return text if len(text) <= longest else text[:longest] + " .."


def _one(sign: str) -> str:
    if sign.isprintable():
        return sign
    if unicodedata.category(sign) == "Zs":
        return " "  # whatever its width
    code = ord(sign)
    if code < 1 << 8:
        return f"\\x{code:02x}"
    return f"\\u{code:04x}" if code < 1 << 16 else f"\\U{code:08x}"
