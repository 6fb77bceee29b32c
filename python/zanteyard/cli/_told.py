"""Prints a story, and writes it as a page, for all commands."""


from ..core._private_files import private
from ..core._visible import say
from ..explain._html import page_of
from ..explain._report import Story, story_lines
from ..program._binaries import find_program, origin_of
from ._statuses import complain as complain


def tell(story: Story, tells_all: bool = False, lead: str = "") -> None:
    """Prints the story. `lead` precedes the first line."""
    for line in story_lines(story, tells_all):
        say(f"{lead} {line}" if lead else line)
        lead = ""


def tell_with_page(
    story: Story,
    about: str = "",
    path: str | None = None,
    tells_all: bool = False,
    lead: str = "",
) -> None:
    """Writes the page, if there is to be one, and then prints the story: a reader may stop before
    the end of the text. `lead` precedes the first line. If the page can't be written, raises
    OSError after printing."""
    why_not: OSError | None = None
    if path is not None:
        try:
            write(page_of(story, about, origin()), path)
        except OSError as error:
            why_not = error
    tell(story, tells_all, lead)
    if why_not is not None:
        raise why_not
    if path is not None:
        say(f"(page: {path})")


def write(page: str, path: str) -> None:
    with open(path, "w", encoding="utf-8", opener=private) as file:
        file.write(page)


def origin() -> str:
    """How the auditor was built."""
    return origin_of(find_program()).sentence()
