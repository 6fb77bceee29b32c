"""Describes a violation for people."""

import time
from collections.abc import Callable, Iterable

from ..core._private_files import private
from ..core._records import History, Naming, ShownId
from ..core._visible import say, shown
from ..program._binaries import PROGRAM
from ..promises._kinds import SERIALIZABLE, Promise
from ._audited import audited_apart
from ._reasons import explanation_of
from ._report import Story, story_lines, story_of
from ._shrinking import SECONDS, smaller
from ._standing import standing
from ._words import name


def tell_violation(
    history: History,
    path: str,
    called: Naming = name,
    tell: Callable[[str], object] = say,
    seconds: float = SECONDS,
    program: str = PROGRAM,
    known: Iterable[ShownId] = (),
    promise: Promise = SERIALIZABLE,
) -> History:
    """Describes a violated history: a minimal violated part of it, why no order explains that, and
    which promises it breaks. Then writes the part as path.jsonl for cobra_audit. If writing fails,
    that is reported last. Returns the small history. `known` is what a refutation of
    the history names, if there is one. Each line passed to `tell` is safe to show."""
    return tell_story(history, path, called, tell, seconds, program, known, promise)[0]


def tell_story(
    history: History,
    path: str,
    called: Naming = name,
    tell: Callable[[str], object] = say,
    seconds: float = SECONDS,
    program: str = PROGRAM,
    known: Iterable[ShownId] = (),
    promise: Promise = SERIALIZABLE,
) -> tuple[History, Story]:
    """The same, and also returns the story, for a page."""

    ends = time.monotonic() + seconds
    small = smaller(history, program, seconds, known, promise)
    audited = audited_apart(small, program, promise)
    explanation = explanation_of(audited, small, called)
    story = story_of(small, called, explanation, audited.script, (), promise)
    left = max(0.5, ends - time.monotonic())
    story = story.with_standing(standing(small, program, promise, left))
    for line in story_lines(story):
        tell(shown(line))
    try:
        tell(shown(write_script(story, path)))
    except Exception as error:  # such as a full disk: what was found has been reported
        tell(shown(f"({path} can't be written: {error})"))
    return small, story


def write_script(story: Story, path: str) -> str:
    """Writes the script, and returns a line about how to use it."""
    with open(f"{path}.jsonl", "w", encoding="utf-8", opener=private) as file:
        file.write(story.script)
    if story.promise.is_split:
        return f"(zanteyard check --promise {story.promise.name} {path}.jsonl reports it again)"
    return f"(cobra_audit < {path}.jsonl reports it again)"
