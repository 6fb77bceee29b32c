"""Where a statement came from, according to its comment in the form of sqlcommenter."""

import re
from collections.abc import Mapping
from urllib.parse import unquote

COMMENT = re.compile(r"/\*([^*]{1,2000}?)\*/")
PAIR = re.compile(r"\s*([^=,'\s]{1,80})\s*=\s*'((?:[^'\\]|\\.)*)'\s*(?:,|$)")
FILES = (
    ("file", "line"),
    ("file", "lineno"),
    ("code.filepath", "code.lineno"),
    ("code.file.path", "code.line.number"),
)
# What other frameworks write, the most precise first.
OTHERS = ("file", "source_location", "route", "controller", "action", "db_driver_method", "job")


def tags_of(statement: str) -> dict[str, str]:
    """The values in the statement's comments, decoded; empty if it has none of that form."""
    found: dict[str, str] = {}
    for comment in COMMENT.findall(statement):
        pairs = PAIR.findall(comment)
        if PAIR.sub("", comment).strip() == "":
            found.update((unquote(key), _unquoted(value)) for key, value in pairs)
    return found


def _unquoted(value: str) -> str:
    return unquote(value.replace("\\'", "'"))


def origin_of(statement: str) -> str:
    """FILE:LINE, or what else its comment names; empty if there is nothing of that kind."""
    return _origin(tags_of(statement))


def _origin(tags: Mapping[str, str]) -> str:
    for file, line in FILES:
        if file in tags and line in tags:
            return f"{tags[file]}:{tags[line]}"
    for name in OTHERS:
        if name in tags:
            its = tags[name]
            return f"{its}#{tags['action']}" if name == "controller" and "action" in tags else its
    return ""


def without_tags(statement: str) -> tuple[str, str]:
    """The statement without comments of that form, and where it came from."""
    tags = tags_of(statement)
    if not tags:
        return statement, ""

    def kept(found: "re.Match[str]") -> str:
        return "" if PAIR.sub("", found[1]).strip() == "" else found[0]

    return COMMENT.sub(kept, statement).strip(), _origin(tags)
