"""Comments that say where in an application a statement came from.

`zanteyard watch` shows the file and line of each statement of a violation if the statement has a
comment in the form of sqlcommenter, such as /*file='shop/orders.py',line='45'*/. Many frameworks
can write such comments. For others, one line with this module is enough:

    psycopg2.connect(dsn, cursor_factory=psycopg2_cursor())
    psycopg.connect(dsn, cursor_factory=psycopg_cursor())  # psycopg 3; also for an AsyncCursor
    add_to(engine)  # SQLAlchemy
    with django.db.connection.execute_wrapper(comments.django): ..

The file is that of the nearest caller outside of the driver, the framework and installed packages.
Statements that have a comment already, or aren't texts, are left unchanged. Safe for use by several
threads.
"""

from __future__ import annotations

import os
import sys
from collections.abc import Callable, Mapping
from typing import Any
from urllib.parse import quote

DEPTH = 80  # stack frames to look through, at most
# Packages whose code isn't the caller itself.
PASSED_OVER = ("psycopg2", "psycopg", "psycopg_pool", "sqlalchemy", "django", "zanteyard")
INSTALLED = (f"{os.sep}site-packages{os.sep}", f"{os.sep}dist-packages{os.sep}")
LIBRARY = os.path.dirname(os.__file__) + os.sep  # Python's own modules


def comment_of(values: Mapping[str, object]) -> str:
    """The comment with these values, in sqlcommenter's form; an empty text if there are none."""
    pairs = (f"{_quoted(key)}='{_quoted(str(value))}'" for key, value in sorted(values.items()))
    told = ",".join(pairs)
    return f"/*{told}*/" if told else ""


def _quoted(text: str) -> str:
    return quote(text, safe="/").replace("'", "\\'")


def where() -> dict[str, object]:
    """The file and line of the caller, as values of a comment; empty if there is no such file. A
    file below the working directory is named by its relative path."""
    frame: Any = sys._getframe(1)
    installed: dict[str, object] = {}
    passed_over = _folders()
    for _ in range(DEPTH):
        if frame is None:
            break
        name = frame.f_code.co_filename
        if not (name.startswith(passed_over) or _calls_nothing(name)):
            found: dict[str, object] = {"file": _from_here(name), "line": frame.f_lineno}
            if not any(folder in name for folder in INSTALLED):
                return found
            installed = installed or found
        frame = frame.f_back
    return installed


def _folders() -> tuple[str, ...]:
    """The folders of these packages, if they were imported."""
    files = (getattr(sys.modules.get(name), "__file__", None) for name in PASSED_OVER)
    return tuple(os.path.dirname(file) + os.sep for file in files if file)


def _calls_nothing(name: str) -> bool:
    if name.startswith("<"):  # made by a library, or typed in
        return True
    return name.startswith(LIBRARY) and not any(folder in name for folder in INSTALLED)


def _from_here(name: str) -> str:
    here = os.getcwd() + os.sep
    return name[len(here) :] if name.startswith(here) else name


def commented(statement: Any, has_parameters: bool = False, **more: object) -> Any:
    """The statement with a comment that says where this was called, plus the values in `more`. With
    `has_parameters`, percent signs in the comment are doubled, since the driver will replace
    placeholders. A statement that has a comment already is returned unchanged, and so is anything
    that is neither str nor bytes."""
    text = statement
    if isinstance(statement, bytes):
        text = statement.decode("utf-8", "surrogateescape")
    if not isinstance(text, str) or "/*" in text or "--" in text or not text.strip():
        return statement
    comment = comment_of({**where(), **more})
    if not comment:
        return statement
    if has_parameters:
        comment = comment.replace("%", "%%")
    body = text.rstrip()
    end = ";" if body.endswith(";") else ""
    found = f"{body[: len(body) - len(end)].rstrip()} {comment}{end}"
    is_bytes = isinstance(statement, bytes)
    return found.encode("utf-8", "surrogateescape") if is_bytes else found


def psycopg2_cursor(base: Any = None) -> type[Any]:
    """A cursor class for psycopg2 that adds comments to statements. `base` is the class to extend,
    by default psycopg2's own."""
    from psycopg2 import extensions
    from psycopg2.sql import SQL, Composable

    return _cursor(base or extensions.cursor, Composable, SQL)


def psycopg_cursor(base: Any = None) -> type[Any]:
    """The same for psycopg 3; `base` may be an AsyncCursor."""
    import psycopg
    from psycopg.sql import SQL, Composable

    return _cursor(base or psycopg.Cursor, Composable, SQL)


def _cursor(base: Any, composable: Any, sql: Callable[[str], Any]) -> type[Any]:
    def added(query: Any, parameters: Any) -> Any:
        if not isinstance(query, composable):
            return commented(query, parameters is not None)
        comment = comment_of(where())
        doubled = comment.replace("%", "%%") if parameters is not None else comment
        return query + sql(f" {doubled}") if comment else query

    class Commenting(base):  # type: ignore[misc]
        def execute(self, query: Any, *more: Any, **named: Any) -> Any:
            parameters = more[0] if more else named.get("vars", named.get("params"))
            return super().execute(added(query, parameters), *more, **named)

        def executemany(self, query: Any, *more: Any, **named: Any) -> Any:
            return super().executemany(added(query, ()), *more, **named)

    Commenting.__name__ = f"Commenting{base.__name__}"
    return Commenting


def add_to(engine: Any) -> None:
    """Adds comments to all statements of an SQLAlchemy engine. For an async engine, pass its
    `sync_engine`."""
    from sqlalchemy import event

    def add(_connection: Any, _cursor: Any, statement: Any, parameters: Any, *_: Any) -> Any:
        return commented(statement, parameters is not None), parameters

    event.listen(engine, "before_cursor_execute", add, retval=True)


def django(
    execute: Callable[..., Any], sql: Any, parameters: Any, many: bool, context: Any
) -> Any:
    """A wrapper for Django's `connection.execute_wrapper`."""
    return execute(commented(sql, parameters is not None), parameters, many, context)
