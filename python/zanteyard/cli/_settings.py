"""Values of options from the environment and from a file.

Each option NAME of a command may be given by the environment's ZANTEYARD_NAME, in capitals and with
_ for -, and in a TOML file that --config or ZANTEYARD_CONFIG names, in a table with the command's
name. The command line comes first, then the environment, then the file.
"""

import argparse
import os
import tomllib
from collections.abc import Mapping, Sequence
from typing import Any

from ..core import _visible
from ..core.errors import ZanteyardError
from ._parsing import Parser, did_you_mean

PREFIX = "ZANTEYARD_"
OPTION = "--config"
YES, NO = ("1", "true", "yes", "on"), ("0", "false", "no", "off")
NEVER = ("help", "version", "config")
WHEN = (_visible.AUTO, _visible.ALWAYS, _visible.NEVER)


class SettingError(ZanteyardError):
    """A value in the environment or in the file can't be used."""


def settle(
    command: Parser, name: str, words: Sequence[str], environment: Mapping[str, str] = os.environ
) -> None:
    """Gives the command's options the values that these words leave to the environment and to the
    file. Adds the options of all commands, --color and --config. Raises SettingError."""
    command.add_argument(
        "--color", choices=WHEN, default=WHEN[0],
        help="colour verdicts: auto (on a terminal, unless NO_COLOR is set), always or never",
    )
    command.add_argument(
        OPTION, metavar="FILE",
        help=f"a TOML file with values of options, in a table [{name}]; each may also be in the "
        f"environment, such as {PREFIX}CONFIG",
    )
    path = _path_in(words) or environment.get(f"{PREFIX}CONFIG")
    table = _table(path, name) if path else {}
    known: dict[str, list[tuple[Parser, argparse.Action]]] = {}
    for parser in _all(command):
        for option in parser.options:
            called = name_of(option)
            if called and called not in NEVER:
                known.setdefault(called, []).append((parser, option))
    for key in table:
        if key not in known:
            raise SettingError(f"{path}: [{name}] has no option {key}{did_you_mean(key, known)}")
    for called, options in known.items():
        variable = PREFIX + called.upper().replace("-", "_")
        value = environment.get(variable) or None
        where = f"the environment's {variable}"
        if value is None and path and called in table:
            value, where = _text(table[called], path, called), f"{path}: {called}"
        if value is not None:
            for parser, option in options:
                _give(parser, option, value, where)


def name_of(option: argparse.Action) -> str:
    """An option's name without dashes; that of an argument that may be left out; else empty."""
    long = [name for name in option.option_strings if name.startswith("--")]
    if option.help == argparse.SUPPRESS:
        return ""  # an old name
    if long:
        return long[0][2:]
    is_optional = not option.option_strings and option.nargs == "?"
    return option.dest if is_optional and option.metavar == "URL" else ""


def _all(command: Parser) -> list[Parser]:
    return [command, *(each for sub in command.commands.values() for each in _all(sub))]


def _path_in(words: Sequence[str]) -> str:
    for at, word in enumerate(words):
        if word == OPTION and at + 1 < len(words):
            return words[at + 1]
        if word.startswith(f"{OPTION}="):
            return word[len(OPTION) + 1 :]
    return ""


def _table(path: str, name: str) -> dict[str, Any]:
    try:
        with open(path, "rb") as file:
            whole = tomllib.load(file)
    except (tomllib.TOMLDecodeError, UnicodeDecodeError) as error:
        raise SettingError(f"{path} isn't TOML: {error}") from error
    except OSError as error:
        raise SettingError(f"can't read {path}: {error.strerror}") from error
    alone = [key for key, value in whole.items() if not isinstance(value, dict)]
    if alone:
        raise SettingError(f"{path}: {alone[0]} stands in no table, such as [{name}]")
    return {key.replace("_", "-"): value for key, value in whole.get(name, {}).items()}


def _text(value: object, path: str, called: str) -> str:
    if isinstance(value, bool):
        return YES[1] if value else NO[1]
    if isinstance(value, (str, int, float)):
        return str(value)
    if isinstance(value, list) and all(isinstance(it, str) for it in value):
        return ",".join(value)
    raise SettingError(f"{path}: {called} can't be a {type(value).__name__}")


def _give(parser: Parser, option: argparse.Action, value: str, where: str) -> None:
    if option.nargs == 0:
        if value.lower() not in (*YES, *NO):
            raise SettingError(f"{where} is {value!r}: give {YES[1]} or {NO[1]}")
        if value.lower() in YES:
            parser.set_defaults(**{option.dest: option.const})
        return
    try:
        found = parser.value_of(option, value)
    except argparse.ArgumentError as error:
        raise SettingError(f"{where}: {error.message}") from error
    is_list = isinstance(option, argparse._AppendAction)
    parser.set_defaults(**{option.dest: [found] if is_list else found})
    option.required = False
