"""The parser of the command line. It says what is wrong with a word, and what was probably
meant."""

import argparse
import difflib
import sys
from collections.abc import Iterable, Mapping, Sequence
from typing import Any, NoReturn

from ..core._visible import say
from ..core._visible import shown as safe

NUMBERS = ((float, "a number, such as 2.5"), (int, "a whole number, such as 10"))
MOST_NAMED = 24  # choices that are listed


class Parser(argparse.ArgumentParser):
    """Quotes words of the call safely. `options` are its arguments, and `commands` the parsers of
    its commands, by name."""

    def __init__(self, *its: Any, **more: Any) -> None:
        self.options: list[argparse.Action] = []
        self.commands: dict[str, Parser] = {}
        super().__init__(*its, **more)

    def add_argument(self, *its: Any, **more: Any) -> argparse.Action:
        action = super().add_argument(*its, **more)
        self.options.append(action)
        return action

    def parse_args(self, args: Any = None, namespace: Any = None) -> Any:
        found, left = self.parse_known_args(args, namespace)
        if left:
            self._innermost(args or ()).refuse(left)
        return found

    def _innermost(self, words: Sequence[str]) -> "Parser":
        """The parser of the command that is called."""
        for at, word in enumerate(words):
            if word in self.commands:
                return self.commands[word]._innermost(words[at + 1 :])
        return self

    def refuse(self, words: Sequence[str]) -> NoReturn:
        """Says that it doesn't know these words."""
        names = [name for option in self.options for name in option.option_strings]
        option = next((word for word in words if word.startswith("-")), None)
        if option is None:
            self.error(f"unexpected: {' '.join(words)}")
        name = option.split("=")[0]
        self.error(f"there is no option {name}{did_you_mean(name, names)}")

    def error(self, message: str) -> NoReturn:
        super().error(safe(message))

    def _check_value(self, action: argparse.Action, value: Any) -> None:
        if action.choices is None or value in action.choices:
            return
        choices = [*action.choices]
        if isinstance(action, argparse._SubParsersAction):
            what, listed = "command", "`zanteyard help` lists them"
        else:
            what, listed = "value", f"give {one_of(choices)}"
        near = did_you_mean(value, map(str, choices)) if isinstance(value, str) else ""
        told = f"there is no {what} {value!r}{near}: {listed}"
        raise argparse.ArgumentError(action, told)

    def value_of(self, action: argparse.Action, text: str) -> Any:
        """The value that this text stands for. Raises ArgumentError."""
        value = self._get_value(action, text)
        self._check_value(action, value)
        return value

    def _get_value(self, action: argparse.Action, arg_string: str) -> Any:
        try:
            return super()._get_value(action, arg_string)
        except argparse.ArgumentError as error:
            kind: Any = action.type
            wanted = [words for known, words in NUMBERS if known is kind]
            if not wanted:
                raise
            told = f"{arg_string!r} isn't {wanted[0]}"
            raise argparse.ArgumentError(action, told) from error


class GroupedParser(Parser):
    """Lists its commands in groups. `groups` are the names of commands, by the group's title."""

    groups: Mapping[str, Sequence[str]]

    def format_help(self) -> str:
        shown = self._get_formatter()
        shown.add_usage(self.usage, self._actions, self._mutually_exclusive_groups)
        shown.add_text(self.description)
        for title, names in self.groups.items():
            shown.start_section(title)
            shown.add_arguments(self._listed(name) for name in names)
            shown.end_section()
        shown.start_section("options")
        shown.add_arguments(option for option in self.options if option.option_strings)
        shown.end_section()
        shown.add_text(self.epilog)
        return shown.format_help()

    def _listed(self, name: str) -> argparse.Action:
        about = (self.commands[name].description or "").rstrip(".")
        return argparse.Action([], name, metavar=name, help=about[:1].lower() + about[1:])


class Renamed(argparse.Action):
    """An option's old name, which still works: on a terminal the new one is said."""

    def __init__(self, *its: Any, new: str, **more: Any) -> None:
        super().__init__(*its, **more)
        self.help, self.new = argparse.SUPPRESS, new

    def __call__(self, parser: Any, namespace: Any, values: Any, option: Any = None) -> None:
        hint(f"note: {option} is called {self.new} now")
        setattr(namespace, self.dest, values)


def add_old_name(command: argparse.ArgumentParser, old: str, new: str, **more: Any) -> None:
    """Accepts the old name of an option."""
    dest = new.lstrip("-").replace("-", "_")
    default = argparse.SUPPRESS
    command.add_argument(old, dest=dest, new=new, action=Renamed, default=default, **more)


def hint(text: str) -> None:
    """Says this to a person; a script's standard error stays as it was."""
    if sys.stderr is not None and sys.stderr.isatty():
        say(text, file=sys.stderr, flush=True)


def one_of(choices: Sequence[Any]) -> str:
    """The choices in words."""
    if choices and all(type(it) is int for it in choices):
        return f"a whole number from {min(choices)} to {max(choices)}"
    named = [str(it) for it in choices[:MOST_NAMED]]
    return ", ".join(named[:-1]) + (" or " if named[1:] else "") + named[-1]


def did_you_mean(word: str, names: Iterable[str]) -> str:
    """The end of a sentence about an unknown word: the nearest known one, if one is near."""
    near = difflib.get_close_matches(word, [*names], 1)
    return f" (did you mean {near[0]}?)" if near else ""
