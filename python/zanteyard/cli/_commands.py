"""The commands of `zanteyard`, by what they are for, and its parser. A command's modules are
imported only if that command was requested."""

import argparse
import os
import textwrap
from collections.abc import Callable, Mapping, Sequence
from typing import Any, NamedTuple

from ..core._visible import say
from ._parsing import GroupedParser, Parser
from ._settings import settle
from ._statuses import STATUS_WORDS

UNSETTLED = ("help",)  # commands without options that could be set elsewhere
WIDTH = 79  # columns of the text below a command's options


class Command(NamedTuple):
    """A command. `fill` adds the arguments and sets `run`, which takes the parsed arguments and
    returns the exit status."""

    about: str
    example: str
    fill: Callable[[argparse.ArgumentParser], None]
    has_verdict: bool = True


def _check(command: argparse.ArgumentParser) -> None:
    from ._scripts import add_check

    add_check(command)


def _explain(command: argparse.ArgumentParser) -> None:
    from ._scripts import add_explain

    add_explain(command)


def _levels(command: argparse.ArgumentParser) -> None:
    from ._scripts import add_levels

    add_levels(command)
    command.epilog = (
        "Exit status: 0 if they could be determined, 2 if the script is wrong; with --expect also "
        "1, 3 and 4."
    )


def _demo(command: argparse.ArgumentParser) -> None:
    from ._runs import add_demo

    add_demo(command)
    _shows_progress(command, "checking")


def _check_report(command: argparse.ArgumentParser) -> None:
    from ..program import _check_report

    _check_report.add_arguments(command)
    command.set_defaults(run=_check_report.run)


def _import(command: argparse.ArgumentParser) -> None:
    from ..imports import _command

    _command.add_arguments(command)
    command.set_defaults(run=_command.run)
    _shows_progress(command, "importing")
    command.epilog = "Exit status: 0 if the script was written, 2 if not."


def _shows_progress(command: argparse.ArgumentParser, what: str) -> None:
    """Shows progress on a terminal while it runs."""
    from ._progress import Progress

    run = command.get_default("run")

    def watched(asked: argparse.Namespace) -> int:
        with Progress(what) as progress:
            asked.progress = progress
            status: int = run(asked)
        return status

    command.set_defaults(run=watched)


def _watch(command: argparse.ArgumentParser) -> None:
    from ..watch import _command

    _command.add_arguments(command)
    command.set_defaults(run=_command.run)


def _proxy(command: argparse.ArgumentParser) -> None:
    from ..watch import _proxy_command

    _proxy_command.add_arguments(command)
    command.set_defaults(run=_proxy_command.run)


def _prepare(command: argparse.ArgumentParser) -> None:
    from ..watch import _prepare

    _prepare.add_arguments(command)
    command.set_defaults(run=_prepare.run)


def _serve(command: argparse.ArgumentParser) -> None:
    from . import _serve

    _serve.add_arguments(command)
    command.set_defaults(run=_serve.run)
    command.epilog = _serve.STATUS_WORDS


def _key(command: argparse.ArgumentParser) -> None:
    from ._key import make_key

    def run(asked: argparse.Namespace) -> int:
        make_key(asked.file)
        return 0

    command.add_argument(
        "file", metavar="FILE", help="the file to create; only its owner may read it"
    )
    command.set_defaults(run=run)
    command.epilog = "Exit status: 0 if the key was written, 2 if not."


def _journal(command: argparse.ArgumentParser) -> None:
    from ._journal import add_journal

    add_journal(command)


def _bench(command: argparse.ArgumentParser) -> None:
    _add_stores(command, "bench")


def _audit(command: argparse.ArgumentParser) -> None:
    _add_stores(command, "audit")


def _add_stores(command: argparse.ArgumentParser, name: str) -> None:
    from ..trial.store_kinds import KINDS
    from ._runs import run_audit
    from .audit import add_arguments

    stores = command.add_subparsers(metavar="STORE", required=True)
    for kind in KINDS:
        about = f"runs clients against {kind.name} and audits them live"
        store = _add(stores, kind.command, about)
        if isinstance(command, Parser):
            command.commands[kind.command] = store
        store.set_defaults(run=run_audit)
        add_arguments(store, kind)
        _end(store, f"zanteyard {name} {kind.command} --seconds 5")


def _help(command: argparse.ArgumentParser) -> None:
    def run(asked: argparse.Namespace) -> int:
        words = [*asked.words, "--help"]
        parser(command_of(words)).parse_args(words)
        return 0

    about = "the command, for example `audit redis`"
    command.add_argument("words", nargs="*", metavar="COMMAND", help=about)
    command.set_defaults(run=run)
    command.epilog = "Exit status: 0, or 2 if there is no such command."


GROUPS: Mapping[str, Mapping[str, Command]] = {
    "audit your application while it runs": {
        "prepare": Command(
            "shows what a server still needs for `watch`",
            "zanteyard prepare postgresql://admin@db.example/shop",
            _prepare,
            False,
        ),
        "watch": Command(
            "audits any application that uses PostgreSQL",
            "zanteyard watch postgresql://admin@db.example/shop --listen 127.0.0.1:6432",
            _watch,
        ),
        "proxy": Command(
            "runs a proxy on another machine, for the audit of `watch`",
            "zanteyard proxy postgresql://admin@db.example/shop --redis rediss://redis.example "
            "--audit shop --key audit.key",
            _proxy,
            False,
        ),
        "serve": Command(
            "runs the auditor as a daemon, for clients with a collector",
            "zanteyard serve --folder /var/lib/zanteyard --metrics 127.0.0.1:9464",
            _serve,
        ),
        "key": Command(
            "makes a key for processes on several machines to share",
            "zanteyard key audit.key",
            _key,
            False,
        ),
    },
    "check what was recorded or saved": {
        "check": Command(
            "prints the verdict on a history, a script or a journal",
            "zanteyard check history.edn --html page.html",
            _check,
        ),
        "levels": Command(
            "lists which isolation levels a history meets",
            "zanteyard levels history.jsonl",
            _levels,
            False,
        ),
        "import": Command(
            "converts another tool's history into a script",
            "zanteyard import jepsen-lists history.edn -o history.jsonl",
            _import,
            False,
        ),
    },
    "try it, or measure a store": {
        "demo": Command(
            "audits an in-memory store that has a fault", "zanteyard demo write-skew", _demo
        ),
        "bench": Command(
            "runs clients against a store and audits them live",
            "zanteyard bench sqlite --seconds 5",
            _bench,
        ),
    },
    "learn more": {
        "help": Command("shows the options of a command", "zanteyard help watch", _help, False),
    },
    "other names, which go on working": {
        "explain": Command(
            "explains the first violation, as `check --html` does",
            "zanteyard explain history.jsonl --html page.html",
            _explain,
        ),
        "journal": Command(
            "gives the verdict on a journal, as `check` does",
            "zanteyard journal /var/lib/zanteyard/audit.journal",
            _journal,
        ),
        "check-report": Command(
            "checks stored replies, as `check --replies` does",
            "zanteyard check-report history.jsonl replies.jsonl",
            _check_report,
            False,
        ),
        "audit": Command(
            "audits clients of a store, as `bench` does",
            "zanteyard audit sqlite --seconds 5",
            _audit,
        ),
    },
}
COMMANDS: Mapping[str, Command] = {
    name: entry for commands in GROUPS.values() for name, entry in commands.items()
}


class _Version(argparse.Action):
    """Prints the version and which programs would be started, and ends."""

    def __call__(self, parser: argparse.ArgumentParser, *_: Any) -> None:
        from ._versions import version_lines

        for line in version_lines():
            say(line, flush=True)
        parser.exit()


def command_of(words: Sequence[str]) -> str:
    """The command in these words; "" if there is none. Options before it take no words."""
    return next((word for word in words if not word.startswith("-")), "")


def parser(named: str | None = None, words: Sequence[str] = ()) -> Parser:
    """The command line's parser. Only the command with this name has its arguments; all have them
    if it is None. What `words` leave open is taken from the environment and the file that they
    name. Raises SettingError."""
    whole = GroupedParser(
        prog="zanteyard",
        description="Checks whether a store's transactions were serializable and kept each "
        "session's order.",
        formatter_class=argparse.RawDescriptionHelpFormatter,
    )
    whole.add_argument(
        "--version", action=_Version, nargs=0, help="print the version and the programs it uses"
    )
    commands = whole.add_subparsers(metavar="COMMAND", required=True, parser_class=Parser)
    for name, entry in COMMANDS.items():
        command = _add(commands, name, entry.about)
        command.set_defaults(has_verdict=entry.has_verdict)
        whole.commands[name] = command
        if named is None or name == named:
            entry.fill(command)
            if name not in UNSETTLED:
                settle(command, name, words)
        _end(command, entry.example)
    texts = [
        "Start with `zanteyard demo`. `zanteyard help COMMAND` shows a command's options.",
        STATUS_WORDS,
    ]
    folder = documents()
    whole.groups = {title: [*commands_of_group] for title, commands_of_group in GROUPS.items()}
    whole.epilog = _paragraphs(*texts) + (f"\n\nDocuments: {folder}" if folder else "")
    return whole


def documents() -> str:
    """The folder `docs` that help and errors name: the wheel's, else a clone's; or empty."""
    package = os.path.dirname(os.path.dirname(os.path.abspath(__file__)))
    places = (os.path.join(package, "docs"), os.path.join(package, "../../docs"))
    found = (os.path.normpath(it) for it in places if os.path.isfile(f"{it}/FORMATS.md"))
    return next(found, "")


def _add(commands: Any, name: str, about: str) -> Parser:
    added: Parser = commands.add_parser(
        name,
        help=about,
        description=f"{about[:1].upper()}{about[1:]}.",
        epilog=STATUS_WORDS,
        formatter_class=argparse.RawDescriptionHelpFormatter,
    )
    return added


def _end(command: argparse.ArgumentParser, example: str) -> None:
    """The text below the options."""
    text = command.epilog or ""
    command.epilog = f"example:\n  {example}\n\n" + (text if "\n" in text else _paragraphs(text))


def _paragraphs(*texts: str) -> str:
    return "\n\n".join(textwrap.fill(text, WIDTH) for text in texts)
