"""Completes a command line for a shell, if argcomplete is installed."""

import argparse

from ._statuses import MISTAKE

ASKED = "_ARGCOMPLETE"  # set in the environment if a shell asks; then nothing else may be done


def complete(parser: argparse.ArgumentParser) -> int:
    """Ends the program with the possible next words, unless argcomplete isn't installed."""
    try:
        import argcomplete
    except ImportError:
        return MISTAKE
    argcomplete.autocomplete(parser)
    return MISTAKE
