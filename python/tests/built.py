"""The programs of this repository, for tests that need all of them."""
import os

from zanteyard.program._binaries import checker_path, program_path

TOP = os.path.normpath(os.path.join(os.path.dirname(os.path.abspath(__file__)), "../.."))
WORKED = os.path.join(TOP, "crates/cobra_examples/data")


def demo_path():
    """The demonstration, which isn't in the wheel: the one that COBRA_DEMO names, or the clone's
    build."""
    return os.environ.get("COBRA_DEMO") or os.path.join(TOP, "crates/cobra_demo/out/cobra_demo")


PATHS = {
    "cobra_audit": program_path,
    "cobra_check": checker_path,
    "cobra_demo": demo_path,
}


def path_of(name):
    """The path of the program with this name; None if it isn't built."""
    path = PATHS[name]()
    return path if os.access(path, os.X_OK) else None


def bytes_of(*names):
    with open(os.path.join(TOP, *names), "rb") as file:
        return file.read()


def by_turns(script, replies):
    """A script's lines and their replies alternately, as cobra_check reads them."""
    lines, told = script.split(b"\n"), replies.split(b"\n")
    return b"".join(line + b"\n" + reply + b"\n" for line, reply in zip(lines[:-1], told[:-1]))
