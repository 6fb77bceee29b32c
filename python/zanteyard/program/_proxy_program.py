"""Where the program zanteyard-proxy is, and what it says about its build."""

import os
import subprocess
from collections.abc import Mapping

from ..core._visible import visible
from ..core.errors import ProgramMissingError
from ._binaries import CRATES, PACKED

NAME = "zanteyard-proxy"
ENVIRONMENT = "ZANTEYARD_PROXY"
BUILT = os.path.join(os.path.dirname(CRATES), "proxy", "out", NAME)  # in a clone
ENDING = 10.0  # seconds for it to answer


def proxy_path(environment: Mapping[str, str] = os.environ) -> str:
    """The program that would be started: the one in the environment variable, else the package's,
    else the clone's build."""
    named = environment.get(ENVIRONMENT)
    if named:
        return named
    packed = os.path.join(PACKED, NAME)
    return packed if os.path.isfile(packed) else BUILT


def find_proxy(environment: Mapping[str, str] = os.environ) -> str:
    """As `proxy_path`, but raises ProgramMissingError if that can't be started."""
    path = proxy_path(environment)
    if not os.path.isfile(path):
        raise ProgramMissingError(
            f"{path} is missing: install the wheel, build the proxy, or set {ENVIRONMENT} to its "
            "path"
        )
    if not os.access(path, os.X_OK):
        raise ProgramMissingError(f"{path} isn't executable")
    return path


def version_of(path: str) -> str:
    """What the program at a path says about its build; empty if it says nothing."""
    try:
        its = subprocess.run(
            [path, "--version"], stdin=subprocess.DEVNULL, capture_output=True, timeout=ENDING
        )
    except (OSError, subprocess.SubprocessError):
        return ""
    return its.stdout.decode("utf-8", "replace").removeprefix(f"{NAME} ").removesuffix("\n")


def build_of(environment: Mapping[str, str] = os.environ) -> str:
    """Where the program is, and what it says about its build."""
    path = proxy_path(environment)
    if not os.path.isfile(path):
        return f"{path}: missing"
    try:
        its = subprocess.run(
            [path, "--version"], stdin=subprocess.DEVNULL, capture_output=True, timeout=ENDING
        )
    except (OSError, subprocess.SubprocessError) as error:
        return f"{path}: can't be started ({visible(str(error), 200)})"
    told = visible(its.stdout.decode("utf-8", "replace"), 200)
    return f"{path}: {told or 'build unknown'}"
