"""Where the auditor's program is, and how it was built.

A wheel contains the program in the folder `bin` of this package, next to a note of what was proved
(`made.json`, which package.sh writes). In a clone it is in the prover's output folder.
"""

import hashlib
import json
import os
from collections.abc import Mapping
from dataclasses import dataclass
from typing import Any

from ..core.errors import ProgramMissingError

AUDITOR = "cobra_audit"
CHECKER = "cobra_check"  # checks stored replies
ENVIRONMENT = "COBRA_AUDIT"  # the environment variable that names another program to use
CHECKER_ENVIRONMENT = "COBRA_CHECK"  # the same for the checker
PACKAGE = os.path.dirname(os.path.abspath(__file__))
PACKED = os.path.join(PACKAGE, "bin")
NOTE = os.path.join(PACKED, "made.json")
CRATES = os.path.normpath(os.path.join(PACKAGE, "../../../crates"))  # of a clone
BUILT = os.path.join(CRATES, AUDITOR, "out", AUDITOR)
CHECKER_BUILT = os.path.join(CRATES, CHECKER, "out", CHECKER)


# A build without proofs has run-time checks and no optimization.
SLOW = "some 300 times slower than a proved one"


@dataclass(frozen=True)
class ProgramOrigin:
    """How a program was built. `is_proved` is None if there is no note."""

    path: str
    is_proved: bool | None
    kit: str = ""
    commit: str = ""
    is_as_noted: bool = True  # whether the file's hash is the one in the note

    def sentence(self) -> str:
        """A line for `--version`."""
        if self.is_proved is None:
            return f"{self.path}: unknown whether it was proved"
        if not self.is_as_noted:
            return f"{self.path}: NOT THE FILE THAT WAS PACKED (its sha256 differs)"
        if not self.is_proved:
            return f"{self.path}: NOT PROVED, built for a trial; {SLOW}"
        return f"{self.path}: proved by {self.kit}, commit {self.commit}"


def program_path(environment: Mapping[str, str] = os.environ) -> str:
    """The program that would be started, even if it doesn't exist: the one in the environment
    variable, else the package's, else the clone's build."""
    return _path(environment, ENVIRONMENT, AUDITOR, BUILT)


def checker_path(environment: Mapping[str, str] = os.environ) -> str:
    """The same for the program that checks stored replies."""
    return _path(environment, CHECKER_ENVIRONMENT, CHECKER, CHECKER_BUILT)


def _path(environment: Mapping[str, str], name: str, program: str, built: str) -> str:
    named = environment.get(name)
    if named:
        return named
    packed = os.path.join(PACKED, program)
    return packed if os.path.isfile(packed) else built


def find_program(environment: Mapping[str, str] = os.environ) -> str:
    """As `program_path`, but raises ProgramMissingError if that can't be started."""
    return _started(program_path(environment), ENVIRONMENT)


def find_checker(environment: Mapping[str, str] = os.environ) -> str:
    """The program that checks stored replies. Raises ProgramMissingError if it can't be started."""
    return _started(checker_path(environment), CHECKER_ENVIRONMENT)


def _started(path: str, name: str) -> str:
    """The path, if it is a program that can be started."""
    if not os.path.isfile(path):
        raise ProgramMissingError(
            f"{path} is missing: install the wheel, build the program (see README.md), or set "
            f"{name} to its path"
        )
    if not os.access(path, os.X_OK):
        raise ProgramMissingError(f"{path} isn't executable")
    return path


def origin_of(path: str) -> ProgramOrigin:
    """How this program was built, as far as it is known."""
    if os.path.dirname(path) != PACKED or not os.path.isfile(NOTE):
        return ProgramOrigin(path, None)
    with open(NOTE, encoding="utf-8") as file:
        note: Mapping[str, Any] = json.load(file)
    noted = note["programs"].get(os.path.basename(path), {}).get("sha256")
    return ProgramOrigin(
        path, bool(note["proved"]), note["kit"], note["commit"], noted == sha256_of(path)
    )


def slowness_of(path: str) -> str:
    """A remark for whoever finds this program slow, if it was built without proofs. Else empty."""
    try:
        is_proved = origin_of(path).is_proved
    except (OSError, ValueError, KeyError):
        return ""
    return f" (it was built without proofs and is {SLOW})" if is_proved is False else ""


def sha256_of(path: str) -> str:
    """The file's SHA-256 in hexadecimal."""
    digest = hashlib.sha256()
    with open(path, "rb") as file:
        for block in iter(lambda: file.read(1 << 16), b""):
            digest.update(block)
    return digest.hexdigest()


PROGRAM = program_path()  # the default
