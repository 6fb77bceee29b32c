"""The output of `zanteyard --version`: the versions of the programs that it would run."""

import os
from collections.abc import Iterator

from ..core._version import VERSION
from ..program._binaries import checker_path, origin_of, program_path
from ..program._proxy_program import build_of


def version_lines() -> Iterator[str]:
    yield f"zanteyard {VERSION}"
    for name, path in (("auditor", program_path()), ("checker", checker_path())):
        is_there = os.path.isfile(path)
        yield f"{name} {origin_of(path).sentence() if is_there else f'{path}: missing'}"
    yield f"proxy {build_of()}"
