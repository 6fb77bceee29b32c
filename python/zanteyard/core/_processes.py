"""Work that several processes share."""

import marshal
import os
import signal
from collections.abc import Callable, Iterator, Sequence
from typing import IO, Any, NoReturn, TypeVar

SIZE = 8  # bytes of a length
MOST = 3  # processes beside this one, which goes on with what they have made

Part = TypeVar("Part")
Made = TypeVar("Made")


def shared(work: Callable[[Part], Made], parts: Sequence[Part]) -> Iterator[Made | None]:
    """What `work` makes of each part, in order; it must be something that `marshal` can write. The
    parts are dealt to processes which are forked at once, each of which waits at the end of a part
    until this one has taken it. Yields None for a part of which a process made nothing, and ends;
    the process may have been killed. Yields nothing if there is no processor for another one."""
    files: list[IO[bytes]] = []
    children: list[int] = []
    count = min(MOST, len(parts), len(os.sched_getaffinity(0)) - 1)
    try:
        for first in range(count):
            reading, writing = os.pipe()
            files.append(open(reading, "rb"))
            try:
                child = os.fork()
                if child == 0:
                    _run(work, parts[first::count], writing)
                children.append(child)
            finally:
                os.close(writing)
        for at in range(len(parts) if count else 0):
            found: Made | None = _received(files[at % count])
            yield found
            if found is None:
                return
    except OSError:  # no more processes
        yield None
    finally:
        for file in files:
            file.close()
        for child in children:
            os.kill(child, signal.SIGKILL)
            os.waitpid(child, 0)


def shared_all(work: Callable[[Part], Made], parts: Sequence[Part]) -> list[Made]:
    """The same of all parts. What no process has made is made here, and a single part is."""
    found: list[Made] = []
    for each in shared(work, parts if len(parts) > 1 else []):
        if each is None:
            break
        found.append(each)
    return [*found, *map(work, parts[len(found) :])]


def _run(work: Callable[[Part], Any], parts: Sequence[Part], writing: int) -> NoReturn:
    """What a forked process does: nothing that its parent has begun is ended here."""
    try:
        with open(writing, "wb", closefd=False) as file:
            for part in parts:
                text = marshal.dumps(work(part))
                file.write(len(text).to_bytes(SIZE, "big") + text)
                file.flush()
    finally:
        os._exit(0)


def _received(file: IO[bytes]) -> Any:
    """What the process made of its next part; None if it has ended."""
    size = int.from_bytes(file.read(SIZE), "big")
    text = file.read(size)
    return marshal.loads(text) if size and len(text) == size else None
