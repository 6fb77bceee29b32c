"""A temporary folder that is removed at the end, even if this program is killed."""

import os
import secrets
import shutil
import subprocess
import tempfile
import time

PID = "own_server.pid"  # in the folder: the number of the process to kill first
TRIES = 600  # attempts to remove it: what was just killed may still create files
# Its input ends when this program does. A process that doesn't work in the folder is a different
# one that got the same number since.
WATCH = f"""read -r _
pid=$(cat "$1/{PID}")
case $(readlink "/proc/$pid/cwd") in "$1" | "$1"/*) kill -KILL "$pid" ;; esac
tries=0
while [ -e "$1" ] && [ $tries -lt {TRIES} ]; do
    rm -rf "$1"
    tries=$((tries + 1))
    sleep 0.1
done"""


def new_path() -> str:
    """The path for a temporary folder. It is known before the folder exists, so an interrupt at any
    moment leaves none behind that nobody removes."""
    return os.path.join(
        os.path.realpath(tempfile.gettempdir()), f"zanteyard-{secrets.token_urlsafe(6)}"
    )


class ThrowawayFolder:
    """A temporary folder; `path` is its path, once it was made. A shell process waits for the end
    of this program."""

    def __init__(self) -> None:
        self.path = ""
        self.watch: subprocess.Popen[bytes] | None = None

    def make(self) -> None:
        self.path = new_path()
        quiet = subprocess.DEVNULL
        call = ["/bin/sh", "-c", WATCH, "sh", self.path]
        try:
            os.mkdir(self.path, 0o700)
            self.watch = subprocess.Popen(
                call,
                stdin=subprocess.PIPE,
                stdout=quiet,
                stderr=quiet,
                cwd="/",
                start_new_session=True,  # signals to this program's group don't reach it
            )
        except BaseException:
            self.remove()
            raise

    def __enter__(self) -> str:
        self.make()
        return self.path

    def __exit__(self, *_: object) -> None:
        self.remove()

    def remove(self) -> None:
        for _try in range(TRIES):
            shutil.rmtree(self.path, ignore_errors=True)
            if not os.path.exists(self.path):
                break
            time.sleep(0.1)
        if self.watch is not None and self.watch.stdin is not None:
            self.watch.kill()  # before its input ends
            self.watch.wait()
            self.watch.stdin.close()
