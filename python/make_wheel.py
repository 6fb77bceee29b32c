"""Makes the wheel of the package, with the auditor inside, or the Debian package; package.sh at the
top calls this.

It needs Python's setuptools and wheel, and uses no index. The auditor is the prover's build in this
tree, which exists only if everything is proved; this asks the prover to check that nothing has
changed since. `--built` takes the existing build if it is newer than all sources, for use right
after the gate. `--unproved` builds one without proofs for a first try, with the kit's `rt try`, or
takes the given one; its version says so everywhere.
"""

import argparse
import contextlib
import glob
import hashlib
import json
import os
import shutil
import signal
import subprocess
import sys
import sysconfig
import tempfile
import time
from collections.abc import Iterator, Sequence
from concurrent.futures import ThreadPoolExecutor

from make_deb import CantPackError, deb_of

HERE = os.path.dirname(os.path.abspath(__file__))
TOP = os.path.normpath(os.path.join(HERE, ".."))
PROGRAMS = ("cobra_audit", "cobra_check")  # each a crate of this name
with open(os.path.join(TOP, "VERSION"), encoding="utf-8") as text:
    VERSION = text.read().strip()
PROXY = os.path.join(TOP, "proxy", "out", "zanteyard-proxy")  # where its build.sh puts it
LGPL = "/usr/share/common-licenses/LGPL-2.1"  # of the C library, which is linked into the proxy
SLOWER = 300  # factor, as in docs/PERFORMANCE.md
PATIENCE = 1200  # seconds for a build without proofs to get to its run


def built(name: str) -> str:
    """Where the prover's build puts the program."""
    return os.path.join(TOP, "crates", name, "out", name)


def sources() -> Iterator[str]:
    """Everything that a program is made of."""
    yield os.path.join(TOP, "crates.txt")
    for folder, folders, names in os.walk(os.path.join(TOP, "crates")):
        folders[:] = [it for it in folders if it not in ("out", "must-fail", "data")]
        yield from (os.path.join(folder, it) for it in names if it.endswith((".rt", ".antt")))


def said(*words: str) -> str:
    """A command's output; empty if it doesn't exist or fails."""
    try:
        ended = subprocess.run(words, cwd=TOP, stdout=subprocess.PIPE, stderr=subprocess.DEVNULL)
    except OSError:
        return ""
    return ended.stdout.decode().strip() if ended.returncode == 0 else ""


def proved(name: str, is_built: bool) -> str:
    """The proved program. Raises CantPackError."""
    path = built(name)
    if not is_built:
        print(
            f"{name}: asking the prover, which takes up to an hour if it isn't proved yet "
            "(--unproved builds a slow one in a minute or two)",
            flush=True,
        )
        words = ["rt", "run", name, "--", "--version"]
        folder = os.path.join(TOP, "crates", name)
        try:
            ended = subprocess.run(words, cwd=folder, stdin=subprocess.DEVNULL)
        except OSError as error:
            raise CantPackError(f"the kit's command rt doesn't start: {error.strerror}") from error
        if ended.returncode:
            raise CantPackError(f"{name} isn't proved")
    if not os.path.isfile(path):
        raise CantPackError(f"{path} isn't built")
    if is_built:
        newer = [it for it in sources() if os.path.getmtime(it) > os.path.getmtime(path)]
        if newer:
            raise CantPackError(f"{newer[0]} is newer than {path}: leave out --built")
    return path


def unproved(name: str, folder: str) -> str:
    """The program as `rt try` builds it. That keeps no file, so the folder is searched while the
    program reads a script that takes it a while."""
    folder = os.path.join(folder, f"{name}.try")
    os.mkdir(folder)
    script = os.path.join(folder, "script")
    with open(script, "w", encoding="utf-8") as file:
        if name == "cobra_check":  # lines with their replies
            turn = '["begin"]\n["ok"]\n["finish",1,0,1]\n["report",1,"serial",[0],[]]\n'
            file.write('["open",1,4096]\n["ok"]\n' + (turn + '["rebuild"]\n["ok"]\n') * 400000)
        else:
            file.write('["open",1,4096]\n')
            file.writelines(f'["offer",0,{it},[[[],[{it + 1}]]]]\n' for it in range(4000))
            file.write('["round",4096,0,1]\n' * 400)
    words = ["rt", "try", name, "--steps", "1", "--seconds", "60"]
    environment = {**os.environ, "TMPDIR": folder}
    crate = os.path.join(TOP, "crates", name)
    with open(script, "rb") as lines, open(os.devnull, "wb") as nowhere:
        try:
            trying = subprocess.Popen(
                words,
                cwd=crate,
                stdin=lines,
                stdout=nowhere,
                stderr=nowhere,
                env=environment,
                start_new_session=True,
            )
        except OSError as error:
            raise CantPackError(f"the kit's command rt doesn't start: {error.strerror}") from error
    try:
        return taken_from(trying, name, folder)
    finally:
        with contextlib.suppress(ProcessLookupError):
            os.killpg(trying.pid, signal.SIGTERM)
        trying.wait()


def taken_from(trying: "subprocess.Popen[bytes]", name: str, folder: str) -> str:
    """A copy of the running program, once it has written a reply."""
    until = time.monotonic() + PATIENCE
    while time.monotonic() < until and trying.poll() is None:
        for at, _, names in os.walk(folder):
            has_replied = {"program", "stdout"} <= {*names} and os.path.getsize(f"{at}/stdout")
            if has_replied:
                return str(shutil.copy(f"{at}/program", os.path.join(folder, name)))
        time.sleep(0.1)
    raise CantPackError(f"rt try has built no {name}: run it by hand to see why")


def all_unproved(names: Sequence[str], folder: str) -> list[str]:
    """In parallel: each takes a minute or two of a processor."""
    print(f"building without proofs: {', '.join(names)} (a minute or two on an idle machine)")
    print(f"(checks are compiled in: some {SLOWER} times slower than what is proved)", flush=True)
    with ThreadPoolExecutor(len(names)) as building:
        return list(building.map(lambda name: unproved(name, folder), names))


def sha256_of(path: str) -> str:
    with open(path, "rb") as file:
        return hashlib.sha256(file.read()).hexdigest()


def write_note(folder: str, is_proved: bool) -> None:
    """Writes what is known about the programs of this folder, for the package's version output."""
    has_changes = " with changes" if said("git", "status", "--porcelain") else ""
    note = {
        "proved": is_proved,
        "kit": said("rt", "version"),
        "commit": said("git", "rev-parse", "--short=12", "HEAD") + has_changes,
        "programs": {
            name: {"sha256": sha256_of(os.path.join(folder, name)), "crate": f"crates/{name}"}
            for name in sorted(os.listdir(folder))
        },
    }
    with open(os.path.join(folder, "made.json"), "w", encoding="utf-8") as file:
        json.dump(note, file, indent=2)
        file.write("\n")


def stage(folder: str, programs: Sequence[str], is_proved: bool) -> None:
    """Puts everything that the wheel contains into the folder."""
    package = os.path.join(folder, "zanteyard")
    hidden = shutil.ignore_patterns("__pycache__", "bin")
    shutil.copytree(os.path.join(HERE, "zanteyard"), package, ignore=hidden)
    for name in ("pyproject.toml", "README.md"):
        shutil.copy(os.path.join(HERE, name), folder)
    for name in ("LICENSE", "LICENSES.md", "LICENSE-TEXTS.txt"):
        shutil.copy(os.path.join(TOP, name), folder)
    shutil.copytree(os.path.join(TOP, "docs"), os.path.join(package, "docs"))  # errors name them
    shutil.copy(os.path.join(TOP, "README.md"), os.path.join(package, "docs"))  # WATCH names it
    inside = os.path.join(package, "program", "bin")
    os.mkdir(inside)
    for path in programs:
        os.chmod(shutil.copy(path, inside), 0o755)
    write_note(inside, is_proved)  # about the proved programs, which don't include the proxy
    if os.path.isfile(PROXY):
        os.chmod(shutil.copy(PROXY, inside), 0o755)
        if os.path.isfile(LGPL):
            shutil.copy(LGPL, os.path.join(folder, "LICENSE.LGPL-2.1"))
    else:
        print("the wheel has no proxy for `zanteyard watch`: proxy/build.sh builds it")
    platform = sysconfig.get_platform().replace("-", "_").replace(".", "_")
    with open(os.path.join(folder, "setup.cfg"), "w", encoding="utf-8") as file:
        file.write(f"[bdist_wheel]\nplat_name = {platform}\npython_tag = py3\n")
        if not is_proved:  # in the file's name and in pip's output
            file.write("[egg_info]\ntag_build = +unproved\n")


def wheel_of(folder: str, output: str) -> str:
    """Builds the wheel with its backend only, in place of an earlier one, and returns its path."""
    code = (
        "import sys; from setuptools import build_meta; print(build_meta.build_wheel(sys.argv[1]))"
    )
    words = [sys.executable, "-c", code, output]
    ended = subprocess.run(
        words, cwd=folder, stdout=subprocess.PIPE, stderr=subprocess.STDOUT, text=True
    )
    if ended.returncode:
        raise CantPackError(f"setuptools has failed:\n{ended.stdout}")
    made = os.path.join(output, ended.stdout.split()[-1])
    for path in glob.glob(os.path.join(glob.escape(output), "zanteyard-*.whl")):
        if path != made:
            os.remove(path)
    return made


def arguments(words: Sequence[str] | None) -> argparse.Namespace:
    asked = argparse.ArgumentParser(prog="package.sh", description="Makes the wheel.")
    asked.add_argument("--deb", action="store_true", help="makes Debian's package instead")
    asked.add_argument("--output", default=os.path.join(TOP, "out"), help="folder (out)")
    how = asked.add_mutually_exclusive_group()
    how.add_argument("--built", action="store_true", help="takes what the gate has just built")
    how.add_argument(
        "--unproved",
        nargs="?",
        const="",
        metavar="PROGRAM",
        help="builds without a proof, for a first try; or takes this program",
    )
    asked.add_argument(
        "--auditor-alone",
        action="store_true",
        help="with --unproved: leaves out the checker of stored replies",
    )
    return asked.parse_args(words)


def main(words: Sequence[str] | None = None) -> int:
    asked = arguments(words)
    os.makedirs(asked.output, exist_ok=True)
    try:
        with tempfile.TemporaryDirectory() as made, tempfile.TemporaryDirectory() as staged:
            if asked.unproved is None:
                programs = [proved(name, asked.built) for name in PROGRAMS]
            elif asked.unproved:  # the given auditor, and no other program
                programs = [shutil.copy(asked.unproved, os.path.join(made, PROGRAMS[0]))]
            else:
                programs = all_unproved(PROGRAMS[: 1 if asked.auditor_alone else None], made)
            stage(staged, programs, asked.unproved is None)
            output = os.path.abspath(asked.output)
            if asked.deb:
                print(deb_of(staged, output, VERSION, asked.unproved is None))
            else:
                print(wheel_of(staged, output))
    except CantPackError as error:
        print(f"no package: {error}", file=sys.stderr)
        return 1
    return 0


if __name__ == "__main__":
    sys.exit(main())
