#!/usr/bin/env python3
"""Makes each read and each write of the programs fail in turn, with a C library whose calls fail.

Run it at the top of the repository, after `rt run < /dev/null` has built each program in its crate,
or with COBRA_AUDIT, COBRA_CHECK and COBRA_DEMO naming them. It needs cc:

    python3 bench/check/failing_devices.py [--some WORD] [--only PROGRAM]

Each worked script whose name contains WORD (default first_cut) is given to the programs by devices
that move 1, 7 and 4,096 bytes per call. First the k-th read fails, for each k; then the k-th write
fails: with an error, a signal, a wait, a full device, and with zero bytes written. The status has
to be 1, the message `device failed`, and the output a prefix of the right one:

- cobra_audit: every reply to the lines read before;
- cobra_check, which is also given the script's stored replies: everything about the replies read
  before;
- cobra_demo, which writes once: it fails in the write, and writes nothing if a read fails.

Without a failure the output is complete, with status 0. Then the script is cut off at every byte,
and cobra_audit's output has to be that of the plain model (`judge.py`). It prints a line for each
size, and ends with status 1 if one is wrong.
"""
import argparse
import os
import shutil
import subprocess
import sys
import tempfile

HERE = os.path.dirname(os.path.abspath(__file__))
sys.path[:0] = [HERE, os.path.join(HERE, "../../python")]
sys.path[:0] = [os.path.join(os.path.dirname(os.path.abspath(__file__)), "../model")]
from judge import first_difference, lines_of  # noqa: E402

SHIM = r"""
#define _GNU_SOURCE
#include <dlfcn.h>
#include <errno.h>
#include <stdlib.h>
#include <sys/types.h>
static long number_of(const char *name) { const char *it = getenv(name); return it ? atol(it) : 0; }
static ssize_t failed(void) { errno = (int)number_of("ERROR"); return errno ? -1 : 0; }
ssize_t read(int file, void *room, size_t count) {
    static ssize_t (*next)(int, void *, size_t);
    static long calls;
    if (!next) next = dlsym(RTLD_NEXT, "read");
    if (file != 0) return next(file, room, count);
    if (++calls == number_of("FAILING_READ")) return failed();
    size_t most = (size_t)number_of("MOST");
    return next(file, room, count < most ? count : most);
}
ssize_t write(int file, const void *bytes, size_t count) {
    static ssize_t (*next)(int, const void *, size_t);
    static long calls;
    if (!next) next = dlsym(RTLD_NEXT, "write");
    if (file != 1) return next(file, bytes, count);
    if (++calls == number_of("FAILING_WRITE")) return failed();
    size_t most = (size_t)number_of("MOST");
    return next(file, bytes, count < most ? count : most);
}
"""
SIZES = (1, 7, 4096)
ERRORS = (5, 4, 11, 28)  # EIO, EINTR, EAGAIN, ENOSPC
FAILED = (1, b"device failed\n")


NAMES = ("cobra_audit", "cobra_check", "cobra_demo")


def has_compiler():
    return shutil.which("cc") is not None


def path_of(name):
    return os.environ.get(name.upper()) or f"crates/{name}/out/{name}"


class Devices:
    """The program with the failing library, in a folder of its own."""

    def __init__(self, program, folder):
        self.program, self.shim = program, f"{folder}/devices.so"
        with open(f"{folder}/devices.c", "w", encoding="ascii") as file:
            file.write(SHIM)
        subprocess.run(["cc", "-O1", "-shared", "-fPIC", "-o", self.shim, f"{folder}/devices.c",
                        "-ldl"], check=True)

    def run(self, script, most, read=0, write=0, error=5):
        """What was written, and how it ended, if this read or this write fails."""
        settings = {"LD_PRELOAD": self.shim, "MOST": str(most), "FAILING_READ": str(read),
                    "FAILING_WRITE": str(write), "ERROR": str(error)}
        ended = subprocess.run([self.program], input=script, env=settings, stdout=subprocess.PIPE,
                               stderr=subprocess.PIPE, timeout=300, check=False)
        return ended.stdout, (ended.returncode, ended.stderr)


def after_reads(script, owed, reads, most):
    """The right output if this many reads return bytes and the next one fails: the reply to each
    line whose LF was read."""
    count = script[:reads * most].count(b"\n")
    return b"".join(reply + b"\n" for reply in owed.split(b"\n")[:count])


def failing_reads(devices, script, owed, most):
    """Makes each read fail in turn; yields what is wrong, or None for a correct run."""
    for read in range(1, -(-len(script) // most) + 2):
        told, ended = devices.run(script, most, read=read, error=ERRORS[read % 3])
        if (told, ended) == (after_reads(script, owed, read - 1, most), FAILED):
            yield None
        else:
            yield f"read {read} of {most} bytes failed: {told!r}, {ended}"


def failing_writes(devices, script, owed, most):
    """Makes each write fail in turn, up to one that doesn't take place any more; yields as above.
    Each except the last one of a reply moves as much as it may."""
    fronts = fronts_of(owed, most)
    for write, front in enumerate(fronts, 1):
        error = (*ERRORS, 0)[write % 5]
        told, ended = devices.run(script, most, write=write, error=error)
        if (told, ended) == (owed[:front], FAILED):
            yield None
        else:
            yield f"write {write} of {most} bytes failed by {error}: {told!r}, {ended}"
    told, ended = devices.run(script, most, write=len(fronts) + 1)
    yield None if (told, ended) == (owed, (0, b"")) else f"more writes than {len(fronts)}: {ended}"


def fronts_of(owed, most):
    """How much was written before each write, if each reply is written by itself."""
    fronts, before = [], 0
    for reply in owed.split(b"\n")[:-1]:
        fronts += range(before, before + len(reply) + 1, most)
        before += len(reply) + 1
    return fronts


def cut_off(program, script):
    """Cuts the script off at every byte; yields as above."""
    for length in range(len(script) + 1):
        ended = subprocess.run([program], input=script[:length], stdout=subprocess.PIPE,
                               stderr=subprocess.PIPE, timeout=300, check=False)
        found = first_difference(script[:length], ended.stdout)
        if found or (ended.returncode, ended.stderr) != (0, b""):
            yield f"cut off at byte {length}: {found}, {ended}"
        else:
            yield None


def wrong_runs(program, folder, script):
    """For each kind of run of cobra_audit, how many there were and what was wrong with them."""
    devices = Devices(program, folder)
    owed, ended = devices.run(script, 4096)
    if first_difference(script, owed) or ended != (0, b""):
        raise RuntimeError(f"without a failure it says {owed!r}, {ended}")
    for most in SIZES:
        same = devices.run(script, most)
        yield f"moving {most:,}", [None if same == (owed, (0, b"")) else f"{same}"]
        yield f"reads of {most:,} fail", list(failing_reads(devices, script, owed, most))
        yield f"writes of {most:,} fail", list(failing_writes(devices, script, owed, most))
    yield "cut off at every byte", list(cut_off(program, script))


def until_none_fails(device, run):
    """Makes the k-th read or write fail, for each k up to one that doesn't take place any more;
    yields k, what was written and how it ended."""
    errors = ERRORS[:3] if device == "read" else (*ERRORS, 0)
    for call in range(1, 100000):
        told, ended = run(**{device: call, "error": errors[call % len(errors)]})
        if ended == (0, b""):
            return
        yield call, told, ended
    raise RuntimeError("there are too many calls")


def checker_runs(program, folder, turns):
    """The same for cobra_check, which is given a script's lines and their replies alternately."""
    devices = Devices(program, folder)
    owed, ended = devices.run(turns, 4096)
    if ended != (0, b""):
        raise RuntimeError(f"without a failure it says {owed!r}, {ended}")
    lines = turns.splitlines(keepends=True)
    # The output for each number of lines, without its last line, which has the count.
    fronts = [b"".join(devices.run(b"".join(lines[:count - count % 2]), 4096)[0].splitlines(
        keepends=True)[:-1]) for count in range(len(lines) + 1)]

    for most in SIZES:
        def run(**how):
            return devices.run(turns, most, **how)  # noqa: B023
        same = run()
        yield f"moving {most:,}", [None if same == (owed, (0, b"")) else f"{same}"]
        yield f"reads of {most:,} fail", [
            wrong_unless(ended == FAILED and is_front(told, owed) and told.startswith(
                fronts[turns[:(call - 1) * most].count(b"\n")]), call, told, ended)
            for call, told, ended in until_none_fails("read", run)]
        yield f"writes of {most:,} fail", [
            wrong_unless(ended == FAILED and owed.startswith(told) and told != owed,
                         call, told, ended)
            for call, told, ended in until_none_fails("write", run)]


def is_front(told, owed):
    """Whether the output is whole lines of the right one."""
    return owed.startswith(told) and (not told or told.endswith(b"\n"))


def wrong_unless(is_right, call, told, ended):
    return None if is_right else f"call {call}: {told!r}, {ended}"


def demonstration_runs(program, folder, line, owed):
    """The same for cobra_demo, which is given a line."""
    devices = Devices(program, folder)
    for most in SIZES:
        def run(**how):
            return devices.run(line, most, **how)  # noqa: B023
        same = run()
        yield f"moving {most:,}", [None if same == (owed, (0, b"")) else f"{same}"]
        yield f"reads of {most:,} fail", [
            wrong_unless(ended == FAILED and not told, call, told, ended)
            for call, told, ended in until_none_fails("read", run)]
        yield f"writes of {most:,} fail", [
            wrong_unless(ended == FAILED and told == owed[:(call - 1) * most], call, told, ended)
            for call, told, ended in until_none_fails("write", run)]


def all_runs(name, program, folder, script, replies):
    """All runs of the program with this name."""
    if name == "cobra_audit":
        return wrong_runs(program, folder, script)
    if name == "cobra_check":
        return checker_runs(program, folder, b"".join(
            line + b"\n" + reply + b"\n" for line, reply in zip(script.splitlines(),
                                                                replies.splitlines())))
    return demonstration_runs(program, folder, b"none 16\n", HONEST)


HONEST = (b"fault none\n" + b"".join(b"collector %d submitted 11 taken 11\n" % each
                                     for each in range(4)) + b"last serial\nlatest serial\n")


def main():
    words = argparse.ArgumentParser(description=__doc__.split("\n\n")[0])
    words.add_argument("--some", default="first_cut", metavar="WORD", help="scripts with this in their name (first_cut)")
    words.add_argument("--only", default="", metavar="PROGRAM", help="only this program")
    asked = words.parse_args()
    if not has_compiler():
        sys.exit("no cc is installed: nothing was tried")
    data, status, all_tried = os.path.join(HERE, "../../crates/cobra_examples/data"), 0, 0
    for script_name in sorted(os.listdir(data)):
        if not script_name.endswith(".jsonl") or asked.some not in script_name:
            continue
        with open(f"{data}/{script_name}", "rb") as file:
            script = file.read()
        with open(f"{data}/{script_name[:-5]}replies", "rb") as file:
            replies = file.read()
        for name in NAMES:
            program = os.path.abspath(path_of(name))
            if asked.only not in name or not os.access(program, os.X_OK):
                continue
            with tempfile.TemporaryDirectory() as folder:
                for what, runs in all_runs(name, program, folder, script, replies):
                    wrong = list(filter(None, runs))
                    print(f"{name}, {script_name}, {len(lines_of(script))} lines, {what}: "
                          f"{len(runs)} runs, {len(wrong)} of them wrong", *wrong[:3],
                          sep="\n  ", flush=True)
                    status, all_tried = 1 if wrong else status, all_tried + len(runs)
    print(f"{all_tried} runs, {'SOME OF THEM WRONG' if status else 'none of them wrong'}")
    sys.exit(status)


if __name__ == "__main__":
    main()
