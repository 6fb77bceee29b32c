#!/usr/bin/env python3
"""Benchmarks that the field knows, recorded over PostgreSQL, judged by cobra_audit and by a peer.

    TMPDIR=/dev/shm python3 bench/cost/field.py --workload BlindW-RW list-append --transactions 10000

Workloads (bench/cost/field_workloads.py): Cobra's BlindW-RM, BlindW-RW, BlindW-RR, C-Twitter, C-RUBiS
and C-TPCC, and Elle's list-append, each with 24 sessions, at serializable, and at snapshot
isolation (repeatable read) if that may violate serializability. The operations are drawn with
--seed; how the clients' transactions overlap is the server's own. --keep stores the histories, and
--judge judges stored ones again.

The peer (bench/cost/field_peer.cpp) is compiled when the program begins. It prunes by what is known, and
leaves the rest to the SAT solver clasp. Each history is judged in two ways for serializability, and
one that was recorded at snapshot isolation in a third way:

- rounds: with the clients' meetings in between, at which cobra_audit cuts. The peer judges the same
  transactions without cuts.
- at once: without what the recorder added for the meetings, in one round, in a script of version 3:
  1,048,576 transactions at most. A larger history is refused, and the row says so.
- snapshot: the same, but asked whether it keeps snapshot isolation: 524,288 at most. The peer knows
  nothing of that.

A row has processor seconds, peak memory in MiB, and the verdict of each judge, with the anomaly
that `zanteyard check` names, or with where the peer found it. If both decide and the verdicts
differ, a line says so. Statuses: 0; 1 if verdicts differed; 2 if something is missing or wrong; 130
after Ctrl-C.
"""
from __future__ import annotations

import argparse
import contextlib
import json
import os
import re
import shutil
import signal
import subprocess
import sys
import tempfile
import threading
import time
from collections.abc import Generator, Iterator, Sequence
from dataclasses import dataclass
from typing import Any

TOP = os.path.normpath(os.path.join(os.path.dirname(os.path.abspath(__file__)), "../.."))
PACKAGE = os.path.join(TOP, "python")
sys.path[:0] = [PACKAGE]
from field_histories import History, HistoryError, NODES, keep, kept, script  # noqa: E402
from field_workloads import SESSIONS, WORKLOADS  # noqa: E402
from zanteyard import ZanteyardError  # noqa: E402
from zanteyard.program._binaries import find_program  # noqa: E402
from zanteyard.trial.postgres_server import ended_by_signals  # noqa: E402

@dataclass(frozen=True)
class Way:
    """A way to judge a history: its name, how many transactions may remain at a time, whether the
    recorder's own are in it, and the promise, if that isn't serializability."""

    name: str
    most: int
    has_own: bool = False
    promise: str = ""


ROUNDS, ONCE = Way("rounds", 4096, True), Way("at once", 1 << 20)
SNAPSHOT = Way("snapshot", 1 << 19, promise="snapshot")
SIZES = (10_000, 100_000)
LEVELS = ("serializable", "snapshot")
PEER = os.path.join(TOP, "bench/cost/field_peer.cpp")
COMPILERS = ("g++", "c++", "clang++")
NAMING = 5.0  # seconds that `zanteyard check` may take to make a violation small
DECIDED = ("serial", "pending", "violated")
COLUMNS = (
    *("workload", "level", "transactions", "judged"),
    *("cobra_audit s", "MiB", "verdict", "peer s", "MiB", "verdict"),
)
WIDTHS = (11, 12, 12, 8, 13, 6, 30, 8, 6, 0)


class CantBeginError(Exception):
    """Something isn't installed, or not as it has to be."""


class Progress:
    """Says on standard error what takes long: on a terminal each half second, else each minute."""

    def __init__(self, what: str) -> None:
        self.what, self.more = what, ""
        self.began, self.ends = time.monotonic(), threading.Event()
        self.is_terminal = sys.stderr.isatty()
        self.thread = threading.Thread(target=self.show, daemon=True)

    def show(self) -> None:
        while not self.ends.wait(0.5 if self.is_terminal else 60.0):
            told = f"{self.what}{self.more}, {time.monotonic() - self.began:.0f} s"
            print(f"\r\x1b[K({told})" if self.is_terminal else told,
                  end="" if self.is_terminal else "\n", file=sys.stderr, flush=True)

    def __enter__(self) -> Progress:
        self.thread.start()
        return self

    def __exit__(self, *_: object) -> None:
        self.ends.set()
        self.thread.join()
        if self.is_terminal:
            print("\r\x1b[K", end="", file=sys.stderr, flush=True)


@dataclass
class Judged:
    """A judge's verdict: serial, pending, violated, undecided or refused. `found` is what was
    found, or why there is no verdict."""

    verdict: str
    found: str = ""
    seconds: float | None = None  # of processor time
    mib: float | None = None
    at: int = 0  # the line of the round that was violated

    @property
    def text(self) -> str:
        return f"{self.verdict}: {self.found}" if self.found else self.verdict


class Measured:
    """A program that reads a script and is given at most some seconds. `used` is the processor time
    of it and its children, once it has ended. Its input doesn't end before `end_input`."""

    def __init__(self, call: Sequence[str], path: str, seconds: float) -> None:
        self.used, self.mib = 0.0, 0.0
        self.is_late, self.status = False, 0
        self.process = subprocess.Popen(
            call, stdin=subprocess.PIPE, stdout=subprocess.PIPE, start_new_session=True
        )
        self.feeder = threading.Thread(target=self.feed, args=(path,), daemon=True)
        self.timer = threading.Timer(seconds, self.be_late)
        self.timer.daemon = True

    def feed(self, path: str) -> None:
        assert self.process.stdin is not None
        with contextlib.suppress(OSError, ValueError), open(path, "rb") as file:
            shutil.copyfileobj(file, self.process.stdin)
            self.process.stdin.flush()

    def end_input(self) -> None:
        self.feeder.join()
        assert self.process.stdin is not None
        with contextlib.suppress(OSError):
            self.process.stdin.close()

    def note_peak(self) -> None:
        """Notes the peak memory of the running program. What the kernel says of it afterwards would
        also count the process that started it."""
        with contextlib.suppress(OSError):
            with open(f"/proc/{self.process.pid}/status", encoding="ascii") as status:
                found = re.search(r"VmHWM:\s*(\d+)", status.read())
                self.mib = int(found[1]) / 1024 if found else 0.0

    def be_late(self) -> None:
        self.is_late = True
        self.kill()

    def kill(self) -> None:
        if self.process.returncode is None:  # nobody has waited for it: the number is still its own
            with contextlib.suppress(ProcessLookupError):
                os.killpg(self.process.pid, signal.SIGKILL)

    def __enter__(self) -> Measured:
        self.timer.start()
        self.feeder.start()
        return self

    def __exit__(self, *_: object) -> None:
        self.timer.cancel()
        self.timer.join()
        self.kill()
        self.end_input()
        self.wait()

    def lines(self) -> Iterator[bytes]:
        assert self.process.stdout is not None
        for line in self.process.stdout:  # `yield from` would close it where the reader stops early
            yield line

    def wait(self) -> None:
        if self.process.returncode is not None:
            return
        assert self.process.stdout is not None
        self.process.stdout.close()
        _, status, usage = os.wait4(self.process.pid, 0)
        self.process.returncode = self.status = os.waitstatus_to_exitcode(status)
        self.used = usage.ru_utime + usage.ru_stime

    def told(self, verdict: str, found: str = "", at: int = 0) -> Judged:
        if self.is_late:
            verdict, found = "undecided", "out of time"
        return Judged(verdict, found, self.used, self.mib, at)


class Auditor:
    """This project's judge."""

    def __init__(self, program: str, seconds: float) -> None:
        self.program, self.seconds = program, seconds

    def judge(self, path: str) -> Judged:
        """Judges the script, up to the first round that isn't serial or pending."""
        verdict, found, at = "", "", 0
        with open(path, "rb") as file:
            count = sum(1 for _ in file)
        with Measured([self.program], path, self.seconds) as running:
            for at, line in enumerate(running.lines(), 1):
                if not (line.startswith((b'["ok"', b'["cut"')) or b'"NoCut"' in line):
                    verdict, found = self.reply(json.loads(line), at)
                if at == count or verdict not in ("", "serial", "pending"):
                    break
            running.note_peak()
        if not verdict:
            verdict, found = "undecided", f"it ended with status {running.status}"
        judged = running.told(verdict, found, at)
        if verdict in DECIDED and running.status not in (0, -signal.SIGKILL):
            return running.told("undecided", f"it ended with status {running.status}")
        return judged

    @staticmethod
    def reply(reply: list[Any], at: int) -> Any:
        if reply[0] == "no":
            return "refused", f"{reply[2]} at line {at}"
        return ("undecided", f"spent at line {at}") if reply[2] == "spent" else (reply[2], "")

    def name(self, path: str, judged: Judged) -> str:
        """What `zanteyard check` calls the violation."""
        short = f"{path}.short"
        with open(path, "rb") as script_file, open(short, "wb") as file:
            for _, line in zip(range(judged.at), script_file):
                file.write(line)
        call = [sys.executable, "-m", "zanteyard", "check", short, "--seconds", str(NAMING)]
        environment = {**os.environ, "PYTHONPATH": PACKAGE, "COBRA_AUDIT": self.program}
        done = subprocess.run(call, capture_output=True, text=True, env=environment, check=False)
        found = re.search(r"^  (\w[\w -]*) \(", done.stdout, re.MULTILINE)
        return found[1] if found else "no name" if done.returncode == 1 else "check failed"


class Peer:
    """The peer, which is compiled in a folder."""

    def __init__(self, folder: str, seconds: float) -> None:
        self.program, self.seconds = os.path.join(folder, "field_peer"), seconds
        compiler = next(filter(None, map(shutil.which, COMPILERS)), None)
        if compiler is None:
            raise CantBeginError("no C++ compiler is installed (packages.txt has g++)")
        call: list[str] = [compiler, "-std=c++17", "-O3", "-o", self.program, PEER]
        done = subprocess.run(call, capture_output=True, text=True, check=False)
        if done.returncode:
            raise CantBeginError(f"{PEER} can't be compiled: {done.stderr.strip()}")

    def judge(self, path: str) -> Judged:
        call, told = [self.program, str(max(1, int(self.seconds)))], b""
        with Measured(call, path, 1.1 * self.seconds + 10) as running:
            running.end_input()
            told = b"".join(running.lines())
            running.timer.cancel()
            running.wait()
        if not told:
            return running.told("undecided", f"the peer ended with status {running.status}")
        reply = json.loads(told)
        running.mib = reply["peak_kib"] / 1024
        return running.told(reply["verdict"], reply["found"])


def told_row(history: History, way: str, judged: Sequence[Judged | None]) -> str:
    cells = [history.workload, history.level, f"{history.transactions:,}", way]
    for each in judged:
        measured = each is not None and each.seconds is not None
        cells.append(f"{each.seconds:.2f}" if each and measured else "-")
        cells.append(f"{each.mib:.0f}" if each and measured else "-")
        cells.append(each.text if each else "-")
    return row_of(cells)


def row_of(cells: Sequence[str]) -> str:
    """A row of a table, which is also one in Markdown."""
    return f"| {' | '.join(cell.ljust(width) for cell, width in zip(cells, WIDTHS))} |"


def heading() -> str:
    return f"{row_of(COLUMNS)}\n|{'|'.join('-' * (max(width, 4) + 2) for width in WIDTHS)}|"


def difference(judged: Sequence[Judged | None]) -> bool:
    """Whether both have a verdict, and not the same one."""
    told = [each.verdict for each in judged if each is not None and each.verdict in DECIDED]
    return len({*told}) > 1


class Table:
    """Judges histories, and prints a row for each way."""

    def __init__(self, auditor: Any, peer: Any | None, folder: str, nodes: int) -> None:
        self.auditor, self.peer, self.folder, self.nodes = auditor, peer, folder, nodes
        self.differences = 0
        print(heading(), flush=True)

    def take(self, history: History) -> None:
        if None in history.records:
            self.row(history, ROUNDS)
        self.row(history, ONCE)
        if history.level == SNAPSHOT.promise:
            self.row(history, SNAPSHOT)

    def row(self, history: History, way: Way) -> None:
        path = os.path.join(self.folder, "script.jsonl")
        lines = script(history, way.most, way.has_own, self.nodes, way.promise)
        with open(path, "w", encoding="ascii") as file:
            file.writelines(f"{line}\n" for line in lines)
        about = f"{history.workload} at {history.level}, {history.transactions:,} {way.name}"
        if way.has_own or history.transactions <= way.most:
            with Progress(f"cobra_audit judges {about}"):
                ours = self.auditor.judge(path)
                if ours.verdict == "violated":
                    ours.found = self.auditor.name(path, ours)
        else:
            ours = Judged("refused", f"at most {way.most:,} at once")
        judged = [ours, None]
        if self.peer is not None and not way.promise:
            with Progress(f"the peer judges {about}"):
                judged[1] = self.peer.judge(path)
        print(told_row(history, way.name, judged), flush=True)
        if difference(judged):
            self.differences += 1
            told = " and ".join(each.text for each in judged if each)
            print(f"!!! THE VERDICTS DIFFER: {about}: {told}", flush=True)


def stored(asked: Any) -> Generator[History, None, None]:
    yield from map(kept, asked.judge)


def recorded(asked: Any) -> Generator[History, None, None]:
    """The histories that were asked for, one after another."""
    try:
        import field_recording as recording
    except ImportError as error:
        raise CantBeginError(f"recording needs psycopg2: {error}") from error
    from zanteyard.trial.postgres_server import program

    if program("initdb") is None:
        raise CantBeginError("recording needs PostgreSQL's server, which isn't installed")
    with recording.Server() as server:
        for count in asked.transactions:
            for name in asked.workload:
                for level in asked.level or LEVELS[: 1 + WORKLOADS[name].may_skew]:
                    with Progress(f"recording {name} at {level}") as progress:
                        def tell(committed: int, _: float) -> None:
                            progress.more = f": {committed:,} of {count:,}"

                        more = (asked.sessions, asked.seed, asked.every, tell)
                        try:
                            history = recording.record(server.dsn, name, level, count, *more)
                        except (recording.RecordingError, recording.psycopg2.Error) as error:
                            text = str(error).strip()
                            raise CantBeginError(f"recording {name} at {level}: {text}") from error
                    if asked.keep:
                        path = f"{asked.keep}/{name}-{level}-{count}.jsonl.gz"
                        keep(history, path)
                    yield history


def whole(least: int, most: int) -> Any:
    def number(text: str) -> int:
        value = int(text) if text.isdecimal() else -1
        if not least <= value <= most:
            what = f"{text!r} isn't a whole number from {least} to {most}"
            raise argparse.ArgumentTypeError(what)
        return value

    return number


def arguments(words: Sequence[str] | None = None) -> Any:
    parser = argparse.ArgumentParser(
        prog="field.py", description=__doc__, formatter_class=argparse.RawDescriptionHelpFormatter
    )
    add = parser.add_argument
    add("--workload", nargs="+", choices=WORKLOADS, default=[*WORKLOADS], metavar="NAME",
        help=f"which ones (all): {', '.join(WORKLOADS)}")
    add("--level", nargs="+", choices=LEVELS, metavar="LEVEL",
        help="serializable, snapshot (serializable, and snapshot where it may violate that)")
    add("--transactions", nargs="+", type=whole(1, 10**7), default=[*SIZES], metavar="N",
        help="sizes of histories (10000 100000)")
    add("--sessions", type=whole(1, 63), default=SESSIONS, metavar="N", help="clients (24)")
    add("--every", type=whole(1, 10**7), default=960, metavar="N",
        help="transactions between two meetings (960)")
    add("--seed", type=int, default=1, metavar="N", help="of the operations (1)")
    add("--seconds", type=whole(1, 10**6), default=600, metavar="N",
        help="how long a judge may take (600)")
    add("--nodes", type=whole(1, 2**32), default=NODES, metavar="N",
        help=f"of each round's search ({NODES})")
    add("--keep", metavar="FOLDER", help="store the histories there")
    add("--record", action="store_true", help="only record, with --keep")
    add("--judge", nargs="+", metavar="FILE", help="judge stored histories, and record none")
    asked = parser.parse_args(words)
    if asked.record and not asked.keep:
        parser.error("--record needs --keep")
    if asked.record and asked.judge:
        parser.error("--record and --judge exclude each other")
    return asked


def run(asked: Any) -> int:
    if asked.keep:
        os.makedirs(asked.keep, exist_ok=True)
    if asked.record:
        for history in recorded(asked):
            print(f"{history.workload} at {history.level}: {history.transactions:,} transactions, "
                  f"{history.aborted:,} aborted attempts, {history.seconds} s", flush=True)
        return 0
    with tempfile.TemporaryDirectory(prefix="zanteyard-") as folder:
        auditor = Auditor(find_program(), asked.seconds)
        try:
            peer = Peer(folder, asked.seconds)
        except CantBeginError as error:
            peer = None
            print(f"(no peer: {error})", file=sys.stderr)
        table = Table(auditor, peer, folder, asked.nodes)
        with contextlib.closing(stored(asked) if asked.judge else recorded(asked)) as histories:
            for history in histories:
                table.take(history)
    return 1 if table.differences else 0


def main(words: Sequence[str] | None = None) -> int:
    asked = arguments(words)
    try:
        with ended_by_signals():
            return run(asked)
    except KeyboardInterrupt:
        print("stopped", file=sys.stderr)
        return 130
    except (CantBeginError, HistoryError, ZanteyardError, OSError) as error:
        print(f"field.py: {error}", file=sys.stderr)
        return 2


if __name__ == "__main__":
    sys.exit(main())
