"""Whether the tests find small faults: each mutant is the code with one place changed.

    /usr/bin/python3 bench/check/mutants.py python|go|conditions [--count 60] [--seed 1] [--processes 2] [--only FILE:LINE] [--rows FILE]

Mutants of the Python package's sessions, live audits, rounds, notes and crash recovery, of the
proxy's joiner, or of what it does with conditions, are drawn with the seed. Python: the tests are
traced once; each mutant is run with the tests that run its line and pass without it, in a copy of
the tree. Go: with the joiner's tests, by an overlay. `conditions`: with the tests of package
condition, or those of the joiner that ask by conditions, so that sixty end within ten minutes on
two processors. A mutant is found if a test fails, or takes eight times as long as without it. It
prints a line for each mutant that isn't found, which somebody has to read: either it means the
same, or a test is missing. The status is 1 if more than one in twenty isn't found.
"""
import argparse
import ast
import collections
import concurrent.futures
import functools
import glob
import itertools
import json
import os
import random
import re
import shutil
import signal
import subprocess
import sys
import tempfile
import threading
import time
import unittest

TOP = os.path.normpath(os.path.join(os.path.dirname(os.path.abspath(__file__)), "../.."))
PYTHON, PROXY = os.path.join(TOP, "python"), os.path.join(TOP, "proxy")
FILES = {
    "python": (
        *("session/_*.py", "live/_backlog.py", "live/_session_pool.py", "live/_quiesce_coordinator.py"),
        *("live/_audit.py", "live/_live_auditor.py", "live/_for_processes.py", "live/_pace.py"),
        *("program/_rounds.py", "program/_searched_round.py", "live/_told.py"),
        *("session/_crash_notes.py", "program/_tenancy.py", "program/_window.py", "remote/_crash_recovery.py"),
    ),
    "go": ("src/zanteyard/join/*.go",),
    "conditions": ("src/zanteyard/condition/*.go", "src/zanteyard/join/conditions.go", "src/zanteyard/join/passed.go"),
}
# Of the Python package: each mutant is run with the tests in these modules that run its line.
TESTS = (
    *("transactions", "meetings", "places", "forks", "notes", "circumstances", "redacting", "processes", "no_harm"),
    *("two_stores.InMemory", "two_stores.Told", "aborted", "joining", "live", "rounds", "killed.Killed"),
)
GO_SLOW = "Lives|MakesUpNo|MemoryIsBounded|HotRow|AsTheServerDoes"  # the tests that take seconds
# Of the joiner, the tests that ask by conditions, without those of the tests themselves (WrongPassing), which take minutes.
ASKING = "TestPassingOver|PassedOver|Registers|Asked|Asks|ByACondition|Lost|Beside"
QUICKEST = 100  # tests, for code that runs before any of them
LONGEST = 1800.0  # seconds for a call of tests without a mutant
Mutant = collections.namedtuple("Mutant", "path line about text")  # the text is made on demand
COMPARED = {
    ast.Lt: ast.LtE, ast.LtE: ast.Lt, ast.Gt: ast.GtE, ast.GtE: ast.Gt, ast.Eq: ast.NotEq, ast.NotEq: ast.Eq,
    ast.Is: ast.IsNot, ast.IsNot: ast.Is, ast.In: ast.NotIn, ast.NotIn: ast.In,
}
GO = (  # what is changed, and into what
    (r" < ", " <= "), (r" <= ", " < "), (r" > ", " >= "), (r" >= ", " > "), (r" == ", " != "), (r" != ", " == "),
    (r" && ", " || "), (r" \|\| ", " && "), (r"\bif !", "if "), (r"\breturn true\b", "return false"),
    (r"\breturn false\b", "return true"), (r" \+ 1\b", ""), (r" - 1\b", ""), (r"\bcontinue\b", "break"),
    (r"^(\t+)([\w.\[\]]+)\+\+$", r"\1_ = \2"), (r"^(\t+)delete\(.*\)$", r"\1"), (r" \+= ", " -= "),
)


def changed(node):
    """The ways in which a node may be changed: each returns a description, or None."""

    def compare():
        node.ops[0] = COMPARED[type(node.ops[0])]()
        return "compares otherwise"

    def junction():
        node.op = ast.Or() if isinstance(node.op, ast.And) else ast.And()
        return "and, or"

    def condition():
        node.test = ast.UnaryOp(ast.Not(), node.test)
        return "the other branch"

    def count():
        node.value += 1
        return f"{node.value - 1} is {node.value}"

    def truth():
        node.value = not node.value
        return f"{not node.value} is {node.value}"

    def call():
        node.value = ast.Constant(None)
        return "isn't called"

    def assignment():
        node.op = ast.Sub() if isinstance(node.op, ast.Add) else ast.Add()
        return "plus, minus"

    if isinstance(node, ast.Compare) and type(node.ops[0]) in COMPARED:
        yield compare
    if isinstance(node, ast.BoolOp):
        yield junction
    if isinstance(node, (ast.If, ast.IfExp, ast.While)):
        yield condition
    if isinstance(node, ast.Constant) and type(node.value) is int:
        yield count
    if isinstance(node, ast.Constant) and type(node.value) is bool:
        yield truth
    if isinstance(node, ast.Expr) and isinstance(node.value, ast.Call):
        yield call
    if isinstance(node, (ast.AugAssign, ast.BinOp)) and isinstance(node.op, (ast.Add, ast.Sub)):
        yield assignment


def is_of_annotation(source, node):
    """Whether its line is a module's constant, a log message, a decorator or a raise, which tests
    needn't cover."""
    line = source[node.lineno - 1]
    return "logger." in line or re.match(r"[A-Z_]+ ?[:,=]", line) or line.lstrip().startswith(("@", "raise "))


def python_mutants(path):
    with open(path, encoding="utf-8") as file:
        text = file.read()
    source = text.splitlines()
    for at, node in enumerate(ast.walk(ast.parse(text))):
        if not hasattr(node, "lineno") or is_of_annotation(source, node):
            continue
        for way, change in enumerate(changed(node)):
            about = f"{source[node.lineno - 1].strip()}   ({change()})"
            yield Mutant(path, node.lineno, about, functools.partial(python_mutant, text, at, way))


def python_mutant(text, at, way):
    """The text with one node changed, in one of the ways."""
    mutated = ast.parse(text)
    its = [*changed(next(itertools.islice(ast.walk(mutated), at, None)))][way]
    its()
    return ast.unparse(ast.fix_missing_locations(mutated))


def go_mutants(path):
    with open(path, encoding="utf-8") as file:
        lines = file.read().split("\n")
    for at, line in enumerate(lines):
        if line.lstrip().startswith("//") or '"' in line:
            continue
        code, slashes, comment = line.partition(" //")
        for old, new in GO:
            if re.search(old, code):
                changed_line = re.sub(old, new, code, count=1) + slashes + comment
                about = f"{line.strip()}   ({changed_line.strip()})"
                yield Mutant(path, at + 1, about, functools.partial(go_mutant, lines, at, changed_line))


def go_mutant(lines, at, line):
    return "\n".join([*lines[:at], line, *lines[at + 1 :]])


def trace(name, path):
    """Runs a module of tests, and writes for each test that passes its seconds and which lines of
    the mutants' files it ran, except in other processes."""
    home = os.path.join(PYTHON, "zanteyard")
    files = {file for name in FILES["python"] for file in glob.glob(os.path.join(home, name))}
    lines, ran = set(), {}

    def line(frame, event, _):
        if event == "line":
            lines.add((frame.f_code.co_filename, frame.f_lineno))
        return line

    class Traced(unittest.TextTestResult):
        def startTest(self, test):
            super().startTest(test)
            lines.clear()
            self.began = time.monotonic()

        def addSuccess(self, test):
            super().addSuccess(test)
            its = sorted([os.path.relpath(file, PYTHON), number] for file, number in lines.copy())
            ran[test.id()] = [time.monotonic() - self.began, its]

    def called(frame, *_):
        return line if frame.f_code.co_filename in files else None

    sys.path.insert(0, PYTHON)
    threading.settrace(called)
    sys.settrace(called)
    unittest.TextTestRunner(resultclass=Traced).run(unittest.defaultTestLoader.loadTestsFromName(f"tests.test_{name}"))
    sys.settrace(None)
    with open(path, "w", encoding="utf-8") as file:
        json.dump(ran, file)
    os._exit(0)  # whatever threads there are


def traced(names, folder):
    """For each test that passes, its seconds and lines. Each module is traced once, and its file
    stays in the folder."""
    ran = {}
    for name in names:
        path = os.path.join(folder, f"{name}.lines")
        if not os.path.exists(path):
            call = [sys.executable, "-W", "ignore", os.path.abspath(__file__), "--trace", name, path]
            if end_of(call, PYTHON, folder, LONGEST)[0] != 0:
                print(f"can't be traced: {name}", flush=True)
                continue
        with open(path, encoding="utf-8") as file:
            ran.update(json.load(file))
    return ran


def places_of(mutant):
    """The lines of which one runs whenever the changed place does: those of the innermost
    statement; for a function, those of its body."""
    with open(mutant.path, encoding="utf-8") as file:
        whole = ast.parse(file.read())
    its = [node for node in ast.walk(whole) if isinstance(node, ast.stmt) and node.lineno <= mutant.line <= node.end_lineno]
    inner = min(its, key=lambda node: node.end_lineno - node.lineno)
    if isinstance(inner, (ast.FunctionDef, ast.AsyncFunctionDef)):
        return range(inner.body[0].lineno, inner.end_lineno + 1)
    end = inner.body[0].lineno - 1 if getattr(inner, "body", None) else inner.end_lineno
    return range(inner.lineno, max(end, inner.lineno) + 1)


def covering(mutant, ran):
    """The tests that can find it, the fastest first, and the seconds that they take. What runs when
    a module is imported can be found by all: then the fastest ones are taken."""
    file, lines = os.path.relpath(mutant.path, PYTHON), places_of(mutant)
    its = [(seconds, id) for id, (seconds, ran_lines) in ran.items()
           if any(path == file and number in lines for path, number in ran_lines)]
    its = sorted(its) or sorted((seconds, id) for id, (seconds, _) in ran.items())[:QUICKEST]
    return [id for _, id in its], sum(seconds for seconds, _ in its)


def python_fate(folder, mutant, ran):
    """The fate of a mutant: "found", "hangs", or "lives"; and what found it. The tests run in a
    copy of the tree."""
    names, seconds = covering(mutant, ran)
    tree = os.path.join(folder, os.path.relpath(PYTHON, TOP))
    shutil.copytree(PYTHON, tree, ignore=shutil.ignore_patterns("__pycache__", "out"))
    for name in os.listdir(TOP):  # some tests read other files of the repository
        if name != "collectors":
            os.symlink(os.path.join(TOP, name), os.path.join(folder, name))
    with open(os.path.join(tree, os.path.relpath(mutant.path, PYTHON)), "w", encoding="utf-8") as file:
        file.write(mutant.text())
    call = [sys.executable, "-W", "ignore", "-m", "unittest", "-f", *names]
    return fate_by(*end_of(call, tree, folder, limit_of(seconds)))


def fate_by(status, told):
    if status is None:
        return "hangs", ""
    failed = re.search(r"^(?:--- FAIL|FAIL|ERROR): (\w+)", told, re.M)
    return ("found", failed[1] if failed else f"status {status}") if status else ("lives", "")


def limit_of(seconds):
    """After how many seconds tests count as hanging, if they take this many without a mutant."""
    return 120.0 + 8 * seconds


def package_of(mutant):
    return os.path.basename(os.path.dirname(mutant.path))


def go_calls(folder, names, mutant, its, asking):
    """The tests of a package, the fast ones first; then those of other packages. None if it can't
    be compiled. Asking: of the joiner's tests, only those that ask by conditions."""
    text, overlay, program = (os.path.join(folder, name) for name in ("mutant.go", "overlay", "tests"))
    if mutant is not None:
        with open(text, "w", encoding="utf-8") as file:
            file.write(mutant.text())
    with open(overlay, "w", encoding="utf-8") as file:
        json.dump({"Replace": {mutant.path: text} if mutant is not None else {}}, file)
    package = os.path.join(PROXY, "src/zanteyard", its)
    made = ["go", "test", "-c", "-vet=off", "-overlay", overlay, "-o", program, f"zanteyard/{its}"]
    if subprocess.run(made, cwd=PROXY, capture_output=True, check=False).returncode:
        yield None
        return
    listed = subprocess.run([program, "-test.list", "^Test"], cwd=package, capture_output=True, text=True, check=False)
    every = [name for name in listed.stdout.split() if not asking or its != "join" or re.search(ASKING, name)]
    slow = [name for name in every if re.search(GO_SLOW, name)]
    for name, some in ((its, [name for name in every if name not in slow]), (f"{its}, slow ones", slow)):
        if some:
            yield name, [program, "-test.failfast", "-test.run", f"^({'|'.join(some)})$"], package
    for name in names:
        yield name, ["go", "test", "-vet=off", "-failfast", "-overlay", overlay, f"zanteyard/{name}"], PROXY


def go_fate(folder, mutant, names, limits, asking):
    """As python_fate; "isn't one" if it can't be compiled."""
    for one in go_calls(folder, names, mutant, package_of(mutant), asking):
        if one is None:
            return "isn't one", ""
        name, call, home = one
        limit = limits.get(name, LONGEST)
        if limit is not None:
            fate, by = fate_by(*end_of(call, home, folder, limit))
            if fate != "lives":
                return fate, f"{name} {by}"
    return "lives", ""


def go_limits(folder, names, packages, asking):
    """The limit for each call; None if it fails without a mutant, too, since it would then find
    anything."""
    limits, calls = {}, (go_calls(folder, names, None, its, asking) for its in packages)
    for name, call, home in itertools.chain.from_iterable(calls):
        began = time.monotonic()
        status, told = end_of(call, home, folder, LONGEST)
        limits[name] = limit_of(time.monotonic() - began) if status == 0 else None
        if status != 0:
            print(f"left out, since it fails without a mutant: {name}", *told.splitlines()[-3:], sep="\n    ", flush=True)
    return limits


def end_of(call, home, folder, seconds):
    """Its status, None if it doesn't end, and its output. The processes that it began are ended
    with it."""
    with tempfile.TemporaryFile() as told:
        with subprocess.Popen(call, cwd=home, env={**os.environ, "TMPDIR": folder}, stdin=subprocess.DEVNULL, stdout=told,
                              stderr=subprocess.STDOUT, start_new_session=True) as process:
            try:
                status = process.wait(seconds)
            except subprocess.TimeoutExpired:
                status = None
            finally:
                try:
                    os.killpg(process.pid, signal.SIGKILL)
                except ProcessLookupError:
                    pass
        told.seek(0)
        return status, told.read().decode(errors="replace")


def drawn(kind, count, seed, only):
    home = os.path.join(PYTHON, "zanteyard") if kind == "python" else PROXY
    paths = sorted({path for name in FILES[kind] for path in glob.glob(os.path.join(home, name))})
    make = python_mutants if kind == "python" else go_mutants
    every = [it for path in paths if not path.endswith("_test.go") for it in make(path)]
    if only:
        return [it for it in every if f"{os.path.basename(it.path)}:{it.line}" == only]
    return random.Random(seed).sample(every, min(count, len(every)))


def written_rows(path):
    """The rows of an earlier run, by place and change; mutants that lived are run again."""
    if not path or not os.path.exists(path):
        return {}
    with open(path, encoding="utf-8") as file:
        return {tuple(row[:2]): row[2:] for row in map(json.loads, file) if row[2] != "lives"}


def main():
    if sys.argv[1:2] == ["--trace"]:
        trace(*sys.argv[2:])
    parser = argparse.ArgumentParser(description=__doc__.splitlines()[0])
    parser.add_argument("kind", choices=FILES)
    parser.add_argument("--count", type=int, default=60, help="how many mutants (60)")
    parser.add_argument("--seed", type=int, default=1, help="the seed of the dice (1)")
    parser.add_argument("--processes", type=int, default=2, help="how many mutants at a time (2)")
    parser.add_argument("--only", metavar="FILE:LINE", help="only mutants of this line")
    parser.add_argument("--tests", nargs="+", metavar="NAME", help="modules of the Python package's tests, as notes, in place of "
                        "the usual ones; or further packages of the proxy, as audit, for what the joiner's own don't find")
    parser.add_argument("--rows", metavar="FILE", help="write a row for each mutant there; those already there aren't run again")
    parser.add_argument("--lines", metavar="FOLDER", help="keep there which lines the tests run, and use what is there")
    asked = parser.parse_args()
    if asked.kind != "python":  # as in proxy/env.sh
        words = subprocess.run(["sh", "-c", ". ./env.sh && env"], cwd=PROXY, capture_output=True, text=True, check=True)
        os.environ.update(line.split("=", 1) for line in words.stdout.splitlines() if re.match(r"(GO|CGO_)\w+=", line))
    fates, earlier, writing = collections.Counter(), written_rows(asked.rows), threading.Lock()
    mutants = drawn(asked.kind, asked.count, asked.seed, asked.only)
    with tempfile.TemporaryDirectory() as folder:
        os.chmod(folder, 0o711)
        if asked.kind != "python":
            asking = asked.kind == "conditions"
            limits = go_limits(folder, asked.tests or (), sorted({package_of(it) for it in mutants}), asking)
        else:
            ran = traced(asked.tests or TESTS, asked.lines or folder)

    def run(mutant):
        place = f"{os.path.relpath(mutant.path, TOP)}:{mutant.line}"
        its = earlier.get((place, mutant.about))
        if its is None:
            with tempfile.TemporaryDirectory() as folder:
                os.chmod(folder, 0o711)  # if this runs as root, servers run as another user
                if asked.kind != "python":
                    its = go_fate(folder, mutant, asked.tests or (), limits, asking)
                else:
                    its = python_fate(folder, mutant, ran)
            if asked.rows:
                with writing, open(asked.rows, "a", encoding="utf-8") as file:
                    file.write(json.dumps([place, mutant.about, *its]) + "\n")
        return place, its

    with concurrent.futures.ThreadPoolExecutor(asked.processes) as pool:
        for mutant, (place, (its, by)) in zip(mutants, pool.map(run, mutants)):
            fates[its] += 1
            if its in ("lives", "hangs"):
                print(f"{its}: {place}: {mutant.about}" + (f" ({by})" if by else ""), flush=True)
    print(", ".join(f"{count} {word}" for word, count in fates.most_common()))
    seen = fates["found"] + fates["hangs"]
    return 0 if 20 * seen >= 19 * (seen + fates["lives"]) else 1


if __name__ == "__main__":
    sys.exit(main())
