#!/usr/bin/env python3
"""Shows which packages of `zanteyard` import which, and fails if they form a cycle.

    ./import_graph.py [--dot | --modules] [FOLDER]

It prints a line for each package, lower ones first; `watch.pages` is a package in `watch`. `--dot`
prints Graphviz text instead, with the number of imports on each arc, and `--modules` the first
sentence of each module's docstring. All import statements count, including those in functions. The
status is 1 if packages form a cycle; then its imports are printed.
"""

import argparse
import ast
import os
import sys
from collections import defaultdict
from collections.abc import Iterator, Sequence
from graphlib import CycleError, TopologicalSorter
from typing import NamedTuple

HERE = os.path.dirname(os.path.abspath(__file__))
TOP = "(top)"  # the modules outside of packages


class Import(NamedTuple):
    """An import statement in a module of `package`, of something from another package."""

    package: str
    imported: str
    place: str  # file and line


class Graph(NamedTuple):
    modules: dict[str, int]  # how many each package has
    imports: list[Import]

    def below(self) -> dict[str, list[str]]:
        """What each package imports, sorted."""
        found: dict[str, list[str]] = {package: [] for package in self.modules}
        for each in sorted({(it.package, it.imported) for it in self.imports}):
            found[each[0]].append(each[1])
        return found

    def in_order(self) -> list[str]:
        """All packages, each after those that it imports. Raises CycleError."""
        sorter = TopologicalSorter(self.below())
        sorter.prepare()
        ordered: list[str] = []
        while sorter.is_active():
            ready = sorted(sorter.get_ready())
            ordered.extend(ready)
            sorter.done(*ready)
        return ordered


def graph_of(folder: str) -> Graph:
    """The graph of the package in this folder."""
    name = os.path.basename(os.path.abspath(folder))
    modules: dict[str, int] = defaultdict(int)
    imports: list[Import] = []
    paths = [os.path.join(at, it) for at, _, names in os.walk(folder) for it in names]
    for path in sorted(it for it in paths if it.endswith(".py")):
        parts = os.path.relpath(path, folder)[: -len(".py")].split(os.sep)
        package = package_of(parts)
        modules[package] += parts[-1] != "__init__"
        with open(path, encoding="utf-8") as file:
            tree = ast.parse(file.read(), path)
        for line, imported in imported_by(tree, [name, *parts[:-1]], folder):
            if imported != package:
                place = f"{os.path.relpath(path, folder)}:{line}"
                imports.append(Import(package, imported, place))
    return Graph(dict(modules), imports)


def package_of(parts: Sequence[str]) -> str:
    """The package of a module, from its path within the whole package."""
    return ".".join(parts[:-1]) or TOP


def imported_by(tree: ast.AST, home: Sequence[str], folder: str) -> Iterator[tuple[int, str]]:
    """The line and the package of each import from the same whole package, whose name is the first
    component of the module's own."""
    for node in ast.walk(tree):
        if isinstance(node, ast.Import):
            for name in node.names:
                yield from in_package(node.lineno, name.name.split("."), home[0], folder)
        elif isinstance(node, ast.ImportFrom):
            begin = list(home[: len(home) - node.level + 1]) if node.level else []
            module = [*begin, *(node.module.split(".") if node.module else [])]
            for name in node.names:
                yield from in_package(node.lineno, [*module, name.name], home[0], folder)


def in_package(
    line: int, module: Sequence[str], whole: str, folder: str
) -> Iterator[tuple[int, str]]:
    if module[0] == whole:
        home = [*module[1:]]
        while home and not os.path.isdir(os.path.join(folder, *home)):
            home.pop()
        yield line, ".".join(home) or TOP


def told_cycle(graph: Graph, cycle: Sequence[str]) -> Iterator[str]:
    """The packages of a cycle, each before one that imports it, and where that is."""
    yield f"packages form a cycle: {' <- '.join(cycle)}"
    for imported, package in zip(cycle, cycle[1:]):
        for each in graph.imports:
            if (each.package, each.imported) == (package, imported):
                yield f"  {each.place} imports {imported}"


def as_lines(graph: Graph) -> Iterator[str]:
    below = graph.below()
    for package in graph.in_order():
        stands_on = ", ".join(below[package]) or "nothing"
        yield f"{package} ({graph.modules[package]} modules) imports {stands_on}"


def as_dot(graph: Graph) -> Iterator[str]:
    counts: dict[tuple[str, str], int] = defaultdict(int)
    for each in graph.imports:
        counts[each.package, each.imported] += 1
    yield "digraph packages {"
    for package, modules in sorted(graph.modules.items()):
        yield f'  "{package}" [label="{package}\\n{modules} modules"];'
    for (package, imported), count in sorted(counts.items()):
        yield f'  "{package}" -> "{imported}" [label="{count}"];'
    yield "}"


def as_modules(graph: Graph, folder: str) -> Iterator[str]:
    """Each package with its modules, and the first sentence of each module's docstring."""
    for package in graph.in_order():
        home = folder if package == TOP else os.path.join(folder, *package.split("."))
        yield package
        for name in sorted(os.listdir(home)):
            if name.endswith(".py") and (name != "__init__.py" or package == TOP):
                with open(os.path.join(home, name), encoding="utf-8") as file:
                    about = ast.get_docstring(ast.parse(file.read(), name)) or ""
                sentence = " ".join(about.split("\n\n")[0].split()).split(". ")[0]
                yield f"  {name}: {sentence.rstrip('.')}"


def main(words: Sequence[str] | None = None) -> int:
    asked = argparse.ArgumentParser(description="Draws which packages import which.")
    how = asked.add_mutually_exclusive_group()
    how.add_argument("--dot", action="store_true", help="print Graphviz text")
    how.add_argument("--modules", action="store_true", help="print what each module is for")
    asked.add_argument("folder", nargs="?", default=os.path.join(HERE, "zanteyard"))
    arguments = asked.parse_args(words)
    graph = graph_of(arguments.folder)
    try:
        graph.in_order()
    except CycleError as error:
        print("\n".join(told_cycle(graph, error.args[1])), file=sys.stderr)
        return 1
    if arguments.modules:
        print("\n".join(as_modules(graph, arguments.folder)))
    else:
        print("\n".join((as_dot if arguments.dot else as_lines)(graph)))
    return 0


if __name__ == "__main__":
    sys.exit(main())
