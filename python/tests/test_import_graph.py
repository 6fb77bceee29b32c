"""import_graph.py: packages import each other without a cycle, and a cycle is found."""

import contextlib
import io
import os
import re
import sys
import tempfile
import unittest

sys.path.append(os.path.join(os.path.dirname(os.path.abspath(__file__)), ".."))
import import_graph  # noqa: E402

HERE = os.path.dirname(os.path.abspath(__file__))


class ImportGraph(unittest.TestCase):
    def draw(self, *words):
        out, err = io.StringIO(), io.StringIO()
        with contextlib.redirect_stdout(out), contextlib.redirect_stderr(err):
            status = import_graph.main(words)
        return status, out.getvalue().splitlines(), err.getvalue().splitlines()

    def of(self, files, *words):
        """The output for a package of these files."""
        with tempfile.TemporaryDirectory() as folder:
            for path, text in files.items():
                path = os.path.join(folder, "whole", path)
                os.makedirs(os.path.dirname(path), exist_ok=True)
                with open(path, "w", encoding="utf-8") as file:
                    file.write(text)
            return self.draw(*words, os.path.join(folder, "whole"))

    def test_the_packages_form_no_cycle(self):
        status, lines, problems = self.draw()
        self.assertEqual((status, problems), (0, []))
        self.assertTrue(lines[0].startswith("core ("))
        self.assertTrue(lines[0].endswith(" imports nothing"))

    def test_the_readme_lists_packages_below_those_that_they_import(self):
        with open(os.path.join(HERE, "../README.md"), encoding="utf-8") as file:
            named = re.findall(r"^- `zanteyard/([\w/]+)`", file.read(), re.MULTILINE)
        listed = [name.replace("/", ".") for name in named]
        graph = import_graph.graph_of(os.path.join(HERE, "../zanteyard"))
        self.assertEqual({*listed, import_graph.TOP}, {*graph.modules})
        for package, imported in graph.below().items():
            if package != import_graph.TOP:
                with self.subTest(package=package):
                    self.assertLessEqual({*imported}, {*listed[: listed.index(package)]})

    def test_what_users_import(self):
        """All errors, and the parts that the README names."""
        import zanteyard
        from zanteyard.core import errors

        with open(os.path.join(HERE, "../README.md"), encoding="utf-8") as file:
            parts = re.search(r"Its parts are public too: (.*?);", file.read(), re.DOTALL)[1]
        named = re.findall(r"`(\w+)`", parts)
        self.assertIn("find_anomaly", named)
        kinds = [name for name, its in vars(errors).items() if isinstance(its, type) and issubclass(its, Exception)]
        for name in (*named, *kinds):
            self.assertIn(name, zanteyard.__all__)
        for name in zanteyard.__all__:
            self.assertTrue(hasattr(zanteyard, name), name)

    def test_what_each_module_is_for(self):
        files = {
            "__init__.py": '"""All of it."""\n',
            "lower/__init__.py": "",
            "lower/_one.py": '"""Counts: one\nby one. And more."""\n',
            "upper.py": "from .lower import _one\n",
        }
        wanted = ["lower", "  _one.py: Counts: one by one", "(top)", "  __init__.py: All of it", "  upper.py: "]
        self.assertEqual(self.of(files, "--modules"), (0, wanted, []))

    def test_what_is_drawn(self):
        files = {
            "__init__.py": "from .upper import call\n",
            "lower/__init__.py": "",
            "lower/_one.py": "import os\nfrom . import _two\n",
            "lower/_two.py": "",
            "upper/__init__.py": "from ._call import call\n",
            "upper/_call.py": "def call():\n    from ..lower._one import os\nimport whole.lower._two\n",
        }
        self.assertEqual(
            self.of(files),
            (
                0,
                [
                    "lower (2 modules) imports nothing",
                    "upper (1 modules) imports lower",
                    "(top) (0 modules) imports upper",
                ],
                [],
            ),
        )
        status, lines, _ = self.of(files, "--dot")
        self.assertEqual((status, lines[0], lines[-1]), (0, "digraph packages {", "}"))
        self.assertIn('  "upper" -> "lower" [label="2"];', lines)

    def test_a_cycle_fails_and_is_named(self):
        files = {
            "one/__init__.py": "",
            "one/_a.py": "from ..two import _b\n",
            "two/__init__.py": "",
            "two/_b.py": "\ndef late():\n    from ..one._a import x\n",
        }
        status, lines, problems = self.of(files)
        self.assertEqual((status, lines), (1, []))
        self.assertIn("cycle", problems[0])
        self.assertEqual(
            sorted(problems[1:]),
            ["  one/_a.py:1 imports two", "  two/_b.py:3 imports one"],
        )

    def test_a_package_that_imports_the_top_is_on_a_cycle(self):
        files = {"__init__.py": "from .one._a import x\n", "one/_a.py": "from .. import x\n"}
        status, _, problems = self.of(files)
        self.assertEqual(status, 1)
        self.assertIn("  one/_a.py:1 imports (top)", problems)


if __name__ == "__main__":
    unittest.main()
