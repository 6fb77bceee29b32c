"""What users call says what it is for: each name that the package exports, each public name of its public modules, and
their public methods."""
import importlib
import inspect
import pkgutil
import unittest

import zanteyard
from zanteyard import stores
from zanteyard.session import _stores

MODULES = ("zanteyard.comments", "zanteyard.core.errors")
# What each store has in common with the others is described there.
COMMON = {name for its in vars(_stores).values() if inspect.isclass(its) for name in vars(its)}


def undocumented(name, value):
    """The names of this class or function, and of its methods, that have no docstring."""
    if inspect.isclass(value):
        if "__doc__" not in vars(value) or not value.__doc__:
            yield name
        for base in value.__mro__:
            if base.__module__.startswith("zanteyard"):
                for called, method in vars(base).items():
                    function = method.fget if isinstance(method, property) else getattr(method, "__func__", method)
                    if not called.startswith("_") and inspect.isfunction(function) and not inspect.getdoc(
                        getattr(value, called)
                    ):
                        yield f"{name}.{called}"
    elif inspect.isfunction(value) and not value.__doc__:
        yield name


class Docstrings(unittest.TestCase):
    def test_of_what_the_package_exports(self):
        for name in zanteyard.__all__:
            self.assertEqual([*undocumented(name, getattr(zanteyard, name))], [])

    def test_of_public_modules(self):
        found = [it.name for it in pkgutil.iter_modules(stores.__path__, "zanteyard.stores.")]
        public = [it for it in found if not it.rpartition(".")[2].startswith("_")]
        self.assertIn("zanteyard.stores.sqlite", public)
        for module in (*MODULES, *public):
            try:
                its = importlib.import_module(module)
            except ImportError:  # its driver isn't installed
                continue
            self.assertTrue(its.__doc__, module)
            missing = [
                one
                for name, value in vars(its).items()
                if not name.startswith("_") and getattr(value, "__module__", "") == module
                for one in undocumented(name, value)
                if one.partition(".")[2] not in COMMON
            ]
            self.assertEqual(missing, [], module)


if __name__ == "__main__":
    unittest.main()
