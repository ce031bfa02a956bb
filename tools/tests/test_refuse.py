"""bench/refuse.py has a row for each function that makes a value and allocates, and its tests are there."""
import importlib.machinery
import importlib.util
import os
import sys
import unittest

TOP = os.path.dirname(os.path.dirname(os.path.dirname(os.path.abspath(__file__))))
sys.path[:0] = [os.path.join(TOP, "bench"), os.path.join(TOP, "tools")]
import reading  # noqa: E402
import refuse  # noqa: E402


def loaded(name):
    """A tool whose file has no suffix."""
    loader = importlib.machinery.SourceFileLoader(name, os.path.join(TOP, "tools", name))
    module = importlib.util.module_from_spec(importlib.util.spec_from_loader(name, loader))
    loader.exec_module(module)
    return module


has_memory = loaded("has_memory")


def is_constructor(function):
    """Whether it makes a value of its type with the allocator: `new`, `copy`, `with_room`."""
    made = has_memory.result_of(function)
    return function.owner is not None and "alloc: Global" in function.signature and ("Self" in made or function.owner.name in made)


class Refuse(unittest.TestCase):
    @classmethod
    def setUpClass(cls):
        cls.crates = list(reading.crates().values())
        cls.tests = has_memory.Tests(cls.crates)
        cls.rows = [f"{crate}: {test}" for _, crate, tests in refuse.CALLS for test in tests]

    def test_the_tests_of_each_row_are_there(self):
        self.assertEqual([it for it in self.rows if not self.tests.is_there(it)], [])

    def test_each_row_calls_what_it_names(self):
        for name, crate, tests in refuse.CALLS:
            called = {it.shown().removeprefix("laws::") for test in tests for it in self.tests.in_reach(f"{crate}: {test}")}
            self.assertIn(name, called)

    def test_each_constructor_is_refused_memory(self):
        types = has_memory.failures(self.crates)
        made = [it for crate in self.crates if not crate.name.startswith("ncp_test_") for it in crate.public if has_memory.may_fail(it, types) and is_constructor(it)]
        reached = set().union(*(self.tests.in_reach(it) for it in self.rows))
        self.assertGreater(len(made), 20)
        self.assertEqual([f"{it.crate.name} {it.shown()}" for it in made if it not in reached], [])


if __name__ == "__main__":
    unittest.main()
