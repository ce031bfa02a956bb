"""tools/once.py with a crate that only notes what the compiler is asked: the code of a static library is made of what a gate proved;
which libraries get their sums."""
import os
import sys
import tempfile
import types
import unittest
from pathlib import Path
from unittest import mock

sys.path.insert(0, str(Path(__file__).resolve().parents[1]))
with mock.patch.object(sys, "dont_write_bytecode", True):
    import once

BUILD = ("rattle", "build", "src/lib.rt", "--logic-built", "logic", "--jobs", "2", "--crate-type", "staticlib", "-o", "out/libone.a")
OF_WHAT_IS_PROVED = ("rattle", "build", "src/lib.rt", "--crate-type", "staticlib", "-o", "out/libone.a", "--crate-checked", "out/proved")


class StaticLibrary(unittest.TestCase):
    def setUp(self):
        room = tempfile.TemporaryDirectory()
        self.addCleanup(room.cleanup)
        self.crate = types.SimpleNamespace(folder=room.name, is_static=True)
        self.asked = []

    def called(self, *words, refuses="nothing"):
        """What the compiler is asked, if it refuses some calls, and the status."""
        self.asked = []

        def call(_, *given):
            self.asked.append(given)
            return int(refuses in given)

        return once.of_what_is_proved(call)(self.crate, *words), self.asked

    def proved(self, *commands):
        once.with_what_it_proved(lambda _, *given: self.asked.extend(given))(self.crate, *commands)
        return self.asked

    def test_a_gate_leaves_what_it_proved_of_a_static_library(self):
        self.assertEqual(self.proved(["check", "src/lib.rt"]), [["check", "src/lib.rt", "-o", "out/proved"]])

    def test_of_other_crates_and_of_tests_it_leaves_nothing_more(self):
        for is_static, command in (False, ["check", "src/lib.rt"]), (True, ["build", "--test", "-o", "out/tests.o"]), (True, ["check", "-o", "elsewhere"]):
            self.crate.is_static, self.asked = is_static, []
            self.assertEqual(self.proved(command), [command])

    def test_code_is_made_of_it(self):
        os.makedirs(f"{self.crate.folder}/out/proved")
        self.assertEqual(self.called(*BUILD), (0, [OF_WHAT_IS_PROVED]))

    def test_what_is_of_other_sources_is_proved(self):
        os.makedirs(f"{self.crate.folder}/out/proved")
        self.assertEqual(self.called(*BUILD, refuses="--crate-checked"), (0, [OF_WHAT_IS_PROVED, BUILD]))
        self.assertEqual(self.called(*BUILD, refuses="build")[0], 1)

    def test_what_no_gate_proved_is_proved(self):
        self.assertEqual(self.called(*BUILD), (0, [BUILD]))
        os.makedirs(f"{self.crate.folder}/out/proved")
        of_another_target = (*BUILD, "--target", "aarch64-unknown-linux-gnu")
        self.assertEqual(self.called(*of_another_target), (0, [of_another_target]))
        self.crate.is_static = False
        self.assertEqual(self.called(*BUILD), (0, [BUILD]))


class Sums(unittest.TestCase):
    """Three crates: `top` stands on `middle` and `low`, and `middle` on `low`."""
    BELOW = {"top": ("middle", "low"), "middle": ("low",), "low": ()}

    def setUp(self):
        self.read, self.bytes = [], "1"
        self.sum = once.each_once(self.stamp)

    def stamp(self, crate):
        self.read.append(crate.folder)
        return self.bytes + "".join(f"({self.sum(types.SimpleNamespace(folder=it))})" for it in self.BELOW[crate.folder])

    def test_each_crate_is_summed_up_once(self):
        self.assertEqual(self.sum(types.SimpleNamespace(folder="top")), "1(1(1))(1)")
        self.assertEqual(self.read, ["top", "middle", "low"])

    def test_the_next_sum_reads_all_again(self):
        low = types.SimpleNamespace(folder="low")
        self.assertEqual(self.sum(low), "1")
        self.bytes = "2"
        self.assertEqual((self.sum(low), self.read), ("2", ["low", "low"]))


class Kept(unittest.TestCase):
    """A library that a gate takes from its cache."""

    def setUp(self):
        room = tempfile.TemporaryDirectory()
        self.addCleanup(room.cleanup)
        self.sum, self.is_library, self.touched = "1", True, None
        self.crate = types.SimpleNamespace(folder=room.name, stamp=lambda: self.sum, makes_rlib=lambda: self.is_library, below=lambda: ["low"])
        os.makedirs(f"{room.name}/out/rlib")

    def given(self, found, tests=False):
        """The result, and the sum that stands next to the library."""
        kept = types.SimpleNamespace(is_untouched=lambda crate: crate != self.touched)
        is_given = once.with_its_sum_if_kept(lambda *_: found)(kept, self.crate, tests, "key")
        path = Path(self.crate.folder, "out/rlib/stamp")
        return is_given, path.read_text() if path.is_file() else None

    def test_it_gets_its_sum(self):
        self.assertEqual(self.given(True), (True, "1"))

    def test_what_is_not_there_gets_none(self):
        self.assertEqual(self.given(False), (False, None))

    def test_tests_and_programs_get_none(self):
        self.assertEqual(self.given(True, tests=True), (True, None))
        self.is_library = False
        self.assertEqual(self.given(True), (True, None))

    def test_over_a_library_that_changed_meanwhile_it_gets_none(self):
        self.touched = "low"
        self.assertEqual(self.given(True), (True, None))


if __name__ == "__main__":
    unittest.main()
