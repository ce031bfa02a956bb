"""examples/cases: what it finds in files of cases, and that the gate plays all of them."""
import contextlib
import importlib.machinery
import importlib.util
import io
import os
import re
import tempfile
import unittest
from unittest import mock

TOP = os.path.dirname(os.path.dirname(os.path.dirname(os.path.abspath(__file__))))
GATE = f"{TOP}/crates/ncp_test_cases"

# A program that prints its input, and its first word as a fault with an explanation; its second word is its status.
PROGRAM = """#!/bin/sh
cat
[ "$1" = none ] || printf '%s\\n' "ncp: $1" '  why' >&2
exit "$2"
"""

CASE = """# A remark.
case first: Fault 2
# Another.
> one
>
>x 74 776F 0A # two
one
<x 0A
two
! ncp: Fault
= 2
"""

NO_CASE = "this belongs to no case"
# Files that cannot be read, with the line that they are refused for.
FAULTY = {
    "text\n": 1, "#text\n": 1, "case a: none 0\n\n> text\n": 3,
    "case a:\n": 1, "case a: \n": 1, "case a:  none\n": 1, "case a b: none\n": 1, "case : none\n": 1,
    "case a: none 0\n\n# b\ncase a: none 0\n": 4,
    "case a: none 0\n>x 4\n": 2, "case a: none 0\n>x 4 E\n": 2, "case a: none 0\n<x +1\n": 2,
    "case a: none 0\n>= a\n": 2, "case a: none 0\n= 256\n": 2, "case a: none 0\n= +1\n": 2, "case a: none 0\n=\n": 2,
    "case a: none 1\n= 1\n= 1\n": 3,
    "case a: none 0\r\n": 1, "case a: none 0\n> \t\n": 2, "case a: none 0\n> \xe9\n": 2,
}


def tool():
    loader = importlib.machinery.SourceFileLoader("cases", f"{TOP}/examples/cases")
    found = importlib.util.module_from_spec(importlib.util.spec_from_loader("cases", loader))
    loader.exec_module(found)
    return found


class Cases(unittest.TestCase):
    def setUp(self):
        room = tempfile.TemporaryDirectory()
        self.addCleanup(room.cleanup)
        self.program, self.file = f"{room.name}/program", f"{room.name}/x.cases"
        with open(self.program, "w", encoding="ascii") as file:
            file.write(PROGRAM)
        os.chmod(self.program, 0o755)

    def said(self, path):
        """The status and all lines, of a file."""
        lines = io.StringIO()
        with mock.patch("sys.argv", ["cases", self.program, path]), contextlib.redirect_stdout(lines), contextlib.redirect_stderr(lines):
            return tool().main(), lines.getvalue()

    def played(self, text):
        """The same of a file with this text."""
        with open(self.file, "w", encoding="latin-1", newline="\n") as file:
            file.write(text)
        return self.said(self.file)

    def differs(self, old, new):
        """The message for the case with another line."""
        self.assertIn(old, CASE)
        status, said = self.played(CASE.replace(old, new))
        self.assertEqual((status, said.splitlines()[:2]), (1, ["DIFFERS 1 cases of x.cases", "  case first"]))
        return said

    def test_a_case_that_is_the_same(self):
        self.assertEqual(self.played(CASE), (0, "same 1 cases of x.cases\n"))

    def test_another_output(self):
        said = self.differs("\ntwo\n", "\nthree\n")
        self.assertIn("\n    -three\n    +two\n", said)
        self.assertNotIn("standard error", said)
        self.differs("\ntwo\n", "\n")
        self.differs("\ntwo\n", "\ntwo\n<x 0A\n")

    def test_another_fault(self):
        said = self.differs("! ncp: Fault\n", "! ncp: Other\n")
        self.assertIn("\n    -ncp: Other\n    +ncp: Fault\n", said)
        self.differs("! ncp: Fault\n", "")

    def test_an_explanation_that_is_wanted(self):
        explained = CASE.replace("! ncp: Fault\n", "! ncp: Fault\n!   why\n")
        self.assertEqual(self.played(explained)[0], 0)
        self.differs("! ncp: Fault\n", "! ncp: Fault\n!   how\n")

    def test_another_status(self):
        self.assertIn("\n    status 2, wanted 1\n", self.differs("= 2", "= 1"))
        self.assertIn("\n    status 2, wanted 0\n", self.differs("= 2\n", ""))

    def test_the_input_of_an_earlier_case(self):
        again = CASE + "\ncase again: none 0\n>= first\n> three\none\n<x 0A\ntwo\nthree\n"
        self.assertEqual(self.played(again), (0, "same 2 cases of x.cases\n"))
        self.assertEqual(self.played(again.replace("> three", "> four"))[0], 1)

    def test_a_case_that_differs_after_one_that_does_not(self):
        status, said = self.played(CASE + "\n" + CASE.replace("first", "second").replace("= 2", "= 3"))
        self.assertEqual((status, said), (1, "DIFFERS 2 cases of x.cases\n  case second\n    status 2, wanted 3\n"))

    def test_faulty_files(self):
        for text, number in FAULTY.items():
            with self.subTest(text):
                line = text.split("\n")[number - 1]
                self.assertEqual(self.played(text), (2, f"{self.file}: line {number}: {NO_CASE}: {line!r}\n"))
        for text in CASE[:-1], "# a":
            self.assertEqual(self.played(text), (2, f"{self.file}: the last line does not end\n"))

    def test_a_file_that_is_not_there(self):
        self.assertEqual(self.said(f"{self.file}.none")[0], 2)


class TheGate(unittest.TestCase):
    """The gate's command and its expected output."""

    def test_all_files_are_played(self):
        files = sorted(os.listdir(f"{GATE}/data"))
        with open(f"{GATE}/args", encoding="ascii") as file:
            self.assertEqual(file.read().split("\n"), [*files, ""])

    def test_all_cases_are_counted(self):
        counts = []
        for name in sorted(os.listdir(f"{GATE}/data")):
            with open(f"{GATE}/data/{name}", encoding="ascii") as file:
                counts.append(f"{len(re.findall(r'^case ', file.read(), re.M))} cases of {name}")
        with open(f"{GATE}/stdout", encoding="ascii") as file:
            self.assertEqual(file.read().splitlines(), counts)


if __name__ == "__main__":
    unittest.main()
