"""tools/rounds.py in a repository of one crate: which edits one check tries, what it checks, and which of them are refused."""
import os
import shutil
import subprocess
import sys
import tempfile
import unittest

TOOLS = os.path.dirname(os.path.dirname(os.path.abspath(__file__)))
SOURCE = """//! Halves.

pub const LEAST: u8 = 1;

pub struct Half;

/// The same number.
pub fn same(x: u8) -> u8
    ensures { result ≡ x }
{
    let same = x;
    same
}

impl Half {
    /// Half a number.
    pub fn of(
        x: u8,
    ) -> u8 {
        x / 2
    }
}

impl Default for Half {
    fn default() -> Half
        ensures half { result ≡ Half {} }
    {
        Half
    }
}
"""
EDITS = """edit: changes_both
file: src/lib.rt
old:     let same = x;
new:     let same = LEAST;
old:         x / 2
new:         x / 4

edit: default_is_new
file: src/lib.rt
old:         Half
new:         Half::new()

edit: halves
file: src/lib.rt
old:     let same = x;
new:     let same = x / 2;

edit: least_is_two
file: src/lib.rt
old: pub const LEAST: u8 = 1;
new: pub const LEAST: u8 = 2;

edit: not_the_same
file: src/lib.rt
old:     ensures { result ≡ x }
new:     ensures { result ≡ 1 }

edit: of_is_whole
file: src/lib.rt
old:         x / 2
new:         x

edit: one_more
file: src/lib.rt
old:     same
new:     same + 1
"""
# The lines of a check: of `same` and of `of`, which stands with its type, one is its own, of `default` the first shows nothing.
CHECK = """./proofs/Shared.antt:1:1: error: `shared`: the goal does not follow
./proofs/half/Half+S/of/Answers.antt:2:1: error: `returns`: the two types differ
./proofs/HalfDefault/default/Answers.antt:1:1: error: `half` is not in scope
note: src/lib.rt:11:5: it is not proved that it holds
src/lib.rt:26:9: error: it is not proved
fn sample::same: not proved
fn sample::half::Half+S::of: no proof
fn sample::half::HalfOther::of: proved
fn sample::HalfDefault::default: not proved
logic=not-proved"""
ASKED = """import rounds
import edits
from reading import TOP
its, alone = rounds.in_rounds(edits.of_crate(TOP, "sample"))
print([[each.edit.name for each in it] for it in its], [it.name for it in alone])
print(rounds.texts_of(its[0])["src/lib.rt"])
print(rounds.refused(its[0], CHECK.splitlines()))
print(rounds.refused(its[0], CHECK.replace("same: not", "same:").splitlines()))
"""


class Rounds(unittest.TestCase):
    def setUp(self):
        top = tempfile.mkdtemp(prefix="ncp-rounds-test-")
        self.addCleanup(shutil.rmtree, top)
        for name, text in (("crates.txt", "sample:\n"), ("crates/sample/src/lib.rt", SOURCE), ("mutants/sample.edits", EDITS)):
            os.makedirs(os.path.dirname(f"{top}/{name}"), exist_ok=True)
            with open(f"{top}/{name}", "w", encoding="utf-8") as file:
                file.write(text)
        os.mkdir(f"{top}/tools")
        for name in "edits.py", "reading.py", "rounds.py":
            shutil.copy(f"{TOOLS}/{name}", f"{top}/tools")
        asked = f"CHECK = {CHECK!r}\n{ASKED}"
        self.lines = subprocess.run([sys.executable, "-B", "-c", asked], cwd=f"{top}/tools", stdout=subprocess.PIPE, stderr=subprocess.STDOUT, text=True).stdout.splitlines()

    def test_a_round_has_one_edit_of_a_function(self):
        rounds, alone = [["default_is_new", "halves", "of_is_whole"]], ["changes_both", "least_is_two", "not_the_same", "one_more"]
        self.assertEqual(self.lines[0], f"{rounds} {alone}")

    def test_the_edits_of_a_round_are_all_made(self):
        now = SOURCE.replace("        Half\n", "        Half::new()\n").replace("let same = x;", "let same = x / 2;").replace("x / 2\n", "x\n")
        self.assertEqual("\n".join(self.lines[1:-2]), now)

    def test_a_function_that_is_not_proved_refuses_its_edit_with_a_line_of_its_own(self):
        default, same = "src/lib.rt:26:9: error: it is not proved", "note: src/lib.rt:11:5: it is not proved that it holds"
        half = "./proofs/half/Half+S/of/Answers.antt:2:1: error: `returns`: the two types differ"
        self.assertEqual(self.lines[-2:], [str({"default_is_new": default, "halves": same, "of_is_whole": half}), str({"default_is_new": default, "of_is_whole": half})])


if __name__ == "__main__":
    unittest.main()
