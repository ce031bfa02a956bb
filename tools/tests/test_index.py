"""tools/index and docs/believed.py in a repository of two crates: the rows of crates and of claims, what has to be believed, and that
a page that is not as it would be written is found."""
import os
import shutil
import subprocess
import sys
import tempfile
import unittest

TOP = os.path.dirname(os.path.dirname(os.path.dirname(os.path.abspath(__file__))))
LIB = """//! Numbers that are kept. More is said here.
#![tactic(auto)]

mod keeping;
mod hidden;

pub use keeping::Kept;
"""
# Its clause `kept` is on line 22, and `all` on line 31; it has 35 lines, the other two files 7 and 2.
KEEPING = """//! `Kept`.
ghost use Rattle.low.specs.Facts.{IsKept, AllKept};

/// A number.
pub struct Kept {
    number: u8,
}

impl Kept {
    /// Keeps a number, as [`crate::Kept`] does. It takes no memory.
    #[inline]
    pub fn keep(
        &mut self,
        number: u8,
    ) -> Result<(), Full>
        requires fits { number < 9 }
        ensures { true }

        // What it keeps.
        // theorem: A number below 9 is kept | and
        // no other.
        ensures kept { IsKept number
            self.new }
    {
        self.number = number;
        Ok(())
    }

    // theorem: All numbers that are even are kept.
    fn drop(&mut self)
        ensures all { AllKept self.new }
    {
        self.number = 0;
    }
}
"""
HIDDEN = """/// Nobody sees it.
pub fn unseen() {}
"""
FACTS = """-- What it is to be kept.
use Rattle.std.specs.Prelude.{◌≡◌, ℕ, Bool, true}

-- twice a number
abbrev pub twice : ℕ → ℕ
twice n = n + n

abbrev pub is_even : ℕ → Bool
is_even n = halves n

unfoldable pub halves : ℕ → Bool
halves 0 = true
halves (suc (suc n)) = halves n

-- the number is there
abbrev pub IsKept : ℕ → ℕ → Type 0
IsKept n now = twice n ≡ twice now

-- of all numbers that are even
abbrev pub AllKept : ℕ → Type 0
AllKept now = (n : ℕ) → is_even n ≡ true → IsKept n now

abbrev pub Unused : Type 0
Unused = ⊥
"""
TESTS = """//! Tests.
use low::Kept;

#[test]
fn a_number_is_kept() {
    Kept::new().keep(3);
}
"""
EDIT = """file: src/keeping.rt
old:         self.number = number;
new:         self.number = 1;
"""
PRIVATE = """file: src/keeping.rt
old:         self.number = 0;
new:         self.number = 1;
"""
REFUSED = """edit,file,function,clause
low/drops_to_one,low/src/keeping.rt,Kept::drop,all
"""
MAP = """# The map

<!-- tools/index: crates -->
<!-- tools/index: end -->
By hand.
"""
THEOREMS = """# Theorems

<!-- tools/index: theorems low -->
<!-- tools/index: end -->
"""
CRATE = "| [`low`](../crates/low/src/lib.rt) | Numbers that are kept. |  | 1 | `Facts` | 1, 1 | 44 |"
# IsKept and twice are two lines each, with their types; AllKept is stated with is_even, which depends on halves.
CLAIM = "| A number below 9 is kept \\| and no other. | [`Kept::keep`](../crates/low/src/keeping.rt#L22), `kept` of `low` | `number < 9` | turn it: `keeps_one` | 2, 4 | 0, 0 |"


class Indexing(unittest.TestCase):
    def setUp(self):
        self.room = tempfile.TemporaryDirectory()
        self.addCleanup(self.room.cleanup)
        for name, text in (("crates.txt", "low:\nncp_test_low: low\n"), ("crates/low/src/lib.rt", LIB), ("crates/low/src/keeping.rt", KEEPING), ("crates/low/specs/Lib.antt", "pub mod Facts\n"),
                           ("crates/low/specs/Facts.antt", FACTS), ("crates/low/src/hidden.rt", HIDDEN), ("crates/ncp_test_low/src/lib.rt", TESTS),
                           ("crates/low/must-fail/keeps_one.edit", EDIT), ("mutants/low.edits", f"edit: drops_to_one\n{PRIVATE}"), ("docs/MAP.md", MAP), ("docs/THEOREMS.md", THEOREMS)):
            self.write(name, text)
        for name in "tools/index", "tools/reading.py", "tools/edits.py", "tools/once.py", "docs/believed.py":
            os.makedirs(os.path.dirname(f"{self.room.name}/{name}"), exist_ok=True)
            shutil.copy(f"{TOP}/{name}", f"{self.room.name}/{name}")

    def write(self, name, text):
        path = f"{self.room.name}/{name}"
        os.makedirs(os.path.dirname(path), exist_ok=True)
        with open(path, "w", encoding="utf-8") as file:
            file.write(text)

    def said(self, *words):
        ran = subprocess.run([sys.executable, f"{self.room.name}/{words[0]}", *words[1:]], stdout=subprocess.PIPE, stderr=subprocess.STDOUT, text=True)
        return ran.returncode, ran.stdout

    def page(self, name):
        with open(f"{self.room.name}/docs/{name}", encoding="utf-8") as file:
            return file.read()

    def test_a_crate_has_its_row(self):
        self.assertEqual(self.said("tools/index")[0], 0)
        self.assertIn(CRATE, self.page("MAP.md").splitlines())
        self.assertTrue(self.page("MAP.md").endswith("By hand.\n"))

    def test_a_claim_has_its_row(self):
        self.assertEqual(self.said("tools/index")[0], 0)
        self.assertIn(CLAIM, self.page("THEOREMS.md").splitlines())

    def test_a_comment_that_is_right_above_no_clause_is_no_claim(self):
        self.said("tools/index")
        self.assertNotIn("that are even", self.page("THEOREMS.md"))

    def test_a_premise_in_a_definition_counts_apart_from_the_conclusion(self):
        self.write("crates/low/src/keeping.rt", KEEPING.replace("        ensures all", "        // theorem: All are kept.\n        ensures all"))
        self.write("mutants/refused.csv", REFUSED)
        self.assertEqual(self.said("tools/index")[0], 0)
        # The conclusion is IsKept with twice, and AllKept itself; the premise is_even with halves.
        self.assertIn("| All are kept. | [`Kept::drop`](../crates/low/src/keeping.rt#L32), `all` of `low` | `is_even n ≡ true` | `low/drops_to_one` | 3, 6 | 2, 5 |",
                      self.page("THEOREMS.md").splitlines())

    def test_what_rests_on_a_definition(self):
        status, text = self.said("docs/believed.py", "low/specs/Facts.antt", "AllKept")
        self.assertEqual((status, text.splitlines()), (0, [
            "low/specs/Facts.antt,twice,2", "low/specs/Facts.antt,is_even,2", "low/specs/Facts.antt,halves,3", "low/specs/Facts.antt,IsKept,2", "low/specs/Facts.antt,AllKept,2",
            "the conclusion: 3 definitions, 6 lines, 1 files", "besides, the premises: 2 definitions, 5 lines, 1 files", "5 definitions, 11 lines, 1 files"]))
        self.assertIn("usage", self.said("docs/believed.py", "low/specs/Facts.antt", "None")[1])

    def test_what_the_clauses_of_a_function_rest_on(self):
        status, text = self.said("docs/believed.py", "low/src/keeping.rt", "keep")
        self.assertEqual((status, text.splitlines()), (0, [
            "low/specs/Facts.antt,twice,2", "low/specs/Facts.antt,IsKept,2",
            "the conclusion: 0 definitions, 0 lines, 0 files", "besides, the premises: 0 definitions, 0 lines, 0 files",
            "kept: the conclusion: 2 definitions, 4 lines, 1 files", "kept: besides, the premises: 0 definitions, 0 lines, 0 files", "2 definitions, 4 lines, 1 files"]))
        self.assertIn("all: besides, the premises: 2 definitions, 5 lines, 1 files\n", self.said("docs/believed.py", "low/src/keeping.rt", "drop")[1])
        self.assertIn("usage", self.said("docs/believed.py", "low/src/keeping.rt", "unseen")[1])

    def test_what_was_written_is_as_it_would_be_written(self):
        self.said("tools/index")
        self.assertEqual(self.said("tools/index", "--check"), (0, "index: 2 parts of the docs are as they would be written\n"))

    def test_a_page_that_is_not_as_it_would_be_written_is_found(self):
        self.said("tools/index")
        self.write("crates/low/src/keeping.rt", KEEPING.replace("is kept |", "is held |"))
        self.assertEqual(self.said("tools/index", "--check"), (1, "index: docs/THEOREMS.md is not as tools/index writes it: run tools/index and commit it\n"))

    def test_a_claim_that_no_page_lists_is_found(self):
        self.write("docs/THEOREMS.md", THEOREMS.replace("theorems low", "theorems ncp_test_low"))
        self.said("tools/index")
        self.assertEqual(self.said("tools/index", "--check"), (1, "index: low has a claim that no page lists\nindex: ncp_test_low is listed, and has no claim\n"))


if __name__ == "__main__":
    unittest.main()
