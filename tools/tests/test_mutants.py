"""tools/mutants in a small repository: a wrong form is named, an edit that is proved is found, and what was passed is tried again
once it changed. The edits of this repository have the form."""
import os
import shutil
import subprocess
import sys
import tempfile
import unittest

TOOLS = os.path.dirname(os.path.dirname(os.path.abspath(__file__)))
sys.path.insert(0, TOOLS)
import build
import edits
import once

SOURCE = """//! A crate of two functions, one of which promises nothing.
#![tactic(auto)]

ghost use Rattle.std.specs.Prelude.{◌≡◌};

pub fn same(x: u8) -> u8
    ensures { result ≡ x }
{
    let same = x;
    same
}

pub fn any(x: u8) -> u8 {
    x / 2
}
"""
REFUSED = """edit: halves
file: src/lib.rt
old:     let same = x;
new:     let same = x / 2;
"""
PROVED = """edit: quarters
file: src/lib.rt
old:     x / 2
new:     x / 4
"""
NOTHING_CHANGED = "mutants: nothing has changed on which what was passed rests"
# A law about a definition of that crate.
LAW = """//! Laws of a crate above.
#![tactic(auto)]

pub mod laws;
"""
ABOUT_MOST = """//! A law about most.
ghost use Rattle.std.specs.Prelude.{◌≡◌};
ghost use Rattle.sample.specs.Most.{most};

/// It is eight.
pub fn most_is_eight()
    ensures { most ≡ 8 }
{}
"""
# The inputs of an edit are tested in three crates, one above the other.
LOWEST = """pub mod Steps
"""
STEPS = """-- Steps.
use Rattle.std.specs.Prelude.{ℕ}

abbrev pub step : ℕ → ℕ
step n = suc n

abbrev pub stride : ℕ → ℕ
stride n = n + 2
"""
AMOUNTS = """-- Amounts.
use Rattle.std.specs.Prelude.{ℕ}
use Rattle.lowest.specs.Steps.{step, stride}
use Rattle.low.specs.declared.number.Number.{Number}

infixl 70 ◌⊕◌
abbrev pub ◌⊕◌ : ℕ → ℕ → ℕ
a ⊕ b = a + b

abbrev pub next : ℕ → ℕ
next n = step n

abbrev pub twice : ℕ → ℕ
twice n = n ⊕ n

abbrev pub of_number : Number → ℕ
of_number number = number.value

module _ (most : ℕ) where
  abbrev pub under : ℕ → ℕ
  under n = most - n
"""
NUMBER = """//! Numbers, and what is done with them.
ghost use Rattle.low.specs.Amounts.{twice};

/// A number that a host has.
pub struct Number {
    pub value: u8,
    room: u8,
}

pub const MOST: u8 = 8;

/// Half of it.
pub fn half(number: u8) -> u8
    ensures { result + result ≡ number }
{
    number / 2
}

pub fn double(number: u8) -> u8
    requires { number < 8 }
    ensures { result ≡ twice number }
{
    number + number
}

/// A function with the name of a field.
pub fn value(number: u8) -> u8
    ensures { result ≡ number + 0 }
{
    number
}

impl Number {
    pub fn bumped(number: u8) -> u8
        ensures { result ≡ number + 1 }
    {
        number + 1
    }
}
"""
HELD = """//! What is held.
pub trait Held {
    ghost held: { Self → ℕ };

    fn hold(&self) -> u8
        ensures { result ≡ held self.now };
}
"""
SHAPES = """use Rattle.std.specs.Prelude.{ℕ}

abbrev pub four : ℕ
four = 4
"""
USING = """//! Functions, each with an edit.
ghost use Rattle.low.specs.Amounts.{next, of_number as value_of};
ghost use Rattle.low.specs.Amounts as amounts;
ghost use Rattle.sample.specs.Own.{also};

use low::held::Held;
use low::number::{Number, double, half as part};

const LEAST: u8 = 1;

pub fn after(x: u8) -> u8
    requires { x < 9 }
    ensures { result ≡ next x }
{
    x + 1
}

pub fn shown(number: &Number) -> u8
    ensures { result ≡ value_of number.now }
{
    number.value
}

pub fn halved(x: u8) -> u8
    ensures { result ≡ result }
{
    part(x)
}

pub fn mapped(x: Option<u8>) -> Option<u8>
    ensures { result ≡ result }
{
    x.map(Number::bumped)
}

pub fn doubled(x: Option<u8>) -> Option<u8>
    ensures { result ≡ result }
{
    x.map(double)
}

pub fn kept<H: Held>(it: &H) -> u8
    ensures { result ≡ result }
{
    it.hold()
}

pub fn below(x: u8) -> u8
    ensures { result ≡ amounts.under 9 x }
{
    low::number::MOST - x
}

pub fn law()
    ensures { also ≡ 8 }
{}
"""
OWN = """use Rattle.low.specs.Amounts.{twice}
use Rattle.low.proofs.Shapes.{four}

abbrev pub own : ℕ
own = twice 2

abbrev pub also : ℕ
also = own + four
"""
EACH = """edit: after_stays
file: src/lib.rt
old:     x + 1
new:     x

edit: below_is_zero
file: src/lib.rt
old:     low::number::MOST - x
new:     x - x

edit: doubled_is_none
file: src/lib.rt
old:     x.map(double)
new:     None

edit: halved_is_whole
file: src/lib.rt
old:     part(x)
new:     x

edit: kept_is_zero
file: src/lib.rt
old:     it.hold()
new:     0

edit: least_is_two
file: src/lib.rt
old: const LEAST: u8 = 1;
new: const LEAST: u8 = 2;

edit: mapped_is_none
file: src/lib.rt
old:     x.map(Number::bumped)
new:     None

edit: own_is_thrice
file: specs/Own.antt
old: own = twice 2
new: own = 6

edit: value_doubles
file: src/lib.rt
old:     number.value
new:     low::number::double(number.value)

edit: value_is_zero
file: src/lib.rt
old:     number.value
new:     0
"""
# The edit that counts as one of all functions of the crate, and those that name what number.rt declares.
OF_ALL = {"least_is_two"}
OF_NUMBERS = {"below_is_zero", "mapped_is_none", "value_doubles", "value_is_zero", *OF_ALL}


class Repository(unittest.TestCase):
    """A repository with the tools that are tried."""

    def setUp(self):
        self.top = tempfile.mkdtemp(prefix="ncp-mutants-test-")
        self.addCleanup(shutil.rmtree, self.top)
        os.mkdir(f"{self.top}/tools")
        os.mkdir(f"{self.top}/docs")
        for name in ("mutants", "edits.py", "rounds.py", "resting.py", "reading.py", "build.py", "once.py"):
            shutil.copy(f"{TOOLS}/{name}", f"{self.top}/tools")
        shutil.copy(f"{TOOLS}/../docs/believed.py", f"{self.top}/docs")

    def write(self, name, text):
        os.makedirs(os.path.dirname(f"{self.top}/{name}"), exist_ok=True)
        with open(f"{self.top}/{name}", "w", encoding="utf-8") as file:
            file.write(text)

    def sample(self, *names):
        """Writes crates of one file, each on nothing."""
        self.write("crates.txt", "".join(f"{name}:\n" for name in names))
        self.write("HANDLES", "Handles allowed: none.\n")
        for name in names:
            self.write(f"crates/{name}/src/lib.rt", SOURCE)

    def mutants(self, *words):
        ran = subprocess.run([f"{self.top}/tools/mutants", *words], stdout=subprocess.PIPE, stderr=subprocess.STDOUT, text=True)
        return ran.returncode, ran.stdout.splitlines()

    def passed(self, crate):
        with open(f"{self.top}/mutants/{crate}.passed", encoding="utf-8") as file:
            return [line.split()[0] for line in file]


class TestForms(Repository):
    def named(self, text, name="sample"):
        """The messages about a file of edits."""
        self.sample("sample")
        self.write(f"mutants/{name}.edits", text)
        status, lines = self.mutants("--changed", "--at-most", "0")
        self.assertEqual(status, 1 if lines[-1].startswith(f"mutants: mutants/{name}") else 0, lines)
        return [line.removeprefix(f"mutants: mutants/{name}.edits: ") for line in lines if f"mutants/{name}.edits: " in line]

    def test_two_good_ones(self):
        self.assertEqual(self.named(f"{REFUSED}\n{PROVED}"), [])

    def test_a_name_that_stands_twice(self):
        self.assertEqual(self.named(f"{REFUSED}\n{REFUSED}"), ["halves: another has this name"] * 2)

    def test_a_name_that_the_gate_has_too(self):
        self.write("crates/sample/must-fail/halves.edit", REFUSED)
        self.assertEqual(self.named(REFUSED), ["halves: another has this name"])

    def test_a_name_that_is_no_name_of_a_file(self):
        self.assertEqual(self.named(REFUSED.replace("halves", "it halves")), ["it halves: a name is of letters, digits, _, - and ."])

    def test_a_name_out_of_order(self):
        self.assertEqual(self.named(f"{PROVED}\n{REFUSED}"), ["halves: its place is in front of quarters"])

    def test_without_an_old_text(self):
        self.assertEqual(self.named(REFUSED.replace("old:     let same = x;\n", "")), ["halves: a new text without an old one"])

    def test_without_a_new_text(self):
        self.assertEqual(self.named(REFUSED.replace("new:     let same = x / 2;\n", "")), ["halves: an old text without a new one"])
        self.assertEqual(self.named(REFUSED.replace("new:", "old:")), ["halves: an old text without a new one"] * 2)

    def test_without_a_file(self):
        self.assertEqual(self.named(REFUSED.replace("file: src/lib.rt\n", "")), ["halves: a new text without a file"])

    def test_without_anything(self):
        self.assertEqual(self.named("edit: nothing\n"), ["nothing: it has no old text and no new one"])

    def test_a_line_that_is_none(self):
        self.assertEqual(self.named(f"{REFUSED}note: it halves\n"), ["halves: no line of an edit: note: it halves"])
        self.assertEqual(self.named(f"file: src/lib.rt\n{REFUSED}"), ["a line in front of the first edit: file: src/lib.rt"])
        self.assertEqual(self.named(f"{REFUSED}above: sample\n"), ["halves: a line 'above:' is not its first"])

    def test_an_old_text_that_does_not_stand_once(self):
        self.assertEqual(self.named(REFUSED.replace("let same = x;\nnew", "let none = x;\nnew")), ["halves: an old text is in src/lib.rt 0 times, and not once: let none = x;"])
        self.assertEqual(self.named(REFUSED.replace("old:     let same = x;", "old: -> u8")), ["halves: an old text is in src/lib.rt 2 times, and not once: -> u8"])

    def test_a_second_change_finds_what_the_first_made(self):
        more = "old: let same = {};\nnew: let same = x / 3;\n"
        self.assertEqual(self.named(REFUSED + more.format("x / 2")), [])
        self.assertEqual(self.named(REFUSED + more.format("x")), ["halves: an old text is in src/lib.rt 0 times, and not once: let same = x;"])

    def test_a_file_that_is_none_of_the_crate(self):
        self.assertEqual(self.named(REFUSED.replace("src/lib.rt", "src/no.rt")), ["halves: there is no src/no.rt"])
        self.assertEqual(self.named(REFUSED.replace("src/lib.rt", "src/../lib.rt")), ["halves: src/../lib.rt is no file below src/, specs/, proofs/"])

    def test_a_crate_that_does_not_exist(self):
        self.assertEqual(self.named(REFUSED, "another"), ["there is no such crate"])
        self.assertEqual(self.named(REFUSED.replace("file:", "above: other\nfile:")), ["halves: there is no crate other"])

    def test_a_file_that_has_no_edits(self):
        self.sample("sample")
        self.write("mutants/sample.edit", REFUSED)
        self.write("mutants/sample.passed", "halves 0\n")
        self.write("mutants/planted.csv", "crate,sum\nsample,0\n")
        self.assertEqual(self.mutants("sample"), (1, [f"mutants: mutants/sample.{it}: no file of edits, and of none what was passed" for it in ("edit", "passed")]))


class TestChanged(Repository):
    CRATES = tuple(f"sample{number}" for number in range(5))

    def setUp(self):
        super().setUp()
        self.sample(*self.CRATES)
        for name in self.CRATES:
            self.write(f"mutants/{name}.edits", REFUSED)
            self.write(f"mutants/{name}.passed", "halves 0\n")

    def test_of_more_crates_than_are_asked_for_none_is_tried(self):
        self.assertEqual(self.mutants("--changed", "--at-most", "4"), (0, [
            f"mutants: not passed as they are: {', '.join(f'{name} 1' for name in self.CRATES)}",
            "mutants: 5 edits of 5 crates, which are more than 4, and none is tried: run `tools/mutants --changed`, and commit mutants/"]))

    def test_of_what_was_tried_only_what_was_refused_is_noted(self):
        self.write("mutants/sample0.edits", f"{REFUSED}\n{REFUSED.replace('halves', 'has')}\n{PROVED}")
        self.write("mutants/sample0.passed", "halves 0\nhas 0\nno_more 0\nquarters 0\n")
        mutants = once.loaded(f"{self.top}/tools/mutants")

        mutants.note("sample0", ["sample0/halves", "sample0/quarters"], {"sample0/halves": "1"})

        self.assertEqual(edits.text_of(f"{self.top}/mutants/sample0.passed"), "halves 1\nhas 0\n")

    def test_words_that_are_no_crates(self):
        for words in ["another"], ["--changed", "sample0"], ["--at-most", "4"], ["--changed", "--at-most"], ["--all"]:
            status, lines = self.mutants(*words)
            self.assertEqual((status, lines[0]), (2, "usage: tools/mutants [CRATE..] | --changed [--at-most N]"))


class TestResting(Repository):
    """The inputs of each edit, by what changes its sum."""

    def setUp(self):
        super().setUp()
        self.write("crates.txt", "lowest:\nlow: lowest\nsample: low\nlaws: sample\n")
        for name, text in {"lowest/src/lib.rt": "//! Steps.\n", "lowest/specs/Lib.antt": LOWEST, "lowest/specs/Steps.antt": STEPS, "low/src/lib.rt": "pub mod held;\npub mod number;\n",
                           "low/src/held.rt": HELD, "low/src/number.rt": NUMBER, "low/proofs/Shapes.antt": SHAPES,
                           "low/specs/Amounts.antt": AMOUNTS, "sample/src/lib.rt": USING, "sample/specs/Own.antt": OWN, "laws/src/lib.rt": LAW}.items():
            self.write(f"crates/{name}", text)
        self.write("mutants/sample.edits", EACH)

    def sums(self):
        self.assertEqual(edits.wrong(self.top, ("lowest", "low", "sample", "laws")), [])
        resting = once.loaded(f"{self.top}/tools/resting.py")
        return {it.name: resting.sum_of(it) for it in edits.of_crate(self.top, "sample")}

    def changed_by(self, name, old, new):
        """The edits whose sum another text of a file changes."""
        path, before = f"{self.top}/crates/{name}", self.sums()
        was = edits.text_of(path)
        self.assertEqual(was.count(old), 1)
        self.write(f"crates/{name}", was.replace(old, new))
        after = self.sums()
        self.write(f"crates/{name}", was)
        return {it for it in before if before[it] != after[it]}

    def test_a_definition_counts_that_the_clauses_reach(self):
        self.assertEqual(self.changed_by("low/specs/Amounts.antt", "next n = step n", "next n = stride n"), {"after_stays", *OF_ALL})
        self.assertEqual(self.changed_by("lowest/specs/Steps.antt", "step n = suc n", "step n = n"), {"after_stays", *OF_ALL})
        self.assertEqual(self.changed_by("lowest/specs/Steps.antt", "n + 2", "n + 3"), set())

    def test_a_definition_counts_that_another_name_or_a_module_leads_to(self):
        self.assertEqual(self.changed_by("low/specs/Amounts.antt", "= number.value", "= number.value + 0"), {"value_doubles", "value_is_zero", *OF_ALL})
        self.assertEqual(self.changed_by("low/specs/Amounts.antt", "under n = most - n", "under n = n"), {"below_is_zero", *OF_ALL})

    def test_of_a_turned_definition_what_its_laws_reach_counts(self):
        self.assertEqual(self.changed_by("low/specs/Amounts.antt", "twice n = n ⊕ n", "twice n = n"), {"doubled_is_none", "own_is_thrice", "value_doubles", *OF_ALL})
        self.assertEqual(self.changed_by("low/specs/Amounts.antt", "a ⊕ b = a + b", "a ⊕ b = b + a"), {"doubled_is_none", "own_is_thrice", "value_doubles", *OF_ALL})

    def test_a_definition_counts_that_stands_among_proofs(self):
        self.assertEqual(self.changed_by("low/proofs/Shapes.antt", "four = 4", "four = 5"), {"own_is_thrice", *OF_ALL})

    def test_comments_do_not_count(self):
        self.assertEqual(self.changed_by("low/specs/Amounts.antt", "next n = step n", "next n = step n  -- by one"), set())
        self.assertEqual(self.changed_by("low/specs/Amounts.antt", "next n = step n", "-- by one\nnext n = step n"), set())

    def test_a_string_is_no_comment(self):
        resting = once.loaded(f"{self.top}/tools/resting.py")
        for line, begins, code in (("  pub a : X  -- a field", "--", "  pub a : X"), ('x = codes "a -- b" ++ y', "--", 'x = codes "a -- b" ++ y'),
                                   ('x = codes "a -- b"  -- c "d"', "--", 'x = codes "a -- b"'), ('let x = "http://a"; // b', "//", 'let x = "http://a";'),
                                   ("'\"' => 1, // a quote", "//", "'\"' => 1,"), ("a - b", "--", "a - b"), ("  -- a", "--", "")):
            self.assertEqual(resting.without_comment(line, begins), code)

    def test_a_trait_counts_that_is_named(self):
        self.assertEqual(self.changed_by("low/src/held.rt", "held self.now", "held self.now + 0"), {"kept_is_zero", *OF_ALL})
        self.assertEqual(self.changed_by("low/src/held.rt", "Self → ℕ", "Self → Bool"), {"kept_is_zero", *OF_ALL})

    def test_the_contract_of_a_function_counts_that_is_called(self):
        self.assertEqual(self.changed_by("low/src/number.rt", "result + result ≡ number", "result ≡ result"), {"halved_is_whole", *OF_ALL})
        self.assertEqual(self.changed_by("low/src/number.rt", "result ≡ number + 1", "result ≡ 1 + number"), {"mapped_is_none", *OF_ALL})
        self.assertEqual(self.changed_by("low/src/number.rt", "result ≡ number + 0", "result ≡ number"), set())
        self.assertEqual(self.changed_by("low/src/number.rt", "    number / 2", "    number >> 1"), set())
        self.assertEqual(self.changed_by("low/src/number.rt", "number < 8", "number < 9"), {"doubled_is_none", "value_doubles", *OF_ALL})

    def test_data_count_that_are_named(self):
        self.assertEqual(self.changed_by("low/src/number.rt", "MOST: u8 = 8", "MOST: u8 = 9"), OF_NUMBERS)
        self.assertEqual(self.changed_by("low/src/number.rt", "    room: u8", "    room: u16"), OF_NUMBERS)

    def test_of_data_with_a_view_hidden_fields_do_not_count(self):
        self.write("crates/low/src/number.rt", NUMBER + "\nimpl Model for Number {\n    ghost Value = { ℕ };\n    ghost view = { λ it. it.value };\n}\n")
        self.assertEqual(self.changed_by("low/src/number.rt", "    room: u8", "    room: u16"), set())
        self.assertEqual(self.changed_by("low/src/number.rt", "it.value", "it.room"), set())
        self.assertEqual(self.changed_by("low/src/number.rt", "pub value: u8", "pub value: u16"), OF_NUMBERS)
        self.assertEqual(self.changed_by("low/src/number.rt", "{ ℕ }", "{ Bool }"), OF_NUMBERS)

    def test_of_its_own_crate_all_counts_but_comments(self):
        each = set(self.sums())
        self.assertEqual(self.changed_by("sample/src/lib.rt", "result ≡ next x", "next x ≡ result"), each)
        self.assertEqual(self.changed_by("sample/specs/Own.antt", "abbrev pub own", "pub own"), each)
        self.assertEqual(self.changed_by("sample/src/lib.rt", "//! Functions, each with an edit.", "//! Functions.\n"), set())
        self.assertEqual(self.changed_by("low/specs/Amounts.antt", "-- Amounts.", "-- Sums."), set())

    def test_the_edit_itself_counts(self):
        was = self.sums()
        self.write("mutants/sample.edits", EACH.replace("new:     x - x", "new:     x / x"))
        self.assertEqual({name for name, it in self.sums().items() if it != was[name]}, {"below_is_zero"})

    def test_an_edit_that_a_crate_above_refuses_rests_on_that_too(self):
        self.assertEqual(self.changed_by("laws/src/lib.rt", "pub mod laws;", "pub mod rules;"), set())
        self.write("mutants/sample.edits", EACH.replace("edit: own_is_thrice\n", "edit: own_is_thrice\nabove: laws\n"))
        self.assertEqual(self.changed_by("laws/src/lib.rt", "pub mod laws;", "pub mod rules;"), {"own_is_thrice"})


@unittest.skipUnless(shutil.which("rt"), "the toolchain is not on the path")
class TestTrying(Repository):
    def setUp(self):
        super().setUp()
        self.sample("sample")

    def test_what_is_proved_is_found(self):
        self.write("mutants/sample.edits", f"{REFUSED}\n{PROVED}")

        status, lines = self.mutants()

        self.assertEqual((status, lines[-1]), (1, "1 refused, 1 proved"), lines)
        self.assertTrue(lines[-3].startswith("sample/halves: refused: "))
        self.assertTrue(lines[-2].startswith("sample/quarters: PROVED"))
        self.assertEqual(self.passed("sample"), ["halves"])

        status, lines = self.mutants("--changed", "--at-most", "1")
        self.assertEqual((status, lines[0], lines[-1]), (1, "mutants: not passed as they are: sample 1", "0 refused, 1 proved"))

        self.write("mutants/sample.edits", REFUSED)
        self.assertEqual(self.mutants("--changed"), (0, [NOTHING_CHANGED]))

        self.write("crates/sample/src/lib.rt", f"// What a comment says is nothing that an edit rests on.\n\n{SOURCE}")
        self.assertEqual(self.mutants("--changed"), (0, [NOTHING_CHANGED]))

        self.write("crates/sample/src/lib.rt", SOURCE.replace("result ≡ x", "result ≡ result"))
        status, lines = self.mutants("--changed")
        self.assertEqual((status, lines[0], lines[-1]), (1, "mutants: not passed as they are: sample 1", "0 refused, 1 proved"))

    def test_a_law_of_another_crate_refuses(self):
        self.write("crates.txt", "sample:\nlaws: sample\n")
        self.write("crates/sample/specs/Lib.antt", "pub mod Most\n")
        self.write("crates/sample/specs/Most.antt", "use Rattle.std.specs.Prelude.{ℕ}\n\nabbrev pub most : ℕ\nmost = 8\n")
        self.write("crates/laws/src/lib.rt", LAW)
        self.write("crates/laws/src/laws.rt", ABOUT_MOST)
        turned = "edit: {}\nabove: laws\nfile: specs/Most.antt\nold: most = 8\nnew: most = {}\n"
        self.write("mutants/sample.edits", turned.format("eight", "0x8") + turned.format("nine", 9))

        status, lines = self.mutants("sample")

        self.assertEqual((status, lines[-1]), (1, "1 refused, 1 proved"), lines)
        self.assertIn("sample/nine: refused: by laws::most_is_eight of laws", lines)
        self.assertIn("sample/eight: PROVED: all laws of laws let it through", lines)
        self.assertEqual(self.passed("sample"), ["nine"])

    def test_what_cannot_be_tried_fails(self):
        self.write("mutants/sample.edits", REFUSED.replace("x / 2;", "x / ;"))

        status, lines = self.mutants("sample")

        self.assertEqual((status, lines[-1]), (1, "0 refused, 0 proved"))
        self.assertTrue(lines[1].startswith("sample/halves: NOT TRIED: "), lines)


class Form(unittest.TestCase):
    def test_each_edit_of_this_repository_can_be_made(self):
        top = os.path.dirname(TOOLS)
        self.assertEqual(edits.wrong(top, build.uses_of_crates()), [])


if __name__ == "__main__":
    unittest.main()
