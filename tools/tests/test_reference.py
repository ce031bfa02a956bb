"""tools/reference in a repository whose texts are what no page may take for markup; and the folders that it takes."""
import os
import re
import shutil
import subprocess
import sys
import tempfile
import unittest
from pathlib import Path

TOP = Path(__file__).resolve().parent.parent.parent
WRONG = "<script>alert(1)</script><img src=x onerror=alert(1)>\"'&amp;"
LIB = f"""//! A crate {WRONG}.

pub mod keeping;
"""
KEEPING = f"""//! Keeping {WRONG}.
ghost use Rattle.low.specs.Facts.{{IsKept}};

/// A number `{WRONG}`.
pub struct Kept<T> {{
    number: T,
}}

impl Kept<u8> {{
    /// Keeps [`Kept`] {WRONG}.
    pub fn keep(&self) -> &Kept<u8>
        // theorem: It is kept {WRONG}.
        ensures kept {{ IsKept 1 < 2 -- {WRONG} }}
    {{
        self
    }}
}}
"""
FACTS = f"""-- Facts {WRONG}.

-- kept {WRONG}
abbrev pub IsKept : ℕ → Type 0
IsKept n = n ≡ n  -- {WRONG}

abbrev pub ◌<<◌ : ℕ → ℕ → ℕ
a << b = a
"""
KINDS = """use Rattle.low.specs.Facts.{IsKept, kept, other, kept as short}
use Rattle.low.specs.declared.keeping.{Way as Road}

data pub Event : Type 0 where
  Asked : Event

pub record Kind (E : Type 0) : Type 1 where
  pub kept : E → ℕ
  pub next : E

abbrev pub kept_kind : Kind ℕ
kept_kind = record { kept = kept;  -- kept
  next = other }

abbrev pub by_name : ℕ → Event → ℕ
by_name zero other = other
by_name (suc n) event = other n

abbrev pub asked : Event
asked = Event.Asked

abbrev pub way : Road
way = Road.Near

module _ {E : Type 0} (kind : Kind E) where
  -- one
  abbrev pub next_of : E → ℕ
  next_of e = kind.kept e

  module _ (least : ℕ)
      (most : ℕ) where
    abbrev pub IsNext : E → Type 0
    IsNext e = kind.next ≡ e
"""
WAYS = """
/// Ways; of one [`Way::Near`], `H::Kept`, `Way::far`.
pub enum Way {
    /// Near: [`Kept`].
    Near,
}

/// The next.
pub fn next_is<H: Any>(kept: u8) -> H::Kept
    ensures next { IsNext kept_kind 0 1 (kept 0) }
{
}

/// A pair.
pub struct First {
    it: u8,
}

impl Model for First {
    ghost use Rattle.low.specs.Kinds.{Event as Seen};
    ghost Value = { Seen };
}

pub struct Second {
    it: u8,
}

impl Model for Second {
    ghost use Rattle.low.specs.Kinds.{Kind as Seen};
    ghost Value = { Seen ℕ };
}
"""
EDIT = f"""file: src/keeping.rt
old:         self
new:         {WRONG}
"""


class Pages(unittest.TestCase):
    def setUp(self):
        room = tempfile.TemporaryDirectory()
        self.addCleanup(room.cleanup)
        self.top = Path(room.name)
        for name, text in (("crates.txt", "low:\n"), ("crates/low/src/lib.rt", LIB), ("crates/low/src/keeping.rt", KEEPING), ("crates/low/specs/Lib.antt", "pub mod Facts\n"),
                           ("crates/low/specs/Facts.antt", FACTS), ("crates/low/must-fail/keeps_all.edit", EDIT), ("docs/THEOREMS.md", "## All\n\n<!-- tools/index: theorems low -->\n")):
            (self.top / name).parent.mkdir(parents=True, exist_ok=True)
            (self.top / name).write_text(text, encoding="utf-8")
        (self.top / "tools").mkdir()
        for name in "reference", "reading.py", "edits.py", "once.py":
            shutil.copy(TOP / "tools" / name, self.top / "tools")
        shutil.copy(TOP / "docs/believed.py", self.top / "docs")
        shutil.copytree(TOP / "tools/pages", self.top / "tools/pages")
        self.folder = self.top / "made"

    def made(self, *words):
        return subprocess.run([sys.executable, self.top / "tools/reference", *words], stdout=subprocess.PIPE, stderr=subprocess.STDOUT, text=True)

    def test_a_text_is_no_markup(self):
        self.assertEqual(self.made(self.folder).returncode, 0)
        for path in self.folder.glob("*.html"):
            text = path.read_text(encoding="utf-8")
            self.assertEqual(re.findall(r"<(?:script|img)\b[^>]*>", text), ['<script src="search.js" defer>'], path.name)
            self.assertNotIn("alert(1)&lt;/script&gt;<", text.replace("&lt;img", ""))
        shown = (self.folder / "low.html").read_text(encoding="utf-8")
        self.assertGreater(shown.count("&lt;script&gt;alert(1)&lt;/script&gt;&lt;img src=x onerror=alert(1)&gt;&quot;&#x27;&amp;amp;"), 4)
        self.assertNotIn("<", (self.folder / "names.js").read_text(encoding="utf-8"))

    def test_a_name_leads_to_what_it_means(self):
        self.made(self.folder)
        shown = (self.folder / "low.html").read_text(encoding="utf-8")
        self.assertIn('<pre><a href="low.definitions.html#Facts.IsKept">IsKept</a> 1 &lt; 2 <i>-- ', shown)
        self.assertIn('&amp;<a href="low.html#struct.Kept.keeping">Kept</a>&lt;u8&gt;', shown)
        self.assertIn('<section class="item" id="struct.Kept.keeping">', shown)
        self.assertIn('<section class="definition" id="Facts.IsKept">', (self.folder / "low.definitions.html").read_text(encoding="utf-8"))

    def shown_kinds(self):
        """The pages of the code and of the definitions, with definitions in modules, and a type for them."""
        for name, text in (("specs/Facts.antt", FACTS + "\nabbrev pub kept : ℕ → ℕ\nkept n = n\n\nabbrev pub other : ℕ → ℕ\nother n = n\n"), ("specs/Kinds.antt", KINDS), ("specs/Lib.antt", "pub mod Facts\npub mod Kinds\n"),
                           ("src/keeping.rt", KEEPING.replace("{IsKept};", "{IsKept, kept};\nghost use Rattle.low.specs.Kinds.{IsNext, kept_kind};") + WAYS)):
            (self.top / "crates/low" / name).write_text(text, encoding="utf-8")
        made = self.made(self.folder)
        self.assertEqual(made.returncode, 0, made.stdout)
        return [(self.folder / name).read_text(encoding="utf-8") for name in ("low.html", "low.definitions.html")]

    def definition(self, name):
        return re.search(rf'<section class="definition" id="Kinds.{name}">.*?</section>', self.shown_kinds()[1], re.S)[0]

    def test_the_field_of_a_value_is_no_definition_of_its_name(self):
        self.assertIn('record { kept = <a href="low.definitions.html#Facts.kept">kept</a>;  <i>-- kept</i>\n  next = <a href="low.definitions.html#Facts.other">other</a> }', self.definition("kept_kind"))

    def test_what_a_pattern_binds_is_no_definition_in_that_equation(self):
        shown = self.definition("by_name")
        self.assertIn("by_name zero other = other\n", shown)
        self.assertIn('event = <a href="low.definitions.html#Facts.other">other</a> n', shown)

    def test_both_halves_of_a_variant_are_one_link(self):
        self.assertIn('<a href="low.definitions.html#Kinds.Event">Event.Asked</a>', self.definition("asked"))
        self.assertIn('<a href="low.html#enum.Way.keeping.Near">Road.Near</a>', self.definition("way"))

    def test_a_definition_in_a_module_shows_its_parameters_and_their_fields(self):
        kind = '<a href="low.definitions.html#Kinds.Kind">'
        shown = self.definition("next_of")
        self.assertIn(f"<p>Its first arguments are those of <code>module _ {{E : Type 0}} (kind : {kind}Kind</a> E) where</code></p>", shown)
        self.assertIn(f"next_of e = kind.{kind}kept</a> e", shown)
        shown = self.definition("IsNext")
        self.assertIn("E) where module _ (least : ℕ) (most : ℕ) where</code></p>", shown)
        self.assertIn(f"kind.{kind}next</a>", shown)

    def test_a_definition_in_a_module_has_the_functions_that_name_it(self):
        self.assertIn('<dt>Named in clauses of</dt><dd><a href="low.html#fn.keeping.next_is">', self.definition("IsNext"))

    def test_a_parameter_of_a_function_is_no_definition(self):
        self.assertIn('kept_kind</a> 0 1 (kept 0)</pre>', self.shown_kinds()[0])

    def test_a_path_leads_to_the_variant_or_the_type_before_it(self):
        shown = self.shown_kinds()[0]
        self.assertIn('of one <a href="low.html#enum.Way.keeping.Near"><code>Way::Near</code></a>, <code>H::Kept</code>, <a href="low.html#enum.Way.keeping"><code>Way::far</code></a>.', shown)
        self.assertIn("(kept: u8) -&gt; H::Kept", shown)

    def test_code_in_a_comment_has_no_marks(self):
        self.assertIn('/// Near: <a href="low.html#struct.Kept.keeping"><code>Kept</code></a>.\n', self.shown_kinds()[0])

    def test_the_short_name_of_a_value_is_shown_in_full(self):
        shown = self.shown_kinds()[0]
        for name, rest in ("Event", ""), ("Kind", " ℕ"):
            self.assertIn(f'<dt>In clauses it is</dt><dd><code><a href="low.definitions.html#Kinds.{name}">{name}</a>{rest}</code>', shown)

    def test_mutants_of_definitions_have_their_heading(self):
        heads = '<h2 id="Wrong-bodies">Wrong bodies</h2>', '<h2 id="Wrong-definitions-that-are-refused">Wrong definitions that are refused</h2>'
        (self.top / "mutants").mkdir()
        (self.top / "mutants/low.edits").write_text("edit: keeps_none\nfile: specs/Facts.antt\nold: IsKept n = n\nnew: IsKept n = 0\n", encoding="utf-8")
        (self.top / "mutants/refused.csv").write_text("edit,file,function,clause\nlow/keeps_none,low/src/keeping.rt,Kept::keep,kept\n", encoding="utf-8")
        shown = self.shown_kinds()[0]
        self.assertIn('<h4>Wrong definitions that are refused</h4><ul><li><a href="low.html#edit.keeps_none">', (self.folder / "theorems.html").read_text(encoding="utf-8"))
        bodies, definitions = shown.index(heads[0]), shown.index(heads[1])
        self.assertTrue(bodies < shown.index('id="edit.keeps_all"') < definitions < shown.index('id="edit.keeps_none"'))
        self.assertNotIn("tier", shown)

    def test_a_jump_to_a_variant_leaves_room_for_its_comment(self):
        self.made(self.folder)
        self.assertIn(".variant {\n  scroll-margin-top: ", (self.folder / "style.css").read_text(encoding="utf-8"))

    def test_the_notation_explains_what_a_module_shows(self):
        self.made(self.folder)
        shown = (self.folder / "notation.html").read_text(encoding="utf-8")
        for sign in "module _ (x : T) where", "{A : T}", "{0}", "Type 1", "(n, x)":
            self.assertIn(f"<code>{sign}</code></dt>", shown)

    def test_of_many_functions_that_cite_a_definition_ten_are_named(self):
        """One is in `keeping`."""
        (self.top / "crates/low/src/lib.rt").write_text(LIB + "pub mod citing;\n", encoding="utf-8")
        for count, more in (9, []), (11, [" and 2 more"]):
            functions = (f"\n/// One.\npub fn cites_{each}()\n    ensures kept {{ IsKept {each} }}\n{{}}\n" for each in range(count))
            (self.top / "crates/low/src/citing.rt").write_text(f"//! Citing.\nghost use Rattle.low.specs.Facts.{{IsKept}};\n{''.join(functions)}", encoding="utf-8")
            self.assertEqual(self.made(self.folder).returncode, 0)
            shown = (self.folder / "low.definitions.html").read_text(encoding="utf-8")
            self.assertEqual((re.findall(r" and \d+ more", shown), len(re.findall(r"(?:keep|cites_\d+)</code>", shown))), (more, 10))

    def test_a_folder_of_others_is_left_alone(self):
        self.folder.mkdir()
        (self.folder / "mine.txt").write_text("mine", encoding="utf-8")
        said = self.made(self.folder)
        self.assertEqual((said.returncode, said.stdout), (1, f"tools/reference: {self.folder} has other files than a reference, and is left as it is\n"))
        self.assertEqual(os.listdir(self.folder), ["mine.txt"])

    def test_what_it_made_it_makes_again(self):
        self.made(self.folder)
        (self.folder / "gone.html").write_text("", encoding="utf-8")
        self.assertEqual(self.made(self.folder).returncode, 0)
        self.assertFalse((self.folder / "gone.html").exists())

    def test_words_that_are_none(self):
        for words in (), ("--help",), ("a", "b"):
            self.assertEqual(self.made(*words).stdout, "usage: tools/reference FOLDER\n")
        file = self.top / "file"
        file.write_text("", encoding="utf-8")
        self.assertEqual(self.made(file / "below").stdout, f"tools/reference: {file / 'below'}: Not a directory\n")


if __name__ == "__main__":
    unittest.main()
