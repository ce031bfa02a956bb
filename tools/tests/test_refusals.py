"""tools/refusals in a repository of two crates: the clause that refused a mutant, from a log."""
import os
import shutil
import subprocess
import sys
import tempfile
import unittest
from pathlib import Path

TOP = Path(__file__).resolve().parent.parent.parent
LIB = """//! Halves.

pub struct Half;

impl Half {
    /// Half a number.
    pub fn of(n: u8) -> u8
        ensures half { result ≡ n / 2 }
        ensures least { result ≤
            n }
    {
        n / 2
    }

    /// Twice half a number.
    pub fn whole(n: u8) -> u8
        ensures { result ≡ n }
    {
        n
    }
}
"""
LAWS = """//! Laws.

pub fn halves_are_small()
    ensures { true }
{}
"""
PROOFS = {
    "Half/of/Answers": "use Rattle.low.proofs.Halving.{halving}\n",
    "Half/whole/Answers": "use Rattle.low.proofs.Doubling.{doubling}\n",
    "Halving": "use Rattle.low.proofs.Lasting.{lasts}\nuse Rattle.low.proofs.Shared.{shared}\n",
    "Doubling": "use Rattle.low.proofs.Shared.{shared}\n",
    "Lasting": "",
    "Shared": "",
}
EDIT = "file: src/lib.rt\nold:         n / 2\nnew:         n\n"
LOG = """12:00:01 rt: must-fail low/all.edit: refused, as it must be: src/lib.rt:8:24: error: not proved
must-fail low/longer.edit: refused, as it must be: src/lib.rt:10:3: error: not proved
low/in_body: refused: src/lib.rt:12:9: error: the clause `least` is not proved
low/unknown: refused: src/lib.rt:12:9: error: a sum wraps
low/above: refused: by laws::halves_are_small of laws
low/elsewhere: refused: specs/Halves.antt:1:1: error: not proved
low/proved: PROVED: the contracts let it through
low/none: refused: src/lib.rt:8:24: error: not proved
low/noted: refused: note: src/lib.rt:7:1: it is not proved that what the function ensures holds when it returns (`returns-clause-half`)
low/in_proof: refused: ./proofs/Half/of/Answers.antt:1:1: error: `returns-in-Ok-clause-least`: the two types differ
low/only: refused: ./proofs/Half/whole/Answers.antt:1:1: error: `returns`: the two types differ
low/by_lemma: refused: ./proofs/Lasting.antt:1:1: error: `lasts`: the goal does not follow
low/by_shared: refused: ./proofs/Shared.antt:1:1: error: `shared`: the goal does not follow
"""
KEPT = """edit,file,function,clause
low/above,laws/src/laws.rt,laws::halves_are_small,
low/all,low/src/lib.rt,Half::of,half
low/by_lemma,low/src/lib.rt,Half::of,
low/in_body,low/src/lib.rt,Half::of,least
low/in_proof,low/src/lib.rt,Half::of,least
low/longer,low/src/lib.rt,Half::of,least
low/noted,low/src/lib.rt,Half::of,half
low/only,low/src/lib.rt,Half::whole,
low/proved,low/src/lib.rt,Half::of,half
low/unknown,low/src/lib.rt,Half::of,
"""


class Refusals(unittest.TestCase):
    def setUp(self):
        room = tempfile.TemporaryDirectory()
        self.addCleanup(room.cleanup)
        self.top = Path(room.name)
        names = "above", "by_lemma", "by_shared", "elsewhere", "in_body", "in_proof", "noted", "only", "proved", "unknown"
        for name, text in (("crates.txt", "low:\nlaws: low\n"), ("crates/low/src/lib.rt", LIB), ("crates/laws/src/lib.rt", "//! Laws.\npub mod laws;\n"), ("crates/laws/src/laws.rt", LAWS),
                           ("crates/low/must-fail/all.edit", EDIT), ("crates/low/must-fail/longer.edit", EDIT), ("mutants/low.edits", "\n".join(f"edit: {name}\n{EDIT}" for name in names)),
                           ("mutants/refused.csv", "edit,file,function,clause\nlow/proved,low/src/lib.rt,Half::of,half\nlow/gone,low/src/lib.rt,Half::of,half\n"), ("log", LOG), *((f"crates/low/proofs/{name}.antt", text) for name, text in PROOFS.items())):
            (self.top / name).parent.mkdir(parents=True, exist_ok=True)
            (self.top / name).write_text(text, encoding="utf-8")
        (self.top / "tools").mkdir()
        for name in "refusals", "reading.py", "edits.py":
            shutil.copy(TOP / "tools" / name, self.top / "tools")

    def said(self, *words):
        return subprocess.run([sys.executable, self.top / "tools/refusals", *words], cwd=self.top, stdout=subprocess.PIPE, stderr=subprocess.STDOUT, text=True).stdout

    def test_a_log_says_which_clause_refused(self):
        self.assertEqual(self.said("log"), "refusals: of 12 wrong bodies 10 have the function that refused them, and 6 the clause\n")
        self.assertEqual((self.top / "mutants/refused.csv").read_text(encoding="utf-8"), KEPT)

    def test_a_log_that_is_not_there(self):
        self.assertEqual(self.said("none"), "tools/refusals: none: No such file or directory\n")
        self.assertEqual(self.said(), "usage: tools/refusals LOG..\n")


if __name__ == "__main__":
    unittest.main()
