"""tools/figures in a repository of four crates: what it counts, and what it leaves out."""
import os
import shutil
import subprocess
import tempfile
import unittest

TOP = os.path.dirname(os.path.dirname(os.path.dirname(os.path.abspath(__file__))))
LONG = "a" * 120
LOW = f"""//! Lines. fn spoken(page: u8, sink: u8) is none.
fn say<W: Sink<Item = (u8, u8)>, F: Fn(u8) -> u8>(page: &mut Page, words: (u8, u8), sink: &mut W) {{}}
// fn unsaid(page: u8, sink: u8) {{}}
fn paged(page: &mut Page, one: fn(u8, u8) -> u8, two: &[u8; 2], three: u8, four: u8) {{}}
impl Low {{
    fn many(
        &mut self,
        one: Result<u8, u8>,
        two: u8,
        three: u8,
        four: u8,
        five: u8,
    ) -> Result<u8, u8>
        ensures long {{ {LONG} }}
        ensures short {{ true }}
    {{
        // ensures {LONG}
        self.call_back(1)
    }}
}}
"""
EXPORT = """//! More.
pub extern "C" fn called(one: u8, two: u8, three: u8, four: u8, five: u8, six: u8) {}
"""
SHARED_LOW = """pub struct Lane<T> {
    pub struct Within;
}
pub(crate) struct Hidden;
pub enum Only {}
pub use other::Alias;
impl Only {
    pub fn new() {}
}
pub fn shared() {}
pub const fn alone() {}
"""
SHARED_HIGH = """pub trait Lane {}
pub struct Hidden;
pub struct Alias;
impl Hidden {
    pub fn new() {}
}
pub extern "C" fn shared() {}
pub struct Lane;
"""
PAGE = """use Rattle.low.specs.Things.{told, At}

pub at : ℕ → ℕ
at n = told n

pub record Headline : Type 0 where
  pub first : at 1 ≡ 1
"""
TWINS = """pub fn first_way(ways: &[Way], from: u8, to: u8) -> Option<usize>
    ensures found { IfSome result (λ at. IsWay at from to) }
    ensures none { result ≡ None → NoWay from to }
{
    // Each way in turn; fn said(one: u8) { is none.
    for (at, way) in ways.iter().enumerate() {
        if way.from == from && way.to == to + 1 {
            return Some(at);
        }
    }
    None
}
trait Later {
    fn comes(&self, ways: &[Way], from: u8, to: u8, more: [u8; 2]) -> Option<usize>;
}
enum Colour {
    Red { one: u8, two: u8 },
    Green { one: u8, two: u8 },
    Blue { one: u8, two: u8, three: u8, four: u8 },
}
"""
TWINS_ABOVE = """// The same as first_way in other words.
fn place_in(slots: &[Slot], host: u8, link: u8) -> Option<usize> {
    for (place, slot) in slots.iter().enumerate() {
        if slot.host == host && slot.link == link + 2 {
            return Some(place);
        }
    }
    None
}
// Not the same: names are exchanged, and another type.
fn crossed(ways: &[Way], from: u8, to: u8) -> Option<usize> {
    for (at, way) in ways.iter().enumerate() {
        if way.from == to && way.to == from + 1 {
            return Some(at);
        }
    }
    None
}
fn wide(ways: &[Way], from: u16, to: u8) -> Option<usize> {
    for (at, way) in ways.iter().enumerate() {
        if way.from == from && way.to == to + 1 {
            return Some(at);
        }
    }
    None
}
enum Shade {
    Dark { here: u8, there: u8 },
    Grey { here: u8, there: u8 },
    Pale { here: u8, there: u8, up: u8, down: u8 },
}
"""
TESTS = """#[test]
fn a_test(page: u8, sink: u8) {
    low.call_back(1);
}
"""
PROOF = """use Rattle.low.specs.Things as things
pub use Rattle.low.specs.Things.{told as said, at}
use Rattle.ncp_proof_low.proofs.law.Goals as goal
use Rattle.low.specs.Things.{told}
"""
BOUNDS = """figure,bound
streams,1
parameters,2
exports,1
clauses,1
meanings,1
types,1
functions,1
twins,2
cited,0
names,1
names-in-proofs,2
tower,3
act,2
"""
FILES = {
    "crates/low/src/lib.rt": LOW,
    "crates/low/src/shared.rt": SHARED_LOW,
    "crates/high/src/shared.rt": SHARED_HIGH,
    "crates/ncp_statement/specs/Statement.antt": PAGE,
    "crates/low/specs/Things.antt": "pub told : ℕ → ℕ\ntold n = n\n\npub record At : Type where\n  at : ℕ\n",
    "crates/high/src/lib.rt": EXPORT,
    "crates/high/specs/Others.antt": "abbrev told : ℕ → ℕ\ntold n = n\n\nalone (n : ℕ) : ℕ\nalone n = n\n",
    "crates/ncp_proof_low/src/laws.rt": "ghost use Rattle.low.specs.Things as things;\n",
    "crates/ncp_proof_low/proofs/Law.antt": PROOF,
    "crates/low/src/ways.rt": TWINS,
    "crates/high/src/slots.rt": TWINS_ABOVE,
    "tools/figures.csv": BOUNDS,
    "crates/ncp_world/src/lib.rt": "//! A world.\n\nfn run() {}\n",
    "crates/ncp_test_low/src/lib.rt": TESTS,
}
WANTED = {"streams": "1", "parameters": "2", "exports": "1", "clauses": "1", "meanings": "1", "types": "1", "functions": "1", "twins": "2", "cited": "1", "names": "1", "names-in-proofs": "2", "tower": "3", "act": "2"}


class Figures(unittest.TestCase):
    def setUp(self):
        self.room = tempfile.TemporaryDirectory()
        self.addCleanup(self.room.cleanup)
        for name, text in FILES.items():
            path = f"{self.room.name}/{name}"
            os.makedirs(os.path.dirname(path), exist_ok=True)
            with open(path, "w", encoding="utf-8") as file:
                file.write(text)
        for folder, name in (("tools", "figures"), ("docs", "believed.py")):
            os.makedirs(f"{self.room.name}/{folder}", exist_ok=True)
            shutil.copy(f"{TOP}/{folder}/{name}", f"{self.room.name}/{folder}")

    def figures(self, *words):
        ran = subprocess.run([f"{self.room.name}/tools/figures", *words], stdout=subprocess.PIPE, stderr=subprocess.PIPE, text=True)
        return ran.returncode, ran.stdout

    def test_the_table(self):
        status, said = self.figures()
        cells = [[it.strip() for it in line.strip("|").split("|")] for line in said.splitlines()[2:]]
        self.assertEqual((status, {it[0]: it[2] for it in cells}), (0, WANTED), said)

    def test_the_places(self):
        self.assertEqual(self.figures("--where", "parameters"), (0, "crates/high/src/lib.rt:2: called: 6\ncrates/low/src/lib.rt:6: many: 6\n"))
        self.assertEqual(self.figures("--where", "exports"), (0, "crates/high/src/lib.rt:2: called: 6\n"))
        self.assertEqual(self.figures("--where", "meanings"), (0, "crates/high/specs/Others.antt:1: told: high, low\n"))

    def test_one_name_for_two_things(self):
        self.assertEqual(self.figures("--where", "types"), (0, "crates/high/src/shared.rt:1: Lane: high, low\n"))
        self.assertEqual(self.figures("--where", "functions"), (0, "crates/high/src/shared.rt:7: shared: high, low\n"))
        self.assertEqual(self.figures("--where", "cited"), (0, "crates/low/specs/Things.antt:1: told: high\n"))

    def test_the_same_but_for_names(self):
        ways = "crates/high/src/slots.rt:2: place_in: low/src/ways.rt:1: first_way\n", "crates/high/src/slots.rt:27: Shade: low/src/ways.rt:16: Colour\n"
        self.assertEqual(self.figures("--where", "twins"), (0, "".join(ways)))

    def bound(self, figure, bound):
        path = f"{self.room.name}/tools/figures.csv"
        with open(path, encoding="utf-8") as file:
            lines = [line for line in file.read().splitlines() if not line.startswith(f"{figure},")]
        with open(path, "w", encoding="utf-8") as file:
            file.write("\n".join(lines + ([] if bound is None else [f"{figure},{bound}"])) + "\n")

    def test_each_figure_is_its_bound(self):
        self.assertEqual(self.figures("--check"), (1, "figures: cited: 1, and 0 at most: tools/figures --where cited\n"))
        self.bound("cited", 1)
        self.assertEqual(self.figures("--check"), (0, ""))
        self.bound("tower", 4)
        self.assertEqual(self.figures("--check"), (1, "figures: tower: 3: lower its bound of 4 in tools/figures.csv\n"))
        self.bound("tower", None)
        self.assertEqual(self.figures("--check"), (1, "figures: tower: 3, without a bound in tools/figures.csv\n"))

    def test_without_a_page(self):
        os.remove(f"{self.room.name}/docs/believed.py")
        self.assertEqual(self.figures("--where", "cited"), (0, ""))

    def test_a_figure_that_is_none(self):
        self.assertEqual(self.figures("--where", "beauty"), (1, ""))


if __name__ == "__main__":
    unittest.main()
