"""tools/planted over crates of its own, with a stand-in for rt."""
import os
import subprocess
import sys
import tempfile
import unittest
from pathlib import Path

TOP = Path(__file__).resolve().parent.parent.parent
FILES = "tools/planted", "tools/once.py", "tools/reading.py", "tools/edits.py", "tools/resting.py", "docs/believed.py", "docs/believed.csv"
RT = """#!/bin/sh
echo "proves      src/lib.rt:3 fn ${PWD##*/}::one"
[ -z "$TOUCHES" ] || echo "pub struct Two;" >>src/lib.rt
echo "plants crate=${PWD##*/} planted-in=1 untested=0 no-ensures=0 proves=1 same=0 refused=2 elsewhere=0 not-judged=0 not-source=0 not-run=${NOT_RUN:-0}"
"""
CODE = """//! One.

pub fn one() -> u8
    ensures { result ≡ 1 }
{
    1
}
"""


class Planted(unittest.TestCase):
    def setUp(self):
        room = tempfile.TemporaryDirectory()
        self.addCleanup(room.cleanup)
        self.room = Path(room.name)
        for name in FILES:
            self.put(name, (TOP / name).read_text(encoding="utf-8"))
        self.put("crates.txt", "low:\nhigh: low\nncp_test_low: low\n")
        for name in "low", "high", "ncp_test_low":
            self.put(f"crates/{name}/src/lib.rt", CODE)
        self.put("mutants/low.edits", "")
        self.put("bin/rt", RT)
        (self.room / "bin/rt").chmod(0o755)

    def put(self, name, text):
        path = self.room / name
        path.parent.mkdir(parents=True, exist_ok=True)
        path.write_text(text, encoding="utf-8")

    def said(self, *words, **environment):
        paths = {"PATH": f"{self.room / 'bin'}:{os.environ['PATH']}", "TOUCHES": "", "NOT_RUN": ""}
        ran = subprocess.run([sys.executable, "-B", self.room / "tools/planted", *words], env={**os.environ, **paths, **environment}, stdout=subprocess.PIPE, stderr=subprocess.STDOUT, text=True)
        return ran.returncode, ran.stdout.splitlines()

    def test_what_changed(self):
        none = "no wrong body was tried"
        self.assertEqual(self.said(), (0, [f"low: {none}", f"high: {none}", "wrong bodies were tried in 0 of 2 crates as they are"]))
        status, lines = self.said("low")
        self.assertEqual((status, lines[0]), (0, "proves      src/lib.rt:3 fn low::one"))
        self.assertEqual(self.said(), (0, [f"high: {none}", "wrong bodies were tried in 1 of 2 crates as they are"]))
        # A comment and a proof change no verdict on a wrong body.
        self.put("crates/low/src/lib.rt", CODE.replace("One.", "The number one."))
        self.put("crates/low/proofs/Ones.antt", "one : N")
        self.assertEqual(self.said()[1][-1], "wrong bodies were tried in 1 of 2 crates as they are")
        self.put("crates/low/src/lib.rt", CODE.replace("≡ 1", "≡ 2"))
        self.assertEqual(self.said()[1][0], "low: changed since wrong bodies were tried")

    def test_a_run_that_is_not_kept(self):
        why = "low: not kept, since not all was tried, or a file changed"
        for environment in ({"NOT_RUN": "3"}, {"TOUCHES": "yes"}):
            status, lines = self.said("low", **environment)
            self.assertEqual((status, lines[-1]), (1, why))
        self.assertFalse((self.room / "mutants/planted.csv").exists())

    def test_no_such_crate(self):
        self.assertEqual(self.said("ncp_test_low"), (2, ["usage: tools/planted [CRATE..]; ncp_test_low is no crate with a clause"]))

    def test_this_repository(self):
        ran = subprocess.run([sys.executable, "-B", TOP / "tools/planted"], stdout=subprocess.PIPE, text=True)
        self.assertEqual(ran.returncode, 0, ran.stdout)


if __name__ == "__main__":
    unittest.main()
