"""tools/words in a repository of a few pages: the forms of speech that it counts, and their bounds."""
import os
import shutil
import subprocess
import tempfile
import unittest

TOP = os.path.dirname(os.path.dirname(os.path.dirname(os.path.abspath(__file__))))
CODE = """//! What is told
//! of hosts by
//! which it comes.
// told behind
fn told() {
    /// Anew: `told`, and behind it.
    let told = "whatever";
}
"""
FILES = {
    "README.md": "Told. A token of which `anew` is one.\n\n```\nbehind\n```\n\n<!-- tools/index: part -->\nbehind\n<!-- tools/index: end -->\n\nIt is where there is none, and where a host is.\n",
    "CHANGELOG.md": "behind\n",
    "docs/DECISIONS.md": "No more than one; no more.\n",
    "include/ncp.h": "/* It goes out, and is out of reach. */\n",
    "crates/low/src/lib.rt": CODE,
    "crates/low/src/help.rt": 'const HELP: &str = "whatever";\n',
}
COUNTS = {"told": 2, "behind": 1, "anew": 1, "by which": 1, "of which": 1, "where for if": 1, "goes out": 1, "whatever": 1, "no more, for no longer": 1}


class Words(unittest.TestCase):
    def setUp(self):
        self.room = tempfile.TemporaryDirectory()
        self.addCleanup(self.room.cleanup)
        for name, text in FILES.items():
            self.write(name, text)
        os.mkdir(f"{self.room.name}/tools")
        shutil.copy(f"{TOP}/tools/words", f"{self.room.name}/tools")

    def write(self, name, text):
        path = f"{self.room.name}/{name}"
        os.makedirs(os.path.dirname(path), exist_ok=True)
        with open(path, "w", encoding="utf-8") as file:
            file.write(text)

    def words(self, *words):
        ran = subprocess.run([f"{self.room.name}/tools/words", *words], stdout=subprocess.PIPE, stderr=subprocess.PIPE, text=True)
        return ran.returncode, ran.stdout

    def bounds(self):
        with open(f"{self.room.name}/tools/forms", encoding="utf-8") as file:
            return {name: int(count) for count, _, name in (line.rstrip("\n").partition(" ") for line in file)}

    def test_what_is_counted(self):
        self.assertEqual(self.words("--lower"), (0, ""))
        self.assertEqual({name: count for name, count in self.bounds().items() if count}, COUNTS)
        self.assertIn("README.md:11: It is where there is none, and where a host is.\n", self.words("--forms")[1])
        self.assertIn("crates/low/src/lib.rt:2: of hosts by\n", self.words("--forms")[1])

    def test_a_bound_is_passed(self):
        self.words("--lower")
        self.assertEqual(self.words("--check")[0], 0)
        self.write("docs/MORE.md", "Behind.\n")
        status, said = self.words("--check")
        self.assertEqual((status, said.splitlines()[-1]), (1, "words: 'behind' stands 2 times, and 1 at most: tools/words --forms"))

    def test_a_bound_only_falls(self):
        self.words("--lower")
        self.write("docs/MORE.md", "Behind.\n")
        self.write("CHANGELOG.md", "told\n")
        self.write("README.md", "None.\n")
        self.words("--lower")
        self.assertEqual((self.bounds()["behind"], self.bounds()["told"]), (1, 1))

    def test_a_form_without_a_bound(self):
        self.words("--lower")
        with open(f"{self.room.name}/tools/forms", encoding="utf-8") as file:
            lines = [line for line in file if line != "1 anew\n"]
        self.write("tools/forms", "".join(lines))
        self.assertIn("words: 'anew' stands 1 times, and 0 at most: tools/words --forms\n", self.words("--check")[1])


if __name__ == "__main__":
    unittest.main()
