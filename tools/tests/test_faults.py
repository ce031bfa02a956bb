"""tools/faulty.py on lines of each language, with the faults listed by hand; and tools/faults in a repository of a few files."""
import contextlib
import io
import os
import random
import shutil
import subprocess
import sys
import tempfile
import unittest
from pathlib import Path

TOP = Path(__file__).resolve().parent.parent.parent
sys.path.insert(0, str(TOP / "tools"))
import faulty

# A line of each language, and what it can become.
LINES = {
    "a.py": ('if one < 2 and "3 + 4" not in two:  # 5 == 6', {
        'if one <= 2 and "3 + 4" not in two:  # 5 == 6', 'if one < 3 and "3 + 4" not in two:  # 5 == 6', 'if one < 2 or "3 + 4" not in two:  # 5 == 6',
        'if one < 2 and "3 + 4" in two:  # 5 == 6', 'if not (one < 2 and "3 + 4" not in two):  # 5 == 6'}),
    "b.py": ("return [it for it in all if it[1:]]", {"return [it for it in all if it[0:]]", "return [it for it in all if not (it[1:])]"}),
    "c.lua": ("if not one or [[ == ]] ~= two then -- 1 == 2", {
        "if one or [[ == ]] ~= two then -- 1 == 2", "if not one and [[ == ]] ~= two then -- 1 == 2", "if not one or [[ == ]] == two then -- 1 == 2",
        "if not (not one or [[ == ]] ~= two) then -- 1 == 2"}),
    "d.js": ("if (!one(/a && b/) || `${1 + 2}`) return 0x0f; // 1", {
        "if (one(/a && b/) || `${1 + 2}`) return 0x0f; // 1", "if (!one(/a && b/) && `${1 + 2}`) return 0x0f; // 1", "if (!one(/a && b/) || `${1 + 2}`) return 0x10; // 1",
        "if (!(!one(/a && b/) || `${1 + 2}`)) return 0x0f; // 1"}),
    "e.rs": ("if one == &two['}'] && true { /* 1 */", {
        "if one != &two['}'] && true { /* 1 */", "if one == &two['}'] || true { /* 1 */", "if one == &two['}'] && false { /* 1 */", "if !(one == &two['}'] && true) { /* 1 */"}),
    "f.c": ("while (one(2) << 3) one -= \" + \"[4]; // 5", {
        "while (one(3) << 3) one -= \" + \"[4]; // 5", "while (one(2) >> 3) one -= \" + \"[4]; // 5", "while (one(2) << 4) one -= \" + \"[4]; // 5", "while (one(2) << 3) one += \" + \"[4]; // 5",
        "while (one(2) << 3) one -= \" + \"[5]; // 5", "while (!(one(2) << 3)) one -= \" + \"[4]; // 5"}),
}
SHELL = """#!/bin/sh
# if [ 1 = 2 ]
[ "$1" = a ] || exit 3 2>&1
"""
# The launcher of the repository, and its test, which does not see which number a failure has.
LAUNCHER = """#!/bin/sh
[ "$1" = a ] || exit 3
"""
TRY = """#!/bin/sh
./ncp a || exit 1
./ncp b && echo "WRONG: b"
exit 0
"""
KNOWN = """file: ncp
old: [ "$1" = a ] || exit 3
new: [ "$1" = a ] || exit 4
why: a number for nobody

"""


def put(path, text):
    path.parent.mkdir(parents=True, exist_ok=True)
    path.write_text(text, encoding="utf-8")
    path.chmod(0o755)


class Faulty(unittest.TestCase):
    def test_faults_of_a_line(self):
        for name, (line, wanted) in LINES.items():
            found = faulty.faults_of(name, f"\n{line}\n")
            self.assertEqual(({it.after for it in found}, {(it.line, it.name, it.before) for it in found}), (wanted, {(1, name, line)}))

    def test_faults_of_a_script(self):
        self.assertEqual({it.after for it in faulty.faults_of("ncp", SHELL)},
                         {'[ "$1" != a ] || exit 3 2>&1', '[ "$1" = a ] && exit 3 2>&1', '[ "$1" = a ] || exit 4 2>&1', '[ ! "$1" = a ] || exit 3 2>&1'})
        self.assertIsNone(faulty.language_of("README.md", "Text.\n"))

    def test_text_of_several_lines_is_no_code(self):
        self.assertEqual(faulty.faults_of("a.py", '"""One\n1 + 1\n"""\n'), [])

    def test_tests_in_rust_are_no_code(self):
        self.assertEqual([it.line for it in faulty.faults_of("a.rs", "use two;\nconst ONE: u32 = 2;\n\n#[cfg(test)]\nmod tests {\n    const ONE: u32 = 2;\n}\n")], [1])

    def test_each_is_drawn_once(self):
        faults = faulty.faults_of("a.py", "one = 2 + 3\n") * 2
        self.assertEqual(sorted(it.after for it in faulty.drawn(faults, random.Random(1))), ["one = 2 + 4", "one = 2 - 3", "one = 3 + 3"])

    def test_the_figure(self):
        said = io.StringIO()
        with contextlib.redirect_stdout(said):
            self.assertEqual(faulty.tally([True, False, None, True, True], "matter", "a test sees"), 0.75)
        self.assertEqual(said.getvalue(), "5 faults: 4 matter, a test sees 3 of these: 75.0 %\n")


class Faults(unittest.TestCase):
    def setUp(self):
        room = tempfile.TemporaryDirectory()
        self.addCleanup(room.cleanup)
        self.room = Path(room.name)
        for name in "tools/faults", "tools/faulty.py":
            put(self.room / name, (TOP / name).read_text(encoding="utf-8"))
        for name, text in {"ncp": LAUNCHER, "tools/try_launcher": TRY, "tools/faults.same": "", "examples/compare": "#!/bin/sh\nexit 1\n"}.items():
            put(self.room / name, text)
        subprocess.run(["git", "init", "-q"], cwd=self.room, check=True)

    def said(self, *words):
        ran = subprocess.run(["tools/faults", "launcher", *words], cwd=self.room, stdout=subprocess.PIPE, stderr=subprocess.STDOUT, text=True)
        return ran.returncode, ran.stdout

    def test_what_is_seen_and_what_is_not(self):
        status, said = self.said()
        self.assertEqual((status, said.splitlines()[-1]), (1, "4 faults: 4 change something, the tests see 3 of these: 75.0 %"), said)
        self.assertIn('ncp:2: NOT SEEN\n  - [ "$1" = a ] || exit 3\n  + [ "$1" = a ] || exit 4\n', said)
        self.assertIn('ncp:2: seen by tools/try_launcher (status 1)\n  - [ "$1" = a ] || exit 3\n  + [ "$1" != a ] || exit 3\n', said)
        self.assertIn("examples/compare: left out, since without a fault it fails: status 1\n", said)
        self.assertEqual((self.room / "ncp").read_text(encoding="utf-8"), LAUNCHER)

    def test_one_that_changes_nothing(self):
        put(self.room / "tools/faults.same", KNOWN)
        status, said = self.said("ncp:2")
        self.assertEqual((status, said.splitlines()[-1]), (0, "4 faults: 3 change something, the tests see 3 of these: 100.0 %"), said)
        self.assertIn('ncp:2: changes nothing: a number for nobody\n', said)

    def test_only_some(self):
        self.assertEqual(self.said("ncp:1"), (0, "0 faults: 0 change something, the tests see 0 of these: 100.0 %\n"))
        self.assertEqual(self.said("--faults", "2")[1].splitlines()[-1].split(":")[0], "2 faults")

    def test_a_step_that_reports_a_failure_or_does_not_end(self):
        put(self.room / "tools/try_launcher", "#!/bin/sh\n./ncp a || { echo 'WRONG: a'; sleep 100; }\n")
        self.assertIn("seen by tools/try_launcher (WRONG: a)\n", self.said()[1])
        faults = (self.room / "tools/faults").read_text(encoding="utf-8").replace("4, 10, 300", "4, 10, 1")
        put(self.room / "tools/faults", faults)
        put(self.room / "tools/try_launcher", "#!/bin/sh\n./ncp a || sleep 100\n")
        self.assertRegex(self.said()[1], r"seen by tools/try_launcher \(does not end in \d s\)\n")


if __name__ == "__main__":
    unittest.main()
