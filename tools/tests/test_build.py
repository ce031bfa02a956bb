"""tools/build.py with a toolchain that only notes what it was asked to build: nothing is built twice, in whichever room."""
import os
import shutil
import subprocess
import tempfile
import unittest

TOOLS = os.path.dirname(os.path.dirname(os.path.abspath(__file__)))
# A crate is built if its stamp is the sum of its source and of the stamps of the crates below it, as for the toolchain.
RT = """#!/bin/sh
[ "$1" = version ] && { echo "$KIT logic 0"; exit; }
name=$(basename "$PWD")
stamps=
for used in $(sed -n "s/^$name: *//p" ../../crates.txt); do
    stamps="$stamps $(cat ../$used/out/rlib/stamp)" || exit 1
done
stamp=$(echo "$stamps $(cat src/*.rt)" | sha256sum)
[ "$(cat out/rlib/stamp 2>/dev/null)" = "$stamp" ] && exit
echo "$name" >>"$BUILT"
mkdir -p out/rlib
rm -f out/rlib/stamp
echo "$stamp" >out/rlib/stamp
"""
CRATES = """low:
left: low
right: low
high: left right
other: left
"""


class TestBuild(unittest.TestCase):
    def setUp(self):
        self.top = tempfile.mkdtemp(prefix="ncp-build-test-")
        self.addCleanup(shutil.rmtree, self.top)
        self.write("crates.txt", CRATES)
        self.write("HANDLES", "Handles allowed: none.\n")
        self.write("bin/rt", RT)
        os.chmod(f"{self.top}/bin/rt", 0o755)
        for name in ("low", "left", "right", "high", "other"):
            self.write(f"crates/{name}/src/lib.rt", f"// {name}\n")
        os.mkdir(f"{self.top}/tools")
        for name in ("build.py", "once.py"):
            shutil.copy(f"{TOOLS}/{name}", f"{self.top}/tools")

    def write(self, name, text):
        os.makedirs(os.path.dirname(f"{self.top}/{name}"), exist_ok=True)
        with open(f"{self.top}/{name}", "w", encoding="utf-8") as file:
            file.write(text)

    def built(self, name):
        """Builds a crate, and returns what was built for it, and the output."""
        self.write("built", "")
        path = f"{self.top}/bin:{os.environ['PATH']}"
        environment = {**os.environ, "PATH": path, "BUILT": f"{self.top}/built", "KIT": "rattle-kit-none"}
        ran = subprocess.run([f"{self.top}/tools/build.py", name], env=environment, stdout=subprocess.PIPE, stderr=subprocess.STDOUT, text=True)
        self.assertEqual(ran.returncode, 0, ran.stdout)
        with open(f"{self.top}/built", encoding="utf-8") as file:
            return sorted(file.read().split()), ran.stdout

    def test_nothing_is_built_twice(self):
        self.assertEqual(self.built("high")[0], ["high", "left", "low", "right"])
        self.assertEqual(self.built("high")[0], [])
        self.assertEqual(self.built("other")[0], ["other"])

        self.write("crates/right/src/lib.rt", "// right, changed\n")
        self.assertEqual(self.built("other")[0], [])
        self.assertEqual(self.built("high")[0], ["high", "right"])

    def test_a_kit_that_is_not_known_is_told_once(self):
        self.assertEqual(self.built("high")[1].count("rattle-kit-none is not a kit that tools/once.py knows"), 1)


if __name__ == "__main__":
    unittest.main()
