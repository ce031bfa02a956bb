"""THIRD-PARTY.md names the crates of the toolchain that each prebuilt file depends on, as in crates.txt; and, with the
toolchain, each copyright line of their licences."""
import glob
import os
import re
import shutil
import subprocess
import unittest

TOP = os.path.dirname(os.path.dirname(os.path.dirname(os.path.abspath(__file__))))
# The prebuilt files by the crate that each is built from, and the dependencies of toolchain crates besides the standard library.
BUILT_OF = {"ncp": "ncp", "libncp": "ncp_embed", "ncp.c": "ncp_embed", "ncp_program.c": "ncp", "ncp.wasm": "ncp_web"}
BELOW = {"clap": ["strsim"]}
# What others copy into their own work, and so names its licence in its first two lines.
COPIED = ("include/*.h", "include/*.c", "bindings/python/*.py", "bindings/python/*.toml", "bindings/rust/*/build.rs", "bindings/rust/*/src/*.rs", "bindings/rust/*/examples/*.rs",
          "bindings/rust/*/tests/*.rs", "wireshark/plugin/*.lua", "wireshark/messages", "wireshark/capture/*.py", "web/page/*")


def read(*path):
    with open(os.path.join(*path), encoding="utf-8") as file:
        return file.read()


def stands_on(crate):
    """The crates of the toolchain that a crate depends on."""
    lines = [line.split("#")[0].partition(":") for line in read(TOP, "crates.txt").splitlines()]
    uses = {name.split()[0]: used.split() for name, colon, used in lines if colon}
    found, left = set(), [crate]
    while left:
        name = left.pop()
        if name not in found:
            found.add(name)
            left += uses.get(name, BELOW.get(name, []))
    return found - uses.keys()


def rows():
    """The crates that the page names, each with its copyright lines and the files that have it."""
    table = read(TOP, "THIRD-PARTY.md").partition("## Crates\n")[2].partition("\n## ")[0]
    cells = [line.strip("| ").split(" | ") for line in table.splitlines() if line.startswith("| `")]
    return {cell[0].split("`")[1]: (cell[3], re.findall(r"`([^`]+)`", cell[4])) for cell in cells}


def sources():
    """The folder with the sources of the toolchain's crates, or None."""
    if subprocess.run([os.path.join(TOP, "tools", "toolchain")]).returncode:
        return None
    return os.path.join(os.path.dirname(subprocess.run([shutil.which("rt"), "doc"], stdout=subprocess.PIPE, text=True).stdout.strip()), "rattle")


class Licences(unittest.TestCase):
    def test_the_licence(self):
        self.assertTrue(read(TOP, "LICENSE").startswith("MIT License\n\nCopyright (c) 2026 the Yaszkevo authors\n"))

    def test_what_is_copied_names_it(self):
        for pattern in COPIED:
            paths = glob.glob(os.path.join(TOP, pattern))
            self.assertTrue(paths, pattern)
            for path in paths:
                self.assertIn("SPDX-License-Identifier: MIT", "".join(read(path).splitlines()[:2]), path)

    def test_each_crate_that_is_compiled_in_is_named(self):
        wanted = {}
        for file, crate in BUILT_OF.items():
            for name in stands_on(crate):
                wanted.setdefault(name, []).append(file)
        self.assertEqual({name: files for name, (_, files) in rows().items()}, wanted)

    @unittest.skipUnless(sources(), "the toolchain is not on the path")
    def test_each_copyright_line_is_there(self):
        for name, (copyright, _) in rows().items():
            folder = os.path.join(sources(), name)
            files = [it for it in sorted(os.listdir(folder)) if it.startswith("LICENSE") and it != "LICENSE-APACHE"]
            lines = [line for it in files for line in read(folder, it).splitlines() if line.startswith("Copyright ")]
            self.assertEqual(copyright, "; ".join(lines) or "none", name)


if __name__ == "__main__":
    unittest.main()
