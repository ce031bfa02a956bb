"""What the gate refuses of a crate that the compiler builds: no function outside tests may end the process."""
import re
import unittest
from pathlib import Path

CRATES = Path(__file__).resolve().parents[2] / "crates"
MODULE = re.compile(r"(#\[cfg\(test\)\]\s*)?^ *(?:pub(?:\(\w+\))? )?mod (\w+);", re.M)
ABORTS = re.compile(r"\bAbort\b")


def modules_of(file):
    """A file of code with those of its modules that are not tests alone."""
    yield file
    folder = file.parent if file.stem in ("lib", "main") else file.with_suffix("")
    for is_test, name in MODULE.findall(file.read_text(encoding="utf-8")):
        if not is_test:
            yield from modules_of(folder / f"{name}.rt")


def aborting(folder):
    """The files of a crate, without its tests, that name the bound under which a function may end the process."""
    root = next(it for it in (folder / "src/lib.rt", folder / "src/main.rt") if it.exists())
    return [str(it.relative_to(folder)) for it in modules_of(root) if ABORTS.search(it.read_text(encoding="utf-8"))]


class Crates(unittest.TestCase):
    def test_none_may_end_the_process(self):
        found = {it.name: aborting(it) for it in sorted(CRATES.iterdir())}
        self.assertEqual({name: files for name, files in found.items() if files}, {})

    def test_tests_may(self):
        files = [it.relative_to(CRATES / "ncp_test_parts").as_posix() for it in modules_of(CRATES / "ncp_test_parts/src/lib.rt")]
        self.assertEqual(files, ["src/lib.rt", "src/known.rt"])


if __name__ == "__main__":
    unittest.main()
