"""tools/release in a copy of this repository: what it refuses, that it makes the same bytes twice, and that a stranger who has the archive
alone can check it, install it, run the program, build the first program of EMBEDDING and use the bindings for Python and Rust."""
import hashlib
import os
import re
import shutil
import subprocess
import sys
import tarfile
import tempfile
import unittest
from pathlib import Path

TOP = Path(__file__).resolve().parent.parent.parent
VERSION = "1.1.0"
# The program and the libraries have to be of these sources: else there is nothing to release.
IS_PREBUILT = all(subprocess.run([TOP / "tools/prebuild", "--has", name]).returncode == 0 for name in ("ncp", "libncp.a", "libncp.so.2", "ncp.wasm", "ncp.c", "ncp_program.c"))
HEADING = f"## {VERSION}, 29 November 2026"


def ran(*words, **how):
    return subprocess.run([str(it) for it in words], stdin=subprocess.DEVNULL, stdout=subprocess.PIPE, stderr=subprocess.STDOUT, text=True, **how)


def copied(folder):
    """Copies this repository, and commits its current state."""
    names = ran("git", "ls-files", "-z", "--cached", "--others", "--exclude-standard", cwd=TOP).stdout.split("\0")
    for name in filter(None, names):
        if (TOP / name).is_file():
            (folder / name).parent.mkdir(parents=True, exist_ok=True)
            shutil.copy2(TOP / name, folder / name)
    changes = folder / "CHANGELOG.md"
    changes.write_text(re.sub(rf"^## {re.escape(VERSION)}.*$", HEADING, changes.read_text(encoding="utf-8"), flags=re.M), encoding="utf-8")
    commit(folder, "init", "-q")
    commit(folder, "add", "-A")
    commit(folder, "commit", "-qm", "A release")


def commit(folder, *words):
    env = {**os.environ, "GIT_AUTHOR_DATE": "@1795000000 +0000", "GIT_COMMITTER_DATE": "@1795000000 +0000"}
    subprocess.run(["git", "-c", "user.name=A", "-c", "user.email=a@b", "-c", "gc.auto=0", *words], cwd=folder, env=env, check=True)


@unittest.skipUnless(IS_PREBUILT, "prebuilt/ is not of these sources")
class Release(unittest.TestCase):
    @classmethod
    def setUpClass(cls):
        cls.room = tempfile.TemporaryDirectory()
        cls.addClassCleanup(cls.room.cleanup)
        at = Path(cls.room.name)
        cls.top, cls.made, cls.prefix = at / "repository", at / "made", at / "prefix"
        cls.top.mkdir()
        copied(cls.top)
        cls.said = cls.release(VERSION, cls.made)
        (at / "unpacked").mkdir()
        with tarfile.open(cls.made / f"ncp-{VERSION}.tar.gz") as archive:
            cls.entries = archive.getmembers()
            archive.extractall(at / "unpacked")
        cls.here = at / "unpacked" / f"ncp-{VERSION}"

    @classmethod
    def release(cls, *words):
        return ran(sys.executable, cls.top / "tools/release", *words, cwd="/")

    def test_it_is_made(self):
        self.assertEqual(self.said.returncode, 0, self.said.stdout)

    def test_its_sum_is_checked_by_its_own_line(self):
        sums = self.made / f"ncp-{VERSION}.sums"
        line = sums.read_text(encoding="utf-8").splitlines()[0].removeprefix("# Check it with: ")
        self.assertEqual(line, f"sha256sum -c ncp-{VERSION}.sums")
        self.assertEqual(ran(*line.split(), cwd=self.made).stdout, f"ncp-{VERSION}.tar.gz: OK\n")
        self.assertEqual(ran("sha256sum", "--quiet", "-c", "SUMS", cwd=self.here).stdout, "")

    def test_each_file_has_its_sum(self):
        summed = {line.split("  ")[1] for line in (self.here / "SUMS").read_text(encoding="utf-8").splitlines()}
        there = {str(it.relative_to(self.here)) for it in self.here.rglob("*") if it.is_file()}
        self.assertEqual(there - summed, {"SUMS", "ncp"})

    def test_made_again_it_is_the_same_bytes(self):
        again = self.made / "again"
        env = {**os.environ, "PYTHONHASHSEED": "7", "TZ": "Asia/Tokyo"}
        said = ran(sys.executable, self.top / "tools/release", VERSION, again, cwd=self.top, env=env)
        self.assertEqual(said.returncode, 0, said.stdout)
        for name in f"ncp-{VERSION}.tar.gz", f"ncp-{VERSION}.sums":
            self.assertEqual(hashlib.sha256((again / name).read_bytes()).digest(), hashlib.sha256((self.made / name).read_bytes()).digest())

    def test_it_says_nothing_of_who_made_it(self):
        self.assertEqual({(it.uid, it.gid, it.uname, it.gname, it.mtime) for it in self.entries}, {(0, 0, "", "", 1795000000)})
        self.assertTrue(all(it.name.startswith(f"ncp-{VERSION}/") for it in self.entries))

    def test_it_has_no_sources_and_no_proofs(self):
        names = [str(it.relative_to(self.here)) for it in self.here.rglob("*")]
        self.assertEqual([it for it in names if it.endswith((".rt", ".antt", ".edit", ".edits"))], [])
        for name in ("prebuilt/libncp.a", "prebuilt/libncp.so.2", "prebuilt/aarch64/libncp.a", "prebuilt/aarch64/libncp.so.2", "include/ncp.h", "share/ncp.1", "share/ncp.bash", "web/ncp.html",
                     "wireshark/install", "onefile/Makefile", "bindings/rust/ncp-sys/build.rs", "bindings/rust/ncp-sys/c/ncp.h", "prebuilt/aarch64/ncp.pc", "examples/embed/hello.c", "docs/THEOREMS.md", "docs/reference/index.html", "LICENSE", "THIRD-PARTY.md"):
            self.assertIn(name, names)

    def test_its_sources_in_c_are_those_of_the_repository(self):
        for name in "ncp.c", "ncp_program.c", "prebuilt/ncp.c", "prebuilt/ncp_program.c", "bindings/rust/ncp-sys/c/ncp.c":
            self.assertEqual((self.here / name).read_bytes(), (TOP / "prebuilt" / name.rpartition("/")[2]).read_bytes(), name)

    def test_each_link_of_its_pages_leads_to_something(self):
        for path in self.here.rglob("*.md"):
            for target in re.findall(r"\]\(([^)\s]+)\)", re.sub(r"```.*?```", "", path.read_text(encoding="utf-8"), flags=re.S)):
                if "://" not in target:
                    self.assertTrue((path.parent / target.partition("#")[0]).exists(), f"{path}: {target}")

    def test_its_readme_calls_what_is_there(self):
        text = (self.here / "README.md").read_text(encoding="utf-8")
        self.assertEqual({it for it in re.findall(r"(?:^|`)\./(\S+?)(?:`|\s)", text, re.M) if not (self.here / it).exists()}, set())
        self.assertIn("## Sources, licence\n\nThe licence is", text)

    def test_the_program_runs(self):
        said = ran("./ncp", "world", "examples/lost_twice.script", cwd=self.here)
        self.assertEqual(said.stdout, (TOP / "examples/lost_twice.txt").read_text(encoding="utf-8"))

    def test_it_installs_and_the_first_program_of_the_page_is_built(self):
        said = ran("include/install", self.prefix, cwd=self.here)
        self.assertEqual((said.returncode, said.stdout), (0, f"{self.prefix}\n"))
        self.assertEqual(ran(self.prefix / "bin/ncp", "--version").stdout, f"ncp {VERSION}\n")
        self.need_first_program(self.prefix / "lib/pkgconfig", LD_LIBRARY_PATH=str(self.prefix / "lib"))
        self.assertTrue((self.prefix / "share/man/man1/ncp.1").is_file())

    def test_the_first_program_of_the_page_is_built_where_nothing_is_installed(self):
        self.need_first_program(self.here / "prebuilt")

    def need_first_program(self, described, **more):
        """Builds the first program of EMBEDDING with the library that a folder describes for pkg-config, and runs it."""
        page = (self.here / "docs/EMBEDDING.md").read_text(encoding="utf-8")
        with tempfile.TemporaryDirectory() as room:
            program, made = Path(room) / "hello.c", Path(room) / "hello"
            program.write_text(re.search(r"^```c\n(.*?)^```", page, re.M | re.S)[1], encoding="utf-8")
            flags = ran("pkg-config", "--cflags", "--libs", "ncp", env={**os.environ, "PKG_CONFIG_PATH": str(described)}).stdout.split()
            said = ran("cc", "-Wall", "-Wextra", "-o", made, program, *flags)
            self.assertEqual((said.returncode, said.stdout), (0, ""))
            self.assertEqual(ran(made, env={**os.environ, **more}).stdout, (TOP / "examples/embed/hello.txt").read_text(encoding="utf-8"))

    @unittest.skipUnless(shutil.which("cargo"), "there is no cargo")
    def test_a_program_in_rust_is_built_without_a_network(self):
        prefix = self.here.parent.parent / "for rust"
        said = ran("include/install", prefix, cwd=self.here)
        self.assertEqual(said.returncode, 0, said.stdout)
        said = ran(TOP / "bindings/try_rust", self.here / "bindings/rust", prefix, cwd="/")
        self.assertEqual((said.returncode, said.stdout), (0, "rust: a new user's program is as it should be\n"), said.stdout)

    @unittest.skipUnless(shutil.which("dpkg-deb"), "there is no dpkg-deb")
    def test_the_package_for_debian_has_what_is_installed(self):
        folder = self.here.parent.parent / "debian"
        said = ran("include/debian", folder, cwd=self.here)
        package = folder / f"ncp_{VERSION}_amd64.deb"
        self.assertEqual((said.returncode, said.stdout), (0, f"{package}\n"))
        self.assertEqual(ran("dpkg-deb", "-f", package, "Package", "Version", "Architecture").stdout, f"Package: ncp\nVersion: {VERSION}\nArchitecture: amd64\n")
        ran("dpkg-deb", "-x", package, folder)
        self.assertEqual((folder / "usr/bin/ncp").read_bytes(), (self.here / "prebuilt/ncp").read_bytes())
        self.assertEqual((folder / "usr/lib/libncp.so").resolve(), (folder / "usr/lib/libncp.so.2").resolve())
        self.assertIn("MIT License", (folder / "usr/share/doc/ncp/copyright").read_text(encoding="utf-8"))

    @unittest.skipUnless(os.path.exists("/usr/bin/python3") and not ran("/usr/bin/python3", "-c", "import ensurepip, setuptools, wheel").returncode, "Debian's Python cannot build packages")
    def test_the_binding_for_python_is_installed_without_a_network(self):
        """Debian's Python makes the environment: it has setuptools and wheel, with which the package is built."""
        room = self.here.parent.parent / "python"
        made = ran("/usr/bin/python3", "-m", "venv", "--system-site-packages", room)
        self.assertEqual(made.returncode, 0, made.stdout)
        binding = self.here.parent.parent / "binding"
        shutil.copytree(self.here / "bindings/python", binding)
        said = ran(room / "bin/python", "-m", "pip", "install", "--quiet", "--no-build-isolation", "--no-index", binding, cwd=room)
        self.assertEqual(said.returncode, 0, said.stdout)
        env = {key: value for key, value in os.environ.items() if not key.startswith(("NCP", "PYTHON", "LD_"))}
        where = ran(room / "bin/python", "-c", "import ncp; print(ncp.__file__); print(ncp._ncp._name)", cwd=room, env=env).stdout.splitlines()
        self.assertEqual([Path(it).parent for it in where], [Path(where[0]).parent] * 2)
        self.assertTrue(where[0].startswith(str(room)), where)
        # Its tests, in a folder without a package that could be taken for the installed one.
        tests = self.here / "bindings/tests"
        shutil.copytree(self.here / "bindings/python", tests, ignore=shutil.ignore_patterns("ncp"))
        said = ran(room / "bin/python", "-B", "-m", "unittest", "-q", "test_ncp", cwd=tests, env=env)
        shutil.rmtree(tests)
        self.assertEqual(said.returncode, 0, said.stdout)

    def test_what_it_refuses(self):
        for change, words, why in (
            (None, ["1.1"], "usage: tools/release VERSION [FOLDER]"),
            (None, ["9.9.9"], f"release: the program is version {VERSION}"),
            (("README.md", b"More.\n"), [VERSION], "release: the checkout has changes, as README.md"),
            (("new", b""), [VERSION], "release: the checkout has changes, as new"),
        ):
            self.assertEqual(self.refusal(change, words), why)

    def test_it_refuses_what_is_not_of_the_sources_or_has_no_date(self):
        for name, text, why in (
            ("CHANGELOG.md", f"# Changes\n\n## {VERSION}\n", f"release: CHANGELOG.md has no heading '## {VERSION}, DAY MONTH YEAR'"),
            ("crates/ncp_slot/src/lib.rt", "//! Another text.\n", "release: prebuilt/ncp is not of these sources: run tools/prebuild"),
            ("prebuilt/aarch64/libncp.a", "of anybody", "release: prebuilt/aarch64/libncp.a is not of these sources: run tools/prebuild"),
            ("prebuilt/ncp.c", "of anybody", "release: prebuilt/ncp.c is not of these sources: run tools/prebuild"),
            ("prebuilt/ncp_program.c", "of anybody", "release: prebuilt/ncp_program.c is not of these sources: run tools/prebuild"),
        ):
            was = (self.top / name).read_bytes()
            (self.top / name).write_text(text, encoding="utf-8")
            commit(self.top, "add", name)
            commit(self.top, "commit", "-qm", "Another")
            said = self.release(VERSION, self.made / "none")
            commit(self.top, "reset", "-q", "--hard", "HEAD~1")
            self.assertEqual((self.top / name).read_bytes(), was)
            self.assertEqual((said.returncode, said.stdout), (1, f"{why}\n"))
            self.assertFalse((self.made / "none").exists())

    def refusal(self, change, words):
        """The message if this is added to a file."""
        if change:
            path = self.top / change[0]
            was = path.read_bytes() if path.exists() else None
            path.write_bytes((was or b"") + change[1])
        said = self.release(*words, self.made / "none")
        if change:
            path.unlink() if was is None else path.write_bytes(was)
        self.assertEqual(said.returncode, 1)
        self.assertFalse((self.made / "none").exists())
        return said.stdout.strip()


if __name__ == "__main__":
    unittest.main()
