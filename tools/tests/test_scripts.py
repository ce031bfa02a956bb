"""The scripts in unusual environments: CDPATH, umask, odd paths, changed files."""
import os
import shutil
import subprocess
import tempfile
import unittest

TOP = os.path.dirname(os.path.dirname(os.path.dirname(os.path.abspath(__file__))))
# What a shell, echo or pkg-config could take for something else.
ODD = r"a b\nc 'd'"


def write(path, text, mode=0o644):
    os.makedirs(os.path.dirname(path), exist_ok=True)
    with open(path, "w", encoding="utf-8") as file:
        file.write(text)
    os.chmod(path, mode)


def read(path):
    with open(path, encoding="utf-8") as file:
        return file.read()


class Scripts(unittest.TestCase):
    def setUp(self):
        self.room = tempfile.TemporaryDirectory()
        self.addCleanup(self.room.cleanup)
        self.top = f"{self.room.name}/{ODD}"

    def copy(self, *names):
        for name in names:
            os.makedirs(os.path.dirname(f"{self.top}/{name}"), exist_ok=True)
            shutil.copy(f"{TOP}/{name}", f"{self.top}/{name}")

    def said(self, *words, at=None, **environment):
        """The output of a command that succeeds."""
        ran = subprocess.run(words, cwd=at or self.top, env={**os.environ, **environment}, stdout=subprocess.PIPE, stderr=subprocess.STDOUT, text=True)
        self.assertEqual(ran.returncode, 0, ran.stdout)
        return ran.stdout


class WithCdpath(Scripts):
    """A folder that CDPATH names has folders of the same names. A script that is called by a path from the top stays at home."""

    def setUp(self):
        super().setUp()
        self.other = f"{self.room.name}/other"
        for name in "tools", "examples", ".ci":
            os.makedirs(f"{self.other}/{name}")

    def test_the_sum_of_sources(self):
        self.copy("tools/sources")
        write(f"{self.top}/crates.txt", "ncp:\n")
        write(f"{self.other}/crates.txt", "ncp: other\n")
        self.assertEqual(self.said("sh", "tools/sources", CDPATH=self.other), self.said("sh", "tools/sources"))

    def test_the_gate(self):
        self.copy(".ci/run")
        for top, word in (self.top, "home"), (self.other, "other"):
            write(f"{top}/test", f'#!/bin/sh\necho "{word} $*"\n', 0o755)
        self.assertEqual(self.said("sh", ".ci/run", CDPATH=self.other).splitlines()[-1], "home all")

    def test_the_examples(self):
        self.copy("examples/compare")
        for top, word in (self.top, "home"), (self.other, "other"):
            write(f"{top}/ncp", f'#!/bin/sh\necho {word} >>"{self.room.name}/asked"\nexit 1\n', 0o755)
        subprocess.run(["sh", "examples/compare"], cwd=self.top, env={**os.environ, "CDPATH": self.other}, stdout=subprocess.DEVNULL)
        self.assertEqual(read(f"{self.room.name}/asked"), "home\n")


class Sources(Scripts):
    """The sum of tools/sources: what changes it, and what does not."""
    CRATES = "one: two three # a remark\ntwo: four\nthree:\nfour:\nfive: one\nncp: three\n"
    FILES = [f"crates/{crate}/{file}" for crate in ("one", "two", "three", "four", "five") for file in ("src/lib.rt", "specs/Lib.antt", "proofs/deep/Lib.antt", "must-fail/one.edit")]

    def setUp(self):
        super().setUp()
        self.copy("tools/sources")
        write(f"{self.top}/crates.txt", self.CRATES)
        for name in [*self.FILES, "HANDLES"]:
            write(f"{self.top}/{name}", "some\n")

    def sum(self, *words):
        found = self.said("tools/sources", *words)
        self.assertRegex(found, r"^[0-9a-f]{64}\n$")
        return found

    def changing(self, *words):
        """The files whose bytes change the sum."""
        before, found = self.sum(*words), []
        for name in [*self.FILES, "HANDLES"]:
            write(f"{self.top}/{name}", "more\n")
            found += [name] if self.sum(*words) != before else []
            write(f"{self.top}/{name}", "some\n")
        return found

    def test_the_files(self):
        below = [name for name in self.FILES if "/five/" not in name and "/must-fail/" not in name]
        self.assertEqual(self.changing("one"), below)
        self.assertEqual(self.changing("one", "HANDLES"), [*below, "HANDLES"])
        self.assertEqual(self.changing(), [name for name in below if "/three/" in name])
        self.assertEqual((self.sum(), len({self.sum(it) for it in ("one", "two", "three", "four", "five")})), (self.sum("ncp"), 5))

    def test_the_lines_of_crates(self):
        before = self.sum("one")
        for old, new, is_changed in ("two: four", "two:  four", True), ("four:", "four: three", True), ("five: one", "five:", False), ("a remark", "another", False), ("ncp: ", "\nncp: ", False):
            write(f"{self.top}/crates.txt", self.CRATES.replace(old, new, 1))
            self.assertEqual(self.sum("one") != before, is_changed, new)

    def test_the_names_of_files(self):
        before = self.sum("one")
        os.rename(f"{self.top}/crates/four/src/lib.rt", f"{self.top}/crates/four/src/other.rt")
        self.assertNotEqual(self.sum("one"), before)

    def test_no_such_crate(self):
        ran = subprocess.run(["tools/sources", "six"], cwd=self.top, stdout=subprocess.PIPE, stderr=subprocess.PIPE, text=True)
        self.assertEqual((ran.returncode, ran.stdout, ran.stderr), (2, "", "usage: tools/sources [CRATE [FILE..]], a crate of crates.txt\n"))


HAS = "#!/bin/sh\n[ \"$1\" = --has ]\n"


class Library(Scripts):
    """include/install with the library of prebuilt/, which only has a name here."""

    def setUp(self):
        super().setUp()
        self.copy("include/install", "include/ncp.h", "include/ncp_capture.h", "include/ncp_events.h", "include/ncp_output.h")
        write(f"{self.top}/tools/prebuild", HAS, 0o755)
        for at in "", "aarch64/":
            write(f"{self.top}/prebuilt/{at}libncp.a", "archive\n")
            write(f"{self.top}/prebuilt/{at}libncp.so.2", "shared\n")
        self.prefix = f"{self.room.name}/to/{ODD}"

    def install(self):
        self.said("sh", "-c", "umask 077 && include/install --target aarch64 \"$1\"", "sh", self.prefix)

    def test_everybody_can_read_what_root_installs(self):
        self.install()
        closed = [path for at, _, names in os.walk(self.prefix) for path in (at, *(f"{at}/{name}" for name in names)) if os.stat(path).st_mode & 0o044 != 0o044]
        self.assertEqual(closed, [])
        self.assertEqual(os.stat(f"{self.prefix}/lib/pkgconfig/ncp.pc").st_mode & 0o777, 0o644)

    def test_a_link_to_a_folder_of_an_older_install(self):
        os.makedirs(f"{self.prefix}/lib/older")
        os.symlink("older", f"{self.prefix}/lib/libncp.so")
        self.install()
        self.assertEqual(os.readlink(f"{self.prefix}/lib/libncp.so"), "libncp.so.2")
        self.assertEqual(os.listdir(f"{self.prefix}/lib/older"), [])

    @unittest.skipUnless(shutil.which("pkg-config"), "there is no pkg-config")
    def test_a_path_with_blanks(self):
        self.prefix = f"{self.room.name}/to/a b"
        self.install()
        words = self.said("pkg-config", "--cflags", "--libs", "ncp", PKG_CONFIG_PATH=f"{self.prefix}/lib/pkgconfig")
        blank = self.prefix.replace(" ", "\\ ")
        self.assertEqual(words.split(" -"), [f"-I{blank}/include", f"L{blank}/lib", "lncp \n"])


# A compiler, a linker and an archiver that only make what they are to make, and a toolchain that notes what it is asked.
MAKER = """#!/bin/sh
case $1 in rcsD) touch "$2" ;; esac
while [ $# -gt 0 ]; do [ "$1" != -o ] || touch "$2"; shift; done
"""
NOTING = """#!/bin/sh
echo "$*" >>"$ROOM/asked"
case $1 in version) echo "$KIT" ;; doc) echo "$ROOM/kit/START" ;; esac
"""


class Making(Scripts):
    """include/library with the proved archive in place."""

    def setUp(self):
        super().setUp()
        self.copy("include/library", "tools/toolchain")
        write(f"{self.top}/tools/sources", "#!/bin/sh\necho sum\n", 0o755)
        write(f"{self.top}/crates/ncp_embed/out/x86-64/libncp_embed.a", "")
        write(f"{self.top}/crates/ncp_embed/out/x86-64/of", "sum rattle-kit-0 logic 0\n")
        for name in "gcc", "ld", "objcopy", "ar":
            write(f"{self.room.name}/bin/{name}", MAKER, 0o755)
        write(f"{self.room.name}/bin/rt", NOTING, 0o755)

    def library(self, kit):
        return subprocess.run(["include/library", f"{self.room.name}/made"], cwd=self.top, stdout=subprocess.PIPE, stderr=subprocess.STDOUT, text=True,
                              env={**os.environ, "PATH": f"{self.room.name}/bin:{os.environ['PATH']}", "ROOM": self.room.name, "KIT": kit})

    def test_a_link_to_a_folder_of_an_older_library(self):
        os.makedirs(f"{self.room.name}/made/older")
        os.symlink("older", f"{self.room.name}/made/libncp.so")
        ran = self.library("rattle-kit-0 logic 0")
        self.assertEqual((ran.returncode, os.listdir(f"{self.room.name}/made/older")), (0, []), ran.stdout)

    def test_another_program_is_called_rt(self):
        ran = self.library("rt 4.4.4")
        self.assertEqual((ran.returncode, ran.stdout), (2, "include/library: rt, the toolchain, is not on the path\n"))
        self.assertEqual(read(f"{self.room.name}/asked"), "version\n")


class Program(Scripts):
    """tools/program: the program that the launcher would run."""

    def setUp(self):
        super().setUp()
        self.copy("tools/program")
        self.put("ncp", 0)
        self.put("prebuilt/ncp", 0)
        self.put("tools/prebuild", 0)

    def put(self, name, status):
        write(f"{self.top}/{name}", f"#!/bin/sh\nexit {status}\n", 0o755)

    def program(self):
        return self.said("tools/program", NCP="").removesuffix("\n").removeprefix(f"{os.path.realpath(self.top)}/")

    def test_what_is_prebuilt_of_these_sources(self):
        self.assertEqual(self.program(), "prebuilt/ncp")

    def test_what_was_built_here(self):
        """What is prebuilt is of other sources, or for another machine."""
        for name in "tools/prebuild", "prebuilt/ncp":
            self.put(name, 1)
            self.assertEqual(self.program(), "crates/ncp/out/ncp")
            self.put(name, 0)

    def test_another_build(self):
        self.put("ncp", 1)
        self.assertEqual(self.said("tools/program", NCP="/any/program"), "/any/program\n")

    def test_no_program(self):
        self.put("ncp", 2)
        ran = subprocess.run(["tools/program"], cwd=self.top, env={**os.environ, "NCP": ""}, stdout=subprocess.PIPE, text=True)
        self.assertEqual((ran.returncode, ran.stdout), (2, ""))


class AnotherRt(Scripts):
    """Another program is called rt: it is asked for its version, and for nothing else."""

    def test_what_wants_the_toolchain(self):
        self.copy("tools/prove", "tools/build.py", "tools/once.py", "tools/toolchain", "tools/proved_module.py", "web/build")
        write(f"{self.top}/tools/sources", "#!/bin/sh\necho sum\n", 0o755)
        write(f"{self.top}/crates.txt", "ncp:\n")
        write(f"{self.top}/crates/ncp/src/main.rt", "")
        write(f"{self.room.name}/bin/rt", NOTING, 0o755)
        write(f"{self.room.name}/bin/wasm-opt", "#!/bin/sh\n", 0o755)
        for words in ["tools/prove", "ncp"], ["web/build", "--module", "made"]:
            ran = subprocess.run(words, cwd=self.top, stdout=subprocess.PIPE, stderr=subprocess.STDOUT, text=True,
                                 env={**os.environ, "PATH": f"{self.room.name}/bin:{os.environ['PATH']}", "ROOM": self.room.name, "KIT": "rt 4.4.4"})
            self.assertEqual((ran.returncode, ran.stdout), (1, f"{words[0]}: rt, the toolchain, is not on the path\n"))
        self.assertEqual(read(f"{self.room.name}/asked"), "version\nversion\n")


class Plugin(Scripts):
    def setUp(self):
        super().setUp()
        self.copy("wireshark/install")
        for name in "one", "two":
            write(f"{self.top}/wireshark/plugin/{name}.lua", f"-- {name}\n")
        for name in "ARPANET", "ARPANET-more":
            write(f"{self.top}/wireshark/profiles/{name}/preferences", f"# {name}\n")
        write(f"{self.top}/wireshark/profiles/colorfilters", "# colours\n")
        self.home = f"{self.room.name}/home {ODD}"
        self.plugins = f"{self.home}/.local/lib/wireshark/plugins/arpanet"
        self.profiles = f"{self.home}/.config/wireshark/profiles"

    def install(self, *words):
        return self.said("wireshark/install", *words, HOME=self.home, XDG_CONFIG_HOME="")

    def below(self, folder):
        return sorted(os.path.relpath(f"{at}/{name}", folder) for at, _, names in os.walk(folder) for name in names)

    def test_all_is_there_and_all_goes(self):
        self.install()
        self.assertEqual(self.below(self.plugins), ["installed", "one.lua", "two.lua"])
        self.assertEqual(self.below(self.profiles), ["ARPANET-more/colorfilters", "ARPANET-more/preferences", "ARPANET/colorfilters", "ARPANET/preferences"])
        self.assertNotIn("changed", self.install())
        self.install("--remove")
        self.assertEqual((self.below(self.home), os.listdir(self.profiles)), ([], []))

    def test_what_an_older_version_left(self):
        self.install()
        os.remove(f"{self.top}/wireshark/plugin/two.lua")
        shutil.rmtree(f"{self.top}/wireshark/profiles/ARPANET-more")
        write(f"{self.top}/wireshark/profiles/ARPANET/preferences", "# newer\n")
        self.assertNotIn("changed", self.install())
        self.assertEqual(self.below(self.plugins), ["installed", "one.lua"])
        self.assertEqual(os.listdir(self.profiles), ["ARPANET"])
        self.assertEqual(read(f"{self.profiles}/ARPANET/preferences"), "# newer\n")

    def test_a_version_that_left_no_sums(self):
        write(f"{self.plugins}/older.lua", "-- older\n")
        write(f"{self.profiles}/ARPANET/preferences", "# older\n")
        said = self.install()
        self.assertEqual(self.below(self.plugins), ["installed", "one.lua", "two.lua"])
        self.assertIn("changed since it was installed, and kept", said)
        self.assertEqual(read(f"{self.profiles}/ARPANET/preferences.old"), "# older\n")

    def test_what_its_user_changed(self):
        self.install()
        for text in "# mine\n", "# mine too\n":
            write(f"{self.profiles}/ARPANET/preferences", text)
            said = self.install()
            self.assertIn(f"kept: {self.profiles}/ARPANET/preferences.old\n", said)
        self.assertEqual(read(f"{self.profiles}/ARPANET/preferences"), "# ARPANET\n")
        write(f"{self.profiles}/ARPANET/colorfilters", "# my colours\n")
        said = self.install("--remove")
        self.assertIn(f"kept: {self.profiles}/ARPANET/colorfilters.old\n", said)
        self.assertIn(f"left, since other files are in it: {self.profiles}/ARPANET\n", said)
        kept = sorted(read(f"{self.profiles}/{name}") for name in self.below(self.profiles))
        self.assertEqual(kept, ["# mine\n", "# mine too\n", "# my colours\n"])

    def test_a_profile_of_its_user(self):
        self.install()
        shutil.copytree(f"{self.profiles}/ARPANET", f"{self.profiles}/ARPANET-mine")
        self.install()
        said = self.install("--remove")
        self.assertEqual(self.below(self.profiles), ["ARPANET-mine/colorfilters", "ARPANET-mine/preferences"])
        self.assertIn("left, since other files are in it", said)


if __name__ == "__main__":
    unittest.main()
