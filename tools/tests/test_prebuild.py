"""tools/prebuild in a repository of three crates, with a toolchain that only prints its name: prebuilt files are compared with
those built here by their bytes, and with another kit by their answers."""
import hashlib
import os
import shutil
import subprocess
import sys
import tempfile
import time
import unittest

TOP = os.path.dirname(os.path.dirname(os.path.dirname(os.path.abspath(__file__))))
RT = """#!/bin/sh
[ "$1" = version ] && echo "$KIT"
"""
LIBRARY = """#!/bin/sh
mkdir -p "$3"
for name in libncp.a libncp.so.2; do
    [ "$1" = --target ] && cat "$(dirname "$0")/../crates/ncp_embed/src/lib.rt" >"$3/$name" && echo "$name $2$REMARK" >>"$3/$name"
done
"""
# The other commands that the tools call: so nothing else is on the path.
COMMANDS = ("awk", "b2sum", "cat", "dirname", "env", "find", "mkdir", "sh", "sort", "xargs")
PAGE = """#!/bin/sh
cd "$(dirname "$0")/.." || exit
[ "$1" != --check ] || exit "${PAGE_DIFFERS:-0}"
[ "$1" != --module ] || { cat crates/ncp_web/src/lib.rt >"$2" && echo "$REMARK" >>"$2"; exit; }
echo page >web/ncp.html
"""
ONE_FILE = """#!/bin/sh
case $1 in ncp.c) of=ncp_embed/src/lib.rt ;; *) of=ncp/src/main.rt ;; esac
cat "$(dirname "$0")/../crates/$of" >"$2" && "$(dirname "$0")/../tools/prebuild" --sources "$1" >>"$2" && echo "$REMARK" >>"$2"
"""
PROGRAM = """#!/bin/sh
# {remark}
echo {answer} "$@"
"""
CRATES = """ncp:
ncp_embed staticlib:
ncp_web staticlib:
"""


def write(path, text, mode=0o644):
    os.makedirs(os.path.dirname(path), exist_ok=True)
    with open(path, "w", encoding="utf-8") as file:
        file.write(text)
    os.chmod(path, mode)


def sum_of(text):
    return hashlib.sha256(text.encode()).hexdigest()


class Prebuilding(unittest.TestCase):
    def setUp(self):
        self.room = tempfile.TemporaryDirectory()
        self.addCleanup(self.room.cleanup)
        self.top = f"{self.room.name}/top"
        for name in ("prebuild", "sources", "prove"):
            os.makedirs(f"{self.top}/tools", exist_ok=True)
            shutil.copy(f"{TOP}/tools/{name}", f"{self.top}/tools")
        self.bin = f"{self.room.name}/bin"
        for name, text in ("rt", RT), ("gcc", ""), ("aarch64-linux-gnu-gcc", ""), ("wasm-opt", ""):
            write(f"{self.bin}/{name}", text, 0o755)
        for name in COMMANDS:
            os.symlink(shutil.which(name), f"{self.bin}/{name}")
        os.symlink(sys.executable, f"{self.bin}/python3")
        os.makedirs(f"{self.top}/.git")
        write(f"{self.top}/include/library", LIBRARY, 0o755)
        write(f"{self.top}/web/build", PAGE, 0o755)
        write(f"{self.top}/onefile/build", ONE_FILE, 0o755)
        for name in ("ncp.h", "checks.c", "heap.c"):
            write(f"{self.top}/include/{name}", f"/* {name} */\n")
        write(f"{self.top}/crates.txt", CRATES)
        write(f"{self.top}/crates/ncp/src/main.rt", "code\n")
        write(f"{self.top}/crates/ncp_embed/src/lib.rt", "code of the library\n")
        write(f"{self.top}/crates/ncp_web/src/lib.rt", "code of the page\n")
        write(f"{self.top}/examples/one.script", "hosts 1 2\n")
        self.kit = "kit one"
        self.build()

    def build(self, remark="one build", answer="answer"):
        """Builds the program, after all sources were touched."""
        time.sleep(0.01)
        write(f"{self.top}/crates/ncp/out/ncp", PROGRAM.format(remark=remark, answer=answer), 0o755)

    def text_of(self, name):
        """What a file has, or None."""
        if not os.path.exists(f"{self.top}/{name}"):
            return None
        with open(f"{self.top}/{name}", encoding="utf-8") as file:
            return file.read()

    def prebuild(self, *words, **environment):
        """The status and the output of tools/prebuild."""
        ran = subprocess.run([f"{self.top}/tools/prebuild", *words], env={**os.environ, "PATH": self.bin, "KIT": self.kit, **environment},
                             stdout=subprocess.PIPE, stderr=subprocess.STDOUT, text=True)
        return ran.returncode, ran.stdout

    def test_what_was_made_is_as_here(self):
        self.assertEqual(self.prebuild()[0], 0)
        status, said = self.prebuild("--compare")
        self.assertEqual(status, 0, said)
        self.assertIn("the same bytes as here", said)

    def test_nothing_is_there(self):
        status, said = self.prebuild("--compare")
        self.assertEqual(status, 1)
        self.assertIn("run tools/prebuild", said)

    def test_other_sources(self):
        self.prebuild()
        write(f"{self.top}/crates/ncp/src/main.rt", "other code\n")
        self.build()
        status, said = self.prebuild("--compare")
        self.assertEqual(status, 1)
        self.assertIn("prebuilt/ncp was built from other sources", said)
        self.assertIn("prebuilt/libncp.a is of these sources", said)
        self.assertIn("run tools/prebuild", said)

    def test_what_the_archives_are_made_of(self):
        self.prebuild()
        write(f"{self.top}/include/heap.c", "other code\n")
        status, said = self.prebuild("--compare")
        self.assertEqual(status, 1)
        self.assertIn("prebuilt/libncp.a is of these sources", said)
        self.assertIn("prebuilt/aarch64/libncp.a was built from other sources", said)
        self.assertEqual([self.prebuild("--has", name)[0] for name in ("ncp", "libncp.so.2", "aarch64/libncp.so.2")], [0, 0, 1])
        write(f"{self.top}/include/ncp.h", "other code\n")
        self.assertEqual([self.prebuild("--has", name)[0] for name in ("ncp", "libncp.a", "aarch64/libncp.a")], [0, 1, 1])

    def test_what_the_module_is_made_of(self):
        write(f"{self.top}/web/module/heap.c", "code\n")
        self.prebuild()
        self.assertEqual(self.prebuild("--has", "ncp.wasm")[0], 0)
        write(f"{self.top}/web/module/heap.c", "other code\n")
        self.assertEqual([self.prebuild("--has", name)[0] for name in ("ncp", "ncp.wasm", "libncp.a")], [0, 1, 0])

    def test_what_the_one_file_is_made_of(self):
        """The file has the sum of its sources inside; another way of writing it is another source."""
        write(f"{self.top}/onefile/maker/heap.h", "code\n")
        self.prebuild()
        with open(f"{self.top}/prebuilt/ncp.c", encoding="utf-8") as file:
            self.assertEqual(file.read(), f"code of the library\n{self.prebuild('--sources', 'ncp.c')[1]}\n")
        for name in "onefile/maker/heap.h", "include/checks.c", "tools/proved_module.py", "web/module/wide.c", "THIRD-PARTY.md":
            self.assertEqual(self.prebuild("--has", "ncp.c")[0], 0)
            before = self.text_of(name)
            write(f"{self.top}/{name}", "other code\n")
            self.assertEqual(self.prebuild("--has", "ncp.c")[0], 1, name)
            os.remove(f"{self.top}/{name}") if before is None else write(f"{self.top}/{name}", before)
        self.assertEqual(self.prebuild("--has", "ncp.c")[0], 0)

    def test_what_the_program_as_one_file_is_made_of(self):
        self.prebuild()
        self.assertEqual(self.text_of("prebuilt/ncp_program.c"), f"code\n{self.prebuild('--sources', 'ncp_program.c')[1]}\n")
        for name, wanted in ("crates/ncp/src/main.rt", (0, 1)), ("crates/ncp_embed/src/lib.rt", (1, 0)), ("onefile/maker/system.h", (1, 1)), ("include/checks.c", (1, 0)), ("tools/proved_program.py", (0, 1)):
            before = self.text_of(name)
            write(f"{self.top}/{name}", "other code\n")
            self.assertEqual(tuple(self.prebuild("--has", it)[0] for it in ("ncp.c", "ncp_program.c")), wanted, name)
            os.remove(f"{self.top}/{name}") if before is None else write(f"{self.top}/{name}", before)

    def test_each_target_has_its_archive(self):
        self.prebuild()
        for at, target in ("", "x86-64"), ("aarch64/", "aarch64"):
            for name in "libncp.a", "libncp.so.2":
                with open(f"{self.top}/prebuilt/{at}{name}", encoding="utf-8") as file:
                    self.assertEqual(file.read(), f"code of the library\n{name} {target}\n")

    def test_other_bytes(self):
        self.prebuild()
        self.build(remark="another build")
        status, said = self.prebuild("--compare")
        self.assertEqual(status, 1)
        self.assertIn("is other bytes than", said)

    def test_a_comparison_builds_nothing(self):
        self.prebuild()
        os.remove(f"{self.top}/crates/ncp/out/ncp")
        write(f"{self.top}/tools/prove", "#!/bin/sh\ntouch built\n", 0o755)
        status, said = self.prebuild("--compare")
        self.assertEqual(status, 1)
        self.assertIn("run tools/prove ncp", said)
        self.assertFalse(os.path.exists("built") or os.path.exists(f"{self.top}/built"))

    def test_a_file_that_sums_do_not_know(self):
        self.prebuild()
        write(f"{self.top}/prebuilt/ncp", "something else", 0o755)
        status, said = self.prebuild("--compare")
        self.assertEqual(status, 1)
        self.assertIn("is not the file of which SUMS has the sum", said)

    def test_another_kit_with_the_same_answers(self):
        self.prebuild()
        self.kit = "kit two"
        self.build(remark="the build of another kit")
        status, said = self.prebuild("--compare")
        self.assertEqual(status, 0, said)
        self.assertIn("another kit, kit one", said)
        self.assertIn("answers as here", said)

    def test_another_kit_with_other_answers(self):
        self.prebuild()
        self.kit = "kit two"
        self.build(answer="another")
        status, said = self.prebuild("--compare")
        self.assertEqual(status, 1)
        self.assertIn("answers otherwise than", said)
        self.assertIn("examples/one.script", said)


    def swap(self, name, text):
        """Puts another file in the place of a prebuilt one, with its line in SUMS."""
        path = f"{self.top}/prebuilt/{name}"
        with open(path, encoding="utf-8") as file:
            was = file.read()
        write(path, text)
        with open(f"{self.top}/prebuilt/SUMS", encoding="utf-8") as file:
            sums = file.read()
        self.assertIn(sum_of(was), sums)
        write(f"{self.top}/prebuilt/SUMS", sums.replace(sum_of(was), sum_of(text)))

    def test_all_is_made_again_once(self):
        self.prebuild()
        status, said = self.prebuild("--again")
        self.assertEqual((status, said.count("was made again, and is the same bytes")), (0, 7), said)
        status, said = self.prebuild("--again")
        self.assertEqual((status, said.count("made again here before")), (0, 5), said)
        status, said = self.prebuild("--all")
        self.assertEqual((status, said.count("was made again, and is the same bytes")), (0, 7), said)
        self.assertIn("prebuilt/ncp is of these sources, and the same bytes as here", said)

    def test_a_file_that_was_swapped_with_its_sum(self):
        self.prebuild()
        self.prebuild("--again")
        for name in "libncp.a", "aarch64/libncp.so.2", "ncp.wasm":
            self.swap(name, f"somebody's {name}\n")
            self.assertEqual(self.prebuild("--compare")[0], 0)
            status, said = self.prebuild("--again")
            self.assertEqual(status, 1, said)
            self.assertIn(f"prebuilt/{name} is other bytes than", said)
            self.prebuild()

    def test_other_sources_are_made_again(self):
        self.prebuild()
        self.prebuild("--again")
        write(f"{self.top}/crates/ncp_web/src/lib.rt", "other code\n")
        self.assertEqual(self.prebuild("--again")[0], 1)
        self.prebuild()
        status, said = self.prebuild("--again")
        self.assertEqual((status, said.count("made again here before"), said.count("was made again, and is the same bytes")), (0, 4, 1), said)

    def test_made_again_by_another_kit(self):
        self.prebuild()
        self.prebuild("--again")
        self.kit = "kit two"
        status, said = self.prebuild("--again")
        self.assertEqual((status, said.count("was made again, and is the same bytes")), (0, 7), said)
        self.kit = "kit three"
        status, said = self.prebuild("--again", REMARK=" by kit three")
        self.assertEqual((status, said.count("is other bytes than")), (1, 7), said)

    def test_made_again_without_a_compiler(self):
        self.prebuild()
        os.remove(f"{self.bin}/aarch64-linux-gnu-gcc")
        status, said = self.prebuild("--again")
        self.assertEqual(status, 0, said)
        self.assertIn("prebuilt/aarch64/libncp.so.2: left out, since aarch64-linux-gnu-gcc is not here", said)

    def test_a_page_that_is_not_as_it_would_be_made(self):
        self.prebuild()
        self.assertEqual(self.prebuild("--again", PAGE_DIFFERS="1")[0], 1)


if __name__ == "__main__":
    unittest.main()
