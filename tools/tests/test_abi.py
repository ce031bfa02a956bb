"""include/abi with its own header and a library of two functions: a difference is refused, with a message that shows what to do."""
import shutil
import subprocess
import tempfile
import unittest
from pathlib import Path

TOP = Path(__file__).resolve().parent.parent.parent
HEADER = """#define NCP_VERSION "3.0.0"
#include <stddef.h>
#include <stdint.h>

struct ncp_one {
    uint32_t a; /* the first; of two */
    uint8_t b;
};

struct ncp_other {
    uint8_t bytes[3];
};
#define NCP_STRUCTS(EACH) EACH(ncp_one) EACH(ncp_other)
const uint32_t *ncp_sizes(void);
const char *ncp_version(void);
"""
LIBRARY = """#include "ncp.h"
#define SIZE_OF(name) sizeof(struct name),
const uint32_t *ncp_sizes(void) { static const uint32_t all[] = {NCP_STRUCTS(SIZE_OF) 0}; return all; }
const char *ncp_version(void) { return NCP_VERSION; }
"""
ABI = """libncp.so.3
ncp_one 8
ncp_one.a 0 4
ncp_one.b 4 1
ncp_other 3
ncp_other.bytes 0 3
"""
NEVER = "a struct never changes while the library is libncp.so.3"


@unittest.skipUnless(shutil.which("cc"), "there is no C compiler")
class Abi(unittest.TestCase):
    def setUp(self):
        room = tempfile.TemporaryDirectory()
        self.addCleanup(room.cleanup)
        self.room = Path(room.name)
        shutil.copy(TOP / "include/abi", self.room)
        (self.room / "abi.txt").write_text(ABI, encoding="utf-8")

    def library(self, header, name="libncp.so.3"):
        """A shared library that is made with a header, by its own name."""
        (self.room / "ncp.h").write_text(header, encoding="utf-8")
        made = self.room / name
        words = ["cc", "-shared", "-fPIC", f"-Wl,-soname,{name}", f"-I{self.room}", "-o", made, "-x", "c", "-"]
        subprocess.run(words, input=LIBRARY, text=True, check=True)
        return made

    def said(self, header, library):
        """The status and the output of include/abi."""
        (self.room / "ncp.h").write_text(header, encoding="utf-8")
        words = [self.room / "abi", "--run", f"env LD_LIBRARY_PATH={self.room}", library, "cc"]
        ran = subprocess.run(words, stdout=subprocess.PIPE, stderr=subprocess.STDOUT, text=True)
        return ran.returncode, ran.stdout

    def is_refused(self, header, library, why):
        status, said = self.said(header, library)
        self.assertEqual(status, 1, said)
        self.assertIn(why, said)

    def test_as_it_was(self):
        self.assertEqual(self.said(HEADER, self.library(HEADER)), (0, "5 sizes and fields of libncp.so.3: as in abi.txt\n"))

    def test_a_struct_that_changed(self):
        for header in (
            HEADER.replace("    uint8_t b;\n", "    uint8_t b;\n    uint32_t c;\n"),
            HEADER.replace("    uint8_t b;\n", "    uint8_t b;\n    uint8_t c;\n"),
            HEADER.replace("uint8_t b;", "uint16_t b;"),
            HEADER.replace("uint8_t b;", "uint8_t d;"),
            HEADER.replace("bytes[3]", "bytes[4]"),
        ):
            self.is_refused(header, self.library(header), NEVER)

    def test_fields_that_changed_places(self):
        header = HEADER.replace("    uint8_t b;\n", "").replace("    uint32_t a;", "    uint8_t b;\n    uint32_t a;")
        self.is_refused(header, self.library(header), NEVER)

    def test_a_new_name_wants_its_lines(self):
        self.is_refused(HEADER.replace("3.0.0", "4.0.0"), self.library(HEADER.replace("3.0.0", "4.0.0")), "+ libncp.so.4")

    def test_a_library_of_another_header(self):
        library = self.library(HEADER.replace("    uint8_t b;\n", "    uint8_t b;\n    uint32_t c;\n"))
        self.is_refused(HEADER, library, "the library has another size than the header")

    def test_a_struct_that_is_not_listed(self):
        header = HEADER.replace(" EACH(ncp_other)", "")
        self.is_refused(header, self.library(header), "NCP_STRUCTS has not just the structs of the header")

    def test_a_library_of_another_name(self):
        self.is_refused(HEADER, self.library(HEADER, "libncp.so.1"), "has the name libncp.so.1, and abi.txt says libncp.so.3")


if __name__ == "__main__":
    unittest.main()
