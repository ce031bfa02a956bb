"""tools/has_memory over crates of its own, and over those of this repository: each function that may fail to allocate has a test."""
import subprocess
import sys
import tempfile
import unittest
from pathlib import Path

TOP = Path(__file__).resolve().parent.parent.parent
TOOLS = "has_memory", "reading.py", "edits.py"
STORE = """//! Stores.
use std::alloc::{AllocError, Global};

pub enum Fault {
    Full = 1,
    OutOfMemory = 2,
}

pub struct Store {
    inner: Inner,
}

pub struct Inner {
    bytes: Vec<u8>,
}

impl Store {
    pub fn new(alloc: Global) -> Result<Self, AllocError>
        ensures { IfOk result (λ store. Store.other store) }
    {
        Ok(Store { inner: Inner::new(alloc)? })
    }

    pub fn copy(&self, alloc: Global) -> Result<Self, AllocError> {
        Ok(Store { inner: self.inner.copy(alloc)? })
    }

    pub fn put(&mut self, byte: u8) -> Result<(), Fault> {
        self.inner.bytes.push(byte)
    }

    pub fn len(&self) -> usize {
        self.inner.bytes.len()
    }
}

impl Inner {
    pub fn new(alloc: Global) -> Result<Self, AllocError> {
        Ok(Inner { bytes: Vec::new(alloc) })
    }

    pub fn copy(&self, alloc: Global) -> Result<Self, AllocError> {
        // Store::put(byte) is no call
        Inner::new(alloc)
    }
}

pub struct Other {
    count: u8,
}

impl Other {
    pub fn copy(&self, alloc: Global) -> Result<Self, AllocError> {
        Ok(Other { count: self.count })
    }
}
"""
TESTS = """//! Tests.
use store::Store;
use std::alloc::Global;
use std::test::Fail;

fn made(alloc: Global) -> Result<Store, Fail> {
    Ok(Store::new(alloc)?)
}

#[test]
fn copies(rt: HostRuntime) -> Result<(), Fail> {
    let store = made(rt.alloc())?;
    store.copy(rt.alloc())?;
    Ok(())
}
"""
HEADER = """/* Makes one.
 * Error: NCP_NEW_OUT_OF_MEMORY. */
uint32_t ncp_new(struct ncp_host *host);

/* Whether there is one. */
bool ncp_is_made(const struct ncp_host *host);
"""
TABLE = """# Tests.
ncp_test_store: copies
    sizes: 1, 2 .. 8 stores
    store Store::new
    store Store::copy
    store Inner::new
    store Inner::copy

examples/embed/new.c
    sizes: one
    C ncp_new
"""
LISTED = """store Store::new: ncp_test_store: copies, sizes: 1, 2 .. 8 stores
store Store::copy: ncp_test_store: copies, sizes: 1, 2 .. 8 stores
store Inner::new: ncp_test_store: copies, sizes: 1, 2 .. 8 stores
store Inner::copy: ncp_test_store: copies, sizes: 1, 2 .. 8 stores
C ncp_new: examples/embed/new.c, sizes: one
"""
LACKING = """store Store::put: no test calls it with ample memory
store Other::copy: no test calls it with ample memory
"""
CALLED = "7 functions may fail to allocate, and tests of tools/has_memory.txt call {} of them\n"


class HasMemory(unittest.TestCase):
    def setUp(self):
        room = tempfile.TemporaryDirectory()
        self.addCleanup(room.cleanup)
        self.room = Path(room.name)
        for name in TOOLS:
            self.put(f"tools/{name}", (TOP / "tools" / name).read_text(encoding="utf-8"))
        self.put("crates.txt", "store:\nncp_test_store: store\n")
        self.put("crates/store/src/lib.rt", STORE)
        self.put("crates/ncp_test_store/src/lib.rt", TESTS)
        self.put("include/ncp.h", HEADER)
        self.put("tools/has_memory.txt", TABLE)
        self.put("examples/embed/new.c", "int main(void) { return ncp_new(&host) == NCP_DONE ? 0 : 1; }\n")

    def put(self, name, text):
        path = self.room / name
        path.parent.mkdir(parents=True, exist_ok=True)
        path.write_text(text, encoding="utf-8")

    def said(self, *words):
        ran = subprocess.run([sys.executable, "-B", self.room / "tools/has_memory", *words], stdout=subprocess.PIPE, stderr=subprocess.STDOUT, text=True)
        return ran.returncode, ran.stdout

    def test_what_no_test_calls(self):
        self.assertEqual(self.said(), (1, LACKING + CALLED.format(5)))

    def test_the_list(self):
        self.assertEqual(self.said("--list"), (1, LISTED + LACKING + CALLED.format(5)))

    def test_all_are_called(self):
        self.put("crates/ncp_test_store/src/lib.rt", TESTS.replace("    Ok(())\n}\n", "    store.put(1)?;\n    let other: Other = other();\n    other.copy(rt.alloc())?;\n    Ok(())\n}\n"))
        self.put("tools/has_memory.txt", TABLE.replace("    store Inner::new\n", "    store Inner::new\n    store Store::put\n    store Other::copy\n"))
        self.assertEqual(self.said(), (0, CALLED.format(7)))

    def lacks(self, table, *said):
        """Whether this is said of a table, beside what it lacks in any case."""
        self.put("tools/has_memory.txt", table)
        status, lines = self.said()
        self.assertEqual((status, lines.split(LACKING.splitlines()[0])[0].splitlines()), (1, list(said)))

    def test_a_test_that_does_not_call_it(self):
        self.lacks(TABLE + "    store Other::copy\n", "store Other::copy: examples/embed/new.c does not call it")

    def test_a_function_that_cannot_fail(self):
        self.lacks(TABLE + "    store Store::len\n", "store Store::len: no such function may fail to allocate")

    def test_sizes_that_are_not_three(self):
        for sizes in "sizes: 1 and 8 stores", "sizes: ones", "":
            self.lacks(TABLE.replace("sizes: 1, 2 .. 8 stores", sizes), "ncp_test_store: copies: has no three sizes")

    def test_a_test_beside_another(self):
        self.lacks(TABLE.replace("examples/embed/new.c\n", "examples/embed/new.c\nexamples/embed/old.c\n"), "examples/embed/old.c: there is no such test")
        self.put("examples/embed/old.c", "int main(void) { return 0; }\n")
        self.lacks(TABLE.replace("examples/embed/new.c\n", "examples/embed/new.c\nexamples/embed/old.c\n"), "C ncp_new: examples/embed/old.c does not call it")

    def test_a_test_that_is_gone(self):
        self.put("crates/ncp_test_store/src/lib.rt", TESTS.replace("#[test]\n", ""))
        status, said = self.said()
        self.assertEqual((status, said.splitlines()[0]), (1, "ncp_test_store: copies: there is no such test"))

    def test_a_result_in_c_that_nothing_looks_at(self):
        self.put("examples/embed/new.c", "int main(void) { return ncp_new(&host); }\n")
        self.assertIn("C ncp_new: examples/embed/new.c does not call it\n", self.said()[1])

    def test_a_function_for_the_page(self):
        self.put("crates/store/src/lib.rt", STORE + '\n#[unsafe(no_mangle)]\npub extern "C" fn ncp_web_open(alloc: Global) -> u32 {\n    0\n}\n')
        self.put("tools/has_memory.txt", TABLE + "\nweb/test: test_sizes\n    sizes: one\n    page ncp_web_open\n")
        self.assertIn("web/test: test_sizes: there is no such test\n", self.said()[1])
        self.put("web/page/main.js", 'module.answer("close");\n')
        self.put("web/test", "    def test_sizes(self):\n        pass\n")
        self.assertIn("page ncp_web_open: web/test: test_sizes does not call it\n", self.said()[1])
        self.put("web/page/main.js", 'module.answer("open");\n')
        self.assertIn("page ncp_web_open: web/test: test_sizes, sizes: one\n", self.said("--list")[1])

    def test_this_repository(self):
        ran = subprocess.run([sys.executable, "-B", TOP / "tools/has_memory"], stdout=subprocess.PIPE, stderr=subprocess.STDOUT, text=True)
        self.assertEqual(ran.returncode, 0, ran.stdout)


if __name__ == "__main__":
    unittest.main()
