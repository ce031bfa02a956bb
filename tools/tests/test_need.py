"""tools/need with two commands to look for, and an apt-get that makes them or fails as apt-get does."""
import contextlib
import importlib.machinery
import importlib.util
import io
import os
import sys
import tempfile
import unittest
from unittest import mock

TOP = os.path.dirname(os.path.dirname(os.path.dirname(os.path.abspath(__file__))))
# It records what it is asked to install, and fails as FAULT demands.
APT_GET = """#!/bin/sh
[ "$FAULT" != slow ] || sleep 60
case " $* " in
*" update "*) case "$FAULT" in unreached | partly) echo "W: Failed to fetch http://127.0.0.1/Release"; exit 100 ;; esac ;;
*" install "*)
    echo "${*##*recommends }" >>"$ROOM/asked"
    [ "$FAULT" != broken ] || { echo "E: dpkg was interrupted"; exit 100; }
    [ "$FAULT" != unreached ] || { echo "E: Unable to locate package of-one"; exit 100; }
    [ "$FAULT" != lost ] || { echo "E: Unable to fetch some archives"; exit 100; }
    case "$FAULT $*" in unknown*of-two*) echo "E: Unable to locate package of-two"; exit 100 ;; esac
    for name in one two; do case "$*" in *of-$name*) echo >"$ROOM/bin/$name"; chmod +x "$ROOM/bin/$name" ;; esac; done
    ;;
esac
"""


def module():
    """tools/need, as a module with a table of two commands."""
    loader = importlib.machinery.SourceFileLoader("need", f"{TOP}/tools/need")
    found = importlib.util.module_from_spec(importlib.util.spec_from_loader("need", loader))
    with mock.patch.object(sys, "dont_write_bytecode", True):
        loader.exec_module(found)
    found.WANTED = (("one", "of-one", "c"), ("two", "of-two", "page"))
    found.WANTED_EVERYWHERE = (("three", "of-three", "everywhere"),)
    if os.environ.get("FAULT") == "slow":
        found.APT_GET = tuple("1" if it == f"{found.SECONDS}" else it for it in found.APT_GET)
    return found


class Needing(unittest.TestCase):
    def setUp(self):
        self.room = tempfile.TemporaryDirectory()
        self.addCleanup(self.room.cleanup)
        self.bin = f"{self.room.name}/bin"
        os.mkdir(self.bin)
        self.put("apt-get", APT_GET)

    def put(self, name, text="#!/bin/sh\n"):
        with open(f"{self.bin}/{name}", "w", encoding="utf-8") as file:
            file.write(text)
        os.chmod(f"{self.bin}/{name}", 0o755)

    def need(self, *words, fault=""):
        """The status, and the lines that begin with its name."""
        said = io.StringIO()
        with mock.patch.dict(os.environ, PATH=f"{self.bin}:/usr/bin:/bin", ROOM=self.room.name, FAULT=fault), mock.patch.object(sys, "argv", ["need", *words]), contextlib.redirect_stdout(said):
            status = module().main()
        return status, [line for line in said.getvalue().splitlines() if line.startswith("tools/need: ")]

    def asked(self):
        with open(f"{self.room.name}/asked", encoding="utf-8") as file:
            return file.read().splitlines()

    def test_it_lists_what_is_not_here(self):
        self.put("one")
        self.assertEqual(self.need(), (1, ["tools/need: two is not here: of-two, for page"]))
        self.put("two")
        self.assertEqual(self.need(), (0, []))
        self.assertEqual(self.need("--install"), (0, []))

    def test_it_installs_that_alone(self):
        self.put("one")
        self.assertEqual(self.need("--install"), (0, ["tools/need: installing of-two"]))
        self.assertEqual(self.asked(), ["of-two"])

    def test_what_is_wanted_everywhere(self):
        for name in "one", "two":
            self.put(name)
        self.assertEqual(self.need("--everywhere"), (1, ["tools/need: three is not here: of-three, for everywhere"]))
        self.assertEqual(self.need("--everywhere", "--install")[1][0], "tools/need: installing of-three")
        self.put("three")
        self.assertEqual(self.need("--everywhere"), (0, []))

    def test_no_registry(self):
        for fault in "unreached", "lost", "slow":
            status, lines = self.need("--install", fault=fault)
            self.assertEqual((status, lines[-1]), (3, "tools/need: the registry of packages cannot be reached"), fault)

    def test_a_registry_of_several_that_is_not_wanted(self):
        self.assertEqual(self.need("--install", fault="partly")[0], 0)

    def test_a_package_that_is_not_known(self):
        status, lines = self.need("--install", fault="unknown")
        self.assertEqual((status, lines[-1]), (1, "tools/need: two is not here: of-two, for page"))
        self.assertEqual(self.asked(), ["of-one of-two", "of-one", "of-two"])

    def test_apt_get_that_fails(self):
        status, lines = self.need("--install", fault="broken")
        self.assertEqual((status, len(lines)), (1, 3))

    @unittest.skipUnless(os.path.exists("/usr/bin/python3"), "there is no Python of Debian")
    def test_a_module_of_debians_python(self):
        self.assertEqual([module().is_here(f"{name} (Python)") for name in ("json", "no_such_module")], [True, False])

    def test_no_apt_get(self):
        found = module()
        found.APT_GET = (f"{self.room.name}/apt-get",)
        self.assertEqual(found.apt_get("update"), (1, "apt-get: No such file or directory"))


if __name__ == "__main__":
    unittest.main()
