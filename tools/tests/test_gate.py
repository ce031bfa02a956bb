"""./test all with a toolchain that only prints a gate's output, and steps that only print their names: its last line is the
gate's, the steps run in parallel, and a step that fails, or in CI skips something, fails it."""
import os
import shutil
import subprocess
import sys
import tempfile
import unittest

TOP = os.path.dirname(os.path.dirname(os.path.dirname(os.path.abspath(__file__))))
# Its gate waits for the first parallel step.
RT = """#!/bin/sh
[ "$1" = version ] && { echo rattle-kit-none logic 0; exit; }
echo "rt $*"
for _ in 1 2 3 4 5 6 7 8 9 10; do [ -e "$ROOM/asked" ] && echo "side by side" && break; sleep 1; done
echo "$VERDICT"
exit $STATUS
"""
ANOTHER_RT = """#!/bin/sh
echo rt 4.4.4
"""
# Each step prints its name and its niceness, and a function that is proved; it fails if FAILS has its name, or the first time if
# FAILS_ONCE has it.
STEP = """#!/bin/sh
name=${0##*/}
case $0 in */fuzz/run) name=random ;; */web/test) name=page ;; */onefile/fuzz) name=functions ;; */prebuild) [ "$1" != --again ] || name=again ;; esac
echo "$name $* at $(nice)"
echo "fn ncp_monitor::reply::skipped: proved"
case " $LEAVES_OUT " in *" $name "*) echo "aarch64: left out, since its compiler is not there" ;; esac
grep -q "^$name" "$ROOM/asked" 2>/dev/null && FAILS_ONCE=
echo "$name $*" >>"$ROOM/asked"
case " $FAILS $FAILS_ONCE " in *" $name "*) exit 1 ;; esac
"""
STEPS = ("ncp", "bench/refuse.py", "tools/try_launcher", "examples/compare", "tools/try_habits", "examples/embed/run", "bindings/test", "tools/index", "tools/words", "tools/figures", "tools/price", "tools/try_reference", "wireshark/test",
         "wireshark/fuzz", "include/fuzz/run", "onefile/try", "onefile/try_program", "onefile/fuzz", "web/build", "web/test", "web/test_arrivals", "tools/prebuild", "tools/mutants", "tools/prove")
COMMANDS = ("cc", "clang", "valgrind", "tshark", "sharkd", "lua5.2")
NONE = """import unittest


class None_(unittest.TestCase):
    def test_nothing(self):
        pass
"""


class Gate(unittest.TestCase):
    def setUp(self):
        self.room = tempfile.TemporaryDirectory()
        self.addCleanup(self.room.cleanup)
        self.top = f"{self.room.name}/top"
        for name in "test", ".ci/run", "tools/once.py", "tools/toolchain":
            os.makedirs(os.path.dirname(f"{self.top}/{name}"), exist_ok=True)
            shutil.copy(f"{TOP}/{name}", f"{self.top}/{name}")
        for name in STEPS:
            self.write(f"{self.top}/{name}", STEP)
        for name in COMMANDS:
            self.write(f"{self.room.name}/bin/{name}", "#!/bin/sh\n")
        self.write(f"{self.room.name}/bin/rt", RT)
        self.write(f"{self.top}/tools/tests/test_nothing.py", NONE)
        self.write(f"{self.top}/docs/believed.py", "")

    def write(self, path, text):
        os.makedirs(os.path.dirname(path), exist_ok=True)
        with open(path, "w", encoding="utf-8") as file:
            file.write(text)
        os.chmod(path, 0o755)

    def said(self, *words, **environment):
        """The status, the lines, and the last line."""
        path = f"{self.room.name}/bin:{os.environ['PATH']}"
        plain = {"PATH": path, "ROOM": self.room.name, "VERDICT": "7 passed, 0 failed", "STATUS": "0", "FAILS": "", "FAILS_ONCE": "", "LEAVES_OUT": "", "CI": "", "NCP_NO_REGISTRY": ""}
        ran = subprocess.run(words, cwd=self.top, env={**os.environ, **plain, **environment}, stdout=subprocess.PIPE, stderr=subprocess.STDOUT, text=True)
        return ran.returncode, ran.stdout, ran.stdout.splitlines()[-1]

    def gate(self, **environment):
        return self.said(sys.executable, "test", "all", **environment)

    def asked(self, name, *words):
        """How often a step was asked for, with these words first."""
        with open(f"{self.room.name}/asked", encoding="utf-8") as file:
            return [line.split()[:1 + len(words)] for line in file].count([name, *words])

    def test_a_green_run_ends_with_the_line_of_the_gate(self):
        status, said, last = self.gate()
        self.assertEqual((status, last), (0, "7 passed, 0 failed"), said)
        self.assertIn("rt ci\n", said)
        self.assertIn("mutants --changed --at-most 4 at ", said)
        self.assertIn("skipped: there is no include/compare", said)

    def test_all_steps_run_beside_the_gate(self):
        _, said, _ = self.gate()
        self.assertIn("\nside by side\n", said)
        for line in "embed/run --prebuilt", "bindings/test", "wireshark/test", "wireshark/fuzz", "web/test":
            self.assertIn(f"| $ {'examples/' if line.startswith('embed') else ''}{line}", said)
        self.assertIn("at 19\n", said)
        for name in "try_launcher", "compare", "try_habits", "refuse.py", "run", "random", "try", "try_program", "functions", "fuzz", "index", "words", "figures", "price", "page":
            self.assertEqual(self.asked(name), 1, said)
        self.assertEqual(self.asked("refuse.py", "--built", "program"), 0, said)
        self.assertNotIn("unproved", said)

    def test_everywhere(self):
        status, said, _ = self.said(sys.executable, "test", "everywhere")
        self.assertEqual(status, 0, said)
        for line in "try --everywhere at ", "try_program --everywhere at ", "functions --everywhere 1 at ":
            self.assertIn(f"\n{line}", said)
        for fails in "try", "try_program", "functions":
            self.assertEqual(self.said(sys.executable, "test", "everywhere", FAILS=fails)[0], 1)

    def test_a_gate_that_fails(self):
        self.assertEqual(self.gate(VERDICT="6 passed, 1 failed", STATUS="1")[::2], (1, "6 passed, 1 failed"))

    def test_a_gate_that_says_nothing(self):
        self.assertEqual(self.gate(VERDICT="", STATUS="2")[::2], (1, "0 passed, 1 failed"))

    def test_a_step_after_the_gate_that_fails(self):
        status, said, last = self.gate(FAILS="mutants")
        self.assertEqual((status, last), (1, "7 passed, 1 failed"), said)
        self.assertIn("FAILED: mutants: tools/mutants --changed", said)

    def test_prebuilt_files_that_are_not_made_again_as_they_are(self):
        status, said, last = self.gate(FAILS="again")
        self.assertEqual((status, last, self.asked("again")), (1, "7 passed, 1 failed", 1), said)
        self.assertIn("FAILED: again: tools/prebuild --again", said)
        self.assertLess(said.index("test: proofs: passed"), said.index("\nagain --again at "))

    def test_many_changed_crates_are_no_failure(self):
        self.write(f"{self.top}/include/compare", STEP)
        said_by_tool = "mutants: 9 edits of 5 crates, which are more than 4, and none is tried: run `tools/mutants --changed`, and commit mutants/"
        self.write(f"{self.top}/tools/mutants", f"#!/bin/sh\n[ \"$*\" = '--changed --at-most 4' ] && echo '{said_by_tool}'\n")
        status, said, last = self.gate(CI="true")
        self.assertEqual((status, last), (0, "7 passed, 0 failed"), said)
        self.assertIn(f"\n{said_by_tool}\ntest: mutants: passed in ", said)

    def test_a_step_beside_the_gate_that_fails(self):
        status, said, last = self.gate(FAILS="compare")
        self.assertEqual((status, last), (1, "7 passed, 1 failed"), said)
        self.assertIn("| test: FAILED: examples: all examples", said)
        self.assertEqual((self.asked("compare"), self.asked("try_habits")), (2, 1))

    def test_a_step_that_is_not_there(self):
        os.remove(f"{self.top}/examples/compare")
        self.assertEqual(self.gate()[::2], (1, "7 passed, 1 failed"))

    def test_a_step_that_failed_for_want_of_a_processor(self):
        status, said, last = self.gate(FAILS_ONCE="compare")
        self.assertEqual((status, last), (0, "7 passed, 0 failed"), said)
        self.assertIn("test: once more, without anything beside: examples\n", said)

    def test_without_a_program_nothing_is_proved(self):
        status, said, last = self.gate(FAILS="ncp")
        self.assertEqual((status, last), (1, "7 passed, 1 failed"), said)
        self.assertEqual(self.asked("prove"), 0)

    def test_what_is_left_out(self):
        self.write(f"{self.top}/include/compare", STEP)
        line = "test: left out: c: aarch64: left out, since its compiler is not there\n"
        status, said, last = self.gate(LEAVES_OUT="run")
        self.assertEqual((status, last), (0, "7 passed, 0 failed"), said)
        self.assertIn(f"\n{line}", said)
        status, said, last = self.gate(LEAVES_OUT="run", CI="true")
        self.assertEqual((status, last), (1, "7 passed, 1 failed"), said)
        self.assertIn("c: FAILED, since in CI nothing is left out: aarch64", said)
        self.assertEqual(self.gate(CI="true")[::2], (0, "7 passed, 0 failed"))

    def test_a_test_that_is_skipped_in_ci(self):
        """As unittest reports it."""
        self.write(f"{self.top}/include/compare", STEP)
        self.write(f"{self.top}/tools/tests/test_nothing.py", NONE.replace("    def", "    @unittest.skip('no reason')\n    def"))
        status, said, last = self.gate(CI="true")
        self.assertEqual((status, last), (1, "7 passed, 1 failed"), said)
        self.assertIn("tools: FAILED, since in CI nothing is left out: OK (skipped=1)", said)

    def test_a_step_that_is_skipped_in_ci(self):
        status, said, last = self.gate(CI="true")
        self.assertEqual((status, last), (1, "7 passed, 1 failed"), said)
        self.assertIn("header: FAILED, since in CI nothing is left out: there is no include/compare", said)

    def test_ci_installs_what_is_wanted(self):
        self.write(f"{self.top}/include/compare", STEP)
        for status_of_need, status, failed in (0, 1, 1), (1, 1, 1), (3, 0, 0):
            self.write(f"{self.top}/tools/need", f'#!/bin/sh\necho "need $*"\nexit {status_of_need}\n')
            ended, said, last = self.said("sh", ".ci/run", CI="true", LEAVES_OUT="run")
            self.assertEqual((ended, last), (status, f"7 passed, {failed} failed"), said)
            self.assertTrue(said.startswith("need --install\n"), said)
        lines = said.splitlines()
        self.assertIn("test: the registry of packages could not be reached, so what is left out is no failure", lines[-4:])
        self.assertIn("test: left out: c: aarch64: left out, since its compiler is not there", lines[-4:])

    def test_a_machine_without_packages(self):
        """The rest is done, and skipped tests are reported; in CI it fails, unless no package can be installed."""
        alone = f"{self.room.name}/alone"
        os.mkdir(alone)
        for name in "sh", "env", "grep", "nice":
            os.symlink(shutil.which(name), f"{alone}/{name}")
        for environment, status in ({}, 0), ({"CI": "true"}, 1), ({"CI": "true", "NCP_NO_REGISTRY": "yes"}, 0):
            ended, said, _ = self.said(sys.executable, "test", "wireshark", "c", "docs", PATH=alone, **environment)
            self.assertEqual(ended, status, said)
            self.assertIn("test: left out: c: there is no C compiler\ntest: left out: wireshark: there is no tshark, or no sharkd\n", said)
            self.assertIn("test: docs: passed in ", said)
            self.assertEqual("the registry of packages could not be reached" in said, "NCP_NO_REGISTRY" in environment)

    def test_steps_by_their_words(self):
        status, said, _ = self.said(sys.executable, "test", "docs", "examples")
        self.assertEqual((status, self.asked("compare"), self.asked("index"), self.asked("try_habits")), (0, 1, 1, 0), said)
        status, said, _ = self.said(sys.executable, "test", "nothing")
        self.assertEqual(status, 1)
        self.assertTrue(said.startswith("usage: ./test"), said)

    def test_another_program_is_called_rt(self):
        """What else is in its folder is still found."""
        self.write(f"{self.room.name}/bin/rt", ANOTHER_RT)
        self.write(f"{self.room.name}/bin/of-the-launcher", "#!/bin/sh\n")
        self.write(f"{self.top}/ncp", "#!/bin/sh\nof-the-launcher\n")
        status, said, _ = self.said(sys.executable, "test", "examples")
        self.assertEqual((status, self.asked("compare")), (0, 1), said)
        self.assertEqual(self.gate()[0], 1)


if __name__ == "__main__":
    unittest.main()
