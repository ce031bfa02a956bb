"""tools/price: the table of a log that a gate left, a run that keeps the status and the lines of its command, the longest
chain of crates, and the bound of the whole."""
import contextlib
import importlib.machinery
import importlib.util
import io
import os
import subprocess
import sys
import tempfile
import time
import unittest

PRICE = os.path.join(os.path.dirname(os.path.dirname(os.path.abspath(__file__))), "price")
LOG = """12:00:00 kit: rattle-kit-13f logic dac8208d650f15bf
12:00:00 machine: 4 processors, a processor
12:00:00 unit: 11.0 seconds of the processor
12:00:01 rt: must-fail low/one.edit: refused, as it must be: src/lib.rt:1:1: error
12:00:01 rt: must-fail low/two.edit: refused, as it must be: src/lib.rt:1:1: error
12:00:02 rt: ok; handles allowed: none
12:00:02 3 passed, 0 failed
12:00:02 price: high proof 12.4
12:00:02 price: high tests 7.0
12:00:02 price: low edits 20.6
12:00:02 price: low proof 3.5
12:00:02 gate: 40 seconds, 44 of the processor, status 0
"""
TABLE = """# kit: rattle-kit-13f logic dac8208d650f15bf
# machine: 4 processors, a processor
# unit: 11.0 seconds of the processor
# gate: 40 seconds, 44 of the processor, status 0
# 3 passed, 0 failed
{bound}crate,proof (s),tests (s),edits (s),edits tried
high,12,7,,0
low,4,,21,2
"""


# Four crates: `top` and `beside` both use `middle`, and it uses `low`.
USES = {"low": ["std"], "middle": ["low"], "beside": ["low", "middle"], "top": ["low", "middle"]}


def loaded():
    loader = importlib.machinery.SourceFileLoader("price", PRICE)
    module = importlib.util.module_from_spec(importlib.util.spec_from_loader("price", loader))
    loader.exec_module(module)
    return module


def bound():
    """The line of bench/price.csv with the bound, if it has one: the table of a log keeps it."""
    with open(os.path.join(os.path.dirname(os.path.dirname(PRICE)), "bench/price.csv"), encoding="utf-8") as file:
        return "".join(line for line in file if line.startswith("# bound: "))


def price(*words):
    """Runs the script, without a toolchain: there a run measures its unit first, which takes a minute."""
    ran = subprocess.run([sys.executable, PRICE, *words], env={**os.environ, "PATH": "/usr/bin:/bin"}, stdout=subprocess.PIPE, stderr=subprocess.PIPE, text=True)
    return ran.returncode, ran.stdout


class TestPrice(unittest.TestCase):
    def test_the_table_of_a_log(self):
        with tempfile.NamedTemporaryFile("w", suffix=".log") as file:
            file.write(LOG)
            file.flush()
            self.assertEqual(price(file.name), (0, TABLE.format(bound=bound())))

    def test_a_run_keeps_what_its_command_says(self):
        with tempfile.NamedTemporaryFile("r", suffix=".log") as file:
            self.assertEqual(price("--run", file.name, "sh", "-c", "echo 3 passed, 0 failed; exit 3"), (3, "3 passed, 0 failed\n"))
            said = file.read().splitlines()
        self.assertTrue(any(line.endswith(" 3 passed, 0 failed") for line in said))
        self.assertRegex(said[-1], r" gate: \d+ seconds, \d+ of the processor, status 3$")

    def test_words_that_are_no_log(self):
        self.assertEqual(price("nowhere.log"), (2, ""))

    def test_the_longest_chain_has_the_tests_of_its_last_crate_alone(self):
        prices = {("low", "proof"): 5.0, ("low", "tests"): 9.0, ("middle", "proof"): 7.0, ("middle", "edits"): 90.0,
                  ("beside", "proof"): 2.0, ("beside", "tests"): 3.0, ("top", "proof"): 4.0}
        self.assertEqual(loaded().longest_chain(prices, USES), [("low", 5.0), ("middle", 7.0), ("beside", 2.0), ("beside, tests", 3.0)])
        prices["low", "tests"] = 13.0
        self.assertEqual(loaded().longest_chain(prices, USES), [("low", 5.0), ("low, tests", 13.0)])

    def test_what_a_process_used(self):
        end = time.process_time() + 0.3
        while time.process_time() < end:
            pass
        used = {int(pid): (session, seconds) for (pid, _), session, seconds in loaded().sessions()}
        session, seconds = used[os.getpid()]
        self.assertEqual(session, os.getsid(0))
        self.assertAlmostEqual(seconds, time.process_time(), delta=0.1)

    def test_the_prices_of_a_session(self):
        """A process works for the crate in whose folder it is; one elsewhere for none."""
        with tempfile.TemporaryDirectory() as folder:
            at = f"{folder}/crates/low"
            os.makedirs(at)
            ran = subprocess.Popen([sys.executable, "-c", "while True: pass"], cwd=at, start_new_session=True)
            try:
                sampler = loaded().Sampler(ran.pid)
                sampler.start()
                end = time.monotonic() + 120
                while not sampler.prices()["low", "proof"] and time.monotonic() < end:
                    time.sleep(0.1)
                sampler.over.set()
                sampler.join()
            finally:
                ran.kill()
                ran.wait()
        self.assertEqual(list(sampler.prices()), [("low", "proof")])
        self.assertIsNone(loaded().work_of(os.getpid()))

    def test_the_prices_of_a_table(self):
        self.assertEqual(loaded().prices_in(TABLE.format(bound="# bound: 9 units\n")), {("high", "proof"): 12, ("high", "tests"): 7, ("low", "proof"): 4, ("low", "edits"): 21})

    def test_the_bound_is_of_the_whole_in_units(self):
        for line, is_within in ("# bound: 4 units\n", True), ("# bound: 3 units\n", False), ("", False):
            with contextlib.redirect_stdout(io.StringIO()), contextlib.redirect_stderr(io.StringIO()):
                self.assertEqual(loaded().is_within(TABLE.format(bound=line)), is_within, line)


if __name__ == "__main__":
    unittest.main()
