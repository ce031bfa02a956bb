"""bench/run.py over invented rows: the table, the ratios of the last landing next to the new ones, and the history."""
import collections
import contextlib
import io
import os
import shutil
import subprocess
import sys
import tempfile
import unittest
from unittest import mock

TOP = os.path.dirname(os.path.dirname(os.path.dirname(os.path.abspath(__file__))))
BENCH = os.path.join(TOP, "bench")
sys.path.insert(0, BENCH)
import handles  # noqa: E402
import history  # noqa: E402
import run  # noqa: E402
from measuring import Row  # noqa: E402

# At 800, 80 and 5,000 MB a second. A million events take half a second, so 2,500 for each MB of `ncp show`.
FILES = [
    Row("ncp show", "32 MiB", 32_000_000, "bytes", 0.064, 1672),
    Row("xxd -p", "32 MiB", 32_000_000, "bytes", 0.5, 1316),
    Row("cat", "32 MiB", 32_000_000, "bytes", 0.016, 1924),
    Row("ncp show", "64 MiB", 64_000_000, "bytes", 0.08, 1672),
    Row("xxd -p", "64 MiB", 64_000_000, "bytes", 0.8, 1316),
    Row("cat", "64 MiB", 64_000_000, "bytes", 0.0128, 1924),
]
EVENTS = [Row("run", "1 connection, 1,000,000 events", 1_000_000, "events", 0.5, None)]
# Next to the larger files, and the values of the last landing; 32 MiB had not been measured then.
TABLE = """\
last: 0123456789ab, kit 1
                                                               seconds         a second    memory   to xxd -p        last    to cat to ncp show
ncp show                     32 MiB                              0.064         500.0 MB   1,672 K        6.25                 0.100       0.625
xxd -p                       32 MiB                              0.500          64.0 MB   1,316 K       0.800                 0.013       0.080
cat                          32 MiB                              0.016       2,000.0 MB   1,924 K       25.00                 0.400        2.50
ncp show                     64 MiB                              0.080         800.0 MB   1,672 K       10.00        8.73     0.160        1.00
xxd -p                       64 MiB                              0.800          80.0 MB   1,316 K        1.00        1.00     0.016       0.100
cat                          64 MiB                              0.013       5,000.0 MB   1,924 K       62.50                  1.00        6.25
run                          1 connection, 1,000,000 events      0.500        2,000,000                 25000       21000       400        2500
not measured, at the last landing 7: dropped
"""
OLD = """\
commit,kit,"ncp show, 64 MiB","xxd -p, 64 MiB","run, 1 connection, 1,000,000 events",dropped,gone
ba9876543210,kit 0,8.43,1.00,20000,6,5
0123456789ab,kit 1,8.73,1.00,21000,7,
"""
NEW = """\
commit,kit,"ncp show, 64 MiB","xxd -p, 64 MiB","run, 1 connection, 1,000,000 events",dropped,gone,"ncp show, 32 MiB","xxd -p, 32 MiB","cat, 32 MiB","cat, 64 MiB"
ba9876543210,kit 0,8.43,1.00,20000,6,5,,,,
0123456789ab,kit 1,8.73,1.00,21000,7,,,,,
fedcba987654,kit 2,10.00,1.00,25000,,,6.25,0.800,25.00,62.50
"""
# What has a ratio, and on how many files, feeds, scripts or hosts. With the next landing each is a column of the history.
MEASURED = {
    "ncp show": 2,
    "ncp show, version 2": 2,
    "ncp check": 2,
    "ncp check, version 2": 2,
    "ncp convert": 2,
    "ncp audit": 2,
    "ncp follow": 2,
    "xxd -p": 2,
    "cat": 2,
    "ncp host": 3,
    "ncp world": 6,
    "run": 6,
    "text of 8 bytes in": 2,
    "text of 991 bytes in": 2,
    "text of 8 bytes out": 2,
    "text of 991 bytes out": 2,
    "control of 1 command in": 2,
    "control of 15 commands in": 2,
    "control of 1 command out": 2,
    "control of 15 commands out": 2,
    "C: text in and out": 4,
}
# Replaces the functions that build and run programs.
NOTHING_RUNS = {
    "ncp": lambda: "ncp",
    "kept": lambda *_: __file__,
    "once": lambda *_: (2.0, 1),
    "best": lambda *_: (2.0, 1),
    "least": lambda *_: 2.0,
    "resident": lambda *_: ("", 1024),
    "built": lambda *_: "",
    "scripted": lambda *_: "",
    "is_played": lambda *_: None,
    "library": lambda _: "",
    "linked": lambda *_: "",
}


class TestBench(unittest.TestCase):
    def setUp(self):
        self.room = tempfile.mkdtemp()
        self.addCleanup(shutil.rmtree, self.room)
        self.path = os.path.join(self.room, "history.csv")

    def wrote(self, text):
        with open(self.path, "w", encoding="utf-8") as file:
            file.write(text)

    def is_written(self, text):
        with open(self.path, encoding="utf-8") as file:
            self.assertEqual(file.read(), text)

    def run_of(self, *words, commit="fedcba987654"):
        """What a run with these words prints of the rows above."""
        here = {"commit": commit, "kit": "kit 2"}
        with contextlib.redirect_stdout(io.StringIO()) as printed, mock.patch.multiple(run, TIMES=(lambda _: FILES, lambda _: EVENTS)):
            with mock.patch.multiple(history, PATH=self.path, here=lambda: here):
                run.main(words)
        return printed.getvalue()

    def test_the_last_ratios_stand_beside_the_new_ones(self):
        self.wrote(OLD)
        self.assertEqual(self.run_of("times"), TABLE)
        self.is_written(OLD)

    def test_a_landing_is_noted(self):
        self.wrote(OLD)
        self.assertEqual(self.run_of("times", "--note"), TABLE)
        self.is_written(NEW)

    def test_the_first_landing(self):
        self.wrote("commit,kit\n")
        printed = self.run_of("times", "--note")
        self.assertEqual(printed.splitlines()[0], TABLE.splitlines()[1])
        names, rows = history.read(self.path)
        self.assertEqual(names[:3], ["commit", "kit", "ncp show, 32 MiB"])
        self.assertEqual([row["run, 1 connection, 1,000,000 events"] for row in rows], ["25000"])

    def test_each_of_these_has_a_ratio(self):
        """Of all that the table had, nothing is left out."""
        with contextlib.ExitStack() as runs:
            for part in run.TIMES:
                module = sys.modules[part.__module__]
                runs.enter_context(mock.patch.multiple(module, **{name: it for name, it in NOTHING_RUNS.items() if hasattr(module, name)}))
            runs.enter_context(mock.patch.object(run, "named", lambda row: (row.what, row.of)))
            runs.enter_context(contextlib.redirect_stdout(io.StringIO()))
            found = run.times(self.room, {})
        self.assertEqual(dict(collections.Counter(what for what, _ in found)), MEASURED)

    def test_a_landing_that_is_noted_again_has_one_row(self):
        self.wrote(OLD)
        for _ in range(2):
            self.run_of("times", "--note", commit="ba9876543210")
        self.assertEqual([row["commit"] for row in history.read(self.path)[1]], ["0123456789ab", "ba9876543210"])

    def test_counts_are_not_noted(self):
        self.wrote(OLD)
        with contextlib.redirect_stderr(io.StringIO()) as error, self.assertRaises(SystemExit) as ended:
            self.run_of("counts", "--note")
        self.assertEqual(ended.exception.code, 2)
        self.assertIn("--note is of times", error.getvalue())
        self.is_written(OLD)

    def test_sources_of_no_commit_are_not_noted(self):
        def git(*words):
            subprocess.run(["git", "-C", self.room, "-c", "user.name=n", "-c", "user.email=e", *words], check=True, stdout=subprocess.DEVNULL)

        os.mkdir(os.path.join(self.room, "bench"))
        self.path = os.path.join(self.room, "bench", "history.csv")
        source = os.path.join(self.room, "source")
        for path in (self.path, source):
            with open(path, "w", encoding="utf-8") as file:
                file.write("commit,kit\n")
        for words in (("init", "-q"), ("add", "."), ("commit", "-q", "-m", "First")):
            git(*words)
        self.wrote(OLD)
        with mock.patch.object(history, "TOP", self.room), mock.patch.object(history, "kit", lambda: "kit 2"):
            self.assertRegex(history.here()["commit"], "^[0-9a-f]{12}$")
            with open(source, "a", encoding="utf-8") as file:
                file.write("changed\n")
            with self.assertRaises(SystemExit) as ended:
                history.here()
        self.assertEqual(ended.exception.code, "these are not the sources of a commit:\n M source")

    def test_the_history_of_this_repository(self):
        names, rows = history.read(history.PATH)
        self.assertEqual(names[:2], ["commit", "kit"])
        self.assertEqual(len({row["commit"] for row in rows}), len(rows))


@unittest.skipUnless(shutil.which("cc"), "there is no C compiler")
class TestHandles(unittest.TestCase):
    def test_the_program_is_c99(self):
        words = ["-std=c99", "-pedantic", "-Wall", "-Wextra", "-Werror", "-fsyntax-only", "-I", os.path.join(TOP, "include")]
        subprocess.run(["cc", *words, os.path.join(BENCH, "handles.c")], check=True)

    def test_texts_pass_through_hosts(self):
        """Texts pass beyond the first allocation of each peer; an open connection takes the memory of its room."""
        if subprocess.run([os.path.join(TOP, "tools", "prebuild"), "--has", "libncp.a"]).returncode:
            self.skipTest("there is no archive of these sources in prebuilt/")
        with tempfile.TemporaryDirectory() as room:
            program = handles.linked(os.path.join(TOP, "prebuilt", "libncp.a"), room)

            def printed(line):
                return subprocess.run([program], input=line, stdout=subprocess.PIPE, text=True, check=True).stdout

            self.assertEqual(printed("pass 2 3 9000\n"), "9000\n")
            made, opened = (list(map(int, printed(f"{word} 2 3 0\n").split())) for word in ("make", "open"))
            # Two ends of 8,192 bytes with each of six peers.
            self.assertGreaterEqual(opened[0] - made[0], 6 * 2 * 8192)
            self.assertEqual(opened[2] - made[2], 6 * 2)


if __name__ == "__main__":
    unittest.main()
