"""The memory of a transcript: the bytes of its notes, and for each those of its message or of its ERRs.

No clause states this: the remaining capacity of a shrunk `Vec` depends on the allocator. A script is played, and the resident
memory is measured while the program waits for more of it.
"""
import os
import re
import subprocess
import tempfile
import time
import unittest

TOP = os.path.dirname(os.path.dirname(os.path.dirname(os.path.abspath(__file__))))
PROGRAM = os.environ.get("NCP_PROGRAM", os.path.join(TOP, "crates", "ncp", "out", "ncp"))
ROUNDS = 10_000
SECONDS = 60

# A message of 10 bytes is sent and lost: three notes of 72 bytes.
LOST = ("world", "hosts 1 2\na reset\n", "a out\na lose 0\na answer 0\n")
# A message of 10 bytes arrives from no peer: a note of 64 bytes.
CAME = ("host", "host 1 2\n", "in 80 0003000000080001000c\n")
# The only ERR that arrived, of 11 bytes, is read: a note of 64 bytes.
READ = ("host", "host 1 2\nin 80 0002000000080001000c\nin 168 000200000008000c000b010e000000000000000000\n", "errors 2\n")
# A text of 2 bytes is given, and refused: a note of 64 bytes.
GIVEN = ("host", "host 1 2\n", "give 2 3 2 16 6162\n")


def played(path, lines):
    """Whether this many numbered lines are written."""
    with open(path, "rb") as file:
        file.seek(max(0, os.path.getsize(path) - 4096))
        return any(line.startswith(b"%d " % lines) for line in file.read().splitlines())


def resident(running):
    """How many bytes a program has in memory, by the count of its pages."""
    with open(f"/proc/{running.pid}/smaps_rollup", encoding="ascii") as file:
        return 1024 * int(re.search(r"Rss:\s+(\d+)", file.read())[1])


def kept(kind, first, behind):
    """How many bytes of memory a round of a script keeps."""
    front = first.count("\n") - 1
    with tempfile.NamedTemporaryFile() as lines, subprocess.Popen([PROGRAM, kind], stdin=subprocess.PIPE, stdout=lines) as running:
        sizes = []
        try:
            for rounds in (100, ROUNDS):
                running.stdin.write(((first if not sizes else "") + behind * rounds).encode())
                running.stdin.flush()
                front += rounds * behind.count("\n")
                end = time.monotonic() + SECONDS
                while not played(lines.name, front):
                    if time.monotonic() > end:
                        raise AssertionError(f"{kind}: line {front} was not written")
                    time.sleep(0.01)
                sizes.append(resident(running))
        finally:
            running.stdin.close()
        return (sizes[1] - sizes[0]) / ROUNDS


@unittest.skipUnless(os.access(PROGRAM, os.X_OK), "the program is not built")
@unittest.skipUnless(os.path.exists("/proc/self/smaps_rollup"), "the system does not tell which pages are resident")
class Kept(unittest.TestCase):
    def test_a_note_keeps_what_its_message_needs(self):
        for script, most in ((LOST, 360), (CAME, 160), (GIVEN, 160)):
            with self.subTest(script=script[2]):
                self.assertLess(kept(*script), most)

    def test_a_note_keeps_what_its_errs_need(self):
        self.assertLess(kept(*READ), 160)


if __name__ == "__main__":
    unittest.main()
