"""The first program of EMBEDDING.md is examples/embed/hello.c, and prints the output on the page."""
import os
import re
import shutil
import subprocess
import tempfile
import unittest

TOP = os.path.dirname(os.path.dirname(os.path.dirname(os.path.abspath(__file__))))


def read(*path):
    with open(os.path.join(TOP, *path), encoding="utf-8") as file:
        return file.read()


class Embedding(unittest.TestCase):
    page = read("docs", "EMBEDDING.md")

    def test_the_first_program_is_the_file(self):
        self.assertEqual(re.search(r"^```c\n(.*?)^```", self.page, re.M | re.S)[1], read("examples", "embed", "hello.c"))

    @unittest.skipUnless(shutil.which("cc") and os.uname().machine == "x86_64", "there is no C compiler for x86-64")
    def test_the_command_of_the_page_prints_what_it_says(self):
        """The command on the page, except for the path of the program that it makes."""
        command = re.search(r"^cc .*hello\.c.*$", self.page, re.M)[0]
        printed = re.search(r"^It prints `(\w+)`", self.page, re.M)[1]
        self.assertEqual(read("examples", "embed", "hello.txt"), f"{printed}\n")
        with tempfile.TemporaryDirectory() as folder:
            made = os.path.join(folder, "hello")
            ran = subprocess.run(command.replace("-o hello && ./hello", f"-o {made} && {made}"), shell=True, cwd=TOP, stdout=subprocess.PIPE, text=True, check=True)
        self.assertEqual(ran.stdout, f"{printed}\n")

    def test_numbers_of_errors_are_those_of_the_header(self):
        """Each name that the page's table has a number for has it in ncp.h too."""
        numbers = dict(re.findall(r"^    (NCP_\w+) = (\d+),?", read("include", "ncp.h"), re.M))
        rows = [line.strip("| ").split(" | ") for line in self.page.partition("| order | error | number |\n")[2].partition("\n\n")[0].splitlines()[1:]]
        named = [(re.findall(r"`(NCP_\w+)`", row[-2]), row[-1]) for row in rows]
        self.assertEqual(len(named), 9)
        for names, told in named:
            wanted = [int(it) for it in re.findall(r"\d+", told)]
            if names:
                found = [int(numbers[it]) for it in names]
                self.assertEqual(list(range(wanted[0], wanted[1] + 1)) if " to " in told else wanted, found, names)
            else:
                self.assertLessEqual(set(map(str, wanted)), set(numbers.values()))


if __name__ == "__main__":
    unittest.main()
