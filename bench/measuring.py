"""Common parts of the measurements: runs by processor time, instructions, and programs next to the crates."""
import functools
import os
import re
import resource
import shutil
import subprocess
import sys
import time
from collections import namedtuple

HERE = os.path.dirname(os.path.abspath(__file__))
TOP = os.path.dirname(HERE)
sys.path.insert(0, os.path.join(TOP, "tools"))
from build import below, uses_of_crates  # noqa: E402

DATA = os.path.join(HERE, "data")
RUNS = 5

# The program, its input, the amount in a unit, the seconds that it took, and KiB of memory (None: not measured).
Row = namedtuple("Row", "what of amount unit seconds peak")


def prebuilt(name):
    """The path of a file of prebuilt/ that is of these sources, or None."""
    is_there = subprocess.run([os.path.join(TOP, "tools", "prebuild"), "--has", name]).returncode == 0
    return os.path.join(TOP, "prebuilt", name) if is_there else None


def built_ncp():
    if subprocess.run([os.path.join(TOP, "tools", "prove"), "--unless-built", "ncp"]).returncode:
        sys.exit("the program was not built")
    return os.path.join(TOP, "crates", "ncp", "out", "ncp")


@functools.cache
def ncp():
    """The program of these sources, without its launcher: that of prebuilt/, or else it is proved and built."""
    return prebuilt("ncp") or built_ncp()


def kept(name, write):
    """The path of a file under bench/data, which is written once."""
    path = os.path.join(DATA, name)
    if not os.path.exists(path):
        os.makedirs(DATA, exist_ok=True)
        with open(path + ".part", "wb") as file:
            write(file)
        os.rename(path + ".part", path)
    return path


def generated(file, *words):
    """Writes the output of `generate.py` for these words."""
    file.flush()
    subprocess.run([sys.executable, os.path.join(HERE, "generate.py"), *map(str, words)], stdout=file, check=True)


def processor():
    used = resource.getrusage(resource.RUSAGE_CHILDREN)
    return used.ru_utime + used.ru_stime


def once(command, path, statuses=frozenset({0})):
    """The processor time of a run on a file, and its peak memory in KiB, as far as that was observed."""
    with open(path, "rb") as source:
        begin = processor()
        child = subprocess.Popen(command, stdin=source, stdout=subprocess.DEVNULL)
        peak = 0
        while child.poll() is None:
            peak = max(peak, peak_of(child.pid))
            time.sleep(0.002)
    if child.returncode not in statuses:
        sys.exit(f"{command}: status {child.returncode}")
    return processor() - begin, peak


def peak_of(process):
    try:
        with open(f"/proc/{process}/status", encoding="ascii") as status:
            return next((int(line.split()[1]) for line in status if line.startswith("VmHWM")), 0)
    except OSError:
        return 0


def best_of(runs):
    """The least time of these runs, and the most memory."""
    return min(seconds for seconds, _ in runs), max(peak for _, peak in runs)


def best(command, path):
    return best_of([once(command, path) for _ in range(RUNS)])


def least(program, given, wanted):
    """The minimal time of some runs of a program with a line as input. Each has to print the wanted output."""
    found = []
    for _ in range(RUNS):
        begin = processor()
        ran = subprocess.run([program], input=given, text=True, capture_output=True)
        found.append(processor() - begin)
        expect(given, ran, wanted)
    return min(found)


def resident(program, given):
    """The output of a program for an input line, and its memory in bytes while it waits for more."""
    with subprocess.Popen([program], stdin=subprocess.PIPE, stdout=subprocess.PIPE, text=True) as running:
        running.stdin.write(given)
        running.stdin.flush()
        line = running.stdout.readline()
        # the count of its pages: that of `status` may be wrong by some hundred
        with open(f"/proc/{running.pid}/smaps_rollup", encoding="ascii") as file:
            kib = int(re.search(r"Rss:\s+(\d+)", file.read())[1])
        running.stdin.close()
    return line, 1024 * kib


def instructions(command, source, room, wanted=None):
    """How many instructions a run takes, as valgrind counts them; its source is a line or an open file."""
    counts = os.path.join(room, "callgrind.out")
    words = [shutil.which("valgrind") or "valgrind", "--tool=callgrind", f"--callgrind-out-file={counts}", *command]
    given = {"input": source} if isinstance(source, str) else {"stdin": source}
    # With no environment, since its length moves the stack, and the cost of a copy depends on its address.
    ran = subprocess.run(words, text=True, capture_output=True, env={}, **given)
    if wanted is not None:
        expect(source, ran, wanted)
    return int(re.search(r"Collected : (\d+)", ran.stderr)[1])


def expect(given, ran, wanted):
    if ran.returncode or ran.stdout != wanted:
        sys.exit(f"{given}: status {ran.returncode}, printed {ran.stdout[-300:]!r}\n{ran.stderr[-3000:]}")


@functools.cache
def built(text, name, names, room):
    """A program made from a file of this folder, with copies of the crates that it names and their dependencies, in its own repository."""
    uses, top = uses_of_crates(), os.path.join(room, name)
    crates = below(names, uses)
    folder = os.path.join(top, "crates", name)
    os.makedirs(os.path.join(folder, "src"))
    with open(os.path.join(top, "crates.txt"), "w", encoding="utf-8") as file:
        file.writelines(f"{crate}: {' '.join(uses[crate])}\n" for crate in crates)
        file.write(f"{name}: {' '.join(names)}\n")
    shutil.copy(os.path.join(TOP, "HANDLES"), top)
    for crate in crates:
        # except the prover's caches, which are large
        without = shutil.ignore_patterns("incremental")
        shutil.copytree(os.path.join(TOP, "crates", crate), os.path.join(top, "crates", crate), symlinks=True, ignore=without)
    shutil.copy(os.path.join(HERE, text), os.path.join(folder, "src", "main.rt"))
    ran = subprocess.run(["rt", "run"], cwd=folder, input="", text=True, capture_output=True)
    if ran.returncode:
        sys.exit(f"{ran.stdout[-3000:]}{ran.stderr[-3000:]}{text}: the program was not built")
    return os.path.join(folder, "out", name)
