#!/usr/bin/env python3
"""Proves and builds crates with all their dependencies, independent ones in parallel.

    tools/build.py NAME..

The toolchain builds one crate at a time in a checkout. So each lane except the first has its own copy of the crates'
sources with the libraries that the checkout has built, and each built library is passed to all lanes; the first lane works
in the checkout itself. Progress is printed on standard error, on a terminal as one line that changes; for a crate that
fails, its errors or, if none is named, the last line of output.
"""
import filecmp
import os
import re
import shutil
import signal
import subprocess
import sys
import tempfile
import threading

sys.dont_write_bytecode = True
import once

TOP = os.path.dirname(os.path.dirname(os.path.abspath(__file__)))
SOURCES = ("src", "specs", "proofs")
# The memory for a lane, in bytes.
ROOM = 4_000_000_000
# What it is to begin a crate, to read a library, and the work that a crate has for each of its jobs, all in lines of code
# (work_of). With less work for a job a crate takes as long and more of the processors.
BEGINNING = 150
READING = 12
WORK_OF_A_JOB = 300
# A line of the toolchain that names an error, as `error: ..` or `src/file.rt:1:1: error[kind]: ..`.
AN_ERROR = re.compile(r"(^|: )error[\[:]")


def lines_of_crates():
    """The lines of crates.txt, by the crates that they are of."""
    with open(f"{TOP}/crates.txt", encoding="utf-8") as file:
        lines = [line.split("#")[0].strip() for line in file]
    return {line.split(":")[0].split()[0]: line for line in lines if ":" in line}


def uses_of_crates():
    """The libraries that each crate uses."""
    return {name: line.partition(":")[2].split() for name, line in lines_of_crates().items()}


def below(names, uses):
    """The crates of this repository among these, with all their dependencies, each after those that it uses."""
    found = {}
    for name in names:
        if name in uses:
            found.update(dict.fromkeys([*below(uses[name], uses), name]))
    return list(found)


def lines_in(folder):
    count = 0
    for at, _, names in os.walk(folder):
        for file in names:
            with open(f"{at}/{file}", "rb") as source:
                count += source.read().count(b"\n")
    return count


def work_of(name, uses):
    """An estimate of the time for a crate, in lines of code: its own, the start, and reading its dependencies. Lemmas cost
    little in comparison."""
    return BEGINNING + READING * len(below([name], uses)) + lines_in(f"{TOP}/crates/{name}/src")


def chains(crates, uses):
    """The work of each crate with the longest chain of crates that depend on it."""
    behind = {}
    for name in reversed(crates):
        above = [behind[it] for it in crates if name in uses[it]]
        behind[name] = work_of(name, uses) + max(above, default=0)
    return behind


def is_program(name):
    return os.path.isfile(f"{TOP}/crates/{name}/src/main.rt")


def processors():
    return len(os.sched_getaffinity(0))


def lanes():
    """How many crates are built at a time: one more than there are processors, if memory suffices, so that a short crate that
    waits long for the others does not block a lane."""
    memory = os.sysconf("SC_PAGE_SIZE") * os.sysconf("SC_PHYS_PAGES")
    return max(1, min(processors() + 1, memory // ROOM))


class Build:
    """A build in progress. Remaining crates wait for their dependencies, and those with the longest chain are built first."""

    def __init__(self, tops):
        self.tops, self.uses = tops, uses_of_crates()
        self.crates = below(tops, self.uses)
        self.behind = chains(self.crates, self.uses)
        self.left = sorted(self.crates, key=self.behind.get, reverse=True)
        self.built, self.running, self.failed = set(), {}, None
        self.changed = threading.Condition()
        self.places, self.rt = [TOP], rt()

    def run(self):
        """Builds all, and returns whether that succeeded. Writes the state of the sources to a file, for the launcher."""
        for top in self.tops:
            os.makedirs(f"{TOP}/crates/{top}/out", exist_ok=True)
            with open(f"{TOP}/crates/{top}/out/sources", "w", encoding="utf-8") as file:
                file.writelines(f"crates/{name}/src\n" for name in below([top], self.uses))
        with tempfile.TemporaryDirectory(prefix="ncp-rooms-") as rooms:
            self.places += [self.furnished(f"{rooms}/{number}") for number in range(1, lanes())]
            workers = [threading.Thread(target=self.work, args=(place,)) for place in self.places]
            for worker in workers:
                worker.start()
            for worker in workers:
                worker.join()
            say("")
        return len(self.built) == len(self.crates)

    def furnished(self, room):
        """A new room with the sources of these crates, and what the checkout has built of them, which is built again only where
        its sources changed."""
        os.mkdir(room)
        shutil.copy(f"{TOP}/HANDLES", room)
        with open(f"{room}/crates.txt", "w", encoding="utf-8") as file:
            file.writelines(f"{line}\n" for name, line in lines_of_crates().items() if name in self.crates)
        for name in self.crates:
            os.makedirs(f"{room}/crates/{name}/out")
            for part in SOURCES:
                if os.path.isdir(f"{TOP}/crates/{name}/{part}"):
                    shutil.copytree(f"{TOP}/crates/{name}/{part}", f"{room}/crates/{name}/{part}")
            if os.path.isdir(rlib_of(TOP, name)):
                shutil.copytree(rlib_of(TOP, name), rlib_of(room, name), copy_function=link_or_copy)
        return room

    def work(self, place):
        """Builds crates one after the other in a lane, until none is left for it."""
        while True:
            with self.changed:
                self.changed.wait_for(lambda: self.failed or not self.next_in(place) is None or not self.left)
                name = None if self.failed else self.next_in(place)
                if name is None:
                    return
                self.left.remove(name)
                self.running[name] = None
                is_urgent, jobs = self.is_urgent(name), self.jobs(name)
                self.tell()
            status, log = self.build(place, name, is_urgent, jobs)
            with self.changed:
                del self.running[name]
                try:
                    self.give(place, name) if status == 0 else self.fail(name, log)
                except OSError as error:
                    self.fail(name, f"what was built of it cannot be copied: {error}")
                self.changed.notify_all()
                self.tell()

    def can_begin(self, name):
        return self.built.issuperset(below(self.uses[name], self.uses))

    def next_in(self, place):
        """The next crate that can be built there now; what was asked for is built in the checkout."""
        return next((it for it in self.left if self.can_begin(it) and (it not in self.tops or place == TOP)), None)

    def is_urgent(self, name):
        """Whether nothing that runs has a much longer chain: the whole build takes as long as its longest."""
        return self.behind[name] >= 0.9 * max(self.behind[it] for it in self.running)

    def jobs(self, name):
        """How many jobs a crate may have, in proportion to its work: an urgent one has one for each processor, the others share the
        rest. A program has one: most of its time is linking."""
        if is_program(name):
            return 1
        waiting = sum(map(self.can_begin, self.left))
        spare = processors() if self.is_urgent(name) else processors() // (len(self.running) + waiting)
        return max(1, min(spare, int(work_of(name, self.uses) / WORK_OF_A_JOB)))

    def build(self, place, name, is_urgent, jobs):
        """Has the toolchain build a crate, a program by running it without a task, and returns its status and output. Urgent ones
        have priority."""
        folder = f"{place}/crates/{name}"
        first = [] if is_urgent else ["nice", "-n", "10"]
        words = [*first, *self.rt, *(["run", "--jobs", f"{jobs}", "--", "--help"] if is_program(name) else ["lib", "--jobs", f"{jobs}"])]
        ran = subprocess.Popen(words, cwd=folder, stdin=subprocess.DEVNULL, stdout=subprocess.PIPE, stderr=subprocess.STDOUT, text=True, errors="replace")
        self.running[name] = ran
        log = ran.communicate()[0]
        return ran.returncode, log

    def give(self, place, name):
        """Passes a crate's library from one lane to the others that lack it."""
        made = rlib_of(place, name)
        for other in self.places if os.path.isdir(made) else ():
            to = rlib_of(other, name)
            if other != place and not is_same(f"{made}/stamp", f"{to}/stamp"):
                shutil.rmtree(to, ignore_errors=True)
                shutil.copytree(made, to, copy_function=link_or_copy)
        self.built.add(name)

    def fail(self, name, log):
        if not self.failed:
            self.failed = name
            say("")
            lines = log.splitlines()
            print("\n".join([it for it in lines if AN_ERROR.search(it)][:20] or lines[-20:]), file=sys.stderr)

    def tell(self):
        now = sorted(self.running, key=self.behind.get, reverse=True)
        if now and not self.failed:
            say(f"{' '.join(self.tops)}: {len(self.built)} of {len(self.crates)} crates built; now {', '.join(now)}")

    def stop(self, *_):
        """Stops the running builds, for example on an interrupt."""
        self.failed = self.tops[0]
        for ran in list(self.running.values()):
            if ran:
                ran.terminate()


def rlib_of(place, name):
    """The path of a crate's library in a lane."""
    return f"{place}/crates/{name}/out/rlib"


def is_same(one, other):
    """Whether two files exist and have the same bytes."""
    try:
        return filecmp.cmp(one, other, shallow=False)
    except OSError:
        return False


def link_or_copy(one, other):
    """Makes a hard link to a file of a library, if possible: the toolchain removes such a file before it writes a new one."""
    try:
        os.link(one, other)
    except OSError:
        shutil.copy2(one, other)


def say(line):
    """Prints the progress: on a terminal one line that changes."""
    if os.isatty(2):
        print(f"\r{line[:78]:78}\r{line[:78]}", end="", file=sys.stderr, flush=True)
    elif line:
        print(line, file=sys.stderr, flush=True)


def rt():
    """The command of the toolchain: optimized for a first build, if tools/once.py knows the kit."""
    kit = once.kit()
    if kit in once.KNOWN:
        return [sys.executable, f"{TOP}/tools/once.py"]
    print(f"tools/build.py: {kit} is not a kit that tools/once.py knows, so the plain rt builds, which takes longer", file=sys.stderr)
    return ["rt"]


def main():
    names = sys.argv[1:]
    if not names or not set(names) <= set(uses_of_crates()):
        sys.exit("usage: tools/build.py NAME.., crates of crates.txt")
    build = Build(names)
    for number in (signal.SIGINT, signal.SIGTERM):
        signal.signal(number, build.stop)
    sys.exit(0 if build.run() else 1)


if __name__ == "__main__":
    main()
