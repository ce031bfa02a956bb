#!/usr/bin/env python3
"""The toolchain's rt, optimized for a first build.

    tools/once.py WORD..             as rt WORD..
    tools/once.py --sums WORD..      the same with the sums only: proofs are cached, as for the gate; and each library that
                                     a gate built, or took from its cache, gets its sum, so that later commands find it
                                     built, with the proofs of the static libraries, from which `lib` then makes their code

rt decides whether a crate is built by a sum over its sources and over the sums of its libraries. Some kit computes those
again on each path down to a library, and below a program there are thousands of paths: minutes in which nothing is
proved. Here, while the sum of a crate is computed, that of each crate below it is computed once; the sum is the same.

Also, rt caches the proofs of a crate for its next check, and builds a library with all its proofs. Here nothing is
cached, and a library has only what others can cite. That is cheaper: the compiler does not start copies that read the
libraries again and exchange files, and a crate with many dependencies has less to read.

All this replaces functions inside rt by name. So for a kit that it was not tried with it prints a line, and runs the plain
rt.
"""
import functools
import importlib.machinery
import importlib.util
import os
import shutil
import subprocess
import sys

sys.dont_write_bytecode = True

# The kits in which the functions have these names and behave as described above.
KNOWN = ("rattle-kit-13b", "rattle-kit-13f")
# The proofs of a static library by a gate, in its folder.
PROVED = "out/proved"
# Options that are also left out of the compiler's command line, each with the word after it.
OF_A_PROOF = ("--logic-built", "--jobs", "--incremental")
# The kits whose gate accepts names, and then checks only these crates, with the caches of earlier gates.
WITH_A_GATE_OF_CRATES = ("rattle-kit-13f",)


def kit():
    """The name of the kit on the path, or a placeholder."""
    try:
        told = subprocess.run(["rt", "version"], stdin=subprocess.DEVNULL, stdout=subprocess.PIPE, text=True, errors="replace").stdout
    except OSError:
        return "a toolchain that is not on the path"
    return told.split()[0] if told.split() else "a kit without a name"


def loaded(script):
    """The script as a module, which does nothing yet."""
    loader = importlib.machinery.SourceFileLoader("rt", script)
    module = importlib.util.module_from_spec(importlib.util.spec_from_loader("rt", loader))
    loader.exec_module(module)
    return module


def each_once(stamp):
    """The sum of a crate, in which each crate below is summed up once. The next sum reads all files again."""
    taken, under_way = {}, []

    @functools.wraps(stamp)
    def summed(crate):
        if crate.folder not in taken:
            under_way.append(crate)
            taken[crate.folder] = stamp(crate)
            under_way.pop()
        found = taken[crate.folder]
        if not under_way:
            taken.clear()
        return found

    return summed


def write_sum(crate, found):
    with open(f"{crate.folder}/out/rlib/stamp", "w", encoding="utf-8") as file:
        file.write(found)


def with_its_sum(build_rlib):
    """The build of a library, which writes the library's sum next to it even if it was built from nothing. Its dependents are
    built over it in the same run, so they match."""

    @functools.wraps(build_rlib)
    def built(crate, flags, anew):
        before = crate.stamp()
        status = build_rlib(crate, flags, anew)
        if status == 0 and crate.stamp() == before:
            write_sum(crate, before)
        return status

    return built


def with_its_sum_if_kept(give):
    """Takes a crate from what earlier gates kept. A library gets its sum, as if it had been built."""

    @functools.wraps(give)
    def given(kept, crate, tests, key):
        before = crate.stamp() if crate.makes_rlib() and not tests else None
        is_given = give(kept, crate, tests, key)
        if is_given and before and all(map(kept.is_untouched, (crate, *crate.below()))):
            write_sum(crate, before)
        return is_given

    return given


def with_what_it_proved(prove):
    """The gate's proof of a crate, which leaves what it proved of a static library there."""

    @functools.wraps(prove)
    def proved(crate, *commands):
        return prove(crate, *([*it, "-o", PROVED] if crate.is_static and it[0] == "check" and "-o" not in it else it for it in commands))

    return proved


def without(words, left_out):
    """The words without these, and without the word after each."""
    return [it for before, it in zip([None, *words], words) if it not in left_out and before not in left_out]


def of_what_is_proved(call):
    """The call of the compiler for a static library: it makes its code from what a gate proved, and proves it first if that is
    for other sources or another target."""

    @functools.wraps(call)
    def called(crate, *words):
        is_proved = crate.is_static and "build" in words and "--target" not in words and os.path.isdir(f"{crate.folder}/{PROVED}")
        if is_proved and call(crate, *without(words, OF_A_PROOF), "--crate-checked", PROVED) == 0:
            return 0
        return call(crate, *words)

    return called


def for_one_build(call, is_library, keeping):
    """The call of the compiler for a crate: without the options for caching, and with only the statements of a library."""

    @functools.wraps(call)
    def called(crate, *words):
        words = [it for it in words if it not in keeping]
        if "build" in words and is_library(crate) and "--statements" not in words:
            words.append("--statements")
        return call(crate, *words)

    return called


def unbuilt(top, names):
    """Those of these crates of the repository in a folder whose libraries are not built from the current sources."""
    script, name = os.path.realpath(shutil.which("rt")), kit()
    if name not in KNOWN:
        return names
    rt = loaded(script).rtlib
    rt.Crate.stamp = each_once(rt.Crate.stamp)
    crates = {it.name: it for it in rt.crates_below(top)}
    return [it for it in names if not crates[it].is_built()]


def main():
    sums_alone = sys.argv[1:2] == ["--sums"]
    words = sys.argv[2:] if sums_alone else sys.argv[1:]
    found = shutil.which("rt")
    if not found:
        sys.exit("rt is not found: the toolchain is not on the path")
    script, name = os.path.realpath(found), kit()
    if name not in KNOWN:
        print(f"tools/once.py: {name} is not a kit that this was tried with: this is the plain rt", file=sys.stderr, flush=True)
        os.execv(script, ["rt", *words])
    rt = loaded(script)
    crate = rt.rtlib.Crate
    crate.stamp = each_once(crate.stamp)
    if sums_alone:
        crate.build_rlib = with_its_sum(crate.build_rlib)
        rt.Crate.prove = with_what_it_proved(rt.Crate.prove)
        if hasattr(rt, "Kept"):
            rt.Kept.give = with_its_sum_if_kept(rt.Kept.give)
        # Files of earlier runs are restored after a gate if the gate made none, never over those that it made.
        rt.put_back = functools.partial(rt.put_back, was_killed=True)
    else:
        crate.call = of_what_is_proved(for_one_build(crate.call, crate.makes_rlib, rt.rtlib.KEPT))
    sys.exit(rt.main(words))


if __name__ == "__main__":
    main()
