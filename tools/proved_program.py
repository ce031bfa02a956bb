#!/usr/bin/env python3
"""Has the toolchain prove and compile the program of the current folder by another folder of its programs. It is not linked, and not run.

    proved_program.py TOOLCHAIN OUT.o
"""
import os
import shutil
import sys

sys.dont_write_bytecode = True
import once

kit, out = sys.argv[1:]
rt = once.loaded(os.path.realpath(shutil.which("rt")))
crate = rt.rtlib.Crate
crate.stamp = once.each_once(crate.stamp)
call = crate.call


def by_another(of, *words):
    """The call of the compiler that makes code, with that folder of programs."""
    words = [str(it) for it in words]
    if "--toolchain" in words:
        words[words.index("--toolchain") + 1] = kit
    return call(of, *words)


crate.call = once.for_one_build(by_another, crate.makes_rlib, rt.rtlib.KEPT)
crate.run = lambda of, flags, *_, **__: of.compile(flags, out)
sys.exit(rt.main(["run", "--jobs", "1"]))
