#!/usr/bin/env python3
"""Has the toolchain build the crate of the current folder as a static library, by another folder of its programs, of what a gate
proved of it or of a proof now.

    proved.py TOOLCHAIN OUT
"""
import os
import shutil
import sys
from pathlib import Path

sys.dont_write_bytecode = True
sys.path.insert(0, str(Path(__file__).resolve().parent.parent.parent / "tools"))
import once

kit, out = sys.argv[1:]
rt = once.loaded(os.path.realpath(shutil.which("rt")))
crate = rt.rtlib.Crate
crate.stamp = once.each_once(crate.stamp)
call = crate.call


def by_another(of, *words):
    """The call of the compiler that builds the library, with that folder of programs and that place for what it makes."""
    words = [str(it) for it in words]
    if "build" in words and "staticlib" in words:
        for word, other in (("--toolchain", kit), ("-o", out)):
            if word in words:
                words[words.index(word) + 1] = other
            else:
                words += [word, other]
    return call(of, *words)


crate.call = once.of_what_is_proved(by_another)
sys.exit(rt.main(["lib"]))
