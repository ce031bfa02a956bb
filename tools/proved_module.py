"""The module of a proved crate in LLVM's terms, and object files of WebAssembly from it: what the page and the C file are made of.

The toolchain does not link what takes memory for WebAssembly. So the module that it makes of the proved crate for x86-64 is given another
target (web/module/retarget.py), and compiled by the toolchain's clang with the words that the toolchain itself has for that target. The
target has addresses of 64 bits, as the proof has. The `main` that the toolchain gives a program sets a signal handler, checks the processor,
and calls the program. It is replaced by a function that only calls the program.
"""
import os
import re
import shutil
import stat
import subprocess
import sys
from pathlib import Path

TOP = Path(__file__).resolve().parent.parent
PARTS = TOP / "web/module"
SCRIPT = "/".join(Path(sys.argv[0]).resolve().parts[-2:])
# The options for clang, as the toolchain uses them for wasm64.
FOR_WASM = ["--target=wasm64-unknown-unknown", "-mcpu=lime1", "-mllvm", "-expand-div-rem-bits=64", "-mllvm", "-expand-fp-convert-bits=64",
            "-ffunction-sections", "-fdata-sections", "-mllvm", "-trap-unreachable", "-mllvm", "-disable-machine-licm", "-mllvm",
            "-disable-postra-machine-licm", "-mllvm", "-sink-common-insts=false", "-O3", "-c"]
# The function that starts a program, and the toolchain's.
START, MAIN = "program", re.compile(r"^define i32 @main\(\).*?^}\n", re.M | re.S)
STARTED = re.compile(r'call i32 (@"[^"]+\+start"\(\))')
LINKED = ["-flavor", "wasm", "-m", "wasm64", "--no-entry", "--gc-sections"]


def toolchain():
    if subprocess.run([TOP / "tools/toolchain"]).returncode:
        sys.exit(f"{SCRIPT}: rt, the toolchain, is not on the path")
    return Path(os.path.realpath(shutil.which("rt"))).parent.parent / "toolchain"


def run(*words, **how):
    if subprocess.run([str(it) for it in words], **how).returncode:
        sys.exit(f"{SCRIPT}: failed: {Path(str(words[0])).name}")


def proved_module(crate, folder):
    """Has the toolchain prove and build a crate, with a clang that keeps the module that it is given."""
    kept = folder / "kept"
    kept.mkdir()
    kit = folder / "toolchain"
    shutil.copytree(toolchain(), kit, copy_function=os.symlink)
    clang = kit / "bin/clang"
    clang.unlink()
    clang.write_text(f'#!/bin/bash\nfor word in "$@"; do [ -f "$word" ] && cp "$word" "{kept}/$(basename "$word")"; done\nexec -a clang "{toolchain() / "bin/clang"}" "$@"\n', encoding="utf-8")
    clang.chmod(clang.stat().st_mode | stat.S_IXUSR)
    at = TOP / "crates" / crate
    if (at / "src/main.rt").is_file():
        run(sys.executable, TOP / "tools/proved_program.py", kit, folder / f"{crate}.o", cwd=at)
    else:
        run(sys.executable, PARTS / "proved.py", kit, folder / f"lib{crate}.a", cwd=at)
    modules = list(kept.glob("*.bc"))
    if len(modules) != 1:
        sys.exit(f"{SCRIPT}: the toolchain gave its clang {len(modules)} modules")
    return modules[0]


def without_main(text):
    """The text of a module, which starts a program by another function than `main`."""
    return MAIN.sub(lambda it: f"define i32 @{START}() {{\n  %r = call i32 {STARTED.search(it[0])[1]}\n  ret i32 %r\n}}\n", text)


def objects(module, by_hand, folder):
    """The object files of a module for x86-64, and of the C sources next to it."""
    clang = toolchain() / "bin/clang"
    run(clang, "-x", "ir", "-O0", "-Xclang", "-disable-llvm-passes", "-S", "-emit-llvm", "-o", folder / "x86.ll", module)
    text = (folder / "x86.ll").read_text(encoding="utf-8")
    (folder / "x86.ll").write_text(without_main(text), encoding="utf-8")
    run(sys.executable, PARTS / "retarget.py", folder / "x86.ll", folder / "wasm.ll")
    run(clang, *FOR_WASM, "-x", "ir", folder / "wasm.ll", "-o", folder / "ncp.o")
    for part in by_hand:
        run(clang, *FOR_WASM, "-x", "c", "-ffreestanding", "-nostdlib", PARTS / f"{part}.c", "-o", folder / f"{part}.o")
    return [folder / f"{it}.o" for it in ("ncp", *by_hand)]


def link(objects, exports, words, out):
    """Links object files, with the functions of these names for others to call."""
    run(toolchain() / "bin/ld.lld", *LINKED, *words, *(f"--export={it}" for it in exports), "-o", out, *objects)
