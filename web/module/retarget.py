#!/usr/bin/env python3
"""Changes the target of the LLVM module that the toolchain made from a proved static library, from x86-64 to wasm64.

    retarget.py IN.ll OUT.ll

The only x86-specific operation in such a module is one shuffle of bytes.
"""
import re
import sys

LAYOUT = "e-m:e-p:64:64-p10:8:8-p20:8:8-i64:64-i128:128-n32:64-S128-ni:1:10:20"
SHUFFLE, SHUFFLED = "@llvm.x86.ssse3.pshuf.b.128(", "@shuffled("


def shuffled():
    """A shuffle: each byte is picked by the low four bits of an index, or is zero if its top bit is set. The bytes are put into memory once, since
    the target has no vectors: a byte of one is picked by writing all of it first."""
    lines, last = ["define internal <16 x i8> @shuffled(<16 x i8> %bytes, <16 x i8> %indexes) alwaysinline nounwind {", "  %table = alloca <16 x i8>, align 16",
                   "  store <16 x i8> %bytes, ptr %table, align 16"], "zeroinitializer"
    for k in range(16):
        lines += [f"  %index{k} = extractelement <16 x i8> %indexes, i32 {k}", f"  %low{k} = and i8 %index{k}, 15", f"  %zero{k} = icmp slt i8 %index{k}, 0",
                  f"  %wide{k} = zext i8 %low{k} to i64", f"  %place{k} = getelementptr i8, ptr %table, i64 %wide{k}", f"  %byte{k} = load i8, ptr %place{k}",
                  f"  %picked{k} = select i1 %zero{k}, i8 0, i8 %byte{k}", f"  %made{k} = insertelement <16 x i8> {last}, i8 %picked{k}, i32 {k}"]
        last = f"%made{k}"
    return "\n".join([*lines, f"  ret <16 x i8> {last}", "}"])


def retargeted(text):
    text = re.sub(r' "probe-stack"="[^"]*" "stack-probe-size"="\d+" "target-cpu"="[^"]*"', "", text)
    text = re.sub(r'target datalayout = "[^"]*"', f'target datalayout = "{LAYOUT}"', text)
    text = re.sub(r'target triple = "[^"]*"', 'target triple = "wasm64-unknown-unknown"', text)
    text = text.replace(SHUFFLE, SHUFFLED)
    return re.sub(r"declare <16 x i8> @shuffled\(.*", lambda _: shuffled(), text)


def main():
    with open(sys.argv[1], encoding="utf-8") as file:
        text = retargeted(file.read())
    left = sorted(set(re.findall(r"@llvm\.x86\.[\w.]+|x86-64[\w-]*", text)))
    if left:
        sys.exit(f"retarget.py: the module uses {left}")
    with open(sys.argv[2], "w", encoding="utf-8") as file:
        file.write(text)


if __name__ == "__main__":
    main()
