#!/usr/bin/env python3
"""Keeps the LLVM IR of a program, or of the library for C, as rattle hands it to clang, and the words of that call. A trial build from the IR of
`rt try` doesn't tell which jumps the build has: LLVM moves other numbers between blocks there. One trial had 122 jumps in each loop, and the
library that rattle built of the same sources 9. So a change of the engine's loop is tried in this IR, by hand, before its proof.

    trials/dispatch/catch.py wasmloop_c OUT      OUT/module.bc and OUT/words

It takes a minute or two where build.py has built the libraries below, and what it proved of the crate is kept. Then, with the words of OUT/words, but for
its two files, in place of WORDS:

    clang WORDS -Xclang -disable-llvm-passes -S -emit-llvm module.bc -o before.ll     each function before it is inlined, to be edited
    clang WORDS -c before.ll -o wasmloop_c.o                                          half a minute; as the only object of libwasmloop_c.a, and with
                                                                                      nothing edited, dist/link.sh makes the bytes of dist/ of it
    clang WORDS -S -emit-llvm before.ll -o behind.ll                                  each loop as it is compiled
    clang WORDS -Xclang -disable-llvm-passes -c behind.ll -mllvm -print-before=early-tailduplication -mllvm -filter-print-funcs=order::order::Order::call
"""

from __future__ import annotations

import os
import sys

TOP = os.path.dirname(os.path.dirname(os.path.dirname(os.path.realpath(__file__))))
sys.dont_write_bytecode = True
sys.path.insert(0, TOP)
import build  # noqa: E402

CLANG = """#!/bin/sh
# keeps the file of IR that clang is given, and the words of the call
for it in "$@"; do case "$it" in *.bc) cp "$it" "{out}/module.bc"; echo "$@" > "{out}/words" ;; esac; done
exec {clang} "$@"
"""


def toolchain(kit: str, out: str) -> str:
    """A folder that is the kit's toolchain, but for clang."""
    made = f"{out}/toolchain"
    os.makedirs(f"{made}/bin")
    os.symlink(f"{kit}/toolchain/lib", f"{made}/lib")
    for name in os.listdir(f"{kit}/toolchain/bin"):
        if name != "clang":
            os.symlink(f"{kit}/toolchain/bin/{name}", f"{made}/bin/{name}")
    with open(f"{made}/bin/clang", "w", encoding="utf-8") as file:
        file.write(CLANG.format(out=out, clang=f"{kit}/toolchain/bin/clang"))
    os.chmod(f"{made}/bin/clang", 0o755)
    return made


def main(name: str, out: str) -> int:
    rtlib = build.kit()
    if not rtlib:
        sys.exit("this needs a kit whose rt build.py knows")
    (crate,) = build.crates_of(rtlib, [name])
    crate.is_static = crate.is_static or name in build.FOR_C
    build.over_statements(crate.below())
    call, found, made = crate.call, f"{rtlib.KIT}/toolchain", toolchain(rtlib.KIT, os.path.abspath(out))
    # (rattle is told its toolchain by a word of the call)
    crate.call = lambda *words: call(*[made if it == found else it for it in words])  # type: ignore[assignment]
    crate.out = sys.stdout
    return crate.compile(["--jobs", "1", *["--cpu", "x86-64"] * crate.is_static], f"out/{name}.caught")


if __name__ == "__main__":
    if len(sys.argv) != 3:
        sys.exit(__doc__)
    sys.exit(main(*sys.argv[1:]))
