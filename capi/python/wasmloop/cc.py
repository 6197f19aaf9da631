"""Compiles and links a guest from C or C++ sources, with the flags that the host needs.

    python3 -m wasmloop.cc shop.c                              writes shop.wasm
    python3 -m wasmloop.cc -g shop.c more.c -o shop.wasm       writes shop.debug.wasm too, with DWARF
    python3 -m wasmloop.cc --libc squeeze.c zlib/*.c -- -Izlib with Debian's wasi-libc and the guest SDK

Flags after -- go to the compiler. uv.h and mem.c come with this package; --libc adds guest.h, stdio and the rest of wasi-libc (Debian:
wasi-libc and libclang-rt-14-dev-wasm32; for C++ libc++-14-dev-wasm32), --setjmp also setjmp and longjmp. C++ is compiled without exceptions
and RTTI; its static constructors run once, as the start function. What WebAssembly 1.0 lacks, such as floating point, is rewritten as by
`wasmloop.lower`.

A crate in Rust is built by cargo, and then rewritten:

    RUSTFLAGS='-C panic=abort -C strip=debuginfo -C link-args=--export-table -C link-args=--stack-first -C link-args=-zstack-size=16384' \\
        cargo build --release --target wasm32-unknown-unknown
    python3 -m wasmloop.lower target/wasm32-unknown-unknown/release/NAME.wasm NAME.wasm
"""

from __future__ import annotations

import os
import subprocess
import sys
import tempfile
from typing import List, Sequence

from . import _tool, explain, lower, wasm
from .lowering.binary import Refused

HERE = os.path.dirname(os.path.abspath(__file__))
KIT = "guest.c", "wasi.c", "nofiles.c"                  # of the guest SDK, linked with --libc
LIBC = "/usr/lib/wasm32-wasi"
CPP = ".cc", ".cpp", ".cxx", ".C"
EMULATED = "signal", "process-clocks", "getpid"        # parts of wasi-libc that are asked for by a macro
FLAGS = "-mcpu=mvp", "-O2", "-g", "-Wall"
LINK = "--no-entry", "--export-table", "--stack-first"
CONSTRUCTORS = "void __wasm_call_ctors(void);\n__attribute__((export_name(\"_initialize\"))) void _initialize(void) { __wasm_call_ctors(); }\n"


def guest_folder() -> str:
    """The folder of uv.h and mem.c: of an installed package, or of a checkout."""
    checkout = os.path.normpath(os.path.join(HERE, "../../../examples"))
    return next(it for it in (os.path.join(HERE, "guest"), checkout) if os.path.isfile(os.path.join(it, "uv.h")))


def kit_folder() -> str:
    """The folder of guest.h: `kit` in a checkout."""
    folder = guest_folder()
    return folder if os.path.isfile(os.path.join(folder, "guest.h")) else os.path.join(folder, "kit")


def run(*command: str) -> str:
    try:
        done = subprocess.run(command, stdout=subprocess.PIPE, check=False)
    except FileNotFoundError:
        raise _tool.Failed(f"{command[0]} is missing (Debian: apt install clang lld)") from None
    if done.returncode:
        raise _tool.Failed(f"{command[0]} failed with status {done.returncode}")
    return done.stdout.decode().strip()


class Build:
    """One guest in a folder of its own: compiler, target and libraries follow from the options."""

    def __init__(self, libc: bool, jumps: bool, stack: int, flags: Sequence[str], folder: str) -> None:
        self.clang, self.linker = os.environ.get("CC", "clang"), os.environ.get("LD", "wasm-ld")
        self.target, self.stack, self.flags, self.folder = "wasm32-wasi" if libc else "wasm32", stack, flags, folder
        self.objects: List[str] = []
        self.libc, self.jumps = libc, jumps

    def compile(self, source: str, *more: str) -> None:
        made = os.path.join(self.folder, f"{len(self.objects)}.o")
        run(self.clang, f"--target={self.target}", *FLAGS, *more, "-I", guest_folder(), "-I", kit_folder(), "-c", "-o", made, source)
        self.objects.append(made)

    def sources(self, sources: Sequence[str]) -> None:
        own = [f"-D_WASI_EMULATED_{it.upper().replace('-', '_')}" for it in EMULATED] if self.libc else ["-ffreestanding"]
        own += ["-mllvm", "-enable-emscripten-sjlj", "-isystem", kit_folder()] if self.jumps else []
        for source in sources:
            cpp = ["-fno-exceptions", "-fno-rtti"] if source.endswith(CPP) else []
            self.compile(source, *own, *cpp, *self.flags)
        self.compile(os.path.join(guest_folder(), "mem.c"), "-ffreestanding")
        for name in (*(KIT if self.libc else ()), *(["setjmp.c"] if self.jumps else ())):
            self.compile(os.path.join(kit_folder(), name), "-ffreestanding")
        if any(it.endswith(CPP) for it in sources):
            start = os.path.join(self.folder, "start.c")
            _tool.write(start, CONSTRUCTORS)
            self.compile(start)

    def libraries(self, cpp: bool) -> List[str]:
        if not self.libc:
            return []
        runtime = run(self.clang, f"--target={self.target}", "-print-libgcc-file-name")
        names = [*(("c++", "c++abi") if cpp else ()), "c", "m", *(f"wasi-emulated-{it}" for it in EMULATED)]
        found = [f"{LIBC}/lib{it}.a" for it in names]
        for file in (*found, runtime):
            if not os.path.isfile(file):
                raise _tool.Failed(f"{file} is missing (Debian: apt install wasi-libc libclang-rt-14-dev-wasm32, for C++ libc++-14-dev-wasm32)")
        return [*found, runtime]

    def link(self, cpp: bool, *more: str) -> bytes:
        made = os.path.join(self.folder, "linked.wasm")
        more = (*more, "--import-undefined") if self.jumps else more
        run(self.linker, *LINK, *more, "-z", f"stack-size={self.stack}", "-o", made, *self.objects, *self.libraries(cpp))
        return _tool.read(made)


def with_start(data: bytes) -> bytes:
    """The module with `_initialize`, which calls static constructors, as its start function."""
    module = wasm.Module(data)
    found = next((index for name, _, index in module.exports if name == "_initialize"), None)
    if found is None or wasm.START in module.places:
        return data
    kept = [it for it, (name, _, _) in zip(module.export_bytes(), module.exports) if name != "_initialize"]
    return module.written({wasm.START: wasm.u(found), wasm.EXPORT: wasm.vec(kept)})


def accepted(data: bytes) -> bytes:
    """The module as the host accepts it, rewritten if need be. Raises Failed if it cannot be."""
    if explain(data) is None:
        return data
    try:
        data, lowering = lower.lower(data, _tool.read(lower.SOFT))
    except Refused as why:
        raise _tool.Failed(f"the module cannot be rewritten: {why}", 3) from None
    for line in lowering.told():
        print(f"  {line}")
    why_not = explain(data)
    if why_not:
        raise _tool.Failed(why_not, 3)
    return data


def main() -> int:
    parser = _tool.words("cc", __doc__)
    parser.add_argument("sources", metavar="SOURCE", nargs="+", help="files of C or C++")
    parser.add_argument("-o", dest="out", metavar="OUT", help="the module; default: the first source with .wasm in place of its suffix")
    parser.add_argument("-g", dest="debug", action="store_true", help="also write OUT with .debug.wasm in place of .wasm: the module with DWARF")
    parser.add_argument("--libc", action="store_true", help="link wasi-libc and the guest SDK")
    parser.add_argument("--setjmp", action="store_true", help="compile setjmp and longjmp; with --libc")
    parser.add_argument("--stack", metavar="BYTES", type=_tool.whole(16), help="the size of the stack (16384; with --libc 65536)")
    mine = sys.argv[1:]
    flags: List[str] = []
    if "--" in mine:
        mine, flags = mine[:mine.index("--")], mine[mine.index("--") + 1:]
    given = parser.parse_args(mine)
    for source in given.sources:
        if source.endswith((".rs", "Cargo.toml")):
            raise _tool.Failed(f"{source}: cargo builds Rust; --help has the commands", 2)
    out, cpp = given.out or os.path.splitext(given.sources[0])[0] + ".wasm", any(it.endswith(CPP) for it in given.sources)
    with tempfile.TemporaryDirectory() as folder:
        build = Build(given.libc, given.setjmp, given.stack or (65536 if given.libc else 16384), flags, folder)
        build.sources(given.sources)
        made = accepted(with_start(build.link(cpp, "--strip-debug", "--compress-relocations")))
        if given.debug:
            _tool.write(os.path.splitext(out)[0] + ".debug.wasm", build.link(cpp))
        _tool.write(out, made)
    print(f"{out}: {len(made):,} bytes")
    return 0


if __name__ == "__main__":
    _tool.run("cc", main)
