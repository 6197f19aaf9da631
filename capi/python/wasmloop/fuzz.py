"""Fuzzes the uv_work of any module with libFuzzer. The module is not recompiled.

    python3 -m wasmloop.fuzz guest.wasm 0 corpus --seconds 60
    python3 -m wasmloop.fuzz guest.wasm 0 --per-byte 500

A finding is an input that makes it trap, exceed the call depth, run out of fuel or use more than N units per byte. The input is written to
GUEST.found, or to GUEST.found.2 beside an earlier one, and the tool prints the command that repeats it. Inputs that reach new blocks are
added to the corpus, a folder. The tool needs clang with libFuzzer (Debian: clang, with the libclang-rt-14-dev that it recommends).
"""

from __future__ import annotations

import argparse
import os
import re
import shlex
import subprocess
import sys
import tempfile
from typing import Dict, Iterable, List, Tuple, Union

from . import Module, _tool, cc, lines, runs, wasm
from ._abi import _library
from .counts import ADD, LOAD, STORE, Writer, get
from .wasm import I32, I64, constant, i32, text, u

MOST_COMPARES = 256                                     # as in fuzz_guest.c
SPARE = 16                                              # pages that a guest may grow by
COMPARES = {0x46: I32, 0x47: I32, 0x51: I64, 0x52: I64}  # eq and ne


class FuzzWriter(Writer):
    """Writes the guest that counts its blocks, keeps what it compares, and exports where."""

    def pages_for(self, least: int, room: int) -> int:
        """Few: a small memory makes an instance quickly."""
        grows = any(op == wasm.MEMORY_GROW for body in self.module.bodies for _, op, _ in body.ops)
        return min(super().pages_for(least, room), least + room + (SPARE if grows else 0))

    def more_room(self) -> int:
        return 16 * (MOST_COMPARES + 1)

    def places(self) -> Dict[str, int]:
        """The exported globals, with their values."""
        compares = (self.counters + 4 * len(self.rows) + 15) // 16 * 16
        return {"counters": self.counters, "count": len(self.rows), "input": self.bytes_in, "input length": self.words,
                "compares": compares, "compare count": self.words + 8}

    def more_globals(self) -> List[bytes]:
        return [bytes([I32, 0]) + constant(I32, it) for it in self.places().values()]

    def exports(self) -> List[bytes]:
        first = len(self.module.globals()) + 1
        return [*super().exports(), *(text(f"fuzz {name}") + b"\3" + u(first + k) for k, name in enumerate(self.places()))]

    def compare(self, op: int) -> int:
        """The index of a function that compares, and keeps both numbers."""
        places, wide = self.places(), b"\xad" if COMPARES[op] == I32 else b""
        count = i32(places["compare count"])
        place = i32(places["compares"]) + count + LOAD + i32(MOST_COMPARES - 1) + b"\x71" + i32(16) + b"\x6c" + ADD
        keep = b"".join(place + get(local) + wide + b"\x37\3" + u(8 * local) for local in (0, 1))
        code = keep + count + count + LOAD + i32(1) + ADD + STORE + get(0) + get(1) + bytes([op])
        return self.function(f"compare {op}", [COMPARES[op]] * 2, [I32], [], code)

    def piece(self, place: int, start: int, op: int, end: int) -> bytes:
        return b"\x10" + u(self.compare(op)) if op in COMPARES else super().piece(place, start, op, end)


def counted(data: bytes) -> Tuple[bytes, bytes]:
    """The counted guest, and the cost of each block."""
    for kind in (Writer.INLINE, Writer.CALLS):
        writer = FuzzWriter(wasm.Module(data), kind)
        code = writer.written()
        if len(code) <= wasm.MOST_BYTES:
            return code, b"".join(row.cost.to_bytes(4, "little") for row in writer.rows)
    raise _tool.Failed(f"with counters the module has {len(code):,} bytes, more than {wasm.MOST_BYTES:,}")


def beside(name: str, checkout: str) -> str:
    """A file of this package, or of the checkout."""
    file = os.path.join(cc.HERE, "guest", name)
    return file if os.path.isfile(file) else os.path.normpath(os.path.join(cc.HERE, "../..", checkout, name))


def built(folder: str, blocks: int) -> str:
    """The fuzzer for so many blocks, linked with the library that this package uses."""
    library, made = os.environ.get("WASMLOOP_LIBRARY") or _library(), os.path.join(folder, "fuzz")
    place = os.path.abspath(library)
    linked = [place, f"-Wl,-rpath,{os.path.dirname(place)}"] if os.path.isfile(place) else [f"-l:{library}"]
    try:
        cc.run(os.environ.get("CC", "clang"), "-O2", "-fsanitize=fuzzer", f"-DBLOCKS={blocks}", "-I", os.path.dirname(beside("wasmloop.h", "include")),
               "-o", made, beside("fuzz_guest.c", "."), *linked)
    except _tool.Failed as why:
        raise _tool.Failed(f"{why} (it needs libFuzzer; Debian: apt install clang libclang-rt-14-dev)") from None
    return made


def progress(stream: Iterable[str], shown: Union[bool, str]) -> Tuple[int, int, List[str]]:
    """Reads libFuzzer's messages to their end. Returns how many inputs ran and how many blocks they reached, and the last lines."""
    runs_done, blocks = 0, 0
    last: List[str] = []
    for line in stream:
        last = [*last, line.rstrip()][-5:]
        told = re.match(r"#(\d+)\s.*\bcov: (\d+)", line)
        if told:
            runs_done, blocks = int(told[1]), int(told[2])
        if shown == "all":
            sys.stderr.write(line)
        elif shown and told:
            print(f"\r{runs_done:,} inputs, {blocks} blocks reached", end="", file=sys.stderr, flush=True)
    if shown and shown != "all":
        print(file=sys.stderr)
    return runs_done, blocks, last


def fuzz(given: argparse.Namespace, data: bytes, folder: str, found: str) -> Tuple[bool, int, int]:
    """Runs the fuzzer. Returns whether it wrote a finding, how many inputs ran, and how many blocks they reached."""
    code, costs = counted(data)
    files = {"GUEST": code, "COSTS": costs}
    for name, contents in files.items():
        _tool.write(os.path.join(folder, name), contents)
    environment = {**os.environ, **{it: os.path.join(folder, it) for it in files}, "OP": str(given.op % 2**32), "FUEL": str(given.fuel),
                   "DEPTH": str(min(given.depth + 1, 128)), "PER_BYTE": str(given.per_byte)}
    words = [f"-exact_artifact_path={found}", f"-max_total_time={given.seconds}", f"-max_len={given.most}", f"-seed={given.seed}", "-timeout=600"]
    command = [built(folder, len(costs) // 4), *words, *([given.corpus] if given.corpus else [])]
    with subprocess.Popen(command, env=environment, stderr=subprocess.PIPE, encoding="utf-8", errors="replace") as it:
        assert it.stderr
        ran, blocks, last = progress(it.stderr, "all" if given.verbose else sys.stderr.isatty())
    is_found = os.path.isfile(found)
    if not ran and not is_found:
        raise _tool.Failed("\n".join(["the fuzzer ran no input:", *last]))
    if it.returncode and not is_found:
        raise _tool.Failed("\n".join([f"the fuzzer failed with status {it.returncode}:", *last]))
    return is_found, ran, blocks


def free_name(guest: str) -> str:
    """Where a finding goes: GUEST.found, or GUEST.found.2 and so on beside earlier ones."""
    names = (f"{guest}.found{'' if it == 1 else f'.{it}'}" for it in range(1, 10**6))
    return next(it for it in names if not os.path.exists(it))


def explained(given: argparse.Namespace, data: bytes, host: Module, found: str) -> str:
    """What the finding does: the sentence on a run that stopped, or its units."""
    run = runs.Request(data, host, given.op, _tool.read(found), given.depth, given.fuel)
    ran = run.run()
    source = lines.wanted(data, given.debug)
    told = ran.told or f"{run} used {ran.used:,} units, more than {given.per_byte:,} per byte"
    return source.told(told) if source else told


def main() -> int:
    parser = _tool.words("fuzz", __doc__, ";\n4 also if there is a finding")
    parser.add_argument("guest", metavar="GUEST", help="the module; with DWARF, its lines are reported too")
    parser.add_argument("op", metavar="OP", nargs="?", type=int, default=0, help="the argument of uv_work (0)")
    parser.add_argument("corpus", metavar="FOLDER", nargs="?", help="inputs to begin with, to which it adds; default: none")
    parser.add_argument("--seconds", metavar="N", type=_tool.whole(1), default=60, help="the time limit (60)")
    parser.add_argument("--per-byte", metavar="N", type=_tool.whole(1), default=0, help="the maximum of units per byte, above those of an empty request")
    parser.add_argument("--fuel", metavar="N", type=_tool.whole(1), default=10_000_000, help="the fuel of a run, in units (10000000)")
    parser.add_argument("--depth", metavar="N", type=_tool.whole(1), default=64, help="the call-depth limit (64)")
    parser.add_argument("--most", metavar="N", type=_tool.whole(1), default=4096, help="the maximum length of an input (4096)")
    parser.add_argument("--seed", metavar="N", type=_tool.whole(1), default=1, help="the seed (1)")
    parser.add_argument("--debug", metavar="FILE", help="the module with DWARF, if GUEST was stripped or lowered")
    parser.add_argument("--verbose", action="store_true", help="show libFuzzer's messages")
    given = parser.parse_args()
    data = _tool.read(given.guest)
    host, _ = _tool.load(data, given.guest)
    if not host.shape().work:
        raise _tool.Failed("the module exports no uv_work", 2)
    if given.corpus and not os.path.isdir(given.corpus):
        raise _tool.Failed(f"{given.corpus}: no such folder: make it, or leave it out")
    found = free_name(given.guest)
    with tempfile.TemporaryDirectory() as folder:
        is_found, ran, blocks = fuzz(given, data, folder, os.path.abspath(found))
    if not is_found:
        print(f"no finding in {given.seconds} seconds: {ran:,} inputs reached {blocks} blocks")
        return 0
    print(explained(given, data, host, found))
    words = [given.guest, str(given.op % 2**32), "--in", found, "--fuel", str(given.fuel), "--depth", str(given.depth)]
    print(f"repeat: wasmloop work {' '.join(map(shlex.quote, words))}")
    return 4


if __name__ == "__main__":
    _tool.run("fuzz", main)
