#!/usr/bin/env python3
"""Runs the program on modules and scripts that are lawful, or nearly so, and are built to cost time or memory.

    trials/hostile/run.py PROGRAM

A line each: what it is, the seconds of processor time, the greatest resident memory, and the answer. A `check` that takes more than a
second or 64 MiB, or that answers something else than it should, is marked, and the status is then 1. So is a command that says something
else where a thread has the stack alone that docs/LIMITS.md asks for. What a unit of fuel costs at worst is measured by bench/fuel/run.py.
"""

from __future__ import annotations

import os
import pathlib
import subprocess
import sys
import tempfile
from typing import Callable, List, Sequence, Tuple, Union

sys.path.insert(0, str(pathlib.Path(__file__).resolve().parents[1] / "spec"))
from wasm import OPENING, name as sized, section, u, vec  # noqa: E402

SIZE = 1024 * 1024
SECONDS, MEMORY = 1.0, 64 * 1024  # of a check; kibibytes
STACK = 128  # kibibytes
Content = Union[str, Callable[[], bytes]]  # a file, or what makes one


def body(code: bytes, locals: bytes = b"\0") -> bytes:
    return sized(locals + code + b"\x0b")


def module(bodies: Sequence[bytes], types: Sequence[bytes] = (b"\x60\0\0",), before: bytes = b"", behind: bytes = b"", use: int = 0) -> bytes:
    """A module whose functions have these bodies and all the same type."""
    return (OPENING + section(1, vec(list(types))) + section(3, vec([u(use)] * len(bodies))) + before
            + section(10, vec(bodies)) + behind)


def filled(unit: bytes, most: int = SIZE - 100, end: bytes = b"") -> bytes:
    """One body of as many units as a module has room for."""
    return module([body(unit * ((most - len(end)) // len(unit)) + end)])


def repeated(inner: bytes, count: int) -> bytes:
    return module([body(inner)] * count)


def nested(opening: bytes, count: int = 174_000) -> bytes:
    return module([body(opening * count + b"\x0b" * count)])


def tables(labels: int = 4096) -> bytes:
    branch = b"\x41\0\x0e" + u(labels) + b"\0" * (labels + 1)
    count = (SIZE - 200) // (len(branch) + 3)
    return module([body((b"\x02\x40" + branch + b"\x0b") * count)])


def typed_branches() -> bytes:
    """Branches in dead code to a label of 256 operands: each is compared with its types."""
    wide = b"\x60\0" + vec([b"\x7f"] * 16)
    taking = b"\x60" + vec([b"\x7f"] * 240) + b"\0"
    code = b"\0\x03\1" + b"\0" + b"\x0d\0" * ((SIZE - 800) // 2) + b"\0\x0b"
    return module([body(code)], types=(b"\x60\0\0", taking, wide))


def customs() -> bytes:
    one = b"\0\1\0"
    return OPENING + one * ((SIZE - 8) // 3)


def segments(number: int) -> bytes:
    head = section(5, b"\1\0\1") if number == 11 else section(4, b"\1\x70\0\1")
    item = b"\0\x41\0\x0b\0"
    count = (SIZE - 60) // len(item)
    return OPENING + head + section(number, u(count) + item * count)


def refused_behind_segments() -> bytes:
    before = section(4, b"\1\x70\0\1") + section(9, u(190_000) + b"\0\x41\0\x0b\0" * 190_000)
    return module([body(b"\1" * 65_000 + b"\x6a")], before=before)


def exports(length: int = 1004) -> bytes:
    names = [b"a" * (length - 4) + b"%04d" % k for k in range(1024)]
    listed = vec([u(length) + name + b"\0\0" for name in names])
    return OPENING + section(1, b"\1\x60\0\0") + section(3, b"\1\0") + section(7, listed) + section(10, vec([body(b"")]))


def counted(number: int) -> bytes:
    """A section that promises 2^32 - 1 items."""
    return OPENING + section(number, b"\xff\xff\xff\xff\x0f")


def locals_of(count: int) -> bytes:
    return module([body(b"", vec([u(1) + b"\x7f"] * 256))] * count)


MODULES: List[Tuple[str, Content, str]] = [
    ("350,000 nested blocks", lambda: nested(b"\x02\x40", 349_000), "validate 11 Nesting"),
    ("174,000 nested ifs", lambda: nested(b"\x41\0\x04\x40"), "validate 11 Nesting"),
    ("blocks 256 deep, one after another", lambda: filled(b"\x02\x40" * 256 + b"\x0b" * 256), "accepted"),
    ("a million nops", lambda: filled(b"\1"), "accepted"),
    ("a million ends of nothing", lambda: filled(b"\x0b"), "decode"),
    ("half a million constants dropped", lambda: filled(b"\x41\0\x1a"), "accepted"),
    ("4,096 functions", lambda: repeated(b"\1" * 240, 4096), "accepted"),
    ("1,300 functions of 256 groups of locals", lambda: locals_of(1300), "accepted"),
    ("br_tables of 4,096 labels", lambda: tables(), "accepted"),
    ("half a million dead branches to a label of 240 types", lambda: typed_branches(), "accepted"),
    ("350,000 custom sections", lambda: customs(), "accepted"),
    ("209,000 segments of data", lambda: segments(11), "accepted"),
    ("209,000 segments of elements", lambda: segments(9), "accepted"),
    ("1,024 exports with 1,000 equal letters in front", lambda: exports(), "accepted"),
    ("a type section of 2^32 - 1 types", lambda: counted(1), "decode 12 Limit"),
    ("an element section of 2^32 - 1 segments", lambda: counted(9), "decode 3 End"),
    ("a byte of no instruction behind a million nops", lambda: filled(b"\1", end=b"\x27"), "decode 8 Opcode"),
    ("a million nops, and operands that are missing", lambda: filled(b"\1", end=b"\x6a"), "validate 1 Type"),
    ("the same in the last of 4,096 functions", lambda: module([body(b"\1" * 240)] * 4095 + [body(b"\x6a")]), "validate 1 Type"),
    ("the same at the end of 65,000 bytes, behind 190,000 segments", lambda: refused_behind_segments(), "validate 1 Type"),
    ("a module of 1,048,577 bytes", lambda: b"\0" * (SIZE + 1), "decode 12 Limit"),
]

SCRIPT = '{"modules":["%s"],"loops":[{"module":0,"fuel":1,"work_fuel":1,"depth":1}],"workers":0,"steps":[%s]}'
SCRIPTS: List[Tuple[str, Content, str]] = [
    ("5 MB of opening brackets", lambda: b"[" * 5_000_000, "script 1 Json"),
    ("a number of 5 MB", lambda: b"1" * 5_000_000, "script 2 Shape"),
    ("500,000 keys", lambda: b"{" + b",".join(b'"%d":0' % k for k in range(500_000)) + b"}", "script 2 Shape"),
    ("a million steps", lambda: (SCRIPT % ("0061736d01000000", ",".join(['["loop",0]'] * 1_000_000))).encode(), "script 4 Range"),
    ("a module of 60 MB", lambda: (SCRIPT % ("00" * 30_000_000, "")).encode(), "module 0 decode"),
    ("a file without end", "/dev/zero", "script 4 Range"),
]


ROWS: List[Tuple[str, str, Content, str]] = [("check", *row) for row in MODULES] + [("script", *row) for row in SCRIPTS]


def run(command: Sequence[str]) -> Tuple[float, int, List[str]]:
    """Processor seconds, resident kibibytes and output of a command, in 4 GiB of address space."""
    with tempfile.TemporaryFile() as out:
        child = subprocess.Popen(["prlimit", f"--as={4 << 30}", *command], stdout=out, stderr=out)
        _, _, used = os.wait4(child.pid, 0)
        out.seek(0)
        return used.ru_utime + used.ru_stime, used.ru_maxrss, out.read(200).decode(errors="replace").splitlines()


def show(program: str, number: int, file: str) -> bool:
    """Prints the line of a row, and tells whether it is as it should be."""
    command, what, content, wanted = ROWS[number]
    if not isinstance(content, str):
        # Made by another process, so that what this one takes isn't seen as the program's.
        subprocess.run([sys.executable, __file__, "--make", str(number), file], check=True)
    seconds, memory, said = run([program, command, content if isinstance(content, str) else file])
    line = said[0] if said else ""
    is_good = line.startswith(wanted) and (command == "script" or (seconds <= SECONDS and memory <= MEMORY))
    print(f"{' ' if is_good else '!'} {command:6} {seconds:6.2f} s {memory / 1024:6.1f} MiB  {what}: {line[:60]}", flush=True)
    return is_good


EXAMPLES = pathlib.Path(__file__).resolve().parents[2] / "examples"
ON_SMALL_STACKS = [
    ("check", "digest.wasm"),
    ("check", "sha256.wasm"),
    ("invoke", "endless.wasm", "uv_main", "--depth", "128"),
    ("work", "sha256.wasm", "0", "616263"),
    ("script", "digest.json"),
    ("serve", "digest.wasm", "--loops", "8", "--workers", "16"),
    ("serve", "asks.wasm", "--loops", "2", "--workers", "2", "--work-fuel", "2"),
]


def show_on_small_stack(program: str, words: Sequence[str]) -> bool:
    """Prints the line of a command whose threads have little stack, and tells whether it says what it says with more."""
    command = [program, words[0], str(EXAMPLES / words[1]), *words[2:]]
    most, least = (subprocess.run(["prlimit", f"--stack={size << 10}", *command], capture_output=True) for size in (8192, STACK))
    # in which order a loop is told of its requests is the threads' own
    is_good = most.returncode == least.returncode and sorted((most.stdout + most.stderr).split()) == sorted((least.stdout + least.stderr).split())
    print(f"{' ' if is_good else '!'} {STACK} KiB of stack  {' '.join(words)}: status {least.returncode}", flush=True)
    return is_good


def main() -> None:
    if sys.argv[1:2] == ["--make"]:
        content = ROWS[int(sys.argv[2])][2]
        if not isinstance(content, str):
            pathlib.Path(sys.argv[3]).write_bytes(content())
        return
    if len(sys.argv) != 2:
        sys.exit(__doc__)
    with tempfile.TemporaryDirectory() as name:
        good = [show(sys.argv[1], number, f"{name}/hostile") for number in range(len(ROWS))]
    good += [show_on_small_stack(sys.argv[1], words) for words in ON_SMALL_STACKS]
    sys.exit(not all(good))


if __name__ == "__main__":
    main()
