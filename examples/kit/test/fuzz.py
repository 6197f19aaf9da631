#!/usr/bin/env python3
"""Random modules with what lower.py rewrites, through lower.py and the program, beside V8 on the module as it was.

    fuzz.py PROGRAM SOFT.wasm COUNT [SEED]

Of each module four calls are made: by V8 one after another on one instance of the module as it was, and on one of the
lowered module, with a look at all its memory after each call, those that trapped too; and by the program and by V8 each on
an instance of its own. What is returned, which trap it is, and the memory have to be the same. Wants node. Status 1: something
differs, and that module stays in the folder that is named.
"""

from __future__ import annotations

import collections
import json
import pathlib
import random
import subprocess
import sys
import tempfile
from typing import Callable, Counter, TypeVar

HERE = pathlib.Path(__file__).resolve().parent
sys.path.insert(0, str(HERE.parent))
import lower  # noqa: E402
from wasmloop.lowering.binary import F32, F64, FUNCTIONS, I32, I64, Refused, constant, sized, u, vec  # noqa: E402

PAGE, CALLS, ROUND = 65536, 4, 250
TRAPS = {"1": "unreachable", "4": "memory access out of bounds", "5": "table index is out of bounds",
         "6": "null function or function signature mismatch", "7": "null function or function signature mismatch"}
Picked = TypeVar("Picked")
FIRST = 4                   # the number of the first function that is called


def long_u(number: int, length: int = 5) -> bytes:
    """The number in more bytes than it needs."""
    return bytes(number >> 7 * i & 127 | (128 if i < length - 1 else 0) for i in range(length))


class Maker:
    def __init__(self, seed: int) -> None:
        self.random = random.Random(seed)
        self.lengths = [self.pick(0, 1, 5, 8, 13, 64, 100, 1000) for _ in range(self.pick(1, 2, 4))]
        self.active = [self.chance(2) for _ in self.lengths]

    def pick(self, *those: Picked) -> Picked:
        return self.random.choice(those)

    def chance(self, one_in: int) -> bool:
        return self.random.randrange(one_in) == 0

    def index(self, number: int) -> bytes:
        return long_u(number) if self.chance(3) else u(number)

    def near(self) -> int:
        r = self.random
        if self.chance(12):
            return self.pick(PAGE, PAGE + 1, 2 ** 32 - 1 - r.randrange(20), 2 * PAGE - r.randrange(20))
        return self.pick(r.randrange(40), r.randrange(300), PAGE - r.randrange(300), r.randrange(PAGE), r.randrange(PAGE))

    def count(self) -> int:
        r = self.random
        if self.chance(8):
            return self.pick(0, 0, 1, PAGE, r.randrange(PAGE), 2 ** 32 - 1 - r.randrange(20))
        return self.pick(r.randrange(9), r.randrange(40), r.randrange(40), r.randrange(200), r.randrange(3000))

    def number(self, value: int) -> bytes:
        value -= (value >> 31) << 32
        return self.pick(constant(I32, value), constant(I32, value), b"\x20" + u(self.random.randrange(3)),
                         b"\x20\0" + constant(I32, value) + b"\x6a")

    def some_float(self, kind: int) -> bytes:
        size = 4 if kind == F32 else 8
        last = self.pick(b"\xc0\x41", b"\xe0\x43", b"\xf0\xc3", b"\x00\x4f", b"\xf0\x7f")
        some = self.pick(b"\0" * size, self.some_bytes(size), self.some_bytes(size - 2) + last)
        return bytes([0x43 if kind == F32 else 0x44]) + some

    def some_bytes(self, count: int) -> bytes:
        return bytes(self.random.randrange(256) for _ in range(count))

    def segment(self) -> int:
        return self.random.randrange(len(self.lengths))

    def at_the_edge(self) -> bytes:
        """A copy or a fill that ends at the memory's end, or one byte before or behind it."""
        count, inside = self.pick(0, 0, 1, 3, 4, 8, 9, 40), constant(I32, self.random.randrange(200))
        edge = constant(I32, PAGE - count + self.pick(-1, 0, 0, 1))
        return self.pick(edge + inside, inside + edge, edge + edge) + constant(I32, count) + b"\xfc\x0a\0\0" if self.chance(2) \
            else edge + inside + constant(I32, count) + b"\xfc\x0b\0"

    def copied(self) -> bytes:
        return self.number(self.near()) + self.number(self.near()) + self.number(self.count())

    def initialised(self, k: int) -> bytes:
        length = self.lengths[k]
        return (self.number(self.near()) + self.number(self.pick(0, 0, self.random.randrange(length + 2)))
                + self.number(self.pick(0, length, length + 1, self.random.randrange(length + 2))))

    def statement(self) -> bytes:
        k = self.segment()
        kind = self.pick(F32, F64)
        into = b"\x20\x03" + constant(I64, 31) + b"\x7e%s\x7c\x21\x03"       # local 3 = local 3 * 31 + ..

        def wide(code: bytes) -> bytes:
            return into.replace(b"%s", code)

        statements: list[Callable[[], bytes]] = [
            self.at_the_edge,
            lambda: self.copied() + b"\xfc\x0a\0\0",
            lambda: self.copied() + b"\xfc\x0a\0\0",
            lambda: self.number(self.near()) + self.number(self.random.randrange(1 << 32)) + self.number(self.count()) + b"\xfc\x0b\0",
            lambda: self.initialised(k) + b"\xfc\x08" + self.index(k) + b"\0",
            lambda: b"\xfc\x09" + self.index(k) if self.chance(3) else b"",
            lambda: constant(I32, self.random.randrange(PAGE)) + constant(I64, self.random.randrange(1 << 62))
            + b"\x37" + self.index(0) + self.index(self.random.randrange(3000)),
            lambda: wide(self.some_float(kind) + b"\xfc" + u(4 + 2 * (kind == F64) + self.random.randrange(2))),
            lambda: wide(self.some_float(kind) + b"\xfc" + u(2 * (kind == F64) + self.random.randrange(2)) + b"\xad"),
            lambda: wide(b"\x20\0\xb7\x20\x01\xb7" + self.pick(b"\xa0", b"\xa1", b"\xa2", b"\xa3") + b"\xfc" + u(self.pick(6, 7))),
            lambda: wide(self.number(self.random.randrange(5)) + b"\x11" + self.index(0) + self.index(0)),
            lambda: wide(constant(I64, 7) + b"\x20\x03" + self.number(self.random.randrange(2)) + b"\x1c\x01" + bytes([I64])),
            lambda: b"\x20\0\x20\x03\x02" + self.pick(b"\x02", b"\x82\0", b"\x82\x80\0") + b"\x0b\x21\x03\x21\0",
            lambda: wide(self.pick(constant(I32, 1) + b"\x40\0", b"\x3f\0") + b"\xac"),
            lambda: wide(b"\x20\x03" + self.pick(b"\xc2", b"\xc3", b"\xc4")),
        ]
        return self.random.choice(statements)()

    def module(self) -> bytes:
        """Functions: 0 adds up the memory, 1 and 2 are for the table, 3 fills the memory first, then four that are called."""
        types = [(b"", bytes([I64])), (bytes([I32] * 3), bytes([I64])), (bytes([I32, I64]), bytes([I32, I64])),
                 (b"", bytes([I32])), (b"", b"")]
        added = (b"\x02\x01\x7f\x01\x7e\x03\x40\x20\x01" + constant(I64, 1000003) + b"\x7e\x20\0\x29\0\0\x85\x21\x01"
                 b"\x20\0\x41\x08\x6a\x22\0\x3f\0\x41\x10\x74\x49\x0d\0\x0b\x20\x01\x0b")
        filled = (b"\x01\x01\x7f\x03\x40\x20\0\x20\0\x29\0\0\x20\0\xad" + constant(I64, 1) + b"\x7c"
                  + constant(I64, 0x9E3779B97F4A7C15 - (1 << 64))
                  + b"\x7e\x85\x37\0\0\x20\0\x41\x08\x6a\x22\0\x3f\0\x41\x10\x74\x49\x0d\0\x0b\x0b")
        bodies = [added, b"\0" + constant(I64, 11) + b"\x0b", b"\0" + constant(I32, 22) + b"\x0b", filled]
        for _ in range(CALLS):
            code = b"".join(self.statement() for _ in range(self.pick(1, 2, 4, 8)))
            bodies.append(b"\x01\x01\x7e" + code + b"\x20\x03\x10\0\x7c\x0b")
        kinds = [0, 0, 3, 4] + [1] * CALLS
        at = constant(I32, 1) + b"\x0b"
        elements = self.pick(b"\0" + at + vec([b"\x01", b"\x02"]), b"\x02" + long_u(0) + at + b"\0" + vec([b"\x01", b"\x02"]),
                             b"\x04" + at + vec([b"\xd2\x01\x0b", b"\xd0\x70\x0b", b"\xd2\x01\x0b"]),
                             b"\x06\0" + at + bytes([FUNCTIONS]) + vec([b"\xd2\x02\x0b", b"\xd2\x01\x0b"]))
        more = [b"\x03\0" + vec([b"\x01"])] * self.pick(0, 1) + [b"\x01\0" + vec([b"\x02"])] * self.pick(0, 1)
        data = []
        for length, active in zip(self.lengths, self.active):
            contents = sized(self.some_bytes(length))
            offset = constant(I32, self.random.randrange(2000)) + b"\x0b"
            data.append(self.pick(b"\0", b"\x02\0") + offset + contents if active else b"\x01" + contents)
        sections = {1: vec([b"\x60" + sized(p) + sized(r) for p, r in types]), 3: vec([u(k) for k in kinds]),
                    4: b"\x01\x70\0\x04", 5: b"\x01\x01\x01" + u(self.pick(1, 2, 3)),
                    7: vec([b"\x02f" + str(i).encode() + b"\0" + u(FIRST + i) for i in range(CALLS)] + [b"\x01m\x02\0"]),
                    8: u(3), 9: vec([elements, *more]), 12: u(len(data)), 10: vec([sized(b) for b in bodies]), 11: vec(data)}
        return b"\0asm\1\0\0\0" + b"".join(bytes([n]) + sized(part) for n, part in sections.items())

    def calls(self) -> list[list[int]]:
        return [[self.near() % (1 << 32), self.near() % (1 << 32), self.count()] for _ in range(CALLS)]


def host(program: str, path: pathlib.Path, i: int, given: list[int]) -> str:
    done = subprocess.run([program, "invoke", path, f"f{i}", *map(str, given), "--fuel", str(1 << 40), "--depth", "128"],
                          stdout=subprocess.PIPE, stderr=subprocess.PIPE)
    words = done.stdout.decode().split()
    if words[:1] == ["return"]:
        return words[1]
    return TRAPS.get(words[1], words[1]) if words[:1] == ["trap"] else done.stdout.decode() + done.stderr.decode()


def main(program: str, soft_file: str, count: str, seed: str = "1") -> bool:
    folder, soft = pathlib.Path(tempfile.mkdtemp()), pathlib.Path(soft_file).read_bytes()
    wrong: list[str] = []
    counts: Counter[str] = collections.Counter()
    for first in range(int(seed), int(seed) + int(count), ROUND):
        calls = {}
        for number in range(first, min(first + ROUND, int(seed) + int(count))):
            maker = Maker(number)
            data = maker.module()
            try:
                lowered, _ = lower.lower(data, soft)
            except Refused as why:
                wrong.append(f"{number}: {why}")
                lowered = data
            (folder / f"{number}.wasm").write_bytes(data)
            (folder / f"{number}.low.wasm").write_bytes(lowered)
            calls[number] = maker.calls()
        (folder / "calls.json").write_text(json.dumps(calls))
        told = json.loads(subprocess.run(["node", HERE / "fuzz.mjs", folder], stdout=subprocess.PIPE, check=True).stdout)
        for number, given in calls.items():
            by_v8 = told[str(number)]
            by_host = [host(program, folder / f"{number}.low.wasm", i, given[i]) for i in range(CALLS)]
            alike = by_v8["row"] == by_v8["low"] and by_v8["fresh"] == by_host
            counts.update(a if a in TRAPS.values() else "returned" for a in by_host)
            if alike:
                for name in (f"{number}.wasm", f"{number}.low.wasm"):
                    (folder / name).unlink()
            else:
                wrong.append(f"{folder}/{number}.wasm: {given}: V8 {by_v8}, the program {by_host}")
    print("\n".join(wrong[:10]))
    print(f"{count} modules, {len(wrong)} differ; calls: " + ", ".join(f"{n} {what}" for what, n in counts.most_common()))
    return bool(wrong)


if __name__ == "__main__":
    sys.exit(main(*sys.argv[1:]))
