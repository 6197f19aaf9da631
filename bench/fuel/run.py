#!/usr/bin/env python3
"""Measures how long one unit of fuel takes, for kinds of instructions and of host calls.

    bench/fuel/run.py PROGRAM

Each row is a module made for it: a loop over some instructions, run until its fuel is spent. Printed is the processor
time of one unit in nanoseconds, and as a multiple of the first row's, a tight loop. It is the difference of two runs,
one with twice the other's fuel, divided by that of their fuel: what a process costs to start, and a module to load, is
in neither. Each is the minimum of five runs; the fuel is raised until a run takes long enough to be measured.
"""

from __future__ import annotations

import json
import resource
import subprocess
import sys
import tempfile
from pathlib import Path

sys.path.insert(0, str(Path(__file__).resolve().parents[2] / "trials" / "spec"))
from wasm import OPENING, name as sized, s as signed, u as number, vec as vector  # noqa: E402

I32, I64 = 0x7F, 0x7E
DROP, LOOP, BR0, END = b"\x1a", b"\x03\x40", b"\x0c\x00", b"\x0b"
CALLS: dict[str, tuple[list[int], list[int]]] = {
    "now": ([], [I64]), "timer_init": ([], [I32]), "timer_start": ([I32, I32, I64, I64], [I32]),
    "timer_again": ([I32], [I32]), "async_init": ([I32], [I32]), "async_send": ([I32], [I32]),
    "is_active": ([I32], [I32]), "queue_work": ([I32, I32, I32], [I32]), "cancel": ([I32], [I32]),
    "in_len": ([], [I32]), "in_copy": ([I32, I32, I32], [I32]), "out_set": ([I32, I32], [I32]), "emit": ([I64], [I32]),
}


def const(n: int) -> bytes:
    return b"\x41" + signed(n)


def const64(n: int) -> bytes:
    return b"\x42" + signed(n)


class Module:
    """A module with two pages (or as many as are given), a table of one callback, and the functions of "uv"."""

    def __init__(self, pages: int = 2) -> None:
        self.types: list[bytes] = []
        self.functions: list[tuple[int, bytes]] = []
        self.exports: list[bytes] = []
        self.pages = pages
        self.imports = [sized(b"uv") + sized(n.encode()) + b"\x00" + number(self.type(*t)) for n, t in CALLS.items()]
        self.callback = self.function([I32], [], [], b"")

    def type(self, params: list[int], results: list[int]) -> int:
        spelled = b"\x60" + vector([bytes([p]) for p in params]) + vector([bytes([r]) for r in results])
        if spelled not in self.types:
            self.types.append(spelled)
        return self.types.index(spelled)

    def function(self, params: list[int], results: list[int], local_groups: list[tuple[int, int]], body: bytes, export: str | None = None) -> int:
        groups = vector([number(n) + bytes([t]) for n, t in local_groups])
        self.functions.append((self.type(params, results), sized(groups + body + END)))
        index = len(self.imports) + len(self.functions) - 1
        if export:
            self.exports.append(sized(export.encode()) + b"\x00" + number(index))
        return index

    def encoded(self) -> bytes:
        sections = {
            1: vector(self.types), 2: vector(self.imports), 3: vector([number(t) for t, _ in self.functions]),
            4: b"\x01\x70\x00\x01", 5: b"\x01\x00" + number(self.pages), 6: b"\x01\x7f\x01\x41\x00\x0b",
            7: vector(self.exports), 9: b"\x01\x00\x41\x00\x0b" + vector([number(self.callback)]),
            10: vector([code for _, code in self.functions]),
        }
        return OPENING + b"".join(bytes([i]) + sized(s) for i, s in sections.items())


def call(name: str) -> bytes:
    return b"\x10" + number(list(CALLS).index(name))


def plain(body: bytes, times: int = 100, before: bytes = b"") -> Module:
    """uv_main with eight locals of each type, and a loop of so many bodies."""
    module = Module()
    module.function([], [], [(8, I32), (8, I64)], before + LOOP + body * times + BR0 + END, "uv_main")
    return module


def calling(local_count: int) -> Module:
    module = Module()
    callee = module.function([], [], [(local_count, I64)] if local_count else [], b"")
    module.function([], [], [], LOOP + (b"\x10" + number(callee)) * 100 + BR0 + END, "uv_main")
    return module


def carrying(count: int) -> Module:
    """A loop with so many parameters, that branches to itself."""
    module = Module()
    kind = signed(module.type([I32] * count, []))
    module.function([], [], [], const(1) * count + b"\x03" + kind + BR0 + END, "uv_main")
    return module


def crowded() -> Module:
    """A queue_work that is refused, in a module of as many exports as there may be."""
    module = Module()
    work = module.function([I32], [I32], [], const(0))
    for i in range(1020):
        module.exports.append(sized(b"%04d" % i) + b"\x00" + number(work))
    ask = const(0) * 3 + call("queue_work") + DROP
    module.function([], [], [], ask * 32 + LOOP + ask * 20 + BR0 + END, "uv_main")
    module.function([I32], [I32], [], const(0), "uv_work")
    module.function([I32, I32, I32], [], [], b"", "uv_after_work")
    return module


def working(bodies: list[bytes]) -> Module:
    """uv_work with a loop of these bodies, in 64 pages; uv_main asks for it with 65,536 bytes."""
    module = Module(64)
    module.function([], [], [], const(0) * 2 + const(65536) + call("queue_work") + DROP, "uv_main")
    module.function([I32], [I32], [], LOOP + b"".join(bodies) + BR0 + END + b"\x00", "uv_work")
    module.function([I32, I32, I32], [], [], b"", "uv_after_work")
    return module


LONG = b"\x01" * 900_000
TIMERS = (call("timer_init") + DROP) * 64 + b"".join(
    const(h) + const(0) + const64(1000 + h) + const64(5) + call("timer_start") + DROP for h in range(64))
ROWS = [
    ("local.get, i32.const, i32.add, local.set", plain(b"\x20\x00" + const(1) + b"\x6a\x21\x00")),
    ("nop", plain(b"\x01")),
    ("const, drop", plain(const(5) + DROP)),
    ("local.get, local.set", plain(b"\x20\x00\x21\x01")),
    ("const, const, i32.div_s, drop", plain(const(-7) + const(3) + b"\x6d" + DROP)),
    ("const, const, i64.rem_u, drop", plain(const64(-7) + const64(3) + b"\x82" + DROP)),
    ("const, i32.load, drop", plain(const(9) + b"\x28\x02\x00" + DROP)),
    ("const, const, i64.store", plain(const(9) + const64(1) + b"\x37\x03\x00")),
    ("memory.grow, refused", plain(const(65) + b"\x40\x00" + DROP)),
    ("block, end", plain(b"\x02\x40\x0b")),
    ("const, if, end", plain(const(1) + b"\x04\x40\x0b")),
    ("br over 900,000 operations", plain(b"\x02\x40\x0c\x00" + LONG + END, 1)),
    ("const, false if over 900,000 operations", plain(const(0) + b"\x04\x40" + LONG + END, 1)),
    ("const, if whose first branch ends before 900,000", plain(const(1) + b"\x04\x40\x05" + LONG + END, 1)),
    ("br out of 250 blocks", plain(b"\x02\x40" * 250 + b"\x0c" + number(249) + END * 250, 1)),
    ("br to a loop", plain(b"", 1)),
    ("br to a loop with 250 parameters", carrying(250)),
    ("const, br_table of 4,096 labels", plain(const(4095) + b"\x0e" + number(4096) + b"\x00" * 4097, 1)),
    ("call of an empty function", calling(0)),
    ("call of a function with 256 locals", calling(256)),
    ("now, drop", plain(call("now") + DROP)),
    ("emit, refused", plain(const64(0) + call("emit") + DROP)),
    ("const, is_active, drop", plain(const(63) + call("is_active") + DROP, before=TIMERS)),
    ("const, timer_again of 64 timers, drop", plain(const(31) + call("timer_again") + DROP, before=TIMERS)),
    ("const, async_send, drop", plain(
        const(0) + call("async_send") + DROP, before=const(0) + call("async_init") + DROP)),
    ("queue_work, refused, 1,023 exports", crowded()),
    ("work: in_len, drop", working([call("in_len") + DROP] * 50)),
    ("work: in_copy of 65,536 bytes", working(
        [const(65536 * i) + const(0) + const(65536) + call("in_copy") + DROP for i in range(63)])),
    ("work: out_set of 65,536 bytes", working(
        [const(65536 * i) + const(65536) + call("out_set") + DROP for i in range(63)])),
]


LEAST = 0.15
SUITS = {False: 10**9, True: 10**7}


def seconds(program: str, script: dict[str, object], work: bool, fuel: int) -> float:
    """The least processor time of five runs with so much fuel."""
    script["loops"] = [{"module": 0, "fuel": fuel, "work_fuel": fuel, "depth": 128}]
    script["steps"] = [["loop", 0]] + [[s, 0] for s in ("post", "take", "start", "finish")] * work
    with tempfile.NamedTemporaryFile("w", suffix=".json") as file:
        json.dump(script, file)
        file.flush()
        times = []
        for _ in range(5):
            before = resource.getrusage(resource.RUSAGE_CHILDREN)
            ran = subprocess.run([program, "script", file.name], capture_output=True, text=True)
            after = resource.getrusage(resource.RUSAGE_CHILDREN)
            if "spent" not in ran.stdout:
                sys.exit(f"{ran.stdout} {ran.stderr}")
            times.append(after.ru_utime + after.ru_stime - before.ru_utime - before.ru_stime)
    return min(times)


def unit(program: str, label: str, module: Module) -> float:
    """The nanoseconds of a unit of fuel."""
    work = label.startswith("work")
    script = {"modules": [module.encoded().hex()], "workers": 1}
    fuel = 100_000
    once = seconds(program, script, work, fuel)
    while once < LEAST and fuel < SUITS[work]:
        fuel *= 4
        once = seconds(program, script, work, fuel)
    return (seconds(program, script, work, 2 * fuel) - once) / fuel * 1e9


def main() -> None:
    if len(sys.argv) != 2:
        sys.exit(__doc__)
    tight = None
    print("      ns    times")
    for label, module in ROWS:
        took = unit(sys.argv[1], label, module)
        tight = tight or took
        print(f"{took:8.2f} {took / tight:8.1f}  {label}", flush=True)


if __name__ == "__main__":
    main()
