#!/usr/bin/env python3
"""Whether the engine still does in one dispatch what it did: instructions and dispatches of the processor for each unit of fuel, counted by
callgrind, in loops of nothing but likely sequences, of blocks in a row, of branches whose targets are kept in few numbers and of calls, and in requests
of two guests.

    run.py PROGRAM          status 1 where one is not as its line of expected.txt says, to 0.01
    run.py PROGRAM --write  writes expected.txt, which belongs to the bytes of PROGRAM: a change of the engine or of the compiler changes it

No clause and no other test notices if `rest` never does an operation, `tell_behind` notes none, or `BranchTargets` keeps no few numbers: such
bodies are correct, and slow. Each number is the difference of two runs, so that the start of the process and the loading are in neither, and
counts only what stands in PROGRAM itself, so that it is the same on each processor and over each C library. A dispatch is a jump or a call to an
address that was computed. Less is told too: who gained it notes it, so that its loss is seen.
"""
from __future__ import annotations

import os
import re
import shutil
import subprocess
import sys
import tempfile
from pathlib import Path
from typing import Dict, Iterator, List, NamedTuple

sys.path.insert(0, str(Path(__file__).resolve().parents[1] / "spec"))
from noted import compare  # noqa: E402
from wasm import OPENING, name as sized, section, vec  # noqa: E402

LIST = Path(__file__).with_name("expected.txt")
EXAMPLES = Path(__file__).resolve().parents[2] / "examples"
FEW, MANY, EXACT = 20_000, 120_000, 0.01


class Count(NamedTuple):
    instructions: float
    dispatches: float

    def each(self, before: Count) -> Count:
        return Count(*((now - then) / (MANY - FEW) for now, then in zip(self, before)))

    def is_near(self, known: Count) -> bool:
        # (the half is for the number that is written with two digits)
        return all(abs(one - other) <= EXACT * 1.5 for one, other in zip(self, known))

    def told(self) -> str:
        return f"{self.instructions:.2f} instructions and {self.dispatches:.2f} dispatches per unit"

    def __str__(self) -> str:
        return f"{self.instructions:.2f} {self.dispatches:.2f}"


def module(*bodies: bytes) -> bytes:
    """A module of functions with two locals each, of which the first is `f`, and a memory."""
    whole = [b"\1\2\x7f" + body for body in bodies]
    return (OPENING + section(1, b"\1\x60\0\0") + section(3, sized(bytes(len(bodies)))) + section(5, b"\1\0\1")
            + section(7, b"\1\1f\0\0") + section(10, vec([sized(it) for it in whole])))


def forever(body: bytes) -> bytes:
    return b"\x03\x40" + body + b"\x0c\0\x0b\x0b"


SCENES = {
    "get const add set": module(forever(8 * b"\x20\0\x41\1\x6a\x21\0")),
    "get get add tee": module(forever(8 * b"\x20\0\x20\1\x6a\x22\0\x1a")),
    "get get const add add set": module(forever(8 * b"\x20\0\x20\1\x41\1\x6a\x6a\x21\0")),
    "set get": module(forever(b"\x20\0" + 8 * b"\x21\1\x20\1" + b"\x21\1")),
    "const and load tee": module(forever(8 * b"\x20\0\x41\x3f\x71\x28\2\0\x22\1\x1a")),
    "get load get": module(forever(8 * b"\x20\0\x28\2\0\x20\1\x1a\x1a")),
    "get get gt br_if": module(forever(8 * b"\x02\x40\x20\0\x20\1\x4b\x0d\0\x0b")),
    "get eqz br_if": module(forever(8 * b"\x02\x40\x20\0\x45\x0d\0\x0b")),
    "const set and 2 blocks": module(forever(8 * b"\x41\1\x21\0\x02\x40\x02\x40\x0b\x0b")),
    "16 blocks in a row": module(forever(16 * b"\x02\x40" + 16 * b"\x0b")),
    "br": module(forever(8 * b"\x02\x40\x0c\0\x0b")),
    "call": module(forever(8 * b"\x10\1"), b"\x0b"),
}
REQUESTS = ("sha256", "crc32")
BYTES = bytes(range(250)) * 24


def count(words: List[str], fuel: int, folder: str) -> Count:
    """What the program executes of its own until it has used the fuel."""
    file = f"{folder}/counts"
    how = ["--tool=callgrind", "--branch-sim=yes", "--compress-strings=no", "--compress-pos=no", "--dump-line=no", f"--callgrind-out-file={file}"]
    ran = subprocess.run(["valgrind", *how, *words, "--fuel", str(fuel)], capture_output=True, text=True)
    if not re.search(rf"used {fuel}\b|after {fuel} units", ran.stdout + ran.stderr):
        sys.exit(f"{words} did not run out of fuel: {ran.stdout}{ran.stderr[-300:]}")
    return own(Path(file).read_text(), words[0])


def own(told: str, program: str) -> Count:
    """The instructions and dispatches that stand in the program, by what callgrind wrote."""
    events = re.findall(r"(?m)^events: (.*)", told)[0].split()
    sums, is_ours, is_call = dict.fromkeys(events, 0), False, False
    for line in told.split("\n"):
        if line.startswith("ob="):
            is_ours = line == f"ob={program}"
        elif line[:1].isdigit():
            # (the line behind `calls=` counts what was called once more)
            for event, number in zip(events, line.split()[1:] if is_ours and not is_call else []):
                sums[event] += int(number)
        is_call = line.startswith("calls=")
    return Count(sums["Ir"], sums["Bi"])


def measured(program: str) -> Iterator[tuple[str, Count]]:
    """What a unit of each loop and each request takes."""
    with tempfile.TemporaryDirectory() as folder:
        for name, data in SCENES.items():
            file = Path(folder) / "m.wasm"
            file.write_bytes(data)
            words = [program, "invoke", str(file), "f"]
            yield name, count(words, MANY, folder).each(count(words, FEW, folder))
        for name in REQUESTS:
            words = [program, "work", f"{EXAMPLES}/{name}.wasm", "0", BYTES.hex()]
            yield name, count(words, MANY, folder).each(count(words, FEW, folder))


def noted() -> Dict[str, Count]:
    return {name: Count(*map(float, rest.split())) for name, rest in (line.split(": ") for line in LIST.read_text().splitlines())}


def main() -> int:
    if len(sys.argv) < 2 or sys.argv[2:] not in ([], ["--write"]):
        sys.exit("usage: run.py PROGRAM [--write]")
    if not shutil.which("valgrind"):
        print("left out: there is no valgrind")
        return 0
    found = dict(measured(os.path.realpath(sys.argv[1])))
    if sys.argv[2:]:
        LIST.write_text("".join(f"{name}: {each}\n" for name, each in found.items()))
        return 0
    return compare(found, noted(), "loops and requests", Count.told, Count.is_near)


if __name__ == "__main__":
    sys.exit(main())
