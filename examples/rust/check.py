#!/usr/bin/env python3
"""`check.py PROGRAM FOLDER FILE..`: what check.sh has built, beside its native builds; of each FILE the first 65,535 bytes.

What `deflate` packs has to be what its native build packs, and unpacked by Python's zlib the file; what zlib packs it has
to unpack. `means` has to say what its native build says.
"""

from __future__ import annotations

import pathlib
import subprocess
import sys
import zlib

LEVELS = (1, 6, 9)
NUMBERS = (b"1 2.5 -0.1 3e-320 123456789.125 0.333333333333333333 16777217 -1e-46 nan?", b"1e-300 2e-310 -7e-45",
           b"1e308 1e308 -3.5", b"inf -inf", b"")


class Guest:
    def __init__(self, program: str, folder: str, name: str) -> None:
        self.words = [program, "work", f"{folder}/{name}.wasm"]
        self.native = f"{folder}/{name}.native"

    def answers(self, operation: int, data: bytes) -> tuple[str, str]:
        """By the program, and by the native build."""
        words = [*self.words, str(operation), data.hex(), "--fuel", "1000000000"]
        return run(words), run([self.native, str(operation)], data)


def run(words: list[str], given: bytes | None = None) -> str:
    return subprocess.run(words, input=given, stdout=subprocess.PIPE, check=True).stdout.decode().strip()


def deflates(guest: Guest, data: bytes, level: int) -> int | None:
    """How many bytes `data` is packed into; none where something is wrong."""
    told, expected = guest.answers(level, data)
    packed = bytes.fromhex(told.split()[-1])
    unpacked, native = guest.answers(100, zlib.compress(data, level))
    right = told == expected and zlib.decompress(packed) == data
    right = right and unpacked == native == f"done {len(data)} bytes {len(data)} {data.hex()}"
    return len(packed) if right else None


def main(program: str, folder: str, *files: str) -> bool:
    deflate, means = Guest(program, folder, "deflate"), Guest(program, folder, "means")
    wrong = 0
    for file in files:
        data = pathlib.Path(file).read_bytes()[:65535]
        sizes = [deflates(deflate, data, level) for level in LEVELS]
        wrong += None in sizes
        print(f"deflate: {pathlib.Path(file).name}, {len(data)} bytes to", *(size or "WRONG" for size in sizes))
    told, expected = deflate.answers(100, b"no zlib")
    wrong += told != expected or told != "done -1 bytes 0"
    print("deflate: what is no zlib:", told)
    for numbers in NUMBERS:
        told, expected = means.answers(0, numbers)
        wrong += told != expected
        print("means:", bytes.fromhex(told.split()[-1]).decode().strip(), "" if told == expected else "WRONG")
    return wrong != 0


if __name__ == "__main__":
    sys.exit(main(*sys.argv[1:]))
