#!/usr/bin/env python3
"""Writes a large module: the functions of a compiled program, over and over.

    bench/decode/enlarge.py FROM.wasm TO.wasm [BYTES]

The code section's bodies are repeated, with as many entries in the function section, while the module stays within
BYTES (by default the 1,048,576 that a module may have) and within 4,096 functions. All other sections are kept.
"""

from __future__ import annotations

import sys
from pathlib import Path
from typing import Iterable, Iterator, List, Tuple

sys.path.insert(0, str(Path(__file__).resolve().parents[2] / "trials" / "spec"))
from wasm import OPENING, Reader, name, u, vec  # noqa: E402

MOST_FUNCTIONS = 4096
FUNCTIONS, CODE = 3, 10


def sections(data: bytes) -> Iterator[Tuple[int, bytes]]:
    """The number and the contents of each section."""
    r = Reader(data, 8)
    while r.at < r.end:
        yield r.byte(), r.name()


def module(parts: Iterable[Tuple[int, bytes]]) -> bytes:
    return OPENING + b"".join(bytes([number]) + name(contents) for number, contents in parts)


def main(words: List[str]) -> None:
    data = open(words[0], "rb").read()
    most = int(words[2]) if len(words) > 2 else 1_048_576
    parts = dict(sections(data))
    indexes, bodies = Reader(parts[FUNCTIONS]), Reader(parts[CODE])
    listed = {FUNCTIONS: [u(index) for index in indexes.vec(indexes.u)], CODE: [name(body) for body in bodies.vec(bodies.name)]}
    each = sum(len(item) for items in listed.values() for item in items)
    times = min((most - len(data) - 16) // each, MOST_FUNCTIONS // len(listed[CODE]))
    more = {number: vec(items * times) for number, items in listed.items()}
    large = module((number, more.get(number, contents)) for number, contents in sections(data))
    assert len(large) <= most
    open(words[1], "wb").write(large)
    print("%d bytes, %d functions" % (len(large), len(listed[CODE]) * times))


if __name__ == "__main__":
    if len(sys.argv) not in (3, 4):
        sys.exit(__doc__)
    main(sys.argv[1:])
