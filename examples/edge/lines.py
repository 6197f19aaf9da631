"""Makes NAME.lines, by which the edge server names FILE:LINE in a tenant's failures.

usage: PYTHONPATH=capi/python python3 lines.py NAME.wasm [BUILD] > NAME.lines

BUILD is the module with debug information from which NAME.wasm was made, if NAME.wasm has none itself. llvm-symbolizer (Debian: llvm) looks
up the line of each instruction. lines.c has the format.
"""
import pathlib
import sys
import zlib
from typing import Iterator, Tuple

from wasmloop import _tool, lines


def rows(ran: bytes, debug: bytes, name: str) -> Iterator[Tuple[int, str]]:
    """Each byte at which the source changes, and the source from there on."""
    source = lines.Lines(ran, debug, name)
    bytes_of = [start for body in source.module.bodies for start, _, _ in body.ops]
    last = "-"
    for byte, frames in zip(bytes_of, source.look_up(bytes_of)):
        place = f"{_tool.near(frames[0][1])}:{frames[0][2]}" if frames else "-"
        if place != last:
            yield byte, place
        last = place


def main() -> int:
    if not 2 <= len(sys.argv) <= 3:
        raise SystemExit(__doc__)
    ran, debug = (pathlib.Path(it).read_bytes() for it in (sys.argv[1], sys.argv[-1]))
    print(f"module {len(ran)} {zlib.adler32(ran)}")
    for byte, place in rows(ran, debug, sys.argv[-1]):
        print(byte, place)
    return 0


if __name__ == "__main__":
    _tool.run("lines", main)
