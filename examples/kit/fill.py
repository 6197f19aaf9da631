#!/usr/bin/env python3
"""Lays bytes into a linked guest before it is loaded: those of standard input where it exports NAME, and their number where it exports
NAME_length. In C the guest has

    uint8_t NAME[1024];
    uint32_t NAME_length;
    const uint32_t NAME_room = sizeof NAME;

and is linked with --export=NAME --export=NAME_length --export=NAME_room. More bytes than there is room for are refused.

usage: fill.py GUEST.wasm NAME OUT.wasm < BYTES
"""

from __future__ import annotations

import pathlib
import sys
from typing import Optional, Tuple

sys.path.insert(0, str(pathlib.Path(__file__).resolve().parents[2] / "capi/python"))
from wasmloop.lowering.binary import END, I32, I32_CONST, Reader, Refused, constant, sized, u  # noqa: E402

GLOBALS, EXPORTS, CODE, DATA = 6, 7, 10, 11
HEADER, A_GLOBAL = 8, 3
# its address, where that is a constant, and its bytes
Segment = Tuple[Optional[int], bytes]


def sections(data: bytes) -> list[tuple[int, bytes]]:
    """The sections of a module, each as its id and what it holds."""
    reader, found = Reader(data, HEADER), []
    while reader.at < reader.end:
        kind = reader.byte()
        found.append((kind, reader.name()))
    return found


def offset(reader: Reader) -> int | None:
    """The number of an expression that is one constant, or None."""
    operation, number = reader.byte(), reader.s(64)
    if reader.byte() != END:
        raise Refused("an expression of several operations: let lower.py rewrite the module first")
    return number if operation == I32_CONST else None


def global_values(body: bytes) -> list[int | None]:
    """Of each global the i32 that it begins with, or None."""
    reader = Reader(body)

    def value() -> int | None:
        kind, _ = reader.byte(), reader.byte()
        number = offset(reader)
        return number if kind == I32 else None

    return reader.vec(value)


def exported_globals(body: bytes) -> dict[str, int]:
    reader = Reader(body)
    found = [(reader.text(), reader.byte(), reader.u()) for _ in range(reader.u())]
    return {name: index for name, kind, index in found if kind == A_GLOBAL}


def segments(body: bytes) -> list[Segment]:
    """Each data segment: its address, None where a global has it, and its bytes."""
    reader = Reader(body)

    def segment() -> Segment:
        if reader.u() != 0:
            raise Refused("a segment in a newer form: let lower.py rewrite the module first")
        return offset(reader), reader.name()

    return reader.vec(segment)


def number_at(held: list[Segment], address: int) -> int:
    """The four bytes at an address as a number, which are 0 where no segment has them."""
    for start, data in held:
        if start is not None and start <= address and address + 4 <= start + len(data):
            return int.from_bytes(data[address - start:address - start + 4], "little")
    return 0


def addresses(parts: dict[int, bytes]) -> dict[str, int]:
    """Where each exported global points to that is a constant."""
    values = global_values(parts[GLOBALS]) if GLOBALS in parts else []
    exports = exported_globals(parts[EXPORTS]) if EXPORTS in parts else {}
    return {name: value for name, index in exports.items() if index < len(values) and (value := values[index]) is not None}


def with_segments(found: list[tuple[int, bytes]], more: bytes, count: int) -> list[tuple[int, bytes]]:
    """The sections with these segments, so many, behind those of data that there are."""
    if not any(kind == DATA for kind, _ in found):
        place = 1 + max(at for at, (kind, _) in enumerate(found) if 0 < kind <= CODE)
        return [*found[:place], (DATA, u(count) + more), *found[place:]]

    def longer(body: bytes) -> bytes:
        reader = Reader(body)
        before = reader.u()
        return u(before + count) + body[reader.at:] + more

    return [(kind, longer(body) if kind == DATA else body) for kind, body in found]


def fill(module: bytes, name: str, given: bytes) -> bytes:
    """The module with these bytes laid in under this name."""
    found = sections(module)
    parts = dict(found)
    known = addresses(parts)
    for wanted in (name, f"{name}_length", f"{name}_room"):
        if wanted not in known:
            raise Refused(f"it exports no data {wanted}: link it with --export={wanted}; it exports {', '.join(sorted(known)) or 'none'}")
    room = number_at(segments(parts[DATA]) if DATA in parts else [], known[f"{name}_room"])
    if len(given) > room:
        raise Refused(f"{name} has room for {room} bytes; given: {len(given)}")
    laid = [(known[name], given), (known[f"{name}_length"], len(given).to_bytes(4, "little"))]
    more = b"".join(b"\0" + constant(I32, at) + bytes([END]) + sized(data) for at, data in laid)
    return module[:HEADER] + b"".join(bytes([kind]) + sized(body) for kind, body in with_segments(found, more, len(laid)))


def main(guest: str, name: str, target: str) -> None:
    try:
        pathlib.Path(target).write_bytes(fill(pathlib.Path(guest).read_bytes(), name, sys.stdin.buffer.read()))
    except Refused as why:
        sys.exit(f"fill: {guest}: {why}")
    except OSError as why:
        sys.exit(f"fill: {why.filename}: {why.strerror}")


if __name__ == "__main__":
    if len(sys.argv) != 4:
        sys.exit((__doc__ or "").strip())
    main(*sys.argv[1:])
