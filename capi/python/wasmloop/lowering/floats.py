"""Which function of soft.c stands for which instruction, and what needs none."""

from __future__ import annotations

from typing import Dict, Tuple, Union

from .binary import I32, I64, PREFIX, constant

REINTERPRET = range(0xBC, 0xC0)
FLOAT_ACCESS = {0x2A: 0x28, 0x2B: 0x29, 0x38: 0x36, 0x39: 0x37}
SIGNS = {0x8B: constant(I32, 0x7FFFFFFF) + b"\x71", 0x8C: constant(I32, -0x80000000) + b"\x73",
         0x99: constant(I64, (1 << 63) - 1) + b"\x83", 0x9A: constant(I64, -1 << 63) + b"\x85"}


def soft_names() -> Dict[Union[int, Tuple[int, int]], str]:
    """The names of soft.c's functions by the instruction: its opcode, or 0xFC and the number behind it."""
    names: Dict[Union[int, Tuple[int, int]], str] = {}
    ordered = "eq ne lt gt le ge".split()
    arithmetic = "abs neg ceil floor trunc nearest sqrt add sub mul div min max copysign".split()
    for kind, comparing, computing in (("f32", 0x5B, 0x8B), ("f64", 0x61, 0x99)):
        names.update({comparing + i: f"{kind}.{op}" for i, op in enumerate(ordered)})
        names.update({computing + i: f"{kind}.{op}" for i, op in enumerate(arithmetic)})
    sources = "f32_s f32_u f64_s f64_u".split()
    for i, source in enumerate(sources):
        names[0xA8 + i], names[0xAE + i] = f"i32.trunc_{source}", f"i64.trunc_{source}"
        names[PREFIX, i], names[PREFIX, 4 + i] = f"i32.trunc_sat_{source}", f"i64.trunc_sat_{source}"
    for i, source in enumerate("i32_s i32_u i64_s i64_u".split()):
        names[0xB2 + i], names[0xB7 + i] = f"f32.convert_{source}", f"f64.convert_{source}"
    names[0xB6], names[0xBB] = "f32.demote_f64", "f64.promote_f32"
    return names


SOFT = soft_names()
