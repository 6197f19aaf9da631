"""memory.copy, memory.fill and memory.init as functions, written in the words of the text format.

Each looks first whether all of it lies in the memory, and traps before a byte is written: by a load that no memory can
have. Eight bytes are moved at a time, four times in a row while there are so many. What is left at an end is moved by an
access that overlaps what has been moved, and that loads before anything is stored, so copies that overlap are right.
"""

from __future__ import annotations

import struct
from typing import Mapping, Optional, Sequence, Tuple

from .binary import I32, I64, Kind, s, u, vec

PLAIN = {"block": b"\x02\x40", "loop": b"\x03\x40", "if": b"\x04\x40", "if-i64": b"\x04\x7e", "else": b"\x05", "end": b"\x0b",
         "unreachable": b"\0", "return": b"\x0f", "drop": b"\x1a", "select": b"\x1b", "size": b"\x3f\0",
         "i32.eqz": b"\x45", "i32.eq": b"\x46", "i32.lt_u": b"\x49",
         "i32.lt_s": b"\x48", "i32.gt_u": b"\x4b", "i32.ge_u": b"\x4f", "i64.gt_u": b"\x56", "i64.ge_u": b"\x5a",
         "i32.add": b"\x6a", "i32.sub": b"\x6b", "i32.mul": b"\x6c", "i32.and": b"\x71", "i32.shl": b"\x74",
         "i32.shr_u": b"\x76", "i64.add": b"\x7c", "i64.and": b"\x83", "i64.mul": b"\x7e", "i64.shl": b"\x86",
         "i64.shr_u": b"\x88", "i32.wrap": b"\xa7", "i64.extend": b"\xad"}
TAKING_A_NUMBER = {"br": 0x0C, "br_if": 0x0D, "call": 0x10, "get": 0x20, "set": 0x21, "tee": 0x22, "global": 0x23, "global-set": 0x24}
CONSTANTS = {"i32": 0x41, "i64": 0x42}
ACCESSES = {"i32.load": 0x28, "i64.load": 0x29, "i32.load8": 0x2D, "i32.store": 0x36, "i64.store": 0x37, "i32.store8": 0x3A,
            "i64.store32": 0x3E}

TRAP = "i32 0 i32.load 4294967295 drop"
LONGER = "size i64.extend i64 16 i64.shl i64.gt_u"       # behind a sum: whether it is past the memory's end
SUM = "i64.extend get count i64.extend i64.add"
FOUR_UP = "".join(f"get to get from i64.load {k} i64.store {k} " for k in (0, 8, 16, 24))
FOUR_DOWN = "".join(f"get to get from i64.load {k} i64.store {k} " for k in (24, 16, 8, 0))


Added = Tuple[Kind, bytes]                           # its type and its body


def by(number: int, *names: str) -> str:
    """The variables are so much more."""
    return " ".join(f"get {name} i32 {number} i32.add set {name}" for name in names)


COPY = f"""
    get to get from get to get from i32.gt_u select {SUM} {LONGER} if {TRAP} end
    get count i32 8 i32.lt_u if
        get count i32 4 i32.ge_u if
            get to get from i32.load 0
            get to get count i32.add i32 4 i32.sub get from get count i32.add i32 4 i32.sub i32.load 0
            i32.store 0 i32.store 0
        else get count if
            get to get from i32.load8 0
            get to get count i32 1 i32.shr_u tee half i32.add get from get half i32.add i32.load8 0
            get to get count i32 1 i32.sub tee half i32.add get from get half i32.add i32.load8 0
            i32.store8 0 i32.store8 0 i32.store8 0
        end end
        return
    end
    get to get from i32.sub get count i32.ge_u if
        get to get count i32.add i32 8 i32.sub tee end
        get from get count i32.add i32 8 i32.sub i64.load 0
        block loop
            get end get to i32.sub i32 32 i32.lt_u br_if 1
            {FOUR_UP} {by(32, "to", "from")} br 0
        end end
        block loop
            get to get end i32.ge_u br_if 1
            get to get from i64.load 0 i64.store 0 {by(8, "to", "from")} br 0
        end end
        i64.store 0
    else
        get to tee end get from i64.load 0
        get to get count i32.add i32 8 i32.sub set to
        get from get count i32.add i32 8 i32.sub set from
        block loop
            get to get end i32.sub i32 32 i32.lt_u br_if 1
            {by(-24, "to", "from")} {FOUR_DOWN} {by(-8, "to", "from")} br 0
        end end
        block loop
            get to get end i32.sub i32 1 i32.lt_s br_if 1
            get to get from i64.load 0 i64.store 0 {by(-8, "to", "from")} br 0
        end end
        i64.store 0
    end
end"""

FILL = f"""
    get to {SUM} {LONGER} if {TRAP} end
    get value i64.extend i64 255 i64.and i64 72340172838076673 i64.mul set eight
    get count i32 8 i32.lt_u if
        get count i32 4 i32.ge_u if
            get to get eight i64.store32 0
            get to get count i32.add i32 4 i32.sub get eight i64.store32 0
        else get count if
            get to get value i32.store8 0
            get to get count i32 1 i32.shr_u i32.add get value i32.store8 0
            get to get count i32.add i32 1 i32.sub get value i32.store8 0
        end end
        return
    end
    get to get count i32.add i32 8 i32.sub tee end get eight i64.store 0
    block loop
        get end get to i32.sub i32 32 i32.lt_u br_if 1
        {"".join(f"get to get eight i64.store {k} " for k in (0, 8, 16, 24))} {by(32, "to")} br 0
    end end
    block loop
        get to get end i32.ge_u br_if 1
        get to get eight i64.store 0 {by(8, "to")} br 0
    end end
end"""

INIT_BOUNDS = f"""
    get from {SUM} LENGTH i64.extend i64.gt_u if {TRAP} end
    get to {SUM} {LONGER} if {TRAP} end
"""
INIT = INIT_BOUNDS + f"""
    block loop
        get count i32.eqz br_if 1
        get count i32 7 i32.gt_u get from i32 7 i32.and i32.eqz i32.and if
            get to get from i32 3 i32.shr_u call DATA i64.store 0 {by(8, "to", "from")} {by(-8, "count")}
            br 1
        end
        get to get from i32 3 i32.shr_u call DATA
        get from i32 7 i32.and i32 3 i32.shl i64.extend i64.shr_u i32.wrap i32.store8 0
        {by(1, "to", "from")} {by(-1, "count")} br 0
    end end
end"""


def assembled(text: str, variables: Mapping[str, int]) -> bytes:
    """The bytes of a text, in which variables stand for their numbers."""
    rest, out = iter(text.split()), []
    for word in rest:
        if word in PLAIN:
            out.append(PLAIN[word])
        elif word in CONSTANTS:
            out.append(bytes([CONSTANTS[word]]) + s(int(next(rest))))
        elif word in ACCESSES:
            out.append(bytes([ACCESSES[word], 0]) + u(int(next(rest))))
        else:
            of = next(rest)
            out.append(bytes([TAKING_A_NUMBER[word]]) + u(variables[of] if of in variables else int(of)))
    return b"".join(out)


def function(text: str, parameters: Sequence[str], *variables: Tuple[str, int]) -> Added:
    """Type and body of a function whose parameters are numbers of 32 bits; variables are pairs of name and type."""
    names = {name: i for i, name in enumerate([*parameters, *(name for name, _ in variables)])}
    declared = vec([u(1) + bytes([kind]) for _, kind in variables])
    return (bytes([I32] * len(parameters)), b""), declared + assembled(text, names)


def copy() -> Added:
    return function(COPY, ("to", "from", "count"), ("end", I32), ("half", I32))


def fill() -> Added:
    return function(FILL, ("to", "value", "count"), ("end", I32), ("eight", I64))


def init(length: str, data: Optional[int]) -> Added:
    """From a passive segment: `length` are the words that tell its length, `data` is the function of its bytes or None."""
    text = (INIT if data is not None else INIT_BOUNDS + "end").replace("LENGTH", length).replace("DATA", str(data))
    return function(text, ("to", "from", "count"))


def data_of(data: bytes) -> Added:
    """A segment's bytes as a function: of i the eight bytes from 8 i on, found by halving."""
    eights = struct.unpack(f"<{(len(data) + 7) // 8}q", data + bytes(-len(data) % 8))

    def tree(low: int, high: int) -> str:
        if high - low == 1:
            return f"i64 {eights[low]} "
        middle = (low + high) // 2
        return f"get at i32 {middle} i32.lt_u if-i64 {tree(low, middle)} else {tree(middle, high)} end "
    (parameters, _), body = function(tree(0, len(eights)) + "end", ("at",))
    return (parameters, bytes([I64])), body
