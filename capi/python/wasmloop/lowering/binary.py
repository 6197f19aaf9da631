"""The binary format: numbers, lists, types, and what stands behind each opcode."""

from __future__ import annotations

from typing import Any, Callable, Iterator, List, Sequence, Tuple, TypeVar

I32, I64, F32, F64 = 0x7F, 0x7E, 0x7D, 0x7C
LOWERED = {I32: I32, I64: I64, F32: I32, F64: I64}
FUNCTIONS, NO_FUNCTIONS, EMPTY_BLOCK, END = 0x70, 0x73, 0x40, 0x0B
BLOCKS, BRANCHES, CALL, CALL_INDIRECT, BR_TABLE = (2, 3, 4), (0x0C, 0x0D), 0x10, 0x11, 0x0E
VARIABLES, MEMORY_ACCESS, PAGES = range(0x20, 0x25), range(0x28, 0x3F), (0x3F, 0x40)
GLOBAL_GET, GLOBAL_SET, SELECT, TYPED_SELECT = 0x23, 0x24, 0x1B, 0x1C
I32_CONST, I64_CONST, F32_CONST, F64_CONST, PREFIX = 0x41, 0x42, 0x43, 0x44, 0xFC
PLAIN = (0, 1, 5, END, 0x0F, 0x1A, SELECT)
NUMERIC = range(0x45, 0xC5)
SATURATING, INIT, DROP, COPY, FILL, ELEM_DROP = range(8), 8, 9, 10, 11, 13
INDICES = {INIT: 2, DROP: 1, COPY: 2, FILL: 1, ELEM_DROP: 1}    # how many numbers stand behind these of the prefix
REF_NULL, REF_FUNC = 0xD0, 0xD2
EXCEPTIONS = "exceptions (compile with -fno-exceptions, or panic=abort)"
REFERENCES = "references (compile with -mno-reference-types)"
TAIL_CALLS = "tail calls (compile with -mno-tail-call)"
SIMD = "SIMD (compile with -mno-simd128)"
THREADS = "threads (compile with -mno-atomics)"
OTHERS = {0x06: EXCEPTIONS, 0x07: EXCEPTIONS, 0x08: EXCEPTIONS, 0x09: EXCEPTIONS, 0x0A: EXCEPTIONS, 0x18: EXCEPTIONS,
          0x19: EXCEPTIONS, 0x1F: EXCEPTIONS, 0x12: TAIL_CALLS, 0x13: TAIL_CALLS, 0x14: REFERENCES, 0x15: REFERENCES,
          0x25: REFERENCES, 0x26: REFERENCES, REF_NULL: REFERENCES, 0xD1: REFERENCES, REF_FUNC: REFERENCES,
          0xD3: REFERENCES, 0xD4: REFERENCES, 0xD5: REFERENCES, 0xD6: REFERENCES, 0xFB: "garbage collection",
          0xFD: SIMD, 0xFE: THREADS}
OTHERS_OF_PREFIX = {12: "table.init", 14: "table.copy", 15: "table.grow", 16: "table.size", 17: "table.fill",
                    19: "wide arithmetic", 20: "wide arithmetic", 21: "wide arithmetic", 22: "wide arithmetic"}
OTHER_TYPES = {0x7B: SIMD, 0x70: REFERENCES, 0x6F: REFERENCES, 0x69: EXCEPTIONS, 0x63: REFERENCES, 0x64: REFERENCES}


Item = TypeVar("Item")
Kind = Tuple[bytes, bytes]                              # of a function: what it takes and what it leaves
Declared = List[Tuple[int, int]]                        # locals: how many, of which type
Behind = Any                                            # what stands behind an opcode, by the opcode: a number, a tuple of them, or None


class Refused(Exception):
    """The text says what can't be rewritten."""


class Reader:
    def __init__(self, data: bytes, at: int = 0) -> None:
        self.data, self.at, self.end = data, at, len(data)

    def byte(self) -> int:
        return self.take(1)[0]

    def take(self, count: int) -> bytes:
        if self.at + count > self.end:
            raise Refused("the bytes end early")
        self.at += count
        return self.data[self.at - count:self.at]

    def leb(self, bits: int, signed: bool) -> int:
        """A number of so many bits, in as many bytes as the format allows."""
        value = shift = 0
        byte = 128
        while byte & 128:
            if shift >= bits:
                raise Refused("a number in too many bytes")
            byte = self.byte()
            value |= (byte & 127) << shift
            shift += 7
        if signed and byte & 64:
            value -= 1 << shift
        least = -(1 << bits - 1) if signed else 0
        if not least <= value < least + (1 << bits):
            raise Refused(f"a number of more than {bits} bits")
        return value

    def u(self) -> int:
        return self.leb(32, False)

    def s(self, bits: int) -> int:
        return self.leb(bits, True)

    def ended(self, what: str) -> None:
        if self.at != self.end:
            raise Refused(f"{what} with bytes left over")

    def vec(self, item: Callable[[], Item]) -> List[Item]:
        return [item() for _ in range(self.u())]

    def name(self) -> bytes:
        return self.take(self.u())

    def text(self) -> str:
        try:
            return self.name().decode()
        except UnicodeDecodeError:
            raise Refused("a name that is not UTF-8") from None


def u(number: int) -> bytes:
    return bytes([number]) if number < 128 else bytes([number & 127 | 128]) + u(number >> 7)


def s(number: int) -> bytes:
    return bytes([number & 127]) if -64 <= number < 64 else bytes([number & 127 | 128]) + s(number >> 7)


def vec(items: Sequence[bytes]) -> bytes:
    return u(len(items)) + b"".join(items)


def sized(data: bytes) -> bytes:
    return u(len(data)) + data


def constant(kind: int, value: int) -> bytes:
    return bytes([I32_CONST if LOWERED[kind] == I32 else I64_CONST]) + s(value)


def value_type(byte: int) -> int:
    if byte not in LOWERED:
        raise Refused(OTHER_TYPES.get(byte, f"the value type {byte:#x}"))
    return byte


def lowered(kinds: bytes) -> bytes:
    """Types of values, with integers in the place of floats."""
    return bytes(LOWERED[kind] for kind in kinds)


def lowered_type(kind: Kind) -> Kind:
    return lowered(kind[0]), lowered(kind[1])


def memory_argument(r: Reader) -> Tuple[int, int]:
    """Alignment and offset; a module has one memory, whose number newer tools may write here."""
    flags = r.u()
    if flags & 64 and r.u() != 0:
        raise Refused("more than one memory")
    return flags & ~64, r.u()


def behind_prefix(r: Reader) -> Tuple[int, ...]:
    """The number behind 0xfc, and the indices behind that."""
    number = r.u()
    if number in OTHERS_OF_PREFIX or number not in INDICES and number not in SATURATING:
        raise Refused(OTHERS_OF_PREFIX.get(number, f"the operation 0xfc {number}"))
    return (number, *(r.u() for _ in range(INDICES.get(number, 0))))


def immediate(r: Reader, op: int) -> Behind:
    """What stands behind an opcode: a number, a tuple of them, or None."""
    if op in (*BLOCKS, I32_CONST, I64_CONST):
        return r.s(33 if op in BLOCKS else 32 if op == I32_CONST else 64)
    if op in (*BRANCHES, CALL, *VARIABLES):
        return r.u()
    if op == CALL_INDIRECT:
        return r.u(), r.u()
    if op in MEMORY_ACCESS:
        return memory_argument(r)
    if op == BR_TABLE:
        return tuple(r.vec(r.u)), r.u()
    if op in PAGES:
        return r.u()
    if op in (F32_CONST, F64_CONST):
        return int.from_bytes(r.take(4 if op == F32_CONST else 8), "little", signed=True)
    if op == TYPED_SELECT:
        return tuple(r.vec(lambda: value_type(r.byte())))
    if op == PREFIX:
        return behind_prefix(r)
    return None


def shortest(op: int, written: bytes, behind: Behind) -> bytes:
    """The operation with each number in as few bytes as it needs."""
    if op in (*BLOCKS, I32_CONST, I64_CONST):
        return bytes([op]) + s(behind)
    if op in (*BRANCHES, CALL, *VARIABLES):
        return bytes([op]) + u(behind)
    if op in (CALL_INDIRECT, *MEMORY_ACCESS):
        return bytes([op]) + u(behind[0]) + u(behind[1])
    if op in PAGES:
        return bytes([op, 0])
    if op == BR_TABLE:
        return bytes([op]) + vec([u(label) for label in behind[0]]) + u(behind[1])
    return written


def operations(body: bytes) -> Iterator[Tuple[int, bytes, Behind]]:
    """Each operation of an expression: its opcode, its bytes, what stands behind the opcode."""
    r = Reader(body)
    while r.at < r.end:
        start, op = r.at, r.byte()
        behind = immediate(r, op)
        if op not in PLAIN and op not in NUMERIC and behind is None:
            raise Refused(OTHERS.get(op, f"the operation {op:#x}"))
        yield op, body[start:r.at], behind
