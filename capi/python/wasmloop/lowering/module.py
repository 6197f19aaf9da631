"""The parts of a module, read in the forms of WebAssembly 2.0 and kept in those of 1.0."""

from __future__ import annotations

import collections
from typing import Callable, Counter, Dict, List, Optional, Sequence, Set, Tuple

from .binary import (END, EXCEPTIONS, F32, F32_CONST, F64, F64_CONST, FUNCTIONS, GLOBAL_GET, I32, I32_CONST, I64, I64_CONST,
                     LOWERED, NO_FUNCTIONS, OTHERS, REF_FUNC, REF_NULL, REFERENCES, THREADS, Declared, Item, Kind, Reader, Refused, constant, immediate, u,
                     value_type)

SECTIONS = dict(zip("types imports functions tables memories globals exports start elements code data".split(),
                    range(1, 12)))
DATA_COUNT, TAGS = 12, 13
ORDER = (1, 2, 3, 4, 5, TAGS, 6, 7, 8, 9, DATA_COUNT, 10, 11)
MOST_PARAMETERS, MOST_RESULTS = 256, 16                # the host's limits
PASSIVE, EXPLICIT, EXPRESSIONS = 1, 2, 4               # what the first number of a segment says
EXPORTED = "function", "table", "memory", "global"
KINDS = {I32_CONST: I32, I64_CONST: I64, F32_CONST: F32, F64_CONST: F64}
SUMS = {0x6A: (I32, int.__add__), 0x6B: (I32, int.__sub__), 0x6C: (I32, int.__mul__),
        0x7C: (I64, int.__add__), 0x7D: (I64, int.__sub__), 0x7E: (I64, int.__mul__)}


def wrapped(kind: int, value: int) -> int:
    half = 1 << (31 if kind == I32 else 63)
    return (value + half) % (2 * half) - half


class Module:
    """Bodies are pairs of the locals and the operations' bytes, active segments pairs of offset and contents. Types are as they came."""

    def __init__(self, data: bytes) -> None:
        if data[:4] != b"\0asm" or data[4:8] != b"\1\0\0\0":
            raise Refused("not a WebAssembly module" + ", but a component" * (data[4:8] == b"\x0d\0\1\0"))
        self.sections: Dict[int, bytes] = {}
        self.names: List[Tuple[int, bytes]] = []
        self.customs: List[str] = []
        self.changed: Counter[str] = collections.Counter()  # what was there in a form that WebAssembly 1.0 hasn't
        r, place = Reader(data, 8), 0
        while r.at < r.end:
            number, part = r.byte(), r.name()
            if number == 0:
                self.custom(Reader(part))
            elif number not in ORDER[place:]:
                raise Refused(f"section {number}, which isn't known or stands behind section {ORDER[place - 1]}")
            else:
                self.sections[number], place = part, ORDER.index(number) + 1
        if TAGS in self.sections:
            raise Refused(EXCEPTIONS)
        self.types = self.read("types", self.type)
        self.imports = self.read("imports", self.imported)
        self.functions = self.read("functions", lambda r: r.u())
        self.tables = self.read("tables", self.table)
        self.memories = self.read("memories", self.memory)
        for what, there in ("table", self.tables), ("memory", self.memories):
            if len(there) > 1:
                raise Refused(f"more than one {what}")
        self.values: List[Tuple[int, int]] = []
        self.globals: List[bytes] = []
        self.read("globals", self.variable)
        for kind in (*self.functions, *(kind for _, _, kind in self.imports)):
            self.must_have("type", kind)
        self.exports = self.read("exports", self.exported)
        self.elements: List[Tuple[int, List[int]]] = []
        self.filled: Set[int] = set()                  # the places of the table that a segment has
        self.element_count = len(self.read("elements", self.element_segment))
        self.bodies = self.read("code", self.body)
        self.data: List[Tuple[int, bytes]] = []
        self.passive: Dict[int, bytes] = {}
        self.data_count = len(self.read("data", self.data_segment))
        self.counted = self.single(DATA_COUNT)         # memory.init and data.drop need it
        if self.counted not in (None, self.data_count) or len(self.bodies) != len(self.functions):
            raise Refused("a count of functions or data segments that is wrong")
        self.start = self.single(SECTIONS["start"])

    def must_have(self, what: str, index: int) -> None:
        """Looks whether it is there: what is put in behind the module's own must not stand for it."""
        there = {"type": len(self.types), "function": len(self.imports) + len(self.functions), "table": len(self.tables),
                 "memory": len(self.memories), "global": len(self.globals)}
        if index >= there[what]:
            raise Refused(f"a {what} {index} that isn't there")

    def type_of(self, function: int) -> int:
        """The number of its type."""
        first = len(self.imports)
        return self.imports[function][2] if function < first else self.functions[function - first]

    def read(self, section: str, item: Callable[[Reader], Item]) -> List[Item]:
        r = Reader(self.sections.get(SECTIONS[section], b"\0"))
        items = r.vec(lambda: item(r))
        r.ended("a section")
        return items

    def single(self, section: int) -> Optional[int]:
        """The number that a section has, or None."""
        if section not in self.sections:
            return None
        r = Reader(self.sections[section])
        number = r.u()
        r.ended("a section")
        return number

    def custom(self, r: Reader) -> None:
        name = r.text()
        self.customs.append(name)
        if name == "linking":
            raise Refused("an object file (link it by wasm-ld)")
        try:
            while name == "name" and r.at < r.end:
                kind, part = r.byte(), Reader(r.name())
                if kind == 1:
                    self.names = part.vec(lambda: (part.u(), part.name()))
        except Refused:                                # names don't make a module invalid
            self.names = []

    @staticmethod
    def type(r: Reader) -> Kind:
        if r.byte() != 0x60:
            raise Refused("a type that is no function's")
        kind = bytes(value_type(t) for t in r.name()), bytes(value_type(t) for t in r.name())
        if len(kind[0]) > MOST_PARAMETERS or len(kind[1]) > MOST_RESULTS:
            raise Refused(f"a type of {len(kind[0])} parameters and {len(kind[1])} results: {MOST_PARAMETERS} and {MOST_RESULTS} at most")
        return kind

    @staticmethod
    def imported(r: Reader) -> Tuple[str, str, int]:
        module, field, kind = r.text(), r.text(), r.byte()
        if kind != 0:
            raise Refused(f'the import "{module}" "{field}", which is no function')
        return module, field, r.u()

    def exported(self, r: Reader) -> Tuple[bytes, int, int]:
        name, kind, index = r.name(), r.byte(), r.u()
        if kind >= len(EXPORTED):
            raise Refused(f"an export of the kind {kind}")
        self.must_have(EXPORTED[kind], index)
        return name, kind, index

    def table(self, r: Reader) -> bytes:
        if r.byte() != FUNCTIONS:
            raise Refused(REFERENCES)
        return bytes([FUNCTIONS]) + self.limits(r)

    def memory(self, r: Reader) -> bytes:
        return self.limits(r)

    @staticmethod
    def limits(r: Reader) -> bytes:
        flags = r.byte()
        if flags > 1:
            raise Refused(THREADS if flags in (2, 3) else f"limits of the kind {flags} (64 bits, or pages of another size)")
        return bytes([flags]) + u(r.u()) + (u(r.u()) if flags else b"")

    def value(self, r: Reader, wanted: int) -> int:
        """The number that a constant expression of that type gives; of a float its bits."""
        stack: List[Tuple[Optional[int], int]] = []
        steps = 0
        while (op := r.byte()) != END:
            steps += 1
            behind = immediate(r, op)
            if op in KINDS:
                stack.append((KINDS[op], behind))
            elif op == GLOBAL_GET and self.values[behind:] and not self.globals[behind][1]:
                stack.append(self.values[behind])
            elif op in SUMS and len(stack) > 1:
                (second, b), (first, a), (kind, sum_of) = stack.pop(), stack.pop(), SUMS[op]
                stack.append((kind if first == second == kind else None, wrapped(kind, sum_of(a, b))))
            else:
                raise Refused(OTHERS.get(op, f"the operation {op:#x}") + " in a constant expression")
        if len(stack) != 1 or stack[0][0] != wanted:
            raise Refused("a constant expression of another type")
        self.changed["constant expressions of several operations"] += steps > 1
        return stack[0][1]

    def variable(self, r: Reader) -> None:
        kind, mutable = r.byte(), r.byte()
        if mutable > 1:
            raise Refused(f"a global of the kind {mutable}")
        value = self.value(r, kind)
        self.globals.append(bytes([LOWERED[value_type(kind)], mutable]) + constant(kind, value) + b"\x0b")
        self.values.append((kind, value))

    def offset(self, r: Reader, what: str) -> Tuple[int, Optional[int]]:
        """Where an active segment begins, or None."""
        flags = r.u()
        at: Optional[int] = None
        if flags > (EXPLICIT if what == "memory" else PASSIVE | EXPLICIT | EXPRESSIONS):
            raise Refused(f"a segment of the kind {flags}")
        if flags & EXPLICIT and not flags & PASSIVE and r.u() != 0:
            raise Refused(f"more than one {what}")
        if not flags & PASSIVE:
            at = self.value(r, I32)
        if flags:
            self.changed[f"segments of the {what} in forms of WebAssembly 2.0"] += 1
        return flags, at

    def element_segment(self, r: Reader) -> None:
        flags, at = self.offset(r, "table")
        if flags & (PASSIVE | EXPLICIT) and r.byte() != (FUNCTIONS if flags & EXPRESSIONS else 0):
            raise Refused(REFERENCES)
        functions: List[Optional[int]] = r.vec(lambda: self.element(r) if flags & EXPRESSIONS else r.u())
        for function in functions:
            if function is not None:
                self.must_have("function", function)
        if at is None:                                 # nothing can take it: table.init is refused
            return
        if None in functions:
            self.look_at_nulls(at, functions)
        run: List[int] = []
        for i, function in enumerate(functions + [None]):
            if function is not None:
                run.append(function)
                self.filled.add(at + i)
            elif run or not functions:
                self.elements.append((at + i - len(run), run))
                run = []

    @staticmethod
    def element(r: Reader) -> Optional[int]:
        op, behind = r.byte(), r.u()
        if op not in (REF_NULL, REF_FUNC) or op == REF_NULL and behind not in (FUNCTIONS, NO_FUNCTIONS) or r.byte() != END:
            raise Refused(REFERENCES)
        return behind if op == REF_FUNC else None

    def look_at_nulls(self, at: int, functions: Sequence[Optional[int]]) -> None:
        """A null is left out, which is right where nothing else stands, and where the segment fits."""
        least = Reader(self.tables[0], 2).u() if self.tables else 0
        if at + len(functions) > least or any(f is None and at + i in self.filled for i, f in enumerate(functions)):
            raise Refused("a null in an element segment that doesn't fit the table, or over an earlier element")

    def data_segment(self, r: Reader) -> None:
        flags, at = self.offset(r, "memory")
        if at is None:
            self.passive[len(self.data) + len(self.passive)] = r.name()
        else:
            self.data.append((at, r.name()))

    @staticmethod
    def body(r: Reader) -> Tuple[Declared, bytes]:
        part = Reader(r.name())
        declared = part.vec(lambda: (part.u(), value_type(part.byte())))
        return declared, part.take(part.end - part.at)
