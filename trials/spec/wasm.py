"""Reads a module of WebAssembly 2.0 and writes it again, changed: without what lies outside the profile, with the
imports of the suite's own module "spectest" built in, with functions that call others in a row, or with integers in the
place of floats.

It is written from the standard's binary grammar, and knows nothing of the program under test. Bodies stay the bytes
that they were, since no change here moves an index.
"""

from __future__ import annotations

from typing import Any, Callable, Dict, Iterable, Iterator, List, Mapping, Optional, Sequence, Set, Tuple, TypeVar

FLOAT, LATER, LINKED = "floats", "a later version of the standard", "imports of another module"
# what each module begins with: its magic number and its version
OPENING = b"\0asm\1\0\0\0"
I32, I64, F32, F64, V128, FUNCREF, EXTERNREF = 0x7F, 0x7E, 0x7D, 0x7C, 0x7B, 0x70, 0x6F
# Value types that are not in the profile, and why.
FOREIGN = {F32: FLOAT, F64: FLOAT, V128: LATER, FUNCREF: LATER, EXTERNREF: LATER}
FUNCTION, TABLE, MEMORY, GLOBAL = range(4)


Item = TypeVar("Item")
Said = TypeVar("Said")
Limits = Tuple[int, Optional[int]]
FunctionType = Tuple[Sequence[int], Sequence[int]]
Locals = List[Tuple[int, int]]
More = Any  # what stands behind an opcode, by the opcode: a number, numbers, or None


class Outside(Exception):
    """The module has a part, told by the text, that this reader doesn't know or can't take out."""


class Reader:
    def __init__(self, data: bytes, at: int = 0, end: Optional[int] = None) -> None:
        self.data, self.at, self.end = data, at, len(data) if end is None else end

    def byte(self) -> int:
        return self.take(1)[0]

    def take(self, n: int) -> bytes:
        if self.at + n > self.end:
            raise ValueError("the bytes end")
        self.at += n
        return self.data[self.at - n:self.at]

    def leb(self) -> Tuple[int, int]:
        """The number without a sign, and the weight of its last byte's sign."""
        value = shift = 0
        while True:
            b = self.byte()
            value |= (b & 127) << shift
            shift += 7
            if b < 128:
                return value, (1 << shift if b & 64 else 0)

    def u(self) -> int:
        return self.leb()[0]

    def s(self) -> int:
        value, sign = self.leb()
        return value - sign

    def vec(self, item: Callable[[], Item]) -> List[Item]:
        return [item() for _ in range(self.u())]

    def name(self) -> bytes:
        return self.take(self.u())


def u(n: int) -> bytes:
    return bytes([n]) if n < 128 else bytes([n & 127 | 128]) + u(n >> 7)


def s(n: int) -> bytes:
    return bytes([n & 127]) if -64 <= n < 64 else bytes([n & 127 | 128]) + s(n >> 7)


def vec(items: Sequence[bytes]) -> bytes:
    return u(len(items)) + b"".join(items)


def name(text: bytes) -> bytes:
    return u(len(text)) + text


def section(number: int, contents: bytes) -> bytes:
    return bytes([number]) + name(contents)


def limits(r: Reader) -> Limits:
    flag = r.byte()
    if flag > 1:
        raise Outside(LATER)
    return (r.u(), r.u() if flag else None)


def write_limits(at_least: int, at_most: Optional[int]) -> bytes:
    return b"\0" + u(at_least) if at_most is None else b"\1" + u(at_least) + u(at_most)


def value_type(r: Reader) -> int:
    t = r.byte()
    if t not in (I32, I64, *FOREIGN):
        raise Outside(LATER)
    return t


def operations(body: bytes) -> Iterator[Tuple[int, More, bytes]]:
    """(opcode, immediates, bytes) of each operation of a body without its locals."""
    r = Reader(body)
    while r.at < r.end:
        begin, op = r.at, r.byte()
        more: More = None
        if op in (2, 3, 4, 0x41, 0x42):
            more = r.s()
        elif op in (0x0C, 0x0D, 0x10, 0x20, 0x21, 0x22, 0x23, 0x24, 0x25, 0x26, 0xD2):
            more = r.u()
        elif op == 0x0E:
            more = (r.vec(r.u), r.u())
        elif op == 0x11 or 0x28 <= op <= 0x3E:
            more = (r.u(), r.u())
        elif op == 0x1C:
            more = r.vec(r.byte)
        elif op in (0x3F, 0x40, 0xD0):
            more = r.byte()
        elif op in (0x43, 0x44):
            r.take(4 if op == 0x43 else 8)
        elif op == 0xFC:
            more = r.u()
            for _ in range({8: 2, 9: 1, 10: 2, 11: 1, 12: 2, 13: 1, 14: 2, 15: 1, 16: 1, 17: 1}.get(more, 0)):
                r.u()
        elif not (op in (0, 1, 5, 0x0B, 0x0F, 0x1A, 0x1B, 0xD1) or 0x45 <= op <= 0xC4):
            raise Outside(LATER)
        yield op, more, body[begin:r.at]


def is_float(op: int, more: More) -> bool:
    return op in (0x2A, 0x2B, 0x38, 0x39, 0x43, 0x44) or 0x5B <= op <= 0x66 or 0x8B <= op <= 0xA6 \
        or 0xA8 <= op <= 0xAB or 0xAE <= op <= 0xBF or op == 0xFC and more < 8


def is_write(op: int, more: More) -> bool:
    return op in (0x24, 0x26, 0x40) or 0x36 <= op <= 0x3E or op == 0xFC and more >= 8


# What the suite's host offers under the name "spectest", and wasm-opt's random modules ask of "fuzzing-support": functions that do
# nothing, globals with their initializers, a table and a memory with their limits.
HOSTS = (b"spectest", b"fuzzing-support")
SPECTEST: Dict[Tuple[int, bytes], Any] = {
    (FUNCTION, b"print"): None, (FUNCTION, b"print_i32"): None, (FUNCTION, b"print_i64"): None, (FUNCTION, b"print_f32"): None,
    (FUNCTION, b"print_f64"): None, (FUNCTION, b"print_i32_f32"): None, (FUNCTION, b"print_f64_f64"): None,
    (GLOBAL, b"global_i32"): b"\x41" + s(666) + b"\x0b", (GLOBAL, b"global_i64"): b"\x42" + s(666) + b"\x0b",
    (GLOBAL, b"global_f32"): b"\x43\0\0\0\0\x0b", (GLOBAL, b"global_f64"): b"\x44\0\0\0\0\0\0\0\0\x0b",
    (TABLE, b"table"): (FUNCREF, 10, 20), (MEMORY, b"memory"): (1, 2),
    (FUNCTION, b"log-i32"): None, (FUNCTION, b"log-i64"): None, (FUNCTION, b"log-f32"): None, (FUNCTION, b"log-f64"): None,
}


class Module:
    """The parts of a module. Imports of such a host stand in front of what it defines, as functions, globals, a table and
    a memory of its own. Element segments that only later instructions could use are left out."""

    def __init__(self, data: bytes) -> None:
        self.types: List[FunctionType] = []
        self.functions: List[Tuple[int, Locals, bytes]] = []
        self.tables: List[Tuple[int, int, Optional[int]]] = []
        self.memories: List[Limits] = []
        self.globals: List[Tuple[int, int, bytes]] = []
        self.exports: List[Tuple[bytes, int, int]] = []
        self.start: Optional[int] = None
        self.elements: List[Tuple[bytes, List[int]]] = []
        self.data: List[Tuple[bytes, bytes]] = []
        self.baked: Set[str] = set()
        self.dead: Dict[int, str] = {}
        self.dropped = False
        defined: List[int] = []
        bodies: List[Tuple[Locals, bytes]] = []
        r = Reader(data, 8)
        while r.at < r.end:
            number, size = r.byte(), r.u()
            part = Reader(data, r.at, r.at + size)
            r.take(size)
            if number == 1:
                self.types = part.vec(lambda: self.read_type(part))
            elif number == 2:
                part.vec(lambda: self.read_import(part))
            elif number == 3:
                defined = part.vec(part.u)
            elif number == 4:
                self.tables += part.vec(lambda: (part.byte(), *limits(part)))
            elif number == 5:
                self.memories += part.vec(lambda: limits(part))
            elif number == 6:
                part.vec(lambda: self.globals.append((value_type(part), part.byte(), self.constant(part))))
            elif number == 7:
                self.exports = part.vec(lambda: (part.name(), part.byte(), part.u()))
            elif number == 8:
                self.start = part.u()
            elif number == 9:
                self.elements = [e for e in part.vec(lambda: self.read_element(part)) if e]
            elif number == 10:
                bodies = part.vec(lambda: self.read_body(part))
            elif number == 11:
                self.data = [d for d in part.vec(lambda: self.read_data(part)) if d]
            elif number > 12:
                raise Outside(LATER)
            self.dropped |= number == 12
        self.functions += [(t, *b) for t, b in zip(defined, bodies)]

    def read_type(self, r: Reader) -> FunctionType:
        if r.byte() != 0x60:
            raise Outside(LATER)
        return r.vec(lambda: value_type(r)), r.vec(lambda: value_type(r))

    def read_import(self, r: Reader) -> None:
        module, field, kind = r.name(), r.name(), r.byte()
        if module not in HOSTS or (kind, field) not in SPECTEST:
            raise Outside(LINKED)
        made = SPECTEST[kind, field]
        self.baked.add(field.decode())
        if kind == FUNCTION:
            self.functions.append((r.u(), [], b"\x0b"))
        elif kind == TABLE:
            self.tables.append(made)
            r.byte(), limits(r)
        elif kind == MEMORY:
            self.memories.append(made)
            limits(r)
        else:
            self.globals.append((value_type(r), r.byte(), made))

    def constant(self, r: Reader) -> bytes:
        """A constant expression, with imported globals as what they are."""
        begin = r.at
        for op, more, code in operations(r.data[r.at:r.end]):
            r.at += len(code)
            if op == 0x0B:
                break
            if op == 0x23:
                if begin + len(code) != r.at or more >= len(self.globals) or r.byte() != 0x0B:
                    raise Outside(LATER)
                return self.globals[more][2]
            if op not in (0x41, 0x42, 0x43, 0x44, 0xD0, 0xD2):
                raise Outside(LATER)
        return r.data[begin:r.at]

    def read_element(self, r: Reader) -> Optional[Tuple[bytes, List[int]]]:
        """(offset, functions) of a segment for table 0; None of one that is passive or for another table."""
        flag = r.u()
        self.dropped |= flag > 0
        if flag > 7:
            raise Outside(LATER)
        table = r.u() if flag in (2, 6) else 0
        offset = None if flag & 1 else self.constant(r)
        if flag & 3:
            r.byte()
        if flag & 4:
            starts = [next(operations(c)) for c in r.vec(lambda: self.constant(r))]
            if any(op != 0xD2 for op, _, _ in starts) and offset and not table:
                raise Outside(LATER)
            items: List[int] = [more for _, more, _ in starts]
        else:
            items = r.vec(r.u)
        return None if offset is None or table else (offset, items)

    def read_data(self, r: Reader) -> Optional[Tuple[bytes, bytes]]:
        flag = r.u()
        self.dropped |= flag > 0
        if flag > 2 or flag == 2 and r.u():
            raise Outside(LATER)
        offset = None if flag == 1 else self.constant(r)
        contents = r.name()
        return None if offset is None else (offset, contents)

    def read_body(self, r: Reader) -> Tuple[Locals, bytes]:
        size = r.u()
        part = Reader(r.data, r.at, r.at + size)
        r.take(size)
        locals_ = part.vec(lambda: (part.u(), value_type(part)))
        return locals_, r.data[part.at:part.end]

    def type_of(self, place: int) -> FunctionType:
        return self.types[self.functions[place][0]]

    def foreign(self, types: Iterable[int]) -> Optional[str]:
        return next((FOREIGN[t] for t in types if t in FOREIGN), None)

    def why_cut(self, place: int) -> Optional[str]:
        """Why a function can't stay as it is, or None."""
        number, locals_, body = self.functions[place]
        of_types = [self.foreign([*a, *b]) for a, b in self.types]
        if why := of_types[number] or self.foreign(t for _, t in locals_):
            return why
        if len(self.types[number][0]) + sum(n for n, _ in locals_) > 256:
            return "a named limit: more than 256 parameters and locals"
        depth = 0
        for op, more, _ in operations(body):
            depth += (op in (2, 3, 4)) - (op == 0x0B)
            why = None
            if is_float(op, more):
                why = FLOAT
            elif op in (2, 3, 4) and more != -64:
                why = of_types[more] if more >= 0 else FOREIGN.get(more & 127)
            elif op == 0x10:
                why = of_types[self.functions[more][0]]
            elif op == 0x11:
                why = LATER if more[1] else of_types[more[0]]
            elif op in (0x23, 0x24):
                why = FOREIGN.get(self.globals[more][0])
            elif op in (0x1C, 0x25, 0x26, 0xD0, 0xD1, 0xD2, 0xFC):
                why = LATER
            elif op == 0x0E and len(more[0]) > 4096:
                why = "a named limit: a br_table of more than 4,096 labels"
            elif depth > 256:
                why = "a named limit: more than 256 blocks in one another"
            if why:
                return why
        return None

    def cut(self) -> bool:
        """Takes out floats, what later versions brought and functions above a named limit (docs/LIMITS.md). Such functions keep
        their places and trap; `dead` says of which functions the runs are no longer those of the module, and why. True
        where something was cut."""
        before = self.write()
        why = {k: w for k in range(len(self.functions)) if (w := self.why_cut(k))}
        types: Set[Tuple[Tuple[int, ...], Tuple[int, ...]]] = {(tuple(a), tuple(b)) for a, b in self.types}
        for place, (a, b) in enumerate(self.types):
            if self.foreign([*a, *b]):
                # A type of its own, as before: twelve parameters tell it from the others.
                number = len(types)
                while (new := (tuple(I64 if number >> k & 1 else I32 for k in range(12)), (I64,))) in types:
                    number += 1
                types.add(new)
                self.types[place] = new
        self.globals = [(I32, m, b"\x41\0\x0b") if t in FOREIGN else (t, m, value) for t, m, value in self.globals]
        if self.tables and self.tables[0][0] != FUNCREF:
            self.tables, self.elements = [(FUNCREF, 0, None)], []
        self.tables = self.tables[:1]
        self.exports = [e for e in self.exports if e[1] != TABLE or e[2] == 0]
        for place in why:
            self.functions[place] = (self.functions[place][0], [], b"\0\x0b")
        self.dead = self.reaching(why)
        return self.dropped or self.write() != before

    def reaching(self, wanted: Mapping[int, Said]) -> Dict[int, Said]:
        """Those functions from which one of `wanted`, a map, can be reached by calls, with what the map says of it."""
        found = dict(wanted)
        in_table = [f for _, items in self.elements for f in items if f < len(self.functions)]
        calls = [[(op, more) for op, more, _ in operations(body) if op in (0x10, 0x11)] for _, _, body in self.functions]
        grown = True
        while grown:
            grown = False
            for place, made in enumerate(calls):
                for op, more in made if place not in found else []:
                    to = [more] if op == 0x10 else [f for f in in_table if same(self.type_of(f), self.types[more[0]])]
                    hit = [f for f in to if f in found]
                    if hit and place not in found:
                        found[place] = found[hit[0]]
                        grown = True
        return found

    def which(self, test: Callable[[int, More], bool]) -> Dict[int, bool]:
        """The functions that run an operation of which `test` is true, or may call one that does."""
        return self.reaching({k: True for k, (_, _, body) in enumerate(self.functions)
                              if any(test(op, more) for op, more, _ in operations(body))})

    def exported(self, field: bytes, kind: int = FUNCTION) -> Optional[int]:
        return next((to for n, k, to in self.exports if n == field and k == kind), None)

    def add_row(self, field: bytes, results: Sequence[int], body: bytes) -> None:
        """One more function without parameters, exported under this name."""
        wanted: FunctionType = ([], results)
        if not any(same(t, wanted) for t in self.types):
            self.types.append(wanted)
        self.functions.append((next(k for k, t in enumerate(self.types) if same(t, wanted)), [], body))
        self.exports.append((field, FUNCTION, len(self.functions) - 1))

    def write(self) -> bytes:
        def listed(number: int, items: Sequence[bytes]) -> bytes:
            return section(number, vec(items)) if items else b""

        bodies = [vec([u(n) + bytes([t]) for n, t in locals_]) + body for _, locals_, body in self.functions]
        start = b"" if self.start is None else section(8, u(self.start))
        return (OPENING
                + listed(1, [b"\x60" + vec([bytes([t]) for t in a]) + vec([bytes([t]) for t in b]) for a, b in self.types])
                + listed(3, [u(f[0]) for f in self.functions])
                + listed(4, [bytes([t]) + write_limits(least, most) for t, least, most in self.tables])
                + listed(5, [write_limits(*m) for m in self.memories])
                + listed(6, [bytes([t, m]) + value for t, m, value in self.globals])
                + listed(7, [name(n) + bytes([k]) + u(to) for n, k, to in self.exports])
                + start
                + listed(9, [b"\0" + offset + vec([u(f) for f in items]) for offset, items in self.elements])
                + listed(10, [name(b) for b in bodies])
                + listed(11, [b"\0" + offset + name(contents) for offset, contents in self.data]))


def same(one: FunctionType, other: FunctionType) -> bool:
    return [list(part) for part in one] == [list(part) for part in other]


def without_floats(data: bytes, integer: int) -> bytes:
    """The module with one integer type in the place of both float types, and for each of their instructions one that has
    its type then. A valid module stays valid, and one that is invalid by more than a mix of these types stays invalid."""
    module = Module(data)
    const = bytes([0x41 if integer == I32 else 0x42, 0])
    letter = {F32: integer, F64: integer}

    def types(list_: Iterable[int]) -> List[int]:
        return [letter.get(t, t) for t in list_]

    def instruction(op: int, more: More, code: bytes) -> bytes:
        wide = integer == I64
        if op in (0x43, 0x44):
            return const
        if op in (2, 3, 4):
            return code if more not in (-3, -4) else bytes([op, integer])
        if op == 0x1C:
            return bytes([op]) + vec([bytes([t]) for t in types(more)])
        if not is_float(op, more):
            return code
        if op in (0x2A, 0x2B):
            return bytes([(0x35 if op == 0x2A else 0x29) if wide else 0x28]) + code[1:]
        if op in (0x38, 0x39):
            return bytes([(0x3E if op == 0x38 else 0x37) if wide else 0x36]) + code[1:]
        same_, compare, add = (0x79, 0x51, 0x7C) if wide else (0x67, 0x46, 0x6A)
        if op <= 0x66:
            return bytes([compare])
        if op <= 0xA6:
            return bytes([add if 0x92 <= op <= 0x98 or 0xA0 <= op else same_])
        to_i32 = op in (0xA8, 0xA9, 0xAA, 0xAB, 0xBC) or op == 0xFC and more < 4
        to_i64 = op in (0xAE, 0xAF, 0xB0, 0xB1, 0xBD) or op == 0xFC and more >= 4
        of_i32 = op in (0xB2, 0xB3, 0xB7, 0xB8, 0xBE)
        of_i64 = op in (0xB4, 0xB5, 0xB9, 0xBA, 0xBF)
        if to_i32:
            return b"\xa7" if wide else b"\x67"
        if to_i64:
            return b"\x79" if wide else b"\xac"
        if of_i32:
            return b"\xac" if wide else b"\x67"
        return b"\x79" if wide and of_i64 else b"\xa7" if of_i64 else bytes([same_])

    module.types = [(types(a), types(b)) for a, b in module.types]
    module.globals = [(letter.get(t, t), m, b"".join(instruction(*o) for o in operations(value))) for t, m, value in module.globals]
    module.elements = [(b"".join(instruction(*o) for o in operations(offset)), items) for offset, items in module.elements]
    module.data = [(b"".join(instruction(*o) for o in operations(offset)), items) for offset, items in module.data]
    module.functions = [(t, [(n, letter.get(v, v)) for n, v in locals_], b"".join(instruction(*o) for o in operations(body)))
                        for t, locals_, body in module.functions]
    return module.write()
