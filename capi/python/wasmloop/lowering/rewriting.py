"""The module that comes out: the imports that stay, its functions, those for setjmp's imports, those that are put in."""

from __future__ import annotations

import collections
from typing import Counter, Dict, List, Optional, Tuple

from . import bulk, jumps, tables
from .binary import (BLOCKS, CALL, CALL_INDIRECT, COPY, DROP, ELEM_DROP, EMPTY_BLOCK, F32, F32_CONST, F64, F64_CONST, FILL,
                     GLOBAL_GET, GLOBAL_SET, I32, INIT, MEMORY_ACCESS, PAGES, PREFIX, SELECT, TYPED_SELECT, Refused, constant,
                     LOWERED, Behind, Declared, Kind, lowered_type, operations, s, shortest, sized, u, value_type, vec)
from .bulk import Added
from .floats import FLOAT_ACCESS, REINTERPRET, SIGNS, SOFT
from .module import SECTIONS, Module
from .validity import Body

FLOATS, LONG = "floating-point instructions", "instructions with a number in more bytes than it needs"
MARKED = "calls through the table by a type that marks distinguish from another"
ENTRIES = b"uv_main", b"uv_work", b"uv_after_work"
BULK = {INIT: "memory.init", DROP: "data.drop", COPY: "memory.copy", FILL: "memory.fill"}


class Lowering:
    """Old numbers of functions to new ones: imports, then defined, then those for setjmp's imports, then what is put in.

    What is put in is asked for by a key, and gets the next free number where it is first asked for: ("soft", its number in
    SOFT.wasm), ("memory.copy", 0), ("memory.fill", 0), ("memory.init", segment), ("data", segment).
    """

    def __init__(self, module: Module, soft: Optional[Module]) -> None:
        self.old, self.soft = module, soft
        self.soft_exports = {n.decode(): i for n, kind, i in soft.exports if kind == 0} if soft else {}
        self.threw = next((i for n, _, i in module.exports if n == b"guest_threw"), None)
        self.kept = [i for i, (m, _, _) in enumerate(module.imports) if m == "uv"]
        self.made = [i for i, (m, _, _) in enumerate(module.imports) if m != "uv"]
        for i in self.made:
            jumps.look_at_import(*module.imports[i][:2])
        imports, defined = len(module.imports), len(module.functions)
        self.number = {old: new for new, old in enumerate(self.kept)}
        self.number.update({imports + i: len(self.kept) + i for i in range(defined)})
        self.number.update({old: len(self.kept) + defined + i for i, old in enumerate(self.made)})
        self.types, self.function_types = [lowered_type(kind) for kind in module.types], list(module.functions)
        self.type_numbers = {kind: k for k, kind in reversed(list(enumerate(self.types)))}
        self.bodies: List[bytes] = []
        self.marks = tables.Marks(module)
        self.spare: Optional[int] = None
        self.globals = list(module.globals)
        self.lengths: Dict[int, int] = {}
        self.added: Dict[Tuple[str, int], int] = {}
        self.flag = self.new_global(0) if self.made else -1
        self.counts = collections.Counter(module.changed)
        self.sizes: Counter[str] = collections.Counter()
        self.unwinding, self.through_table = jumps.who_unwinds(module, self.made)

    def new_global(self, value: int) -> int:
        self.globals.append(bytes([I32, 1]) + constant(I32, value) + b"\x0b")
        return len(self.globals) - 1

    def put_in(self, what: str, index: int = 0) -> int:
        first = len(self.kept) + len(self.old.functions) + len(self.made)
        return self.added.setdefault((what, index), first + len(self.added))

    def call(self, what: str, index: int = 0) -> bytes:
        return b"\x10" + u(self.put_in(what, index))

    def soft_call(self, name: str) -> bytes:
        self.counts[FLOATS] += 1
        index = self.soft_exports.get(f"soft.{name}")
        if index is None:
            raise Refused(f"{name}: no such function in SOFT.wasm (--soft)")
        return self.call("soft", index)

    def operation(self, op: int, written: bytes, behind: Behind, leave: bytes) -> bytes:
        if op in BLOCKS and behind < 0:
            return bytes([op, EMPTY_BLOCK if behind & 127 == EMPTY_BLOCK else LOWERED[value_type(behind & 127)]])
        if op in BLOCKS:
            self.old.must_have("type", behind)
        if op in (GLOBAL_GET, GLOBAL_SET):
            self.old.must_have("global", behind)
        if op == CALL:
            self.old.must_have("function", behind)
            return self.short(op, written, self.number[behind]) + (leave if behind in self.unwinding else b"")
        if op == CALL_INDIRECT:
            self.old.must_have("type", behind[0])
            self.must_be_first("table", behind[1])
            return self.call_indirect(written, behind) + (leave if self.through_table else b"")
        if op in PAGES:
            self.must_be_first("memory", behind)
        if op in (F32_CONST, F64_CONST):
            return constant(F32 if op == F32_CONST else F64, behind)
        if op in FLOAT_ACCESS:
            return self.short(FLOAT_ACCESS[op], written, behind)
        if op in REINTERPRET:
            return b""
        if op in SIGNS:
            self.counts[FLOATS] += 1
            return SIGNS[op]
        if op == TYPED_SELECT:
            self.counts["select with a type"] += 1
            return bytes([SELECT])
        if op == PREFIX and behind[0] >= INIT:
            return self.bulk(*behind)
        name = SOFT.get((PREFIX, behind[0]) if op == PREFIX else op)
        return self.soft_call(name) if name else self.short(op, written, behind)

    def call_indirect(self, written: bytes, behind: Tuple[int, int]) -> bytes:
        kind = self.old.types[behind[0]]
        if not self.marks.of(kind):
            return self.short(CALL_INDIRECT, written, behind)
        self.counts[MARKED] += 1
        self.spare = self.first_spare
        return tables.call(self.type_number(self.marks.type(kind)), self.marks.of(kind), self.spare)

    def placed(self, function: int) -> int:
        """The number of what the table has for a function."""
        marked = self.marks.of(self.old.types[self.old.type_of(function)])
        return self.put_in("by the table", function) if marked else self.number[function]

    def short(self, op: int, written: bytes, behind: Behind) -> bytes:
        new = shortest(op, written, behind)
        self.counts[LONG] += len(new) < len(written)
        return new

    @staticmethod
    def must_be_first(what: str, number: int) -> None:
        if number != 0:
            raise Refused(f"more than one {what}")

    def bulk(self, op: int, *indices: int) -> bytes:
        if op == ELEM_DROP:                            # nothing is left that could see it
            if indices[0] >= self.old.element_count:
                raise Refused(f"elem.drop of a segment {indices[0]} that isn't there")
            self.counts["elem.drop"] += 1
            return b""
        self.counts[BULK[op]] += 1
        for memory in indices if op in (COPY, FILL) else indices[1:]:
            self.must_be_first("memory", memory)
        if op in (COPY, FILL):
            return self.call(BULK[op])
        if indices[0] >= (self.old.counted or 0):
            raise Refused(f"{BULK[op]} of a data segment {indices[0]} that isn't there or counted")
        if op == INIT:
            return self.call(BULK[op], indices[0])
        return self.drop(indices[0])

    def drop(self, segment: int) -> bytes:
        if not self.old.passive.get(segment):
            return b""
        return b"\x41\0" + bytes([GLOBAL_SET]) + u(self.length(segment))

    def length(self, segment: int) -> int:
        """The global that has the length of a segment, since the segment may be dropped."""
        if segment not in self.lengths:
            self.lengths[segment] = self.new_global(len(self.old.passive[segment]))
        return self.lengths[segment]

    def defined(self, kind: int, declared: Declared, body: bytes) -> bytes:
        """A function of the module's own."""
        leave = jumps.leave(self.flag, self.types[kind][1]) if self.made else b""
        self.first_spare, self.spare = len(self.types[kind][0]) + sum(n for n, _ in declared), None
        walk = Body(self.old, kind, declared)
        code: List[bytes] = []
        for op, written, behind in operations(body):
            new = self.operation(op, written, behind, leave)
            walk.operation(op, behind)
            code.append(new)
        walk.ended()
        spare: List[bytes] = [u(1) + bytes([I32])] if self.spare is not None else []
        return vec([u(n) + bytes([LOWERED[t]]) for n, t in declared] + spare) + b"".join(code)

    def functions(self) -> None:
        for i, (kind, (declared, body)) in enumerate(zip(self.old.functions, self.old.bodies)):
            try:
                self.bodies.append(self.defined(kind, declared, body))
            except Refused as why:
                number = len(self.old.imports) + i
                name = dict(self.old.names).get(number)
                named = f" ({name.decode(errors='replace')})" if name else ""
                raise Refused(f"{why}, in function {number}{named}") from None
        for i in self.made:
            self.made_function(*self.old.imports[i][1:])
        done = 0
        while done < len(self.added):                  # what they call gets numbers on the way
            some = list(self.added)[done:]
            for key in some:
                self.added_function(*key)
            done += len(some)

    def made_function(self, field: str, kind: int) -> None:
        """What stands for an import of setjmp's."""
        self.function_types.append(kind)
        parameters, results = self.types[kind]
        if field.startswith("invoke_"):
            called = self.old.types[kind][0][1:], self.old.types[kind][1]
            body = jumps.invoke(self.flag, parameters, self.type_number(self.marks.type(called)), self.marks.of(called))
        else:
            if self.threw is None:
                raise Refused("longjmp without setjmp.c: link it")
            body = jumps.longjmp(self.flag, parameters, self.number[self.threw])
        self.sizes["jumps"] += len(body)
        self.bodies.append(body)

    def type_number(self, kind: Kind) -> int:
        if kind not in self.type_numbers:
            self.type_numbers[kind] = len(self.types)
            self.types.append(kind)
        return self.type_numbers[kind]

    def added_function(self, what: str, index: int = 0) -> None:
        if what == "soft":
            assert self.soft
            declared, body = self.soft.bodies[index]
            code = b"".join(self.soft_operation(*o) for o in operations(body))
            kind = self.soft.types[self.soft.functions[index]]
            body = vec([u(n) + bytes([t]) for n, t in declared]) + code
        elif what == "by the table":
            kind = self.old.types[self.old.type_of(index)]
            body, kind = tables.taker(kind, self.number[index]), self.marks.type(kind)
        elif what == "data":
            kind, body = bulk.data_of(self.old.passive[index])
        elif what == "memory.init":
            kind, body = self.init(index)
        else:
            kind, body = bulk.copy() if what == "memory.copy" else bulk.fill()
        self.sizes[what if what in ("soft", "by the table") else "bulk"] += len(body)
        self.function_types.append(self.type_number(kind))
        self.bodies.append(body)

    def init(self, segment: int) -> Added:
        data = self.old.passive.get(segment)
        if not data:                                   # active, so dropped by now; or empty
            return bulk.init("i32 0", None)
        dropped = segment in self.lengths
        return bulk.init(f"global {self.lengths[segment]}" if dropped else f"i32 {len(data)}", self.put_in("data", segment))

    def soft_operation(self, op: int, written: bytes, behind: Behind) -> bytes:
        if op in (GLOBAL_GET, GLOBAL_SET, CALL_INDIRECT, *MEMORY_ACCESS, *PAGES) or op == PREFIX and behind[0] >= INIT:
            raise Refused("SOFT.wasm has a function that uses its memory: compile soft.c with -O2")
        return self.call("soft", behind) if op == CALL else written

    def name(self, what: str, index: int = 0) -> Optional[str]:
        if what == "soft":
            return next((n for n, i in self.soft_exports.items() if i == index), None)
        return what if what in ("memory.copy", "memory.fill") else f"{what} {index}"

    def names(self) -> bytes:
        """The names of functions, those that were put in too."""
        named = {self.number[i]: n for i, n in self.old.names if i in self.number}
        put_in = ((new, self.name(*key)) for key, new in self.added.items())
        named.update({new: name.encode() for new, name in put_in if name})
        part = vec([u(i) + sized(n) for i, n in sorted(named.items())])
        return b"\0" + sized(sized(b"name") + b"\1" + sized(part))

    def look_at_floats_outside(self) -> None:
        """What the host calls and is called by has integers, and must have had them before."""
        for module, field, kind in self.old.imports:
            if module == "uv" and tables.has_floats(self.old.types[kind]):
                raise Refused(f'the import "uv" "{field}", which has floats in its type')
        for name, kind, index in self.old.exports:
            if kind == 0 and name in ENTRIES and tables.has_floats(self.old.types[self.old.type_of(index)]):
                raise Refused(f'the export "{name.decode()}", which has floats in its type')

    def module(self) -> bytes:
        old = self.old
        parts: Dict[str, bytes] = {}
        self.look_at_floats_outside()
        for _, functions in old.elements:              # (they get their numbers before the functions that are put in)
            for function in functions:
                self.placed(function)
        self.functions()
        exports = [(n, k, self.number[i] if k == 0 else i) for n, k, i in old.exports if n != b"guest_threw"]
        imports = [old.imports[i] for i in self.kept]
        parts["types"] = vec([b"\x60" + sized(p) + sized(q) for p, q in self.types])
        parts["imports"] = vec([sized(m.encode()) + sized(n.encode()) + b"\0" + u(t) for m, n, t in imports])
        parts["functions"] = vec([u(t) for t in self.function_types])
        parts["tables"], parts["memories"] = vec(old.tables), vec(old.memories)
        parts["globals"] = vec(self.globals)
        parts["exports"] = vec([sized(n) + bytes([k]) + u(i) for n, k, i in exports])
        parts["elements"] = vec([b"\0\x41" + s(at) + b"\x0b" + vec([u(self.placed(f)) for f in functions])
                                 for at, functions in old.elements])
        parts["code"] = vec([sized(b) for b in self.bodies])
        parts["data"] = vec([b"\0\x41" + s(at) + b"\x0b" + sized(data) for at, data in old.data])
        parts["start"] = b"\0" if old.start is None else u(self.number[old.start])
        out = b"\0asm\1\0\0\0"
        for name, number in SECTIONS.items():
            if parts[name] != b"\0" or name == "start" and old.start is not None:
                out += bytes([number]) + sized(parts[name])
        return out + (self.names() if old.names else b"")

    def told(self) -> List[str]:
        """A line for each kind of thing that was rewritten, with what was put in for it."""
        counts = self.counts
        lines: List[str] = []
        put_in = collections.Counter(what for what, *_ in self.added)
        if counts[FLOATS]:
            lines.append(f"{counts[FLOATS]} {FLOATS}: added {put_in['soft']} functions of SOFT.wasm, {self.sizes['soft']} bytes")
        bulk_counts = [f"{counts[name]} {name}" for name in BULK.values() if counts[name]]
        if bulk_counts:
            functions = len(self.added) - put_in["soft"] - put_in["by the table"]
            lines.append(f"{', '.join(bulk_counts)}: added {functions} functions, {self.sizes['bulk']} bytes")
        if self.made:
            lines.append(f"{len(self.made)} imports of setjmp: added as many functions, {self.sizes['jumps']} bytes, a global")
        if put_in["by the table"]:
            lines.append(f"{counts[MARKED]} {MARKED}: added {put_in['by the table']} functions, {self.sizes['by the table']} bytes")
        if self.lengths:
            lines.append(f"{len(self.lengths)} data segments that can be dropped: added as many globals")
        lines += [f"{n} {what}" for what, n in counts.items() if n and what not in (FLOATS, MARKED, *BULK.values())]
        left_out = [name for name in self.old.customs if name != "name"] + ["datacount"] * (12 in self.old.sections)
        if left_out:
            lines.append(f"left out: {', '.join(left_out)}")
        return lines
