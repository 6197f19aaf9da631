"""Writes counters into a guest: how often each basic block runs, and so the exact cost of each instruction, line and function.

The library runs the counted guest like any other. The counters lie in memory above the guest's own, hidden from memory.size and memory.grow.
uv.in_len, in_copy and out_set become functions of the guest, over a part of that memory, so that uv_work can be called on an instance, whose
memory a host can read. Two things differ from the original: an access between the guest's memory and the counters does not trap, and the
guest cannot grow to all 64 pages.
"""

from __future__ import annotations

from typing import Dict, Generic, Iterable, Iterator, List, NamedTuple, Optional, Sequence, Tuple, TypeVar

from . import Instance, Module as Host, _tool, wasm
from .wasm import (BR_IF, CALL, CALL_INDIRECT, ELSE, END, FREE, GLOBAL, I32, IF, LOOP, MEMORY_GROW, MEMORY_SIZE, MOST_BYTES, MOST_PAGES, PAGE, constant,
                   i32, i64, sized, u, vec)

MOST_REQUEST, WORDS, ENOUGH = 65536, 64, 1 << 62        # the maximum of a request and of a reply; the bytes before them; fuel
LOAD, STORE, LOAD_BYTE, STORE_BYTE, ADD = b"\x28\2\0", b"\x36\2\0", b"\x2d\0\0", b"\x3a\0\0", b"\x6a"
WIDEN, ADD_LONG, TIMES_LONG, ABOVE, ABOVE_LONG, AT_LEAST = b"\xad", b"\x7c", b"\x7e", b"\x4b", b"\x56", b"\x4f"
IF_SO, ANSWER = b"\x04\x40", b"\x0f\x0b"                # `if` .. `return end`


class Row(NamedTuple):
    """A basic block: its function, its first instruction, the one after its last, and its cost in units."""

    function: int
    first: int
    end: int
    cost: int

    def began(self, ops: Sequence[wasm.Operation]) -> int:
        """The first of the instructions that it costs: the `loop` right before its own is one of them."""
        return self.first - 1 if self.first and ops[self.first - 1][1] == LOOP else self.first


def get(local: int) -> bytes:
    return b"\x20" + u(local)


def put(local: int) -> bytes:
    return b"\x21" + u(local)


def blocks(function: int, body: wasm.Body) -> List[Row]:
    """The basic blocks of a function. The instruction `loop` belongs to the block that follows it: a branch to the loop costs it again."""
    found, first, cost, depth = [], 0, 0, 0
    for at, (_, op, _) in enumerate(body.ops):
        depth += op in (wasm.BLOCK, LOOP, IF)
        if op == LOOP:
            found.append(Row(function, first, at, cost))
            first, cost = at + 1, 1
            continue
        cost += op not in FREE
        if op in (IF, ELSE, BR_IF) or op == END and depth:
            found.append(Row(function, first, at + 1, cost))
            first, cost = at + 1, 0
        depth -= op == END
    found.append(Row(function, first, len(body.ops), cost))
    return found


def copy(to: bytes, source: bytes, count: bytes, at: int) -> bytes:
    """A loop that copies bytes, with the local `at` as its index."""
    return (i32(0) + put(at) + b"\x02\x40\x03\x40" + get(at) + count + AT_LEAST + b"\x0d\1"
            + to + get(at) + ADD + source + get(at) + ADD + LOAD_BYTE + STORE_BYTE
            + get(at) + i32(1) + ADD + put(at) + b"\x0c\0\x0b\x0b")


def is_past(a: bytes, b: bytes, most: bytes) -> bytes:
    """Whether a + b, without wrapping, exceeds the i64 `most`."""
    return a + WIDEN + b + WIDEN + ADD_LONG + most + ABOVE_LONG


class Writer:
    """Writes the counted guest. Counters are INLINE, or CALLS, which take fewer bytes, more units and one more nested call. With NONE, the guest
    has the functions for requests alone."""

    NONE, CALLS, INLINE = range(3)

    def __init__(self, module: wasm.Module, counters: int) -> None:
        self.module, self.kind = module, counters
        self.rows = [row for number, body in enumerate(module.bodies) for row in blocks(number, body)]
        self.by_function: List[Dict[int, int]] = [{} for _ in module.bodies]
        for place, row in enumerate(self.rows):
            self.by_function[row.function][row.first] = place
        room = -(-(4 * len(self.rows) + WORDS + 2 * MOST_REQUEST + self.more_room()) // PAGE)
        least, most = module.memory or (0, 0)
        self.total = self.pages_for(least, room)
        self.limit = min(MOST_PAGES if most is None else most, self.total - room)
        if least > self.limit:
            raise _tool.Failed(f"the counters take {room} pages and the guest {least}, together more than {MOST_PAGES}")
        self.least, self.words = least, (self.total - room) * PAGE
        self.bytes_in = self.words + WORDS
        self.bytes_out = self.bytes_in + MOST_REQUEST
        self.counters = self.bytes_out + MOST_REQUEST
        self.pages = b"\x23" + u(len(module.globals()))     # global.get of the guest's own number of pages
        self.types = list(module.types)
        self.added: Dict[str, int] = {}
        self.functions: List[Tuple[int, bytes]] = []

    def pages_for(self, least: int, room: int) -> int:
        """The size of the memory in pages, for so many of the guest and of the counters."""
        return MOST_PAGES

    def more_room(self) -> int:
        """How many more bytes of memory are needed, above the counters."""
        return 0

    def more_globals(self) -> List[bytes]:
        return []

    def exports(self) -> List[bytes]:
        return self.module.export_bytes()

    def sections(self) -> Dict[int, bytes]:
        """Further sections that are replaced."""
        return {}

    def function(self, name: str, params: Sequence[int], results: Sequence[int], more: Sequence[int], code: bytes) -> int:
        """The index of an added function, one for each name."""
        if name not in self.added:
            kind = bytes(params), bytes(results)
            if kind not in self.types:
                self.types.append(kind)
            self.added[name] = len(self.module.imported) + len(self.module.functions) + len(self.functions)
            self.functions.append((self.types.index(kind), sized(vec([u(1) + bytes([it]) for it in more]) + code + b"\x0b")))
        return self.added[name]

    def grow(self) -> int:
        to = b"\x24" + self.pages[1:]
        code = is_past(self.pages, get(0), i64(self.limit)) + IF_SO + i32(-1) + ANSWER + self.pages + self.pages + get(0) + ADD + to
        return self.function("grow", [I32], [I32], [], code)

    def request(self, name: str) -> Optional[int]:
        """The function in place of an import of uv_work, or None: every other import returns -1, as in uv_work."""
        length, end = i32(self.words) + LOAD, self.pages + WIDEN + i64(PAGE) + TIMES_LONG

        def refuse(answer: int) -> bytes:
            return IF_SO + i32(answer) + ANSWER

        if name == "in_len":
            return self.function(name, [], [I32], [], length)
        if name == "in_copy":
            code = (is_past(get(1), get(2), length + WIDEN) + refuse(-22) + is_past(get(0), get(2), end) + refuse(-14)
                    + copy(get(0), i32(self.bytes_in) + get(1) + ADD, get(2), 3) + i32(0))
            return self.function(name, [I32] * 3, [I32], [I32], code)
        if name == "out_set":
            code = (get(1) + i32(MOST_REQUEST) + ABOVE + refuse(-22) + is_past(get(0), get(1), end) + refuse(-14)
                    + copy(i32(self.bytes_out), get(0), get(1), 2) + i32(self.words + 4) + get(1) + STORE + i32(0))
            return self.function(name, [I32] * 2, [I32], [I32], code)
        return None

    def counter(self, place: int) -> bytes:
        at = i32(self.counters + 4 * place)
        if self.kind == self.CALLS:
            return at + b"\x10" + u(self.function("count", [I32], [], [], get(0) + get(0) + LOAD + i32(1) + ADD + STORE))
        return at + at + LOAD + i32(1) + ADD + STORE

    def head(self, number: int, body: wasm.Body) -> bytes:
        """The locals of a function, and what runs first in it."""
        return body.data[body.start:body.code]

    def call(self, place: int, callee: Optional[int], piece: bytes) -> bytes:
        """A call; of an import, of the function in its place. `callee` is None for one through the table."""
        other = self.request(self.module.imported[callee]) if callee is not None and callee < len(self.module.imported) else None
        return piece if other is None else b"\x10" + u(other)

    def piece(self, place: int, start: int, op: int, end: int) -> bytes:
        """The instruction as it is written."""
        data = self.module.data
        if op in (CALL, CALL_INDIRECT):
            return self.call(place, wasm.number(data, start + 1)[0] if op == CALL else None, data[start:end])
        if op == MEMORY_SIZE:
            return self.pages
        return b"\x10" + u(self.grow()) if op == MEMORY_GROW else data[start:end]

    def body(self, number: int, body: wasm.Body) -> bytes:
        starts = self.by_function[number] if self.kind else {}
        out = [self.head(number, body)]
        for place, (start, op, end) in enumerate(body.ops):
            if place in starts:
                out.append(self.counter(starts[place]))
            out.append(self.piece(place, start, op, end))
        if len(body.ops) in starts:
            out.append(self.counter(starts[len(body.ops)]))
        return sized(b"".join(out))

    def written(self) -> bytes:
        m = self.module
        bodies, exports, more = [self.body(number, body) for number, body in enumerate(m.bodies)], vec(self.exports()), self.sections()
        globals_ = [bytes([kind, mutable]) + constant(kind, value) for kind, mutable, value in m.globals()]
        replaced = {
            wasm.TYPE: vec([b"\x60" + sized(params) + sized(results) for params, results in self.types]),
            wasm.FUNCTION: vec([u(kind) for kind in m.functions] + [u(kind) for kind, _ in self.functions]),
            wasm.MEMORY: vec([b"\1" + u(self.total) + u(self.total)]),
            GLOBAL: vec(globals_ + [bytes([I32, 1]) + constant(I32, self.least), *self.more_globals()]),
            wasm.EXPORT: exports,
            wasm.CODE: vec(bodies + [code for _, code in self.functions]),
        }
        return m.written({**replaced, **more}, dropped=(0,))


AWriter = TypeVar("AWriter", bound=Writer)
Found = TypeVar("Found")


def fitting(writers: Iterable[AWriter], what: str, most: int = MOST_BYTES) -> Tuple[AWriter, Host]:
    """The first of the writers whose module has at most so many bytes, and that module, loaded."""
    for writer in writers:
        code = writer.written()
        if len(code) <= most:
            return writer, Host(code)
    raise _tool.Failed(f"with {what} the module has {len(code):,} bytes, more than {most:,}")


class Counting(Generic[Found]):
    """A guest with counters, loaded, from which so much is found. `fresh` returns an instance whose request has these bytes."""

    writer: Writer
    host: Host
    rows: List[Row]

    def read(self, instance: Instance, before: Optional[Found] = None) -> Found:
        """What has run, since `before` was read."""
        raise NotImplementedError

    def begin(self, instance: Instance, with_start: bool) -> None:
        """Called before the call that is measured, with the start function or without."""

    def fresh(self, given: bytes, depth: int) -> Instance:
        at, it = self.writer, self.host.instance(fuel=ENOUGH, depth=depth)
        it.memory[at.bytes_in:at.bytes_in + len(given)] = given
        it.memory[at.words:at.words + 4] = len(given).to_bytes(4, "little")
        return it

    def reply(self, instance: Instance) -> bytes:
        at = self.writer
        size = int.from_bytes(instance.memory[at.words + 4:at.words + 8], "little")
        return instance.memory[at.bytes_out:at.bytes_out + size]

    def counts(self, instance: Instance) -> List[int]:
        """How often each row has run so far."""
        at = self.writer.counters
        return memoryview(instance.memory[at:at + 4 * len(self.rows)]).cast("I").tolist()

    def counts_since(self, instance: Instance, before: Optional[List[int]]) -> List[int]:
        now = self.counts(instance)
        return [after - first for after, first in zip(now, before)] if before else now


class Counted(Counting[List[int]]):
    """One with counters of blocks: how often each row has run."""

    def __init__(self, data: bytes, kinds: Sequence[int] = (Writer.INLINE, Writer.CALLS)) -> None:
        module = wasm.Module(data)
        self.writer, self.host = fitting((Writer(module, kind) for kind in kinds), "counters")
        self.rows = self.writer.rows

    def read(self, instance: Instance, before: Optional[List[int]] = None) -> List[int]:
        return self.counts_since(instance, before)


def by_operation(module: wasm.Module, rows: Iterable[Row], counts: Iterable[int]) -> Iterator[Tuple[int, int, int]]:
    """For each instruction that costs fuel its function, its byte and how often it ran."""
    for row, count in zip(rows, counts):
        ops = module.bodies[row.function].ops
        for start, op, _ in ops[row.began(ops):row.end]:
            if op not in FREE:
                yield row.function, start, count
