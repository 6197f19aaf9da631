"""Measures a callback of a recorded loop, as `profile` measures a run.

A host cannot read a loop's memory, but a callback can emit 64 numbers, even one that stops. So the record is replayed with a counted guest
which emits its counters at the end of the callback, or where that stops, and again for each further 64.
"""

from __future__ import annotations

from typing import Dict, Iterator, List, Optional, Tuple

from . import NOT_RUN, RAN, Did, Site, _tool, replay, tree, wasm
from .emitting import with_emit
from .runs import Ran, room_for
from .tree import NODE, Node, TreeWriter
from .wasm import ELEMENT, I32, I64, MOST_BYTES, START, number, text, u, vec

SLOWER = 64                                             # so many units, at most, stand for one of the guest
STEP, MOST_COST = 3000, 100_000_000_000                 # what a step of a replay costs, in units; of all replays of a record
ENDINGS = "done", "trap", "depth", "spent"
MOST_EMITS = 64
LAST = -1                                               # the last callback of a record
CALLBACK = bytes([I32]), b""                            # the type of a callback in the table

EMIT = """
    global on i32.eqz if get value call IMPORT return end
    global emitted i32 64 i32.ge_u if i32 -28 return end
    global emitted i32 1 i32.add global-set emitted i32 0
end"""

WRAP = """
    global inside if PARAMS call WRAPPED return end
    i32 1 global-set inside
    global seen i32 1 i32.add global-set seen
    global seen global target i32.eq global-set on
    i32 NODES global-set node i32 0 global-set site
    PARAMS call WRAPPED
    global on if call DUMP i32 0 global-set on end
    i32 0 global-set inside
end"""

WORK = "i32 1 global-set working get op call WRAPPED end"
# A work function that ran out of fuel does so with counters, too: here it burns what it has left.
BURN = """
    global working if
        global total get cost i64.extend i64.add global-set total
        global total i64 ALLOWED i64.gt_u if loop br 0 end end
    end
"""

LONG, EACH = "i64.extend i64 32 i64.shl", "call IMPORT if return end"
DUMP = f"""
    global first set at
    block loop
        get at i32 ROWS i32.ge_u br_if 1
        get at i32 4 i32.mul i32 COUNTERS i32.add i32.load 0 tee count if
            get at {LONG} get count i64.extend i64.add {EACH}
        end
        get at i32 1 i32.add set at br 0
    end end
    block loop
        get at i32 ROWS i32.sub i32 {NODE} i32.mul i32 NODES i32.add tee count global next i32.ge_u br_if 1
        get at {LONG} get count i32.load 0 i64.extend i64.add {EACH}
        get count i32.load 8 {LONG} get count i32.load 4 i64.extend i64.add {EACH}
        get count i32.load 20 i64.extend {EACH}
        get count i64.load 24 {EACH}
        get at i32 1 i32.add set at br 0
    end end
end"""

MEMORY = """
    global first set at
    block loop
        get at i32 LAST i32.gt_u br_if 1
        get at i64.load 0 call IMPORT br_if 1
        get at i32 8 i32.add set at br 0
    end end
end"""


class LoopWriter(TreeWriter):
    """Writes the guest that counts in one callback, the `target`th that runs, and emits its counters from the `first` on; or its memory."""

    def __init__(self, module: wasm.Module, most: int, work_fuel: int, target: int, first: int, memory: bool = False) -> None:
        module = with_emit(module)
        super().__init__(module, most)
        self.work_fuel, self.target, self.first, self.import_, self.memory = work_fuel, target, first, module.imported.index("emit"), memory

    def values(self) -> Dict[str, int]:
        return {**super().values(), "on": 0, "target": self.target, "first": self.first}

    def request(self, name: str) -> Optional[int]:
        if name != "emit":
            return None
        return self.function("emit", [I64], [I32], [], self.assembled(EMIT, ["value"], IMPORT=self.import_))

    def dump(self) -> int:
        if self.memory:
            return self.added_function("dump", MEMORY, [], [], ("at", I32), LAST=self.words - 8, IMPORT=self.import_)
        return self.added_function("dump", DUMP, [], [], ("at", I32), ("count", I32), ROWS=len(self.rows), IMPORT=self.import_)

    def over(self) -> str:
        return f"call {self.dump()}"

    def elsewhere(self) -> str:
        return BURN.replace("ALLOWED", str(self.work_fuel))

    def wrapped(self, function: int) -> int:
        """The function that the host calls in place of this one."""
        names = [f"p{it}" for it in range(len(self.module.types[self.type_of(function)][0]))]
        words = WRAP.replace("PARAMS", " ".join(f"get {it}" for it in names))
        return self.added_function(f"wrap {function}", words, names, [], WRAPPED=function, DUMP=self.dump())

    def type_of(self, function: int) -> int:
        imports = [about for _, _, kind, about in self.module.imports if isinstance(about, int)]
        return imports[function] if function < len(imports) else self.module.functions[function - len(imports)]

    def work(self, function: int) -> int:
        return self.added_function("work", WORK, ["op"], [I32], WRAPPED=function)

    def exports(self) -> List[bytes]:
        called = {"uv_main": self.wrapped, "uv_after_work": self.wrapped, "uv_work": self.work}
        rows = zip(self.module.export_bytes(), self.module.exports)
        return [text(name) + b"\0" + u(called[name](index)) if name in called else row for row, (name, _, index) in rows]

    def elements(self) -> Iterator[bytes]:
        """The element section, with wrapped callbacks."""
        for head, functions in self.module.elements():
            callbacks = [self.module.types[self.type_of(it)] == CALLBACK for it in functions]
            yield head + vec([u(self.wrapped(it) if is_callback else it) for it, is_callback in zip(functions, callbacks)])

    def sections(self) -> Dict[int, bytes]:
        """The sections that the tables of functions need, beside those of `written`."""
        places = self.module.places
        found: Dict[int, bytes] = {}
        if ELEMENT in places:
            found[ELEMENT] = vec(list(self.elements()))
        if START in places:
            found[START] = u(self.wrapped(number(self.module.data, places[START][0])[0]))
        return found


class Working(replay.Replay):
    """A replay that keeps the outcome of each request's work."""

    def __init__(self, rows: replay.Rows) -> None:
        super().__init__(rows)
        self.work: List[Tuple[int, int, int]] = []

    def _accept(self, request: int, was: int, memory: Optional[int] = None) -> None:
        about = self.jobs[request].about()
        if about.outcome == NOT_RUN:
            about = self.jobs[request].run().about()
        self.work.append((request, about.outcome, about.value))
        super()._accept(request, was, memory)


class Watched(Working):
    """A replay that keeps what one callback did, with its backtrace if it stopped: the given one, or the last, or by default the one that failed, else
    the first of those that used most. `cost` is what the replay took."""

    def __init__(self, rows: replay.Rows, given: Optional[int]) -> None:
        super().__init__(rows)
        self.given, self.count, self.number, self.cost = given, 0, 0, 0
        self.ran: Optional[Tuple[Did, List[Site], str]] = None

    def _is_wanted(self, did: Did) -> bool:
        if self.given is None:
            return bool(did.ending) or self.ran is None or did.used > self.ran[0].used
        return self.given in (self.count, LAST)

    def _one_step(self) -> Did:
        did = super()._one_step()
        self.cost += STEP + did.used
        if did.what == RAN:
            self.count += 1
            if self._is_wanted(did):
                self.number, self.ran = self.count, (did, self.loop.stop() if did.ending else [], self.told)
        return did


class Reached(Exception):
    """The callback has run."""


class Counting(Working):
    """A replay up to a callback of the counted guest."""

    def __init__(self, rows: replay.Rows, code: bytes, target: int) -> None:
        depth = min(rows[0][5] + 3, 128)
        super().__init__([["loop", "", code.hex(), room_for(rows[0][3]), SLOWER * rows[0][4] + 1000, depth], *rows[1:]])
        self.target = target
        self.values: List[int] = []

    def _one_step(self) -> Did:
        did = super()._one_step()
        if did.what == RAN:
            self.target -= 1
            if self.target == 0:
                self.values = self.loop.emits()
                raise Reached
        return did


class Callback:
    """A callback of a record: the given one, counted from 1, else the one that failed, else the one that used most."""

    most_nodes = tree.MOST_NODES,
    kept_calls: Optional[int] = None

    def __init__(self, rows: replay.Rows, given: Optional[int] = None) -> None:
        watched = Watched(rows, given)
        while watched.next():
            pass
        self.rows, self.data, self.work, self.number = rows, watched.code, watched.work, watched.number
        if not watched.ran:
            raise _tool.Failed(f"the record has {watched.count} callbacks, expected one of them", 2)
        self.did, self.sites, self.told = watched.ran
        self.each, self.left = watched.cost, MOST_COST

    def __str__(self) -> str:
        return f"callback {self.number}, {replay.KINDS[self.did.kind]} {self.did.number}"

    def run(self) -> Ran:
        return Ran(ENDINGS[self.did.ending], None, b"", self.did.used, self.told or None)

    def backtrace(self) -> List[Site]:
        return self.sites

    def values(self, most: int, first: int, memory: bool = False) -> List[int]:
        """What a replay emits from the counter or the address `first` on: up to 64 numbers. The guest chooses how many replays that takes."""
        if self.left < 0:
            raise _tool.Failed("there is too much to read from so long a record")
        self.left -= self.each
        code = LoopWriter(wasm.Module(self.data), most, self.rows[0][4], self.number, first, memory).written()
        if len(code) > MOST_BYTES:
            raise _tool.Failed(f"with the call tree the module has {len(code):,} bytes, more than {MOST_BYTES:,}")
        again = Counting(self.rows, code, self.number)
        try:
            while again.next():
                pass
        except Reached:
            differs = next((it for it, was in zip(again.work, self.work) if it != was), None)
            if differs:
                raise _tool.Failed(f"the work of request {differs[0]} ends differently with counters") from None
            return again.values
        raise _tool.Failed("with counters the callback does not run")

    def read(self, at: int, count: int) -> bytes:
        """Bytes of the loop's memory after the callback; where it stopped, at the beginning of the block that it stopped in."""
        _, cut = tree.stop_of(wasm.Module(self.data), self, self.run())
        most, found = self.did.used + sum(map(len, cut)) if cut else 0, b""
        while len(found) < count:
            values = self.values(most, at + len(found), True)
            if not values:
                raise _tool.Failed(f"address {at + len(found)} is outside the memory")
            found += b"".join((it % 2**64).to_bytes(8, "little") for it in values)
        return found[:count]

    def treed(self, most: int, _most_nodes: int, _used: int) -> Tuple[Ran, List[int], List[Node]]:
        """How the callback ended with counters, the counts of its blocks, and its nodes."""
        writer = LoopWriter(wasm.Module(self.data), most, self.rows[0][4], self.number, 0)
        counts, first, values = [0] * len(writer.rows), 0, [0] * MOST_EMITS
        nodes: List[Node] = []
        while len(values) == MOST_EMITS:
            values, taken = self.values(most, first), 0
            while taken < len(values):
                index, low = divmod(values[taken] % 2**64, 1 << 32)
                if index < len(counts):
                    counts[index], first, taken = low, index + 1, taken + 1
                elif taken + 4 <= len(values):
                    place, calls, units = (it % 2**64 for it in values[taken + 1:taken + 4])
                    parent = (place >> 32) - writer.nodes
                    nodes.append(Node(low, place % 2**32, max(parent, 0) // NODE, calls, units))
                    first, taken = index + 1, taken + 4
                else:
                    break
        if nodes and nodes[0].site:
            raise _tool.Failed("there are too many call paths")
        return self.run(), counts, nodes
