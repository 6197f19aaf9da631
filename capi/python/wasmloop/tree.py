"""Counts the call tree of a run inside the guest: for each call path its calls and its units, exactly, in one run.

Each function begins by a call of `enter`, which finds or makes the node of its call path; after each call its node is current again. Each
basic block adds its cost to the node and to its own counter. A run that stopped is exact too: `most` ends the counted run in the block where
the original stopped.
"""

from __future__ import annotations

import collections
from typing import Counter, Dict, List, NamedTuple, Optional, Protocol, Sequence, Tuple, Union

from . import Instance, _tool, runs, wasm
from .counts import ENOUGH, Counted, Counting, Writer, blocks, by_operation, fitting
from .lowering.bulk import assembled
from .wasm import CALL, CALL_INDIRECT, FREE, I32, I64, MOST_BYTES, MOST_PAGES, PAGE, constant, i32, text, u

NODE, MOST_NODES = 32, 32768                            # the bytes of a node; how many there may be
ROOT = 0                                                # the index of the root, which is no call
GLOBALS = "node site next total most on inside seen target first emitted working".split()

ENTER = """
    global on i32.eqz if global node return end
    global node i32.load 12 set child
    block loop
        get child i32.eqz br_if 1
        get child i32.load 0 global site i32.eq get child i32.load 4 get function i32.eq i32.and if
            get child get child i32.load 20 i32 1 i32.add i32.store 20
            get child global-set node get child return
        end
        get child i32.load 16 set child br 0
    end end
    global next i32 BEHIND i32.ge_u if i32 NODES i32 1 i32.store 0 global node return end
    global next set child
    get child i32 32 i32.add global-set next
    get child global site i32.store 0
    get child get function i32.store 4
    get child global node i32.store 8
    get child global node i32.load 12 i32.store 16
    global node get child i32.store 12
    get child i32 1 i32.store 20
    get child global-set node get child
end"""

COUNT = """
    global on i32.eqz if ELSEWHERE return end
    BLOCK
    PATH
    global total get cost i64.extend i64.add global-set total
    global total global most i64.ge_u if OVER unreachable end
end"""


BLOCK = "get row i32 4 i32.mul i32 COUNTERS i32.add tee row get row i32.load 0 i32 1 i32.add i32.store 0"
PATH = "get me get me i64.load 24 get cost i64.extend i64.add i64.store 24"
BEGIN = "i32 NODES global-set node i32 0 global-set site get with_start i32.eqz if i64 0 global-set total end end"


# An instruction of a function, as a backtrace names it.
Site = Tuple[int, int]


class Node(NamedTuple):
    """A node of the tree: its call site (the number of the instruction in the caller) and function, its parent's index, calls and units."""

    site: int
    function: int
    parent: int
    calls: int
    units: int


Counts = Tuple[List[int], List[Node]]


class TreeWriter(Writer):
    """Writes the guest with counters of blocks and of call paths; `only` names one of them, `BLOCK` or `PATH`. `most` units end a run; 0: it is
    not limited."""

    def __init__(self, module: wasm.Module, most: int = 0, only: str = "", most_nodes: int = MOST_NODES) -> None:
        least = (module.memory or (0, 0))[0]
        rows = 4 * sum(len(body.ops) for body in module.bodies) // PAGE + 4
        self.nodes_room = NODE * min(most_nodes, max((MOST_PAGES - least - rows) * PAGE // NODE // 2, 64))
        super().__init__(module, self.CALLS)
        self.nodes = (self.counters + 4 * len(self.rows) + 15) // 16 * 16
        self.most, self.first_global, self.only = most or ENOUGH, len(module.globals()) + 1, only
        self.names = {name: self.first_global + k for k, name in enumerate(GLOBALS)}

    def more_room(self) -> int:
        return self.nodes_room + 16

    def values(self) -> Dict[str, int]:
        """The initial values of the globals."""
        return {"node": self.nodes, "next": self.nodes + NODE, "on": 1, "most": self.most}

    def more_globals(self) -> List[bytes]:
        values = self.values()
        return [bytes([kind, 1]) + constant(kind, values.get(name, 0)) for name, kind in ((it, I64 if it in ("total", "most") else I32) for it in GLOBALS)]

    def assembled(self, words: str, variables: Sequence[str], **numbers: Union[int, str]) -> bytes:
        """The code of a function that is written in the words of the text format, without its end."""
        told: Dict[str, Union[int, str]] = {"NODES": self.nodes, "BEHIND": self.nodes + self.nodes_room, "COUNTERS": self.counters, **numbers}
        for word, number in told.items():
            words = words.replace(word, str(number))
        return assembled(words, {**self.names, **{it: k for k, it in enumerate(variables)}})[:-1]

    def added_function(self, name: str, words: str, params: Sequence[str], results: Sequence[int], *more: Tuple[str, int],
                       **numbers: Union[int, str]) -> int:
        """The index of such a function, whose parameters are i32."""
        code = self.assembled(words, [*params, *(it for it, _ in more)], **numbers)
        return self.function(name, [I32] * len(params), results, [kind for _, kind in more], code)

    def enter(self) -> int:
        return self.added_function("enter", ENTER, ["function"], [I32], ("child", I32))

    def me(self, number: int) -> int:
        """The local that keeps a function's own node."""
        return len(self.module.types[self.module.functions[number]][0]) + self.module.bodies[number].local_count

    def head(self, number: int, body: wasm.Body) -> bytes:
        if self.only == "BLOCK":
            return super().head(number, body)
        groups, at = wasm.number(body.data, body.start)
        locals_ = u(groups + 1) + body.data[at:body.code] + u(1) + bytes([I32])
        return locals_ + i32(number) + b"\x10" + u(self.enter()) + b"\x21" + u(self.me(number))

    def elsewhere(self) -> str:
        """What a block does outside of what is measured."""
        return ""

    def over(self) -> str:
        """What happens where the units of `most` are spent, before the run traps."""
        return ""

    def counter(self, place: int) -> bytes:
        return self.charge(self.rows[place].cost, place)

    def charge(self, cost: int, place: int) -> bytes:
        """What counts so many units, and the block of this number."""
        words, given = COUNT, {"cost": i32(cost)}
        if self.only != "PATH":
            words, given = words.replace("BLOCK", BLOCK), {"row": i32(place), **given}
        if self.only != "BLOCK":
            words, given = words.replace("PATH", PATH), {**given, "me": b"\x20" + u(self.me(self.number))}
        words = words.replace("BLOCK", "").replace("PATH", "")
        count = self.added_function("count", words, list(given), [], ELSEWHERE=self.elsewhere(), OVER=self.over())
        return b"".join(given.values()) + b"\x10" + u(count) if cost else b""

    def call(self, place: int, callee: Optional[int], piece: bytes) -> bytes:
        written = super().call(place, callee, piece)
        if self.only == "BLOCK" or callee is not None and callee < len(self.module.imported):
            return written
        site, node = self.names["site"], self.names["node"]
        return i32(place) + b"\x24" + u(site) + written + b"\x20" + u(self.me(self.number)) + b"\x24" + u(node)

    def body(self, number: int, body: wasm.Body) -> bytes:
        self.number = number                            # (of the function that `call` is in)
        return super().body(number, body)

    def begin(self) -> int:
        return self.added_function("begin", BEGIN, ["with_start"], [])

    def exports(self) -> List[bytes]:
        return [*super().exports(), text("profile begin") + b"\0" + u(self.begin())]


class Beginning:
    """What begins by a function of the guest."""

    def begin(self, instance: Instance, with_start: bool) -> None:
        instance.call("profile begin", int(with_start), depth=128)


class Tree(Beginning, Counting[Counts]):
    """A guest with a counted call tree, loaded: one without counters of blocks if the other does not fit."""

    writer: TreeWriter

    def __init__(self, data: bytes, most: int = 0, most_nodes: int = MOST_NODES) -> None:
        module = wasm.Module(data)
        self.writer, self.host = fitting((TreeWriter(module, most, it, most_nodes) for it in ("", "PATH")), "the call tree", MOST_BYTES)
        self.rows = self.writer.rows

    def read(self, instance: Instance, before: Optional[Counts] = None) -> Counts:
        """How often each row has run, and the nodes, since `before` was read."""
        counts, nodes = self.counts_since(instance, before and before[0]), self.nodes(instance)
        return counts, less(nodes, before[1]) if before else nodes

    def nodes(self, instance: Instance) -> List[Node]:
        """The nodes so far, a parent before its children."""
        at, found = self.writer.nodes, []
        room = memoryview(instance.memory[at:at + self.writer.nodes_room])
        if room[0]:
            raise _tool.Failed(f"there are more than {len(room) // NODE:,} call paths")
        for start in range(0, len(room), NODE):
            site, function, parent, _, _, calls = room[start:start + 24].cast("I")
            units, = room[start + 24:start + 32].cast("Q")
            if start and not calls:
                break
            found.append(Node(site, function, (parent - at) // NODE if start else ROOT, calls, units))
        return found


class Blocks(Beginning, Counted):
    """The same with counters of blocks alone."""

    def __init__(self, data: bytes, most: int) -> None:
        self.writer, self.host = fitting([TreeWriter(wasm.Module(data), most, "BLOCK", 0)], "counters")
        self.rows = self.writer.rows


class FindingWriter(TreeWriter):
    """Counts a block up to its next call, and what is behind a call once that has returned: so the run ends in the very calls in which the
    original stopped. The root's field of the function then has the address of the node that was current."""

    def body(self, number: int, body: wasm.Body) -> bytes:
        self.parts: Dict[int, int] = {}                 # the units from an instruction to the next call, or to the end of its block
        for row in blocks(number, body):
            part = 0
            for place in reversed(range(row.began(body.ops), row.end)):
                _, op, _ = body.ops[place]
                self.parts[place + 1] = part
                part = (0 if self.enters(body, place) else part) + (op not in FREE)
            self.parts[row.first] = part
        return super().body(number, body)

    def enters(self, body: wasm.Body, place: int) -> bool:
        """Whether the instruction calls a function of the guest."""
        start, op, _ = body.ops[place]
        return op == CALL_INDIRECT or op == CALL and wasm.number(body.data, start + 1)[0] >= len(self.module.imported)

    def counter(self, place: int) -> bytes:
        return self.charge(self.parts[self.rows[place].first], place)

    def call(self, place: int, callee: Optional[int], piece: bytes) -> bytes:
        written = super().call(place, callee, piece)
        return written + self.charge(self.parts[place + 1], 0) if self.enters(self.module.bodies[self.number], place) else written

    def over(self) -> str:
        return f"i32 {self.nodes} get me i32.store 4"


class Finding(Tree):
    """The same without counters of blocks, loaded."""

    def __init__(self, data: bytes, most: int) -> None:
        self.writer, self.host = fitting([FindingWriter(wasm.Module(data), most, "PATH")], "the call tree")
        self.rows = self.writer.rows


def less(nodes: Sequence[Node], before: Sequence[Node]) -> List[Node]:
    """The nodes without the calls and units of an earlier moment."""
    earlier = [*before, *[Node(0, 0, 0, 0, 0)] * (len(nodes) - len(before))]
    return [it._replace(calls=it.calls - was.calls, units=it.units - was.units) for it, was in zip(nodes, earlier)]


def path_of(nodes: Sequence[Node], index: int) -> Tuple[Tuple[int, int], ...]:
    """The calls that lead to a node, from the outside: (site, function) each."""
    found: List[Tuple[int, int]] = []
    while index != ROOT:
        found.append((nodes[index].site, nodes[index].function))
        index = nodes[index].parent
    return tuple(reversed(found))


class Measured(NamedTuple):
    """The exact cost of a run: how often each instruction ran, by its function and byte, and the nodes of its call tree."""

    operations: Counter[Tuple[int, int]]
    nodes: List[Node]


class AnyRun(Protocol):
    """What is asked of a run that is measured: a run, or a callback."""

    @property
    def data(self) -> bytes: ...

    @property
    def most_nodes(self) -> Tuple[int, ...]: ...

    @property
    def kept_calls(self) -> Optional[int]: ...

    def treed(self, most: int, most_nodes: int, used: int, /) -> Tuple[runs.Ran, List[int], List[Node]]: ...
    def backtrace(self) -> List[Site]: ...


class Differs(_tool.Failed):
    """With counters the run is another: the memory beside them does not suffice."""


def measured(module: wasm.Module, run: AnyRun, ran: runs.Ran) -> Measured:
    """Runs it with a counted call tree. Raises Failed or Error if the tree does not fit, or the run ends differently with it."""
    sites, cut = stop_of(module, run, ran)
    most = ran.used + sum(map(len, cut)) if sites else 0
    for most_nodes in run.most_nodes:
        try:
            return checked(module, ran, run.treed(most, most_nodes, ran.used), sites, cut)
        except Differs as why:
            last = why
    raise last


def checked(module: wasm.Module, ran: runs.Ran, counted: Tuple[runs.Ran, List[int], List[Node]], sites: Sequence[Site],
            cut: Sequence[Sequence[Site]]) -> Measured:
    """The cost of a run by what its counters say. Raises Differs if it is not that of the original."""
    ended, counters, nodes = counted
    rows = [row for number, body in enumerate(module.bodies) for row in blocks(number, body)]
    if (ended.ending == "done") != (ran.ending == "done") or not sites and ended[:3] != ran[:3]:
        raise Differs(f"with counters it ends differently: {ended.ending}")
    operations: Counter[Tuple[int, int]] = collections.Counter()
    for function, byte, count in by_operation(module, rows, counters):
        operations[function, byte] += count
    operations.subtract(it for part in cut for it in part)
    nodes = without(nodes, sites, [len(it) for it in cut])
    for found in (sum(it.units for it in nodes), sum(operations.values())):
        if found != ran.used:
            raise Differs(f"with counters it uses {found:,} units, not {ran.used:,}")
    return Measured(+operations, nodes)


def stop_of(module: wasm.Module, run: AnyRun, ran: runs.Ran) -> Tuple[List[Site], List[List[Site]]]:
    """The backtrace of a run that stopped, innermost first, as (function, instruction), and of each call what has not run of its block; both
    empty if it returned."""
    if ran.ending == "done":
        return [], []
    sites = [(site[0], runs.instruction_of(module, site)) for site in run.backtrace()]
    if len(sites) == run.kept_calls:
        sites = whole(run, ran, sites)
    return sites, [rest_of(module, site, ran.ending != "spent" or place > 0) for place, site in enumerate(sites)]


def whole(run: AnyRun, ran: runs.Ran, inner: List[Site]) -> List[Site]:
    """The backtrace of a run that stopped, of which the innermost calls are known."""
    finding = Finding(run.data, ran.used + (ran.ending == "spent"))
    assert isinstance(run, runs.Call)                   # (of a callback the backtrace is complete)
    _, (_, nodes) = run.counted(finding, runs.room_for(ran.used))
    place = (nodes[ROOT].function - finding.writer.nodes) // NODE
    path = path_of(nodes, place) if place > 0 else ()
    sites = inner[:1] + [(function, site) for (_, function), (site, _) in reversed(list(zip(path, path[1:])))]
    if sites[:len(inner)] != inner:
        raise _tool.Failed("its backtrace is not complete")
    return sites


def rest_of(module: wasm.Module, site: Site, is_charged: bool) -> List[Site]:
    """What has not run of the block in which a call stopped, as (function, byte) of each instruction: those after the site, and the one
    there unless it is charged."""
    function, operation = site
    ops = module.bodies[function].ops
    for row in blocks(function, module.bodies[function]):
        if row.began(ops) <= operation < row.end:
            return [(function, start) for start, op, _ in ops[operation + is_charged:row.end] if op not in FREE]
    raise _tool.Failed(f"instruction {operation} of function {function} is in no block")


def without(nodes: Sequence[Node], sites: Sequence[Site], units: Sequence[int]) -> List[Node]:
    """The nodes without what the calls of a backtrace have not run."""
    nodes, at, site = list(nodes), ROOT, 0
    for (function, operation), rest in zip(reversed(sites), reversed(units)):
        at = next((k for k, it in enumerate(nodes) if k and (it.parent, it.site, it.function) == (at, site, function)), ROOT)
        if at == ROOT:
            raise Differs("with counters it stops elsewhere")
        nodes[at] = nodes[at]._replace(units=nodes[at].units - rest)
        site = operation
    return nodes
