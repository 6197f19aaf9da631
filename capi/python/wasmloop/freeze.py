"""Writes a module that starts where a guest's start function and one of its exports have led: with its interpreter set up, its tables filled,
its database loaded.

    python3 -m wasmloop.freeze guest.wasm --call init -o warm.wasm
    python3 -m wasmloop.freeze lua.wasm --call init --in prelude.lua -o shop.wasm

Memory becomes data segments, globals get new initial values, and the start function is dropped. The host checks the new module like any
other. With --in, the function gets the address and the length of the file's bytes; the guest's export NAME_room returns the address for a
length. Calls of "uv" return -1 meanwhile, as in uv_work; the tool reports them. The limits of a module stay: 64 pages and 1,048,576 bytes.
"""

from __future__ import annotations

import re
import sys
from typing import Dict, List, Optional, Set, Tuple, Union

from . import Error, Instance, Stopped, _tool, counts, explain, wasm
from .wasm import PAGE, constant, i32, sized, text, u, vec

Answer = Union[None, int, Tuple[int, ...]]
GAP = 12                                                # more zeros than this take more bytes than a new segment


def with_globals(module: wasm.Module) -> bytes:
    """The module with all globals exported, for the host to read."""
    more = [text(f"freeze global {it}") + b"\3" + u(it) for it in range(len(module.globals()))]
    return module.written({wasm.EXPORT: vec(module.export_bytes() + more)})


def parts(memory: bytes) -> List[Tuple[int, bytes]]:
    """The parts of a memory that are not zero, as (address, bytes), with fewer than GAP zeros in a row."""
    return [(it.start(), it.group()) for it in re.finditer(rb"[^\0]+(?:\0{1,%d}[^\0]+)*" % (GAP - 1), memory)]


def left_by(module: wasm.Module, instance: Instance) -> Tuple[bytes, int]:
    """The module that starts in the state of an instance of `with_globals`, and its number of segments."""
    memory = instance.memory[:] if module.memory else b""
    held = parts(memory)
    replaced: Dict[int, bytes] = {}
    if held:
        replaced[wasm.DATA] = vec([b"\0" + i32(at) + b"\x0b" + sized(it) for at, it in held])
    if module.globals():
        values = [instance.value(f"freeze global {it}") for it in range(len(module.globals()))]
        replaced[wasm.GLOBAL] = vec([bytes([kind, mutable]) + constant(kind, value) for (kind, mutable, _), value in zip(module.globals(), values)])
    if module.memory:
        most = module.memory[1]
        replaced[wasm.MEMORY] = vec([b"\0" + u(len(memory) // PAGE) if most is None else b"\1" + u(len(memory) // PAGE) + u(most)])
    dropped = (wasm.START,) if held else (wasm.START, wasm.DATA)
    return module.written(replaced, dropped), len(held)


def call(instance: Instance, name: str, given: Optional[bytes], fuel: int, depth: int) -> Tuple[Answer, int]:
    """Calls the function, with the bytes if there are any. Returns its result and the units used."""
    if given is None:
        return instance.call(name, fuel=fuel, depth=depth), instance.used
    room = instance.call(f"{name}_room", len(given), fuel=fuel, depth=depth)
    at, used = room % 2**32 if isinstance(room, int) else 0, instance.used
    if not at or at + len(given) > len(instance.memory):
        raise _tool.Failed(f"{name}_room returned {at} for {len(given)} bytes, which do not fit in the memory there")
    instance.memory[at:at + len(given)] = given
    return instance.call(name, at, len(given), fuel=fuel, depth=depth), used + instance.used


def asked(data: bytes, name: Optional[str], given: Optional[bytes], fuel: int, depth: int) -> List[str]:
    """The functions of "uv" that are called, by a second run with counters; empty if the counters do not fit."""
    try:
        counted = counts.Counted(data)
        with counted.fresh(b"", depth) as it:
            if name:
                call(it, name, given, min(8 * fuel, counts.ENOUGH), depth)
            found = counted.counts(it)
    except (_tool.Failed, Error):
        return []
    module = counted.writer.module
    names: Set[str] = set()
    for _, byte, count in counts.by_operation(module, counted.rows, found):
        if count and data[byte] == wasm.CALL and wasm.number(data, byte + 1)[0] < len(module.imported):
            names.add(module.imported[wasm.number(data, byte + 1)[0]])
    return sorted(names)


def freeze(data: bytes, name: Optional[str] = None, given: Optional[bytes] = None, fuel: int = 1 << 40, depth: int = 128) -> Tuple[bytes, Answer, int, int]:
    """The frozen module, the function's result, the units used, and the number of segments."""
    host, module = _tool.load(data, "the module")
    for wanted, takes in [] if not name else [(name, 0)] if given is None else [(name, 2), (f"{name}_room", 1)]:
        try:
            params = len(host.function(wanted)[0])
        except ValueError as why:
            raise _tool.Failed(str(why), 2) from None
        except Error:
            raise _tool.Failed(f"the module exports no function {wanted}", 2) from None
        if params != takes:
            raise _tool.Failed(f"{wanted} takes {params} arguments, expected {takes}", 2)
    opened, _ = _tool.load(with_globals(module), "the module with its globals exported")
    try:
        with opened.instance(fuel=fuel, depth=depth) as it:
            answer: Answer = None
            used = it.used
            if name:
                answer, more = call(it, name, given, fuel, depth)
                used += more
            made, segments = left_by(module, it)
            memory = it.memory[:] if module.memory else b""
    except Stopped as stopped:
        where = it.stop_told(data) if "it" in locals() else None
        raise _tool.Failed(f"{stopped}{', ' + where if where else ''}", 4) from None
    if len(made) > wasm.MOST_BYTES:
        raise _tool.Failed(f"the frozen module would have {len(made):,} bytes, and {wasm.MOST_BYTES:,} is the limit: {sum(map(bool, memory)):,} bytes of "
                           "its memory are not zero", 3)
    fault = explain(made)
    if fault:
        raise _tool.Failed(f"the frozen module is rejected: {fault}", 3)
    return made, answer, used, segments


def main() -> int:
    parser = _tool.words("freeze", __doc__)
    parser.add_argument("guest", metavar="GUEST", help="the module")
    parser.add_argument("-o", dest="out", metavar="OUT", required=True, help="the frozen module")
    parser.add_argument("--call", metavar="NAME", help="the exported function to run; default: the start function alone")
    parser.add_argument("--in", dest="given", metavar="FILE", help="input bytes for it")
    parser.add_argument("--fuel", metavar="N", type=int, default=1 << 40, help="the fuel, in units")
    parser.add_argument("--depth", metavar="N", type=int, default=128, help="the call-depth limit (128)")
    given = parser.parse_args()
    if given.given and not given.call:
        raise _tool.Failed("--in needs --call", 2)
    data = _tool.read(given.guest)
    held = _tool.read(given.given) if given.given else None
    made, answer, used, segments = freeze(data, given.call, held, given.fuel, given.depth)
    _tool.write(given.out, made)
    for function in asked(data, given.call, held, given.fuel, given.depth):
        print(f"freeze: it called uv.{function}, which returns -1 outside a loop", file=sys.stderr)
    told = f"{given.call} returned {answer}: " if given.call and answer is not None else ""
    print(f"{told}{used:,} units saved; {len(data):,} bytes became {len(made):,}, in {segments} segments")
    return 0


if __name__ == "__main__":
    _tool.run("freeze", main)
