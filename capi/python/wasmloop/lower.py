"""Rewrites a module of a current compiler into one that the host accepts.

    python3 -m wasmloop.lower guest.wasm out.wasm

Floats. An f32 becomes the i32 with its bits and an f64 the i64, in types, locals, blocks, constants, globals, loads and stores. Each
floating-point instruction of WebAssembly 1.0, and each saturating conversion, becomes a call of a function of soft.c; the functions that are
called are appended to the module. The results are those of IEEE 754, rounded to the nearest; a NaN that an instruction produces is the
canonical one.

Bulk memory. memory.copy, memory.fill and memory.init become calls of added functions. They trap as the instructions do, before a byte is
written. The bytes of a passive segment become constants in a function.

Forms. Segments, numbers in five bytes, `select` with a type and constant expressions of several instructions are written as in
WebAssembly 1.0. The count of data segments and all custom sections but the names are dropped.

setjmp and longjmp. Compiled with -mllvm -enable-emscripten-sjlj, a function that calls setjmp makes its calls through imports "env"
"invoke_..", and longjmp is "env" "emscripten_longjmp". Both become functions here: a global says that the stack is being unwound, each call
of a function that may unwind is followed by a test of it and a return, and invoke_.. ends it. Global 0 is the stack pointer, as wasm-ld
has it.

The module is validated first, with floats distinct from integers. If two function types in the table become one, calls distinguish them by
further parameters. Names of functions are kept. A module that cannot be rewritten is rejected, and nothing is written.
"""

from __future__ import annotations

import os
from typing import Optional, Tuple

from . import _tool
from .lowering.binary import Refused
from .lowering.module import Module
from .lowering.rewriting import Lowering

SOFT = os.path.join(os.path.dirname(os.path.abspath(__file__)), "soft.wasm")


def lower(data: bytes, soft: Optional[bytes] = None) -> Tuple[bytes, Lowering]:
    """The bytes of the rewritten module, and the Lowering that made it. `soft` are the bytes of soft.c, compiled; None: without floats."""
    functions = Module(soft) if soft else None
    if functions and functions.imports:
        raise Refused("SOFT.wasm has imports: link soft.c by itself")
    try:
        lowering = Lowering(Module(data), functions)
        return lowering.module(), lowering
    except (IndexError, KeyError):
        raise Refused("an index of something that isn't there") from None


def main() -> int:
    parser = _tool.words("lower", __doc__)
    parser.add_argument("source", metavar="IN", help="the module")
    parser.add_argument("target", metavar="OUT", help="the rewritten module; may be IN")
    parser.add_argument("--soft", metavar="FILE", default=SOFT, help="examples/kit/soft.c, compiled; default: the one of this package")
    given = parser.parse_args()
    before = _tool.read(given.source)
    try:
        after, lowering = lower(before, _tool.read(given.soft))
    except Refused as why:
        raise _tool.Failed(f"{given.source} cannot be rewritten: {why}", 3) from None
    _tool.write(given.target, after)
    for line in lowering.told():
        print(f"  {line}")
    print(f"lowered: {len(before)} bytes to {len(after)}")
    return 0


if __name__ == "__main__":
    _tool.run("lower", main)
