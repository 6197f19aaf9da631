"""Run untrusted WebAssembly modules: a binding of libwasmloop.so.

    from wasmloop import Module
    with Module(open("crc32.wasm", "rb").read()) as module:
        print(module.work(0, b"abc").value)

The library is $WASMLOOP_LIBRARY, else libwasmloop.so.0 beside this file (as in a wheel), else in `lib` of the prefix under which
this file is installed, else in `dist` of the checkout, else the one that the system's linker finds.
Several threads may share a Module; a Loop or an Instance serves one thread at a time; a Job may run in any thread. The GIL is released
while a guest runs.

A call that fails raises Error with a sentence; a number out of range raises OutOfRange, an Error and a ValueError; an argument of the
wrong type raises TypeError. capi/include/wasmloop.h documents each number. `python3 -m wasmloop` lists the tools of
this package.
"""

from __future__ import annotations

import functools
from typing import Optional

from ._calls import explain, _module_data
from ._errors import Error, InertImports, Late, OutOfRange, Refused, Stopped
from ._abi import (OK, NONE, EMPTY, KIND, MEMORY, REFUSED, RANGE, STRANGER, USED_UP, NULL, NO_WORK, NOT_STARTED, ARGUMENTS, ENTERED, RAN,
                   SKIPPED, OVER, FAILED, BEGIN, TIMERS, IDLE, POLL, CHECK, CLOSING, RUN_START, RUN_MAIN, RUN_TIMER, RUN_IDLE, RUN_AFTER,
                   RUN_ASYNC, RUN_CHECK, RUN_CLOSE, RETURN, TRAP, DEPTH, SPENT, NOT_RUN, WORK_DONE, WORK_TRAP, WORK_DEPTH, WORK_SPENT,
                   WORK_MEMORY, HOLDS_NOTHING, HOLDS_MODULE, HOLDS_JOB, HOLDS_INSTANCE, HOLDS_LOOP, HOLDS_PAUSED, FOREVER, U32, U64, Buffer,
                   Export, Site, Did, About, Fault, Shape, Place, Standing, Turned, _lib, _name_of)
from ._loop import Loop
from ._module import Call, Instance, Module
from ._objects import Job, Memory, Reply

__all__ = [
    "Module", "Instance", "Call", "Memory", "Job", "Reply", "Loop", "explain", "version", "work",
    "Error", "InertImports", "Late", "OutOfRange", "Refused", "Stopped",
    "U32", "U64", "Buffer", "Export", "Site", "Did", "About", "Fault", "Shape", "Place", "Standing", "Turned",
    "OK", "NONE", "EMPTY", "KIND", "MEMORY", "REFUSED", "RANGE", "STRANGER", "USED_UP", "NULL", "NO_WORK", "NOT_STARTED", "ARGUMENTS",
    "ENTERED", "RAN", "SKIPPED", "OVER", "FAILED", "BEGIN", "TIMERS", "IDLE", "POLL", "CHECK", "CLOSING", "RUN_START", "RUN_MAIN",
    "RUN_TIMER", "RUN_IDLE", "RUN_AFTER", "RUN_ASYNC", "RUN_CHECK", "RUN_CLOSE", "RETURN", "TRAP", "DEPTH", "SPENT", "NOT_RUN", "WORK_DONE",
    "WORK_TRAP", "WORK_DEPTH", "WORK_SPENT", "WORK_MEMORY", "HOLDS_NOTHING", "HOLDS_MODULE",
    "HOLDS_JOB", "HOLDS_INSTANCE", "HOLDS_LOOP", "HOLDS_PAUSED", "FOREVER",
]

for _name in __all__:                                   # a class is known by the name by which it is imported
    if getattr(globals().get(_name), "__module__", "").startswith(f"{__name__}."):
        globals()[_name].__module__ = __name__


def version() -> str:
    """The version of the library."""
    return str(_name_of(_lib.wasmloop_version()))


@functools.lru_cache(maxsize=8)
def _kept(data: bytes) -> Module:
    return Module(data)


def work(data: bytes, op: int, word: Buffer = b"", fuel: int = 1_000_000, depth: int = 64, deadline: Optional[float] = None) -> Reply:
    """Runs uv_work of the module of these bytes once. The process caches the module for the next call."""
    return _kept(_module_data(data)).work(op, word, fuel, depth, deadline)
