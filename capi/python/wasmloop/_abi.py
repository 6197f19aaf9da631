"""The library: its numbers, its structs, and where it is."""

from __future__ import annotations

import ctypes as c
import os
from typing import Any, List, Optional, Tuple, Union

OK, NONE, EMPTY, KIND, MEMORY, REFUSED, RANGE, STRANGER, USED_UP, NULL, NO_WORK, NOT_STARTED, ARGUMENTS = range(13)
ENTERED, RAN, SKIPPED, OVER, FAILED = range(1, 6)
BEGIN, TIMERS, IDLE, POLL, CHECK, CLOSING = range(6)
RUN_START, RUN_MAIN, RUN_TIMER, RUN_IDLE, RUN_AFTER, RUN_ASYNC, RUN_CHECK, RUN_CLOSE = range(8)
RETURN, TRAP, DEPTH, SPENT = range(4)
NOT_RUN, WORK_DONE, WORK_TRAP, WORK_DEPTH, WORK_SPENT, WORK_MEMORY = range(6)
HOLDS_NOTHING, HOLDS_MODULE, HOLDS_JOB, HOLDS_INSTANCE, HOLDS_LOOP = range(5)
HOLDS_PAUSED = 16
FOREVER = 2**64 - 1

# The types of struct fields: plain numbers for a type checker, widths for ctypes.
U32 = int
U64 = int
_WIDTHS = {"U32": c.c_uint32, "U64": c.c_uint64}

# Anything that holds bytes; and an instruction: the index of its function, without the imports, and its index in the body, as wasm-objdump
# lists it.
Buffer = Union[bytes, bytearray, memoryview]
Site = Tuple[int, int]
# An export: its name, "function", "table", "memory" or "global", and the parameter and result types of a function.
Export = Tuple[str, str, Optional[Tuple[List[int], List[int]]]]


def _fields(kind: Any) -> Any:
    """Makes ctypes fields of a struct's annotations."""
    kind._fields_ = [(name, _WIDTHS.get(told) or globals()[told]) for name, told in kind.__annotations__.items()]
    return kind


class _Struct(c.Structure):
    def __repr__(self) -> str:
        told = ", ".join(f"{name}={getattr(self, name)!r}" for name, *_ in self._fields_ if name != "zero")
        return f"{type(self).__name__}({told})"


class _Handle(c.Structure):
    """A handle, with what errors say of it: its kind, and why it is empty, once it was closed or accepted."""

    _fields_ = [("mark", c.c_uint64), ("at", c.c_void_p)]
    kind: str = "object"
    gone: Optional[str] = None


@_fields
class Did(_Struct):
    """What one step of a loop did (wasmloop_did)."""

    what: U32
    phase: U32
    kind: U32
    number: U32
    ending: U32
    trap: U32
    emits: U32
    zero: U32
    now: U64
    used: U64


@_fields
class About(_Struct):
    """A job's request, and its outcome (wasmloop_about)."""

    loop: U32
    request: U32
    slot: U32
    op: U32
    outcome: U32
    value: U32
    bytes: U64
    reply: U64
    used: U64


@_fields
class Fault(_Struct):
    """Why and where a module was rejected (wasmloop_fault)."""

    stage: U32
    code: U32
    place: U32
    section: U32
    byte: U64
    function: U64
    number: U64

    @property
    def name(self) -> Optional[str]:
        """The fault's name, such as "Opcode"."""
        return _name_of(_lib.wasmloop_fault_name(c.c_uint32(self.stage), c.c_uint32(self.code)))


@_fields
class Shape(_Struct):
    """What a module has that a host looks for: 1 if it does (wasmloop_shape)."""

    main: U32
    work: U32
    after_work: U32
    table: U32
    pages: U32
    most_pages: U32
    imports: U64


@_fields
class _Site(_Struct):
    function: U64
    operation: U64


@_fields
class Place(_Struct):
    """An instruction: the index of its function, with the imports, its index in the body, and its byte in the module (wasmloop_place)."""

    function: U64
    instruction: U64
    byte: U64


@_fields
class Standing(_Struct):
    """The status of a loop: whether it is alive, whether it has failed, and how many requests are outstanding."""

    alive: U32
    failed: U32
    outstanding: U64


@_fields
class Turned(_Struct):
    """The progress of a loop iteration: the last step, the poll timeout, and how many callbacks ran so far (wasmloop_turned)."""

    did: Did
    wait: U64
    callbacks: U32
    zero: U32


@_fields
class _Limits(_Struct):
    fuel: U64
    work_fuel: U64
    number: U32
    depth: U32


@_fields
class _Task(_Struct):
    fuel: U64
    op: U32
    depth: U32


@_fields
class _CallLimits(_Struct):
    fuel: U64
    depth: U32
    zero: U32


class _Ended(_Struct):
    _fields_ = [("ending", c.c_uint32), ("trap", c.c_uint32), ("results", c.c_uint64), ("used", c.c_uint64), ("result", c.c_uint64 * 16)]


@_fields
class _Number(_Struct):
    value_type: U32
    zero: U32
    number: U64


@_fields
class _Listed(_Struct):
    length: U64
    kind: U32
    zero: U32


class _Signature(_Struct):
    _fields_ = [("params", c.c_uint64), ("results", c.c_uint64), ("param", c.c_uint8 * 256), ("result", c.c_uint8 * 16)]


def _library() -> str:
    here = os.path.dirname(os.path.abspath(__file__))
    for folder in ("", "../../../../lib", "../../../dist"):
        file = os.path.normpath(os.path.join(here, folder, "libwasmloop.so.0"))
        if os.path.isfile(file):
            return file
    return "libwasmloop.so.0"


_lib = c.CDLL(os.environ.get("WASMLOOP_LIBRARY") or _library())
for _name in "version status_name status_text trap_name fault_name ending_name outcome_name".split():
    getattr(_lib, f"wasmloop_{_name}").restype = c.c_char_p


def _name_of(text: Optional[bytes]) -> Optional[str]:
    return None if text is None else text.decode()
