"""setjmp and longjmp, as clang lowers them with -mllvm -enable-emscripten-sjlj: what stands for their imports."""

from __future__ import annotations

from typing import Dict, Sequence, Set, TYPE_CHECKING, Tuple

from .binary import CALL, CALL_INDIRECT, GLOBAL_GET, GLOBAL_SET, I32, Refused, constant, operations, u, vec

if TYPE_CHECKING:
    from .module import Module


def look_at_import(module: str, field: str) -> None:
    if module != "env" or not (field.startswith("invoke_") or field == "emscripten_longjmp"):
        raise Refused(f'the import "{module}" "{field}", which is not from "uv"')


def who_unwinds(module: Module, made: Sequence[int]) -> Tuple[Set[int], bool]:
    """longjmp and who calls a function that may unwind, itself or through the table; and whether the table has one."""
    unwinding = {i for i in made if not module.imports[i][1].startswith("invoke_")}
    in_table = {f for _, functions in module.elements for f in functions}
    callers, by_table = callers_of(module) if unwinding else ({}, set())
    todo, may = list(unwinding), bool(unwinding & in_table)
    while todo:
        function = todo.pop()
        found = callers.get(function, set()) | (by_table if function in in_table else set())
        by_table = set() if function in in_table else by_table
        may |= function in in_table
        todo += found - unwinding
        unwinding |= found
    return unwinding, may


def callers_of(module: Module) -> Tuple[Dict[int, Set[int]], Set[int]]:
    """For each function those that call it, and the functions that call through the table."""
    callers: Dict[int, Set[int]] = {}
    by_table: Set[int] = set()
    for k, (_, body) in enumerate(module.bodies, len(module.imports)):
        direct, indirect = calls_of(body)
        by_table |= {k} if indirect else set()
        for function in direct:
            callers.setdefault(function, set()).add(k)
    return callers, by_table


def calls_of(body: bytes) -> Tuple[Set[int], bool]:
    found = [(op, behind) for op, _, behind in operations(body) if op in (CALL, CALL_INDIRECT)]
    return {f for op, f in found if op == CALL}, any(op == CALL_INDIRECT for op, _ in found)


def leave(flag: int, results: bytes) -> bytes:
    """Behind a call: returns with zeros where the stack is being unwound."""
    zeros = b"".join(constant(t, 0) for t in results)
    return bytes([GLOBAL_GET]) + u(flag) + b"\x04\x40" + zeros + b"\x0f\x0b"


def longjmp(flag: int, parameters: bytes, threw: int) -> bytes:
    """Begins an unwinding."""
    given = b"".join(b"\x20" + u(i) for i in range(len(parameters)))
    return b"\0" + given + b"\x10" + u(threw) + b"\x41\1" + bytes([GLOBAL_SET]) + u(flag) + b"\x0b"


def invoke(flag: int, parameters: bytes, callee: int, marks: int) -> bytes:
    """Calls with so many marks (tables.py), and ends an unwinding: global 0 is the stack's pointer, as wasm-ld has it."""
    stack = len(parameters)
    given = b"".join(b"\x20" + u(i) for i in range(1, stack)) + marks * constant(I32, 0) + b"\x20\0"
    call = b"\x23\0\x21" + u(stack) + given + b"\x11" + u(callee) + b"\0"
    end = b"\x23" + u(flag) + b"\x04\x40\x41\0\x24" + u(flag) + b"\x20" + u(stack) + b"\x24\0\x0b\x0b"
    return vec([u(1) + bytes([I32])]) + call + end
