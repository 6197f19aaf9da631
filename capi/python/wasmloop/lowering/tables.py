"""Calls through the table, with floats apart from integers.

Two types of functions may become one where floats become integers, and a call through the table that should trap would run. So a
type that isn't the only one of its kind gets marks, which are further parameters: a call gives zeros for them, and the table has a
function that takes them and calls the one that was there.
"""

from __future__ import annotations

import collections
from typing import Counter, Dict, Set

from .binary import CALL_INDIRECT, I32, LOWERED, Kind, Refused, constant, lowered_type, operations, u, vec
from .module import MOST_PARAMETERS, Module

CALLBACK = bytes([I32]), b""                           # what the host calls through the table


class Marks:
    """How many marks each type of the module has."""

    def __init__(self, module: Module) -> None:
        kinds = {*module.types, CALLBACK}
        if len(set(map(lowered_type, kinds))) == len(kinds):    # no two become one
            self.counts: Dict[Kind, int] = {}
            return
        called, placed = called_types(module), {module.types[module.type_of(f)] for _, those in module.elements for f in those}
        self.counts, alike = {}, collections.Counter(map(lowered_type, called | placed))
        taken = set(alike)
        next_free: Counter[Kind] = collections.Counter()
        for kind in sorted(called | placed):
            if kind == lowered_type(kind) or alike[lowered_type(kind)] == 1:
                continue
            count = next_free[lowered_type(kind)] + 1
            while self.marked(kind, count) in taken:
                count += 1
            if len(kind[0]) + count > MOST_PARAMETERS:
                raise Refused("types in the table that become one, more than parameters can distinguish")
            self.counts[kind] = next_free[lowered_type(kind)] = count
            taken.add(self.marked(kind, count))

    @staticmethod
    def marked(kind: Kind, count: int) -> Kind:
        parameters, results = lowered_type(kind)
        return parameters + bytes([I32]) * count, results

    def of(self, kind: Kind) -> int:
        return self.counts.get(kind, 0)

    def type(self, kind: Kind) -> Kind:
        return self.marked(kind, self.of(kind))


def called_types(module: Module) -> Set[Kind]:
    """The types by which something is called through the table: by the guest, by setjmp's imports, by the host."""
    found = {module.types[kind] for _, body in module.bodies for kind in types_in(body) if kind < len(module.types)}
    for origin, field, kind in module.imports:
        if origin == "uv":
            found.add(CALLBACK)
        elif field.startswith("invoke_"):
            parameters, results = module.types[kind]
            found.add((parameters[1:], results))
    return found


def types_in(body: bytes) -> Set[int]:
    try:
        return {behind[0] for op, _, behind in operations(body) if op == CALL_INDIRECT}
    except Refused:                                    # it is refused with its function's number when it is rewritten
        return set()


def call(callee: int, marks: int, spare: int) -> bytes:
    """A call through the table with zeros for the marks: `spare` is a local that has the index meanwhile."""
    return b"\x21" + u(spare) + marks * constant(I32, 0) + b"\x20" + u(spare) + b"\x11" + u(callee) + b"\0"


def taker(kind: Kind, function: int) -> bytes:
    """A function that takes marks and calls another without them."""
    given = b"".join(b"\x20" + u(i) for i in range(len(kind[0])))
    return vec([]) + given + b"\x10" + u(function) + b"\x0b"


def has_floats(kind: Kind) -> bool:
    return any(LOWERED[it] != it for part in kind for it in part)
