"""What wasmloop.ask reads in a module, and changes in what binaryen's Asyncify makes of it."""

from __future__ import annotations

from typing import Any, Dict, List, Optional, Set, Tuple

from . import wasm

Op = Tuple[int, int, int]                               # where an instruction starts, its opcode, where it ends

UNREACHABLE, NOP, DROP, LOCAL_SET, LOCAL_TEE, CONST, EQ, NE = 0, 1, 0x1A, 0x21, 0x22, 0x41, 0x46, 0x47
ZERO, EQZ, NOTHING = bytes([CONST, 0]), b"\x45", b"\x40"
IF, ELSE, END, BR = (bytes([it]) for it in (wasm.IF, wasm.ELSE, wasm.END, wasm.BR))


def callee(data: bytes, op: Op) -> Optional[int]:
    """The function that an instruction calls by its index."""
    return int(wasm.number(data, op[0] + 1)[0]) if op[1] == wasm.CALL else None


def asked_by_pointer(data: bytes) -> bool:
    """Whether a function in the table of a linked module leads to `ask` by calls. If none does, no call through a pointer leads there."""
    module = wasm.Module(data)
    try:
        segments = module.elements()
    except (IndexError, StopIteration, wasm.Malformed):
        return True
    if any(head[0] for head, _ in segments):            # a form that `elements` does not read
        return True
    callers: Dict[Optional[int], Set[int]] = {}
    for at, body in enumerate(module.bodies, len(module.imported)):
        for called in {callee(data, op) for op in body.ops}:
            callers.setdefault(called, set()).add(at)
    asking = {at for at, name in enumerate(module.imported) if name == "start_unwind"}
    todo = list(asking)
    while todo:
        found = callers.get(todo.pop(), set()) - asking
        asking |= found
        todo += found
    return any(asking.intersection(functions) for _, functions in segments)


# What Asyncify asserts behind a call in a function that is left as it is: global.get, local.get, i32.ne, if, unreachable, end.
ASSERT = [wasm.CALL, 0x23, 0x20, 0x47, wasm.IF, UNREACHABLE, wasm.END]


def may_ask(data: bytes) -> bytes:
    """The module without the assertions in `ask` itself, where the calls of Asyncify are."""
    module, made = wasm.Module(data), bytearray(data)
    for body in module.bodies:
        found = [op for _, op, _ in body.ops]
        for at in (it for it, op in enumerate(found) if op == wasm.CALL and found[it:it + len(ASSERT)] == ASSERT):
            if module.names.get(callee(data, body.ops[at]) or 0, "").startswith("asyncify_"):
                made[body.ops[at + ASSERT.index(UNREACHABLE)][0]] = NOP
    return bytes(made)


class Asyncified:
    """A module that Asyncify has changed. Its state is 1 while calls save their locals and return, 2 while they go on, else 0. Behind each call
    that may ask, a check compares it with 1."""

    def __init__(self, data: bytes, pointers: bool) -> None:
        self.data, self.pointers, self.module = data, pointers, wasm.Module(data)
        self.first = len(self.module.imported)
        exports = {name: at for name, _, at in self.module.exports}
        start, _, end = self.module.bodies[exports["asyncify_get_state"] - self.first].ops[0]
        self.get = data[start:end]
        self.checks = tuple(self.get + bytes([CONST, 1, op]) for op in (EQ, NE))
        self.saving = {at for at, body in self.bodies() if any(data.startswith(self.checks, op[0]) for op in body.ops)}
        self.asking = {at for at, body in self.bodies() if any(callee(data, op) == exports["asyncify_start_unwind"] for op in body.ops)}
        self.asking |= self.saving | {at for at, name in enumerate(self.module.imported) if name.startswith("invoke_")}

    def bodies(self) -> Any:
        return enumerate(self.module.bodies, self.first)

    def may_ask(self, op: Op) -> bool:
        return self.pointers and op[1] == wasm.CALL_INDIRECT or callee(self.data, op) in self.asking

    def checked(self, ops: List[Op], at: int) -> bool:
        """Whether a check is next, but for what takes a call's result."""
        while ops[at][1] in (LOCAL_SET, LOCAL_TEE, DROP, CONST):
            at += 1
        return self.data.startswith(self.checks, ops[at][0])

    def check(self, ops: List[Op], at: int, made: List[bytes]) -> int:
        """Appends the check here in two instructions, and returns where it ends: (i32.const, check, br_if, drop) is (if, i32.const, br, end)."""
        if [op for _, op, _ in (ops[at - 1], *ops[at + 2:at + 5])] == [CONST, EQ, wasm.BR_IF, DROP]:
            value, label = made.pop(), wasm.number(self.data, ops[at + 3][0] + 1)[0]
            made.append(self.get + IF + NOTHING + value + BR + wasm.u(label + 1) + END)
            return at + 5
        made.append(self.get + (b"" if ops[at + 2][1] == EQ else EQZ))
        return at + 3

    def begun(self, ops: List[Op]) -> Optional[bytes]:
        """The code for a call that begins: the state is 0, but for the checks. None if a call that may ask lacks its check, as Asyncify makes it."""
        made: List[bytes] = []
        at = 0
        while at < len(ops) - 1:
            start, _, end = ops[at]
            if self.data.startswith(self.checks, start):
                at = self.check(ops, at, made)
                continue
            if self.may_ask(ops[at]) and not self.checked(ops, at + 1):
                return None
            made.append(ZERO if self.data.startswith(self.get, start) else self.data[start:end])
            at += 1
        return b"".join(made)

    def twofold(self, at: int, body: Any) -> bytes:
        """The function with both codes, where it has the second."""
        results = self.module.types[self.module.functions[at - self.first]][1]
        begun = self.begun(body.ops) if at in self.saving and len(results) < 2 else None
        if begun is None:
            return bytes(self.data[body.start:body.end])
        goes_on = self.data[body.code:body.ops[-1][0]]
        return bytes(self.data[body.start:body.code]) + self.get + IF + (results or NOTHING) + goes_on + ELSE + begun + END + END


def doubled(data: bytes, pointers: bool) -> bytes:
    """The module in which each function that may ask has a second code, for calls that begin: without what Asyncify adds to go on."""
    it = Asyncified(data, pointers)
    return bytes(it.module.written({wasm.CODE: wasm.vec([wasm.sized(it.twofold(at, body)) for at, body in it.bodies()])}))
