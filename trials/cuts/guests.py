"""Random modules of what the engine does at once: likely sequences of instructions, blocks in a row, branches to each place, loads and stores at both
ends of the memory, calls. Each exports `f`, of two i32 and with one result, and has a memory of one page."""

from __future__ import annotations

import random
import sys
from pathlib import Path
from typing import Callable

sys.path.insert(0, str(Path(__file__).resolve().parents[1] / "spec"))
from wasm import OPENING, name as sized, s as signed, section, u as number, vec  # noqa: E402

LOCALS, DEEPEST, LONGEST = 7, 4, 400
# where the locals are stored at a function's end
KEPT = 60_000
I32, NONE = b"\x7f", b"\x40"
GET, SET, TEE, CONST, EQZ, DROP, SELECT, NOP, RETURN = b"\x20", b"\x21", b"\x22", b"\x41", b"\x45", b"\x1a", b"\x1b", b"\x01", b"\x0f"
BLOCK, LOOP, IF, ELSE, END, BR_IF, BR_TABLE, CALL = b"\x02\x40", b"\x03\x40", b"\x04\x40", b"\x05", b"\x0b", b"\x0d", b"\x0e", b"\x10"
ADD, SUB, MUL, AND, SHL, SHR_U = b"\x6a", b"\x6b", b"\x6c", b"\x71", b"\x74", b"\x76"
BINARY = [ADD] * 20 + [SUB] * 6 + [AND] * 6 + [bytes([it]) for it in (0x6D, 0x70, *3 * [0x6C, 0x72, 0x73, 0x74, 0x75, 0x76])]
COMPARE = [bytes([it]) for it in range(0x46, 0x50)]
LOADS = [b"\x28"] * 3 + [b"\x2d"] * 2 + [b"\x2f", b"\x2c", b"\x2e"]
STORE = b"\x36"
STORES = [STORE] * 3 + [b"\x3a", b"\x3b"]
NUMBERS = [0, 1, 2, 4, 8, 16, 31, 63, 255, -1, 65_532, 65_535, 65_536]
MASKS = [63, 255, 1_023, 65_532, 65_535]


class Body:
    """The body of a function, which may call those with these indices."""

    def __init__(self, seed: int, callees: list[int]) -> None:
        self.random, self.callees, self.depth, self.length = random.Random(seed), callees, 0, 0

    def local(self) -> bytes:
        return number(self.random.randrange(LOCALS))

    def constant(self) -> bytes:
        return CONST + signed(self.random.choice([*NUMBERS, self.random.randrange(-(2**31), 2**31), self.random.randrange(300)]))

    def value(self, depth: int = 0) -> bytes:
        """What leaves an operand."""
        pick, below = self.random.choice, depth + 1
        self.length += 1
        kind = self.random.randrange(12)
        if depth > 3 or kind < 3:
            return GET + self.local()
        forms: dict[int, Callable[[], bytes]] = {
            3: self.constant, 7: lambda: self.value(below) + TEE + self.local(), 9: lambda: self.value(below) + EQZ,
            8: lambda: self.address(below) + pick(LOADS) + b"\0" + number(pick([0, 0, 4, 8, self.random.randrange(40)])),
            10: lambda: self.value(below) + self.value(below) + pick(COMPARE),
            11: lambda: self.value(below) + CONST + signed(pick([1, 2, 3, 4, 7, 8, 16, 24, 255, 1 << 20])) + pick([ADD, AND, SHL, SHR_U, SUB, MUL]),
        }
        return forms[kind]() if kind in forms else self.value(below) + self.value(below) + pick(BINARY)

    def address(self, depth: int) -> bytes:
        """An address, mostly within the memory."""
        inside = CONST + signed(self.random.choice(MASKS)) + AND if self.random.random() < 0.97 else b""
        return self.value(depth) + inside

    def test(self) -> bytes:
        kind = self.random.randrange(5)
        if kind < 2:
            return GET + self.local() + EQZ * kind
        if kind < 4:
            return GET + self.local() + (self.constant() if kind == 2 else GET + self.local()) + self.random.choice(COMPARE)
        return self.value(1)

    def statements(self, labels: int, least: int, most: int) -> bytes:
        return b"".join(self.statement(labels) for _ in range(self.random.randrange(least, most)))

    def statement(self, labels: int) -> bytes:
        """What leaves the operands as they are, with so many labels around it."""
        self.length += 1
        kind = self.random.randrange(6 if self.depth > DEEPEST or self.length > LONGEST else 16)
        if kind < 6:
            return self.straight(kind)
        self.depth += 1
        made = self.nested(kind, labels)
        self.depth -= 1
        return made

    def straight(self, kind: int) -> bytes:
        if kind < 4:
            return self.value() + SET + self.local()
        if kind == 4:
            return GET + self.local() + GET + self.local() + self.random.choice([ADD, SUB, AND]) + SET + self.local()
        return self.address(1) + self.value(1) + self.random.choice(STORES) + b"\0" + number(self.random.choice([0, 0, 4, 12]))

    def nested(self, kind: int, labels: int) -> bytes:
        forms = {6: self.block, 7: self.choice, 8: self.loop, 9: self.loop, 10: self.row, 11: self.table}
        if kind in forms:
            return forms[kind](labels)
        if kind == 12 and self.callees:
            return self.value(1) + self.value(1) + CALL + number(self.random.choice(self.callees)) + SET + self.local()
        if kind == 13:
            return NOP + self.value() + DROP
        if kind == 14:
            return self.value(1) + self.value(1) + self.test() + SELECT + SET + self.local()
        if kind == 15 and self.random.random() < 0.3:
            return self.test() + IF + self.value(1) + RETURN + END
        return self.value() + TEE + self.local() + SET + self.local()

    def block(self, labels: int) -> bytes:
        leaves = self.test() + BR_IF + number(self.random.randrange(labels + 1))
        return BLOCK + self.statements(labels + 1, 1, 4) + leaves + self.statements(labels + 1, 1, 3) + END

    def choice(self, labels: int) -> bytes:
        other = ELSE + self.statements(labels + 1, 0, 3) if self.random.random() < 0.6 else b""
        return self.test() + IF + self.statements(labels + 1, 0, 3) + other + END

    def loop(self, labels: int) -> bytes:
        """A loop of a few turns, unless its body sets what it counts by."""
        local, both = self.local(), self.random.random() < 0.5
        less = GET + local + CONST + signed(-1) + ADD + (TEE + local if both else SET + local + GET + local)
        more = CONST + signed(0) + b"\x4a" if self.random.random() < 0.5 else b""
        start = CONST + signed(self.random.randrange(2, 7)) + SET + local
        return start + LOOP + self.statements(labels + 1, 1, 4) + less + more + BR_IF + number(0) + END

    def row(self, labels: int) -> bytes:
        count = self.random.randrange(2, 6)
        made = BLOCK * count + self.statements(labels + count, 1, 3) + self.test() + BR_IF + number(self.random.randrange(count))
        return made + b"".join(END + (self.statement(labels) if self.random.random() < 0.4 else b"") for _ in range(count))

    def table(self, labels: int) -> bytes:
        count = self.random.randrange(1, 5)
        targets = b"".join(number(self.random.randrange(count)) for _ in range(count))
        made = BLOCK * count + self.value(1) + CONST + signed(7) + AND + BR_TABLE + number(count - 1) + targets
        return made + b"".join(END + self.statement(labels) for _ in range(count))


def kept() -> bytes:
    """Stores all locals, so that each of them is seen."""
    return b"".join(CONST + signed(4 * it) + GET + number(it) + STORE + b"\0" + number(KEPT) for it in range(LOCALS))


def module(seed: int) -> bytes:
    """The module with this number."""
    it = random.Random(seed)
    count, functions = it.randrange(1, 4), []
    for index in range(count):
        body = Body(seed * 7 + index, [*range(count if it.random() < 0.3 else index)])
        functions.append(sized(b"\1\5" + I32 + body.statements(0, 2, 9) + kept() + body.value() + END))
    return (OPENING + section(1, vec([b"\x60\2" + I32 * 2 + b"\1" + I32])) + section(3, vec([b"\0"] * count)) + section(5, b"\1\1\1\1")
            + section(7, b"\1\1f\0" + number(count - 1)) + section(10, vec(functions)))
