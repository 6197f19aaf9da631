"""Whether functions are well typed as they come, with floats apart from integers.

What comes out has integers in place of floats, so the host can't tell one that mixed them up. This is the algorithm of the
standard's appendix, for the operations that are taken.
"""

from __future__ import annotations

import bisect
from typing import Callable, Dict, List, Optional, Sequence, TYPE_CHECKING, Tuple, Union

from .binary import (BLOCKS, BR_TABLE, CALL, CALL_INDIRECT, EMPTY_BLOCK, END, F32, F32_CONST, F64, F64_CONST, GLOBAL_GET, GLOBAL_SET,
                     I32, I32_CONST, I64, I64_CONST, LOWERED, PREFIX, SELECT, TYPED_SELECT, Behind, Declared, Refused)

if TYPE_CHECKING:
    from .module import Module

Operand = Optional[int]
ANY: Operand = None                                    # an operand of code that isn't reached
NAMES = {I32: "i32", I64: "i64", F32: "f32", F64: "f64", ANY: "any type"}
UNREACHABLE, NOP, IF, ELSE, BR, BR_IF, RETURN, DROP = 0, 1, 4, 5, 0x0C, 0x0D, 0x0F, 0x1A
LOCAL_GET, LOCAL_SET, LOCAL_TEE = 0x20, 0x21, 0x22
LETTERS: Dict[str, Operand] = {"i": I32, "I": I64, "f": F32, "F": F64}


def signatures() -> Dict[Union[int, Tuple[int, int]], Tuple[List[Operand], List[Operand]]]:
    """What an operation takes and leaves, by its opcode, or by 0xFC and the number behind it."""
    rows = [(0x45, "i", "i", 1), (0x46, "ii", "i", 10), (0x50, "I", "i", 1), (0x51, "II", "i", 10), (0x5B, "ff", "i", 6),
            (0x61, "FF", "i", 6), (0x67, "i", "i", 3), (0x6A, "ii", "i", 15), (0x79, "I", "I", 3), (0x7C, "II", "I", 15),
            (0x8B, "f", "f", 7), (0x92, "ff", "f", 7), (0x99, "F", "F", 7), (0xA0, "FF", "F", 7), (0xA7, "I", "i", 1),
            (0xA8, "f", "i", 2), (0xAA, "F", "i", 2), (0xAC, "i", "I", 2), (0xAE, "f", "I", 2), (0xB0, "F", "I", 2),
            (0xB2, "i", "f", 2), (0xB4, "I", "f", 2), (0xB6, "F", "f", 1), (0xB7, "i", "F", 2), (0xB9, "I", "F", 2),
            (0xBB, "f", "F", 1), (0xBC, "f", "i", 1), (0xBD, "F", "I", 1), (0xBE, "i", "f", 1), (0xBF, "I", "F", 1),
            (0xC0, "i", "i", 2), (0xC2, "I", "I", 3), (0x28, "i", "i", 1), (0x29, "i", "I", 1), (0x2A, "i", "f", 1),
            (0x2B, "i", "F", 1), (0x2C, "i", "i", 4), (0x30, "i", "I", 6), (0x36, "ii", "", 1), (0x37, "iI", "", 1),
            (0x38, "if", "", 1), (0x39, "iF", "", 1), (0x3A, "ii", "", 2), (0x3C, "iI", "", 3), (0x3F, "", "i", 1),
            (0x40, "i", "i", 1), (I32_CONST, "", "i", 1), (I64_CONST, "", "I", 1), (F32_CONST, "", "f", 1),
            (F64_CONST, "", "F", 1), (NOP, "", "", 1)]
    found: Dict[Union[int, Tuple[int, int]], Tuple[str, str]] = {op + i: (taken, left) for op, taken, left, count in rows for i in range(count)}
    of_prefix = ["fi", "fi", "Fi", "Fi", "fI", "fI", "FI", "FI"]
    found.update({(PREFIX, i): (row[0], row[1]) for i, row in enumerate(of_prefix)})
    found.update({(PREFIX, i): ("iii" if i in (8, 10, 11) else "", "") for i in (8, 9, 10, 11, 13)})
    return {op: ([LETTERS[it] for it in taken], [LETTERS[it] for it in left]) for op, (taken, left) in found.items()}


SIGNATURES = signatures()


class Frame:
    """An open block: its opcode, what it takes and leaves, how high the operands were, whether its end isn't reached."""

    def __init__(self, op: int, taken: List[Operand], left: List[Operand], height: int) -> None:
        self.op, self.taken, self.left, self.height, self.unreachable = op, taken, left, height, False

    def label(self) -> List[Operand]:
        return self.taken if self.op == 3 else self.left


class Body:
    """The walk through a function of a module."""

    def __init__(self, module: Module, kind: int, declared: Declared) -> None:
        self.module, (parameters, results) = module, module.types[kind]
        self.locals, self.ends_of_locals = [*parameters, *(t for _, t in declared)], list(range(1, len(parameters) + 1))
        for count, _ in declared:
            self.ends_of_locals.append(count + (self.ends_of_locals[-1] if self.ends_of_locals else 0))
        self.stack: List[Operand] = []
        self.frames = [Frame(2, [], list(results), 0)]

    def pop(self, wanted: Operand) -> Operand:
        frame = self.frames[-1]
        if len(self.stack) == frame.height:
            if not frame.unreachable:
                raise Refused(f"expected {NAMES[wanted]}, found no operand")
            return ANY
        found = self.stack.pop()
        if ANY not in (found, wanted) and found != wanted:
            raise Refused(f"expected {NAMES[wanted]}, found {NAMES[found]}")
        return found

    def takes(self, kinds: Sequence[Operand]) -> None:
        for kind in reversed(kinds):
            self.pop(kind)

    def does(self, taken: Sequence[Operand], left: Sequence[Operand]) -> None:
        self.takes(taken)
        self.stack += left

    def goes_no_further(self) -> None:
        frame = self.frames[-1]
        del self.stack[frame.height:]
        frame.unreachable = True

    def label(self, depth: int) -> List[Operand]:
        if depth >= len(self.frames):
            raise Refused(f"a label {depth} that isn't there")
        return self.frames[-1 - depth].label()

    def block_type(self, behind: int) -> Tuple[List[Operand], List[Operand]]:
        if behind < 0:
            kind = behind & 127
            return [], [] if kind == EMPTY_BLOCK else [kind]
        self.module.must_have("type", behind)
        taken, left = self.module.types[behind]
        return [*taken], [*left]

    def opens(self, op: int, taken: List[Operand], left: List[Operand]) -> None:
        self.takes(taken)
        self.frames.append(Frame(op, taken, left, len(self.stack)))
        self.stack += taken

    def closes(self) -> Frame:
        frame = self.frames[-1]
        self.takes(frame.left)
        if len(self.stack) != frame.height:
            raise Refused("a block leaves more operands than its type has results")
        return self.frames.pop()

    def ends(self) -> None:
        frame = self.closes()
        if frame.op == IF and frame.taken != frame.left:
            raise Refused("an if without an else that leaves something else than it takes")
        self.stack += frame.left

    def else_begins(self) -> None:
        frame = self.closes()
        if frame.op != IF:
            raise Refused("an else without an if")
        self.stack += frame.taken
        self.frames.append(Frame(ELSE, frame.taken, frame.left, len(self.stack) - len(frame.taken)))

    def selects(self, op: int, kinds: Tuple[int, ...]) -> None:
        self.pop(I32)
        if op == TYPED_SELECT:
            if len(kinds) != 1 or kinds[0] not in LOWERED:
                raise Refused("select with other types than one of a number")
            self.does([kinds[0]] * 2, [kinds[0]])
            return
        second = self.pop(ANY)
        first = self.pop(second)
        self.stack.append(second if first is ANY else first)

    def branches(self, labels: Sequence[int]) -> None:
        """br_table: each label takes what is there."""
        self.pop(I32)
        if len({len(self.label(label)) for label in labels}) > 1:
            raise Refused("labels of a br_table that take different numbers of operands")
        for label in labels:
            kinds = self.label(label)
            self.stack += reversed([self.pop(kind) for kind in reversed(kinds)])
        self.goes_no_further()

    def variable(self, op: int, index: int) -> None:
        if op in (GLOBAL_GET, GLOBAL_SET):
            self.module.must_have("global", index)
            kind = self.module.values[index][0]
        else:
            place = bisect.bisect_right(self.ends_of_locals, index)
            if place == len(self.locals):
                raise Refused(f"a local {index} that isn't there")
            kind = self.locals[place]
        self.does([] if op in (LOCAL_GET, GLOBAL_GET) else [kind], [] if op in (LOCAL_SET, GLOBAL_SET) else [kind])

    def calls(self, op: int, behind: Behind) -> None:
        if op == CALL_INDIRECT:
            self.pop(I32)
            self.module.must_have("type", behind[0])
            kind = behind[0]
        else:
            self.module.must_have("function", behind)
            kind = self.module.type_of(behind)
        taken, left = self.module.types[kind]
        self.does([*taken], [*left])

    def leaves(self, op: int, behind: Behind) -> None:
        if op == BR_IF:
            self.pop(I32)
            self.does(self.label(behind), self.label(behind))
            return
        if op == BR_TABLE:
            self.branches([*behind[0], behind[1]])
            return
        if op != UNREACHABLE:
            self.takes(self.frames[0].left if op == RETURN else self.label(behind))
        self.goes_no_further()

    def begins(self, op: int, behind: int) -> None:
        if op == IF:
            self.pop(I32)
        self.opens(op, *self.block_type(behind))

    def operation(self, op: int, behind: Behind) -> None:
        if not self.frames:
            raise Refused("an operation behind the body's end")
        taken_and_left = SIGNATURES.get((PREFIX, behind[0]) if op == PREFIX else op)
        if taken_and_left:
            self.does(*taken_and_left)
        else:
            OTHERS[op](self, op, behind)

    def ended(self) -> None:
        if self.frames:
            raise Refused("a body that doesn't end")


OTHERS: Dict[int, Callable[[Body, int, Behind], object]] = {
    **dict.fromkeys((LOCAL_GET, LOCAL_SET, LOCAL_TEE, GLOBAL_GET, GLOBAL_SET), Body.variable),
    **dict.fromkeys((CALL, CALL_INDIRECT), Body.calls),
    **dict.fromkeys(BLOCKS, Body.begins),
    **dict.fromkeys((BR, BR_IF, BR_TABLE, RETURN, UNREACHABLE), Body.leaves),
    **dict.fromkeys((SELECT, TYPED_SELECT), Body.selects),
    DROP: lambda body, op, behind: body.pop(ANY),
    ELSE: lambda body, op, behind: body.else_begins(),
    END: lambda body, op, behind: body.ends(),
}
