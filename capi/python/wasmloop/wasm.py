"""Reads a module: its sections, and each instruction with its byte in the file. All tools use this reader but `lower`.

It reads what `wasmloop check` accepts, and what the debug module of a guest may have beside that.
"""

from __future__ import annotations

import functools
from typing import Callable, Collection, Dict, Iterator, List, Mapping, Optional, Sequence, Tuple, TypeVar, Union

BLOCK, LOOP, IF, ELSE, END, BR, BR_IF, BR_TABLE, RETURN, CALL, CALL_INDIRECT = 2, 3, 4, 5, 11, 12, 13, 14, 15, 16, 17
MEMORY_SIZE, MEMORY_GROW = 0x3F, 0x40
FREE = ELSE, END                                        # these cost no fuel
I32, I64 = 0x7F, 0x7E
TYPE, IMPORT, FUNCTION, TABLE, MEMORY, GLOBAL, EXPORT, START, ELEMENT, CODE, DATA = range(1, 12)
PAGE, MOST_PAGES, MOST_BYTES = 65536, 64, 1 << 20       # the host's limits
MOST_DIGITS, MOST_LETTERS = 10, 200                     # bytes of a number; letters of a name that is shown

# How many numbers follow an opcode; two opcodes, the constants of floats, are followed by bytes.
NUMBERS = {**dict.fromkeys((BLOCK, LOOP, IF, BR, BR_IF, CALL, MEMORY_SIZE, MEMORY_GROW, 0x12, 0x41, 0x42, *range(0x20, 0x27), 0xD0, 0xD2), 1),
           CALL_INDIRECT: 2, 0x13: 2, **dict.fromkeys(range(0x28, 0x3F), 2)}
BYTES = {0x43: 4, 0x44: 8}
# The same for the opcodes of the prefix 0xFC: conversions, memory and tables.
WIDE = {**dict.fromkeys(range(8), 0), 8: 2, 9: 1, 10: 2, 11: 1, 12: 2, 13: 1, 14: 2, **dict.fromkeys((15, 16, 17), 1)}


# The start, the opcode and the end of an instruction; the least and the most of a memory or a table; module, name, kind, and the type or limits.
Operation = Tuple[int, int, int]
Limits = Tuple[int, Optional[int]]
Import = Tuple[str, str, int, Union[int, Limits, None]]
Item = TypeVar("Item")


class Malformed(Exception):
    """The bytes are not a module that this reader knows."""


def shown(name: str, most: int = MOST_LETTERS) -> str:
    """A text of a guest as a line can hold it: what can't be printed is escaped, of a long one the first letters stand there."""
    letters = "".join(it if it.isprintable() else it.encode("unicode_escape", "backslashreplace").decode() for it in name[:most])
    return letters if len(name) <= most else f"{letters}.. and {len(name) - most} more letters"


def number(data: bytes, at: int) -> Tuple[int, int]:
    """An unsigned LEB128 number, and its end."""
    value = 0
    for place in range(MOST_DIGITS):
        byte = data[at + place]
        value |= (byte & 127) << 7 * place
        if byte < 128:
            return value, at + place + 1
    raise Malformed(f"byte {at}: a number in more than {MOST_DIGITS} bytes")


def signed(data: bytes, at: int) -> Tuple[int, int]:
    value, end = number(data, at)
    bits = 7 * (end - at)
    return (value - (1 << bits) if value >> bits - 1 else value), end


def u(value: int) -> bytes:
    """The bytes of an unsigned number."""
    return bytes([value]) if value < 128 else bytes([value & 127 | 128]) + u(value >> 7)


def s(value: int) -> bytes:
    """The bytes of a signed number."""
    return bytes([value & 127]) if -64 <= value < 64 else bytes([value & 127 | 128]) + s(value >> 7)


def sized(data: bytes) -> bytes:
    return u(len(data)) + data


def vec(items: Sequence[bytes]) -> bytes:
    return u(len(items)) + b"".join(items)


def text(name: str) -> bytes:
    return sized(name.encode())


def i32(value: int) -> bytes:
    """The instruction i32.const."""
    return b"\x41" + s((value + (1 << 31)) % (1 << 32) - (1 << 31))


def i64(value: int) -> bytes:
    return b"\x42" + s((value + (1 << 63)) % (1 << 64) - (1 << 63))


def constant(kind: int, value: int) -> bytes:
    """A constant expression of that type."""
    return (i32 if kind == I32 else i64)(value) + b"\x0b"


def operations(data: bytes, at: int, end: int) -> Iterator[Operation]:
    """The start, the opcode and the end of each instruction."""
    while at < end:
        start, op = at, data[at]
        at += 1
        count = NUMBERS.get(op, 0)
        if op == BR_TABLE:
            labels, at = number(data, at)
            count = labels + 1
        elif op == 0x1C:
            count, at = number(data, at)
        elif op == 0xFC:
            wide, at = number(data, at)
            if wide not in WIDE:
                raise Malformed(f"byte {start}: unknown instruction 0xFC {wide}")
            op, count = 0xFC00 | wide, WIDE[wide]
        elif op > 0xD2:
            raise Malformed(f"byte {start}: unknown instruction {op:#x}")
        if count > end - at:                            # (each takes a byte at least: no function is read past its end)
            raise Malformed(f"byte {start}: an instruction that does not end in its function")
        for _ in range(count):
            _, at = number(data, at)
        at += BYTES.get(op, 0)
        yield start, op, at


class Body:
    """A function: `start` is after its size, `code` its first instruction."""

    def __init__(self, data: bytes, start: int, end: int) -> None:
        self.data, self.start, self.end = data, start, end
        groups, at = number(data, start)
        if groups > end - at:
            raise Malformed(f"byte {start}: locals that do not end in their function")
        self.local_count = 0                            # without the parameters
        for _ in range(groups):
            count, at = number(data, at)
            self.local_count += count
            at += 1
        self.code = at

    @functools.cached_property
    def ops(self) -> List[Operation]:
        try:
            return list(operations(self.data, self.code, self.end))
        except IndexError:
            raise Malformed(f"byte {self.code}: a function that does not end") from None

    @functools.cached_property
    def decoded(self) -> List[int]:
        """For a library that counts the `end` of an `if` without `else` as two instructions: the index in `ops` of each that it counts."""
        found: List[int] = []
        opened: List[bool] = []
        for at, (_, op, _) in enumerate(self.ops):
            if op in (BLOCK, LOOP, IF):
                opened.append(op == IF)
            elif op == ELSE:
                opened[-1] = False
            elif op == END and opened and opened.pop():
                found.append(at)
            found.append(at)
        return found


class Module:
    def __init__(self, data: bytes) -> None:
        if data[:8] != b"\0asm\1\0\0\0":
            raise Malformed("not a WebAssembly module")
        self.data, at = data, 8
        self.sections: List[Tuple[int, int, int]] = []
        try:
            while at < len(data):
                kind = data[at]
                size, at = number(data, at + 1)
                self.sections.append((kind, at, at + size))
                at += size
            self.places = {kind: (start, end) for kind, start, end in self.sections if kind}
            self.types = self._items(TYPE, self._type)
            self.imports = self._items(IMPORT, self._import)
            self.functions = self._items(FUNCTION, lambda at: number(data, at))
            self.memory: Optional[Limits] = next(iter(self._items(MEMORY, self._limits)), None)
            self.exports = self._items(EXPORT, self._export)
            self.bodies = self._items(CODE, self._body)
            self.names = self._names()
        except (IndexError, UnicodeDecodeError):
            raise Malformed("it ends in a section, or contains an invalid number") from None
        self.imported = [name for _, name, kind, _ in self.imports if kind == 0]
        self.code_start = self.places.get(CODE, (0, 0))[0]

    def _items(self, kind: int, read: Callable[[int], Tuple[Item, int]]) -> List[Item]:
        if kind not in self.places:
            return []
        count, at = number(self.data, self.places[kind][0])
        found: List[Item] = []
        for _ in range(count):
            item, at = read(at)
            found.append(item)
        return found

    def _bytes(self, at: int) -> Tuple[bytes, int]:
        size, at = number(self.data, at)
        return self.data[at:at + size], at + size

    def _type(self, at: int) -> Tuple[Tuple[bytes, bytes], int]:
        params, at = self._bytes(at + 1)
        results, at = self._bytes(at)
        return (params, results), at

    def _import(self, at: int) -> Tuple[Import, int]:
        module, at = self._bytes(at)
        name, at = self._bytes(at)
        kind = self.data[at]
        about: Union[int, Limits, None] = None
        if kind == 0:
            about, at = number(self.data, at + 1)
        elif kind in (1, 2):
            about, at = self._limits(at + 1 + (kind == 1))
        else:
            at += 3
        return (module.decode(), name.decode(), kind, about), at

    def _limits(self, at: int) -> Tuple[Limits, int]:
        flags = self.data[at]
        least, at = number(self.data, at + 1)
        most: Optional[int] = None
        if flags & 1:
            most, at = number(self.data, at)
        return (least, most), at

    def globals(self) -> List[Tuple[int, int, int]]:
        """The type, the mutability and the initial value of each global that it defines. For accepted modules alone."""
        def read(at: int) -> Tuple[Tuple[int, int, int], int]:
            value, end = signed(self.data, at + 3)
            return (self.data[at], self.data[at + 1], value), end + 1
        return self._items(GLOBAL, read)

    def elements(self) -> List[Tuple[bytes, List[int]]]:
        """For each segment of the table its bytes before the functions, and the functions. For accepted modules alone."""
        def read(at: int) -> Tuple[Tuple[bytes, List[int]], int]:
            _, body = number(self.data, at)
            body = next(end for _, op, end in operations(self.data, body, len(self.data)) if op == END)
            count, end = number(self.data, body)
            found = []
            for _ in range(count):
                function, end = number(self.data, end)
                found.append(function)
            return (self.data[at:body], found), end
        return self._items(ELEMENT, read)

    def _export(self, at: int) -> Tuple[Tuple[str, int, int], int]:
        name, at = self._bytes(at)
        kind = self.data[at]
        index, at = number(self.data, at + 1)
        return (name.decode(), kind, index), at

    def _body(self, at: int) -> Tuple[Body, int]:
        size, at = number(self.data, at)
        return Body(self.data, at, at + size), at + size

    def custom(self, wanted: str) -> Optional[Tuple[int, int]]:
        """The start and the end of the contents of a custom section, or None."""
        for kind, start, end in self.sections:
            if kind == 0 and start < end:
                name, at = self._bytes(start)
                if name == wanted.encode():
                    return at, end
        return None

    def _names(self) -> Dict[int, str]:
        at, end = self.custom("name") or (0, 0)
        while at < end:
            sub = self.data[at]
            size, at = number(self.data, at + 1)
            if sub == 1:
                count, here = number(self.data, at)
                found: Dict[int, str] = {}
                for _ in range(count):
                    index, here = number(self.data, here)
                    name, here = self._bytes(here)
                    found[index] = name.decode(errors="replace")
                return found
            at += size
        return {}

    @functools.cached_property
    def _shown(self) -> Dict[int, str]:
        """The names of functions by their index, as far as they were asked for."""
        return {}

    @functools.cached_property
    def _exported(self) -> Dict[int, str]:
        return {it: name for name, kind, it in reversed(self.exports) if kind == 0}

    def name(self, defined: int) -> str:
        """The name of a function, by its index without the imports, as wasmloop_stop counts."""
        index = defined + len(self.imported)
        if index not in self._shown:
            self._shown[index] = shown(self.names.get(index) or self._exported.get(index) or f"function {index}")
        return self._shown[index]

    def export_bytes(self) -> List[bytes]:
        """The bytes of each export, for a new export section."""
        return [text(name) + bytes([kind]) + u(index) for name, kind, index in self.exports]

    def written(self, replaced: Mapping[int, bytes], dropped: Collection[int] = ()) -> bytes:
        """The module with these sections instead of its own or added, without those of `dropped`."""
        parts = {kind: self.data[start:end] for kind, start, end in self.sections if kind and kind not in dropped}
        parts.update(replaced)
        out = b"\0asm\1\0\0\0" + b"".join(bytes([kind]) + sized(body) for kind, body in sorted(parts.items()))
        return out + b"".join(b"\0" + sized(self.data[start:end]) for kind, start, end in self.sections if kind == 0 and 0 not in dropped)
