"""Writes typed calls of a plug-in: a class for Python, a header for hosts in C, a module for hosts in Rust. It reads the header with which the
plug-in itself is compiled.

    python3 -m wasmloop.bind orders.h           writes orders.py, orders_host.h and orders.rs
    python3 -m wasmloop.bind orders.wasm        prints the functions of a plug-in without a header, with their types

The header declares functions, and structs of numbers:

    int64_t add(int32_t by);                                    numbers of 8 to 64 bits, bool, void
    int32_t count(const char *word);                            text in, zero-terminated
    int32_t crc(const uint8_t *data, uint32_t data_size);       bytes in (as char: text): a pointer X, and X_size
    int32_t pack(.., uint8_t *into, uint32_t into_room);        bytes out (as char: text): a pointer X, and X_room. The result is
                                                                the length of all, or an error below 0
    const char *version(void);                                  text out, zero-terminated
    int32_t middle(const point *a, point *result);              structs of numbers, in and out. The result is void, or an error below 0

A plug-in that takes or gives bytes also declares where the host may put them, until the call has returned:

    void *room(uint32_t size);                                  in a static place; or NULL
    void *malloc(size_t size); void free(void *at);             or by its own allocator

When a host opens a plug-in, the types of all functions are compared with the module's.
"""

from __future__ import annotations

import keyword
import os
import re
import struct
from typing import Any, Dict, Iterator, List, NamedTuple, Optional, Tuple, TypeVar

from . import ARGUMENTS, MEMORY, OK, RANGE, Error, Instance, Module, Stopped, _bind_c, _bind_rust, _tool, ask
from ._calls import _whole, shown
from ._header import ALLOCATORS, NUMBERS, Arg, Function, Header, Taken, apart, camel, read, renamed

_Kind = TypeVar("_Kind")


# ---- What the class for Python is made of ----

class Failed(Error):
    """A function returned an error: a number below 0, `code`."""

    def __init__(self, name: str, code: int) -> None:
        super().__init__(OK, f"{name} returned {code}")
        self._function, self.code = name, code

    def __reduce__(self) -> Any:
        return type(self), (self._function, self.code)


class Area(NamedTuple):
    """Bytes in the plug-in's memory, for one call: those that are given, or a place for as many."""

    data: bytes
    size: int
    sized: bool
    out: str = ""                                       # "": given; "whole"; "counted": as many as the function returns

    def words(self, at: int) -> List[int]:
        return [at, self.size] if self.sized else [at]


def given(data: bytes) -> Area:
    return Area(bytes(data), len(data), True)


def text(value: str) -> Area:
    """Zero-terminated, with no zero within."""
    data = value.encode()
    if b"\0" in data:
        raise Error(ARGUMENTS, "a zero in a text")
    return Area(data + b"\0", len(data) + 1, False)


def decoded(name: str, data: bytes) -> str:
    """The text that a function returned, which may be any bytes."""
    try:
        return data.decode()
    except UnicodeDecodeError as why:
        raise Error(ARGUMENTS, f"{name} returned a text that is not UTF-8: {why}") from None


def packed(form: str, value: Tuple[int, ...]) -> Area:
    try:
        return Area(struct.pack(form, *value), struct.calcsize(form), False)
    except struct.error as why:
        raise Error(ARGUMENTS, f"a field: {why}") from None


def unpacked(form: str, data: bytes) -> Tuple[int, ...]:
    return struct.unpack(form, data)


def number(name: str, value: int, least: int, most: int) -> int:
    return _whole(name, value, least, most, ARGUMENTS)


def room(size: int) -> Area:
    return Area(b"", _whole("room", size, 0, 2**31 - 1), True, "counted")


def place(form: str) -> Area:
    return Area(b"", struct.calcsize(form), False, "whole")


class _Typed:
    """An instance with typed calls: what comes before a call of it, and behind."""

    TYPES: Dict[str, Tuple[List[int], List[int]]] = {}
    ALLOCATOR = ""

    def __init__(self, module: Module, instance: Instance, fuel: int, depth: int, deadline: Optional[float] = None) -> None:
        for name, types in self.TYPES.items():
            if module.function(name) != types:
                raise Error(ARGUMENTS, f"{name}: expected {types[0]} to {types[1]}, found {module.function(name)[0]} to {module.function(name)[1]}")
        self.instance, self.fuel, self.depth, self.deadline = instance, fuel, depth, deadline

    def close(self) -> None:
        """Releases the instance."""
        self.instance.close()

    def __enter__(self: _Kind) -> _Kind:
        return self

    def __exit__(self, *_: object) -> None:
        self.instance.close()

    def _run(self, name: str, *args: int) -> Any:
        return self.instance.call(name, *args, fuel=self.fuel, depth=self.depth, deadline=self.deadline)

    def _space(self, args: Tuple[Any, ...]) -> int:
        """The address of bytes for all areas; 0 where there is none."""
        sizes = [it.size + 15 & ~15 for it in args if isinstance(it, Area)]
        if not sizes:
            return 0
        size = max(sum(sizes), 16)
        at = int(self._run(self.ALLOCATOR, size)) % 2**32
        if not at:
            raise Error(MEMORY, f"the plug-in has no room for {size} bytes")
        return at

    def _free(self, at: int) -> None:
        if at and self.ALLOCATOR == "malloc":
            self._run("free", at)

    def _words(self, at: int, args: Tuple[Any, ...]) -> Tuple[List[int], int, Area]:
        """The numbers to call with, once all is written that is given; and the area that the function writes, with its address."""
        words, written = [], (0, Area(b"", 0, False))
        for it in args:
            if not isinstance(it, Area):
                words.append(it)
                continue
            self.instance.memory[at:at + len(it.data)] = it.data
            words += it.words(at)
            written = (at, it) if it.out else written
            at += it.size + 15 & ~15
        return words, *written

    def _told(self, name: str, told: Any, at: int, it: Area) -> Tuple[Any, bytes]:
        """What the function returned, and the bytes of the area that it wrote."""
        if it.out and told is not None and told < 0:
            raise Failed(name, told)
        count = told if it.out == "counted" else it.size
        if count > it.size:
            raise Error(RANGE, f"{name} has {count} bytes for a room of {it.size}")
        return told, self.instance.memory[at:at + count]

    def _string(self, name: str, at: int) -> str:
        """The text at an address, up to its zero: each byte is read once, since the plug-in says how many there are."""
        memory, found, at, step = self.instance.memory, bytearray(), at % 2**32, 64
        size = len(memory)
        while at < size:
            part = memory[at:min(at + step, size)]
            end = part.find(b"\0")
            found += part if end < 0 else part[:end]
            if end >= 0:
                return decoded(name, bytes(found))
            at, step = at + len(part), 2 * step
        raise Error(RANGE, f"{name}: the text is not zero-terminated")


class Plugin(_Typed):
    """An instance with typed calls. `fuel`, `depth` and `deadline`, in milliseconds, are each call's limits, as Instance.call has them."""

    def __init__(self, module: Module, fuel: int = 10_000_000, depth: int = 64, deadline: Optional[float] = None) -> None:
        super().__init__(module, module.instance(fuel, depth), fuel, depth, deadline)

    def _call(self, name: str, *args: Any) -> Tuple[Any, bytes]:
        at = self._space(args)
        try:
            words, place, area = self._words(at, args)
            return self._told(name, self._run(name, *words), place, area)
        except Stopped:
            at = 0                                      # the backtrace stays that of this call, and the plug-in's heap may be in any state
            raise
        finally:
            self._free(at)


class Asking(_Typed):
    """An instance with typed calls that may ask: each is awaited, and `answer` answers its questions, as ask.Plugin's does. `fuel`, `depth` and
    `deadline`, in milliseconds, are each call's limits, as ask.Plugin.call has them."""

    def __init__(self, module: Module, answer: ask.Answer, fuel: int = 10_000_000, depth: int = 64, deadline: Optional[float] = None) -> None:
        self.plugin = ask.Plugin(module, answer, fuel, depth)
        super().__init__(module, self.plugin.instance, fuel, depth, deadline)

    async def _call(self, name: str, *args: Any) -> Tuple[Any, bytes]:
        self.plugin.check()
        at = self._space(args)
        try:
            words, place, area = self._words(at, args)
            return self._told(name, await self.plugin.call(name, *words, fuel=self.fuel, depth=self.depth, deadline=self.deadline), place, area)
        finally:
            if not self.plugin.busy:
                self._free(at)


# ---- The writer of the class ----

TAKEN = Taken(keyword.kwlist, (*keyword.kwlist, "self", "bind"), (*keyword.kwlist, "NamedTuple"))


def python_arg(header: Header, arg: Arg) -> Tuple[str, str]:
    """How the method declares an argument, and how it passes it."""
    if arg.kind == "number":
        least, most = NUMBERS[arg.type].range
        return f"{arg.name}: {'bool' if arg.type == 'bool' else 'int'}", f'bind.number("{arg.name}", {arg.name}, {least}, {most})'
    if arg.kind == "struct":
        form = header.structs[arg.type].format
        return ("", f'bind.place("{form}")') if arg.out else (f"{arg.name}: {header.structs[arg.type].shown}", f'bind.packed("{form}", {arg.name})')
    if arg.out:
        return f"{arg.name}_room: int = 65536", f"bind.room({arg.name}_room)"
    if arg.kind == "bytes":
        return f"{arg.name}: bytes", f"bind.given({arg.name})"
    return f"{arg.name}: str", f"bind.given({arg.name}.encode())" if arg.sized else f"bind.text({arg.name})"


def python_result(header: Header, it: Function, call: str) -> Tuple[str, str]:
    """The type that the method returns, and its statement."""
    out = it.out
    if out and out.kind == "struct":
        made = header.structs[out.type]
        return made.shown, f'return {made.shown}(*bind.unpacked("{made.format}", {call}[1]))'
    if out:
        return ("bytes", f"return {call}[1]") if out.kind == "bytes" else ("str", f'return bind.decoded("{it.name}", {call}[1])')
    if it.result == "void":
        return "None", call
    if it.result == "text":
        return "str", f'return self._string("{it.name}", {call}[0])'
    if it.result == "bool":
        return "bool", f"return bool({call}[0])"
    number = NUMBERS[it.result]
    return "int", f"return int({call}[0])" if number.signed else f"return int({call}[0]) % {2**number.width}"


def python_method(header: Header, it: Function, asks: bool) -> str:
    args = [python_arg(header, arg) for arg in it.args]
    passed = ", ".join([f'"{it.name}"', *(told for _, told in args)])
    kind, statement = python_result(header, it, f"(await self._call({passed}))" if asks else f"self._call({passed})")
    declared = ", ".join(["self", *(told for told, _ in args if told)])
    return f'    {"async " * asks}def {it.shown}({declared}) -> {kind}:\n        """{it.text}"""\n        {statement}'


def written(header: Header, asks: bool = False) -> str:
    """The class, and a tuple for each struct."""
    name, parts = apart([camel(header.name)], keyword.kwlist)[0], []
    header = renamed(header, TAKEN._replace(types=[*TAKEN.types, name]), camel)
    for it in header.structs.values():
        fields = "\n".join(f"    {name}: {'bool' if kind == 'bool' else 'int'}" for kind, name in it.fields)
        parts.append(f"class {it.shown}(NamedTuple):\n{fields}")
    types = "\n".join(f'        "{it.name}": ({it.params}, {it.results}),' for it in header.functions)
    head = f'class {name}(bind.{"Asking" if asks else "Plugin"}):\n    TYPES = {{\n{types}\n    }}\n    ALLOCATOR = "{header.allocator}"'
    methods = [python_method(header, it, asks) for it in header.functions if it.name not in ALLOCATORS]
    imports = "from typing import NamedTuple\n\n" * bool(header.structs) + "from wasmloop import bind"
    told = f'"""Typed calls of a plug-in. Written by `python3 -m wasmloop.bind {header.name}.h`."""'
    return f"{told}\n\n{imports}\n\n\n" + "\n\n\n".join([*parts, "\n\n".join([head, *methods])]) + "\n"


def named(file: str) -> str:
    """The name of what is written: the header's. Raises Failed where no class or module can have it."""
    name = re.sub(r"\W", "_", os.path.splitext(os.path.basename(file))[0])
    why = ("is no name of a module" if not name.isidentifier() or not name.strip("_") else "is a word of Python" if keyword.iskeyword(name)
           else "is a word of Rust" if name in _bind_rust.WORDS else "")
    if why:
        raise _tool.Failed(f"{file}: {name} {why}: rename the header")
    return name


def callable_in(module: Module) -> Iterator[str]:
    """A line for each function that a plug-in exports: its name and its types."""
    for name, _, types in module.exports:
        if types:
            params, results = (", ".join(f"i{bits}" for bits in it) for it in types)
            yield f"{shown(name)}({params}){f' -> {results}' if results else ''}"


def main() -> int:
    parser = _tool.words("bind", __doc__)
    parser.add_argument("header", metavar="HEADER", help="the header of the plug-in; of a module, its functions are printed")
    parser.add_argument("-o", dest="folder", metavar="FOLDER", default=".", help="where the files are written (here)")
    parser.add_argument("--asks", action="store_true", help="the plug-in asks: the class's methods are awaited, as wasmloop.ask says")
    given_words = parser.parse_args()
    data = _tool.read(given_words.header)
    if data.startswith(b"\0asm"):
        print("\n".join(callable_in(_tool.load(data, given_words.header)[0])))
        return 0
    name = named(given_words.header)
    header = read(name, data.decode("utf-8-sig", "replace"))
    texts = {f"{name}.py": written(header, given_words.asks), f"{name}_host.h": _bind_c.written(header), f"{name}.rs": _bind_rust.written(header)}
    for file, made in texts.items():
        _tool.write(os.path.join(given_words.folder, file), made)
        print(os.path.join(given_words.folder, file))
    return 0


if __name__ == "__main__":
    _tool.run("bind", main)
