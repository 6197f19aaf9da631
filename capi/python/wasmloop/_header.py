"""What the header of a plug-in declares: functions, and structs of numbers. `bind` documents what it may have."""

from __future__ import annotations

import re
import struct
from typing import Callable, Dict, Iterable, Iterator, List, NamedTuple, Optional, Tuple

from . import _tool


class Number(NamedTuple):
    """A type of numbers: its bits and its letter in Python's `struct`."""

    bits: int
    letter: str

    @property
    def width(self) -> int:
        """Its bits as a parameter of WebAssembly."""
        return max(self.bits, 32)

    @property
    def signed(self) -> bool:
        return self.letter.islower()

    @property
    def range(self) -> Tuple[int, int]:
        bits = 1 if self.letter == "?" else self.bits
        return (-(1 << bits - 1), (1 << bits - 1) - 1) if self.signed else (0, (1 << bits) - 1)


NUMBERS = {"int8_t": Number(8, "b"), "int16_t": Number(16, "h"), "int32_t": Number(32, "i"), "int64_t": Number(64, "q"),
           "uint8_t": Number(8, "B"), "uint16_t": Number(16, "H"), "uint32_t": Number(32, "I"), "uint64_t": Number(64, "Q"),
           "bool": Number(8, "?"), "int": Number(32, "i"), "size_t": Number(32, "I")}


class Struct(NamedTuple):
    name: str
    fields: List[Tuple[str, str]]                       # of each its type and its name
    shown: str = ""                                     # its name in the language that is written

    @property
    def format(self) -> str:
        """For `struct`: little-endian, with the gaps that C leaves."""
        letters, at, most = "<", 0, 1
        for kind, _ in self.fields:
            size = NUMBERS[kind].bits // 8
            letters += "x" * (-at % size) + NUMBERS[kind].letter
            at, most = at + -at % size + size, max(most, size)
        return letters + "x" * (-at % most)

    @property
    def offsets(self) -> List[int]:
        """Where each field is."""
        found, letters = [], self.format
        for place, letter in enumerate(letters):
            if letter not in "<x":
                found.append(struct.calcsize(letters[:place]))
        return found

    @property
    def size(self) -> int:
        return struct.calcsize(self.format)


class Arg(NamedTuple):
    """An argument. Its kind is number, struct, bytes or text; `out`: the function writes it; `sized`: its length follows it."""

    kind: str
    type: str
    name: str
    out: bool = False
    sized: bool = False


class Function(NamedTuple):
    name: str
    result: str                                         # a number, void, or text
    args: List[Arg]
    text: str                                           # as declared
    shown: str = ""                                     # its name in the language that is written

    @property
    def out(self) -> Optional[Arg]:
        return next((it for it in self.args if it.out), None)

    @property
    def areas(self) -> List[Arg]:
        """The arguments that are bytes in the plug-in's memory."""
        return [it for it in self.args if it.kind != "number"]

    def words(self, number: Callable[[Arg], str], area: Callable[[Arg, int], List[str]]) -> str:
        """The numbers that it is called with, in the words of a language: of a number, and of an area with its index among the areas."""
        areas, found = self.areas, []
        for arg in self.args:
            found += [number(arg)] if arg.kind == "number" else area(arg, areas.index(arg))
        return ", ".join(found)

    @property
    def params(self) -> List[int]:
        return [bits for it in self.args for bits in ([NUMBERS[it.type].width] if it.kind == "number" else [32] * (1 + it.sized))]

    @property
    def results(self) -> List[int]:
        return [] if self.result == "void" else [32] if self.result == "text" else [NUMBERS[self.result].width]


class Header(NamedTuple):
    name: str
    structs: Dict[str, Struct]
    functions: List[Function]
    allocator: str                                      # room, malloc, or none


ALLOCATORS = {"room": Function("room", "size_t", [Arg("number", "uint32_t", "size")], "void *room(uint32_t size)"),
              "malloc": Function("malloc", "size_t", [Arg("number", "size_t", "size")], "void *malloc(size_t size)"),
              "free": Function("free", "void", [Arg("number", "size_t", "at")], "void free(void *at)")}
RESERVED = "new", "open", "close", "instance", "plugin", "fuel", "depth"
STRUCT = re.compile(r"(?:typedef\s+)?struct\s*(\w*)\s*\{(.*)\}\s*(\w*)", re.S)
FUNCTION = re.compile(r"(?:extern\s+)?(?:[A-Z_]+\s*\(\s*\w+\s*\)\s*)?(const\s+char\s*\*|void\s*\*|\w+)\s*\b(\w+)\s*\(([^()]*)\)", re.S)
ARG = re.compile(r"(const\s+)?(?:struct\s+)?(\w+)(?:\s*(\*)\s*|\s+)(\w+)")


def declarations(text: str) -> Iterator[Tuple[int, str]]:
    """Each declaration of a header, with its line."""
    def blank(found: "re.Match[str]") -> str:
        return re.sub(r"[^\n]", " ", found[0])
    text = re.sub(r"/\*.*?\*/|//[^\n]*|^[ \t]*#(?:\\\n|[^\n])*|extern\s+\"C\"\s*\{", blank, text, flags=re.S | re.M)
    for it in re.finditer(r"((?:[^;{}]|\{[^{}]*\})+);", text):
        told = it[1].strip()
        yield text.count("\n", 0, it.start(1) + len(it[1]) - len(it[1].lstrip())) + 1, " ".join(told.split())


def struct_of(found: "re.Match[str]") -> Struct:
    fields = []
    for line in filter(str.strip, found[2].split(";")):
        kind, names = line.split(None, 1) if len(line.split()) > 1 else (line, "")
        for name in names.split(","):
            if kind not in NUMBERS or not re.fullmatch(r"\s*\w+\s*", name):
                raise ValueError(f"`{line.strip()}`: expected a number")
            fields.append((kind, name.strip()))
    if not fields:
        raise ValueError("a struct without fields")
    return Struct(found[3] or found[1], fields)


def arg_of(structs: Dict[str, Struct], found: "re.Match[str]", sized: bool) -> Arg:
    const, kind, star, name = found.groups()
    if not star and kind in NUMBERS:
        return Arg("number", kind, name)
    if star and kind in structs:
        return Arg("struct", kind, name, not const)
    if star and kind in ("char", "uint8_t") and (sized or const and kind == "char"):
        return Arg("text" if kind == "char" else "bytes", kind, name, not const, sized)
    raise ValueError(f"`{found[0].strip()}`: expected a number, a known struct, or bytes with their {name}_{'size' if const else 'room'}")


def args_of(structs: Dict[str, Struct], text: str) -> List[Arg]:
    words, found = [it.strip() for it in text.split(",") if it.strip() not in ("", "void")], []
    while words:
        told = ARG.fullmatch(words.pop(0))
        if not told:
            raise ValueError("an argument without a name or a type")
        sized = bool(words) and re.fullmatch(rf"(?:uint32_t|size_t)\s+{told[4]}_{'size' if told[1] else 'room'}", words[0]) is not None
        if sized and told[3]:
            words.pop(0)
        found.append(arg_of(structs, told, sized))
    return found


def function_of(structs: Dict[str, Struct], found: "re.Match[str]") -> Function:
    result, name = re.sub(r"\s+", "", found[1]), found[2]
    result = "text" if result == "constchar*" else result
    if result not in (*NUMBERS, "void", "text"):
        raise ValueError(f"the result `{found[1].strip()}`: expected a number, void or const char *")
    made = Function(name, result, args_of(structs, found[3]), re.sub(r"^(?:extern )?[A-Z_]+ ?\( ?\w+ ?\) ?", "", found[0]))
    outs = [it for it in made.args if it.out]
    if len(outs) > 1 or outs and result not in ("int32_t", "int", *(["void"] if outs[0].kind == "struct" else [])):
        raise ValueError("expected one output at most, with a result int32_t")
    return made


def read(name: str, text: str) -> Header:
    """What a header declares."""
    structs: Dict[str, Struct] = {}
    functions: List[Function] = []
    allocators: List[str] = []
    for line, told in declarations(text):
        try:
            if found := STRUCT.fullmatch(told):
                struct = struct_of(found)
                structs[struct.name] = struct
            elif not (found := FUNCTION.fullmatch(told)):
                raise ValueError("expected a function, or a struct of numbers")
            elif found[2] in RESERVED or found[2].startswith("_"):
                raise ValueError(f"{found[2]} is a name of the classes")
            elif found[2] in ALLOCATORS:
                allocators.append(found[2])
            else:
                made, before = function_of(structs, found), next((it for it in functions if it.name == found[2]), None)
                if before and (before.params, before.results) != (made.params, made.results):
                    raise ValueError(f"{made.name} is declared before, with another type")
                functions += [made] * (before is None)
        except ValueError as why:
            raise _tool.Failed(f"{name}.h:{line}: {why}: {told}") from None
    allocator = "room" if "room" in allocators else "malloc" if {"malloc", "free"} <= set(allocators) else ""
    needs = next((it for it in functions if it.areas), None)
    if needs and not allocator:
        raise _tool.Failed(f"{name}.h: {needs.name} takes or gives bytes, and neither room nor malloc and free are declared")
    kept = [ALLOCATORS[it] for it in ({"room": ["room"], "malloc": ["malloc", "free"]}.get(allocator, []))]
    return Header(name, structs, functions + kept, allocator)


class Taken(NamedTuple):
    """The names that a language, or what is written in it, has: of fields and functions, of arguments, and of types."""

    words: Iterable[str]
    args: Iterable[str]
    types: Iterable[str]


def camel(name: str) -> str:
    """The name of a type, as Python and Rust write it."""
    return "".join(it[:1].upper() + it[1:] for it in name.split("_")) or "It"


def apart(names: Iterable[str], taken: Iterable[str], more: Tuple[str, ...] = ()) -> List[str]:
    """The names, with a `_` behind where one is taken or was met. None begins with `_`, and none is another one with a word of `more` behind."""
    used, found = set(taken), []
    for name in names:
        name = name if name.strip("_") and name[0] != "_" else f"it{name}"
        while used.intersection([name, *(name + it for it in more)]):
            name += "_"
        used.update([name, *(name + it for it in more)])
        found.append(name)
    return found


def renamed(header: Header, taken: Taken, shown: Callable[[str], str] = str) -> Header:
    """The header in the names of a language; `shown` makes that of a type."""
    structs: Dict[str, Struct] = {}
    for of, name in zip(header.structs.values(), apart(map(shown, header.structs), taken.types)):
        fields = apart([field for _, field in of.fields], taken.words)
        structs[of.name] = Struct(of.name, [(kind, field) for (kind, _), field in zip(of.fields, fields)], name)
    functions: List[Function] = []
    for it, name in zip(header.functions, apart([it.name for it in header.functions], taken.words)):
        names = apart([arg.name for arg in it.args], taken.args, ("_size", "_room", "_raw"))
        functions.append(it._replace(args=[arg._replace(name=made) for arg, made in zip(it.args, names)], shown=name))
    return header._replace(structs=structs, functions=functions)
