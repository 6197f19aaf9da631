#!/usr/bin/env python3
"""Whether C, Python and Rust say of the library what its crate has.

    python3 tools/header.py                  status 1 if a struct, a number, a name, a call or the version differs
    python3 tools/header.py --self-test      plants faults in copies of the texts; status 1 if one isn't found
    python3 tools/header.py --version X.Y.Z  writes that version in each place that has it

What capi/include/wasmloop.h declares stands five times: there, in crates/wasmloop_c, in capi/wasmloop.c, in capi/python/wasmloop and in capi/rust.
A struct has fields of the same widths in the same order, with the same names but for RENAMED; a number has one value; a call takes the
same words, and Python and Rust make each; a fault, a trap, a status has one name. The version is WASMLOOP_VERSION, and each copy of it is
compared. No call, struct or number is named here but in INSTEAD: all are read out of the header.
"""
from __future__ import annotations

import ast
import ctypes
import re
import sys
from typing import Any, Iterator, Optional, Sequence, Union
from unittest import mock

from sources import TOP, Sources as Texts, asked, finish, first, plant

HEADER, CALLS, NAMES, PYTHON, RUST = "capi/include/wasmloop.h", "capi/wasmloop.c", "capi/names.c", "capi/python/wasmloop", "capi/rust/src/lib.rs"
# The files of the binding for Python, each behind those that it imports.
STRUCTS_OF_PYTHON = f"{PYTHON}/_abi.py"
FILES_OF_PYTHON = [STRUCTS_OF_PYTHON, *(f"{PYTHON}/{name}.py" for name in ("_errors", "_calls", "_objects", "_module", "_loop", "__init__"))]
CRATE = "crates/wasmloop_c"
# Fields and structs that a language calls otherwise, since the header's name is one of its words, or taken.
RENAMED = {"moment": "now", "loop_no": "number loop", "at": "byte", "of_loop": "loop"}
STRUCTS = {"call_ended": "ended", "signature": "type", "spelled_site": "place"}
# Calls that a language makes by others.
INSTEAD = {(PYTHON, "work"): "job_new and job_run", (PYTHON, "call"): "export_number and call_at", (PYTHON, "load"): "load_told", (RUST, "load"): "load_told"}
# The prefix of the header's number for a variant of a type of the crate.
VARIANTS = {"Phase": "", "EntryKind": "RUN_", "Ending": "", "Outcome": "WORK_"}
WIDTHS = {"char": 1, "size_t": 8, "usize": 8, "int": 4, "f64": 8}
WIDTHS |= {f"{sign}int{bits}_t": bits // 8 for sign in ("", "u") for bits in (8, 16, 32, 64)}
WIDTHS |= {f"{sign}{bits}": bits // 8 for sign in ("i", "u") for bits in (8, 16, 32, 64)}
POINTER = "&"


class Sources(Texts):
    """Those that this tool reads."""

    def plain(self, name: str) -> str:
        """A text without its comments."""
        return uncommented(self.text(name))

    def crate(self, crate: str = CRATE) -> str:
        files = sorted((TOP / crate / "src").glob("*.rt"))
        return "\n".join(self.plain(str(file.relative_to(TOP))) for file in files)

    def crates(self) -> Iterator[tuple[str, str]]:
        """All sources of all crates that have a word of these, by file."""
        for file in sorted(TOP.glob("crates/*/src/*.rt")):
            yield str(file.relative_to(TOP)), self.text(str(file.relative_to(TOP)))


def uncommented(text: str) -> str:
    return re.sub(r"/\*.*?\*/|//[^\n]*", "", text, flags=re.S)


def snake(name: str) -> str:
    name = re.sub(r"(?<=[a-z0-9])(?=[A-Z])", "_", name).lower().lstrip("_")
    return STRUCTS.get(name, name)


def words_of(text: str) -> list[str]:
    return [word.strip() for word in re.sub(r"\s+", " ", text).split(",") if word.strip() not in ("", "void")]


def number_of(sources: Sources, word: str) -> int:
    """A number as it stands, or by its name: of the header, or of the limits."""
    if word.isdigit():
        return int(word)
    places = ((HEADER, rf"#define {word} (\d+)"), ("crates/limits/src/lib.rt", rf"const {word}: \w+ = ([\d_]+);"))
    found = [re.search(pattern, sources.text(file)) for file, pattern in places]
    return next(int(it.group(1).replace("_", "")) for it in found if it)


# structs: for each its fields, each with its width and how many there are. A field that is a struct has that one's name for its width.


def c_structs(sources: Sources) -> Iterator[tuple[str, list[tuple[str, Union[int, str], int]]]]:
    """Those of the header. The handle has a pointer, and is left out."""
    for body, name in re.findall(r"typedef struct \w+ \{(.*?)\} wasmloop_(\w+);", sources.plain(HEADER), re.S):
        fields = re.findall(r"(\w+) (\*?)(\w+)(?:\[(\w+)\])?;", body)
        if not any(pointer for _, pointer, _, _ in fields):
            widths = [WIDTHS.get(kind, kind.removeprefix("wasmloop_")) for kind, *_ in fields]
            yield name, [(field, width, number_of(sources, count or "1")) for width, (_, _, field, count) in zip(widths, fields)]


def rust_structs(sources: Sources, text: str) -> Iterator[tuple[str, list[tuple[str, Union[int, str], int]]]]:
    """Each `repr(C)` struct, by its name in the header."""
    known = {name for name, _ in c_structs(sources)}
    for name, body in re.findall(r"#\[repr\(C\)\]\s*(?:#\[.*?\]\s*)*(?:pub )?struct (\w+)(?:<.*?>)? \{(.*?)\n\}", text, re.S):
        fields = [(field, WIDTHS.get(kind, snake(kind)), count) for field, kind, count in re.findall(r"(\w+): \[?(\w+)(?:; (\w+)\])?,", body)]
        yield snake(name), [(field, width, number_of(sources, count or "1")) for field, width, count in fields if isinstance(width, int) or width in known]


class Library:
    """Stands for the library where the module for Python is read: it keeps what a call is told of its words."""

    def __getattr__(self, name: str) -> Any:
        return self.__dict__.setdefault(name, type("Call", (), {})())


def python_text(sources: Sources) -> str:
    return "\n".join(sources.text(file) for file in FILES_OF_PYTHON)


def python_module(sources: Sources) -> tuple[dict[str, Any], Library]:
    """The names of the binding, all in one place, and what it tells the library."""
    library, module = Library(), {"__name__": "wasmloop", "__file__": str(TOP / STRUCTS_OF_PYTHON)}
    with mock.patch.object(ctypes, "CDLL", lambda *_, **__: library):
        for file in FILES_OF_PYTHON:
            tree = ast.parse(sources.text(file))
            tree.body = [it for it in tree.body if not (isinstance(it, ast.ImportFrom) and it.level)]
            exec(compile(tree, file, "exec"), module)
    return module, library


def python_width(kind: Any) -> Union[int, str]:
    return snake(kind.__name__) if issubclass(kind, ctypes.Structure) else ctypes.sizeof(kind)


def python_structs(sources: Sources) -> Iterator[tuple[str, list[tuple[str, Union[int, str], int]]]]:
    for it in python_module(sources)[0].values():
        if isinstance(it, type) and issubclass(it, ctypes.Structure) and hasattr(it, "_fields_"):
            kinds: Sequence[Any] = it._fields_
            fields = [(name, kind._type_, kind._length_) if hasattr(kind, "_length_") else (name, kind, 1) for name, kind in kinds]
            yield snake(it.__name__), [(name, python_width(kind), count) for name, kind, count in fields]


def wrong_structs(sources: Sources) -> Iterator[str]:
    wanted = dict(c_structs(sources))
    others = {CRATE: rust_structs(sources, sources.crate()), RUST: rust_structs(sources, sources.plain(RUST)), PYTHON: python_structs(sources)}
    for place, structs in {place: dict(structs) for place, structs in others.items()}.items():
        if place == CRATE:
            asked = {word.strip(POINTER) for words in proved_calls(sources)[0].values() for word in words}
            yield from (f"{place}: has no struct {name}" for name in (wanted.keys() & asked) - structs.keys())
        yield from (f"{place}: the header has no struct {name}" for name in structs.keys() - wanted.keys() - {"handle", "raw"})
        for name in wanted.keys() & structs.keys():
            if [it[1:] for it in structs[name]] != [it[1:] for it in wanted[name]]:
                yield f"{place}: {name} is {structs[name]}, in the header {wanted[name]}"
            for (mine, *_), (told, *_) in zip(structs[name], wanted[name]):
                if mine != told and told not in RENAMED.get(mine, "").split():
                    yield f"{place}: {name}.{mine} is called {told} in the header"


# numbers


def c_enums(sources: Sources) -> Iterator[dict[str, int]]:
    """The header's numbers, by enumeration."""
    for body in re.findall(r"\benum \{(.*?)\};", sources.plain(HEADER), re.S):
        value, told = -1, {}
        for item in words_of(body):
            name, _, given = item.partition("=")
            value = int(given) if given else value + 1
            told[name.strip().removeprefix("WASMLOOP_")] = value
        yield told


def c_numbers(sources: Sources) -> dict[str, int]:
    return {name: value for told in c_enums(sources) for name, value in told.items()}


def other_numbers(sources: Sources) -> Iterator[tuple[str, str, Optional[int]]]:
    """Where a number of the header stands again: place, name and value."""
    crate = sources.crate()
    for name, value in re.findall(r"pub const ([A-Z_]+): u32 = (\d+);", crate):
        yield CRATE, name, int(value)
    for kind, variant, value in re.findall(rf"\b({'|'.join(VARIANTS)})::(\w+)(?:\([^()]*\))? => \(?(\d+)\b", crate):
        yield CRATE, VARIANTS[kind] + snake(variant).upper().removeprefix("NO_"), int(value)
    for kind, variant, name in re.findall(rf"\b({'|'.join(VARIANTS)})::(\w+)(?:\([^()]*\))? => \(?([A-Z_]+)\b", crate):
        yield CRATE, VARIANTS[kind] + snake(variant).upper(), c_numbers(sources).get(name)
    for names, numbers in re.findall(r"^([A-Z_]+(?:, [A-Z_]+)+) = range\(([\d, ]+)\)", python_text(sources), re.M):
        yield from ((PYTHON, name, value) for name, value in zip(names.split(", "), range(*map(int, numbers.split(",")))))
    for name, value in re.findall(r"const ([A-Z_]+): [ui]32 = (\d+);", sources.plain(RUST)):
        yield RUST, name, int(value)


def wrong_numbers(sources: Sources) -> Iterator[str]:
    told = c_numbers(sources)
    for place, name, value in other_numbers(sources):
        if told.get(name) != value:
            yield f"{place}: {name} is {value}, in the header {told.get(name)}"


# calls


def c_word(word: str) -> str:
    """A word of a call in C: a width, or a pointer to a width or a struct."""
    base = re.sub(r"\bconst\b|\bstruct\b|\*", " ", word).split()[0].removeprefix("wasmloop_")
    return POINTER * word.count("*") + str(WIDTHS.get(base, base))


def crate_words(word: str) -> list[str]:
    """A word of a call of the crate, as C has it: a slice is an address and a length."""
    kind = word.partition(":")[2].strip()
    base = re.sub(r"&(?:'\w+ )?(?:mut )?|\*(?:const|mut) |[\[\]]", "", kind).strip()
    told = POINTER * len(re.findall(r"&|\*(?:const|mut) ", kind)) + str(WIDTHS.get(base, snake(base)))
    return [told, "8"] if "[" in kind else [told]


def rust_word(word: str) -> str:
    """A word of a call that Rust declares."""
    kind = word.partition(":")[2].strip()
    base = re.sub(r"\*(?:const|mut) ", "", kind).rpartition("::")[2]
    told = WIDTHS.get({"c_char": "char"}.get(base, base), snake(base))
    return POINTER * len(re.findall(r"\*(?:const|mut) ", kind)) + str(told)


def python_word(kind: type) -> str:
    """A word of a call by the type that Python gives it: pointers are not told apart."""
    pointer = kind in (ctypes.c_void_p, ctypes.c_char_p) or not hasattr(kind, "_type_") or not isinstance(kind._type_, str)
    return POINTER if pointer else str(ctypes.sizeof(kind))


def public_calls(sources: Sources) -> dict[str, list[str]]:
    found = re.findall(r"^(int|const char \*) ?wasmloop_(\w+)\((.*?)\);", sources.plain(HEADER), re.M | re.S)
    return {name: [c_word(word) for word in words_of(words)] for _, name, words in found}


def proved_calls(sources: Sources) -> tuple[dict[str, list[str]], dict[str, list[str]]]:
    """The calls of the crate: those that C declares, and those that it has."""
    told = re.findall(r"uint32_t wasmloop_rt_(\w+)\(([^()]*)\);", sources.plain(CALLS))
    made = re.findall(r'extern "C" fn wasmloop_rt_(\w+)\((.*?)\)\s*-> u32', sources.crate(), re.S)
    return ({name: [c_word(word) for word in words_of(words)] for name, words in told},
            {name: [told for word in words_of(words) if "Global" not in word for told in crate_words(word)] for name, words in made})


def wrong_proved_calls(sources: Sources) -> Iterator[str]:
    told, made = proved_calls(sources)
    for name in sorted(told.keys() ^ made.keys()):
        yield f"wasmloop_rt_{name}: stands in {CALLS if name in told else CRATE} alone"
    for name in sorted(told.keys() & made.keys()):
        if told[name] != made[name]:
            yield f"{CALLS}: wasmloop_rt_{name} takes {told[name]}, in the crate {made[name]}"


def wrong_rust_calls(sources: Sources, public: dict[str, list[str]]) -> Iterator[str]:
    for name, words in re.findall(r"\bfn wasmloop_(\w+)\((.*?)\)(?: -> [^;]+)?;", sources.plain(RUST), re.S):
        got = [rust_word(word) for word in words_of(words)]
        if got != public.get(name):
            yield f"{RUST}: wasmloop_{name} takes {got}, in the header {public.get(name)}"


def python_calls(sources: Sources) -> Iterator[tuple[str, list[Optional[str]]]]:
    """The calls that the module makes: their names and what they are given, as far as that can be seen."""
    widths = {"c_uint8": "1", "c_uint32": "4", "c_int32": "4", "c_uint64": "8", "c_int64": "8", "c_size_t": "8", "byref": POINTER}

    def seen(word: ast.expr) -> Optional[str]:
        return widths.get(word.func.attr) if isinstance(word, ast.Call) and isinstance(word.func, ast.Attribute) else None

    for node in ast.walk(ast.parse(python_text(sources))):
        if not isinstance(node, ast.Call) or any(isinstance(word, ast.Starred) for word in node.args):
            continue
        if isinstance(node.func, ast.Attribute) and node.func.attr.startswith("wasmloop_"):
            yield node.func.attr.removeprefix("wasmloop_"), [seen(word) for word in node.args]
        elif isinstance(node.func, ast.Name) and node.func.id == "_call" and isinstance(node.args[0], ast.Constant):
            yield node.args[0].value, [seen(word) for word in node.args[1:]]


def wrong_python_calls(sources: Sources, public: dict[str, list[str]]) -> Iterator[str]:
    for name, words in python_calls(sources):
        wanted = public.get(name)
        if wanted is None:
            yield f"{PYTHON}: the header has no call wasmloop_{name}"
        elif len(words) != len(wanted) or any(word not in (None, told, told[:1]) for word, told in zip(words, wanted)):
            yield f"{PYTHON}: wasmloop_{name} is given {words}, in the header it takes {wanted}"
    for name, call in vars(python_module(sources)[1]).items():
        kinds, wanted = getattr(call, "argtypes", None), public.get(name.removeprefix("wasmloop_"), [])
        if kinds is not None and [python_word(kind) for kind in kinds] != [POINTER if word.startswith(POINTER) else word for word in wanted]:
            yield f"{PYTHON}: {name} is told that it takes {kinds}, in the header {wanted}"


def wrong_calls(sources: Sources) -> Iterator[str]:
    public = public_calls(sources)
    yield from wrong_proved_calls(sources)
    yield from wrong_rust_calls(sources, public)
    yield from wrong_python_calls(sources, public)
    yield from (f"{file}: it doesn't call wasmloop_{name}" for file in (PYTHON, RUST) for name in left_out(sources, public, file))


def left_out(sources: Sources, public: dict[str, list[str]], file: str) -> list[str]:
    """The calls of the header that a language doesn't make: Rust by their names, Python by _call, _text or the library's attribute, called or typed."""
    text = sources.plain(RUST) if file == RUST else python_text(sources)
    made = set(re.findall(r"(?<!fn )\bwasmloop_(\w+)" if file == RUST else r"\b_lib\.wasmloop_(\w+)(?:\(|\.argtypes)|\b_(?:call|text)\(\"(\w+)\"", text))
    made = {name for it in made for name in ([it] if isinstance(it, str) else it)}
    return [name for name in public if name not in made and (file, name) not in INSTEAD]


# names


def names_of(sources: Sources, call: str) -> list[Optional[str]]:
    """The list of names that a function of capi/names.c has."""
    text = sources.plain(NAMES)
    listed = re.search(rf"\b{call}\[\] = \{{(.*?)\}};", text, re.S) or first(rf"wasmloop_{call}\(.*?names\[\] = \{{(.*?)\}};", text, re.S)
    return [it or None for it in re.findall(r'NULL|"([^"]*)"', listed[1])]


def fault_names(sources: Sources, crate: str, kind: str) -> list[Optional[str]]:
    """The names of a stage's faults, by their numbers; Memory, which is none for C, apart."""
    source = sources.text(f"crates/{crate}/src/fault.rt")
    words = {variant: word for word, variant in re.findall(r'#\[error\("(\w+)"\)\]\s*(\w+)(?:\(.*?\))?,', source)}
    numbers = {int(number): words[variant] for variant, number in re.findall(rf"{kind}::(\w+)(?:\(.*?\))? => (\d+),", source)}
    return [None, *(numbers[number] for number in sorted(numbers) if numbers[number] != "Memory")]


def trap_names(sources: Sources) -> list[Optional[str]]:
    """The names of traps as the program tells them, by their numbers."""
    numbers = dict(re.findall(r"TrapCode::(\w+) => (\d+),", sources.text("crates/events/src/trap.rt")))
    words = {variant: word for _, text in sources.crates() for variant, word in re.findall(r'TrapCode::(\w+) => "([^"]+)"', text)}
    return [None, *(words[variant] for variant in sorted(numbers, key=lambda it: int(numbers[it])))]


def wrong_names(sources: Sources) -> Iterator[str]:
    enums = {next(iter(told)): told for told in c_enums(sources)}

    def plainly(first: str, prefix: str) -> list[str]:
        return [name.removeprefix(prefix).lower().replace("_", " ") for name in enums[first]]

    statuses, traps = list(enums["OK"]), trap_names(sources)
    wanted = {"status_name": statuses, "trap_name": traps, "ending_name": plainly("RETURN", ""),
              "outcome_name": [{"memory": "nomemory"}.get(it, it) for it in plainly("NOT_RUN", "WORK_")],
              "decode": fault_names(sources, "decode", "DecodeFault"), "validate": fault_names(sources, "validate", "ValidFault"),
              "link": fault_names(sources, "imports", "LinkFault")}
    for call, names in wanted.items():
        if names_of(sources, call) != names:
            yield f"{NAMES}: {call} has {names_of(sources, call)}, not {names}"
    listed = ", ".join(f"{number} {name}" for number, name in enumerate(traps) if name)
    if listed not in re.sub(r"[\s*]+", " ", sources.text(HEADER)):
        yield f"{HEADER}: the traps are {listed}"


# the version


def version_places(sources: Sources) -> list[tuple[str, str]]:
    """Where the version stands beside the header: a file, and a pattern whose first group is before it and whose second is it."""
    program = [(name, r'(\.version\(")([\d.]+)"') for name, text in sources.crates() if '.version("' in text]
    return [(HEADER, r'(#define WASMLOOP_VERSION ")([\d.]+)"'), (HEADER, r'(The version of the library, as ")([\d.]+)"'),
            *program, ("crates/test_program/stdout", r"(?m)(^wasmloop )(\d+\.\d+\.\d+)$"), ("capi/rust/Cargo.toml", r'(?m)(^version = ")([\d.]+)"'),
            ("capi/rust/Cargo.lock", r'(name = "wasmloop"\nversion = ")([\d.]+)"')]


def version_of(sources: Sources) -> str:
    return first(r'#define WASMLOOP_VERSION "([\d.]+)"', sources.text(HEADER))[1]


def wrong_version(sources: Sources) -> Iterator[str]:
    version = version_of(sources)
    for file, pattern in version_places(sources):
        found = re.search(pattern, sources.text(file))
        if not found or found.group(2) != version:
            yield f"{file}: the version is {version}, and {found.group(2) if found else 'none'} stands there"


def write_version(version: str) -> None:
    sources = Sources()
    for file, pattern in version_places(sources):
        text = re.sub(pattern, lambda found: found.group().replace(found.group(2), version), (TOP / file).read_text(), count=1)
        (TOP / file).write_text(text)
        print(file)


def faults(sources: Sources) -> list[str]:
    return [*wrong_structs(sources), *wrong_numbers(sources), *wrong_calls(sources), *wrong_names(sources), *wrong_version(sources)]


# its test

PLANTED = [
    ("a width in the header", HEADER, r"uint32_t (op;)", r"uint64_t \1"),
    ("the order of fields in the header", HEADER, r"(uint32_t number;[^\n]*\n)(\s*uint32_t depth;[^\n]*\n)", r"\2\1"),
    ("a number of the header", HEADER, r"(WASMLOOP_RANGE = )\d+", r"\g<1>66"),
    ("the names of faults", NAMES, r'"Magic", "Version"', '"Version", "Magic"'),
    ("the name of a trap", NAMES, r'"division by zero"', '"division"'),
    ("a prototype", CALLS, r"(wasmloop_rt_hint\(wasmloop_handle \*, uint)64", r"\g<1>32"),
    ("a call that the crate lacks", CALLS, r"(uint32_t wasmloop_rt_)hint\(", r"\1hints("),
    ("the order of fields in Python", STRUCTS_OF_PYTHON, r"(    loop: U32\n)(    request: U32\n)", r"\2\1"),
    ("a width in Python", STRUCTS_OF_PYTHON, r"(    most_pages: )U32", r"\1U64"),
    ("a call that Python lacks", f"{PYTHON}/_module.py", r'_call\("share", [^\n]*', "pass"),
    ("a call that Rust lacks", RUST, r"unsafe \{ wasmloop_share\([^\n]*\}", "0"),
    ("the length of an array in Python", STRUCTS_OF_PYTHON, r"c_uint64 \* 16", "c_uint64 * 15"),
    ("the width of a word in Python", f"{PYTHON}/_loop.py", r'(_call\("clock", self\.handle, c\.c_uint)64', r"\g<1>32"),
    ("a word too few in Python", f"{PYTHON}/_loop.py", r'(_call\("emits", self\.handle), room', r"\1"),
    ("a width in Rust", RUST, r"pub fuel: u64", "pub fuel: u32"),
    ("a word of a call in Rust", RUST, r"(fn wasmloop_clock\(handle: \*mut Handle, ms: )u64", r"\1u32"),
    ("a status of the crate", f"{CRATE}/src/status.rt", r"(pub const RANGE: u32 = )\d+", r"\g<1>7"),
    ("the number of a kind in the crate", f"{CRATE}/src/did.rt", r"(pub const RUN_TIMER: u32 = )\d", r"\g<1>9"),
    ("the kind of a number in the crate", f"{CRATE}/src/did.rt", r"(EntryKind::Timer => )RUN_TIMER", r"\g<1>RUN_IDLE"),
    ("the name of a field in the crate", f"{CRATE}/src/work.rt", r"pub slot: u32", "pub place: u32"),
    ("the version in Rust", "capi/rust/Cargo.toml", r'(?m)(^version = ")', r"\g<1>1"),
    ("the version of the program", "crates/words/src/grammar.rt", r'(\.version\(")', r"\g<1>1"),
]


def main() -> None:
    given, sources = asked(__doc__, "self-test", version="X.Y.Z"), Sources()
    if given.version:
        return write_version(given.version)
    if given.self_test:
        sys.exit(1 if plant(PLANTED, sources, faults) else 0)
    found = faults(sources)
    finish(found, f"{len(dict(c_structs(sources)))} structs, {len(c_numbers(sources))} numbers, {len(public_calls(sources))} calls, "
           f"version {version_of(sources)}")


if __name__ == "__main__":
    main()
