"""Random headers, whose names are words of Python, Rust and C++, and names that what `bind` writes uses itself: each is refused in a sentence,
or py_compile, gcc, g++ and rustc take what is written.

usage: PYTHONPATH=capi/python WASMLOOP_LIBRARY=LIBRARY bind_words.py OUT [COUNT] [SEED]
"""

from __future__ import annotations

import collections
import keyword
import random
import shutil
import subprocess
import sys
from pathlib import Path
from typing import Counter, Dict, Iterable, List, Sequence, Set, Tuple

import expecting
from expecting import TOP, same
from wasmloop import _bind_c, _bind_rust, _header, _tool, bind

OUT, COUNT, SEED = Path(sys.argv[1]), int(sys.argv[2]) if sys.argv[2:] else 50, int(sys.argv[3]) if sys.argv[3:] else 1
C = """auto break case char const continue default do double else enum extern float for goto if inline int long register restrict return short signed
    sizeof static struct switch typedef union unsigned void volatile while""".split()
CPP = """alignas alignof and and_eq asm bitand bitor bool catch char16_t char32_t char8_t class co_await co_return co_yield compl concept consteval
    constexpr constinit const_cast decltype delete dynamic_cast explicit export false friend mutable namespace new noexcept not not_eq nullptr operator
    or or_eq private protected public reinterpret_cast requires static_assert static_cast template this thread_local throw true try typeid typename
    using virtual wchar_t xor xor_eq""".split()
RUST = """abstract as async await become box break const continue crate do dyn else enum extern final fn for gen if impl in let loop macro match mod move mut
    override priv pub ref return self Self static struct super trait try type typeof union unsafe unsized use virtual where while yield""".split()
# What the three files use themselves, or their languages bring.
OWN = """bind bound camel code copy err error failure failed fuel depth instance int str bytes tuple list print option result some none ok string vec text
    typed type_of plugin status args areas places made told it at it_ self_ named_tuple module memory size data value number word drop clone debug eq
    main write read run place space zero_ended u8 i32 usize uint8_t_ args_size raw raw_ status_ result_room strlen errno class_ type_ new_""".split()
WORDS = sorted({*CPP, *RUST, *keyword.kwlist, *getattr(keyword, "softkwlist", ()), *OWN} - {*C, "bool", "true", "false"})
TYPES = [it for it in _header.NUMBERS if it != "int"]


def one(rng: random.Random, words: Sequence[str], used: Set[str]) -> str:
    """A name that this part of the header has not used yet."""
    name = rng.choice(words)
    while name in used:
        name = f"{name}{rng.choice('_x')}"
    used.add(name)
    return name


def args(rng: random.Random, structs: Sequence[str], can_write: bool) -> str:
    """The arguments of a function: numbers, texts, bytes, structs, and at most one that it writes."""
    found: List[str] = []
    used = set(structs)         # (in C such a name would hide the type from the arguments behind it)
    for _ in range(rng.randrange(4)):
        name, kind = one(rng, WORDS, used), rng.choice(["number"] * 3 + ["text", "sized", "bytes"] + ["struct"] * bool(structs))
        used |= {f"{name}_size", f"{name}_room"}
        found.append({"number": f"{rng.choice(TYPES)} {name}", "text": f"const char *{name}", "sized": f"const char *{name}, uint32_t {name}_size",
                      "bytes": f"const uint8_t *{name}, size_t {name}_size"}.get(kind) or f"const {rng.choice(structs)} *{name}")
    if can_write:
        name = one(rng, WORDS, used)
        found.append(f"{rng.choice(structs)} *{name}" if structs and rng.random() < 0.5 else f"{rng.choice(['char', 'uint8_t'])} *{name}, uint32_t {name}_room")
    return ", ".join(found) or "void"


def header(rng: random.Random) -> str:
    """The text of a header."""
    names: Set[str] = set()
    structs: List[str] = []
    lines = [*(f"#include <{it}.h>" for it in ("stdint", "stddef", "stdbool")), "", "#define EXPORT(name) __attribute__((export_name(#name)))"]
    for _ in range(rng.randrange(4)):
        name = one(rng, WORDS, names)
        fields: Set[str] = set()
        structs.append(name)
        lines.append(f"typedef struct {{ {' '.join(f'{rng.choice(TYPES)} {one(rng, WORDS, fields)};' for _ in range(rng.randrange(1, 5)))} }} {name};")
    for _ in range(rng.randrange(1, 6)):
        can_write = rng.random() < 0.3
        result = "int32_t" if can_write else rng.choice([*TYPES, "void", "const char *"])
        name = one(rng, WORDS, names)
        told = f"{result} {name}({args(rng, structs, can_write)});"
        lines.append(rng.choice(["", f"EXPORT({name}) ", "extern "]) + told)
    lines.append(rng.choice(["void *room(uint32_t size);", "void *malloc(size_t size); void free(void *at);"]))
    return "\n".join(lines) + "\n"


def taken(words: Iterable[object], file: Path) -> str:
    """What a compiler says of a file, if it does not take it."""
    done = subprocess.run([*map(str, words), str(file)], capture_output=True, text=True, check=False)
    return done.stderr.strip() if done.returncode else ""


def compilers() -> Dict[str, Tuple[str, List[object]]]:
    """For each kind of file its suffix, and what compiles it."""
    flags: List[object] = ["-Wall", "-Wextra", "-Werror", "-fsyntax-only", "-I", OUT, "-I", TOP / "capi" / "include"]
    runs = "import sys; exec(compile(open(sys.argv[1]).read(), sys.argv[1], 'exec'), {'__name__': 'h'})"
    found: Dict[str, Tuple[str, List[object]]] = {"python": (".py", [sys.executable, "-W", "error", "-c", runs])}
    for name, file, words in (("gcc", ".c", ["-std=c99"]), ("g++", ".cpp", ["-std=c++20"])):
        if shutil.which(name):
            found[name] = file, [name, *words, *flags]
        else:
            print(f"left out: bind: there is no {name}")
    return found


def main() -> bool:
    rng, kinds = random.Random(SEED), compilers()
    told: List[str] = []
    refused: Counter[str] = collections.Counter()
    OUT.mkdir(parents=True, exist_ok=True)
    for number in range(COUNT):
        text, name = header(rng), f"h{number}"
        try:
            made = _header.read(name, text)
            texts = {".py": bind.written(made), "_host.h": _bind_c.written(made), ".rs": _bind_rust.written(made)}
        except _tool.Failed as why:
            refused[str(why).split(": ")[1].split(" ", 1)[-1]] += 1
            same("a refusal names the line", str(why).startswith(f"{name}.h:"), True)
            continue
        told.append(name)
        for suffix, it in {**texts, ".c": f'#include "{name}_host.h"\nint main(void) {{ return 0; }}\n', ".cpp": f'#include "{name}_host.h"\n'}.items():
            (OUT / f"{name}{suffix}").write_text(it)
        (OUT / f"{name}.h").write_text(text)
        for kind, (suffix, words) in kinds.items():
            same(f"{kind} of {name}: {text}", taken(words, OUT / f"{name}{suffix}"), "")
    rustc = expecting.rustc(OUT)
    if rustc:
        (OUT / "all.rs").write_text("".join(f"pub mod {it};\n" for it in told))
        same("rustc of all", taken([*rustc, "--crate-type", "rlib"], OUT / "all.rs"), "")
    else:
        print("left out: bind: there is no rustc")
    same("most headers are taken", len(told) * 3 > COUNT * 2, True)
    by = ", ".join([*kinds, *["rustc"] * bool(rustc)])
    print(f"bind: {COUNT} headers: {len(told)} written, each taken by {by}; {sum(refused.values())} refused: {dict(refused)}")
    return expecting.wrong != 0


if __name__ == "__main__":
    sys.exit(main())
