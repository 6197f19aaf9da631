"""Typed calls: classes, headers and modules that `bind` writes, on a plug-in with each kind of function; and the plug-in of orders.

usage: PYTHONPATH=capi/python WASMLOOP_LIBRARY=LIBRARY bind_test.py OUT [SEED]

Needs clang and wasm-ld; hosts in C and Rust are left out where there is no cc or rustc, and said.
"""

from __future__ import annotations

import functools
import importlib.util
import json
import pickle
import random
import shutil
import subprocess
import sys
import time
import zlib
from pathlib import Path
from typing import Any, Callable, List, Tuple, Type

import expecting
from expecting import run, same
from wasmloop import Error, Module, OutOfRange, Stopped, _bind_c, _bind_rust, _header, _tool, bind

OUT, SEED = Path(sys.argv[1]), int(sys.argv[2]) if sys.argv[2:] else 1
HERE = Path(__file__).resolve().parent
TOP = HERE.parent.parent
ROUNDS, ORDERS = 300, 500


def built(name: str, source: Path, *flags: str) -> bytes:
    """The plug-in of a file of C; as a page builds it, but for mem.c."""
    objects = [OUT / f"{name}.o", OUT / "mem.o"]
    for file, made in zip((source, TOP / "examples" / "mem.c"), objects):
        run("clang", "--target=wasm32", "-mcpu=mvp", "-O2", "-ffreestanding", "-Wall", "-Wextra", "-Werror", *flags, "-c", "-o", made, file)
    run("wasm-ld", "--no-entry", "--stack-first", "-z", "stack-size=4096", "-o", OUT / f"{name}.wasm", *objects)
    return (OUT / f"{name}.wasm").read_bytes()


def bound(name: str, text: str) -> Any:
    """The class that `bind` writes of a header; the header for C and the module for Rust beside it."""
    header = _header.read(name, text)
    for file, made in ((f"{name}.py", bind.written(header)), (f"{name}_host.h", _bind_c.written(header)), (f"{name}.rs", _bind_rust.written(header))):
        (OUT / file).write_text(made)
    return loaded(name)


def loaded(name: str) -> Any:
    """A module that `bind` wrote."""
    spec = importlib.util.spec_from_file_location(name, OUT / f"{name}.py")
    assert spec and spec.loader
    module = importlib.util.module_from_spec(spec)
    spec.loader.exec_module(module)
    return module


def raised(kind: Type[Exception], call: Callable[[], object]) -> str:
    try:
        return f"it returned {call()}"
    except kind as why:
        return str(why)


def pickled(plugin: Any) -> Tuple[str, int, int]:
    """The text, the code and the status of an error of a plug-in, as another process gets it."""
    try:
        plugin.middle((5, 0), (4, 0))
    except bind.Failed as why:
        told = pickle.loads(pickle.dumps(why))
        return str(told), told.code, told.status
    return "it returned", 0, 0


def kinds() -> None:
    """Each kind of function, with numbers and bytes of any kind, by a static place and by an allocator."""
    text = (HERE / "ask" / "kinds.h").read_text()
    heap = "\n".join(it for it in text.split("\n") if "(room)" not in it)
    variants: List[Tuple[str, str, List[str]]] = [("kinds", text, []), ("heap", heap, ["-DALLOCATOR"])]
    for name, header, flags in variants:
        data, made = built(name, HERE / "ask" / "kinds.c", *flags), bound(name, header)
        with Module(data) as module, getattr(made, name.capitalize())(module, fuel=1 << 40) as plugin:
            rng = random.Random(SEED)
            for _ in range(ROUNDS):
                calls_of(rng, plugin, made)
            faults_of(plugin, made)
    print(f"bind: {2 * ROUNDS} rounds of each kind of function, in a static place and by an allocator")


def calls_of(rng: random.Random, plugin: Any, made: Any) -> None:
    number = rng.randrange(-2**31, 2**31)
    plugin.forget()
    same("add", (plugin.add(number), plugin.add(number)), (number, 2 * number))
    a, b, c = rng.randrange(-128, 128), rng.randrange(1 << 16), rng.random() < 0.5
    same("narrow", plugin.narrow(a, b, c), (a * 3 + b * 5 + c) % 256)
    words = " ".join("".join(rng.choice("abcäöü") for _ in range(rng.randrange(6))) for _ in range(rng.randrange(20)))
    same("words", plugin.words(words), len(words.split()))
    data = bytes(rng.randrange(256) for _ in range(rng.choice((0, 1, 5, 300))))
    same("crc", plugin.crc(data), zlib.crc32(data))
    same("twice", plugin.twice(data), data * 2)
    same("upper", plugin.upper(words), "".join(it.upper() if it < "\x80" else it for it in words))
    ends = [made.Point(rng.randrange(-10**6, 10**6), 2 * rng.randrange(-10**6, 10**6)) for _ in range(2)]
    ends.sort()
    same("middle", plugin.middle(*ends), made.Point(ends[0].x + (ends[1].x - ends[0].x) // 2, ends[0].y // 2 + ends[1].y // 2))
    it = made.Mixed(a, rng.randrange(1 << 64), c, rng.randrange(128))
    same("swapped", plugin.swapped(it), made.Mixed(it.d, it.b ^ (1 << 64) - 1, not c, a % 65536))
    same("is_even", plugin.is_even(it.b), it.b % 2 == 0)


def faults_of(plugin: Any, made: Any) -> None:
    same("version", plugin.version(), "1.2, of more than a few letters, so that it is read in several parts, as long texts are")
    same("an error", raised(bind.Failed, lambda: plugin.middle((5, 0), (4, 0))), "middle returned -1")
    same("an error with bytes", raised(bind.Failed, lambda: plugin.twice(bytes(60001))), "twice returned -7")
    same("an error that is pickled", pickled(plugin), ("middle returned -1", -1, 0))
    same("little room", raised(Error, lambda: plugin.twice(b"abc", 5)), "twice has 6 bytes for a room of 5")
    same("no room at all", raised(Error, lambda: plugin.crc(bytes(5 << 20))), f"the plug-in has no room for {5 << 20} bytes")
    same("a zero in a text", raised(Error, lambda: plugin.words("a\0b")), "a zero in a text")
    same("a number out of range", raised(OutOfRange, lambda: plugin.narrow(200, 0, False)), "a 200 is out of range: expected -128 to 127")
    same("a field out of range", raised(Error, lambda: plugin.middle((1 << 40, 0), (0, 0))).startswith("a field: "), True)
    same("after all that", plugin.crc(b"abc"), zlib.crc32(b"abc"))


def headers() -> None:
    """What is told of a header that isn't as it should be."""
    room = "void *room(uint32_t size);"
    for text, why in (
        ("int32_t f(float x);", "h.h:1: `float x`: expected a number, a known struct, or bytes with their x_room: int32_t f(float x)"),
        ("\n\nint f(int);", "h.h:3: an argument without a name or a type: int f(int)"),
        ("int32_t f(const uint8_t *x);", "h.h:1: `const uint8_t *x`: expected a number, a known struct, or bytes with their x_size: "
                                         "int32_t f(const uint8_t *x)"),
        ("double f(void);", "h.h:1: the result `double`: expected a number, void or const char *: double f(void)"),
        ("struct p { double x; };", "h.h:1: `double x`: expected a number: struct p { double x; }"),
        ("struct p { };", "h.h:1: a struct without fields: struct p { }"),
        ("int32_t f(const char *x);", "h.h: f takes or gives bytes, and neither room nor malloc and free are declared"),
        ("int64_t f(char *x, uint32_t x_room);" + room, "h.h:1: expected one output at most, with a result int32_t: int64_t f(char *x, uint32_t x_room)"),
        ("int32_t close(void);", "h.h:1: close is a name of the classes: int32_t close(void)"),
        ("int f;", "h.h:1: expected a function, or a struct of numbers: int f"),
        ("int32_t f(int32_t x);\nint32_t f(int64_t x);", "h.h:2: f is declared before, with another type: int32_t f(int64_t x)"),
    ):
        same(text, raised(_tool.Failed, functools.partial(_header.read, "h", text)), why)
    for file, why in (("3d.h", "3d.h: 3d is no name of a module: rename the header"), ("_.h", "_.h: _ is no name of a module: rename the header"),
                      ("of/class.h", "of/class.h: class is a word of Python: rename the header"),
                      ("match.h", "match.h: match is a word of Rust: rename the header")):
        same(file, raised(_tool.Failed, functools.partial(bind.named, file)), why)
    same("a name with a minus", bind.named("of/my-orders.h"), "my_orders")
    (OUT / "3d.h").write_text("int32_t f(void);")
    ran = subprocess.run([sys.executable, "-m", "wasmloop.bind", OUT / "3d.h", "-o", OUT], capture_output=True, check=False)
    same("a header without a name for a module", (ran.returncode, ran.stdout, list(OUT.glob("3d*"))), (1, b"", [OUT / "3d.h"]))
    made = bound("other", "int32_t add(int32_t by); int32_t gone(void);")
    data = (OUT / "kinds.wasm").read_bytes()
    same("another type", raised(Error, lambda: made.Other(Module(data))), "add: expected [32] to [32], found [32] to [64]")
    made = bound("other", "int32_t gone(void);")
    same("no such function", raised(Error, lambda: made.Other(Module(data))).split(": the module")[0], "no function is exported as 'gone'")


WORDS_H = """#include <stdint.h>
#define EXPORT(name) __attribute__((export_name(#name)))
struct part { int32_t class, type; };
EXPORT(match) int32_t match(int32_t from);
int32_t match(int32_t from);
EXPORT(lambda) int32_t lambda(const struct part *in);
EXPORT(room) void *room(uint32_t size);
"""
WORDS_C = WORDS_H + """
static char space[4096];
int32_t match(int32_t from) { return from + 1; }
int32_t lambda(const struct part *in) { return in->class * 10 + in->type; }
void *room(uint32_t size) { return size > sizeof space ? 0 : space; }
"""


def names() -> None:
    """Functions, arguments and fields whose names are words of Python or Rust; one declaration twice; a byte order mark, and bytes of no UTF-8."""
    (OUT / "words.c").write_text(WORDS_C)
    (OUT / "words.h").write_bytes(b"\xef\xbb\xbf" + WORDS_H.encode() + b"// caf\xe9\n")
    run(sys.executable, "-m", "wasmloop.bind", OUT / "words.h", "-o", OUT)
    data, made = built("words", OUT / "words.c"), loaded("words")
    with Module(data) as module, made.Words(module) as plugin:
        same("a function and a struct", (plugin.match(6), plugin.lambda_(made.Part(1, 2))), (7, 12))
        same("fields", made.Part._fields, ("class_", "type"))


LIES_H = """
#include <stddef.h>
#include <stdint.h>
#define EXPORT(name) __attribute__((export_name(#name)))
EXPORT(endless) const char *endless(void);
EXPORT(broken) const char *broken(void);
EXPORT(fails) int32_t fails(const uint8_t *data, uint32_t data_size);
EXPORT(malloc) void *malloc(size_t size);
EXPORT(free) void free(void *at);
"""
LIES_C = LIES_H + """
static char text[(1 << 22) - 65536];
void *malloc(size_t size) { (void)size; return text + 16; }
void free(void *at) { (void)at; }
int32_t fails(const uint8_t *data, uint32_t data_size) { (void)data; return data_size ? 0 : (__builtin_trap(), 1); }
const char *broken(void) { return "\\xff"; }
const char *endless(void)
{
    for (uint64_t *at = (uint64_t *)8192; (size_t)at < __builtin_wasm_memory_size(0) * 65536 - 64; at += 8)
        at[0] = at[1] = at[2] = at[3] = at[4] = at[5] = at[6] = at[7] = 0x2020202020202020;
    return (const char *)8192;
}
"""


def lies() -> None:
    """A plug-in that returns what it should not holds no host: each ends as an Error, in a time that goes by the bytes; a trap keeps its backtrace."""
    (OUT / "lies.c").write_text(LIES_C)
    data, made = built("lies", OUT / "lies.c", "-fno-builtin"), bound("lies", LIES_H)
    with Module(data) as module, made.Lies(module) as plugin:
        began = time.process_time()
        count = len(raised(Error, plugin.endless))
        same("four million bytes of text are read in seconds", (count > 0, time.process_time() - began < 10), (True, True))
        same("a text that is not UTF-8", raised(Error, plugin.broken).split(":")[0], "broken returned a text that is not UTF-8")
        same("a trap", raised(Stopped, lambda: plugin.fails(b"")).split(",")[0], "fails trapped: unreachable")
        same("its backtrace", "(unreachable)" in (plugin.instance.stop_told(data) or ""), True)


HOST_C = r"""
#include <stdio.h>
#include <stdlib.h>
#include "NAME_host.h"
static uint8_t bytes[1 << 20];
int main(int argc, char **argv)
{
    wasmloop_handle module = WASMLOOP_HANDLE_INIT;
    wasmloop_fault fault;
    bind_plugin plugin = { .limits = { 100000000, 64, 0 } };
    FILE *file = fopen(argv[argc - 1], "rb");
    size_t length = fread(bytes, 1, sizeof bytes, file);
    fclose(file);
    char text[200];
    uint8_t data[10];
    int64_t sum = 0;
    uint8_t small = 0;
    int32_t count = 0, twice = 0, upper = 0, half = 0;
    uint32_t crc = 0;
    bool even = false;
    point a = { -3, 10 }, b = { 9, 20 }, c = { 0, 0 };
    mixed it = { -5, 7, true, 9 };
    int status = wasmloop_load(bytes, length, &module, &fault);
    printf("%d %d", status, NAME_open(&module, &plugin));
    printf(" %d", NAME_add(&plugin, -7, &sum));
    printf(" %d", NAME_narrow(&plugin, -1, 300, true, &small));
    printf(" %d", NAME_words(&plugin, "two words", &count));
    printf(" %d", NAME_crc(&plugin, (const uint8_t *)"abc", 3, &crc));
    printf(" %d", NAME_twice(&plugin, (const uint8_t *)"xyz", 3, data, sizeof data, &twice));
    printf(" %d", NAME_upper(&plugin, "loud", 4, text, sizeof text, &upper));
    printf(" %d", NAME_middle(&plugin, &a, &b, &c, &half));
    printf(" %d", NAME_swapped(&plugin, &it, &it));
    printf(" %d\n", NAME_is_even(&plugin, 1ull << 40, &even));
    printf("%lld %d %d %08x %.6s %.4s ", (long long)sum, small, count, crc, (char *)data, text);
    printf("%d,%d %d,%llu,%d,%d %d\n", c.x, c.y, it.a, (unsigned long long)it.b, it.c, it.d, even);
    printf("%d", NAME_version(&plugin, text, sizeof text));
    printf(" %d", NAME_version(&plugin, text + 100, 20));
    printf(" %d", NAME_forget(&plugin));
    printf(" %d", NAME_middle(&plugin, &b, &a, &c, &half));
    printf(" %d", NAME_twice(&plugin, (const uint8_t *)"xyz", 3, data, 5, &twice));
    plugin.limits.fuel = 40;
    printf(" %d", NAME_crc(&plugin, bytes, 1000, &crc));
    printf(" %s\n", wasmloop_ending_name(plugin.ended.ending));
    wasmloop_drop(&plugin.instance);
    wasmloop_drop(&module);
    return 0;
}
"""
HOST_RUST = r"""
mod NAME;
use NAME::{Failure, Mixed, Point, CLASS};
use wasmloop::{Error, Module};

fn main() -> Result<(), Failure> {
    let bytes = std::fs::read(std::env::args().last().unwrap()).unwrap();
    let mut plugin = CLASS::new(&Module::new(&bytes)?, 100_000_000, 64)?;
    let (a, b) = (Point { x: -3, y: 10 }, Point { x: 9, y: 20 });
    let mixed = plugin.swapped(&Mixed { a: -5, b: 7, c: true, d: 9 })?;
    let c = plugin.middle(&a, &b)?;
    println!("{} {} {} {:08x} {} {} {},{} {},{},{},{} {}", plugin.add(-7)?, plugin.narrow(-1, 300, true)?, plugin.words("two words")?, plugin.crc(b"abc")?,
        String::from_utf8_lossy(&plugin.twice(b"xyz", 10)?), plugin.upper("loud", 10)?, c.x, c.y, mixed.a, mixed.b, mixed.c as u8, mixed.d,
        plugin.is_even(1 << 40)? as u8);
    plugin.forget()?;
    println!("{}", plugin.version()?);
    assert!(matches!(plugin.middle(&b, &a), Err(Failure::Code(-1))));
    assert!(matches!(plugin.twice(b"xyz", 5), Err(Failure::Room(6))));
    assert!(matches!(plugin.words("a\0"), Err(Failure::Text)));
    assert!(matches!(plugin.crc(&vec![0; 5 << 20]), Err(Failure::Memory)));
    assert!(matches!(CLASS::new(&Module::new(&bytes)?, 100, 64)?.crc(&[0; 1000]), Err(Failure::Error(Error::Stopped { .. }))));
    Ok(())
}
"""
WORDS_RUST = r"""
mod words;
use wasmloop::Module;
use words::{Failure, Part, Words};

fn main() -> Result<(), Failure> {
    let bytes = std::fs::read(std::env::args().last().unwrap()).unwrap();
    let mut plugin = Words::new(&Module::new(&bytes)?, 1_000, 64)?;
    println!("{} {}", plugin.match_(6)?, plugin.lambda(&Part { class: 1, type_: 2 })?);
    Ok(())
}
"""
TOLD = "-7 218 2 352441c2 xyzxyz LOUD 3,15 9,18446744073709551608,0,65531 1"


def hosts() -> None:
    """The same functions from C and from Rust."""
    for name in ("kinds", "heap"):
        for compiler, flags in (("gcc", ["-std=c99"]), ("g++", ["-std=c++20"])):
            if not shutil.which(compiler):
                print(f"left out: bind: there is no {compiler}")
                continue
            if compiler == "gcc":
                (OUT / f"{name}_host.c").write_text(HOST_C.replace("NAME", name))
                run(compiler, *flags, "-Wall", "-Wextra", "-Werror", "-g", "-O1", "-fsanitize=address,undefined", "-fno-sanitize-recover", "-I", OUT,
                    "-I", TOP / "capi" / "include", "-o", OUT / f"{name}_host", OUT / f"{name}_host.c", TOP / "dist" / "libwasmloop.a")
                told = run(OUT / f"{name}_host", OUT / f"{name}.wasm").split("\n")
                same(f"the host of {name} in C", told[:3], ["0" + " 0" * 10, TOLD, "0 -3 0 -2 -3 -1 spent"])
            else:
                (OUT / f"{name}_host.cpp").write_text(f'#include "{name}_host.h"\n')
                run(compiler, *flags, "-Wall", "-Wextra", "-Werror", "-fsyntax-only", "-I", OUT, "-I", TOP / "capi" / "include", OUT / f"{name}_host.cpp")
    in_rust()


def in_rust() -> None:
    words = expecting.rustc(OUT)
    if not words:
        print("left out: bind: there is no rustc")
        return
    hosts_of = {name: (HOST_RUST.replace("NAME", name).replace("CLASS", name.capitalize()), TOLD) for name in ("kinds", "heap")}
    for name, (source, told) in {**hosts_of, "words": (WORDS_RUST, "7 12")}.items():
        (OUT / f"{name}_host.rs").write_text(source)
        run(*words, OUT / f"{name}_host.rs")
        same(f"the host of {name} in Rust", run(OUT / f"{name}_host", OUT / f"{name}.wasm").split("\n")[0], told)
    print("bind: hosts in C and Rust get the same")


def orders() -> None:
    """JSON in, JSON out."""
    source = TOP / "examples" / "plugins" / "orders.c"
    data, made = built("orders", source), bound("orders", source.with_suffix(".h").read_text())
    rng, right = random.Random(SEED), 0
    with Module(data) as module, made.Orders(module) as plugin:
        same("warnings of a plug-in", module.warnings, [])
        for _ in range(ORDERS):
            items = [{"price": rng.randrange(10**6), "count": rng.randrange(100)} for _ in range(rng.randrange(8))]
            percent = rng.randrange(101)
            net = sum(it["price"] * it["count"] for it in items)
            tax = net * percent // 100
            text = json.dumps({"items": items, "tax": percent}, indent=rng.choice((None, 2)))
            same(text, json.loads(plugin.sums(text)), {"net": net, "tax": tax, "gross": net + tax})
            cut = rng.randrange(len(text))
            place = -int(raised(bind.Failed, lambda: plugin.sums(text[:cut])).split()[-1])
            same(f"the place in {text[:cut]!r}, or of the name that is cut", cut - len('"items":') < place <= cut + 1, True)
            right += 1
        for text, place in (("", 1), ('{"items": 3}', 11), ('{"tax": 101}', 12), ('{"tax": 7} x', 12), ('{"price": 1}', 2), ('{"tax": 1234567}', 15)):
            same(text, raised(bind.Failed, lambda: plugin.sums(text)), f"sums returned {-place}")
    print(f"bind: {right} orders in JSON, each with its sums, and as many that are cut short, each with its place")


def main() -> bool:
    for tool in ("clang", "wasm-ld"):
        if not shutil.which(tool):
            print(f"left out: bind: there is no {tool}")
            return False
    for part in (kinds, headers, names, lies, hosts, orders):
        part()
    return expecting.wrong != 0


if __name__ == "__main__":
    sys.exit(main())
