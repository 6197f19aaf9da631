"""The guests of desk_test.py: written, compiled, stripped and lowered. A line with a mark `HERE n` is where operation n fails."""

from __future__ import annotations

import random
import re
import shutil
import subprocess
import sys
from pathlib import Path
from typing import Dict, Iterator, Optional, Sequence, Set, Tuple

TRAPS = 100
# what runs, and the module with DWARF
Modules = Tuple[bytes, bytes]
# a source, and of each variant its modules
Guests = Tuple[Path, Dict[str, Modules]]
PANIC: Set[int] = set()                                 # lines of a panic handler, which stands for the line that called it

C_HEAD = """#include "uv.h"
#define APART __attribute__((noinline))
typedef int32_t (*one)(int32_t);
typedef int64_t (*two)(int64_t, int64_t);
static uint8_t in[UV_MAX_BYTES];
static int32_t at(int32_t k) { return in[k & 15]; }
static APART int32_t zero(int32_t k) { return at(k) - at(k + 8); }
static volatile one no_function;
static APART int32_t twice(int32_t n) { return 2 * n; }
static volatile one some_function = twice;
"""

# Each fails in the line that is marked: FUNCTION is static, inlined or not; P and Q are numbers.
C_KINDS = """
int32_t FUNCTION(int32_t n)
{
    int32_t a = at(P) + n;
    return a / zero(n); /* MARK */
}

int32_t FUNCTION(int32_t n)
{
    int32_t a = at(P) * Q + n,
            b = zero(n);
    a ^= 5;
    a = a +
        a % b /* MARK */
        + 1;
    return a;
}

int32_t FUNCTION(int32_t n)
{
    int32_t least = (int32_t)0x80000000u + zero(P);
    return least / (zero(Q) - 1); /* MARK */
}

int32_t FUNCTION(int32_t n)
{
    uint32_t where = 0x7fff0000u + (uint32_t)at(P) * 4;
    return *(volatile int32_t *)where + n; /* MARK */
}

int32_t FUNCTION(int32_t n)
{
    for (int32_t k = 0; k < Q; k++)
        n += at(k);
    *(volatile uint8_t *)(0x10000000u + (uint32_t)n) = 1; /* MARK */
    return n;
}

int32_t FUNCTION(int32_t n)
{
    if (at(P) != 77)
        __builtin_trap(); /* MARK */
    return n;
}

int32_t FUNCTION(int32_t n)
{
    one f = no_function;
    return f(n + Q) + 1; /* MARK */
}

int32_t FUNCTION(int32_t n)
{
    two f = (two)some_function;
    return (int32_t)f(n, P) + 1; /* MARK */
}

int32_t FUNCTION(int32_t n)
{
    switch (at(P) & 1) {
    case 0: n = 7 / zero(n); break; /* MARK0 */
    default: n = at(n) * Q % zero(n) + 3; /* MARK1 */
    }
    return n;
}

int32_t FUNCTION(int32_t n)
{
    int32_t sum = 0;
    while (n < Q)
        if (++n == Q / 2)
            sum += n / zero(sum); /* MARK */
        else
            sum += at(n);
    return sum;
}

int32_t FUNCTION(int32_t n)
{
    double d = (double)at(P) * 1.5;
    d = d / 3.0 + n;
    return (int32_t)d + Q / zero(n); /* MARK */
}
""".strip().split("\n\n")

RUST_HEAD = """#![no_std]
#![allow(dead_code, unused_unsafe)]
#[link(wasm_import_module = "uv")]
extern "C" { fn in_copy(to: *mut u8, from: u32, count: u32) -> i32; }
static mut IN: [u8; 16] = [0; 16];
fn at(k: i32) -> i32 { unsafe { core::ptr::read_volatile(core::ptr::addr_of!(IN).cast::<u8>().add((k & 15) as usize)) as i32 } }
#[inline(never)]
fn zero(k: i32) -> i32 { at(k) - at(k + 8) }
#[panic_handler]
fn panic(_: &core::panic::PanicInfo) -> ! { core::arch::wasm32::unreachable() } // PANIC
"""

# (an operation's line is that on which it begins; NUMBER makes no two alike, of which the compiler would keep one)
RUST_KINDS = """
fn FUNCTION(n: i32) -> i32 {
    let a = at(P) + n + NUMBER;
    a / zero(n) // MARK
}

fn FUNCTION(n: i32) -> i32 {
    let table = [1, 2, 3, n + NUMBER];
    table[(at(P) + 4) as usize] // MARK
}

fn FUNCTION(n: i32) -> i32 {
    let found = if at(P) > 99 + NUMBER { Some(n) } else { None };
    found.unwrap() // MARK
}

fn FUNCTION(n: i32) -> i32 {
    if at(P) < 99 + NUMBER {
        core::arch::wasm32::unreachable() // MARK
    }
    n
}

fn FUNCTION(n: i32) -> i32 {
    let place = (0x7fff0000 + NUMBER * 4 + at(P) * 4) as *const i32;
    unsafe { core::ptr::read_volatile(place) + n } // MARK
}

fn FUNCTION(n: i32) -> i32 {
    let mut sum = 0;
    for k in 0..Q {
        sum += (n + k + NUMBER) % // MARK
            zero(k);
    }
    sum
}

fn FUNCTION(n: i32) -> i32 {
    let d = at(P) as f64 * 1.5 + (n + NUMBER) as f64;
    d as i32 / zero(Q) // MARK
}
""".strip().split("\n\n")


def marked(source: Path) -> Dict[int, int]:
    """Of each operation the line where it was planted to fail."""
    found = {}
    for number, line in enumerate(source.read_text().split("\n"), 1):
        mark = re.search(r"HERE (\d+)", line)
        if mark:
            found[int(mark[1])] = number
        if "// PANIC" in line:
            PANIC.add(number)
    return found


def functions(kinds: Sequence[str], rng: random.Random, apart: Tuple[str, str], here: str) -> Iterator[Tuple[int, str]]:
    """The functions that fail, half of them inlined into another."""
    for number in range(TRAPS):
        p, q = rng.randrange(8), rng.randrange(12, 40)
        text = re.sub(r"\bP\b", str(p), re.sub(r"\bQ\b", str(q), kinds[number % len(kinds)]))
        text = text.replace("FUNCTION", f"fails_{number}").replace("NUMBER", str(number))
        taken = p + 1 & 1                               # (a request's bytes are 1, 2, ..)
        text = text.replace(f"MARK{taken}", here.format(number)).replace(f"MARK{1 - taken}", "no").replace("MARK", here.format(number))
        yield number, apart[0 if number % 2 else 1] + text


def with_globals() -> bytes:
    """A module whose start function adds 10 to a global of 5, whose `init`, of short blocks, makes globals negative and writes memory, and whose work function
    answers the sum of all that and its operation: 16 + op before init, op - 25 after it."""
    from wasmloop.wasm import CODE, EXPORT, FUNCTION, GLOBAL, I32, I64, MEMORY, START, TYPE, Module, constant, sized, text, u, vec
    start = bytes.fromhex("2300410a6a2400" "0b")
    init = bytes.fromhex("41b37f23006a2400" "024041000d0041000d000b" "427b2401" "4110412a360200" "0b")
    work = bytes.fromhex("23002301a76a" "41102802006a" "20006a" "0b")
    return Module(b"\0asm\1\0\0\0").written({
        TYPE: vec([b"\x60\0\0", bytes([0x60, 1, I32, 1, I32])]), FUNCTION: vec([u(0), u(0), u(1)]), MEMORY: vec([b"\0\1"]), START: u(0),
        GLOBAL: vec([bytes([I32, 1]) + constant(I32, 5), bytes([I64, 1]) + constant(I64, 1)]),
        EXPORT: vec([text("init") + b"\0\1", text("uv_work") + b"\0\2"]), CODE: vec([sized(b"\0" + it) for it in (start, init, work)])})


def run(*words: object) -> None:
    subprocess.run([str(it) for it in words], check=True, capture_output=True)


def built(out: Path, examples: Path, name: str) -> Optional[Path]:
    """The guest of capi/test/NAME.c or of this file, compiled with lines, or None without a compiler."""
    if not (shutil.which("clang") and shutil.which("wasm-ld")):
        return None
    made, source = out / f"{name}.wasm", Path(__file__).with_name("desk") / f"{name}.c"
    if not source.is_file():
        source = Path(__file__).with_name(f"{name}.c")
    if not made.is_file():
        compiled(out, examples, source, made)
    return made


def compiled(out: Path, examples: Path, source: Path, made: Path, level: str = "-O1") -> None:
    for file in (source, examples / "mem.c"):
        run("clang", "--target=wasm32", "-mcpu=mvp", level, "-g", "-ffreestanding", "-I", examples, "-c", "-o", out / f"{file.stem}.o", file)
    run("wasm-ld", "--no-entry", "--export-table", "--stack-first", "-z", "stack-size=16384", "-o", made, out / f"{source.stem}.o", out / "mem.o")


def has_fuzzer() -> bool:
    found = subprocess.run(["clang", "-print-resource-dir"], stdout=subprocess.PIPE, check=False).stdout.decode().strip()
    return any(Path(found).glob("lib/linux/libclang_rt.fuzzer-x86_64.a"))


def soft(out: Path, examples: Path) -> Path:
    made = out / "soft.so"
    if not made.is_file():
        run("clang", "--target=wasm32", "-mcpu=mvp", "-O2", "-ffreestanding", "-c", "-o", out / "soft.o", examples / "kit/soft.c")
        run("wasm-ld", "--no-entry", "--strip-all", "-o", made, out / "soft.o")
    return made


def lowered(out: Path, examples: Path, before: Path, after: Path) -> bytes:
    run(sys.executable, examples / "kit/lower.py", before, after, "--soft", soft(out, examples))
    return after.read_bytes()


def stripped(data: bytes) -> bytes:
    """Without its custom sections: what `wasm-strip` leaves."""
    from wasmloop import wasm
    return wasm.Module(data).written({}, dropped=(0,))


def in_c(out: Path, examples: Path) -> Guests:
    """The source, and of each variant what ran and the debug module."""
    source, rng = out / "traps.c", random.Random(3)
    variants: Dict[str, Modules] = {}
    made = "\n\n".join(text for _, text in functions(C_KINDS, rng, ("static APART ", "static inline "), "HERE {}"))
    cases = "\n".join(f"static APART int32_t op_{it}(int32_t n) {{ return fails_{it}(n) + 1; }}" for it in range(TRAPS))
    table = ", ".join(f"op_{it}" for it in range(TRAPS))
    source.write_text(f"{C_HEAD}\n{made}\n\n{cases}\n\nstatic const one ops[] = {{ {table} }};\n\nUV_WORK(operation)\n{{\n"
                      "    uv_in_copy(in, 0, uv_in_len());\n    return ops[operation](zero(1)) + 1;\n}\n")
    for level in ("-O1", "-O2"):
        compiled(out, examples, source, out / "traps.debug", level)
        ran = lowered(out, examples, out / "traps.debug", out / f"traps{level}.wasm")
        variants[f"lowered without floats, {level}"] = ran, (out / "traps.debug").read_bytes()
    variants.update(without_floats(out, examples))
    return source, variants


def without_floats(out: Path, examples: Path) -> Iterator[Tuple[str, Modules]]:
    """Guests that need no lowering, as they are, stripped, and linked with shorter numbers. Their source has the name of the others', so that
    the marks of one file serve for all."""
    text = (out / "traps.c").read_text()
    text = re.sub(r"double d = \(double\)at\((\d+)\) \* 1.5;", r"int32_t d = at(\1) * 3;", text).replace("d = d / 3.0 + n;", "d = d / 3 + n;")
    folder = out / "whole"
    folder.mkdir(exist_ok=True)
    (folder / "traps.c").write_text(text)
    for level in ("-O1", "-O2"):
        compiled(folder, examples, folder / "traps.c", folder / "traps.wasm", level)
        data = (folder / "traps.wasm").read_bytes()
        yield f"as it is, {level}", (data, data)
        yield f"stripped, {level}", (stripped(data), data)
        run("wasm-ld", "--no-entry", "--export-table", "--stack-first", "--strip-debug", "--compress-relocations", "-z", "stack-size=16384", "-o",
            folder / "short.wasm", folder / "traps.o", folder / "mem.o")
        yield f"linked with shorter numbers, {level}", ((folder / "short.wasm").read_bytes(), data)


def rust(source: Path, made: Path, *words: str) -> bool:
    """Compiles a guest in Rust, by the first rustc that can. Returns False if rustc or its target is missing."""
    for rustc in filter(None, map(shutil.which, ("rustc", "/usr/bin/rustc"))):
        try:
            run(rustc, "--edition=2021", "--crate-type=cdylib", "--target=wasm32-unknown-unknown", "-Copt-level=2", "-Cpanic=abort", "-g",
                "-Clinker=wasm-ld", "-Clink-arg=-zstack-size=16384", *words, "-o", made, source)
            return True
        except subprocess.CalledProcessError as why:
            if b"can't find crate" not in why.stderr and b"may not be installed" not in why.stderr:
                raise SystemExit(why.stderr.decode()) from None
    return False


def in_rust(out: Path, examples: Path) -> Optional[Guests]:
    """The same in Rust."""
    source, rng = out / "traps.rs", random.Random(4)
    made = "\n\n".join(text for _, text in functions(RUST_KINDS, rng, ("#[inline(never)]\n", "#[inline(always)]\n"), "HERE {}"))
    cases = "\n".join(f"#[inline(never)]\nfn op_{it}(n: i32) -> i32 {{ fails_{it}(n) + 1 }}" for it in range(TRAPS))
    table = ", ".join(f"op_{it}" for it in range(TRAPS))
    source.write_text(f"{RUST_HEAD}\n{made}\n\n{cases}\nstatic OPS: [fn(i32) -> i32; {TRAPS}] = [{table}];\n"
                      '#[no_mangle]\npub extern "C" fn uv_work(op: i32) -> i32 {\n'
                      "    unsafe { in_copy(core::ptr::addr_of_mut!(IN).cast(), 0, 16) };\n    OPS[op as usize](zero(1)) + 1\n}\n")
    if not rust(source, out / "traps_rust.debug"):
        return None
    debug = (out / "traps_rust.debug").read_bytes()
    ran = lowered(out, examples, out / "traps_rust.debug", out / "traps_rust.wasm")
    return source, {"lowered without floats": (ran, debug), **rust_without_floats(out)}


def rust_without_floats(out: Path) -> Dict[str, Modules]:
    """Guests that need no lowering, as they are and stripped. (The linker keeps the lines of all of `core`, too many for a module, unless the
    compiler sees the whole program.)"""
    folder = out / "whole"
    folder.mkdir(exist_ok=True)
    text = (out / "traps.rs").read_text()
    (folder / "traps.rs").write_text(text.replace(" as f64 * 1.5", " * 3").replace(" as f64;", ";"))
    rust(folder / "traps.rs", folder / "traps_rust.wasm", "-Clto=fat", "-Ctarget-cpu=mvp")
    data = (folder / "traps_rust.wasm").read_bytes()
    return {"as it is": (data, data), "stripped": (stripped(data), data)}
