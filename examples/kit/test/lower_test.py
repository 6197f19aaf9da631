#!/usr/bin/env python3
"""What lower.py must refuse, by name, what it must take, and the names that it keeps. Wants wabt's wat2wasm, and as its arguments
SOFT.wasm and the program."""

from __future__ import annotations

import pathlib
import subprocess
import sys
import tempfile
from typing import Iterator

sys.path.insert(0, str(pathlib.Path(__file__).resolve().parent.parent))
import lower  # noqa: E402
from wasmloop.lowering.binary import Refused, operations  # noqa: E402
from wasmloop.lowering.floats import SIGNS, SOFT  # noqa: E402
from wasmloop.lowering.module import Module  # noqa: E402
from wasmloop.lowering.rewriting import FLOATS  # noqa: E402

REFUSED = [
    ("(func (drop (ref.null func)))", "references (compile with -mno-reference-types), in function 0"),
    ("(func $add (drop (i8x16.splat (i32.const 0))))", "SIMD (compile with -mno-simd128), in function 0 (add)"),
    ("(func (param v128))", "SIMD"),
    ("(memory 1 1 shared) (func (drop (i32.atomic.load (i32.const 0))))", "threads"),
    ("(memory 1) (func (drop (i32.atomic.load (i32.const 0))))", "threads"),
    ("(tag) (func (throw 0))", "exceptions"),
    ("(func (try (do) (catch_all)))", "exceptions"),
    ("(func $f (return_call $f))", "tail calls"),
    ("(table 1 externref)", "references"),
    ("(table 1 funcref) (table 1 funcref)", "more than one table"),
    ("(memory i64 1)", "limits of the kind 4"),
    ("(table 1 funcref) (func) (elem $e func 0) (func (table.init $e (i32.const 0) (i32.const 0) (i32.const 0)))", "table.init"),
    ("(table 1 funcref) (func (table.copy (i32.const 0) (i32.const 0) (i32.const 0)))", "table.copy"),
    ("(table 1 funcref) (func) (elem (i32.const 0) 0) (elem (i32.const 0) funcref (ref.null func))", "a null in an element segment"),
    ("(table 1 funcref) (elem (i32.const 1) funcref (ref.null func))", "a null in an element segment"),
    ('(import "env" "sin" (func (param f64) (result f64)))', '"env" "sin"'),
    ('(import "uv" "g" (global f64))', '"uv" "g", which is no function'),
    ('(import "uv" "m" (memory 1))', '"uv" "m", which is no function'),
    ('(import "uv" "emit" (func (param f64) (result i32)))', '"uv" "emit", which has floats in its type'),
    ('(func (export "uv_work") (param f32) (result i32) i32.const 0)', '"uv_work", which has floats in its type'),
    ('(import "env" "emscripten_longjmp" (func (param i32 i32))) (func (call 0 (i32.const 0) (i32.const 0)))', "setjmp.c"),
]
# Bodies that mix up floats and integers, or are wrong in another way, in a module with the rest below; and what is said.
MIXED = [
    ("(drop (i32.add (i32.const 1) (f32.const 1)))", "expected i32, found f32"),
    ("(drop (i64.add (i64.const 1) (f64.const 1)))", "expected i64, found f64"),
    ("(drop (f64.add (f64.const 1) (f32.const 1)))", "expected f64, found f32"),
    ("(drop (select (i32.const 1) (f32.const 1) (i32.const 0)))", "expected f32, found i32"),
    ("(drop (select (result f32) (i32.const 1) (f32.const 1) (i32.const 0)))", "expected f32, found i32"),
    ("(local.set 0 (f32.const 1))", "expected i32, found f32"),
    ("(global.set 0 (i64.const 1))", "expected f64, found i64"),
    ("(drop (block (result f32) (i32.const 1)))", "expected f32, found i32"),
    ("(drop (block (result i32) (br 0 (f32.const 1))))", "expected i32, found f32"),
    ("(drop (loop (result i64) (f64.const 1)))", "expected i64, found f64"),
    ("(drop (if (result f32) (i32.const 1) (then (f32.const 1)) (else (i32.const 1))))", "expected f32, found i32"),
    ("(drop (call 0 (f32.const 1)))", "expected i32, found f32"),
    ("(drop (call_indirect (param f32) (result i32) (i32.const 1) (i32.const 0)))", "expected f32, found i32"),
    ("(f32.store (i32.const 0) (i32.const 0))", "expected f32, found i32"),
    ("(drop (i32.load (f32.const 0)))", "expected i32, found f32"),
    ("(return (f32.const 1))", "expected i32, found f32"),
    ("(drop (i32.reinterpret_f32 (i32.const 1)))", "expected f32, found i32"),
    ("(drop (f32.neg (i32.const 1)))", "expected f32, found i32"),
    ("(block (result f32) (i32.const 1) (br_table 0 0 (i32.const 0))) drop", "expected f32, found i32"),
    ("(unreachable) (drop (i32.add (f32.const 1)))", "expected i32, found f32"),
    ("(drop (f32.add (f32.const 1)))", "expected f32, found no operand"),
    ("(f32.const 1)", "a block leaves more operands"),
    ("(drop (if (result f32) (i32.const 1) (then (f32.const 1))))", "an if without an else"),
    ("(unreachable) (f32.add) (drop) (br_table 0 0) (i64.add) (drop)", ""),
    ("(block (result f32) (unreachable) (select) (br_table 0 0)) drop", ""),
    ("(drop (block (result f64) (br_if 0 (f64.const 1) (i32.const 1)) (br 0) (drop)))", ""),
    ("(drop (f64.promote_f32 (f32.load (i32.const 0)))) (return (i32.const 0)) (f64.add) (drop)", ""),
    ("(block (param f32) (result f64) (f64.promote_f32))", "expected f32, found no operand"),
    ("(f32.const 1) (block (param f32) (result f64) (f64.promote_f32)) (drop)", ""),
]
REST = '(memory 1) (table 1 funcref) (global (mut f64) (f64.const 0)) (func (param i32) (result i32) (local i64) %s (i32.const 0))'
# Functions whose types become one through the table: the second is called as the first, and traps as it did; and the first.
THROUGH_TABLE = """(type $f (func (param i32) (result i32))) (type $g (func (param f32) (result i32))) (type $h (func (param i32 i32) (result i32)))
    (table funcref (elem $int $float $two))
    (func $int (type $f) (i32.add (local.get 0) (i32.const 1)))
    (func $float (type $g) (i32.add (i32.reinterpret_f32 (local.get 0)) (i32.const 2)))
    (func $two (type $h) (i32.add (local.get 0) (local.get 1)))
    (func (export "int") (param i32) (result i32) (call_indirect (type $f) (i32.const 40) (local.get 0)))
    (func (export "float") (param i32) (result i32) (call_indirect (type $g) (f32.reinterpret_i32 (i32.const 40)) (local.get 0)))
    (func (export "two") (param i32) (result i32) (call_indirect (type $h) (i32.const 40) (i32.const 5) (local.get 0)))"""
TABLE = {("int", 0): "41", ("int", 1): "trap", ("int", 2): "trap", ("float", 0): "trap", ("float", 1): "42", ("float", 2): "trap",
         ("two", 0): "trap", ("two", 1): "trap", ("two", 2): "45"}
# Bytes that wat2wasm doesn't write, behind the header; what is refused, or "" where the module is taken.
BYTES = [
    (b"", ""),
    (b"\x05\x03\x01\x00\x01", ""),
    (b"\x05\x03\x01\x08\x01", "limits of the kind 8"),
    (b"\x05\x05\x02\x00\x01\x00\x01", "more than one memory"),
    (b"\x05\x03\x01\x00", "the bytes end early"),
    (b"\x05\x03\x01\x00\x01\x0c\x01\x01", "a count of functions or data segments"),
    (b"\x05\x03\x01\x00\x01\x0b\x02\x01\x03", "a segment of the kind 3"),
    (b"\x05\x03\x01\x00\x01\x0b\x07\x01\x02\x01\x41\x00\x0b\x00", "more than one memory"),
    (b"\x06\x09\x01\x7f\x00\x41\x02\x41\x03\x6c\x0b", ""),
    (b"\x06\x06\x01\x7f\x00\x23\x00\x0b", "in a constant expression"),
    (b"\x00\x06\x04name\x07", ""),
    (b"\x00\x08\x07linking", "an object file"),
    (b"\x0d\x01\x00", "exceptions"),
    (b"\x01\x04\x01\x60\x00\x00\x03\x02\x01\x01\x0a\x04\x01\x02\x00\x0b", "a type 1 that isn't there"),
    (b"\x01\x04\x01\x60\x00\x00\x03\x02\x01\x00\x0a\x07\x01\x05\x00\x23\x00\x1a\x0b", "a global 0 that isn't there"),
    (b"\x01\x04\x01\x60\x00\x00\x03\x02\x01\x00\x0a\x06\x01\x04\x00\x10\x01\x0b", "a function 1 that isn't there"),
    (b"\x07\x05\x01\x01\x61\x03\x00", "a global 0 that isn't there"),
    (b"\x05\x04\x01\x00\x01\x00", "a section with bytes left over"),
    (b"\x05\x08\x01\x00\x81\x80\x80\x80\x80\x00", "a number in too many bytes"),
    (b"\x05\x07\x01\x00\x81\x80\x80\x80\x10", "a number of more than 32 bits"),
    (b"\x05\x07\x01\x00\x81\x80\x80\x80\x00", ""),
    (b"\x05\x03\x01\x00\x01\x05\x03\x01\x00\x01", "section 5, which isn't known or stands behind section 5"),
]
NAMED = """(func $first (export "f") (param f64) (result f64) (f64.add (local.get 0) (f64.const 1)))
    (func $second (result i32) (i32.trunc_sat_f32_u (f32.const 3)))"""
FORMS = """(memory 1) (table 3 funcref) (data $p "passive") (data (i32.const 9) "active") (func $f) (elem declare func $f)
    (elem (i32.const 0) funcref (ref.func $f) (ref.null func) (ref.func $f))
    (func (memory.copy (i32.const 0) (i32.const 0) (i32.const 0)) (memory.fill (i32.const 0) (i32.const 0) (i32.const 0))
        (memory.init $p (i32.const 0) (i32.const 0) (i32.const 0)) (data.drop $p)
        (drop (select (result i32) (i32.const 1) (i32.const 2) (i32.const 3))))"""
TOLD = ["1 memory.init, 1 data.drop, 1 memory.copy, 1 memory.fill: added 4 functions", "1 data segments that can be dropped",
        "segments of the memory in forms", "segments of the table in forms", "1 select with a type", "left out: datacount"]


def module(text: str) -> bytes:
    with tempfile.TemporaryDirectory() as folder:
        source, target = pathlib.Path(folder) / "m.wat", pathlib.Path(folder) / "m.wasm"
        source.write_text(f"(module {text})")
        subprocess.run(["wat2wasm", "--no-check", "--enable-all", "--debug-names", source, "-o", target], check=True)
        return target.read_bytes()


def refused(data: bytes, soft: bytes | None) -> str:
    try:
        lower.lower(data, soft)
    except Refused as why:
        return str(why)
    return ""


def is_plain(data: bytes) -> bool:
    """Whether a module is of WebAssembly 1.0 as the host takes it, as far as lower.py sees."""
    again, lowering = lower.lower(data, None)
    return not lowering.told() and all(op not in (0xFC, 0x1C) for _, body in Module(again).bodies for op, _, _ in operations(body))


def through_table(program: str, data: bytes) -> Iterator[tuple[tuple[str, int], str]]:
    """What the program answers of calls through the table of a module."""
    with tempfile.TemporaryDirectory() as folder:
        target = pathlib.Path(folder) / "m.wasm"
        target.write_bytes(data)
        for name, at in TABLE:
            words = [program, "invoke", str(target), name, str(at)]
            told = subprocess.run(words, stdout=subprocess.PIPE, stderr=subprocess.DEVNULL, check=False).stdout.decode().split()
            yield (name, at), "trap" if told[:2] == ["trap", "7"] else told[1]


def main(path: str, program: str | None = None) -> bool:
    soft = pathlib.Path(path).read_bytes()
    wrong = [f"{text}: {refused(module(text), soft) or 'taken'}" for text, words in REFUSED if words not in refused(module(text), soft)]
    for body, words in MIXED:
        told = refused(module(REST % body), soft)
        if words not in told or not words and told:
            wrong.append(f"{body}: {told or 'taken'}")
    table, _ = lower.lower(module(THROUGH_TABLE), soft)
    if program and dict(through_table(program, table)) != TABLE:
        wrong.append(f"through the table: {dict(through_table(program, table))}")
    header = b"\0asm\1\0\0\0"
    for data, words in BYTES:
        told = refused(header + data, soft)
        if words not in told or not words and told:
            wrong.append(f"{data.hex()}: {told or 'taken'}")
    wrong += [f"{data!r}: taken" for data in (b"", b"\0asm\2\0\0\0", b"(module)") if not refused(data, soft)]
    there = {name.decode() for name, _, _ in Module(soft).exports}
    wrong += [f"{name}: no such function in soft.c" for op, name in SOFT.items()
              if op not in SIGNS and f"soft.{name}" not in there]
    if "f64.add" not in refused(module(NAMED), None):
        wrong.append("without SOFT.wasm a sum is not refused")
    lowered, lowering = lower.lower(module(NAMED), soft)
    names = {name.decode() for _, name in Module(lowered).names}
    if lowering.counts[FLOATS] != 2 or not {"first", "second", "soft.f64.add", "soft.i32.trunc_sat_f32_u"} <= names:
        wrong.append(f"{lowering.counts}, names {names}")
    plain, lowering = lower.lower(module(FORMS))
    wrong += [f"not told: {words}" for words in TOLD if not any(words in line for line in lowering.told())]
    wrong += ["what came out is not of 1.0" for data in (lowered, plain) if not is_plain(data)]
    print("\n".join(wrong) or f"lower: {len(REFUSED) + len(BYTES) + len(MIXED)} refused by name or taken, names kept"
          + (f", {len(TABLE)} calls through a table" if program else ""))
    return bool(wrong)


if __name__ == "__main__":
    sys.exit(main(*sys.argv[1:]))
