#!/usr/bin/env python3
"""Compares what the crates say of each operation with its row in tools/operations.txt, and writes what can be written.

    python3 tools/operations.py               status 1 if a place differs from the table, lacks a row or has one more
    python3 tools/operations.py --write       writes the places of which the table has all; then the same
    python3 tools/operations.py --rows NAME   what each place has to say of an operation, and in which line, or behind which one if it isn't there
    python3 tools/operations.py --self-test   plants a fault in a copy of each place; status 1 if one isn't found, or a row more isn't written
"""
from __future__ import annotations

import re
import sys
from typing import Iterator

from rows import ByOpcode, Listed, Place, Row, Types, keep, write
from sequences import table as noted_table
from sources import Sources, asked, finish, plant, unwritten

TABLE = "tools/operations.txt"
SORTS = {"Unary": "IntUnary", "Binary": "IntBinary", "Compare": "IntCompare", "Convert": "Conversion"}
FIELDS = {"blocktype": "(BlockForm, u16, u32)", "label": "(u16, u32)", "labels": "(u16, u32)", "memarg": "(u8, u32)"}
OPERATORS, NUMERIC = "Unary|Binary|Compare", "Unary|Binary|Compare|Eqz|Convert"
INDEX, BRACKET = "label|function|local|global", "blocktype|else|end"
# (what tools/sequences.py writes)
NOTED = tuple(it.name for it in noted_table())
DISPATCHED = tuple(f"{of}_{kind}" for of in ("i32", "i64") for kind in ("unary", "binary", "compare"))


class Operation(Row):
    """An operation, as the table has it."""

    def __init__(self, core: str, line: str) -> None:
        code, self.name, self.variant, told, self.type, self.behind = (["" if it == "-" else it for it in re.split(r" {2,}", line)] + [""] * 5)[:6]
        self.core, self.code, self.hex = core, int(code, 16), "0x" + code
        self.kind, self.words = told.partition(" ")[0], told.split()[1:]
        self.last, self.width = self.words[-1] if self.words else "", self.words[1] if len(self.words) > 1 else ""
        self.of, self.function, self.lower = self.name[:3].upper(), self.name.replace(".", "_"), self.kind.lower()
        self.sort, self.letter, self.bits, self.fields = SORTS.get(self.kind), self.lower[:1], self.name[1:3], FIELDS.get(self.behind, "(u32)")
        self.computes = re.sub(r"extend(\d+)_s", r"extend_s \1", self.name.partition(".")[2])
        self.rust = ", ".join(f"{self.sort}::{word}" if self.sort and word == self.last else word for word in self.words)
        self.antt = " ".join([self.kind] + [f"{self.lower}.{word}" if self.sort and word == self.last else word for word in self.words])
        known = {self.name, f"{self.kind} {self.of}", self.kind or "-", self.behind or "-", "*"}
        self.marks = frozenset(known if self.variant else {f"float {self.behind}", "float"})
        self.extends, self.typed = self.last.lower(), self.name[:3]
        self.takes = self.type.upper().partition(" -> ")[0]
        self.leaves = self.type.upper().partition(" -> ")[2]

    def of_all(self, rows: list[Operation]) -> None:
        """What the table says of it beside others: its place among the operators of its kind and type, the names of both types' operator."""
        alike = [row for row in rows if row.sort and row.kind == self.kind]
        self.index = self.code - min([row.code for row in alike if row.of == self.of], default=self.code)
        self.names = "; ".join(row.name for row in alike if row.last == self.last)


def table(sources: Sources) -> list[Operation]:
    core, rows = "", []
    for line in sources.text(TABLE).split("\n"):
        if line.startswith("Core"):
            core = line
        elif line and not line.startswith("#"):
            rows.append(Operation(core, line))
    for row in rows:
        row.of_all(rows)
    return rows


SYNTAX, CODES, PLACES = "crates/syntax/src", "crates/syntax/specs/Instructions.antt", "crates/places/src/operations.rt"
OPS, TESTS = f"{SYNTAX}/ops.rt", "crates/test_modules/src/operators.rt"
HEAD, READS, RULES = "crates/decode/src/head.rt", "crates/decode/src/code.rt", "crates/validate/src/instructions.rt"
INT, DOC, AT = r"^/// `(?P<text>i\d\d\.\w+)`(?:(?!pub fn).)*pub fn (?P<key>\w+)\(", "/// `{name}`: ..\npub fn {function}(", "at, slots, top"
VARIANT = r"^ *(?P<key>\w+)(?:\([^\n]*\))?,$"
OP = r"^(?P<in> *)(?:Op::|noted!\()(?P<key>\w+)(?:\([^)]*\))?\)? =>\s(?P<text>[^\n]*(?:\n(?P=in) {4}[^\n]*)*(?:\n(?P=in)\))?)"
INDEXED = r"^ *Indexed::(?P<key>\w+) => [^\n]*"
WHOLE = r"\Z"
WIDE = "(Width::{width}, Extension::{last}) => "
ALL = [
    Place("crates/syntax/src/op.rt", {"else": "Else(u16, u32),", "*": "{variant}{fields},"}, VARIANT, r"pub enum Op \{", besides=("Long", *NOTED)),
    Place("crates/syntax/src/operator.rt", {f"{OPERATORS}|Convert": "{last},"}, r"^ *(?P<key>\w+),$",
          besides=("Signed", "Unsigned", "One", "Two", "Four"), end=WHOLE, grouped=True),
    Place("crates/syntax/src/instruction.rt", {
        OPERATORS: "{kind}(ValType, {sort}),", "Convert": "Convert(Conversion),", "Eqz": "Eqz(ValType),", "Const": "Const(Value),",
        "Load|Store": "{kind}(ValType, MemArg),", "LoadNarrow": "LoadNarrow(ValType, Width, Extension, MemArg),",
        "StoreNarrow": "StoreNarrow(ValType, Width, MemArg),", "labels": "BrTable(Lent<'a, u32>, u32),", "blocktype": "{variant}(BlockType),",
        f"{INDEX}|type": "{variant}(u32),", "*": "{variant},"}, VARIANT, besides=("Plain",), end=WHOLE, grouped=True),
    Place("crates/syntax/specs/Operations.antt", {
        "else": "operation_of (flat.Else _ _) = op.Else", "end": "operation_of (flat.End _) = op.End",
        "blocktype": "operation_of (flat.{variant} form _ index) = op.{variant} (block_type_of form index)",
        "labels": "operation_of (flat.BrTable _ _) = op.Plain instr.Nop", "label": "operation_of (flat.{variant} _ label) = op.Plain (instr.{kind} label)",
        "type": "operation_of (flat.{variant} type_index) = op.Plain (instr.{kind} type_index)",
        INDEX: "operation_of (flat.{variant} {behind}) = op.Plain (instr.{kind} {behind})",
        "memarg": "operation_of (flat.{variant} align offset) = op.Plain (instr.{antt} (arg align offset))",
        "i32": "operation_of (flat.I32Const number) = op.Plain (instr.Const (value.I32 number))",
        "i64": "operation_of (flat.I64Const low) = op.Plain (instr.Const (value.I64 (sign_extended low)))",
        "Convert": "operation_of (flat.{variant} _) = op.Plain (instr.Convert convert.{last})",
        NUMERIC: "operation_of (flat.{variant} _) = op.Plain (instr.{antt})", "*": "operation_of (flat.{variant} _) = op.Plain instr.{kind}"},
        r"^operation_of \(?flat\.(?P<key>\w+)[^\n]*", "operation_of : ", besides=("Long", *NOTED)),
    Place(OPS, {
        f"{BRACKET}|labels": None, "label": "Op::{variant}(_, label) => Instr::{kind}(*label),",
        "type": "Op::{variant}(type_index) => Instr::{kind}(*type_index),",
        INDEX: "Op::{variant}({behind}) => Instr::{kind}(*{behind}),", "memarg": "Op::{variant}(align, offset) => Instr::{kind}({rust}, arg(*align, *offset)),",
        "i32": "Op::I32Const(number) => Instr::Const(Value::I32(*number)),", "i64": "Op::I64Const(low) => Instr::Const(Value::I64(sign_extend(*low))),",
        NUMERIC: "Op::{variant}(_) => Instr::{kind}({rust}),", "*": "Op::{variant}(_) => Instr::{kind},"}, OP, "fn instr_of"),
    Place(OPS, {"blocktype": "Op::{variant}(form, _, index) => Token::{variant}(block_type(*form, *index)),", "else": "Op::Else(..) => Token::Else,",
                "end": "Op::End(_) => Token::End,"}, OP, r"pub fn operation\(&self\) -> Token"),
    Place("crates/syntax/src/coded_op.rt", {
        "Load|Store": "Access::{kind}({of}) => Some(Op::{variant}(align, offset)),", "LoadNarrow I32": WIDE + "Some(Op::{variant}(align, offset)),",
        "LoadNarrow": WIDE + "Op::{variant}(align, offset),", "StoreNarrow": "({of}, Width::{width}) => Some(Op::{variant}(align, offset)),"},
        r"^ *[^\n]*=> (?:Some\()?Op::(?P<key>\w+)\(align, offset\)\)?", "fn i32_load_op", r"\nimpl", grouped=True),
    Place(CODES, {
        "Binary|Compare": "-- {core}: {names}\n{lower}_index {lower}.{last} = {index}",
        "LoadNarrow": "-- {core}: {name}\nnarrow_load {of} {width} {last} = {hex}",
        "StoreNarrow": "-- {core}: {name}\nnarrow_store {of} {width} = {hex}", "Unary": "-- {core}: {name}\nunary_opcode {of} unary.{last} = {hex}",
        "Const": "-- {core}: {name}\nopcode (instr.Const (value.{of} _)) = {hex}", "Eqz": "-- {core}: {name}\nopcode (instr.Eqz {of}) = {hex}",
        "memarg": "-- {core}: {name}\nopcode (instr.{antt} _) = {hex}", "Convert": "-- {core}: {name}\nopcode (instr.Convert {last}) = {hex}",
        "labels": "-- {core}: {name}\nopcode (instr.{kind} _ _) = {hex}", f"{INDEX}|type": "-- {core}: {name}\nopcode (instr.{kind} _) = {hex}",
        BRACKET: None, "*": "-- {core}: {name}\nopcode instr.{kind} = {hex}"},
        r"^-- Core [^\n]*\n(?P<key>(?:narrow|unary|opcode)[^=\n]*|(?:binary|compare)_index [^=\n]*) = \w+", r"opcodes \(5", r"\n-- ---- what", grouped=True),
    Place(CODES, {"i32.eq|i64.eq|i32.add|i64.add": "opcode (instr.{kind} {of} {letter}) = {hex} + {lower}_index {letter}"},
          r"^(?P<key>opcode [^=\n]*) = \w+ \+ [^\n]*", "pub opcode : "),
    Place(CODES, {
        "label": "immediates (instr.{kind} label) = u32 label",
        "labels": "immediates (instr.{kind} labels default) = vec_upto MAX_LABELS u32 labels ⨾ u32 default",
        "function": "immediates (instr.{kind} function) = u32 function", "type": "immediates (instr.{kind} type) = u32 type ⨾ byte 0x00",
        INDEX: "immediates (instr.{kind} x) = u32 x", "Load|Store": "immediates (instr.{kind} _ m) = mem_arg m", "zero": "immediates instr.{kind} = byte 0x00",
        "LoadNarrow": "immediates (instr.{kind} _ _ _ m) = mem_arg m", "StoreNarrow": "immediates (instr.{kind} _ _ m) = mem_arg m",
        "Const": "immediates (instr.Const (value.{of} n)) = spelled_residue {bits} n"},
        r"^immediates \(?instr\.(?P<key>[^=\n]*) = (?!nothing|exactly)[^\n]*", "immediates : "),
    Place("crates/syntax/specs/Inner/Payloads.antt", {
        "label": "payload (instr.{kind} l) = Index l", "labels": "payload (instr.{kind} ls l) = Table ls l", "function": "payload (instr.{kind} f) = Index f",
        "type": "payload (instr.{kind} t) = Indirect t", INDEX: "payload (instr.{kind} x) = Index x", "zero": "payload (instr.{kind}) = Reserved",
        "Load|Store": "payload (instr.{kind} t m) = Access m", "LoadNarrow": "payload (instr.{kind} t w e m) = Access m",
        "StoreNarrow": "payload (instr.{kind} t w m) = Access m", "Const": "payload (instr.Const (value.{of} n)) = Number {bits} n"},
        r"^payload \(instr\.(?P<key>[^=\n]*) = (?!Never)[^\n]*", "payload : "),
    Listed("crates/syntax/proofs/InstructionLaws.antt", {
        "labels": "instr.BrTable [] 0", f"{INDEX}|type": "instr.{kind} 0", "memarg": "instr.{antt} no_access", "Const": "instr.Const (value.{of} 0)",
        "Convert": "instr.Convert {last}", NUMERIC: "instr.{antt}", BRACKET: None, "*": "instr.{kind}"},
        r"(?P<text>instr\.[^∷]*)", "^table =", "instr.Unreachable"),
    Place("crates/syntax/specs/Inner/Tokens.antt", {
        "blocktype": "token (op.{variant} t) = byte {hex} ⨾ block_type t", "else|end": "token op.{variant} = byte {hex}"},
          r"^token \(?op\.(?P<key>(?!Plain)\w+)[^\n]*", "token : "),
    Place(CODES, {"block|loop": "structured_opcode As{variant} = {hex}"}, r"^structured_opcode As(?P<key>\w+)[^\n]*", "structured_opcode : "),
    Place(CODES, {"if": "sequence ({variant} = byte {hex}"}, r"^sequence \((?P<key>If)[^=]*=\s*(?P<text>byte 0x\w\w)", "sequence : "),
    ByOpcode(HEAD, {
        "float": "Head::Float", "none": "Head::Unknown", BRACKET: "Head::Unknown", "labels": "Head::BrTable", "type": "Head::CallIndirect",
        "Const": "Head::{of}Const", "memarg": "Head::WithAccess(Access::{kind}({rust}))", "zero": "Head::Reserved(Op::{variant}(0))",
        INDEX: "Head::WithIndex(Indexed::{variant})", "*": "Head::Whole(Op::{variant}(0))"}, "classify"),
    Place(HEAD, {INDEX: "{variant},"}, VARIANT, "enum Indexed"),
    Place(HEAD, {"label": "Indexed::{variant} => Op::{variant}(0, index),", INDEX: "Indexed::{variant} => Op::{variant}(index),"},
          INDEXED, "fn with"),
    Place(READS, {"label": "Indexed::{variant} => push_short(operations, Op::{variant}(0, index)),",
                  INDEX: "Indexed::{variant} => push_short(operations, Op::{variant}(index)),"}, INDEXED, "fn push_indexed"),
    Place("crates/decode/specs/Inner/Heads.antt", {INDEX: "indexed index.{variant} n = instr.{kind} n"}, r"^indexed index\.(?P<key>\w+)[^\n]*", "indexed : "),
    Place(READS, {
        "block": "{hex} => CodedOp::block(block)", "loop": "{hex} => CodedOp::loop_block(body)", "if": "{hex} => CodedOp::if_block(branch)",
        "else": "{hex} => CodedOp::new(Op::Else(0, 0))", "end": "{hex} => CodedOp::new(Op::End(0))"},
        r"^ *(?P<key>0x\w\w) => .*?(?P<text>CodedOp::\w+\((?:Op::End\(0\)|Op::Else\(0, 0\)|\w+)\))", r"fn operation\("),
    Place(READS, {"labels|type": "fn {name}(\nbehind_opcode {hex}"},
          r"^fn (?P<key>br_table|call_indirect)\(.*?behind_opcode (?P<text>0x\w\w)", end=WHOLE),
    Listed("crates/places/src/index.rt", {"float": 'Some("{name}"),', "*": 'Some("{name}"),'}, r"(?P<text>Some\([^)]*\),|None,)", "^pub.*NAMES: ", "None,"),
    Listed("crates/places/specs/OperationNames.antt", {"float": 'Some (codes "{name}")', "*": 'Some (codes "{name}")'}, r"(?P<text>Some [^∷]*|None)",
           "^index_of_instructions =", "None"),
    ByOpcode(PLACES, {"float memarg": "2", "float": "0", "none": "0", "memarg|type": "2", f"{INDEX}|zero|Const|blocktype": "1", "*": "0"}, "immediates"),
    Place(PLACES, {"block": "const BLOCK: u8 = {hex};"}, r"^const (?P<key>BLOCK): u8 = \w+;", end=WHOLE),
    Place(PLACES, {"loop": "const LOOP: u8 = {hex};"}, r"^const (?P<key>LOOP): u8 = \w+;", end=WHOLE),
    Place(PLACES, {"if": "const IF: u8 = {hex};"}, r"^const (?P<key>IF): u8 = \w+;", end=WHOLE),
    Place(PLACES, {"else": "const ELSE: u8 = {hex};"}, r"^const (?P<key>ELSE): u8 = \w+;", end=WHOLE),
    Place(PLACES, {"end": "const END: u8 = {hex};"}, r"^const (?P<key>END): u8 = \w+;", end=WHOLE),
    Place(PLACES, {"br_table": "const BR_TABLE: u8 = {hex};"}, r"^const (?P<key>BR_TABLE): u8 = \w+;", end=WHOLE),
    Place("crates/places/src/segments.rt", {"end": "const END: u8 = {hex};"}, r"^const (?P<key>END): u8 = \w+;", end=WHOLE),
    ByOpcode("crates/sentences/src/extension.rt", {"*": "return None"}, "of_operation", False),
    Types("crates/valid/specs/Typing.antt", {BRACKET: None, "Convert": "{last}", "*": "{kind}"},
          r"^(?:InstrTyped c|ConversionTurns) \(?(?P<key>\w+)[^\n=]*=(?P<rule>[^\n]*(?:\n    [^\n]*)*)"),
    Types(RULES, {f"{BRACKET}|unreachable|nop|br|br_table|return|drop|select": None, "Convert": "{last}", "Const": "constant", "*": "{kind}"},
          r"(?:^    fn |Conversion::)(?P<key>\w+)(?P<rule>(?:(?!^    \}$|Conversion::).)*)"),
    Place(RULES, {BRACKET: None, "*": "Instr::{kind}(..) => .."}, r"^ *Instr::(?P<key>\w+)(?:\([^\n]*?\))? => (?P<text>)", "pub fn instruction"),
    Place("crates/numeric/specs/ByOperator.antt", {"Unary": "unary {last} N i = i{computes} N i", "Binary|Compare": "{lower} {last} N i j = i{computes} N i j"},
          r"^(?P<key>(?:unary|binary|compare) \w+) N i(?: j)? = (?:Ok \()?(?P<text>i\w+ (?:\d+ )?N i(?: j)?)", end=WHOLE, grouped=True),
    Place("crates/numeric/src/dispatch.rt", {
        "Unary": "{sort}::{last} => {function}(value),", "Binary": "{sort}::{last} => Ok({function}(lhs, rhs)),",
        "Compare": "{sort}::{last} => {function}(lhs, rhs),"},
        r"^ *(?P<text>Int\w+::\w+) => (?:Ok\()?(?P<key>i\d\d_\w+)\(", end=WHOLE, grouped=True),
    Place("crates/numeric/src/int32.rt", {of: DOC for of in "Unary I32|Binary I32|Compare I32|Eqz I32".split("|")}, INT, end=WHOLE, grouped=True),
    Place("crates/numeric/src/int64.rt", {of: DOC for of in "Unary I64|Binary I64|Compare I64|Eqz I64".split("|")}, INT, end=WHOLE, grouped=True),
    Place("crates/numeric/src/convert.rt", {"Convert": DOC}, INT, end=WHOLE),
    Place("crates/numeric/src/lib.rt", {NUMERIC: "{function},"}, r"\b(?P<key>i(?:32|64)_\w+)(?P<text>)", "^mod trap;", r"\Z", besides=DISPATCHED, grouped=True),
    Place("crates/engine/src/act.rt", {
        "Eqz": f"Op::{{variant}}(_) => eqz({AT}, {{of}}),", "Convert": f"Op::{{variant}}(_) => convert({AT}, {{sort}}::{{last}}),",
        OPERATORS: f"Op::{{variant}}(_) => {{lower}}({AT}, {{of}}, {{sort}}::{{last}}),",
        "Load|Store": f"Op::{{variant}}(align, to) => {{lower}}_{{typed}}(state, {AT}, align, to),",
        "LoadNarrow": f"Op::{{variant}}(align, to) => load_{{extends}}_{{typed}}(state, {AT}, {{width}}, align, to),",
        "StoreNarrow": f"Op::{{variant}}(align, to) => store_narrow_{{typed}}(state, {AT}, {{width}}, align, to),", "*": "Op::{variant}(_) => .."}, OP,
         r"match \*op \{", besides=("Long", *NOTED), grouped=True),
    Place("crates/interp/proofs/Slots/Ranges.antt", {"Binary": "binary_low {last} a b h l = .."},
          r"^(?P<key>binary_low \w+)(?P<text>[^:=\n]*=[^\n]*)", end=WHOLE, grouped=True),
    Place("crates/reduction/specs/Operators.antt", {"Convert": "converted {last} ({takes} n) = Some ({leaves} .."},
          r"^converted (?P<key>\w+) \(I\d\d n\) = Some \(I\d\d(?: \.\.)?", "converted : "),
    ByOpcode("crates/test_modules/src/decoding.rt", {
        "float": "Some(DecodeFault::Profile)", "none": "Some(DecodeFault::Opcode)", "else": "Some(DecodeFault::Opcode)", "*": "None"}, "refused_opcode"),
    Place(TESTS, {NUMERIC: "{function}("}, r"\b(?P<key>i(?:32|64)_\w+)\(", repeated=True, besides=DISPATCHED, end=WHOLE, grouped=True),
]


PLANTED = [  # what is wrong, and where which text becomes which
    ("a row too few", TABLE, r"6b  i32.sub [^\n]*\n", ""),
    ("a row too many", TABLE, r"(6b)(  i32.sub  .*?I32)Sub( .*?)Sub", r"\1\2Sub\3Sub\nc5\2Nor\3Nor"),
    ("an opcode twice", TABLE, "c1  i32", "c0  i32"),
    ("a type of the table", TABLE, r"(i64.eqz .*-> )i32", r"\1i64"),
    ("the fields of a variant", f"{SYNTAX}/op.rt", r"I32Load8U\(u8", "I32Load8U(u16"),
    ("an operator more", f"{SYNTAX}/operator.rt", "    Rotr,", "    Rotr,\n    Nor,"),
    ("the fields of an instruction", f"{SYNTAX}/instruction.rt", "LocalTee\\(u32", "LocalTee(u64"),
    ("another instruction", "crates/syntax/specs/Operations.antt", r"(flat.I32Sub _\) = .* binary\.)Sub", r"\1Mul"),
    ("another instruction in Rust", OPS, r"(Op::I64LtS\(_\) => .*IntCompare::)LtS", r"\1LtU"),
    ("another bracket", OPS, "Token::Loop", "Token::Block"),
    ("another access", f"{SYNTAX}/coded_op.rt", r"(Unsigned\) => Op::I64Load)16U", r"\g<1>8U"),
    ("an opcode", CODES, "Popcnt = 0x69", "Popcnt = 0x68"),
    ("the name of an opcode", CODES, "i32.clz", "i32.ctz"),
    ("where an operator stands", CODES, "binary.ShrU = 12", "binary.ShrU = 13"),
    ("the first opcode of a kind", CODES, r"0x51 \+", "0x50 +"),
    ("what stands behind an opcode", CODES, "(MemoryGrow = byte 0x0)0", r"\g<1>1"),
    ("the opcode of a block", CODES, r"(structured_opcode AsLoop = 0x0)3", r"\g<1>2"),
    ("a payload", "crates/syntax/specs/Inner/Payloads.antt", r"\(instr.Br l\) = Index", "(instr.Br l) = Indirect"),
    ("two of a list change places", "crates/syntax/proofs/InstructionLaws.antt", "instr.Drop ∷ instr.Select", "instr.Select ∷ instr.Drop"),
    ("the opcode of a token", "crates/syntax/specs/Inner/Tokens.antt", "op.Else = byte 0x05", "op.Else = byte 0x06"),
    ("an opcode is read as another", HEAD, "0x6a => Head::Whole", "0x6a | 0x5b => Head::Whole"),
    ("a head too few", HEAD, "    LocalTee,\n", ""),
    ("a head becomes another", HEAD, r"Op::GlobalSet\(index", "Op::GlobalGet(index"),
    ("a head is added as another", READS, r"Op::LocalSet\(index", "Op::LocalTee(index"),
    ("a head is another", "crates/decode/specs/Inner/Heads.antt", "instr.LocalTee n", "instr.LocalSet n"),
    ("a bracket is read as another", READS, "CodedOp::loop_block", "CodedOp::block"),
    ("an opcode in a clause", READS, "behind_opcode 0x11", "behind_opcode 0x10"),
    ("a name", "crates/places/src/index.rt", "i64.shr_u", "i64.shr_s"),
    ("a name of the index", "crates/places/specs/OperationNames.antt", "i64.shr_u", "i64.shr_s"),
    ("a length", PLACES, r"0x28\.\.=0x3e => 2", "0x28..=0x3d => 2"),
    ("the opcode of a bracket", PLACES, "IF: u8 = 0x04", "IF: u8 = 0x05"),
    ("the opcode of a constant", PLACES, "BR_TABLE: u8 = 0x0e", "BR_TABLE: u8 = 0x0f"),
    ("the opcode of an end", "crates/places/src/segments.rt", "0x0b", "0x0c"),
    ("an operation that is told as newer", "crates/sentences/src/extension.rt", r"0x12\.\.=0x15", "0x11..=0x15"),
    ("a rule of types", "crates/valid/specs/Typing.antt", r"(Eqz t\) .*TakesLeaves \(t ∷ \[\]\) \()I32", r"\1t"),
    ("the types of a conversion", "crates/valid/specs/Typing.antt", r"(I32WrapI64 = TakesLeaves \()I64", r"\1I32"),
    ("a check of types", RULES, r"\[value_type, value_type\], &\[ValType::I32\]", "[value_type, value_type], &[value_type]"),
    ("an instruction that isn't checked", RULES, "            Instr::Drop => .*?\n", ""),
    ("what an operator computes", "crates/numeric/specs/ByOperator.antt", "ishr_u N", "ishr_s N"),
    ("what an operator calls", "crates/numeric/src/dispatch.rt", "i64_rotl\\(", "i64_rotr("),
    ("a function too few", "crates/numeric/src/int32.rt", "pub fn i32_ge_u", "pub fn i32_gt_u"),
    ("what a function says", "crates/numeric/src/int64.rt", "/// `i64.ge_u`", "/// `i64.gt_u`"),
    ("a conversion", "crates/numeric/src/convert.rt", "pub fn i64_extend_i32_s", "pub fn i64_extend_i32_u"),
    ("a name that isn't public", "crates/numeric/src/lib.rt", "i32_xor,", ""),
    ("an operation does what another does", "crates/engine/src/act.rt", r"(Op::I64Mul\(_\) => .*IntBinary::)Mul", r"\1Add"),
    ("an operation does nothing", "crates/engine/src/act.rt", "        Op::Drop\\(_\\) => .*\n", ""),
    ("a case of a proof", "crates/interp/proofs/Slots/Ranges.antt", "binary_low Mul .*\n", ""),
    ("what a conversion gives", "crates/reduction/specs/Operators.antt", r"Some \(I64 n\)", "Some (I32 n)"),
    ("what a test expects", "crates/test_modules/src/decoding.rt", r"0xc0\.\.=0xc4 => None", "0xc0..=0xc3 => None"),
    ("a function that isn't tested", TESTS, r"i64_shr_s\(", "i64_shr_u("),
]


def faults(sources: Sources) -> Iterator[str]:
    """What differs; in changed texts, what these can have changed."""
    rows = table(sources)
    for before, row in zip(rows, rows[1:]):
        if row.code <= before.code:
            yield f"{TABLE}: {row.name} is not behind {before.name}, or of the same opcode"
    for place in ALL:
        if not sources.changed or TABLE in sources.changed or place.file in sources.changed:
            yield from place.differences(sources, rows)


def left_unwritten() -> list[str]:
    """What differs still, of two rows more, once all is written that can be: bodies, tests and meanings, which have `..` or an open bracket."""
    more = "".join(f"c{code}  {of}.swap   {of.upper()}Swap   Unary {of.upper()} Swap   {of} -> {of}\n" for code, of in ((5, "i32"), (6, "i64")))
    sources = Sources({TABLE: Sources().text(TABLE) + more})
    return unwritten("two rows more", 30, sources, faults, lambda it: write(it, table(it), ALL), lambda fault: re.search(r"\.\.|\(`", fault))


def main() -> None:
    given, sources = asked(__doc__, "self-test", "write", rows="NAME"), Sources()
    if given.self_test:
        sys.exit(1 if plant(PLANTED, sources, faults) or left_unwritten() else 0)
    rows = table(sources)
    if given.rows:
        print("\n".join(told for place in ALL for told in place.told(sources, rows, given.rows)) or f"{TABLE} has no row for {given.rows}")
        return
    if given.write:
        write(sources, rows, ALL)
        keep(sources)
        sources = Sources()
    finish(list(faults(sources)), f"{len(rows)} operations, {len(ALL)} places")


if __name__ == "__main__":
    main()
