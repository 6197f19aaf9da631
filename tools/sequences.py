#!/usr/bin/env python3
"""Writes what the crates say of the sequences in tools/sequences.txt.

    python3 tools/sequences.py            status 1 if a place differs from the table, but for its layout
    python3 tools/sequences.py --write    writes the places; then `rt fmt`
"""
from __future__ import annotations

import re
import sys
from functools import cached_property
from textwrap import fill
from typing import Iterator, NamedTuple

from rows import squeezed
from sources import TOP, first

TABLE = "tools/sequences.txt"
SYNTAX, ENGINE = "crates/syntax", "crates/engine"
COMPARISONS = "eq ne lt_s lt_u gt_s gt_u le_s le_u ge_s ge_u".split()
PLAIN = {
    "get": ("LocalGet", "local"), "set": ("LocalSet", "local"), "tee": ("LocalTee", "local"), "c": ("I32Const", "number"), "if": ("BrIf", "branch"),
    "l": ("I32Load", "access"), "l8": ("I32Load8U", "access"), "l16": ("I32Load16U", "access"),
    "s": ("I32Store", "access"), "S": ("I64Store", "access"), "row": ("Block", "row"),
}
ROW = "Block", "Loop"
NAMED = "get set tee c l l16 s S add eqz eq ne lt_s lt_u gt_s gt_u ge_s ge_u le_s le_u".split()     # those that may stand first
PATTERNS = {"local": "$local:pat", "number": "$number:pat", "access": "$align:pat, $offset:pat", "none": "$word:pat"}
SHORT = {"c": "Const", "l": "Load", "l8": "Load8", "l16": "Load16", "s": "Store", "S": "StoreWide"}
BINDS = {"local": "(local)", "number": "(number)", "access": "(align, offset)", "none": "(word)"}
FIELDS = {"local": "(u32)", "number": "(u32)", "access": "(u8, u32)", "none": "(u32)"}
BYTES = {"l": "bytes_of_type I32", "l8": "bytes_of_width One", "l16": "bytes_of_width Two"}
ANTT = {"local": " local", "number": " number", "access": " align offset", "branch": " _ _", "none": " word"}


def wrapped(text: str, indent: int) -> str:
    return fill(text, 150, initial_indent=" " * indent, subsequent_indent=" " * indent) + "\n"


def seen_name(kinds: tuple[OpKind, ...]) -> str:
    return "".join(kind.name for kind in kinds) or "Nothing"


def camel(word: str) -> str:
    return "".join(part.capitalize() for part in word.split("_"))


class OpKind(NamedTuple):
    """A kind of operation."""
    word: str

    @property
    def name(self) -> str:
        return SHORT.get(self.word) or camel(self.word)

    @property
    def op(self) -> str:
        return PLAIN[self.word][0] if self.word in PLAIN else f"I32{camel(self.word)}"

    @property
    def payload(self) -> str:
        return PLAIN.get(self.word, ("", "none"))[1]


class Sequence(NamedTuple):
    """A sequence: its way, and its operations."""
    way: str
    kinds: tuple[OpKind, ...]

    @property
    def name(self) -> str:
        return "".join(kind.name for kind in self.kinds)

    @property
    def behind(self) -> tuple[OpKind, ...]:
        return self.kinds[1:]


def table() -> list[Sequence]:
    lines = (TOP / TABLE).read_text(encoding="utf-8").split("\n")
    return [Sequence(words[0], tuple(map(OpKind, words[1:]))) for words in map(str.split, lines) if words and not words[0].startswith("#")]


class Places:
    """What each place has to say."""

    def __init__(self, sequences: list[Sequence]) -> None:
        self.all = sequences
        self.first: dict[OpKind, list[Sequence]] = {}
        for it in sequences:
            self.first.setdefault(it.kinds[0], []).append(it)
        self.later = list(dict.fromkeys(kind for it in sequences for kind in it.behind))
        self.kinds = list(dict.fromkeys(self.later + list(self.first)))

    def names(self, kind: OpKind) -> list[str]:
        """The operations of a kind: the plain one, and those with a note."""
        return [kind.op] + [it.name for it in self.first.get(kind, [])]

    def variants(self) -> str:
        return "".join(f"    {it.name}{FIELDS[it.kinds[0].payload]},\n" for it in self.all)

    def pattern(self, kind: OpKind, binds: str) -> str:
        """What matches an operation of a kind, with a note or without."""
        return f"noted!({kind.op}{binds})" if kind in self.first else f"Op::{kind.op}{binds}"

    def patterns(self) -> str:
        """The rules of `noted!`."""
        return "".join(f"    ({kind.op}({fields})) => {{\n{wrapped(' | '.join(names), 8)}    }};\n" for kind in self.first
                       for fields in [PATTERNS[kind.payload]] for names in [[f"Op::{name}({fields.replace(':pat', '')})" for name in self.names(kind)]])

    def flat(self, of: str, names: list[str], payload: str, gives: str) -> str:
        return "".join(f"{of} (flat.{name}{ANTT[payload]}) = {gives}\n" for name in names)

    def same_as(self, of: str, lines: dict[str, str]) -> str:
        """What a case word says of the plain operation, said of those with a note."""
        return "".join(re.sub(rf"flat\.{kind.op}\b", f"flat.{it.name}", lines[kind.op]) + "\n" for kind, its in self.first.items() for it in its)

    def op_kind(self) -> str:
        rows = "".join(f"op_kind (flat.{name} _ _ _) = kind.Row\n" for kind in self.kinds if kind.word == "row" for name in ROW)
        return rows + "".join(self.flat("op_kind", self.names(kind), kind.payload, f"kind.{kind.name}") for kind in self.kinds if kind.word != "row") \
            + "op_kind _ = kind.Other\n"

    def told_next(self) -> str:
        return "".join(self.flat("told_next", [it.name], kind.payload, " ∷ ".join([f"kind.{k.name}" for k in it.behind] + ["[]"]))
                       for kind, its in self.first.items() for it in its) + "told_next _ = []\n"

    def plain_of(self) -> str:
        return "".join(self.flat("plain_of", [it.name], kind.payload, f"flat.{kind.op}{ANTT[kind.payload]}")
                       for kind, its in self.first.items() for it in its) + "plain_of o = o\n"

    def kinds_declared(self) -> str:
        return "".join(f"    {kind.name},\n" for kind in self.kinds)

    def kind_by(self) -> str:
        wild = {"local": "(_)", "number": "(_)", "access": "(_, _)", "branch": "(_, _)", "none": "(_)"}
        rows = " | ".join(f"Op::{name}(_, _, _)" for name in ROW)
        return "".join(f"        {rows if kind.word == 'row' else self.pattern(kind, wild[kind.payload])} => OpKind::{kind.name},\n" for kind in self.kinds)

    @cached_property
    def seen(self) -> list[tuple[OpKind, ...]]:
        """What may be seen of the operations from one on: each kind, each sequence, and what stands behind a part of one. Loads and stores that have notes
        stand together, so that one comparison tells them."""
        all_seen = dict.fromkeys([(kind,) for kind in self.kinds] + [it.kinds[at:] for it in self.all for at in range(len(it.kinds))])

        def group(kinds: tuple[OpKind, ...]) -> int:
            first_kind = kinds[0]
            return 0 if first_kind.word == "row" else 3 if first_kind not in self.first else 1 if first_kind.payload == "access" else 2
        return sorted([*all_seen, ()], key=lambda kinds: (group(kinds) if kinds else 3, len(kinds)))

    def seen_with(self, kind: OpKind | None, behind: tuple[OpKind, ...]) -> tuple[OpKind, ...]:
        """The most that may be seen from an operation of a kind on."""
        there = (kind, *behind) if kind else ()
        return max((it for it in self.seen if there[:len(it)] == it), key=len)

    def op_told(self, kinds: tuple[OpKind, ...]) -> str:
        """The operation with the note of the longest sequence that is seen."""
        fit = [it for it in self.first[kinds[0]] if kinds[:len(it.kinds)] == it.kinds]
        return max(fit, key=lambda it: len(it.kinds)).name if fit else kinds[0].op

    def seen_declared(self) -> str:
        return "".join(f"    {seen_name(it)},\n" for it in self.seen)

    def steps(self) -> str:
        """For each kind of an operation, and each that is seen behind it, what is seen from it on."""
        rows = []
        for kind in [None, *self.kinds]:
            row = [seen_name(self.seen_with(kind, it)) for it in self.seen]
            rows.append(f"    [Seen::{row[0]}; SEEN],\n" if len(set(row)) == 1 else f"    row!(\n{wrapped(' '.join(row), 8)}    ),\n")
        return "".join(rows)

    def tells(self) -> str:
        return wrapped("".join("true, " if kind in self.telling(False) else "false, " for kind in [None, *self.kinds]), 4)

    def noted(self, access: bool) -> str:
        """What notes an operation: those that are seen as they are called, and others."""
        them = [it for it in self.seen if it and it[0] in self.first and (it[0].payload == "access") == access]
        same = [it for it in them if seen_name(it) == self.op_told(it)]
        others = ", ".join(f"{seen_name(it)} {self.op_told(it)}" for it in them if it not in same)
        return wrapped(" ".join(map(seen_name, same)), 8)[:-1] + ";\n" + wrapped(others, 8)

    def seen_kind(self) -> str:
        return "".join(f"seen_kind seen.{seen_name(it)} = kind.{it[0].name}\n" for it in self.seen if it) + "seen_kind seen.Nothing = kind.Other\n"

    def seen_next(self) -> str:
        return "".join(f"seen_next seen.{seen_name(it)} = {' ∷ '.join([f'kind.{kind.name}' for kind in it[1:]] + ['[]'])}\n"
                       for it in self.seen if it) + "seen_next seen.Nothing = []\n"

    def telling(self, access: bool) -> list[OpKind]:
        """The kinds that have notes: of loads and stores, or of operations of one field."""
        return [kind for kind in self.first if (kind.payload == "access") == access]

    def seen_from(self) -> str:
        """The cases of a lemma about each place of the table."""
        names = ["Other", *[it.name for it in self.kinds]]
        return "".join(f"seen_from row other kind.{name} {it} = (refl, refl)\n" for name in names for it in ("seen.Nothing", "s"))

    def plain_by(self, of: str, access: bool) -> str:
        """The plain operation of a kind."""
        args = "align word" if access else "word"
        return "".join(f"{of} kind.{kind.name} {args} = flat.{kind.op} {args}\n" for kind in self.telling(access))

    def is_telling(self, of: str, access: bool) -> str:
        return "".join(f"{of} kind.{kind.name} = true\n" for kind in self.telling(access))

    def align_of(self) -> str:
        return "".join(self.flat("align_of", self.names(kind), "access", "align") for kind in self.telling(True))

    def seen_accesses(self) -> str:
        """The places of loads and stores that have notes."""
        return wrapped(" | ".join(f"Seen::{seen_name(it)}" for it in self.seen if it and it[0] in self.telling(True)), 8)

    def does(self, kind: OpKind) -> str:
        """The call that does it."""
        at = "at, slots, top"
        if kind.word in ("get", "set", "tee"):
            return f"local_{kind.word}({at}, word)"
        if kind.word in ("l", "l8", "l16"):
            return {"l": f"load(state, {at}, I32, arg(0, word))", "l8": f"load_unsigned(state, {at}, I32, One, arg(0, word))",
                    "l16": f"load_unsigned(state, {at}, I32, Two, arg(0, word))"}[kind.word]
        return {"c": f"constant({at}, u64::from(word))", "eqz": f"eqz({at}, I32)"}.get(kind.word) or \
            (f"compare({at}, I32, IntCompare::{kind.name})" if kind.word in COMPARISONS else f"binary({at}, I32, IntBinary::{kind.name})")

    def token(self, kind: OpKind) -> str:
        if kind.word in ("get", "set", "tee"):
            return f"{kind.op} word"
        if kind.word in ("l", "l8", "l16"):
            return {"l": "Load I32", "l8": "LoadNarrow I32 One Unsigned", "l16": "LoadNarrow I32 Two Unsigned"}[kind.word] + " (arg align word)"
        return {"c": "Const (value.I32 word)", "eqz": "Eqz I32"}.get(kind.word) or \
            (f"Compare I32 compare.{kind.name}" if kind.word in COMPARISONS else f"Binary I32 binary.{kind.name}")

    def going(self) -> list[OpKind]:
        return [kind for kind in self.later if kind.word not in ("if", "row")]

    def impls(self) -> str:
        """The kinds that are done behind others, each a type."""
        return "".join(f"""/// {kind.op}.
pub struct {kind.name};

impl Behind for {kind.name} {{
    ghost use Rattle.syntax.specs.declared.notes.OpKind.TheVariants.{{{kind.name}}};

    ghost kind = {{ {kind.name} }};

    ghost goes_on = {{ tt }};

    #[inline(always)]
    fn do_behind(
        _code: Code,
        {'_word' if kind.payload == 'none' else 'word'}: u32,
        at: At,
        slots: &mut [u64],
        top: &mut u64,
        _frames: &[Caller],
        {'state' if kind.payload == 'access' else '_state'}: &State,
    ) -> Flow {{
        {self.does(kind)}
    }}
}}

""" for kind in self.going())

    def variants_all(self) -> Iterator[tuple[str, int]]:
        """Each operation, and how many fields it has."""
        text = (TOP / f"{SYNTAX}/src/op.rt").read_text(encoding="utf-8")
        for name, fields in re.findall(r"(?m)^    (\w+)\(([^)]*)\),$", first(r"(?s)pub enum Op \{(.*?    Long\(u32\),\n)", text)[1]):
            yield name, len(fields.split(","))
        yield from ((it.name, len(FIELDS[it.kinds[0].payload].split(","))) for it in self.all)

    def word_of(self) -> str:
        return "".join(f"word_of (flat.{name}{' _' * (fields - 1)} word) = word\n" for name, fields in self.variants_all())

    def word(self) -> str:
        return "        last_field!(\n            word;\n" + ";\n".join(
            wrapped(" ".join(name for name, fields in self.variants_all() if fields == many), 12)[:-1] for many in (1, 2, 3)) + "\n        ) => *word,\n"

    def told_is(self) -> str:
        align = {"access": "align"}
        return "".join(f"told_is longs {op} on = record {{ align = {align.get(kind.payload, '0')}; is = refl }}\n" for kind in self.going()
                       for op in [f"(flat.{name}{ANTT[kind.payload]})" for name in self.names(kind)]) \
            + "told_is longs o on = absurd on\n"

    def arms(self) -> str:
        """Those of `act`: as that of the plain operation, and each notes what it tells."""
        text = (TOP / f"{ENGINE}/src/act.rt").read_text(encoding="utf-8")
        lines = []
        for kind, its in self.first.items():
            binds, does, args = first(rf"(?m)^        Op::{kind.op}(\([^)]*\)) => (\w+)\((.*)\),$", text).groups()
            typed = does if kind.payload in ("local", "access") else f"{does}_i32"
            args = args.replace(", I32", "", 1).replace("u64::from(number)", "number")
            if kind.payload == "access":
                # (an alignment does nothing, and one of two bytes stands first)
                binds, args, typed = "(_, to)", re.sub(r"(?:, Two)?, align", "", args), typed.replace("load_unsigned", "load_two")
            lines += [f"        Op::{it.name}{binds} => ahead::{typed}({args}, tip, Cue::{it.name}),\n" for it in its]
        return "".join(lines)

    def cues(self) -> str:
        return "".join(f"    {it.name},\n" for it in self.all)

    def told_by(self) -> str:
        """What each cue tells."""
        return "told_by cue.Other = []\n" + "".join(
            f"told_by cue.{it.name} = {' ∷ '.join([f'kind.{kind.name}' for kind in it.behind] + ['[]'])}\n" for it in self.all)

    def told(self) -> str:
        """By the way: what tells each sequence, and what is done behind it."""
        ways: dict[str, list[str]] = {}
        for it in self.all:
            ways.setdefault(it.way, []).append(f"{it.name}~({'~'.join(kind.name for kind in it.behind)})")
        indent = " " * 12
        return "".join(f"        {way}: {{\n" + fill(", ".join(those), 140, initial_indent=indent, subsequent_indent=indent).replace("~", " ")
                       + "\n        }\n" for way, those in ways.items())

    def engine_places(self) -> Iterator[tuple[str, str, str, str]]:
        noted = f"{ENGINE}/specs/Inner/Noted.antt"
        yield f"{ENGINE}/src/noted.rt", r"pub trait Behind \{(?:.*\n)*?}\n\n", r"/// Does the branch", self.impls()
        words = {"": "_ _", "access": "word align"}
        yield noted, r"abbrev pub token_by : .*\n", r"\n--", "".join(
            f"token_by kind.{kind.name} {words.get(kind.payload, 'word _')} = Plain ({self.token(kind)})\n" for kind in self.going()) \
            + "token_by _ _ _ = Plain Nop\n"
        yield noted, r"abbrev pub GoesBehind : .*\n", r"\n--", "".join(
            f"GoesBehind kind.{kind.name} = Unit {{0}}\n" for kind in self.going()) + "GoesBehind _ = ⊥\n"
        yield f"{ENGINE}/proofs/ToldThere.antt", r"pub left_off (?:.*\n)*?unfolding binary\n", r"left_off p f k word", "".join(
            f"left_off p f kind.{kind.name} word at slots frames s top' slots' off h ="
            f" load_off at slots s I32 ({BYTES[kind.word]}) Unsigned _ top' slots' off h\n" for kind in self.going() if kind.payload == "access")
        yield f"{ENGINE}/proofs/WhatIsTold.antt", r"pub told_is : .*\nunfolding .*\n", r"\Z", self.told_is()
        yield f"{ENGINE}/src/ways.rt", r"use crate::noted::\{", r"branch_told", "".join(
            f"{it}, " for it in sorted([kind.name for kind in self.going()] + ["Behind"]))
        yield f"{ENGINE}/src/ways.rt", r"    told!\([^{}]*\n", r"    \)\n}", self.told()
        yield f"{ENGINE}/src/act.rt", r"(?m)^        // \(by tools/sequences.py\)\n", r"    }\n}", self.arms()
        yield f"{ENGINE}/src/ahead.rt", r"pub enum Cue \{\n    Other,\n", r"}\n", self.cues()
        yield noted, r"unfoldable pub told_by : .*\n", r"\n--", self.told_by()

    def all_places(self) -> Iterator[tuple[str, str, str, str]]:
        """File, the expression before the text and that behind it, and the text."""
        notes, notes_rt, see_antt = f"{SYNTAX}/specs/Notes.antt", f"{SYNTAX}/src/notes.rt", f"{SYNTAX}/specs/Inner/See.antt"
        ops = (TOP / f"{SYNTAX}/specs/Operations.antt").read_text(encoding="utf-8")
        lines = {found[2]: found[1] for found in re.finditer(r"(?m)^(operation_of \(?flat\.(\w+).*)$", ops)}
        yield f"{SYNTAX}/src/op.rt", r"    Long\(u32\),\n", r"}\n\nconst _", self.variants()
        yield f"{SYNTAX}/src/op.rt", r"macro_rules! noted \{\n", r"}\n\npub", self.patterns()
        yield f"{SYNTAX}/specs/Operations.antt", r"(?m)^operation_of \(flat\.Long _\).*\n", r"\n--", self.same_as("operation_of", lines)
        yield notes, r"unfoldable pub op_kind : .*\n", r"\n--", self.op_kind()
        yield notes, r"unfoldable pub told_next : .*\n", r"\n--", self.told_next()
        yield notes, r"unfoldable pub plain_of : .*\n", r"\n--", self.plain_of()
        yield notes, r"unfoldable pub word_of : .*\n", r"\n--", self.word_of()
        yield notes_rt, r"fn word\([^{]*\{[^{]*\{\n    match op \{\n", r"    }\n}", self.word()
        yield notes_rt, r"pub enum OpKind \{\n    Other,\n", r"}\n", self.kinds_declared()
        yield notes_rt, r"fn kind_by[^{]*\{[^{]*\{\n    match op \{\n", r"        _ => OpKind", self.kind_by()
        yield f"{SYNTAX}/proofs/SeenSteps.antt", r"unfolding seen_kind seen_next\n", r"\npub", self.seen_from()
        yield notes_rt, r"pub enum Seen \{\n", r"}\n", self.seen_declared()
        yield notes_rt, r"const KINDS: usize = ", r";", str(len(self.kinds) + 1)
        yield notes_rt, r"const SEEN: usize = ", r";", str(len(self.seen))
        yield notes_rt, r"static STEPS: .*\n", r"\];", self.steps()
        yield notes_rt, r"static TELLS: .*\n", r"\];", self.tells()
        yield notes_rt, r"fn note_word\((?:.*\n)*?        seen, .*\n", r"    \)", self.noted(False)
        yield notes_rt, r"fn note_access\((?:.*\n)*?        seen, .*\n", r"    \)", self.noted(True)
        yield notes_rt, r"fn is_access\((?:.*\n)*?{\n    matches!\(\n        seen,\n", r"    \)", self.seen_accesses()
        yield see_antt, r"unfoldable pub word_tells : .*\n", r"word_tells _", self.is_telling("word_tells", False)
        yield see_antt, r"unfoldable pub access_tells : .*\n", r"access_tells _", self.is_telling("access_tells", True)
        yield see_antt, r"unfoldable pub align_of : .*\n", r"align_of _", self.align_of()
        yield see_antt, r"unfoldable pub seen_kind : .*\n", r"\n--", self.seen_kind()
        yield see_antt, r"unfoldable pub seen_next : .*\n", r"\n--", self.seen_next()
        yield see_antt, r"unfoldable pub plain_by : .*\n", r"plain_by _", self.plain_by("plain_by", False)
        yield see_antt, r"unfoldable pub plain_at : .*\n", r"plain_at _", self.plain_by("plain_at", True)
        yield from self.engine_places()
        for kind in map(OpKind, NAMED):
            arm = rf"fn instr_of(?:.*\n)*?(?= +(?:Op::|noted!\(){kind.op}\()"
            yield f"{SYNTAX}/src/ops.rt", arm, r" =>\s+Instr", "        " + self.pattern(kind, "(_)" if kind.payload == "none" else BINDS[kind.payload])


def written(text: str, before: str, behind: str, told: str) -> str:
    """The text with what stands between the two replaced."""
    begin = re.search(before, text)
    if not begin:
        raise LookupError(f"nothing fits {before}")
    end = re.search(behind, text[begin.end():])
    if not end:
        raise LookupError(f"nothing fits {behind}")
    return text[:begin.end()] + told + text[begin.end() + end.start():]


def main() -> None:
    texts: dict[str, str] = {}
    for file, before, behind, told in Places(table()).all_places():
        text = texts.get(file) or (TOP / file).read_text(encoding="utf-8")
        texts[file] = written(text, before, behind, told)
    differ = [file for file, text in texts.items() if squeezed((TOP / file).read_text(encoding="utf-8")) != squeezed(text)]
    for file in differ:
        if "--write" in sys.argv[1:]:
            (TOP / file).write_text(texts[file], encoding="utf-8")
        print(f"{file}: {'written' if '--write' in sys.argv[1:] else 'differs from ' + TABLE}")
    sys.exit(bool(differ) and "--write" not in sys.argv[1:])


if __name__ == "__main__":
    main()
