#!/usr/bin/env python3
"""Compares what the host, guests, tests, trials and pages say of each call with its row in examples/uv.h, and writes what can be written.

    python3 tools/uv.py               status 1 if a place differs from the header, lacks a call or has one more
    python3 tools/uv.py --write       writes names, types, lists, numbers of calls and docs/UV.md; then the same
    python3 tools/uv.py --rows NAME   what each place has to say of a call, and in which line, or behind which one if it isn't there
    python3 tools/uv.py --self-test   plants faults in copies of the texts; status 1 if one isn't found, or a call more isn't written in each place
"""
from __future__ import annotations

import re
import sys
import textwrap
from typing import Iterator, Sequence

from rows import Edit, Place, Row, agree, edited, keep, write
from sources import Sources, asked, finish, plant, unwritten

HEADER, RUST, PAGE = "examples/uv.h", "examples/uv.rs", "docs/UV.md"
CALLS, ENTRIES, ANSWERS = "crates/imports/src/call.rt", "crates/imports/src/entry_point.rt", "crates/order/src/uv/answers.rt"
HEAD = """# The calls of module "uv"

<!-- Generated from examples/uv.h by `python3 tools/uv.py --write`: edit the header. -->

A module may import these functions and no others. [examples/uv.h](../examples/uv.h) declares them for C,
[examples/uv.rs](../examples/uv.rs) for Rust. This page uses the C names. In a module they lack `uv_`, and a callback has type [i32] to [].
"""


def wasm(kind: str) -> list[str]:
    """The type of a word in WebAssembly; none for nothing."""
    kind = re.sub(r"\bconst\b", "", kind).strip()
    if kind in ("void", "()", ""):
        return []
    return ["i64" if kind in ("uint64_t", "int64_t", "u64", "i64") else "i32"]


def type_of(words: Sequence[str], answer: str) -> str:
    return f"[{' '.join(word for kind in words for word in wasm(kind))}] to [{' '.join(wasm(answer))}]"


def listed(words: Sequence[str]) -> str:
    return ", ".join(words[:-1]) + " and " + words[-1]


def widths(header: Header) -> str:
    """The sentence about the types of the calls' words and answers."""
    wide: dict[str, None] = {word: None for _, words, _ in header.calls() for kind, word in words if wasm(kind) == ["i64"]}
    wide |= {f"the result of {name}": None for name, _, answer in header.calls() if wasm(answer) == ["i64"]}
    marks = [f"`{it}`" if " " not in it else re.sub(r"(\w+)$", r"`\1`", it) for it in wide]
    return f"Every parameter and every result is an i32, but {listed(marks)} are i64."


def one_line(comment: str) -> str:
    return re.sub(r"\s+", " ", comment.strip().removeprefix("/*").removesuffix("*/")).strip()


def marked(text: str) -> str:
    """Names of C as code."""
    return re.sub(r"(?<![`\w])(UV_[A-Z_]+(?:\(\w*\))?|uv_[a-z_]+(?:\(\))?|__\w+\(\)|INT_MIN|-Wl,[a-z-]+)", r"`\1`", text)


class Header:
    """What examples/uv.h declares."""

    def __init__(self, text: str) -> None:
        self.text = text
        self.numbers = {name: int(value) for name, value in re.findall(r"^    UV_(\w+) = (-?\d+)", text, re.M)}

    def calls(self) -> Iterator[tuple[str, list[tuple[str, str]], str]]:
        """Each import: its name, its words and answer in C."""
        for name, answer, words in re.findall(r"^UV_IMPORT\((\w+)\) (\w+) uv_\w+\((.*?)\);", self.text, re.M):
            words = [] if words == "void" else [word.strip() for word in words.split(",")]
            yield name, [(kind.strip(), word) for kind, word in re.findall(r"(.*?)(\w+)(?:\n|$)", "\n".join(words))], answer

    def types(self) -> dict[str, str]:
        return {name: type_of([kind for kind, _ in words], answer) for name, words, answer in self.calls()}

    def comments(self) -> dict[str, str]:
        """The comment of each call."""
        return {name: comment for _, _, calls in self.sections() for comment, names in calls for name in names}

    def enums(self) -> Iterator[tuple[str, list[tuple[str, str, str]]]]:
        """The comment above each list of numbers, and its rows."""
        for comment, body in re.findall(r"/\*((?:(?!\*/).)*)\*/\nenum \{\n(.*?)\n\};", self.text, re.S):
            rows = re.findall(r"UV_(\w+) = (-?\d+),? */\*(.*?)\*/", body, re.S)
            yield one_line(comment), [(name, value, one_line(about)) for name, value, about in rows]

    def sections(self) -> Iterator[tuple[str, str, list[tuple[str, list[str]]]]]:
        """The parts behind the numbers: heading, further words, and for each comment the calls that it is of."""
        for part in re.split(r"\n\n\n/\* ", self.text)[1:]:
            head, _, rest = part.partition("*/")
            title, _, about = head.strip().partition("\n\n")
            declared = re.findall(r"/\*((?:(?!\*/).)*)\*/\n((?:UV_IMPORT[^\n]*\n)+)", rest + "\n", re.S)
            yield one_line(title), one_line(about), [(one_line(comment), re.findall(r"UV_IMPORT\((\w+)\)", lines)) for comment, lines in declared]


def variant_of(name: str) -> str:
    return "".join(word.capitalize() for word in name.split("_"))


class Call(Row):
    """A call, as the header has it."""

    def __init__(self, name: str, words: Sequence[tuple[str, str]], answer: str, comment: str, in_work: bool) -> None:
        self.name, self.variant = name, variant_of(name)
        self.constant, self.marks = name.upper(), frozenset({name, "*", *(["work"] if in_work else [])})
        takes, gives = [wasm(kind)[0].upper() for kind, _ in words], [kind.upper() for kind in wasm(answer)]
        self.takes, self.gives = ", ".join(takes), ", ".join(gives)
        self.taken, self.given = (f"({' ∷ '.join(kinds)} ∷ [])" if kinds else "[]" for kinds in (takes, gives))
        self.pattern = f"({''.join(f'{kind} {word} ∷ ' for kind, (_, word) in zip(takes, words))}[])" if words else "[]"
        self.about = re.split(r"(?<=[.;:])\s", comment + " ")[0].rstrip(".;:")
        self.rust = ", ".join(f"{word}: {RUST_TYPES[kind]}" for kind, word in words)
        self.rust_answer = RUST_TYPES[answer]
        self.by_trial, self.cast = ", ".join(by_trial(words)), "(int64_t)" if answer == "uint64_t" else ""


RUST_TYPES = {"int32_t": "i32", "uint32_t": "usize", "uint64_t": "u64", "int64_t": "i64", "uv_callback": "Callback", "const void *": "*const u8",
              "void *": "*mut u8"}


def by_trial(words: Sequence[tuple[str, str]]) -> Iterator[str]:
    """The words by which a trial makes a call, of those that it has."""
    have = {"int32_t": ["a", "it->b"], "uv_callback": ["back"], "uint64_t": ["(uint64_t)it->c", "(uint64_t)it->d"], "int64_t": ["it->c", "it->d"],
            "uint32_t": ["(uint32_t)it->c", "(uint32_t)it->b"], "const void *": ["place(it)"], "void *": ["buffer"]}
    for kind, word in words:
        yield have[kind].pop(0) if have[kind] else word


class Arms(Place):
    """The arms of a `match`, each of all calls of one answer."""

    def edits(self, sources: Sources, rows: Sequence[Row]) -> Iterator[Edit]:
        whole, (begin, end) = sources.text(self.file), self.bounds(sources.text(self.file))
        there = {item.key for item in self.found(sources, rows)}
        for wanted in self.wanted(rows):
            if wanted.key not in there:
                head, _, answer = wanted.told.partition(" => ")
                arms = re.compile(r"\s=> (\w[^|]*?\)),(?=\s*(?:\w+::|\}))", re.S)
                alike = next((it.start() for it in arms.finditer(whole, begin, end + 10) if agree(answer, it[1])), None)
                yield Edit(alike, alike, f" | {head}") if alike else Edit(end, end, f"\n            {wanted.told}")


class Numbered(Place):
    """Lines that end with their number."""

    def edits(self, sources: Sources, rows: Sequence[Row]) -> Iterator[Edit]:
        yield from super().edits(sources, rows)
        changed = Sources({self.file: edited(sources.text(self.file), super().edits(sources, rows))})
        if changed.text(self.file) == sources.text(self.file):
            yield from (Edit(at, end, number) for at, end, number in self.misnumbered(sources, rows))

    def misnumbered(self, sources: Sources, rows: Sequence[Row]) -> Iterator[Edit]:
        whole = sources.text(self.file)
        for number, item in enumerate(self.found(sources, rows)):
            end = item.end
            begin = len(whole[:end].rstrip("0123456789"))
            if whole[begin:end] != str(number):
                yield Edit(begin, end, str(number))

    def differences(self, sources: Sources, rows: Sequence[Row]) -> Iterator[str]:
        yield from super().differences(sources, rows)
        for edit in self.misnumbered(sources, rows):
            line = sources.text(self.file).count("\n", 0, edit.begin) + 1
            yield f"{self.file}:{line}: expected the number {edit.text}, by its place"


# The places that say something of each call, or of some.
SPECS, TESTS, SCRIPTED = "crates/imports/specs/Uv.antt", "crates/test_modules/src/linking.rt", "trials/scripts/guest.c"
NAMED, STEPS, MOVES, HOST = ("crates/imports/proofs/Named.antt", "crates/phases/specs/Host.antt", "crates/phases/proofs/CallMoves.antt",
                             "crates/phases/src/loop_host.rt")
WORK, WORK_HOST = "crates/order/specs/Work.antt", "crates/order/src/uv/answering.rt"
FUZZ, FUEL, MODEL = "trials/fuzz/generate.mjs", "bench/fuel/run.py", "trials/scripts/model.py"
PLACES = [
    Place(CALLS, {"*": "/// {about}.\n{variant},"}, r"^ *(?P<key>\w+),$", r"pub enum Call \{"),
    Place(CALLS, {"*": "Call::{variant},"}, r"^ *Call::(?P<key>\w+),$", r"ALL: .*? = \["),
    Place(CALLS, {"*": 'Call::{variant} => "{name}",'}, r'^ *Call::(?P<key>\w+) => "[^\n]*', "fn name"),
    Arms(CALLS, {"*": "Call::{variant} => CallType::new(&[{takes}], &[{gives}]),"}, r"Call::(?P<key>\w+)\s*(?=\||=>)(?P<text>)", "fn signature"),
    Place(SPECS, {"*": 'name_of_call {variant} = codes "{name}"'}, r"^name_of_call (?P<key>\w+)[^\n]*", "name_of_call : "),
    Place(SPECS, {"*": "type_of_call {variant} = from_to {taken} {given}"}, r"^type_of_call (?P<key>\w+)[^\n]*", "type_of_call : "),
    Place(NAMED, {"*": "{variant} ∷"}, r"(?P<key>\w+)\s+∷", "all_calls ="),
    Numbered(NAMED, {"*": "place_of_call {variant} = 0"}, r"^place_of_call (?P<key>\w+)(?P<text>) = \d+", "place_of_call : "),
    Place(STEPS, {"*": "CallStep {variant} .."}, r"^ *CallStep (?P<key>(?!_)\w+)(?P<text>)", "CallStep : "),
    Place(MOVES, {"*": "call_made {variant} {pattern} is h = kept {variant} _ refl refl _ same h.1 (λ t n e. (h.0, e))"},
          r"^ *call_made (?P<key>(?!_)\w+)(?P<text>)", "call_made : ", r"\n  call_made _|\n\n", long=True),
    Place(HOST, {"*": "Call::{variant} => .."}, r"^ *Call::(?P<key>\w+) =>(?P<text>)", "let answer = match call", r"\n    \};"),
    Place(WORK, {"work": "WorkAnswers .. {variant} .."}, r"^WorkAnswers (?:bytes reply call reply'|\.\.) (?P<key>(?!_)\w+)(?P<text>)", "WorkAnswers : "),
    Place(WORK_HOST, {"work": "Call::{variant} => .."}, r"^ *Call::(?P<key>\w+) =>(?P<text>)", "    match call", r"\n    \}"),
    Place(TESTS, {"*": "{name} = {name} [{takes}] [{gives}]"}, r"^ *(?P<key>\w+) = [^\n]*\]$", 'const TABLE: &str = "', '";'),
    Place(RUST, {"*": "pub fn {name}({rust}) -> {rust_answer};"}, r"^ *pub fn (?P<key>\w+)\((?P<text>)[^;]*;", "wasm_import_module", r"\n    \}"),
    Place(RUST, {"queue_work|in_copy|out_set": None, "*": "{name}({rust}) -> {rust_answer};"}, r"^ *(?P<key>\w+)\((?P<text>)[^;]*;", r"safe_calls! \{"),
    Place(SCRIPTED, {"emit": "EMIT_MANY", "*": "{constant}"}, r"(?P<key>[A-Z][A-Z_]+)", r"^enum \{\n", r"\n\};", besides=("END", "TRAP", "DEEP", "SPIN")),
    Place(SCRIPTED, {"emit": None, "*": "case {constant}: return {cast}uv_{name}({by_trial});"},
          r"case (?P<key>[A-Z_]+): return (?:\(int64_t\))?(?P<text>uv_\w+)[^\n]*", r"^static int64_t answer"),
    Place(FUZZ, {"*": "{name}: [[{takes}], [{gives}]],"}, r"\b(?P<key>\w+): \[\[[^]]*\], \[[^]]*\]\],?", "const UV = {", "};", partial=True),
    Place(FUEL, {"*": '"{name}": ([{takes}], [{gives}]),'}, r'"(?P<key>\w+)": \(\[[^]]*\], \[[^]]*\]\),?', "^CALLS: .* = {", r"\n\}", partial=True),
]
# What else is made of all calls: where it stands, and of what it is one: how many there are, their names, or the names of those of work.
COUNT, NAMES, WORKING = "count", "names", "working"
TOLD = [
    ("docs/GUESTS.md", r"the (\d+) functions", COUNT), ("docs/ARCHITECTURE.md", r"the (\d+) functions", COUNT), (CALLS, r"ALL: \[Call; (\d+)\]", COUNT),
    (NAMED, r"place_of_call x < (\d+)", COUNT), (NAMED, r"k < (\d+)", COUNT), ("crates/test_program/stdout", r"\(it has ([\w, ]+)\)", NAMES),
    (HEADER, r"In UV_WORK, every call but ([\w, ]+) returns", WORKING),
]
# The files of proofs and definitions that take the variants of `Call` from where they are declared.
TAKING, TAKEN = (SPECS, NAMED, STEPS, MOVES, WORK), "Rattle.imports.specs.declared.call.Call.TheVariants."


def calls_of(sources: Sources) -> list[Call]:
    header = Header(sources.text(HEADER))
    comments, in_work = header.comments(), set(re.findall(r"^WorkAnswers bytes reply call reply' (\w+)", sources.text(WORK), re.M))
    return [Call(name, words, answer, comments[name], variant_of(name) in in_work) for name, words, answer in header.calls()]


def told_of(sources: Sources) -> dict[str, str]:
    """What is made of all calls."""
    calls = {call.variant: call for call in calls_of(sources)}
    in_order = [item.key for item in PLACES[1].found(sources, [])]
    working = [f"uv_{call.name}" for call in calls.values() if "work" in call.marks and call.gives == "I32"]
    return {COUNT: str(len(calls)), NAMES: ", ".join(calls[it].name if it in calls else it for it in in_order), WORKING: listed(working)}


def untold(sources: Sources) -> Iterator[tuple[str, Edit, str]]:
    """Where something else stands than what is made of all calls: the file, what has to stand there, and what does."""
    told = told_of(sources)
    for file, pattern, kind in TOLD:
        found = list(re.finditer(pattern, sources.text(file)))
        for it in found:
            if it[1] != told[kind]:
                yield file, Edit(it.start(1), it.end(1), told[kind]), it[1]
        if not found:
            yield file, Edit(0, 0, told[kind]), "nothing"


def untaken(sources: Sources) -> Iterator[tuple[str, Edit]]:
    """The variants that a file names and doesn't take: where they belong."""
    for file in TAKING:
        text = sources.text(file)
        taken, words = (set(re.findall(r"\w+", "\n".join(re.findall(lines, text, re.M)))) for lines in ("^use .*$", "^(?!use ).*$"))
        lacking = [call.variant for call in calls_of(sources) if call.variant in words - taken]
        last = max((it.end(1) for it in re.finditer(re.escape(TAKEN) + r"\{([^}]*)\}", text)), default=0)
        if lacking and last:
            yield file, Edit(last, last, "".join(f", {it}" for it in lacking))


def written(sources: Sources) -> None:
    """Writes in these texts what the header gives."""
    for _ in range(2):                                  # numbers behind what they count
        write(sources, calls_of(sources), PLACES)
    for file, edit in untaken(sources):
        sources.changed[file] = edited(sources.text(file), [edit])
    for file, edit, found in reversed(list(untold(sources))):
        if found != "nothing":
            sources.changed[file] = edited(sources.text(file), [edit])
    sources.changed[PAGE] = page_of(sources.text(HEADER))


def page_of(text: str) -> str:
    header, lines = Header(text), [HEAD]
    words = {name: ", ".join(word for _, word in words) for name, words, _ in header.calls()}
    lines.append(wrapped(widths(header)) + "\n\n")
    first = text.removeprefix("/*").partition("*/")[0]
    for paragraph in re.split(r"\n\n", first)[1:]:
        code = paragraph.startswith("       ")
        lines.append(re.sub(r"(?m)^       ", "    ", paragraph) + "\n\n" if code else wrapped(marked(one_line(paragraph))) + "\n\n")
    lines.append("The exports have these types: " + ", ".join(f"`{name}` {told}" for name, told in entries_of(text).items()) + ".\n\n")
    for title, about, calls in header.sections():
        heading, _, rest = title.partition(":")
        lines.append(f"## {heading.capitalize()}\n\n")
        lines += [wrapped(marked(it.strip()[:1].upper() + it.strip()[1:])) + "\n\n" for it in (rest, about) if it]
        for comment, names in calls:
            told = ", ".join(f"`{name}({words[name]})`" for name in names)
            lines.append(f"- {told}: {marked(comment)}\n")
        lines.append("\n")
    for comment, rows in header.enums():
        heading, _, about = comment.partition(": ")
        lines.append(f"## {heading.capitalize()}\n\n{wrapped(marked(about[:1].upper() + about[1:]))}\n\n")
        lines += [f"- `UV_{name}` {value}: {marked(said)}\n" for name, value, said in rows]
        lines.append("\n")
    return "".join(lines).rstrip("\n") + "\n"


def wrapped(text: str) -> str:
    return textwrap.fill(text, 130, break_long_words=False, break_on_hyphens=False)


def host_types(sources: Sources) -> dict[str, str]:
    """The names and types of the host: of its calls, and of what a guest exports."""
    found: dict[str, str] = {}
    for file, kind in ((CALLS, "Call"), (ENTRIES, "EntryPoint")):
        text = sources.text(file)
        names = dict(re.findall(rf'{kind}::(\w+) => "(\w+)"', text))
        for variants, words, results in re.findall(rf"((?:\|? *{kind}::\w+\s*)+)=> CallType::new\(\s*&\[([^\]]*)\],\s*&\[([^\]]*)\]", text):
            told = f"[{' '.join(words.lower().replace(',', ' ').split())}] to [{results.strip().lower()}]"
            found.update({names[variant]: told for variant in re.findall(rf"{kind}::(\w+)", variants)})
    return found


def rust_types(sources: Sources) -> dict[str, str]:
    found = {}
    for name, words, answer in re.findall(r"^        pub fn (\w+)\((.*?)\)(?: -> (\w+))?;", sources.text(RUST), re.M):
        found[name] = type_of([word.partition(":")[2] for word in words.split(",") if word], answer)
    return found


def entries_of(text: str) -> dict[str, str]:
    found = re.findall(r"UV_EXPORT\((uv_\w+), (\w+), \((.*?)\)\)", text)
    return {name: type_of([word.strip().rpartition(" ")[0] for word in words.split(",") if word != "void"], answer) for name, answer, words in found}


def faults(sources: Sources) -> Iterator[str]:
    text = sources.text(HEADER)
    header = Header(text)
    mine = header.types()
    for file, theirs in ((CALLS, host_types(sources)), (RUST, rust_types(sources))):
        wanted = {**mine, **(entries_of(text) if file == CALLS else {})}
        for name in sorted(wanted.keys() | theirs.keys()):
            if wanted.get(name) != theirs.get(name):
                yield f"{file}: {name} is {theirs.get(name, 'not there')}, in {HEADER} {wanted.get(name, 'not there')}"
    rust = {name: int(value) for name, value in re.findall(r"^pub const (\w+): i32 = (-?\d+);", sources.text(RUST), re.M)}
    for name in sorted(header.numbers.keys() | rust.keys()):
        if header.numbers.get(name) != rust.get(name):
            yield f"{RUST}: {name} is {rust.get(name)}, in {HEADER} {header.numbers.get(name)}"
    answers = {int(value) for value in re.findall(r"-(\d+);", sources.text(ANSWERS))}
    told = {-value for value in header.numbers.values() if value < 0}
    if not answers <= told:
        yield f"{ANSWERS}: {HEADER} doesn't name {sorted(answers - told)}"
    calls = calls_of(sources)
    for place in PLACES:
        yield from place.differences(sources, calls)
    for file, edit, found in untold(sources):
        yield f"{file}: expected `{edit.text}`, found `{found}`"
    for file, edit in untaken(sources):
        yield f"{file}: it doesn't take{edit.text.lstrip(',')} from {TAKEN}"
    yield from (f"{MODEL}: it doesn't answer {call.name}" for call in calls if not re.search(rf'def {call.name}\(|"{call.name}"', sources.text(MODEL)))
    if sources.text(PAGE) != page_of(text):
        yield f"{PAGE}: is not what {HEADER} gives (--write)"


PLANTED = [
    ("the name of a call", HEADER, r"UV_IMPORT\(is_active\)", "UV_IMPORT(active)"),
    ("the width of a word", HEADER, r"uint64_t timeout", "uint32_t timeout"),
    ("a number", HEADER, r"UV_EBUSY = -16", "UV_EBUSY = -17"),
    ("a comment", HEADER, r"Returns its handle, or UV_EAGAIN with 64 handles", "Returns its handle, or UV_EAGAIN with 65 handles"),
    ("a word in Rust", RUST, r"(pub fn emit\(value: )i64", r"\1i32"),
    ("a number in Rust", RUST, r"(ENOSPC: i32 = -)28", r"\g<1>29"),
    ("a type of the host", CALLS, r"(Call::Emit => CallType::new\(&\[)I64", r"\1I32"),
    ("a call more", CALLS, "    Emit,\n}", "    Emit,\n    Hrtime,\n}"),
    ("a call that isn't found", CALLS, "        Call::Cancel,\n", ""),
    ("a name in a definition", SPECS, '"in_len"', '"in_length"'),
    ("a type in a definition", SPECS, r"type_of_call Emit = from_to \(I64", "type_of_call Emit = from_to (I32"),
    ("a call too few in a list", "crates/imports/proofs/Named.antt", "∷ Cancel ∷", "∷"),
    ("the place of a call", "crates/imports/proofs/Named.antt", "place_of_call Emit = 20\n", ""),
    ("a call that has no meaning", "crates/phases/specs/Host.antt", r"  CallStep InLen \[\].*\n", ""),
    ("a call that isn't answered", "crates/phases/src/loop_host.rt", r"        Call::InLen => .*\n", ""),
    ("a type in a test", TESTS, r"cancel \[I32\]", "cancel [I64]"),
    ("a call too few in Rust", RUST, r"    emit\(value: i64\) -> i32;\n", ""),
    ("a call too few in a trial", SCRIPTED, " OUT_SET,", ""),
    ("a call that a trial makes as another", SCRIPTED, "return uv_is_active", "return uv_close"),
    ("a call that the model doesn't answer", MODEL, "    def is_active", "    def active"),
    ("the names that a message lists", "crates/test_program/stdout", r"it has now, ", "it has "),
    ("the calls of work", HEADER, "every call but uv_in_len, ", "every call but "),
    ("a variant that isn't taken", STEPS, r"\{IsActive, Close,", "{IsActive,"),
    ("a number that isn't that of its place", "crates/imports/proofs/Named.antt", "place_of_call Emit = 20", "place_of_call Emit = 19"),
    ("a call that work doesn't answer", WORK_HOST, r"        Call::InLen => .*\n", ""),
    ("a type in a trial", FUZZ, r"emit: \[\[I64", "emit: [[I32"),
    ("a type in a bench", FUEL, r'"emit": \(\[I64', '"emit": ([I32'),
    ("the number of calls", "docs/GUESTS.md", "21 functions", "22 functions"),
    ("an export", HEADER, r"\(int32_t request, int32_t kind, int32_t code\)", "(int32_t request, int32_t kind)"),
]


def left_unwritten() -> list[str]:
    """What differs still, of a call more in the header, once all is written that can be: what it means, in the host and in the definitions."""
    header = Sources().text(HEADER)
    row = "/* Tries. Then more. */\nUV_IMPORT(try_it) int32_t uv_try_it(int32_t handle, uv_callback callback, uint64_t wide);\n\n"
    sources = Sources({HEADER: re.sub(r"(?=/\* Stops the handle and closes it)", row, header)})
    return unwritten("a call more", 20, sources, faults, written, lambda fault: fault.startswith((STEPS, HOST, MODEL)))


def main() -> None:
    given, sources = asked(__doc__, "self-test", "write", rows="NAME"), Sources()
    if given.self_test:
        sys.exit(1 if plant(PLANTED, sources, faults) or left_unwritten() else 0)
    if given.rows:
        print("\n".join(told for place in PLACES for told in place.told(sources, calls_of(sources), given.rows)) or f"{HEADER} has no {given.rows}")
        return
    if given.write:
        written(sources)
        keep(sources)
        sources = Sources()
    header = Header(sources.text(HEADER))
    finish(list(faults(sources)), f"{len(header.types())} calls, {len(header.numbers)} numbers")


if __name__ == "__main__":
    main()
