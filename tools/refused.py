#!/usr/bin/env python3
"""Whether code says that memory was refused only where an allocation was.

    python3 tools/refused.py               status 1 if another line says it, or one of the list is gone
    python3 tools/refused.py --list        prints each line of the list's kind
    python3 tools/refused.py --self-test   plants faults in copies of the texts; status 1 if one isn't found

`AllocError` is a unit struct, and a fault `Memory` or a status MEMORY is a word: a body could answer them for one operation or one length of
somebody's choice, and its contract would allow it, since an allocation may be refused at any time. So this tool reads each line of the
crates' sources that makes such a value. It must be

  - in an `impl From<AllocError>` or `From<AllocFailed<..>>`,
  - or behind a pattern or a test of another such value, which is passed on,
  - or under a condition that tools/refused.txt has: FILE: CONDITION, a call that allocates and was refused.

WORDS has the words for it. Two crates give back what they took, where memory was refused: GIVEN_BACK.
"""
from __future__ import annotations

import re
import sys
from typing import Iterator, Optional

from sources import TOP, Sources as Texts, asked, finish, plant

LIST = "tools/refused.txt"
WORDS = re.compile(r"\bAllocError\b|\b(?:\w+Fault|Refusal|Refused|Outcome|JobEnd)::(?:Memory|NoMemory)\b|(?<!::)\b(?:MEMORY|NO_MEMORY|NoMemory)\b"
                   r"|\bRefused(?:Memory|Room|Text) \{")
GIVEN_BACK = re.compile(r"\bErr\((?:self|same|core)\)")
PASSED_ON = re.compile(WORDS.pattern + r"|\bOutOfMemory\b|\bis_memory\(\)")
ELSE = re.compile(r"\s*[)}\]]*\s*else \{$")
NO_CODE = re.compile(r"\s*(?:ghost\b|requires\b|ensures\b|invariant\b|decreases\b|(?:pub(?:\(crate\))? )?(?:type|struct|enum)\b"
                     r"|impl\b|->|\) ->|where\b)")
NAMED = re.compile(r"\s*(?:pub(?:\(crate\))? )?(?:(use)|(?:const|static)\b[^=]*=|(?:const |unsafe )*fn\b)(.*)")
TOO_MUCH = re.compile(r"\b(?:with_capacity|reserve\w*|try_reserve\w*)\((?:[^;]*\b(?:usize|isize|u\d+|i\d+)::MAX\b|[^;]*\bif\b)")


class Sources(Texts):
    """Those that this tool reads."""

    def code(self) -> Iterator[tuple[str, list[str]]]:
        """Each source of a crate that isn't one of tests or of an example: its name and its lines, without comments and strings."""
        for file in sorted(TOP.glob("crates/*/src/**/*.rt")):
            name = str(file.relative_to(TOP))
            if not re.match(r"crates/(test|example)_", name):
                yield name, re.sub(r'(?m)//.*$|"(?:[^"\\\n]|\\.)*"', "", self.text(name)).split("\n")


def depth(line: str) -> int:
    return len(line) - len(line.lstrip())


def condition(lines: list[str], at: int) -> str:
    """What a line stands under: the nearest one before it that is less deep, with its first lines where it is the end of a longer one."""
    head = at - 1
    while head > 0 and (not lines[head].strip() or depth(lines[head]) >= depth(lines[at])):
        head -= 1
    first = head
    while ELSE.fullmatch(lines[head]) and first > 0 and not (depth(lines[first]) == depth(lines[head]) and "let " in lines[first]):
        first -= 1
    return " ".join(line.strip() for line in lines[first:head + 1])


def is_passed_on(text: str) -> bool:
    """Whether a pattern or a test of a word of want stands there."""
    left, arm, _ = text.partition("=>")
    if arm:
        return all(PASSED_ON.search(one) for one in alternatives(left.strip()))
    return bool(re.search(r"\bif\b.*==", text) and PASSED_ON.search(text))


def alternatives(pattern: str) -> list[str]:
    """The patterns of which a pattern is made by `|`, also within one pair of brackets, as in `Err(A | B)`."""
    inner = re.fullmatch(r"([\w:]+)\((.*)\)", pattern)
    if inner and "|" in inner[2]:
        return [f"{inner[1]}({one.strip()})" for one in inner[2].split("|")]
    return pattern.split("|")


def makes(line: str) -> str:
    """What of a line makes a value: of an import its other name, of a function on one line the body."""
    named = NAMED.match(line)
    if not named:
        return line
    is_import, rest = named[1], named[2]
    if is_import:
        return rest if " as " in rest else ""
    return rest.partition("{")[2] if re.search(r"\bfn\b", line) else rest


def says_refused(name: str, line: str) -> bool:
    """Whether a line makes a value that says so."""
    if NO_CODE.match(line):
        return False
    if TOO_MUCH.search(line):
        return True
    made = re.sub(r", AllocError>|: AllocError\b", "", makes(line)).rpartition("=>")[2]
    given_back = GIVEN_BACK.search(made) and name.split("/")[1] in ("resident", "phases")
    return bool(WORDS.search(made) or given_back)


def conditions(sources: Sources) -> Iterator[tuple[str, int, str]]:
    """Under what the code says that memory was refused: file, line and condition, but for what is so by its type or is passed on."""
    for name, lines in sources.code():
        inside = ""
        for at, line in enumerate(lines):
            inside = line if re.match(r"\s*impl\b", line) else "" if line == "}" else inside
            if not says_refused(name, line) or re.search(r"From<Alloc(?:Error|Failed)", inside):
                continue
            under = condition(lines, at)
            if not is_passed_on(line) and not is_passed_on(under) and " enum " not in f" {under}":
                yield name, at + 1, line.strip() if "=>" in line or not under else under


def lines_of(found: list[tuple[str, int, str]]) -> list[str]:
    """The lines that the list has to have for these conditions."""
    return sorted({f"{name}: {under}" for name, _, under in found})


def faults(sources: Sources, found: Optional[list[tuple[str, int, str]]] = None) -> list[str]:
    found = list(conditions(sources)) if found is None else found
    listed, told = [line for line in sources.text(LIST).split("\n") if line and not line.startswith("#")], lines_of(found)
    return ([f"{name}:{at}: memory is said to be refused under a condition that {LIST} lacks: {under}" for name, at, under in found
             if f"{name}: {under}" not in listed]
            + [f"{LIST}: no such condition is left: {line}" for line in listed if line not in told]
            + [f"{LIST}: not in order, or twice: {line}" for line, after in zip(listed, listed[1:]) if line >= after])


PLANTED = [  # what is wrong, and where which text becomes which
    ("a step has no memory", "crates/phases/src/slices.rt", r"let mut core = self;",
     "if self.host.copied == 12345 {\n            return Err(self);\n        }\n        let mut core = self;"),
    ("an export's number is out of memory", "crates/wasmloop_c/src/instances.rt", r"return NONE;", "return MEMORY;"),
    ("a length is answered as want of memory", "crates/phases/src/work.rt", r"let request = requests\.last\(\) \+ 1;",
     "if op == 7 {\n        return NO_MEMORY;\n    }\n    let request = requests.last() + 1;"),
    ("a refusal becomes want of memory", "crates/loader/src/loading.rt", r"Err\(fault\) => Err\(Refusal::Decode\(fault\)\)", "Err(_) => Err(Refusal::Memory)"),
    ("a made-up error", "crates/validate/src/parts.rt", r"\n\}\n", "\n    let none: Result<(), AllocError> = Err(AllocError);\n}\n"),
    ("a constant is such a value", "crates/validate/src/body.rt", r"\nfn begin<", "\nconst NO_ROOM: BodyFault = BodyFault::Memory;\n\nfn begin<"),
    ("a function on one line makes it", "crates/valid/src/kept_targets.rt", r"\n/// These targets, without",
     "\nfn none() -> AllocError { AllocError }\n\n/// These targets, without"),
    ("it has another name", "crates/valid/src/kept_targets.rt", r"use std::alloc::\{AllocError, Global\};", "use std::alloc::{AllocError as Full, Global};"),
    ("another fault is passed on with it", "crates/loader/src/loading.rt", r"Err\(DecodeFault::Memory\) =>", "Err(DecodeFault::Memory | DecodeFault::Name) =>"),
    ("more is asked for than there is", "crates/valid/src/kept_targets.rt", r"Vec::with_capacity\(alloc, count\)\?",
     "Vec::with_capacity(alloc, if count == 77 { usize::MAX / 8 } else { count })?"),
    ("a condition is gone from the code", "crates/loader/src/loading.rt", r"let Ok\(copy\) = ", "let Ok(again) = "),
]


def main() -> None:
    given, sources = asked(__doc__, "self-test", "list"), Sources()
    if given.self_test:
        sys.exit(1 if plant(PLANTED, sources, faults) else 0)
    told = list(conditions(sources))
    if given.list:
        print(*lines_of(told), sep="\n")
        return
    finish(faults(sources, told), f"{len(lines_of(told))} conditions under which memory is said to be refused")


if __name__ == "__main__":
    main()
