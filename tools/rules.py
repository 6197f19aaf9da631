#!/usr/bin/env python3
"""Whether the definitions name each rule of WebAssembly Core once, and say of what is no rule of it that it is the project's own.

    python3 tools/rules.py               status 1 if a rule is named nowhere, twice or wrongly, or a case names none
    python3 tools/rules.py --list        prints each rule with the place that names it, or why it isn't stated
    python3 tools/rules.py --self-test   plants faults in copies of the texts; status 1 if one isn't found

tools/rules.txt lists the rules of chapters 3 to 5. A comment right above a case of a definition (an equation, a field, a constructor), or above
its first line for all its cases, names its rules: `-- Core 1.0, 4.4.5: br_if`, several with `;` between; or it begins with `-- own: `. In the files
of FILES each case has such a comment; elsewhere in specs/ a case may have one.
"""
from __future__ import annotations

import re
import sys
from typing import Iterator

from sources import TOP, Sources as Texts, asked, finish, plant

LIST = "tools/rules.txt"
FILES = {
    "leb": ["Spelling"], "syntax": ["Language", "Instructions", "Binary"], "numeric": ["Integer", "ByOperator"], "instance": ["Store", "Fresh"],
    "valid": ["Stack", "Typing", "Valid", "Segments"], "reduction": ["Configuration", "Step", "Operators", "Run", "Invoking"],
}
RULE = re.compile(r"^ *-- Core (\d\.\d), ([\d.]+): (.+)$")
HEAD = re.compile(r"^(?:abbrev pub|unfoldable pub|pub (data|record)) ([^\s:(]+)")
EQUATION, FIELD = re.compile(r"^(?!use |infix|pub )[^\s\-}]"), re.compile(r"^  (?!--)\S")

# what stands in a case by a rule of an instruction, where it isn't the rule's name in capitals
CONSTRUCTORS = {
    "t.load": "Load", "t.loadN_sx": "LoadNarrow", "t.store": "Store", "t.storeN": "StoreNarrow", "t.const": "Const", "t.testop": "Eqz",
    "t.unop": "Unary", "t.binop": "Binary", "t.relop": "Compare", "t2.cvtop_t1_sx": "Convert",
    "block": "(?:AsBlock|Structured)", "loop": "(?:AsLoop|Structured)",
}
OF_INSTRUCTIONS = re.compile(r"\d\.\d (?:3\.3\.[1-58]|4\.4\.[1-58]): ([\w.]+)$")


class Sources(Texts):
    """Those that this tool reads."""

    def rules(self) -> Iterator[tuple[str, str]]:
        """Each rule of the list, and why it isn't stated, or an empty text."""
        for line in self.text(LIST).split("\n"):
            if line and not line.startswith("#"):
                head, _, why = line.partition(" | ")
                place, _, names = head.partition(": ")
                yield from ((f"{place}: {name}", why) for name in names.split(" ; "))

    def specs(self) -> Iterator[tuple[str, list[str]]]:
        """The lines of each file of definitions."""
        for file in sorted(TOP.glob("crates/*/specs/**/*.antt")):
            name = str(file.relative_to(TOP))
            yield name, self.text(name).split("\n")


def named(line: str) -> list[str]:
    """The rules that a comment names."""
    found = RULE.match(line)
    return [f"{found[1]} {found[2]}: {name}" for name in found[3].split("; ")] if found else []


def is_marked(lines: list[str], at: int) -> bool:
    """Whether the comment above a line names a rule, or says that what is below is own."""
    while at and re.match(r" *--|infix", lines[at - 1]):
        at -= 1
        if RULE.match(lines[at]) or lines[at].lstrip().startswith("-- own: "):
            return True
    return False


def bare(lines: list[str]) -> Iterator[int]:
    """The definitions of a file of which a case has no mark: the numbers of their lines."""
    all_marked, kind = True, None
    for at, line in enumerate(lines):
        head = HEAD.match(line)
        if head:
            kind, all_marked = head[1] or "equations", is_marked(lines, at)
        elif kind and not all_marked and (EQUATION if kind == "equations" else FIELD).match(line) and not is_marked(lines, at):
            yield at + 1


def places(sources: Sources) -> dict[str, list[str]]:
    """Where each rule is named."""
    found: dict[str, list[str]] = {}
    for file, lines in sources.specs():
        for at, line in enumerate(lines):
            for rule in named(line):
                found.setdefault(rule, []).append(f"{file}:{at + 1}")
    return found


def misplaced(sources: Sources) -> Iterator[str]:
    """The comments that name an instruction's rule over a case which doesn't have that instruction."""
    for file, lines in sources.specs():
        for at, line in enumerate(lines):
            for rule in named(line):
                name = OF_INSTRUCTIONS.match(rule)
                if name and name[1] != "expression":
                    word = CONSTRUCTORS.get(name[1], "".join(part.capitalize() for part in re.split(r"[._]", name[1])))
                    below = next(one for one in lines[at + 1:] if not one.lstrip().startswith("--"))
                    if not re.search(rf"\b{word}\b", below):
                        yield f"{file}:{at + 1}: {rule} stands over a case without {word}: {below.strip()[:60]}"


def faults(sources: Sources) -> list[str]:
    stated, found = dict(sources.rules()), places(sources)
    faults = [f"{rule}: no definition names it" for rule, why in stated.items() if not why and rule not in found]
    faults += [f"{where[0]}: {rule}: tools/rules.txt has no such rule" for rule, where in found.items() if rule not in stated]
    faults += [f"{where[0]}: {rule}: tools/rules.txt says that it isn't stated" for rule, where in found.items() if stated.get(rule)]
    faults += [f"{rule} is named twice: {', '.join(where)}" for rule, where in found.items() if len(where) > 1]
    faults += misplaced(sources)
    listed = [rule for rule, _ in sources.rules()]
    faults += [f"{LIST}: {rule} stands there twice" for rule in sorted(set(listed)) if listed.count(rule) > 1]
    for crate, names in FILES.items():
        for name in names:
            file = f"crates/{crate}/specs/{name}.antt"
            faults += [f"{file}:{at}: it names no rule, and doesn't say that it is own" for at in bare(sources.text(file).split("\n"))]
    return faults


STEP, TYPING, VALID = ("crates/reduction/specs/Step.antt", "crates/valid/specs/Typing.antt", "crates/valid/specs/Valid.antt")
PLANTED = [  # what is wrong, and where which text becomes which
    ("a step names no rule", STEP, "-- Core 1.0, 4.4.2: select\n", ""),
    ("a rule of typing is named twice", TYPING, "3.3.5: nop", "3.3.5: unreachable"),
    ("a rule has another section", TYPING, "Core 1.0, 3.3.2: drop", "Core 1.0, 3.3.3: drop"),
    ("a rule is that of the other version", TYPING, "Core 2.0, 3.3.8: br_if", "Core 1.0, 3.3.5: br_if"),
    ("a case of our own doesn't say so", STEP, "-- own: an operand is missing, or is of the wrong type\nplain_step", "plain_step"),
    ("a field names no rule", VALID, "  -- Core 1.0, 3.4.5: elem, its offset\n", ""),
    ("a definition of our own doesn't say so", STEP, "-- own: both are of one type", "-- both are of one type"),
    ("an opcode names no rule", "crates/syntax/specs/Instructions.antt", "; i64.rotl", ""),
    ("a new case stands there without a rule", VALID, "  pub nested :", "  pub more : ⊥\n  pub nested :"),
    ("a rule stands over another instruction", TYPING, r"3\.3\.4: t\.load\n((?:.*\n)*?)(.*)3\.3\.4: t\.store\n", r"3.3.4: t.store\n\1\g<2>3.3.4: t.load\n"),
    ("the list lacks a rule", LIST, "drop ; select", "drop"),
]


def main() -> None:
    given, sources = asked(__doc__, "self-test", "list"), Sources()
    if given.self_test:
        sys.exit(1 if plant(PLANTED, sources, faults) else 0)
    stated, where, found = list(sources.rules()), places(sources), faults(sources)
    if given.list:
        for rule, why in stated:
            print(f"{rule}: {why or ', '.join(where.get(rule, ['nowhere']))}")
    finish(found, f"{sum(not why for _, why in stated)} rules of WebAssembly Core are to be named, {sum(bool(why) for _, why in stated)} have a reason why not")


if __name__ == "__main__":
    main()
