#!/usr/bin/env python3
"""Whether functions are short: at most seven arguments, 40 lines of body, three levels of control in one another; lines of at most 200
columns; and whether a name is one crate's: a definition of specs/, and a public struct, enum or trait.

    python3 tools/shape.py               status 1 if something is more than that and not in tools/shape.txt, or less than what stands there
    python3 tools/shape.py --renew       takes out of tools/shape.txt what is no longer so, and lowers numbers; it adds nothing
    python3 tools/shape.py --self-test   measures functions whose numbers are known, and looks for planted faults; status 1 if one differs
    python3 tools/shape.py --largest N   prints the N largest functions by each number

Counted are the functions of crates/*/src. `self` is an argument; an allocator too. The body has the lines between its braces that are
neither blank nor a comment nor ghost. A level of control is an `if`, `match`, `for`, `while`, `loop`, `let .. else` or closure with braces;
an `else if` goes on where its `if` stands. A definition that another crate defines too has two crates, a type likewise. Each line of
tools/shape.txt is one exception: how many, of what, where. The list may only shrink.
"""
from __future__ import annotations

import re
import sys
from typing import Iterator

from sources import TOP, asked, finish

LIST = TOP / "tools" / "shape.txt"
MOST = {"arguments": 7, "lines": 40, "levels": 3, "columns": 200, "crates": 1}
HEAD = """# What is more than tools/shape.py allows: how many, of what, in which file and function. This list may only shrink.
"""
FN = re.compile(r"^( *)(?:pub(?:\([a-z]+\))? )?(?:const )?(?:unsafe )?(?:extern \"C\" )?fn (\w+)", re.M)
NAMED = {
    "definition": re.compile(r"^ *(?:(?:abbrev|unfoldable)(?: pub)?|(?:pub )?(?:record|data)) «?([A-Za-z_][\w'-]*)", re.M),
    "type": re.compile(r"^pub(?:\([a-z]+\))? (?:struct|enum|trait) (\w+)", re.M),
}
CLAUSE = re.compile(r"\b(requires|ensures|measure|decreases|invariant)\*?(?: \w+)?\s*$")
CONTROL = re.compile(r"\b(if|match|for|while|loop|else)\b|\|[^|]*\| *(?:-> [\w<>]+ *)?$")


def blanked(text: str) -> str:
    """The text with strings, characters and comments as blanks, so that each bracket is one."""
    def blank(found: re.Match[str]) -> str:
        return re.sub(r"[^\n]", " ", found.group())
    return re.sub(r'//[^\n]*|"(?:[^"\\]|\\.)*"|\'(?:[^\'\\\n]|\\[^\n]{1,8}?)\'', blank, text)


def closing(text: str, at: int) -> int:
    """Where the bracket at this place is closed."""
    pairs, depth = {"(": ")", "[": "]", "{": "}"}, 0
    for place in range(at, len(text)):
        if text[place] in pairs:
            depth += 1
        elif text[place] in pairs.values():
            depth -= 1
            if not depth:
                return place
    return len(text)


def split(text: str) -> list[str]:
    """The parts of a list of arguments: commas within brackets, also of types, don't part."""
    parts, depth = [""], 0
    for at, letter in enumerate(text):
        depth += (letter in "([{<") - (letter in ")]}" or letter == ">" and text[at - 1] not in "-=")
        if letter == "," and not depth:
            parts.append("")
        else:
            parts[-1] += letter
    return [part.strip() for part in parts if part.strip()]


class Function:
    """A function of a text: its name, and how much of everything it has."""

    def __init__(self, text: str, plain: str, found: re.Match[str]) -> None:
        self.name = found.group(2)
        start = plain.index("(", found.end())
        if plain[found.end()] == "<":  # generics may have calls of their own, as `F: Fn(u32)`
            start = plain.index("(", self.end_of_generics(plain, found.end()))
        end = closing(plain, start)
        self.arguments = len(split(plain[start + 1:end]))
        own = self.body(plain, end + 1)
        self.lines = sum(bool(line.strip()) and not line.lstrip().startswith("ghost") for line in own.split("\n"))
        self.levels = self.deepest(own)
        self.line = text.count("\n", 0, found.start(2)) + 1

    @staticmethod
    def body(plain: str, at: int) -> str:
        """What stands between the braces behind a signature and its clauses; nothing of a declaration."""
        begun = at
        while at < len(plain) and plain[at] != ";":
            if plain[at] == "{":
                end = closing(plain, at)
                if not CLAUSE.search(plain[begun:at]):
                    return plain[at + 1:end]
                at = begun = end
            at += 1
        return ""

    @staticmethod
    def end_of_generics(plain: str, at: int) -> int:
        depth = 0
        for place in range(at, len(plain)):
            depth += (plain[place] == "<") - (plain[place] == ">" and plain[place - 1] not in "-=")
            if not depth:
                return place
        return at

    @staticmethod
    def deepest(body: str) -> int:
        """How many levels of control stand in one another at most."""
        stack, most, begun = [], 0, 0
        for place, letter in enumerate(body):
            if letter == "{":
                before = re.split(r"[;{}]", body[begun:place])[-1]
                stack.append(bool(CONTROL.search(before.rstrip())))
                most, begun = max(most, sum(stack)), place + 1
            elif letter == "}":
                if stack:
                    stack.pop()
                begun = place + 1
            elif letter == ";":
                begun = place + 1
        return most


def functions(text: str) -> Iterator[Function]:
    plain = blanked(text)
    for found in FN.finditer(plain):
        yield Function(text, plain, found)


def sources(which: str = "src/**/*.rt") -> dict[str, str]:
    return {str(file.relative_to(TOP)): file.read_text(encoding="utf-8") for file in sorted(TOP.glob(f"crates/*/{which}"))}


def homonyms(texts: dict[str, str]) -> dict[tuple[str, str, str], int]:
    """The names that two crates or more give to a definition, or to a type, and how many."""
    crates: dict[tuple[str, str, str], set[str]] = {}
    for file, text in texts.items():
        kind = "type" if file.endswith(".rt") else "definition"
        for name in NAMED[kind].findall(text):
            crates.setdefault(("crates", kind, name), set()).add(file.split("/")[1])
    return {key: len(those) for key, those in crates.items() if len(those) > MOST["crates"]}


def over(texts: dict[str, str]) -> dict[tuple[str, str, str], int]:
    """What is more than it may be: for each place and measure its number."""
    found = homonyms(texts)
    for name, text in texts.items():
        if name.endswith(".antt"):
            continue
        for function in functions(text):
            for measure in ("arguments", "lines", "levels"):
                number = getattr(function, measure)
                if number > MOST[measure]:
                    key = (measure, name, function.name)
                    found[key] = max(number, found.get(key, 0))
        wide = sum(len(line) > MOST["columns"] for line in text.split("\n"))
        if wide:
            found["columns", name, "-"] = wide
    return found


def listed() -> dict[tuple[str, str, str], int]:
    """The exceptions of the list."""
    found = {}
    for line in LIST.read_text().split("\n") if LIST.is_file() else []:
        if line and not line.startswith("#"):
            number, measure, file, name = line.split()
            found[measure, file, name] = int(number)
    return found


def written(exceptions: dict[tuple[str, str, str], int]) -> str:
    return HEAD + "".join(f"{number} {' '.join(key)}\n" for key, number in sorted(exceptions.items()))


def faults(texts: dict[str, str], exceptions: dict[tuple[str, str, str], int]) -> Iterator[str]:
    now = over(texts)
    for key in sorted(now.keys() | exceptions.keys()):
        measure, file, name = key
        number, allowed = now.get(key, 0), exceptions.get(key, 0)
        what = f"{file}: {name} has {number} {measure}, at most {MOST[measure]}" if name != "-" else f"{file}: {number} lines of over 200 columns"
        if number > allowed:
            yield f"{what}{f' ({allowed} in tools/shape.txt)' if allowed else ''}"
        elif number < allowed:
            yield f"tools/shape.txt: {allowed} {' '.join(key)}: {f'there are {number}' if number else 'it is no longer so'} (--renew)"


def renew() -> None:
    now = over(sources() | sources("specs/**/*.antt"))
    LIST.write_text(written({key: min(number, now[key]) for key, number in listed().items() if key in now}))


# its test

KNOWN = '''
pub fn one_line(&self, (a, b): (u32, u32), f: F) -> u32
    ensures { result ≡ { a } }
{
    a
}

fn none() {}

fn generic<F: Fn(u32, u32) -> u32, const N: usize>(map: FinMap<u32, u32>, f: F) -> Result<(), AllocError> {
    // a comment with { and "
    ghost let x = { y };

    for a in 0..3 {
        if a == 1 {
            g(Point { x: 1, y: '{' });
        } else if a == 2 {
            match a {
                1 => {
                    h();
                }
                _ => (),
            }
        }
    }
}
'''


def self_test() -> int:
    wrong = 0

    def same(what: str, got: object, wanted: object) -> None:
        nonlocal wrong
        wrong += got != wanted
        print(f"{'right' if got == wanted else 'WRONG'}: {what}: {got}{'' if got == wanted else f', not {wanted}'}")

    told = {it.name: (it.arguments, it.lines, it.levels) for it in functions(KNOWN)}
    same("arguments, lines and levels", told, {"one_line": (3, 1, 0), "none": (0, 0, 0), "generic": (2, 12, 3)})
    clean, where = "fn f(a: u32) {\n    g();\n}\n", "crates/x/src/f.rt"
    planted = {
        "eight arguments": "fn f(a: u32, b: u32, c: u32, d: u32, e: u32, f: u32, g: u32, h: u32) {\n    g();\n}\n",
        "41 lines": "fn f(a: u32) {\n" + "    g();\n" * 41 + "}\n",
        "four levels": "fn f(a: u32) {\n" + "if a == 1 {\n" * 4 + "g();\n" + "}\n" * 5,
        "a line of 201 columns": clean + "// " + "x" * 198 + "\n",
    }
    same("a function of three lines", list(faults({where: clean}, {})), [])
    for what, text in planted.items():
        same(f"{what}: found", len(list(faults({where: text}, {}))), 1)
        same(f"{what}: an exception", list(faults({where: text}, over({where: text}))), [])
        same(f"{what}: an exception that is gone", len(list(faults({where: clean}, over({where: text})))), 1)
    for kind, text, end in ("definition", "abbrev pub Fits : Type 0\n", "specs/F.antt"), ("type", "pub(crate) enum Fits {\n}\n", "src/f.rt"):
        two = {f"crates/x/{end}": text, f"crates/y/{end}": text}
        same(f"a {kind} of one crate", list(faults({where: clean, f"crates/x/{end}": text, f"crates/x/more/{end}": text}, {})), [])
        same(f"a {kind} of two crates: found", len(list(faults(two, {}))), 1)
        same(f"a {kind} of two crates: an exception", list(faults(two, over(two))), [])
    return wrong


def largest(count: int) -> None:
    for measure in ("arguments", "lines", "levels"):
        all_of = [(getattr(it, measure), name, it.line, it.name) for name, text in sources().items() for it in functions(text)]
        for number, name, line, function in sorted(all_of, reverse=True)[:count]:
            print(f"{number} {measure} {name}:{line} {function}")


def main() -> None:
    given = asked(__doc__, "self-test", "renew", largest="COUNT")
    if given.self_test:
        sys.exit(1 if self_test() else 0)
    if given.largest:
        return largest(int(given.largest))
    if given.renew:
        return renew()
    texts, exceptions = sources(), listed()
    found = list(faults(texts | sources("specs/**/*.antt"), exceptions))
    finish(found, f"{sum(len(list(functions(text))) for text in texts.values())} functions, {len(exceptions)} exceptions")


if __name__ == "__main__":
    main()
