#!/usr/bin/env python3
"""Whether docs/CALLS.md lists the calls of capi/include/wasmloop.h, each with its name in Python and in Rust.

    python3 tools/calls.py               status 1 if the page is not what the header and the bindings say
    python3 tools/calls.py --write       writes the page
    python3 tools/calls.py --self-test   plants faults in copies of the texts; status 1 if one isn't found

A call's line is the first clause of the comment above it, up to a full stop, a colon or a semicolon, without where it writes to and without an
example. Its name in a binding is that of the public functions in which it is called, or that call the private one in which it is.
"""
from __future__ import annotations

import ast
import re
import sys
from typing import Iterator, NamedTuple

from header import FILES_OF_PYTHON, HEADER, INSTEAD, PYTHON, RUST, Sources
from sources import TOP, asked, finish, plant

PAGE = "docs/CALLS.md"
HEAD = f"""# The calls of the library

<!-- Generated from {HEADER} by `python3 tools/calls.py --write`: edit the header. -->

`-`: the binding has no function of its own for it. [wasmloop.h](../{HEADER}) has the arguments, the statuses and the rules for threads;
[COOKBOOK.md](COOKBOOK.md) says which call to use when.
"""
TABLE = "C|Python|Rust|What it does\n---|---|---|---"
# How one writes what a function of such a name does, by its class.
SPELLED = {"__init__": "{0}", "__len__": "len(memory)", "__getitem__": "memory[a:b]", "__setitem__": "memory[a:b] = data", "fmt": "{0}", "drop": "drop"}


class Function(NamedTuple):
    """A function of a binding: its class, its name, whether it is public, and what it calls, those of the library by their names in C."""
    of: str
    name: str
    is_public: bool
    calls: set[str]


class Binding(NamedTuple):
    """The functions of a binding, and what stands between a class and a function of it."""
    functions: list[Function]
    apart: str

    def reaching(self, call: str) -> list[Function]:
        """The public functions that make a call, or else those that call the private ones that make it."""
        found = [it for it in self.functions if call in it.calls]
        for _ in range(2):
            if not any(it.is_public for it in found):
                inner = {it.name for it in found}
                found = [it for it in self.functions if inner & it.calls]
        return [it for it in found if it.is_public]

    def named(self, call: str, instead: str) -> str:
        """The one function for a call, or for what the binding calls instead; the like ones of several types by their name alone."""
        own = [it for it in self.functions if it.name == call and it.is_public and instead != call]
        found = own or self.reaching(f"wasmloop_{instead}")
        alike = [it for it in found if it.name == call] or found
        if len({it.name for it in alike}) != 1:
            return "-"
        of, name, *_ = alike[0]
        if name in SPELLED:
            return f"`{SPELLED[name].format(of)}`"
        return f"`{name}`" if len(alike) > 1 or not of or of.startswith("_") else f"`{of}{self.apart}{name}`"


# the header


def listed(sources: Sources) -> Iterator[tuple[str, list[tuple[str, str]]]]:
    """Each section of the header, with its calls, and what each does."""
    sections: list[tuple[str, list[tuple[str, str]]]] = []
    for part in re.split(r"\n\n+", sources.text(HEADER).split('extern "C" {')[1]):
        heading = re.match(r"/\* ---- (.*?) ---- \*/$", part)
        call = re.match(r"(/\*.*?\*/\n)?(?:int|const char \*) ?wasmloop_(\w+)\(", part, re.S)
        if heading:
            sections.append((heading[1], []))
        elif call:
            sections[-1][1].append((call[2], clause(call[1] or "")))
    return iter(sections)


def clause(comment: str) -> str:
    """The first clause of a comment, without where the call writes to and without an example."""
    words = re.sub(r"\s+", " ", re.sub(r"(?m)^ ?/?\*+/? ?", "", comment.replace("*/", ""))).strip()
    return re.sub(r",? to (?:`into`|\*\w+)|, (?:such )?as \".*?\"", "", re.split(r"[.:;](?: |$)", words)[0])


# the bindings


def called_in_python(node: ast.AST, alias: dict[str, str]) -> Iterator[str]:
    for it in ast.walk(node):
        if isinstance(it, ast.Call) and isinstance(it.func, ast.Name) and it.func.id in ("_call", "_text") and isinstance(it.args[0], ast.Constant):
            yield f"wasmloop_{it.args[0].value}"
        elif isinstance(it, ast.Attribute):
            yield it.attr
        elif isinstance(it, ast.Name):
            yield alias.get(it.id, it.id)


def aliases(trees: list[ast.Module]) -> dict[str, str]:
    """The names that the files give to calls of the library."""
    told = [node for tree in trees for node in tree.body if isinstance(node, ast.Assign)]
    pairs = [pair for node in told if isinstance(node.targets[0], ast.Tuple) and isinstance(node.value, ast.Tuple)
             for pair in zip(node.targets[0].elts, node.value.elts)]
    return {of.id: it.attr for of, it in pairs if isinstance(of, ast.Name) and isinstance(it, ast.Attribute)}


def of_python(sources: Sources) -> Iterator[Function]:
    trees = [ast.parse(sources.text(file)) for file in FILES_OF_PYTHON]
    for node in [it for tree in trees for it in tree.body]:
        of, within = (node.name, node.body) if isinstance(node, ast.ClassDef) else ("", [node])
        for it in within:
            if isinstance(it, ast.FunctionDef):
                yield Function(of, it.name, not it.name.startswith("_") or it.name in SPELLED, set(called_in_python(it, aliases(trees))))


def of_rust(sources: Sources) -> Iterator[Function]:
    text = re.sub(r'(?ms)^extern "C" \{.*?^\}', "", sources.plain(RUST))
    parts = re.split(r"(?m)^(?:impl(?:<.*?>)? (?:[\w:]+ for )?(\w+).*\{$|( *)(pub )?(?:unsafe )?fn (\w+))", text)
    of = ""
    for kind, indent, public, name, body in zip(*(parts[at::5] for at in range(1, 6))):
        of = kind or (of if indent else "")
        if name:
            yield Function(of, name, bool(public) or name in SPELLED, set(re.findall(r"\bwasmloop_\w+|(?<![.\w:])\w+(?=\()", body)))


# the page


def row(call: str, does: str, bindings: dict[str, Binding]) -> str:
    names = (binding.named(call, INSTEAD.get((file, call), call).split()[-1]) for file, binding in bindings.items())
    return "|".join([f"`wasmloop_{call}`", *names, does])


def page(sources: Sources) -> str:
    bindings = {PYTHON: Binding(list(of_python(sources)), "."), RUST: Binding(list(of_rust(sources)), "::")}
    tables = ("\n".join([f"## {heading}\n", TABLE, *(row(call, does, bindings) for call, does in calls), ""]) for heading, calls in listed(sources))
    return "\n".join([HEAD, *tables])


def faults(sources: Sources) -> list[str]:
    unsaid = [call for _, calls in listed(sources) for call, does in calls if not does]
    lines, wanted = sources.text(PAGE).split("\n"), page(sources).split("\n")
    found = [f"{PAGE} lacks: {line}" for line in wanted if line not in lines] + [f"{PAGE} has: {line}" for line in lines if line not in wanted]
    if lines != wanted and not found:
        found = [f"{PAGE} has another order"]
    return [*(f"{HEADER}: wasmloop_{call} has no comment" for call in unsaid), *found]


# its test

PLANTED = [
    ("another name in the header", HEADER, r"(?m)^(int wasmloop_share)\(", r"\1d("),
    ("another line in the header", HEADER, "Creates a second handle", "Creates another handle"),
    ("a call without a comment", HEADER, r"/\* Runs a job, in any thread\..*\*/\n", ""),
    ("another name in Python", f"{PYTHON}/_module.py", r"def share\(", "def shared("),
    ("another name in Rust", RUST, r"pub fn share\(", "pub fn shared("),
    ("a row that the page lacks", PAGE, r"`wasmloop_share`.*\n", ""),
    ("a row too many", PAGE, r"(`wasmloop_share`)", r"`wasmloop_shared`\n\1"),
    ("two rows in each other's place", PAGE, r"(`wasmloop_step`.*\n)(`wasmloop_step_for`.*\n)", r"\2\1"),
]


def main() -> None:
    given, sources = asked(__doc__, "self-test", "write"), Sources()
    if given.write:
        (TOP / PAGE).write_text(page(sources))
    if given.self_test:
        sys.exit(1 if plant(PLANTED, sources, faults) else 0)
    finish(faults(sources), f"{sum(len(calls) for _, calls in listed(sources))} calls listed")


if __name__ == "__main__":
    main()
