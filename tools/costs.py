#!/usr/bin/env python3
"""Whether a function's proof reaches each file of proofs, and what the facts of docs/PROOFS.md cost, in lines of such files.

    python3 tools/costs.py               status 1 if no function's proof reaches a file
    python3 tools/costs.py --facts       for each fact whose proof has files: the lines that no other function's proof reaches, all that its own
                                         reaches, and its calls; the dearest first
    python3 tools/costs.py --self-test   plants files that nothing reaches; status 1 if one isn't found

A function's proof is its own files (answers, invariants, measures, or all of it by hand) and the lemmas that its source names; from there
files lead on by what they import, and a name that a module passes on leads to where it stands. What a function calls is proved once, with
that function, and counts there: so a law, which calls nothing, costs what is printed, and `serve::serve`, which the checker proves without a
file, nothing. So no page has these numbers, which also move with each change of a proof: they are for who looks for a proof to shorten.
"""
from __future__ import annotations

import re
import sys
from collections import Counter
from typing import Iterable, Iterator, Mapping

from citations import Clauses, facts
from reached import Tree
from sources import TOP, Sources, asked, finish

OWN = ("Answers", "Invariants", "Measures", "Proof", "Send")    # the files that the checker asks a function, or a type, for
IMPORT = re.compile(r"^(pub )?(?:ghost )?use (Rattle\.[\w+-]+\.proofs(?:\.[\w+-]+)+)(?:\.\{([^}]*)\})?", re.M)
USING = re.compile(r"#\[tactic\([^\n]*using\(crate::proofs::([\w:]+)::[\w-]+\)[^\n]*(?:\n(?!\s*(?:pub )?fn )[^\n]*)*\n[^\n]*?fn (\w+)")


def names_of(listed: str) -> list[str]:
    return [name.strip().split(" as ")[0] for name in listed.split(",") if name.strip()]


class Proofs:
    """The files of proofs by the names of their modules, what each imports, and from where a function's proof starts."""

    def __init__(self, sources: Sources, files: Iterable[str]) -> None:
        self.files = {"Rattle." + file[len("crates/"):-len(".antt")].replace("/", "."): file for file in files if "/proofs/" in file}
        self.texts = {module: sources.text(file) for module, file in self.files.items()}
        self.lines = {module: text.count("\n") for module, text in self.texts.items()}
        self.imports = {module: list(self.imported(text)) for module, text in self.texts.items()}
        self.passed = {module: {name: of for public, of, names in imports if public for name in names} for module, imports in self.imports.items()}
        self.roots: dict[str, set[str]] = {}
        for module in self.files:
            if module.endswith(OWN):
                self.root(module.rpartition(".")[0].replace(".proofs", "").removeprefix("Rattle."), module)
        for file in files:
            if "/proofs/" not in file:
                self.of_source(sources.text(file), *file[len("crates/"):].rpartition(".")[0].split("/", 2)[::2])

    @staticmethod
    def imported(text: str) -> Iterator[tuple[bool, str, list[str]]]:
        yield from ((bool(public), module, names_of(names)) for public, module, names in IMPORT.findall(text))

    def root(self, function: str, module: str) -> None:
        self.roots.setdefault(function.replace(".", "::"), set()).add(module)

    def of_source(self, text: str, crate: str, file: str) -> None:
        """What a source names: the lemmas that a function's tactic uses, and what a file or an `impl` imports."""
        for lemma, function in USING.findall(text):
            self.root(f"{crate}::{file}::{function}", f"Rattle.{crate}.proofs.{lemma.replace('::', '.')}")
        for _, module, names in self.imported(text):
            for name in names:
                self.root(f"{crate}::{file}", self.place(module, name))

    def place(self, module: str, name: str) -> str:
        """The module where a name stands that another one may only pass on."""
        while name in self.passed.get(module, ()):
            module = self.passed[module][name]
        return module

    def reach(self, modules: Iterable[str]) -> set[str]:
        """All files that these lead to."""
        found: set[str] = set()
        left = list(modules)
        while left:
            module = left.pop()
            if module in self.files and module not in found:
                found.add(module)
                left += [self.place(of, name) for _, of, names in self.imports[module] for name in names or [""]]
        return found

    def unreached(self) -> list[str]:
        """The files that no proof reaches, but for those that only pass names on."""
        there = self.reach(module for modules in self.roots.values() for module in modules)
        return [file for module, file in self.files.items() if module not in there and not self.passes_on(module)]

    def passes_on(self, module: str) -> bool:
        return bool(self.passed[module]) or all(re.match(r"(pub )?mod ", line) for line in self.texts[module].splitlines())


def proofs_of(sources: Sources, more: Mapping[str, str] = {}) -> Proofs:
    files = [str(file.relative_to(TOP)) for part in ("proofs/**/*.antt", "specs/**/*.antt", "src/**/*.rt") for file in TOP.glob(f"crates/*/{part}")]
    return Proofs(Sources({**sources.changed, **more}), [*files, *more])


def functions_of(proofs: Proofs, call: str) -> list[str]:
    """The functions that a fact calls so: by the crate, and by the last of their names."""
    crate, *path = call.split("::")
    return [function for function in proofs.roots if function.split("::")[0] == crate and function.split("::")[-len(path):] == path]


def costs(proofs: Proofs) -> Iterator[tuple[int, int, str]]:
    """For each fact the lines that only its proof reaches, all that it reaches, and its calls."""
    reached = {function: proofs.reach(modules) for function, modules in proofs.roots.items()}
    by = Counter(module for modules in reached.values() for module in modules)
    for fact in facts(Clauses(Tree())):
        functions = {function for call in fact.calls for function in functions_of(proofs, call)}
        mine = Counter(module for function in functions for module in reached[function])
        yield (sum(proofs.lines[module] for module in mine if mine[module] == by[module]), sum(proofs.lines[module] for module in mine),
               ", ".join([*fact.calls, *(f"`{name}`" for name in fact.names)]))


PLANTED = {
    "a lemma that nothing uses": "crates/leb/proofs/NothingUses.antt",
    "a lemma of a lemma that nothing uses": "crates/leb/proofs/NothingUsesEither.antt",
}


def missed() -> int:
    """How many of the planted files aren't found."""
    first, second = PLANTED.values()
    more = {first: "use Rattle.leb.proofs.NothingUsesEither.{a}\n\npub b : 1 ≡ 1\nb = a\n", second: "pub a : 1 ≡ 1\na =\n    refl\n"}
    found = proofs_of(Sources(), more).unreached()
    for what, file in PLANTED.items():
        print(f"{'found' if file in found else 'MISSED'}: {what}")
    return len(set(PLANTED.values()) - set(found))


def main() -> None:
    given = asked(__doc__, "facts", "self-test")
    if given.self_test:
        sys.exit(1 if missed() else 0)
    proofs = proofs_of(Sources())
    if given.facts:
        print("\n".join(f"{own:6} {whole:6}  {calls}" for own, whole, calls in sorted(costs(proofs), reverse=True) if whole))
        return
    finish([f"{file}: no function's proof reaches it" for file in proofs.unreached()], f"{len(proofs.files)} files of proofs")


if __name__ == "__main__":
    main()
