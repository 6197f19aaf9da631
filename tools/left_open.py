"""Leaves out the bodies and proofs of a crate's functions but those that are looked at. A function is proved over the contracts of those that it calls,
so what is said of it is the same, and those that they call in turn, which may be most of the crate, are not looked at."""

from __future__ import annotations

import glob
import os
import sys
from pathlib import Path
from typing import Collection, Iterator, List, Mapping, Sequence, Tuple

TOP = os.path.dirname(os.path.dirname(os.path.realpath(__file__)))
sys.dont_write_bytecode = True
sys.path.insert(0, TOP)
from edits import FN, Alone, attributes, body, depth, homes_in, impl_over, named  # noqa: E402

# What rattle takes with --allow-holes for the whole proof of a function, or of one that calls itself, whose folder has a `+`.
OPEN = "use Rattle.{library}.{{statement}}\n\npub {name}_spec : {{M : Type 1}} → statement M\n{name}_spec = ?\n"
ANSWERS = ("Answers.antt", "Invariants.antt")


def leave_open(folder: str, crate: str, but: Collection[str]) -> int:
    """Leaves out the bodies and proofs of a copy of a crate, but those of these functions, by their names below the crate; returns how many."""
    proofs = {name: where for name, where in proofs_in(folder) if name not in but}
    homes, left = homes_in(folder), {*proofs}
    for path in glob.glob(f"{folder}/src/**/*.rt", recursive=True):
        lines = Path(path).read_text(encoding="utf-8").split("\n")
        for name, opened, closed in [*bodies_in(os.path.relpath(path, folder), lines, homes)]:
            if name in but:
                continue
            left.add(name)
            # (one that calls itself has a proof of another name once it doesn't)
            if "+" not in proofs.get(name, ""):
                # (as many lines as before, since rattle tells places by them)
                lines[opened + 1: closed] = ["    loop {}", *[""] * (closed - opened - 2)]
        Path(path).write_text("\n".join(lines), encoding="utf-8")
    for name in left:
        leave_proof(folder, crate, proofs.get(name, name.replace("::", "/")))
    return len(left)


def leave_proof(folder: str, crate: str, where: str) -> None:
    """Leaves the proof open that stands there below proofs/."""
    for answers in ANSWERS:
        Path(f"{folder}/proofs/{where}/{answers}").unlink(missing_ok=True)
    os.makedirs(f"{folder}/proofs/{where}", exist_ok=True)
    own = os.path.basename(where)
    library = ".".join([crate, "proofs", *where.split("/"), *["Statement"] * (not own.startswith("+"))])
    Path(f"{folder}/proofs/{where}/Proof.antt").write_text(OPEN.format(library=library, name=own), encoding="utf-8")


def proofs_in(folder: str) -> Iterator[Tuple[str, str]]:
    """The functions whose proofs have answers, and where these stand below proofs/."""
    for answers in (*ANSWERS, "Proof.antt"):
        for path in glob.glob(f"{folder}/proofs/**/{answers}", recursive=True):
            where = os.path.relpath(os.path.dirname(path), f"{folder}/proofs")
            yield where.replace("+", "").replace("/", "::"), where


def bodies_in(file: str, lines: Sequence[str], homes: Mapping[str, List[str]]) -> Iterator[Tuple[str, int, int]]:
    """The functions of a module and the methods of types that are of no trait, and the lines between which their bodies stand."""
    for at in [it for it, line in enumerate(lines) if FN.match(line)]:
        name, words = named(file, lines, at, homes), [lines[at], *attributes(lines, at)]
        is_other = depth(lines[at]) and " for " in impl_over(lines, at)
        if not (isinstance(name, Alone) or is_other or any(it in word for it in ("const fn", "cycle(", "test") for word in words)):
            opened, closed = body(lines, at)
            if opened + 1 < closed < len(lines):
                yield name, opened, closed
