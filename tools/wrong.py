#!/usr/bin/env python3
"""Tries wrong bodies, many in one check: the prover must refuse each of them, at the promise that it breaks.

usage: tools/wrong.py [--over FOLDER | --over-gate] [--slots FOLDER] [--promises] [--anew] [--jobs N] [--tell] [--write] [CRATE[/NAME]..]
       tools/wrong.py --check        whether each can be put into the tree; nothing is proved
       tools/wrong.py --plan [CRATE..]   which are tried together
       tools/wrong.py --self-test    the planning and the reading of verdicts, on texts that are known
       tools/wrong.py --planted      tries wrong bodies of a crate of its own, of which not all are refused as they say

The status is 1 if one is not refused so. A wrong body is a file crates/CRATE/wrong/NAME.edit, or one of must-fail/, which `rt ci` tries too:
a line `file: src/..` and pairs of lines `old: TEXT` and `new: TEXT`, as the kit has them. Two more lines are read here alone:

    # promise: TEXT                       which promise it breaks; the gate tries these (--promises), and each night all are tried
    # refused: FUNCTION: CLAUSE, CLAUSE   where the prover must refuse it, by one of these (--write notes what it finds): a clause's name, `returns`
                                          where it has none, else the goal as rattle names it

A function is proved over the contracts of those that it calls, never over their bodies. So bodies of different functions can be wrong at once,
and each verdict is still of one of them. Here a crate's wrong bodies are put into as few copies of it as possible, at most one in a function; each
copy is checked for these functions alone (`rattle check --only`): the proofs of those that they call are left open (tools/left_open.py). A
wrong body counts as refused if its own function is said not to be proved, and a goal of it, for other reasons than that a proof names what is
gone; and it is one of those that `# refused:` names, where that line is there. `rt ci` accepts a failure anywhere in the crate.

Tried alone is one that is not all in bodies of functions (a clause, a constant), or in a function of a cycle, and one whose copy says nothing of its
function. A function whose line says only that one below isn't proved, as where both are wrong in one copy, is tried in the next copy, without
that one. Without `# refused:`, one that changes no body may be refused anywhere in the crate, or by a lemma that no longer holds.

The libraries below are those that build.py has, and are built if they aren't; with --over-gate those that `rt ci` has left in out/rlib; with --over
those of FOLDER, NAME.rlib each: a crate is tried once all below it and its own are there, until FOLDER has a file `over`. What was refused is
kept on this machine, in ~/.cache/wasmloop, by the sums of all that it rests on: kit, crate, libraries, wrong body and the files that try it. --anew tries all.
"""

from __future__ import annotations

import argparse
import collections
import glob
import os
import re
import sys
import threading
import time
from concurrent.futures import Future, ThreadPoolExecutor
from pathlib import Path
from typing import Collection, Counter, Dict, Iterator, List, Mapping, Optional, Sequence, Set

TOP = os.path.dirname(os.path.dirname(os.path.realpath(__file__)))
sys.dont_write_bytecode = True
sys.path.insert(0, TOP)
import build  # noqa: E402
import wrong_test  # noqa: E402
from edits import Edit, copies_of  # noqa: E402
from trier import Kept, Trier  # noqa: E402
from verdicts import BAD, KEPT, REFUSED, UNNAMED, UNSURE  # noqa: E402

FOLDERS = ("must-fail", "wrong")
# How long it waits between two looks whether libraries are there, in seconds.
LOOK = 1.0


def edits_of(crate: str, wanted: Collection[str] = (), promises: bool = False) -> List[Edit]:
    found = sorted(it for folder in FOLDERS for it in glob.glob(f"{TOP}/crates/{crate}/{folder}/*.edit"))
    names = {it.partition("/")[2] for it in wanted if it.partition("/")[0] == crate}
    edits = [Edit(it) for it in found if not names or "" in names or os.path.basename(it)[: -len(".edit")] in names]
    return [it for it in edits if it.promise] if promises else edits


def every_crate() -> List[str]:
    return re.findall(r"(?m)^(\w+)[^:\n]*:", Path(f"{TOP}/crates.txt").read_text(encoding="utf-8"))


def check() -> int:
    """Whether all can be put into the tree."""
    edits = [edit for crate in every_crate() for edit in edits_of(crate)]
    wrong = [f"{it.label}: {BAD}: {it.fault}" for it in edits if it.fault]
    stray = sorted(it for folder in FOLDERS for it in glob.glob(f"{TOP}/crates/*/{folder}/*") if not it.endswith((".edit", ".md")))
    wrong += [f"{os.path.relpath(it, TOP)}: a wrong body's name ends in .edit" for it in stray]
    promises = sum(it.promise is not None for it in edits)
    print("\n".join(wrong) or f"{len(edits)} wrong bodies can be put into the tree; {promises} break a promise that they name")
    return 1 if wrong else 0


def plan(edits_by_crate: Mapping[str, Sequence[Edit]]) -> int:
    every, checks, alone = 0, 0, 0
    for crate, edits in edits_by_crate.items():
        copies, single = copies_of(edits), [it for it in edits if it.alone]
        every, checks, alone = every + len(edits), checks + len(copies), alone + len(single)
        for number, copy in enumerate(copies, 1):
            print(f"{crate} {number}: " + ", ".join(f"{it.name} ({', '.join(it.functions)})" for it in copy.edits))
        for it in single:
            print(f"{crate} alone: {it.name}: {it.alone}")
    print(f"{every} wrong bodies in {checks} checks, and {alone} alone")
    return 0


def ready(rtlib: build.Kit, names: Sequence[str], over: Optional[str], over_gate: bool) -> Dict[str, build.RtCrate]:
    """The crates by name, with the libraries below them where they are taken from."""
    crates = dict(zip(names, build.crates_of(rtlib, names)))
    below = build.lowest_first([*crates.values()], below_alone=True)
    if over:
        for it in [*crates.values(), *below]:
            it.rlib = f"{os.path.abspath(over)}/{it.name}.rlib"
    elif not over_gate:
        # (others wait until this process ends)
        rtlib.lock(below)
        build.over_statements(below)
        build.build_all(rtlib, build.Plan([*crates.values()], *build.shares(), below_alone=True))
    return crates


def as_they_come(crates: Mapping[str, build.RtCrate], over: Optional[str]) -> Iterator[str]:
    """The names of the crates, each once its library and those below it are there, for as long as more may come."""
    left = dict(crates)
    while left:
        is_over = not over or os.path.exists(f"{over}/over")
        name = next((name for name, it in left.items() if not over or all(os.path.isdir(lib.rlib) for lib in [it, *it.below()])), None)
        if name:
            del left[name]
            yield name
        elif is_over:
            return
        else:
            time.sleep(LOOK)


class Told:
    """What is told of all, by several threads."""

    def __init__(self) -> None:
        self.lock, self.kept = threading.Lock(), 0
        self.counts: Counter[bool] = collections.Counter()

    def tells(self, edit: Edit, kind: str, why: str) -> None:
        with self.lock:
            self.counts[kind == REFUSED] += 1
            self.kept += why.endswith(KEPT)
            print(f"{edit.label}: {kind}: {why}", flush=True)


def arguments() -> argparse.ArgumentParser:
    parser = argparse.ArgumentParser(description=__doc__.partition("\n")[0])
    parser.add_argument("wanted", nargs="*", metavar="CRATE[/NAME]")
    parser.add_argument("--over", metavar="FOLDER", help="take the libraries of this folder, as they come")
    parser.add_argument("--over-gate", action="store_true", help="take the libraries that `rt ci` has just proved")
    parser.add_argument("--slots", metavar="FOLDER", help="run as many checks at a time as this folder has files (tools/slots.py)")
    parser.add_argument("--promises", action="store_true", help="only those that name a promise")
    parser.add_argument("--jobs", type=int, default=1, help="how many crates at a time")
    parser.add_argument("--anew", action="store_true", help="take nothing from earlier runs")
    parser.add_argument("--tell", action="store_true", help="print what the checks say")
    parser.add_argument("--write", action="store_true", help="note in each file where it was refused")
    parser.add_argument("--check", action="store_true", help="whether each can be put into the tree")
    parser.add_argument("--plan", action="store_true", help="print which are tried together, and try nothing")
    parser.add_argument("--self-test", action="store_true", help="the planning and the reading of verdicts, on texts that are known")
    parser.add_argument("--planted", action="store_true", help="wrong bodies of a crate of its own")
    return parser


def try_all(given: argparse.Namespace, edits: Mapping[str, Sequence[Edit]]) -> int:
    """Tries the edits of each crate, and returns the status."""
    rtlib = build.kit() if build.has_rt() else None
    if not rtlib:
        return 1
    kit, crates, told = rtlib, ready(rtlib, [*edits], given.over, given.over_gate), Told()
    done: Set[str] = set()

    def one(name: str) -> None:
        trier = Trier(kit, crates[name], edits[name], given.tell, given.slots)
        for edit, (kind, why) in trier.all(None if given.anew else Kept(kit, crates[name])):
            told.tells(edit, kind, why)
            why = why[: -len(KEPT)] if why.endswith(KEPT) else why
            if given.write and kind == REFUSED and edit.functions and UNNAMED not in why:
                edit.note({part.partition(": ")[0]: part.partition(": ")[2].split(", ") for part in why.split("; ")})
        done.add(name)

    with ThreadPoolExecutor(given.jobs) as pool:
        tries: List[Future[None]] = []
        for name in as_they_come(crates, given.over):
            tries.append(pool.submit(one, name))
            # (a fault of this program ends it at once)
            for ended in [it for it in tries if it.done()]:
                ended.result()
        for each in tries:
            each.result()
    for edit in [it for name in edits if name not in done for it in edits[name]]:
        told.tells(edit, UNSURE, "its crate, or one below it, is not proved")
    print(f"{told.counts[True]} wrong bodies refused, {told.counts[False]} not" + (f"; {told.kept} kept from earlier runs" if told.kept else ""))
    return 1 if told.counts[False] else 0


def main() -> int:
    parser = arguments()
    given = parser.parse_args()
    if given.self_test:
        return wrong_test.known()
    build.program_name = "wrong.py"
    if given.planted:
        return wrong_test.planted()
    if given.check:
        return check()
    wanted = {it.partition("/")[0] for it in given.wanted}
    found = {it: edits_of(it, given.wanted, given.promises) for it in every_crate() if not wanted or it in wanted}
    edits = {name: it for name, it in found.items() if it}
    if wanted - {*edits}:
        parser.error(f"there is no such wrong body: {', '.join(sorted(wanted - {*edits}))}")
    return plan(edits) if given.plan else try_all(given, edits)


if __name__ == "__main__":
    sys.exit(main())
