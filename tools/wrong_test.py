"""Tests of tools/wrong.py: the planning and the reading of verdicts on texts that are known, and wrong bodies of a crate of its own, of which not
all are refused as they say."""

from __future__ import annotations

import glob
import os
import sys
import tempfile
import threading
import time
from pathlib import Path
from typing import Dict, List, Mapping, Optional, Sequence
from unittest import mock

TOP = os.path.dirname(os.path.dirname(os.path.realpath(__file__)))
sys.dont_write_bytecode = True
sys.path.insert(0, TOP)
import build  # noqa: E402
import slots  # noqa: E402
from edits import Alone, Edit, Place, place_in  # noqa: E402
from left_open import leave_open  # noqa: E402
from trier import Kept, Trier  # noqa: E402
from verdicts import BAD, ELSEWHERE, MISSED, REFUSED, told_in, verdict  # noqa: E402

CODE = """use a::b;

impl<M: Fn(u8) -> One<u8>> Two<M>
    for One<'_, M> {
    pub fn f(self) -> u8
        requires x { a }
    {
        let a = 1;
        a
    }
}

fn g() -> u8
{
    2
}

const H: u8 = 3;
"""
SAID = """fn c::f: proved
fn c::m::One::g: no proof: expected answers in ./proofs/m/One/g/Answers.antt; `search` did not prove `returns-clause-a`, `fits`; it calls `c::f`
proofs/h/Answers.antt:3:1: error: `returns-then-x-clause-b`: expected `a`, found `b`
proofs/h/Answers.antt:4:1: error: `returns-2`: `goal.returns-2`: module `Rattle.c.proofs.h.Goals` has no `returns-2` that can be named
note: src/h.rt:8:1: it is not proved that what the function ensures holds when it returns (`returns-else-clause-c`); `search` gave up
note: src/h.rt:30:1: it is not proved that what the function ensures holds when it returns (`returns-clause-d`)
fn c::h: not proved
fn c::i: no proof: it calls `c::h`, which is not proved
fn c::j: depends on a hole in `Rattle.c.proofs.k.Proof.k_spec`
"""
LEMMAS = """crates/c/proofs/Lemmas.antt:3:1: error: `one_more`: the two types first differ where one has `0`
crates/c/proofs/Lemmas.antt:9:1: error: `two_more`: `gone` is not in scope
crates/c/proofs/h/Answers.antt:4:5: error: 1 declaration that depends on `one_more`, which was not admitted, was not checked: returns
fn c::f: proved
fn c::h: not proved
"""
TOLD: Dict[str, List[str]] = {"f": [], "m::One::g": ["a", "fits"], "h": ["b", "c"], "j": []}


class Said:
    """An edit as far as a verdict asks for it."""

    def __init__(self, functions: Sequence[str], wanted: Optional[Mapping[str, Sequence[str]]] = None) -> None:
        self.functions, self.wanted = functions, wanted or {}


def left() -> List[str]:
    """What is wrong with which bodies and proofs are left out."""
    with tempfile.TemporaryDirectory(prefix="wrong-open-") as room:
        for file, text in {"src/m.rt": CODE, "proofs/m/+h/Answers.antt": "", "proofs/m/+h/Laws.antt": "", "proofs/m/i/Invariants.antt": ""}.items():
            os.makedirs(os.path.dirname(f"{room}/{file}"), exist_ok=True)
            Path(f"{room}/{file}").write_text(text, encoding="utf-8")
        count = leave_open(room, "c", ["m::i"])
        found = sorted(os.path.relpath(it, f"{room}/proofs/m") for it in glob.glob(f"{room}/proofs/**/*.antt", recursive=True))
        cites, code = [Path(f"{room}/{it}").read_text(encoding="utf-8") for it in ("proofs/m/+h/Proof.antt", "src/m.rt")]
    right = count == 2 and found == ["+h/Laws.antt", "+h/Proof.antt", "g/Proof.antt", "i/Invariants.antt"]
    right = right and cites.startswith("use Rattle.c.proofs.m.+h.{statement}\n") and code == CODE.replace("    2", "    loop {}")
    return [] if right else [f"left out are {count}, of {found}, by {cites!r}, in {code!r}"]


def most_at_once(count: int, checks: int = 4) -> int:
    """How many of some checks run at a time over so many slots, where each ends once others could have begun."""
    running: List[int] = []
    counts: List[int] = []

    def check(folder: str) -> None:
        with slots.taken(folder):
            running.append(1)
            counts.append(len(running))
            time.sleep(3 * slots.LOOK / checks)
            running.pop()

    with tempfile.TemporaryDirectory() as folder, mock.patch.object(slots, "LOOK", 0.02):
        slots.add(folder, count)
        threads = [threading.Thread(target=check, args=(folder,)) for _ in range(checks)]
        for it in threads:
            it.start()
        for it in threads:
            it.join()
    return max(counts)


def known() -> int:
    """The planning, the proofs left open, the reading of what rattle says, on texts that are known; and how many checks run at a time."""
    places = {"let a = 1;": "m::OneTwo::f", "    2": "m::g", "requires x { a }": Alone, "use a::b;": Alone, "pub fn f(self)": Alone, "u8 = 3": Alone}
    wrong = left()
    for old, what in places.items():
        place = place_in("src/m.rt", CODE, old, {"OneTwo": ["m"]})
        is_right = isinstance(place, Alone) if what is Alone else isinstance(place, Place) and place.name == what
        wrong += [] if is_right else [f"{old!r} is of {place!r}"]
    away = place_in("src/m.rt", CODE, "let a = 1;", {"OneTwo": ["n", "o"]})
    wrong += [] if isinstance(away, Place) and away.name == "n::o::OneTwo::f" else [f"the method of a type of another file is {away!r}"]
    told = told_in(SAID, [Place("h", "src/h.rt", 8, 12)]).goals
    wrong += [] if told == TOLD else [f"told is {told}"]
    by_lemmas = told_in(LEMMAS).lemmas
    wrong += [] if by_lemmas == {"h": ["one_more"]} else [f"told by lemmas is {by_lemmas}"]
    verdicts = [
        (Said(["f"]), MISSED), (Said(["h"]), REFUSED), (Said(["i"]), None), (Said(["f", "h"]), REFUSED), (Said(["h"], {"h": ["a"]}), ELSEWHERE),
        (Said(["m::One::g"], {"m::One::g": ["fits"]}), REFUSED), (Said(["f"], {"f": ["fits"]}), MISSED), (Said([]), REFUSED),
    ]
    for edit, kind in verdicts:
        found = verdict(edit, TOLD)
        wrong += [] if (found and found[0]) == kind else [f"{edit.functions} by {edit.wanted}: {found}, not {kind}"]
    most = [most_at_once(count) for count in (1, 2)]
    wrong += [] if most == [1, 2] else [f"over one slot and over two run {most} checks at a time"]
    print("\n".join(wrong) or f"{len(places) + 6 + len(verdicts)} known answers are found")
    return 1 if wrong else 0


PLANTED = """#![tactic(auto)]

ghost use Rattle.std.specs.Prelude.{◌≡◌, ◌≤◌, ◌+◌};

/// One more, at most 200.
pub fn more(a: u8) -> u8
    requires { a ≤ 100 }
    ensures grows { result ≡ a + 1 }
    ensures small { result ≤ 200 }
{
    a + 1
}

/// Two more.
pub fn twice(a: u8) -> u8
    requires { a ≤ 50 }
    ensures { result ≡ a + 2 }
{
    more(more(a))
}

/// Nothing.
fn nothing() -> u8
    ensures { result ≡ 0 }
{
    0
}

/// As it is. No wrong body is in what it calls, whose proof is left open.
pub fn same(a: u8) -> u8
    ensures { result ≡ a }
{
    let b = a;
    b + nothing()
}
"""
PLANTS = {
    "is_proved": (MISSED, "old: let b = a;\nnew: let b = a + 0;"),
    "is_no_code": (BAD, "old:     more(more(a))\nnew:     less(a)"),
    "has_no_place": (BAD, "old:     less(a)\nnew:     a"),
    "is_refused_elsewhere": (ELSEWHERE, "# refused: more: small\nold:     a + 1\nnew:     a + 2"),
    "is_refused": (REFUSED, "# refused: more: grows\nold:     a + 1\nnew:     a + 3"),
}


def planted() -> int:
    """Whether wrong bodies of a crate of its own get the verdicts that they must."""
    rtlib = build.kit() if build.has_rt() else None
    if not rtlib:
        return 1
    with tempfile.TemporaryDirectory(prefix="wrong-planted-") as room:
        for folder in ("src", "wrong"):
            os.makedirs(f"{room}/crates/planted/{folder}")
        for file, text in {"crates.txt": "planted:\n", "crates/planted/src/lib.rt": PLANTED}.items():
            with open(f"{room}/{file}", "w", encoding="utf-8") as it:
                it.write(text)
        for name, (_, text) in PLANTS.items():
            with open(f"{room}/crates/planted/wrong/{name}.edit", "w", encoding="utf-8") as it:
                it.write(f"file: src/lib.rt\n{text}\n")
        rtlib.guarded()
        crate = rtlib.Crate(f"{room}/crates/planted", room, {})
        edits = [Edit(f"{room}/crates/planted/wrong/{name}.edit") for name in PLANTS]
        os.environ["XDG_CACHE_HOME"] = room
        found = {edit.name: what for edit, what in Trier(rtlib, crate, edits, False).all(Kept(rtlib, crate))}
        kept = [it.name for it in edits if Kept(rtlib, crate).find(it)]
        with open(f"{room}/crates/planted/src/lib.rt", "a", encoding="utf-8") as it:
            it.write("// changed\n")
        stale = [it.name for it in edits if Kept(rtlib, crate).find(it)]
    wrong = [f"{name}: {found[name]}, and not {what}" for name, (what, _) in PLANTS.items() if found[name][0] != what]
    wrong += [] if (kept, stale) == (["is_refused"], []) else [f"kept is {kept}, and of a changed crate {stale}"]
    print("\n".join(wrong) or f"{len(PLANTS)} planted wrong bodies have the verdicts that they must")
    return 1 if wrong else 0
