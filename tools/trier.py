"""Tries the wrong bodies of a crate, as many in one check as can be, and keeps on this machine what was refused."""

from __future__ import annotations

import hashlib
import os
import re
import shutil
import signal
import subprocess
import sys
import tempfile
from pathlib import Path
from typing import Dict, Iterator, List, Mapping, Optional, Sequence, Set, Tuple

TOP = os.path.dirname(os.path.dirname(os.path.realpath(__file__)))
sys.dont_write_bytecode = True
sys.path.insert(0, TOP)
import build  # noqa: E402
import edits as edits_of_tree  # noqa: E402
import kept  # noqa: E402
import left_open  # noqa: E402
import slots  # noqa: E402
import verdicts  # noqa: E402
from edits import PARTS, Copy, Edit, copies_of  # noqa: E402
from verdicts import BAD, KEPT, MISSED, REFUSED, UNSURE, told_in, verdict  # noqa: E402

# What a verdict is made by: what it was is kept as long as these are the same.
MADE_BY = [__file__, edits_of_tree.__file__, left_open.__file__, verdicts.__file__]


class Kept:
    """What earlier runs on this machine refused of a crate's wrong bodies, by a sum of all that it rests on."""

    def __init__(self, rtlib: build.Kit, crate: build.RtCrate) -> None:
        self.rtlib, self.crate = rtlib, crate
        self.first, self.folder = self.sum(), kept.folder("wrong")

    def sum(self) -> str:
        return build.sum_over_built(self.rtlib, self.crate, MADE_BY)

    def file(self, edit: Edit) -> str:
        made = self.first + Path(edit.path).read_text(encoding="utf-8")
        return f"{self.folder}/{hashlib.sha256(made.encode()).hexdigest()}"

    def find(self, edit: Edit) -> Optional[str]:
        return Path(self.file(edit)).read_text(encoding="utf-8") if os.path.isfile(self.file(edit)) else None

    def keep(self, refused: Mapping[Edit, str]) -> None:
        """Keeps what was refused, unless something that it rests on was changed meanwhile."""
        if self.sum() != self.first:
            return
        os.makedirs(self.folder, exist_ok=True)
        for edit, why in refused.items():
            with tempfile.NamedTemporaryFile("w", dir=self.folder, delete=False, encoding="utf-8") as it:
                it.write(why)
            os.replace(it.name, self.file(edit))


class Trier:
    """Tries the wrong bodies of one crate."""

    def __init__(self, rtlib: build.Kit, crate: build.RtCrate, edits: Sequence[Edit], tells: bool, slots_in: Optional[str] = None) -> None:
        self.rtlib, self.crate, self.edits, self.tells, self.slots_in = rtlib, crate, edits, tells, slots_in
        self.checked = tempfile.mkdtemp(prefix="wrong-checked-")
        self.checks = 0
        self.apart: Set[Edit] = set()

    def check(self, texts: Mapping[str, str], functions: Sequence[str], are_alone: bool = False) -> Tuple[int, str]:
        """Checks these functions, or else all, of a copy of the crate with these texts; returns the status, and what is said. Of all others the
        bodies and proofs are left out where these are to be checked alone."""
        self.checks += 1
        with slots.taken(self.slots_in):
            return self.check_now(texts, functions, are_alone)

    def check_now(self, texts: Mapping[str, str], functions: Sequence[str], are_alone: bool) -> Tuple[int, str]:
        """The check itself, which another one may run beside."""
        flags = [word for it in functions for word in ("--only", it)]
        with tempfile.TemporaryDirectory(prefix="wrong-") as room:
            for part in PARTS:
                if os.path.isdir(f"{self.crate.folder}/{part}"):
                    shutil.copytree(f"{self.crate.folder}/{part}", f"{room}/{part}")
            for file, text in texts.items():
                with open(f"{room}/{file}", "w", encoding="utf-8") as it:
                    it.write(text)
            if are_alone and left_open.leave_open(room, self.crate.name, functions):
                flags.append("--allow-holes")
            # (with a folder to keep it in, rattle checks all that is new, asked for or not)
            kept = [] if are_alone else ["--incremental", self.checked]
            words = [self.rtlib.RATTLE, "check", *self.crate.words(["--jobs", "1", *flags], keeps=False), *kept]
            ran = self.run(words, room)
            if ran.returncode == -signal.SIGKILL:
                # (most likely for memory: once more)
                ran = self.run(words, room)
        if self.tells:
            print(ran.stdout, flush=True)
        return ran.returncode, ran.stdout

    def run(self, words: Sequence[str], folder: str) -> subprocess.CompletedProcess[str]:
        return subprocess.run([*self.rtlib.guarded(), *words], cwd=folder, errors="replace", check=False, stdin=subprocess.DEVNULL,
                              stdout=subprocess.PIPE, stderr=subprocess.STDOUT)

    def together(self, copy: Copy) -> Dict[Edit, Optional[Tuple[str, str]]]:
        """Tries a copy, and returns what is known by it. One whose function has another name than was guessed is left out."""
        status, said = self.check(copy.texts, copy.functions(), are_alone=True)
        lost = re.search(r"has no function `([^`]+)`", said)
        if status == 2 and lost:
            left = Copy()
            for edit in copy.edits:
                if lost[1] not in edit.functions:
                    left.takes(edit)
            return self.together(left) if left.edits else {}
        if not re.search(r"^only=\d+ (?:proved|holes)=\d+", said, re.M):
            # (one of them is no code, say)
            self.apart.update(copy.edits)
            return {}
        told = told_in(said, [it for edit in copy.edits for it in edit.places]).goals
        return {edit: verdict(edit, told) for edit in copy.edits}

    def by_itself(self, edit: Edit) -> Tuple[str, str]:
        """Tries one in a copy of its own, all of the crate where its functions aren't known."""
        texts: Dict[str, str] = {}
        fault = edit.fault_in(texts)
        if fault:
            return BAD, fault
        status, said = self.check(texts, edit.functions)
        if status == 2 and edit.functions and not edit.wanted:
            edit.functions = []
            status, said = self.check(texts, [])
        if not re.search(r"^(?:logic=(?:not-)?proved|only=\d+ proved=\d+)", said, re.M):
            first = next((it for it in said.splitlines() if re.search(r"\berror\b", it)), "")
            no_code = BAD, f"it is no code that the prover is asked of: {first[:200]}"
            return no_code if status == 1 else (UNSURE, f"its check ended with status {status}")
        told, by_lemmas = told_in(said, edit.places)
        if not edit.functions and not any(told.values()):
            told = by_lemmas
        if not edit.functions and not any(told.values()):
            return (MISSED, "the crate is still proved") if status == 0 else (UNSURE, "no function's line says what is not proved")
        return verdict(edit, told) or (UNSURE, "the lines of its functions say nothing of it")

    def all(self, kept: Optional[Kept] = None) -> Iterator[Tuple[Edit, Tuple[str, str]]]:
        """Yields each wrong body with its verdict, as it comes."""
        refused: Dict[Edit, str] = {}
        known: Set[Edit] = set()
        for edit in self.edits if kept else []:
            why = kept and kept.find(edit)
            if why:
                known.add(edit)
                yield edit, (REFUSED, why + KEPT)
        for edit, (kind, why) in self.tried(known):
            refused.update({edit: why} if kind == REFUSED else {})
            yield edit, (kind, why)
        if kept:
            kept.keep(refused)

    def tried(self, known: Set[Edit]) -> Iterator[Tuple[Edit, Tuple[str, str]]]:
        """Yields those that aren't known with their verdicts."""
        left: Optional[List[Edit]] = None
        try:
            while left is None or 0 < len([it for it in self.edits if it not in known]) < len(left):
                # (beside others once more where one of those, below it, kept it from saying anything)
                left = [it for it in self.edits if it not in known]
                for copy in copies_of([it for it in left if it not in self.apart]):
                    for edit, what in self.together(copy).items():
                        if what:
                            known.add(edit)
                            yield edit, what
            for edit in self.edits:
                if edit not in known:
                    yield edit, self.by_itself(edit)
        finally:
            shutil.rmtree(self.checked, ignore_errors=True)
