"""How far the proofs and the wrong bodies of a gate are, what each crate takes, and how many minutes are left."""

from __future__ import annotations

import collections
import contextlib
import os
import platform
import re
import time
from typing import Collection, DefaultDict, Dict, List, NamedTuple, Optional, Set, Tuple

TOP = os.path.dirname(os.path.dirname(os.path.realpath(__file__)))
TICKS = os.sysconf("SC_CLK_TCK")
KINDS = ("proof", "tests", "edits")
# of what rt says, what tells how far it is
ENDED = re.compile(r"^rt: (\w+)(: its tests are)? (?:(proved)|(NOT PROVED)|is (kept): .*)$")
# of what tools/wrong.py says, the verdict on a wrong body
TRIED = re.compile(r"^(\w+)/\w\S*: (refused|NOT REFUSED.*|BAD EDIT|NOT TRIED): ")


class Times(NamedTuple):
    """The processors' seconds: those that were idle, those that a virtual machine's host gave to others, and all."""

    idle: float
    stolen: float
    all: float

    def since(self, then: Times) -> Times:
        return Times(self.idle - then.idle, self.stolen - then.stolen, self.all - then.all)

    def stolen_part(self) -> float:
        return self.stolen / max(self.all, 1.0)


def times() -> Times:
    with open("/proc/stat") as file:
        fields = [int(it) / TICKS for it in file.readline().split()[1:9]]
    return Times(fields[3] + fields[4], fields[7], sum(fields))


def processes() -> Dict[int, Tuple[int, str, float]]:
    """The parent, the start and the used seconds of each process that there is."""
    found: Dict[int, Tuple[int, str, float]] = {}
    for name in filter(str.isdigit, os.listdir("/proc")):
        with contextlib.suppress(OSError), open(f"/proc/{name}/stat") as file:
            fields = file.read().rpartition(")")[2].split()
            found[int(name)] = int(fields[1]), fields[19], (int(fields[11]) + int(fields[12])) / TICKS
    return found


class Job(NamedTuple):
    """What a process works for; of an edit of rt's also its number."""

    crate: str
    kind: str
    number: str


def job(pid: int) -> Optional[Job]:
    """What a process works for, where its command line says so."""
    try:
        with open(f"/proc/{pid}/cmdline", "rb") as file:
            words = file.read().decode(errors="replace").split("\0")
        place = os.path.basename(os.readlink(f"/proc/{pid}/cwd"))
    except OSError:
        return None
    if "--crate-name" not in words:
        return None
    crate = words[words.index("--crate-name") + 1]
    if place.startswith(("rt-edit-", "wrong-")):
        over = os.path.basename(words[words.index("--incremental") + 1]) if "--incremental" in words else str(pid)
        return Job(crate, "edits", over if place.startswith("rt-") else "")
    return Job(crate, "tests" if "--test" in words else "proof", "")


class Watch:
    """How far the proofs and the wrong bodies are: by what is said, and by the processes. What a process uses after the last look at it is lost:
    under 1 in 100. What each crate took in an earlier gate is known to it."""

    def __init__(self, known: Dict[str, Tuple[float, ...]]) -> None:
        with open(f"{TOP}/crates.txt", encoding="utf-8") as file:
            self.crates = re.findall(r"(?m)^(\w+)[^:\n]*:", file.read())
        self.by_rt = {it: len(files_in(f"{TOP}/crates/{it}/must-fail")) for it in self.crates}
        by_us = [file for it in self.crates for file in files_in(f"{TOP}/crates/{it}/wrong")]
        self.edits = sum(self.by_rt.values()) + sum("\n# promise: " in f"\n{text_of(file)}" for file in by_us)
        self.proved: Set[str] = set()
        self.tested: Set[str] = set()
        self.refused: Set[str] = set()
        self.wrong: List[str] = []
        self.tried: DefaultDict[str, Set[str]] = collections.defaultdict(set)
        self.now: Set[Job] = set()
        self.used: Dict[Tuple[int, str, str, str], float] = {}
        self.told: Dict[Tuple[int, str], Optional[Job]] = {}
        self.known, self.began = known, time.monotonic()

    def hears(self, line: str) -> Optional[str]:
        """Takes a line of `rt ci` or of tools/wrong.py; returns the crate or wrong body that it tells to have failed, if it does."""
        found, tried = ENDED.match(line), TRIED.match(line)
        failed: Optional[str] = None
        if tried:
            name = line.partition(": ")[0]
            failed = None if tried[2] == "refused" else name
            self.refused.update([] if failed else [name])
        elif found and found[4]:
            failed = found[1]
        elif found:
            (self.tested if found[2] else self.proved).add(found[1])
            if found[5]:
                # (what an earlier run has proved takes no time, its tests and wrong bodies neither)
                self.known[found[1]] = 0, 0, 0
        self.wrong += [failed] if failed else []
        return failed

    def look(self, tops: Collection[int]) -> None:
        """Notes what the processes below `tops` work for, and have used by now. A process works for what its nearest ancestor names."""
        found = processes()
        now: Set[Job] = set()
        for pid, (_, start, seconds) in found.items():
            line = [pid]
            while line[-1] in found and line[-1] not in tops:
                line.append(found[line[-1]][0])
            if line[-1] not in tops:
                continue
            named = next((it for it in map(self.job, line[:-1], [found[it][1] for it in line[:-1]]) if it), None)
            if named:
                self.used[pid, start, named.crate, named.kind] = seconds
                now.add(named)
        for crate, kind, over in self.now:
            if kind == "edits" and over not in ("", "seed") and Job(crate, kind, over) not in now:
                self.tried[crate].add(over)
        self.now = now

    def job(self, pid: int, start: str) -> Optional[Job]:
        if self.told.get((pid, start)) is None:
            self.told[pid, start] = job(pid)
        return self.told[pid, start]

    def count(self) -> int:
        """How many wrong bodies are refused, or tried by rt, which says only at its end what it found."""
        return len(self.refused) + sum(min(len(self.tried[it]), self.by_rt[it]) for it in self.crates)

    def left(self) -> Optional[float]:
        """How many seconds are left of the work that is known, at the pace so far; None where the pace or the work isn't known."""
        passed, whole = time.monotonic() - self.began, sum(sum(it) for it in [*self.known.values()])
        done = sum(map(self.part_done, [*self.known]))
        return None if passed < 120 or done <= whole / 50 else (whole - done) * passed / done

    def part_done(self, crate: str) -> float:
        proof, tests, edits = self.known[crate]
        begun = {kind: sum(seconds for (_, _, *named), seconds in [*self.used.items()] if named == [crate, kind]) for kind in KINDS}
        done = proof if crate in self.proved else min(proof, begun["proof"])
        return done + (tests if crate in self.tested else min(tests, begun["tests"])) + min(edits, begun["edits"])

    def line(self) -> str:
        at = ", ".join(dict.fromkeys(crate if kind == "proof" else f"{crate}'s {kind}" for crate, kind, _ in sorted(self.now)))
        left = self.left()
        told = "" if left is None else ", a minute left" if left < 90 else f", some {round(left / 60)} minutes left"
        bodies = f"{self.count()} of {self.edits} wrong bodies refused"
        return f"{len(self.proved)} of {len(self.crates)} crates proved, {bodies}{told}; at {at or 'no crate'}"

    def table(self) -> str:
        sums: DefaultDict[Tuple[str, str], float] = collections.defaultdict(float)
        for (_, _, crate, kind), seconds in self.used.items():
            sums[crate, kind] += seconds
        lines = [f"# crate: seconds of its proof, of its tests' proofs, of its wrong bodies; {os.cpu_count()} processors ({model()}), {memory():.0f} GB"]
        lines += [f"{crate}: " + " ".join(f"{sums[crate, kind]:.0f}" for kind in KINDS) for crate in self.crates]
        totals = [sum(sums[crate, kind] for crate in self.crates) for kind in KINDS]
        return "\n".join([*lines, "# all: " + " ".join(f"{it:.0f}" for it in totals) + f", {sum(totals) / 60:.0f} minutes"]) + "\n"


def model() -> str:
    """What the processors are, by which the seconds differ from machine to machine."""
    named = re.search(r"^model name\s*: (.*)", text_of("/proc/cpuinfo"), re.M)
    return named[1] if named else platform.machine()


def memory() -> float:
    return os.sysconf("SC_PHYS_PAGES") * os.sysconf("SC_PAGE_SIZE") / 1e9


def text_of(file: str) -> str:
    with open(file, encoding="utf-8", errors="replace") as it:
        return it.read()


def files_in(folder: str) -> List[str]:
    return [f"{folder}/{it}" for it in os.listdir(folder) if it.endswith(".edit")] if os.path.isdir(folder) else []
