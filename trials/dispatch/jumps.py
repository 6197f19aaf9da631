#!/usr/bin/env python3
"""Whether the engine's loops still have the jumps of their own that they had, in the program and in the library: how often each loop jumps to an
operation, and by how many edges the loop is led to where such a jump is shared. An arm of the loop has a jump of its own as long as few edges lead to
its way (crates/engine/src/ways.rt); with one more the compiler lets all share one. A function of the loop that several loops call may become a call at
each operation, which takes ten times as long, and in no loop that has a single caller is it seen. And where the compiler keeps the address of the
operations in r13 or rbp, it works out that of the next one in two instructions, one more for each dispatch. No clause notices any of these.

    jumps.py FILE..          FILE is a program or libwasmloop.a: status 1 where a loop is not as its line of jumps.txt says
    jumps.py FILE.. --write  writes their lines of jumps.txt, which belong to the bytes of these files: a change of the engine or of the compiler
                             changes them
    jumps.py --self-test     counts a loop whose numbers are known

It reads what `objdump -d` tells of each FILE. A loop is a function that jumps to at least 30 addresses that were computed. An edge is a direct jump
into the straight stretch that ends in such a jump, or the way from what stands above the stretch; a jump that has one edge is an arm's own.
"""
from __future__ import annotations

import collections
import re
import shutil
import subprocess
import sys
from pathlib import Path
from typing import Dict, Iterator, List, NamedTuple

from noted import compare

LIST = Path(__file__).with_name("jumps.txt")
FEWEST, LONGEST = 30, 12
ENDS = ("jmp", "ret", "ud2", "hlt")


class Line(NamedTuple):
    at: int
    does: str

    def goes_on(self) -> bool:
        return not self.does.startswith(ENDS)

    def to(self) -> int | None:
        """Where it jumps, if it says so."""
        found = re.match(r"j\w+ +([0-9a-f]+)\b", self.does)
        return int(found[1], 16) if found else None


class Loop(NamedTuple):
    """How many computed jumps a function has, how many of them are shared, and by how many edges the most; and how often it works out the address of
    an operation in two instructions."""
    jumps: int
    shared: int
    edges: int
    split: int

    def __str__(self) -> str:
        return f"{self.jumps} jumps, {self.shared} shared, {self.edges} edges at most, {self.split} addresses in two instructions"


def functions(told: str) -> Iterator[tuple[str, List[Line]]]:
    """The functions of a program, without what tells instances of one apart."""
    for part in re.split(r"(?m)^(?=[0-9a-f]+ <.*>:$)", told):
        named = re.match(r"[0-9a-f]+ <(.*)>:\n", part)
        if named:
            yield re.sub(r"^\.text\.|::<#\w+>", "", named[1]), [Line(int(at, 16), does) for at, does in re.findall(r"(?m)^ *([0-9a-f]+):\s+(.*)$", part)]


def stretch(lines: List[Line], end: int) -> int:
    """Where the straight stretch begins that ends there."""
    begin = end
    while begin and end - begin < LONGEST and lines[begin - 1].goes_on():
        begin -= 1
    return begin


def loop(lines: List[Line]) -> Loop:
    into = collections.Counter(to for to in (line.to() for line in lines) if to is not None)
    edges = []
    for end, line in enumerate(lines):
        if re.match(r"jmp +\*", line.does):
            begin = stretch(lines, end)
            above = begin > 0 and lines[begin - 1].goes_on()
            edges.append(above + sum(into[lines[it].at] for it in range(begin, end + 1)))
    split = sum(bool(re.match(r"lea +0x0\(,%\w+,8\)", line.does)) for line in lines)
    return Loop(len(edges), sum(it > 1 for it in edges), max(edges, default=0), split)


def counted(told: str) -> Dict[str, Loop]:
    """The loops of a program; instances of one function are told apart by a number, the one with the most jumps first."""
    found = sorted(((name, loop(lines)) for name, lines in functions(told)), key=lambda it: (it[0], [-number for number in it[1]]))
    seen: collections.Counter[str] = collections.Counter()
    loops = {}
    for name, its in found:
        if its.jumps >= FEWEST:
            seen[name] += 1
            loops[f"{name} {seen[name]}"] = its
    return loops


def noted() -> Dict[str, Loop]:
    lines = (line.split(": ", 1) for line in LIST.read_text().splitlines())
    return {name: Loop(*map(int, re.findall(r"\d+", rest))) for name, rest in lines}


def loops_of(file: str) -> Dict[str, Loop]:
    ran = subprocess.run(["objdump", "-d", "--no-show-raw-insn", file], capture_output=True, text=True, check=True)
    return {f"{Path(file).name} {name}": its for name, its in counted(ran.stdout).items()}


def self_test() -> int:
    arms = "".join(f"  {16 * n:x}:\tmov    (%rax),%ecx\n  {16 * n + 4:x}:\tjmp    *%rcx\n" for n in range(1, FEWEST))
    told = ("0000 <f::<#12>>:\n" + arms + "  200:\tjne    300 <f+0x300>\n  204:\tlea    0x0(,%rax,8),%rbx\n  208:\tret\n"
            "  300:\tmov    (%rax),%ecx\n  304:\tcmp    %rcx,%rdx\n  308:\tjb     210 <f+0x210>\n  30c:\tjmp    *%rcx\n"
            "  310:\tjmp    304 <f+0x304>\n\n0400 <g>:\n  400:\tjmp    *%rcx\n")
    # (the last of `f` is led to by the jump at 200 and that at 310)
    right = counted(told) == {"f 1": Loop(FEWEST, 1, 2, 1)}
    print(f"jumps.py: {'as it should be' if right else f'WRONG: {counted(told)}'}")
    return int(not right)


def main() -> int:
    if sys.argv[1:] == ["--self-test"]:
        return self_test()
    files = [word for word in sys.argv[1:] if word != "--write"]
    if not files or any(word.startswith("-") for word in files):
        sys.exit("usage: jumps.py FILE.. [--write] | --self-test")
    if not shutil.which("objdump"):
        print("left out: there is no objdump")
        return 0
    found = {name: its for file in files for name, its in loops_of(file).items()}
    named = {Path(file).name for file in files}
    if "--write" in sys.argv[1:]:
        others = {name: its for name, its in noted().items() if name.split()[0] not in named}
        LIST.write_text("".join(f"{name}: {its}\n" for name, its in {**others, **found}.items()))
        return 0
    return compare(found, {name: its for name, its in noted().items() if name.split()[0] in named}, "loops")


if __name__ == "__main__":
    sys.exit(main())
