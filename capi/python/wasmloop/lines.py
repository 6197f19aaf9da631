"""Adds FILE:LINE to each `at byte N` that the program or the library prints.

    python3 -m wasmloop.lines guest.wasm -- wasmloop work guest.wasm 0 --in request
    wasmloop serve guest.wasm --loops 1 --workers 1 2>&1 | python3 -m wasmloop.lines guest.wasm
    python3 -m wasmloop.lines guest.wasm --byte 463
    python3 -m wasmloop.lines guest.wasm --site 1,35

GUEST is the module that ran. If it has no DWARF, --debug names the module that it was made from, before `llvm-objcopy --strip-debug` or
`wasmloop.lower`. Inlined functions are named too. The tool runs llvm-symbolizer (Debian: llvm), or the program that SYMBOLIZER names.
"""

from __future__ import annotations

import bisect
import collections
import difflib
import io
import os
import re
import shutil
import subprocess
import sys
import tempfile
import threading
from typing import TYPE_CHECKING, Dict, IO, Iterable, List, Match, Optional, Sequence, Tuple, Union

from . import _tool, runs, wasm

PLACE = re.compile(r"\bat byte (\d+)")
SECONDS, MOST_BYTES = 60, 64 << 20                      # of the symbolizer, and of what it prints, since the guest's DWARF may say anything
MOST_STEPS = 30_000_000                                 # of comparing the functions of a module with those of its debug module
MOST_FRAMES = 32                                        # of a place, the innermost
KNOWN = ("llvm-symbolizer", "llvm-addr2line", *(f"llvm-symbolizer-{it}" for it in range(25, 10, -1)))


# A function, its file and its line; an instruction for a comparison.
Frame = Tuple[str, str, int]
Spelled = Union[int, Tuple[int, int]]


def is_possible() -> bool:
    """Whether there is a symbolizer."""
    return bool(os.environ.get("SYMBOLIZER") or any(map(shutil.which, KNOWN)))


def symbolizer() -> str:
    found = os.environ.get("SYMBOLIZER") or next(filter(shutil.which, KNOWN), None)
    if not found:
        raise _tool.Failed("llvm-symbolizer is missing (Debian: apt install llvm); the variable SYMBOLIZER may name another")
    return found


def answered(command: List[str], given: IO[bytes]) -> bytes:
    """What a program prints for a file that it reads. Raises Failed if it fails, or takes too long, or prints too much."""
    with subprocess.Popen(command, stdin=given, stdout=subprocess.PIPE) as it:
        late = threading.Timer(SECONDS, it.kill)
        late.start()
        assert it.stdout
        said = it.stdout.read(MOST_BYTES + 1)
        late.cancel()
        if len(said) > MOST_BYTES:
            it.kill()
            raise _tool.Failed(f"{command[0]} printed more than {MOST_BYTES:,} bytes")
    if it.returncode:
        raise _tool.Failed(f"{command[0]} failed with status {it.returncode}, or took more than {SECONDS} seconds")
    return said


def spelled(data: bytes, ops: Sequence[wasm.Operation]) -> List[Spelled]:
    """Instructions for a comparison: locals and constants with their numbers."""
    return [(op, wasm.number(data, start + 1)[0]) if 0x20 <= op <= 0x22 or op in (0x41, 0x42) else op for start, op, _ in ops]


if TYPE_CHECKING:
    Matcher = difflib.SequenceMatcher[Spelled]
else:
    Matcher = difflib.SequenceMatcher


class Comparison(Matcher):
    """A comparison that takes a bounded number of steps: when they are spent, what is left counts as different."""

    def __init__(self, mine: Sequence[Spelled], its: Sequence[Spelled], steps: int) -> None:
        super().__init__(None, mine, its, autojunk=False)
        self.mine, self.steps = mine, steps
        self.places: Dict[Spelled, int] = collections.Counter(its)

    def find_longest_match(self, alo: int = 0, ahi: Optional[int] = None, blo: int = 0, bhi: Optional[int] = None) -> difflib.Match:
        self.steps -= sum(self.places.get(it, 0) + 1 for it in self.mine[alo:ahi]) if self.steps > 0 else 0
        return super().find_longest_match(alo, ahi, blo, bhi) if self.steps > 0 else difflib.Match(alo, blo, 0)


class Lines:
    """The source line of each byte of a module. `ran` is the module that ran, `debug` the one with DWARF, which may differ."""

    def __init__(self, ran: bytes, debug: bytes, name: str = "the module") -> None:
        self.module, self.other = wasm.Module(ran), wasm.Module(debug)
        if not self.other.custom(".debug_line"):
            raise _tool.Failed(f"{name} has no DWARF: compile with -g, or name the module that it was made from by --debug")
        mine, its = (it.data[slice(*it.places[wasm.CODE])] if it.bodies else b"" for it in (self.module, self.other))
        self.alike, self.steps = mine == its, MOST_STEPS
        self.known: Dict[int, Sequence[Frame]] = {}
        self.moves: Dict[int, Optional[List[int]]] = {}
        self.starts = [it.start for it in self.module.bodies]
        shift = len(self.other.imported)
        self.named = {name: index - shift for index, name in self.other.names.items() if index >= shift}

    def _moved(self, defined: int) -> Optional[List[int]]:
        """For each instruction of a function the byte of its instruction in the debug module; None if that has no such function. A
        rewritten instruction, such as one on floats that became a call, is taken for the one between the same two neighbours."""
        name = self.module.names.get(defined + len(self.module.imported))
        there = self.named.get(name or "", None if name and self.named else defined)
        if there is None or not 0 <= there < len(self.other.bodies):
            return None
        mine, its = self.module.bodies[defined].ops, self.other.bodies[there].ops
        blocks = [("equal", 0, len(mine), 0, len(its))]
        if [it[1] for it in mine] != [it[1] for it in its]:
            compared = Comparison(spelled(self.module.data, mine), spelled(self.other.data, its), self.steps)
            blocks, self.steps = compared.get_opcodes(), compared.steps
        found = [0] * len(mine)
        for _, a, b, c, d in blocks:
            for k in range(a, b):
                found[k] = its[max(min(c + k - a, d - 1), 0)][0]
        return found

    def address(self, byte: int) -> Optional[int]:
        """The DWARF address of a byte of the module that ran, or None."""
        if self.alike:
            return byte - self.module.code_start
        defined = bisect.bisect_right(self.starts, byte) - 1
        if defined < 0:
            return None
        if defined not in self.moves:
            self.moves[defined] = self._moved(defined)
        moved = self.moves[defined]
        if moved is None:
            return None
        place = bisect.bisect_right([it[0] for it in self.module.bodies[defined].ops], byte) - 1
        return moved[max(place, 0)] - self.other.code_start

    def look_up(self, places: Iterable[int]) -> List[Sequence[Frame]]:
        """For each byte its frames, innermost first, as (function, file, line)."""
        new = {it: self.address(it) for it in dict.fromkeys(places) if it not in self.known}
        self.known.update(dict.fromkeys(new, ()))
        asked = {it: address for it, address in new.items() if address is not None}
        if asked:
            for place, part in zip(asked, self._ask(asked.values()).split("\n\n")):
                rows = part.strip().split("\n", 2 * MOST_FRAMES)[:2 * MOST_FRAMES]
                frames = [(wasm.shown(name), *where.rsplit(":", 2)[:2]) for name, where in zip(rows[::2], rows[1::2])]
                self.known[place] = [(name, file, int(line)) for name, file, line in frames if file != "??" and line != "0"]
        return [self.known[it] for it in places]

    def _ask(self, addresses: Iterable[int]) -> str:
        with tempfile.NamedTemporaryFile(suffix=".wasm") as file, tempfile.TemporaryFile() as asked:
            file.write(self.other.data)
            file.flush()
            asked.write("".join(f"{it:#x}\n" for it in addresses).encode())
            asked.seek(0)
            command = [symbolizer(), f"--obj={file.name}", "--inlines", "--functions=short", "--output-style=LLVM", "--demangle"]
            return answered(command, asked).decode(errors="replace")

    def of(self, byte: int) -> str:
        """FILE:LINE of a byte, with the functions that it was inlined into; empty if there is none."""
        here = self.look_up([byte])[0]
        if not here:
            return ""
        (name, file, line), outer = here[0], here[1:]
        told = f"{_tool.near(file)}:{line}"
        if outer:
            told += f" {name}" + "".join(f", inlined into {name} {_tool.near(file)}:{line}" for name, file, line in outer)
        return told

    def of_place(self, byte: int) -> str:
        """The same, and empty if the symbolizer fails: for one who has more to tell than the line."""
        try:
            return self.of(byte)
        except (_tool.Failed, wasm.Malformed, OSError):
            return ""

    def told(self, text: str) -> str:
        """The text with a line added to each `at byte N`."""
        self.look_up([int(it) for it in PLACE.findall(text)])

        def with_line(found: Match[str]) -> str:
            where = self.of(int(found[1]))
            return f"{found[0]} [{where}]" if where else found[0]

        return PLACE.sub(with_line, text)

    def told_place(self, text: str) -> str:
        """The same, and the text as it is if the symbolizer fails."""
        try:
            return self.told(text)
        except (_tool.Failed, wasm.Malformed, OSError):
            return text


def wanted(ran: bytes, debug: Optional[str]) -> Optional[Lines]:
    """The Lines of a module, or None without DWARF or a symbolizer, for tools that work without lines. `debug` is a file, or None."""
    if debug:
        return Lines(ran, _tool.read(debug), debug)
    if not wasm.Module(ran).custom(".debug_line") or not is_possible():
        return None
    return Lines(ran, ran)


def of_debug(ran: bytes, debug: bytes) -> Lines:
    """The Lines of a module for a host that gives the debug module itself."""
    try:
        symbolizer()
        if not wasm.Module(debug).custom(".debug_line"):
            raise ValueError("debug: the module has no DWARF: compile with -g")
        return Lines(ran, debug)
    except (_tool.Failed, wasm.Malformed) as why:
        raise ValueError(f"debug: {why}") from None


def byte_of(module: wasm.Module, site: str) -> int:
    """The byte of FUNCTION,INSTRUCTION."""
    try:
        function, operation = map(int, site.split(","))
        return runs.byte_of(module, (function, operation))
    except (ValueError, IndexError):
        raise _tool.Failed(f"--site {site}: expected FUNCTION,INSTRUCTION of the module", 2) from None


def main() -> int:
    parser = _tool.words("lines", __doc__, ";\n1 also if a byte has no line; with a command, the command's status")
    parser.add_argument("guest", metavar="GUEST", help="the module that ran")
    parser.add_argument("--debug", metavar="FILE", help="the module with DWARF; default: GUEST")
    parser.add_argument("--byte", metavar="N", type=int, action="append", help="print the line of this byte of GUEST, and read no input")
    parser.add_argument("--site", metavar="FUNCTION,INSTRUCTION", action="append", help="the same for a site that wasmloop_stop and Job.stop() return")
    parser.usage = "%(prog)s [-h] [--debug FILE] GUEST [--byte N | --site FUNCTION,INSTRUCTION | -- COMMAND ..]"
    mine, its = sys.argv[1:], []
    if "--" in mine:
        mine, its = mine[:mine.index("--")], mine[mine.index("--") + 1:]
    given = parser.parse_args(mine)
    ran = _tool.read(given.guest)
    lines = Lines(ran, _tool.read(given.debug) if given.debug else ran, given.debug or given.guest)
    places = [*(given.byte or []), *(byte_of(lines.module, it) for it in given.site or [])]
    if places:
        found = [lines.of(byte) for byte in places]
        print("\n".join(it or "no line" for it in found))
        return 0 if all(found) else 1
    if not its:
        if isinstance(sys.stdin, io.TextIOWrapper):
            sys.stdin.reconfigure(errors="replace")
        for line in sys.stdin:
            sys.stdout.write(lines.told(line))
        return 0
    done = subprocess.run(its, stderr=subprocess.PIPE, check=False)
    sys.stdout.flush()
    sys.stderr.write(lines.told(done.stderr.decode(errors="replace")))
    return done.returncode


if __name__ == "__main__":
    _tool.run("lines", main)
