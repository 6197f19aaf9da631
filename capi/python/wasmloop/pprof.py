"""A profile in pprof's format, profile.proto compressed by gzip: a sample for each call path and line, with its units."""

from __future__ import annotations

import gzip
import os
from typing import Dict, List, Sequence, TYPE_CHECKING, Tuple

from . import wasm

if TYPE_CHECKING:
    from .lines import Frame
    from .profile import Cell, Profile

# The numbers of the fields in profile.proto.
SAMPLE_TYPE, SAMPLE, MAPPING, LOCATION, FUNCTION, STRING, PERIOD_TYPE, PERIOD = 1, 2, 3, 4, 5, 6, 11, 12
MODULE = 1                                              # the number of the one mapping


def number(field: int, value: int) -> bytes:
    return wasm.u(field << 3) + wasm.u(value)


def part(field: int, data: bytes) -> bytes:
    return wasm.u(field << 3 | 2) + wasm.sized(data)


class Writer:
    """Collects the strings, functions and locations of a profile, each once; their numbers begin with 1, those of strings with 0."""

    def __init__(self, profile: Profile, guest: str) -> None:
        self.profile, self.strings = profile, {"": 0}
        self.functions: Dict[Tuple[str, str], int] = {}
        self.locations: Dict[Tuple[int, int, Sequence[Frame]], int] = {}
        self.out: List[bytes] = []
        units = number(1, self.string("units")) + number(2, self.string("count"))
        self.out += [part(SAMPLE_TYPE, units), part(PERIOD_TYPE, units), number(PERIOD, 1)]
        module, name = profile.module, self.string(os.path.basename(guest))
        complete = b"".join(number(it, 1) for it in (7, 8, 9, 10))      # (functions, files, lines, inlined frames: pprof looks up none)
        self.out.append(part(MAPPING, number(1, MODULE) + number(3, len(module.data)) + number(5, name) + complete))
        self.callers = profile.frames_of({call for cell in profile.cells for call in cell.calls})

    def string(self, text: str) -> int:
        return self.strings.setdefault(text, len(self.strings))

    def function(self, name: str, file: str) -> int:
        if (name, file) not in self.functions:
            self.functions[name, file] = len(self.functions) + 1
            fields = [self.functions[name, file], self.string(name), self.string(name), self.string(file)]
            self.out.append(part(FUNCTION, b"".join(number(k, it) for k, it in enumerate(fields, 1))))
        return self.functions[name, file]

    def location(self, function: int, byte: int, frames: Sequence[Frame]) -> int:
        """The number of a place in a function: its frames are lines, the innermost first."""
        key = function, byte, frames
        if key not in self.locations:
            self.locations[key] = len(self.locations) + 1
            names = reversed(self.profile.names(function, frames))
            lines = zip(names, [it[1:] for it in frames] or [("", 0)])
            said = b"".join(part(4, number(1, self.function(name, file)) + number(2, line)) for name, (file, line) in lines)
            self.out.append(part(LOCATION, number(1, self.locations[key]) + number(2, MODULE) + number(3, byte) + said))
        return self.locations[key]

    def sample(self, cell: Cell) -> None:
        start = self.profile.starts.get((cell.function, cell.frames))
        leaf = self.location(cell.function, start or self.profile.byte_at(cell.function, 0), cell.frames)
        calls = [self.location(*call, tuple(self.callers[call])) for call in reversed(cell.calls)]
        places = b"".join(map(wasm.u, [leaf, *calls]))
        self.out.append(part(SAMPLE, part(1, places) + part(2, wasm.u(cell.units))))

    def written(self) -> bytes:
        for cell in self.profile.cells:
            self.sample(cell)
        return b"".join([*self.out, *(part(STRING, it.encode()) for it in self.strings)])


def written(profile: Profile, guest: str) -> bytes:
    """The bytes of the file."""
    return gzip.compress(Writer(profile, guest).written(), mtime=0)
