"""Counts how often each line of a guest runs. The count is exact, and the module is not recompiled.

    python3 -m wasmloop.cover guest.wasm 0 request1 request2 --lcov guest.info
    python3 -m wasmloop.cover guest.wasm --call add,7

Each request is a file. The tool prints the functions and lines that never ran. --lcov writes the count of each line, for genhtml and
editors. Without DWARF it reports functions alone. --least N fails if less than N percent of the lines ran.
"""

from __future__ import annotations

import collections
import sys
from typing import Counter, DefaultDict, Dict, Iterable, List, Mapping, Optional, Tuple

from . import Error, _tool, counts, lines, runs, tree, wasm


def ranges(numbers: Iterable[int]) -> str:
    """Numbers as "3, 7-9"."""
    parts: List[List[int]] = []
    for it in sorted(numbers):
        if parts and parts[-1][1] == it - 1:
            parts[-1][1] = it
        else:
            parts.append([it, it])
    return ", ".join(str(a) if a == b else f"{a}-{b}" for a, b in parts)


class Coverage:
    """How often each instruction ran in all runs, and from it each function and line."""

    def __init__(self, module: wasm.Module, source: Optional[lines.Lines]) -> None:
        self.module, self.source = module, source
        self.counted = counts.Counted(module.data)
        self.counts = [0] * len(self.counted.rows)
        self.of_stopped: Counter[Tuple[int, int]] = collections.Counter()
        self.calls_of_stopped: Counter[int] = collections.Counter()

    def add(self, run: runs.Call) -> runs.Ran:
        """Runs it with counters and without, and returns how the plain run ended. Prints a message if the two differ."""
        wanted = run.run()
        if wanted.ending != "done":
            why = self._stopped(run, wanted)
            if not why:
                return wanted
            print(f"not exact: {run} stopped, and {why}", file=sys.stderr)
        did, found = run.counted(self.counted)
        self.counts = [a + b for a, b in zip(self.counts, found)]
        if did[:3] != wanted[:3]:
            print(f"not exact: with counters, {run} ends differently: {did.ending}", file=sys.stderr)
        return wanted

    def _stopped(self, run: runs.Call, wanted: runs.Ran) -> str:
        """Adds a run that stopped, without the rest of the blocks in which its calls were. Returns why that is not possible."""
        try:
            measured = tree.measured(self.module, run, wanted)
        except (_tool.Failed, Error) as why:
            return str(why)
        self.of_stopped.update(measured.operations)
        for node in measured.nodes[1:]:
            self.calls_of_stopped[node.function] += node.calls
        return ""

    def functions(self) -> Dict[int, int]:
        """How often each function was called: its first block runs once per call."""
        found: Dict[int, int] = {}
        for row, count in zip(self.counted.rows, self.counts):
            found.setdefault(row.function, count + self.calls_of_stopped[row.function])
        return found

    def operations(self) -> Dict[int, int]:
        """How often each instruction that costs fuel ran, by its byte."""
        rows = counts.by_operation(self.module, self.counted.rows, self.counts)
        return {byte: count + self.of_stopped[function, byte] for function, byte, count in rows}

    def lines(self) -> Dict[str, Dict[int, int]]:
        """For each file how often each line ran: as often as its most frequent instruction."""
        places = self.operations()
        found: DefaultDict[str, Dict[int, int]] = collections.defaultdict(dict)
        for byte, frames in zip(places, self.source.look_up(list(places)) if self.source else []):
            for _, file, line in frames:
                found[file][line] = max(found[file].get(line, 0), places[byte])
        return found


def lcov(coverage: Coverage, by_file: Mapping[str, Mapping[int, int]]) -> str:
    """The counts of each file's lines, in lcov's format."""
    out = []
    for file, held in sorted(by_file.items()):
        out += ["TN:", f"SF:{file}", *(f"DA:{line},{count}" for line, count in sorted(held.items()))]
        out += [f"LF:{len(held)}", f"LH:{sum(map(bool, held.values()))}", "end_of_record"]
    return "\n".join(out) + "\n"


def main() -> int:
    parser = _tool.words("cover", __doc__, ";\n1 also if --least is not reached")
    runs.add_words(parser)
    parser.add_argument("requests", metavar="FILE", nargs="*", help="the bytes of a request, - for standard input; default: one empty request")
    parser.add_argument("--lcov", metavar="FILE", help="write the count of each line for genhtml and editors")
    parser.add_argument("--least", metavar="N", type=float, help="fail if less than N percent of the lines ran")
    given = parser.parse_args()
    data = _tool.read(given.guest)
    host, module = _tool.load(data, given.guest)
    source = lines.wanted(data, given.debug)
    if source is None and (given.lcov or given.least):
        raise _tool.Failed(f"{given.guest} has no lines: compile with -g or give --debug, and install llvm-symbolizer")
    coverage, stopped = Coverage(module, source), 0
    for run in runs.of_words(given, data, host, [_tool.read(it) for it in given.requests] or [b""]):
        ran = coverage.add(run)
        if ran.told:
            stopped += 1
            print(source.told(ran.told) if source else ran.told, file=sys.stderr)
    called = coverage.functions()
    never = sorted(module.name(function) for function, count in called.items() if not count)
    print(f"{len(called) - len(never)} of {len(called)} functions ran{'; not run: ' + ', '.join(never) if never else ''}")
    if source is None:
        return 4 if stopped else 0
    by_file = coverage.lines()
    for file, held in sorted(by_file.items()):
        missed = ranges(line for line, count in held.items() if not count)
        print(f"{_tool.near(file)}: {sum(map(bool, held.values()))} of {len(held)} lines ran{'; not run: ' + missed if missed else ''}")
    if given.lcov:
        _tool.write(given.lcov, lcov(coverage, by_file))
    every = [count for held in by_file.values() for count in held.values()]
    if given.least and 100 * sum(map(bool, every)) < given.least * len(every):
        print(f"cover: {100 * sum(map(bool, every)) / max(len(every), 1):.1f} percent of the lines ran, expected {given.least:g}", file=sys.stderr)
        return 1
    return 4 if stopped else 0


if __name__ == "__main__":
    _tool.run("cover", main)
