"""Shows where the fuel of a guest goes, by function, line and call path: exactly, and the same each time.

    python3 -m wasmloop.profile guest.wasm 0 --in request --svg guest.svg
    python3 -m wasmloop.profile guest.wasm --call add,7 --budget 5000 --budget parse=2000
    python3 -m wasmloop.profile guest.record --callback 73

The units are exact: a copy of the guest counts its basic blocks and its call tree, and their sum must be what the host charged. If the
counters do not fit, the tool says so, and call paths are sampled. --budget N fails if the run takes more than N units, --budget NAME=N if
that function does, without what it calls.
"""

from __future__ import annotations

import collections
import os
import sys

from typing import Collection, Counter, DefaultDict, Dict, Iterable, Iterator, List, Mapping, NamedTuple, Optional, Sequence, Tuple, TypeVar, Union

from . import Error, _tool, callbacks, callgrind, counts, flame, lines, pprof, replay, runs, tree, wasm


# A function and a byte in it; a call path: the calls from the outside, and the function.
Place = Tuple[int, int]
Path = Tuple[Tuple[Place, ...], int]
Key = TypeVar("Key")
AnyRun = Union[runs.Call, callbacks.Callback]


class Cell(NamedTuple):
    """The units of a line at the end of a call path: the calls, as (function, byte) from the outside, the function, and the line's frames,
    the innermost first."""

    calls: Tuple[Place, ...]
    function: int
    frames: Tuple[lines.Frame, ...]
    units: int


class Profile:
    """The units of one run, by function, line and call path. They are exact, with the call tree in `nodes`; else `why` says why not, and call
    paths are sampled. Of a function on several call paths, each line's units are shared among them by weight."""

    def __init__(self, module: wasm.Module, run: AnyRun, source: Optional[lines.Lines] = None, samples: int = 200, threads: int = 3) -> None:
        self.module, self.run, self.source, self.why = module, run, source, ""
        self.nodes: List[tree.Node] = []
        self.functions: Counter[int] = collections.Counter()
        self.lines: Counter[Tuple[int, str, int]] = collections.Counter()
        self.leaves: DefaultDict[int, Counter[Tuple[lines.Frame, ...]]] = collections.defaultdict(collections.Counter)
        self.starts: Dict[Tuple[int, Tuple[lines.Frame, ...]], int] = {}
        self.ran = run.run()
        try:
            operations, self.nodes = tree.measured(module, run, self.ran)
            weights = self._of_nodes()
        except (_tool.Failed, Error) as why:
            if isinstance(run, callbacks.Callback):
                raise
            self.why = str(why)
            operations, weights = self._counted(), self._of_samples(run.sampled(samples, threads))
        for (function, _), units in operations.items():
            self.functions[function] += units
        if source:
            self._count_lines(source, operations)
        self.cells = list(self._cells(weights))
        self.paths = self._paths()

    def _counted(self) -> Counter[Place]:
        """How often each instruction ran, by counters of blocks alone; empty if there is no exact count."""
        if self.ran.ending != "done" or isinstance(self.run, callbacks.Callback):
            return collections.Counter()
        try:
            counted = counts.Counted(self.module.data)
            ended, found = self.run.counted(counted)
        except (_tool.Failed, Error):
            return collections.Counter()
        operations: Counter[Place] = collections.Counter()
        for function, byte, count in counts.by_operation(self.module, counted.rows, found):
            operations[function, byte] += count
        return operations if ended[:3] == self.ran[:3] and sum(operations.values()) == self.ran.used else collections.Counter()

    def _count_lines(self, source: lines.Lines, operations: Mapping[Place, int]) -> None:
        """Units by line, and of each function by the frames of its lines, each with its first byte."""
        for ((function, byte), units), frames in zip(operations.items(), source.look_up([byte for _, byte in operations])):
            _, file, line = frames[0] if frames else ("", "", 0)
            self.lines[function, file, line] += units
            self.leaves[function][tuple(frames)] += units
            self.starts.setdefault((function, tuple(frames)), byte)

    def byte_at(self, function: int, operation: int) -> int:
        return self.module.bodies[function].ops[operation][0]

    def lines_of(self, places: Collection[Place]) -> Dict[Place, Tuple[str, int]]:
        """For each (function, byte) its file and line."""
        return {it: frames[0][1:] if frames else ("", 0) for it, frames in self.frames_of(places).items()}

    def _of_nodes(self) -> Counter[Path]:
        """The units of each call path: the calls, as (function, byte) from the outside, and the function."""
        weights: Counter[Path] = collections.Counter()
        for k, node in enumerate(self.nodes):
            if node.units:
                path = tree.path_of(self.nodes, k)
                calls = tuple((caller, self.byte_at(caller, site)) for (_, caller), (site, _) in zip(path, path[1:]))
                weights[calls, node.function] += node.units
        return weights

    def _of_samples(self, samples: Iterable[Sequence[Place]]) -> Counter[Path]:
        """How often each call path was met."""
        guests = len(self.module.bodies)
        weights: Counter[Path] = collections.Counter()
        for sites in ([site for site in it if site[0] < guests] for it in samples):     # (functions after them stand for imports)
            if sites:
                weights[tuple((site[0], runs.byte_of(self.module, site)) for site in reversed(sites[1:])), sites[0][0]] += 1
        return weights

    def _cells(self, weights: Mapping[Path, int]) -> Iterator[Cell]:
        """The cells. The exact units of a function are shared among its paths by weight, and those of each line among its paths by what is
        left, so that both sums are exact; a function on no path stands by itself. Without exact units, weights alone count."""
        met: DefaultDict[int, List[Tuple[Tuple[Place, ...], int]]] = collections.defaultdict(list)
        exact = self.functions
        for (calls, function), weight in sorted(weights.items()):
            met[function].append((calls, weight))
        if not exact:
            exact = shared([(function, sum(weight for _, weight in paths)) for function, paths in sorted(met.items())], self.ran.used)
        for function, units in exact.items():
            left = shared(met.get(function, [((), 1)]), units)
            for frames, mine in sorted(self.leaves.get(function, {(): units}).items()):
                given = shared(left.items(), mine)
                left.subtract(given)
                yield from (Cell(calls, function, frames, part) for calls, part in given.items() if part)

    def _paths(self) -> Counter[str]:
        """The units of each call path, by names; what was inlined into a function is on top."""
        callers = self.frames_of({call for cell in self.cells for call in cell.calls})
        found: Counter[str] = collections.Counter()
        for calls, function, frames, units in self.cells:
            names = [name for call in calls for name in self.names(call[0], callers[call])]
            found[";".join([*names, *self.names(function, frames)])] += units
        return found

    def frames_of(self, places: Collection[Place]) -> Dict[Place, Sequence[lines.Frame]]:
        """The frames of each (function, byte), the innermost first."""
        return dict(zip(places, self.source.look_up([byte for _, byte in places]))) if self.source else dict.fromkeys(places, ())

    def names(self, function: int, frames: Sequence[lines.Frame]) -> List[str]:
        """The function's own name, and those of what was inlined there."""
        return [self.named(function), *(clean(name) for name, _, _ in reversed(frames[:-1]))]

    def named(self, function: int) -> str:
        return clean(self.module.name(function))

    def by_name(self) -> Tuple[Counter[str], Counter[str]]:
        """Of each function, inlined ones too, its own units, and those of what it called with it."""
        alone: Counter[str] = collections.Counter()
        within: Counter[str] = collections.Counter()
        for path, units in self.paths.items():
            for name in set(path.split(";")):
                within[name] += units
            alone[path.split(";")[-1]] += units
        return alone, within


def clean(name: str) -> str:
    """A name for a folded stack."""
    return name.replace(";", ":").replace("\n", " ")


def shared(parts: Iterable[Tuple[Key, int]], units: int) -> Counter[Key]:
    """Whole units, shared among the parts by weight. If these are at most the sum of the weights, no part gets more than its own."""
    found: Counter[Key] = collections.Counter()
    parts = list(parts)
    rest, weight = units, sum(it for _, it in parts)
    for name, mine in parts:
        given = rest * mine // weight if weight else 0
        found[name] += given
        rest, weight = rest - given, weight - mine
    return found


def tell(profile: Profile, guest: str, most: int) -> None:
    ran, whole = profile.ran, max(profile.ran.used, 1)
    print(f"{os.path.basename(guest)}: {profile.run}: {ran.ending}, {ran.used:,} units")
    if profile.why:
        print(f"call paths are sampled{'' if profile.functions else ', functions and lines too'}: {profile.why}")
    alone, within = profile.by_name()
    if alone:
        print(f"\n{'alone':>14} {'percent':>7} {'within':>7}  function")
    for name, units in alone.most_common(most):
        print(f"{units:>14,} {100 * units / whole:7.2f} {100 * within[name] / whole:7.2f}  {name}")
    by_line: Counter[str] = collections.Counter()
    for (_, file, number), units in profile.lines.items():
        by_line[f"{_tool.near(file)}:{number}" if file else "without a line"] += units
    if by_line:
        print(f"\n{'units':>14} {'percent':>7}  line")
    for line, units in by_line.most_common(most):
        print(f"{units:>14,} {100 * units / whole:7.2f}  {line}")


def over_budget(profile: Profile, budgets: Iterable[str]) -> Iterator[str]:
    """A sentence on each budget that is exceeded."""
    alone, _ = profile.by_name()
    known = {profile.named(it) for it in range(len(profile.module.bodies))} | set(alone)
    for budget in budgets:
        name, _, units = budget.rpartition("=")
        try:
            most = int(units)
        except ValueError:
            raise _tool.Failed(f"--budget {budget}: expected [FUNCTION=]UNITS", 2) from None
        if name and not profile.functions:
            yield f"{name}: its exact units are unknown: {profile.why}"
        elif name and name not in known:
            raise _tool.Failed(f"--budget {budget}: the module has no function {name}", 2)
        elif (alone[name] if name else profile.ran.used) > most:
            yield f"{name or profile.run}: {alone[name] if name else profile.ran.used:,} units exceed the budget of {most:,}"


def main() -> int:
    parser = _tool.words("profile", __doc__, ";\n1 also if a budget is exceeded")
    runs.add_words(parser)
    parser.add_argument("--in", dest="request", metavar="FILE", help="the bytes of the request, - for standard input; default: none")
    parser.add_argument("--callback", metavar="N", type=_tool.whole(1), help="of a record, the Nth callback; default: the one that failed or used most")
    parser.add_argument("--samples", metavar="N", type=_tool.whole(0), default=200, help="the number of samples, if the call tree does not fit (200)")
    parser.add_argument("--threads", metavar="N", type=_tool.whole(1), default=max(os.cpu_count() or 1, 2) - 1, help="threads for samples")
    parser.add_argument("--most", metavar="N", type=_tool.whole(1), default=12, help="rows in each table (12)")
    parser.add_argument("--svg", metavar="FILE", help="write a flame graph")
    parser.add_argument("--folded", metavar="FILE", help="write folded stacks: a call path and its units on each line")
    parser.add_argument("--callgrind", metavar="FILE", help="write units and calls by line, for kcachegrind")
    parser.add_argument("--pprof", metavar="FILE", help="write call paths with lines for pprof")
    parser.add_argument("--budget", metavar="[FUNCTION=]UNITS", action="append", default=[], help="fail if it takes more; may be repeated")
    given = parser.parse_args()
    data = _tool.read(given.guest)
    if data.startswith(b'["loop"'):
        run: AnyRun = callbacks.Callback(replay.rows_of(given.guest), given.callback)
        data, module = run.data, wasm.Module(run.data)
    else:
        host, module = _tool.load(data, given.guest)
        run = runs.of_words(given, data, host, [_tool.read(given.request) if given.request else b""])[0]
    source = lines.wanted(data, given.debug)
    profile = Profile(module, run, source, given.samples, given.threads)
    tell(profile, given.guest, given.most)
    exact = "call paths sampled" if profile.why else "exact"
    if given.svg:
        title = f"{os.path.basename(given.guest)}: {run}"
        _tool.write(given.svg, flame.picture(profile.paths, title, f"{profile.ran.used:,} units, {exact}; width is fuel, callers below"))
    if given.folded:
        _tool.write(given.folded, "".join(f"{path} {units}\n" for path, units in sorted(profile.paths.items()) if units))
    if given.pprof:
        _tool.write(given.pprof, pprof.written(profile, given.guest))
    if given.callgrind:
        _tool.write(given.callgrind, callgrind.written(profile, given.guest))
    passed = list(over_budget(profile, given.budget))
    for why in passed:
        print(f"over budget: {why}", file=sys.stderr)
    if profile.ran.ending != "done":
        told = profile.ran.told or ""
        print(source.told(told) if source else told, file=sys.stderr)
        return 4
    return 1 if passed else 0


if __name__ == "__main__":
    _tool.run("profile", main)
