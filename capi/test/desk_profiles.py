"""The parts of desk_test.py that measure runs: profiles, callbacks and coverage have the units that the host charges."""

from __future__ import annotations

import collections
import random
import re
import shutil
import subprocess
import sys
from pathlib import Path
from typing import Counter, Dict, List, Sequence, Tuple
from unittest import mock

import desk_guests as guests
import desk_pprof
import wasmloop
from desk_checks import EXAMPLES, OUT, THREADS, bad, same
from wasmloop import _tool, callbacks, callgrind, counts, cover, lines, pprof, profile, record, replay, runs, tree, wasm

CALLBACKS = 150


def units_part() -> None:
    """The units by counters are the host's, in the sum of paths, of functions and of lines, also of runs that stopped."""
    tried = units = stopped = 0
    names = sorted([*EXAMPLES.glob("*.wasm"), *EXAMPLES.glob("libraries/out/*/*.wasm"), *OUT.glob("*.wasm")])
    for file in names:
        data = file.read_bytes()
        if wasmloop.explain(data) or not wasmloop.Module(data).shape().work:
            continue
        host = wasmloop.Module(data)
        module = wasm.Module(data)
        for op, given in ((0, b""), (0, b"abc"), (1, bytes(range(256))), (7, b'{"a":[1,2]}'), (3, b"print(1)" * 20)):
            whole = host.work(op, given, fuel=10**6).used
            for fuel, depth in ((10**6, 64), (whole // 2, 64), (whole * 2 // 3, 64), (10**6, 2)):
                ran = host.work(op, given, fuel=fuel, depth=depth)
                told = profile.Profile(module, runs.Request(data, host, op, given, depth, fuel), None, samples=0)
                sums = ran.used, sum(told.functions.values()), sum(told.paths.values()), sum(it.units for it in told.nodes)
                if told.why.startswith("the start function"):
                    continue                            # (its memory is lost with the instance)
                if told.why or len(set(sums)) != 1:
                    bad(f"{file.name} {op}, {ran.outcome}: {sums} {told.why}")
                tried, units, stopped = tried + 1, units + ran.used, stopped + (ran.outcome != "done")
    print(f"units: {tried} runs, {stopped} of which stopped, {units:,} units, each sum as the host's")
    each_unit()
    deep()
    by_line()


def each_unit() -> None:
    """A run that stops at each of its first units is exact; and a call on an instance leaves its start function out."""
    data = (EXAMPLES / "crc32.wasm").read_bytes()
    host, module = wasmloop.Module(data), wasm.Module(data)
    for fuel in range(1, 130):
        told = profile.Profile(module, runs.Request(data, host, 0, b"abc", fuel=fuel), samples=0)
        same(f"the units of a run with {fuel}", (told.why, sum(told.functions.values())), ("", fuel))
    data = guests.with_globals()
    host, module = wasmloop.Module(data), wasm.Module(data)
    whole = runs.Call(data, host, "init", ()).run().used
    for fuel in range(1, whole + 1):
        told = profile.Profile(module, runs.Call(data, host, "init", (), fuel=fuel), samples=0)
        same(f"the units of a call with {fuel}, without those of the start function", (told.why, dict(told.functions)), ("", {1: fuel}))
    for fuel in range(4, 14):
        told = profile.Profile(module, runs.Request(data, host, 0, b"", fuel=fuel), samples=0)
        same(f"the units of a request with {fuel}, with those of the start function", (told.why, sum(told.functions.values())), ("", fuel))


def deep() -> None:
    """Runs that stop so deep that a job does not keep all calls are exact, wherever they stop."""
    file = guests.built(OUT, EXAMPLES, "parse")
    if not file:
        return
    data = file.read_bytes()
    host, module, tried = wasmloop.Module(data), wasm.Module(data), 0
    for given, depth in ((b"(" * 200, 64), (b"1+(" * 40 + b"1/0", 100), (b"(" * 30 + b"1/0", 20)):
        whole = host.work(0, given, depth=depth).used
        for fuel in (10**6, *range(whole - 20, whole), *range(whole // 2, whole // 2 + 20)):
            ran = runs.Request(data, host, 0, given, depth, fuel)
            told = profile.Profile(module, ran, samples=0)
            sums = {sum(told.functions.values()), sum(told.paths.values()), sum(it.units for it in told.nodes)}
            same(f"{given[:4]!r} with {fuel} units", (told.why, sums), ("", {told.ran.used}))
            tried += len(ran.backtrace()) == ran.kept_calls
    print(f"units: {tried} runs that stopped deeper than a job's backtrace")


def by_line() -> None:
    """The same with lines and inlined functions, and the same picture each time; calls in callgrind's form; and sampled call paths, in slices
    and by runs with less fuel, which have the same sum."""
    file = guests.built(OUT, EXAMPLES, "parse")
    if not file:
        return
    data, given = file.read_bytes(), b"1+(2+3)/4+(((7+8)/3+100)/5+1000)"
    host, module = wasmloop.Module(data), wasm.Module(data)
    source = lines.wanted(data, None)
    told = [profile.Profile(module, runs.Request(data, host, 0, given, 64), source, 50, THREADS) for _ in range(2)]
    same("the paths of two profiles", told[0].paths, told[1].paths)
    if source:
        same("the sum of lines", sum(told[0].lines.values()), told[0].ran.used)
        same("whether an inlined function is told", "atom" in told[0].by_name()[0], True)

    check_callgrind(told[0])
    check_pprof(told[0])
    slices(data, host, given)
    with mock.patch.object(tree, "MOST_BYTES", len(tree.TreeWriter(module, 0, "PATH").written())):
        light = profile.Profile(module, runs.Request(data, host, 0, given, 64), source, 0)
        stopped = [sum(profile.Profile(module, runs.Request(data, host, 0, given, 64, fuel), source, 0).lines.values()) for fuel in (150, 200, 250)]
    same("a profile whose counters of blocks do not fit beside the tree", (light.why, light.paths), ("", told[0].paths))
    same("the same of runs that stopped", stopped, [150, 200, 250] if source else [0, 0, 0])
    same("the places where expression calls itself, by atom, which is inlined twice", len({it.site for it in told[0].nodes[3:]}), 2)
    for kind in (runs.Request, Sliced, NoSlices):
        with mock.patch.object(tree, "measured", side_effect=_tool.Failed("left out by the test")):
            sampled = profile.Profile(module, kind(data, host, 0, given, 64), source, 50, THREADS)
        same(f"the sum of a sampled profile, {kind.__name__}", sum(sampled.paths.values()), told[0].ran.used)
        same("its functions", sampled.functions, told[0].functions)
        much = {path for path, units in told[0].paths.items() if units > told[0].ran.used / 10}
        same("the main paths of a sampled profile", much - set(sampled.paths), set())
    folded = counts.Counted(data)
    answer, found = runs.Request(data, host, 0, given, 64).counted(folded)
    per_function: Counter[int] = collections.Counter()
    for function, _, count in counts.by_operation(module, folded.rows, found):
        per_function[function] += count
    same("units by operation", {it: n for it, n in per_function.items() if n}, {it: n for it, n in told[0].functions.items() if n})
    same("the answer with counters", answer.answer, host.work(0, given).value)


def callbacks_part() -> None:
    """The units of callbacks of random hosts are the host's, in the sum of functions and of call paths; of those that stopped, too."""
    rng, tried, units, stopped = random.Random(9), 0, 0, 0
    for seed in range(CALLBACKS):
        path = OUT / f"host{seed}.record"
        if not path.is_file():
            continue
        rows = replay.rows_of(str(path))
        for number in (None, rng.randrange(1, 9)):
            try:
                run = callbacks.Callback(rows, number)
                told = profile.Profile(wasm.Module(run.data), run)
            except _tool.Failed as why:
                if "expected one of them" not in str(why):
                    bad(f"{path.name}, callback {number}: {why}")
                continue
            sums = run.did.used, sum(told.functions.values()), sum(told.paths.values())
            if len(set(sums)) != 1:
                bad(f"{path.name}, {run}: {sums}")
            tried, units, stopped = tried + 1, units + run.did.used, stopped + (run.did.ending != 0)
    many_counters()
    print(f"callbacks: {tried} callbacks, {stopped} of which stopped, {units:,} units, each sum as the host's")


def many_counters() -> None:
    """A callback with more counters than one replay emits, which calls another callback itself."""
    file = guests.built(OUT, EXAMPLES, "busy")
    if not file:
        return
    data, path = file.read_bytes(), str(OUT / "busy.record")
    with record.Loop(wasmloop.Module(data), data, path) as loop:
        same("how busy ended", record.serve(loop, record.Workers(1), 20)[0], "over")
    rows, numbers = replay.rows_of(path), set()
    for number in (1, 2, 3, 4, None):
        run = callbacks.Callback(rows, number)
        told = profile.Profile(wasm.Module(data), run)
        sums = sum(told.functions.values()), sum(told.paths.values())
        same(f"the units of {run}", sums, (run.did.used,) * 2)
        numbers.add((run.did.kind, run.did.number))
        if number is None:
            same("how often branches_7 was called", sum(it.calls for it in told.nodes if told.named(it.function) == "branches_7"), 41)
    same("whether callbacks of main and of both timers are among them", len(numbers) >= 3, True)


def slices(data: bytes, host: wasmloop.Module, given: bytes) -> None:
    """Where the library has the backtrace of a paused call, it is that of a run with just so much fuel."""
    run, each = runs.Request(data, host, 0, given, 64), 7
    run.sampled(1, 1)
    try:
        found = run._paths(each)
    except wasmloop.Error:
        print("left out: backtraces of paused calls: this library has none")
        return
    same("the backtraces of a paused call", found, [run._path_at(fuel)[0] for fuel in range(each // 2, each // 2 + each * len(found), each)])
    print(f"units: {len(found)} backtraces of a paused call are those of runs with as much fuel")


class Sliced(runs.Request):
    """A library that has the backtrace of a paused call, played by runs with less fuel."""

    def _paths(self, each: int) -> List[List[wasmloop.Site]]:
        whole = self._path_at(counts.ENOUGH)[1]
        return [self._path_at(fuel)[0] for fuel in range(max(each // 2, 1), whole, each)]


class NoSlices(runs.Request):
    """A library that has none."""

    def _paths(self, each: int) -> List[List[wasmloop.Site]]:
        raise wasmloop.Error(wasmloop.KIND)


def check_callgrind(told: profile.Profile) -> None:
    """The units of all lines are the run's, and those of a function's calls and lines together are what its callers say; and callgrind_annotate
    reads it."""
    text = callgrind.written(told, "guest.wasm").split("\n")
    alone, function, callee = 0, "", ""
    within: Counter[str] = collections.Counter()
    called: Counter[str] = collections.Counter()
    for before, line in zip([""] + text, text):
        function = line[3:] if line.startswith("fn=") else function
        if line[:1].isdigit():
            units = int(line.split()[1])
            within[function] += units
            alone += 0 if before.startswith("calls=") else units
            called[callee] += units if before.startswith("calls=") else 0
        callee = line[4:] if line.startswith("cfn=") else callee if line.startswith("calls=") else ""
    same("the units of callgrind's lines", alone, told.ran.used)
    same("the units of calls", [it for it in called if it and called[it] > within[it]], [])
    same("the calls' number", sum(int(it[6:].split()[0]) for it in text if it.startswith("calls=")), sum(it.calls for it in told.nodes if it.parent))
    if not shutil.which("callgrind_annotate"):
        print("left out: callgrind_annotate: valgrind is missing")
        return
    (OUT / "guest.callgrind").write_text("\n".join(text))
    ran = subprocess.run(["callgrind_annotate", OUT / "guest.callgrind"], capture_output=True, check=False)
    same("what callgrind_annotate prints", (ran.returncode, f"{told.ran.used:,} (100.0%)  PROGRAM TOTALS" in ran.stdout.decode()), (0, True))


def check_pprof(told: profile.Profile) -> None:
    """Its samples are the units by call path, and by line; and pprof itself reads it."""
    data = pprof.written(told, "guest.wasm")
    read = desk_pprof.Profile(data)
    by_line: Counter[Tuple[str, int]] = collections.Counter()
    for (_, file, line), units in told.lines.items():
        by_line[file, line] += units
    same("pprof's unit", read.unit, ["units"])
    same("pprof's call paths", read.by(lambda frames: ";".join(name for name, _, _ in frames)), dict(told.paths))
    same("pprof's lines", read.by(lambda frames: frames[-1][1:]), dict(by_line) if told.lines else {("", 0): told.ran.used})
    same("pprof's files of a second profile", pprof.written(told, "guest.wasm"), data)
    if not shutil.which("go"):
        print("left out: pprof itself: go is missing")
        return
    (OUT / "guest.pprof").write_bytes(data)
    ran = subprocess.run(["go", "tool", "pprof", "-top", OUT / "guest.pprof"], capture_output=True, check=False)
    same("what pprof prints", (ran.returncode, f"100% of {told.ran.used} total" in ran.stdout.decode()), (0, True))


def covered_part() -> None:
    """Each line is counted as often as its mark says that it runs, also where a run stops; and all counts together are the units of the runs."""
    file = guests.built(OUT, EXAMPLES, "covered")
    source = lines.wanted(file.read_bytes(), None) if file else None
    if not file or not source:
        print("left out: covered: clang, wasm-ld or llvm-symbolizer is missing")
        return
    tried = sum(covers(file, source, *it) for it in (((0, 5, 12), 10**6), ((13,), 10**6), ((20, 3, 64), 10**6), ((40, 9), 300)))
    words = [sys.executable, "-m", "wasmloop.cover", str(file), "0", "--least", "100", "--lcov", str(OUT / "lcov")]
    ran = subprocess.run(words, capture_output=True, check=False)
    same("a cover of an empty request", (ran.returncode, b"not run: never" in ran.stdout, b"expected 100" in ran.stderr), (1, True, True))
    never = next(number for number, times in marked_to_run().items() if times == "0")
    same("the line that never runs, in lcov's form", f"DA:{never},0\n" in (OUT / "lcov").read_text(), True)
    print(f"covered: {tried} lines are counted as often as they run")


def marked_to_run() -> Dict[int, str]:
    """Of each marked line how often it runs in a request of n bytes."""
    text = Path(__file__).with_name("desk").joinpath("covered.c").read_text()
    marks = {number: re.search(r"RUNS (.*) \*/", line) for number, line in enumerate(text.split("\n"), 1)}
    return {number: mark[1] for number, mark in marks.items() if mark}


def covers(file: Path, source: lines.Lines, sizes: Sequence[int], fuel: int) -> int:
    """How many marked lines are counted right in requests of so many bytes; those of runs without fuel have no marks."""
    data = file.read_bytes()
    host, coverage = wasmloop.Module(data), cover.Coverage(wasm.Module(data), source)
    given = [runs.Request(data, host, 0, bytes(n), fuel=fuel) for n in sizes]
    units = sum(coverage.add(it).used for it in given)
    same(f"the units of all lines in {sizes}", sum(coverage.operations().values()), units)
    if fuel < 10**6:
        return 0
    found = {line: count for name, held in coverage.lines().items() if name.endswith("covered.c") for line, count in held.items()}
    wanted = {line: sum(int(eval(times, {"n": n})) for n in sizes) for line, times in marked_to_run().items()}
    same(f"how often lines run in {sizes}", {it: found.get(it) for it in wanted}, wanted)
    return len(wanted)
