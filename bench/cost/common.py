"""What the benches share: builds, and runs in turns on one processor under a real-time class, the minimum of many."""

from __future__ import annotations

import math
import os
import pathlib
import subprocess
import sys
import tempfile
import time
from typing import Callable, Sequence, TypeVar, Union

HERE = pathlib.Path(__file__).resolve().parent
EXAMPLES = HERE.parents[1] / "examples"
COMPILE: list[StrPath] = ["clang", "--target=wasm32", "-mcpu=mvp", "-O2", "-ffreestanding", "-w", "-I", EXAMPLES, "-c"]
LINK = ["wasm-ld", "--no-entry", "--export-table", "--stack-first", "-z", "stack-size=16384"]
PAGE = 65536
PROCESSORS = range(os.cpu_count() or 1)
StrPath = Union[str, pathlib.Path]
Command = Sequence[StrPath]
# seconds, measured when it is called
Call = Callable[[], float]
# the file that is made, as it was named
Made = TypeVar("Made", str, pathlib.Path)


def start(usage: str | None, main: Callable[[str, str, list[str]], None]) -> None:
    """Calls `main` with the program, a folder for what is built, and the further words of the command line."""
    if len(sys.argv) < 2:
        sys.exit(usage)
    with tempfile.TemporaryDirectory() as folder:
        main(sys.argv[1], sys.argv[2] if len(sys.argv) > 2 else folder, sys.argv[3:])


def alone() -> None:
    """This process and what it starts before all others."""
    try:
        os.sched_setscheduler(0, os.SCHED_FIFO, os.sched_param(80))
    except OSError:
        print("no real-time class: times include what else runs")


def linked(out: Made, sources: Sequence[StrPath], *flags: str, link: Sequence[str] = ()) -> Made:
    """A module of these sources. The linker is called by itself: clang would run wasm-opt behind it where there is one."""
    objects: list[str] = [f"{out}.{place}.o" for place in range(len(sources))]
    for source, made in zip(sources, objects):
        subprocess.run([*COMPILE, *flags, "-o", made, source], check=True)
    subprocess.run([*LINK, *link, "-o", out, *objects], check=True)
    for made in objects:
        os.remove(made)
    return out


def guest(source: str, out: Made, pages: int | None = None, stack: int | None = None, **defines: int | str) -> Made:
    """A guest of this folder, a scene of it by the defines, whose memory has so many pages, and its C stack so many bytes."""
    link = [f"--initial-memory={pages * PAGE}", f"--max-memory={pages * PAGE}"] if pages else []
    link += ["-z", f"stack-size={stack}"] if stack else []
    flags = [f"-D{key}={value}" for key, value in defines.items()]
    return linked(out, [HERE / source, EXAMPLES / "mem.c"], *flags, link=link)


def compiled(out: Made, source: StrPath, *libraries: StrPath) -> Made:
    """A native program in C."""
    subprocess.run(["gcc", "-O2", "-o", out, source, *libraries], check=True)
    return out


def native(folder: str) -> str:
    """What libuv does: native.c."""
    return compiled(f"{folder}/native", HERE / "native.c", "-luv")


def spawner(folder: StrPath) -> str:
    """A small process that starts others: spawn.c."""
    return compiled(f"{folder}/spawn", HERE / "spawn.c")


def serve(program: str, module: StrPath, *flags: str, workers: int = 1) -> Command:
    """The command that serves one loop of a module."""
    return [program, "serve", module, "--loops", "1", "--workers", str(workers), *flags]


def wall(command: Command, good: str | None = None) -> float:
    """Seconds from start to end of a process."""
    begin = time.perf_counter()
    done = subprocess.run(command, stdout=subprocess.PIPE, stderr=subprocess.PIPE)
    took = time.perf_counter() - begin
    if good is not None and good not in done.stdout.decode()[:200]:
        raise SystemExit(f"{command}: {done.stdout[:200]!r} {done.stderr[:200]!r}")
    return took


def as_others() -> None:
    """In a new process: no real-time class, all processors. Node compiles in threads of its own, which would else wait for ever."""
    os.sched_setscheduler(0, os.SCHED_OTHER, os.sched_param(0))
    os.sched_setaffinity(0, PROCESSORS)


def words(command: Command, free: bool = False) -> list[str]:
    """The words that a process prints."""
    before = as_others if free else None
    return subprocess.run(command, stdout=subprocess.PIPE, check=True, text=True, preexec_fn=before).stdout.split()


def told(command: Command, free: bool = False) -> float:
    """The number that a process prints."""
    return float(words(command, free)[-1])


def least(times: int, *calls: Call, rotate: bool = True) -> list[float]:
    """Calls in turns, so many times, and the minimum of each. Each turn goes to the next processor, or to all of them."""
    best = [math.inf] * len(calls)
    for turn in range(times):
        os.sched_setaffinity(0, {turn % len(PROCESSORS)} if rotate else PROCESSORS)
        for place, call in enumerate(calls):
            best[place] = min(best[place], call())
    return best
