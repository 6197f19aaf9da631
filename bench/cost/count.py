#!/usr/bin/env python3
"""count.py PROGRAM..: instructions of a callback, of a call of the host, of a request and, where libwasmloop.a lies beside the program, of a
call of a kept instance, by valgrind's callgrind, which don't swing as times do (those of a request by a tenth, since two threads meet).

Each is the difference of two runs, the second with more callbacks, requests or calls, divided by them: a start of the
process is in neither. The C library fills memory without `rep stosb`, of which valgrind counts each byte as an instruction."""

from __future__ import annotations

import os
import pathlib
import re
import subprocess
import sys
import tempfile
from typing import Callable

import common
import loop
import work

SCENES = [("IDLE", 1), ("IDLE", 60), ("IDLE_CHECK", 1), ("TIMER", 1), ("TIMER", 60), ("ASYNC", 1), ("CLOSE", 1)]
CALLBACKS, REQUESTS = (1_000, 5_000), (500, 2_500)
# Scenes whose callbacks call the host 1,000 times; those of PLAIN have as many turns without a call.
CALLS, CALLING = ["NOW", "ACTIVE"], (5, 15)
# Kinds of calls of instance.c. `add_paused` pauses once; `add_for` and `work_for` are over in their first slice.
KEPT, KEPT_CALLS = ["nothing", "nothing_at", "add", "add_at", "add_for", "add_paused", "add_begun", "instance", "work", "work_for"], (1_000, 3_000)
VALGRIND = ["valgrind", "--tool=callgrind", "--callgrind-out-file=/dev/null"]
WITHOUT_REP = {**os.environ, "GLIBC_TUNABLES": "glibc.cpu.x86_rep_stosb_threshold=100000000"}


def instructions(command: common.Command, good: str) -> int:
    """The instructions of a run that prints these words."""
    done = subprocess.run([*VALGRIND, *command], capture_output=True, text=True, env=WITHOUT_REP)
    found = re.search(r"Collected : (\d+)", done.stderr)
    if done.returncode or good not in done.stdout or not found:
        raise SystemExit(f"{command}: {done.stdout[:200]} {done.stderr[:200]}")
    return int(found[1])


def counted(program: str, module: str, fuel: str) -> int:
    """The instructions of a run of `serve`."""
    return instructions(common.serve(program, module, fuel, "1000000"), "loop 0 over")


def kept(library: pathlib.Path, folder: str) -> None:
    """Calls of an instance that is kept, by the library for C."""
    header = common.HERE.parents[1] / "capi" / "include"
    host = common.compiled(f"{folder}/instance", common.HERE / "instance.c", f"-I{header}", library)
    plugin = common.linked(f"{folder}/plugin.wasm", [common.HERE / "plugin.c"])
    for kind in KEPT:
        took = each(KEPT_CALLS, lambda count: instructions([host, plugin, kind, str(count)], ""))
        print(f"kept {kind:11} {took:8.0f}", flush=True)


def each(numbers: tuple[int, int], count: Callable[[int], int]) -> float:
    few, many = map(count, numbers)
    return (many - few) / (numbers[1] - numbers[0])


def main(program: str, folder: str) -> None:
    by_loop, by_work = loop.Bench(program, folder), work.Bench(program, folder)
    for scene, handles in SCENES:
        took = each(CALLBACKS, lambda it: counted(program, by_loop.guest(scene, it, it, handles), "--fuel"))
        print(f"{scene.lower():12} {handles:3} {took:8.0f}", flush=True)
    plain, *calls = (each(CALLING, lambda it: counted(program, by_loop.guest(scene, it, it), "--fuel")) for scene in ["PLAIN", *CALLS])
    for scene, took in zip(CALLS, calls):
        print(f"call of {scene.lower():8} {(took - plain) / loop.TURNS:8.0f}", flush=True)
    took = each(REQUESTS, lambda it: counted(program, by_work.guest(it, work.Request()), "--work-fuel"))
    print(f"{'request':16} {took:8.0f}", flush=True)
    library = pathlib.Path(program).with_name("libwasmloop.a")
    if library.is_file():
        kept(library, folder)


if __name__ == "__main__":
    for name in sys.argv[1:]:
        print(name)
        with tempfile.TemporaryDirectory() as built:
            main(name, built)
