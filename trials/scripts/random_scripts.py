#!/usr/bin/env python3
"""Runs random scripts by the program and by the model of the loop in model.py, and compares their logs.

    trials/scripts/random_scripts.py PROGRAM [--count N] [--seed S] [--keep FOLDER]

Each script has one to three loops and up to three workers, and its guests make random calls of every function of "uv"
in random callbacks (guest.c, which wants clang and wasm-ld). Logs are compared line by line, but for the fuel that a
callback used and for which free number a new handle gets, which is the host's choice. Each script that differs is kept
in FOLDER with both logs. The status is 1 if one does.
"""

from __future__ import annotations

import argparse
import collections
import json
import pathlib
import random
import re
import shutil
import struct
import subprocess
import sys
import tempfile

from model import CALLBACKS, VARIANTS, Call, Fault, Loop, World
from typing import Any, Callable, Counter, Dict, List, Sequence, Tuple

Step = List[Any]  # a name, and numbers
HERE = pathlib.Path(__file__).resolve().parent
# what a call's number means: guest.c alone says it
CALLS = re.sub(r"\s", "", re.findall(r"(?ms)^enum \{\n(.*?)\};", (HERE / "guest.c").read_text())[0]).lower().split(",")
LISTS, MOST_CALLS = 24, 200
MAKING = ["timer_init", "idle_init", "check_init", "async_init"]
LIVELY = MAKING + ["timer_start", "timer_start", "idle_start", "check_start", "async_send", "queue_work", "queue_work", "close"]
MARK = b"table of calls.\0"


def compiled(folder: pathlib.Path) -> Tuple[bytes, int]:
    """The module of guest.c, and where its table begins."""
    shutil.copy(HERE / "guest.c", folder)
    subprocess.run(["sh", HERE.parent.parent / "examples" / "build.sh", folder / "guest"], check=True)
    data = (folder / "guest.wasm").read_bytes()
    return data, data.index(MARK) + len(MARK)


def random_call(r: random.Random) -> Call:
    name = r.choice(LIVELY) if r.random() < 0.6 else r.choice(CALLS[1:-4])
    call: Dict[str, Any] = {"call": name, "to": r.randrange(32), "is_kept": True, "callback": r.randrange(CALLBACKS)}
    call.update(a=r.randrange(32), b=0, c=0, d=0)
    if r.random() < 0.04:
        call["callback"] = CALLBACKS
    if r.random() < 0.1:
        call.update(is_kept=False, a=r.choice([0, 1, 2, 3, 5, 63, 64, 2**31 - 1, -1]))
    if name == "timer_start":
        call.update(c=r.choice([0, 0, 1, 5, 20, 2**64 - 1]), d=r.choice([0, 0, 0, 3, 10, 2**64 - 1]))
    elif name == "queue_work":
        length = r.choice([0, 1, 7, 40, 65537, r.randrange(60)])
        call.update(is_kept=False, a=r.choice([0, 0, 8, 16, *range(8)]), b=r.randrange(100), c=length)
        if length not in (0, 65537) and r.random() < 0.05:
            call.update(b=-1, d=1)
    elif name == "in_copy":
        call.update(b=r.choice([0, 0, 1, 2, 200]), c=r.choice([0, 1, 2, 100]), d=int(r.random() < 0.2))
    elif name == "out_set":
        call.update(c=r.choice([0, 3]))
    if r.random() < 0.01:
        call.update(call=r.choice(["emit_many", "emit_many", "trap", "deep", "spin"]), is_kept=False, a=r.choice([0, 3, 63, 70]))
    return call


def random_table(r: random.Random) -> List[List[Call]]:
    """For each list of guest.c its calls. Handles are made, kept in order and then used."""
    table: List[List[Call]] = []
    room = MOST_CALLS - LISTS
    for which in range(LISTS):
        if which == 0:
            count = r.randrange(4, 30)
        elif which <= VARIANTS * (CALLBACKS + 1):
            count = r.choice([0, 1, 2, 3, 5])
        else:
            count = 0
        calls = [random_call(r) for _ in range(min(count, room))]
        # Behind many numbers nothing is made, since its number might not be emitted any more.
        many = next((k for k, c in enumerate(calls) if c["call"] == "emit_many"), len(calls))
        calls = calls[:many + 1]
        room -= len(calls)
        table.append(calls)
    return table


def packed(table: Sequence[Sequence[Call]]) -> bytes:
    """The bytes of a table, as guest.c reads them."""
    first: List[int] = []
    calls = b""
    for listed in table:
        first.append(len(calls) // 32)
        for c in [*listed, {"call": "end", "to": 0, "is_kept": False, "callback": 0, "a": 0, "b": 0, "c": 0, "d": 0}]:
            calls += struct.pack("<BBBBiiiQQ", CALLS.index(c["call"]), c["to"], c["is_kept"], c["callback"], c["a"], c["b"], 0, c["c"], c["d"])
    return struct.pack(f"<{LISTS}H", *first) + calls


def random_steps(r: random.Random, loops: int, workers: int, count: int) -> List[Step]:
    steps: List[Step] = []
    names = ["loop"] * 12 + ["post", "post", "take", "start", "finish", "collect", "collect", "send", "cancel", "clock"]
    for _ in range(count):
        name, loop = r.choice(names), r.randrange(loops)
        if name in ("take", "start", "finish"):
            if workers:
                steps.append([name, r.randrange(workers)])
        elif name == "send":
            steps.append([name, loop, r.randrange(4) if r.random() < 0.9 else r.randrange(16)])
        elif name == "cancel":
            steps.append([name, loop, r.randrange(1, 12)])
        elif name == "clock":
            steps.append([name, loop, r.choice([1, 5, 10, 20, 50, 100, 1000, 2**64 - 1]) if r.random() < 0.9 else 0])
        else:
            steps.append([name, loop])
    if r.random() < 0.03:
        steps.append(r.choice([["loop", loops], ["take", workers], ["send", 0, 16]]))
    return steps


def emitted(line: str) -> List[int]:
    words = line.split(" emit ")
    return [int(word) for word in words[1].split()] if len(words) == 2 else []


def expected(tables: Sequence[List[List[Call]]], workers: int, steps: Sequence[Step], log: Sequence[str]) -> List[str]:
    """The model's log. The number of each new handle is read off the program's line: what the guest emitted there."""
    lines: List[str] = []
    now = [0]

    def chooser(number: int) -> Callable[[], int]:
        def chosen() -> int:
            loop = loops[number]
            values = emitted(log[now[0]]) if now[0] < len(log) else []
            at = len(loop.emits)
            return values[at] if at < len(values) else next(n for n in range(65) if n not in loop.handles)
        return chosen

    loops = [Loop(k, table, chooser(k)) for k, table in enumerate(tables)]
    world = World(loops, [None] * workers)
    for step in steps:
        now[0] = len(lines)
        try:
            lines.append(world.step(*step))
        except Fault:
            return lines + ["fault 1"]
    return lines


def without_fuel(text: str) -> List[str]:
    return [re.sub(r" used \d+", "", line) for line in text.splitlines()]


def one(number: int, options: argparse.Namespace, module: bytes, start: int, folder: pathlib.Path, seen: Counter[str]) -> bool:
    r = random.Random(f"{options.seed} {number}")
    tables = [random_table(r) for _ in range(r.choice([1, 1, 2, 3]))]
    workers = r.randrange(4)
    steps = random_steps(r, len(tables), workers, r.randrange(20, 160))
    modules = []
    for table in tables:
        data = packed(table)
        modules.append((module[:start] + data + module[start + len(data):]).hex())
    loops = [{"module": k, "fuel": 40000, "work_fuel": 20000, "depth": 16} for k in range(len(tables))]
    script = folder / "script.json"
    script.write_text(json.dumps({"modules": modules, "loops": loops, "workers": workers, "steps": steps}))
    told = subprocess.run([options.program, "script", script], capture_output=True, text=True)
    log = without_fuel(told.stdout)
    try:
        model = expected(tables, workers, steps, log)
    except AssertionError as wrong:
        model = [f"the model stopped: {wrong}"]
    seen.update(" ".join(w for w in line.split()[:5] if not w.lstrip("-").isdigit()) for line in log)
    if log == model:
        return True
    kept = pathlib.Path(options.keep)
    kept.mkdir(parents=True, exist_ok=True)
    (kept / f"{number}.json").write_text(script.read_text())
    (kept / f"{number}.program").write_text("\n".join(log) + "\n" + told.stderr)
    (kept / f"{number}.model").write_text("\n".join(model) + "\n")
    at = next((k for k, (a, b) in enumerate(zip(log, model)) if a != b), min(len(log), len(model)))
    print(f"{number}: line {at + 1}: program {log[at:at + 1]}, model {model[at:at + 1]}", flush=True)
    return False


def main() -> None:
    parser = argparse.ArgumentParser()
    parser.add_argument("program")
    parser.add_argument("--count", type=int, default=1000)
    parser.add_argument("--first", type=int, default=0)
    parser.add_argument("--seed", default="1")
    parser.add_argument("--keep", default="script-differences")
    options = parser.parse_args()
    seen: Counter[str] = collections.Counter()
    differences = 0
    with tempfile.TemporaryDirectory() as name:
        folder = pathlib.Path(name)
        module, start = compiled(folder)
        for number in range(options.first, options.first + options.count):
            differences += not one(number, options, module, start, folder, seen)
    print(f"seed {options.seed}: {options.count} scripts, {differences} differences; lines seen:")
    for what, count in sorted(seen.items()):
        print(f"{count:9}  {what}")
    sys.exit(differences > 0)


if __name__ == "__main__":
    main()
