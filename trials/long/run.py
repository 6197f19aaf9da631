#!/usr/bin/env python3
"""Runs `serve` over and over with a guest that uses every call of "uv" (long.c), and looks at counts and memory.

    trials/long/run.py PROGRAM [--minutes N] [--loops 8] [--workers 16]

Each round has to print `loop k over emits 400 0` for each loop: 400 requests were reported, each once, and no answer was
wrong. Every minute a line has the rounds so far and the greatest resident memory of the minute's rounds. The status is
1 where a line differs.
"""

from __future__ import annotations

import argparse
import os
import pathlib
import shutil
import subprocess
import sys
import tempfile
import time
from typing import List, Optional

HERE = pathlib.Path(__file__).resolve().parent


def round_of(command: List[str], wanted: str) -> Optional[int]:
    """The resident memory of one round in KiB; None where it printed something else."""
    with tempfile.TemporaryFile() as out:
        child = subprocess.Popen(command, stdout=out, stderr=out)
        _, status, used = os.wait4(child.pid, 0)
        out.seek(0)
        said = out.read().decode()
    if status == 0 and said == wanted:
        return int(used.ru_maxrss)
    print(f"status {status}: {said}", flush=True)
    return None


def main() -> None:
    parser = argparse.ArgumentParser()
    parser.add_argument("program")
    parser.add_argument("--minutes", type=float, default=60)
    parser.add_argument("--loops", type=int, default=8)
    parser.add_argument("--workers", type=int, default=16)
    options = parser.parse_args()
    with tempfile.TemporaryDirectory() as name:
        guest = f"{name}/long.wasm"
        shutil.copy(HERE / "long.c", name)
        subprocess.run(["sh", HERE.parents[1] / "examples" / "build.sh", f"{name}/long"], check=True)
        command = [options.program, "serve", guest, "--loops", str(options.loops), "--workers", str(options.workers)]
        wanted = "".join(f"loop {k} over emits 400 0\n" for k in range(options.loops))
        begin = told = time.monotonic()
        rounds, memory = 0, 0
        while time.monotonic() < begin + options.minutes * 60:
            used = round_of(command, wanted)
            if used is None:
                sys.exit(1)
            rounds, memory = rounds + 1, max(memory, used)
            if time.monotonic() > told + 60:
                print(f"{(time.monotonic() - begin) / 60:5.1f} minutes: {rounds} rounds, {memory / 1024:.1f} MiB", flush=True)
                told, memory = time.monotonic(), 0
        print(f"{rounds} rounds of {options.loops} loops and {options.workers} workers: all as they should be")


if __name__ == "__main__":
    main()
