#!/usr/bin/env python3
"""Whether threads that have nothing to do take processor time.

    trials/idle/run.py PROGRAM

A guest asks for one piece of work, a loop that counts down; all loops together spend 300,000,000 units of fuel so. As many threads of
`serve` as there are pieces and workers for them have something to do. The status is 1 if the others take more than a twentieth of the
processor time of all: a single one that spins takes a tenth or more, those that wait half a hundredth. It is 1 too if they take more than
a fiftieth of what all take while the second quarter of the work is done, where those that wait take nothing: so it is seen whether they
took it as they began and ended. All times are of one run.
"""

from __future__ import annotations

import os
import subprocess
import sys
import tempfile
import time
from typing import Dict, IO, List, Mapping, Sequence, Tuple

# turns of all loops together, each of 6 units
TURNS = 50_000_000

MOST, MOST_MIDWAY = 0.05, 0.02

# uv_work counts its operation down, and uv_after_work emits its kind.
WORK = bytes.fromhex("000340200041016b22000d000b41000b")
AFTER_WORK = bytes.fromhex("002001ac10011a0b")
HEAD = bytes.fromhex(
    "0061736d01000000011b0560037f7f7f017f60017e017f60000060017f017f60037f7f7f00021b020275760a71756575655f776f726b000002"
    "757604656d6974000103040302030405030100010725030775765f6d61696e00020775765f776f726b00030d75765f61667465725f776f726b0004"
)

# Loops and workers.
SHAPES = [(8, 16), (8, 1), (1, 16)]


def guest(turns: int) -> bytes:
    """uv_main asks for one piece of work of so many turns, of less than 2^27."""
    number = bytes([turns & 127 | 128, turns >> 7 & 127 | 128, turns >> 14 & 127 | 128, turns >> 21])
    main = bytes([0x00, 0x41]) + number + bytes.fromhex("4100410010001a0b")
    code = bytes([3]) + b"".join(bytes([len(body)]) + body for body in (main, WORK, AFTER_WORK))
    return HEAD + bytes([0x0A, len(code)]) + code


def times_of(process: int) -> Dict[str, float]:
    """The processor time in seconds that each thread of a process has taken so far, by its number."""
    times: Dict[str, float] = {}
    folder = f"/proc/{process}/task"
    try:
        for thread in os.listdir(folder):
            with open(f"{folder}/{thread}/schedstat") as stat:
                times[thread] = int(stat.read().split()[0]) / 1e9
    except OSError:
        # the process, or a thread of it, has ended
        pass
    return times


def waiting(times: Mapping[str, float], busy: int) -> float:
    """What part of the processor time all threads but so many busy ones take; 0 where none was seen to take any."""
    whole = sum(times.values())
    return sum(sorted(times.values(), reverse=True)[busy:]) / whole if whole else 0.0


def spent(words: Sequence[str], out: IO[str]) -> Tuple[Dict[str, float], Dict[str, float]]:
    """The processor time of each thread of a command, as last seen, and in the second quarter of that of all."""
    seen: List[Dict[str, float]] = [{}]
    with subprocess.Popen(words, stdout=out) as ran:
        while ran.poll() is None:
            seen.append({**seen[-1], **times_of(ran.pid)})
            time.sleep(0.002)
    whole = sum(seen[-1].values())
    if not whole:
        sys.exit(f"no thread of {words[0]} is seen to take processor time")
    first, last = (next(times for times in seen if sum(times.values()) >= whole * part) for part in (1 / 4, 1 / 2))
    return seen[-1], {thread: time - first.get(thread, 0) for thread, time in last.items()}


def main(words: List[str]) -> int:
    if len(words) != 1:
        print(__doc__)
        return 2
    program = os.path.abspath(words[0])
    status = 0
    with tempfile.TemporaryDirectory() as folder:
        file = os.path.join(folder, "guest.wasm")
        for loops, workers in SHAPES:
            turns = TURNS // loops
            with open(file, "wb") as out:
                out.write(guest(turns))
            fuel = str(6 * turns + 10)
            shape = ["--loops", str(loops), "--workers", str(workers), "--work-fuel", fuel]
            with tempfile.TemporaryFile("w+") as out:
                times, midway = spent([program, "serve", file, *shape], out)
                out.seek(0)
                told = out.read()
            if told != "".join(f"loop {loop} over emits 0\n" for loop in range(loops)):
                print(f"serve prints {told!r}")
                return 1
            busy = min(loops, workers)
            if len(times) <= busy:
                print(f"the times of {len(times)} threads were seen, of {loops} loops and {workers} workers")
                return 1
            shares = waiting(times, busy), waiting(midway, busy)
            print(f"{loops} loops, {workers} workers: {sum(times.values()):.2f} s in {len(times)} threads, of which {100 * shares[0]:.1f} percent in "
                  f"those that wait, {100 * shares[1]:.1f} percent midway")
            if shares[0] > MOST or shares[1] > MOST_MIDWAY:
                status = 1
    return status


if __name__ == "__main__":
    sys.exit(main(sys.argv[1:]))
