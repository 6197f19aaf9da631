#!/usr/bin/env python3
"""Many loops in one process, by the library for C, beside as many of libuv; and what loaded modules keep.

    bench/embed/many.py FOLDER [MODULE..]        FOLDER: the prefix of install.sh

1 to 10,000 loops of a guest with one idle, in one thread, a turn of each in turn: what one takes to be made and dropped, its memory, and
its turn, as a multiple of a turn of one loop alone. libuv's loops have an idle each; they take some file descriptors each, so there are
fewer. Then 1,000 loops with some turns of each in a row, and 1,000 of a guest of one page with a C stack of 1 KiB. All in turns, the
minimum of five processes; of a process the shortest round, so that what else runs counts little. Then the bytes that a loaded module
keeps, as a multiple of its own: three of the examples, and those that are named.
"""

from __future__ import annotations

import subprocess
import sys
import tempfile
from pathlib import Path
from typing import Sequence

HERE = Path(__file__).resolve().parent
sys.path.insert(0, str(HERE.parent / "cost"))
import common  # noqa: E402

COUNTS, COUNTS_UV, TIMES = (1, 100, 200, 300, 500, 1_000, 10_000), (1, 100, 1_000), 5
ROWS, MANY = (2, 4, 8, 16), 1_000
# A round has 1,000 turns at least.
TURNS = 400_000
EXAMPLES = [common.EXAMPLES / f"{name}.wasm" for name in ("crc32", "sha256", "digest")]
# A guest whose idle never stops within the turns of a run.
ENDLESS = 100_000_000


def host(folder: str, prefix: str, name: str) -> str:
    """A host of the library: a file of bench/embed."""
    flags = ["-O2", f"-I{prefix}/include", "-o", f"{folder}/{name}"]
    subprocess.run(["cc", *flags, HERE / f"{name}.c", f"{prefix}/lib/libwasmloop.a"], check=True)
    return f"{folder}/{name}"


def rounds(count: int) -> str:
    return str(max(TURNS // max(count, 1_000), 20))


def numbers(command: common.Command) -> list[float]:
    return [float(word) for word in common.words(command)]


def loops(folder: str, prefix: str) -> None:
    """The table of loops."""
    many, many_uv = host(folder, prefix, "many"), common.compiled(f"{folder}/many_uv", HERE / "many_uv.c", "-luv")
    guest = common.guest("guest.c", f"{folder}/idle.wasm", SCENE="IDLE", N=ENDLESS, K=1)
    small = common.guest("guest.c", f"{folder}/small.wasm", pages=1, stack=1024, SCENE="IDLE", N=ENDLESS, K=1)
    commands = [[many, guest, str(it), rounds(it), "1"] for it in COUNTS]
    commands += [[many, guest, str(MANY), rounds(MANY * row), str(row)] for row in ROWS] + [[many, small, str(MANY), rounds(MANY), "1"]]
    commands += [[many_uv, str(it), rounds(it)] for it in COUNTS_UV]
    runs = [[numbers(command) for command in commands] for _ in range(TIMES)]
    least = [[min(it) for it in zip(*of_one)] for of_one in zip(*runs)]
    ours, more, theirs = least[:len(COUNTS)], least[len(COUNTS):-len(COUNTS_UV)], dict(zip(COUNTS_UV, least[-len(COUNTS_UV):]))
    print("loops  made us   KiB resident   KiB space   turn ns   of one   dropped us    libuv: made us   turn ns   of one")
    for count, (made, resident, space, turn, dropped) in zip(COUNTS, ours):
        beside = ""
        if count in theirs:
            made_uv, turn_uv = theirs[count]
            beside = f"{made_uv:18.1f} {turn_uv:9.0f} {turn_uv / theirs[1][1]:8.2f}"
        kept = f"{resident:14.1f} {space:11.0f}" if count > 1 else " " * 26
        print(f"{count:5} {made:8.1f} {kept} {turn:9.0f} {turn / ours[0][3]:8.2f} {dropped:12.1f}{beside}")
    for row, (_, _, _, turn, _) in zip(ROWS, more):
        print(f"{MANY} loops, {row} turns of each in a row: {turn:.0f} ns, of one {turn / ours[0][3]:.2f}")
    _, resident, space, turn, _ = more[-1]
    print(f"{MANY} loops of a guest of one page: {resident:.1f} KiB resident, {space:.0f} KiB space, {turn:.0f} ns, of one {turn / ours[0][3]:.2f}")


def modules(folder: str, prefix: str, files: Sequence[common.StrPath]) -> None:
    """What loaded modules keep."""
    kept = host(folder, prefix, "kept")
    for file in files:
        size, (each,) = Path(file).stat().st_size, numbers([kept, file, "100"])
        print(f"{Path(file).name}: {size} bytes, loaded {each:.0f}, {each / size:.1f} times as many")


def main(prefix: str, *files: str) -> None:
    common.alone()
    with tempfile.TemporaryDirectory() as folder:
        loops(folder, prefix)
        modules(folder, prefix, [*EXAMPLES, *files])


if __name__ == "__main__":
    if len(sys.argv) < 2:
        sys.exit(__doc__)
    main(*sys.argv[1:])
