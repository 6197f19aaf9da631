#!/usr/bin/env python3
"""work.py PROGRAM [FOLDER [size] [pages] [scale]]: requests a second, beside libuv's uv_queue_work in C and node's worker threads.

PROGRAM's time is the difference of two runs of `serve`, the second with 10 times the requests; 32 are outstanding. The
peers measure from the first request to the last. All processors, in turns, the minimum of 5."""

from __future__ import annotations

import dataclasses
import common

MANY, LARGE = 20_000, 5_000
BY = {"m": "mmap", "c": "calloc", "s": "memset"}
TURNS, TURNING, TURNING_NATIVE = 100_000, 400, 4_000


@dataclasses.dataclass
class Request:
    """What is asked: bytes in and out, turns of xorshift, and pages of memory of which some are written."""
    size: int = 0
    turns: int = 0
    pages: int | None = None
    touch: int = 0
    # How the native side takes its memory: a letter of BY, or n for none.
    how: str = "n"


class Bench:
    def __init__(self, program: str, folder: str) -> None:
        self.program, self.folder, self.native = program, folder, common.native(folder)

    def guest(self, count: int, it: Request) -> str:
        name = f"{self.folder}/work_{count}_{it.pages}_{it.size}_{it.turns}_{it.touch}.wasm"
        return common.guest("work.c", name, it.pages, N=count, SIZE=it.size, TURNS=it.turns, TOUCH=it.touch)

    def served(self, count: int, it: Request, workers: int, fuel: int = 1_000_000) -> common.Call:
        """The seconds of a run of `serve`, to be called."""
        command = common.serve(self.program, self.guest(count, it), "--work-fuel", str(fuel), workers=workers)
        return lambda: common.wall(command, "loop 0 over")

    def by_uv(self, count: int, it: Request, workers: int) -> common.Call:
        numbers = [count, workers, it.size, it.turns, it.pages or 1, it.touch]
        return lambda: common.told([self.native, "work", *map(str, numbers), it.how])

    def by_node(self, count: int, it: Request, workers: int, *how: str) -> common.Call:
        few = max(count // 10, 300)
        command: common.Command = ["node", common.HERE / "nodework.mjs", self.guest(count, it), str(few), str(workers), str(it.size), *how]
        return lambda: common.told(command) / few

    def row(self, label: str, workers: int, count: int, it: Request, with_node: bool) -> None:
        """The microseconds of a request, and of the peers'."""
        calls = [self.served(count // 10, it, workers), self.served(count, it, workers), self.by_uv(count, it, workers)]
        if with_node:
            calls += [self.by_node(count, it, workers), self.by_node(count, it, workers, "reuse")]
        few, many, uv, *node = common.least(5, *calls, rotate=False)
        mine = (many - few) / (count - count // 10)
        theirs = "".join(f" {peer * 1e6:9.2f} {mine / peer:7.2f}" for peer in (uv / count, *node))
        print(f"{label:28} {workers} {mine * 1e6:9.2f}{theirs}", flush=True)

    def size(self) -> None:
        for size in (0, 1024, 65536):
            for workers in (1, 2, 3, 4):
                count = MANY if size < 65536 else LARGE
                self.row(f"{size} bytes in and out", workers, count, Request(size=size), workers in (1, 4))

    def pages(self) -> None:
        for pages in (1, 16, 64):
            count = MANY if pages == 1 else 4_000
            for how, name in BY.items():
                self.row(f"{pages} pages, native by {name}", 1, count, Request(pages=pages, touch=1, how=how), how == "m")
            self.row(f"{pages} pages, all written, mmap", 1, count, Request(pages=pages, touch=pages, how="m"), False)

    def scale(self) -> None:
        """Whole runs, so that the ends, where workers run dry, are in them; both take about a second with one worker."""
        one = None
        for workers in (1, 2, 3, 4):
            it = Request(turns=TURNS)
            mine, uv = common.least(5, self.served(TURNING, it, workers, 10**9), self.by_uv(TURNING_NATIVE, it, workers), rotate=False)
            one = one or (mine, uv)
            print(f"100,000 turns of xorshift, {workers} workers: {mine / TURNING * 1e6:.0f} us a request "
                  f"(libuv {uv / TURNING_NATIVE * 1e6:.0f}), speed-up {one[0] / mine:.2f} (libuv's {one[1] / uv:.2f})", flush=True)


def main(program: str, folder: str, only: list[str]) -> None:
    common.alone()
    bench = Bench(program, folder)
    print(f"{'us a request':28} w {'ours':>9} {'libuv':>9} {'ratio':>7} {'node new':>9} {'ratio':>7} {'node same':>9} {'ratio':>7}")
    for what in ("size", "pages", "scale"):
        if not only or what in only:
            getattr(bench, what)()


if __name__ == "__main__":
    common.start(__doc__, main)
