#!/usr/bin/env python3
"""loop.py PROGRAM [FOLDER [SCENE..]]: nanoseconds a callback, beside libuv in C and a loop by hand in node.

PROGRAM's is the difference of two runs of `serve`, one with 80,000 callbacks more, divided by them: a start of the process
is in neither. The peers measure themselves, around their loop. In turns, on one processor, the minimum of 7. With scenes only theirs."""

from __future__ import annotations

import common

MANY, FEW = 90_000, 10_000
# The scene of guest.c, that of native.c, and the handles.
ROWS = [("IDLE", "idle", 1), ("IDLE", "idle", 10), ("IDLE", "idle", 60), ("IDLE_CHECK", "idle_check", 1),
        ("TIMER", "timer", 1), ("TIMER", "timer", 10), ("TIMER", "timer", 60), ("TICK", None, 1), ("TICK", None, 10),
        ("TICK", None, 60), ("WAITING", "waiting", 2), ("WAITING", "waiting", 10), ("WAITING", "waiting", 60),
        ("ASYNC", "async", 1), ("CLOSE", "close", 1)]
BY_NODE = {("IDLE", 1), ("IDLE", 10), ("IDLE", 60), ("IDLE_CHECK", 1), ("ASYNC", 1), ("CLOSE", 1)}
NODE_CALLBACKS = "200000"
# Callbacks with and without 1,000 turns of a loop that calls the host; calls of `emit` in a callback; most callbacks of a loop.
CALLING, FEW_CALLING, TURNS, EMITS, MOST = 1100, 100, 1000, 64, 100_000


class Bench:
    def __init__(self, program: str, folder: str) -> None:
        self.program, self.folder, self.native = program, folder, common.native(folder)

    def guest(self, scene: str, name: int | str, callbacks: int | str, handles: int = 1) -> str:
        return common.guest("guest.c", f"{self.folder}/{scene}{handles}_{name}.wasm", SCENE=scene, N=callbacks, K=handles)

    def served(self, module: str, good: str = "loop 0 over") -> common.Call:
        """The seconds of a run of `serve`, to be called."""
        command = common.serve(self.program, module, "--fuel", "1000000")
        return lambda: common.wall(command, good)

    def both(self, scene: str, few: int, many: int, handles: int = 1) -> list[common.Call]:
        """Two runs, the second with more callbacks."""
        return [self.served(self.guest(scene, callbacks, callbacks, handles)) for callbacks in (few, many)]

    def by_uv(self, scene: str, callbacks: int, handles: int) -> common.Call:
        return lambda: common.told([self.native, scene, str(callbacks), str(handles)])

    def by_node(self, scene: str, handles: int) -> common.Call:
        module = self.guest(scene, "node", NODE_CALLBACKS, handles)
        return lambda: common.told(["node", common.HERE / "host.mjs", module, NODE_CALLBACKS], free=True)

    def row(self, scene: str, peer: str | None, handles: int) -> tuple[float, float | None, float | None]:
        """The nanoseconds of a callback, libuv's and node's; None where it isn't measured."""
        calls = dict(zip(("few", "many"), self.both(scene, FEW, MANY, handles)))
        if peer:
            calls["uv"] = self.by_uv(peer, 200_000 if peer == "async" else 1_000_000, handles)
        if (scene, handles) in BY_NODE:
            calls["node"] = self.by_node(scene, handles)
        best = dict(zip(calls, common.least(7, *calls.values())))
        return (best["many"] - best["few"]) / (MANY - FEW) * 1e9, best.get("uv"), best.get("node")

    def host_calls(self) -> None:
        """What a call of the host takes: 1,000 in a callback, less the same loop with none."""
        scenes = ["PLAIN", "NOW", "ACTIVE", "EMIT"]
        runs = [run for scene in scenes for run in self.both(scene, FEW_CALLING, CALLING)]
        peers = [self.by_uv(scene, 20_000, 1) for scene in ("plain", "now", "active")]
        best = common.least(9, *runs, *peers)
        each = {scene: (best[2 * k + 1] - best[2 * k]) / (CALLING - FEW_CALLING) * 1e9 for k, scene in enumerate(scenes)}
        plain, now, active = (each[scene] / TURNS for scene in scenes[:3])
        print(f"a turn of 1000: plain {plain:.2f}, with uv_now {now:.2f} (a call {now - plain:.2f}), "
              f"with uv_is_active {active:.2f} (a call {active - plain:.2f}) ns")
        plain, now, active = (took / TURNS for took in best[-3:])
        print(f"libuv: plain {plain:.2f}, uv_now {now - plain:.2f}, uv_is_active {active - plain:.2f} ns")
        print(f"emit, 64 a callback: {each['EMIT'] / EMITS:.1f} ns each, printed and kept")

    def empty_callbacks(self) -> None:
        empty, none = self.guest("EMPTY", "serve", 0), self.guest("NONE", "serve", 0)
        took, start = common.least(9, self.served(empty, "loop 0 limit"), self.served(none))
        print(f"an empty callback of an idle: {(took - start) / (MOST - 1) * 1e9:.1f} ns; "
              f"a serve that does nothing: {start * 1000:.2f} ms")

    def calls_of_node(self) -> None:
        modules = [self.guest(scene, "entry", 1_000_000) for scene in ("EMPTY", "NOW", "PLAIN")]
        seen = [common.words(["node", common.HERE / "entry.mjs", *modules], free=True) for _ in range(5)]
        entry, host = (min(float(words[place]) for words in seen) for place in (1, 4))
        print(f"node: a call from JavaScript {entry:.1f}, a call of the host {host:.1f} ns")


def main(program: str, folder: str, only: list[str]) -> None:
    common.alone()
    bench = Bench(program, folder)
    print(f"{'scene':12} {'handles':>7} {'ours ns':>9} {'libuv ns':>9} {'ratio':>6} {'node ns':>9} {'ratio':>6}")
    for scene, peer, handles in ROWS:
        if only and scene not in only:
            continue
        mine, uv, node = bench.row(scene, peer, handles)
        by_uv, by_node = (f"{it:9.1f} {mine / it:6.2f} " if it else " " * 17 for it in (uv, node))
        print(f"{scene.lower():12} {handles:7} {mine:9.1f} {by_uv}{by_node}".rstrip(), flush=True)
    if not only:
        bench.host_calls()
        bench.empty_callbacks()
        bench.calls_of_node()


if __name__ == "__main__":
    common.start(__doc__, main)
