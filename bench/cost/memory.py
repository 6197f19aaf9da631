#!/usr/bin/env python3
"""memory.py PROGRAM [FOLDER]: resident memory (the most of a run, from a small parent) and least address space, by differences."""

from __future__ import annotations

import json
import pathlib
import resource
import subprocess
import common

KIB, MOST_SPACE, NEAR = 1024, 1 << 18, 8
# How many kept instances there are at once, and a module of one function without a memory.
INSTANCES = 1000
BARE = bytes.fromhex("0061736d01000000 010401600000 03020100 070b01076e6f7468696e670000 0a040102000b")


class Bench:
    def __init__(self, program: str, folder: str) -> None:
        self.program, self.folder, self.spawn = program, pathlib.Path(folder), common.spawner(folder)

    def resident(self, *words: common.StrPath) -> int:
        command = [self.spawn, "3", self.program, *words]
        return min(int(subprocess.run(command, stdout=subprocess.PIPE).stdout.split()[1]) for _ in range(3))

    def ends_well(self, words: common.Command, space: int) -> bool:
        def limit() -> None:
            resource.setrlimit(resource.RLIMIT_AS, (space * KIB, space * KIB))
        none = subprocess.DEVNULL
        return subprocess.run([self.program, *words], stdout=none, stderr=none, preexec_fn=limit).returncode == 0

    def space(self, *words: common.StrPath) -> int:
        """The least address space, in KiB, under which the run ends with 0."""
        low, high = 0, MOST_SPACE
        while high - low > NEAR:
            middle = (low + high) // 2
            low, high = (low, middle) if self.ends_well(words, middle) else (middle, high)
        return high

    def guest(self, source: str, **defines: int | str) -> pathlib.Path:
        return common.guest(source, self.folder / "guest.wasm", None, None, **defines)

    def script(self, module: pathlib.Path, steps: list[list[str | int]], loops: int = 1) -> pathlib.Path:
        """A script of loops of one module."""
        file = self.folder / "script.json"
        loop = {"module": 0, "fuel": 10**6, "work_fuel": 10**6, "depth": 64}
        file.write_text(json.dumps({"modules": [module.read_bytes().hex()], "loops": [loop] * loops, "workers": 16, "steps": steps}))
        return file

    def loops(self) -> None:
        for scene, handles in (("IDLE", 1), ("IDLE", 64), ("TICK", 64)):
            module = self.guest("guest.c", SCENE=scene, N=1000, K=handles)
            runs: list[common.Command] = [["serve", module, "--loops", count, "--workers", "1"] for count in "18"]
            r, a = [self.resident(*it) for it in runs], [self.space(*it) for it in runs]
            print(f"{scene.lower()} {handles}: one loop {r[0]} {a[0]}, eight {r[1]} {a[1]}: "
                  f"each further {(r[1] - r[0]) / 7:.1f} {(a[1] - a[0]) / 7:.1f}")

    def workers(self) -> None:
        module = self.guest("work.c", N=100, SIZE=0, TURNS=0, TOUCH=0)
        runs: dict[int, common.Command] = {count: ["serve", module, "--loops", "1", "--workers", str(count)] for count in (1, 4, 16)}
        print("workers: ", {count: (self.resident(*words), self.space(*words)) for count, words in runs.items()})

    def requests(self) -> None:
        """A world of one loop whose uv_main asks up to 32 times; without and with bytes."""
        for size in (0, 1024, 65536):
            seen = []
            for count in (1, 32):
                module = self.guest("work.c", N=count, SIZE=size, TURNS=0, TOUCH=0)
                seen.append(self.resident("script", self.script(module, [["loop", 0]])))
            print(f"request of {size} bytes: {(seen[1] - seen[0]) / 31:.2f} KiB resident each")

    def scripts(self) -> None:
        """Jobs that are being run stand one after another in a script, so instances beside each other are loops'."""
        module = self.guest("work.c", N=100, SIZE=0, TURNS=0, TOUCH=0)
        for count in (1, 8):
            print(f"script of {count} idle loops: resident {self.resident('script', self.script(module, [['clock', 0, 1]], count))}")

    def instances(self) -> None:
        """Instances that are kept, by the library for C, where it lies beside the program."""
        library = pathlib.Path(self.program).with_name("libwasmloop.a")
        if not library.is_file():
            return
        header = common.HERE.parents[1] / "capi" / "include"
        host = common.compiled(f"{self.folder}/instances", common.HERE / "instances.c", f"-I{header}", library)
        bare = self.folder / "bare.wasm"
        bare.write_bytes(BARE)
        one = [f"--initial-memory={common.PAGE}", f"--max-memory={common.PAGE}"]
        modules: dict[str, common.StrPath] = {
            "no memory": bare,
            "one page": common.linked(f"{self.folder}/one.wasm", [common.HERE / "plugin.c"], link=one),
            "one page of at most 64": common.linked(f"{self.folder}/plugin.wasm", [common.HERE / "plugin.c"]),
        }
        for name, module in modules.items():
            told = subprocess.run([host, module, str(INSTANCES)], capture_output=True, text=True, check=True).stdout.strip()
            print(f"a kept instance with {name}, of {INSTANCES}: {told}")


def main(program: str, folder: str, _: list[str]) -> None:
    bench = Bench(program, folder)
    print("resident KiB, address space KiB")
    bench.loops()
    bench.workers()
    bench.requests()
    bench.scripts()
    bench.instances()


if __name__ == "__main__":
    common.start(__doc__, main)
