"""The part of desk_test.py with random hosts: HOSTS in the environment is how many there are (1,000), SEED (0) which ones."""

from __future__ import annotations

import dataclasses
import os
import random
import subprocess
from concurrent.futures import ThreadPoolExecutor
from pathlib import Path
from typing import List, Optional, Tuple

import desk_guests as guests
import wasmloop
from desk_checks import EXAMPLES, OUT, PROGRAM, THREADS, bad
from wasmloop import _errors, _tool, record, replay

HOSTS, SEED = int(os.environ.get("HOSTS", "1000")), int(os.environ.get("SEED", "0")) * 10**6


def hosts_part() -> None:
    """Random hosts: the replay has what the host itself saw, and the script prints the same log."""
    names = sorted(EXAMPLES.glob("*.wasm")) + [it for it in (guests.built(OUT, EXAMPLES, it) for it in ("racy", "waits")) if it]
    loops = [it for it in names if wasmloop.Module(it.read_bytes()).shape().main]
    with ThreadPoolExecutor(THREADS) as pool:
        told = list(pool.map(lambda seed: one_host(seed, loops[seed % len(loops)]), range(SEED, SEED + HOSTS)))
    for seed, why in enumerate((why for why, _, _ in told), SEED):
        if why:
            bad(f"host {seed}, {loops[seed % len(loops)].name}: {why}")
    failed = sum(it[2] for it in told)
    print(f"hosts: {sum(not it[0] for it in told)} of {HOSTS} replay to the same log, {sum(it[1] for it in told)} lines, {failed} failures")


def one_host(seed: int, file: Path) -> Tuple[str, int, bool]:
    """What is wrong, how many lines the log has, and whether the loop failed."""
    rng, data, path = random.Random(seed), file.read_bytes(), OUT / f"host{seed}.record"
    live = drive(rng, data, str(path), asks=seed % 3 == 0)
    rows = replay.rows_of(str(path))
    again = replay.Replay(rows)
    log: List[str] = []
    seen: List[str] = []
    try:
        while again.next():
            word = rows[again.at - 1][0]
            if word in ("step", "turn"):
                log += again.log
                seen += again.log if word == "step" else again.log[-1:]
        if seen != live:
            return "the replay is another", len(log), again.failed
        script = replay.script_of(rows)
    except _tool.Failed as why:
        return "" if seed % 3 == 0 and "request" in str(why) else str(why), len(log), again.failed
    path.with_suffix(".json").write_text(script)
    told = subprocess.run([PROGRAM, "script", path.with_suffix(".json")], capture_output=True, check=False).stdout.decode().split("\n")
    told = [it for it in told if it.startswith("loop ")]
    if ended(told) != ended(log):
        return "the script is another", len(log), again.failed
    return "", len(log), again.failed


def ended(log: List[str]) -> List[str]:
    """(a script says once of a loop that it has failed, in a line of its own)"""
    return [it for it in log if it != "loop 0 failed"]


@dataclasses.dataclass
class Queued:
    """A job that the host has taken, and whether it was told that it is started."""

    job: wasmloop.Job
    started: bool = False


def drive(rng: random.Random, data: bytes, path: str, asks: bool) -> List[str]:
    """A host that does what it likes, in any order: what each of its steps and turns told it last."""
    module = wasmloop.Module(data)
    words = {"fuel": rng.choice([300, 3000, 10**6]), "work_fuel": rng.choice([200, 5000, 10**6]), "depth": rng.choice([8, 64])}
    live: List[str] = []
    jobs: List[Queued] = []
    now = 0
    other = wasmloop.Loop(module, 1)
    with record.Loop(module, data, path, **words) as loop:
        def saw(did: wasmloop.Did) -> None:
            live.append(replay.line_of(did, loop.emits() if did.what == wasmloop.RAN and did.emits else []))

        for _ in range(rng.randrange(20, 160)):
            it = rng.random()
            if it < 0.15 or _errors._is_paused(loop.handle):
                did = sliced(rng, loop)
                if did:
                    saw(did)
            elif it < 0.3:
                saw(loop.step())
            elif it < 0.45:
                saw(loop.turn(rng.choice([1, 3, 2**32 - 1])).did)
            elif it < 0.6 and len(jobs) < 12:
                job = loop.next_job()
                jobs += [Queued(job)] if job else []
            elif it < 0.75 and jobs:
                queued = rng.choice(jobs)
                if not queued.started:
                    queued.started = True
                    loop.start(queued.job)
            elif it < 0.88 and jobs:
                loop.accept(jobs.pop(rng.randrange(len(jobs))).job.run())
            elif it < 0.92:
                now += rng.randrange(30)
                loop.clock(now)
            elif it < 0.96:
                loop.cancel(rng.randrange(1, 8))
            elif it < 0.98:
                loop.send(rng.randrange(3))
            elif asks:
                loop.request(rng.randrange(4), rng.randbytes(rng.randrange(9)) if hasattr(rng, "randbytes") else b"abc")
            else:
                stranger(loop, other)
    return live


def sliced(rng: random.Random, loop: record.Loop) -> Optional[wasmloop.Did]:
    """A slice of a step or of a turn: the step that is over at its end, if one is."""
    units = rng.choice([1, 30, 500])
    if rng.random() < 0.5:
        return loop.step_for(units)
    turned = loop.turn_for(units, rng.choice([1, 3, 2**32 - 1]))
    return turned.did if turned else None if _errors._is_paused(loop.handle) else loop.turned.did


def stranger(loop: record.Loop, other: wasmloop.Loop) -> None:
    """A job of another loop, which this one doesn't know."""
    while other.step().what not in (wasmloop.OVER, wasmloop.FAILED, wasmloop.ENTERED):
        pass
    job = other.next_job()
    if job:
        loop.start(job)
        loop.accept(job.run())
