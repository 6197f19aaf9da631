"""Spreads the blocks of a file over processes, one work request for each block, by Dask's distributed scheduler.

The operation is 0, and a block has 65,536 bytes. Each process reads the blocks of its tasks itself, so FILE must lie where all of them
find it; through the scheduler go numbers and replies alone. Printed are a digest of the replies and the time of this process alone and of
each number of processes. A request is a function of the module, the operation and the bytes alone, so the scheduler may run one again
whose process ended. Ends with 1 where replies differ, or where no task was left for the killed process.

    python3 hosts/python/spread.py examples/sha256.wasm FILE --kill        1, 2 and 4 processes, then one of them killed half way
    python3 hosts/python/spread.py examples/sha256.wasm FILE --rounds 5    in turns, the least times of five

It needs Debian's python3-distributed. To use machines of your own, give Client the address of your scheduler in place of LocalCluster.
With a file of 16 MB (256 requests of 9 million units) 1, 2 and 4 processes ran at 0.94, 1.64 and 3.60 times the speed of this process
alone, and 4 with one killed half way at 3.06 times (`chrt -f 10`, the least of three rounds on 4 busy processors).
"""

from __future__ import annotations

import argparse
import hashlib
import os
import signal
import sys
import time
from typing import Any, Callable, List, Set, Tuple

from distributed import Client, LocalCluster, as_completed      # type: ignore[import]  # (it has no types)

from wasmloop import Reply, work

BLOCK, FUEL, MOST_TASKS = 65_536, 10**9, 64
# the replies of a task, and the process that computed them
Part = Tuple[List[Reply], int]


def arguments() -> argparse.Namespace:
    words = argparse.ArgumentParser(description=__doc__, formatter_class=argparse.RawDescriptionHelpFormatter)
    words.add_argument("module", metavar="MODULE")
    words.add_argument("file", metavar="FILE")
    words.add_argument("processes", metavar="PROCESSES", type=int, nargs="*", default=[1, 2, 4], help="how many processes (1, 2 and 4)")
    words.add_argument("--rounds", metavar="N", type=int, default=1, help="do all so many times, and tell the least times (1)")
    words.add_argument("--kill", action="store_true", help="at last once more on the last number, with one process killed half way")
    return words.parse_intermixed_args()


def replies_to(module: bytes, file: str, first: int, count: int) -> Part:
    """The replies to some blocks of a file, from the first of them on, and which process computed them."""
    with open(file, "rb") as blocks:
        blocks.seek(first * BLOCK)
        return [work(module, 0, blocks.read(BLOCK), FUEL) for _ in range(count)], os.getpid()


def tasks_of(blocks: int) -> List[Tuple[int, int]]:
    """The first block of each task and how many blocks it has. A task is many blocks of a large file, so that the work counts and not the
    scheduler."""
    each = -(-blocks // MOST_TASKS)
    return [(first, min(each, blocks - first)) for first in range(0, blocks, each)]


def gathered(client: Client, futures: List[Any], workers: List[str]) -> List[Part]:
    return list(client.gather(futures))


def with_a_kill(client: Client, futures: List[Any], workers: List[str]) -> List[Part]:
    """Kills a process when half of the tasks are done, and then waits for all."""
    ((address, victim),) = client.run(os.getpid, workers=workers[:1]).items()
    for done, _ in enumerate(as_completed(futures)):
        if done == len(futures) // 2:
            os.kill(victim, signal.SIGKILL)
            left = sum(not it.done() for it in futures)
            break
    parts: List[Part] = client.gather(futures)
    if not left or address in client.scheduler_info()["workers"]:
        sys.exit(f"process {victim} was not killed half way: {left} tasks were left")
    return parts


class Bench:
    def __init__(self, client: Client, module: str, file: str) -> None:
        with open(module, "rb") as it:
            self.module = it.read()
        self.client, self.file, self.workers = client, os.path.abspath(file), list(client.scheduler_info()["workers"])
        self.blocks = -(-os.path.getsize(file) // BLOCK)
        if not self.blocks:
            sys.exit(f"{file} is empty")
        # each process has loaded the module before
        client.run(work, self.module, 0)
        self.lent = client.scatter(self.module, broadcast=True)

    def alone(self) -> List[Reply]:
        return replies_to(self.module, self.file, 0, self.blocks)[0]

    def spread(self, processes: int, gather: Callable[[Client, List[Any], List[str]], List[Part]] = gathered) -> List[Reply]:
        workers = self.workers[:processes]
        first, count = zip(*tasks_of(self.blocks))
        every = [self.lent] * len(first), [self.file] * len(first)
        futures = self.client.map(replies_to, *every, first, count, workers=workers, pure=False)
        parts = gather(self.client, futures, workers)
        if len({process for _, process in parts}) > processes:
            sys.exit(f"more than {processes} processes computed")
        return [reply for replies, _ in parts for reply in replies]


class Run:
    """What was computed in some way, and how long it took, in seconds."""

    def __init__(self, name: str, compute: Callable[..., List[Reply]], *words: object) -> None:
        self.name, self.compute, self.words = name, compute, words
        self.digests: Set[str] = set()
        self.took: List[float] = []

    def again(self) -> None:
        began = time.monotonic()
        replies = self.compute(*self.words)
        self.took.append(time.monotonic() - began)
        self.digests.add(hashlib.sha256(repr(replies).encode()).hexdigest()[:16])

    def tell(self, alone: Run) -> None:
        least, most = min(self.took), max(self.took)
        print(f"{self.name}: {' '.join(self.digests)} in {least:.2f} to {most:.2f} s, {min(alone.took) / least:.2f} times as fast", flush=True)


def measure(bench: Bench, words: argparse.Namespace) -> Set[str]:
    """This process alone and each number of processes in turns, and then the killed one."""
    alone, last = Run("this process alone", bench.alone), words.processes[-1]
    runs = [alone, *(Run(f"processes: {it}", bench.spread, it) for it in words.processes)]
    for it in runs * words.rounds:
        it.again()
    if words.kill:
        runs.append(Run(f"processes: {last}, one killed half way", bench.spread, last, with_a_kill))
        runs[-1].again()
    for it in runs:
        it.tell(alone)
    return set().union(*(it.digests for it in runs))


def main() -> None:
    words = arguments()
    load = os.getloadavg()[0]
    settings = {"threads_per_worker": 1, "dashboard_address": None, "silence_logs": 50}
    with LocalCluster(n_workers=max(words.processes), **settings) as cluster, Client(cluster) as client:
        bench = Bench(client, words.module, words.file)
        print(f"{bench.blocks} blocks, {len(tasks_of(bench.blocks))} tasks; the machine's load before was {load:.1f}", flush=True)
        if len(measure(bench, words)) != 1:
            sys.exit("the replies differ")


if __name__ == "__main__":
    main()
