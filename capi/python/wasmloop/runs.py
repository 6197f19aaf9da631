"""The runs that profile and cover measure: a request of uv_work, or a call of an export on an instance."""

from __future__ import annotations

import argparse
import functools
from concurrent.futures import ThreadPoolExecutor
from typing import Iterable, List, NamedTuple, Optional, Sequence, TYPE_CHECKING, Tuple, Union

from . import KIND, Error, Instance, Module, Site, Stopped, _tool, wasm
from .counts import ENOUGH, Counted, Counting, Found, Writer

if TYPE_CHECKING:
    from .tree import Node


SLOWER, SPARE = 1024, 10_000_000                        # with a call tree, units for each of the guest's, and beside these


def room_for(used: int) -> int:
    """The fuel of a run with a call tree, of a guest that uses so many units: a guest chooses how many siblings each call is looked for among."""
    return min(SLOWER * used + SPARE, ENOUGH)


class Ran(NamedTuple):
    """How a run ended, its result, its reply, its units, and the sentence on one that did not return."""

    ending: Optional[str]
    answer: Union[None, int, Tuple[int, ...]]
    reply: bytes
    used: int
    told: Optional[str]


# f: i32.const 0, if, end, unreachable. The last is instruction 3; libraries up to 0.2 return 4.
PROBE = bytes.fromhex("0061736d010000000104016000000302010007050101660000" "0a0a01080041000440" "0b000b")


@functools.lru_cache(maxsize=None)
def counts_decoded() -> bool:
    """Whether this library counts the `end` of an `if` without `else` as two instructions of a site."""
    with Module(PROBE).instance() as it:
        try:
            it.call("f")
        except Stopped:
            pass
        return it.stop()[0][1] == 4


def instruction_of(module: wasm.Module, site: Tuple[int, int]) -> int:
    """The number of the instruction in its function, as it is written, of a site that `stop` returns."""
    function, operation = site
    return module.bodies[function].decoded[operation] if counts_decoded() else operation


def byte_of(module: wasm.Module, site: Tuple[int, int]) -> int:
    """The byte in the file of a site that `stop` returns."""
    return module.bodies[site[0]].ops[instruction_of(module, site)][0]


class Call:
    """An exported function, called with numbers on a new instance."""

    with_start = False                                  # whether it includes the units of the start function
    most_nodes = 32768, 8192, 1024                      # of a call tree: fewer, if the guest lacks the memory beside it
    kept_calls: Optional[int] = None                    # a backtrace of so many calls may lack others; None: it is always complete

    def __init__(self, data: bytes, host: Module, name: str, args: Tuple[int, ...], depth: int = 64, fuel: int = ENOUGH) -> None:
        self.data, self.host, self.name, self.args, self.depth, self.fuel, self.given = data, host, name, args, depth, fuel, b""

    def __str__(self) -> str:
        return f"{self.name}({', '.join(map(str, self.args))})"

    def _fresh(self) -> Instance:
        return self.host.instance(fuel=ENOUGH, depth=self.depth)

    def run(self) -> Ran:
        """Runs the unmodified guest."""
        with self._fresh() as it:
            try:
                return Ran("done", it.call(self.name, *self.args, fuel=self.fuel, depth=self.depth), b"", it.used, None)
            except Stopped as why:
                told = _tool.ended(self, why.ending, why.trap, why.used, it.stop_told(self.data), self.depth)
                return Ran(why.ending, None, b"", why.used, told)

    def counted(self, counted: Counting[Found], fuel: Optional[int] = None) -> Tuple[Ran, Found]:
        """Runs the guest with counters, and returns what they read, too."""
        with counted.fresh(self.given, min(self.depth + 1, 128)) as it:
            before = None if self.with_start else counted.read(it)
            counted.begin(it, self.with_start)
            ending: Optional[str]
            try:
                answer, ending = it.call(self.name, *self.args, fuel=fuel or min(32 * self.fuel, ENOUGH), depth=min(self.depth + 1, 128)), "done"
            except Stopped as why:
                answer, ending = None, why.ending
            return Ran(ending, answer, counted.reply(it) if ending == "done" else b"", it.used, None), counted.read(it, before)

    def treed(self, most: int, most_nodes: int, used: int) -> Tuple[Ran, List[int], List[Node]]:
        """Runs the guest, which uses so many units, with a counted call tree of so many nodes, up to `most` units: how it ended, the counts of its
        blocks, and its nodes."""
        from .tree import Blocks, Tree                  # (which imports this module)
        tree, fuel = Tree(self.data, most, most_nodes), room_for(used)
        ended, (counts, nodes) = self.counted(tree, fuel)
        if tree.writer.only:
            blocks: Counted = Blocks(self.data, most) if most else Counted(self.data)
            ended, counts = self.counted(blocks, fuel)
        return ended, counts, nodes

    def backtrace(self) -> List[Site]:
        """The backtrace of a run that stopped, innermost first, as (function, instruction)."""
        return self._path_at(self.fuel)[0]

    def _path_at(self, fuel: int) -> Tuple[List[Site], int]:
        """The backtrace of a run with so much fuel, and its units."""
        with self._fresh() as it:
            try:
                it.call(self.name, *self.args, fuel=fuel, depth=self.depth)
            except Stopped:
                pass
            return it.stop(), it.used

    def _paths(self, each: int) -> List[List[Site]]:
        """The backtraces of one run in slices. Raises Error if the library has none for a paused call."""
        with self._fresh() as it:
            call, found, units = it.begin(self.name, *self.args, fuel=self.fuel, depth=self.depth), [], max(each // 2, 1)
            while not call.run_for(units):
                found.append(it.stop())
                units = each
            return found

    def sampled(self, count: int, threads: int) -> List[List[Site]]:
        """The backtraces at `count` points of a run, at equal distances in fuel. One run in slices, if the library has the backtrace of a paused
        call; else a run for each, with so much fuel that it stops there."""
        if not count:
            return []
        whole = self._path_at(self.fuel)[1]
        each = max(whole // count, 1)
        try:
            return self._paths(each)
        except Error:
            with ThreadPoolExecutor(threads) as pool:
                return [path for path, _ in pool.map(self._path_at, range(each // 2, whole, each))]


class Request(Call):
    """uv_work on one request. Its backtraces come from an instance of the guest with functions in place of its imports, because an instance keeps
    128 calls of a backtrace and a job 17."""

    with_start = True
    kept_calls = 17

    def __init__(self, data: bytes, host: Module, op: int, given: bytes, depth: int = 64, fuel: int = ENOUGH) -> None:
        super().__init__(data, host, "uv_work", (op,), depth, fuel)
        self.given = given
        self._plain: Optional[Counted] = None
        if not host.shape().work:
            raise _tool.Failed("the module exports no uv_work: give --call", 2)

    def __str__(self) -> str:
        return f"uv_work({self.args[0]}) on {len(self.given)} bytes"

    def _fresh(self) -> Instance:
        return self._plain.fresh(self.given, self.depth) if self._plain else super()._fresh()

    def backtrace(self) -> List[Site]:
        with self.host.job(self.args[0], self.given, fuel=self.fuel, depth=self.depth) as job:
            return job.run().stop()

    def sampled(self, count: int, threads: int) -> List[List[Site]]:
        try:
            self._plain = Counted(self.data, (Writer.NONE,))
        except (_tool.Failed, Error):                   # (it does not fit: the 17 calls of a job, then)
            self._plain = None
        return super().sampled(count, threads)

    def _path_at(self, fuel: int) -> Tuple[List[Site], int]:
        if self._plain:
            return super()._path_at(fuel)
        with self.host.job(self.args[0], self.given, fuel=fuel, depth=self.depth) as job:
            return job.run().stop(), job.about().used

    def _paths(self, each: int) -> List[List[Site]]:
        if self._plain:
            return super()._paths(each)
        raise Error(KIND)

    def run(self) -> Ran:
        with self.host.job(self.args[0], self.given, fuel=self.fuel, depth=self.depth) as job:
            reply = job.run().reply()
            if reply.outcome == "done":
                return Ran("done", reply.value, reply.data, reply.used, None)
            told = _tool.ended(self, reply.outcome, reply.number, reply.used, job.stop_told(self.data), self.depth)
            return Ran(reply.outcome, None, b"", reply.used, told)


def add_words(parser: argparse.ArgumentParser) -> None:
    parser.add_argument("guest", metavar="GUEST", help="the module; with DWARF, its lines are reported too")
    parser.add_argument("op", metavar="OP", nargs="?", type=int, default=0, help="the argument of uv_work (0)")
    parser.add_argument("--call", metavar="NAME[,NUMBER..]", help="call this export on an instance instead of uv_work")
    parser.add_argument("--fuel", metavar="N", type=int, default=10**9, help="the fuel of a run, in units (1000000000)")
    parser.add_argument("--depth", metavar="N", type=int, default=64, help="the call-depth limit (64)")
    parser.add_argument("--debug", metavar="FILE", help="the module with DWARF, if GUEST was stripped or lowered")


def of_words(given: argparse.Namespace, data: bytes, host: Module, requests: Iterable[bytes]) -> Sequence[Call]:
    """The runs that the arguments describe: a call, or one for each request."""
    if given.call is None:
        return [Request(data, host, given.op, it, given.depth, given.fuel) for it in requests]
    name, *numbers = given.call.split(",")
    try:
        args = tuple(int(it, 0) for it in numbers)
        takes = len(host.function(name)[0])
    except ValueError:
        raise _tool.Failed(f"--call {given.call}: expected NAME,NUMBER..", 2) from None
    except Error as why:
        raise _tool.Failed(f"--call {given.call}: {why}", 2) from None
    if takes != len(args):
        raise _tool.Failed(f"--call {given.call}: {name} takes {takes} arguments, got {len(args)}", 2)
    return [Call(data, host, name, args, given.depth, given.fuel)]
