"""Records the calls of an instance, and repeats them: a plug-in that keeps its state fails at your desk as it did in its host.

In your own host, use its Instance in place of Module.instance:

    from wasmloop import plugin_record
    plugin = plugin_record.Instance(module, data, "plugin.record")

At your desk:

    python3 -m wasmloop.plugin_record plugin.record --debug plugin.debug.wasm
    python3 -m wasmloop.plugin_record plugin.record --before 73 -o before.wasm
    python3 -m wasmloop.profile before.wasm --call mean,5 --debug plugin.debug.wasm

The first prints each call that did not return, with its location and its source line. The second writes a module that starts in the state before
call 73, by default the last one. Module, limits, calls and the bytes that the host wrote determine everything else: a call takes some 30 bytes.
"""

from __future__ import annotations

import functools
import hashlib
import json
import os
import sys
from typing import Any, Callable, List, Optional, Sequence, Tuple, TypeVar, Union

from . import Buffer, Call as PlainCall, Instance as Plain, Late, Memory as PlainMemory, Module, Stopped, _tool, freeze, lines, replay, wasm
from .record import Note

Told = TypeVar("Told")


class Instance(Plain):
    """An Instance that writes its calls to `note`, a path or a text file. A call that is refused has no effect, and is not written."""

    def __init__(self, module: Module, data: bytes, note: Note, fuel: int = 1_000_000, depth: int = 64) -> None:
        super().__init__(module, fuel, depth)
        self._mine = isinstance(note, (str, bytes, os.PathLike))
        self._file = open(note, "w", encoding="ascii") if isinstance(note, (str, bytes, os.PathLike)) else note
        self.note("instance", hashlib.sha256(data).hexdigest(), bytes(data).hex(), fuel, depth)
        self._begun: Optional[Tuple[str, Tuple[int, ...], int, int, int]] = None
        self.memory.__class__ = _Memory

    def note(self, *row: object) -> None:
        self._file.write(json.dumps(row, separators=(",", ":")) + "\n")

    def call(self, name: str, *args: int, fuel: int = 1_000_000, depth: int = 64, deadline: Optional[float] = None) -> Union[None, int, Tuple[int, ...]]:
        call: Callable[[], Union[None, int, Tuple[int, ...]]] = functools.partial(super().call, name, *args, fuel=fuel, depth=depth, deadline=deadline)
        return self._noted(call, name, args, fuel, depth)

    def call_bytes(self, name: str, data: bytes, *args: int, fuel: int = 1_000_000, depth: int = 64) -> Union[None, int, Tuple[int, ...]]:
        call: Callable[[], Union[None, int, Tuple[int, ...]]] = functools.partial(super().call_bytes, name, data, *args, fuel=fuel, depth=depth)
        return self._noted(call, name, args, fuel, depth, bytes(data).hex())

    def _noted(self, call: Callable[[], Told], name: str, args: Sequence[int], fuel: int, depth: int, *data: str) -> Told:
        try:
            told = call()
        except Stopped as why:                          # one that was given up: as a call with just the fuel that it has used
            self.note("call", name, args, why.used if isinstance(why, Late) else fuel, depth, *data)
            self._file.flush()
            raise
        self.note("call", name, args, fuel, depth, *data)
        return told

    def begin(self, name: str, *args: int, fuel: int = 1_000_000, depth: int = 64) -> PlainCall:
        super().begin(name, *args, fuel=fuel, depth=depth)
        self._begun = name, args, fuel, depth, 0
        return _Call(self, name)

    def call_for(self, name: str, *args: int, units: int, fuel: int = 1_000_000, depth: int = 64) -> PlainCall:
        ended = super().call_for(name, *args, units=units, fuel=fuel, depth=depth)._ended
        self._begun = name, args, fuel, depth, units
        if ended:
            self._over(None)
        return _Call(self, name, ended)

    def _over(self, used: Optional[int]) -> None:
        """A call in slices is written when it is over, or when it is given up: as a call with just the fuel that it has used."""
        if self._begun:
            name, args, fuel, depth, units = self._begun
            self.note("call", name, args, fuel if used is None else units, depth)
            self._file.flush()
            self._begun = None

    def close(self) -> None:
        if hasattr(self, "_begun"):
            self._over(0)
        super().close()
        if getattr(self, "_mine", False):
            self._file.close()


class _Call(PlainCall):
    _instance: Instance

    def run_for(self, units: int) -> bool:
        over = super().run_for(units)
        if over:
            self._instance._over(None)
        elif self._instance._begun:
            name, args, fuel, depth, used = self._instance._begun
            self._instance._begun = name, args, fuel, depth, used + units
        return over

    def stop(self) -> int:
        used = super().stop()
        self._instance._over(used)
        return used


class _Memory(PlainMemory):
    _instance: Instance

    def __setitem__(self, index: slice, data: Buffer) -> None:
        super().__setitem__(index, data)
        self._instance.note("write", index.start or 0, bytes(data).hex())


def run(rows: replay.Rows, data: bytes, told: Optional[Callable[[Plain, int, str, object, int], None]] = None) -> Plain:
    """An instance of `data`, after these rows. `told` gets each call's number, its words and how it ended."""
    it = Module(data).instance(rows[0][3], rows[0][4])
    calls = 0
    for word, *more in rows[1:]:
        if word == "write":
            it.memory[more[0]:more[0] + len(more[1]) // 2] = bytes.fromhex(more[1])
            continue
        name, args, fuel, depth, *given = more
        calls += 1
        try:
            ended: object = (it.call_bytes(name, bytes.fromhex(given[0]), *args, fuel=fuel, depth=depth) if given
                             else it.call(name, *args, fuel=fuel, depth=depth))
        except Stopped as why:
            ended = why
        if told:
            told(it, calls, f"{name}({', '.join(map(str, args))})", ended, depth)
    return it


def before(rows: replay.Rows, number: int) -> Tuple[replay.Rows, List[Any]]:
    """The rows before call `number`, and its words."""
    places = [at for at, row in enumerate(rows) if row[0] == "call"]
    if not 1 <= number <= len(places):
        raise _tool.Failed(f"there are {len(places)} calls: --before {number} is not 1 to {len(places)}", 2)
    return rows[:places[number - 1]], rows[places[number - 1]]


def main() -> int:
    parser = _tool.words("plugin_record", __doc__)
    parser.add_argument("record", metavar="RECORD", help="the record of an instance")
    parser.add_argument("--debug", metavar="FILE", help="the module with DWARF, if the recorded one was stripped or lowered")
    parser.add_argument("--all", action="store_true", help="print the calls that returned, too")
    parser.add_argument("--before", metavar="N", type=_tool.whole(1), help="with -o: the call before which the module starts (the last)")
    parser.add_argument("-o", dest="out", metavar="OUT", help="write the module in that state")
    given = parser.parse_args()
    rows = replay.rows_of(given.record, "instance", 5)
    data = bytes.fromhex(rows[0][2])
    source = lines.wanted(data, given.debug)
    failed: List[int] = []

    def told(it: Plain, number: int, words: str, ended: object, depth: int) -> None:
        if isinstance(ended, Stopped):
            failed.append(number)
            sentence = _tool.ended(f"call {number}: {words}", ended.ending, ended.trap, ended.used, it.stop_told(data), depth)
            print(source.told(sentence) if source else sentence, file=sys.stderr)
        elif given.all:
            print(f"call {number}: {words} returned {ended}, after {it.used} units")

    if given.out:
        count = sum(row[0] == "call" for row in rows)
        kept, row = before(rows, given.before or count)
        module = wasm.Module(data)
        with run(kept, freeze.with_globals(module)) as it:
            _tool.write(given.out, freeze.left_by(module, it)[0])
        words = ",".join([row[1], *map(str, row[2])])
        print(f"{given.out} starts before call {given.before or count}: --call {words} --fuel {row[3]}", *("with the bytes " + it for it in row[5:]))
        return 0
    with run(rows, data, told):
        print(f"{sum(row[0] == 'call' for row in rows)} calls, {len(failed)} did not return")
    return 4 if failed else 0


if __name__ == "__main__":
    _tool.run("plugin_record", main)
