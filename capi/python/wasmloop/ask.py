"""Makes a plug-in that asks its host questions. The module is linked with examples/kit/ask/ask.c.

    python3 -m wasmloop.ask cart.wasm cart.wasm

It runs binaryen's `wasm-opt --asyncify`, which adds code to each function that may ask: it saves its locals, and continues with them. The code
that it had stays beside that, for calls that begin, so that a call that never asks is hardly slower; with --small it does not. Run it
before wasmloop.lower, if the module needs both. A function that --never names, and those that ask by it alone, are left as they are: if it
leads to a question, the call traps (unreachable).

The host calls the plug-in by the class Plugin:

    async def look_up(question: bytes) -> bytes: ..

    with Module(data) as module, ask.Plugin(module, look_up) as plugin:
        print(await plugin.call("total", 12))
"""

from __future__ import annotations

import os
import shutil
import struct
import subprocess
import sys
import tempfile
import time
from typing import Any, Awaitable, Callable, Generator, Optional, Tuple, Union

from . import KIND, RANGE, SPENT, Error, Late, Module, _asyncify, _tool, explain
from ._abi import _Ended
from ._objects import _until

Results = Union[None, int, Tuple[int, ...]]
Steps = Generator[bytes, Optional[bytes], Results]
Answer = Callable[[bytes], Awaitable[Optional[bytes]]]

NO_ANSWER = -2                                          # what `ask` of the guest returns where the host has no answer
MOST = 65536                                            # bytes of a question
ASKS = {"ask_next": ([], [32]), "ask_answer": ([32], [32])}  # what a plug-in that asks exports, with its types


class Plugin:
    """An instance whose functions may ask. `answer` is given the bytes of each question and returns those of the answer, or None if there is
    none; it may await. While a question waits, nothing of the guest runs, and `instance` may be called for functions that do not ask. A call may
    ask `most` questions: one takes the host as long as thousands of the plug-in's units."""

    most = 10_000

    def __init__(self, module: Module, answer: Answer, fuel: int = 1_000_000, depth: int = 64) -> None:
        self.instance, self.answer, self.used, self._state = module.instance(fuel, depth), answer, 0, ""
        self._until: Optional[float] = None
        try:
            self._asks = [module.function(it) for it in ASKS] == list(ASKS.values())
        except Error:
            self._asks = False

    def close(self) -> None:
        """Releases the instance."""
        self.instance.close()

    def __enter__(self) -> Plugin:
        return self

    def __exit__(self, *_: object) -> None:
        self.close()

    @property
    def busy(self) -> bool:
        """Whether the plug-in stands in the middle of a call."""
        return bool(self._state)

    def check(self) -> None:
        """Raises Error if it does."""
        if self._state:
            raise Error(KIND, self._state)

    async def call(self, name: str, *args: int, fuel: int = 1_000_000, depth: int = 64, deadline: Optional[float] = None) -> Results:
        """Calls the function exported as `name`, as Instance.call does, and answers its questions. `fuel` and `deadline` are for the whole call, its
        answers too; the clock is looked at while the guest runs. If the call does not return, or `answer` raises, the plug-in stands in the middle
        of it, and can only be closed."""
        steps = self.steps(name, *args, fuel=fuel, depth=depth, deadline=deadline)
        try:
            waits, it = moved(steps, None)
            while waits:
                waits, it = moved(steps, await _awaitable(self.answer(it)))
        finally:
            steps.close()
        return it  # type: ignore[no-any-return]

    def steps(self, name: str, *args: int, fuel: int = 1_000_000, depth: int = 64, resumed: bool = False, deadline: Optional[float] = None) -> Steps:
        """The same call as a generator, for a host that doesn't use asyncio: it yields each question, is sent the answer, and returns the results.
        With `resumed`, it begins with the question that waits: in an instance of a module that freeze.left_by wrote meanwhile."""
        self.check()
        self._asked = 0
        self._until = None if deadline is None else _until(deadline)
        self._state, self.used = f"the plug-in stands in the middle of a call of {name}", 0
        told = None if resumed else self._call(fuel, depth, name, *args)
        while self._asks and (at := self._call(fuel, depth, "ask_next")):
            question, place, room = self._question(int(at) % 2**32)
            self._put(place, room, (yield question), fuel, depth)
            told, resumed = self._call(fuel, depth, name, *args), False
        if resumed:
            raise Error(KIND, "no question waits")
        self._state = ""
        return told

    def _call(self, fuel: int, depth: int, name: str, *args: int) -> Any:
        """A call with the fuel and the time that are left."""
        left = None if self._until is None else max(0.0, self._until - time.monotonic()) * 1000
        if left == 0 and self.used:
            raise Late(name, _Ended(ending=SPENT, used=self.used))
        try:
            return self.instance.call(name, *args, fuel=fuel - self.used, depth=depth, deadline=left)
        finally:
            self.used += self.instance.used

    def _question(self, at: int) -> Tuple[bytes, int, int]:
        """The bytes of the question, and where the answer goes."""
        self._asked += 1
        if self._asked > self.most:
            raise Error(RANGE, f"the call asks more than {self.most} questions")
        memory = self.instance.memory
        start, length, place, room = struct.unpack("<4I", memory[at:at + 16])
        if length > MOST or max(start + length, place + room) > len(memory):
            raise Error(RANGE, f"the question is outside the memory, or longer than {MOST} bytes")
        return memory[start:start + length], place, room

    def _put(self, place: int, room: int, answer: Optional[bytes], fuel: int, depth: int) -> None:
        if not isinstance(answer, (bytes, bytearray, memoryview, type(None))):
            raise TypeError(f"an answer is bytes, or None if there is none; got {type(answer).__name__}")
        held = bytes(answer or b"")[:room]
        self.instance.memory[place:place + len(held)] = held
        if self._call(fuel, depth, "ask_answer", NO_ANSWER if answer is None else len(answer)):
            raise Error(KIND, "the plug-in does not wait for an answer")


def _awaitable(given: Any) -> Any:
    """What the function that answers returned, if it can be awaited."""
    if not hasattr(given, "__await__"):
        raise TypeError(f"the function that answers must be async: it returned {type(given).__name__}")
    return given


def moved(steps: Steps, answer: Optional[bytes]) -> Tuple[bool, Any]:
    """Whether the call waits for another answer, and its question; else its results."""
    try:
        return True, steps.send(answer)
    except StopIteration as over:
        return False, over.value


# What the host accepts; and what wasmloop.lower rewrites.
PLAIN = ["--mvp-features", "--enable-sign-ext", "--enable-multivalue"]
NEWER = [*PLAIN, "--enable-bulk-memory", "--enable-nontrapping-float-to-int", "--enable-mutable-globals", "--enable-reference-types"]


def optimized(data: bytes, *words: str, level: str = "-O1") -> bytes:
    """What wasm-opt makes of a module: it joins the many locals that Asyncify makes, of which a function may have 256."""
    tool = os.environ.get("WASM_OPT") or shutil.which("wasm-opt")
    if not tool:
        raise _tool.Failed("there is no wasm-opt: install Debian's package binaryen")
    with tempfile.TemporaryDirectory() as room:
        before, after = os.path.join(room, "before.wasm"), os.path.join(room, "after.wasm")
        _tool.write(before, data)
        for features in (PLAIN, NEWER):
            ran = subprocess.run([tool, *features, "-g", before, "-o", after, *words, level], stdout=subprocess.DEVNULL, stderr=subprocess.PIPE, check=False)
            if ran.returncode == 0:
                return bytes(_tool.read(after))
    raise _tool.Failed(f"wasm-opt: {ran.stderr.decode(errors='replace').strip()[-1000:]}")


def asyncified(data: bytes, never: str = "", small: bool = False) -> bytes:
    """The module with the code by which its functions ask."""
    pointers = _asyncify.asked_by_pointer(data)
    # (of imports, those of setjmp alone lead back into the module)
    words = ["--asyncify", "--pass-arg=asyncify-imports@env.invoke_*" if pointers else "--pass-arg=asyncify-ignore-indirect"]
    if never:
        words += [f"--pass-arg=asyncify-removelist@{never}", "--pass-arg=asyncify-asserts"]
    made = optimized(data, *words)
    if never:
        made = _asyncify.may_ask(made)
    # (-O4 undoes what Asyncify changes in functions that it then leaves as they are)
    return made if small else optimized(_asyncify.doubled(made, pointers), level="-O4")


def main() -> int:
    parser = _tool.words("ask", __doc__)
    parser.add_argument("before", metavar="IN", help="the linked module")
    parser.add_argument("after", metavar="OUT", help="the plug-in")
    parser.add_argument("--never", metavar="NAMES", default="", help="functions that lead to no question, with commas between them")
    parser.add_argument("--small", action="store_true", help="the code of functions that may ask once, and not twice")
    given = parser.parse_args()
    data = _tool.read(given.before)
    made = asyncified(data, given.never, given.small)
    _tool.write(given.after, made)
    why = explain(made)
    if why:
        print(f"the host does not run it yet: {why}", file=sys.stderr)
    print(f"{len(data):,} bytes became {len(made):,}")
    return 0


if __name__ == "__main__":
    _tool.run("ask", main)
