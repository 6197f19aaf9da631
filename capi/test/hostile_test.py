"""Guests that choose how long things are, to the harm of the package and its tools: numbers, names, logs, source lines, call trees, questions
and emitted values. Each ends in seconds and within some megabytes, as an error of the package or with what could be told.

usage: PYTHONPATH=capi/python WASMLOOP_LIBRARY=LIBRARY hostile_test.py OUT [PART..]
"""

from __future__ import annotations

import asyncio
import os
import resource
import subprocess
import sys
import time
from pathlib import Path
from typing import Callable, Mapping, Optional, Sequence, Tuple, Type, TypeVar, Union, overload
from unittest import mock

import expecting
from expecting import TOP, run, same
from wasmloop import Error, Module, __main__ as tools, _tool, ask, callbacks, lines, log, lower, profile, record, replay, runs, served, wasm
from wasmloop.lowering.binary import Refused
from wasmloop.wasm import CODE, EXPORT, FUNCTION, MEMORY, TABLE, TYPE, i32, sized, text, u, vec

OUT = Path(sys.argv[1])
ELEMENT, DATA_COUNT, SECONDS, MEGABYTES = 9, 12, 20, 600
NOP, END, DROP, ADD, LOCAL_GET, GET_0, SET_0 = b"\x01", b"\x0b", b"\x1a", b"\x6a", 0x20, b"\x20\0", b"\x21\0"
Found = TypeVar("Found")


def module(bodies: Sequence[bytes], exports: Mapping[str, int], types: Sequence[bytes] = (b"\x60\0\0",), kinds: Optional[Sequence[int]] = None,
           parts: Optional[Mapping[int, bytes]] = None, custom: Sequence[Tuple[str, bytes]] = ()) -> bytes:
    """A module of these bodies, without their size and locals; `exports` names functions by their index."""
    sections = {TYPE: vec(types), FUNCTION: vec([u(it) for it in kinds or [0] * len(bodies)]),
                EXPORT: vec([text(name) + b"\0" + u(at) for name, at in exports.items()]),
                CODE: vec([sized(b"\0" + it + END) for it in bodies]), **(parts or {})}
    held = b"".join(bytes([kind]) + sized(it) for kind, it in sorted(sections.items(), key=lambda it: 9.5 if it[0] == DATA_COUNT else it[0]))
    return b"\0asm\1\0\0\0" + held + b"".join(b"\0" + sized(text(name) + it) for name, it in custom)


def names(*given: str) -> Tuple[str, bytes]:
    """The section with the names of functions."""
    return "name", b"\1" + sized(vec([u(at) + text(name) for at, name in enumerate(given)]))


def guest(name: str) -> bytes:
    """The bytes of the module that NAME.c makes."""
    run("clang", "--target=wasm32", "-mcpu=mvp", "-O2", "-I", TOP / "examples", "-c", "-o", OUT / f"{name}.o", OUT / f"{name}.c")
    run("wasm-ld", "--no-entry", "--export-table", "-z", "stack-size=16384", "-o", OUT / f"{name}.wasm", OUT / f"{name}.o")
    return (OUT / f"{name}.wasm").read_bytes()


@overload
def ended(what: str, call: Callable[[], Found]) -> Found: ...
@overload
def ended(what: str, call: Callable[[], Found], *kinds: Type[Exception]) -> Union[Found, Exception]: ...


def ended(what: str, call: Callable[[], Found], *kinds: Type[Exception]) -> Union[Found, Exception]:
    """What a call raised or returned, within the time."""
    began = time.process_time()
    found: Union[Found, Exception]
    try:
        found = call()
    except kinds as why:
        found = why
    took = time.process_time() - began
    same(f"{what}: seconds", took < SECONDS or took, True)
    return found


def numbers() -> None:
    """A number in a million bytes, behind a section that the host does not read."""
    for what, held in (("a size", b"\1" + b"\xff" * 1_000_000), ("a count", b"\1" + u(900_000) + b"\xff" * 900_000)):
        data = module([b""], {"f": 0}, custom=[("name", held)])
        found = ended(what, lambda: wasm.Module(data), wasm.Malformed)
        same(what, type(found).__name__, "Malformed")


def long_names() -> None:
    """A function that calls itself, with a name of 900,000 letters, and one that writes to a terminal."""
    # f(n): if n, call f(n - 1)
    body = GET_0 + b"\x04\x40" + GET_0 + i32(-1) + ADD + b"\x10\0" + END
    for name in ("a" * 900_000, "\x1b]0;title\x07" * 10):
        data = module([body], {"f": 0}, [b"\x60\1\x7f\0"], custom=[names(name)])
        with Module(data) as host:
            made = ended("names", lambda: profile.Profile(wasm.Module(data), runs.Call(data, host, "f", (100,), 128)))
        same("the paths of a profile", sum(map(len, made.paths)) < 10_000_000, True)
        same("what they are printed as", all(it.isprintable() for it in made.paths), True)


def logs() -> None:
    """Rings of a size that no guest needs, at no address, and functions of another type."""
    memory = {MEMORY: vec([b"\0\1"])}
    types = [b"\x60\0\1\x7f", b"\x60\1\x7f\1\x7f", b"\x60\0\0", b"\x60\0\2\x7f\x7f"]
    store = b"\x36\2\0"
    bodies = {"size 0": (0, i32(0) + i32(0) + store + i32(4) + i32(1) + store + i32(0)), "size 2^31": (0, i32(0) + i32(1 << 31) + store + i32(0)),
              "no address": (0, i32(-1)), "an argument": (1, i32(0)), "no result": (2, b""), "two results": (3, i32(0) + i32(0)),
              "endless": (0, b"\x03\x40\x0c\0\x0b\0")}
    for what, (kind, body) in bodies.items():
        data = module([body], {log.EXPORT: 0}, types, [kind], memory)
        with Module(data) as host, host.instance() as it:
            found = ended(f"log, {what}", lambda: log.read(it), Error)
            same(f"log, {what}", isinstance(found, Error) or found == [], True)


def questions() -> None:
    """What looks like a plug-in that asks."""
    types = [b"\x60\0\1\x7f", b"\x60\1\x7f\1\x7f", b"\x60\0\2\x7f\x7f", b"\x60\0\0"]
    memory = {MEMORY: vec([b"\0\1"])}

    async def answer(_: bytes) -> bytes:
        return b""

    for what, kinds, body, expected in (("two results", [2, 1, 3], i32(0) + i32(0), "NoneType"), ("an argument", [1, 1, 3], i32(0), "NoneType"),
                                        ("no memory there", [0, 1, 3], i32(-16), "OutOfRange"), ("ever more", [0, 1, 3], i32(16), "Stopped"),
                                        ("ever more, with much fuel", [0, 1, 3], i32(16), "Error")):
        data = module([body, i32(0), b""], {"ask_next": 0, "ask_answer": 1, "f": 2}, types, kinds, memory)
        with Module(data) as host, ask.Plugin(host, answer) as plugin:
            found = ended(f"a question, {what}", lambda: asyncio.run(plugin.call("f", fuel=10**9 if "much" in what else 20_000)), Error)
        same(f"a question, {what}", type(found).__name__, expected)


def unlike() -> None:
    """A debug module whose functions are large, and have little in common with those that ran."""
    mine = b"".join(b"\x41" + u(k % 60) + DROP for k in range(60_000))
    its = b"".join(b"\x41" + u(k * 7 % 60) + DROP + NOP for k in range(60_000))
    ran = module([mine], {"f": 0})
    debug = module([its], {"f": 0}, custom=[(".debug_line", b"")])
    found = ended("two functions without much in common", lambda: lines.Lines(ran, debug).address(len(ran) // 2))
    same("it has some address", (found or 0) > 0, True)


def broken() -> None:
    """Debug modules that end too soon, in a function too: the sentence on a trap stays."""
    ran = module([b"\0"], {"f": 0}, custom=[names("f")])
    for body in (b"\x0e" + u(1 << 31), b"\x0e\xff", b"\xfc\x7f", b"\x02" * 100_000):
        debug = module([body + NOP * 3], {"f": 0}, custom=[names("f"), (".debug_line", b"")])
        for cut in (debug, debug[:-1], debug[:-16] + b"\0\0"):
            same("a debug module", type(ended("a debug module", lambda: told_by(ran, cut), ValueError)).__name__ in ("str", "ValueError"), True)


def told_by(ran: bytes, debug: bytes) -> str:
    """The sentence on a trap, with a debug module."""
    with Module(ran, debug) as host, host.instance() as it:
        try:
            it.call("f")
        except Error as why:
            return (it.stop_told(ran) or "") + str(why)
    sys.exit("the call of f returned")


def symbolizers() -> None:
    """A symbolizer that does not end, or prints without end, as a real one may where the DWARF says so."""
    ran = module([b"\0"], {"f": 0})
    debug = module([b"\0"], {"f": 0}, custom=[(".debug_line", b"")])
    for name, text_of in (("sleeps", "exec sleep 100"), ("prints", "exec yes"), ("fails", "exit 3")):
        file = OUT / name
        file.write_text(f"#!/bin/sh\n{text_of}\n")
        file.chmod(0o755)
        with mock.patch.dict(os.environ, SYMBOLIZER=str(file)), mock.patch.object(lines, "SECONDS", 1):
            began = time.monotonic()
            found = ended(name, lambda: lines.Lines(ran, debug).of(len(ran) - 2), _tool.Failed)
            same(f"a symbolizer that {name}", (type(found).__name__, time.monotonic() - began < SECONDS), ("Failed", True))
            same("the sentence without a line", "unreachable" in told_by(ran, debug), True)


def siblings() -> None:
    """A loop that calls 4,000 functions in turn: a call tree looks each up among its siblings."""
    count = 4000
    # f(n): do { call_indirect(n % count) } while (n -= 1)
    loop = b"\x03\x40" + GET_0 + i32(count) + b"\x70\x11\0\0" + GET_0 + i32(-1) + ADD + b"\x22\0" + b"\x0d\0" + END
    parts = {TABLE: vec([b"\x70\0" + u(count)]), ELEMENT: vec([b"\0" + i32(0) + END + vec([u(it) for it in range(count)])])}
    data = module([b""] * count + [loop], {"f": count}, [b"\x60\0\0", b"\x60\1\x7f\0"], [0] * count + [1], parts)
    with Module(data) as host:
        call = runs.Call(data, host, "f", (20_000,))
        made = ended("a call tree with 4,000 siblings", lambda: profile.Profile(wasm.Module(data), call))
    same("its units", made.ran.used > 100_000, True)


def counts() -> None:
    """Numbers in a module that no host has checked: locals and labels that end far behind their function, in each of many."""
    many, far = 10_000, u(200_000)
    behind = ("x", bytes(600_000))
    labels = b"\0\x0e" + far + bytes(3)
    for what, body, reads in (("locals", far + bytes(3), wasm.Module), ("labels", labels, lambda data: [it.ops for it in wasm.Module(data).bodies])):
        data = module([], {}, parts={FUNCTION: vec([u(0)] * many), CODE: vec([sized(body)] * many)}, custom=[behind])
        same(what, type(ended(what, lambda: reads(data), wasm.Malformed)).__name__, "Malformed")


def inlined() -> None:
    """A symbolizer that says of each place that it was inlined 20,000 times."""
    ran = module([b"\0"], {"f": 0}, custom=[names("f")])
    debug = module([b"\0"], {"f": 0}, custom=[(".debug_line", b"")])
    file = OUT / "inlines"
    file.write_text("#!/bin/sh\ncat > /dev/null\nyes 'name\nx.c:1:1' | head -n 40000\n")
    file.chmod(0o755)
    with mock.patch.dict(os.environ, SYMBOLIZER=str(file)):
        told = ended("a place that is inlined", lambda: told_by(ran, debug))
    same("its sentence", 0 < len(told) < 10_000 or len(told), True)


def deep_paths() -> None:
    """250 calls of a function that calls itself 120 times deep, with names of 900 letters and 1,000 exports: 30,000 call paths."""
    deep = GET_0 + b"\x04\x40" + GET_0 + i32(-1) + ADD + b"\x10\0" + END
    every = b"".join(i32(118) + b"\x10\0" for _ in range(250))
    exports = {"f": 1, **{f"e{it}": 0 for it in range(1000)}}
    data = module([deep, every], exports, [b"\x60\1\x7f\0", b"\x60\0\0"], [0, 1], custom=[names("a" * 900, "b" * 900)])
    with Module(data) as host:
        made = ended("30,000 call paths", lambda: profile.Profile(wasm.Module(data), runs.Call(data, host, "f", (), 128)))
    same("exact, and how many paths", (made.why, len(made.nodes)), ("", 250 * 119 + 2))


IDLE_C = r"""
#include "uv.h"
GUEST_LOG(1 << 20);
static void again(int32_t idle) { guest_log("again"); (void)idle; }
UV_MAIN() { uv_idle_start(uv_idle_init(), again); }
"""


def long_records() -> None:
    """A loop that never ends, of which a host takes 100,000 steps: the log of a replay comes in parts, and what a callback left is read."""
    (OUT / "idle.c").write_text(IDLE_C)
    data = guest("idle")
    with Module(data) as host, record.Loop(host, data, str(OUT / "idle.record"), 0) as loop:
        for _ in range(100_000):
            loop.step()
    rows = replay.rows_of(str(OUT / "idle.record"))
    again, most = replay.Replay(rows), 0
    while again.next():
        most = max(most, len(again.log))
    same("the lines of a log at a time", (again.at, most <= replay.MOST_STEPS), (len(rows), True))
    with mock.patch.object(callbacks, "MOST_COST", 3_000_000_000):
        found = ended("a ring that is read by many replays", lambda: log.of_callback(callbacks.Callback(rows, callbacks.LAST)), _tool.Failed)
    same("what a long record's guest has logged", type(found).__name__, "Failed")


def lowered() -> None:
    """Modules that take a tool long that rewrites them: types that become one, types of many parameters, calls up a long chain, nulls in the table."""
    some = [b"\x60" + sized(bytes(0x7D if k >> bit & 1 else 0x7F for bit in range(14))) + b"\0" for k in range(12_000)]
    table = {TABLE: vec([b"\x70\0" + u(20_000)]), ELEMENT: vec([b"\0" + i32(0) + END + vec([u(it) for it in range(12_000)])])}
    chain = [b"\x10" + u(k) for k in range(30_000)]
    wide = [b"\x60" + sized(b"\x7f" * 100_000) + b"\0"]
    nulls = b"\4" + i32(0) + END + vec([b"\xd0\x70" + END])
    tried = {"types that become one": module([b""] * 12_000, {}, some, range(12_000), table),
             "a type of many parameters": module([b"\0" + b"\x10\0" * 100_000], {}, wide),
             "a long chain of calls": module(chain, {"guest_threw": 1}, [b"\x60\0\0"], [0] * len(chain),
                                             {wasm.IMPORT: vec([text("env") + text("emscripten_longjmp") + b"\0\0"])}),
             "nulls in the table": module([b""], {}, parts={TABLE: vec([b"\x70\0" + u(20_000)]), ELEMENT: vec(
                 [b"\0" + i32(0) + END + vec([u(0)] * 10_000), *[nulls.replace(i32(0), i32(10_001))] * 20_000])}),
             "a long passive segment": module([b"\x41\0\x41\0\x41\0\xfc\x08\0\0"], {}, parts={
                 MEMORY: vec([b"\0\1"]), DATA_COUNT: u(1), wasm.DATA: vec([b"\1" + sized(bytes(range(256)) * 2000)])})}
    for what, data in tried.items():
        found = ended(what, lambda: lower.lower(data, Path(lower.SOFT).read_bytes()), Refused)
        same(f"lower: {what}", isinstance(found, (tuple, Refused)), True)


FLOOD_C = r"""
#include "uv.h"
static void again(int32_t idle) { for (int k = 0; k < 64; k++) uv_emit(k); (void)idle; }
UV_MAIN() { uv_idle_start(uv_idle_init(), again); }
"""


def floods() -> None:
    """A guest that emits without end: to a host that does not read, to one that reads slowly, and to a record."""
    (OUT / "flood.c").write_text(FLOOD_C)
    data = guest("flood")

    async def unread(host: Module) -> int:
        async with served.Served(host) as loop:
            while len(loop._out) < served.MOST_EMITTED:
                await asyncio.sleep(0.01)
            await asyncio.sleep(0.2)
            return len(loop._out)

    async def slow(host: Module) -> int:
        async with served.Served(host) as loop:
            async for _ in loop.emits():
                await asyncio.sleep(0)
                if len(loop._out) >= served.MOST_EMITTED:
                    await asyncio.sleep(0.2)
                    return len(loop._out)
        sys.exit("the guest stopped emitting")

    with Module(data) as host:
        same("nobody reads", ended("nobody reads", lambda: asyncio.run(unread(host))) <= served.MOST_EMITTED + 64, True)
        same("a slow reader", ended("a slow reader", lambda: asyncio.run(slow(host))) <= served.MOST_EMITTED + 64, True)
        with record.Loop(host, data, str(OUT / "flood.record"), 0) as loop:
            ending, emits, _ = ended("a record", lambda: record.serve(loop, record.Workers(1), 60))
        same("a record", (ending, len(emits) <= record.MOST_VALUES + 64), ("limit", True))


def statuses() -> None:
    """Tools whose work was not done do not end with 0."""
    plain = OUT / "plain.wasm"
    plain.write_bytes(module([b""], {"uv_work": 0}, [b"\x60\1\x7f\1\x7f"], parts={CODE: vec([sized(b"\0" + i32(0) + END)])}))
    (OUT / "empty").write_bytes(b"")
    wrong = [("log", plain), ("lines", plain, "--byte", "3"), ("lines", plain, "--", "false"), ("cover", plain, "--least", "1"),
             ("cover", plain, "--lcov", "x"), ("profile", plain, "--call", "nosuch"), ("profile", plain, "--budget", "0"),
             ("fuzz", plain, "0", OUT / "nosuch"), ("freeze", plain, "-o", OUT / "x", "--call", "nosuch"),
             ("replay", plain), ("replay", OUT / "empty"), ("plugin_record", plain), ("bind", OUT / "empty.h"), ("lower", OUT / "empty", OUT / "x"),
             ("ask", OUT / "empty", OUT / "x"), ("record", OUT / "empty", "-o", OUT / "x"), ("cover", OUT / "empty"), ("lower", plain, OUT / "no" / "folder")]
    for tool, *words in wrong:
        done = subprocess.run([sys.executable, "-m", f"wasmloop.{tool}", *map(str, words)], capture_output=True, text=True, check=False)
        same(f"{tool} {' '.join(map(str, words))}: its status", done.returncode != 0, True)
        same(f"{tool}: a sentence and no traceback", (bool(done.stderr.strip()) or bool(done.stdout.strip()), "Traceback" in done.stderr), (True, False))
    for script in ("install.sh", "dist/prove.sh", "dist/pack.sh"):
        for flags in (["--nosuch"], ["--prefix=/x", "y"]):
            ran = subprocess.run([str(TOP / script), *flags], capture_output=True, cwd=OUT, env={**os.environ, "PREFIX": str(OUT / "none")}, check=False)
            same(f"{script} {flags}: its status", ran.returncode != 0, True)


def pipes() -> None:
    """A tool whose reader is gone ends quietly, with status 1: its list, its help, and what it found."""
    env = {name: value for name, value in os.environ.items() if name != "PYTHONUNBUFFERED"}
    plain = OUT / "plain.wasm"
    plain.write_bytes(module([b""], {"uv_work": 0}, [b"\x60\1\x7f\1\x7f"], parts={CODE: vec([sized(b"\0" + i32(0) + END)])}))
    found = ("profile", plain), ("cover", plain), ("profile", plain, "--folded", "-"), ("lower", plain, "-"), ("bind", plain.with_name("one.h"), "-o", OUT)
    plain.with_name("one.h").write_text("int f(int a);\n")
    for words in ((), *((it, "--help") for it in tools.TOOLS), *found):
        reads, writes = os.pipe()
        os.close(reads)
        done = subprocess.run([sys.executable, "-m", "wasmloop", *map(str, words)], stdout=writes, stderr=subprocess.PIPE, text=True, env=env, check=False)
        os.close(writes)
        same(f"{' '.join(map(str, words))}, read by nobody", (done.returncode, done.stderr), (1, ""))


PARTS = numbers, long_names, logs, questions, counts, unlike, broken, symbolizers, inlined, siblings, deep_paths, long_records, lowered, floods, statuses, pipes


def main() -> bool:
    OUT.mkdir(parents=True, exist_ok=True)
    for part in PARTS:
        if sys.argv[2:] and part.__name__ not in sys.argv[2:]:
            continue
        part()
    most = resource.getrusage(resource.RUSAGE_SELF).ru_maxrss // 1024
    same("the memory of all that, in megabytes", most < MEGABYTES or most, True)
    print(f"{expecting.wrong} wrong")
    return expecting.wrong != 0


if __name__ == "__main__":
    sys.exit(main())
