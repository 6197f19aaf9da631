"""Questions: a fuzzer of guests and hosts, the examples, what a guest pays that never asks.

usage: PYTHONPATH=capi/python WASMLOOP_LIBRARY=LIBRARY ask_test.py OUT [SEED]

Needs clang, wasm-ld, cc and wasm-opt; a guest in Rust is left out where there is no rustc for wasm32, and said.
"""

from __future__ import annotations

import asyncio
import ctypes
import random
import shutil
import struct
import subprocess
import sys
from pathlib import Path
from typing import Any, Callable, Dict, List, Optional, Tuple

import expecting
from expecting import number, run, same
from wasmloop import Error, Module, Stopped, _header, ask, bind, explain, freeze, wasm

OUT, SEED = Path(sys.argv[1]), int(sys.argv[2]) if sys.argv[2:] else 1
HERE = Path(__file__).resolve().parent
TOP = HERE.parent.parent
ASK = TOP / "examples" / "kit" / "ask"
PROGRAMS, WAITING, MOST = 1000, 40, 1.02
AMPLE = 1 << 40
# a function and its arguments
Call = Tuple[str, List[int]]
RUST = ["--edition", "2021", "--target", "wasm32-unknown-unknown", "--crate-type", "cdylib", "-O", "-C", "target-cpu=mvp", "-C", "linker=wasm-ld",
        "-C", "panic=abort", "-C", "strip=debuginfo", "-C", "link-args=--demangle --stack-first -zstack-size=16384"]


def linked(*sources: Path) -> bytes:
    made = []
    for source in sources:
        made.append(OUT / f"{source.stem}.o")
        run("clang", "--target=wasm32", "-mcpu=mvp", "-O2", "-ffreestanding", "-Wall", "-Wextra", "-Werror", "-I", ASK, "-c", "-o", made[-1], source)
    run("wasm-ld", "--no-entry", "--stack-first", "-z", "stack-size=16384", "-o", OUT / "linked.wasm", *made)
    return (OUT / "linked.wasm").read_bytes()


def plugin(*sources: Path, small: bool = False) -> bytes:
    """The plug-in of these files of C."""
    made = ask.asyncified(linked(*sources), small=small)
    same(f"whether the host runs {sources[0].name}", explain(made), None)
    return made


class Native:
    """The native build of asks.c: what a program asks, in order, and returns."""

    def __init__(self) -> None:
        run("cc", "-O1", "-shared", "-fPIC", "-I", ASK, "-o", OUT / "asks.so", HERE / "ask" / "asks.c")
        self.code = ctypes.CDLL(str(OUT / "asks.so"))
        self.code.program_at.restype = ctypes.c_void_p
        self.code.run.restype = ctypes.c_int64
        kind = ctypes.CFUNCTYPE(ctypes.c_int32, ctypes.c_void_p, ctypes.c_uint32, ctypes.c_void_p, ctypes.c_uint32)
        self.by = kind(self.ask)
        ctypes.c_void_p.in_dll(self.code, "ask_by").value = ctypes.cast(self.by, ctypes.c_void_p).value

    def ask(self, question: int, length: int, answer: int, room: int) -> int:
        self.questions.append(ctypes.string_at(question, length))
        told = answer_of(self.seed, len(self.questions))
        held = (told or b"")[:room]
        ctypes.memmove(answer, held, len(held))
        return ask.NO_ANSWER if told is None else len(told)

    def run(self, program: bytes, seed: int) -> Tuple[int, List[bytes]]:
        self.seed = seed
        self.questions: List[bytes] = []
        ctypes.memmove(self.code.program_at(), program, len(program))
        return int(self.code.run(len(program), ctypes.c_int64(seed))), self.questions


def answer_of(seed: int, number: int) -> Optional[bytes]:
    """The answer to the question of this number: some are longer than there is room, some are none."""
    rng = random.Random(seed << 16 | number)
    return None if rng.random() < 0.1 else bytes(rng.randrange(256) for _ in range(rng.randrange(33)))


class Running:
    """A call of the guest that waits for an answer, or is over."""

    def __init__(self, module: Module, program: bytes, seed: int, fuel: int) -> None:
        self.seed, self.words, self.fuel, self.used = seed, (len(program), seed), fuel, 0
        self.questions: List[bytes] = []
        self.ended: Optional[str] = None
        self.result: object = None
        self.plugin = ask.Plugin(module, price)
        at = number(self.plugin.instance, "program_at")
        self.plugin.instance.memory[at:at + len(program)] = program
        same("an answer before a question", self.plugin.instance.call("ask_answer", 0), -1)
        self.steps = self.plugin.steps("run", *self.words, fuel=fuel, depth=128)
        self.move(None)

    def move(self, answer: Optional[bytes]) -> None:
        try:
            waits, it = ask.moved(self.steps, answer)
        except Stopped as why:
            self.ended, self.used = why.ending, self.used + self.plugin.used
            return
        if waits:
            self.questions.append(it)
        else:
            self.ended, self.result, self.used = "return", it, self.used + self.plugin.used

    def answer(self) -> None:
        self.move(answer_of(self.seed, len(self.questions)))

    def disturb(self) -> None:
        """What a host may do meanwhile: other functions run, and can't ask."""
        same("a question while one waits", self.plugin.instance.call("other", 5), -1000)

    def put_away(self, reader: wasm.Module) -> None:
        """Goes on in an instance of another module: the one that begins where this one stands."""
        made, _ = freeze.left_by(reader, self.plugin.instance)
        self.used += self.plugin.used
        self.plugin.close()
        self.plugin = ask.Plugin(Module(freeze.with_globals(wasm.Module(made))), price)
        self.steps = self.plugin.steps("run", *self.words, fuel=self.fuel - self.used, depth=128, resumed=True)
        same("the question that waits", ask.moved(self.steps, None), (True, self.questions[-1]))


def fuzz() -> None:
    """Both forms of plug-ins."""
    native = Native()
    for small in (False, True):
        crowds(native, random.Random(SEED + small), plugin(ASK / "ask.c", HERE / "ask" / "asks.c", small=small), "small, " if small else "")


def crowds(native: Native, rng: random.Random, data: bytes, form: str) -> None:
    """Programs in a crowd of instances, answered in any order: each question once, in its order, none lost; and the result of the native build."""
    reader = wasm.Module(data)
    module = Module(freeze.with_globals(reader))
    crowd: List[Tuple[Running, Tuple[int, List[bytes]]]] = []
    counts = {"return": 0, "spent": 0, "questions": 0, "put away": 0}
    begun = 0
    while begun < PROGRAMS or crowd:
        if begun < PROGRAMS and len(crowd) < WAITING:
            program, seed = bytes(rng.randrange(256) for _ in range(rng.randrange(1, 60))), rng.randrange(1 << 40)
            fuel = rng.randrange(100_000) if rng.random() < 0.2 else AMPLE
            crowd.append((Running(module, program, seed, fuel), native.run(program, seed)))
            begun += 1
        place = rng.randrange(len(crowd))
        one, (result, questions) = crowd[place]
        if one.ended:
            counts[one.ended] += 1
            counts["questions"] += len(one.questions)
            same("the questions", one.questions, questions if one.ended == "return" else questions[:len(one.questions)])
            same("the result and whether it fits the fuel", (one.result, one.used <= one.fuel), (result if one.ended == "return" else None, True))
            one.plugin.close()
            del crowd[place]
        elif rng.random() < 0.02:
            counts["put away"] += 1
            one.put_away(reader)
        elif rng.random() < 0.1:
            one.disturb()
        else:
            one.answer()
    print(f"questions: {form}{PROGRAMS} programs, {counts['questions']} questions, each answered once and in order; {counts['put away']} instances went on "
          f"as another module, {counts['spent']} ran out of fuel")


async def price(question: bytes) -> bytes:
    await asyncio.sleep(0)
    number, = struct.unpack("<i", question)
    return struct.pack("<i", number * 7 % 1000)


def total(articles: int) -> int:
    return sum(it * 7 % 1000 * (it + 1) for it in range(articles))


async def crowd_of(module: Module, count: int) -> int:
    plugins = [ask.Plugin(module, price) for _ in range(count)]
    told = await asyncio.gather(*(it.call("total", 20) for it in plugins))
    same(f"the results of {count} plug-ins", set(told), {total(20)})
    return plugins[0].used


HOST_RUST = r"""
use wasmloop::ask::{Call, Stage};
use wasmloop::{Error, Instance, Module};

fn price(question: &[u8]) -> Option<Vec<u8>> {
    let number = i32::from_le_bytes(question.try_into().ok()?);
    Some((number * 7 % 1000).to_le_bytes().to_vec())
}

/// What a function returns, and how often it asked.
fn called(data: &[u8], name: &str, articles: u64, is_known: bool) -> Result<(i64, u32), Error> {
    let mut plugin = Instance::new(&Module::new(data)?, 1_000_000, 64)?;
    let mut call = Call::new(name, &[articles], 10_000_000, 64);
    let (mut stage, mut questions) = (call.begin(&mut plugin)?, 0);
    loop {
        match stage {
            Stage::Over(ended) => return Ok((ended.results()[0] as i64, questions)),
            Stage::Asks(question) => {
                questions += 1;
                let answer = if is_known { price(&question) } else { None };
                stage = call.answer(&mut plugin, answer.as_deref())?;
            }
        }
    }
}

fn main() -> Result<(), Error> {
    let data = std::fs::read(std::env::args().last().unwrap()).unwrap();
    println!("{:?} {:?} {:?}", called(&data, "total", 20, true)?, called(&data, "total", 3, false)?, called(&data, "estimate", 20, true)?);
    Ok(())
}
"""


def host_in_rust() -> None:
    """A host in Rust on the plug-in in C: all answers, none, and a function that never asks."""
    words = expecting.rustc(OUT)
    if not words:
        print("left out: the host in Rust: there is no rustc")
        return
    (OUT / "asks.rs").write_text(HOST_RUST)
    run(*words, OUT / "asks.rs")
    (OUT / "cart.wasm").write_bytes(plugin(ASK / "ask.c", ASK / "cart.c"))
    same("the host in Rust", run(OUT / "asks", OUT / "cart.wasm").strip(), f"({total(20)}, 20) (-1, 1) ({total(20)}, 0)")


def examples() -> None:
    """The plug-ins of the kit in C and in Rust, by asyncio and by the host in C."""
    run("cc", "-std=c11", "-Wall", "-Wextra", "-Werror", "-g", "-O1", "-fsanitize=address,undefined", "-fno-sanitize-recover", "-I", ASK, "-I",
        TOP / "capi" / "include", "-o", OUT / "host", ASK / "host.c", TOP / "dist" / "libwasmloop.a")
    for language, made in (("C", plugin(ASK / "ask.c", ASK / "cart.c")), ("Rust", in_rust())):
        if made is None:
            print("left out: the plug-in in Rust: there is no rustc with the target wasm32-unknown-unknown")
            continue
        units = asyncio.run(crowd_of(Module(made), 500))
        (OUT / "cart.wasm").write_bytes(made)
        expected = [f"{20 + it} articles: return {total(20 + it)}, {20 + it} questions" for it in range(10)]
        same(f"the host in C on the plug-in in {language}", run(OUT / "host", OUT / "cart.wasm", 500, 20).split("\n")[:-1], expected)
        print(f"questions: 500 plug-ins in {language} waited in one thread, {units / 20:.0f} units a question")


def sentences() -> None:
    """The host in C says what is wrong with its file."""
    (OUT / "cut.wasm").write_bytes((TOP / "examples" / "countdown.wasm").read_bytes()[:30])
    for file, said in ((OUT / "no.wasm", f"{OUT}/no.wasm: No such file or directory\n"),
                       (OUT / "cut.wasm", "byte 30: section 1 declares 31 bytes; bytes left: 20 (cut short? copy or build it again)\n"),
                       (TOP / "examples" / "sha256.wasm", "the module lacks the function total, or those of a plug-in that asks\n")):
        done = subprocess.run([OUT / "host", file, "1", "1"], capture_output=True, check=False, text=True)
        same(f"what the host in C says of {file.name}", (done.returncode, done.stdout, done.stderr), (1, "", said))


def in_rust() -> Optional[bytes]:
    """The plug-in in Rust, by a rustc that has the target: Debian's, or the first in PATH."""
    for rustc in ("/usr/bin/rustc", shutil.which("rustc")):
        words = [*RUST, "-o", str(OUT / "rust.wasm"), str(ASK / "cart.rs")]
        if rustc and Path(rustc).exists() and subprocess.run([rustc, *words], capture_output=True, check=False).returncode == 0:
            return ask.asyncified((OUT / "rust.wasm").read_bytes())
    return None


SILENT = """
#include <stdint.h>
typedef int32_t step(int32_t);
static int32_t once(int32_t it) { return it * 5 + 1; }
static int32_t twice(int32_t it) { return once(once(it)) ^ 3; }
static step *const steps[] = { once, twice };
__attribute__((export_name("run"))) int32_t run(int32_t count) { int32_t it = 1; while (count-- > 0) it = steps[it >> 4 & 1](it); return it; }
"""


def units_of(data: bytes, *calls: Call) -> Tuple[List[object], int]:
    """What the calls return, and the units of the last one."""
    with Module(data).instance() as it:
        return [it.call(name, *words, fuel=AMPLE) for name, words in calls], it.used


def never() -> None:
    """A call that never asks has the units of the same guest without Asyncify if it can't ask, and hardly more if it could."""
    none = OUT / "none.c"
    none.write_text('#include "ask.h"\nint32_t ask(const void *question, uint32_t length, void *answer, uint32_t room)\n'
                    "{\n    (void)question, (void)length, (void)answer, (void)room;\n    return ASK_NONE;\n}\n")
    (OUT / "silent.c").write_text(SILENT)
    know: Call = ("know", [512])
    could = HERE / "ask" / "never.c"
    rows: List[Tuple[str, float, Path, List[Call]]] = [
        ("a guest that names no question, by pointers", 1, OUT / "silent.c", [("run", [1000])]),
        ("a function that leads to none", 1, ASK / "cart.c", [("estimate", [1000])]),
        ("an interpreter that could ask", MOST, could, [("machine", [1000, 0])]),
        ("one that could ask in each loop", MOST, could, [know, ("machine", [1000, 1])]),
        ("a sort by another function than the one that asks", 1.1, could, [know, ("sorted", [0])]),
        ("a sort by the function that asks", 1.25, could, [know, ("sorted", [1])]),
    ]
    for what, most, source, calls in rows:
        (told, units), (known, own) = units_of(plugin(ASK / "ask.c", source), *calls), units_of(ask.optimized(linked(none, source)), *calls)
        same(f"the results of {what}", told, known)
        same(f"whether {what} has at most {most} times the units: {units} for {own}", units <= most * own, True)
        print(f"questions: {what}: {units:,} units, {own:,} without Asyncify: {units / own:.3f}")


def named() -> None:
    """Functions that --never names."""
    with_it = linked(ASK / "ask.c", ASK / "cart.c")
    wrong = ask.asyncified(with_it, "total")
    same("whether --never leaves a function as it is", len(wrong) < len(ask.asyncified(with_it)), True)
    asked = raised(lambda: asyncio.run(ask.Plugin(Module(wrong), price).call("total", 3)))
    same("a function of --never that asks", asked, "total trapped: unreachable, after ")
    other = ask.Plugin(Module(ask.asyncified(with_it, "estimate")), price)
    same("a function that asks beside one of --never", asyncio.run(other.call("total", 20)), total(20))


def typed() -> None:
    """A class that `bind` writes, with methods that are awaited."""
    made = plugin(ASK / "ask.c", HERE / "ask" / "greets.c")
    header = _header.read("greets", "int32_t greet(const char *name, uint32_t name_size, char *into, uint32_t into_room); void *room(uint32_t size);")
    names: Dict[str, Any] = {}
    exec(compile(bind.written(header, asks=True), "greets.py", "exec"), names)

    async def greeting(name: bytes) -> Optional[bytes]:
        await asyncio.sleep(0)
        return None if name == b"nobody" else b"Good day, "

    async def greet(name: str, *room: int) -> object:
        with names["Greets"](Module(made), greeting, deadline=60_000) as it:
            told = it.greet(name, *room)
            other = it.greet("another")
            told, other = await asyncio.gather(told, other, return_exceptions=True)
            same("a call while a question waits", str(other), "the plug-in stands in the middle of a call of greet")
            return told

    greetings: List[Tuple[str, List[int], str]] = [
        ("Ada", [], "Good day, Ada"), ("", [], "Good day, "), ("Ada", [11], "greet has 13 bytes for a room of 11"), ("nobody", [], "greet returned -2")]
    for name, room, told in greetings:
        same(f"the greeting of {name!r} {room}", str(asyncio.run(greet(name, *room))), told)


LIES = """
#include <stdint.h>
#define EXPORT(name) __attribute__((export_name(#name)))
uint32_t long_one[] = { 8, 70000, 8, 8 }, outside[] = { 8, 4, 0xffffff00, 8 }, endless[] = { 8, 4, 8, 8 };
EXPORT(run) void run(void) {}
EXPORT(ask_next) void *ask_next(void) { return KIND; }
EXPORT(ask_answer) int32_t ask_answer(int32_t length) { (void)length; return 0; }
"""


def faults() -> None:
    """What a host is told of plug-ins that lack something, stop, or lie."""
    made = plugin(ASK / "ask.c", ASK / "cart.c")

    async def fails(question: bytes) -> bytes:
        raise KeyError("no database")

    async def silent(question: bytes) -> None:
        return None

    one = ask.Plugin(Module(made), fails)
    same("an exception of the answer", raised(lambda: asyncio.run(one.call("total", 3))), "'no database'")
    same("a call after it", raised(lambda: asyncio.run(one.call("total", 3))), "the plug-in stands in the middle of a call of total")
    same("no answer", asyncio.run(ask.Plugin(Module(made), silent).call("total", 3)), -1)
    outside = "the question is outside the memory, or longer than 65536 bytes"
    for kind, told in (("(void *)0xfffffff0", "start 4294967280 is out of range: expected 0 to 65536"), ("long_one", outside), ("outside", outside),
                       ("endless", "ask_next ran out of fuel, after ")):
        (OUT / "lies.c").write_text(LIES.replace("KIND", kind))
        one = ask.Plugin(Module(linked(OUT / "lies.c")), price)
        same(f"a plug-in that lies: {kind}", raised(lambda: asyncio.run(one.call("run", fuel=1000))), told)
    for deadline in 0, 20:
        one = ask.Plugin(Module(linked(OUT / "lies.c")), price)
        told = raised(lambda: asyncio.run(one.call("run", fuel=AMPLE, deadline=deadline)))
        same("a deadline of a plug-in that asks without end", told.partition(" ")[2], "passed its deadline, after ")
    same("no question to go on with", raised(lambda: ask.moved(ask.Plugin(Module(made), price).steps("total", 3, resumed=True), None)), "no question waits")
    one = ask.Plugin(Module(made), price)
    same("too little fuel", raised(lambda: asyncio.run(one.call("total", 9, fuel=700))), "total ran out of fuel, after ")
    same("the fuel of the whole call", one.used, 700)


def raised(call: Callable[[], object]) -> str:
    try:
        return f"it returned {call()}"
    except (Error, KeyError) as why:
        return str(why).split("after ")[0] + "after " * ("after " in str(why))


def main() -> int:
    for tool in ("clang", "wasm-ld", "cc", "wasm-opt"):
        if not shutil.which(tool):
            print(f"left out: questions: there is no {tool}")
            return 0
    for part in (fuzz, examples, sentences, host_in_rust, never, named, typed, faults):
        part()
    return expecting.wrong != 0


if __name__ == "__main__":
    sys.exit(main())
