"""The library against the program: random modules, work requests, and right and wrong calls of the package wasmloop.

usage: calls_test.py EXAMPLES PROGRAM [COUNT]
"""

from __future__ import annotations

import copy
import io
import pickle
import random
import subprocess
import sys
import tempfile
import time
from concurrent.futures import ThreadPoolExecutor
from pathlib import Path
from typing import Callable, Dict, List, Tuple

import wasmloop
from expecting import of_other_type
from wasmloop import _abi, bind

EXAMPLES, PROGRAM = Path(sys.argv[1]), sys.argv[2]
COUNT = int(sys.argv[3]) if len(sys.argv) > 3 else 300
# what is printed, and what is said
Answer = Tuple[str, str]


def same(got: object, wanted: object) -> None:
    if got != wanted:
        sys.exit(f"{got!r} is not {wanted!r}")


def refused(make: Callable[[], object], status: int) -> wasmloop.Error:
    try:
        make()
    except wasmloop.Error as error:
        same(error.status, status)
        return error
    sys.exit(f"nothing was refused with {status}")


def fault_line(fault: wasmloop.Fault) -> str:
    stage = ["", "decode", "validate", "link"][fault.stage]
    return f"{stage} {fault.code} {_abi._lib.wasmloop_fault_name(fault.stage, fault.code).decode()}\n"


def by_library(data: bytes, op: int, word: bytes) -> Answer:
    """What `wasmloop work` prints, by the library."""
    try:
        module = wasmloop.Module(data)
        reply = module.work(op, word)
    except wasmloop.Refused as error:
        return fault_line(error.fault), f"{error}\n"
    except wasmloop.Error as error:
        same(error.status, wasmloop.NO_WORK)
        return "no function uv_work\n", ""
    if reply.outcome == "done":
        return f"done {reply.value} bytes {len(reply.data)}{' ' if reply.data else ''}{reply.data.hex()}\n", ""
    return (f"trap {reply.number}\n" if reply.outcome == "trap" else f"{reply.outcome}\n"), ""


def by_program(file: Path, data: bytes, op: int, word: bytes) -> Answer:
    file.write_bytes(data)
    ran = subprocess.run([PROGRAM, "work", file, str(op), word.hex()], capture_output=True, check=False)
    if ran.returncode == 2:
        # (behind it stands what there is)
        return ran.stderr.decode().splitlines(keepends=True)[0], ""
    return ran.stdout.decode(), ran.stderr.decode() if ran.returncode == 3 else ""


def changed(data: bytes, rng: random.Random) -> bytes:
    data = bytearray(data)
    for _ in range(rng.choice([0, 1, 1, 2, 4])):
        data[rng.randrange(len(data))] = rng.randrange(256)
    return bytes(data)


def compare(count: int) -> Dict[str, int]:
    rng = random.Random(1)
    answers: Dict[str, int] = {}
    modules = [it.read_bytes() for it in sorted(EXAMPLES.glob("*.wasm"))]
    asked = [(changed(rng.choice(modules), rng), rng.randrange(4), rng.randbytes(rng.choice([0, 3, 64]))) for _ in range(count)]
    with tempfile.TemporaryDirectory() as folder, ThreadPoolExecutor(2) as pool:
        told = pool.map(lambda it: by_program(Path(folder, str(it[0])), *it[1]), enumerate(asked))
        for it, wanted in zip(asked, told):
            got = by_library(*it)
            same(got, wanted)
            answers[wanted[0].split()[0]] = answers.get(wanted[0].split()[0], 0) + 1
    return answers


def calls() -> None:
    same(wasmloop.version(), subprocess.run([PROGRAM, "--version"], capture_output=True, text=True, check=True).stdout.split()[1])
    data = (EXAMPLES / "crc32.wasm").read_bytes()
    refused(lambda: wasmloop.Module(b"no module"), wasmloop.REFUSED)
    module = wasmloop.Module(data)
    same((module.shape().work, module.shape().after_work), (1, 0))
    same(module.warnings, [])
    (warning,) = wasmloop.Module(b"\0asm\1\0\0\0").warnings
    same(warning.startswith("the module exports none of uv_main"), True)
    same((module.shape().pages, module.shape().most_pages > 1), (2, True))
    refused(lambda: module.work(0, bytes(65_537)), wasmloop.RANGE)
    refused(lambda: module.work(0, b"", depth=129), wasmloop.RANGE)
    same(module.job(0, b"abc").input(), b"abc")
    job = module.job(0, b"abc", fuel=3).run()
    same((job.reply().outcome, job.reply().used, len(job.stop())), ("spent", 3, 1))
    (site,), (place,) = job.stop(), job.stop_places()
    same((place.function, place.instruction), (site[0] + module.shape().imports, site[1]))
    told = job.stop_told(data) or ""
    same((told.startswith(f"in function {place.function}"), f"instruction {site[1]} (" in told, told.endswith(f" at byte {place.byte}")), (True, True, True))
    refused(lambda: job.stop_told(data[:-1]), wasmloop.REFUSED)
    job = module.job(0, b"abc").run()
    same((job.reply().outcome, job.reply().used > 3, job.stop()), ("done", True, []))
    refused(lambda: module.job(0)._reply(), wasmloop.NONE)
    module.close()
    refused(lambda: module.work(0), wasmloop.EMPTY)
    with wasmloop.Module((EXAMPLES / "digest.wasm").read_bytes()) as asking, wasmloop.Loop(asking) as loop:
        while loop.step().what != wasmloop.RAN:
            pass
        standing = loop.standing()
        same((standing.alive, standing.failed, standing.outstanding), (1, 0, 4))
        with asking.instance() as instance:
            same((len(loop.memory), loop.memory[:0], loop.stop_places()), (len(instance.memory), b"", []))
        refused(lambda: loop.value("nothing"), wasmloop.NONE)
        with wasmloop.Loop(asking, number=1) as other:
            asked = loop.next_job() or sys.exit("no job waits")
            same((other.start(asked), loop.start(asked), loop.start(asked)), (False, True, False))
        with wasmloop.Loop(asking) as other:
            same(other.accept(asked.run()), False)
        for wrong in (lambda: loop.send(16), lambda: loop.clock(-1), lambda: loop.cancel(2**32), lambda: loop.turn(0)):
            refused(wrong, wasmloop.RANGE)
        turned = loop.turn()
        same((turned.did.what, turned.did.phase), (wasmloop.ENTERED, wasmloop.TIMERS))
        same((loop.request(0, b"abc"), loop.request(0, bytes(65_537)), loop.stop_told(b"")), (5, -22, None))
        refused(lambda: loop.request(2**32), wasmloop.RANGE)
    refused(lambda: loop.request(0), wasmloop.EMPTY)
    calls_with_bytes((EXAMPLES / "sha256.wasm").read_bytes())
    loops_in_slices((EXAMPLES / "digest.wasm").read_bytes())


def calls_with_bytes(data: bytes) -> None:
    """uv_work of a kept instance, with bytes, is the job."""
    with wasmloop.Module(data) as module, module.instance() as it:
        same(it.reply, b"")
        for word in b"abc", b"", bytes(65_536), bytearray(b"abcd"):
            job = module.work(0, word, fuel=10**8)
            same((it.call_bytes("uv_work", word, 0, fuel=10**8), it.reply, it.used), (job.value, job.data, job.used))
        refused(lambda: it.call_bytes("uv_work", bytes(65_537), 0), wasmloop.RANGE)
        refused(lambda: it.call_bytes("absent", b""), wasmloop.NONE)
        same(len(it.reply), 32)
        same(getattr(refused(lambda: it.call_bytes("uv_work", b"abc", 0, fuel=3), wasmloop.OK), "ending", ""), "spent")
        same(it.reply, b"")


def loops_in_slices(data: bytes) -> None:
    """Steps and turns in slices are those without."""
    def fields(did: wasmloop.Did) -> List[object]:
        return [getattr(did, name) for name, *_ in did._fields_]

    with wasmloop.Module(data) as module, wasmloop.Loop(module) as whole, wasmloop.Loop(module) as cut:
        slices = 0
        for _ in range(8):
            wanted = whole.step()
            while not (did := cut.step_for(7)):
                slices += 1
            same((fields(did), cut.emits(), cut.memory[:]), (fields(wanted), whole.emits(), whole.memory[:]))
        turn = whole.turn()
        while not (turned := cut.turn_for(7)):
            same(cut.turned.wait, 0)
        same((fields(turned.did), turned.wait, turned.callbacks), (fields(turn.did), turn.wait, turn.callbacks))
        same(slices > 2, True)


def said(call: Callable[[], object]) -> str:
    """The class of what is raised, and its text."""
    try:
        call()
    except Exception as error:
        told = pickle.loads(pickle.dumps(error))
        same((type(told), str(told)), (type(error), str(error)))
        return f"{type(error).__name__}: {error}"
    sys.exit("nothing was raised")


def wrong_words() -> int:
    """Wrong types, numbers out of range and calls in the wrong state: one sentence each."""
    module = wasmloop.Module((EXAMPLES / "crc32.wasm").read_bytes())
    loop, job, plugin, busy = wasmloop.Loop(module), module.job(0, b"abc"), module.instance(), module.instance()
    stepping = wasmloop.Loop(wasmloop.Module((EXAMPLES / "digest.wasm").read_bytes()))
    says_paused = "Error: a callback is paused: continue it with step_for or turn_for"
    same((stepping.turn_for(1), stepping.step_for(1)), (None, None))
    spent, paused = module.job(0, b"abc", fuel=3).run(), module.job(0, b"abc")
    same((paused.run_for(1), busy.begin("uv_work", 0).run_for(1)), (False, False))
    same((len(paused.stop()), len(busy.stop()), len(busy.stop_places()), len(busy.memory)), (1, 1, 1, len(plugin.memory)))
    most = 2**64 - 1
    wanted: List[Tuple[Callable[[], object], str]] = [
        (lambda: module.work(0, of_other_type("abc")), "TypeError: expected bytes, got str: encode it, as text.encode()"),
        (lambda: module.work(0, of_other_type(5)), "TypeError: expected bytes, got int"),
        (lambda: module.work(0, of_other_type([1, 2])), "TypeError: expected bytes, got list"),
        (lambda: module.work(of_other_type(0.5)), "TypeError: op: expected a whole number, got float"),
        (lambda: module.work(2**32), f"OutOfRange: op {2**32} is out of range: expected -2147483648 to 4294967295"),
        (lambda: module.work(0, fuel=-1), f"OutOfRange: fuel -1 is out of range: expected 0 to {most}"),
        (lambda: module.work(0, fuel=2**64 + 5), f"OutOfRange: fuel {2**64 + 5} is out of range: expected 0 to {most}"),
        (lambda: module.work(0, depth=0), "OutOfRange: depth 0 is out of range: expected 1 to 128"),
        (lambda: module.work(0, bytes(65_537)), "OutOfRange: length 65537 is out of range: expected 0 to 65536"),
        (lambda: wasmloop.Module(of_other_type("x")), "TypeError: expected the bytes of a module, got str: if it is a path, pass open('x', 'rb').read()"),
        (lambda: wasmloop.Module(b"x"), "Refused: byte 0: the bytes don't begin with 00 61 73 6d: a text file (give the module that wasm-ld wrote)"),
        (lambda: wasmloop.Module(b"\0"), "Refused: byte 1: unexpected end of data (cut short? copy or build it again)"),
        (lambda: wasmloop.Module(b""), "Refused: byte 0: the module is empty (build it again)"),
        (lambda: wasmloop.Module(of_other_type(io.BytesIO())), "TypeError: expected bytes, got BytesIO: pass its read()"),
        (lambda: copy.copy(module), "TypeError: cannot copy this module: it has one owner; a module's share() gives a second handle"),
        (lambda: wasmloop.Loop(of_other_type(3)), "TypeError: expected a Module, got int"),
        (lambda: wasmloop.Loop(module, number=-1), "OutOfRange: number -1 is out of range: expected 0 to 4294967295"),
        (lambda: loop.accept(of_other_type(None)), "TypeError: expected a Job, got NoneType"),
        (lambda: loop.send(of_other_type("1")), "TypeError: number: expected a whole number, got str"),
        (lambda: loop.turn(0), "OutOfRange: most 0 is out of range: expected 1 to 4294967295"),
        (stepping.step, says_paused),
        (stepping.turn, says_paused),
        (stepping.standing, says_paused),
        (lambda: stepping.memory[:], says_paused),
        (lambda: stepping.accept(spent), says_paused),
        (lambda: stepping.start(job), says_paused),
        (lambda: stepping.step_for(0), f"OutOfRange: units 0 is out of range: expected 1 to {most}"),
        (lambda: stepping.turn_for(1, 0), "OutOfRange: most 0 is out of range: expected 1 to 4294967295"),
        (lambda: job.run_for(0), f"OutOfRange: units 0 is out of range: expected 1 to {most}"),
        (job.reply, "Error: the job has not run yet"),
        (lambda: job.reply_into(bytearray(1)), "Error: the job has no reply: it has not run yet"),
        (lambda: spent.reply_into(bytearray(1)), "Error: the job has no reply: it ran out of fuel"),
        (spent.run, "Error: the job has already run"),
        (lambda: loop.accept(job), "Error: the job has not run yet"),
        (paused.reply, "Error: the job is paused: continue it with run_for"),
        (lambda: busy.call("uv_work", 0), "Error: a call is in progress"),
        (lambda: busy.memory.__setitem__(slice(0, 1), b"x"), "Error: a call is in progress"),
        (lambda: loop.memory.__setitem__(slice(0, 1), b"x"), "Error: the memory of a loop can only be read"),
        (lambda: module.instance().call("uv_work", 0, fuel=1), "Stopped: uv_work ran out of fuel, after 1 unit"),
        (lambda: job.reply_into(of_other_type(b"abc")), "TypeError: expected a writable buffer, got bytes"),
        (lambda: plugin.call("nothing"), "Error: no function is exported as 'nothing': the module exports uv_work"),
        (lambda: plugin.call("uv_work\0", 0), r"Error: no function is exported as 'uv_work\x00'"),
        (lambda: plugin.call(of_other_type(3)), "TypeError: name: expected a str, got int"),
        (lambda: plugin.call("uv_work"), "TypeError: uv_work takes 1 argument, got 0"),
        (lambda: plugin.call("uv_work", 2**32), f"OutOfRange: argument 1 (i32) {2**32} is out of range: expected -2147483648 to 4294967295"),
        (lambda: plugin.memory[-1:3], "OutOfRange: start -1 is out of range: expected 0 to 131072"),
        (lambda: plugin.memory[of_other_type(3)], "TypeError: read and write memory by slices, as memory[at:at + n]"),
        (lambda: pickle.dumps(module), "TypeError: cannot pickle this module: pickle the bytes of the module, and load them at the other end"),
    ]
    for call, words in wanted:
        same(said(call), words)
    same(repr([module, loop, job, plugin]), "[<Module: uv_work, 3 imports, 2 pages>, <Loop: nothing to do, 0 requests outstanding>, "
         "<Job: op 0, not run>, <Instance: 131072 bytes of memory>]")
    same(repr(stepping), "<Loop: a callback is paused: continue it with step_for or turn_for>")
    room, other = bytearray(6), module.share()
    same((job.run().reply_into(room), bytes(room)), (4, b"\x35\x24\x41\xc2\0\0"))
    module.close()
    same((repr(module), other.work(0, bytearray(b"abc")).value), ("<Module: closed>", 891568578))
    same(said(module.shape), "Error: the module is closed")
    return len(wanted)


# spin() adds 1 to the global g for ever, count() returns it, and uv_work spins.
SPINS = bytes.fromhex("0061736d01000000 010d 03 600000 6000017f 60017f017f 0304 03 000102 0606 01 7f0141000b"
                      "071e 04 047370696e0000 05636f756e740001 0775765f776f726b0002 01670300"
                      "0a1e 03 0e 00034023004101 6a24000c000b0b 04 0023000b 08 0003400c000b000b")


def late(call: Callable[[], object], most: float) -> wasmloop.Late:
    """The error of a call that is late, within so many seconds."""
    began = time.monotonic()
    try:
        call()
    except wasmloop.Late as error:
        told = pickle.loads(pickle.dumps(error))
        same((str(told), told.used, told.where, told.ending), (str(error), error.used, error.where, "late"))
        same(time.monotonic() - began < most, True)
        return error
    sys.exit("the call is not late")


def where_it_stopped(module: wasmloop.Module) -> None:
    """A reply has the backtrace of a job that did not return, and none else."""
    with wasmloop.Module((EXAMPLES.parent / "hosts" / "guest" / "rules.wasm").read_bytes()) as rules:
        for op, outcome in ((0, "done"), (1, "spent"), (2, "trap"), (6, "depth")):
            job = rules.job(op, b"abc")
            reply = job.run().reply()
            same((reply.outcome, reply.where, reply.where != "", reply), (outcome, job.stop_told() or "", outcome != "done", rules.work(op, b"abc")))
    same(module.work(0, fuel=1000).where[:13], "in function 2")


def deadlines() -> None:
    """What takes longer than its deadline is late, and leaves what a call with just the fuel used leaves; its instance lives on."""
    with wasmloop.Module(SPINS) as module, module.instance() as it, module.instance() as other:
        same(module.exports, [("spin", "function", ([], [])), ("count", "function", ([], [32])), ("uv_work", "function", ([32], [32])), ("g", "global", None)])
        same(list(bind.callable_in(module)), ["spin()", "count() -> i32", "uv_work(i32) -> i32"])
        same(said(lambda: it.call("c\n")), r"Error: no function is exported as 'c\n': the module exports spin, count, uv_work")
        for deadline in (0, 20, 0.5):
            why = late(lambda: it.call("spin", fuel=2**62, deadline=deadline), 5)
            same((why.used == it.used, why.used > 0, why.where, str(why)),
                 (True, True, it.stop_told(), f"spin passed its deadline, after {why.used} units, {why.where}"))
            same((why.where.startswith("in function 0"), why.text), (True, f"deadline passed, after {why.used:,} units"))
            refused(lambda: other.call("spin", fuel=why.used), wasmloop.OK)
            same((it.value("g"), it.stop(), it.call("count")), (other.value("g"), other.stop(), other.value("g")))
        same((it.call("count", deadline=10_000), it.call("count", deadline=float("inf"))), (other.value("g"),) * 2)
        reply = module.work(0, fuel=2**62, deadline=5)
        same((reply[:3], reply.used > 0, reply.where[:13]), (("late", 0, b""), True, "in function 2"))
        same(late(lambda: reply.value, 1).used, reply.used)
        where_it_stopped(module)
        same((module.work(0, fuel=1000, deadline=10_000).outcome, wasmloop.work(SPINS, 0, fuel=2**62, deadline=0).outcome), ("spent", "late"))
        same(said(lambda: it.call("count", deadline=-1)), "OutOfRange: deadline -1 is out of range: expected 0 or more")
        same(said(lambda: it.call("count", deadline=float("nan"))), "OutOfRange: deadline nan is out of range: expected 0 or more")
        same(said(lambda: module.work(0, deadline=of_other_type("5"))), "TypeError: deadline: expected a number of milliseconds, got str")
        same(said(lambda: it.call("spin", fuel=1, deadline=10_000)), "Stopped: spin ran out of fuel, after 1 unit")


def texts() -> None:
    """How runs ended, and what a status says."""
    with wasmloop.Module(SPINS) as module, module.instance() as it, module.job(0, fuel=1_234_567) as job:
        same((job.text(), job.run().text()), ("not over yet, after 0 units", "out of fuel, after 1,234,567 units"))
        same((job.stop_told(), job.stop_told(SPINS)), (job.stop_told(SPINS), job.stop_told()))
        refused(lambda: job.stop_told(b""), wasmloop.REFUSED)
        try:
            it.call("spin", fuel=1000)
        except wasmloop.Stopped as why:
            same((why.text, why.name), ("out of fuel, after 1,000 units", "OK"))
        same([str(wasmloop.Error(it)) for it in (wasmloop.MEMORY, wasmloop.EMPTY)], ["an allocation failed", "the object is closed"])
        same((wasmloop.Error(wasmloop.NO_WORK).name, wasmloop.Error(99).name), ("NO_WORK", None))


calls()
deadlines()
texts()
print(f"{wrong_words()} wrong words are refused, each with its sentence")
print(f"{COUNT} random modules answer as the program: {compare(COUNT)}")
