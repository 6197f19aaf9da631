"""The tools of the package for Python: lines, record and replay, profile, cover, freeze, log, fuzz.

usage: PYTHONPATH=capi/python WASMLOOP_LIBRARY=LIBRARY desk_test.py PROGRAM OUT [PART..]

The parts are lines, hosts, units, callbacks, covered, warm, log, instances, fuzz and words; default: all. What needs a compiler that isn't
there is left out, and said; desk_hosts.py says what HOSTS and SEED in the environment are.
"""

from __future__ import annotations

import json
import os
import pickle
import random
import re
import shutil
import subprocess
import sys
import warnings
from pathlib import Path
from typing import Callable, Dict, List, Sequence, Tuple

import desk_checks
import desk_guests as guests
import desk_hosts
import desk_profiles
import wasmloop
from desk_checks import EXAMPLES, OUT, bad, same
from expecting import number
from wasmloop import __main__, callbacks, freeze, lines, log, lower, plugin_record, record, replay, runs

REQUESTS = 200


def lines_part() -> None:
    """Each planted trap gets its line: in the guest as it is, stripped, linked with shorter numbers, and lowered."""
    if not (shutil.which("clang") and shutil.which("wasm-ld") and any(map(shutil.which, lines.KNOWN))):
        print("left out: lines: clang, wasm-ld or llvm-symbolizer is missing")
        return
    for language, made in (("C", guests.in_c(OUT, EXAMPLES)), ("Rust", guests.in_rust(OUT, EXAMPLES))):
        if made is None:
            print("left out: lines in Rust: rustc has no wasm32-unknown-unknown")
            continue
        source, variants = made
        wanted = guests.marked(source)
        for name, (ran, debug) in variants.items():
            right = sum(is_right(source.name, *it) for it in traps_of(ran, debug, wanted))
            print(f"lines: {language}, {name}: {right} of {len(wanted)} traps")
            if right != len(wanted):
                bad(f"lines of {language}, {name}")
            if language == "C":
                stopped(source.name, ran, debug, wanted)
    beside()


def stopped(file: str, ran: bytes, debug: bytes, wanted: Dict[int, int]) -> None:
    """What the package raises has the line where the module is given `debug`, and no line elsewhere."""
    with wasmloop.Module(ran, debug) as told, wasmloop.Module(ran) as silent:
        for op, line in list(wanted.items())[::10]:
            given = bytes(range(1, 9)) * 2
            plain, reply = silent.work(op, given), told.work(op, given)
            without = reply._replace(line="", where=re.sub(r" \[[^]]*\]", "", reply.where))
            same(f"the reply of trap {op} without its lines", plain, without)
            same(f"the line of trap {op}", [re.findall(f"{file}:([0-9]+)", it)[:1] for it in (reply.line, reply.where)], [[str(line)]] * 2)
            same(f"the words of trap {op}", [str(ended_by(it)).count(f"{file}:{line}") > 0 for it in (reply, plain)], [True, False])


def ended_by(reply: wasmloop.Reply) -> object:
    """What the value of a reply raises."""
    try:
        return reply.value
    except wasmloop.Stopped as why:
        return pickle.loads(pickle.dumps(why))


def beside() -> None:
    """A debug module beside the file is found, calls of an instance have lines, and what is no debug module is reported."""
    file = guests.built(OUT, EXAMPLES, "parse")
    data = file.read_bytes() if file else sys.exit("clang or wasm-ld is missing")
    alone = OUT / "beside"
    alone.mkdir(exist_ok=True)
    (alone / "it.debug.wasm").unlink(missing_ok=True)
    (alone / "it.wasm").write_bytes(data)
    same("a module without a debug module beside", wasmloop.Module.open(str(alone / "it.wasm")).work(0, b"1/0").line, "")
    (alone / "it.debug.wasm").write_bytes(data)
    line = wasmloop.Module.open(str(alone / "it.wasm")).share().work(0, b"1/0").line
    same("the line by a debug module beside", ("parse.c:" in line, line), (True, lines.Lines(data, data).of(first_byte(data))))
    with wasmloop.Module(data, data).instance() as it:
        why = raised(lambda: it.call("uv_work", 0, fuel=3))
        same("the line of a call", ("parse.c:" in str(why), str(getattr(why, "line", None)) in (it.stop_told(data) or "")), (True, True))
    plain = (EXAMPLES / "crc32.wasm").read_bytes()
    for debug, told in ((b"xyz", "debug: not a WebAssembly module"), (plain, "debug: the module has no DWARF: compile with -g")):
        same("what is said of a debug module", str(raised(lambda: wasmloop.Module(data, debug))), told)


def first_byte(data: bytes) -> int:
    """Where a division by zero stops."""
    with wasmloop.Module(data).job(0, b"1/0") as job:
        return int(lines.PLACE.findall(job.run().stop_told(data) or "")[0])


def raised(call: Callable[[], object]) -> object:
    try:
        return call()
    except (wasmloop.Stopped, ValueError) as why:
        return why


def traps_of(ran: bytes, debug: bytes, wanted: Dict[int, int]) -> List[Tuple[int, int, str, List[Sequence[lines.Frame]]]]:
    """For each trap its sentence, with lines, and the line where it was planted."""
    source, host = lines.Lines(ran, debug), wasmloop.Module(ran)
    found: List[Tuple[int, int, str, List[int]]] = []
    for op, line in wanted.items():
        with host.job(op, bytes(range(1, 9)) * 2) as job:
            outcome = job.run().reply().outcome
            found.append((op, line, outcome, [int(it) for it in lines.PLACE.findall(job.stop_told(ran) or "")]))
            first = runs.byte_of(source.module, job.stop()[0])
            if first != found[-1][3][0]:
                bad(f"trap {op}: byte {first} by its site, {found[-1][3][0]} by its words")
    source.look_up([byte for *_, places in found for byte in places])
    return [(op, line, outcome, source.look_up(places)) for op, line, outcome, places in found]


def is_right(file: str, op: int, line: int, outcome: str, calls: List[Sequence[lines.Frame]]) -> bool:
    """Whether the innermost place in the file, of all calls inside out, is that line; those of a panic lie in other files, or are marked."""
    found = next((at for frames in calls for _, name, at in frames if os.path.basename(name) == file and at not in guests.PANIC), None)
    if found != line:
        print(f"  trap {op} ({outcome}): line {found}, planted in {line}")
    return found == line


def warm_part() -> None:
    """Frozen guests answer as those that weren't."""
    file = guests.built(OUT, EXAMPLES, "warm")
    if file:
        cold, rng = wasmloop.Module(file.read_bytes()), random.Random(5)
        for given, op in ((None, 0), (b"a prelude of some bytes", 1)):
            made, answer, used, _ = freeze.freeze(file.read_bytes(), "init" if given is None else "init_with", given)
            host = wasmloop.Module(made)
            saved = []
            for _ in range(REQUESTS):
                word = bytes(rng.randrange(256) for _ in range(rng.randrange(40)))
                before, after = (it.work(op, word, fuel=10**8) for it in (cold, host))
                same(f"the answer to {word!r}", after[:3], before[:3])
                saved.append(after.used / before.used)
            print(f"warm: {REQUESTS} requests answered alike after {used:,} units of {answer}; a request takes {sum(saved) / REQUESTS:.4f} of its units")
        twice, _, _, _ = freeze.freeze(made)
        same("a module that is frozen twice", twice, made)
    data = guests.with_globals()
    for init, wanted in ((None, 16), ("init", -25)):
        host = wasmloop.Module(freeze.freeze(data, init)[0])
        same(f"globals and memory after {init}", [host.work(op).value - op for op in range(3)], [wanted] * 3)
    constructors()
    tried = 0
    for file in sorted(EXAMPLES.glob("*.wasm")):
        data = file.read_bytes()
        shape = wasmloop.Module(data).shape()
        if shape.work:
            host = wasmloop.Module(freeze.freeze(data)[0])
            for op in range(4):
                before, after = (it.work(op, b"abc") for it in (wasmloop.Module(data), host))
                same(f"{file.name} {op}", after[:3], before[:3])
                tried += 1
    print(f"warm: {tried} requests to examples that were frozen as they are")


def constructors() -> None:
    """Static constructors of C++ run once as the start function of what `cc` builds, and not at all in what is frozen. A memory that no module
    can hold is reported."""
    full = guests.built(OUT, EXAMPLES, "full")
    if not full:
        return
    made = OUT / "statics.wasm"
    subprocess.run([sys.executable, "-m", "wasmloop.cc", Path(__file__).with_name("desk") / "statics.cpp", "-o", made], check=True, capture_output=True)
    cold, warm = wasmloop.Module(made.read_bytes()), wasmloop.Module(freeze.freeze(made.read_bytes())[0])
    for op in range(64):
        before, after = cold.work(op), warm.work(op)
        same(f"square {op}", (before.value, after.value), (3 * op * op + 1,) * 2)
        same("whether a frozen constructor runs", after.used < before.used / 10, True)
    statics_in_rust()
    ran = subprocess.run([sys.executable, "-m", "wasmloop.freeze", full, "--call", "init", "-o", OUT / "f.wasm"], capture_output=True, check=False)
    same("the status of a frozen module that is too large", (ran.returncode, b"1,048,576 is the limit" in ran.stderr), (3, True))


def statics_in_rust() -> None:
    """A static of Rust is frozen as `init` left it, and so is the log."""
    for name in (EXAMPLES / "uv.rs", Path(__file__).with_name("desk") / "statics.rs"):
        shutil.copy(name, OUT)
    made = OUT / "statics_rust.wasm"
    if not guests.rust(OUT / "statics.rs", made):
        print("left out: statics in Rust: rustc has no wasm32-unknown-unknown")
        return
    data = lower.lower(made.read_bytes())[0]
    warm = freeze.freeze(data, "init")[0]
    same("squares in Rust", [wasmloop.Module(warm).work(op).value for op in range(64)], [3 * op * op + 1 for op in range(64)])
    same("squares without init", wasmloop.Module(data).work(5).value, 0)
    same("the frozen log", log.of_request(runs.Request(warm, wasmloop.Module(warm), 4, b""))[0], ["filled", "work"])


def log_part() -> None:
    """The lines that a guest has logged: in a request, in an instance, and in a recorded loop that failed or not."""
    file = guests.built(OUT, EXAMPLES, "logs")
    if not file:
        return
    data = file.read_bytes()
    host = wasmloop.Module(data)
    same("the log of a request", log.of_request(runs.Request(data, host, 4, b""))[0], ["work", "op -4"])
    found, told = log.of_request(runs.Request(data, host, 3, b""))
    same("the log of a request that stopped", (found, "unreachable" in (told or "")), (["work", "op -3"], True))
    with host.instance() as it:
        same("an empty log", log.read(it), [])
        same("a call", it.call("uv_work", 5), 5)
        same("the log of an instance", log.read(it), ["work", "op -5"])
    same("the log of a guest without one", log.read(wasmloop.Module((EXAMPLES / "crc32.wasm").read_bytes()).instance()), [])
    path = str(OUT / "logs.record")
    with record.Loop(host, data, path) as loop:
        ending, emits, _ = record.serve(loop, record.Workers(1), 20)
    same("how the loop ended", (ending, emits), ("failed", list(range(1, 13))))
    rows = replay.rows_of(path)
    lines_ = log.of_callback(callbacks.Callback(rows, callbacks.LAST))
    same("the log of a loop that failed", (lines_[-1], lines_[-2]), ("cannot go on", "tick 12"))
    same("the log of its first callback", log.of_callback(callbacks.Callback(rows, 1)), ["begin"])
    print("log: requests, instances and recorded loops")


def recorded(host: wasmloop.Module, data: bytes, path: str) -> bytes:
    """Records an instance: calls that return, calls in slices, one that traps, one that is given up. Returns the memory before the one that traps."""
    with plugin_record.Instance(host, data, path) as it:
        at = number(it, "place")
        for n in range(21):
            it.memory[at:at + 3] = bytes([n % 3, 1, 1])
            same(f"call {n + 2}", it.call("add", 3), 1000 // (66 - sum(k % 3 + 2 for k in range(n + 1))))
        call = it.begin("spin", 500)
        while not call.run_for(300):
            pass
        it.memory[at:at + 3] = b"\1\1\1"
        before = it.memory[0:len(it.memory)]
        try:
            it.call("add", 3)
            bad("the last call of add returned")
        except wasmloop.Stopped as why:
            same("how it stopped", "division by zero" in str(why), True)
        it.begin("spin", 1 << 20).run_for(1000)
    return before


def instances_part() -> None:
    """A recorded plug-in fails again, at the same call; the module that is written before it stands as it stood."""
    file, path, out = guests.built(OUT, EXAMPLES, "keeps"), str(OUT / "keeps.record"), str(OUT / "keeps_before.wasm")
    if not file:
        return
    data = file.read_bytes()
    before = recorded(wasmloop.Module(data), data, path)
    tool = [sys.executable, "-m", "wasmloop.plugin_record", path]
    ran = subprocess.run(tool, capture_output=True, check=False, encoding="utf-8")
    same("a record that is repeated", (ran.returncode, ran.stdout), (4, "25 calls, 2 did not return\n"))
    for words in "call 24: add(3)", "division by zero", "call 25: spin(1048576)", "after 1000 units":
        same(words, words in ran.stderr, True)
    ran = subprocess.run([*tool, "--before", "24", "-o", out], capture_output=True, check=False, encoding="utf-8")
    same("the module before a call", (ran.returncode, ran.stdout), (0, f"{out} starts before call 24: --call add,3 --fuel 1000000\n"))
    with wasmloop.Module.open(out) as module, module.instance() as it:
        same("its memory", it.memory[0:len(it.memory)] == before, True)
        try:
            it.call("add", 3)
            bad("the call returned in the module before it")
        except wasmloop.Stopped:
            pass
    ran = subprocess.run([*tool, "--before", "26", "-o", out], capture_output=True, check=False, encoding="utf-8")
    same("a call that is not there", (ran.returncode, "--before 26 is not 1 to 25" in ran.stderr), (2, True))
    bytes_recorded((EXAMPLES / "sha256.wasm").read_bytes(), path)
    print("instances: 25 recorded calls are repeated, and a module stands before one of them")


def bytes_recorded(data: bytes, path: str) -> None:
    """Calls with bytes are recorded with them: the last reply is that of the record repeated."""
    with plugin_record.Instance(wasmloop.Module(data), data, path) as it:
        for word in b"first", b"", b"abc":
            it.call_bytes("uv_work", word, 0)
        reply = it.reply
    same("calls with bytes that are repeated", plugin_record.run(replay.rows_of(path, "instance", 5), data).reply, reply)
    same("their last reply", reply, wasmloop.Module(data).work(0, b"abc").data)


def fuzz_part() -> None:
    """The fuzzer finds the planted fault, and the input that it writes repeats it; and an input that costs too much per byte."""
    file = guests.built(OUT, EXAMPLES, "planted")
    if not file or not guests.has_fuzzer():
        print("left out: fuzz: clang or its libFuzzer is missing")
        return
    found, first = Path(f"{file}.found"), b""
    for old in found.parent.glob(found.name + "*"):
        old.unlink()
    rows: List[Tuple[List[str], str]] = [([], "trapped: division by zero"), (["--per-byte", "2"], "units, more than 2 per byte")]
    for words, told in rows:
        ran = subprocess.run([sys.executable, "-m", "wasmloop.fuzz", str(file), "0", "--most", "32", "--seconds", "60", "--seed", "3", *words],
                             capture_output=True, check=False)
        said = (ran.stdout + ran.stderr).decode()
        if ran.returncode != 4 or told not in said:
            bad(f"fuzz {words}: status {ran.returncode}: {said}")
        elif not words:
            same("the finding", wasmloop.Module(file.read_bytes()).work(0, found.read_bytes()).outcome, "trap")
            first = found.read_bytes()
    same("an earlier finding stays", (found.read_bytes(), Path(f"{found}.2").is_file()), (first, True))
    ran = subprocess.run([sys.executable, "-m", "wasmloop.fuzz", str(file), "0", str(OUT / "absent")], capture_output=True, check=False)
    same("a corpus that is not there", (ran.returncode, b"no such folder" in ran.stderr), (1, True))
    print("fuzz: the planted fault, and units per byte")


def misspelt() -> None:
    """A word that is no command and no tool names those that are near."""
    listed = subprocess.run([sys.argv[1], "help"], capture_output=True, check=False).stdout.decode()
    same("the commands", re.findall(r"(?m)^  ([a-z]+)  ", listed), list(__main__.COMMANDS))
    for words, told in (("profil x", "profil is no command and no tool; do you mean profile?"),
                        ("serv x", "serv is no command and no tool; do you mean serve?"),
                        ("recrd", "recrd is no command and no tool; do you mean record?"), ("xyz", "xyz is no command and no tool")):
        ran = subprocess.run([sys.executable, "-m", "wasmloop", *words.split()], capture_output=True, check=False)
        same(words, (ran.returncode, ran.stderr.decode()), (2, f"wasmloop: {told}\n"))


def words_part() -> None:
    """What the tools print, and the status that they end with."""
    crc, tick = EXAMPLES / "crc32.wasm", EXAMPLES / "ticker.wasm"
    (OUT / "request").write_bytes(b"abc")
    (OUT / "no.wasm").write_bytes(b"\0asm\2\0\0\0")
    (OUT / "large").write_bytes(bytes(65537))
    (OUT / "no.record").write_text("{}\n")
    code = Path(tick).read_bytes()
    plain = record.Loop(wasmloop.Module(code), code, str(OUT / "t.record"))
    plain.clock(3)
    plain.turn()
    plain.close()
    (OUT / "cut.record").write_text((OUT / "t.record").read_text()[:-3])
    (OUT / "odd.record").write_text((OUT / "t.record").read_text() + '["start",9,0]\n')
    (OUT / "lies.record").write_text((OUT / "t.record").read_text() + '["cancel",9,5]\n')
    none = str(OUT / "none")
    for words, status, told in (
        *((f"{name} --help", 0, doc) for name, doc in (("cc", "Compiles and links"), ("lower", "Rewrites a module"), ("log", "Prints what a guest has logged"),
                                                       ("fuzz", "Fuzzes the uv_work"))),
        (f"log {crc} 0", 1, "exports no guest_log_ring"),
        (f"lower {crc} {OUT}/l.wasm", 0, "lowered: "), (f"lower {OUT}/no.wasm {OUT}/l.wasm", 3, "cannot be rewritten"),
        ("cc lib.rs", 2, "cargo builds Rust"), (f"fuzz {tick}", 2, "exports no uv_work"), (f"profile {OUT}/t.record --callback 99", 2, "callbacks"),
        ("profile --help", 0, "Shows where the fuel"), ("lines --help", 0, "at byte N"), ("cover --help", 0, "Counts how often"),
        ("record --help", 0, "Records the calls"), ("replay --help", 0, "Runs a record again"), ("freeze --help", 0, "Writes a module that starts where"),
        (f"profile {crc} 0 --in {OUT}/request", 0, "uv_work(0) on 3 bytes: done, "), (f"profile {crc} 0 --budget 3", 1, "budget"),
        (f"profile {crc} 0 --in {OUT}/request --budget uv_work=320 --budget 321", 1, "uv_work: 321 units exceed the budget of 320"),
        (f"profile {crc} 0 --in {OUT}/request --budget uv_work=321 --budget 321", 0, "321 units"),
        (f"profile {crc} 0 --in {OUT}/request --budget uv_work=321 --budget 320", 1, "uv_work(0) on 3 bytes: 321 units exceed the budget of 320"),
        (f"profile {crc} 0 --budget x", 2, "expected [FUNCTION=]UNITS"), (f"profile {crc} 0 --budget none=3", 2, "no function none"),
        (f"profile {none}", 1, "No such file"), (f"profile {OUT}/no.wasm", 3, "byte 4"), (f"profile {crc} --call none", 2, "none"),
        (f"profile {crc} --call uv_work", 2, "takes 1 arguments, got 0"), (f"profile {crc} --call uv_work,x", 2, "expected NAME,NUMBER.."),
        (f"profile {tick}", 2, "exports no uv_work"), (f"profile {crc} 0 --depth 0", 2, "expected 1 to 128"),
        (f"profile {crc} 0 --in {none}", 1, "No such file"), (f"profile {crc} 0 --svg {OUT}/none/x", 1, "No such file"),
        (f"profile {crc} 0 --in {OUT}/request --fuel 50", 4, "ran out of fuel"),
        (f"profile {EXAMPLES}/endless.wasm --call uv_main", 4, "exceeded the call-depth limit of 64"),
        (f"profile {crc} 0 --threads 0", 2, "expected 1 or more, found 0"), (f"profile {crc} 0 --in {OUT}/large", 2, "expected 0 to 65536"),
        (f"lines {OUT}/whole/traps.wasm -- {OUT}/none", 1, "No such file"),
        (f"lines {crc}", 1, "has no DWARF"), ("lines", 2, "usage"), (f"cover {crc} 0 {OUT}/request", 0, "1 of 1 functions ran"),
        (f"cover {crc} 0 {OUT}/request --lcov -", 1, "has no lines"), (f"replay {OUT}/no.record", 1, "is not a record"),
        (f"replay {none}", 1, "No such file"),
        (f"replay {OUT}/t.record", 0, "loop 0 run main 0 return used"), (f"replay {OUT}/cut.record", 0, "clock 0 3"),
        (f"replay {crc}", 1, "not a line of a record"),
        (f"replay {OUT}/odd.record", 1, "is not possible here"), (f"replay {OUT}/lies.record", 1, "was 5, and now is -22"),
        (f"record {tick} -o {OUT}/u.record", 0, "loop 0 over emits"), (f"record {tick} -o {OUT}/v.record --fuel 1", 4, "ran out of fuel"),
        (f"freeze {crc} -o {OUT}/f.wasm", 0, "units saved"), (f"freeze {crc} -o {OUT}/f.wasm --call none", 2, "no function none"),
        (f"freeze {crc} -o {OUT}/f.wasm --call uv_work", 2, "uv_work takes 1 arguments, expected 0"),
        (f"freeze {crc} -o {OUT}/f.wasm --in {none}", 2, "needs --call"),
        (f"freeze {tick} -o {OUT}/f.wasm --call uv_main", 0, "it called uv.timer_"),
        (f"record {crc} -o {OUT}/w.record", 0, "warning: the module has no start function and exports no uv_main, so its loops run nothing\n"),
    ):
        ran = subprocess.run([sys.executable, "-m", *f"wasmloop.{words}".split()], stdin=subprocess.DEVNULL, capture_output=True, check=False)
        said = (ran.stdout + ran.stderr).decode()
        if ran.returncode != status or told not in said or "Traceback" in said:
            bad(f"wasmloop.{words}: status {ran.returncode}: {said}")
    misspelt()
    same("the tools", "profile" in subprocess.run([sys.executable, "-m", "wasmloop"], capture_output=True, check=False).stdout.decode(), True)
    steps: List[str] = []
    stepper = replay.Stepper(replay.rows_of(str(OUT / "v.record")), steps.append)
    for letters in ("n", "n", "b", "c", "w", "g 2", "b", "b", "?"):
        stepper.obey(letters.split())
    same("the steps", [it.split(":")[0] for it in steps if " of " in it[:12]], ["2 of 3", "3 of 3", "2 of 3", "3 of 3", "2 of 3", "1 of 3", "1 of 3"])
    short = record.Loop(wasmloop.Module(code), code, str(OUT / "short.record"), most=3 * len(code))
    for ms in range(99):
        short.clock(ms)
    short.close()
    again = replay.Replay(replay.rows_of(str(OUT / "short.record")))
    while again.next():
        pass
    same("a record that is full", (again.full, again.at < 99), (True, True))
    same("where it failed", sum("ran out of fuel" in it for it in steps), 3)
    same("the script", json.loads(replay.script_of(replay.rows_of(str(OUT / "u.record"))))["workers"], 16)
    print("words: statuses, messages and steps")


PARTS = {
    "lines": lines_part, "hosts": desk_hosts.hosts_part, "units": desk_profiles.units_part, "callbacks": desk_profiles.callbacks_part,
    "covered": desk_profiles.covered_part, "warm": warm_part, "log": log_part, "instances": instances_part, "fuzz": fuzz_part, "words": words_part,
}


def main() -> int:
    warnings.simplefilter("ignore", wasmloop.InertImports)      # (as the tools do)
    OUT.mkdir(parents=True, exist_ok=True)
    for part in sys.argv[3:] or PARTS:
        PARTS[part]()
    print("desk: " + (f"{len(desk_checks.found)} failures" if desk_checks.found else "no failures"))
    return 1 if desk_checks.found else 0


if __name__ == "__main__":
    sys.exit(main())
