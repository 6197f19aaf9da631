#!/usr/bin/env python3
"""Runs a small guest for each rule of docs/LOOP.md, and compares what its log says with the rule.

    trials/loop/run.py PROGRAM

A rule is a sentence, a guest in C on examples/uv.h, a list of steps for examples/script.py, and what its log must say:
all lines of the kinds that are given, in order, without `used N`.
"""

from __future__ import annotations

import os
import pathlib
import re
import subprocess
import sys
import tempfile
from typing import List, Tuple

HERE = pathlib.Path(__file__).resolve().parent
EXAMPLES = HERE.parents[1] / "examples"
RULES: List[Tuple[str, str, str, str, int, str, int, int, str]] = []


def rule(sentence: str, guest: str, steps: str, log: str, workers: int = 0, loops: str = "g.wasm", fuel: int = 100000, work_fuel: int = 100000,
         clang: str = "") -> None:
    RULES.append((sentence, guest, steps, log, workers, loops, fuel, work_fuel, clang))


def kind(line: str) -> str:
    """`loop run`, `loop enter`, `post` and so on."""
    words = line.split()
    return " ".join(words[0:3:2]) if words[0] == "loop" else words[0]


def run(folder: pathlib.Path, program: str, number: int) -> bool:
    sentence, guest, steps, log, workers, loops, fuel, work_fuel, clang = RULES[number]
    if guest.startswith("(module"):
        (folder / "g.wat").write_text(guest)
        subprocess.run(["wat2wasm", "-o", folder / "g.wasm", folder / "g.wat"], check=True)
    else:
        (folder / "g.c").write_text('#include "uv.h"\n' + guest)
        subprocess.run(["sh", EXAMPLES / "build.sh", folder / "g"], env={**os.environ, "CFLAGS": f"-w {clang}"}, check=True)
    head = f"loops {loops}\nworkers {workers}\nfuel {fuel}\nwork_fuel {work_fuel}\n"
    (folder / "g.steps").write_text(head + steps)
    make = [sys.executable, str(EXAMPLES / "script.py"), str(folder / "g.steps")]
    (folder / "g.json").write_bytes(subprocess.run(make, capture_output=True, check=True).stdout)
    ran = subprocess.run([program, "script", folder / "g.json"], capture_output=True, text=True)
    said = [re.sub(r" used \d+", "", line) for line in ran.stdout.splitlines()]
    wanted = log.splitlines()
    kinds = {kind(line) for line in wanted}
    got = [line for line in said if kind(line) in kinds]
    if got == wanted:
        return True
    print(f"NOT SO: {sentence}\n  wanted {wanted}\n  got    {got}\n  all    {said} {ran.stderr}")
    return False


# What most guests say: the handle or the number that they were given.
SAY = "static void say(int32_t h) { uv_emit(h); }\n"

# One request on its way from the loop to worker 0 and back.
JOB = "post 0\ntake 0\nstart 0\nfinish 0\ncollect 0\n"
STARTED = """(module
  (import "uv" "emit" (func $emit (param i64) (result i32)))
  (import "uv" "queue_work" (func $ask (param i32 i32 i32) (result i32)))
  (import "uv" "now" (func $now (result i64)))
  (global $n (mut i32) (i32.const 0))
  (func $first (global.set $n (i32.add (global.get $n) (i32.const 40))) (drop (call $emit (call $now))))
  (start $first)
  (func (export "uv_main")
    (drop (call $emit (i64.extend_i32_s (global.get $n)))) (drop (call $ask (i32.const 2) (i32.const 0) (i32.const 0))))
  (func (export "uv_work") (param i32) (result i32) (i32.add (local.get 0) (global.get $n)))
  (func (export "uv_after_work") (param i32 i32 i32)
    (drop (call $emit (i64.extend_i32_s (local.get 1)))) (drop (call $emit (i64.extend_i32_s (local.get 2))))))"""
rule("Begin runs the start function and then uv_main. A work function's instance has its own start function run first.",
     STARTED, "loop 0 x 2\n" + JOB + "loop 0 x 4\n",
     "loop 0 run start 0 return emit 0\nloop 0 run main 0 return emit 40\nloop 0 run after 1 return emit 0 42",
     workers=1)
rule("The start function and uv_work share the fuel of a request.",
     STARTED, "loop 0 x 2\n" + JOB + "loop 0 x 4\n",
     "loop 0 run start 0 return emit 0\nloop 0 run main 0 return emit 40\nloop 0 run after 1 return emit 3 0",
     workers=1,
     work_fuel=9)
rule("A module without uv_main and without a start function is over at once.", "int unused;", "loop 0\n", "loop 0 over")
rule("The phases are timers, idle, poll, check and closing, and again from timers.",
     SAY + "UV_MAIN() { uv_async_init(say); }", "loop 0 x 8\n",
     "loop 0 enter timers 0\nloop 0 enter idle 0\nloop 0 enter poll 0\nloop 0 enter check 0\nloop 0 enter closing 0\n"
     "loop 0 enter timers 0")
rule("now is 0 in uv_main, though the clock was raised before; it is the clock from the next timers phase on.",
     SAY + "static void now(int32_t h) { (void)h; uv_emit((int64_t)uv_now()); }"
     "UV_MAIN() { now(0); int32_t i = uv_idle_init(); uv_idle_start(i, now); }",
     "clock 0 7\nloop 0 x 2\nclock 0 9\nloop 0 x 2\nloop 0 x 3\nloop 0\nloop 0 x 2",
     "loop 0 run main 0 return emit 0\nloop 0 run idle 0 return emit 7\nloop 0 run idle 0 return emit 9")
rule("The clock is raised and never lowered.", SAY + "UV_MAIN() { uv_async_init(say); }", "clock 0 9\nclock 0 5\n",
     "clock 0 9\nclock 0 9")
rule("A timer is due at the cached now + timeout, whatever the clock is.",
     SAY + "static void now(int32_t h) { (void)h; uv_emit((int64_t)uv_now()); }"
     "UV_MAIN() { int32_t t = uv_timer_init(); uv_timer_start(t, now, 10, 0); }",
     "clock 0 100\nloop 0 x 3\n", "loop 0 run main 0 return\nloop 0 run timer 0 return emit 100")
rule("Timers run by due moment, then in the order in which they were started.",
     SAY + "UV_MAIN() { int32_t a = uv_timer_init(), b = uv_timer_init(), c = uv_timer_init();"
     "uv_timer_start(c, say, 20, 0); uv_timer_start(b, say, 10, 0); uv_timer_start(a, say, 10, 0); }",
     "loop 0\nclock 0 50\nloop 0 x 4\n",
     "loop 0 run main 0 return\nloop 0 run timer 1 return emit 1\nloop 0 run timer 0 return emit 0\n"
     "loop 0 run timer 2 return emit 2")
rule("Idles and checks run in the order in which they were started.",
     SAY + "UV_MAIN() { int32_t a = uv_idle_init(), b = uv_idle_init(); uv_idle_start(b, say); uv_idle_start(a, say);"
     "int32_t c = uv_check_init(), d = uv_check_init(); uv_check_start(d, say); uv_check_start(c, say); }",
     "loop 0 x 9\n", "loop 0 run main 0 return\nloop 0 run idle 1 return emit 1\nloop 0 run idle 0 return emit 0\n"
     "loop 0 run check 3 return emit 3\nloop 0 run check 2 return emit 2")
rule("Closing handles run in the order of their closing.",
     SAY + "UV_MAIN() { int32_t a = uv_idle_init(), b = uv_timer_init(), c = uv_async_init(say);"
     "uv_close(b, say); uv_close(c, say); uv_close(a, say); }", "loop 0 x 9\nloop 0\n",
     "loop 0 run main 0 return\nloop 0 run close 1 return emit 1\nloop 0 run close 2 return emit 2\n"
     "loop 0 run close 0 return emit 0\nloop 0 over")
rule("What starts in a phase waits for the next one of its kind: timers.",
     SAY + "static void more(int32_t h) { uv_timer_start(h, say, 0, 0); uv_timer_start(uv_timer_init(), say, 0, 0); }"
     "UV_MAIN() { uv_timer_start(uv_timer_init(), more, 0, 0); }", "loop 0 x 3\nloop 0 x 4\nloop 0 x 3\n",
     "loop 0 run main 0 return\nloop 0 enter timers 0\nloop 0 run timer 0 return\nloop 0 enter idle 0\n"
     "loop 0 enter poll 0\nloop 0 enter check 0\nloop 0 enter closing 0\nloop 0 enter timers 0\n"
     "loop 0 run timer 0 return emit 0\nloop 0 run timer 1 return emit 1")
rule("What starts in a phase waits for the next one of its kind: idles, checks, asyncs and closing handles.",
     SAY + "static void idle(int32_t h) { uv_idle_stop(h); uv_idle_start(uv_idle_init(), say); }"
     "static void check(int32_t h) { uv_check_stop(h); uv_check_start(uv_check_init(), say); }"
     "static void made(int32_t h) { (void)h; uv_async_send(uv_async_init(say)); }"
     "static void closed(int32_t h) { (void)h; uv_close(2, say); }"
     "UV_MAIN() { uv_idle_start(uv_idle_init(), idle); uv_check_start(uv_check_init(), check);"
     "uv_timer_init(); uv_async_send(uv_async_init(made)); uv_close(uv_timer_init(), closed); }",
     "loop 0 x 10\nloop 0 x 11",
     "loop 0 run main 0 return\nloop 0 enter timers 0\nloop 0 enter idle 0\nloop 0 run idle 0 return\n"
     "loop 0 enter poll 0\nloop 0 run async 3 return\nloop 0 enter check 0\nloop 0 run check 1 return\n"
     "loop 0 enter closing 0\nloop 0 run close 4 return\n"
     "loop 0 enter timers 0\nloop 0 enter idle 0\nloop 0 run idle 5 return emit 5\nloop 0 enter poll 0\n"
     "loop 0 skip async 3\nloop 0 run async 6 return emit 6\nloop 0 enter check 0\nloop 0 run check 7 return emit 7\n"
     "loop 0 enter closing 0\nloop 0 run close 2 return emit 2\nloop 0 enter timers 0")
rule("A listed handle that was stopped, closed, or stopped and started again is skipped.",
     SAY + "static void first(int32_t h) { (void)h; uv_idle_stop(1); uv_close(2, say); uv_idle_stop(3);"
     "uv_idle_start(3, say); uv_idle_start(4, first); }"
     "UV_MAIN() { for (int i = 0; i < 5; i++) uv_idle_start(uv_idle_init(), i ? say : first); }",
     "loop 0 x 8\n", "loop 0 run main 0 return\nloop 0 run idle 0 return\nloop 0 skip idle 1\nloop 0 skip idle 2\n"
     "loop 0 skip idle 3\nloop 0 run idle 4 return emit 4")
rule("A listed timer that another one's callback stops is skipped; neither is active then.",
     "static void first(int32_t h) { (void)h; uv_timer_stop(1); }"
     "static void tell(int32_t h) { uv_idle_stop(h); uv_emit(uv_is_active(0)); uv_emit(uv_is_active(1)); }"
     "UV_MAIN() { uv_timer_start(uv_timer_init(), first, 0, 0); uv_timer_start(uv_timer_init(), first, 0, 10);"
     "uv_idle_start(uv_idle_init(), tell); }",
     "loop 0 x 6\n", "loop 0 run main 0 return\nloop 0 run timer 0 return\nloop 0 skip timer 1\n"
     "loop 0 run idle 2 return emit 0 0")
rule("A timer that is started again while it is listed is skipped, and runs when it is due anew.",
     SAY + "static void first(int32_t h) { (void)h; uv_timer_start(1, say, 0, 0); }"
     "UV_MAIN() { uv_timer_start(uv_timer_init(), first, 0, 0); uv_timer_start(uv_timer_init(), say, 0, 0); }",
     "loop 0 x 10\n", "loop 0 run main 0 return\nloop 0 run timer 0 return\nloop 0 skip timer 1\n"
     "loop 0 run timer 1 return emit 1")
rule("A timer without repeat is inactive in its callback; one that repeats is active again and due at now + repeat.",
     "static void tell(int32_t h) { uv_emit(uv_is_active(h)); }"
     "UV_MAIN() { uv_timer_start(uv_timer_init(), tell, 5, 0); uv_timer_start(uv_timer_init(), tell, 5, 20); }",
     "loop 0\nclock 0 55\nloop 0 x 7\nclock 0 74\nloop 0 x 5\nclock 0 75\nloop 0 x 3\n",
     "loop 0 run main 0 return\nclock 0 55\nloop 0 run timer 0 return emit 0\nloop 0 run timer 1 return emit 1\n"
     "clock 0 74\nclock 0 75\nloop 0 run timer 1 return emit 1")
rule("A timer that is late by several repeats runs once.",
     SAY + "UV_MAIN() { uv_timer_start(uv_timer_init(), say, 10, 10); }", "loop 0\nclock 0 1000\nloop 0 x 8\n",
     "loop 0 run main 0 return\nloop 0 run timer 0 return emit 0")
rule("timer_again starts a timer that repeats anew, only stops one that doesn't, and refuses one never started.",
     SAY + "UV_MAIN() { int32_t a = uv_timer_init(), b = uv_timer_init(), c = uv_timer_init();"
     "uv_timer_start(a, say, 5, 30); uv_timer_start(b, say, 5, 0); uv_emit(uv_timer_again(a));"
     "uv_emit(uv_timer_again(b));"
     "uv_emit(uv_timer_again(c)); uv_emit(uv_is_active(a)); uv_emit(uv_is_active(b)); }",
     "loop 0\nclock 0 29\nloop 0 x 5\nclock 0 30\nloop 0 x 2\n",
     "loop 0 run main 0 return emit 0 0 -22 1 0\nclock 0 29\nclock 0 30\nloop 0 run timer 0 return emit 0")
rule("A start of an active idle or check changes nothing; one of an active timer sets it anew.",
     SAY + "static void other(int32_t h) { uv_emit(100 + h); }"
     "UV_MAIN() { uv_idle_init(); uv_check_init(); uv_timer_init(); uv_idle_start(0, say); uv_check_start(1, say);"
     "uv_timer_start(2, say, 0, 0); uv_emit(uv_idle_start(0, other)); uv_emit(uv_check_start(1, other));"
     "uv_emit(uv_timer_start(2, other, 0, 0)); }", "loop 0 x 9\n",
     "loop 0 run main 0 return emit 0 0 0\nloop 0 run timer 2 return emit 102\nloop 0 run idle 0 return emit 0\n"
     "loop 0 run check 1 return emit 1")
rule("Due moments saturate: a timeout of 2^64 - 1 is due at 2^64 - 1.",
     SAY + "static void far(int32_t h) { (void)h; uv_timer_start(uv_timer_init(), say, UINT64_MAX, 0); }"
     "UV_MAIN() { uv_timer_start(uv_timer_init(), far, 10, 0); }",
     "loop 0\nclock 0 10\nloop 0 x 6\nclock 0 18446744073709551614\nloop 0 x 5\nclock 0 18446744073709551615\n"
     "loop 0 x 2\n",
     "loop 0 run main 0 return\nclock 0 10\nloop 0 run timer 0 return\nclock 0 18446744073709551614\n"
     "clock 0 18446744073709551615\nloop 0 run timer 1 return emit 1")
rule("Sends coalesce: an async runs once however often was sent; without a send it is skipped.",
     SAY + "UV_MAIN() { int32_t a = uv_async_init(say); uv_async_init(say); uv_async_send(a); uv_async_send(a); }",
     "loop 0\nsend 0 0\nloop 0 x 12\n", "loop 0 run main 0 return\nloop 0 run async 0 return emit 0\n"
     "loop 0 skip async 1\nloop 0 skip async 0\nloop 0 skip async 1")
rule("In a poll phase an async sees a send by an entry before it; a send by an entry behind it waits.",
     "static void one(int32_t h) { uv_emit(h); uv_async_send(1); } static int n;"
     "static void two(int32_t h) { uv_emit(h); if (!n++) uv_async_send(0); }"
     "UV_MAIN() { uv_async_init(one); uv_async_init(two); uv_async_send(0); }", "loop 0 x 14\n",
     "loop 0 run main 0 return\nloop 0 run async 0 return emit 0\nloop 0 run async 1 return emit 1\n"
     "loop 0 run async 0 return emit 0\nloop 0 run async 1 return emit 1")
rule("A send from outside counts though its async isn't made yet.",
     SAY + "UV_MAIN() { uv_async_init(say); }", "send 0 0\nloop 0 x 5\n",
     "send 0 0\nloop 0 run main 0 return\nloop 0 run async 0 return emit 0")
rule("An async that is closed in the poll phase before its entry is skipped, though it was sent to.",
     SAY + "static void one(int32_t h) { (void)h; uv_close(1, say); }"
     "UV_MAIN() { uv_async_init(one); uv_async_init(say); uv_async_send(0); uv_async_send(1); }", "loop 0 x 8\n",
     "loop 0 run main 0 return\nloop 0 run async 0 return\nloop 0 skip async 1")
rule("A closing handle is removed before its callback, and its number is free then.",
     SAY + "static void gone(int32_t h) { uv_emit(uv_is_active(h)); uv_emit(uv_timer_init());"
     "uv_emit(uv_is_active(h)); }"
     "UV_MAIN() { int32_t t = uv_timer_init(); uv_timer_init(); uv_emit(t); uv_close(t, gone);"
     "uv_emit(uv_is_active(t));"
     "uv_emit(uv_timer_start(t, say, 0, 0)); uv_emit(uv_close(t, say)); }", "loop 0 x 7\n",
     "loop 0 run main 0 return emit 0 0 -22 -22\nloop 0 run close 0 return emit -22 0 0")
rule("64 handles are there at most; one that is closing counts until it is removed.",
     SAY + "static void gone(int32_t h) { (void)h; uv_emit(uv_timer_init() >= 0); }"
     "UV_MAIN() { int32_t t = 0; for (int i = 0; i < 64; i++) t = uv_timer_init(); uv_emit(t);"
     "uv_emit(uv_timer_init());"
     "uv_close(t, gone); uv_emit(uv_timer_init()); }", "loop 0 x 7\n",
     "loop 0 run main 0 return emit 63 -11 -11\nloop 0 run close 63 return emit 1")
rule("16 asyncs are made at most over the life of a loop, closed ones included.",
     SAY + "static void gone(int32_t h) { (void)h; uv_emit(uv_async_init(say)); }"
     "UV_MAIN() { int32_t a = 0; for (int i = 0; i < 16; i++) a = uv_async_init(say); uv_emit(a); uv_close(a, gone); }",
     "loop 0 x 22\n", "loop 0 run main 0 return emit 15\nloop 0 run close 15 return emit -28")
rule("A loop with nothing to do is over at the end of begin.", "UV_MAIN() { uv_timer_init(); }", "loop 0 x 3\n",
     "loop 0 run main 0 return\nloop 0 over\nloop 0 over")
rule("Else a loop is over only at the end of closing.",
     SAY + "UV_MAIN() { uv_timer_start(uv_timer_init(), say, 0, 0); }", "loop 0 x 8\n",
     "loop 0 run main 0 return\nloop 0 enter timers 0\nloop 0 run timer 0 return emit 0\nloop 0 enter idle 0\n"
     "loop 0 enter poll 0\nloop 0 enter check 0\nloop 0 enter closing 0\nloop 0 over")
rule("An async that isn't closed keeps its loop alive.", SAY + "UV_MAIN() { uv_async_init(say); }", "loop 0 x 13\n",
     "loop 0 run main 0 return\n" + "loop 0 skip async 0\n" * 2)
rule("A callback that doesn't return fails its loop: a trap.",
     SAY + "static void bad(int32_t h) { uv_emit(h); __builtin_trap(); }"
     "UV_MAIN() { uv_async_init(bad); uv_async_send(0); uv_queue_work(0, 0, 0); }"
     "UV_WORK(op) { return op; } UV_AFTER_WORK(r, k, c) { (void)r; (void)k; (void)c; }",
     "loop 0\nloop 0 x 4\nloop 0\nclock 0 5\npost 0\ncollect 0\ncancel 0 1\nsend 0 0\nloop 1\n",
     "loop 0 run main 0 return\nloop 0 run async 0 trap 1 emit 0\nloop 0 failed\nloop 0 failed\nloop 0 failed\n"
     "loop 0 failed\n"
     "loop 0 failed\nsend 0 0\nloop 1 run main 0 return", loops="g.wasm g.wasm")
rule("A callback that doesn't return fails its loop: calls too deep, and fuel spent.",
     "static int f(int n) { return n == 0 ? 0 : 1 + f(n - 1) * 3; } volatile int n = 1000;"
     "UV_MAIN() { uv_emit(f(n)); }", "loop 0 x 2\n", "loop 0 run main 0 depth\nloop 0 failed", clang="-O0")
rule("Spent fuel fails a loop too.", "volatile int n; UV_MAIN() { for (;;) n++; }", "loop 0 x 2\n",
     "loop 0 run main 0 spent\nloop 0 failed")
rule("Each callback has the loop's whole fuel.",
     "volatile int n; static void spin(int32_t h) { for (int i = 0; i < 60; i++) n++; uv_emit(h); }"
     "UV_MAIN() { spin(9); uv_idle_start(uv_idle_init(), spin); uv_check_start(uv_check_init(), spin); }",
     "loop 0 x 7\n", "loop 0 run main 0 return emit 9\nloop 0 run idle 0 return emit 0\n"
     "loop 0 run check 1 return emit 1",
     fuel=1000)

WORK = ("UV_WORK(op) { return op + 1; } UV_AFTER_WORK(r, k, c) { uv_emit(r); uv_emit(k); uv_emit(c); }")
rule("A request is told in the poll phase, requests by number and before asyncs.",
     SAY + WORK + "UV_MAIN() { uv_async_init(say); uv_async_send(0); uv_queue_work(5, 0, 0); uv_queue_work(6, 0, 0); }",
     "loop 0\npost 0 x 2\ntake 0\ntake 1\nstart 0\nstart 1\nfinish 1\nfinish 0\ncollect 0 x 2\nloop 0 x 6\n",
     "loop 0 run main 0 return\ncollect 0 request 2\ncollect 0 request 1\nloop 0 run after 1 return emit 1 0 6\n"
     "loop 0 run after 2 return emit 2 0 7\nloop 0 run async 0 return emit 0", workers=2)
rule("A reply that is collected during a poll phase waits for the next one.",
     WORK + "UV_MAIN() { uv_queue_work(5, 0, 0); }", "loop 0 x 4\n" + JOB + "loop 0\nloop 0 x 5\n",
     "loop 0 run main 0 return\nloop 0 enter timers 0\nloop 0 enter idle 0\nloop 0 enter poll 0\ncollect 0 request 1\n"
     "loop 0 enter check 0\nloop 0 enter closing 0\nloop 0 enter timers 0\nloop 0 enter idle 0\nloop 0 enter poll 0\n"
     "loop 0 run after 1 return emit 1 0 6", workers=1)
rule("The bytes of a request are copied as it is made.",
     "static uint8_t b[2] = {7, 8}; UV_MAIN() { uv_queue_work(0, b, 2); b[0] = 99; }"
     "UV_WORK(op) { uint8_t c[2]; uv_in_copy(c, 0, 2); uv_out_set(c, 2); return op + c[0]; }"
     "UV_AFTER_WORK(r, k, c) { uint8_t d[2]; uv_emit(uv_in_len()); uv_emit(uv_in_copy(d, 0, 2)); uv_emit(d[0]);"
     "uv_emit(uv_in_copy(d, 1, 2)); uv_emit(r + k + c); }",
     "loop 0\n" + JOB + "loop 0 x 4\n", "loop 0 run main 0 return\nloop 0 run after 1 return emit 2 0 7 -22 8",
     workers=1)
rule("A work function runs on an instance of its own, fresh for each request.",
     "static int n; UV_MAIN() { n = 50; uv_queue_work(0, 0, 0); uv_queue_work(0, 0, 0); }"
     "UV_WORK(op) { return op + ++n; } UV_AFTER_WORK(r, k, c) { uv_emit(r * 10 + k); uv_emit(c); uv_emit(n); }",
     "loop 0\n" + JOB + JOB + "loop 0 x 5\n",
     "loop 0 run main 0 return\nloop 0 run after 1 return emit 10 1 50\nloop 0 run after 2 return emit 20 1 50",
     workers=1)
rule("In a work function every call but three answers -1.",
     "UV_WORK(op) { int n = 0; n += uv_emit(1) == -1; n += uv_timer_init() == -1; n += uv_queue_work(0, 0, 0) == -1;"
     "n += uv_cancel(1) == -1; n += uv_now() == UINT64_MAX; n += uv_in_len() == 0; return op + n; }"
     "UV_AFTER_WORK(r, k, c) { uv_emit(r + k); uv_emit(c); uv_emit(uv_out_set(0, 0)); }"
     "UV_MAIN() { uv_queue_work(0, 0, 0); uv_emit(uv_in_len()); uv_emit(uv_in_copy(0, 0, 0)); }",
     "loop 0\n" + JOB + "loop 0 x 4\n", "loop 0 run main 0 return emit -1 -1\n"
     "loop 0 run after 1 return emit 1 6 -1", workers=1)
rule("How a work function ends fails nothing: trap, depth and spent are told, and the loop goes on.",
     "static int f(int n) { return n == 0 ? 0 : 1 + f(n - 1) * 3; } volatile int n = 1000;"
     "UV_WORK(op) { if (op == 1) __builtin_trap(); if (op == 2) return f(n); for (;;) n++; }"
     "UV_AFTER_WORK(r, k, c) { uv_emit(r); uv_emit(k); uv_emit(c); uv_emit(uv_in_len()); }"
     "UV_MAIN() { for (int i = 1; i <= 3; i++) uv_queue_work(i, 0, 0); }", "loop 0\n" + JOB * 3 + "loop 0 x 6\n"
     "loop 0 x 3\n",
     "loop 0 run main 0 return\nloop 0 run after 1 return emit 1 1 1 0\nloop 0 run after 2 return emit 2 2 0 0\n"
     "loop 0 run after 3 return emit 3 3 0 0\nloop 0 over", workers=1, clang="-O0")
rule("Cancel answers 0 while the request is open, posted or taken, -16 once it is started or answered, -22 else.",
     "UV_WORK(op) { return op; } UV_AFTER_WORK(r, k, c) { uv_emit(r); uv_emit(k); uv_emit(c); }"
     "UV_MAIN() { for (int i = 0; i < 5; i++) uv_queue_work(i, 0, 0); }",
     "loop 0\ncancel 0 1\ncancel 0 1\npost 0\ncancel 0 2\npost 0\ntake 0\nstart 0\ntake 0\ncancel 0 3\nstart 0\n"
     "post 0\n"
     "take 0\nstart 0\ncancel 0 4\nfinish 0\ncancel 0 4\ncollect 0\ncancel 0 4\ncancel 0 9\nloop 0 x 7\ncancel 0 4\n",
     "loop 0 run main 0 return\ncancel 0 1 answer 0\ncancel 0 1 answer -22\npost 0 request 2\ncancel 0 2 answer 0\n"
     "post 0 request 3\n"
     "take 0 loop 0 request 2\nstart 0 loop 0 request 2 dropped\ntake 0 loop 0 request 3\ncancel 0 3 answer 0\n"
     "start 0 loop 0 request 3 dropped\npost 0 request 4\ntake 0 loop 0 request 4\nstart 0 loop 0 request 4 begun\n"
     "cancel 0 4 answer -16\ncancel 0 4 answer -16\ncancel 0 4 answer -16\ncancel 0 9 answer -22\n"
     "loop 0 run after 1 return emit 1 5 -125\nloop 0 run after 2 return emit 2 5 -125\n"
     "loop 0 run after 3 return emit 3 5 -125\nloop 0 run after 4 return emit 4 0 3\ncancel 0 4 answer -22",
     workers=1)
rule("A request is removed before its after-work: with 32 outstanding there is room for one again. Numbers rise.",
     "UV_WORK(op) { return op; } UV_AFTER_WORK(r, k, c) { (void)r; (void)k; (void)c;"
     "uv_emit(uv_queue_work(0, 0, 0)); uv_emit(uv_queue_work(0, 0, 0)); }"
     "UV_MAIN() { int32_t r = 0; for (int i = 0; i < 32; i++) r = uv_queue_work(0, 0, 0); uv_emit(r);"
     "uv_emit(uv_queue_work(0, 0, 0)); uv_emit(uv_cancel(7)); uv_emit(uv_queue_work(0, 0, 0)); }", "loop 0 x 5\n",
     "loop 0 run main 0 return emit 32 -11 0 -11\nloop 0 run after 7 return emit 33 -11")
rule("An outstanding request keeps its loop alive.", WORK + "UV_MAIN() { uv_queue_work(1, 0, 0); }",
     "loop 0 x 7\n" + JOB + "loop 0 x 6\n",
     "loop 0 run main 0 return\nloop 0 run after 1 return emit 1 0 2\nloop 0 over", workers=1)
rule("Without both exports for work nothing can be asked for.",
     "UV_WORK(op) { return op; } UV_MAIN() { uv_emit(uv_queue_work(0, 0, 0)); }", "loop 0\n",
     "loop 0 run main 0 return emit -38")
rule("A null pointer is no callback, nor is a function of another type.",
     "static int32_t other(int64_t n) { return (int32_t)n; }"
     "UV_MAIN() { int32_t t = uv_timer_init(); uv_emit(uv_timer_start(t, 0, 0, 0));"
     "uv_emit(uv_timer_start(t, (uv_callback)(void *)other, 0, 0)); uv_emit(uv_close(t, 0)); }", "loop 0\n",
     "loop 0 run main 0 return emit -22 -22 -22")
rule("64 numbers are emitted by a callback at most.",
     "UV_MAIN() { int32_t n = 0; for (int i = 0; i < 70; i++) n += uv_emit(1) == -28; if (n != 6) __builtin_trap(); }",
     "loop 0\n", "loop 0 run main 0 return emit" + " 1" * 64)
rule("The answers of uv.h to wrong bytes and lengths, and to wrong handles.",
     SAY + "static uint8_t b[8]; UV_WORK(op) { int n = op; n += uv_out_set(b, 65537) == UV_EINVAL;"
     "n += uv_out_set((void *)65530, 65536) == UV_EFAULT; n += uv_in_copy(b, 0, 4) == UV_EINVAL;"
     "n += uv_in_copy((void *)65535, 0, 3) == UV_EFAULT; n += uv_in_copy(b, 3, 0) == 0; return n; }"
     "UV_AFTER_WORK(r, k, c) { uv_emit(r); uv_emit(k); uv_emit(c); }"
     "UV_MAIN() { uv_emit(uv_queue_work(0, b, 65537)); uv_emit(uv_queue_work(0, (void *)65535, 2));"
     "uv_emit(uv_queue_work(0, b, 3)); uv_emit(uv_cancel(2)); int32_t t = uv_timer_init(), a = uv_async_init(say);"
     "uv_emit(uv_async_send(t)); uv_emit(uv_timer_stop(a)); uv_emit(uv_idle_start(t, say)); uv_emit(uv_check_stop(t));"
     "uv_emit(uv_is_active(77)); uv_emit(uv_close(77, say)); uv_emit(uv_timer_stop(t)); uv_emit(uv_is_active(a)); }",
     "loop 0\n" + JOB + "loop 0 x 4\n",
     "loop 0 run main 0 return emit -22 -14 1 -22 -22 -22 -22 -22 -22 -22 0 1\nloop 0 run after 1 return emit 1 0 5",
     workers=1)
rule("The traps of uv.h: what each number says of a C program.",
     "typedef int32_t (*one)(int32_t); typedef int64_t (*two)(int64_t); static int32_t f(int32_t n) { return n; }"
     "volatile int zero, least = INT32_MIN, minus = -1; volatile one p, q = f;"
     "UV_WORK(op) { if (op == UV_TRAP_UNREACHABLE) __builtin_trap(); if (op == UV_TRAP_DIVIDE) return least / zero;"
     "if (op == UV_TRAP_OVERFLOW) return least / minus; if (op == UV_TRAP_MEMORY) return *(volatile int *)65536;"
     "p = (one)99; if (op == UV_TRAP_TABLE) return p(1); p = 0; if (op == UV_TRAP_EMPTY) return p(1);"
     "return (int32_t)((two)q)(1); }"
     "UV_AFTER_WORK(r, k, c) { uv_emit(r); uv_emit(k); uv_emit(c); }"
     "UV_MAIN() { for (int i = 1; i <= 7; i++) uv_queue_work(i, 0, 0); }", "loop 0\n" + JOB * 7 + "loop 0 x 10\n",
     "\n".join(["loop 0 run main 0 return"] + [f"loop 0 run after {n} return emit {n} 1 {n}" for n in range(1, 8)]),
     workers=1)


def main() -> None:
    if len(sys.argv) != 2:
        sys.exit(__doc__)
    with tempfile.TemporaryDirectory() as name:
        results = [run(pathlib.Path(name), sys.argv[1], number) for number in range(len(RULES))]
    print(f"{sum(results)} of {len(results)} rules are so")
    sys.exit(0 if all(results) else 1)


if __name__ == "__main__":
    main()
