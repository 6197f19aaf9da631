"""Runs a record again, to the same log and the same failure, and prints where it failed.

    python3 -m wasmloop.replay guest.record
    python3 -m wasmloop.replay guest.record --step
    python3 -m wasmloop.replay guest.record --script > guest.json && wasmloop script guest.json

The log goes to standard output, in the form of `wasmloop script`. A callback or a work function that did not return is reported on standard
error, with its source line if the module, or the one that --debug names, has DWARF. --step waits for a command before each line of the record,
and can go back. --script writes a script with the same log; the host must have made no requests of its own.
"""

from __future__ import annotations

import json
import sys
from typing import Any, Callable, Dict, List, Optional, Sequence, Set

from . import ENTERED, FAILED, NOT_RUN, OVER, RAN, SKIPPED, TIMERS, WORK_DONE, Did, Job, Loop, Module, _tool, lines

MOST_STEPS = 10_000                                     # that a log has at a time
PHASES, KINDS, WORKERS = "begin timers idle poll check closing".split(), "start main timer idle after async check close".split(), 16
HELP = "n or Enter: next; b: back; g N: go to line N; c: continue to the failure or the end; w: where it failed; q: quit"


# What a record has, a row each: a word and what belongs to it.
Rows = Sequence[List[Any]]


class Differs(_tool.Failed):
    """A result differs from the record: the library is another, or the record was edited."""


class Wrong(_tool.Failed):
    """The file is not a record."""


def rows_of(file: str, of: str = "loop", count: int = 6) -> Rows:
    """The rows of a record of a loop, a list each. A last line that was cut off is dropped."""
    rows: List[List[Any]] = []
    for number, line in enumerate(_tool.read(file).decode("ascii", "replace").split("\n"), 1):
        try:
            if line:
                rows.append(json.loads(line))
        except ValueError:
            if rows and line[0] == "[" and line[-1] != "]":
                break
            raise Wrong(f"{file}, line {number}: not a line of a record") from None
    if not rows or not isinstance(rows[0], list) or rows[0][:1] != [of] or len(rows[0]) != count:
        raise Wrong(f"{file} is not a record: its first line describes no {of}")
    return rows


def line_of(did: Did, emits: Sequence[int]) -> str:
    """A step as a line of a script's log."""
    if did.what == ENTERED:
        return f"loop 0 enter {PHASES[did.phase]} {did.now}"
    if did.what == SKIPPED:
        return f"loop 0 skip {KINDS[did.kind]} {did.number}"
    if did.what in (OVER, FAILED):
        return f"loop 0 {'over' if did.what == OVER else 'failed'}"
    ending = ("return", f"trap {did.trap}", "depth", "spent")[did.ending]
    told = f" emit {' '.join(map(str, emits))}" if emits else ""
    return f"loop 0 run {KINDS[did.kind]} {did.number} {ending} used {did.used}{told}"


def failure(did: Did, where: Optional[str], depth: int) -> str:
    """The sentence on a callback that did not return."""
    named = ("timer", "idle", "after-work of request", "async", "check", "close")
    who = ("start function", "uv_main", *(f"{it} {did.number}" for it in named))[did.kind]
    return _tool.ended(f"loop 0: {who}", ("return", "trap", "depth", "spent")[did.ending], did.trap, did.used, where, depth)


class Replay:
    """A loop that is driven by a record. `at` counts the rows so far, `log` has the lines of the last one, `told` its message; `failed` is set once
    a callback did not return, and `full` if the record ended at its limit. A row of many steps is run in parts: `left` counts those to come."""

    def __init__(self, rows: Rows) -> None:
        try:
            _, self.digest, code, fuel, work_fuel, depth = rows[0]
            self.code = bytes.fromhex(code)
            self.loop = Loop(Module(self.code), 0, fuel, work_fuel, depth)
        except (TypeError, ValueError) as why:
            raise Wrong(f"line 1 of the record: {why}") from None
        self.rows, self.at, self.depth, self.failed, self.full, self.told, self.left = rows, 1, depth, False, False, "", 0
        self.jobs: Dict[int, Job] = {}
        self.log: List[str] = []

    def next(self) -> bool:
        """Runs the next row, or a part of it. Returns False if there is none."""
        if self.at == len(self.rows) and not self.left:
            return False
        self.log, self.told = [], ""
        if self.left:
            self._step(self.left)
            return True
        self.at += 1
        word, *more = self.rows[self.at - 1]
        method = getattr(self, f"_{word}", None)
        if method is None:
            raise Wrong(f"line {self.at} of the record: {word} is unknown")
        try:
            method(*more)
        except (TypeError, ValueError, KeyError):
            raise Wrong(f"line {self.at} of the record: {json.dumps(self.rows[self.at - 1])} is not possible here") from None
        return True

    def _same(self, what: str, was: object, now: object) -> None:
        if was != now:
            raise Differs(f"line {self.at} of the record: {what} was {was}, and now is {now}")

    def _step(self, count: int = 1) -> None:
        self.left = max(count - MOST_STEPS, 0)
        for _ in range(min(count, MOST_STEPS)):
            self._one_step()

    def _full(self) -> None:
        self.full = True

    def _one_step(self) -> Did:
        did = self.loop.step()
        self.log.append(line_of(did, self.loop.emits() if did.what == RAN and did.emits else []))
        if did.what == RAN and did.ending:
            self.failed = True
            self.told = failure(did, self.loop.stop_told(self.code), self.depth)
        return did

    def _turn(self, most: int) -> None:
        ran = 0
        while True:
            did = self._one_step()
            ran += did.what == RAN
            if (did.what in (OVER, FAILED) or did.what == ENTERED and did.phase == TIMERS
                    or did.what == RAN and (did.emits or did.ending or ran == most)):
                return

    def _memory(self) -> None:
        raise Differs(f"line {self.at} of the record: an allocation failed for a callback, which a replay cannot repeat")

    def _clock(self, ms: int) -> None:
        self.log.append(f"clock 0 {self.loop.clock(ms)}")

    def _send(self, number: int) -> None:
        self.loop.send(number)
        self.log.append(f"send 0 {number}")

    def _cancel(self, request: int, was: int) -> None:
        answer = self.loop.cancel(request)
        self.log.append(f"cancel 0 {request} answer {answer}")
        self._same("the result of a cancel", was, answer)

    def _request(self, op: int, data: str, was: int) -> None:
        answer = self.loop.request(op, bytes.fromhex(data))
        self.log.append(f"request 0 op {op} bytes {len(data) // 2} answer {answer}")
        self._same("the result of a request", was, answer)

    def _next(self, request: int) -> None:
        job = self.loop.next_job()
        self._same("the next job's request", request, job.about().request if job else None)
        if job:
            self.jobs[request] = job
        self.log.append(f"post 0 request {request}")

    def _start(self, request: int, was: int) -> None:
        known = self.loop.start(self.jobs[request])
        self.log.append(f"start 0 loop 0 request {request} {'begun' if known else 'dropped'}")
        self._same("whether the start was valid", was, int(known))

    def _accept(self, request: int, was: int, memory: Optional[int] = None) -> None:
        job = self.jobs.pop(request)
        if memory:
            raise Differs(f"line {self.at} of the record: an allocation failed for request {request}, which a replay cannot repeat")
        if job.about().outcome == NOT_RUN:
            job.run()
        if job.about().outcome != WORK_DONE:
            reply = job.reply()
            self.told = _tool.ended(f"loop 0: request {request}", reply.outcome, reply.number, reply.used, job.stop_told(self.code), self.depth)
        known = self.loop.accept(job)
        self.log.append(f"collect 0 {f'request {request}' if known else 'stranger'}")
        self._same("whether the reply was accepted", was, int(known))


def script_of(rows: Rows) -> str:
    """The record as a script. A turn becomes as many steps as the replay takes. A worker takes a job when it is started, or accepted without a
    start; jobs are taken in the order of their posts."""
    steps: List[List[Any]] = []
    waiting: List[int] = []
    workers: Dict[int, int] = {}
    started: Set[int] = set()

    def take(request: int) -> None:
        while request in waiting:
            free = next((it for it in range(WORKERS) if it not in workers.values()), None)
            if free is None:
                raise _tool.Failed(f"line {replay.at} of the record: more than {WORKERS} jobs at once, the maximum of a script")
            workers[waiting.pop(0)] = free
            steps.append(["take", free])

    replay = Replay(rows)
    while replay.next():
        word, *more = rows[replay.at - 1]
        if word in ("step", "turn"):
            steps += [["loop", 0]] * len(replay.log)
        elif word in ("clock", "send", "cancel"):
            steps.append([word, 0, more[0]])
        elif word == "next":
            steps.append(["post", 0])
            waiting.append(more[0])
        elif word in ("start", "accept"):
            take(more[0])
            if more[0] not in started:
                started.add(more[0])
                steps.append(["start", workers[more[0]]])
            if word == "accept":
                steps += [["finish", workers.pop(more[0])], ["collect", 0]]
        elif word == "request":
            raise _tool.Failed(f"line {replay.at} of the record: the host's request {more[2]}: a script has no step for it")
    _, _, code, fuel, work_fuel, depth = rows[0]
    loop = {"module": 0, "fuel": fuel, "work_fuel": work_fuel, "depth": depth}
    return json.dumps({"modules": [code], "loops": [loop], "workers": WORKERS, "steps": steps}, separators=(",", ":")) + "\n"


class Stepper:
    """Goes through a record by commands. To go back it begins again."""

    def __init__(self, rows: Rows, say: Callable[[str], None]) -> None:
        self.rows, self.say, self.replay, self.last = rows, say, Replay(rows), ""

    def to(self, line: int) -> None:
        """Goes to this line of the record."""
        if line < self.replay.at:
            self.replay, self.last = Replay(self.rows), ""
        while (self.replay.at < line or self.replay.left) and self.replay.next():
            self.last = self.replay.told or self.last

    def show(self) -> None:
        at, row = self.replay.at, self.rows[self.replay.at - 1]
        told = f"{row[1]:.12}.. {len(self.replay.code)} bytes" if at == 1 else json.dumps(row[1:])[1:-1]
        self.say(f"{at} of {len(self.rows)}: {row[0]} {told if len(told) < 80 else told[:80] + '..'}")
        for line in self.replay.log:
            self.say(f"    {line}")
        if self.replay.told:
            self.say(f"    {self.replay.told}")

    def obey(self, words: List[str]) -> bool:
        """Obeys one command. Returns False to quit."""
        letter, *more = words or ["n"]
        if letter == "q":
            return False
        if letter == "n" and self.replay.at == len(self.rows):
            self.say("this is the last line of the record")
        elif letter in ("n", "b"):
            self.to(max(self.replay.at + (1 if letter == "n" else -1), 1))
            self.show()
        elif letter == "g" and len(more) == 1 and more[0].isdigit():
            self.to(max(int(more[0]), 1))
            self.show()
        elif letter == "c":
            had = self.replay.failed
            while (had or not self.replay.failed) and self.replay.next():
                self.last = self.replay.told or self.last
            self.show()
        elif letter == "w":
            self.say(self.last or "nothing has failed so far")
        else:
            self.say(HELP)
        return True


def step_through(rows: Rows, source: Optional[lines.Lines]) -> int:
    stepper = Stepper(rows, lambda text: print(source.told(text) if source else text, flush=True))
    stepper.show()
    print(HELP)
    for line in sys.stdin:
        if not stepper.obey(line.split()):
            break
    return 4 if stepper.replay.failed else 0


def main() -> int:
    parser = _tool.words("replay", __doc__, ";\n1 also if a result differs from the record, or the file is not a record")
    parser.add_argument("record", metavar="RECORD", help="a file of wasmloop.record, record_wrap.c or the edge server")
    parser.add_argument("--debug", metavar="FILE", help="the module with DWARF, if the recorded one was stripped or lowered")
    how = parser.add_mutually_exclusive_group()
    how.add_argument("--step", action="store_true", help="wait for a command before each line: " + HELP)
    how.add_argument("--log", action="store_true", help="print what the guest has logged by guest_log of uv.h, as wasmloop.log does")
    how.add_argument("--script", action="store_true", help="write a script for `wasmloop script`")
    how.add_argument("--module", metavar="FILE", help="write the recorded module to FILE, and run nothing")
    given = parser.parse_args()
    rows = rows_of(given.record)
    if given.module:
        _tool.write(given.module, Replay(rows).code)
        return 0
    if given.log:
        from . import callbacks, log                    # (which import this module)
        print("\n".join(log.of_callback(callbacks.Callback(rows, callbacks.LAST))))
        return 0
    if given.script:
        _tool.write("-", script_of(rows))
        return 0
    source = lines.wanted(Replay(rows).code, given.debug)
    if given.step:
        return step_through(rows, source)
    replay = Replay(rows)
    while replay.next():
        if replay.log:
            print("\n".join(replay.log))
        if replay.told:
            sys.stdout.flush()
            print(source.told(replay.told) if source else replay.told, file=sys.stderr)
    if replay.full:
        print("replay: the record ends here, at its limit; the loop went on", file=sys.stderr)
    return 4 if replay.failed else 0


if __name__ == "__main__":
    _tool.run("replay", main)
