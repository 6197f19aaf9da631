#!/usr/bin/env python3
"""Refuses a program each of its allocations in turn, and looks at how it ends.

    python3 ends.py PROGRAM GOING_ON REFUSE

PROGRAM is the program, GOING_ON the same but that it goes on with a script's next steps where a step found no memory,
and REFUSE the library of refuse.c. Each command is run with its first allocation refused, then with its second, until a
run in which none is refused. Every run has to end as with memory or by a named want of memory. The status is 1 if
one ends otherwise, or where a named end never came.
"""

from __future__ import annotations

import collections
import os
import pathlib
import subprocess
import sys
import tempfile
from typing import Dict, Iterable, List, Mapping, NamedTuple, Optional, Tuple

EXAMPLES = pathlib.Path(__file__).resolve().parents[2] / "examples"

# No command takes so many allocations.
MOST_RUNS = 5000

SECONDS = 60

# The allocations of `serve` come in another order each time, so that it is gone through more than once.
SERVE_ROUNDS = 3


class End(NamedTuple):
    """How a run ended."""

    out: str
    err: str
    status: int


class Command(NamedTuple):
    """What is run, how it ends with all memory, and how it may end without some of it."""

    name: str
    words: List[str]
    whole: End
    others: Dict[str, End]


MEMORY = End("", "memory\n", 1)

NO_MEMORY = End("nomemory\n", "", 4)

FAULT = "fault 2\n"

WORK_LOG = """\
loop 0 run main 0 return used 5
post 0 request 1
take 0 loop 0 request 1
start 0 loop 0 request 1 begun
finish 0 loop 0 request 1 done 6
collect 0 request 1
loop 0 enter timers 0
loop 0 enter idle 0
loop 0 enter poll 0
loop 0 run after 1 return used 4 emit 6
"""

# `queue_work` is refused memory, so that there is no request.
UNQUEUED_LOG = """\
loop 0 run main 0 return used 5
post 0 none
take 0 none
start 0 none
finish 0 none
collect 0 none
loop 0 over
loop 0 over
loop 0 over
loop 0 over
"""

# The instance of the work is refused memory, and the guest is told so.
UNWORKED_LOG = WORK_LOG.replace("done 6", "nomemory").replace("emit 6", "emit -12")

TIMER_LOG = """\
loop 0 run main 0 return used 6
clock 0 50
loop 0 enter timers 50
loop 0 run timer 0 return used 3 emit 50
loop 0 enter idle 50
loop 0 enter poll 50
loop 0 enter check 50
loop 0 enter closing 50
loop 0 over
"""


def done(text: str) -> End:
    return End(text, "", 0)


COMMANDS = [
    Command("check timer", ["check", "timer.wasm"], done("accepted\n"), {}),
    Command("invoke table f 0", ["invoke", "table.wasm", "f", "0"], done("return 7 used 3\n"), {}),
    Command(
        "work copies 5 616263",
        ["work", "copies.wasm", "5", "616263"],
        done("done 8 bytes 3 616263\n"),
        {"nomemory": NO_MEMORY},
    ),
]


def serve_lines(*values: str) -> End:
    """What `serve` prints of loops that emit these values: 6, or -12 where the work had no memory, or none."""
    return done("".join(f"loop {loop} over emits{value}\n" for loop, value in enumerate(values)))


SERVE = Command(
    "serve asks",
    ["serve", "asks.wasm", "--loops", "2", "--workers", "2"],
    serve_lines(" 6", " 6"),
    {
        "loop 0 nomemory": serve_lines(" -12", " 6"),
        "loop 1 nomemory": serve_lines(" 6", " -12"),
        "loop 0 queue_work answers -12": serve_lines("", " 6"),
        "loop 1 queue_work answers -12": serve_lines(" 6", ""),
    },
)

SCRIPTS = [
    Command(
        "script work",
        ["script", "work.json"],
        done(WORK_LOG),
        {"queue_work answers -12": done(UNQUEUED_LOG), "nomemory": done(UNWORKED_LOG)},
    ),
    Command("script timer", ["script", "timer.json"], done(TIMER_LOG), {}),
]


class Wrong(Exception):
    pass


def run(program: str, refuse: str, words: List[str], number: int) -> Tuple[End, bool]:
    """How the program ends with the allocation of this number refused, and whether it came to that allocation."""
    with tempfile.TemporaryDirectory() as folder:
        mark = os.path.join(folder, "mark")
        given = {"LD_PRELOAD": refuse, "REFUSED": str(number), "REFUSED_MARK": mark}
        try:
            ran = subprocess.run(
                [program, *words], cwd=EXAMPLES, env=given, capture_output=True, timeout=SECONDS
            )
        except subprocess.TimeoutExpired as hangs:
            raise Wrong(f"{words}: allocation {number} refused: no end in {SECONDS} seconds") from hangs
        end = End(ran.stdout.decode(), ran.stderr.decode(), ran.returncode)
        return end, os.path.exists(mark)


def is_stopped(command: Command, end: End) -> bool:
    """Whether a script's log is cut behind some of its lines, and a fault is told there."""
    if end.err or end.status != 1 or not end.out.endswith(FAULT):
        return False
    told = end.out[: -len(FAULT)].splitlines()
    whole = command.whole.out.splitlines()
    return len(told) < len(whole) and told == whole[: len(told)]


def name_of(command: Command, end: End, is_script: bool) -> Optional[str]:
    """The name of this end of a run that was refused memory."""
    if is_script and is_stopped(command, end):
        return "fault 2"
    named = {"whole": command.whole, "memory": MEMORY, **command.others}
    for name, other in named.items():
        if end == other:
            return name
    return None


def refuse_in_turn(program: str, refuse: str, command: Command, is_script: bool) -> Dict[int, str]:
    """The names of the ends, by the number of the refused allocation. The run without refusal isn't among them."""
    names: Dict[int, str] = {}
    for number in range(1, MOST_RUNS):
        end, is_refused = run(program, refuse, command.words, number)
        if not is_refused:
            if end != command.whole:
                raise Wrong(f"{command.name}: with memory: {end}")
            return names
        name = name_of(command, end, is_script)
        if name is None:
            raise Wrong(f"{command.name}: allocation {number} refused: {end}")
        names[number] = name
    raise Wrong(f"{command.name}: no run without refusal")


def tell(command: Command, names: Mapping[int, str]) -> None:
    counts = collections.Counter(names.values())
    told = ", ".join(f"{count} {name}" for name, count in counts.items())
    print(f"{command.name}: {len(names) + 1} runs: {told}, 1 with all memory", flush=True)


def expect(command: Command, names: Mapping[int, str], expected: Iterable[str]) -> None:
    for name in expected:
        if name not in names.values():
            raise Wrong(f"{command.name}: no run ended so: {name}")


def go_on(program: str, refuse: str, command: Command, names: Mapping[int, str]) -> None:
    """Where a step found no memory, the run goes on to the whole log."""
    stopped = [number for number, name in names.items() if name == "fault 2"]
    for number in stopped:
        end, _ = run(program, refuse, command.words, number)
        if end != command.whole:
            raise Wrong(f"{command.name}: going on behind allocation {number}: {end}")
    print(f"{command.name}: {len(stopped)} runs went on behind a fault to the whole log", flush=True)


def refuse_all(program: str, going_on: str, refuse: str) -> None:
    for command in COMMANDS:
        names = refuse_in_turn(program, refuse, command, False)
        tell(command, names)
        expect(command, names, ["memory", *command.others])
    for _ in range(SERVE_ROUNDS):
        names = refuse_in_turn(program, refuse, SERVE, False)
        tell(SERVE, names)
        expect(SERVE, names, ["memory"])
    for command in SCRIPTS:
        names = refuse_in_turn(program, refuse, command, True)
        tell(command, names)
        expect(command, names, ["memory", "fault 2", *command.others])
        go_on(going_on, refuse, command, names)


def main(words: List[str]) -> int:
    if len(words) != 3:
        print(__doc__)
        return 2
    try:
        refuse_all(*(os.path.abspath(word) for word in words))
    except Wrong as wrong:
        print(wrong)
        return 1
    return 0


if __name__ == "__main__":
    sys.exit(main(sys.argv[1:]))
