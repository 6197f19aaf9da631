#!/usr/bin/env python3
"""Runs files of WebAssembly's official test suite through lower.py and then by the program.

    suite.py PROGRAM SOFT.wasm FILE.json..

Each FILE.json is what `wast2json` made of f32.wast, memory_copy.wast and the like, with its modules beside it. Each
module is rewritten; an f32 or f64 among arguments and results is the number of its bits. A result has to be the
suite's: bit for bit, and of a NaN the class that the suite names. Calls that the suite makes before on the same module
are made again only where the module has a memory or a global that is written. The status is 1 if something differs
or a module that the suite calls can't be run.
A module that the suite calls invalid has to be refused, by lower.py or by the program.
"""

from __future__ import annotations

import collections
import json
import pathlib
import subprocess
import sys
import tempfile
from typing import Counter, List, Optional, Sequence, TypedDict

sys.path.insert(0, str(pathlib.Path(__file__).resolve().parent.parent))
import lower  # noqa: E402
from wasmloop.lowering.binary import COPY, DROP, FILL, GLOBAL_SET, I32, I64, INIT, PREFIX, Refused, constant, operations, u  # noqa: E402
from wasmloop.lowering.module import Module  # noqa: E402
from wasmloop.lowering.rewriting import Lowering  # noqa: E402

BITS = {"i32": 32, "f32": 32, "i64": 64, "f64": 64}
QUIET = {"f32": 0x7FC00000, "f64": 0x7FF8000000000000}
FUEL = "100000000"


class Value(TypedDict):
    """A number of the suite."""

    type: str
    value: str


class Action(TypedDict, total=False):
    """A call, or a read of a global."""

    type: str
    module: str
    field: str
    args: List[Value]


class Command(TypedDict, total=False):
    """A command, as wast2json writes it; each kind has some of these."""

    type: str
    line: int
    name: str
    filename: str
    module_type: str
    action: Action
    expected: List[Value]
    text: str


def signed(text: str, bits: int) -> int:
    number = int(text)
    return number - (1 << bits) if number >> (bits - 1) else number


def is_wanted(got: int, wanted: Value) -> bool:
    """Whether a result, a signed number, is what the suite expects."""
    kind, value = wanted["type"], wanted["value"]
    bits = got & ((1 << BITS[kind]) - 1)
    if value == "nan:canonical":
        return bits & ((1 << BITS[kind] - 1) - 1) == QUIET[kind]
    if value == "nan:arithmetic":
        return bits & QUIET[kind] == QUIET[kind]
    return got == signed(value, BITS[kind])


def is_write(op: int, behind: Sequence[int]) -> bool:
    return op in range(0x36, 0x3F) or op in (GLOBAL_SET, 0x40) or op == PREFIX and behind[0] in (INIT, DROP, COPY, FILL)


class Runner:
    def __init__(self, program: str, soft: bytes, folder: pathlib.Path) -> None:
        self.program, self.soft, self.folder = program, soft, folder
        self.counts: Counter[str] = collections.Counter()
        self.wrong: List[str] = []
        self.module = folder / "module.wasm"
        # why the module can't be called, and what was called before on it
        self.why: Optional[str] = "no module"
        self.before: List[Action] = []
        self.name: Optional[str] = None
        self.writes = False

    def load(self, path: pathlib.Path, name: Optional[str] = None) -> str:
        data, self.before, self.name = path.read_bytes(), [], name
        try:
            lowered, _ = lower.lower(data, self.soft)
        except Refused as why:
            self.why = f"lower.py refuses the module: {why}"
            return "module refused by lower.py"
        self.why = None
        self.module.write_bytes(lowered)
        told = self.tell("check", self.module)
        if told != "accepted":
            self.why = told
            return "module refused by the program"
        self.writes = any(is_write(op, behind) for _, body in Module(data).bodies for op, _, behind in operations(body))
        return "module rewritten and accepted"

    def invalid(self, command: Command, path: pathlib.Path) -> str:
        try:
            data = (path.parent / command["filename"]).read_bytes()
            lowered, _ = lower.lower(data, self.soft)
        except Refused:
            return "invalid, refused by lower.py"
        target = self.folder / "invalid.wasm"
        target.write_bytes(lowered)
        if self.tell("check", target) != "accepted":
            return "invalid, refused by the program"
        self.wrong.append(f"line {command['line']}: an invalid module is accepted")
        return "differs"

    def tell(self, *words: object) -> str:
        done = subprocess.run([self.program, *map(str, words)], stdout=subprocess.PIPE, stderr=subprocess.PIPE)
        return (done.stdout or done.stderr).decode().split("\n")[0]

    def act(self, command: Command) -> str:
        action = command["action"]
        if self.why or action["type"] != "invoke" or action.get("module", self.name) != self.name:
            return f"not run: {self.why or 'a read of a global or a named module'}"
        if self.writes and self.before:
            self.call_in_a_row(action)
            words = ["row"]
        else:
            words = [action["field"]] + [a["value"] for a in action["args"]]
        target = self.folder / "row.wasm" if words == ["row"] else self.module
        told = self.tell("invoke", "--fuel", FUEL, "--depth", 128, "--", target, *words)
        if self.writes and command["type"] in ("assert_return", "action"):
            self.before.append(action)
        return self.judge(command, told)

    def call_in_a_row(self, action: Action) -> None:
        """A module whose "row" makes the earlier calls and then this one: an instance lives as long as one call."""
        module = Module(self.module.read_bytes())
        exports = {n.decode(): i for n, kind, i in module.exports if kind == 0}
        code = b""
        for call in (*self.before, action):
            index = exports[call["field"]]
            results = module.types[module.functions[index]][1]
            code += b"".join(constant(I32 if BITS[a["type"]] == 32 else I64,
                                      signed(a["value"], BITS[a["type"]])) for a in call["args"])
            code += b"\x10" + u(index) + (b"\x1a" * len(results) if call is not action else b"")
        module.types.append((b"", results))
        module.exports.append((b"row", 0, len(module.functions)))
        module.functions.append(len(module.types) - 1)
        module.bodies.append(([], code + b"\x0b"))
        (self.folder / "row.wasm").write_bytes(Lowering(module, None).module())

    def judge(self, command: Command, told: str) -> str:
        kind = command["type"]
        if kind == "action":
            right = told.startswith("return")
        elif kind == "assert_trap":
            right = told.startswith("trap")
        else:
            got = [int(w) for w in told.split(" used ")[0].split()[1:]] if told.startswith("return") else None
            wanted = command["expected"]
            right = got is not None and len(got) == len(wanted) and all(map(is_wanted, got, wanted))
        if right:
            return "agrees"
        action = command["action"]
        self.wrong.append(f"line {command['line']}: {action['field']} {[a['value'] for a in action['args']]}: {told}; "
                          f"expected {command.get('expected') or command.get('text')}")
        return "differs"

    def file(self, path: pathlib.Path) -> None:
        counts: Counter[str] = collections.Counter()
        for command in json.loads(path.read_text())["commands"]:
            if command["type"] == "module":
                counts[self.load(path.parent / command["filename"], command.get("name"))] += 1
            elif command["type"] == "assert_invalid" and command["module_type"] == "binary":
                counts[self.invalid(command, path)] += 1
            elif command["type"] in ("assert_return", "assert_trap", "action"):
                counts[self.act(command)] += 1
        print(f"{path.stem}: " + ", ".join(f"{n} {what}" for what, n in sorted(counts.items())), flush=True)
        self.counts.update(counts)


def main(program: str, soft: str, *files: str) -> int:
    with tempfile.TemporaryDirectory() as folder:
        runner = Runner(program, pathlib.Path(soft).read_bytes(), pathlib.Path(folder))
        for path in files:
            runner.file(pathlib.Path(path))
    print("\n".join(runner.wrong))
    print(", ".join(f"{n} {what}" for what, n in sorted(runner.counts.items())))
    return 1 if runner.wrong or runner.counts["agrees"] == 0 else 0


if __name__ == "__main__":
    sys.exit(main(*sys.argv[1:]))
