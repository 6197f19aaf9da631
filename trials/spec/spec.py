#!/usr/bin/env python3
"""Runs the official test suite of WebAssembly by the program.

    python3 spec.py PROGRAM FOLDER.. [--keep FOLDER]

Each FOLDER is searched for the .json files that `wast2json` wrote, with their modules beside them. A line for
each file, then what was skipped and why, then each difference; its modules are kept in the folder of --keep. The
status is 1 if something differs.

Every module is first given to `check` as it is. Modules with floats, with instructions of later versions or with imports of the suite's
"spectest" have to be refused, and are then changed (wasm.py) so that the rest of their functions can be run: functions that use
floats trap, imports are built in. `invoke` makes a new instance each time. So where earlier calls may have written to the
instance, a function is added that makes those calls again in their order, and then the one that is asked for.
"""

from __future__ import annotations

import argparse
import collections
import json
import pathlib
import shutil
import subprocess
import sys
import tempfile

from wasm import FLOAT, I32, I64, Module, Outside, is_write, name, s, u, without_floats
from typing import Any, Callable, Counter, Dict, List, Mapping, Optional, Sequence, Tuple

FUEL, DEPTH = "2000000000", "128"
TYPES = {"i32": I32, "i64": I64}
OUTSIDE = "outside: refused, but the module is outside the profile anyway"
TRAPS = {"unreachable": 1, "integer divide by zero": 2, "integer overflow": 3, "out of bounds memory access": 4,
         "undefined element": 5, "undefined": 5, "out of bounds table access": 5, "uninitialized element": 6, "uninitialized": 6,
         "indirect call type mismatch": 7, "indirect call": 7}
# The beginning of what the suite says of a refused module, and the answers that say the same.
FAULTS = [
    ("type mismatch", "validate 1 validate 9"), ("unknown label", "validate 3"), ("unknown binary version", "decode 2 decode 3"),
    ("unknown", "validate 2 validate 9"), ("alignment", "validate 4"), ("global is immutable", "validate 5"),
    ("duplicate export", "validate 7"), ("start function", "validate 8"), ("constant expression", "validate 9"),
    ("multiple", "decode 12"), ("size minimum", "decode 12"), ("memory size", "decode 12"), ("table size", "decode 12"),
    ("magic header", "decode 1 decode 3"), ("unexpected end", "decode 1 decode 3"), ("length out of bounds", "decode 3"),
    ("integer representation", "decode 4 decode 7"), ("integer", "decode 4"), ("invalid value type", "decode 3 decode 7"),
    ("section size", "decode 6"), ("malformed import kind", "decode 7"), ("invalid import kind", "decode 7"),
    ("malformed section id", "decode 7"), ("invalid section id", "decode 7"), ("malformed mutability", "decode 7"),
    ("invalid mutability", "decode 7"), ("zero", "decode 7"), ("malformed limits flags", "decode 7"), ("illegal opcode", "decode 8"),
    ("malformed UTF-8", "decode 9"), ("invalid UTF-8", "decode 9"), ("function and code", "decode 10"), ("too many locals", "decode 12"),
    ("unexpected content", "decode 5"), ("junk", "decode 5"), ("END opcode expected", "decode 3 decode 6"),
]
# More than this, and the project refuses a module (docs/LIMITS.md). Limits of a single function are in wasm.py.
LIMITS: List[Tuple[str, Callable[[Module, bytes], bool]]] = [
    ("a file of more than 1 MiB", lambda m, data: len(data) > 1 << 20),
    ("a memory of more than 64 pages", lambda m, data: any(least > 64 for least, _ in m.memories)),
    ("a table of more than 4,096 elements", lambda m, data: any(least > 4096 for _, least, _ in m.tables)),
    ("more than 256 parameters", lambda m, data: any(len(a) > 256 for a, _ in m.types)),
    ("more than 16 results", lambda m, data: any(len(b) > 16 for _, b in m.types)),
    ("too many types, functions, globals or exports", lambda m, data: len(m.types) > 1024 or len(m.functions) > 4096
     or len(m.globals) > 256 or len(m.exports) > 1024),
]


Command = Mapping[str, Any]  # of the suite, as JSON


class Skip(Exception):
    """The text says why something can't be tried."""


class Instance:
    """A module of the suite, as it can be given to the program, and the calls made on it so far that may have written."""

    def __init__(self, data: bytes) -> None:
        self.data, self.changed, self.trapped = data, "", False
        self.why: Optional[str] = None
        self.lost: Optional[str] = None
        self.module: Optional[Module] = None
        self.calls: List[Command] = []
        try:
            self.module = Module(data)
            self.writers = self.module.which(is_write)
            self.growers = self.module.which(lambda op, _: op == 0x40)
            self.start = self.module.start
            cut = self.module.cut()
        except Outside as reason:
            self.why = str(reason)
            return
        self.changed = " and ".join(["functions cut out"] * cut + ["imports built in"] * bool(self.module.baked))
        if self.changed:
            self.data = self.module.write()
        if self.start in self.module.dead:
            self.why = f"its start function has {self.module.dead[self.start]}"

    def limit(self) -> Optional[str]:
        return next((why for why, test in LIMITS if self.module and test(self.module, self.data)), None)

    def row(self, action: Command) -> bytes:
        """The module with one more function, exported as "row", that makes the earlier calls and then the one of `action`."""
        module = Module(self.data)
        body = b""
        for call in self.calls:
            to = place_of(module, call)
            body += arguments(call) + b"\x10" + u(to) + b"\x1a" * len(module.type_of(to)[1])
        if action["type"] == "get":
            to = place_of(module, action, 3)
            results = [module.globals[to][0]]
            body += b"\x23" + u(to)
        else:
            to = place_of(module, action)
            results = [*module.type_of(to)[1]]
            body += arguments(action) + b"\x10" + u(to)
        module.add_row(b"row", results, body + b"\x0b")
        return module.write()


def place_of(module: Module, action: Command, kind: int = 0) -> int:
    """Where what an action names is in the module, which has it."""
    found = module.exported(action["field"].encode(), kind)
    assert found is not None, action
    return found


def with_imports_built_in(data: bytes) -> Optional[bytes]:
    """The bytes of a module that may be invalid, where its imports are all that is outside the profile, else None."""
    try:
        instance = Instance(data)
    except (ValueError, IndexError):
        return None
    return instance.data if instance.changed == "imports built in" and not instance.why else None


def arguments(call: Command) -> bytes:
    out = b""
    for arg in call["args"]:
        bits = 32 if arg["type"] == "i32" else 64
        value = int(arg["value"])
        out += (b"\x41" if bits == 32 else b"\x42") + s(value - (1 << bits) if value >> (bits - 1) else value)
    return out


class Suite:
    def __init__(self, program: str, keep: Optional[pathlib.Path]) -> None:
        self.program, self.keep, self.judge = program, keep, shutil.which("wasm-validate")
        self.counts: Counter[Tuple[str, str]] = collections.Counter()
        self.differences: List[str] = []
        self.folder = tempfile.TemporaryDirectory()

    def tell(self, words: Sequence[str], data: bytes) -> str:
        """The line that the program prints, behind its status where that isn't the one which belongs to the line."""
        path = pathlib.Path(self.folder.name) / "module.wasm"
        path.write_bytes(data)
        done = subprocess.run([self.program, words[0], str(path), *words[1:]], capture_output=True, timeout=120)
        line = done.stdout.decode().split("\n")[0] or done.stderr.decode().split("\n")[0]
        wanted = {"accepted": 0, "return": 0, "decode": 3, "validate": 3, "link": 3, "trap": 4, "depth": 4, "spent": 4, "start": 4}
        if done.returncode != wanted.get(line.split(" ")[0], 2):
            line = f"status {done.returncode}, {line}"
        return line

    def file(self, path: pathlib.Path) -> None:
        self.modules: Dict[str, Instance] = {}
        self.shared: Dict[bytes, Instance] = {}
        self.last: Optional[Instance] = None
        self.local: Counter[str] = collections.Counter()
        self.path, self.at = path, ""
        for command in json.loads(path.read_text())["commands"]:
            self.at = f"{path.stem}.wast:{command['line']}"
            try:
                outcome = self.command(command)
            except Skip as why:
                outcome = f"skipped: {why}"
            if outcome:
                self.counts[command["type"], outcome] += 1
                self.local[outcome.split(":")[0].split(",")[0]] += 1
        agreed, differed, skipped = (self.local[k] for k in ("agreed", "DIFFERS", "skipped"))
        print(f"{path.stem:30} {agreed:6} agreed {differed:4} differed {skipped:6} skipped {self.local['outside']:5} outside anyway")

    def differ(self, data: bytes, what: str) -> str:
        self.differences.append(f"{self.at}: {what}")
        if self.keep:
            self.keep.mkdir(parents=True, exist_ok=True)
            (self.keep / f"{self.at.replace(':', '-')}.wasm").write_bytes(data)
        return "DIFFERS"

    def command(self, command: Command) -> Optional[str]:
        kind = command["type"]
        if kind in ("assert_return", "assert_trap", "assert_exhaustion", "action"):
            return self.act(command)
        if kind == "alias":
            self.modules[command["name"]] = self.modules[command["of"]]
        elif kind == "register":
            self.shared[name(command["as"].encode())] = self.modules[command["name"]] if "name" in command else self.the_last()
        elif command.get("module_type") == "text":
            raise Skip("the text format")
        else:
            data = (self.path.parent / command["filename"]).read_bytes()
            for registered, instance in self.shared.items():
                if registered in data:
                    instance.lost = instance.lost or "another module, which shares what it has"
            outcome: Optional[str] = getattr(self, kind)(command, data)
            return outcome
        return None

    def the_last(self) -> Instance:
        assert self.last
        return self.last

    def module(self, command: Command, data: bytes) -> str:
        self.last = instance = Instance(data)
        if "name" in command:
            self.modules[command["name"]] = instance
        told = self.tell(["check"], data)
        if told.startswith("decode 11"):
            outcome = self.with_integers(data, None, [I64])
            if outcome:
                self.counts["the same module", outcome] += 1
        if instance.why or instance.changed:
            if told == "accepted":
                return self.differ(data, f"accepted, and has {instance.why or instance.changed}")
            if instance.why:
                raise Skip(instance.why)
            told = self.tell(["check"], instance.data)
            more = f", {instance.changed}"
        else:
            more = ""
        if told == "accepted":
            return f"agreed{more}"
        if instance.limit() and told.startswith(("decode 12", "validate 6")):
            instance.why = f"a named limit: {instance.limit()}"
            raise Skip(instance.why)
        instance.why = "its module is refused"
        return self.differ(instance.data, f"a valid module{more} is told `{told}`")

    def refused(self, command: Command, data: bytes) -> Optional[str]:
        if command.get("text") == "invalid result arity":
            raise Skip("several results, which the profile has")
        told = self.tell(["check"], data)
        if told.startswith("decode 11") and command["type"] == "assert_invalid":
            built = with_imports_built_in(data)
            data, told = built or data, self.tell(["check"], built) if built else told
        if told.startswith("decode 11") or command["type"] == "assert_invalid" and told.startswith("decode") and not told.startswith("decode 12"):
            return self.with_integers(data, OUTSIDE, [I64, I32])
        if told == "accepted" or not told.startswith(("decode", "validate")):
            return self.differ(data, f"{command['type']} ({command.get('text', '')}) is told `{told}`")
        text = command.get("text", "")
        if text and not is_fault(told, text):
            return self.differ(data, f"{command['type']} ({text}) is told `{told}`")
        return "agreed"

    assert_invalid = assert_malformed = refused

    def with_integers(self, data: bytes, otherwise: Optional[str], integers: Sequence[int]) -> Optional[str]:
        """Puts integers in the place of the module's floats, and compares with what wasm-validate says of that module."""
        outcome, judge = otherwise, self.judge
        for integer in integers if judge else []:
            try:
                changed = without_floats(data, integer)
            except (Outside, ValueError, IndexError):
                return otherwise
            told = self.tell(["check"], changed)
            if told.startswith("decode") and not told.startswith("decode 12"):
                continue
            path = pathlib.Path(self.folder.name) / "module.wasm"
            is_valid = subprocess.run([str(judge), str(path)], capture_output=True).returncode == 0
            if is_valid and told.startswith("decode 12"):
                return otherwise
            if is_valid != (told == "accepted"):
                return self.differ(changed, f"with integers for floats told `{told}`, and wasm-validate says {'valid' if is_valid else 'invalid'}")
            if not is_valid or len(integers) == 1:
                outcome = "agreed, with integers for floats"
        return outcome

    def assert_unlinkable(self, command: Command, data: bytes) -> str:
        told = self.tell(["check"], data)
        if told.startswith(("link", "decode 11")):
            return "agreed" if told.startswith("link") else OUTSIDE
        return self.differ(data, f"an unlinkable module is told `{told}`")

    def assert_uninstantiable(self, command: Command, data: bytes) -> str:
        instance = Instance(data)
        if instance.why:
            raise Skip(instance.why)
        module = Module(instance.data)
        module.add_row(b"row", [], b"\x0b")
        told = self.tell(["invoke", "row"], module.write())
        if told.startswith(("link 5", "start trap")):
            return f"agreed, {instance.changed}" if instance.changed else "agreed"
        return self.differ(module.write(), f"a module that has no instance is told `{told}`")

    def act(self, command: Command) -> str:
        action = command["action"]
        instance = self.modules.get(action["module"]) if "module" in action else self.last
        if instance is None:
            raise Skip("its module isn't there")
        if instance.why:
            raise Skip(f"its module: {instance.why}")
        return self.run(instance, action, command)

    def run(self, instance: Instance, action: Command, command: Command) -> str:
        module, field = instance.module, action["field"].encode()
        assert module
        is_get = action["type"] == "get"
        to = module.exported(field, 3 if is_get else 0)
        if to is None:
            raise Skip("what is called is an import of another module")
        values = action.get("args", []) + (command.get("expected") or [])
        dead = None if is_get else module.dead.get(to)
        writes = not is_get and to in instance.writers
        if dead or any(v["type"] not in TYPES for v in values):
            if writes and command["type"] == "assert_trap":
                instance.trapped = True
            elif writes:
                instance.lost = dead or FLOAT
            raise Skip(f"a function with {dead or FLOAT}")
        if instance.lost:
            raise Skip(f"behind what was skipped: {instance.lost}")
        by_row = is_get or instance.calls or b"\0" in field
        call = ["row"] if by_row else [action["field"], *(v["value"] for v in action["args"])]
        data = instance.row(action) if by_row else instance.data
        told = self.tell(["invoke", "--fuel", FUEL, "--depth", DEPTH, "--", *call], data)
        kind = command["type"]
        if kind in ("assert_return", "action"):
            is_right = told.startswith("return")
            if is_right and kind == "assert_return":
                results = [int(w) for w in told.split(" used ")[0].split()[1:]]
                wanted = [signed(v) for v in command["expected"]]
                is_right = results == wanted
            if writes:
                instance.calls.append(action)
        elif kind == "assert_trap":
            code = TRAPS.get(command.get("text", ""))
            is_right = told.startswith(f"trap {code} " if code else "trap ")
            instance.trapped |= writes
        else:
            is_right = told.startswith(("depth", "spent"))
        if not is_right:
            if told.startswith("depth") and is_deep(action):
                return "skipped: a named limit: 128 calls in one another"
            if told.startswith("return -1 ") and to in instance.growers and not is_get and can_grow_past(module):
                instance.lost = "growing past 64 pages"
                return "skipped: a named limit: a memory grows past 64 pages"
            return self.differ(data, f"{kind} {action['field']!r} {[v['value'] for v in values]} {command.get('text', '')} is told `{told}`")
        notes = {instance.changed: instance.changed, "behind earlier calls": instance.calls, "an earlier trap left out": by_row and instance.trapped}
        return ", ".join(["agreed", *(note for note, is_so in notes.items() if is_so)])


def is_fault(told: str, text: str) -> bool:
    """Whether the program's fault is one that says what the suite says."""
    words = next((answers for begin, answers in FAULTS if text.startswith(begin)), "").split(" ")
    return told.split(" ")[:2] in [words[at:at + 2] for at in range(0, len(words), 2)]


def is_deep(action: Command) -> bool:
    """Whether a call may nest deeper than the depth given. The suite's recursions are as deep as their argument."""
    return any(int(value["value"]) > int(DEPTH) for value in action.get("args", []))


def can_grow_past(module: Module) -> bool:
    return any(most is None or most > 64 for _, most in module.memories)


def signed(value: Mapping[str, str]) -> int:
    bits, number = (32 if value["type"] == "i32" else 64), int(value["value"])
    return number - (1 << bits) if number >> (bits - 1) else number


def main() -> int:
    parser = argparse.ArgumentParser(description=(__doc__ or "").split("\n")[0])
    parser.add_argument("program")
    parser.add_argument("folders", nargs="+", type=pathlib.Path)
    parser.add_argument("--keep", type=pathlib.Path)
    options = parser.parse_args()
    suite = Suite(options.program, options.keep)
    for folder in options.folders:
        for path in sorted(folder.rglob("*.json")):
            suite.file(path)
    print()
    for (kind, outcome), n in sorted(suite.counts.items()):
        print(f"{n:6} {kind:22} {outcome}")
    print()
    for line in suite.differences:
        print(line)
    total: Counter[str] = collections.Counter()
    for (_, outcome), n in suite.counts.items():
        total[outcome.split(":")[0].split(",")[0]] += n
    print(f"{sum(total.values())} commands: {total['agreed']} agreed, {total['DIFFERS']} differed, "
          f"{total['outside']} refused and outside the profile anyway, {total['skipped']} skipped")
    return 1 if suite.differences else 0


if __name__ == "__main__":
    sys.exit(main())
