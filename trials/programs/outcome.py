"""How a call of a module's export ends, by the program and by V8, in the same words."""

from __future__ import annotations

import pathlib
import shutil
import subprocess
from typing import List, Sequence, Tuple, Union

HERE = pathlib.Path(__file__).resolve().parent
ALL_FUEL = str(2**64 - 1)
WASM = ["clang", "--target=wasm32-wasi", "-mcpu=mvp", "-w"]
LINK = ["wasm-ld", "--no-entry", "--gc-sections", "--strip-all", "--stack-first", "-zstack-size=131072"]
# Of V8's words for an indirect call that fails two are one.
TRAPS_OF_V8 = {"6": "6 or 7", "7": "6 or 7"}


Word = Union[str, pathlib.Path]                          # of a command


class Late(Exception):
    """A process took too long."""


def said(command: Sequence[Word], seconds: float) -> Tuple[str, int]:
    """What a process prints, and its status."""
    try:
        done = subprocess.run(command, stdout=subprocess.PIPE, stderr=subprocess.PIPE, stdin=subprocess.DEVNULL, timeout=seconds)
    except subprocess.TimeoutExpired as late:
        raise Late(str(command[0])) from late
    return done.stdout.decode(errors="replace").strip() or done.stderr.decode(errors="replace").strip(), done.returncode


def by_program(program: str, module: pathlib.Path, export: str, *values: str, seconds: int = 120) -> str:
    """`return 1 2`, `trap 4`, `no end`, or the first line that the program prints."""
    try:
        told, _ = said([program, "invoke", module, "--fuel", ALL_FUEL, "--depth", "128", "--", export, *values], seconds)
    except Late:
        return "no end"
    line = told.split("\n")[0].split(" used ")[0]
    words = line.removeprefix("start ").split(" ")
    return f"trap {TRAPS_OF_V8.get(words[1], words[1])}" if words[0] == "trap" else line


def by_v8(module: pathlib.Path, *calls: str, seconds: int = 60) -> List[str]:
    """The same of V8 for each call (`f`, or `f,1,2n` with values, an n behind an i64), `depth` where its stack is full."""
    return said(["node", HERE / "v8.mjs", module, *calls], seconds)[0].split("\n")


def need(*commands: str) -> None:
    """Ends where one of these isn't installed."""
    missing = [command for command in commands if not shutil.which(command)]
    if missing:
        raise SystemExit(f"not installed: {' '.join(missing)}")
