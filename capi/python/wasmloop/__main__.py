"""The tools of this package by their names, and the program: `python3 -m wasmloop`, and `wasmloop` where the wheel is installed.

    wasmloop                        lists commands and tools
    wasmloop profile FILE ..        a tool
    wasmloop work FILE ..           a command of the program
"""

from __future__ import annotations

import difflib
import importlib
import os
import re
import runpy
import shutil
import subprocess
import sys
from typing import List, Optional

from . import _tool

TOOLS = "cc", "lower", "lines", "record", "replay", "plugin_record", "log", "profile", "cover", "fuzz", "freeze", "ask", "bind"
COMMANDS = "check", "invoke", "work", "script", "serve", "help"


def program() -> Optional[str]:
    """The program: that of the wheel, else the one on PATH that isn't this command; None if there is none."""
    mine = os.path.join(os.path.dirname(os.path.abspath(__file__)), "program")
    found = mine if os.path.isfile(mine) else shutil.which("wasmloop")
    return found if found and os.path.realpath(found) != os.path.realpath(sys.argv[0]) else None


def listed(start: str = "python3 -m wasmloop ") -> int:
    """Prints a line for each tool: the first clause of its documentation."""
    for name in TOOLS:
        doc = (importlib.import_module(f"wasmloop.{name}").__doc__ or "").replace("\n", " ")
        print(f"{start}{name:15}{re.split('[.:] ', doc)[0]}")
    return 0


def helped() -> None:
    """What the program says of itself, and the tools."""
    found = program()
    if found:
        subprocess.run([found, "help"], check=False)
        print("\nTools:")
    sys.stdout.flush()
    listed("wasmloop ")


def command(words: List[str]) -> int:
    """Runs a tool, or the program in place of this process."""
    if words[0] in TOOLS:
        _tool.START = "wasmloop "
        sys.argv[1:] = words[1:]
        runpy.run_module(f"wasmloop.{words[0]}", run_name="__main__")
        return 0
    if words[0] not in COMMANDS and not words[0].startswith("-"):
        near = " or ".join(difflib.get_close_matches(words[0], (*COMMANDS, *TOOLS)))
        print(f"wasmloop: {words[0]} is no command and no tool{f'; do you mean {near}?' if near else ''}", file=sys.stderr)
        return 2
    found = program()
    if not found:
        print(f"wasmloop: {words[0]} is no tool, and the program wasmloop is not there", file=sys.stderr)
        return 2
    sys.stdout.flush()
    os.execv(found, ["wasmloop", *words])


def chosen() -> int:
    """Does what the words of `wasmloop` ask for."""
    words = sys.argv[1:]
    if words in ([], ["help"], ["--help"], ["-h"]):
        helped()
        return 0
    return command([words[1], "--help"] if words[0] == "help" and words[1] not in COMMANDS else words)


def main() -> None:
    """`wasmloop`, as the wheel installs it."""
    _tool.run("wasmloop", chosen)


if __name__ == "__main__":
    _tool.run("wasmloop", lambda: command(sys.argv[1:]) if sys.argv[1:] else listed())
