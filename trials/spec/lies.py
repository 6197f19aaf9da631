#!/usr/bin/env python3
"""Whether the runner notices a program that lies: trials/spec/lies.py PROGRAM MODULES

MODULES is the folder of that name which run.sh leaves in OUT. A few of its files are run by the program, which has to agree, and by
the same program with its answers changed in one way; then something has to differ. Status 1: a lie went unnoticed.
"""

from __future__ import annotations

import pathlib
import shutil
import subprocess
import sys
import tempfile
from typing import Tuple

HERE = pathlib.Path(__file__).resolve().parent
FILES = ["block", "align", "traps"]
LIAR = """#!{python} -IS
import re, subprocess, sys
from typing import Tuple
done = subprocess.run([{program!r}, *sys.argv[1:]], capture_output=True, text=True)
told, status = done.stdout or done.stderr, done.returncode
{lie}
print(told, end="")
sys.exit(status)
"""
LIES = {
    "nothing": "",
    "each module is accepted": "if told.startswith(('decode', 'validate')): told, status = 'accepted\\n', 0",
    "each module is refused": "if told.startswith('accepted'): told, status = 'validate 1 Type\\n', 3",
    "a first result is one too great":
        "told = re.sub(r'^return (-?\\d+)', lambda found: f'return {int(found[1]) + 1}', told)",
    "a trap is told as a return": "if told.startswith('trap'): told, status = 'return 0 used 1\\n', 0",
    "each trap is told as unreachable": "told = re.sub(r'^trap \\d+ \\w+', 'trap 1 Unreachable', told)",
    "a return is told as spent": "if told.startswith('return'): told, status = 'spent\\n', 4",
    "a return is told as too deep": "if told.startswith('return'): told, status = 'depth used 1\\n', 4",
    "each fault is told as one of types": "told = re.sub(r'^(decode|validate) .*', 'validate 1 Type', told)",
    "each status is 0": "status = 0",
}


def differences(program: pathlib.Path, folder: pathlib.Path) -> Tuple[int, bool]:
    """How many commands differ, and whether the runner's status says so."""
    done = subprocess.run([sys.executable, HERE / "spec.py", program, folder], capture_output=True, text=True)
    differed = int(done.stdout.splitlines()[-1].split(" agreed, ")[1].split()[0])
    return differed, done.returncode == (1 if differed else 0)


def main(program: str, modules: pathlib.Path) -> int:
    unnoticed = 0
    with tempfile.TemporaryDirectory() as name:
        folder = pathlib.Path(name)
        (folder / "modules").mkdir()
        for file in FILES:
            for path in [modules / f"{file}.json", *modules.glob(f"{file}.[0-9]*.wasm")]:
                shutil.copy(path, folder / "modules")
        liar = folder / "liar"
        for lie, text in LIES.items():
            liar.write_text(LIAR.format(python=sys.executable, program=str(pathlib.Path(program).resolve()), lie=text))
            liar.chmod(0o755)
            differed, is_told = differences(liar, folder / "modules")
            unnoticed += not is_told or (differed > 0) != (lie != "nothing")
            print(f"{lie}: {differed} differed", flush=True)
    return 1 if unnoticed else 0


if __name__ == "__main__":
    if len(sys.argv) != 3:
        sys.exit(__doc__)
    sys.exit(main(sys.argv[1], pathlib.Path(sys.argv[2])))
