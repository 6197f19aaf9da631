"""The engines that the benches compare."""

from __future__ import annotations

import functools
import os
import subprocess
import tempfile
from pathlib import Path
from typing import Callable, List, Sequence, Union

StrPath = Union[str, Path]
Command = Sequence[StrPath]
# from words to the words that it prints
Engine = Callable[..., List[str]]
PROCESSORS = range(os.cpu_count() or 1)
HERE = Path(__file__).resolve().parent


def before_all_others() -> None:
    """This process and what it starts run before all others."""
    try:
        os.sched_setscheduler(0, os.SCHED_FIFO, os.sched_param(80))
    except OSError:
        print("no real-time class: times include what else runs")


def ours(library: Path) -> Command:
    """The program over this library, built into a folder that stays as long as the process."""
    archive = library / "libwasmloop.a" if library.is_dir() else library
    made = Path(tempfile.mkdtemp()) / "ours"
    subprocess.run(["cc", "-O2", f"-I{HERE.parents[1]}/capi/include", "-o", made, HERE / "ours.c", archive, "-lpthread"], check=True)
    return [made]


def of_root(root: Path, program: str, *mode: str) -> Command:
    """A program that was built in another root, run by that root's loader."""
    libraries = root / "usr/lib/x86_64-linux-gnu"
    return [libraries / "ld-linux-x86-64.so.2", "--library-path", libraries, root / "peers" / program, *mode]


def said(command: Command, *words: StrPath) -> list[str]:
    return subprocess.run([*command, *words], stdout=subprocess.PIPE, text=True, check=True).stdout.split()


def others(folder: Path) -> dict[str, Command]:
    """The command of each engine that fetch.sh has built in the folder."""
    found = {}
    if (folder / "peers/peer-wasmi").exists():
        found["wasmi"] = of_root(folder, "peer-wasmi", "plain")
        found["wasmi, fuel"] = of_root(folder, "peer-wasmi", "fuel")
    if (folder / "peers/peer-wasmedge").exists():
        found["WasmEdge"] = of_root(folder, "peer-wasmedge", "plain")
    return found


def engines(library: StrPath, folder: Path) -> dict[str, Engine]:
    """This library first, then the others, each as a function from words to the words that it prints."""
    commands = {"ours": ours(Path(library)), **others(folder)}
    return {name: functools.partial(said, command) for name, command in commands.items()}
