"""What the tools share: the command line, files, messages and the exit status.

0: success. 1: a file cannot be read or written, a program is missing, or a check fails. 2: usage error. 3: the module is rejected. 4: the
guest did not return.
"""

from __future__ import annotations

import argparse
import os
import sys
import warnings
from typing import Callable, Optional, Tuple, Union

from . import Error, InertImports, Module, OutOfRange, Refused, wasm
from ._abi import _lib, _name_of

STATUSES = "Status: 0 success; 1 a file or a program is missing; 2 usage error; 3 the module is rejected; 4 the guest did not return"


class Failed(Exception):
    """Ends a tool with this message and status."""

    def __init__(self, why: str, status: int = 1) -> None:
        super().__init__(why)
        self.status = status


START = "python3 -m wasmloop."                          # what a usage line begins with; the command `wasmloop` sets its own


def words(tool: str, doc: Optional[str], more: str = "") -> argparse.ArgumentParser:
    """A parser whose help is the docstring of the module."""
    return argparse.ArgumentParser(prog=f"{START}{tool}", description=(doc or "").strip(), epilog=STATUSES + more,
                                   formatter_class=argparse.RawDescriptionHelpFormatter)


def whole(least: int) -> Callable[[str], int]:
    """The type of an argument that is a whole number, `least` or more."""
    def number(word: str) -> int:
        if int(word) < least:
            raise argparse.ArgumentTypeError(f"expected {least} or more, found {word}")
        return int(word)
    return number


def read(file: str) -> bytes:
    """The bytes of a file; - is standard input."""
    if file == "-":
        return sys.stdin.buffer.read()
    with open(file, "rb") as it:
        return it.read()


def write(file: str, data: Union[str, bytes]) -> None:
    """Writes text or bytes to a file; - is standard output."""
    data = data.encode() if isinstance(data, str) else data
    if file == "-":
        sys.stdout.flush()
        sys.stdout.buffer.write(data)
        return
    with open(file, "wb") as it:
        it.write(data)


def load(data: bytes, file: str) -> Tuple[Module, wasm.Module]:
    """The module as the library loads it, and as wasm.py reads it."""
    try:
        return Module(data), wasm.Module(data)
    except Refused as why:
        raise Failed(f"{file}: {why}", 3) from None


def ended(who: object, ending: Optional[str], trap: int, used: int, where: Optional[str], depth: int) -> str:
    """The sentence on a run that did not return, as the program prints it."""
    name = _name_of(_lib.wasmloop_trap_name(trap))
    why = {"trap": f"trapped: {name} ({trap})", "depth": f"exceeded the call-depth limit of {depth}", "spent": "ran out of fuel"}.get(ending or "", ending)
    return f"{who} {why}, after {used} unit{'' if used == 1 else 's'}, {where}"


def near(file: str) -> str:
    """A path relative to the current folder, if it lies near."""
    short = os.path.relpath(file)
    return file if short.startswith("../..") else short


def status_of(main: Callable[[], int]) -> Union[int, str, None]:
    """The status that `main` returns or exits with, as argparse does behind its help."""
    try:
        return main()
    except SystemExit as why:
        return why.code


def run(tool: str, main: Callable[[], int]) -> None:
    """Ends the process with the status that `main` returns, or with that of the exception it raises; quietly, if nobody reads its output."""
    warnings.simplefilter("ignore", InertImports)       # a tool itself reports what a guest calls
    try:
        status = status_of(main)
        sys.stdout.flush()
    except Failed as why:
        status = why.status
        print(f"{tool}: {why}", file=sys.stderr)
    except wasm.Malformed as why:
        status = 3
        print(f"{tool}: {why}", file=sys.stderr)
    except OutOfRange as why:
        status = 2
        print(f"{tool}: {why}", file=sys.stderr)
    except Error as why:
        status = 1
        print(f"{tool}: {why}", file=sys.stderr)
    except BrokenPipeError:
        os.dup2(os.open(os.devnull, os.O_WRONLY), sys.stdout.fileno())
        status = 1
    except OSError as why:
        status = 1
        print(f"{tool}: {why.filename or 'output'}: {why.strerror}", file=sys.stderr)
    except KeyboardInterrupt:
        status = 130
    sys.exit(status)
