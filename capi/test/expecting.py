"""What tests of the tools expect: `wrong` counts the differences, of which the first are printed."""

from __future__ import annotations

import shutil
import subprocess
import sys
from pathlib import Path
from typing import Any, List, Optional

from wasmloop import Instance

TOP = Path(__file__).resolve().parent.parent.parent
wrong = 0


def same(what: str, got: object, expected: object) -> None:
    global wrong
    if got != expected:
        wrong += 1
        if wrong < 10:
            print(f"WRONG: {what}: expected {expected!r}, found {got!r}")


def of_other_type(it: object) -> Any:
    """An argument that no call takes: so it is not compared with the call's types."""
    return it


def number(instance: Instance, name: str, *args: int) -> int:
    """The result of a call that has one."""
    result = instance.call(name, *args)
    assert isinstance(result, int), (name, result)
    return result


def run(*words: object) -> str:
    done = subprocess.run([str(it) for it in words], capture_output=True, check=False)
    if done.returncode:
        sys.exit(f"{' '.join(map(str, words))}\n{done.stderr.decode()}")
    return done.stdout.decode()


def rustc(out: Path) -> Optional[List[object]]:
    """The words that compile a host in Rust into `out`, over the crate and the library of dist/; None where there is no rustc."""
    found = next((it for it in ("/usr/bin/rustc", shutil.which("rustc")) if it and Path(it).exists()), None)
    if not found:
        return None
    words = [found, "--edition", "2021", "--out-dir", out]
    run(*words, "--crate-name", "wasmloop", "--crate-type", "rlib", "-L", TOP / "dist", "-l", "static=wasmloop", TOP / "capi" / "rust" / "src" / "lib.rs")
    return [*words, "-D", "warnings", "-L", out, "--extern", f"wasmloop={out}/libwasmloop.rlib"]
