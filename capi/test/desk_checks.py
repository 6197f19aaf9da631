"""What is wrong in the tests of the tools, told and counted; and where their guests and files are."""

from __future__ import annotations

import os
import sys
from pathlib import Path
from typing import List

PROGRAM, OUT = os.path.abspath(sys.argv[1]), Path(sys.argv[2])
EXAMPLES = Path(__file__).resolve().parent.parent.parent / "examples"
THREADS = max(os.cpu_count() or 1, 2) - 1
found: List[str] = []


def bad(text: str) -> None:
    found.append(text)
    print(f"WRONG: {text}")


def same(what: str, got: object, wanted: object) -> None:
    if got != wanted:
        bad(f"{what}: expected {wanted!r}, found {got!r}")
