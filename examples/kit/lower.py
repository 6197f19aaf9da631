#!/usr/bin/env python3
"""`python3 -m wasmloop.lower` of this checkout: `lower.py IN OUT [--soft FILE]`."""
import pathlib
import sys

sys.path.insert(0, str(pathlib.Path(__file__).resolve().parents[2] / "capi/python"))
from wasmloop import _tool  # noqa: E402
from wasmloop.lower import lower, main  # noqa: E402

__all__ = ["lower", "main"]

if __name__ == "__main__":
    _tool.run("lower", main)
