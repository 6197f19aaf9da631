#!/usr/bin/env python3
"""Profiles the requests of examples/libraries and examples/rust/crates: the units of all functions, of all call paths and of the call tree are
those that the host charges. The guests are built as there, by Debian's sources; what lacks a package is left out, and said.

usage: PYTHONPATH=capi/python WASMLOOP_LIBRARY=LIBRARY exact_test.py PROGRAM [NAME..]     ends with 1 if a sum is another, or not exact
"""

from __future__ import annotations

import pathlib
import sys
import tempfile
import warnings
from typing import Iterator, Sequence, Tuple

TOP = pathlib.Path(__file__).resolve().parent.parent.parent
sys.path[:0] = [str(TOP / "examples/libraries"), str(TOP / "examples/rust/crates")]
import check as crates                                  # noqa: E402
import compiling                                        # noqa: E402
import libraries                                        # noqa: E402
from wasmloop import InertImports, Module, profile, runs, wasm  # noqa: E402

# name, the request's description, module, operation, request
Asked = Tuple[str, str, bytes, int, bytes]
DEPTH = 127                                             # (with counters a run has one nested call more)


def of_libraries(names: Sequence[str]) -> Iterator[Asked]:
    """Each request of these libraries."""
    lacking = [it for it in sorted({it.package for it in libraries.PORTS.values()}) if not compiling.fetch(it)] if names else []
    if lacking:                                         # (their files are requests of others)
        print(f"left out: libraries: the sources of {', '.join(lacking)} can't be fetched")
        return
    for name in compiling.compilable(names):
        compiling.write_made(name, libraries.PORTS[name])
        data = compiling.module(name, libraries.PORTS[name]).read_bytes()
        for _, operation, request, what in (it for it in libraries.rows(compiling.SOURCES) if it[0] == name):
            yield name, what, data, operation, request


def of_crates(program: pathlib.Path, folder: pathlib.Path, names: Sequence[str]) -> Iterator[Asked]:
    """The same of these crates."""
    if names and not crates.CARGO.exists():
        print(f"left out: crates of Rust: there is no {crates.CARGO}")
        return
    for name in names:
        made = crates.module(program, folder, name)
        if made is None:
            print(f"{name}: left out, there is no Debian package of {crates.dependencies(name)}")
            continue
        for request in crates.REQUESTS[name]:
            yield name, f"{len(request)} bytes", made.read_bytes(), 0, request


def is_exact(name: str, what: str, data: bytes, operation: int, request: bytes) -> bool:
    """Whether each sum is the host's."""
    host = Module(data)
    told = profile.Profile(wasm.Module(data), runs.Request(data, host, operation, request, DEPTH), samples=3)
    sums = [sum(told.functions.values()), sum(told.paths.values()), sum(it.units for it in told.nodes)]
    right = set(sums) == {told.ran.used}
    print(f"{name}: {what}: {told.ran.ending}, {told.ran.used:,} units, {'each sum as the host' if right else f'WRONG: {sums}'}"
          f"{'; call paths are sampled: ' + told.why if told.why else ''}", flush=True)
    return right


def main(program: pathlib.Path, names: Sequence[str]) -> int:
    warnings.simplefilter("ignore", InertImports)       # (as the tools do)
    with tempfile.TemporaryDirectory() as room:
        folder = pathlib.Path(room)
        (folder / "soft.wasm").write_bytes(compiling.soft().read_bytes())
        known = [it for it in libraries.PORTS if not names or it in names], [it for it in crates.REQUESTS if not names or it in names]
        ran = [[(it[0], is_exact(*it)) for it in found] for found in (of_libraries(known[0]), of_crates(program, folder, known[1]))]
    right = [it for part in ran for _, it in part]
    numbers = [len({name for name, _ in part}) for part in ran]
    print(f"{len(right)} requests of {numbers[0]} libraries and {numbers[1]} crates, {'all' if all(right) else f'only {sum(right)}'} exact")
    return 0 if right and all(right) else 1


if __name__ == "__main__":
    sys.exit(main(pathlib.Path(sys.argv[1]).resolve(), sys.argv[2:]))
