"""Makes the wheel of Python's wasmloop: the package capi/python/wasmloop, dist/libwasmloop.so.0, and the program with the command `wasmloop` over it
and the tools, with the same bytes wherever it is made.

It is what pip calls for `pip install ./capi` (PEP 517), and a program: make_wheel.py FOLDER
"""

from __future__ import annotations

import base64
import hashlib
import os
import re
import sys
import zipfile
from typing import Iterator, Tuple

CAPI = os.path.dirname(os.path.realpath(__file__))
TOP = os.path.dirname(CAPI)
KIT = "guest.h guest.c wasi.c nofiles.c setjmp.h setjmp.c soft.c".split()
# The library takes malloc, realloc, free and three functions on bytes of glibc, the youngest since 2.14; no older one has a tag than 2.17.
# (the program asks for glibc 2.34)
PROGRAM = "wasmloop/program"
TAG = "py3-none-manylinux_2_17_x86_64.manylinux2014_x86_64"


def read(path: str) -> bytes:
    with open(path, "rb") as file:
        return file.read()


def version() -> str:
    return str(re.findall(r'#define WASMLOOP_VERSION "(.*)"', read(f"{CAPI}/include/wasmloop.h").decode())[0])


def package() -> Iterator[Tuple[str, str]]:
    """The files of the package, as where they go and where they are: the tools, and the headers and sources for guests."""
    for folder in ("wasmloop", "wasmloop/lowering"):
        for name in sorted(os.listdir(f"{CAPI}/python/{folder}")):
            if name.endswith((".py", ".wasm")):
                yield f"{folder}/{name}", f"{CAPI}/python/{folder}/{name}"
    for name in ("uv.h", "uv.rs", "mem.c", *(f"kit/{it}" for it in KIT)):
        yield f"wasmloop/guest/{os.path.basename(name)}", f"{TOP}/examples/{name}"
    for name in ("fuzz_guest.c", "include/wasmloop.h"):
        yield f"wasmloop/guest/{os.path.basename(name)}", f"{CAPI}/{name}"


def build_wheel(folder: str, config_settings: object = None, metadata_directory: object = None) -> str:
    name, tags = f"wasmloop-{version()}", "".join(f"Tag: py3-none-{it}\n" for it in TAG.split("-")[2].split("."))
    info = f"{name}.dist-info"
    files = {
        **{path: read(file) for path, file in package()},
        "wasmloop/py.typed": b"",
        "wasmloop/libwasmloop.so.0": read(f"{TOP}/dist/libwasmloop.so.0"),
        PROGRAM: read(f"{TOP}/dist/wasmloop"),
        f"{info}/entry_points.txt": b"[console_scripts]\nwasmloop = wasmloop.__main__:main\n",
        f"{info}/PROOF.json": read(f"{TOP}/dist/PROOF.json"),
        f"{info}/METADATA": (
            f"Metadata-Version: 2.1\nName: wasmloop\nVersion: {version()}\n"
            "Summary: A host for WebAssembly modules on event loops\nRequires-Python: >=3.8\n"
        ).encode(),
        f"{info}/WHEEL": f"Wheel-Version: 1.0\nGenerator: make_wheel\nRoot-Is-Purelib: false\n{tags}".encode(),
    }
    sums = {path: base64.urlsafe_b64encode(hashlib.sha256(text).digest()).rstrip(b"=").decode() for path, text in files.items()}
    record = [f"{path},sha256={sums[path]},{len(text)}" for path, text in files.items()] + [f"{info}/RECORD,,", ""]
    files[f"{info}/RECORD"] = "\n".join(record).encode()
    made = f"{name}-{TAG}.whl"
    with zipfile.ZipFile(f"{folder}/{made}", "w", zipfile.ZIP_DEFLATED) as wheel:
        for path, text in files.items():
            entry = zipfile.ZipInfo(path, (1980, 1, 1, 0, 0, 0))
            entry.external_attr, entry.compress_type = (0o100755 if path == PROGRAM else 0o100644) << 16, zipfile.ZIP_DEFLATED
            wheel.writestr(entry, text)
    return made


def build_sdist(folder: str, config_settings: object = None) -> str:
    raise NotImplementedError("the wheel is made of the repository, and needs no other archive")


if __name__ == "__main__":
    print(f"{sys.argv[1]}/{build_wheel(sys.argv[1])}")
