#!/usr/bin/env python3
"""Crates of Debian as work functions, beside native builds of the same sources: `check.py PROGRAM FOLDER [NAME..]`.

Each file NAME.rs here has the crate's line for Cargo.toml in its head and a function `run` of bytes. It is compiled for the host and
natively, by Debian's cargo and rustc 1.63, without a network. SOFT.wasm (kit/soft.c compiled) lies in FOLDER; a module that the host
refuses goes through kit/lower.py. Status 1 if an answer is another; a crate that Debian's packages here lack is left out, and said.
"""

from __future__ import annotations

import os
import pathlib
import re
import shutil
import subprocess
import sys
from typing import Mapping, Union

HERE = pathlib.Path(__file__).resolve().parent
EXAMPLES = HERE.parent.parent
TARGET = "wasm32-unknown-unknown"
CARGO = pathlib.Path("/usr/bin/cargo")
DEBIAN = ["--config", 'source.crates-io.replace-with="debian"', "--config", 'source.debian.directory="/usr/share/cargo/registry"']
GPL = pathlib.Path("/usr/share/common-licenses/GPL-3").read_bytes()
MARKDOWN = b"# T\n\nsome *text* with `code` and [a](b)\n\n| a | b |\n|---|---|\n| 1 | ~~2~~ |\n\n1. x\n2. y\n   - z\n\n> q\n\n```\nfn\n```\n" * 40
OBJECT = b'{"b":[1,2.5,-1e300,0.1,1e-7,123456789012,{"x":null,"y":[true,false,"\\u00e9"]}],"a":"qq"}'
TOML = b'a = 1\nb = [1.5, 2.25]\n[t]\nx = "y"\nd = 1979-05-27T07:32:00Z\n[[q]]\nz = true\n'
StrPath = Union[str, pathlib.Path]
REQUESTS = {
    "base64": [GPL[:20000], b""], "bigint": [GPL], "blake3": [GPL, b"abc"], "crc32": [GPL],
    "csv": [b'a,"b ""c""",d\n1,2,3\n"x\ny",z\n' * 50], "json": [OBJECT, b"[1,2", b"[" * 60 + b"]" * 60],
    "markdown": [MARKDOWN, GPL[:20000]], "normal": ["é ﬁ Å ½ 한글 ".encode() * 100, GPL[:5000]], "regex": [GPL[:10000]],
    "sha2": [GPL, b""], "snap": [GPL], "toml": [TOML, b"a = "], "words": [GPL[:6000]],
}


def run(*words: object, cwd: pathlib.Path | None = None, env: Mapping[str, str] | None = None,
        given: bytes | None = None) -> subprocess.CompletedProcess[bytes]:
    return subprocess.run([str(word) for word in words], stdout=subprocess.PIPE, stderr=subprocess.PIPE, check=False, cwd=cwd, env=env, input=given)


def dependencies(name: str) -> str:
    return "\n".join(re.findall(r"^//! (.* = .*)$", (HERE / f"{name}.rs").read_text(), re.M))


def build(folder: pathlib.Path, name: str, library: bool, *words: str) -> pathlib.Path | None:
    """A crate of the glue and the file, and of what it is made of: none where Debian's packages lack a crate."""
    source = folder / "src" if library else folder / "src" / "guest"
    shutil.rmtree(folder / "src", ignore_errors=True)
    source.mkdir(parents=True)
    shutil.copy(HERE / "guest.rs.in", source / ("lib.rs" if library else "mod.rs"))
    shutil.copy(HERE / f"{name}.rs", source / "run.rs")
    shutil.copy(EXAMPLES / "uv.rs", source)
    if not library:
        shutil.copy(EXAMPLES / "rust/native/src/main.rs", folder / "src")
    kind = '[lib]\ncrate-type = ["cdylib"]\n' if library else ""
    profile = '[profile.release]\nlto = true\npanic = "abort"\nstrip = "debuginfo"\n'
    (folder / "Cargo.toml").write_text(f'[package]\nname = "guest"\nversion = "0.1.0"\nedition = "2021"\n{kind}[dependencies]\n{dependencies(name)}\n{profile}')
    env = os.environ | {"RUSTC": "/usr/bin/rustc", "CARGO_TARGET_DIR": str(folder / "target")}
    done = run(CARGO, "build", "-q", "--release", "--offline", *words, *DEBIAN, cwd=folder, env=env)
    if done.returncode and b"no matching package" in done.stderr:
        return None
    if done.returncode:
        sys.exit(f"{name}: {done.stderr.decode()[-2000:]}")
    return folder / "target"


def module(program: StrPath, folder: pathlib.Path, name: str) -> pathlib.Path | None:
    """The crate as a module of the host's."""
    shutil.copytree(EXAMPLES / "rust/deflate/.cargo", folder / name / ".cargo", dirs_exist_ok=True)
    built = build(folder / name, name, True, "--target", TARGET)
    if built is None:
        return None
    wasm = built / TARGET / "release" / "guest.wasm"
    if run(program, "check", wasm).returncode:
        lowered = folder / f"{name}.wasm"
        done = run(sys.executable, EXAMPLES / "kit/lower.py", wasm, lowered, "--soft", folder / "soft.wasm")
        if done.returncode:
            sys.exit(f"{name}: {done.stderr.decode()}")
        wasm = lowered
    return wasm


def check(program: StrPath, folder: pathlib.Path, name: str) -> int | None:
    """How many answers are other than the native ones; none where the crate is left out."""
    wasm, native = module(program, folder, name), build(folder / f"{name}_native", name, False)
    if wasm is None or native is None:
        print(f"{name}: left out, there is no Debian package of {dependencies(name)}")
        return None
    wrong = 0
    for data in REQUESTS[name]:
        told = run(program, "work", wasm, 0, *([data.hex()] if data else []), "--fuel", 1 << 40, "--depth", 128)
        same = told.stdout == run(native / "release" / "guest", 0, given=data).stdout and told.stdout.startswith(b"done")
        wrong += not same
        print(f"{name}: {wasm.stat().st_size} bytes, {len(data)} bytes in: {'as native' if same else 'WRONG: ' + told.stdout.decode()[:80]}", flush=True)
    return wrong


def main(program: str, folder: str, *names: str) -> bool:
    found = [check(os.path.abspath(program), pathlib.Path(folder).resolve(), name) for name in names or REQUESTS]
    print(f"{len([it for it in found if it is not None])} crates, {sum(it or 0 for it in found)} answers are not as native")
    return any(found)


if __name__ == "__main__":
    sys.exit(main(*sys.argv[1:]))
