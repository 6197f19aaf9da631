"""Compiles libraries of C as they are, from Debian's sources, as modules and as native programs.

CC and LD name another clang and wasm-ld, and CPU what is told to that clang in the place of -mcpu=mvp: with CPU= in the environment it compiles as it
does by itself, and lower.py rewrites each module. All is written to out/ beside this file.
"""

from __future__ import annotations

import os
import pathlib
import shutil
import subprocess
import sys
from typing import Collection, Iterable, Mapping, Sequence

import libraries

HERE = pathlib.Path(__file__).resolve().parent
OUT = HERE / "out"
SOURCES = OUT / "src"
KIT = HERE.parent / "kit"
APT_CONFIG = HERE.parent.parent / "tools" / "apt_config.sh"
CC, LD = os.environ.get("CC", "clang"), os.environ.get("LD", "wasm-ld")
CPU = os.environ.get("CPU", "-mcpu=mvp").split()
LIBC = pathlib.Path("/usr/lib/wasm32-wasi")
BUILTINS = subprocess.run([CC, "--target=wasm32-wasi", "-print-libgcc-file-name"], stdout=subprocess.PIPE,
                          check=True).stdout.decode().strip()
WASM = [CC, "--target=wasm32-wasi", *CPU, "-O2", "-w", "-isystem", str(KIT), f"-I{KIT}", f"-I{HERE.parent}",
        "-D_WASI_EMULATED_SIGNAL", "-D_WASI_EMULATED_PROCESS_CLOCKS", "-D_WASI_EMULATED_GETPID"]
NATIVE = [CC, "-O2", "-w", f"-I{KIT}"]
LINK = [LD, "--no-entry", "--export-table", "--stack-first", "--strip-debug", "--compress-relocations",
        "-zstack-size=131072"]
LIBRARIES = [LIBC / "libc.a", LIBC / "libm.a", BUILTINS,
             *(LIBC / f"libwasi-emulated-{n}.a" for n in ("signal", "process-clocks", "getpid"))]
CPP = ["-std=c++17", "-fno-exceptions", "-fno-rtti"]
CPP_LIBRARIES = [LIBC / "libc++.a", LIBC / "libc++abi.a"]


def call(*words: object, env: Mapping[str, str] | None = None, cwd: pathlib.Path | None = None) -> bytes:
    """Runs a command; an error of it ends this program with its words."""
    done = subprocess.run([str(w) for w in words], stdout=subprocess.PIPE, stderr=subprocess.PIPE, env=env, cwd=cwd)
    if done.returncode:
        sys.exit(f"{' '.join(str(w) for w in words)}\n{done.stderr.decode()[-2000:]}")
    return done.stdout


def fetch(package: str) -> bool:
    """Debian's source of a package, unpacked as it is, without Debian's patches. False where it can't be fetched."""
    folder = SOURCES / package
    if folder.exists():
        return True
    SOURCES.mkdir(parents=True, exist_ok=True)
    suite = ["sid"] if package in libraries.OF_SID else []
    env = os.environ | {"APT_CONFIG": call(APT_CONFIG, OUT / "-".join(["apt", *suite]), *suite).decode().strip()}
    told = call("apt-cache", "showsrc", package, env=env).decode()
    # (the newest first; a mirror may lack the sources of an update)
    for version in reversed([line.split()[1] for line in told.split("\n") if line.startswith("Version: ")]):
        words = ["apt-get", "source", "-q", "--tar-only", "--download-only", f"{package}={version}"]
        if subprocess.run(words, cwd=SOURCES, env=env, stdout=subprocess.DEVNULL, stderr=subprocess.DEVNULL).returncode == 0:
            break
    archives = [p for p in SOURCES.glob(f"{package}_*.orig.tar.*") if p.suffix != ".asc"]
    if len(archives) != 1:
        return False
    folder.mkdir()
    call("tar", "xf", archives[0], "-C", folder, "--strip-components=1")
    without_links(folder)
    return True


def without_links(folder: pathlib.Path) -> None:
    """Puts the file to which a link leads in the link's place: `rt ci` refuses a tree with links."""
    for link in [it for it in folder.rglob("*") if it.is_symlink()]:
        to = link.resolve()
        link.unlink()
        if to.is_file() and folder.resolve() in to.parents:
            shutil.copyfile(to, link)


def compile_all(compiler: Sequence[str], sources: Iterable[pathlib.Path], folder: pathlib.Path) -> list[pathlib.Path]:
    folder.mkdir(parents=True, exist_ok=True)
    objects = []
    for number, source in enumerate(sources):
        made = folder / f"{number}_{source.stem}.o"
        if not made.exists() or made.stat().st_mtime < source.stat().st_mtime:
            call(*(compiler if source.suffix == ".c" else in_cpp(compiler)), "-c", "-o", made, source)
        objects.append(made)
    return objects


def in_cpp(compiler: Sequence[str]) -> list[str]:
    return [compiler[0].replace("clang", "clang++"), *compiler[1:], *CPP]


def write_made(name: str, port: libraries.Port) -> None:
    """Writes what a configure script would, of the package's own templates."""
    for file, (template, places) in port.made.items():
        text = (SOURCES / template).read_text()
        for place, what in places.items():
            text = text.replace(place, what)
        target = OUT / name / "made" / file
        target.parent.mkdir(parents=True, exist_ok=True)
        if not target.exists() or target.read_text() != text:
            target.write_text(text)


def files(patterns: Iterable[str], without: Collection[str] = ()) -> list[pathlib.Path]:
    found = []
    for pattern in patterns:
        matching = sorted(SOURCES.glob(pattern))
        if not matching:
            sys.exit(f"no file {pattern}")
        found += [f for f in matching if f.name not in without]
    return found


def compilable(names: Sequence[str]) -> list[str]:
    """Those of the libraries that can be compiled: without Debian's C++ library for wasm none in C++. Says what is left out."""
    lacking = [it for it in names if libraries.PORTS[it].cpp and not CPP_LIBRARIES[0].exists()]
    if lacking:
        print(f"left out: there is no {CPP_LIBRARIES[0]} for {', '.join(lacking)}")
    return [it for it in names if it not in lacking]


def soft() -> pathlib.Path:
    """soft.c as a module of its own, of which lower.py takes what it needs."""
    made, = compile_all(WASM + ["-ffreestanding"], [KIT / "soft.c"], OUT)
    call(*LINK, "-o", OUT / "soft.wasm", made)
    return OUT / "soft.wasm"


def port_flags(name: str, port: libraries.Port) -> list[str]:
    return port.flags.replace("@", str(SOURCES)).replace("%", str(OUT / name / "made")).split()


def glue(name: str, port: libraries.Port) -> pathlib.Path:
    return HERE / "glue" / f"{name}.{'cpp' if port.cpp else 'c'}"


def module(name: str, port: libraries.Port) -> pathlib.Path:
    """The library with its glue as a module of the host's."""
    folder = OUT / name
    wasm = folder / f"{name}.wasm"
    kit = [KIT / "guest.c", KIT / "wasi.c", HERE.parent / "mem.c"]
    kit += [KIT / "nofiles.c"] if port.no_files else []
    kit += [KIT / "setjmp.c"] if port.jumps else []
    jumps = ["-mllvm", "-enable-emscripten-sjlj"] if port.jumps else []
    sources = [glue(name, port)] + files(port.sources, port.without)
    objects = compile_all(WASM + port_flags(name, port) + port.wasm_flags.split() + jumps, sources, folder / "w")
    objects += compile_all(WASM + ["-ffreestanding"], kit, folder / "k")
    libraries = [*(CPP_LIBRARIES if port.cpp else []), *LIBRARIES]
    call(*LINK, *(["--import-undefined"] if port.jumps else []), "-o", wasm, *objects, *libraries)
    if port.lower or CPU != ["-mcpu=mvp"]:
        print(name, call(sys.executable, KIT / "lower.py", wasm, wasm, "--soft", soft()).decode().strip(), flush=True)
    return wasm


def program(name: str, port: libraries.Port) -> pathlib.Path:
    """The same glue and library as a native program."""
    native = OUT / name / f"{name}.native"
    sources = [glue(name, port), KIT / "native.c"] + files(port.sources, port.without)
    objects = compile_all(NATIVE + port_flags(name, port), sources + files(port.native_sources), OUT / name / "n")
    call(CC.replace("clang", "clang++") if port.cpp else CC, "-o", native, *objects, "-lm")
    return native
