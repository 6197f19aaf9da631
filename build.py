"""Proves and builds programs of this repository, or a static library for C, and the libraries below them, several side by side, and
says how far it is and how many minutes are left.

usage: build.py PROGRAM..
       build.py PROGRAM --over-gate | --over FOLDER [--anew] [--jobs N]

`rt ci` proves the library for C as any other, since a static library's check reads the code of all below it, which would cost each of its
edits 25 seconds; here it is proved once more, as what it is, and compiled.

With --over-gate the libraries are those that `rt ci` has just proved, in out/rlib, with --over those of FOLDER, NAME.rlib each, and the
program alone is proved and built. What a static library came to is then kept on this machine, in ~/.cache/wasmloop, by the sums of all that it
rests on: kit, crate, libraries and this file, as `rt ci` keeps proofs; the next call takes it from there. --anew proves it once more, and so
does every call without --over. --jobs says how many jobs the check has at most: each reads all libraries, so one takes the least of the
processors' time.

`rt run` alone does the same, one library at a time: rt locks all libraries below the one that it works on. Here the locks
are taken once for all, as `rt all` takes them, and two or more libraries are built at a time, each once those below it
are; the one that most others wait for goes first. As under `rt ci`, a library is proved from nothing, and its statements alone are kept,
in out/statements: the crates above it load them in a fraction of the time that its proofs would take. Standard error has a line for each
crate, and where one is not proved, what rattle said of it.
"""

from __future__ import annotations

import argparse
import copy
import hashlib
import importlib.machinery
import importlib.util
import os
import re
import shutil
import signal
import subprocess
import sys
import time
from concurrent.futures import FIRST_COMPLETED, Future, ThreadPoolExecutor, wait
from typing import Dict, Iterator, List, NoReturn, Optional, Protocol, Sequence, TextIO, Tuple, cast

TOP = os.path.dirname(os.path.realpath(__file__))
# Libraries that are built as static ones, for C; what tools/statement.py says of them is of this proof.
FOR_C = ("wasmloop_c",)
# What a check takes of memory, as measured, in bytes: so much, so much more for each second that it takes, this at most; and of that this part more for
# each job beside the first.
CHECK, SECOND, MOST_MEMORY, BESIDE_ONE = 1_200_000_000, 8_000_000, 3_700_000_000, 0.1
# How exactly free memory is looked at, and the part of it that is used.
STEP, USED = 250_000_000, 0.9
# More jobs than these hardly shorten a check.
MOST_JOBS = 4
# With four jobs a check takes so many times the processors' time that it takes with one.
SHARED = 7 / 6
# What a crate is built with whose chain of crates up to the program takes less than this part of the longest that is left.
BESIDE, NEARLY = ["nice", "-n", "10"], 0.9
# How long nothing is said, in seconds.
QUIET = 30
# What each crate took in an earlier gate. A crate of another name is guessed to take as long as most.
TABLE = f"{TOP}/tools/gate.txt"
GUESSED = 100
# How many seconds the pace that is seen needs before it counts as much as the one that was measured.
TRUSTED = 300
sys.dont_write_bytecode = True
program_name = "build.py"


class RtCrate(Protocol):
    """What rt knows of a crate."""

    name: str
    folder: str
    rlib: str
    said: object
    deps: List[RtCrate]
    is_static: bool
    out: TextIO
    held: List[int]

    def below(self) -> List[RtCrate]: ...
    def makes_rlib(self) -> bool: ...
    def words(self, flags: Sequence[str], tests: bool = False, keeps: bool = True) -> List[str]: ...
    def compile(self, flags: Sequence[str], to: str) -> int: ...
    def call(self, *words: str) -> int: ...
    def check(self, flags: Sequence[str]) -> int: ...


class Kit(Protocol):
    """What rt itself is made of, as far as it is used here."""

    KIT: str
    RATTLE: str

    def Crate(self, folder: str, root: str, known: Dict[str, RtCrate]) -> RtCrate: ...
    def lock(self, crates: Sequence[RtCrate]) -> List[int]: ...
    def guarded(self) -> List[str]: ...
    def fits(self, *needs: int) -> bool: ...
    def files_of(self, folder: str) -> List[str]: ...
    def help_of(self, verb: str) -> str: ...


def say(text: str) -> None:
    print(f"{program_name}: {text}", file=sys.stderr, flush=True)


def clock(seconds: float) -> str:
    return f"{int(seconds) // 60}:{int(seconds) % 60:02}"


def minutes(seconds: float) -> str:
    whole = round(seconds / 60)
    return "less than a minute" if whole < 1 else "about a minute" if whole == 1 else f"about {whole} minutes"


def kit() -> Optional[Kit]:
    """Returns what rt itself is made of, or None where this kit has another shape."""
    page = subprocess.run(["rt", "doc"], stdout=subprocess.PIPE, text=True).stdout.strip()
    file = f"{os.path.dirname(page)}/bin/rtlib.py"
    if not os.path.isfile(file):
        return None
    loader = importlib.machinery.SourceFileLoader("rtlib", file)
    spec = importlib.util.spec_from_loader("rtlib", loader)
    assert spec
    made = importlib.util.module_from_spec(spec)
    sys.modules["rtlib"] = made
    loader.exec_module(made)
    wanted = ("Crate", "lock", "guarded", "fits", "files_of", "help_of", "KIT", "RATTLE")
    return cast(Kit, made) if all(hasattr(made, it) for it in wanted) and "--statements" in made.help_of("build") else None


def lowest_first(programs: Sequence[RtCrate], below_alone: bool = False) -> List[RtCrate]:
    """Returns the libraries below the programs, each once and after those that it uses, and behind them, unless these are all, the programs."""
    found: List[RtCrate] = []
    for program in programs:
        found += [it for it in program.below() if it not in found]
    return found if below_alone else [*found, *programs]


class Plan:
    """The libraries below the programs and, unless these are all, the programs, what each is likely to take, and what has been done."""

    def __init__(self, programs: Sequence[RtCrate], at_once: int = 1, jobs: int = 1, below_alone: bool = False) -> None:
        self.crates = lowest_first(programs, below_alone)
        self.at_once, self.jobs = at_once, jobs
        known = costs()
        self.work = {it: known[it.name][0] if it.name in known else GUESSED for it in self.crates}
        # what the longest chain of crates from each one up to the program takes (each crate stands behind those that it uses)
        self.behind: Dict[RtCrate, float] = {}
        for crate in reversed(self.crates):
            above = [self.behind[it] for it in self.behind if crate in it.deps]
            self.behind[crate] = self.alone(crate) + max(above, default=0)
        self.done: List[RtCrate] = []
        self.running: Dict[RtCrate, Tuple[float, int]] = {}
        self.began = time.monotonic()
        self.planned = self.unpaced()

    def alone(self, crate: RtCrate) -> float:
        """Returns what a crate takes that has the processors for itself. Of a program most is compiled by one."""
        work = self.work[crate]
        if not crate.makes_rlib():
            return work
        at_one = min(work / 2, 10 + work / 20)
        return at_one + (work - at_one) * SHARED / self.jobs

    def memory(self, crate: RtCrate, jobs: int) -> float:
        return min(CHECK + SECOND * self.work[crate], MOST_MEMORY) * (1 + BESIDE_ONE * (jobs - 1))

    def fitting(self, crate: RtCrate, jobs: int, room: float) -> int:
        """Returns as many of the jobs as have so much memory."""
        while jobs > 1 and self.memory(crate, jobs) > room:
            jobs -= 1
        return jobs

    def next(self, waiting: Sequence[RtCrate], room: float) -> Iterator[Tuple[RtCrate, int, bool]]:
        """Yields what can begin now within so much memory: a crate, its jobs, and whether the longest chain of crates stands on it."""
        ready = [it for it in waiting if all(dep in self.done for dep in it.deps)]
        free = self.at_once - len(self.running)
        for crate in ready:
            is_first = self.behind[crate] >= NEARLY * max(self.behind[it] for it in [*waiting, *self.running])
            # (where little else can be done, the processors that are free are for this one)
            jobs = self.jobs if is_first else min(self.jobs, max(1, free // len(ready)))
            left = room - sum(self.memory(it, taken) for it, (_, taken) in self.running.items())
            jobs = self.fitting(crate, jobs, left)
            if len(self.running) < self.at_once and (not self.running or self.memory(crate, jobs) <= left):
                self.running[crate] = time.monotonic(), jobs
                yield crate, jobs, is_first

    def skips(self, crates: Sequence[RtCrate]) -> None:
        """What is there already says nothing of the pace."""
        self.done += crates
        self.planned = self.unpaced()

    def ended(self, crate: RtCrate) -> None:
        self.done.append(crate)
        del self.running[crate]

    def elapsed(self) -> float:
        return time.monotonic() - self.began

    def part_done(self, crate: RtCrate) -> float:
        """Returns a guess of how much of a crate is done: beside others it takes twice what it would take of one processor."""
        if crate not in self.running:
            return 0
        began, _ = self.running[crate]
        return min(0.9, (time.monotonic() - began) / (2 * self.work[crate] + 10))

    def unpaced(self) -> float:
        """Returns how many seconds would be left where this machine is as fast as the one that was measured: what all crates take that
        are left, or the longest chain of them, where that is longer."""
        left = {it: self.part_done(it) for it in self.crates if it not in self.done}
        work = sum(self.work[it] * (1 - part) for it, part in left.items())
        chain = max((self.behind[it] - part * self.alone(it) for it, part in left.items()), default=0)
        return max(work * SHARED / self.at_once, chain)

    def left(self) -> float:
        """Returns how many seconds are left, at the pace so far."""
        unpaced = self.unpaced()
        return unpaced * (TRUSTED + self.elapsed()) / (TRUSTED + self.planned - unpaced)


def log_of(crate: RtCrate) -> str:
    os.makedirs(f"{crate.folder}/out", exist_ok=True)
    return f"{crate.folder}/out/build.log"


def sum_of(rtlib: Kit, crate: RtCrate, known: Dict[RtCrate, str]) -> str:
    """Returns a sum of all that the crate is built from. `known` takes the sums of those below it."""
    if crate not in known:
        known[crate] = own_sum(rtlib, crate, [sum_of(rtlib, it, known) for it in crate.deps])
    return known[crate]


def own_sum(rtlib: Kit, crate: RtCrate, more: Sequence[str], files: Sequence[str] = ()) -> str:
    """Returns a sum of the kit, of the crate's own files and its line of crates.txt, of some words more, and of some files."""
    made = hashlib.sha256(repr((crate.said, more)).encode())
    for file in [f"{rtlib.KIT}/WHAT", *files, *sorted(rtlib.files_of(crate.folder))]:
        with open(file, "rb") as it:
            made.update(repr((os.path.basename(file), it.read())).encode())
    return made.hexdigest()


def sum_over_built(rtlib: Kit, crate: RtCrate, files: Sequence[str]) -> str:
    """Returns a sum of all that a check of the crate rests on over libraries that are built, and of these files, which make the check."""
    # (the format of a library's rlib has the sums of its files)
    return own_sum(rtlib, crate, [], [*files, *[f"{it.rlib}/format" for it in crate.below()]])


def text_of(file: str) -> str:
    """Returns the text of a file, and of none the empty one."""
    if not os.path.isfile(file):
        return ""
    with open(file, encoding="utf-8", errors="replace") as it:
        return it.read()


def costs() -> Dict[str, Tuple[float, ...]]:
    """Returns the processor seconds that an earlier gate took for each crate: for its proof, and for compiling a program; for its tests' proofs; for
    its wrong bodies. Without that table, which order and number of checks rest on, it ends this program."""
    try:
        with open(TABLE, encoding="utf-8") as it:
            rows = re.findall(r"(?m)^(\w+): (.*)", it.read())
    except FileNotFoundError:
        sys.exit(f"{program_name}: expected the table of what crates take, {TABLE}, found no such file")
    return {name: tuple(map(float, rest.split())) for name, rest in rows}


def over_statements(crates: Sequence[RtCrate]) -> None:
    """Has the crates' libraries be those that this program builds."""
    for it in crates:
        it.rlib = f"{it.folder}/out/statements/{it.name}.rlib"


def sum_file(crate: RtCrate) -> str:
    return f"{os.path.dirname(crate.rlib)}/sum"


def is_built(rtlib: Kit, crate: RtCrate) -> bool:
    return crate.makes_rlib() and text_of(sum_file(crate)) == sum_of(rtlib, crate, {})


def build(rtlib: Kit, crate: RtCrate, jobs: int, is_first: bool) -> int:
    """Builds a crate, and returns the status of what did it."""
    crate = copy.copy(crate)
    if not crate.makes_rlib():
        with open(log_of(crate), "w", encoding="utf-8") as crate.out:
            return link(rtlib, crate, jobs)
    folder = os.path.dirname(crate.rlib)
    found = sum_of(rtlib, crate, {})
    shutil.rmtree(folder, ignore_errors=True)
    os.makedirs(folder)
    words = crate.words(["--jobs", str(jobs)], keeps=False)
    with open(log_of(crate), "w", encoding="utf-8") as crate.out:
        status = crate.call(*([] if is_first else BESIDE), rtlib.RATTLE, "build", *words, "--statements", "-o", crate.rlib)
    # (an edit while it was built leaves it to be built again)
    if status == 0 and sum_of(rtlib, crate, {}) == found:
        with open(sum_file(crate), "w", encoding="utf-8") as it:
            it.write(found)
    return status


def made_of(program: RtCrate) -> str:
    return f"out/lib{program.name}.a" if program.is_static else f"out/{program.name}"


def link(rtlib: Kit, program: RtCrate, jobs: int) -> int:
    """Proves the program over the libraries' statements, compiles and links it, and returns the status. A static library is not linked,
    and is for each x86-64 processor: nothing but a program's `main` looks at what this one can do."""
    if program.is_static:
        return program.compile(["--jobs", str(jobs), "--cpu", "x86-64"], made_of(program))
    made = made_of(program)
    status = program.compile(["--jobs", str(jobs)], f"{made}.o")
    if status:
        return status
    c = [f"{rtlib.KIT}/c/{it}" for it in ("libos_c.a", "liblibc_c.a")]
    words = ["--target", "x86_64-unknown-linux-gnu", "--toolchain", f"{rtlib.KIT}/toolchain"]
    return program.call(f"{rtlib.KIT}/bin/rattle-link", *words, "-o", made, f"{made}.o", *c)


def fail(crate: RtCrate, status: int) -> NoReturn:
    """Says what rt said of the crate, and ends. What else runs ends with this process."""
    said = text_of(log_of(crate)).splitlines()
    told = [it for it in said if re.search(r"\berror\b|not proved|no proof|could not tell|no verdict|^rt: ", it)] or said[-20:]
    print(*told[:40], sep="\n", file=sys.stderr)
    say(f"{crate.name} is not proved, so what stands on it is not built; all that was said is in {log_of(crate)}")
    sys.stderr.flush()
    os._exit(status if 0 < status < 126 else 1)


def report(plan: Plan, crate: RtCrate) -> None:
    (*_, found) = re.findall(r"^logic=proved .*?functions=(\d+)", text_of(log_of(crate)), re.M)
    left = f", {minutes(plan.left())} left" if len(plan.done) < len(plan.crates) else ""
    say(f"[{len(plan.done)} of {len(plan.crates)}] {crate.name}: {found} functions proved; {clock(plan.elapsed())} so far{left}")


def shares() -> Tuple[int, int]:
    """Returns how many crates are built at a time, and with how many jobs one that the longest chain stands on, where memory allows."""
    processors = len(os.sched_getaffinity(0))
    return processors, min(MOST_JOBS, processors)


def free_memory(rtlib: Kit) -> float:
    """Returns how much memory is free, in bytes."""
    steps = 1
    while rtlib.fits(STEP * (steps + 1)):
        steps += 1
    return STEP * steps


def build_all(rtlib: Kit, plan: Plan) -> None:
    """Builds the crates that aren't built, each once those below it are, and those first that the longest chain stands on."""
    room = USED * free_memory(rtlib)
    plan.skips([it for it in plan.crates if is_built(rtlib, it)])
    waiting = sorted((it for it in plan.crates if it not in plan.done), key=lambda it: -plan.behind[it])
    if waiting:
        say(f"proving and building {len(waiting)} crates: {minutes(plan.left())} on {len(os.sched_getaffinity(0))} processors")
    running: Dict[Future[int], RtCrate] = {}
    with ThreadPoolExecutor(plan.at_once) as pool:
        while waiting or running:
            for crate, jobs, is_first in plan.next([*waiting], room):
                waiting.remove(crate)
                running[pool.submit(build, rtlib, crate, jobs, is_first)] = crate
            ended = wait(running, timeout=QUIET, return_when=FIRST_COMPLETED).done
            for task in ended:
                crate = running.pop(task)
                status = task.result()
                if status:
                    fail(crate, status)
                plan.ended(crate)
                report(plan, crate)
            if not ended:
                say(f"at {', '.join(it.name for it in running.values())}; {clock(plan.elapsed())} so far")


def has_rt() -> bool:
    found = bool(shutil.which("rt"))
    if not found:
        say("`rt`, which proves and builds, is not in the path: unpack Rattle's kit and put its folder 'bin' into PATH")
    return found


def crates_of(rtlib: Kit, names: Sequence[str]) -> List[RtCrate]:
    """Returns the crates of these names, which share the libraries below them, and readies this process for rattle's runs."""
    os.chdir(TOP)
    # (its first call sets a signal's handler, which only the main thread may)
    rtlib.guarded()
    # with its own handler, Python would wait at Ctrl-C for the libraries that are being built
    if signal.getsignal(signal.SIGINT) is signal.default_int_handler:
        signal.signal(signal.SIGINT, signal.SIG_DFL)
    known: Dict[str, RtCrate] = {}
    for name in names:
        folder = f"{TOP}/crates/{name}"
        if folder not in known:
            known[folder] = rtlib.Crate(folder, TOP, known)
    return [known[f"{TOP}/crates/{it}"] for it in names]


def without_rt(names: Sequence[str]) -> int:
    """Proves and builds the programs as this kit's rt does, one crate at a time."""
    say(f"proving and building {' and '.join(names)}, which the first time takes more than an hour")
    for name in names:
        words, folder = ["rt", "run", "--", "--version"], f"{TOP}/crates/{name}"
        status = subprocess.run(words, cwd=folder, stdin=subprocess.DEVNULL, stdout=sys.stderr).returncode
        if status:
            return status
    return 0


def over_those_there(rtlib: Kit, programs: Sequence[RtCrate], folder: Optional[str], is_anew: bool, most_jobs: int) -> int:
    """Proves and builds the programs over libraries that are there, in a folder or where `rt ci` leaves them."""
    # (dist/prove.sh, which takes nothing from earlier runs, has no file of tools beside the table)
    sys.path.insert(0, f"{TOP}/tools")
    from kept import KeptFiles
    plan, kept = Plan(programs, *shares()), KeptFiles("library")
    for program in programs:
        for it in program.below() if folder else []:
            it.rlib = f"{folder}/{it.name}.rlib"
        found = sum_over_built(rtlib, program, [__file__])
        files = {"made": f"{program.folder}/{made_of(program)}", "log": log_of(program)}
        if program.is_static and not is_anew and kept.give(found, files):
            say(f"{text_of(files['log'])}\n{program.name} is kept: an earlier run on this machine proved the same files over the same libraries")
            continue
        with open(files["log"], "w", encoding="utf-8") as program.out:
            status = link(rtlib, program, plan.fitting(program, min(plan.jobs, most_jobs), USED * free_memory(rtlib)))
        say(text_of(files["log"]))
        if status:
            return status
        # (an edit while it was proved leaves it to be proved again)
        if program.is_static and sum_over_built(rtlib, program, [__file__]) == found:
            kept.keep(found, files)
    return 0


def arguments() -> argparse.Namespace:
    parser = argparse.ArgumentParser(prog="build.py", description=__doc__.partition("\n\n")[0])
    parser.add_argument("programs", nargs="+", metavar="PROGRAM")
    over = parser.add_mutually_exclusive_group()
    over.add_argument("--over-gate", action="store_true", help="over the libraries that `rt ci` has just proved, in out/rlib")
    over.add_argument("--over", metavar="FOLDER", help="over those of this folder, NAME.rlib each")
    parser.add_argument("--anew", action="store_true", help="with --over: take nothing from earlier runs")
    parser.add_argument("--jobs", metavar="N", type=int, default=MOST_JOBS, help="with --over: how many jobs a check has at most")
    given = parser.parse_args()
    for it in given.programs:
        if not os.path.isdir(f"{TOP}/crates/{it}/src"):
            parser.error(f"there is no crate {it}")
    return given


def main(given: argparse.Namespace) -> int:
    global program_name
    program_name = given.programs[0]
    if not has_rt():
        return 1
    rtlib = kit()
    if not rtlib:
        return without_rt(given.programs)
    programs = crates_of(rtlib, given.programs)
    for it in programs:
        it.is_static = it.is_static or it.name in FOR_C
    if given.over_gate or given.over:
        return over_those_there(rtlib, programs, given.over and os.path.abspath(given.over), given.anew, given.jobs)
    plan = Plan(programs, *shares())
    held = rtlib.lock(plan.crates)
    over_statements(plan.crates)
    build_all(rtlib, plan)
    for lock in held:
        os.close(lock)
    for it in programs:
        os.utime(f"{it.folder}/{made_of(it)}")
    say(f"proved and built in {clock(plan.elapsed())}; later calls start at once")
    return 0


if __name__ == "__main__":
    sys.exit(main(arguments()))
