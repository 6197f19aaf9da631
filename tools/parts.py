"""The parts of the gate, in their lanes: what each runs, what it needs, and what is told of it."""

from __future__ import annotations

import contextlib
import os
import re
import shutil
import signal
import subprocess
import sys
import threading
import time
from typing import Callable, List, Optional, Sequence, Tuple

TOP = os.path.dirname(os.path.dirname(os.path.realpath(__file__)))
sys.dont_write_bytecode = True
sys.path.insert(0, TOP)
import build  # noqa: E402

PROGRAM, ARCHIVE, BUILT = "dist/wasmloop", "dist/libwasmloop.a", "crates/wasmloop/out/wasmloop"
# (`{room}` is the run's own folder, `{proved}` the one with the libraries that `rt ci` has proved so far)
FIRST = {
    "pages beside the tree": ["tools/compare.sh", "--self-test"],
    "layout": ["tools/check.sh", "layout"],
    "shipped program": ["dist/same.sh", "program"],
    "shipped library": ["dist/same.sh", "library"],
    "launcher": ["tests/launcher.sh"],
    "scripts": ["tests/scripts.sh"],
}
RT = "rt ci"
PROOFS = {
    RT: ["rt", "ci"],
    "program built": ["dist/same.sh", "program", BUILT],
    "manual": ["tools/pages.py", BUILT, "--check"],
    "PROOF.json": ["tools/statement.py", "--check", "{room}/log.rt_ci", "{room}/log.wrong_bodies"],
}
FOR_C = "wasmloop_c"
LIBRARY = {
    "library proved": ["python3", "build.py", FOR_C, "--over", "{proved}", "--jobs", "1"],
    "library linked": ["dist/link.sh", "{room}/linked"],
    "library built": ["dist/same.sh", "library", "{room}/linked"],
}
BODIES = "wrong bodies"
WRONG = {
    "planted bodies": ["tools/wrong.py", "--planted"],
    BODIES: ["tools/wrong.py", "--promises", "--jobs", "2", "--over", "{proved}", "--slots", "{room}/slots"],
}
SHIPPED = {
    "threads": ["tests/threads.sh", PROGRAM],
    "edge": ["examples/edge/test.sh", "dist"],
    "pages": ["tests/pages.sh", PROGRAM],
    "outputs": ["tests/outputs.sh", PROGRAM],
    "dispatch": ["trials/dispatch/run.py", PROGRAM],
    "jumps": ["trials/dispatch/jumps.py", PROGRAM, ARCHIVE],
    "desk": ["tests/desk.sh", PROGRAM, "{room}/desk"],
    "plugins": ["examples/plugins/run.sh", ARCHIVE],
    "guest kit": ["examples/kit/test/run.sh", PROGRAM],
    "official suite": ["trials/spec/run.sh", PROGRAM, "{room}/spec"],
}
INSTALLED = {
    "capi": ["capi/test/run.sh", PROGRAM, "{room}/capi"],
    "ask": ["tests/ask.sh", "{room}/ask"],
    "packs": ["dist/pack.sh", "{room}/packs"],
    "packs again": ["dist/pack.sh", "{room}/again"],
    "packs alike": ["cmp", "{room}/packs/SHA256SUMS", "{room}/again/SHA256SUMS"],
    "packs installed": ["dist/pack_test.sh", "{room}/packs"],
    "hosts": ["hosts/test.sh"],
}
LANES = {"FIRST": FIRST, "PROOFS": PROOFS, "LIBRARY": LIBRARY, "WRONG": WRONG, "SHIPPED": SHIPPED, "INSTALLED": INSTALLED}
# what a part needs to have passed
NEEDS = {
    "program built": [RT], "manual": [RT], "PROOF.json": [RT, BODIES, "library proved"], "library linked": ["library proved"],
    "library built": ["library linked"], "packs again": ["packs"], "packs alike": ["packs again"], "packs installed": ["packs"],
}
# How nice the lanes are: what is shipped is tested in time, and all other proofs wait for one after the other.
NICE = {"FIRST": 0, "PROOFS": 5, "LIBRARY": 10, "WRONG": 10, "SHIPPED": 0, "INSTALLED": 0}
# What takes --anew.
ANEW = (RT, BODIES, "library proved")
NOT_RUN = -1000
# What a part may take that proves nothing, and how often all are looked at, in seconds.
PROVES = (RT, BODIES, "library proved")
LONGEST, LOOK = 2400.0, 0.3
# With so many processors, and for each so much free, rt's own choice is faster: it gives jobs to a check on which many others wait.
MANY, EACH = 8, 3_500_000_000
# The library's own proof, and wrong bodies of two crates.
MOST_BESIDE = 3
# of what any part says, what tells that something is wrong, and that something was left out, which .ci/nightly reads here too; of what rattle
# says, what tells where
FAULT = re.compile(r"NOT PROVED|NOT REFUSED|NOT TRIED|BAD EDIT|FAILED|^rt: \w+ (?:wrote|ended)|: error\b|could not tell|no verdict")
LEFT_OUT = re.compile(r"(^|: )left out[:,]")
PLACE = re.compile(r"^(?:note: )?(?:\./)?((?:src|specs|proofs)/\S+:\d+:\d+: .*)")


def checks_at_once() -> Tuple[Optional[int], int]:
    """How many checks `rt ci` is to run at a time: one for each processor, but of four or more one is left to what runs beside it, and no more than
    free memory holds; None where rt is to choose. And how many more may run beside it: those that memory holds then, MOST_BESIDE at most. rt
    reckons with 4 to 9 GB for each of the large crates, by their lines, and leaves processors idle where so much isn't free; with RT_JOBS it takes
    that many checks at a time, one job each."""
    rtlib = build.kit() if shutil.which("rt") else None
    processors = len(os.sched_getaffinity(0))
    if not rtlib or processors >= MANY and rtlib.fits(*[EACH] * processors):
        return None, MOST_BESIDE
    held = max(1, int(build.free_memory(rtlib) / build.MOST_MEMORY))
    at_once = min(processors - (processors > 3), held)
    return at_once, min(held - at_once, MOST_BESIDE)


def yields(process: int, nice: int) -> None:
    """Makes a session nicer, by its first process. Linux shares the processors among sessions, whatever their processes' own niceness is, which
    orders those of one session alone."""
    with contextlib.suppress(OSError), open(f"/proc/{process}/autogroup", "w", encoding="utf-8") as group:
        group.write(str(nice))


class Part:
    """A command, and what became of it. Its output goes to a file, so that no process which it leaves behind holds the gate up."""

    def __init__(self, name: str, words: Sequence[str], room: str, nice: int) -> None:
        self.name, self.words = name, [it.replace("{room}", room).replace("{proved}", f"{room}/proved") for it in words]
        self.log = f"{room}/log.{re.sub(r'[^a-z0-9]+', '_', name.lower())}"
        self.room, self.nice, self.seconds, self.over = room, nice, 0.0, threading.Event()
        self.status: Optional[int] = None
        self.process: Optional[subprocess.Popen[bytes]] = None

    def said(self) -> str:
        if not os.path.isfile(self.log):
            return ""
        with open(self.log, encoding="utf-8", errors="replace") as file:
            return file.read()

    def run(self, hears: Callable[[str], None], at_once: Optional[int] = None) -> None:
        """Runs it, and has each line of its output heard; `rt ci` with so many checks at a time."""
        began, env, rest = time.monotonic(), {**os.environ, "PYTHONDONTWRITEBYTECODE": "1"}, ""
        if self.name in WRONG:
            # (copies of crates go with the run's folder, however it ends)
            env["TMPDIR"] = self.room
        if at_once and self.name == RT:
            env.setdefault("RT_JOBS", str(at_once))
        words = ["nice", "-n", str(self.nice), *self.words] if self.nice else self.words
        with open(self.log, "w", encoding="utf-8") as log, open(self.log, encoding="utf-8", errors="replace") as heard:
            try:
                self.process = subprocess.Popen(words, cwd=TOP, env=env, stdin=subprocess.DEVNULL, stdout=log, stderr=subprocess.STDOUT,
                                                start_new_session=True)
            except OSError as error:
                log.write(f"{error}\n")
                self.status = 127
                return
            yields(self.process.pid, self.nice)
            ended = None
            while ended is None:
                ended = self.process.poll()
                *lines, rest = (rest + heard.read()).split("\n")
                for line in lines:
                    hears(line)
                if time.monotonic() - began > LONGEST and self.name not in PROVES:
                    self.end(signal.SIGKILL)
                time.sleep(LOOK if ended is None else 0)
        # (and what it has left behind)
        self.end(signal.SIGKILL)
        self.status, self.seconds = ended, time.monotonic() - began

    def end(self, signal_no: signal.Signals = signal.SIGTERM) -> None:
        """Ends what runs of it."""
        with contextlib.suppress(OSError):
            if self.process and self.status is None:
                os.killpg(self.process.pid, signal_no)

    def how(self) -> str:
        if self.status is not None and self.status < 0:
            return f"FAILED, ended by signal {-self.status}"
        return f"FAILED with status {self.status}" if self.status else "ok"


def worst(text: str) -> List[str]:
    """What of a failed part's output to tell once more: of each crate that is not proved where, by file and line; and what says that something
    failed."""
    lines: List[str] = []
    for name, of in re.findall(r"(?ms)^== (\w+)[^\n]*\n(.*?)(?=^== |\Z)", text):
        if f"\nrt: {name} NOT PROVED" in f"\n{of}" or f"\nrt: {name}: its tests are NOT PROVED" in f"\n{of}":
            places = [f"crates/{name}/{it[1]}" for it in map(PLACE.match, of.splitlines()) if it]
            # (where no line of it is named, as of a check that was killed, what it said last)
            places = places or [f"crates/{name}/: {it}" for it in of.splitlines()[-4:]]
            lines += [*dict.fromkeys(sorted(places, key=lambda it: "/src/" not in it))][:8]
    lines += [it for it in text.splitlines() if FAULT.search(it) and not PLACE.match(it)]
    return (lines if lines else text.splitlines()[-20:])[:60]
