#!/usr/bin/env python3
"""Runs the gate over a small tree in which a proof fails, a wrong body is proved and a test of the library fails, and asserts that each is told at
once, with its place, and once more at the end, and that the last line counts them; and that all passes once they are mended.

The tree has the real tools, rt and prover, two crates, and a stand-in for the tests of the library.
"""

from __future__ import annotations

import os
import re
import shutil
import subprocess
import sys
import tempfile
from typing import Dict, List, Optional, Tuple

TOP = os.path.dirname(os.path.dirname(os.path.realpath(__file__)))
sys.dont_write_bytecode = True
sys.path.insert(0, TOP)
import build  # noqa: E402
from wrong_test import PLANTED  # noqa: E402

GOOD, WRONG = "    a + 1\n", "    a + 2\n"
# where rattle tells that the function with the wrong body is not proved
PLACE = f"crates/broken/src/lib.rt:{PLANTED[: PLANTED.index('pub fn more')].count(chr(10)) + 1}:1: "
EDITS = {"is_refused": "old:     a + 1\nnew:     a + 3", "is_proved": "old: let b = a;\nnew: let b = a + 0;"}
WAITS = 4
CAPI = f"""#!/bin/sh
echo 'FAILED: calls_test.c:7: the planted test'
sleep {WAITS}
exit 1
"""
RUN = "import sys, gate; gate.MINUTE = 3.0; sys.argv = ['gate.py', 'rt ci', 'wrong bodies', 'capi']; sys.exit(gate.main(gate.arguments()))"
SAID = re.compile(r"^gate \[ *(\d+):(\d+)\] (.*)")


def write(file: str, text: str) -> None:
    os.makedirs(os.path.dirname(file), exist_ok=True)
    with open(file, "w", encoding="utf-8") as it:
        it.write(text)
    os.chmod(file, 0o755)


def plant(room: str) -> None:
    """Makes the tree, with the three failures."""
    for name in ("HANDLES", "build.py"):
        shutil.copy(f"{TOP}/{name}", room)
    shutil.copytree(f"{TOP}/tools", f"{room}/tools", ignore=shutil.ignore_patterns("__pycache__", ".*"))
    write(f"{room}/crates.txt", "good:\nbroken:\n")
    write(f"{room}/crates/good/src/lib.rt", PLANTED)
    write(f"{room}/crates/broken/src/lib.rt", PLANTED.replace(GOOD, WRONG))
    for name, text in EDITS.items():
        write(f"{room}/crates/good/wrong/{name}.edit", f"# promise: it is what it says\nfile: src/lib.rt\n{text}\n")
    write(f"{room}/capi/test/run.sh", CAPI)


def mend(room: str) -> None:
    write(f"{room}/crates/broken/src/lib.rt", PLANTED)
    os.remove(f"{room}/crates/good/wrong/is_proved.edit")
    write(f"{room}/capi/test/run.sh", "#!/bin/sh\necho all is as it should be\n")


def gate(room: str) -> Tuple[int, List[str]]:
    """Runs the gate over the tree; returns its status and what it said."""
    env = {**os.environ, "XDG_CACHE_HOME": f"{room}/cache", "PYTHONPATH": f"{room}/tools", "PYTHONDONTWRITEBYTECODE": "1", "CI": ""}
    ran = subprocess.run([sys.executable, "-c", RUN], cwd=room, env=env, capture_output=True, text=True, check=False)
    return ran.returncode, (ran.stdout + ran.stderr).splitlines()


class Heard:
    """What a gate said, line by line, and when."""

    def __init__(self, lines: List[str]) -> None:
        self.lines = lines

    def at(self, text: str) -> Optional[int]:
        """The first line of the gate's own that begins with a text."""
        found = map(SAID.match, self.lines)
        return next((number for number, it in enumerate(found) if it and it[3].startswith(text)), None)

    def second(self, number: Optional[int]) -> int:
        found = SAID.match(self.lines[number]) if number is not None else None
        return 60 * int(found[1]) + int(found[2]) if found else -1

    def is_before(self, one: str, other: str) -> bool:
        first, second = self.at(one), self.at(other)
        return first is not None and second is not None and first < second

    def has_behind(self, text: str, pattern: str) -> bool:
        """Whether one of the next lines, which aren't the gate's own, is so."""
        begins = self.at(text)
        behind = [] if begins is None else self.lines[begins + 1:]
        ends = next((number for number, it in enumerate(behind) if SAID.match(it)), len(behind))
        return any(re.search(pattern, it) for it in behind[:ends])


def faults(status: int, lines: List[str]) -> Dict[str, bool]:
    """What must be so of the gate with the failures, and whether it is."""
    heard, proof, test = Heard(lines), "FAILED: rt: broken NOT PROVED", "capi: FAILED: calls_test.c:7: the planted test"
    body = "FAILED: good/is_proved: NOT REFUSED: it is still proved"
    waited = heard.second(heard.at("capi: FAILED with status 1 in ")) - heard.second(heard.at(test))
    return {
        "the proof is told before rt ci ends": heard.is_before(proof, "rt ci: FAILED with status 1 in "),
        "with its place": heard.has_behind(proof, f"^ +{re.escape(PLACE)}"),
        "the wrong body is told before the others are tried": heard.is_before(body, "wrong bodies: FAILED with status 1 in "),
        "the test is told while it runs": waited >= WAITS - 1,
        "each minute has what failed so far": any("FAILED so far: " in it and "capi" in it for it in lines),
        "the proof is told at the end, with its place": heard.has_behind("rt ci: FAILED with status 1; ", f"^ +{re.escape(PLACE)}"),
        "so is the wrong body": heard.has_behind("wrong bodies: FAILED with status 1; ", "^ +good/is_proved: NOT REFUSED"),
        "so is the test": heard.has_behind("capi: FAILED with status 1; ", "^ +FAILED: calls_test.c:7: "),
        "the last line counts them": lines[-1:] == ["2 passed, 3 failed (these parts alone: not the gate)"],
        "the status says that it failed": status == 1,
    }


def main() -> int:
    if not build.has_rt() or not build.kit():
        return 1
    with tempfile.TemporaryDirectory(prefix="gate-planted-") as room:
        plant(room)
        status, lines = gate(room)
        wrong = [f"not so: {what}" for what, is_so in faults(status, lines).items() if not is_so]
        mend(room)
        after, mended = gate(room)
    if (after, mended[-1:]) != (0, ["4 passed, 0 failed (these parts alone: not the gate)"]):
        wrong.append(f"not so: mended it passes, with status {after}")
        lines += ["-- mended --", *mended]
    told = [*lines, *[f"FAILED: {it}" for it in wrong]] if wrong else ["3 planted failures are told at once, at the end and in the last line"]
    print("\n".join(told))
    return 1 if wrong else 0


if __name__ == "__main__":
    sys.exit(main())
