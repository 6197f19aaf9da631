"""The fuzzer finds the planted fault of desk/planted.c within a minute of processor time: by nine of ten seeds at least.

usage: PYTHONPATH=capi/python WASMLOOP_LIBRARY=LIBRARY fuzz_seeds.py [SEEDS]
"""

from __future__ import annotations

import resource
import subprocess
import sys
import tempfile
from pathlib import Path

import desk_guests as guests

EXAMPLES = Path(__file__).resolve().parent.parent.parent / "examples"
SECONDS, BUSY = 60, 20                                  # a busy machine may take so many times as long


def spent() -> float:
    """The processor time of all that has run, the compiler included."""
    used = resource.getrusage(resource.RUSAGE_CHILDREN)
    return used.ru_utime + used.ru_stime


def bounded() -> None:
    """Ends each process that has used so much processor time."""
    resource.setrlimit(resource.RLIMIT_CPU, (SECONDS, SECONDS))


def finds(file: Path, seed: int) -> bool:
    """Whether this seed finds the fault in time."""
    began = spent()
    ran = subprocess.run([sys.executable, "-m", "wasmloop.fuzz", file, "0", "--most", "32", "--seconds", str(BUSY * SECONDS), "--seed", str(seed)],
                         capture_output=True, check=False, preexec_fn=bounded)
    took, found = spent() - began, ran.returncode == 4 and b"trapped: division by zero" in ran.stdout
    print(f"seed {seed}: {'found' if found else 'not found'}, {took:.1f} s", flush=True)
    return found and took <= SECONDS


def main(seeds: int = 10) -> int:
    with tempfile.TemporaryDirectory() as room:
        file = guests.built(Path(room), EXAMPLES, "planted")
        if not file or not guests.has_fuzzer():
            print("left out: the fuzzer: clang or its libFuzzer is missing")
            return 0
        found = sum(finds(file, seed) for seed in range(1, seeds + 1))
    print(f"fuzz: {found} of {seeds} seeds find the planted fault within {SECONDS} s")
    return 0 if found * 10 >= seeds * 9 else 1


if __name__ == "__main__":
    sys.exit(main(*map(int, sys.argv[1:])))
