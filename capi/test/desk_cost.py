"""What the edge server's -r costs: its instructions per request are at most a twentieth more, and the record has at most 300 bytes per request.

usage: PYTHONPATH=capi/python WASMLOOP_LIBRARY=LIBRARY desk_cost.py EDGE OUT     (it needs valgrind, and takes a minute)
"""

from __future__ import annotations

import re
import shutil
import subprocess
import sys
from pathlib import Path
from typing import List, Tuple, Union

import desk_edge as edge
from ports import free_port                             # (desk_edge has put its folder into the path)

FEW, MANY, KEYS, DEADLINE = 100, 1100, 40, 60000
MOST_INSTRUCTIONS, MOST_BYTES = 1.05, 300


def cost(requests: int, *words: Union[str, Path]) -> Tuple[int, int]:
    """The instructions of a server that answers so many requests, and the bytes of its records."""
    (tenants, records), port = edge.folders(), free_port()
    (tenants / "quota.conf").write_text(f"deadline {DEADLINE}\n")
    command = ["valgrind", "--tool=callgrind", "--callgrind-out-file=/dev/null", edge.EDGE, "-p", str(port), "-w", "2", *words, tenants]
    server = subprocess.Popen(command, stdout=subprocess.DEVNULL, stderr=subprocess.PIPE)
    it = edge.connection(port)
    for number in range(requests):
        it.request("POST", "/quota/ask", body=f"10.0.0.{number % KEYS}")
        reply = it.getresponse()
        text = reply.read()
        if reply.status != 200:
            sys.exit(f"FAILED: {reply.status}: {text.decode()}")
    size = sum(file.stat().st_size for file in records.iterdir())
    server.terminate()
    counted = re.search(rb"Collected : (\d+)", server.communicate()[1])
    return int(counted[1]) if counted else sys.exit("FAILED: valgrind has counted nothing"), size


def per_request(*words: Union[str, Path]) -> List[float]:
    """The same of each request, without what a server takes to start and to end."""
    few, many = cost(FEW, *words), cost(MANY, *words)
    return [(more - less) / (MANY - FEW) for less, more in zip(few, many)]


def main() -> int:
    if not shutil.which("valgrind"):
        print("left out: what recording costs: valgrind is missing")
        return 0
    plain, (recorded, size) = per_request()[0], per_request("-r", edge.OUT / "edge_records")
    right = recorded <= plain * MOST_INSTRUCTIONS and size <= MOST_BYTES
    print(f"recording: {plain:,.0f} instructions per request, and {recorded:,.0f} with -r: {100 * (recorded / plain - 1):.1f} percent more; "
          f"{size:.0f} bytes per request{'' if right else ': TOO MUCH'}")
    return 0 if right else 1


if __name__ == "__main__":
    sys.exit(main())
