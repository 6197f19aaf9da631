"""Prints what a guest has logged by guest_log of uv.h: the last lines in a ring of its own memory.

    python3 -m wasmloop.log guest.wasm 0 --in request
    python3 -m wasmloop.log guest.record
    python3 -m wasmloop.log guest.record --callback 73

The first form runs uv_work, the others read the memory of a recorded loop after its failure, its last callback or another one. In your own
host, `wasmloop.log.read(instance)` returns the lines of an instance, also after a call that stopped: ask for its `stop_told()` before, since to read
the log is a call too.

The convention: the export guest_log_ring is a function without parameters that returns an address, where three i32 are: the size of the ring,
how many bytes were written (modulo 2^32), and the address of the ring.
"""

from __future__ import annotations

import sys
from typing import Callable, List, Optional, Tuple

from . import RANGE, Error, Instance, _tool, callbacks, replay, runs, wasm
from .counts import Counted, Writer

EXPORT, HEAD, MOST_RING = "guest_log_ring", 12, 1 << 20


def address_of(module: wasm.Module) -> Optional[int]:
    """The address that guest_log_ring returns, if it is a constant; None if it is not, or there is no such export."""
    index = next((it - len(module.imported) for name, kind, it in module.exports if (name, kind) == (EXPORT, 0)), -1)
    if index < 0:
        return None
    ops = module.bodies[index].ops
    return wasm.signed(module.data, ops[0][0] + 1)[0] % 2**32 if [op for _, op, _ in ops] == [0x41, wasm.END] else None


def lines_in(read: Callable[[int, int], bytes], at: int) -> List[str]:
    """The lines of the ring whose head is at this address; `read` takes an address and a length. The first may be cut."""
    head = read(at, HEAD)
    size, written, ring = (int.from_bytes(head[k:k + 4], "little") for k in (0, 4, 8))
    if not 0 < size <= MOST_RING:
        raise Error(RANGE, f"the ring of {EXPORT} has {size} bytes, expected 1 to {MOST_RING}")
    data = read(ring, size) if written > size else read(ring, written)
    if written > size:
        cut = written % size
        data = data[cut:] + data[:cut]
    return data.decode(errors="replace").splitlines()


def read(instance: Instance) -> List[str]:
    """The lines that the guest of an instance has logged; none if it exports no guest_log_ring. Raises Error if it has no ring there. It calls the
    guest: afterwards stop_told() is None."""
    try:
        at = instance.call(EXPORT)
    except (Error, TypeError):                          # (none, or one that takes arguments)
        return []
    return lines_in(lambda start, count: instance.memory[start:start + count], at % 2**32) if isinstance(at, int) else []


def of_callback(run: callbacks.Callback) -> List[str]:
    """The lines in the memory of a recorded loop, after a callback."""
    at = address_of(wasm.Module(run.data))
    if at is None:
        raise _tool.Failed(f"the guest exports no {EXPORT} that returns a constant: write GUEST_LOG(4096); in it, and compile with -O1 or more")
    return lines_in(run.read, at)


def of_request(run: runs.Call) -> Tuple[List[str], Optional[str]]:
    """The lines of a request, and the sentence on it if it stopped."""
    counted = Counted(run.data, (Writer.NONE,))
    if (EXPORT, 0) not in [(name, kind) for name, kind, _ in counted.writer.module.exports]:
        raise _tool.Failed(f"the guest exports no {EXPORT}: write GUEST_LOG(4096); in it")
    with counted.fresh(run.given, run.depth) as it:
        try:
            it.call(run.name, *run.args, fuel=run.fuel, depth=run.depth)
        except Error:
            pass
        return read(it), run.run().told


def main() -> int:
    parser = _tool.words("log", __doc__)
    runs.add_words(parser)
    parser.add_argument("--in", dest="request", metavar="FILE", help="the bytes of the request, - for standard input; default: none")
    parser.add_argument("--callback", metavar="N", type=_tool.whole(1), help="of a record, the Nth callback; default: the one that failed, or the last")
    given = parser.parse_args()
    data = _tool.read(given.guest)
    if data.startswith(b'["loop"'):
        run = callbacks.Callback(replay.rows_of(given.guest), given.callback or callbacks.LAST)
        found, told = of_callback(run), run.told or None
    else:
        host, _ = _tool.load(data, given.guest)
        found, told = of_request(runs.of_words(given, data, host, [_tool.read(given.request) if given.request else b""])[0])
    for line in found:
        print(wasm.shown(line.expandtabs(), MOST_RING))
    if told:
        sys.stdout.flush()
        print(told, file=sys.stderr)
    return 4 if told else 0


if __name__ == "__main__":
    _tool.run("log", main)
