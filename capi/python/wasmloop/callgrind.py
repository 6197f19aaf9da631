"""A profile in callgrind's format, for callgrind_annotate and kcachegrind: units by function and line, and calls with what they cost."""

from __future__ import annotations

import collections
from typing import TYPE_CHECKING, DefaultDict, Dict, List, Tuple

if TYPE_CHECKING:
    from .profile import Profile

UNKNOWN = "???"


def calls_of(profile: Profile) -> Dict[Tuple[int, str, int, int], List[int]]:
    """For each caller, with the file and line of the call, and each function that it calls: how often, and the units within."""
    nodes = profile.nodes
    found: DefaultDict[Tuple[int, str, int, int], List[int]] = collections.defaultdict(lambda: [0, 0])
    within = [it.units for it in nodes]
    for k in range(len(nodes) - 1, 0, -1):
        within[nodes[k].parent] += within[k]
    sites = [(nodes[it.parent].function, profile.byte_at(nodes[it.parent].function, it.site)) if it.parent else None for it in nodes[1:]]
    lines = profile.lines_of({it for it in sites if it})
    for site, it, units in zip(sites, nodes[1:], within[1:]):
        if site:
            row = found[(site[0], *lines[site], it.function)]
            row[0], row[1] = row[0] + it.calls, row[1] + units
    return found


def written(profile: Profile, guest: str) -> str:
    """The text of the file."""
    out = ["# callgrind format", "version: 1", f"cmd: {guest}", "positions: line", "events: Units", f"summary: {profile.ran.used}"]
    own: DefaultDict[int, List[Tuple[str, int, int]]] = collections.defaultdict(list)
    calls: DefaultDict[int, List[Tuple[str, int, int, int, int]]] = collections.defaultdict(list)
    for (function, file, line), units in sorted((profile.lines or {(it, "", 0): n for it, n in profile.functions.items()}).items()):
        own[function].append((file, line, units))
    for (function, file, line, callee), (count, units) in sorted(calls_of(profile).items()):
        calls[function].append((file, line, callee, count, units))
    starts = profile.lines_of({(it, profile.byte_at(it, 0)) for it in [*own, *(row[2] for rows in calls.values() for row in rows)]})
    first = {function: it for (function, _), it in starts.items()}
    for function, rows in own.items():
        out += ["", f"fl={first[function][0] or UNKNOWN}", f"fn={profile.named(function)}"]
        for file, line, units in rows:
            out += [f"fi={file or UNKNOWN}", f"{line} {units}"]
        for file, line, callee, count, units in calls[function]:
            there, target = first[callee]
            out += [f"fi={file or UNKNOWN}", f"cfi={there or UNKNOWN}", f"cfn={profile.named(callee)}", f"calls={count} {target}", f"{line} {units}"]
    return "\n".join(out) + "\n"
