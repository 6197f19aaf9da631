#!/usr/bin/env python3
"""Checks one crate as `rt check` does, over the statements of those below it: build.py builds these first, where they aren't built, several
side by side. The statements and what was checked are kept in the crates' folders `out`, so a later call checks what has changed.

usage: tools/prove.py CRATE [FLAG..]     the flags are those of `rt check`: --only module::function, --allow-holes, --jobs N
"""

from __future__ import annotations

import os
import sys
from typing import List

TOP = os.path.dirname(os.path.dirname(os.path.realpath(__file__)))
sys.dont_write_bytecode = True
sys.path.insert(0, TOP)
import build  # noqa: E402


def main(words: List[str]) -> int:
    build.program_name = "prove.py"
    if not words or not os.path.isdir(f"{TOP}/crates/{words[0]}/src"):
        print((__doc__ or "").split("\n\n")[1].strip(), file=sys.stderr)
        return 2
    rtlib = build.kit() if build.has_rt() else None
    if not rtlib:
        build.say("this needs a kit whose rt build.py knows; `rt check` in the crate's folder does the same, one crate after the other")
        return 1
    (crate,) = build.crates_of(rtlib, words[:1])
    plan = build.Plan([crate], *build.shares(), below_alone=True)
    build.over_statements(plan.crates)
    # (others wait until this process ends)
    crate.held = rtlib.lock([*plan.crates, crate])
    build.build_all(rtlib, plan)
    os.makedirs(f"{crate.folder}/out", exist_ok=True)
    return crate.check(words[1:])


if __name__ == "__main__":
    sys.exit(main(sys.argv[1:]))
