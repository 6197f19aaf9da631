#!/usr/bin/env python3
"""Lets the program go on with the next steps of a script where one found no memory.

    python3 go_on.py RUNNING

RUNNING is the file running.rt of the crate `scripting`, which is changed in place.
"""

from __future__ import annotations

import pathlib
import sys
from typing import List

RUN = """\
    let ran = world.run(steps, &mut log);
"""

RUN_AND_GO_ON = """\
    let mut ran = world.run(steps, &mut log);
    let done = log.entries().len();
    if let Some(rest) = steps.get(done..) {
        ran = world.run(rest, &mut log);
    }
"""


def main(words: List[str]) -> int:
    if len(words) != 1:
        print(__doc__)
        return 2
    file = pathlib.Path(words[0])
    text = file.read_text()
    if text.count(RUN) != 1:
        print(f"{file} doesn't take a script's steps by one call")
        return 1
    file.write_text(text.replace(RUN, RUN_AND_GO_ON))
    return 0


if __name__ == "__main__":
    sys.exit(main(sys.argv[1:]))
