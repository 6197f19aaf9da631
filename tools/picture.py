#!/usr/bin/env python3
"""Whether docs/ARCHITECTURE.md draws the crates as crates.txt has them, and links each to its first file.

    python3 tools/picture.py          status 1 if a crate, an arrow or a link is missing or false, or stands in a wrong row
    python3 tools/picture.py --write  writes the links; then the same
    python3 tools/picture.py --rows   prints the rows as they should be, without their headings
    python3 tools/picture.py --mermaid   prints the picture in the words of Mermaid, with the groups of crates.txt

The picture has one arrow for each pair of crates of which the upper stands on the lower, and not through a third one. A crate
stands in the row above the highest that it stands on. Each crate has a line that begins with its name in bold, with a link to its lib.rt or
main.rt; these lines have the groups and the order of crates.txt.
"""
from __future__ import annotations

import itertools
import re
from typing import Iterator

from sources import TOP, asked, finish

CRATE = r"[a-z_]+"
LINE = r"^- (?:\*\*({0})\*\*|\[\*\*({0})\*\*\]\(([^)]*)\))"
PAGE = TOP / 'docs' / 'ARCHITECTURE.md'
Crates = dict[str, set[str]]


def stands_on() -> Crates:
    """For each crate the crates of this repository that its line names."""
    lines = [line.split('#')[0].strip() for line in (TOP / 'crates.txt').read_text().split('\n')]
    named = {line.split(':')[0].split()[0]: line.split(':')[1].split() for line in lines if line}
    return {crate: {other for other in others if other in named} for crate, others in named.items()}


def groups(text: str, heading: str, crate: str) -> list[tuple[str, list[str]]]:
    """The groups of a text, in order: for each heading its crates, by a pattern for a heading and one for a crate."""
    found: list[tuple[str, list[str]]] = []
    for line in text.split('\n'):
        head, name = re.match(heading, line), re.match(crate, line)
        if head:
            found.append((head[1], []))
        elif name and found:
            found[-1][1].append(next(it for it in name.groups() if it))      # the link is the last group
    return [(name, crates) for name, crates in found if crates]


def groups_of_crates() -> list[tuple[str, list[str]]]:
    return groups((TOP / 'crates.txt').read_text(), r"# ([A-Z].*)", rf"({CRATE})[^:]*:")


def all_below(below: Crates, crate: str) -> set[str]:
    return set[str]().union(*({other} | all_below(below, other) for other in below[crate]))


def reduced(below: Crates) -> Crates:
    """What stands on what, without what follows from other arrows."""
    return {crate: {other for other in others
                    if not any(other in all_below(below, third) for third in others - {other})}
            for crate, others in below.items()}


def height(below: Crates, crate: str) -> int:
    return 1 + max((height(below, other) for other in below[crate]), default=-1)


def drawn(page: str) -> tuple[Crates, dict[str, int]]:
    """The arrows and the rows of the picture."""
    arrows: Crates = {}
    rows: dict[str, int] = {}
    row = 0
    for line in page.split('## The plan')[1].split('```')[1].split('\n'):
        found = re.match(r" ?(\d+) ", line)
        row = int(found.group(1)) if found else row
        for cell in re.split(r"  +", re.sub(r"^ ?\d+", '  ', line)):
            crate, arrow, others = cell.partition(' -> ')
            names = [crate.strip('*')] if arrow or row == 0 else []
            for name in names + (cell.split() if row == 0 and not arrow else []):
                rows[name.strip('*')] = row
            if arrow:
                arrows[crate.strip('*')] = set(others.split())
    return arrows, rows


def first_file(crate: str) -> str:
    """The file of a crate that one reads first, as the page links to it."""
    return next(f"../crates/{crate}/src/{name}" for name in ("lib.rt", "main.rt", "") if (TOP / 'crates' / crate / 'src' / name).exists())


def linked(page: str) -> str:
    """The page with the links as they should be."""
    lines = re.sub(LINE.format(CRATE), lambda it: f"- [**{it[1] or it[2]}**]({first_file(it[1] or it[2])})", crates_of(page), flags=re.M)
    return page.replace(crates_of(page), lines)


def crates_of(page: str) -> str:
    """The section with a line for each crate."""
    return page.split('## The crates')[1].split('\n## ')[0]


def wrong(page: str) -> Iterator[str]:
    """What the page says that is not so in the tree."""
    below, lines = stands_on(), {it[1] or it[2]: it[3] for it in re.finditer(LINE.format(CRATE), crates_of(page), re.M)}
    arrows, rows = drawn(page)
    for crate, others in reduced(below).items():
        told = arrows.get(crate, set())
        if crate not in rows:
            yield f"{crate}: is not drawn"
        elif rows[crate] != height(below, crate):
            yield f"{crate}: stands in row {rows[crate]}; it is {height(below, crate)} high"
        yield from (f"{crate} -> {other}: is not drawn" for other in sorted(others - told))
        yield from (f"{crate} -> {other}: is false or follows from others" for other in sorted(told - others))
        if crate not in lines:
            yield f"{crate}: has no line"
        elif lines[crate] != first_file(crate):
            yield f"{crate}: its line has no link to {first_file(crate)} (--write)"
    stand = groups(crates_of(page), r"\*([^*,]+)\*", LINE.format(CRATE))
    nothing: tuple[str, list[str]] = ('nothing', [])
    for mine, theirs in itertools.zip_longest(stand, groups_of_crates(), fillvalue=nothing):
        if mine != theirs:
            yield f"the group {mine[0]} ({' '.join(mine[1])}); in crates.txt it is {theirs[0]} ({' '.join(theirs[1])})"
    for crate in sorted((arrows.keys() | lines.keys()) - below.keys()):
        yield f"{crate}: is no crate"


def print_rows() -> None:
    below = stands_on()
    arrows = reduced(below)
    for row in range(max(height(below, crate) for crate in below), -1, -1):
        some = [crate for crate in below if height(below, crate) == row]
        print(f"{row:2}  " + '   '.join(f"{crate} -> {' '.join(sorted(arrows[crate]))}" if arrows[crate] else crate for crate in some))
    print(f"{sum(map(len, arrows.values()))} of {sum(map(len, below.values()))} arrows")


def print_mermaid() -> None:
    print("graph TD")
    for number, (name, crates) in enumerate(groups_of_crates()):
        print(f"  subgraph g{number}[{name}]", *(f"    {crate}" for crate in crates), "  end", sep="\n")
    for crate, others in reduced(stands_on()).items():
        print(*(f"  {crate} --> {other}" for other in sorted(others)), sep="\n", end="\n" if others else "")


def main() -> None:
    given = asked(__doc__, 'rows', 'mermaid', 'write')
    if given.rows:
        return print_rows()
    if given.mermaid:
        return print_mermaid()
    if given.write:
        PAGE.write_text(linked(PAGE.read_text()))
    faults = wrong(PAGE.read_text())
    finish([f"docs/ARCHITECTURE.md: {fault}" for fault in faults], f"{len(stands_on())} crates")


if __name__ == '__main__':
    main()
