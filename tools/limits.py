#!/usr/bin/env python3
"""Whether docs/LIMITS.md, other pages and the sentences of the program say the numbers that the code has, and proofs name them.

    python3 tools/limits.py               status 1 if a row or a sentence has another number than its constant, or a constant has no row
    python3 tools/limits.py --self-test   plants faults in copies of the texts; status 1 if one isn't found

A row of LIMITS.md names its constants in the column *Constant*, those of crates/limits/src/lib.rt by name alone, others as `crate::NAME`,
and has the number of each in the column *Most*. Each constant of `limits` stands in a row. A string of the code that says `more than N
THINGS`, `up to N THINGS` or `N THINGS at most` has the number of a limit: of one that is called after the things, where there is one. So does a
page, of a number from FEW on; NO_LIMITS has what is none. In a proof a limit over FEW, and the number after it, stand by the limit's name; in the
program's sources also the number before it. tools/limits.txt has the files that have them in digits, each with how many; a number there may
only shrink.
"""
from __future__ import annotations

import re
import sys
from typing import Iterator, Optional

from sources import TOP, Sources as Texts, asked, finish, plant

PAGE, LIMITS, HELPS, LIST = "docs/LIMITS.md", "crates/limits/src/lib.rt", "crates/words/src/grammar.rt", "tools/limits.txt"
FEW = 128
STRING = re.compile(r'(?s)"((?:[^"\\]|\\.)*)"')
CONSTANT = re.compile(r"\bconst ([A-Z][A-Z_0-9]*): \w+ = ([\d_]+);")
DIGITS = re.compile(r"(?<![\w.'◌-])\d+(?![\w.'-])")
LITERAL = re.compile(r"(?<![\w.'])(\d[\d_]*)(?:[ui](?:8|16|32|64|size))?(?![\w'])")
SENTENCE = re.compile(r"(?:[Mm]ore than|at most|up to|deeper than)\s+(\d[\d,]*)(?:\s+([a-z]+))?|(?<![\d,.])(\d[\d,]*)\s+([a-z]+)\s+at\s+most")
NO_LIMITS = [("docs/LIMITS.md", "at most 512 slots"), ("docs/LIMITS.md", "at most 65,535 bytes"), ("docs/COOKBOOK.md", "up to 1,000,000 units")]


class Sources(Texts):
    """Those that this tool reads."""

    def crate(self, crate: str) -> str:
        return "\n".join(self.text(str(file.relative_to(TOP))) for file in sorted((TOP / "crates" / crate / "src").rglob("*.rt")))

    def proofs(self) -> Iterator[tuple[str, str]]:
        """The terms of each file of proofs, without imports and comments."""
        for file in sorted(TOP.glob("crates/*/proofs/**/*.antt")):
            name = str(file.relative_to(TOP))
            yield name, re.sub(r"(?m)^(?:use | *--)[^\n]*", "", self.text(name))

    def code(self) -> Iterator[tuple[str, str]]:
        """The program's sources, without comments and letters."""
        for file in sorted(TOP.glob("crates/*/src/**/*.rt")):
            name = str(file.relative_to(TOP))
            if "/test_" not in name and "/example_" not in name:
                yield name, re.sub(r"(?m)//[^\n]*|b?'(?:[^'\\\n]|\\.)'", "", self.text(name))

    def strings(self) -> Iterator[tuple[str, str]]:
        """Each string of the program's sources, with its file."""
        yield from ((name, string) for name, text in self.code() for string in re.findall(STRING, text))

    def pages(self) -> Iterator[tuple[str, str]]:
        """The text of each page, without what is no limit."""
        for file in [TOP / "README.md", *sorted(TOP.glob("docs/*.md"))]:
            name = str(file.relative_to(TOP))
            text = self.text(name)
            for page, told in NO_LIMITS:
                text = text.replace(told, "") if page == name else text
            yield name, text


def constants(sources: Sources) -> dict[str, int]:
    return {name: int(value.replace("_", "")) for name, value in CONSTANT.findall(sources.text(LIMITS))}


def value_of(sources: Sources, word: str) -> Optional[int]:
    """The number of a constant; None where there is no such one."""
    crate, _, name = word.rpartition("::")
    found = dict(CONSTANT.findall(sources.crate(crate or "limits")))
    return int(found[name].replace("_", "")) if name in found else None


def rows(sources: Sources) -> Iterator[tuple[str, list[int], list[str]]]:
    """The rows that name constants: what they are of, their numbers, and the constants."""
    for line in sources.text(PAGE).split("\n"):
        cells = [cell.strip() for cell in line.split("|")]
        if len(cells) == 4:
            named = re.findall(r"`((?:\w+::)?[A-Z][A-Z_0-9]+)`", cells[3])
            yield from ([(cells[0], numbers_of(cells[1]), named)] if named else [])


def numbers_of(cell: str) -> list[int]:
    """The numbers that a text has, a power of two too."""
    powers = [2 ** int(power) for power in re.findall(r"\b2\^(\d+)", cell)]
    return [int(number.replace(",", "")) for number in re.findall(r"\d[\d,]*\d|\d", re.sub(r"2\^\d+", "", cell))] + powers


def wrong_rows(sources: Sources) -> Iterator[str]:
    told = set()
    for thing, numbers, named in rows(sources):
        told.update(named)
        for word in named:
            value = value_of(sources, word)
            if value is None:
                yield f"{PAGE}: {thing}: there is no constant {word}"
            elif value not in numbers:
                yield f"{PAGE}: {thing}: {word} is {value:,}, and {numbers} stand there"
    for name in constants(sources).keys() - told:
        yield f"{PAGE}: has no row of {name}"


def told_in(text: str) -> Iterator[tuple[str, int, str]]:
    """What a text says that there is at most: its words, the number and the things."""
    for found in SENTENCE.finditer(text):
        yield " ".join(found[0].split()), int((found[1] or found[3]).replace(",", "")), found[2] or found[4] or ""


def wrong_sentences(sources: Sources) -> Iterator[str]:
    known = constants(sources)
    told = [(file, it) for file, string in sources.strings() for it in told_in(string)]
    told += [(page, it) for page, text in sources.pages() for it in told_in(text) if it[1] >= FEW]
    for file, (words, value, thing) in told:
        named = {name: known[name] for name in known if thing and thing.upper() in name.split("_")}
        if value not in (named or known).values():
            yield f"{file}: \"{words}\": {value:,} is no limit{f': {named}' if named else ''}"
    yield from (f"{page}: doesn't say \"{words}\", which NO_LIMITS has" for page, words in NO_LIMITS if words not in sources.text(page))


def unnamed(sources: Sources) -> dict[str, int]:
    """How many numbers of each file of proofs, and of the program's sources, a limit has too."""
    known = {value + more for value in constants(sources).values() if value > FEW for more in (0, 1)}
    counts = {name: sum(int(number) in known for number in DIGITS.findall(text)) for name, text in sources.proofs()}
    known |= {value - 1 for value in constants(sources).values() if value > FEW}
    for name, text in sources.code():
        counts[name] = 0 if name == LIMITS else sum(int(number) in known for number in LITERAL.findall(STRING.sub("", text)))
    return {name: count for name, count in counts.items() if count}


def wrong_proofs(sources: Sources) -> Iterator[str]:
    now, listed = unnamed(sources), {}
    for line in sources.text(LIST).splitlines():
        if not line.startswith("#"):
            count, name = line.split()
            listed[name] = int(count)
    for name in sorted(now.keys() | listed.keys()):
        if now.get(name, 0) != listed.get(name, 0):
            yield f"{name}: it has {now.get(name, 0)} limits in digits, and {listed.get(name, 0)} by {LIST}"


def faults(sources: Sources) -> list[str]:
    return [*wrong_rows(sources), *wrong_sentences(sources), *wrong_proofs(sources)]


PLANTED = [
    ("a constant", LIMITS, r"(MAX_EMITS: usize = )\d+", r"\g<1>63"),
    ("a constant without a row", LIMITS, r"(?m)^(pub const MAX_EMITS)", r"pub const MAX_NEW: u32 = 7;\n\n\1"),
    ("a row's number", PAGE, r"\| 4,096 \|", "| 4,095 |"),
    ("a row's name", PAGE, r"`MAX_TYPES`", "`MAX_TYPE`"),
    ("a limit in digits in a proof", "crates/reduction/proofs/Heights.antt", r"≤ MAX_HEIGHT", "≤ 256"),
    ("a number in the place of a limit", "crates/decode/src/code.rt", r"bytes, MAX_LABELS\)", "bytes, 4095)"),
    ("a file that is no longer so", LIST, r"(?m)^2 (crates/leb/)", r"3 \1"),
    ("a sentence's number", HELPS, r"(at most )65,536( of them)", r"\g<1>65,535\2"),
    ("a sentence's number before its things", HELPS, r"at most 65,536 of them", r"65,535 bytes at most"),
    ("a number of README.md", "README.md", r"up to 65,536 bytes", r"up to 65,535 bytes"),
    ("a number of a page, before its things", "docs/PROOFS.md", r"at most 100,000 callbacks", r"99,999 callbacks at most"),
    ("a number of another limit", "docs/PROOFS.md", r"at most 100,000 callbacks", r"at most\n65,536 callbacks"),
    ("what is said to be no limit", "docs/COOKBOOK.md", r"up to 1,000,000 units", r"up to 1,000,001 units"),
]


def main() -> None:
    given, sources = asked(__doc__, "self-test"), Sources()
    if given.self_test:
        sys.exit(1 if plant(PLANTED, sources, faults) else 0)
    found = faults(sources)
    sentences = sum(len(list(told_in(text))) for texts in (sources.strings(), sources.pages()) for _, text in texts)
    finish(found, f"{len(constants(sources))} limits, {len(list(rows(sources)))} rows, {sentences} numbers in sentences, "
           f"{sum(unnamed(sources).values())} in digits")


if __name__ == "__main__":
    main()
