#!/usr/bin/env python3
"""Looks for phrases of plain.txt, which no page, header, message or manual page uses, and names each place.

usage: plain.py [--self-test]

A line of plain.txt is a regular expression, a tab, and what to write in its place. The list may only grow: each line of the committed one is
still in it. What is read: pages (*.md), wasmloop.h, wasmloop.hpp if there is one, the manual pages, the bindings of Python and Rust, the
headers of guests, and of crates the doc comments and the strings of those that print sentences. What a program prints in an example is left out
if the words are a format's: it stands between backquotes or is indented by four spaces.
"""
from __future__ import annotations

import io
import re
import subprocess
import sys
import tokenize
from pathlib import Path
from typing import Iterable, Iterator

from sources import TOP, asked

LIST = "tools/plain.txt"
# The crates whose strings a person reads.
PRINTED = ("commands", "files", "flaws", "places", "running", "script", "scripting", "sentences", "words", "working")
TEXTS = ("*.md", "capi/include/*", "capi/python/*.py", "capi/rust/src/*.rs", "examples/uv.h", "examples/uv.rs", "dist/*.1", "dist/*.3")


def tracked(*patterns: str) -> list[str]:
    told = subprocess.run(["git", "ls-files", "--", *patterns], cwd=TOP, stdout=subprocess.PIPE, check=True, text=True).stdout
    return told.split()


def phrases(text: str) -> list[tuple[str, str]]:
    """The expressions of the list, each with what to write instead."""
    lines = [line.split("\t") for line in text.splitlines() if line and not line.startswith("#")]
    return [(pattern, better) for pattern, better in lines]


def prose(text: str) -> str:
    """A page without its blocks and quotes, which show what programs print."""
    text = re.sub(r"(?ms)^```.*?^```", lambda it: "\n" * it[0].count("\n"), text)
    text = re.sub(r"(?m)^    .*$", "", text)
    return re.sub(r"`[^`\n]*`", "``", text)


def printed(text: str) -> str:
    """The strings and the doc comments of a source, each on its line."""
    comments = re.sub(r"(?m)//(?![/!]).*$", "", text)
    kept = re.compile(r'"(?:[^"\\]|\\.)*"|//[/!].*')
    return "\n".join(" ".join(kept.findall(line)) for line in comments.split("\n"))


def spoken(text: str) -> str:
    """The strings and the comments of a Python file, each on its line."""
    lines = [""] * (text.count("\n") + 2)
    for token in tokenize.generate_tokens(io.StringIO(text).readline):
        if token.type in (tokenize.STRING, tokenize.COMMENT):
            for number, line in enumerate(token.string.split("\n"), token.start[0] - 1):
                lines[number] += f" {line}"
    return "\n".join(lines)


def texts() -> Iterator[tuple[str, str]]:
    """Each text that is read, with its name."""
    of = {".md": prose, ".py": spoken}
    for name in tracked(*TEXTS):
        text = (TOP / name).read_text()
        yield name, of.get(Path(name).suffix, str)(text)
    for name in tracked(*(f"crates/{crate}/src/*.rt" for crate in PRINTED)):
        yield name, printed((TOP / name).read_text())


def faults(listed: list[tuple[str, str]], found: Iterable[tuple[str, str]]) -> Iterator[tuple[str, int, str, str]]:
    """Each place of a phrase in the texts, as (name, line, what stands there, what to write)."""
    for name, text in found:
        for number, line in enumerate(text.split("\n"), 1):
            for pattern, instead in listed:
                for it in re.finditer(pattern, line, re.IGNORECASE):
                    yield name, number, it[0], instead


def gone(listed: list[tuple[str, str]]) -> list[str]:
    """The lines of the committed list that this one has no more."""
    told = subprocess.run(["git", "show", f"HEAD:{LIST}"], cwd=TOP, stdout=subprocess.PIPE, stderr=subprocess.DEVNULL, text=True).stdout
    return [pattern for pattern, *_ in phrases(told) if pattern not in {it for it, _ in listed}]


def self_test(listed: list[tuple[str, str]]) -> int:
    """Each phrase is found where it is planted, and not in its own replacement's example."""
    missed = [pattern for pattern, _ in listed if not list(faults(listed, [("planted", example(pattern))]))]
    print(f"{len(listed)} planted, {len(missed)} missed: {missed}")
    return 1 if missed else 0


def example(pattern: str) -> str:
    """The shortest text that an expression of the list matches: its first choices, without its signs."""
    pattern = re.sub(r"\(\?[:=]([^|()]*)(\|[^()]*)?\)", r"\1", pattern)
    pattern = re.sub(r"\(\?<?![^()]*\)", "", pattern)
    return pattern.replace(r"\b", "").replace(r"\d", "1").replace(r"\w+", "it").replace("?", "").replace("\\", "")


def main() -> int:
    given, listed = asked(__doc__, "self-test"), phrases((TOP / LIST).read_text())
    if given.self_test:
        return self_test(listed)
    found = list(faults(listed, texts()))
    for name, number, words, instead in found:
        print(f"{name}:{number}: '{words}': {instead}")
    lost = gone(listed)
    for pattern in lost:
        print(f"{LIST}: {pattern} was in the list, which may only grow")
    print(f"{len(listed)} phrases, {len(found) + len(lost)} faults")
    return 1 if found or lost else 0


if __name__ == "__main__":
    sys.exit(main())
