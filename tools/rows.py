"""Places of the tree that say something of each row of a table, for tools/operations.py and tools/uv.py.

A place is a part of a file, an expression that finds what it says of a row, and templates of what it has to say, of which the first counts that
is for one of the row's marks. The expression is applied to both: its `key` is of what that is said, its `text`, or all of it, is compared; of a
text that ends with `..` only how it begins. What lacks in a place is written behind what stands before it in the table, and what differs is
replaced; a text with `..`, or one that ends within brackets, is for people to write.
"""
from __future__ import annotations

import re
import shutil
import subprocess
from typing import Any, Iterable, Iterator, NamedTuple, Optional, Sequence

from sources import TOP, Sources

LONGEST = 120                                           # a list goes on in a new line where it would be longer


class Row:
    """A row, whose fields templates name; `marks` are what templates are for."""
    name: str
    kind = of = ""
    marks: frozenset[str] = frozenset()

    def told(self, templates: dict[str, Optional[str]]) -> Optional[str]:
        """What of these is to be said of it."""
        told = next((told for ofs, told in templates.items() if self.marks & set(ofs.split("|"))), None)
        return told and told.format_map(vars(self))


class Item(NamedTuple):
    """What stands in a place: of what, in which line, what, and from which place to which in the file."""
    key: Any
    line: int
    text: str
    begin: int = 0
    end: int = 0


class Wanted(NamedTuple):
    """What has to stand there: of what, what, in which words, and the row."""
    key: Any
    text: str
    told: str
    row: Optional[Row]


class Compared(NamedTuple):
    """What stands in a place beside what has to: the line, or that behind which it belongs."""
    line: int
    found: Optional[str]
    wanted: Optional[Wanted]


class Edit(NamedTuple):
    """A text in the place of what is between two places of a file."""
    begin: int
    end: int
    text: str


def squeezed(text: str) -> str:
    """The text without what layout may change."""
    return re.sub(r",(?=\))", "", re.sub(r"\s", "", text)).rstrip(",")


def agree(text: str, found: str) -> bool:
    text, found = squeezed(text), squeezed(found)
    return found.startswith(text[:-2]) if text.endswith("..") else found == text


def in_line(text: str) -> str:
    return " ".join(text.split())


def line_end(whole: str, at: int) -> int:
    """Where the line ends in which this is."""
    return (whole + "\n").index("\n", at)


def line_begin(whole: str, at: int) -> int:
    return whole.rfind("\n", 0, at) + 1


def is_whole(told: str) -> bool:
    """Whether this is all that has to be written."""
    return ".." not in told and not told.endswith("(")


def indented(whole: str, at: int, told: str) -> str:
    """The text with the indentation of the line in which this is."""
    begin = line_begin(whole, at)
    spaces = " " * (len(whole) - begin - len(whole[begin:].lstrip(" ")))
    return "\n".join(spaces + line for line in told.split("\n"))


def edited(whole: str, edits: Iterable[Edit]) -> str:
    """The text with these edits; of those in one place the first is first."""
    for begin, end, text in sorted(reversed(list(edits)), key=lambda it: -it.begin):
        whole = whole[:begin] + text + whole[end:]
    return whole


class Place:
    """A part of a file, from one expression to another, that says something of each row. It may say more, of `besides`; or the same twice, if
    `repeated`; only of some, if `partial`; and in the order of kinds and types, if `grouped`. What is said of a row may go on up to the next
    one, if `long`."""

    def __init__(self, file: str, templates: dict[str, Optional[str]], item: str = "", start: str = "", end: str = r"\n\n|\n\}|\n    \}\n",
                 besides: Sequence[str] = (), repeated: bool = False, grouped: bool = False, partial: bool = False, long: bool = False) -> None:
        self.file, self.templates, self.item, self.start, self.end = file, templates, re.compile(item, re.M | re.S), start, end
        self.besides, self.repeated, self.grouped, self.partial, self.long = besides, repeated, grouped, partial, long

    def part(self, it: re.Match[str]) -> tuple[Any, str]:
        return it["key"], it["text"] if "text" in it.re.groupindex else it[0]

    def bounds(self, whole: str) -> tuple[int, int]:
        """Where the part begins, and where it ends."""
        found = re.search(self.start, whole, re.M)
        begin = found.end() if found else len(whole)
        end = re.search(self.end, whole[begin:] + "\n\n")
        return begin, begin + (end.start() if end else 0)

    def found(self, sources: Sources, _: Sequence[Row]) -> Iterator[Item]:
        whole = sources.text(self.file)
        for it in self.item.finditer(whole, *self.bounds(whole)):
            key, text = self.part(it)
            if key not in self.besides:
                yield Item(key, whole.count("\n", 0, it.end()) + 1, text, it.start(), it.end())

    def wanted(self, rows: Sequence[Row]) -> Iterator[Wanted]:
        for row in rows:
            told = row.told(self.templates)
            it = self.item.search(told) if told else None
            if told and it:
                yield Wanted(*self.part(it), told, row)

    def alike(self, row: Optional[Row]) -> list[Any]:
        """Among which rows the one is looked for behind which this one stands."""
        return [(row.kind, row.of), row.kind, None] if self.grouped and row else [None]

    def compared(self, sources: Sources, rows: Sequence[Row]) -> Iterator[Compared]:
        """Each thing that stands there or has to."""
        whole = sources.text(self.file)
        there: dict[Any, Item] = {}
        last, keys = {None: whole.count("\n", 0, self.bounds(whole)[0]) + 1}, set()
        for item in self.found(sources, rows):
            if item.key in there and not self.repeated:
                yield Compared(item.line, item.text, None)
            there.setdefault(item.key, item)
        for wanted in self.wanted(rows):
            known, alike = there.get(wanted.key), self.alike(wanted.row)
            line = known.line if known else next(last[one] for one in alike if one in last)
            last.update({one: line for one in alike if known})
            keys.add(wanted.key)
            yield Compared(line, known and known.text, wanted)
        yield from (Compared(item.line, item.text, None) for key, item in there.items() if key not in keys)

    def differences(self, sources: Sources, rows: Sequence[Row]) -> Iterator[str]:
        """What is not as the table has it."""
        for line, found, wanted in self.compared(sources, rows):
            if wanted is None:
                yield f"{self.file}:{line}: expected nothing, found `{in_line(found or '')}`"
            elif found is None and not self.partial:
                yield f"{self.file}:{line}: expected behind it `{in_line(wanted.told)}`, found nothing"
            elif found is not None and not agree(wanted.text, found):
                yield f"{self.file}:{line}: expected `{in_line(wanted.told)}`, found `{in_line(found)}`"

    def told(self, sources: Sources, rows: Sequence[Row], name: str) -> Iterator[str]:
        """What has to stand there of an operation, and where."""
        for line, found, wanted in self.compared(sources, rows):
            if wanted and wanted.row and wanted.row.name == name:
                where = "behind it" if found is None else "there is" if agree(wanted.text, found) else f"in the place of `{in_line(found)}`"
                yield f"{self.file}:{line}: {where}\n    " + wanted.told.replace("\n", "\n    ")

    def edits(self, sources: Sources, rows: Sequence[Row]) -> Iterator[Edit]:
        """What makes of the file what the table has, as far as it can be written."""
        whole = sources.text(self.file)
        items = list(self.found(sources, rows))
        there = {item.key: item for item in reversed(items)}
        last: dict[Any, Item] = {}
        done: set[Any] = set()
        for wanted in self.wanted(rows):
            item, alike = there.get(wanted.key), self.alike(wanted.row)
            if item:
                last.update({one: item for one in alike})
            if not is_whole(wanted.told) or item and (item.text == wanted.text or agree(wanted.text, item.text)) or wanted.key in done:
                continue
            done.add(wanted.key)
            if item:
                at = whole.index(item.text, item.begin, item.end)
                yield Edit(at, at + len(item.text), wanted.text)
            elif not self.partial:
                yield self.behind(whole, next((last[one] for one in alike if one in last), None), items, wanted.told)

    def behind(self, whole: str, item: Optional[Item], items: Sequence[Item], told: str) -> Edit:
        """The edit that puts a text behind an item, or first where there is none: in a line of its own, or in the line of a list."""
        if item is None:
            at = line_end(whole, self.bounds(whole)[0])
            return Edit(at, at, "\n" + indented(whole, items[0].begin if items else at, told))
        begin, end = line_begin(whole, item.begin), line_end(whole, item.end)
        if self.long:
            after = next((other.begin for other in items if other.begin > item.begin), None)
            at = line_begin(whole, after) - 1 if after is not None else self.bounds(whole)[1]
            return Edit(at, at, "\n" + indented(whole, item.begin, told))
        beside = [other for other in items if begin <= other.begin < end and other.begin != item.begin]
        if not whole[begin:item.begin].strip() and not beside:
            return Edit(end, end, "\n" + indented(whole, item.begin + len(item.text) - len(item.text.lstrip()), told))
        comma = "," if whole[item.end:item.end + 1] == "," else ""
        told = told.rstrip(",") if comma else told
        space = " " if end - begin + len(told) < LONGEST else "\n" + indented(whole, item.begin, "")
        return Edit(item.end, item.end, comma + space + told)


class Listed(Place):
    """A list in the order of the opcodes, with something in the place of those that no operation has."""

    def __init__(self, file: str, templates: dict[str, Optional[str]], item: str, start: str, blank: str) -> None:
        super().__init__(file, templates, item, start)
        self.blank = blank

    def found(self, sources: Sources, rows: Sequence[Row]) -> Iterator[Item]:
        yield from (item._replace(key=code) for code, item in enumerate(super().found(sources, rows)))

    def wanted(self, rows: Sequence[Row]) -> Iterator[Wanted]:
        told = {code_of(row): (text, row) for row in rows if (text := row.told(self.templates))}
        for code in range(max(told) + 1):
            text, row = told.get(code, (self.blank, None))
            yield Wanted(code, text, text, row)

    def part(self, it: re.Match[str]) -> tuple[Any, str]:
        return None, it["text"]

    def behind(self, whole: str, item: Optional[Item], items: Sequence[Item], told: str) -> Edit:
        """In the list's own way: a line each, or `∷` between them."""
        if item and told.endswith(","):
            return super().behind(whole, item, items, told)
        at = len(whole[:(item or items[-1]).end].rstrip())
        return Edit(at, at, f" ∷ {told}")


def code_of(row: Row) -> int:
    return int(getattr(row, "code"))


class ByOpcode(Place):
    """A function that says something of each opcode, or only of those that operations have."""

    def __init__(self, file: str, templates: dict[str, Optional[str]], name: str, whole: bool = True) -> None:
        super().__init__(file, templates)
        self.name, self.whole = name, whole

    def arms(self, text: str, name: str) -> dict[int, Item]:
        """For each opcode the line and the answer of the arm that it comes to, in a function that this one calls or here."""
        at = re.search(rf"fn {name}\(.*?\n\}}", text, re.S)
        found: dict[int, Item] = {}
        for arm in re.finditer(r"^ {8,12}(0x.*?|_) => (.*?),?$", at[0], re.M) if at else ():
            ranges = [range(int(a, 16), int(b or a, 16) + 1) for a, b in re.findall(r"0x(\w\w)(?:\.\.=0x(\w\w))?", arm[1])] or [range(256)]
            called = re.fullmatch(r"(\w+)\(opcode\)", arm[2])
            into = self.arms(text, called[1]) if called else {}
            begin = (at.start() if at else 0) + arm.start()
            here = Item(None, text.count("\n", 0, begin) + 1, arm[2], begin, begin + len(arm[0]))
            found = {**{code: into.get(code, here) for some in ranges for code in some}, **found}
        return found

    def found(self, sources: Sources, rows: Sequence[Row]) -> Iterator[Item]:
        of = {code_of(row) for row in rows if getattr(row, "variant")}
        arms = self.arms(sources.text(self.file), self.name)
        yield from (item._replace(key=code) for code, item in arms.items() if self.whole or code in of)

    def wanted(self, rows: Sequence[Row]) -> Iterator[Wanted]:
        of = {code_of(row): row for row in rows if self.whole or getattr(row, "variant")}
        for code in range(256) if self.whole else of:
            text = of[code].told(self.templates) if code in of else self.templates["none"]
            yield Wanted(code, text or "", f"0x{code:02x} => {text},", of.get(code))

    def edits(self, sources: Sources, rows: Sequence[Row]) -> Iterator[Edit]:
        """An arm before the one for all others, of each opcode that comes to that one and mustn't."""
        whole = sources.text(self.file)
        there = {item.key: item for item in self.found(sources, rows)}
        for wanted in self.wanted(rows):
            item = there.get(wanted.key)
            if item and not agree(wanted.text, item.text) and whole[item.begin:item.end].lstrip().startswith("_ =>"):
                yield Edit(item.begin, item.begin, indented(whole, item.begin, wanted.told) + "\n")


class Types(Place):
    """Rules of what is taken and left, each of all operations of a kind."""

    def found(self, sources: Sources, rows: Sequence[Row]) -> Iterator[Item]:
        whole, rules = sources.text(self.file), {}
        for it in self.item.finditer(whole):
            both = re.search(r"(?:TakesLeaves|take_and_leave\()\s*(&\[[^]]*]|\([^)]*\)|[^\s,]+),?\s+(&\[[^]]*]|\([^)]*\)|\[\]|[\w.]+)", it["rule"])
            sides = [re.sub(r"type_of_value\(value|type_of v|\w+\.value_type|value_type", "t", side) for side in both.groups()] if both else ["..", ".."]
            sides = [" ".join(re.sub(r"ValType::|\w+\.(?=params|results)|\.as_slice|[][()&,∷]|\+\+", " ", side).lower().split()) for side in sides]
            sides[0] += " i32" * ("pop_known(ValType::I32)" in it["rule"])
            rules[it["key"].replace("_", "").lower()] = whole.count("\n", 0, it.end()) + 1, f"{sides[0].strip()} -> {sides[1]}"
        for row in rows:
            line, rule = rules.get((row.told(self.templates) or "").lower(), (0, None))
            if rule:
                yield Item(row.name, line, re.sub(r"\bt\b", row.of.lower() if row.of in ("I32", "I64") else "t", rule))

    def wanted(self, rows: Sequence[Row]) -> Iterator[Wanted]:
        for row in rows:
            told, types = row.told(self.templates), str(getattr(row, "type"))
            if told:
                yield Wanted(row.name, types, f"{told}: {types}", row)

    def edits(self, sources: Sources, rows: Sequence[Row]) -> Iterator[Edit]:
        """None: a rule of types is a meaning."""
        yield from ()


def write(sources: Sources, rows: Sequence[Row], places: Iterable[Place]) -> None:
    """Changes these texts to what the places have to say, as far as it can be written."""
    for place in places:
        sources.changed[place.file] = edited(sources.text(place.file), place.edits(sources, rows))


def keep(sources: Sources) -> None:
    """Writes the texts that changed into the tree, laid out if that tool is there."""
    files = [file for file, text in sources.changed.items() if text != Sources().text(file)]
    for file in files:
        (TOP / file).write_text(sources.changed[file], encoding="utf-8")
        print(f"{file}: written")
    laid_out = [file for file in files if file.endswith((".rt", ".antt"))]
    if laid_out and shutil.which("rattle"):
        subprocess.run(["rattle", "fmt", "--write", *laid_out], cwd=TOP)
